// SPDX-License-Identifier: Apache-2.0
//! keep_region.c in Rust: pods labelled data-class=personal run in the region eu-central-1 and
//! nowhere else.
//!
//!   rustc --edition 2021 --cfg before_rustc_1_82 --crate-type cdylib --target
//!   wasm32-unknown-unknown -C target-cpu=mvp -C opt-level=2 -C panic=abort -C strip=symbols -C
//!   link-args="--stack-first --max-memory=65536 -zstack-size=4096" -o keep_region_rs.wasm
//!   keep_region.rs
#![no_std]

#[path = "rust-template/src/sched.rs"]
mod sched;

use sched::{is, node3, pod3, PASS, UNSCHEDULABLE_AND_UNRESOLVABLE};

sched::reads_label!("data-class");
sched::reads_label!("topology.kubernetes.io/region");
sched::reason!(3, "pods labelled data-class=personal run in the region eu-central-1 alone");

#[no_mangle]
pub extern "C" fn filter() -> i32 {
    if !pod3().label("data-class").map_or(false, |class| is(class, "personal")) {
        return PASS;
    }
    match node3().label("topology.kubernetes.io/region") {
        Some(region) if is(region, "eu-central-1") => PASS,
        // Whatever pods come and go, the node stays where it is.
        _ => UNSCHEDULABLE_AND_UNRESOLVABLE,
    }
}
