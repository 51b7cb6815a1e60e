// SPDX-License-Identifier: Apache-2.0
//! A filter: at most as many pods on a node as the site's setting `few_pods.limit` says, or two.
#![cfg_attr(target_arch = "wasm32", no_std)]

mod sched;

use sched::{Node, PASS, UNSCHEDULABLE, node};

sched::reads_no_label!();
sched::reason!(2, "as many pods are there as may be");

#[unsafe(no_mangle)]
pub extern "C" fn filter() -> i32 {
    rule(node())
}

fn rule(node: Node) -> i32 {
    if node.used_pods() < node.setting_number("few_pods.limit", 2) { PASS } else { UNSCHEDULABLE }
}

#[cfg(test)]
mod tests {
    use super::rule;
    use super::sched::host::{NodeRow, PodRow, ask_about};
    use super::sched::{PASS, UNSCHEDULABLE, node};

    fn answer(used_pods: u32, settings: &[(&str, &str)]) -> i32 {
        ask_about(&PodRow::default(), &NodeRow { used_pods, labels: settings, ..NodeRow::default() });
        rule(node())
    }

    #[test]
    fn two_pods_where_nothing_is_set() {
        assert_eq!(answer(1, &[]), PASS);
        assert_eq!(answer(2, &[("app", "web")]), UNSCHEDULABLE);
    }

    #[test]
    fn as_many_as_the_site_says() {
        let settings = [("/cfg/few_pods.limit", "20"), ("zone", "a")];
        assert_eq!(answer(19, &settings), PASS);
        assert_eq!(answer(20, &settings), UNSCHEDULABLE);
    }

    #[test]
    #[should_panic(expected = "a trap")]
    fn a_setting_that_is_no_number() {
        answer(0, &[("/cfg/few_pods.limit", "many")]);
    }
}
