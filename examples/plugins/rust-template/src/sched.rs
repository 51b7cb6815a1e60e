// SPDX-License-Identifier: Apache-2.0
//! What wsched tells a plugin of a pod and of a node, and what a plugin answers, for plugins in
//! Rust: what sched.h is for C. "Records" in docs/FORMATS.md has the layout that is read here. A
//! plugin has it as a module:
//!
//!     mod sched;
//!     use sched::{node, PASS, UNSCHEDULABLE};
//!
//!     #[unsafe(no_mangle)]
//!     pub extern "C" fn filter() -> i32 {
//!         if node().used_pods() < 50 { PASS } else { UNSCHEDULABLE }
//!     }
//!
//! Nothing here indexes and nothing compares slices by `==`, so that neither the texts of panics
//! nor functions of the compiled core library come along. This crate is one to start from, whose
//! tests `cargo test` runs on this machine.
//!
//! Every edition from 2021 on takes it. Compilers before 1.82 have no `unsafe extern`: they are
//! told `--cfg before_rustc_1_82`.
#![allow(dead_code, unknown_lints, unexpected_cfgs, unused_imports, unused_macros)]

/// What a filter answers; any other number is an error. A score answers 0 to 100.
pub const PASS: i32 = 0;
pub const UNSCHEDULABLE: i32 = 2;
pub const UNSCHEDULABLE_AND_UNRESOLVABLE: i32 = 3;

/// What a rule says of itself beside its code, in custom sections of the module. They cost nothing
/// and are kept when it is stripped.
///
///     // why a node is rejected: for people, where an answer is shown
///     sched::reason!(2, "two pods are there already");
///     // a key that it reads, of a pod or a node; one for each
///     sched::reads_label!("data-class");
///     // it reads none
///     sched::reads_no_label!();
///
/// A row has 32 labels. Of a pod or a node with more, those that the rules name are told first: so
/// a label that a rule reads and doesn't name may be missing. A reason has up to 200 bytes; its
/// code is 2 or 3.
macro_rules! reason {
    (2, $text:literal) => {
        $crate::sched::reason!("wsched.reason.2", $text);
    };
    (3, $text:literal) => {
        $crate::sched::reason!("wsched.reason.3", $text);
    };
    ($section:literal, $text:literal) => {
        const _: () = assert!(!$text.is_empty() && $text.len() <= 200, "a reason has 1 to 200 bytes");
        $crate::sched::section!($section, $text);
    };
}
macro_rules! reads_label {
    ($key:literal) => {
        $crate::sched::section!("wsched.labels", concat!($key, "\n"));
    };
}
macro_rules! reads_no_label {
    () => {
        $crate::sched::section!("wsched.labels", "\n");
    };
}

// A static that is a part of a custom section.
#[cfg(all(target_arch = "wasm32", not(before_rustc_1_82)))]
macro_rules! section {
    ($name:literal, $text:expr) => {
        const _: () = {
            #[used]
            #[unsafe(link_section = $name)]
            static PART: [u8; $text.len()] = $crate::sched::bytes($text);
        };
    };
}
#[cfg(all(target_arch = "wasm32", before_rustc_1_82))]
macro_rules! section {
    ($name:literal, $text:expr) => {
        const _: () = {
            #[used]
            #[link_section = $name]
            static PART: [u8; $text.len()] = $crate::sched::bytes($text);
        };
    };
}
#[cfg(not(target_arch = "wasm32"))]
macro_rules! section {
    ($name:literal, $text:expr) => {};
}
pub(crate) use {reads_label, reads_no_label, reason, section};

pub(crate) const fn bytes<const N: usize>(text: &str) -> [u8; N] {
    let (mut bytes, mut at) = ([0; N], 0);
    while at < N {
        bytes[at] = text.as_bytes()[at];
        at += 1;
    }
    bytes
}

/// The functions by which wsched hands records over.
#[cfg(target_arch = "wasm32")]
mod host {
    use core::ptr::addr_of_mut;
    use core::slice::from_raw_parts;

    pub use core::arch::wasm32::unreachable;

    mod version1 {
        // Each writes its record, where that has at most `limit` bytes, and answers how many it
        // has.
        #[cfg(not(before_rustc_1_82))]
        #[link(wasm_import_module = "sched")]
        unsafe extern "C" {
            pub fn pod(to: *mut u8, limit: usize) -> usize;
            pub fn node(to: *mut u8, limit: usize) -> usize;
        }
        #[cfg(before_rustc_1_82)]
        #[link(wasm_import_module = "sched")]
        extern "C" {
            pub fn pod(to: *mut u8, limit: usize) -> usize;
            pub fn node(to: *mut u8, limit: usize) -> usize;
        }
    }

    mod version2 {
        // The same in version 2.
        #[cfg(not(before_rustc_1_82))]
        #[link(wasm_import_module = "sched2")]
        unsafe extern "C" {
            pub fn pod(to: *mut u8, limit: usize) -> usize;
            pub fn node(to: *mut u8, limit: usize) -> usize;
        }
        #[cfg(before_rustc_1_82)]
        #[link(wasm_import_module = "sched2")]
        extern "C" {
            pub fn pod(to: *mut u8, limit: usize) -> usize;
            pub fn node(to: *mut u8, limit: usize) -> usize;
        }
    }

    mod version3 {
        // Version 2 of a pod without its uid, and of a node of which nothing is used.
        #[cfg(not(before_rustc_1_82))]
        #[link(wasm_import_module = "sched3")]
        unsafe extern "C" {
            pub fn pod(to: *mut u8, limit: usize) -> usize;
            pub fn node(to: *mut u8, limit: usize) -> usize;
        }
        #[cfg(before_rustc_1_82)]
        #[link(wasm_import_module = "sched3")]
        extern "C" {
            pub fn pod(to: *mut u8, limit: usize) -> usize;
            pub fn node(to: *mut u8, limit: usize) -> usize;
        }
    }

    // No record is longer.
    const LIMIT: usize = 8192;
    static mut POD: [u8; LIMIT] = [0; LIMIT];
    static mut NODE: [u8; LIMIT] = [0; LIMIT];

    // A module has one thread, and the record at hand is the same throughout a call.
    pub fn pod(version: u8) -> &'static [u8] {
        unsafe {
            let at = addr_of_mut!(POD).cast::<u8>();
            let size = match version {
                1 => version1::pod(at, LIMIT),
                2 => version2::pod(at, LIMIT),
                _ => version3::pod(at, LIMIT),
            };
            from_raw_parts(at, size)
        }
    }
    pub fn node(version: u8) -> &'static [u8] {
        unsafe {
            let at = addr_of_mut!(NODE).cast::<u8>();
            let size = match version {
                1 => version1::node(at, LIMIT),
                2 => version2::node(at, LIMIT),
                _ => version3::node(at, LIMIT),
            };
            from_raw_parts(at, size)
        }
    }

    #[panic_handler]
    fn panic(_: &core::panic::PanicInfo) -> ! {
        unreachable()
    }
}

/// In a test on this machine, which pod and which node the plugin is asked about: `ask_about` in
/// place of wsched, of each thread for itself. What isn't named is 0 or empty.
///
///     ask_about(&PodRow { labels: &[("app", "web")], ..PodRow::default() }, &NodeRow { used_pods:
///     2, ..NodeRow::default() }); assert_eq!(filter(), PASS);
#[cfg(not(target_arch = "wasm32"))]
pub mod host {
    use std::cell::RefCell;

    type Labels<'a> = &'a [(&'a str, &'a str)];

    #[derive(Clone, Copy, Default)]
    pub struct PodRow<'a> {
        pub uid: &'a str,
        pub priority: i32,
        pub cpu: u64,
        pub memory: u64,
        pub labels: Labels<'a>,
        /// Key, how it compares, value and effect.
        pub tolerations: &'a [(&'a str, u8, &'a str, u8)],
    }

    #[derive(Clone, Copy, Default)]
    pub struct NodeRow<'a> {
        pub name: &'a str,
        pub unschedulable: bool,
        pub cpu: u64,
        pub memory: u64,
        pub pods: u32,
        pub used_cpu: u64,
        pub used_memory: u64,
        pub used_pods: u32,
        pub labels: Labels<'a>,
        /// Key, value and effect.
        pub taints: &'a [(&'a str, &'a str, u8)],
    }

    // Each without its version and what version 2 has besides, and that.
    #[derive(Clone, Default)]
    struct Record(Vec<u8>, Vec<u8>);

    std::thread_local! {
        // Of the pod and the node, and of both as version 3 tells them.
        static ROWS: RefCell<[Record; 4]> = RefCell::default();
    }

    pub fn ask_about(pod: &PodRow, node: &NodeRow) {
        let alike = PodRow { uid: "", ..*pod };
        let unused = NodeRow { used_cpu: 0, used_memory: 0, used_pods: 0, ..*node };
        ROWS.with(|rows| *rows.borrow_mut() = [record_of_pod(pod), record_of_node(node), record_of_pod(&alike), record_of_node(&unused)]);
    }

    fn record_of_pod(pod: &PodRow) -> Record {
        let mut of_pod = Record(vec![1], count(pod.tolerations.len(), 16));
        of_pod.0.extend(text(pod.uid));
        of_pod.0.extend(pod.priority.to_le_bytes());
        of_pod.0.extend(pod.cpu.to_le_bytes());
        of_pod.0.extend(pod.memory.to_le_bytes());
        of_pod.0.extend(labels(pod.labels));
        for &(key, compares, value, effect) in pod.tolerations {
            of_pod.1.extend(text(key));
            of_pod.1.push(compares);
            of_pod.1.extend(text(value));
            of_pod.1.push(effect);
        }
        of_pod
    }

    fn record_of_node(node: &NodeRow) -> Record {
        let mut of_node = Record(vec![2], count(node.taints.len(), 8));
        of_node.0.extend(text(node.name));
        of_node.0.push(node.unschedulable.into());
        for (cpu, memory, pods) in [(node.cpu, node.memory, node.pods), (node.used_cpu, node.used_memory, node.used_pods)] {
            of_node.0.extend(cpu.to_le_bytes());
            of_node.0.extend(memory.to_le_bytes());
            of_node.0.extend(pods.to_le_bytes());
        }
        of_node.0.extend(labels(node.labels));
        for &(key, value, effect) in node.taints {
            of_node.1.extend(text(key));
            of_node.1.extend(text(value));
            of_node.1.push(effect);
        }
        of_node
    }

    fn count(items: usize, most: usize) -> Vec<u8> {
        assert!(items <= most, "a row has at most {most} of these, and not {items}");
        vec![items as u8]
    }

    fn text(it: &str) -> Vec<u8> {
        assert!(it.len() <= 63, "a text has at most 63 bytes: {it}");
        [&[it.len() as u8], it.as_bytes()].concat()
    }

    // In rising order of their keys' bytes.
    fn labels(some: Labels) -> Vec<u8> {
        let mut sorted = some.to_vec();
        sorted.sort();
        let mut bytes = count(sorted.len(), 32);
        sorted.iter().for_each(|(key, value)| bytes.extend([text(key), text(value)].concat()));
        bytes
    }

    // (a test's records are never given back)
    fn record(kind: usize, version: u8) -> &'static [u8] {
        let at = if version == 3 { kind + 2 } else { kind };
        let Record(both, more) = ROWS.with(|rows| rows.borrow()[at].clone());
        assert!(!both.is_empty(), "ask_about says which pod and node");
        [vec![version], both, if version > 1 { more } else { Vec::new() }].concat().leak()
    }
    pub(super) fn pod(version: u8) -> &'static [u8] {
        record(0, version)
    }
    pub(super) fn node(version: u8) -> &'static [u8] {
        record(1, version)
    }

    pub(super) fn unreachable() -> ! {
        panic!("a trap")
    }
}

use host::unreachable;

/// A pod's record.
#[derive(Clone, Copy)]
pub struct Pod(&'static [u8]);

/// A node's record.
#[derive(Clone, Copy)]
pub struct Node(&'static [u8]);

/// The pod that is being decided on.
pub fn pod() -> Pod {
    Pod(of_version(1, host::pod(1)))
}

/// The node that is asked about.
pub fn node() -> Node {
    Node(of_version(1, host::node(1)))
}

/// The same pod in version 2, which has its tolerations as well. A module imports what it calls: a
/// plugin that asks for version 1 alone has nothing of version 2.
pub fn pod2() -> Pod {
    Pod(of_version(2, host::pod(2)))
}

/// The same node in version 2, which has its taints as well.
pub fn node2() -> Node {
    Node(of_version(2, host::node(2)))
}

/// The same pod in version 3, which is version 2 without the uid: what many pods share. What a rule
/// answers by it and by `node3` alone is kept for all pods that are alike, so a site asks it
/// seldom.
pub fn pod3() -> Pod {
    Pod(of_version(3, host::pod(3)))
}

/// The same node in version 3, which is version 2 with nothing used: what stays of a node while
/// pods come and go.
pub fn node3() -> Node {
    Node(of_version(3, host::node(3)))
}

// A layout of another version would be misread, so it traps; so does a record that ends too early.
fn of_version(version: u8, record: &'static [u8]) -> &'static [u8] {
    if record.first() != Some(&version) {
        unreachable()
    }
    record
}

fn there<T>(part: Option<T>) -> T {
    match part {
        Some(it) => it,
        None => unreachable(),
    }
}

// A text is its length in one byte and its bytes: the text in front, and what stands behind it.
fn text(bytes: &'static [u8]) -> Option<(&'static [u8], &'static [u8])> {
    let (&length, rest) = bytes.split_first()?;
    Some((rest.get(..length.into())?, rest.get(length.into()..)?))
}

// The uid or the name, and the fields behind it.
fn parts(record: &'static [u8]) -> (&'static [u8], &'static [u8]) {
    there(record.get(2..).and_then(text))
}

// Numbers have their lowest byte first.
fn number(record: &'static [u8], at: usize, size: usize) -> u64 {
    let mut n = 0;
    for &byte in there(parts(record).1.get(at..at + size)).iter().rev() {
        n = n << 8 | u64::from(byte);
    }
    n
}

/// Labels, one after the other in rising order of their keys' bytes: key and value.
pub struct Labels(u8, &'static [u8]);

impl Iterator for Labels {
    type Item = (&'static [u8], &'static [u8]);
    fn next(&mut self) -> Option<Self::Item> {
        self.0 = self.0.checked_sub(1)?;
        let (key, rest) = there(text(self.1));
        let (value, rest) = there(text(rest));
        self.1 = rest;
        Some((key, value))
    }
}

// So many bytes stand between the uid or the name and the labels.
fn labels(record: &'static [u8], between: usize) -> Labels {
    let (&count, items) = there(there(parts(record).1.get(between..)).split_first());
    Labels(count, items)
}

// The value of the label with this key.
#[inline(always)]
fn label(record: &'static [u8], between: usize, key: &str) -> Option<&'static [u8]> {
    labels(record, between).find(|(name, _)| is(name, key)).map(|(_, value)| value)
}

// Whether a key is `/cfg/` and this name.
#[inline(always)]
fn is_setting(key: &[u8], name: &str) -> Option<bool> {
    Some(key.len() == 5 + name.len() && is(key.get(5..)?, name) && is(key.get(..5)?, "/cfg/"))
}

// The list behind the labels, as how many there are and the items. Version 1 has none, so it traps
// there.
fn behind(record: &'static [u8], between: usize) -> (u8, &'static [u8]) {
    // Version 1 has no such list.
    if record.first() == Some(&1) {
        unreachable()
    }
    there(items(record, between))
}

fn items(record: &'static [u8], between: usize) -> Option<(u8, &'static [u8])> {
    let (&count, mut rest) = parts(record).1.get(between..)?.split_first()?;
    for _ in 0..2 * u32::from(count) {
        rest = text(rest)?.1;
    }
    let (&count, items) = rest.split_first()?;
    Some((count, items))
}

/// What a taint does. A toleration has 0 where it has no effect, which stands for every effect.
pub const NO_SCHEDULE: u8 = 1;
pub const PREFER_NO_SCHEDULE: u8 = 2;
pub const NO_EXECUTE: u8 = 3;

/// How a toleration compares: the values are equal, or every value will do.
pub const EQUAL: u8 = 1;
pub const EXISTS: u8 = 2;

/// A node's taint.
#[derive(Clone, Copy)]
pub struct Taint {
    pub key: &'static [u8],
    pub value: &'static [u8],
    pub effect: u8,
}

/// A pod's toleration.
#[derive(Clone, Copy)]
pub struct Toleration {
    pub key: &'static [u8],
    pub compares: u8,
    pub value: &'static [u8],
    pub effect: u8,
}

/// A node's taints, one after the other in the order of the row.
pub struct Taints(u8, &'static [u8]);

impl Iterator for Taints {
    type Item = Taint;
    fn next(&mut self) -> Option<Taint> {
        self.0 = self.0.checked_sub(1)?;
        let (key, rest) = there(text(self.1));
        let (value, rest) = there(text(rest));
        let (&effect, rest) = there(rest.split_first());
        self.1 = rest;
        Some(Taint { key, value, effect })
    }
}

/// A pod's tolerations, likewise.
pub struct Tolerations(u8, &'static [u8]);

impl Iterator for Tolerations {
    type Item = Toleration;
    fn next(&mut self) -> Option<Toleration> {
        self.0 = self.0.checked_sub(1)?;
        let (key, rest) = there(text(self.1));
        let (&compares, rest) = there(rest.split_first());
        let (value, rest) = there(text(rest));
        let (&effect, rest) = there(rest.split_first());
        self.1 = rest;
        Some(Toleration { key, compares, value, effect })
    }
}

/// Whether a text is this word.
#[inline(always)]
pub fn is(text: &[u8], word: &str) -> bool {
    same(text, word.as_bytes())
}

/// Whether two texts are the same: of one length, and then eight bytes at once, the last of them
/// first, since keys are long and begin alike. (By `==` the compiled core library would be called.)
#[inline(always)]
pub fn same(a: &[u8], b: &[u8]) -> bool {
    if a.len() != b.len() {
        return false;
    }
    match (first(a), first(b)) {
        (Some(front), Some(other)) => a.rchunks_exact(8).zip(b.rchunks_exact(8)).all(|(a, b)| first(a) == first(b)) && front == other,
        _ => a.iter().zip(b).all(|(a, b)| a == b),
    }
}

// The first eight bytes as a number.
#[inline(always)]
fn first(bytes: &[u8]) -> Option<u64> {
    bytes.get(..8)?.try_into().ok().map(u64::from_le_bytes)
}

/// CPU is in thousandths of a core, memory in bytes.
impl Pod {
    pub fn uid(self) -> &'static [u8] {
        parts(self.0).0
    }
    pub fn priority(self) -> i32 {
        number(self.0, 0, 4) as i32
    }
    pub fn cpu(self) -> u64 {
        number(self.0, 4, 8)
    }
    pub fn memory(self) -> u64 {
        number(self.0, 12, 8)
    }
    #[inline(always)]
    pub fn label(self, key: &str) -> Option<&'static [u8]> {
        label(self.0, 20, key)
    }
    pub fn labels(self) -> Labels {
        labels(self.0, 20)
    }
    /// Those of a pod that `pod2` or `pod3` gave.
    pub fn tolerations(self) -> Tolerations {
        let (count, items) = behind(self.0, 20);
        Tolerations(count, items)
    }
    /// Whether it tolerates a taint, as Kubernetes has it: one of its tolerations has the taint's
    /// key, or none and takes every value; it takes every value or has the taint's; and it has the
    /// taint's effect or none.
    pub fn tolerates(self, taint: Taint) -> bool {
        self.tolerations().any(|own| {
            let any = own.compares == EXISTS;
            (same(own.key, taint.key) || any && own.key.is_empty())
                && (any || same(own.value, taint.value))
                && (own.effect == 0 || own.effect == taint.effect)
        })
    }
}

/// CPU is in thousandths of a core, memory in bytes. Used is what the pods there ask for, without
/// the pod in question.
impl Node {
    pub fn name(self) -> &'static [u8] {
        parts(self.0).0
    }
    pub fn unschedulable(self) -> bool {
        number(self.0, 0, 1) != 0
    }
    pub fn cpu(self) -> u64 {
        number(self.0, 1, 8)
    }
    pub fn memory(self) -> u64 {
        number(self.0, 9, 8)
    }
    pub fn pods(self) -> u64 {
        number(self.0, 17, 4)
    }
    pub fn used_cpu(self) -> u64 {
        number(self.0, 21, 8)
    }
    pub fn used_memory(self) -> u64 {
        number(self.0, 29, 8)
    }
    pub fn used_pods(self) -> u64 {
        number(self.0, 37, 4)
    }
    #[inline(always)]
    pub fn label(self, key: &str) -> Option<&'static [u8]> {
        label(self.0, 41, key)
    }
    pub fn labels(self) -> Labels {
        labels(self.0, 41)
    }
    /// A site's setting, which the script tells as the node's label `/cfg/NAME`.
    #[inline(always)]
    pub fn setting(self, name: &str) -> Option<&'static [u8]> {
        self.labels().find(|(key, _)| is_setting(key, name).unwrap_or(false)).map(|(_, value)| value)
    }
    /// A setting that is a number in digits alone, at most 2^63 - 1, and `otherwise` where there is
    /// none. A text that is no such number traps: a slip of the site's must not pass for a setting.
    #[inline(always)]
    pub fn setting_number(self, name: &str, otherwise: u64) -> u64 {
        let digits = match self.setting(name) {
            Some(digits) => digits,
            None => return otherwise,
        };
        let mut number = 0u64;
        for &byte in digits {
            let digit = there(byte.checked_sub(b'0').filter(|digit| *digit <= 9));
            number =
                there(number.checked_mul(10).and_then(|it| it.checked_add(digit.into())).filter(|it| *it <= i64::MAX as u64));
        }
        if digits.is_empty() { unreachable() } else { number }
    }
    /// Those of a node that `node2` or `node3` gave.
    pub fn taints(self) -> Taints {
        let (count, items) = behind(self.0, 41);
        Taints(count, items)
    }
}
