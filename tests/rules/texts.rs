// SPDX-License-Identifier: Apache-2.0
//! Texts that are compared by eight bytes at once, beside slices as std compares them: of each
//! length, with a change at each place.
#[path = "../../examples/plugins/rust-template/src/sched.rs"]
mod sched;

use sched::host::{ask_about, NodeRow, PodRow};
use sched::{is, node, same};

#[test]
fn texts_of_each_length() {
    for size in 0..=63usize {
        let text: String = (0..size).map(|at| char::from(b'a' + (at % 26) as u8)).collect();
        assert!(is(text.as_bytes(), &text));
        for at in 0..size {
            let mut other = text.clone().into_bytes();
            other[at] ^= 1;
            assert!(!same(text.as_bytes(), &other) && !same(&other, text.as_bytes()));
        }
        for other in 0..size {
            assert!(!same(text.as_bytes(), &text.as_bytes()[..other]) && !is(&text.as_bytes()[..other], &text));
        }
    }
}

#[test]
fn settings_by_their_names() {
    let labels = [("/aaa/few", "0"), ("/cfg", "0"), ("/cfg/fee", "4"), ("/cfg/few", "2"), ("/cfg/few.limit", "20"), ("cfg/few", "3")];
    ask_about(&PodRow::default(), &NodeRow { name: "a", labels: &labels, ..NodeRow::default() });
    assert_eq!(node().setting("few"), Some(&b"2"[..]));
    assert_eq!(node().setting_number("few.limit", 7), 20);
    assert_eq!(node().setting_number("limit", 7), 7);
    assert_eq!(node().setting("fe").or(node().setting("few.")), None);
}
