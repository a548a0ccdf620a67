//! The stack figures of the header, the crate's docs and the README are those of
//! `tests/figures`, which `examples/stack.rs` measures. And a stack of 16 KB is
//! enough for the calls that a small caller makes, whatever it lends (`small`).

mod figures;
mod painted;
mod questions;

use figures::STACK;

const HEADER: &str = include_str!("../../../include/seineflute.h");
const CRATE: &str = include_str!("../src/lib.rs");
const README: &str = include_str!("../../../README.md");

/// The part of a text from `first` to the next `last`.
fn part<'a>(text: &'a str, first: &str, last: &str) -> &'a str {
    let (_, rest) = text.split_once(first).expect(first);
    rest.split_once(last).expect(last).0
}

/// The figure that a part gives a call: the number behind its name, with nothing
/// but other calls between.
fn figure(part: &str, call: &str) -> Option<usize> {
    let mut words = part
        .split(|c: char| !c.is_ascii_alphanumeric() && c != '_')
        .filter(|word| !word.is_empty());
    words.find(|&word| word == call)?;
    let is_call = |word: &str| STACK.iter().any(|&(name, _)| name == word);
    words
        .find(|&word| !is_call(word) && word != "and")?
        .parse()
        .ok()
}

/// Fails where a figure of the part is not the table's, and says all of them.
fn hold(title: &str, part: &str) {
    let wrong: Vec<String> = STACK
        .iter()
        .map(|&(call, kb)| (call, kb, figure(part, call)))
        .filter(|&(_, kb, found)| found != Some(kb))
        .map(|(call, kb, found)| match found {
            Some(found) => format!("{call} takes {kb} KB, not {found}"),
            None => format!("{call} takes {kb} KB, and has no figure"),
        })
        .collect();
    assert!(wrong.is_empty(), "{title}: {}", wrong.join("; "));
}

#[test]
fn of_the_header() {
    let part = part(HEADER, "What is asked of the stack", "To follow a listing");
    hold("include/seineflute.h", part);
}

#[test]
fn of_this_crate() {
    let part = part(CRATE, "# What is asked of the stack", "\n\n");
    hold("src/lib.rs", part);
}

#[test]
fn of_the_readme() {
    let part = part(README, "| stack of a call, in KB |", "\n");
    hold("README.md", part);
}

/// A test that cannot fail says nothing: a figure that differs is seen, and one
/// that is left out.
#[test]
fn a_wrong_figure_is_found() {
    let row = "`limits` 2; `read_file`, `one_move` and `check_table` 14; `phase_plan` of 23";
    assert_eq!(figure(row, "limits"), Some(2));
    assert_eq!(figure(row, "read_file"), Some(14));
    assert_eq!(figure(row, "check_table"), Some(14));
    assert_eq!(figure(row, "phase_plan"), None);
    assert_eq!(figure(row, "whole_run"), None);
}

mod small {
    use crate::painted;
    use crate::questions::{self, CALLS};
    use std::hint::black_box;

    /// The whole stack of a small caller, and what a call may take of it, its check
    /// and all below it included; the rest is the caller's own.
    const STACK: usize = 16_384;
    const CALL: usize = 12_288;

    /// What is painted: more than the small stack, so that a call which takes too
    /// much is seen to, and harms nothing.
    const PAINTED: usize = 16 * STACK;

    #[test]
    fn check_slot_and_plan_take_12_kb_of_16() {
        let mut largest = CALLS.map(|(call, _)| (call, 0, String::new()));
        for question in questions::all() {
            let mut ordinary = question.lent.clone();
            (question.make)(&mut ordinary);
            question.hold(ordinary.answer);

            let mut small = question.lent.clone();
            let bytes = painted::depth(PAINTED, question.make, &mut small);
            let name = question.name();
            assert!(
                small == ordinary,
                "{name}: another answer on the painted stack"
            );
            let most = largest.iter_mut().find(|most| most.0 == question.call);
            let most = most.expect("a call");
            if bytes > most.1 {
                *most = (question.call, bytes, name);
            }
        }
        let wrong: Vec<String> = largest
            .into_iter()
            .filter(|&(_, bytes, _)| bytes > CALL)
            .map(|(_, bytes, name)| format!("{name} takes {bytes}"))
            .collect();
        assert!(
            wrong.is_empty(),
            "of a stack of {STACK} bytes a call may take {CALL}: {}",
            wrong.join("; ")
        );
    }

    /// Takes so many bytes of stack, and a few more.
    extern "C" fn take<const BYTES: usize>(calls: &mut usize) {
        black_box(&mut [0u8; BYTES]);
        *calls += 1;
    }

    /// The paint shows all that is taken, and little more.
    #[test]
    fn what_is_taken_is_seen() {
        let mut calls = 0;
        for (bytes, taken) in [
            (0, painted::depth(PAINTED, take::<0>, &mut calls)),
            (CALL, painted::depth(PAINTED, take::<CALL>, &mut calls)),
            (STACK, painted::depth(PAINTED, take::<STACK>, &mut calls)),
        ] {
            assert!((bytes..bytes + 256).contains(&taken), "{taken} for {bytes}");
        }
        assert_eq!(calls, 3);
    }
}
