//! The words and the version of the C header are those of this crate.

use seineflute::Refusal;
use std::error::Error;

const HEADER: &str = include_str!("../../../include/seineflute.h");

/// The number that the header gives a name in an enum.
fn number(name: &str) -> usize {
    let line = HEADER
        .lines()
        .find_map(|line| line.trim().strip_prefix(name)?.strip_prefix(" = "))
        .expect(name);
    let end = line.find(|c: char| !c.is_ascii_digit());
    line[..end.unwrap_or(line.len())].parse().expect(name)
}

/// What the header's macro stands for.
fn macro_of(name: &str) -> &'static str {
    let define = format!("#define {name} ");
    let mut found = HEADER.lines().filter_map(|line| line.strip_prefix(&define));
    let value = found.next().expect(name);
    assert_eq!(found.next(), None, "{name} stands twice");
    value
}

/// The lines `LABEL: return "WORDS";` of the header, as labels and words.
fn returned() -> Vec<(&'static str, &'static str)> {
    HEADER
        .lines()
        .filter_map(|line| {
            let (label, rest) = line.trim().split_once(": return \"")?;
            Some((label, rest.strip_suffix("\";")?))
        })
        .collect()
}

#[test]
fn the_header_has_the_same_words() {
    let mut found = returned();
    assert_eq!(found.pop(), Some(("default", "no such number")));
    assert_eq!(found.len(), 1 + Refusal::ALL.len());
    for (i, (label, words)) in found.into_iter().enumerate() {
        let name = label.strip_prefix("case ").expect(label);
        assert_eq!(number(name), i, "{name}");
        let here = Refusal::from_number(i, 0).map_or("done", Refusal::words);
        assert_eq!(words, here, "{name}");
    }
}

#[test]
fn the_header_has_the_same_version() {
    let version = macro_of("SEINEFLUTE_VERSION");
    assert_eq!(version, format!("\"{}\"", env!("CARGO_PKG_VERSION")));
    let parts = ["MAJOR", "MINOR", "PATCH"].map(|x| macro_of(&format!("SEINEFLUTE_VERSION_{x}")));
    let here = [
        env!("CARGO_PKG_VERSION_MAJOR"),
        env!("CARGO_PKG_VERSION_MINOR"),
        env!("CARGO_PKG_VERSION_PATCH"),
    ];
    assert_eq!(parts, here);
}

/// The words that are printed: where a refusal has a place, those of "an entry" with
/// the entry that it is; and no others speak of one.
fn printed(refusal: Refusal) -> String {
    let words = refusal.words();
    match (refusal.place(), words.strip_prefix("an entry ")) {
        (Some(place), Some(rest)) => format!("entry {place} {rest}"),
        (None, None) => words.to_string(),
        _ => panic!("{words}: a place and no entry, or an entry and no place"),
    }
}

/// What a `main` prints that gives a refusal back: its number and its words.
#[test]
fn refusals_say_what_is_wrong() {
    for number in 1..=Refusal::ALL.len() {
        for place in [0, 17, 4_095] {
            let refusal = Refusal::from_number(number, place).unwrap();
            let said = format!("{number}: {}", printed(refusal));
            assert_eq!(refusal.to_string(), said);
            assert_eq!(format!("{refusal:?}"), said);
            let error: Box<dyn Error> = refusal.into();
            assert_eq!(format!("{error:?}"), said);
        }
    }
    let bad = Refusal::BadEntry(17).to_string();
    assert_eq!(bad, "5: entry 17 is neither free nor a user slot");
    let twice = Refusal::NamedTwice(17).to_string();
    assert_eq!(twice, "6: entry 17 repeats an earlier one");
}
