//! The vectors, made by an implementation in another language: every line of the
//! files `CALLS`, and every pair `NNNN.in`, `NNNN.out` of the folders `LISTINGS`.
//!
//! `VECTORS` names another directory of the same shape.
//!
//! They stand as they were made. Since 0.4.0, which `q02.jsonl`, `shelve-after-2` and
//! those made later know, 5 and 6 have a place, and what was 14 is 20 where a number
//! has more than three groups: of the older ones no place of 5 and 6 is asked for, and
//! for 14 they are held to the number that the file's bytes now have (`since_q02`).

#[path = "../benches/engine.rs"]
mod engine;
mod json;
mod mover;
mod plain;

use json::Value;
use mover::{Answer, Engine, FileAnswer, Mover, Plain, Proved, SizeAnswer, SlotAnswer};
use std::fs;
use std::path::PathBuf;

#[test]
fn the_proved_library_gives_the_vectors() {
    run_calls(&Proved);
    run_shelve(&Proved);
}

#[test]
fn plain_gives_the_vectors() {
    run_calls(&Plain);
    run_shelve(&Plain);
}

#[test]
fn engine_gives_the_vectors() {
    run_calls(&Engine);
    run_shelve(&Engine);
}

fn vectors() -> PathBuf {
    match std::env::var_os("VECTORS") {
        Some(directory) => PathBuf::from(directory),
        None => PathBuf::from(env!("CARGO_MANIFEST_DIR")).join("tests/data"),
    }
}

/// The calls of the base, and those of each request that has landed.
const CALLS: [&str; 4] = ["calls.jsonl", "q01.jsonl", "q02.jsonl", "q03.jsonl"];

/// Those that were made before 0.4.0.
const OLDER: [&str; 2] = ["calls.jsonl", "q01.jsonl"];

/// The listings of the base, and those of each request that changed some.
const LISTINGS: [&str; 2] = ["shelve", "shelve-after-2"];

fn run_calls(mover: &impl Mover) {
    for name in CALLS {
        run_lines(mover, name);
    }
}

fn run_lines(mover: &impl Mover, name: &str) {
    let text = fs::read_to_string(vectors().join(name)).expect(name);
    let mut wrong = Vec::new();
    let mut lines = 0;
    for (index, line) in text.lines().enumerate() {
        lines += 1;
        let at = format!("{name}, line {}", index + 1);
        let value = json::parse(line).unwrap_or_else(|error| panic!("{at}: {error}"));
        let vector = Vector { at, value };
        // They have no place: a newer line without one is at fault.
        assert_eq!(vector.is_older(), OLDER.contains(&name), "{}", vector.at);
        if let Err(what) = vector.run(mover) {
            wrong.push(format!("{}: {what}\n  {line}", vector.at));
        }
    }
    assert!(lines > 0, "{name}: no vectors");
    assert!(
        wrong.is_empty(),
        "{name}: {} of {lines} lines differ\n{}",
        wrong.len(),
        wrong.join("\n")
    );
    println!("{name}: {lines} calls agree");
}

/// One line of a file of calls, and where it stands.
struct Vector {
    at: String,
    value: Value,
}

impl Vector {
    fn field(&self, name: &str) -> &Value {
        self.value
            .get(name)
            .unwrap_or_else(|| panic!("{}: no {name}", self.at))
    }

    fn expected(&self, name: &str) -> &Value {
        self.field("expect")
            .get(name)
            .unwrap_or_else(|| panic!("{}: no expect {name}", self.at))
    }

    fn size(&self, value: &Value) -> usize {
        let number = value
            .number()
            .unwrap_or_else(|| panic!("{}: not a number", self.at));
        usize::try_from(number).expect("a usize of 64 bits")
    }

    fn list(&self, value: &Value) -> Vec<u16> {
        let items = value
            .list()
            .unwrap_or_else(|| panic!("{}: not a list", self.at));
        items
            .iter()
            .map(|item| u16::try_from(self.size(item)).expect("16 bits"))
            .collect()
    }

    fn bytes(&self, value: &Value) -> Vec<u8> {
        let text = value
            .text()
            .unwrap_or_else(|| panic!("{}: not a string", self.at));
        assert!(text.len().is_multiple_of(2), "{}: half a byte", self.at);
        (0..text.len())
            .step_by(2)
            .map(|at| u8::from_str_radix(&text[at..at + 2], 16).expect("hex"))
            .collect()
    }

    /// Whether it was made before 0.4.0.
    fn is_older(&self) -> bool {
        self.field("expect").get("place").is_none()
    }

    fn number(&self) -> usize {
        let number = self.size(self.expected("number"));
        match self.value.get("file") {
            Some(file) if self.is_older() => since_q02(number, &self.bytes(file)),
            _ => number,
        }
    }

    /// The place; that which was given where an older vector cannot say it.
    fn place(&self, given: usize) -> usize {
        if !self.is_older() {
            self.size(self.expected("place"))
        } else if matches!(self.number(), 5 | 6) {
            given
        } else {
            0
        }
    }

    /// The number, the place and the counts that every call gives; `place` is the one
    /// that was given.
    fn answer(&self, place: usize) -> Answer {
        Answer {
            number: self.number(),
            place: self.place(place),
            phases: self.size(self.expected("phases")),
            moves: self.size(self.expected("moves")),
            copies: self.size(self.expected("copies")),
        }
    }

    fn run(&self, mover: &impl Mover) -> Result<(), String> {
        match self.field("call").text() {
            Some("table check") => {
                let (caps, places) = self.table();
                let given = mover.check_table(&caps, &places);
                same("answer", &given, &self.answer(given.place))
            }
            Some("slot question") => self.run_slot_question(mover),
            Some("phase plan") => {
                self.run_list(|caps, places, list| mover.phase_plan(caps, places, list))
            }
            Some("copy list") => {
                self.run_list(|caps, places, list| mover.copy_list(caps, places, list))
            }
            Some("one move") => self.run_cards(|caps, b, places, cards| {
                let from = self.size(self.field("source"));
                let to = self.size(self.field("target"));
                mover.one_move(caps, b, places, cards, from, to)
            }),
            Some("budgeted moves") => self.run_cards(|caps, b, places, cards| {
                mover.budgeted_moves(caps, b, places, cards, self.size(self.field("k")))
            }),
            Some("shuffle") => {
                self.run_cards(|caps, b, places, cards| mover.shuffle_cards(caps, b, places, cards))
            }
            Some("whole run") => {
                self.run_cards(|caps, b, places, cards| mover.whole_run(caps, b, places, cards))
            }
            Some("job file") => self.run_job_file(mover),
            Some("write file") => self.run_write_file(mover),
            _ => Err("unknown call".to_string()),
        }
    }

    fn table(&self) -> (Vec<u16>, Vec<u16>) {
        (
            self.list(self.field("capacities")),
            self.list(self.field("places")),
        )
    }

    fn run_slot_question(&self, mover: &impl Mover) -> Result<(), String> {
        let (caps, places) = self.table();
        let given = mover.slot_question(&caps, &places, self.size(self.field("slot")));
        let Answer {
            number,
            place,
            phases,
            moves,
            copies,
        } = self.answer(given.place);
        let part = |name: &str| {
            self.expected("slot")
                .get(name)
                .unwrap_or_else(|| panic!("{}: no slot {name}", self.at))
        };
        let index = |name: &str, words: &[&str]| {
            words
                .iter()
                .position(|&word| part(name).text() == Some(word))
                .unwrap_or_else(|| panic!("{}: unknown {name}", self.at))
        };
        let expected = SlotAnswer {
            number,
            place,
            phases,
            moves,
            copies,
            kind: index("kind", &["none", "user", "spare"]),
            state: index("state", &["none", "free", "settled", "unsettled", "away"]),
            rack: self.size(part("rack")),
        };
        same("answer", &given, &expected)
    }

    fn run_list(&self, call: impl Fn(&[u16], &[u16], &mut [u16]) -> Answer) -> Result<(), String> {
        let (caps, places) = self.table();
        let mut list = self.list(self.field("lent"));
        let given = call(&caps, &places, &mut list);
        same("answer", &given, &self.answer(given.place))?;
        same("lent", &list, &self.list(self.expected("lent")))
    }

    fn run_cards(
        &self,
        call: impl Fn(&[u16], usize, &mut [u16], &mut [u8]) -> Answer,
    ) -> Result<(), String> {
        let (caps, mut places) = self.table();
        let mut cards = self.bytes(self.field("cards"));
        let given = call(&caps, self.size(self.field("B")), &mut places, &mut cards);
        same("answer", &given, &self.answer(given.place))?;
        same("places", &places, &self.list(self.expected("places")))?;
        same("cards", &cards, &self.bytes(self.expected("cards")))
    }

    fn run_job_file(&self, mover: &impl Mover) -> Result<(), String> {
        let (mut caps, mut places) = self.table();
        let file = self.bytes(self.field("file"));
        let given = mover.read_file(&file, &mut caps, &mut places);
        let Answer {
            number,
            place,
            phases,
            moves,
            copies,
        } = self.answer(given.place);
        let expected_bytes = self.bytes(self.expected("card_bytes"));
        let expected = FileAnswer {
            number,
            place,
            phases,
            moves,
            copies,
            racks: self.size(self.expected("N")),
            bytes: self.size(self.expected("B")),
            slots: self.size(self.expected("S")),
            // The card bytes are the end of the file.
            start: if number == 0 {
                file.len() - expected_bytes.len()
            } else {
                0
            },
        };
        same("answer", &given, &expected)?;
        same("capacities", &caps, &self.list(self.expected("capacities")))?;
        same("places", &places, &self.list(self.expected("places")))?;
        let part = given.start..given.start + given.slots * given.bytes;
        same("card bytes", &file[part].to_vec(), &expected_bytes)
    }

    fn run_write_file(&self, mover: &impl Mover) -> Result<(), String> {
        let (caps, places) = self.table();
        let b = self.size(self.field("B"));
        let cards = self.bytes(self.field("cards"));
        let mut out = self.bytes(self.field("buffer"));
        let given = mover.write_file(&caps, b, &places, &cards, &mut out);
        let Answer {
            number,
            place,
            phases,
            moves,
            copies,
        } = self.answer(given.place);
        let expected = SizeAnswer {
            number,
            place,
            phases,
            moves,
            copies,
            size: self.size(self.expected("length")),
        };
        same("answer", &given, &expected)?;
        same("buffer", &out, &self.bytes(self.expected("buffer")))
    }
}

fn same<T: PartialEq + std::fmt::Debug>(what: &str, given: &T, expected: &T) -> Result<(), String> {
    if given == expected {
        Ok(())
    } else {
        Err(format!("{what}: given {given:?}, expected {expected:?}"))
    }
}

/// The number, since 0.4.0, of a file that older vectors refuse with this one.
fn since_q02(number: usize, file: &[u8]) -> usize {
    if number == 14 && has_too_many_groups(file) {
        20
    } else {
        number
    }
}

/// Of the first number of a file that is not as it should be: whether it has more than
/// three groups, and is not padded.
fn has_too_many_groups(file: &[u8]) -> bool {
    let mut groups = 0;
    for &byte in file {
        groups += 1;
        let (last, padding) = (byte < 0x80, byte == 0 && groups > 1);
        if padding || (!last && groups == 3) {
            return !padding;
        }
        if last {
            groups = 0;
        }
    }
    false
}

fn run_shelve(mover: &impl Mover) {
    for name in LISTINGS {
        run_listings(mover, name);
    }
}

fn run_listings(mover: &impl Mover, name: &str) {
    let mut jobs = 0;
    let mut wrong = Vec::new();
    for entry in fs::read_dir(vectors().join(name)).expect(name) {
        let input = entry.expect("a file").path();
        if input.extension().is_none_or(|extension| extension != "in") {
            continue;
        }
        jobs += 1;
        let file = fs::read(&input).expect("a job file");
        let mut expected = fs::read(input.with_extension("out")).expect("a listing");
        if name == "shelve" && expected == refusal(14) {
            expected = refusal(since_q02(14, &file));
        }
        if let Err(what) = run_listing(mover, &file, &expected) {
            wrong.push(format!("{}: {what}", input.display()));
        }
    }
    assert!(jobs > 0, "{name}: no jobs");
    assert!(
        wrong.is_empty(),
        "{name}: {} of {jobs} listings differ\n{}",
        wrong.len(),
        wrong.join("\n")
    );
    println!("{name}: {jobs} listings agree");
}

/// The text of a file that is refused.
fn refusal(number: usize) -> Vec<u8> {
    format!("refused {number}\n").into_bytes()
}

/// The listing into a buffer that is longer, exact, and one byte too short.
fn run_listing(mover: &impl Mover, file: &[u8], expected: &[u8]) -> Result<(), String> {
    const OLD: u8 = 0xa5;
    let fits = SizeAnswer {
        size: expected.len(),
        ..SizeAnswer::default()
    };
    let too_short = SizeAnswer {
        number: 13,
        ..SizeAnswer::default()
    };
    for (length, answer) in [
        (expected.len() + 9, fits),
        (expected.len(), fits),
        (expected.len() - 1, too_short),
    ] {
        let mut out = vec![OLD; length];
        same("answer", &mover.list_job(file, &mut out), &answer)?;
        let (text, rest) = out.split_at(answer.size);
        if text != &expected[..answer.size] {
            return Err(format!(
                "given {}, expected {}",
                String::from_utf8_lossy(text),
                String::from_utf8_lossy(expected)
            ));
        }
        if rest.iter().any(|&byte| byte != OLD) {
            return Err("the buffer changed behind the text".to_string());
        }
    }
    Ok(())
}
