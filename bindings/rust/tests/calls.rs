//! The paper cards through the safe calls; of case 8 the numbers that are refused.

use seineflute::{
    budgeted_moves, check_table, copy_list, file_of, list_job, one_move, phase_plan, raw,
    read_file, shuffle_cards, slot_question, whole_run, write_file, Counts, JobFile, Kind, Refusal,
    Slot, State, COPY_ROOM, FREE, HAND, MAX_BYTES, MAX_FILE, MAX_RACKS, MAX_SLOTS, PLAN_ROOM,
    TEXT_ROOM, WRITE_ROOM,
};

/// Case 1: capacities, places, cards and the file of 21 bytes.
const CAPS: [u16; 3] = [2, 2, 1];
const PLACES: [u16; 8] = [3, 4, FREE, 0, 6, FREE, 1, FREE];
const CARDS: [u8; 8] = *b"AB\0CD\0E\0";
const FILE: [u8; 21] = *b"\x03\x01\x02\x02\x01\x04\x05\x00\x01\x07\x00\x02\x00AB\0CD\0E\0";

/// Case 3.
const CYCLE: ([u16; 1], [u16; 3]) = ([2], [1, 0, FREE]);

/// Cases 4 and 5.
const TWO: [u16; 2] = [1, 1];
const CASE4: [u16; 4] = [2, FREE, 0, FREE];
const CASE5: [u16; 4] = [2, 0, FREE, FREE];

fn counts(phases: usize, moves: usize, copies: usize) -> Counts {
    Counts {
        phases,
        moves,
        copies,
    }
}

/// The pairs of a phase plan, and that the rest of the list is unchanged.
fn plan(caps: &[u16], places: &[u16]) -> Vec<(u16, u16)> {
    let mut list = [7; PLAN_ROOM];
    let found = phase_plan(caps, places, &mut list).unwrap();
    assert_eq!(found, counts(0, found.moves, 0));
    pairs(&list, found.moves)
}

/// The copies of a copy list, and that the rest of the list is unchanged.
fn copies(caps: &[u16], places: &[u16]) -> Vec<(u16, u16)> {
    let mut list = [7; COPY_ROOM];
    let found = copy_list(caps, places, &mut list).unwrap();
    assert_eq!(found, counts(0, 0, found.copies));
    pairs(&list, found.copies)
}

fn pairs(list: &[u16], count: usize) -> Vec<(u16, u16)> {
    let (front, rest) = list.split_at(2 * count);
    assert!(rest.iter().all(|&x| x == 7));
    front.chunks(2).map(|two| (two[0], two[1])).collect()
}

/// Carries the pairs, with cards of one byte.
fn carry(caps: &[u16], places: &mut [u16], cards: &mut [u8], moves: &[(u16, u16)]) {
    for &(from, to) in moves {
        let made = one_move(caps, 1, places, cards, from.into(), to.into());
        assert_eq!(made, Ok(counts(0, 1, 0)));
    }
}

#[test]
fn case_1_reads() {
    let mut caps = [9; MAX_RACKS];
    let mut places = [9; MAX_SLOTS];
    let job = read_file(&FILE, &mut caps, &mut places).unwrap();
    let expected = JobFile {
        racks: 3,
        bytes: 1,
        slots: 8,
        cards: &CARDS,
    };
    assert_eq!(job, expected);
    assert_eq!(caps[..3], CAPS);
    assert_eq!(places[..8], PLACES);
    assert!(caps[3..].iter().chain(&places[8..]).all(|&x| x == 9));
    assert_eq!(job.cards.as_ptr(), FILE[13..].as_ptr());
}

#[test]
fn case_1_written() {
    let write = |out: &mut [u8]| write_file(&CAPS, 1, &PLACES, &CARDS, out);
    let mut long = [7; 23];
    assert_eq!(write(&mut long), Ok(21));
    assert_eq!((&long[..21], &long[21..]), (&FILE[..], &[7, 7][..]));
    let mut exact = [7; 21];
    assert_eq!(write(&mut exact), Ok(21));
    assert_eq!(exact, FILE);
    let mut short = [7; 20];
    assert_eq!(write(&mut short), Err(Refusal::BufferShort));
    assert_eq!(short, [7; 20]);
    assert_eq!(write(&mut []), Err(Refusal::BufferShort));
    assert_eq!(file_of(&CAPS, 1, &PLACES, &CARDS).unwrap(), FILE);
}

#[test]
fn case_1_runs() {
    let (mut places, mut cards) = (PLACES, CARDS);
    let done = whole_run(&CAPS, 1, &mut places, &mut cards);
    assert_eq!(done, Ok(counts(2, 5, 5)));
    assert_eq!(places, [0, 1, FREE, 3, 4, FREE, 6, FREE]);
    assert_eq!(cards, *b"CE\0AB\0D\0");
}

#[test]
fn case_1_in_steps() {
    let (mut places, mut cards) = (PLACES, CARDS);
    let first = plan(&CAPS, &places);
    assert_eq!(first, [(3, 2), (0, 5), (4, 7)]);
    carry(&CAPS, &mut places, &mut cards, &first);
    let second = plan(&CAPS, &places);
    assert_eq!(second, [(6, 0), (1, 3)]);
    carry(&CAPS, &mut places, &mut cards, &second);
    assert_eq!(plan(&CAPS, &places), []);
    let list = copies(&CAPS, &places);
    assert_eq!(list, [(0, 1), (2, 0), (3, 4), (5, 3), (7, 6)]);
    let done = shuffle_cards(&CAPS, 1, &mut places, &mut cards);
    assert_eq!(done, Ok(counts(0, 0, 5)));
    assert_eq!(cards, *b"CE\0AB\0D\0");
}

#[test]
fn case_1_any_order() {
    let (mut places, mut cards) = (PLACES, CARDS);
    let (mut other_places, mut other_cards) = (PLACES, CARDS);
    carry(&CAPS, &mut places, &mut cards, &[(3, 2), (0, 5), (4, 7)]);
    carry(
        &CAPS,
        &mut other_places,
        &mut other_cards,
        &[(4, 7), (3, 2), (0, 5)],
    );
    assert_eq!((places, cards), (other_places, other_cards));
}

#[test]
fn case_1_asked() {
    let ask = |slot| slot_question(&CAPS, &PLACES, slot);
    let slot = |kind, state| Ok(Slot { kind, state });
    assert_eq!(ask(0), slot(Kind::User, State::Away(1)));
    assert_eq!(ask(2), slot(Kind::Spare, State::Free));
    assert_eq!(ask(4), slot(Kind::User, State::Away(2)));
    assert_eq!(ask(6), slot(Kind::User, State::Away(0)));
    assert_eq!(ask(8), Err(Refusal::NoSlot));
    assert_eq!(ask(usize::MAX), Err(Refusal::NoSlot));
    let ask = |slot| slot_question(&CYCLE.0, &[0, FREE, 1], slot);
    assert_eq!(ask(0), slot(Kind::User, State::Settled));
    assert_eq!(ask(1), slot(Kind::User, State::Free));
    assert_eq!(ask(2), slot(Kind::Spare, State::Unsettled));
}

#[test]
fn case_1_listed() {
    const TEXT: &str = "\
phase 1: 3>2 0>5 4>7
phase 2: 6>0 1>3
copies: 0>1 2>0 3>4 5>3 7>6
cards: 43 45 00 41 42 00 44 00
end: phases 2 moves 5 copies 5
";
    let mut out = vec![7; TEXT_ROOM];
    assert_eq!(list_job(&FILE, &mut out), Ok(TEXT.as_bytes()));
    assert!(out[TEXT.len()..].iter().all(|&x| x == 7));
    let mut exact = vec![7; TEXT.len()];
    assert_eq!(list_job(&FILE, &mut exact), Ok(TEXT.as_bytes()));
    let mut short = vec![7; TEXT.len() - 1];
    assert_eq!(list_job(&FILE, &mut short), Err(Refusal::TooShort));
    assert!(short.iter().all(|&x| x == 7));
    let refused = list_job(&vec![0; MAX_FILE + 1], &mut out);
    assert_eq!(refused, Ok(&b"refused 18\n"[..]));
    let refused = list_job(&FILE[..20], &mut out);
    assert_eq!(refused, Ok(&b"refused 15\n"[..]));
    // Its answer by the name of before 0.3.0.
    let answer: raw::ListingAnswer = raw::list_job(&FILE, &mut out);
    assert_eq!(answer.size, TEXT.len());
}

#[test]
fn case_2() {
    let (mut places, mut cards) = (PLACES, CARDS);
    let made = budgeted_moves(&CAPS, 1, &mut places, &mut cards, 4);
    assert_eq!(made, Ok(counts(0, 4, 0)));
    for slot in 0..8 {
        let found = slot_question(&CAPS, &places, slot).unwrap();
        assert_eq!(matches!(found.state, State::Away(_)), slot == 1);
    }
    let (mut places, mut cards) = (PLACES, CARDS);
    let made = budgeted_moves(&CAPS, 1, &mut places, &mut cards, 0);
    assert_eq!(made, Ok(counts(0, 0, 0)));
    assert_eq!((places, cards), (PLACES, CARDS));
    let made = budgeted_moves(&CAPS, 1, &mut places, &mut cards, 9);
    assert_eq!(made, Ok(counts(0, 5, 0)));
}

#[test]
fn case_3() {
    let (caps, mut places) = CYCLE;
    assert_eq!(copies(&caps, &places), [(1, HAND), (0, 1), (HAND, 0)]);
    let mut cards = *b"xyz";
    let done = shuffle_cards(&caps, 1, &mut places, &mut cards);
    assert_eq!(done, Ok(counts(0, 0, 3)));
    assert_eq!((places, cards), ([0, 1, FREE], *b"yx\0"));
}

#[test]
fn case_4() {
    let mut places = CASE4;
    let moves = plan(&TWO, &places);
    assert_eq!(moves, [(2, 1), (0, 3)]);
    carry(&TWO, &mut places, &mut [1, 2, 3, 4], &moves);
    assert_eq!(copies(&TWO, &places), [(1, 0), (3, 2)]);
}

#[test]
fn case_5() {
    let mut places = CASE5;
    let moves = plan(&TWO, &places);
    assert_eq!(moves, [(0, 2)]);
    carry(&TWO, &mut places, &mut [1, 2, 3, 4], &moves);
    assert_eq!(copies(&TWO, &places), [(1, 0)]);
}

#[test]
fn case_6() {
    let refused = |table: [u16; 4], from, to| {
        let (mut places, mut cards) = (table, [1, 2, 3, 4]);
        let refusal = one_move(&TWO, 1, &mut places, &mut cards, from, to).unwrap_err();
        assert_eq!((places, cards), (table, [1, 2, 3, 4]));
        refusal.number()
    };
    assert_eq!(refused(CASE4, 0, 0), 10);
    assert_eq!(refused(CASE4, 1, 3), 8);
    assert_eq!(refused(CASE4, 0, 4), 7);
    assert_eq!(refused(CASE4, 0, 2), 11);
    assert_eq!(refused(CASE5, 1, 2), 9);
}

#[test]
fn case_7() {
    let with = |entry| check_table(&TWO, &[entry, FREE, 0, FREE]);
    assert_eq!(with(2), Ok(()));
    assert_eq!(with(3), Err(Refusal::BadEntry(0)));
    assert_eq!(with(0), Err(Refusal::NamedTwice(2)));
    let both = check_table(&CYCLE.0, &[2, 2, FREE]);
    assert_eq!(both, Err(Refusal::BadEntry(0)));
}

/// The same refusal by every call that checks a table, and by the reader of its file.
fn refused_by_all(table: [u16; 8], refusal: Refusal) {
    let (mut places, mut cards) = (table, CARDS);
    let (places, cards) = (&mut places, &mut cards);
    assert_eq!(check_table(&CAPS, places), Err(refusal));
    assert_eq!(slot_question(&CAPS, places, 0), Err(refusal));
    assert_eq!(phase_plan(&CAPS, places, &mut []), Err(refusal));
    assert_eq!(one_move(&CAPS, 1, places, cards, 0, 5), Err(refusal));
    assert_eq!(budgeted_moves(&CAPS, 1, places, cards, 0), Err(refusal));
    assert_eq!(copy_list(&CAPS, places, &mut []), Err(refusal));
    assert_eq!(shuffle_cards(&CAPS, 1, places, cards), Err(refusal));
    assert_eq!(whole_run(&CAPS, 1, places, cards), Err(refusal));
    assert_eq!(write_file(&CAPS, 1, places, cards, &mut []), Err(refusal));
    assert_eq!(file_of(&CAPS, 1, places, cards), Err(refusal));
    let entries = table.map(|entry| entry.wrapping_add(1) as u8);
    let file = [&FILE[..5], &entries, &CARDS].concat();
    assert_eq!(read_file(&file, &mut [], &mut []), Err(refusal));
    let line = format!("refused {}\n", refusal.number());
    assert_eq!(list_job(&file, &mut [0; 10]), Ok(line.as_bytes()));
}

/// Of several bad entries the lowest is named, and of those that repeat an earlier one.
#[test]
fn refusals_say_which_entry() {
    refused_by_all([3, 4, 4, 2, 6, FREE, 8, FREE], Refusal::BadEntry(3));
    refused_by_all([3, 4, FREE, 0, 4, FREE, 3, FREE], Refusal::NamedTwice(4));
}

#[test]
fn case_9() {
    let check = |caps: &[u16]| {
        let slots = caps.iter().map(|&m| usize::from(m) + 1).sum();
        check_table(caps, &vec![FREE; slots])
    };
    let mut caps = [63; 64];
    assert_eq!(check(&caps), Ok(()));
    caps[17] = 64;
    assert_eq!(check(&caps), Err(Refusal::BadSize));
    assert_eq!(check(&[1023]), Ok(()));
    assert_eq!(check(&[1024]), Err(Refusal::BadSize));
    let run = |b: usize| whole_run(&CAPS, b, &mut PLACES.clone(), &mut vec![0; 8 * b]);
    assert_eq!(run(256), Ok(counts(2, 5, 5)));
    assert_eq!(run(257), Err(Refusal::BadBytes));
}

#[test]
fn case_10() {
    let (caps, mut places, mut cards) = ([0], [FREE], [5]);
    assert_eq!(check_table(&caps, &places), Ok(()));
    assert_eq!(plan(&caps, &places), []);
    assert_eq!(copies(&caps, &places), []);
    let done = whole_run(&caps, 1, &mut places, &mut cards);
    assert_eq!(done, Ok(counts(0, 0, 0)));
    assert_eq!((places, cards), ([FREE], [0]));
}

#[test]
fn lists_too_short() {
    let mut short = [7; 5];
    let refused = phase_plan(&CAPS, &PLACES, &mut short);
    assert_eq!(refused, Err(Refusal::TooShort));
    assert_eq!(short, [7; 5]);
    let mut exact = [7; 6];
    assert_eq!(phase_plan(&CAPS, &PLACES, &mut exact), Ok(counts(0, 3, 0)));
    let away = copy_list(&CAPS, &PLACES, &mut exact);
    assert_eq!(away, Err(Refusal::SomeAway));
    let refused = read_file(&FILE, &mut [0; 2], &mut [0; 8]);
    assert_eq!(refused, Err(Refusal::FileRoom));
    let refused = read_file(&FILE[..20], &mut [0; 3], &mut [0; 8]);
    assert_eq!(refused, Err(Refusal::FileEnds));
}

/// Case 8's numbers that are refused, as N.
#[test]
fn numbers_refused() {
    let read = |file: &[u8]| read_file(file, &mut [], &mut []).unwrap_err();
    assert_eq!(read(&[0x80, 0x00]), Refusal::FileForm);
    assert_eq!(read(&[0x80, 0x80, 0x00]), Refusal::FileForm);
    assert_eq!(read(&[0x80, 0x80]), Refusal::FileEnds);
    assert_eq!(read(&[0x80, 0x80, 0x80]), Refusal::FileGroups);
    assert_eq!(read(&[0x80, 0x80, 0x80, 0x00]), Refusal::FileGroups);
}

#[test]
fn empty_lists() {
    assert_eq!(check_table(&[], &[]), Err(Refusal::BadCount));
    assert_eq!(check_table(&[0], &[]), Err(Refusal::BadLength));
    assert_eq!(phase_plan(&[0], &[FREE], &mut []), Ok(counts(0, 0, 0)));
    let refused = whole_run(&CAPS, 1, &mut PLACES.clone(), &mut []);
    assert_eq!(refused, Err(Refusal::BadLength));
    let refused = read_file(&[], &mut [], &mut []);
    assert_eq!(refused, Err(Refusal::FileEnds));
}

/// A job read back from its file, and that the file written from it is the same.
fn round_trip(caps: &[u16], b: usize, places: &[u16], cards: &[u8]) -> usize {
    let file = file_of(caps, b, places, cards).unwrap();
    let (mut caps_read, mut places_read) = ([9; MAX_RACKS], [9; MAX_SLOTS]);
    let job = read_file(&file, &mut caps_read, &mut places_read).unwrap();
    let (caps_read, places_read) = (&caps_read[..job.racks], &places_read[..job.slots]);
    assert_eq!((caps_read, job.bytes), (caps, b));
    assert_eq!((places_read, job.cards), (places, cards));
    let again = file_of(caps_read, job.bytes, places_read, job.cards).unwrap();
    assert!(again == file);
    file.len()
}

/// Every job may be written, at the start, midway and at the end; the largest has no
/// limit on its file but its own.
#[test]
fn files_come_back() {
    let (mut places, mut cards) = (PLACES, CARDS);
    for _ in 0..=5 {
        assert_eq!(round_trip(&CAPS, 1, &places, &cards), 21);
        budgeted_moves(&CAPS, 1, &mut places, &mut cards, 1).unwrap();
    }
    shuffle_cards(&CAPS, 1, &mut places, &mut cards).unwrap();
    assert_eq!(round_trip(&CAPS, 1, &places, &cards), 21);
    assert_eq!(round_trip(&[0], 1, &[FREE], b"z"), 5);

    // Each user slot's card is bound for the user slot across from it.
    let users: Vec<u16> = (0..4_096).filter(|slot| slot % 64 < 63).collect();
    let mut places = vec![FREE; MAX_SLOTS];
    for (&slot, &across) in users.iter().zip(users.iter().rev()) {
        places[usize::from(slot)] = across;
    }
    let cards: Vec<u8> = (0..MAX_SLOTS * MAX_BYTES)
        .map(|i| (i % 251) as u8)
        .collect();
    let length = round_trip(&[63; 64], MAX_BYTES, &places, &cards);
    // N a byte, B two; a byte a rack; a slot has two, but for 126 cards and 64 spares.
    let expected = 3 + 64 + 2 * MAX_SLOTS - 126 - 64 + cards.len();
    assert_eq!(length, expected);
    assert!(MAX_FILE < length && length <= WRITE_ROOM);
}

#[test]
fn files_refused() {
    let of = |caps: &[u16], b, places: &[u16], cards: &[u8]| file_of(caps, b, places, cards);
    assert_eq!(of(&[], 1, &[], &[]), Err(Refusal::BadCount));
    assert_eq!(of(&[1], 0, &[0, FREE], &[]), Err(Refusal::BadBytes));
    assert_eq!(of(&[1_024], 1, &[], &[]), Err(Refusal::BadSize));
    assert_eq!(of(&[1], 1, &[0, FREE], b"a"), Err(Refusal::BadLength));
    assert_eq!(of(&[1], 1, &[1, FREE], b"ab"), Err(Refusal::BadEntry(0)));
    assert_eq!(of(&[1], 1, &[0, 0], b"ab"), Err(Refusal::NamedTwice(1)));
    // Lists far longer than any job's.
    let longer = of(&[0; 70_000], 1, &[FREE; 70_000], &[0; 70_000]);
    assert_eq!(longer, Err(Refusal::BadCount));
}

#[test]
fn refusals_have_their_numbers() {
    for (i, &refusal) in Refusal::ALL.iter().enumerate() {
        assert_eq!(refusal.number(), i + 1);
        assert_eq!(Refusal::from_number(i + 1, 0), Some(refusal));
        let placed = Refusal::from_number(i + 1, 17).unwrap();
        assert_eq!(placed.number(), i + 1);
        assert_eq!(placed.place(), matches!(i + 1, 5 | 6).then_some(17));
    }
    assert_eq!(Refusal::ALL.len(), 20);
    assert_eq!(Refusal::from_number(0, 0), None);
    assert_eq!(Refusal::from_number(21, 0), None);
}
