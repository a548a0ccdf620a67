//! The paper cards of the rules and the cases that settle what they leave
//! open, each written out by hand from the page: neither the vectors nor a
//! second implementation stand between.

#[path = "../benches/engine.rs"]
mod engine;
mod mover;
mod plain;

use mover::{Answer, Engine, FileAnswer, Mover, Plain, Proved, SizeAnswer, SlotAnswer};

const F: u16 = 65_535;
const H: u16 = 65_534;

#[test]
fn the_proved_library_gives_the_paper_cards() {
    paper_cards(&Proved);
}

#[test]
fn plain_gives_the_paper_cards() {
    paper_cards(&Plain);
}

#[test]
fn engine_gives_the_paper_cards() {
    paper_cards(&Engine);
}

fn paper_cards(mover: &impl Mover) {
    case_1(mover);
    case_2(mover);
    cases_3_to_5(mover);
    cases_6_and_7(mover);
    case_8(mover);
    cases_9_and_10(mover);
    wrong_entries(mover);
    slot_answers(mover);
    lowest_slots(mover);
    files(mover);
    written_files(mover);
    unwritten_files(mover);
}

const CAPS_1: [u16; 3] = [2, 2, 1];
const PLACES_1: [u16; 8] = [3, 4, F, 0, 6, F, 1, F];
const CARDS_1: [u8; 8] = [0x41, 0x42, 0, 0x43, 0x44, 0, 0x45, 0];
const FILE_1: [u8; 21] = [
    0x03, 0x01, 0x02, 0x02, 0x01, 0x04, 0x05, 0x00, 0x01, 0x07, 0x00, 0x02, 0x00, 0x41, 0x42, 0x00,
    0x43, 0x44, 0x00, 0x45, 0x00,
];

fn moves(moves: usize) -> Answer {
    Answer {
        moves,
        ..Answer::default()
    }
}

fn copies(copies: usize) -> Answer {
    Answer {
        copies,
        ..Answer::default()
    }
}

fn refused(number: usize) -> Answer {
    refused_at(number, 0)
}

fn refused_at(number: usize, place: usize) -> Answer {
    Answer {
        number,
        place,
        ..Answer::default()
    }
}

fn text(mover: &impl Mover, file: &[u8]) -> String {
    let mut out = vec![0; 1_000];
    let answer = mover.list_job(file, &mut out);
    assert_eq!(answer.number, 0);
    String::from_utf8(out[..answer.size].to_vec()).expect("a listing is text")
}

fn case_1(mover: &impl Mover) {
    assert_eq!(
        text(mover, &FILE_1),
        "phase 1: 3>2 0>5 4>7\n\
         phase 2: 6>0 1>3\n\
         copies: 0>1 2>0 3>4 5>3 7>6\n\
         cards: 43 45 00 41 42 00 44 00\n\
         end: phases 2 moves 5 copies 5\n"
    );
    let (mut caps, mut places) = ([9; 4], [9; 10]);
    let answer = mover.read_file(&FILE_1, &mut caps, &mut places);
    assert_eq!((answer.racks, answer.bytes, answer.slots), (3, 1, 8));
    assert_eq!((answer.place, answer.start), (0, 13));
    assert_eq!(caps, [2, 2, 1, 9]);
    assert_eq!(places, [3, 4, F, 0, 6, F, 1, F, 9, 9]);

    let (mut places, mut cards) = (PLACES_1, CARDS_1);
    let answer = mover.whole_run(&CAPS_1, 1, &mut places, &mut cards);
    let expected = Answer {
        phases: 2,
        moves: 5,
        copies: 5,
        ..Answer::default()
    };
    assert_eq!(answer, expected);
    assert_eq!(places, [0, 1, F, 3, 4, F, 6, F]);
    assert_eq!(cards, [0x43, 0x45, 0, 0x41, 0x42, 0, 0x44, 0]);
}

fn case_2(mover: &impl Mover) {
    let run = |k| {
        let (mut places, mut cards) = (PLACES_1, CARDS_1);
        let answer = mover.budgeted_moves(&CAPS_1, 1, &mut places, &mut cards, k);
        (answer, places, cards)
    };
    let (answer, places, _) = run(4);
    assert_eq!(answer, moves(4));
    for slot in 0..8 {
        let state = mover.slot_question(&CAPS_1, &places, slot).state;
        assert_eq!(state == 4, slot == 1);
    }
    assert_eq!(run(0), (moves(0), PLACES_1, CARDS_1));
    assert_eq!(run(9).0, moves(5));
    assert_eq!(run(usize::MAX).0, moves(5));
}

fn plan(mover: &impl Mover, caps: &[u16], places: &[u16], expected: &[u16]) {
    let mut list = [7; 20];
    let answer = mover.phase_plan(caps, places, &mut list);
    assert_eq!(answer, moves(expected.len() / 2));
    assert_eq!(list[..expected.len()], *expected);
    assert!(list[expected.len()..].iter().all(|&entry| entry == 7));
}

fn copy_list(mover: &impl Mover, caps: &[u16], places: &[u16], expected: &[u16]) {
    let mut list = [7; 20];
    let answer = mover.copy_list(caps, places, &mut list);
    assert_eq!(answer, copies(expected.len() / 2));
    assert_eq!(list[..expected.len()], *expected);
    assert!(list[expected.len()..].iter().all(|&entry| entry == 7));
}

/// The copy list when all moves are made.
fn copies_after_moves(mover: &impl Mover, caps: &[u16], places: &[u16], expected: &[u16]) {
    let mut places = places.to_vec();
    let mut cards = vec![0; places.len()];
    mover.budgeted_moves(caps, 1, &mut places, &mut cards, usize::MAX);
    copy_list(mover, caps, &places, expected);
}

fn cases_3_to_5(mover: &impl Mover) {
    copy_list(mover, &[2], &[1, 0, F], &[1, H, 0, 1, H, 0]);
    plan(mover, &[1, 1], &[2, F, 0, F], &[2, 1, 0, 3]);
    copies_after_moves(mover, &[1, 1], &[2, F, 0, F], &[1, 0, 3, 2]);
    plan(mover, &[1, 1], &[2, 0, F, F], &[0, 2]);
    copies_after_moves(mover, &[1, 1], &[2, 0, F, F], &[1, 0]);
}

fn cases_6_and_7(mover: &impl Mover) {
    let one_move = |places: [u16; 4], from, to| {
        let (mut after, mut cards) = (places, [1, 2, 3, 4]);
        let answer = mover.one_move(&[1, 1], 1, &mut after, &mut cards, from, to);
        if answer.number != 0 {
            assert_eq!((after, cards), (places, [1, 2, 3, 4]));
        }
        answer
    };
    let case_4 = [2, F, 0, F];
    assert_eq!(one_move(case_4, 0, 0), refused(10));
    assert_eq!(one_move(case_4, 1, 3), refused(8));
    assert_eq!(one_move(case_4, 0, 4), refused(7));
    assert_eq!(one_move(case_4, 1, usize::MAX), refused(7));
    assert_eq!(one_move(case_4, 0, 2), refused(11));
    assert_eq!(one_move(case_4, 0, 3), moves(1));
    assert_eq!(one_move([2, 0, F, F], 1, 2), refused(9));

    let check = |caps: &[u16], places: &[u16]| mover.check_table(caps, places);
    assert_eq!(check(&[1, 1], &[3, F, 0, F]), refused_at(5, 0));
    assert_eq!(check(&[1, 1], &[0, F, 0, F]), refused_at(6, 2));
    assert_eq!(check(&[2], &[2, 2, F]), refused_at(5, 0));
    assert_eq!(check(&[2], &[0, 0, H]), refused_at(5, 2));
}

/// Numbers of a file, seen by what they do as N, B, capacity or entry.
fn case_8(mover: &impl Mover) {
    let number = |file: &[u8]| mover.read_file(file, &mut [], &mut []).number;
    let mut caps = [0; 2];
    let mut places = [0; 200];
    let mut file = vec![0x01, 0x01, 0x80, 0x01];
    file.extend([0; 2 * 129]);
    assert_eq!(mover.read_file(&file, &mut caps, &mut places).slots, 129);
    assert_eq!(caps[0], 128);
    // 16,384 is read whole and is too large.
    assert_eq!(number(&[0x80, 0x80, 0x01]), 1);
    assert_eq!(number(&[0x01, 0x01, 0x80, 0x80, 0x01]), 3);
    assert_eq!(number(&[0x80, 0x00]), 14);
    assert_eq!(number(&[0x80, 0x80, 0x00]), 14);
    assert_eq!(number(&[0x80]), 15);
    assert_eq!(number(&[0x80, 0x80]), 15);
    // The third group says that another follows: 20 at once, whatever does.
    assert_eq!(number(&[0x80, 0x80, 0x80]), 20);
    assert_eq!(number(&[0x80, 0x80, 0x80, 0x00]), 20);
    assert_eq!(number(&[0xff, 0xff, 0xff, 0xff]), 20);
    assert_eq!(number(&[0x01, 0x80, 0x80, 0x80]), 20);
    assert_eq!(number(&[0x01, 0x01, 0x80, 0x80, 0x80]), 20);
    assert_eq!(number(&[0x01, 0x01, 0x01, 0x80, 0x80, 0x80]), 20);
    // After a bad entry, and before two that name one slot.
    assert_eq!(number(&[0x01, 0x01, 0x01, 0x02, 0x80, 0x80, 0x80]), 5);
    let twice = &[0x01, 0x01, 0x02, 0x01, 0x01, 0x80, 0x80, 0x80];
    assert_eq!(number(twice), 20);
}

fn cases_9_and_10(mover: &impl Mover) {
    let check = |caps: &[u16]| {
        let slots = caps.iter().map(|&m| usize::from(m) + 1).sum();
        mover.check_table(caps, &vec![F; slots]).number
    };
    let mut caps = [63; 64];
    assert_eq!(check(&caps), 0);
    caps[5] = 64;
    assert_eq!(check(&caps), 3);
    assert_eq!(check(&[1_023]), 0);
    assert_eq!(check(&[1_024]), 3);
    assert_eq!(check(&[1_008; 4]), 0);
    assert_eq!(check(&[1_023, 1_023, 1_023, 963]), 0);
    assert_eq!(check(&[1_023; 4]), 3);
    assert_eq!(check(&[0; 64]), 0);
    assert_eq!(check(&[0; 65]), 1);
    assert_eq!(check(&[]), 1);

    let run = |b: usize| mover.whole_run(&[0], b, &mut [F], &mut vec![1; b]);
    assert_eq!(run(1), Answer::default());
    assert_eq!(run(256), Answer::default());
    assert_eq!(run(257), refused(2));
    assert_eq!(run(0), refused(2));
}

/// Which entry 5 and 6 name, on case 1's racks: slots 2, 5 and 7 are spares, 8 is none.
fn wrong_entries(mover: &impl Mover) {
    let cases: [([u16; 8], usize, usize); 8] = [
        // the lowest bad one, a spare or no slot, though others repeat before it
        ([2, 4, F, 0, 6, F, 1, 8], 5, 0),
        ([3, 4, 4, 2, 6, F, 8, F], 5, 3),
        ([3, 4, 4, 8, 6, F, 2, F], 5, 3),
        ([0, 0, 0, 0, 0, 0, 0, 7], 5, 7),
        // the later of two, and the lowest that is one
        ([3, 4, F, 3, 6, F, 1, F], 6, 3),
        ([3, 4, F, 0, 4, F, 3, F], 6, 4),
        ([1, 1, 1, 1, F, F, F, F], 6, 1),
        ([F, F, F, F, F, F, 1, 1], 6, 7),
    ];
    for (table, number, place) in cases {
        wrong_table(mover, table, refused_at(number, place));
        wrong_file(mover, table, refused_at(number, place));
    }
}

/// A refusal by each call that checks a table; it comes before all that the call itself
/// would refuse.
fn wrong_table(mover: &impl Mover, table: [u16; 8], answer: Answer) {
    let (mut places, mut cards) = (table, CARDS_1);
    let (caps, places, cards) = (&CAPS_1, &mut places, &mut cards);
    assert_eq!(mover.check_table(caps, places), answer);
    assert_eq!(mover.phase_plan(caps, places, &mut []), answer);
    assert_eq!(mover.one_move(caps, 1, places, cards, 8, 8), answer);
    assert_eq!(mover.budgeted_moves(caps, 1, places, cards, 0), answer);
    assert_eq!(mover.copy_list(caps, places, &mut []), answer);
    assert_eq!(mover.shuffle_cards(caps, 1, places, cards), answer);
    assert_eq!(mover.whole_run(caps, 1, places, cards), answer);
    let Answer { number, place, .. } = answer;
    let slot = SlotAnswer {
        number,
        place,
        ..SlotAnswer::default()
    };
    assert_eq!(mover.slot_question(caps, places, 8), slot);
    let size = SizeAnswer {
        number,
        place,
        ..SizeAnswer::default()
    };
    assert_eq!(mover.write_file(caps, 1, places, cards, &mut []), size);
}

/// The same refusal of the file, by the slot and not by the byte. The listing says its
/// number alone.
fn wrong_file(mover: &impl Mover, table: [u16; 8], answer: Answer) {
    let entries = table.map(|entry| entry.wrapping_add(1) as u8);
    let file = [&FILE_1[..5], &entries, &CARDS_1].concat();
    let Answer { number, place, .. } = answer;
    let expected = FileAnswer {
        number,
        place,
        ..FileAnswer::default()
    };
    assert_eq!(mover.read_file(&file, &mut [], &mut []), expected);
    assert_eq!(text(mover, &file), format!("refused {number}\n"));
    assert_eq!(mover.list_job(&file, &mut [0; 20]).place, 0);
}

fn slot_answers(mover: &impl Mover) {
    let ask = |places: [u16; 7], slot| {
        let answer = mover.slot_question(&[3, 2], &places, slot);
        (answer.number, answer.kind, answer.state, answer.rack)
    };
    let places = [4, 0, 2, F, F, 5, 1];
    assert_eq!(ask(places, 0), (0, 1, 4, 1));
    assert_eq!(ask(places, 1), (0, 1, 3, 0));
    assert_eq!(ask(places, 2), (0, 1, 2, 0));
    assert_eq!(ask(places, 3), (0, 2, 1, 0));
    assert_eq!(ask(places, 4), (0, 1, 1, 0));
    assert_eq!(ask(places, 6), (0, 2, 4, 0));
    assert_eq!(ask(places, 7), (7, 0, 0, 0));
    assert_eq!(ask(places, usize::MAX), (7, 0, 0, 0));
    // An entry on a spare: the table's refusal comes before the slot's.
    assert_eq!(ask([3, 0, 2, F, F, 5, F], 7), (5, 0, 0, 0));
}

/// The lowest slot of a factor counts a shift's free end too.
fn lowest_slots(mover: &impl Mover) {
    copy_list(mover, &[6], &[F, F, F, 2, F, 1, F], &[5, 1, 3, 2]);
    let places = [5, 2, 1, F, F, F, F];
    copy_list(mover, &[6], &places, &[0, 5, 2, H, 1, 2, H, 1]);
    let short = mover.copy_list(&[6], &places, &mut [0; 7]);
    assert_eq!(short, refused(13));
    let away = mover.copy_list(&[1, 1], &[2, F, F, F], &mut []);
    assert_eq!(away, refused(12));
}

/// The order of a file's refusals.
fn files(mover: &impl Mover) {
    let mut wide = vec![0x05, 0x01];
    for _ in 0..4 {
        wide.extend([0xff, 0x07]);
    }
    let cases: [(&[u8], usize); 16] = [
        (&[], 15),
        (&[0x00], 1),
        (&[0x00, 0x80, 0x80, 0x80], 1),
        (&[0x41], 1),
        (&[0x01, 0x00], 2),
        (&[0x01, 0x81, 0x02], 2),
        (&[0x01, 0x01, 0x80, 0x08], 3),
        // the fourth capacity passes 4,032, though the file is cut behind it
        (&wide, 3),
        (&[0x01, 0x01, 0x01, 0x02], 5),
        (&[0x01, 0x01, 0x01, 0x80, 0x80, 0x04], 5),
        // named twice: cut inside the entries, inside the cards, left over
        (&[0x01, 0x01, 0x02, 0x01, 0x01], 15),
        (&[0x01, 0x01, 0x02, 0x01, 0x01, 0x00, 0x41], 6),
        (&[0x01, 0x01, 0x01, 0x01, 0x01, 0x41, 0x42, 0x43], 6),
        (&[0x01, 0x01, 0x01, 0x01, 0x00, 0x41], 15),
        (&[0x01, 0x01, 0x01, 0x01, 0x00, 0x41, 0x42, 0x43], 16),
        (&[0x01, 0x01, 0x01, 0x01, 0x00, 0x41, 0x42], 17),
    ];
    for (file, number) in cases {
        assert_eq!(mover.read_file(file, &mut [], &mut []).number, number);
        if number != 17 {
            assert_eq!(text(mover, file), format!("refused {number}\n"));
        }
    }
    assert_eq!(text(mover, &[0; 32_769]), "refused 18\n");
    assert_eq!(text(mover, &[0; 32_768]), "refused 1\n");
    assert_eq!(
        text(mover, &[0x01, 0x01, 0x00, 0x00, 0x41]),
        "copies:\ncards: 00\nend: phases 0 moves 0 copies 0\n"
    );
}

/// Writes a file into buffers that are longer, exact, one byte too short and empty.
fn written(mover: &impl Mover, caps: &[u16], b: usize, places: &[u16], cards: &[u8], file: &[u8]) {
    let size = file.len();
    for room in [size + 3, size, size - 1, 0] {
        let mut out = vec![0xa5; room];
        let answer = mover.write_file(caps, b, places, cards, &mut out);
        let fits = room >= size;
        let expected = SizeAnswer {
            number: if fits { 0 } else { 19 },
            size: if fits { size } else { 0 },
            ..SizeAnswer::default()
        };
        assert_eq!(answer, expected);
        assert_eq!(out[..answer.size], file[..answer.size]);
        assert!(out[answer.size..].iter().all(|&byte| byte == 0xa5));
    }
}

/// The paper cards that have a file, and case 8's forms at every number.
fn written_files(mover: &impl Mover) {
    written(mover, &CAPS_1, 1, &PLACES_1, &CARDS_1, &FILE_1);
    written(
        mover,
        &[2],
        1,
        &[1, 0, F],
        &[7; 3],
        &[1, 1, 2, 2, 1, 0, 7, 7, 7],
    );
    written(mover, &[0], 1, &[F], &[0x41], &[1, 1, 0, 0, 0x41]);

    // B: one group up to 127.
    for (b, groups) in [
        (127, &[0x7f][..]),
        (128, &[0x80, 0x01]),
        (256, &[0x80, 0x02]),
    ] {
        let cards = vec![9; b];
        let file = [&[1], groups, &[0, 0], &cards].concat();
        written(mover, &[0], b, &[F], &cards, &file);
    }

    // A capacity, and the entry of its last user slot, which is the same number.
    for (m, groups) in [
        (127, &[0x7f][..]),
        (128, &[0x80, 0x01]),
        (1_023, &[0xff, 0x07]),
    ] {
        let slots = usize::from(m) + 1;
        let mut places = vec![F; slots];
        places[0] = m - 1;
        let entries = vec![0; slots - 1];
        let cards = vec![9; slots];
        let file = [&[1, 1], groups, groups, &entries, &cards].concat();
        written(mover, &[m], 1, &places, &cards, &file);
    }

    // The largest entry of all: user slot 4,094.
    let mut places = vec![F; 4_096];
    places[0] = 4_094;
    let cards = vec![9; 4_096];
    let entries = vec![0; 4_095];
    let file = [&[64, 1], &[63; 64][..], &[0xff, 0x1f], &entries, &cards].concat();
    written(mover, &[63; 64], 1, &places, &cards, &file);
}

/// 1 to 6 come before 19, each before the next.
fn unwritten_files(mover: &impl Mover) {
    let number = |caps: &[u16], b, places: &[u16], cards: &[u8]| {
        let mut out = [0xa5; 40];
        let answer = mover.write_file(caps, b, places, cards, &mut out);
        assert_eq!(out, [0xa5; 40]);
        assert_eq!(mover.write_file(caps, b, places, cards, &mut []), answer);
        let expected = SizeAnswer {
            number: answer.number,
            place: answer.place,
            ..SizeAnswer::default()
        };
        assert_eq!(answer, expected);
        answer.number
    };
    assert_eq!(number(&[], 0, &[], &[]), 1);
    assert_eq!(number(&[0; 65], 1, &[F; 65], &[0; 65]), 1);
    assert_eq!(number(&[1_024], 0, &[], &[]), 2);
    assert_eq!(number(&[1], 257, &[0, F], &[0; 514]), 2);
    assert_eq!(number(&[1_024], 1, &[], &[]), 3);
    assert_eq!(number(&[1_023, 1_023, 1_023, 964], 1, &[], &[]), 3);
    assert_eq!(number(&[1], 1, &[1], &[0, 0]), 4);
    assert_eq!(number(&[1], 1, &[1, 1, F], &[0, 0]), 4);
    assert_eq!(number(&[1], 1, &[1, 1], &[0]), 4);
    assert_eq!(number(&[1], 1, &[1, 1], &[0; 3]), 4);
    assert_eq!(number(&[2], 1, &[0, 0, 2], &[0; 3]), 5);
    assert_eq!(number(&[1], 1, &[H, F], &[0; 2]), 5);
    assert_eq!(number(&[1], 1, &[0, 0], &[0; 2]), 6);
}
