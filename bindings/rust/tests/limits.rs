//! The constants of this crate and those of the C header are the library's own.

use seineflute::raw::{limits, Limits};
use seineflute::{
    COPY_ROOM, FREE, HAND, MAX_BYTES, MAX_FILE, MAX_RACKS, MAX_SLOTS, MAX_TOTAL, MAX_USERS,
    PLAN_ROOM, TEXT_ROOM, WRITE_ROOM,
};

const HEADER: &str = include_str!("../../../include/seineflute.h");

/// Room for the file of every job, by the library's limits: N takes a byte, B, a
/// capacity or an entry at most two.
fn write_room() -> usize {
    let l = limits();
    3 + 2 * (l.racks + l.slots) + l.slots * l.bytes
}

/// The number that the header gives a name in an enum.
fn header(name: &str) -> usize {
    let mut found = HEADER.lines().filter_map(|line| {
        let (left, right) = line.split_once('=')?;
        let digits: String = right
            .trim()
            .chars()
            .take_while(char::is_ascii_digit)
            .collect();
        (left.trim() == name).then_some(digits)
    });
    let digits = found.next().expect(name);
    assert_eq!(found.next(), None, "{name} stands twice");
    digits.parse().expect(name)
}

#[test]
fn of_this_crate() {
    let here = Limits {
        racks: MAX_RACKS,
        bytes: MAX_BYTES,
        users: MAX_USERS,
        total: MAX_TOTAL,
        slots: MAX_SLOTS,
        free: FREE.into(),
        hand: HAND.into(),
        file: MAX_FILE,
        enough: TEXT_ROOM,
    };
    assert_eq!(here, limits());
    assert_eq!(PLAN_ROOM, 2 * limits().slots);
    assert_eq!(COPY_ROOM, 3 * limits().slots);
    assert_eq!(WRITE_ROOM, write_room());
}

#[test]
fn of_the_header() {
    let there = Limits {
        racks: header("SEINEFLUTE_MAX_RACKS"),
        bytes: header("SEINEFLUTE_MAX_BYTES"),
        users: header("SEINEFLUTE_MAX_USERS"),
        total: header("SEINEFLUTE_MAX_TOTAL"),
        slots: header("SEINEFLUTE_MAX_SLOTS"),
        free: header("SEINEFLUTE_FREE"),
        hand: header("SEINEFLUTE_HAND"),
        file: header("SEINEFLUTE_MAX_FILE"),
        enough: header("SEINEFLUTE_TEXT_ROOM"),
    };
    assert_eq!(there, limits());
    assert_eq!(header("SEINEFLUTE_PLAN_ROOM"), 2 * limits().slots);
    assert_eq!(header("SEINEFLUTE_COPY_ROOM"), 3 * limits().slots);
    assert_eq!(header("SEINEFLUTE_WRITE_ROOM"), write_room());
}
