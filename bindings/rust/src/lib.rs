//! Seineflute moves claim cards between racks without ever losing one. This crate
//! is a thin safe layer over a library that is proved: every call ends, reads and
//! writes inside the lists that it is lent only, and gives exactly the outcome
//! that its definition says, on every input. No call panics.
//!
//! # Racks, slots, tables
//!
//! There are N racks, 1 to 64. Rack p has `caps[p]` user slots, 0 to 1,023, and
//! one spare after them; the user slots total at most 4,032. Slots are numbered
//! from 0 through all racks in order: rack 0's user slots, its spare, rack 1's
//! user slots, its spare, and so on. S is their number, at most 4,096.
//!
//! `places` has S entries. Entry g is [`FREE`] if slot g is free, else the slot
//! where the card in g must end: a user slot that no other entry names. A card is
//! away if that slot is on another rack, and settled if it is its own.
//!
//! A card is B bytes, 1 to 256. `cards` has S·B bytes, slot 0 first.
//!
//! # A run
//!
//! Cards first go to their racks, in phases of moves; then each rack's cards are
//! shuffled into their slots. [`whole_run`] does all of it. The other calls do it
//! in steps: [`phase_plan`] and [`one_move`], or [`budgeted_moves`]; then
//! [`copy_list`] to see what a shuffle would copy, and [`shuffle_cards`].
//!
//! [`read_file`] takes a job from a job file; [`write_file`] and [`file_of`] make the
//! file of a job in memory, at the start or midway.
//!
//! A refusal changes nothing that is lent. That of a bad table says which entry is
//! meant ([`Refusal::place`]).
//!
//! ```
//! use seineflute::{read_file, whole_run, Counts, FREE, MAX_RACKS, MAX_SLOTS};
//!
//! // A job file: 3 racks of 2, 2 and 1 user slots, cards of one byte.
//! let file = [
//!     3, 1, 2, 2, 1, // N, B, the capacities
//!     4, 5, 0, 1, 7, 0, 2, 0, // the entries: 0 free, else destination + 1
//!     b'A', b'B', 0, b'C', b'D', 0, b'E', 0, // the cards
//! ];
//! let mut caps = [0; MAX_RACKS];
//! let mut places = [0; MAX_SLOTS];
//! let job = read_file(&file, &mut caps, &mut places)?;
//! let caps = &caps[..job.racks];
//! let places = &mut places[..job.slots];
//! let mut cards = job.cards.to_vec();
//!
//! let counts = whole_run(caps, job.bytes, places, &mut cards)?;
//!
//! assert_eq!(counts, Counts { phases: 2, moves: 5, copies: 5 });
//! assert_eq!(cards, b"CE\0AB\0D\0");
//! assert_eq!(places, [0, 1, FREE, 3, 4, FREE, 6, FREE]);
//! # Ok::<(), seineflute::Refusal>(())
//! ```
//!
//! # To follow a listing move by move
//!
//! Ask for a plan, carry it pair by pair with [`one_move`], and ask for the next
//! one when it is used up: these are the moves that a [listing](list_job) shows and
//! that [`whole_run`] makes. [`budgeted_moves`] of a few at a time are others: each
//! call plans afresh, on the table as it is by then, and so may take other slots, as
//! one that a move has just left. Every card ends in its slot both ways, after as
//! many moves.
//!
//! ```
//! use seineflute::{budgeted_moves, one_move, phase_plan, shuffle_cards, FREE, PLAN_ROOM};
//!
//! // The job above, whose listing has `phase 1: 3>2 0>5 4>7` and `phase 2: 6>0 1>3`.
//! let caps = [2, 2, 1];
//! let table = [3, 4, FREE, 0, 6, FREE, 1, FREE];
//!
//! let (mut places, mut cards) = (table, *b"AB\0CD\0E\0");
//! let mut list = [0; PLAN_ROOM];
//! let mut made = Vec::new();
//! loop {
//!     let pairs = phase_plan(&caps, &places, &mut list)?.moves;
//!     if pairs == 0 {
//!         break;
//!     }
//!     for pair in list[..2 * pairs].chunks(2) {
//!         let (from, to) = (pair[0].into(), pair[1].into());
//!         one_move(&caps, 1, &mut places, &mut cards, from, to)?;
//!         made.push((from, to));
//!     }
//! }
//! assert_eq!(made, [(3, 2), (0, 5), (4, 7), (6, 0), (1, 3)]);
//! shuffle_cards(&caps, 1, &mut places, &mut cards)?;
//! assert_eq!(cards, *b"CE\0AB\0D\0");
//!
//! // One move at a time by its budget: the first is 3>2 as well, and the next is
//! // 0>3, where the listing has 0>5, since 3>2 has left slot 3 free.
//! let (mut places, mut cards) = (table, *b"AB\0CD\0E\0");
//! budgeted_moves(&caps, 1, &mut places, &mut cards, 1)?;
//! assert_eq!(cards, *b"ABC\0D\0E\0");
//! budgeted_moves(&caps, 1, &mut places, &mut cards, 1)?;
//! assert_eq!(cards, *b"\0BCAD\0E\0");
//! # Ok::<(), seineflute::Refusal>(())
//! ```
//!
//! # What is asked of the stack
//!
//! The library has no heap: a call's tables lie on the caller's stack. What each call
//! takes, measured at the largest jobs, with half a KB to spare, rounded up to whole
//! KB of 1,024 bytes (`examples/stack.rs` measures anew, and fails where a call takes
//! more):
//!
//! | call | KB |
//! |---|---|
//! | `limits` | 1 |
//! | `check_table`, `write_file` | 10 |
//! | `slot_question`, `phase_plan` | 11 |
//! | `read_file`, `one_move` | 14 |
//! | `budgeted_moves` | 40 |
//! | `copy_list` | 29 |
//! | `shuffle_cards` | 34 |
//! | `whole_run` | 48 |
//! | `list_job` | 344 |

use std::error::Error;
use std::fmt;

pub mod raw;

/// The limits and marks that the library was proved with; the constants below are
/// held against them (`tests/limits.rs`).
pub use raw::{limits, Limits};

/// In a places table: the slot is free.
pub const FREE: u16 = 65_535;

/// In a copy list: the hand, in which a cycle's last card waits.
pub const HAND: u16 = 65_534;

/// The most racks.
pub const MAX_RACKS: usize = 64;

/// The most bytes of a card.
pub const MAX_BYTES: usize = 256;

/// The most user slots of a rack.
pub const MAX_USERS: usize = 1_023;

/// The most user slots of all racks.
pub const MAX_TOTAL: usize = 4_032;

/// The most slots, spares among them.
pub const MAX_SLOTS: usize = 4_096;

/// Room for the phase plan of every job: a pair for each slot.
pub const PLAN_ROOM: usize = 2 * MAX_SLOTS;

/// Room for the copy list of every job: three copies for two slots.
pub const COPY_ROOM: usize = 3 * MAX_SLOTS;

/// Room for the file of every job: three bytes for N and B, two for each rack and each
/// slot, and the cards.
pub const WRITE_ROOM: usize = file_room(MAX_RACKS, MAX_SLOTS, MAX_SLOTS * MAX_BYTES);

/// Room for the listing's text of every file.
pub const TEXT_ROOM: usize = 245_818;

/// The most bytes of a file that is listed.
pub const MAX_FILE: usize = 32_768;

/// Why a call did nothing. Checks are made in this order and the first that
/// applies is given; the file reader has an order of its own ([`read_file`]).
///
/// It prints as its number and its words, by `{:?}` too, so that a `main` which
/// gives back a `Result<(), Refusal>` says what is wrong, and of a table which entry.
///
/// ```
/// use seineflute::{check_table, Refusal};
///
/// // One rack of three user slots; slot 3 is its spare.
/// let refusal = check_table(&[3], &[2, 3, 0, 3]).unwrap_err();
/// assert_eq!(refusal, Refusal::BadEntry(1));
/// assert_eq!((refusal.number(), refusal.place()), (5, Some(1)));
/// let said = "5: entry 1 is neither free nor a user slot";
/// assert_eq!(refusal.to_string(), said);
/// assert_eq!(format!("{refusal:?}"), said);
///
/// let refusal = check_table(&[3], &[2, 0, 1, 0]).unwrap_err();
/// assert_eq!(refusal, Refusal::NamedTwice(3));
/// assert_eq!(refusal.to_string(), "6: entry 3 repeats an earlier one");
/// ```
#[derive(Clone, Copy, PartialEq, Eq, PartialOrd, Ord, Hash)]
#[non_exhaustive]
pub enum Refusal {
    /// 1: N is 0 or above 64.
    BadCount,
    /// 2: B is 0 or above 256.
    BadBytes,
    /// 3: a rack has more than 1,023 user slots, or the total is above 4,032.
    BadSize,
    /// 4: places is not S long, or cards is lent and not S·B long.
    BadLength,
    /// 5: the entry of this slot is neither free nor a user slot; in a file, it is not
    /// 0 and one less than it is no user slot. It is the lowest such entry.
    BadEntry(usize),
    /// 6: the entry of this slot repeats an earlier one: two entries name one slot. It
    /// is the lowest such entry, and the later of the two.
    NamedTwice(usize),
    /// 7: a slot number in the call is S or more.
    NoSlot,
    /// 8: the source slot is free.
    SourceFree,
    /// 9: the source's card is on its rack already.
    SourceHome,
    /// 10: the target is not on the card's destination rack.
    Elsewhere,
    /// 11: the target is not free.
    TargetTaken,
    /// 12: a card is away (copy list and shuffle only).
    SomeAway,
    /// 13: the lent list is too short for what would be written.
    TooShort,
    /// 14: file: a number is padded beyond its shortest form.
    FileForm,
    /// 15: file: it ends too early.
    FileEnds,
    /// 16: file: bytes are left over.
    FileLeftOver,
    /// 17: file: room for capacities is below N, or for places below S.
    FileRoom,
    /// 18: listing only: the file is above 32,768 bytes. No call returns it; it
    /// stands in a listing's text.
    FileLarge,
    /// 19: the buffer is shorter than the file (file writer only).
    BufferShort,
    /// 20: file: a number has more than three groups.
    FileGroups,
}

impl Refusal {
    /// All of them, by number; those that say which entry, with entry 0.
    pub const ALL: &'static [Refusal] = &[
        Refusal::BadCount,
        Refusal::BadBytes,
        Refusal::BadSize,
        Refusal::BadLength,
        Refusal::BadEntry(0),
        Refusal::NamedTwice(0),
        Refusal::NoSlot,
        Refusal::SourceFree,
        Refusal::SourceHome,
        Refusal::Elsewhere,
        Refusal::TargetTaken,
        Refusal::SomeAway,
        Refusal::TooShort,
        Refusal::FileForm,
        Refusal::FileEnds,
        Refusal::FileLeftOver,
        Refusal::FileRoom,
        Refusal::FileLarge,
        Refusal::BufferShort,
        Refusal::FileGroups,
    ];

    /// The number that the library gives for it, 1 to 20.
    pub fn number(self) -> usize {
        match self {
            Refusal::BadCount => 1,
            Refusal::BadBytes => 2,
            Refusal::BadSize => 3,
            Refusal::BadLength => 4,
            Refusal::BadEntry(_) => 5,
            Refusal::NamedTwice(_) => 6,
            Refusal::NoSlot => 7,
            Refusal::SourceFree => 8,
            Refusal::SourceHome => 9,
            Refusal::Elsewhere => 10,
            Refusal::TargetTaken => 11,
            Refusal::SomeAway => 12,
            Refusal::TooShort => 13,
            Refusal::FileForm => 14,
            Refusal::FileEnds => 15,
            Refusal::FileLeftOver => 16,
            Refusal::FileRoom => 17,
            Refusal::FileLarge => 18,
            Refusal::BufferShort => 19,
            Refusal::FileGroups => 20,
        }
    }

    /// The slot of the entry that is meant; `None` where no entry is.
    pub fn place(self) -> Option<usize> {
        match self {
            Refusal::BadEntry(place) | Refusal::NamedTwice(place) => Some(place),
            _ => None,
        }
    }

    /// The refusal of a number and of the place that goes with it; `None` for 0, which
    /// is done, and above 20. Only 5 and 6 have a place: with the others it is not
    /// looked at.
    pub fn from_number(number: usize, place: usize) -> Option<Refusal> {
        let refusal = *Refusal::ALL.get(number.checked_sub(1)?)?;
        Some(match refusal {
            Refusal::BadEntry(_) => Refusal::BadEntry(place),
            Refusal::NamedTwice(_) => Refusal::NamedTwice(place),
            without => without,
        })
    }

    /// What it says, in the words of the C header's `seineflute_words`. Where these
    /// speak of "an entry", what is printed has "entry 17".
    pub fn words(self) -> &'static str {
        match self {
            Refusal::BadCount => "there are no racks, or more than 64",
            Refusal::BadBytes => "a card has no bytes, or more than 256",
            Refusal::BadSize => {
                "a rack has more than 1,023 user slots, or all racks more than 4,032"
            }
            Refusal::BadLength => {
                "places has not one entry for each slot, or cards not one card for each slot"
            }
            Refusal::BadEntry(_) => "an entry is neither free nor a user slot",
            Refusal::NamedTwice(_) => "an entry repeats an earlier one",
            Refusal::NoSlot => "a slot number in the call is above that of the last slot",
            Refusal::SourceFree => "the source slot is free",
            Refusal::SourceHome => "the source's card is on its rack already",
            Refusal::Elsewhere => "the target is not on the card's destination rack",
            Refusal::TargetTaken => "the target is not free",
            Refusal::SomeAway => "a card is away: its slot is on another rack",
            Refusal::TooShort => "the lent list is too short for what would be written",
            Refusal::FileForm => "file: a number is padded beyond its shortest form",
            Refusal::FileEnds => "file: it ends too early",
            Refusal::FileLeftOver => "file: bytes are left over",
            Refusal::FileRoom => "file: the room for capacities or for places is too short",
            Refusal::FileLarge => "file: it has more than 32,768 bytes",
            Refusal::BufferShort => "the buffer is shorter than the file",
            Refusal::FileGroups => "file: a number has more than three groups",
        }
    }
}

impl fmt::Display for Refusal {
    /// The words, with the entry that they speak of where there is one.
    fn fmt(&self, f: &mut fmt::Formatter<'_>) -> fmt::Result {
        let (number, words) = (self.number(), self.words());
        match (self.place(), words.strip_prefix("an entry")) {
            (Some(place), Some(rest)) => write!(f, "{number}: entry {place}{rest}"),
            _ => write!(f, "{number}: {words}"),
        }
    }
}

impl fmt::Debug for Refusal {
    fn fmt(&self, f: &mut fmt::Formatter<'_>) -> fmt::Result {
        fmt::Display::fmt(self, f)
    }
}

impl Error for Refusal {}

/// What a call has counted; 0 where it does not speak of it.
#[derive(Clone, Copy, Debug, Default, PartialEq, Eq, Hash)]
pub struct Counts {
    /// The plans that had pairs: the whole run alone counts them.
    pub phases: usize,
    /// The moves planned or made.
    pub moves: usize,
    /// The copies listed or made.
    pub copies: usize,
}

/// Whether a slot is a user slot or a rack's spare.
#[derive(Clone, Copy, Debug, PartialEq, Eq, Hash)]
pub enum Kind {
    User,
    Spare,
}

/// What stands in a slot.
#[derive(Clone, Copy, Debug, PartialEq, Eq, Hash)]
pub enum State {
    Free,
    /// The card is in its slot.
    Settled,
    /// The card is on its rack, but not in its slot.
    Unsettled,
    /// The card's slot is on another rack: this one.
    Away(usize),
}

/// The answer to the slot question.
#[derive(Clone, Copy, Debug, PartialEq, Eq, Hash)]
pub struct Slot {
    pub kind: Kind,
    pub state: State,
}

/// What a job file has, beside the capacities and the places.
#[derive(Clone, Copy, Debug, PartialEq, Eq)]
pub struct JobFile<'a> {
    /// N: the capacities at the front of the lent list.
    pub racks: usize,
    /// B: the bytes of a card.
    pub bytes: usize,
    /// S: the places at the front of the lent list.
    pub slots: usize,
    /// The card bytes, S·B of them: the last part of the file.
    pub cards: &'a [u8],
}

/// Done, or the refusal that a number is with its place.
fn outcome<T>(number: usize, place: usize, done: T) -> Result<T, Refusal> {
    if number == 0 {
        return Ok(done);
    }
    Err(Refusal::from_number(number, place).expect("it is proved that a number is at most 20"))
}

fn counted(answer: raw::Answer) -> Result<Counts, Refusal> {
    let counts = Counts {
        phases: answer.phases,
        moves: answer.moves,
        copies: answer.copies,
    };
    outcome(answer.number, answer.place, counts)
}

/// Table check: whether the racks and the table are legal. Refuses with 1, 3, 4, 5 or 6.
pub fn check_table(caps: &[u16], places: &[u16]) -> Result<(), Refusal> {
    counted(raw::check_table(caps, places)).map(|_| ())
}

/// Slot question: what slot `slot` is, and what stands in it. Refuses with 1, 3 to 6, or 7.
pub fn slot_question(caps: &[u16], places: &[u16], slot: usize) -> Result<Slot, Refusal> {
    let answer = raw::slot_question(caps, places, slot);
    let kind = if answer.kind == 1 {
        Kind::User
    } else {
        Kind::Spare
    };
    let state = match answer.state {
        1 => State::Free,
        2 => State::Settled,
        3 => State::Unsettled,
        _ => State::Away(answer.rack),
    };
    outcome(answer.number, answer.place, Slot { kind, state })
}

/// Phase plan: writes the pairs (from, to) of the present phase to the front of
/// `list`, two numbers each, and counts them as moves. [`PLAN_ROOM`] is always
/// room enough. It keeps no table of what racks hold for each other and counts
/// again for each target, so that a small stack is enough. Refuses with 1, 3 to 6,
/// or 13.
pub fn phase_plan(caps: &[u16], places: &[u16], list: &mut [u16]) -> Result<Counts, Refusal> {
    counted(raw::phase_plan(caps, places, list))
}

/// One move: the card in slot `from`, which must be away, to slot `to`, which must
/// be free and on the card's destination rack. The source becomes free and all
/// zero. Refuses with 1 to 11.
pub fn one_move(
    caps: &[u16],
    b: usize,
    places: &mut [u16],
    cards: &mut [u8],
    from: usize,
    to: usize,
) -> Result<Counts, Refusal> {
    counted(raw::one_move(caps, b, places, cards, from, to))
}

/// Budgeted moves: at most `k`, the present phase's pairs in plan order, a new plan
/// when they are used up. The next call plans afresh, and may take other slots than
/// this call's plan had: [to follow a listing](crate#to-follow-a-listing-move-by-move),
/// carry a plan pair by pair. Refuses with 1 to 6.
pub fn budgeted_moves(
    caps: &[u16],
    b: usize,
    places: &mut [u16],
    cards: &mut [u8],
    k: usize,
) -> Result<Counts, Refusal> {
    counted(raw::budgeted_moves(caps, b, places, cards, k))
}

/// Copy list: writes the copies that a shuffle makes to the front of `list`, from
/// and then to, the hand as [`HAND`]. [`COPY_ROOM`] is always room enough. Refuses
/// with 1, 3 to 6, 12 or 13.
pub fn copy_list(caps: &[u16], places: &[u16], list: &mut [u16]) -> Result<Counts, Refusal> {
    counted(raw::copy_list(caps, places, list))
}

/// Shuffle: every card to its slot inside its rack, and every free slot zeroed.
/// Refuses with 1 to 6, or 12.
pub fn shuffle_cards(
    caps: &[u16],
    b: usize,
    places: &mut [u16],
    cards: &mut [u8],
) -> Result<Counts, Refusal> {
    counted(raw::shuffle_cards(caps, b, places, cards))
}

/// Whole run: phases until nothing is away, then the shuffle. Refuses with 1 to 6.
pub fn whole_run(
    caps: &[u16],
    b: usize,
    places: &mut [u16],
    cards: &mut [u8],
) -> Result<Counts, Refusal> {
    counted(raw::whole_run(caps, b, places, cards))
}

/// Job file: writes the capacities and the places to the front of the two lists,
/// and hands back N, B, S and the card bytes as a part of the file. [`MAX_RACKS`]
/// and [`MAX_SLOTS`] are always room enough.
///
/// Each number is checked as it is read: its form (14, 15, 20), then 1, 2, 3 or 5;
/// after the last entry come 6, then 15 or 16 for the card bytes, then 17. The entry
/// that 5 and 6 say is a slot, as in a table, and not a byte of the file.
///
/// ```
/// use seineflute::{read_file, Refusal};
///
/// // One rack of two user slots, cards of one byte; the entries of slots 0 and 1 name
/// // user slot 1.
/// let file = [1, 1, 2, 2, 2, 0, b'x', b'y', 0];
/// let refused = read_file(&file, &mut [0; 1], &mut [0; 3]);
/// assert_eq!(refused, Err(Refusal::NamedTwice(1)));
/// ```
pub fn read_file<'a>(
    file: &'a [u8],
    caps: &mut [u16],
    places: &mut [u16],
) -> Result<JobFile<'a>, Refusal> {
    let answer = raw::read_file(file, caps, places);
    let job = JobFile {
        racks: answer.racks,
        bytes: answer.bytes,
        slots: answer.slots,
        cards: &file[answer.start..],
    };
    outcome(answer.number, answer.place, job)
}

/// Write file: writes to the front of `out` the job file that [`read_file`] reads as
/// this job, and gives its length. What lies behind it is unchanged. A buffer exactly
/// as long is enough; [`WRITE_ROOM`] always is. There is no limit on the length: that
/// of [`MAX_FILE`] is the listing's. Refuses with 1 to 6, or 19.
///
/// ```
/// use seineflute::{write_file, Refusal, FREE};
///
/// // One rack of two user slots and a spare, cards of one byte that change places.
/// let mut out = [0xee; 10];
/// let length = write_file(&[2], 1, &[1, 0, FREE], b"xy\0", &mut out)?;
/// assert_eq!(length, 9);
/// assert_eq!(out, *b"\x01\x01\x02\x02\x01\x00xy\0\xee");
///
/// let short = write_file(&[2], 1, &[1, 0, FREE], b"xy\0", &mut out[..8]);
/// assert_eq!(short, Err(Refusal::BufferShort));
/// # Ok::<(), seineflute::Refusal>(())
/// ```
pub fn write_file(
    caps: &[u16],
    b: usize,
    places: &[u16],
    cards: &[u8],
    out: &mut [u8],
) -> Result<usize, Refusal> {
    let answer = raw::write_file(caps, b, places, cards, out);
    outcome(answer.number, answer.place, answer.size)
}

/// Room for the file of a job: N takes a byte, and B, a capacity or an entry at most two.
const fn file_room(racks: usize, slots: usize, bytes: usize) -> usize {
    3 + 2 * (racks + slots) + bytes
}

/// The job file that [`write_file`] writes, in a list of its own: the one call of this
/// crate that allocates. Refuses with 1 to 6.
///
/// ```
/// use seineflute::{file_of, read_file, FREE};
///
/// // 200 user slots and a spare: a number above 127 takes two bytes.
/// let mut table = [FREE; 201];
/// table[3] = 150;
/// let file = file_of(&[200], 2, &table, &[7; 402])?;
/// assert_eq!(file[..8], [1, 2, 0xc8, 0x01, 0, 0, 0, 0x97]);
///
/// let (mut caps, mut places) = ([0; 1], [0; 201]);
/// let job = read_file(&file, &mut caps, &mut places)?;
/// assert_eq!((job.racks, job.bytes, job.slots), (1, 2, 201));
/// assert_eq!((caps, places), ([200], table));
/// assert_eq!(job.cards, [7; 402]);
/// # Ok::<(), seineflute::Refusal>(())
/// ```
pub fn file_of(caps: &[u16], b: usize, places: &[u16], cards: &[u8]) -> Result<Vec<u8>, Refusal> {
    // A job with longer lists than these is refused.
    let racks = caps.len().min(MAX_RACKS);
    let slots = places.len().min(MAX_SLOTS);
    let bytes = cards.len().min(MAX_SLOTS * MAX_BYTES);
    let mut file = vec![0; file_room(racks, slots, bytes)];
    let length = write_file(caps, b, places, cards, &mut file)?;
    file.truncate(length);
    Ok(file)
}

/// Listing: writes to the front of `out` the text that the program *shelve* prints
/// for a job file, and hands that part back. [`TEXT_ROOM`] is always room enough.
///
/// The text of a file that the reader refuses, or that is above [`MAX_FILE`] (18),
/// is the line `refused` with the number; it is a text like any other. Which entry is
/// meant is not in the line: [`read_file`] says it. The call itself refuses with 13
/// alone, where `out` is too short for the text.
///
/// ```
/// let mut out = vec![0; seineflute::TEXT_ROOM];
/// let text = seineflute::list_job(&[1, 1, 1, 2, 0, 65, 66], &mut out)?;
/// assert_eq!(text, b"refused 5\n");
/// # Ok::<(), seineflute::Refusal>(())
/// ```
pub fn list_job<'a>(file: &[u8], out: &'a mut [u8]) -> Result<&'a [u8], Refusal> {
    let answer = raw::list_job(file, out);
    outcome(answer.number, answer.place, &out[..answer.size])
}
