//! The calls of `tests/plain` written for speed, without any proof: what a
//! benchmark holds the proved library against. Safe Rust, and nothing on the
//! heap but in a listing.
//!
//! No phase is planned from the table anew. A card that is away moves only to
//! its rack, so who arrives at a rack, and in which order, is fixed when a
//! call begins: by source rack and then source slot is simply by slot. Each
//! rack keeps that queue, and a phase takes from its front as many cards as
//! the rack has free slots.

#![allow(dead_code)]

pub use seineflute::raw::{Answer, FileAnswer, SizeAnswer, SlotAnswer};
use std::cmp::Ordering;
use std::mem::replace;
use std::ops::Range;

const RACKS: usize = 64;
const SLOTS: usize = 4_096;
const MAX_CARD: usize = 256;
const MAX_CAPACITY: u16 = 1_023;
const MAX_TOTAL: usize = 4_032;
const MAX_PROGRAM_FILE: usize = 32_768;
const FREE: u16 = 65_535;
const HAND: u16 = 65_534;

/// No slot: nothing comes to this one.
const NONE: u16 = 65_535;

/// Every slot number is below `SLOTS`; saying so with a mask lets the compiler
/// drop the bounds check of an array of that length.
const SLOT_MASK: usize = SLOTS - 1;
const RACK_MASK: usize = RACKS - 1;

/// Why a call does nothing: the number, and the place that goes with 5 and 6.
struct Refused {
    number: usize,
    place: usize,
}

/// All else of an answer is 0.
macro_rules! say_refused {
    ($($answer:ident),*) => {
        $(impl From<Refused> for $answer {
            #[inline]
            fn from(Refused { number, place }: Refused) -> $answer {
                $answer {
                    number,
                    place,
                    ..$answer::default()
                }
            }
        })*
    };
}

say_refused!(Answer, SlotAnswer, FileAnswer, SizeAnswer);

/// A number that has no place, as a refusal or as the answer that says so.
#[inline]
fn refused<A: From<Refused>>(number: usize) -> A {
    Refused { number, place: 0 }.into()
}

// ---------------------------------------------------------------------------
// Checks

/// Where the racks begin.
struct Layout {
    racks: usize,
    slots: usize,
    /// base[p] is rack p's first slot, base[p + 1] the slot behind its spare.
    base: [u16; RACKS + 1],
}

impl Layout {
    /// After 1: gives 3.
    #[inline]
    fn new(caps: &[u16]) -> Result<Layout, Refused> {
        let mut base = [0; RACKS + 1];
        let mut slots = 0;
        for (p, &m) in caps.iter().enumerate() {
            if m > MAX_CAPACITY {
                return Err(refused(3));
            }
            slots += usize::from(m) + 1;
            // At most 64 times 1,024: the last sum may not fit, but then it is
            // refused below.
            base[p + 1] = slots as u16;
        }
        if slots - caps.len() > MAX_TOTAL {
            return Err(refused(3));
        }
        Ok(Layout {
            racks: caps.len(),
            slots,
            base,
        })
    }

    #[inline]
    fn range(&self, p: usize) -> Range<usize> {
        usize::from(self.base[p])..usize::from(self.base[p + 1])
    }

    #[inline]
    fn spare(&self, p: usize) -> usize {
        usize::from(self.base[p + 1]) - 1
    }

    /// The rack of one slot; for all slots `fill_racks` is the faster way.
    #[inline]
    fn rack_of(&self, slot: usize) -> usize {
        self.base[1..=self.racks].partition_point(|&next| usize::from(next) <= slot)
    }

    fn is_user_slot(&self, slot: usize) -> bool {
        slot < self.slots && slot != self.spare(self.rack_of(slot))
    }

    #[inline]
    fn fill_racks(&self, rack_of: &mut [u8; SLOTS]) {
        for p in 0..self.racks {
            rack_of[self.range(p)].fill(p as u8);
        }
    }
}

#[inline]
fn check_racks(racks: usize) -> Result<(), Refused> {
    if racks == 0 || racks > RACKS {
        Err(refused(1))
    } else {
        Ok(())
    }
}

#[inline]
fn check_card(b: usize) -> Result<(), Refused> {
    if b == 0 || b > MAX_CARD {
        Err(refused(2))
    } else {
        Ok(())
    }
}

const NAMED: u8 = 1;
const SPARE: u8 = 2;

/// 5 and 6. Two passes without a branch: the first, for entries outside the
/// slots, is a vector loop; the second marks what is named. Neither says where:
/// only a table that is refused is looked through for that.
#[inline]
fn check_entries(layout: &Layout, places: &[u16]) -> Result<(), Refused> {
    let top = layout.slots as u16;
    let mut outside = false;
    for &entry in places {
        outside |= (entry >= top) & (entry != FREE);
    }
    if outside {
        return Err(bad_entry(layout, places));
    }

    // A free slot has a mark of its own in the upper half. One for all of them
    // would make every mark wait for the one before it.
    let mut marks = [0u8; 2 * SLOTS];
    for p in 0..layout.racks {
        marks[layout.spare(p)] = SPARE;
    }
    let mut found = 0;
    for (g, &entry) in places.iter().enumerate() {
        let at = if entry == FREE {
            SLOTS + g
        } else {
            usize::from(entry)
        };
        let mark = &mut marks[at & (2 * SLOTS - 1)];
        found |= *mark;
        *mark |= NAMED;
    }
    if found & SPARE != 0 {
        Err(bad_entry(layout, places))
    } else if found & NAMED != 0 {
        Err(repeated_entry(places))
    } else {
        Ok(())
    }
}

/// 5 of a table that has a bad entry, with the lowest of them.
#[cold]
fn bad_entry(layout: &Layout, places: &[u16]) -> Refused {
    let bad = |&entry: &u16| entry != FREE && !layout.is_user_slot(usize::from(entry));
    let place = places.iter().position(bad).expect("an entry is bad");
    Refused { number: 5, place }
}

/// 6 of a table of slots that names one twice, with the lowest entry that
/// repeats an earlier one.
#[cold]
fn repeated_entry(places: &[u16]) -> Refused {
    let mut named = [false; SLOTS];
    let repeats = |&entry: &u16| entry != FREE && replace(&mut named[usize::from(entry)], true);
    let place = places.iter().position(repeats).expect("an entry repeats");
    Refused { number: 6, place }
}

#[inline]
fn check_job(caps: &[u16], places: &[u16]) -> Result<Layout, Refused> {
    check_racks(caps.len())?;
    let layout = Layout::new(caps)?;
    if places.len() != layout.slots {
        return Err(refused(4));
    }
    check_entries(&layout, places)?;
    Ok(layout)
}

#[inline]
fn check_job_with_cards(
    caps: &[u16],
    b: usize,
    places: &[u16],
    cards: &[u8],
) -> Result<Layout, Refused> {
    check_racks(caps.len())?;
    check_card(b)?;
    let layout = Layout::new(caps)?;
    if places.len() != layout.slots || cards.len() != layout.slots * b {
        return Err(refused(4));
    }
    check_entries(&layout, places)?;
    Ok(layout)
}

/// 12, rack by rack: an entry on its own rack lies in the rack's range, which
/// one comparison sees.
#[inline]
fn check_nothing_away(layout: &Layout, places: &[u16]) -> Result<(), Refused> {
    let mut away = false;
    for p in 0..layout.racks {
        let base = layout.base[p];
        let length = layout.base[p + 1] - base;
        for &entry in &places[layout.range(p)] {
            away |= (entry.wrapping_sub(base) >= length) & (entry != FREE);
        }
    }
    if away {
        Err(refused(12))
    } else {
        Ok(())
    }
}

// ---------------------------------------------------------------------------
// Cards

/// Copies W bytes through a local array: no overlap test, no call, and for the
/// larger ones vector loads and stores.
#[inline(always)]
fn copy_fixed<const W: usize>(cards: &mut [u8], from: usize, to: usize) {
    let mut part = [0; W];
    part.copy_from_slice(&cards[from..from + W]);
    cards[to..to + W].copy_from_slice(&part);
}

/// A card of W to 2W bytes: its first W and its last W, which may overlap.
#[inline(always)]
fn copy_ends<const W: usize>(cards: &mut [u8], b: usize, from: usize, to: usize) {
    copy_fixed::<W>(cards, from, to);
    copy_fixed::<W>(cards, from + b - W, to + b - W);
}

#[inline(always)]
fn copy_card(cards: &mut [u8], b: usize, from: usize, to: usize) {
    let (from, to) = (from * b, to * b);
    match b {
        1 => cards[to] = cards[from],
        2 | 3 => copy_ends::<2>(cards, b, from, to),
        4..=7 => copy_ends::<4>(cards, b, from, to),
        8..=15 => copy_ends::<8>(cards, b, from, to),
        16..=31 => copy_ends::<16>(cards, b, from, to),
        32..=64 => copy_ends::<32>(cards, b, from, to),
        _ => cards.copy_within(from..from + b, to),
    }
}

#[inline(always)]
fn zero_ends<const W: usize>(card: &mut [u8]) {
    let b = card.len();
    card[..W].fill(0);
    card[b - W..].fill(0);
}

#[inline(always)]
fn zero_card(cards: &mut [u8], b: usize, slot: usize) {
    let card = &mut cards[slot * b..(slot + 1) * b];
    match b {
        1 => card[0] = 0,
        2 | 3 => zero_ends::<2>(card),
        4..=7 => zero_ends::<4>(card),
        8..=15 => zero_ends::<8>(card),
        16..=31 => zero_ends::<16>(card),
        32..=64 => zero_ends::<32>(card),
        _ => card.fill(0),
    }
}

// ---------------------------------------------------------------------------
// Phases

struct Phases {
    racks: usize,
    rack_of: [u8; SLOTS],
    /// The slots of the cards away to p, ascending, from p's base on: at most
    /// as many cards are bound for p as it has user slots.
    queue: [u16; SLOTS],
    /// Beside each card of the queues the slot that the present plan gives it.
    target: [u16; SLOTS],
    /// The first card of p's queue that has not moved, and the queue's end.
    next: [u16; RACKS],
    end: [u16; RACKS],
    /// How many cards of p's queue the present plan moves.
    granted: [u16; RACKS],
    /// How many free slots of p no plan has given away, which they are, a bit
    /// for each slot, and a mark below which p has none.
    free: [u16; RACKS],
    free_bits: [u64; SLOTS / 64],
    low: [u16; RACKS],
}

/// Takes the lowest free slot at or above `low`. There is one: a rack grants
/// no more cards than it has free slots.
#[inline(always)]
fn take_lowest(free_bits: &mut [u64; SLOTS / 64], low: usize) -> usize {
    let mut word = low / 64 % (SLOTS / 64);
    let mut bits = free_bits[word] & (!0 << (low % 64));
    while bits == 0 {
        word += 1;
        bits = free_bits[word];
    }
    let lowest = bits & bits.wrapping_neg();
    free_bits[word] ^= lowest;
    64 * word + lowest.trailing_zeros() as usize
}

impl Phases {
    #[inline(always)]
    fn new(layout: &Layout, places: &[u16]) -> Phases {
        let mut phases = Phases {
            racks: layout.racks,
            rack_of: [0; SLOTS],
            queue: [0; SLOTS],
            target: [0; SLOTS],
            next: [0; RACKS],
            end: [0; RACKS],
            granted: [0; RACKS],
            free: [0; RACKS],
            free_bits: [0; SLOTS / 64],
            low: [0; RACKS],
        };
        layout.fill_racks(&mut phases.rack_of);
        phases.next.copy_from_slice(&layout.base[..RACKS]);
        phases.low = phases.next;
        phases.end = phases.next;
        for p in 0..layout.racks {
            let range = layout.range(p);
            let first = range.start;
            let mut free = 0;
            for (offset, &entry) in places[range].iter().enumerate() {
                let is_free = entry == FREE;
                let to = usize::from(phases.rack_of[usize::from(entry) & SLOT_MASK]) & RACK_MASK;
                // Written for every slot, kept only for a card that is away:
                // one place behind the queue still is a slot of its rack.
                let end = phases.end[to];
                phases.queue[usize::from(end) & SLOT_MASK] = (first + offset) as u16;
                phases.end[to] = end + u16::from(!is_free & (to != p));
                free += u16::from(is_free);
            }
            phases.free[p] = free;
        }
        for (bits, entries) in phases.free_bits.iter_mut().zip(places.chunks(64)) {
            for (bit, &entry) in entries.iter().enumerate() {
                *bits |= u64::from(entry == FREE) << bit;
            }
        }
        phases
    }

    /// Plans a phase and gives the number of its pairs. No card moves here, so
    /// slots that empty in this phase are not taken in it.
    #[inline]
    fn plan(&mut self) -> usize {
        let mut pairs = 0;
        for p in 0..self.racks {
            let granted = (self.end[p] - self.next[p]).min(self.free[p]);
            self.granted[p] = granted;
            if granted == 0 {
                continue;
            }
            self.free[p] -= granted;
            pairs += usize::from(granted);
            let next = usize::from(self.next[p]);
            let mut slot = usize::from(self.low[p]);
            for target in &mut self.target[next..next + usize::from(granted)] {
                slot = take_lowest(&mut self.free_bits, slot);
                *target = slot as u16;
            }
            self.low[p] = slot as u16;
        }
        pairs
    }

    /// Where the cards of the present plan stand in p's queue.
    #[inline]
    fn present(&self, p: usize) -> Range<usize> {
        let next = usize::from(self.next[p]);
        next..next + usize::from(self.granted[p])
    }

    /// The pairs of the present plan, in plan order.
    fn pairs(&self) -> impl Iterator<Item = (u16, u16)> + '_ {
        (0..self.racks).flat_map(move |p| {
            let range = self.present(p);
            self.queue[range.clone()]
                .iter()
                .copied()
                .zip(self.target[range].iter().copied())
        })
    }

    /// Carries the present plan's pairs in order, at most `allowance`.
    #[inline]
    fn carry(&mut self, places: &mut [u16], cards: &mut [u8], b: usize, allowance: usize) {
        let mut left = allowance;
        for p in 0..self.racks {
            let granted = usize::from(self.granted[p]).min(left);
            left -= granted;
            let next = usize::from(self.next[p]);
            for at in next..next + granted {
                let from = usize::from(self.queue[at & SLOT_MASK]);
                let to = usize::from(self.target[at & SLOT_MASK]);
                places[to] = places[from];
                places[from] = FREE;
                copy_card(cards, b, from, to);
                zero_card(cards, b, from);
                let source = usize::from(self.rack_of[from & SLOT_MASK]) & RACK_MASK;
                self.free[source] += 1;
                self.free_bits[from / 64 % (SLOTS / 64)] |= 1 << (from % 64);
                self.low[source] = self.low[source].min(from as u16);
            }
            self.next[p] += granted as u16;
        }
    }
}

// ---------------------------------------------------------------------------
// Copies

/// For each slot the slot whose card is bound for it; one place more, that no
/// one reads, takes the free slots.
struct Coming([u16; SLOTS + 1]);

impl Coming {
    #[inline(always)]
    fn new(places: &[u16]) -> Coming {
        let mut coming = [NONE; SLOTS + 1];
        for (g, &entry) in places.iter().enumerate() {
            coming[usize::from(entry).min(SLOTS)] = g as u16;
        }
        Coming(coming)
    }

    #[inline(always)]
    fn to(&self, slot: usize) -> u16 {
        self.0[slot & SLOT_MASK]
    }
}

/// Calls `step` for each copy, in the order of the list.
#[inline(always)]
fn each_copy(places: &[u16], coming: &Coming, mut step: impl FnMut(u16, u16)) {
    let mut done = [false; SLOTS];
    for lowest in 0..places.len() {
        let settled = usize::from(places[lowest]) == lowest;
        let lone = places[lowest] == FREE && coming.to(lowest) == NONE;
        if done[lowest & SLOT_MASK] || settled || lone {
            continue;
        }
        let mut last = lowest;
        while places[last] != FREE && usize::from(places[last]) != lowest {
            last = usize::from(places[last]);
        }
        let cycle = places[last] != FREE;
        if cycle {
            step(last as u16, HAND);
        }
        let mut to = last;
        done[to & SLOT_MASK] = true;
        while !(cycle && to == lowest) {
            let from = coming.to(to);
            if from == NONE {
                break;
            }
            step(from, to as u16);
            to = usize::from(from);
            done[to & SLOT_MASK] = true;
        }
        if cycle {
            step(HAND, lowest as u16);
        }
    }
}

/// A list of the slots that something holds for, made without a branch for
/// each slot: on a table half full such a branch is a coin toss.
struct Chosen([u16; SLOTS]);

impl Chosen {
    #[inline(always)]
    fn slots(&mut self, slots: usize, holds: impl Fn(usize) -> bool) -> &[u16] {
        let mut chosen = 0;
        for g in 0..slots {
            self.0[chosen & SLOT_MASK] = g as u16;
            chosen += usize::from(holds(g));
        }
        &self.0[..chosen]
    }
}

/// The shuffle. The factors do not touch each other, so what is left does not
/// depend on their order: shifts first, from each free end backwards; what is
/// unsettled after them lies in cycles.
#[inline]
fn run_copies(places: &mut [u16], cards: &mut [u8], b: usize) -> usize {
    let coming = Coming::new(places);
    let mut copies = 0;
    let mut chosen = Chosen([0; SLOTS]);

    for &end in chosen.slots(places.len(), |g| {
        (places[g] == FREE) & (coming.to(g) != NONE)
    }) {
        let mut to = usize::from(end);
        loop {
            let from = coming.to(to);
            if from == NONE {
                break;
            }
            copy_card(cards, b, usize::from(from), to);
            places[to] = to as u16;
            copies += 1;
            to = usize::from(from);
        }
        places[to] = FREE;
    }

    let mut hand = [0; MAX_CARD];
    for &first in chosen.slots(places.len(), |g| {
        (places[g] != FREE) & (usize::from(places[g]) != g)
    }) {
        let first = usize::from(first);
        if usize::from(places[first]) == first {
            // settled by the cycle of a lower slot
            continue;
        }
        let mut to = usize::from(coming.to(first));
        hand[..b].copy_from_slice(&cards[to * b..(to + 1) * b]);
        while to != first {
            let from = usize::from(coming.to(to));
            copy_card(cards, b, from, to);
            places[to] = to as u16;
            copies += 1;
            to = from;
        }
        cards[first * b..(first + 1) * b].copy_from_slice(&hand[..b]);
        places[first] = first as u16;
        copies += 2;
    }

    for &slot in chosen.slots(places.len(), |g| places[g] == FREE) {
        zero_card(cards, b, usize::from(slot));
    }
    copies
}

// ---------------------------------------------------------------------------
// The calls

pub fn check_table(caps: &[u16], places: &[u16]) -> Answer {
    match check_job(caps, places) {
        Ok(_) => Answer::default(),
        Err(refused) => refused.into(),
    }
}

pub fn slot_question(caps: &[u16], places: &[u16], slot: usize) -> SlotAnswer {
    let layout = match check_job(caps, places) {
        Ok(layout) => layout,
        Err(refused) => return refused.into(),
    };
    if slot >= layout.slots {
        return refused(7);
    }
    let own = layout.rack_of(slot);
    let entry = places[slot];
    let (state, rack) = if entry == FREE {
        (1, 0)
    } else if usize::from(entry) == slot {
        (2, 0)
    } else {
        match layout.rack_of(usize::from(entry)) {
            rack if rack == own => (3, 0),
            rack => (4, rack),
        }
    };
    SlotAnswer {
        kind: 1 + usize::from(slot == layout.spare(own)),
        state,
        rack,
        ..SlotAnswer::default()
    }
}

pub fn phase_plan(caps: &[u16], places: &[u16], list: &mut [u16]) -> Answer {
    let layout = match check_job(caps, places) {
        Ok(layout) => layout,
        Err(refused) => return refused.into(),
    };
    let mut phases = Phases::new(&layout, places);
    let moves = phases.plan();
    write_plan(&phases, moves, list)
}

/// The phase plan as the library made it before 0.5.0: how many pairs there are
/// is counted by a table of what each rack owes each other, and only the pairs
/// themselves come from the queues, which know as much.
pub fn phase_plan_before(caps: &[u16], places: &[u16], list: &mut [u16]) -> Answer {
    let layout = match check_job(caps, places) {
        Ok(layout) => layout,
        Err(refused) => return refused.into(),
    };
    let mut phases = Phases::new(&layout, places);
    let moves = count_grants(&layout, &phases, places);
    phases.plan();
    write_plan(&phases, moves, list)
}

/// How many cards the racks grant, each to its sources in turn.
#[inline(always)]
fn count_grants(layout: &Layout, phases: &Phases, places: &[u16]) -> usize {
    let mut owes = [0u16; RACKS * RACKS];
    for p in 0..layout.racks {
        for &entry in &places[layout.range(p)] {
            let to = usize::from(phases.rack_of[usize::from(entry) & SLOT_MASK]) & RACK_MASK;
            owes[p * RACKS + to] += u16::from((entry != FREE) & (to != p));
        }
    }
    let mut granted = 0;
    for p in 0..layout.racks {
        let mut room = phases.free[p];
        for i in 0..layout.racks {
            room -= room.min(owes[i * RACKS + p]);
        }
        granted += usize::from(phases.free[p] - room);
    }
    granted
}

/// Writes the pairs of the present plan, which are so many.
#[inline(always)]
fn write_plan(phases: &Phases, moves: usize, list: &mut [u16]) -> Answer {
    if list.len() < 2 * moves {
        return refused(13);
    }
    // Rack by rack and not over `pairs`: a tenth faster.
    let mut written = 0;
    for p in 0..phases.racks {
        let range = phases.present(p);
        let pairs = phases.queue[range.clone()]
            .iter()
            .zip(&phases.target[range]);
        for ((&from, &to), two) in pairs.zip(list[written..].chunks_exact_mut(2)) {
            two[0] = from;
            two[1] = to;
        }
        written += 2 * usize::from(phases.granted[p]);
    }
    Answer {
        moves,
        ..Answer::default()
    }
}

pub fn one_move(
    caps: &[u16],
    b: usize,
    places: &mut [u16],
    cards: &mut [u8],
    from: usize,
    to: usize,
) -> Answer {
    let layout = match check_job_with_cards(caps, b, places, cards) {
        Ok(layout) => layout,
        Err(refused) => return refused.into(),
    };
    if from >= layout.slots || to >= layout.slots {
        return refused(7);
    }
    let entry = places[from];
    if entry == FREE {
        return refused(8);
    }
    let bound = layout.rack_of(usize::from(entry));
    if layout.range(bound).contains(&from) {
        return refused(9);
    }
    if !layout.range(bound).contains(&to) {
        return refused(10);
    }
    if places[to] != FREE {
        return refused(11);
    }
    places[to] = entry;
    places[from] = FREE;
    copy_card(cards, b, from, to);
    zero_card(cards, b, from);
    Answer {
        moves: 1,
        ..Answer::default()
    }
}

pub fn budgeted_moves(
    caps: &[u16],
    b: usize,
    places: &mut [u16],
    cards: &mut [u8],
    k: usize,
) -> Answer {
    let layout = match check_job_with_cards(caps, b, places, cards) {
        Ok(layout) => layout,
        Err(refused) => return refused.into(),
    };
    let mut moves = 0;
    if k > 0 {
        let mut phases = Phases::new(&layout, places);
        while moves < k {
            let pairs = phases.plan();
            if pairs == 0 {
                break;
            }
            phases.carry(places, cards, b, k - moves);
            moves += pairs.min(k - moves);
        }
    }
    Answer {
        moves,
        ..Answer::default()
    }
}

pub fn copy_list(caps: &[u16], places: &[u16], list: &mut [u16]) -> Answer {
    let checked = check_job(caps, places).and_then(|layout| check_nothing_away(&layout, places));
    if let Err(refused) = checked {
        return refused.into();
    }
    let coming = Coming::new(places);
    // Each unsettled card is one copy and each cycle, of two cards or more,
    // one on top. Only a list shorter than that bound needs the exact number
    // before anything is written.
    let mut unsettled = 0;
    for (g, &entry) in places.iter().enumerate() {
        unsettled += usize::from((entry != FREE) & (usize::from(entry) != g));
    }
    if list.len() < 2 * (unsettled + unsettled / 2) {
        let mut needed = 0;
        each_copy(places, &coming, |_, _| needed += 2);
        if list.len() < needed {
            return refused(13);
        }
    }
    let mut copies = 0;
    each_copy(places, &coming, |from, to| {
        list[2 * copies] = from;
        list[2 * copies + 1] = to;
        copies += 1;
    });
    Answer {
        copies,
        ..Answer::default()
    }
}

pub fn shuffle_cards(caps: &[u16], b: usize, places: &mut [u16], cards: &mut [u8]) -> Answer {
    let checked = check_job_with_cards(caps, b, places, cards)
        .and_then(|layout| check_nothing_away(&layout, places));
    if let Err(refused) = checked {
        return refused.into();
    }
    Answer {
        copies: run_copies(places, cards, b),
        ..Answer::default()
    }
}

pub fn whole_run(caps: &[u16], b: usize, places: &mut [u16], cards: &mut [u8]) -> Answer {
    let layout = match check_job_with_cards(caps, b, places, cards) {
        Ok(layout) => layout,
        Err(refused) => return refused.into(),
    };
    let mut tally = Answer::default();
    let mut phases = Phases::new(&layout, places);
    loop {
        let pairs = phases.plan();
        if pairs == 0 {
            break;
        }
        phases.carry(places, cards, b, pairs);
        tally.phases += 1;
        tally.moves += pairs;
    }
    tally.copies = run_copies(places, cards, b);
    tally
}

// ---------------------------------------------------------------------------
// Job files

/// What a file holds, in lists of the largest job's length.
struct Job {
    layout: Layout,
    caps: [u16; RACKS],
    b: usize,
    places: [u16; SLOTS],
    /// where the card bytes begin in the file
    start: usize,
}

/// Takes a byte of a number.
#[inline(always)]
fn read_group(file: &[u8], at: &mut usize) -> Result<u8, Refused> {
    let byte = *file.get(*at).ok_or_else(|| refused(15))?;
    *at += 1;
    Ok(byte)
}

#[inline(always)]
fn read_number(file: &[u8], at: &mut usize) -> Result<usize, Refused> {
    let byte = read_group(file, at)?;
    if byte < 0x80 {
        return Ok(usize::from(byte));
    }
    let low = usize::from(byte & 0x7f);
    let byte = read_group(file, at)?;
    if byte < 0x80 {
        return if byte == 0 {
            Err(refused(14))
        } else {
            Ok(low | usize::from(byte) << 7)
        };
    }
    let middle = usize::from(byte & 0x7f) << 7;
    let byte = read_group(file, at)?;
    match byte {
        0 => Err(refused(14)),
        1..0x80 => Ok(low | middle | usize::from(byte) << 14),
        _ => Err(refused(20)),
    }
}

/// All of the reader's checks but 17.
#[inline(always)]
fn read_job(file: &[u8]) -> Result<Job, Refused> {
    let mut at = 0;
    let racks = read_number(file, &mut at)?;
    check_racks(racks)?;
    let b = read_number(file, &mut at)?;
    check_card(b)?;

    let mut caps = [0; RACKS];
    let mut total = 0;
    for m in &mut caps[..racks] {
        let number = read_number(file, &mut at)?;
        total += number;
        if number > usize::from(MAX_CAPACITY) || total > MAX_TOTAL {
            return Err(refused(3));
        }
        *m = number as u16;
    }
    let layout = Layout::new(&caps[..racks])?;

    let mut marks = [0u8; SLOTS];
    for p in 0..racks {
        marks[layout.spare(p)] = SPARE;
    }
    let mut places = [FREE; SLOTS];
    let mut found = 0;
    for entry in &mut places[..layout.slots] {
        let number = read_number(file, &mut at)?;
        if number == 0 {
            continue;
        }
        let slot = number - 1;
        let mark = &mut marks[slot & SLOT_MASK];
        if slot >= layout.slots || *mark & SPARE != 0 {
            // The first bad one, and found as such: the hand is no user slot.
            *entry = HAND;
            return Err(bad_entry(&layout, &places[..layout.slots]));
        }
        found |= *mark;
        *mark = NAMED;
        *entry = slot as u16;
    }
    if found != 0 {
        return Err(repeated_entry(&places[..layout.slots]));
    }

    let left = file.len() - at;
    let wanted = layout.slots * b;
    match left.cmp(&wanted) {
        Ordering::Less => Err(refused(15)),
        Ordering::Greater => Err(refused(16)),
        Ordering::Equal => Ok(Job {
            layout,
            caps,
            b,
            places,
            start: at,
        }),
    }
}

pub fn read_file(file: &[u8], caps: &mut [u16], places: &mut [u16]) -> FileAnswer {
    let job = match read_job(file) {
        Ok(job) => job,
        Err(refused) => return refused.into(),
    };
    let (racks, slots) = (job.layout.racks, job.layout.slots);
    if caps.len() < racks || places.len() < slots {
        return refused(17);
    }
    caps[..racks].copy_from_slice(&job.caps[..racks]);
    places[..slots].copy_from_slice(&job.places[..slots]);
    FileAnswer {
        racks,
        bytes: job.b,
        slots,
        start: job.start,
        ..FileAnswer::default()
    }
}

/// The number that stands in a file for an entry: 65,535 plus 1 is 0 here.
#[inline(always)]
fn entry_in_file(entry: u16) -> u16 {
    entry.wrapping_add(1)
}

/// How many of the numbers, all below 16,384, take a second group.
#[inline]
fn second_groups(numbers: impl Iterator<Item = u16>) -> usize {
    // A count of 16 bits, as the numbers are: a vector loop without widening.
    let count: u16 = numbers.map(|number| u16::from(number >= 0x80)).sum();
    usize::from(count)
}

/// The bytes of a number below 16,384, the first the lowest, and how many they
/// are. Without a branch: on a table half full it would be a coin toss.
#[inline(always)]
fn in_groups(number: u16) -> (u16, usize) {
    let second = u16::from(number >= 0x80);
    let bytes = (number & 0x7f) | second << 7 | (number >> 7) << 8;
    (bytes, 1 + usize::from(second))
}

/// Puts a number at a byte and gives the byte behind it. Two bytes are
/// written always; what comes next, the card bytes at last, takes the second
/// where it is none of the number's.
#[inline(always)]
fn put_number(file: &mut [u8], at: usize, number: u16) -> usize {
    let (bytes, length) = in_groups(number);
    file[at..at + 2].copy_from_slice(&bytes.to_le_bytes());
    at + length
}

/// The same for four entries in one word. It fits in the file: they take four
/// bytes or more, and behind them is a card byte or more for each.
#[inline(always)]
fn put_four(file: &mut [u8], at: usize, entries: &[u16]) -> usize {
    let mut word = 0;
    let mut length = 0;
    for &entry in entries {
        let (bytes, more) = in_groups(entry_in_file(entry));
        word |= u64::from(bytes) << (8 * length);
        length += more;
    }
    file[at..at + 8].copy_from_slice(&word.to_le_bytes());
    at + length
}

/// The length of the file of a job that was checked.
#[inline]
fn file_length(caps: &[u16], b: usize, places: &[u16], cards: &[u8]) -> usize {
    // N is one group, and B is two from 128 on.
    let head = 2 + usize::from(b >= 0x80);
    let caps_second = second_groups(caps.iter().copied());
    let places_second = second_groups(places.iter().map(|&entry| entry_in_file(entry)));
    head + caps.len() + caps_second + places.len() + places_second + cards.len()
}

/// Puts the file of a job that was checked where it fits exactly.
#[inline]
fn put_file(file: &mut [u8], caps: &[u16], b: usize, places: &[u16], cards: &[u8]) {
    let mut at = 0;
    for &number in [caps.len() as u16, b as u16].iter().chain(caps) {
        at = put_number(file, at, number);
    }
    let fours = places.chunks_exact(4);
    let rest = fours.remainder();
    for four in fours {
        at = put_four(file, at, four);
    }
    for &entry in rest {
        at = put_number(file, at, entry_in_file(entry));
    }
    file[at..].copy_from_slice(cards);
}

/// A refusal writes nothing, so the length is counted before.
pub fn write_file(
    caps: &[u16],
    b: usize,
    places: &[u16],
    cards: &[u8],
    buffer: &mut [u8],
) -> SizeAnswer {
    if let Err(refused) = check_job_with_cards(caps, b, places, cards) {
        return refused.into();
    }
    let length = file_length(caps, b, places, cards);
    let Some(file) = buffer.get_mut(..length) else {
        return refused(19);
    };
    put_file(file, caps, b, places, cards);
    SizeAnswer {
        size: length,
        ..SizeAnswer::default()
    }
}

// ---------------------------------------------------------------------------
// The program's listing

pub fn list_job(file: &[u8], out: &mut [u8]) -> SizeAnswer {
    let text = listing(file).unwrap_or_else(|refused| {
        let mut text = b"refused ".to_vec();
        push_number(&mut text, refused.number);
        text.push(b'\n');
        text
    });
    if out.len() < text.len() {
        return refused(13);
    }
    out[..text.len()].copy_from_slice(&text);
    SizeAnswer {
        size: text.len(),
        ..SizeAnswer::default()
    }
}

/// Nothing may be written where the text does not fit, so it is made in full.
fn listing(file: &[u8]) -> Result<Vec<u8>, Refused> {
    if file.len() > MAX_PROGRAM_FILE {
        return Err(refused(18));
    }
    let mut job = read_job(file)?;
    let b = job.b;
    let places = &mut job.places[..job.layout.slots];
    let mut cards = file[job.start..].to_vec();
    let mut text = Vec::with_capacity(64 + 2 * cards.len() + 21 * places.len());

    let mut phases = Phases::new(&job.layout, places);
    let mut count = 0;
    let mut moves = 0;
    loop {
        let pairs = phases.plan();
        if pairs == 0 {
            break;
        }
        count += 1;
        moves += pairs;
        text.extend_from_slice(b"phase ");
        push_number(&mut text, count);
        text.push(b':');
        for (from, to) in phases.pairs() {
            push_pair(&mut text, from, to);
        }
        text.push(b'\n');
        phases.carry(places, &mut cards, b, pairs);
    }

    text.extend_from_slice(b"copies:");
    each_copy(places, &Coming::new(places), |from, to| {
        push_pair(&mut text, from, to);
    });
    let copies = run_copies(places, &mut cards, b);

    text.extend_from_slice(b"\ncards:");
    for card in cards.chunks_exact(b) {
        text.push(b' ');
        for byte in card {
            text.push(hex_digit(byte >> 4));
            text.push(hex_digit(byte & 15));
        }
    }
    text.extend_from_slice(b"\nend: phases ");
    push_number(&mut text, count);
    text.extend_from_slice(b" moves ");
    push_number(&mut text, moves);
    text.extend_from_slice(b" copies ");
    push_number(&mut text, copies);
    text.push(b'\n');
    Ok(text)
}

fn push_pair(text: &mut Vec<u8>, from: u16, to: u16) {
    text.push(b' ');
    push_slot(text, from);
    text.push(b'>');
    push_slot(text, to);
}

fn push_slot(text: &mut Vec<u8>, slot: u16) {
    if slot == HAND {
        text.push(b'h');
    } else {
        push_number(text, usize::from(slot));
    }
}

/// In decimal. No number of a listing has more than five digits.
fn push_number(text: &mut Vec<u8>, number: usize) {
    let mut digits = [0; 5];
    let mut first = digits.len();
    let mut left = number;
    loop {
        first -= 1;
        digits[first] = b'0' + (left % 10) as u8;
        left /= 10;
        if left == 0 || first == 0 {
            break;
        }
    }
    text.extend_from_slice(&digits[first..]);
}

fn hex_digit(half: u8) -> u8 {
    if half < 10 {
        b'0' + half
    } else {
        b'a' - 10 + half
    }
}
