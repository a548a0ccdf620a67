//! The rules, written from their text and from nothing else.
//!
//! This is the yardstick of the differential test, so it stays simple: every
//! phase is planned anew, every list is made in full before anything is
//! written, and the functions carry the page's own words. Racks are i and p,
//! slots are g, as on the page; `places` is the table, `place` the slot that
//! goes with a refusal. Of the proved library it takes the shape of the answers
//! alone, so that they can be compared.

#![allow(dead_code)]

pub use seineflute::raw::{Answer, FileAnswer, SizeAnswer, SlotAnswer};
use std::fmt::Write;
use std::ops::Range;

const MAX_RACKS: usize = 64;
const MAX_CARD: usize = 256;
const MAX_CAPACITY: usize = 1_023;
const MAX_TOTAL: usize = 4_032;
const MAX_PROGRAM_FILE: usize = 32_768;
const FREE: u16 = 65_535;
const HAND: u16 = 65_534;

// ---------------------------------------------------------------------------
// Refusals

/// A number given back that is not 0, and the place that goes with it.
struct Refusal {
    number: usize,
    place: usize,
}

/// "Numbers 5 and 6 now come with the slot."
fn refuse_at<T>(number: usize, place: usize) -> Result<T, Refusal> {
    Err(Refusal { number, place })
}

/// "The place is 0 for all other numbers."
fn refuse<T>(number: usize) -> Result<T, Refusal> {
    refuse_at(number, 0)
}

/// The number and its place in each kind of answer: all counts "are 0 on a
/// refusal", and "every other number given is 0".
macro_rules! give_refusals {
    ($($answer:ident)*) => {
        $(impl From<Refusal> for $answer {
            fn from(refusal: Refusal) -> $answer {
                $answer {
                    number: refusal.number,
                    place: refusal.place,
                    ..$answer::default()
                }
            }
        })*
    };
}

give_refusals!(Answer SlotAnswer FileAnswer SizeAnswer);

// ---------------------------------------------------------------------------
// Racks and slots

/// How the slots are numbered: each rack's user slots, then its spare.
struct Racks {
    /// the slots of each rack, its spare the last of them
    slots: Vec<Range<usize>>,
    /// the rack of each slot
    rack_of: Vec<usize>,
}

impl Racks {
    /// Only for capacities that passed 1 and 3.
    fn new(caps: &[u16]) -> Racks {
        let mut slots = Vec::with_capacity(caps.len());
        let total: usize = caps.iter().map(|&m| usize::from(m)).sum();
        let mut rack_of = Vec::with_capacity(total + caps.len());
        for (p, &m) in caps.iter().enumerate() {
            let base = rack_of.len();
            rack_of.resize(base + usize::from(m) + 1, p);
            slots.push(base..rack_of.len());
        }
        Racks { slots, rack_of }
    }

    fn number(&self) -> usize {
        self.slots.len()
    }

    /// S
    fn total_slots(&self) -> usize {
        self.rack_of.len()
    }

    fn is_spare(&self, slot: usize) -> bool {
        slot + 1 == self.slots[self.rack_of[slot]].end
    }

    fn is_user_slot(&self, slot: usize) -> bool {
        slot < self.total_slots() && !self.is_spare(slot)
    }

    /// The rack that the card in `slot` is bound for; none where it is free.
    fn bound_for(&self, places: &[u16], slot: usize) -> Option<usize> {
        match places[slot] {
            FREE => None,
            destination => Some(self.rack_of[usize::from(destination)]),
        }
    }

    /// The rack that the card in `slot` is away to, if it is away.
    fn away_to(&self, places: &[u16], slot: usize) -> Option<usize> {
        self.bound_for(places, slot)
            .filter(|&p| p != self.rack_of[slot])
    }

    fn cards_away(&self, places: &[u16]) -> usize {
        (0..places.len())
            .filter(|&g| self.away_to(places, g).is_some())
            .count()
    }
}

// ---------------------------------------------------------------------------
// Checks, in the order of the page's list

fn check_racks(n: usize) -> Result<(), Refusal> {
    if n == 0 || n > MAX_RACKS {
        return refuse(1);
    }
    Ok(())
}

fn check_card(b: usize) -> Result<(), Refusal> {
    if b == 0 || b > MAX_CARD {
        return refuse(2);
    }
    Ok(())
}

/// Only after 1: at most 64 capacities of 16 bits have a true sum.
fn check_capacities(caps: &[u16]) -> Result<Racks, Refusal> {
    let too_large = caps.iter().any(|&m| usize::from(m) > MAX_CAPACITY);
    let total: usize = caps.iter().map(|&m| usize::from(m)).sum();
    if too_large || total > MAX_TOTAL {
        return refuse(3);
    }
    Ok(Racks::new(caps))
}

/// "For 5 the lowest bad entry." 5 anywhere comes before 6 anywhere.
fn check_entries(racks: &Racks, places: &[u16]) -> Result<(), Refusal> {
    for (g, &entry) in places.iter().enumerate() {
        if entry != FREE && !racks.is_user_slot(usize::from(entry)) {
            return refuse_at(5, g);
        }
    }
    check_named_once(racks, places)
}

/// "For 6 the lowest entry that repeats an earlier one." Only after 5.
fn check_named_once(racks: &Racks, places: &[u16]) -> Result<(), Refusal> {
    let mut named = vec![false; racks.total_slots()];
    for (g, &entry) in places.iter().enumerate() {
        if entry == FREE {
            continue;
        }
        if named[usize::from(entry)] {
            return refuse_at(6, g);
        }
        named[usize::from(entry)] = true;
    }
    Ok(())
}

/// 1, 3, 4, 5, 6: for the calls that are lent no cards.
fn check_job(caps: &[u16], places: &[u16]) -> Result<Racks, Refusal> {
    check_racks(caps.len())?;
    let racks = check_capacities(caps)?;
    if places.len() != racks.total_slots() {
        return refuse(4);
    }
    check_entries(&racks, places)?;
    Ok(racks)
}

/// 1 to 6: for the calls that are lent the cards.
fn check_job_with_cards(
    caps: &[u16],
    b: usize,
    places: &[u16],
    cards: &[u8],
) -> Result<Racks, Refusal> {
    check_racks(caps.len())?;
    check_card(b)?;
    let racks = check_capacities(caps)?;
    // No overflow: S is at most 4,096 and B at most 256 here.
    if places.len() != racks.total_slots() || cards.len() != racks.total_slots() * b {
        return refuse(4);
    }
    check_entries(&racks, places)?;
    Ok(racks)
}

fn check_nothing_away(racks: &Racks, places: &[u16]) -> Result<(), Refusal> {
    if racks.cards_away(places) > 0 {
        return refuse(12);
    }
    Ok(())
}

/// The pairs of a plan, or the steps of a copy list, to the front of a list.
fn write_pairs(pairs: &[(u16, u16)], list: &mut [u16]) -> Result<(), Refusal> {
    if list.len() < 2 * pairs.len() {
        return refuse(13);
    }
    for (two, &(from, to)) in list.chunks_exact_mut(2).zip(pairs) {
        two[0] = from;
        two[1] = to;
    }
    Ok(())
}

// ---------------------------------------------------------------------------
// Phases

/// For each source rack i and target p, the number of cards in i bound for p,
/// at i times N plus p.
fn cards_bound(racks: &Racks, places: &[u16]) -> Vec<usize> {
    let n = racks.number();
    let mut bound = vec![0; n * n];
    for g in 0..places.len() {
        if let Some(p) = racks.bound_for(places, g) {
            bound[racks.rack_of[g] * n + p] += 1;
        }
    }
    bound
}

/// One phase's pairs (from, to) by target rack, source rack, source slot.
fn plan(racks: &Racks, places: &[u16]) -> Vec<(u16, u16)> {
    let n = racks.number();
    let bound = cards_bound(racks, places);
    let mut pairs = Vec::new();
    for p in 0..n {
        // Free at the start of the phase: `places` does not change here.
        let mut free_slots = racks.slots[p].clone().filter(|&g| places[g] == FREE);
        let mut r = free_slots.clone().count();
        for i in (0..n).filter(|&i| i != p) {
            let granted = r.min(bound[i * n + p]);
            r -= granted;
            if granted == 0 {
                continue;
            }
            let leaving = racks.slots[i]
                .clone()
                .filter(|&g| racks.bound_for(places, g) == Some(p))
                .take(granted);
            for (from, to) in leaving.zip(&mut free_slots) {
                pairs.push((from as u16, to as u16));
            }
        }
    }
    pairs
}

/// The target gets the card's bytes and entry; the source becomes 65,535 and
/// all zero.
fn carry(b: usize, places: &mut [u16], cards: &mut [u8], from: usize, to: usize) {
    places[to] = places[from];
    places[from] = FREE;
    copy_card(b, cards, from, to);
    zero_card(b, cards, from);
}

fn copy_card(b: usize, cards: &mut [u8], from: usize, to: usize) {
    cards.copy_within(from * b..(from + 1) * b, to * b);
}

fn zero_card(b: usize, cards: &mut [u8], slot: usize) {
    cards[slot * b..(slot + 1) * b].fill(0);
}

// ---------------------------------------------------------------------------
// Copies

/// The steps of the copy list, the hand as 65,534. Only with nothing away.
fn copies(places: &[u16]) -> Vec<(u16, u16)> {
    let mut coming = vec![None; places.len()];
    for (g, &entry) in places.iter().enumerate() {
        if entry != FREE {
            coming[usize::from(entry)] = Some(g);
        }
    }

    let mut steps = Vec::new();
    let mut seen = vec![false; places.len()];
    for lowest in 0..places.len() {
        if seen[lowest] {
            continue;
        }
        let chain = factor(places, &coming, lowest);
        for &g in &chain {
            seen[g] = true;
        }
        if chain.len() == 1 {
            // a settled card or a lone free slot
            continue;
        }
        let (first, last) = (chain[0], chain[chain.len() - 1]);
        let cycle = places[last] != FREE;
        if cycle {
            steps.push((last as u16, HAND));
        }
        for link in chain.windows(2).rev() {
            steps.push((link[0] as u16, link[1] as u16));
        }
        if cycle {
            steps.push((HAND, first as u16));
        }
    }
    steps
}

/// The slots of the factor that `lowest` is in, each followed by the
/// destination of its card: a shift from the slot that no card is bound for
/// to its free end, a cycle from `lowest`.
fn factor(places: &[u16], coming: &[Option<usize>], lowest: usize) -> Vec<usize> {
    let mut first = lowest;
    while let Some(before) = coming[first] {
        first = before;
        if first == lowest {
            break;
        }
    }
    let mut chain = vec![first];
    let mut last = first;
    while places[last] != FREE && usize::from(places[last]) != first {
        last = usize::from(places[last]);
        chain.push(last);
    }
    chain
}

/// Runs the copy list, then zeroes every free slot; gives the copies made.
fn run_copies(b: usize, places: &mut [u16], cards: &mut [u8]) -> usize {
    let steps = copies(places);
    let mut hand = vec![0; b];
    for &(from, to) in &steps {
        if to == HAND {
            let at = usize::from(from) * b;
            hand.copy_from_slice(&cards[at..at + b]);
        } else if from == HAND {
            let at = usize::from(to) * b;
            cards[at..at + b].copy_from_slice(&hand);
        } else {
            copy_card(b, cards, usize::from(from), usize::from(to));
        }
    }

    let destinations: Vec<u16> = places.iter().copied().filter(|&e| e != FREE).collect();
    places.fill(FREE);
    for destination in destinations {
        places[usize::from(destination)] = destination;
    }
    for (g, &entry) in places.iter().enumerate() {
        if entry == FREE {
            zero_card(b, cards, g);
        }
    }
    steps.len()
}

// ---------------------------------------------------------------------------
// The calls

pub fn check_table(caps: &[u16], places: &[u16]) -> Answer {
    match check_job(caps, places) {
        Ok(_) => Answer::default(),
        Err(refusal) => refusal.into(),
    }
}

pub fn slot_question(caps: &[u16], places: &[u16], slot: usize) -> SlotAnswer {
    try_slot_question(caps, places, slot).unwrap_or_else(SlotAnswer::from)
}

fn try_slot_question(caps: &[u16], places: &[u16], slot: usize) -> Result<SlotAnswer, Refusal> {
    let racks = check_job(caps, places)?;
    if slot >= racks.total_slots() {
        return refuse(7);
    }
    let kind = if racks.is_spare(slot) { 2 } else { 1 };
    let (state, rack) = if places[slot] == FREE {
        (1, 0)
    } else if usize::from(places[slot]) == slot {
        (2, 0)
    } else {
        match racks.away_to(places, slot) {
            None => (3, 0),
            Some(p) => (4, p),
        }
    };
    Ok(SlotAnswer {
        kind,
        state,
        rack,
        ..SlotAnswer::default()
    })
}

pub fn phase_plan(caps: &[u16], places: &[u16], list: &mut [u16]) -> Answer {
    try_phase_plan(caps, places, list).unwrap_or_else(Answer::from)
}

fn try_phase_plan(caps: &[u16], places: &[u16], list: &mut [u16]) -> Result<Answer, Refusal> {
    let racks = check_job(caps, places)?;
    let pairs = plan(&racks, places);
    write_pairs(&pairs, list)?;
    Ok(Answer {
        moves: pairs.len(),
        ..Answer::default()
    })
}

pub fn one_move(
    caps: &[u16],
    b: usize,
    places: &mut [u16],
    cards: &mut [u8],
    from: usize,
    to: usize,
) -> Answer {
    try_one_move(caps, b, places, cards, from, to).unwrap_or_else(Answer::from)
}

fn try_one_move(
    caps: &[u16],
    b: usize,
    places: &mut [u16],
    cards: &mut [u8],
    from: usize,
    to: usize,
) -> Result<Answer, Refusal> {
    let racks = check_job_with_cards(caps, b, places, cards)?;
    if from >= racks.total_slots() || to >= racks.total_slots() {
        return refuse(7);
    }
    let Some(destination_rack) = racks.bound_for(places, from) else {
        return refuse(8);
    };
    if destination_rack == racks.rack_of[from] {
        return refuse(9);
    }
    if racks.rack_of[to] != destination_rack {
        return refuse(10);
    }
    if places[to] != FREE {
        return refuse(11);
    }
    carry(b, places, cards, from, to);
    Ok(Answer {
        moves: 1,
        ..Answer::default()
    })
}

pub fn budgeted_moves(
    caps: &[u16],
    b: usize,
    places: &mut [u16],
    cards: &mut [u8],
    k: usize,
) -> Answer {
    try_budgeted_moves(caps, b, places, cards, k).unwrap_or_else(Answer::from)
}

fn try_budgeted_moves(
    caps: &[u16],
    b: usize,
    places: &mut [u16],
    cards: &mut [u8],
    k: usize,
) -> Result<Answer, Refusal> {
    let racks = check_job_with_cards(caps, b, places, cards)?;
    let mut moves = 0;
    while moves < k {
        let pairs = plan(&racks, places);
        if pairs.is_empty() {
            break;
        }
        for &(from, to) in pairs.iter().take(k - moves) {
            carry(b, places, cards, usize::from(from), usize::from(to));
            moves += 1;
        }
    }
    Ok(Answer {
        moves,
        ..Answer::default()
    })
}

pub fn copy_list(caps: &[u16], places: &[u16], list: &mut [u16]) -> Answer {
    try_copy_list(caps, places, list).unwrap_or_else(Answer::from)
}

fn try_copy_list(caps: &[u16], places: &[u16], list: &mut [u16]) -> Result<Answer, Refusal> {
    let racks = check_job(caps, places)?;
    check_nothing_away(&racks, places)?;
    let steps = copies(places);
    write_pairs(&steps, list)?;
    Ok(Answer {
        copies: steps.len(),
        ..Answer::default()
    })
}

pub fn shuffle_cards(caps: &[u16], b: usize, places: &mut [u16], cards: &mut [u8]) -> Answer {
    try_shuffle_cards(caps, b, places, cards).unwrap_or_else(Answer::from)
}

fn try_shuffle_cards(
    caps: &[u16],
    b: usize,
    places: &mut [u16],
    cards: &mut [u8],
) -> Result<Answer, Refusal> {
    let racks = check_job_with_cards(caps, b, places, cards)?;
    check_nothing_away(&racks, places)?;
    Ok(Answer {
        copies: run_copies(b, places, cards),
        ..Answer::default()
    })
}

pub fn whole_run(caps: &[u16], b: usize, places: &mut [u16], cards: &mut [u8]) -> Answer {
    try_whole_run(caps, b, places, cards).unwrap_or_else(Answer::from)
}

fn try_whole_run(
    caps: &[u16],
    b: usize,
    places: &mut [u16],
    cards: &mut [u8],
) -> Result<Answer, Refusal> {
    let racks = check_job_with_cards(caps, b, places, cards)?;
    let mut tally = Answer::default();
    // Theorem 2 of the paper: a plan has pairs while a card is away.
    loop {
        let pairs = plan(&racks, places);
        if pairs.is_empty() {
            break;
        }
        tally.phases += 1;
        tally.moves += pairs.len();
        for &(from, to) in &pairs {
            carry(b, places, cards, usize::from(from), usize::from(to));
        }
    }
    tally.copies = run_copies(b, places, cards);
    Ok(tally)
}

// ---------------------------------------------------------------------------
// Job files

/// "Takes one number at a time and remembers its place in the file."
struct Reader<'a> {
    file: &'a [u8],
    /// the byte that comes next
    at: usize,
}

impl Reader<'_> {
    /// "Form (14, 15)", and 20 "in 14's place in the order".
    fn number(&mut self) -> Result<usize, Refusal> {
        let mut value = 0;
        for group in 0..3 {
            let Some(&byte) = self.file.get(self.at) else {
                return refuse(15);
            };
            self.at += 1;
            value |= usize::from(byte & 0x7f) << (7 * group);
            if byte & 0x80 == 0 {
                // "Padded beyond its shortest form": a last group of zero
                // could have been left out.
                let padded = group > 0 && byte == 0;
                return if padded { refuse(14) } else { Ok(value) };
            }
        }
        // "More than three groups": the third says that another follows.
        refuse(20)
    }

    /// "m_p and running total": 3.
    fn capacities(&mut self, n: usize) -> Result<Vec<u16>, Refusal> {
        let mut caps = Vec::with_capacity(n);
        let mut total = 0;
        for _ in 0..n {
            let m = self.number()?;
            total += m;
            if m > MAX_CAPACITY || total > MAX_TOTAL {
                return refuse(3);
            }
            caps.push(m as u16);
        }
        Ok(caps)
    }

    /// "An entry's slot (5)" is "checked as read", so the first bad entry is the
    /// lowest; its place is the slot, not a byte. "After the last entry come 6."
    fn places(&mut self, racks: &Racks) -> Result<Vec<u16>, Refusal> {
        let mut places = Vec::with_capacity(racks.total_slots());
        for g in 0..racks.total_slots() {
            let entry = self.number()?;
            if entry == 0 {
                places.push(FREE);
            } else if racks.is_user_slot(entry - 1) {
                places.push((entry - 1) as u16);
            } else {
                return refuse_at(5, g);
            }
        }
        check_named_once(racks, &places)?;
        Ok(places)
    }

    /// "15 or 16 for the card bytes."
    fn check_card_bytes(&self, card_bytes: usize) -> Result<(), Refusal> {
        let left = self.file.len() - self.at;
        if left < card_bytes {
            return refuse(15);
        }
        if left > card_bytes {
            return refuse(16);
        }
        Ok(())
    }
}

struct Job {
    caps: Vec<u16>,
    b: usize,
    racks: Racks,
    places: Vec<u16>,
    /// where the card bytes begin in the file
    start: usize,
}

/// All of the reader's checks but 17.
fn read_job(file: &[u8]) -> Result<Job, Refusal> {
    let mut reader = Reader { file, at: 0 };
    let n = reader.number()?;
    check_racks(n)?;
    let b = reader.number()?;
    check_card(b)?;
    let caps = reader.capacities(n)?;
    let racks = Racks::new(&caps);
    let places = reader.places(&racks)?;
    reader.check_card_bytes(racks.total_slots() * b)?;
    Ok(Job {
        caps,
        b,
        racks,
        places,
        start: reader.at,
    })
}

pub fn read_file(file: &[u8], caps: &mut [u16], places: &mut [u16]) -> FileAnswer {
    try_read_file(file, caps, places).unwrap_or_else(FileAnswer::from)
}

fn try_read_file(file: &[u8], caps: &mut [u16], places: &mut [u16]) -> Result<FileAnswer, Refusal> {
    let job = read_job(file)?;
    let (n, s) = (job.caps.len(), job.places.len());
    if caps.len() < n || places.len() < s {
        return refuse(17);
    }
    caps[..n].copy_from_slice(&job.caps);
    places[..s].copy_from_slice(&job.places);
    Ok(FileAnswer {
        racks: n,
        bytes: job.b,
        slots: s,
        start: job.start,
        ..FileAnswer::default()
    })
}

/// A number in groups of seven bits, lowest first, the top bit set where
/// another follows. No group of zeros comes last, but for 0 itself.
fn push_number(file: &mut Vec<u8>, number: usize) {
    let mut left = number;
    while left >= 128 {
        file.push((left % 128) as u8 + 128);
        left /= 128;
    }
    file.push(left as u8);
}

/// "0 free, else destination + 1."
fn entry_in_file(entry: u16) -> usize {
    match entry {
        FREE => 0,
        destination => usize::from(destination) + 1,
    }
}

/// "N, B, the m_p, then S entries, then S·B card bytes."
fn file_of_job(caps: &[u16], b: usize, places: &[u16], cards: &[u8]) -> Vec<u8> {
    let mut file = Vec::new();
    push_number(&mut file, caps.len());
    push_number(&mut file, b);
    for &m in caps {
        push_number(&mut file, usize::from(m));
    }
    for &entry in places {
        push_number(&mut file, entry_in_file(entry));
    }
    file.extend_from_slice(cards);
    file
}

/// The bytes to the front of the buffer, or the number `too_short` where it is
/// shorter; what is behind them stays.
fn write_bytes(bytes: &[u8], buffer: &mut [u8], too_short: usize) -> Result<SizeAnswer, Refusal> {
    if buffer.len() < bytes.len() {
        return refuse(too_short);
    }
    buffer[..bytes.len()].copy_from_slice(bytes);
    Ok(SizeAnswer {
        size: bytes.len(),
        ..SizeAnswer::default()
    })
}

/// The job's file to the front of the buffer.
pub fn write_file(
    caps: &[u16],
    b: usize,
    places: &[u16],
    cards: &[u8],
    buffer: &mut [u8],
) -> SizeAnswer {
    try_write_file(caps, b, places, cards, buffer).unwrap_or_else(SizeAnswer::from)
}

/// 1 to 6, then 19.
fn try_write_file(
    caps: &[u16],
    b: usize,
    places: &[u16],
    cards: &[u8],
    buffer: &mut [u8],
) -> Result<SizeAnswer, Refusal> {
    check_job_with_cards(caps, b, places, cards)?;
    write_bytes(&file_of_job(caps, b, places, cards), buffer, 19)
}

// ---------------------------------------------------------------------------
// The program's listing

/// A text that says `refused` is a text like any other: the number is 0 or 13,
/// and so the place is 0.
pub fn list_job(file: &[u8], out: &mut [u8]) -> SizeAnswer {
    write_bytes(listing(file).as_bytes(), out, 13).unwrap_or_else(SizeAnswer::from)
}

fn listing(file: &[u8]) -> String {
    if file.len() > MAX_PROGRAM_FILE {
        return refusal_line(18);
    }
    match read_job(file) {
        Ok(job) => listing_of_run(job, file),
        Err(refusal) => refusal_line(refusal.number),
    }
}

/// "Prints only one line, as `refused 14`, with its number."
fn refusal_line(number: usize) -> String {
    format!("refused {number}\n")
}

fn listing_of_run(mut job: Job, file: &[u8]) -> String {
    let mut cards = file[job.start..].to_vec();
    let mut text = String::new();
    let mut phases = 0;
    let mut moves = 0;
    loop {
        let pairs = plan(&job.racks, &job.places);
        if pairs.is_empty() {
            break;
        }
        phases += 1;
        moves += pairs.len();
        line(&mut text, &format!("phase {phases}:"), &pairs);
        for &(from, to) in &pairs {
            carry(
                job.b,
                &mut job.places,
                &mut cards,
                usize::from(from),
                usize::from(to),
            );
        }
    }
    line(&mut text, "copies:", &copies(&job.places));
    let copies = run_copies(job.b, &mut job.places, &mut cards);

    text.push_str("cards:");
    for card in cards.chunks_exact(job.b) {
        text.push(' ');
        for byte in card {
            // Writing to a String cannot fail.
            let _ = write!(text, "{byte:02x}");
        }
    }
    text.push('\n');
    let _ = writeln!(text, "end: phases {phases} moves {moves} copies {copies}");
    text
}

fn line(text: &mut String, head: &str, pairs: &[(u16, u16)]) {
    text.push_str(head);
    for &(from, to) in pairs {
        text.push(' ');
        slot_or_hand(text, from);
        text.push('>');
        slot_or_hand(text, to);
    }
    text.push('\n');
}

fn slot_or_hand(text: &mut String, slot: u16) {
    if slot == HAND {
        text.push('h');
    } else {
        let _ = write!(text, "{slot}");
    }
}
