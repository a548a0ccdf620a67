//! A mover with one deliberate fault, to show that a test can fail. Each is a
//! slip that an honest implementation could make.

use super::{Answer, FileAnswer, Mover, SizeAnswer, SlotAnswer};

/// Faults are numbered from 1; 0 is none.
pub const FAULTS: usize = 44;

/// Those of them that write a wrong file.
pub const WRONG_FILES: std::ops::RangeInclusive<usize> = 19..=22;

const FREE: u16 = 65_535;

pub struct Faulty<M> {
    pub inner: M,
    pub fault: usize,
}

impl<M: Mover> Faulty<M> {
    /// The fault that `FAULT` names, else none.
    pub fn from_environment(inner: M) -> Faulty<M> {
        let fault = std::env::var("FAULT").map_or(0, |text| text.parse().expect("FAULT: a number"));
        assert!(fault <= FAULTS, "FAULT is at most {FAULTS}");
        Faulty { inner, fault }
    }

    /// Makes the fault in the place of a call, where it is the call's own.
    fn misplace(
        &self,
        fault: usize,
        caps: &[u16],
        places: &[u16],
        number: usize,
        place: &mut usize,
    ) {
        if self.fault == fault {
            *place = wrong_place(fault, number, *place, caps, places).unwrap_or(*place);
        }
    }
}

fn has_double(places: &[u16]) -> bool {
    !doubles(places).is_empty()
}

fn refused(number: usize) -> SizeAnswer {
    SizeAnswer {
        number,
        ..SizeAnswer::default()
    }
}

/// The pairs of entries that name one slot, the earlier and the later, by the earlier.
fn doubles(places: &[u16]) -> Vec<(usize, usize)> {
    let mut cards: Vec<usize> = (0..places.len()).filter(|&g| places[g] != FREE).collect();
    cards.sort_by_key(|&g| (places[g], g));
    let mut pairs: Vec<(usize, usize)> = cards
        .windows(2)
        .filter(|two| places[two[0]] == places[two[1]])
        .map(|two| (two[0], two[1]))
        .collect();
    pairs.sort_unstable();
    pairs
}

/// Where the racks begin, and S.
fn bases(caps: &[u16]) -> Vec<usize> {
    let mut bases = vec![0];
    for &m in caps {
        bases.push(bases[bases.len() - 1] + usize::from(m) + 1);
    }
    bases
}

/// The slots of the entries that are on a spare or are no slot.
fn bad_entries(caps: &[u16], places: &[u16]) -> Vec<usize> {
    let bases = bases(caps);
    let bad = |entry: usize| entry >= places.len() || bases.contains(&(entry + 1));
    (0..places.len())
        .filter(|&g| places[g] != FREE && bad(places[g].into()))
        .collect()
}

/// The place that a fault gives a 5 or a 6 that has this one; none where it is right.
fn wrong_place(
    fault: usize,
    number: usize,
    place: usize,
    caps: &[u16],
    places: &[u16],
) -> Option<usize> {
    let outside = |&g: &usize| usize::from(places[g]) >= places.len();
    let in_its_rack = || {
        let mut first = bases(caps);
        first.retain(|&base| base <= place);
        Some(place - first[first.len() - 1])
    };
    match (fault, number) {
        // The last bad entry.
        (28, 5) => bad_entries(caps, places).pop(),
        // An entry that is no slot before a lower one on a spare.
        (29, 5) => bad_entries(caps, places).into_iter().find(outside),
        // The earlier of the two.
        (30, 6) => doubles(places)
            .into_iter()
            .find_map(|(earlier, later)| (later == place).then_some(earlier)),
        // The last entry that repeats an earlier one.
        (31, 6) => doubles(places).into_iter().map(|two| two.1).max(),
        // The entry that repeats the lowest of those that are repeated.
        (32, 6) => doubles(places).first().map(|two| two.1),
        // Entries are counted from 1.
        (33, 5 | 6) => Some(place + 1),
        // The slot that the entry names.
        (34, 5 | 6) => Some(places[place].into()),
        // The place is forgotten.
        (35, 5 | 6) => Some(0),
        // It is cut to 8 bits.
        (36, 5 | 6) => Some(place & 0xff),
        // Slots are counted in their rack.
        (37, 5 | 6) => in_its_rack(),
        _ => None,
    }
}

/// The byte of a file where its entry begins: it comes after N, B, the capacities and
/// the entries before it.
fn byte_of_entry(file: &[u8], entry: usize) -> usize {
    let numbers_before = 2 + usize::from(file[0]) + entry;
    let ends = file.iter().enumerate().filter(|end| *end.1 < 0x80);
    ends.map(|end| end.0 + 1)
        .nth(numbers_before - 1)
        .unwrap_or(0)
}

/// Puts a number behind what a file has.
type Put = fn(&mut Vec<u8>, usize);

/// A number as it should be.
fn put_number(file: &mut Vec<u8>, number: usize) {
    match number {
        0..128 => file.push(number as u8),
        _ => put_two_groups(file, number),
    }
}

fn put_two_groups(file: &mut Vec<u8>, number: usize) {
    file.extend([(number % 128 + 128) as u8, (number / 128) as u8]);
}

/// The first of two groups does not say that another follows.
fn put_no_top_bit(file: &mut Vec<u8>, number: usize) {
    match number {
        0..128 => file.push(number as u8),
        _ => file.extend([(number % 128) as u8, (number / 128) as u8]),
    }
}

/// The second group comes one number too late.
fn put_late(file: &mut Vec<u8>, number: usize) {
    match number {
        0..=128 => file.push(number as u8),
        _ => put_two_groups(file, number),
    }
}

/// The file of a job by a fault in its numbers, if it is one of these.
fn wrong_file(
    fault: usize,
    caps: &[u16],
    b: usize,
    places: &[u16],
    cards: &[u8],
) -> Option<Vec<u8>> {
    let (put, more): (Put, usize) = match fault {
        19 => (put_no_top_bit, 1),
        20 => (put_late, 1),
        // Every number but N in two groups: no file is longer than that.
        21 => (put_two_groups, 1),
        // An entry is the destination, not one more.
        22 => (put_number, 0),
        _ => return None,
    };
    let mut file = Vec::new();
    put_number(&mut file, caps.len());
    put(&mut file, b);
    caps.iter().for_each(|&m| put(&mut file, m.into()));
    for &entry in places {
        let free = entry == FREE;
        put(&mut file, if free { 0 } else { usize::from(entry) + more });
    }
    file.extend_from_slice(cards);
    Some(file)
}

impl<M: Mover> Mover for Faulty<M> {
    fn check_table(&self, caps: &[u16], places: &[u16]) -> Answer {
        let mut answer = self.inner.check_table(caps, places);
        // 6 is looked for before 5.
        if self.fault == 1 && answer.number == 5 && has_double(places) {
            answer.number = 6;
        }
        self.misplace(28, caps, places, answer.number, &mut answer.place);
        self.misplace(29, caps, places, answer.number, &mut answer.place);
        answer
    }

    fn slot_question(&self, caps: &[u16], places: &[u16], slot: usize) -> SlotAnswer {
        let mut answer = self.inner.slot_question(caps, places, slot);
        // The very last slot is not seen to be a spare.
        if self.fault == 2 && answer.number == 0 && slot + 1 == places.len() {
            answer.kind = 1;
        }
        self.misplace(30, caps, places, answer.number, &mut answer.place);
        // A slot number is cut to 32 bits.
        if self.fault == 3 {
            return self.inner.slot_question(caps, places, slot & 0xffff_ffff);
        }
        answer
    }

    fn phase_plan(&self, caps: &[u16], places: &[u16], list: &mut [u16]) -> Answer {
        let mut answer = self.inner.phase_plan(caps, places, list);
        self.misplace(31, caps, places, answer.number, &mut answer.place);
        // An end mark behind the pairs.
        if self.fault == 4 && answer.number == 0 {
            if let Some(behind) = list.get_mut(2 * answer.moves) {
                *behind = FREE;
            }
        }
        // Pairs by source rack instead of target rack.
        if self.fault == 5 && answer.number == 0 {
            let mut pairs: Vec<(u16, u16)> = list[..2 * answer.moves]
                .chunks(2)
                .map(|two| (two[0], two[1]))
                .collect();
            pairs.sort_unstable();
            for (two, pair) in list.chunks_mut(2).zip(pairs) {
                two.copy_from_slice(&[pair.0, pair.1]);
            }
        }
        answer
    }

    fn one_move(
        &self,
        caps: &[u16],
        b: usize,
        places: &mut [u16],
        cards: &mut [u8],
        from: usize,
        to: usize,
    ) -> Answer {
        let old_cards = if self.fault == 6 {
            cards.to_vec()
        } else {
            Vec::new()
        };
        let mut answer = self.inner.one_move(caps, b, places, cards, from, to);
        // The source's last byte is not zeroed.
        if self.fault == 6 && answer.number == 0 {
            let last = from * b + b - 1;
            cards[last] = old_cards[last];
        }
        // 11 before 10.
        if self.fault == 7 && answer.number == 10 && places[to] != FREE {
            answer.number = 11;
        }
        self.misplace(36, caps, places, answer.number, &mut answer.place);
        // Where the table ends goes with 4.
        if self.fault == 39 && answer.number == 4 {
            answer.place = places.len();
        }
        answer
    }

    fn budgeted_moves(
        &self,
        caps: &[u16],
        b: usize,
        places: &mut [u16],
        cards: &mut [u8],
        k: usize,
    ) -> Answer {
        // The allowance is cut to 32 bits.
        let k = if self.fault == 8 { k & 0xffff_ffff } else { k };
        let mut answer = self.inner.budgeted_moves(caps, b, places, cards, k);
        self.misplace(32, caps, places, answer.number, &mut answer.place);
        // A budget of nothing is done without a look at the table.
        if self.fault == 9 && k == 0 && answer.number == 6 {
            return Answer::default();
        }
        answer
    }

    fn copy_list(&self, caps: &[u16], places: &[u16], list: &mut [u16]) -> Answer {
        let mut answer = self.inner.copy_list(caps, places, list);
        // A list exactly long enough is too short.
        if self.fault == 10 && answer.copies > 0 && list.len() == 2 * answer.copies {
            answer = Answer {
                number: 13,
                ..Answer::default()
            };
        }
        self.misplace(37, caps, places, answer.number, &mut answer.place);
        // A card that is not settled goes with 12.
        if self.fault == 38 && answer.number == 12 {
            let unsettled = |g: &usize| places[*g] != FREE && usize::from(places[*g]) != *g;
            answer.place = (0..places.len()).find(unsettled).unwrap_or(0);
        }
        answer
    }

    fn shuffle_cards(
        &self,
        caps: &[u16],
        b: usize,
        places: &mut [u16],
        cards: &mut [u8],
    ) -> Answer {
        let (old_places, old_cards) = (places.to_vec(), cards.to_vec());
        let mut answer = self.inner.shuffle_cards(caps, b, places, cards);
        self.misplace(33, caps, places, answer.number, &mut answer.place);
        // Old bytes stay in slots that were free all along.
        if self.fault == 11 && answer.number == 0 {
            for slot in 0..places.len() {
                if old_places[slot] == FREE && places[slot] == FREE {
                    let bytes = slot * b..(slot + 1) * b;
                    cards[bytes.clone()].copy_from_slice(&old_cards[bytes]);
                }
            }
        }
        answer
    }

    fn whole_run(&self, caps: &[u16], b: usize, places: &mut [u16], cards: &mut [u8]) -> Answer {
        let mut answer = self.inner.whole_run(caps, b, places, cards);
        // The last plan, which has no pairs, is counted.
        if self.fault == 12 && answer.number == 0 {
            answer.phases += 1;
        }
        // Only the fullest job goes wrong, in one byte.
        if self.fault == 13 && answer.number == 0 && places.len() == 4_096 {
            cards[4_095 * b] ^= 1;
        }
        // 3 before 2.
        if self.fault == 14 && answer.number == 2 && caps.iter().any(|&m| m > 1_023) {
            answer.number = 3;
        }
        self.misplace(35, caps, places, answer.number, &mut answer.place);
        answer
    }

    fn read_file(&self, file: &[u8], caps: &mut [u16], places: &mut [u16]) -> FileAnswer {
        let mut answer = self.inner.read_file(file, caps, places);
        // The capacities are written before the room for the places is seen.
        if self.fault == 15 && answer.number == 17 && !caps.is_empty() {
            caps[0] = u16::from(file[2]);
        }
        // Bytes left over are passed over.
        if self.fault == 16 && answer.number == 16 {
            return self.inner.read_file(&file[..file.len() - 1], caps, places);
        }
        // The entry's byte, not its slot.
        if self.fault == 40 && matches!(answer.number, 5 | 6) {
            answer.place = byte_of_entry(file, answer.place);
        }
        // A number of four groups is one that is padded.
        if self.fault == 41 && answer.number == 20 {
            answer.number = 14;
        }
        // A fourth group is asked for before its number is refused.
        let long = |three: &[u8]| three.iter().all(|&x| x >= 0x80);
        if self.fault == 42
            && answer.number == 20
            && file.windows(3).position(long) == Some(file.len() - 3)
        {
            answer.number = 15;
        }
        answer
    }

    fn write_file(
        &self,
        caps: &[u16],
        b: usize,
        places: &[u16],
        cards: &[u8],
        out: &mut [u8],
    ) -> SizeAnswer {
        let old = out.to_vec();
        let mut answer = self.inner.write_file(caps, b, places, cards, out);
        self.misplace(34, caps, places, answer.number, &mut answer.place);
        // A wrong file, but as the rules ask for all else: 19 where it is too long, and
        // what stood behind it.
        if matches!(answer.number, 0 | 19) {
            if let Some(file) = wrong_file(self.fault, caps, b, places, cards) {
                out.copy_from_slice(&old);
                if out.len() < file.len() {
                    return refused(19);
                }
                out[..file.len()].copy_from_slice(&file);
                return SizeAnswer {
                    size: file.len(),
                    ..SizeAnswer::default()
                };
            }
        }
        // A buffer exactly long enough is too short.
        if self.fault == 23 && answer.number == 0 && out.len() == answer.size {
            return refused(19);
        }
        // An end mark behind the file.
        if self.fault == 24 && answer.number == 0 {
            if let Some(behind) = out.get_mut(answer.size) {
                *behind = 0;
            }
        }
        // A file that does not fit is begun.
        if self.fault == 25 && answer.number == 19 && !out.is_empty() {
            out[0] = caps.len() as u8;
        }
        // An empty buffer is too short, whatever the job is.
        if self.fault == 26 && answer.number != 0 && out.is_empty() {
            return refused(19);
        }
        // What the program would refuse is not written.
        if self.fault == 27 && answer.size > 32_768 {
            return refused(18);
        }
        answer
    }

    fn list_job(&self, file: &[u8], out: &mut [u8]) -> SizeAnswer {
        // The limit itself is refused.
        if self.fault == 17 && file.len() == 32_768 {
            return self.inner.list_job(&[file, &[0]].concat(), out);
        }
        let mut answer = self.inner.list_job(file, out);
        // The reader's place goes with the text that says its number.
        if self.fault == 43 && answer.number == 0 {
            let (caps, places) = (&mut [0; 64], &mut [0; 4_096]);
            answer.place = self.inner.read_file(file, caps, places).place;
        }
        // The listing's reader knows no 20.
        if self.fault == 44 && answer.number == 0 && out.starts_with(b"refused 20\n") {
            out[8..10].copy_from_slice(b"14");
        }
        // A text that does not fit is begun.
        if self.fault == 18 && answer.number == 13 && !out.is_empty() {
            out[0] = b'p';
        }
        answer
    }
}
