//! Jobs for the differential test: legal ones, legal ones with a damage, and
//! garbage; as tables and as files.

pub const FREE: u16 = 65_535;
const HAND: u16 = 65_534;

/// Splitmix64: any seed will do, and a job's number can be part of it.
pub struct Random(u64);

impl Random {
    pub fn new(seed: u64, job: u64) -> Random {
        let mut random = Random(seed);
        Random(random.next() ^ job.wrapping_mul(0xd134_2543_de82_ef95))
    }

    pub fn next(&mut self) -> u64 {
        self.0 = self.0.wrapping_add(0x9e37_79b9_7f4a_7c15);
        let mut z = self.0;
        z = (z ^ (z >> 30)).wrapping_mul(0xbf58_476d_1ce4_e5b9);
        z = (z ^ (z >> 27)).wrapping_mul(0x94d0_49bb_1331_11eb);
        z ^ (z >> 31)
    }

    /// Below `end`, which is not 0. The slight bias does not matter here.
    pub fn below(&mut self, end: usize) -> usize {
        (((self.next() >> 32) * end as u64) >> 32) as usize
    }

    pub fn between(&mut self, first: usize, last: usize) -> usize {
        first + self.below(last - first + 1)
    }

    /// True once in `times`.
    pub fn once_in(&mut self, times: usize) -> bool {
        self.below(times) == 0
    }

    pub fn pick<T: Copy>(&mut self, items: &[T]) -> T {
        items[self.below(items.len())]
    }

    pub fn shuffle<T>(&mut self, items: &mut [T]) {
        for last in (1..items.len()).rev() {
            items.swap(last, self.below(last + 1));
        }
    }

    pub fn bytes(&mut self, length: usize) -> Vec<u8> {
        (0..length).map(|_| self.next() as u8).collect()
    }

    /// Old contents of a lent list.
    pub fn list(&mut self, length: usize) -> Vec<u16> {
        let (first, step) = (self.next() as u16, self.next() as u16 | 1);
        let mut entry = first;
        (0..length)
            .map(|_| {
                entry = entry.wrapping_add(step);
                entry
            })
            .collect()
    }

    /// A number near `near`, or far from it, or the largest.
    pub fn number(&mut self, near: usize) -> usize {
        match self.below(12) {
            0 => near,
            1 => near.saturating_sub(1),
            2 => near.saturating_add(1),
            3 => usize::MAX,
            4 => usize::MAX - self.below(3),
            // The low half says something else than the whole.
            5 => (1 << 32) + self.below(4),
            6 => 1 << self.below(64),
            7 => 0,
            8 => self.next() as usize,
            _ => self.below(near.saturating_add(2).min(5_000)),
        }
    }
}

#[derive(Clone, Debug, Default, PartialEq, Eq)]
pub struct Job {
    pub caps: Vec<u16>,
    pub b: usize,
    pub places: Vec<u16>,
    pub cards: Vec<u8>,
}

/// S of a list of capacities, whatever they are.
fn slot_count(caps: &[u16]) -> usize {
    caps.iter().map(|&m| usize::from(m) + 1).sum()
}

/// The user slots; of too many, cut to 16 bits, only damages make use.
fn user_slots(caps: &[u16]) -> Vec<u16> {
    ranges(caps)
        .into_iter()
        .flat_map(|range| range.start..range.end - 1)
        .map(|slot| slot as u16)
        .collect()
}

/// The slots of each rack, the spare the last of them.
fn ranges(caps: &[u16]) -> Vec<std::ops::Range<usize>> {
    let mut base = 0;
    caps.iter()
        .map(|&m| {
            let first = base;
            base += usize::from(m) + 1;
            first..base
        })
        .collect()
}

#[derive(Clone, Copy, PartialEq, Eq)]
pub enum Size {
    Small,
    Medium,
    Limit,
}

pub fn legal(random: &mut Random, size: Size) -> Job {
    let caps = capacities(random, size);
    let b = match size {
        Size::Small => random.between(1, 3),
        Size::Medium => random.pick(&[1, 2, 5, 16, 17, 31, 64, 100, 127, 128, 255, 256]),
        Size::Limit => random.pick(&[1, 1, 2, 6, 7, 8, 33, 256]),
    };
    let places = places(random, &caps);
    let cards = cards(random, places.len() * b);
    Job {
        caps,
        b,
        places,
        cards,
    }
}

/// A legal job whose file has this length, which is near the program's limit.
pub fn legal_of_length(random: &mut Random, length: usize) -> Job {
    const B: usize = 8;
    const RACKS: usize = 4;
    // N and B take a byte each and the capacities two; a slot takes its card
    // and one byte if it is free, and one byte more if its card is bound for
    // a slot from 127 on.
    const HEAD: usize = 2 + 2 * RACKS;
    let most = (length - HEAD) / (B + 1);
    let slots = random.between(most - most / 11, most);
    let cards = length - HEAD - slots * (B + 1);

    let mut caps = vec![((slots - RACKS) / RACKS) as u16; RACKS];
    caps[random.below(RACKS)] += ((slots - RACKS) % RACKS) as u16;
    let mut destinations = user_slots(&caps);
    destinations.retain(|&slot| slot >= 127);
    let mut at: Vec<usize> = (0..slots).collect();
    random.shuffle(&mut destinations);
    random.shuffle(&mut at);
    let mut places = vec![FREE; slots];
    for (&g, &destination) in at.iter().zip(&destinations[..cards]) {
        places[g] = destination;
    }
    Job {
        caps,
        b: B,
        places,
        cards: random.bytes(slots * B),
    }
}

fn capacities(random: &mut Random, size: Size) -> Vec<u16> {
    let list = |random: &mut Random, racks: usize, largest: usize| {
        (0..racks)
            .map(|_| random.below(largest + 1) as u16)
            .collect::<Vec<u16>>()
    };
    match size {
        Size::Small => {
            let (racks, largest) = (random.between(1, 4), random.between(0, 4));
            list(random, racks, largest)
        }
        Size::Medium => {
            let (racks, largest) = (random.between(1, 20), random.between(1, 30));
            let mut caps = list(random, racks, largest);
            // In a file a number takes two groups from 128 on.
            if random.once_in(8) {
                caps[0] = random.between(126, 129) as u16;
            }
            caps
        }
        Size::Limit => match random.below(10) {
            0..=2 => vec![63; 64],
            3 => vec![1_023],
            4 => vec![1_008; 4],
            5 => vec![1_023, 1_023, 1_023, 963],
            6 => vec![0; 64],
            7 => {
                let mut caps = vec![63; 64];
                caps[random.below(64)] = 0;
                caps
            }
            8 => list(random, 64, 60),
            _ => list(random, 6, 600),
        },
    }
}

fn cards(random: &mut Random, length: usize) -> Vec<u8> {
    if random.once_in(6) {
        // Few kinds of card: bytes are no identity.
        (0..length).map(|_| 0x41 * random.below(2) as u8).collect()
    } else {
        random.bytes(length)
    }
}

/// A legal table.
fn places(random: &mut Random, caps: &[u16]) -> Vec<u16> {
    let slots = slot_count(caps);
    let mut places = vec![FREE; slots];
    let mut destinations = user_slots(caps);
    match random.below(8) {
        // Nothing away: on each rack some of its own slots, anywhere on it.
        0 | 1 => {
            for range in ranges(caps) {
                let mut own: Vec<u16> = (range.start as u16..range.end as u16 - 1).collect();
                let mut at: Vec<usize> = range.collect();
                random.shuffle(&mut own);
                random.shuffle(&mut at);
                let cards = some_of(random, own.len());
                for (&g, &destination) in at.iter().zip(&own[..cards]) {
                    places[g] = destination;
                }
            }
        }
        // Round by some number of user slots: full racks, spares free.
        2 => {
            let mut at = destinations.clone();
            if !at.is_empty() {
                destinations.rotate_left(random.below(at.len()));
            }
            at.truncate(some_of(random, destinations.len()));
            for (&g, &destination) in at.iter().zip(&destinations) {
                places[usize::from(g)] = destination;
            }
        }
        // Settled but for a few.
        3 => {
            for &g in &destinations {
                places[usize::from(g)] = g;
            }
            for _ in 0..random.between(1, 4) {
                places.swap(random.below(slots), random.below(slots));
            }
        }
        // As many cards as can be, or some; anywhere, spares too.
        kind => {
            let mut at: Vec<usize> = (0..slots).collect();
            random.shuffle(&mut destinations);
            random.shuffle(&mut at);
            let cards = if kind == 4 {
                destinations.len()
            } else {
                some_of(random, destinations.len())
            };
            for (&g, &destination) in at.iter().zip(&destinations[..cards]) {
                places[g] = destination;
            }
        }
    }
    places
}

/// All, none or some number of them.
fn some_of(random: &mut Random, all: usize) -> usize {
    match random.below(5) {
        0 => all,
        1 => all - random.below(all.min(2) + 1),
        _ => random.below(all + 1),
    }
}

/// One damage to a job. A few of them may leave it legal.
pub fn damage(random: &mut Random, job: &mut Job) {
    let slots = job.places.len();
    let any_slot = |random: &mut Random| random.below(slots.max(1));
    match random.below(14) {
        // a doubled entry
        0 | 1 => {
            let users = user_slots(&job.caps[..job.caps.len().min(4)]);
            if users.is_empty() || slots < 2 {
                return;
            }
            let twice = random.pick(&users);
            let g = any_slot(random);
            let h = (g + random.between(1, slots - 1)) % slots;
            job.places[g] = twice;
            job.places[h] = twice;
        }
        2 | 3 => {
            if !job.caps.is_empty() && slots > 0 {
                let g = any_slot(random);
                job.places[g] = on_a_spare(random, &job.caps);
            }
        }
        4 => {
            if slots > 0 {
                let g = any_slot(random);
                job.places[g] = no_slot(random, slots);
            }
        }
        5 => {
            job.places.push(random.pick(&[FREE, 0, HAND]));
        }
        6 => {
            job.places.pop();
        }
        7 => job.cards.push(0),
        8 => {
            job.cards.pop();
        }
        // a capacity too large, or off by one
        9 => {
            if !job.caps.is_empty() {
                let p = random.below(job.caps.len());
                let m = job.caps[p];
                let less = m.saturating_sub(1);
                job.caps[p] =
                    random.pick(&[1_024, 1_025, 65_535, 32_768, m.saturating_add(1), less]);
            }
        }
        // the total too large, by one or by far
        10 => {
            job.caps = match random.below(4) {
                0 => vec![1_023; random.between(4, 64)],
                1 => vec![1_023, 1_023, 1_023, 964],
                2 => {
                    let mut caps = vec![63; 64];
                    caps[random.below(64)] = 64;
                    caps
                }
                _ => vec![65_535; random.between(1, 64)],
            };
            // Only the total may be wrong: lengths fit now and then.
            let total = slot_count(&job.caps);
            if random.once_in(30) && total < 5_000 {
                job.places = vec![FREE; total];
                job.cards = vec![0; total * job.b.min(3)];
            }
        }
        11 | 12 => {
            let far = random.next() as usize;
            job.b = random.pick(&[0, 257, 256, 258, usize::MAX, 1 << 32, (1 << 63) + 1, far]);
        }
        // N
        _ => match random.below(5) {
            0 | 1 => job.caps.clear(),
            // Slots without user slots at the end, so that only N is wrong.
            2 | 3 => {
                job.caps.resize(65, 0);
                job.places.resize(slot_count(&job.caps), FREE);
                job.cards.resize(job.places.len() * job.b.min(3), 0);
            }
            _ => job.caps.resize(random.pick(&[64, 66, 128, 256, 320]), 1),
        },
    }
}

/// An entry on a spare. There are racks.
fn on_a_spare(random: &mut Random, caps: &[u16]) -> u16 {
    let spares: Vec<usize> = ranges(caps).iter().map(|r| r.end - 1).collect();
    random.pick(&spares) as u16
}

/// An entry that is no slot, or that is anything.
fn no_slot(random: &mut Random, slots: usize) -> u16 {
    let far = random.next() as u16;
    random.pick(&[slots as u16, (slots + 1) as u16, HAND, 65_533, far])
}

/// Several wrong entries in a legal job: bad ones, or such as repeat others, or both.
/// So the lowest is not the last, and of two the earlier is not the later.
pub fn wrong_entries(random: &mut Random, job: &mut Job) {
    let slots = job.places.len();
    let mut named = job.places.clone();
    named.retain(|&entry| entry != FREE);
    let kind = random.below(3);
    for _ in 0..random.between(2, 7) {
        let g = random.below(slots);
        let bad = kind == 0 || (kind == 1 && random.once_in(2)) || named.is_empty();
        job.places[g] = match bad {
            true if random.once_in(2) => on_a_spare(random, &job.caps),
            true => no_slot(random, slots),
            false => random.pick(&named),
        };
    }
}

/// A table of anything, with lengths that fit or not.
pub fn garbage(random: &mut Random) -> Job {
    let racks = match random.below(20) {
        0 => random.between(60, 70),
        1 => random.below(2_000),
        _ => random.below(7),
    };
    let any = random.once_in(8);
    let caps: Vec<u16> = (0..racks)
        .map(|_| {
            if any {
                random.next() as u16
            } else {
                random.below(4) as u16
            }
        })
        .collect();
    let b = if random.once_in(3) {
        random.number(256)
    } else {
        random.between(1, 4)
    };
    let length = if random.once_in(4) {
        random.below(30)
    } else if random.once_in(2_000) {
        random.between(60_000, 70_000)
    } else {
        slot_count(&caps).min(5_000)
    };
    let kind = random.below(4);
    let places = (0..length)
        .map(|_| match kind {
            0 => random.next() as u16,
            1 => random.below(length + 2) as u16,
            // Mostly free: now and then legal.
            _ if random.once_in(3) => random.below(length + 1) as u16,
            _ => FREE,
        })
        .collect();
    let card_bytes = if random.once_in(4) {
        random.below(100)
    } else {
        length.saturating_mul(b).min(2_000)
    };
    let cards = random.bytes(card_bytes);
    Job {
        caps,
        b,
        places,
        cards,
    }
}

// ---------------------------------------------------------------------------
// Files

/// Shortest form; numbers above three groups come out longer.
pub fn write_number(out: &mut Vec<u8>, number: usize) {
    let mut left = number;
    while left >= 0x80 {
        out.push(left as u8 | 0x80);
        left >>= 7;
    }
    out.push(left as u8);
}

/// N, B, the capacities and the entries of a job, each as in its file.
fn file_numbers(job: &Job) -> Vec<Vec<u8>> {
    let head = [job.caps.len(), job.b];
    let caps = job.caps.iter().map(|&m| usize::from(m));
    let entries = job.places.iter().map(|&entry| match entry {
        FREE => 0,
        destination => usize::from(destination) + 1,
    });
    head.into_iter()
        .chain(caps)
        .chain(entries)
        .map(|number| {
            let mut bytes = Vec::new();
            write_number(&mut bytes, number);
            bytes
        })
        .collect()
}

/// The job as a file, legal or not.
pub fn file(job: &Job) -> Vec<u8> {
    let mut file = file_numbers(job).concat();
    file.extend_from_slice(&job.cards);
    file
}

/// The job's file with one damage or more.
pub fn damaged_file(random: &mut Random, job: &Job) -> Vec<u8> {
    let mut numbers = file_numbers(job);
    let mut cards = job.cards.clone();
    let racks = job.caps.len();
    for _ in 0..random.pick(&[0, 1, 1, 1, 2]) {
        // The first numbers are few: visit them as often as the entries.
        let at = match random.below(4) {
            0 => 0,
            1 => 1,
            2 => 2 + random.below(racks.max(1)),
            _ => 2 + racks + random.below(job.places.len().max(1)),
        }
        .min(numbers.len() - 1);
        match random.below(6) {
            // padded beyond its shortest form, perhaps beyond three groups
            0 => {
                for _ in 0..random.pick(&[1, 1, 2, 3]) {
                    if let Some(last) = numbers[at].last_mut() {
                        *last |= 0x80;
                    }
                    numbers[at].push(0);
                }
            }
            1 => {
                numbers[at] = random
                    .pick(&[
                        &[0x80, 0x80, 0x80][..],
                        &[0xff, 0xff, 0xff],
                        &[0x80, 0x80, 0x80, 0x00],
                        &[0x80, 0x80, 0x80, 0x01],
                        &[0xff, 0xff, 0xff, 0xff],
                        &[0xff, 0xff, 0x7f],
                        &[0x80, 0x00],
                        &[0x80, 0x80, 0x00],
                        &[0xff, 0xff, 0x00],
                        &[0x80, 0x80, 0x01],
                        &[0x80],
                        &[],
                    ])
                    .to_vec();
            }
            2 | 3 => {
                let value = random.pick(&[
                    0, 1, 2, 64, 65, 127, 128, 256, 257, 1_023, 1_024, 4_032, 4_033, 4_096, 4_097,
                    16_383, 16_384, 65_534, 65_535, 65_536, 65_537, 2_097_151, 2_097_152,
                ]);
                numbers[at].clear();
                write_number(&mut numbers[at], value);
            }
            4 => {
                numbers[at] = numbers[random.below(numbers.len())].clone();
            }
            _ => {
                cards.truncate(random.below(cards.len() + 1));
            }
        }
    }
    let mut file = numbers.concat();
    file.extend_from_slice(&cards);
    match random.below(8) {
        0 | 1 => file.truncate(random.below(file.len() + 1)),
        2 => {
            let more = random.between(1, 3);
            file.extend(random.bytes(more));
        }
        3 if !file.is_empty() => {
            let at = random.below(file.len());
            file[at] = random.next() as u8;
        }
        4 if random.once_in(60) => {
            let length = random.pick(&[32_767, 32_768, 32_769, 40_000]);
            file.resize(length, 0);
        }
        _ => {}
    }
    file
}

/// Bytes, all of them or only the small ones.
pub fn garbage_file(random: &mut Random) -> Vec<u8> {
    let length = random.below(40);
    let largest = random.pick(&[2, 4, 8, 130, 256]);
    (0..length).map(|_| random.below(largest) as u8).collect()
}
