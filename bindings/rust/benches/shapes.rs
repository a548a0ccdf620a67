//! Jobs to measure: racks, a table and cards. Each shape comes in variants, so that no branch predictor learns one table.

// Tests measure the stack on these tables, and make no files of them.
#![allow(dead_code)]

pub const FREE: u16 = 65_535;

/// A small generator of random numbers (splitmix64).
pub struct Dice(u64);

impl Dice {
    pub fn new(seed: u64) -> Self {
        Dice(seed)
    }

    pub fn next(&mut self) -> u64 {
        self.0 = self.0.wrapping_add(0x9e37_79b9_7f4a_7c15);
        let mut z = self.0;
        z = (z ^ (z >> 30)).wrapping_mul(0xbf58_476d_1ce4_e5b9);
        z = (z ^ (z >> 27)).wrapping_mul(0x94d0_49bb_1331_11eb);
        z ^ (z >> 31)
    }

    pub fn below(&mut self, n: usize) -> usize {
        (self.next() % n as u64) as usize
    }

    pub fn shuffle<T>(&mut self, list: &mut [T]) {
        for i in (1..list.len()).rev() {
            list.swap(i, self.below(i + 1));
        }
    }
}

#[derive(Clone)]
pub struct Job {
    pub caps: Vec<u16>,
    pub b: usize,
    pub places: Vec<u16>,
    pub cards: Vec<u8>,
}

/// The first slot of each rack, and the number of slots.
fn bases(caps: &[u16]) -> (Vec<usize>, usize) {
    let mut at = 0;
    let mut list = Vec::new();
    for &m in caps {
        list.push(at);
        at += m as usize + 1;
    }
    (list, at)
}

fn job(caps: Vec<u16>, b: usize, places: Vec<u16>, dice: &mut Dice) -> Job {
    let cards = (0..places.len() * b).map(|_| dice.next() as u8).collect();
    Job {
        caps,
        b,
        places,
        cards,
    }
}

/// Every user slot holds a card; rack p's cards are bound for rack `to(p)` if it has as many slots, in an order that the dice give.
fn full(
    caps: Vec<u16>,
    b: usize,
    dice: &mut Dice,
    destinations: impl Fn(&[Vec<u16>]) -> Vec<Vec<u16>>,
) -> Job {
    let (base, s) = bases(&caps);
    let mut slots: Vec<Vec<u16>> = Vec::new();
    for (p, &m) in caps.iter().enumerate() {
        let mut own: Vec<u16> = (0..m).map(|i| base[p] as u16 + i).collect();
        dice.shuffle(&mut own);
        slots.push(own);
    }
    let bound = destinations(&slots);
    let mut places = vec![FREE; s];
    for (p, &m) in caps.iter().enumerate() {
        for i in 0..m as usize {
            places[base[p] + i] = bound[p][i];
        }
    }
    job(caps, b, places, dice)
}

/// Case 1 of the paper cards, with cards of b bytes: one table, so that its variants differ in their cards alone.
pub fn case_1(b: usize, dice: &mut Dice) -> Job {
    job(
        vec![2, 2, 1],
        b,
        vec![3, 4, FREE, 0, 6, FREE, 1, FREE],
        dice,
    )
}

/// Each rack's cards are bound for the next rack; racks of unequal size pass on what is left over.
pub fn ring(caps: &[u16], b: usize, dice: &mut Dice) -> Job {
    full(caps.to_vec(), b, dice, |slots| {
        let mut all: Vec<u16> = slots.concat();
        let turn = slots[0].len();
        all.rotate_left(turn);
        let mut rest = &all[..];
        let mut bound = Vec::new();
        for own in slots {
            bound.push(rest[..own.len()].to_vec());
            rest = &rest[own.len()..];
        }
        bound
    })
}

/// Card i of rack p is bound for rack i: with 64 racks of 63 the racks are transposed.
pub fn transposed(caps: &[u16], b: usize, dice: &mut Dice) -> Job {
    full(caps.to_vec(), b, dice, |slots| {
        let all: Vec<u16> = {
            let longest = slots.iter().map(Vec::len).max().unwrap_or(0);
            (0..longest)
                .flat_map(|i| slots.iter().filter_map(move |own| own.get(i).copied()))
                .collect()
        };
        let mut rest = &all[..];
        let mut bound = Vec::new();
        for own in slots {
            bound.push(rest[..own.len()].to_vec());
            rest = &rest[own.len()..];
        }
        bound
    })
}

/// Half of the user slots hold a card, bound for any user slot.
pub fn half_full(caps: &[u16], b: usize, dice: &mut Dice) -> Job {
    partly_full(caps, b, dice, 2)
}

/// The same with a quarter of them.
pub fn quarter_full(caps: &[u16], b: usize, dice: &mut Dice) -> Job {
    partly_full(caps, b, dice, 4)
}

/// One user slot in so many holds a card.
fn partly_full(caps: &[u16], b: usize, dice: &mut Dice, one_in: usize) -> Job {
    let (base, s) = bases(caps);
    let mut users: Vec<u16> = Vec::new();
    for (p, &m) in caps.iter().enumerate() {
        users.extend((0..m).map(|i| base[p] as u16 + i));
    }
    let mut from = users.clone();
    dice.shuffle(&mut from);
    dice.shuffle(&mut users);
    let mut places = vec![FREE; s];
    for i in 0..users.len() / one_in {
        places[from[i] as usize] = users[i];
    }
    job(caps.to_vec(), b, places, dice)
}

/// Each rack has two cards, far apart, for each of the next fifteen racks round the ring: what is slow for a plan that looks for a rack's cards.
pub fn far_apart(b: usize, dice: &mut Dice) -> Job {
    let caps = vec![63; 64];
    let (base, s) = bases(&caps);
    let mut targets: Vec<usize> = (1..=15).collect();
    dice.shuffle(&mut targets);
    let mut taken = vec![0; caps.len()];
    let mut places = vec![FREE; s];
    for (p, &first) in base.iter().enumerate() {
        for (i, next) in targets.iter().enumerate() {
            let to = (p + next) % caps.len();
            for from in [first + i, first + 48 + i] {
                places[from] = (base[to] + taken[to]) as u16;
                taken[to] += 1;
            }
        }
    }
    job(caps, b, places, dice)
}

/// One rack: cards change places in twos.
pub fn two_cycles(m: u16, b: usize, dice: &mut Dice) -> Job {
    let mut order: Vec<u16> = (0..m).collect();
    dice.shuffle(&mut order);
    let mut places = vec![FREE; m as usize + 1];
    for pair in order.chunks_exact(2) {
        places[pair[0] as usize] = pair[1];
        places[pair[1] as usize] = pair[0];
    }
    job(vec![m], b, places, dice)
}

/// One rack: one chain through all slots, closed to a cycle or ending at a free slot.
pub fn chain(m: u16, b: usize, dice: &mut Dice, closed: bool) -> Job {
    let mut order: Vec<u16> = (0..m).collect();
    dice.shuffle(&mut order);
    let mut places = vec![FREE; m as usize + 1];
    for pair in order.windows(2) {
        places[pair[0] as usize] = pair[1];
    }
    if closed {
        places[order[m as usize - 1] as usize] = order[0];
    }
    job(vec![m], b, places, dice)
}

/// A job's name, and how it is made with cards of b bytes.
pub type Shape = (&'static str, fn(usize, &mut Dice) -> Job);

pub const SHAPES: [Shape; 11] = [
    ("case 1", case_1),
    ("8x8 ring", |b, d| ring(&[8; 8], b, d)),
    ("8x8 transposed", |b, d| transposed(&[8; 8], b, d)),
    ("1x1023 two-cycles", |b, d| two_cycles(1023, b, d)),
    ("1x1023 one shift", |b, d| chain(1023, b, d, false)),
    ("1x1023 one cycle", |b, d| chain(1023, b, d, true)),
    ("4x1008 ring", |b, d| ring(&[1008; 4], b, d)),
    ("1023 1023 1023 963 ring", |b, d| {
        ring(&[1023, 1023, 1023, 963], b, d)
    }),
    ("64x63 transposed", |b, d| transposed(&[63; 64], b, d)),
    ("64x63 ring", |b, d| ring(&[63; 64], b, d)),
    ("64x63 half full", |b, d| half_full(&[63; 64], b, d)),
];

/// More of them for the phase plan: here all racks have room, for cards from many others.
pub const PLAN_SHAPES: [Shape; 6] = [
    ("64x63 quarter full", |b, d| quarter_full(&[63; 64], b, d)),
    ("64x63 far apart", far_apart),
    ("16x251 half full", |b, d| half_full(&[251; 16], b, d)),
    ("8x503 half full", |b, d| half_full(&[503; 8], b, d)),
    ("4x1008 half full", |b, d| half_full(&[1008; 4], b, d)),
    ("64x7 half full", |b, d| half_full(&[7; 64], b, d)),
];

/// A number as a file has it: groups of seven bits, lowest first.
fn put_number(file: &mut Vec<u8>, mut x: usize) {
    while x >= 128 {
        file.push((x % 128) as u8 | 128);
        x /= 128;
    }
    file.push(x as u8);
}

/// The job as a file.
pub fn file_of(job: &Job) -> Vec<u8> {
    let mut file = Vec::new();
    put_number(&mut file, job.caps.len());
    put_number(&mut file, job.b);
    for &m in &job.caps {
        put_number(&mut file, m as usize);
    }
    for &x in &job.places {
        put_number(&mut file, if x == FREE { 0 } else { x as usize + 1 });
    }
    file.extend_from_slice(&job.cards);
    file
}
