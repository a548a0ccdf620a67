//! How long the calls take, beside two plain Rust versions and a memcpy of the bytes moved, all in this process.
//!
//!     cargo bench --offline
//!
//! The calls are made in turn on changing tables; a time is the smallest of several rounds, over all variants of a job.
//! `ROUNDS` says how many, a word after `--` takes the jobs with it in their name alone, and `TABLE` names a file to which
//! the rows go as well, with tabs between the fields and all times in nanoseconds a call.

#[path = "engine.rs"]
mod engine;
#[path = "../tests/plain/mod.rs"]
mod plain;
mod shapes;

use seineflute::{raw, PLAN_ROOM};
use shapes::{Dice, Job, PLAN_SHAPES, SHAPES};
use std::fs::File;
use std::hint::black_box;
use std::io::Write;
use std::time::Instant;

/// Tables of one shape, so that no predictor learns one.
const VARIANTS: usize = 6;

/// A job of so few slots is a small one: it has this many desks, and its calls are timed together, or a look at the clock would count.
const SMALL: usize = 128;
const DESKS: usize = 16;

/// The state that a call works on, made anew before each.
struct Desk {
    places: Vec<u16>,
    cards: Vec<u8>,
    list: Vec<u16>,
    caps: Vec<u16>,
    file: Vec<u8>,
    text: Vec<u8>,
}

/// A call of one version on a job: gives the number and what else it says, a count or a size, so that the versions can be compared.
type Call = fn(&Job, &mut Desk, &Extra) -> (usize, usize);

/// What else a call is given.
struct Extra {
    from: usize,
    to: usize,
    /// How many pairs the plan has.
    pairs: usize,
    file: Vec<u8>,
}

/// The calls of a version, in the order of `ROWS`, and its plan for the row `plan, before`.
macro_rules! version {
    ($m:ident, $before:path) => {
        [
            |j: &Job, _: &mut Desk, _: &Extra| {
                let r = $m::check_table(&j.caps, &j.places);
                (r.number, 0)
            },
            |j: &Job, _: &mut Desk, x: &Extra| {
                let r = $m::slot_question(&j.caps, &j.places, x.from);
                (r.number, r.state)
            },
            |j: &Job, d: &mut Desk, _: &Extra| {
                let r = $m::phase_plan(&j.caps, &j.places, &mut d.list[..PLAN_ROOM]);
                (r.number, r.moves)
            },
            |j: &Job, d: &mut Desk, x: &Extra| {
                let r = $m::one_move(&j.caps, j.b, &mut d.places, &mut d.cards, x.from, x.to);
                (r.number, r.moves)
            },
            |j: &Job, d: &mut Desk, _: &Extra| {
                let r = $m::budgeted_moves(&j.caps, j.b, &mut d.places, &mut d.cards, 1);
                (r.number, r.moves)
            },
            |j: &Job, d: &mut Desk, _: &Extra| {
                let r = $m::budgeted_moves(&j.caps, j.b, &mut d.places, &mut d.cards, 100);
                (r.number, r.moves)
            },
            |j: &Job, d: &mut Desk, _: &Extra| {
                let all = usize::MAX;
                let r = $m::budgeted_moves(&j.caps, j.b, &mut d.places, &mut d.cards, all);
                (r.number, r.moves)
            },
            |j: &Job, d: &mut Desk, _: &Extra| {
                let room = 3 * j.places.len();
                let r = $m::copy_list(&j.caps, &j.places, &mut d.list[..room]);
                (r.number, r.copies)
            },
            |j: &Job, d: &mut Desk, _: &Extra| {
                let r = $m::shuffle_cards(&j.caps, j.b, &mut d.places, &mut d.cards);
                (r.number, r.copies)
            },
            |j: &Job, d: &mut Desk, _: &Extra| {
                let r = $m::whole_run(&j.caps, j.b, &mut d.places, &mut d.cards);
                (r.number, r.moves + r.copies)
            },
            |_: &Job, d: &mut Desk, x: &Extra| {
                let r = $m::read_file(&x.file, &mut d.caps, &mut d.places);
                (r.number, r.slots)
            },
            |j: &Job, d: &mut Desk, _: &Extra| {
                let r = $m::write_file(&j.caps, j.b, &j.places, &j.cards, &mut d.file);
                (r.number, r.size)
            },
            |_: &Job, d: &mut Desk, x: &Extra| {
                let r = $m::list_job(&x.file, &mut d.text);
                (r.number, r.size)
            },
            |j: &Job, d: &mut Desk, x: &Extra| {
                let r = $m::phase_plan(&j.caps, &j.places, &mut d.list[..2 * x.pairs]);
                (r.number, r.moves)
            },
            |j: &Job, d: &mut Desk, _: &Extra| {
                let r = $before(&j.caps, &j.places, &mut d.list[..PLAN_ROOM]);
                (r.number, r.moves)
            },
        ]
    };
}

/// The bytes that a call moves, which a memcpy is held against.
#[derive(Clone, Copy)]
enum Moved {
    Nothing,
    /// A card for each move or copy that it counts.
    Counted,
    /// The cards of all slots.
    Cards,
}

impl Moved {
    fn bytes(self, job: &Job, count: usize) -> usize {
        match self {
            Moved::Nothing => 0,
            Moved::Counted => count * job.b,
            Moved::Cards => job.cards.len(),
        }
    }
}

/// The tables that a call is made on.
#[derive(Clone, Copy, PartialEq)]
enum On {
    /// Those of every job.
    Tables,
    /// The same with nothing away.
    Gathered,
    /// Those of every job, and of the shapes that are there for the plan.
    PlanTables,
}

/// A call's name, the tables it is made on, and the bytes it moves.
struct Row {
    name: &'static str,
    on: On,
    moved: Moved,
}

const fn row(name: &'static str, on: On, moved: Moved) -> Row {
    Row { name, on, moved }
}

const ROWS: [Row; 15] = [
    row("check", On::Tables, Moved::Nothing),
    row("slot", On::Tables, Moved::Nothing),
    row("plan", On::PlanTables, Moved::Nothing),
    row("one move", On::Tables, Moved::Counted),
    row("budget 1", On::Tables, Moved::Counted),
    row("budget 100", On::Tables, Moved::Counted),
    row("budget all", On::Tables, Moved::Counted),
    row("copy list", On::Gathered, Moved::Nothing),
    row("shuffle", On::Gathered, Moved::Counted),
    row("whole run", On::Tables, Moved::Counted),
    row("read file", On::Tables, Moved::Nothing),
    row("write file", On::Tables, Moved::Cards),
    row("listing", On::Tables, Moved::Nothing),
    // The list of `plan` is long enough for every job. This one is so for the job alone: 13 has to be decided.
    row("plan, exact list", On::PlanTables, Moved::Nothing),
    // Beside a plan with tables, as the library had it before 0.5.0.
    row("plan, before", On::PlanTables, Moved::Nothing),
];

const OURS: [Call; 15] = version!(raw, raw::phase_plan);
const ENGINE: [Call; 15] = version!(engine, engine::phase_plan_before);
const PLAIN: [Call; 15] = version!(plain, plain::phase_plan);

/// The desks of a job: one, but of a small job several.
fn desks(job: &Job) -> Vec<Desk> {
    let desk = || Desk {
        places: job.places.clone(),
        cards: job.cards.clone(),
        list: vec![0; PLAN_ROOM.max(3 * job.places.len())],
        caps: vec![0; 64],
        file: vec![0; 3 + 2 * (job.caps.len() + job.places.len()) + job.cards.len()],
        text: vec![0; seineflute::TEXT_ROOM],
    };
    let small = job.places.len() <= SMALL;
    (0..if small { DESKS } else { 1 }).map(|_| desk()).collect()
}

/// The time of a call on each desk, in nanoseconds; each is as the job has it before.
fn timed(call: Call, job: &Job, desks: &mut [Desk], extra: &Extra) -> (u64, (usize, usize)) {
    for desk in desks.iter_mut() {
        desk.places.copy_from_slice(&job.places);
        desk.cards.copy_from_slice(&job.cards);
    }
    let mut got = (0, 0);
    let start = Instant::now();
    for desk in desks {
        got = black_box(call(black_box(job), desk, extra));
    }
    (start.elapsed().as_nanos() as u64, got)
}

/// The time of some copies of n bytes by memcpy.
fn copied(times: usize, n: usize, from: &[u8], to: &mut [u8]) -> u64 {
    let start = Instant::now();
    for _ in 0..times {
        black_box(&mut *to)[..n].copy_from_slice(&black_box(from)[..n]);
    }
    start.elapsed().as_nanos() as u64
}

/// A move that a single call accepts: the first of the plan; where there is none, slot 0 to slot 0, which is refused.
fn extra_of(job: &Job) -> Extra {
    let mut list = vec![0; 2 * job.places.len()];
    let plan = plain::phase_plan(&job.caps, &job.places, &mut list);
    let (from, to) = if plan.moves > 0 {
        (list[0] as usize, list[1] as usize)
    } else {
        (0, 0)
    };
    Extra {
        from,
        to,
        pairs: plan.moves,
        file: shapes::file_of(job),
    }
}

/// The job with nothing away: as the phases leave it.
fn gathered(job: &Job) -> Job {
    let mut desk = job.clone();
    plain::budgeted_moves(
        &job.caps,
        job.b,
        &mut desk.places,
        &mut desk.cards,
        usize::MAX,
    );
    desk
}

/// Times of all variants together, and how many calls and bytes moved they are for.
struct Times {
    ours: u64,
    engine: u64,
    plain: u64,
    memcpy: u64,
    calls: usize,
    bytes: usize,
}

/// The smallest time of several rounds over all variants.
fn measure(call: usize, variants: &[Job], rounds: usize, plain_rounds: usize) -> Times {
    let mut best = Times {
        ours: u64::MAX,
        engine: u64::MAX,
        plain: u64::MAX,
        memcpy: u64::MAX,
        calls: 0,
        bytes: 0,
    };
    let extras: Vec<Extra> = variants.iter().map(extra_of).collect();
    let mut desks: Vec<Vec<Desk>> = variants.iter().map(desks).collect();
    best.calls = desks.iter().map(Vec::len).sum();
    let mut from = vec![1u8; 4 << 20];
    let mut to = vec![2u8; 4 << 20];
    dirty(&mut from);
    dirty(&mut to);
    for round in 0..rounds {
        let mut sum = [0u64; 4];
        let mut bytes = 0;
        for (i, job) in variants.iter().enumerate() {
            let (t, ours) = timed(OURS[call], job, &mut desks[i], &extras[i]);
            sum[0] += t;
            let (t, engine) = timed(ENGINE[call], job, &mut desks[i], &extras[i]);
            sum[1] += t;
            assert_eq!(ours, engine, "{}: the versions differ", ROWS[call].name);
            if round < plain_rounds {
                let (t, plain) = timed(PLAIN[call], job, &mut desks[i], &extras[i]);
                sum[2] += t;
                assert_eq!(ours, plain, "{}: the versions differ", ROWS[call].name);
            }
            let n = ROWS[call].moved.bytes(job, ours.1).min(from.len());
            if n > 0 {
                sum[3] += copied(desks[i].len(), n, &from, &mut to);
                bytes += n;
            }
        }
        best.ours = best.ours.min(sum[0]);
        best.engine = best.engine.min(sum[1]);
        if round < plain_rounds {
            best.plain = best.plain.min(sum[2]);
        }
        best.memcpy = best.memcpy.min(sum[3]);
        best.bytes = bytes;
    }
    best
}

/// Touches each page, so that the first copy pays for none.
fn dirty(list: &mut [u8]) {
    for x in list.iter_mut().step_by(1024) {
        *x = x.wrapping_add(1);
    }
}

/// The time of a call, in nanoseconds where microseconds would show 0.
fn shown(ns: f64) -> String {
    if ns < 1000.0 {
        format!("{ns:.0} ns")
    } else {
        format!("{:.2} us", ns / 1000.0)
    }
}

/// A row for people.
fn print_row(name: &str, b: usize, call: usize, t: &Times) {
    let memcpy = if t.bytes > 0 {
        format!("{:.2}", t.ours as f64 / t.memcpy.max(1) as f64)
    } else {
        String::from("-")
    };
    println!(
        "{:<24} {:>3}  {:<16} {:>10} {:>8.2} {:>8.3} {:>8}",
        name,
        b,
        ROWS[call].name,
        shown(t.ours as f64 / t.calls as f64),
        t.ours as f64 / t.engine as f64,
        t.ours as f64 / t.plain as f64,
        memcpy
    );
}

const FIELDS: &str = "job\tB\tcall\tours\tengine\ttext\tmemcpy\tbytes";

/// A row for a script: the fields as `FIELDS` names them. Where nothing is moved, memcpy and the bytes of all variants are 0.
fn write_row(file: &mut File, name: &str, b: usize, call: usize, t: &Times) {
    let each = |ns: u64| ns as f64 / t.calls as f64;
    let memcpy = if t.bytes > 0 { each(t.memcpy) } else { 0.0 };
    writeln!(
        file,
        "{}\t{}\t{}\t{:.1}\t{:.1}\t{:.1}\t{:.1}\t{}",
        name,
        b,
        ROWS[call].name,
        each(t.ours),
        each(t.engine),
        each(t.plain),
        memcpy,
        t.bytes
    )
    .expect("the table can be written");
}

fn main() {
    let rounds: usize = std::env::var("ROUNDS")
        .ok()
        .and_then(|x| x.parse().ok())
        .unwrap_or(40);
    let only = std::env::args().nth(1).filter(|x| !x.starts_with("--"));
    let mut table = std::env::var_os("TABLE").map(|path| {
        let mut file = File::create(path).expect("the table's file can be made");
        writeln!(file, "{FIELDS}").expect("the table can be written");
        file
    });
    println!("times of a call (ours), then ratios: ours to the engine in Rust, ours to the text in Rust, ours to memcpy of the bytes moved");
    println!(
        "{:<24} {:>3}  {:<16} {:>10} {:>8} {:>8} {:>8}",
        "job", "B", "call", "ours", "engine", "text", "memcpy"
    );
    // The plan looks at no card, so that one size of them is enough for its own shapes.
    let of_all = SHAPES.map(|shape| (shape, &[1, 16, 256][..], On::Tables));
    let of_plan = PLAN_SHAPES.map(|shape| (shape, &[1][..], On::PlanTables));
    for ((name, make), sizes, on) in of_all.into_iter().chain(of_plan) {
        if only.as_ref().is_some_and(|x| !name.contains(x.as_str())) {
            continue;
        }
        for &b in sizes {
            let mut dice = Dice::new(2026);
            let away: Vec<Job> = (0..VARIANTS).map(|_| make(b, &mut dice)).collect();
            let home: Vec<Job> = away.iter().map(gathered).collect();
            for (call, row) in ROWS.iter().enumerate() {
                if on == On::PlanTables && row.on != On::PlanTables {
                    continue;
                }
                let jobs = if row.on == On::Gathered { &home } else { &away };
                let t = measure(call, jobs, rounds, rounds.div_ceil(10));
                print_row(name, b, call, &t);
                if let Some(file) = &mut table {
                    write_row(file, name, b, call, &t);
                }
            }
        }
    }
}
