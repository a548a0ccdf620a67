//! Two movers on the same jobs: every returned field, every lent entry and
//! byte must be the same.
//!
//! - `SEED`: the seed of the random jobs, printed by every run.
//! - `JOBS`: the number of random jobs.
//! - `ONLY`: the one random job to run, by the number that a difference names.
//! - `FAULT`: a deliberate fault of the second mover, to see the test fail.
//!
//! `cargo test --test differential -- --nocapture` shows the table of calls
//! and numbers seen.

#[path = "../benches/engine.rs"]
mod engine;
mod jobs;
mod mover;
mod plain;

use jobs::{Job, Random, Size, FREE};
use mover::faulty::{Faulty, FAULTS, WRONG_FILES};
use mover::{Answer, Engine, FileAnswer, Mover, Plain, Proved, SizeAnswer, SlotAnswer};
use std::fmt::Debug;
use std::sync::Barrier;
use std::thread;
use std::time::Instant;

/// The two that are compared.
fn movers() -> (impl Mover + Sync, impl Mover + Sync) {
    (Plain, Faulty::from_environment(Proved))
}

const DEFAULT_SEED: u64 = 20_010_205;
const DEFAULT_JOBS: u64 = 200_000;

#[test]
fn the_proved_library_agrees_with_plain() {
    let (a, b) = movers();
    compare_all("plain and proved", &a, &b);
}

#[test]
fn the_engine_agrees_with_plain() {
    compare_all("plain and engine", &Plain, &Engine);
}

/// Each thread has jobs of its own, by a seed of its own, and all begin at once.
#[test]
fn eight_threads_at_once_agree_with_plain() {
    const THREADS: u64 = 8;
    let seed = environment("SEED").unwrap_or(DEFAULT_SEED);
    let jobs = environment("JOBS").unwrap_or(DEFAULT_JOBS) / (10 * THREADS) + 100;
    let (a, b) = movers();
    let all_ready = Barrier::new(THREADS as usize);
    thread::scope(|scope| {
        for thread in 1..=THREADS {
            let (a, b, all_ready) = (&a, &b, &all_ready);
            scope.spawn(move || {
                let seed = seed.wrapping_add(thread);
                let mut compare = Compare::new(a, b);
                all_ready.wait();
                for job in 0..jobs {
                    let random = &mut Random::new(seed, job);
                    if let Err(difference) = random_job(&mut compare, random, job) {
                        panic!("thread {thread}: SEED={seed} ONLY={job}: {difference}");
                    }
                }
            });
        }
    });
}

/// A test that cannot fail says nothing: each fault is found in a short run.
#[test]
fn every_fault_is_found() {
    for fault in 1..=FAULTS {
        let faulty = Faulty {
            inner: Engine,
            fault,
        };
        match first_difference(&Engine, &faulty) {
            Some((job, _)) => println!("fault {fault:2}: found by random job {job}"),
            None => panic!("fault {fault} is not found"),
        }
    }
}

/// Where both movers write the same wrong file, reading it tells, or writing what was
/// read.
#[test]
fn every_wrong_file_is_found_by_reading_it() {
    for fault in WRONG_FILES {
        let faulty = Faulty {
            inner: Engine,
            fault,
        };
        match first_difference(&faulty, &faulty) {
            Some((job, what)) => {
                let said = what.lines().next().unwrap_or_default();
                assert!(
                    said.contains(READ_BACK) || said.contains(WRITTEN_BACK),
                    "fault {fault} is not found by reading: {said}"
                );
                println!("fault {fault:2}: random job {job}: {said}");
            }
            None => panic!("fault {fault} is not found by reading"),
        }
    }
}

/// The first random job on which two movers differ, in a short run, and how.
fn first_difference(a: &impl Mover, b: &impl Mover) -> Option<(u64, String)> {
    let mut compare = Compare::new(a, b);
    (0..100_000).find_map(|job| {
        let random = &mut Random::new(DEFAULT_SEED, job);
        let what = random_job(&mut compare, random, job).err()?;
        Some((job, what))
    })
}

fn environment(name: &str) -> Option<u64> {
    let text = std::env::var(name).ok()?;
    Some(text.parse().unwrap_or_else(|_| panic!("{name}: a number")))
}

fn compare_all(title: &str, a: &impl Mover, b: &impl Mover) {
    let seed = environment("SEED").unwrap_or(DEFAULT_SEED);
    let jobs = environment("JOBS").unwrap_or(DEFAULT_JOBS);
    let only = environment("ONLY");
    println!("{title}: SEED={seed} JOBS={jobs}");
    let mut compare = Compare::new(a, b);

    let start = Instant::now();
    for job in only.map_or(0..jobs, |job| job..job + 1) {
        if let Err(difference) = random_job(&mut compare, &mut Random::new(seed, job), job) {
            panic!("{title}: SEED={seed} ONLY={job}: {difference}");
        }
    }
    if only.is_some() {
        return;
    }
    let random_time = start.elapsed();
    let random_calls = compare.seen.calls();

    let start = Instant::now();
    let tables = match all_small_tables(&mut compare) {
        Ok(tables) => tables,
        Err(difference) => panic!("{title}: {difference}"),
    };
    let small_time = start.elapsed();

    println!(
        "{title}\n{}\
         {jobs} random jobs, {random_calls} calls of each mover, {:.1} s, {:.0} jobs a second\n\
         {tables} small tables, all of them, {} calls of each mover, {:.1} s",
        compare.seen.table(),
        random_time.as_secs_f64(),
        jobs as f64 / random_time.as_secs_f64(),
        compare.seen.calls() - random_calls,
        small_time.as_secs_f64(),
    );
    compare.seen.check(jobs);
}

// ---------------------------------------------------------------------------
// What was seen

/// The calls, and as one more row what the text of a listing says.
#[derive(Clone, Copy, PartialEq, Eq, Debug)]
enum Row {
    CheckTable,
    SlotQuestion,
    PhasePlan,
    OneMove,
    BudgetedMoves,
    CopyList,
    Shuffle,
    WholeRun,
    ReadFile,
    WriteFile,
    ListJob,
    ListingText,
}

const NUMBERS: usize = 21;

/// Each row with the numbers that the rules let it give.
const ROWS: [(Row, &str, &[usize]); 12] = [
    (Row::CheckTable, "check table", &[0, 1, 3, 4, 5, 6]),
    (Row::SlotQuestion, "slot question", &[0, 1, 3, 4, 5, 6, 7]),
    (Row::PhasePlan, "phase plan", &[0, 1, 3, 4, 5, 6, 13]),
    (
        Row::OneMove,
        "one move",
        &[0, 1, 2, 3, 4, 5, 6, 7, 8, 9, 10, 11],
    ),
    (Row::BudgetedMoves, "budgeted moves", &[0, 1, 2, 3, 4, 5, 6]),
    (Row::CopyList, "copy list", &[0, 1, 3, 4, 5, 6, 12, 13]),
    (Row::Shuffle, "shuffle", &[0, 1, 2, 3, 4, 5, 6, 12]),
    (Row::WholeRun, "whole run", &[0, 1, 2, 3, 4, 5, 6]),
    (
        Row::ReadFile,
        "read file",
        &[0, 1, 2, 3, 5, 6, 14, 15, 16, 17, 20],
    ),
    (Row::WriteFile, "write file", &[0, 1, 2, 3, 4, 5, 6, 19]),
    (Row::ListJob, "list job", &[0, 13]),
    (
        Row::ListingText,
        "  its text says",
        &[0, 1, 2, 3, 5, 6, 14, 15, 16, 18, 20],
    ),
];

#[derive(Default)]
struct Seen([[u64; NUMBERS]; ROWS.len()]);

impl Seen {
    fn add(&mut self, row: Row, number: usize) {
        assert!(number < NUMBERS, "{row:?} gives {number}");
        self.0[row as usize][number] += 1;
    }

    /// Calls made; the text of a listing is none.
    fn calls(&self) -> u64 {
        let rows = &self.0[..Row::ListingText as usize];
        rows.iter().flatten().sum()
    }

    fn table(&self) -> String {
        let mut text = format!("{:16}", "");
        for number in 0..NUMBERS {
            text += &format!("{number:>9}");
        }
        text.push('\n');
        for (row, name, _) in ROWS {
            text += &format!("{name:16}");
            for count in self.0[row as usize] {
                text += &match count {
                    0 => format!("{:>9}", "."),
                    count => format!("{count:>9}"),
                };
            }
            text.push('\n');
        }
        text
    }

    /// Every number that a call may give was given, and no other.
    fn check(&self, jobs: u64) {
        for number in 0..NUMBERS {
            assert!(
                self.0.iter().any(|row| row[number] > 0),
                "number {number} was never seen in {jobs} jobs"
            );
        }
        for (row, name, allowed) in ROWS {
            for number in 0..NUMBERS {
                let seen = self.0[row as usize][number] > 0;
                assert_eq!(
                    seen,
                    allowed.contains(&number),
                    "{name}: number {number} was {} in {jobs} jobs",
                    if seen { "seen" } else { "never seen" }
                );
            }
        }
    }
}

// ---------------------------------------------------------------------------
// One call of both

/// The calls that write a list.
#[derive(Clone, Copy, Debug)]
enum ListCall {
    PhasePlan,
    CopyList,
}

impl ListCall {
    fn row(self) -> Row {
        match self {
            ListCall::PhasePlan => Row::PhasePlan,
            ListCall::CopyList => Row::CopyList,
        }
    }

    fn run(self, mover: &impl Mover, job: &Job, list: &mut [u16]) -> Answer {
        match self {
            ListCall::PhasePlan => mover.phase_plan(&job.caps, &job.places, list),
            ListCall::CopyList => mover.copy_list(&job.caps, &job.places, list),
        }
    }

    /// How many pairs were written.
    fn pairs(self, answer: &Answer) -> usize {
        match self {
            ListCall::PhasePlan => answer.moves,
            ListCall::CopyList => answer.copies,
        }
    }
}

/// The calls that are lent the cards.
#[derive(Clone, Copy, Debug)]
enum CardsCall {
    OneMove { from: usize, to: usize },
    BudgetedMoves { k: usize },
    Shuffle,
    WholeRun,
}

impl CardsCall {
    fn row(self) -> Row {
        match self {
            CardsCall::OneMove { .. } => Row::OneMove,
            CardsCall::BudgetedMoves { .. } => Row::BudgetedMoves,
            CardsCall::Shuffle => Row::Shuffle,
            CardsCall::WholeRun => Row::WholeRun,
        }
    }

    fn run(self, mover: &impl Mover, job: &Job, lent: &mut Lent) -> Answer {
        let (caps, b) = (&job.caps[..], job.b);
        let (places, cards) = (&mut lent.places[..], &mut lent.cards[..]);
        match self {
            CardsCall::OneMove { from, to } => mover.one_move(caps, b, places, cards, from, to),
            CardsCall::BudgetedMoves { k } => mover.budgeted_moves(caps, b, places, cards, k),
            CardsCall::Shuffle => mover.shuffle_cards(caps, b, places, cards),
            CardsCall::WholeRun => mover.whole_run(caps, b, places, cards),
        }
    }
}

/// What one mover is lent: kept from call to call for its room.
#[derive(Default)]
struct Lent {
    caps: Vec<u16>,
    places: Vec<u16>,
    list: Vec<u16>,
    cards: Vec<u8>,
    out: Vec<u8>,
}

fn refill<T: Copy>(list: &mut Vec<T>, contents: &[T]) {
    list.clear();
    list.extend_from_slice(contents);
}

struct Compare<'a, A, B> {
    a: &'a A,
    b: &'a B,
    /// After a call, what it left in the hands of `a`, and so of `b`.
    lent_a: Lent,
    lent_b: Lent,
    seen: Seen,
}

type Compared<T> = Result<T, String>;

/// What is said to differ where a file is not read as the job that was written, and
/// where a job is not written as the file that was read.
const READ_BACK: &str = "the job that was written";
const WRITTEN_BACK: &str = "the file that was read";

/// A difference, with what was lent. Large jobs are cut: the seed and the
/// job's number bring them back.
#[cold]
fn difference(
    call: &dyn Debug,
    lent: &dyn Debug,
    what: &str,
    a: &dyn Debug,
    b: &dyn Debug,
) -> String {
    let cut = |value: &dyn Debug| {
        let mut text = format!("{value:?}");
        if text.len() > 3_000 {
            text.truncate(3_000);
            text += "...";
        }
        text
    };
    format!(
        "{call:?} differs in {what}\n  lent: {}\n  a: {}\n  b: {}",
        cut(lent),
        cut(a),
        cut(b)
    )
}

impl<'a, A: Mover, B: Mover> Compare<'a, A, B> {
    fn new(a: &'a A, b: &'a B) -> Self {
        Compare {
            a,
            b,
            lent_a: Lent::default(),
            lent_b: Lent::default(),
            seen: Seen::default(),
        }
    }

    fn check_table(&mut self, job: &Job) -> Compared<Answer> {
        let a = self.a.check_table(&job.caps, &job.places);
        let b = self.b.check_table(&job.caps, &job.places);
        if a != b {
            let lent = (&job.caps, &job.places);
            return Err(difference(&Row::CheckTable, &lent, "the answer", &a, &b));
        }
        self.seen.add(Row::CheckTable, a.number);
        Ok(a)
    }

    fn slot_question(&mut self, job: &Job, slot: usize) -> Compared<SlotAnswer> {
        let a = self.a.slot_question(&job.caps, &job.places, slot);
        let b = self.b.slot_question(&job.caps, &job.places, slot);
        if a != b {
            let lent = (&job.caps, &job.places, slot);
            return Err(difference(&Row::SlotQuestion, &lent, "the answer", &a, &b));
        }
        self.seen.add(Row::SlotQuestion, a.number);
        Ok(a)
    }

    /// The list has old contents, of which what is not written must stay.
    fn list_call(&mut self, call: ListCall, job: &Job, old: &[u16]) -> Compared<Answer> {
        refill(&mut self.lent_a.list, old);
        refill(&mut self.lent_b.list, old);
        let a = call.run(self.a, job, &mut self.lent_a.list);
        let b = call.run(self.b, job, &mut self.lent_b.list);
        let lent = (&job.caps, &job.places, old);
        if a != b {
            return Err(difference(&call, &lent, "the answer", &a, &b));
        }
        let (list_a, list_b) = (&self.lent_a.list, &self.lent_b.list);
        if list_a != list_b {
            return Err(difference(&call, &lent, "the list", list_a, list_b));
        }
        let written = 2 * call.pairs(&a);
        if list_a[written..] != old[written..] {
            return Err(difference(&call, &lent, "what must stay", list_a, &old));
        }
        self.seen.add(call.row(), a.number);
        Ok(a)
    }

    /// A list longer than needed, then exactly as long, then one too short.
    /// Leaves the pairs in the list of `lent_a`.
    fn list_calls(&mut self, call: ListCall, job: &Job, random: &mut Random) -> Compared<Answer> {
        // No list of copies is longer than one and a half times the slots.
        let room = 3 * job.places.len().min(5_000) + random.below(9);
        let old = random.list(room);
        let answer = self.list_call(call, job, &old)?;
        let length = 2 * call.pairs(&answer);
        if answer.number == 0 {
            if length > 0 {
                self.list_call(call, job, &old[..length - 1])?;
            }
            self.list_call(call, job, &old[..length])?;
        }
        Ok(answer)
    }

    /// The outcome is left in `lent_a`; `keep` makes it the job's.
    fn cards_call(&mut self, call: CardsCall, job: &Job) -> Compared<Answer> {
        for lent in [&mut self.lent_a, &mut self.lent_b] {
            refill(&mut lent.places, &job.places);
            refill(&mut lent.cards, &job.cards);
        }
        let a = call.run(self.a, job, &mut self.lent_a);
        let b = call.run(self.b, job, &mut self.lent_b);
        let lent = (&job.caps, job.b, &job.places, &job.cards);
        if a != b {
            return Err(difference(&call, &lent, "the answer", &a, &b));
        }
        let (places_a, places_b) = (&self.lent_a.places, &self.lent_b.places);
        if places_a != places_b {
            return Err(difference(&call, &lent, "places", places_a, places_b));
        }
        let (cards_a, cards_b) = (&self.lent_a.cards, &self.lent_b.cards);
        if cards_a != cards_b {
            return Err(difference(&call, &lent, "cards", cards_a, cards_b));
        }
        if a.number != 0 && (*places_a != job.places || *cards_a != job.cards) {
            return Err(difference(
                &call,
                &lent,
                "what must stay",
                places_a,
                cards_a,
            ));
        }
        self.seen.add(call.row(), a.number);
        Ok(a)
    }

    fn keep(&mut self, job: &mut Job) {
        std::mem::swap(&mut job.places, &mut self.lent_a.places);
        std::mem::swap(&mut job.cards, &mut self.lent_a.cards);
    }

    fn cards_call_and_keep(&mut self, call: CardsCall, job: &mut Job) -> Compared<Answer> {
        let answer = self.cards_call(call, job)?;
        self.keep(job);
        Ok(answer)
    }

    fn read_file(&mut self, file: &[u8], caps: &[u16], places: &[u16]) -> Compared<FileAnswer> {
        for lent in [&mut self.lent_a, &mut self.lent_b] {
            refill(&mut lent.caps, caps);
            refill(&mut lent.places, places);
        }
        let (lent_a, lent_b) = (&mut self.lent_a, &mut self.lent_b);
        let a = self.a.read_file(file, &mut lent_a.caps, &mut lent_a.places);
        let b = self.b.read_file(file, &mut lent_b.caps, &mut lent_b.places);
        let row = Row::ReadFile;
        let lent = (file, caps, places);
        if a != b {
            return Err(difference(&row, &lent, "the answer", &a, &b));
        }
        let (caps_a, caps_b) = (&lent_a.caps, &lent_b.caps);
        if caps_a != caps_b {
            return Err(difference(&row, &lent, "capacities", caps_a, caps_b));
        }
        let (places_a, places_b) = (&lent_a.places, &lent_b.places);
        if places_a != places_b {
            return Err(difference(&row, &lent, "places", places_a, places_b));
        }
        // On a refusal both numbers are 0, and so nothing may have changed.
        if caps_a[a.racks..] != caps[a.racks..] || places_a[a.slots..] != places[a.slots..] {
            return Err(difference(&row, &lent, "what must stay", caps_a, places_a));
        }
        self.seen.add(Row::ReadFile, a.number);
        Ok(a)
    }

    /// With lists that are exact, longer, and one or both too short.
    fn read_file_calls(&mut self, file: &[u8], random: &mut Random) -> Compared<FileAnswer> {
        // No more slots than bytes, in a file that is accepted.
        let room = file.len().min(4_096) + random.below(4);
        let most = random.between(64, 66);
        let (caps, places) = (random.list(most), random.list(room));
        let answer = self.read_file(file, &caps, &places)?;
        if answer.number == 0 {
            let (racks, slots) = (answer.racks, answer.slots);
            let short = random.below(racks);
            self.read_file(file, &caps[..racks], &places[..slots])?;
            self.read_file(file, &caps[..racks - 1], &places[..slots])?;
            self.read_file(file, &caps[..racks], &places[..slots - 1])?;
            self.read_file(file, &caps[..short], &places[..random.below(slots)])?;
            self.write_what_is_read(file, &caps[..racks], &places[..slots])?;
        }
        Ok(answer)
    }

    /// The buffer has old contents, of which what is not written must stay.
    fn write_file(&mut self, job: &Job, old: &[u8]) -> Compared<SizeAnswer> {
        let (out_a, out_b) = (&mut self.lent_a.out, &mut self.lent_b.out);
        refill(out_a, old);
        refill(out_b, old);
        let (caps, places, cards) = (&job.caps, &job.places, &job.cards);
        let a = self.a.write_file(caps, job.b, places, cards, out_a);
        let b = self.b.write_file(caps, job.b, places, cards, out_b);
        let row = Row::WriteFile;
        let lent = (caps, job.b, places, cards, old);
        if a != b {
            return Err(difference(&row, &lent, "the answer", &a, &b));
        }
        if out_a != out_b {
            return Err(difference(&row, &lent, "the buffer", out_a, out_b));
        }
        if out_a[a.size..] != old[a.size..] {
            return Err(difference(&row, &lent, "what must stay", out_a, &old));
        }
        self.seen.add(row, a.number);
        Ok(a)
    }

    /// With a buffer that is longer, and an empty one; where the job is accepted, also
    /// with one that is shorter, one byte too short, and exact, which is read back.
    fn write_file_calls(&mut self, job: &Job, random: &mut Random) -> Compared<SizeAnswer> {
        let room = room_of_file(job) + random.below(9);
        let old = random.bytes(room);
        let answer = self.write_file(job, &old)?;
        if answer.number == 19 {
            return Err(format!("{} bytes are too few for a file", old.len()));
        }
        self.write_file(job, &[])?;
        if answer.number == 0 {
            let size = answer.size;
            self.write_file(job, &old[..random.below(size)])?;
            self.write_file(job, &old[..size - 1])?;
            if self.write_file(job, &old[..size])? != answer {
                return Err(format!("{size} bytes are too few for a file of as many"));
            }
            self.read_what_is_written(job)?;
        }
        Ok(answer)
    }

    /// The job that `lent_a` has after a file was read into lists of its lengths.
    fn job_read(&self, file: &[u8], answer: &FileAnswer) -> Job {
        Job {
            caps: self.lent_a.caps.clone(),
            b: answer.bytes,
            places: self.lent_a.places.clone(),
            cards: file[answer.start..].to_vec(),
        }
    }

    /// The file that `lent_a` has in an exact buffer is read as the job that was
    /// written.
    fn read_what_is_written(&mut self, job: &Job) -> Compared<()> {
        let file = self.lent_a.out.clone();
        let (caps, places) = (vec![7; job.caps.len()], vec![7; job.places.len()]);
        let answer = self.read_file(&file, &caps, &places)?;
        let read = self.job_read(&file, &answer);
        if read != *job {
            return Err(difference(&Row::ReadFile, &file, READ_BACK, job, &read));
        }
        Ok(())
    }

    /// A file that is read without refusal, and written again, has the same bytes.
    fn write_what_is_read(&mut self, file: &[u8], caps: &[u16], places: &[u16]) -> Compared<()> {
        let answer = self.read_file(file, caps, places)?;
        let job = self.job_read(file, &answer);
        let size = self.write_file(&job, &vec![7; file.len()])?.size;
        let written = &self.lent_a.out[..size];
        if written != file {
            let (row, what) = (&Row::WriteFile, WRITTEN_BACK);
            return Err(difference(row, &job, what, &file, &written));
        }
        Ok(())
    }

    fn list_job(&mut self, file: &[u8], room: usize, old: u8) -> Compared<SizeAnswer> {
        for lent in [&mut self.lent_a, &mut self.lent_b] {
            lent.out.clear();
            lent.out.resize(room, old);
        }
        let (out_a, out_b) = (&mut self.lent_a.out, &mut self.lent_b.out);
        let a = self.a.list_job(file, out_a);
        let b = self.b.list_job(file, out_b);
        let row = Row::ListJob;
        let lent = (file, room);
        if a != b {
            return Err(difference(&row, &lent, "the answer", &a, &b));
        }
        if out_a != out_b {
            let (a, b) = (
                String::from_utf8_lossy(out_a),
                String::from_utf8_lossy(out_b),
            );
            return Err(difference(&row, &lent, "the text", &a, &b));
        }
        // All of it, as a vector loop.
        let changed = out_a[a.size..]
            .iter()
            .fold(0, |bits, &byte| bits | (byte ^ old));
        if changed != 0 {
            return Err(difference(&row, &lent, "what must stay", &a, out_a));
        }
        self.seen.add(row, a.number);
        if a.number == 0 {
            let number = refusal_in(&out_a[..a.size]);
            self.seen.add(Row::ListingText, number);
        }
        Ok(a)
    }

    /// With a buffer that is longer, exact, and too short.
    fn list_job_calls(&mut self, file: &[u8], random: &mut Random) -> Compared<SizeAnswer> {
        // Four times as much until it fits: few texts are long.
        let mut room = 128 + 2 * file.len().min(32_768);
        let old = random.next() as u8;
        let mut answer = self.list_job(file, room, old)?;
        while answer.number == 13 {
            room *= 4;
            answer = self.list_job(file, room, old)?;
        }
        if answer.number == 0 {
            self.list_job(file, answer.size, old)?;
            self.list_job(file, answer.size - 1, old)?;
            if random.once_in(4) {
                self.list_job(file, random.below(answer.size), old)?;
            }
        }
        Ok(answer)
    }
}

/// Bytes that are enough for the file of a job: N takes one, B, a capacity or an entry
/// two at most.
fn room_of_file(job: &Job) -> usize {
    3 + 2 * (job.caps.len() + job.places.len()) + job.cards.len()
}

/// The number that a listing's text says: 0 where it lists a run.
fn refusal_in(text: &[u8]) -> usize {
    let line = std::str::from_utf8(text).expect("a listing is text");
    line.strip_prefix("refused ")
        .map_or(0, |number| number.trim_end().parse().expect("a number"))
}

// ---------------------------------------------------------------------------
// Random jobs

fn random_job<A: Mover, B: Mover>(
    compare: &mut Compare<A, B>,
    random: &mut Random,
    number: u64,
) -> Compared<()> {
    // A job at the limits costs a thousand times as much as a small one.
    if number % 1_000 == 20 {
        return limit_job(compare, random);
    }
    let size = if random.once_in(30) {
        Size::Medium
    } else {
        Size::Small
    };
    match random.below(22) {
        0 => {
            let job = jobs::garbage(random);
            all_calls(compare, random, &job)?;
            file_calls(compare, &jobs::garbage_file(random), random)
        }
        1..=6 => {
            let mut job = jobs::legal(random, size);
            for _ in 0..random.pick(&[1, 1, 1, 1, 2, 3]) {
                jobs::damage(random, &mut job);
            }
            all_calls(compare, random, &job)?;
            file_calls(compare, &jobs::file(&job), random)
        }
        7..=10 => {
            let job = jobs::legal(random, size);
            file_calls(compare, &jobs::damaged_file(random, &job), random)?;
            file_calls(compare, &jobs::damaged_file(random, &job), random)
        }
        11 | 12 => wrong_entry_calls(compare, random, size),
        _ => {
            let mut job = jobs::legal(random, size);
            if random.once_in(3) {
                file_calls(compare, &jobs::file(&job), random)?;
            }
            call_sequence(compare, random, &mut job)
        }
    }
}

fn limit_job<A: Mover, B: Mover>(compare: &mut Compare<A, B>, random: &mut Random) -> Compared<()> {
    let mut job = jobs::legal(random, Size::Limit);
    match random.below(8) {
        0 => {
            jobs::damage(random, &mut job);
            all_calls(compare, random, &job)?;
            file_calls(compare, &jobs::file(&job), random)
        }
        1 => file_calls(compare, &jobs::damaged_file(random, &job), random),
        2 => file_calls(compare, &jobs::file(&job), random),
        3 => {
            let length = random.pick(&[32_767, 32_768, 32_768, 32_769]);
            let file = jobs::file(&jobs::legal_of_length(random, length));
            assert_eq!(file.len(), length);
            file_calls(compare, &file, random)
        }
        _ => call_sequence(compare, random, &mut job),
    }
}

/// Each call on a table with several wrong entries, and on its file, as it is and
/// damaged: which of them a refusal names is seen here.
fn wrong_entry_calls<A: Mover, B: Mover>(
    compare: &mut Compare<A, B>,
    random: &mut Random,
    size: Size,
) -> Compared<()> {
    // A large table that is refused costs little.
    let size = if random.once_in(20) {
        Size::Limit
    } else {
        size
    };
    let mut job = jobs::legal(random, size);
    jobs::wrong_entries(random, &mut job);
    all_calls(compare, random, &job)?;
    file_calls(compare, &jobs::file(&job), random)?;
    file_calls(compare, &jobs::damaged_file(random, &job), random)
}

fn file_calls<A: Mover, B: Mover>(
    compare: &mut Compare<A, B>,
    file: &[u8],
    random: &mut Random,
) -> Compared<()> {
    compare.read_file_calls(file, random)?;
    compare.list_job_calls(file, random)?;
    Ok(())
}

/// Each call once on a table that most of them refuse.
fn all_calls<A: Mover, B: Mover>(
    compare: &mut Compare<A, B>,
    random: &mut Random,
    job: &Job,
) -> Compared<()> {
    let slots = job.places.len();
    compare.check_table(job)?;
    compare.slot_question(job, random.number(slots))?;
    compare.list_calls(ListCall::PhasePlan, job, random)?;
    compare.list_calls(ListCall::CopyList, job, random)?;
    compare.cards_call(any_move(random, job), job)?;
    let k = random.number(slots);
    compare.cards_call(CardsCall::BudgetedMoves { k }, job)?;
    compare.cards_call(CardsCall::Shuffle, job)?;
    compare.cards_call(CardsCall::WholeRun, job)?;
    compare.write_file_calls(job, random)?;
    Ok(())
}

/// A move of anything to anywhere, often to somewhere near the card's
/// destination: that is where moves succeed, or fail late in the list.
fn any_move(random: &mut Random, job: &Job) -> CardsCall {
    let slots = job.places.len();
    if random.once_in(6) {
        return CardsCall::OneMove {
            from: random.number(slots),
            to: random.number(slots),
        };
    }
    let from = random.below(slots + 1);
    let to = match job.places.get(from) {
        Some(&entry) if entry != FREE && !random.once_in(3) => {
            (usize::from(entry) + random.below(5)).saturating_sub(2)
        }
        _ => random.below(slots + 1),
    };
    CardsCall::OneMove { from, to }
}

/// Calls one after another on the same table, until the run is over.
fn call_sequence<A: Mover, B: Mover>(
    compare: &mut Compare<A, B>,
    random: &mut Random,
    job: &mut Job,
) -> Compared<()> {
    let slots = job.places.len();
    compare.check_table(job)?;
    compare.slot_question(job, random.below(slots))?;
    compare.list_calls(ListCall::CopyList, job, random)?;
    compare.write_file_calls(job, random)?;
    for _ in 0..random.below(7) {
        match random.below(9) {
            0 => carry_a_plan(compare, random, job)?,
            1..=3 => {
                compare.cards_call_and_keep(any_move(random, job), job)?;
            }
            4 => {
                let k = random.below(5);
                compare.cards_call_and_keep(CardsCall::BudgetedMoves { k }, job)?;
            }
            5 => {
                let k = random.number(slots);
                compare.cards_call_and_keep(CardsCall::BudgetedMoves { k }, job)?;
            }
            6 => {
                compare.cards_call_and_keep(CardsCall::Shuffle, job)?;
            }
            7 => {
                compare.write_file_calls(job, random)?;
            }
            _ => {
                compare.slot_question(job, random.number(slots))?;
            }
        }
    }
    compare.list_calls(ListCall::PhasePlan, job, random)?;
    match random.below(4) {
        // The whole run in one call, or all moves first and the shuffle apart.
        0 => {
            let k = random.pick(&[usize::MAX, slots, slots.saturating_sub(1)]);
            compare.cards_call_and_keep(CardsCall::BudgetedMoves { k }, job)?;
        }
        _ => {
            compare.cards_call_and_keep(CardsCall::WholeRun, job)?;
        }
    }
    compare.list_calls(ListCall::PhasePlan, job, random)?;
    compare.list_calls(ListCall::CopyList, job, random)?;
    compare.cards_call_and_keep(CardsCall::Shuffle, job)?;
    compare.cards_call_and_keep(CardsCall::WholeRun, job)?;
    compare.check_table(job)?;
    Ok(())
}

/// The pairs of a plan by single moves, in any order, perhaps not all; then
/// sometimes one of them again.
fn carry_a_plan<A: Mover, B: Mover>(
    compare: &mut Compare<A, B>,
    random: &mut Random,
    job: &mut Job,
) -> Compared<()> {
    let answer = compare.list_call(ListCall::PhasePlan, job, &random.list(2 * job.places.len()))?;
    let mut pairs: Vec<CardsCall> = compare.lent_a.list[..2 * answer.moves]
        .chunks_exact(2)
        .map(|pair| CardsCall::OneMove {
            from: usize::from(pair[0]),
            to: usize::from(pair[1]),
        })
        .collect();
    random.shuffle(&mut pairs);
    if random.once_in(3) {
        pairs.truncate(random.below(pairs.len() + 1));
    }
    // A full plan at the limits: the checks of each move would take seconds.
    pairs.truncate(200);
    for &pair in &pairs {
        let moved = compare.cards_call_and_keep(pair, job)?;
        if moved.number != 0 {
            return Err(format!("{pair:?} of a plan is refused: {moved:?}"));
        }
    }
    if let Some(&again) = pairs.first() {
        compare.cards_call_and_keep(again, job)?;
    }
    Ok(())
}

// ---------------------------------------------------------------------------
// All small tables

const SMALL: usize = 5;

/// Every list of capacities of up to five slots, every table over the slots,
/// one number more and the mark for free, every call. Gives their number.
fn all_small_tables<A: Mover, B: Mover>(compare: &mut Compare<A, B>) -> Compared<u64> {
    let mut tables = 0;
    for slots in 1..=SMALL {
        for caps in all_capacities(slots) {
            let mut entries: Vec<u16> = (0..=slots as u16).collect();
            entries.push(FREE);
            let mut job = Job {
                caps,
                b: 1,
                places: vec![entries[0]; slots],
                cards: (1..=slots as u8).map(|slot| 16 * slot + slot).collect(),
            };
            // The table as a number with a digit for each slot.
            let mut digits = vec![0; slots];
            loop {
                every_call(compare, &job)?;
                tables += 1;
                let Some(up) = digits.iter().position(|&digit| digit + 1 < entries.len()) else {
                    break;
                };
                digits[..up].fill(0);
                digits[up] += 1;
                for slot in 0..=up {
                    job.places[slot] = entries[digits[slot]];
                }
            }
        }
    }
    Ok(tables)
}

/// The lists of capacities with this many slots: bit g says whether a rack
/// ends at slot g, and the last slot always is a spare.
fn all_capacities(slots: usize) -> Vec<Vec<u16>> {
    (0..1 << (slots - 1))
        .map(|ends: usize| {
            let mut caps = vec![0];
            for slot in 0..slots - 1 {
                if ends >> slot & 1 == 1 {
                    caps.push(0);
                } else if let Some(last) = caps.last_mut() {
                    *last += 1;
                }
            }
            caps
        })
        .collect()
}

fn every_call<A: Mover, B: Mover>(compare: &mut Compare<A, B>, job: &Job) -> Compared<()> {
    const OLD: [u16; 4 * SMALL] = [0x5aa5; 4 * SMALL];
    let slots = job.places.len();
    compare.check_table(job)?;
    for slot in 0..=slots {
        compare.slot_question(job, slot)?;
    }
    for call in [ListCall::PhasePlan, ListCall::CopyList] {
        let answer = compare.list_call(call, job, &OLD)?;
        let length = 2 * call.pairs(&answer);
        for room in length.saturating_sub(2)..=length {
            compare.list_call(call, job, &OLD[..room])?;
        }
    }
    for from in 0..=slots {
        for to in 0..=slots {
            compare.cards_call(CardsCall::OneMove { from, to }, job)?;
        }
    }
    for k in 0..=slots + 1 {
        compare.cards_call(CardsCall::BudgetedMoves { k }, job)?;
    }
    compare.cards_call(CardsCall::Shuffle, job)?;
    compare.cards_call(CardsCall::WholeRun, job)?;

    let file = jobs::file(job);
    compare.read_file(&file, &OLD[..job.caps.len()], &OLD[..slots])?;
    compare.list_job(&file, 64 * (slots + 2), 0xa5)?;
    for room in [file.len() + 2, file.len(), file.len() - 1, 0] {
        compare.write_file(job, &[0xa5; 4 * SMALL + 4][..room])?;
    }
    Ok(())
}
