//! How much stack each call takes, at the largest jobs: makes each call on a
//! painted stack of its own, and looks how far down the paint is gone. The calls
//! that have to do with a small stack are made on tables of every shape of the
//! benchmark besides, accepted and refused (`tests/questions`). Fails where a call
//! takes more than its figure (`tests/figures`), as does its test, which `cargo
//! test` runs. The figures are those of x86-64: a build for another processor, to
//! be tried there, has other frames, and may be said to take too much.
//!
//!     cargo run --release --offline --example stack

fn main() -> std::process::ExitCode {
    if measured::table() {
        std::process::ExitCode::SUCCESS
    } else {
        std::process::ExitCode::FAILURE
    }
}

/// The figures are those of x86-64. What is compiled for another processor, to be
/// tried there, has other frames.
#[cfg(target_arch = "x86_64")]
#[test]
fn no_call_takes_more_than_its_figure() {
    assert!(measured::table());
}

#[path = "../tests/figures/mod.rs"]
mod figures;
#[path = "../tests/painted/mod.rs"]
mod painted;
#[path = "../tests/questions/mod.rs"]
mod questions;

mod measured {
    use crate::figures::STACK;
    use crate::painted::depth;
    use crate::questions::{self, KINDS};
    use seineflute::{raw, COPY_ROOM, FREE, MAX_BYTES, MAX_RACKS, MAX_SLOTS, PLAN_ROOM, TEXT_ROOM};

    /// The painted stack: 2 MB, far more than the deepest call takes.
    const PAINTED: usize = 1 << 21;

    /// A job with the room that calls are lent.
    #[derive(Clone)]
    struct Job {
        caps: Vec<u16>,
        places: Vec<u16>,
        cards: Vec<u8>,
        list: Vec<u16>,
        file: Vec<u8>,
        small: Vec<u8>,
        text: Vec<u8>,
        number: usize,
    }

    type Call = extern "C" fn(&mut Job);

    const B: usize = MAX_BYTES;

    /// What a figure has to spare: half a KB.
    const SPARE: usize = 512;

    /// Nothing, to see what a call on the painted stack takes by itself.
    extern "C" fn nothing(job: &mut Job) {
        job.number = 0;
    }

    extern "C" fn limits(job: &mut Job) {
        job.number = usize::from(raw::limits().racks != MAX_RACKS);
    }

    extern "C" fn check_table(job: &mut Job) {
        job.number = raw::check_table(&job.caps, &job.places).number;
    }

    extern "C" fn slot_question(job: &mut Job) {
        job.number = raw::slot_question(&job.caps, &job.places, 1).number;
    }

    extern "C" fn phase_plan(job: &mut Job) {
        job.number = raw::phase_plan(&job.caps, &job.places, &mut job.list).number;
    }

    /// From the first card to the next rack's spare, where the ring has it free.
    extern "C" fn one_move(job: &mut Job) {
        let to = usize::from(job.caps[0]) + 1 + usize::from(job.caps[1]);
        let (places, cards) = (&mut job.places, &mut job.cards);
        job.number = raw::one_move(&job.caps, B, places, cards, 0, to).number;
    }

    extern "C" fn budgeted_moves(job: &mut Job) {
        let (places, cards) = (&mut job.places, &mut job.cards);
        job.number = raw::budgeted_moves(&job.caps, B, places, cards, usize::MAX).number;
    }

    extern "C" fn copy_list(job: &mut Job) {
        job.number = raw::copy_list(&job.caps, &job.places, &mut job.list).number;
    }

    extern "C" fn shuffle_cards(job: &mut Job) {
        let (places, cards) = (&mut job.places, &mut job.cards);
        job.number = raw::shuffle_cards(&job.caps, B, places, cards).number;
    }

    extern "C" fn whole_run(job: &mut Job) {
        let (places, cards) = (&mut job.places, &mut job.cards);
        job.number = raw::whole_run(&job.caps, B, places, cards).number;
    }

    extern "C" fn read_file(job: &mut Job) {
        let (caps, places) = (&mut job.caps, &mut job.places);
        job.number = raw::read_file(&job.file, caps, places).number;
    }

    /// Over the job's own file, which is exactly as long.
    extern "C" fn write_file(job: &mut Job) {
        let (places, cards) = (&job.places, &job.cards);
        job.number = raw::write_file(&job.caps, B, places, cards, &mut job.file).number;
    }

    /// The same job with cards of one byte, or its file is too large.
    extern "C" fn list_job(job: &mut Job) {
        job.number = raw::list_job(&job.small, &mut job.text).number;
    }

    /// A job of racks, and for slot u of a rack with m user slots the rack, from
    /// its own, and the user slot that it names.
    fn job(caps: &[u16], entry: impl Fn(usize, usize) -> Option<(usize, usize)>) -> Job {
        let base = |p: usize| -> usize { caps[..p].iter().map(|&m| usize::from(m) + 1).sum() };
        let mut places = Vec::new();
        for (p, &m) in caps.iter().enumerate() {
            let m = usize::from(m);
            places.extend((0..=m).map(|u| match entry(u, m) {
                Some((on, slot)) => (base((p + on) % caps.len()) + slot) as u16,
                None => FREE,
            }));
        }
        Job {
            caps: caps.to_vec(),
            cards: vec![1; places.len() * B],
            list: vec![0; PLAN_ROOM.max(COPY_ROOM)],
            file: file(caps, B, &places),
            small: file(caps, 1, &places),
            text: vec![0; TEXT_ROOM],
            places,
            number: usize::MAX,
        }
    }

    /// The file of a job with cards of b bytes.
    fn file(caps: &[u16], b: usize, places: &[u16]) -> Vec<u8> {
        let mut file = Vec::new();
        number(&mut file, caps.len());
        number(&mut file, b);
        caps.iter().for_each(|&m| number(&mut file, m.into()));
        for &e in places {
            number(&mut file, if e == FREE { 0 } else { usize::from(e) + 1 });
        }
        file.extend(vec![1; places.len() * b]);
        file
    }

    /// A number of a job file.
    fn number(file: &mut Vec<u8>, mut x: usize) {
        while x >= 128 {
            file.push((x % 128) as u8 | 128);
            x /= 128;
        }
        file.push(x as u8);
    }

    /// The most that a call takes on the questions of each kind; none where it has none.
    type Asked = (&'static str, [Option<usize>; KINDS.len()]);

    fn ask() -> Vec<Asked> {
        let mut asked = questions::CALLS.map(|(name, _)| (name, [None; KINDS.len()]));
        for mut question in questions::all() {
            let bytes = depth(PAINTED, question.make, &mut question.lent);
            question.hold(question.lent.answer);
            let row = asked.iter_mut().find(|row| row.0 == question.call);
            let kind = KINDS.iter().position(|&kind| kind == question.kind);
            let most = &mut row.expect("a call").1[kind.expect("a kind")];
            *most = (*most).max(Some(bytes));
        }
        asked.into()
    }

    /// Prints them, the largest last, which is what counts.
    fn print_asked(asked: &[Asked]) {
        println!("\nthe largest on tables of every shape of the benchmark: done, with a list that is exactly long enough, and refused");
        print!("{:16}", "");
        KINDS.iter().for_each(|kind| print!("{kind:>9}"));
        println!("{:>9}", "largest");
        for (name, most) in asked {
            print!("{name:16}");
            for bytes in most {
                print!("{:>9}", bytes.map_or("-".to_string(), |x| x.to_string()));
            }
            println!("{:>9}", most.iter().flatten().max().expect("a question"));
        }
    }

    /// Calls on the painted stack and prints a line for each; gives whether every
    /// figure is enough.
    pub fn table() -> bool {
        // 64 racks, each card away to the same slot of the next rack.
        let ring = job(&[63; MAX_RACKS], |u, m| (u < m).then_some((1, u)));
        assert_eq!(ring.places.len(), MAX_SLOTS);
        // The longest racks, each rack one shift: the spare's card to slot 0, and
        // each card to the slot after it, which it finds free at the end.
        let long = [1023, 1023, 1023, 963];
        let shift = job(&long, |u, m| match u {
            _ if u == m => Some((0, 0)),
            _ if u + 1 == m => None,
            _ => Some((0, u + 1)),
        });
        // The same racks, each rack one cycle of its user slots.
        let cycle = job(&long, |u, m| (u < m).then_some((0, (u + 1) % m)));
        // The same racks, each rack's cards away to the next rack, one slot on.
        let turned = job(&long[..3], |u, m| (u < m).then_some((1, (u + 1) % m)));

        let calls: [(&str, Call); 13] = [
            ("nothing", nothing),
            ("limits", limits),
            ("check_table", check_table),
            ("slot_question", slot_question),
            ("phase_plan", phase_plan),
            ("one_move", one_move),
            ("budgeted_moves", budgeted_moves),
            ("copy_list", copy_list),
            ("shuffle_cards", shuffle_cards),
            ("whole_run", whole_run),
            ("read_file", read_file),
            ("write_file", write_file),
            ("list_job", list_job),
        ];
        let jobs = [ring, shift, cycle, turned];
        let asked = ask();
        println!("bytes of stack; in brackets the number that the call gave; KB of the largest, those below too, with half a KB to spare, and the figure");
        println!(
            "{:16}{:>14}{:>14}{:>14}{:>14}{:>6}{:>8}",
            "", "ring", "shift", "cycle", "turned", "KB", "figure"
        );
        let mut enough = true;
        for (name, call) in calls {
            print!("{name:16}");
            let of_name = asked.iter().find(|row| row.0 == name);
            let mut most = of_name
                .and_then(|row| row.1.into_iter().flatten().max())
                .unwrap_or(0);
            let mut done = false;
            for job in &jobs {
                let mut job = job.clone();
                let bytes = depth(PAINTED, call, &mut job);
                print!("{:>14}", format!("{bytes} [{}]", job.number));
                most = most.max(bytes);
                done |= job.number == 0;
            }
            assert!(done, "{name} is refused on every job: that shows little");
            let kb = (most + SPARE).div_ceil(1_024);
            match STACK.iter().find(|figure| figure.0 == name) {
                Some(&(_, figure)) if kb > figure => {
                    println!("{kb:>6}{figure:>8} is not enough");
                    enough = false;
                }
                Some(&(_, figure)) => println!("{kb:>6}{figure:>8}"),
                None => {
                    assert_eq!(name, "nothing", "a call without a figure");
                    println!("{kb:>6}");
                }
            }
        }
        print_asked(&asked);
        assert_eq!(calls.len(), STACK.len() + 1, "every figure is measured");
        enough
    }
}
