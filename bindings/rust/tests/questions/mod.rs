//! Questions to the calls that have to do with a small stack: the table check, the
//! slot question and the phase plan, on tables of every shape that the benchmark
//! has, and on the same tables with a fault. A refusal is no shorter way: which
//! entry a 5 or a 6 is about is searched for behind a check that only says that
//! there is one.

#[path = "../../benches/shapes.rs"]
mod shapes;

use seineflute::raw::{self, Answer, SlotAnswer};
use seineflute::{FREE, MAX_USERS, PLAN_ROOM};
use shapes::{Dice, PLAN_SHAPES, SHAPES};

/// What a call is lent and told, and what it gave.
#[derive(Clone, Debug, Default, PartialEq, Eq)]
pub struct Lent {
    pub caps: Vec<u16>,
    pub places: Vec<u16>,
    pub slot: usize,
    pub list: Vec<u16>,
    /// Of the check and the plan, which give less, the rest is 0.
    pub answer: SlotAnswer,
}

pub type Call = extern "C" fn(&mut Lent);

/// Their names, as figures have them.
pub const CALLS: [(&str, Call); 3] = [
    ("check_table", check_table),
    ("slot_question", slot_question),
    ("phase_plan", phase_plan),
];

extern "C" fn check_table(lent: &mut Lent) {
    lent.answer = wide(raw::check_table(&lent.caps, &lent.places));
}

extern "C" fn slot_question(lent: &mut Lent) {
    lent.answer = raw::slot_question(&lent.caps, &lent.places, lent.slot);
}

extern "C" fn phase_plan(lent: &mut Lent) {
    lent.answer = wide(raw::phase_plan(&lent.caps, &lent.places, &mut lent.list));
}

fn wide(answer: Answer) -> SlotAnswer {
    SlotAnswer {
        number: answer.number,
        place: answer.place,
        phases: answer.phases,
        moves: answer.moves,
        copies: answer.copies,
        ..SlotAnswer::default()
    }
}

/// A call, what it is lent, and the number and place that it has to give.
pub struct Question {
    pub call: &'static str,
    /// What is special about it, one of `KINDS`.
    pub kind: &'static str,
    shape: &'static str,
    pub make: Call,
    pub lent: Lent,
    number: usize,
    place: usize,
}

impl Question {
    pub fn name(&self) -> String {
        format!("{} {}, {}", self.call, self.kind, self.shape)
    }

    /// Fails where the call gave another number or place.
    pub fn hold(&self, given: SlotAnswer) {
        let given = (given.number, given.place);
        assert_eq!(given, (self.number, self.place), "{}", self.name());
    }
}

/// A call that is done, with a list that is long or exactly long enough; refused with
/// 4 for a table that is too short or too long, with 5 and 6 for its first or last
/// entry, with 13 for a list that is one number too short.
pub const KINDS: [&str; 11] = [
    "done", "exact", "1", "3", "4 short", "4 long", "5 first", "5 last", "6 last", "7", "13",
];

/// All questions: on every shape, and of each kind at the least one.
pub fn all() -> Vec<Question> {
    let mut questions = Vec::new();
    for (shape, make) in SHAPES.into_iter().chain(PLAN_SHAPES) {
        let job = make(1, &mut Dice::new(2026));
        let accepted = Lent {
            caps: job.caps,
            places: job.places,
            list: vec![7; PLAN_ROOM],
            ..Lent::default()
        };
        let mut ask = |call: &str, kind, lent: &Lent, number, place| {
            assert!(KINDS.contains(&kind), "{kind}");
            let &(call, make) = CALLS.iter().find(|known| known.0 == call).expect(call);
            questions.push(Question {
                call,
                kind,
                shape,
                make,
                lent: lent.clone(),
                number,
                place,
            });
        };
        let slots = accepted.places.len();
        for (kind, lent, number, place) in tables(&accepted) {
            ask("check_table", kind, &lent, number, place);
            ask("phase_plan", kind, &lent, number, place);
            for slot in [0, slots / 2, slots - 1] {
                let lent = Lent {
                    slot,
                    ..lent.clone()
                };
                ask("slot_question", kind, &lent, number, place);
            }
        }
        for slot in [slots, usize::MAX] {
            let lent = Lent {
                slot,
                ..accepted.clone()
            };
            ask("slot_question", "7", &lent, 7, 0);
        }
        let mut exact = accepted.clone();
        exact.list.truncate(2 * pairs(&accepted));
        ask("phase_plan", "exact", &exact, 0, 0);
        if exact.list.pop().is_some() {
            ask("phase_plan", "13", &exact, 13, 0);
        }
    }
    for kind in KINDS {
        assert!(questions.iter().any(|question| question.kind == kind));
    }
    questions
}

/// The table itself, and such with a fault: of which kind, and the number and place
/// that it gets.
fn tables(accepted: &Lent) -> Vec<(&'static str, Lent, usize, usize)> {
    let slots = accepted.places.len();
    let last = slots - 1;
    // The last slot is a spare, and there is none behind it.
    let (spare, behind) = (last as u16, slots as u16);
    let named = accepted.places.iter().find(|&&entry| entry != FREE);
    let named = *named.expect("a card");
    assert_eq!(accepted.places[last], FREE, "the last spare is free");

    let of_racks = |caps: Vec<u16>| Lent {
        caps,
        ..accepted.clone()
    };
    let of_places = |places: Vec<u16>| Lent {
        places,
        ..accepted.clone()
    };
    let with = |at: usize, entry: u16| {
        let mut lent = accepted.clone();
        lent.places[at] = entry;
        lent
    };
    vec![
        ("done", accepted.clone(), 0, 0),
        ("1", of_racks(Vec::new()), 1, 0),
        ("3", of_racks(vec![MAX_USERS as u16 + 1]), 3, 0),
        ("4 short", of_places(accepted.places[..last].to_vec()), 4, 0),
        (
            "4 long",
            of_places([&accepted.places[..], &[FREE]].concat()),
            4,
            0,
        ),
        ("5 first", with(0, spare), 5, 0),
        ("5 first", with(0, behind), 5, 0),
        ("5 last", with(last, spare), 5, last),
        ("5 last", with(last, behind), 5, last),
        ("6 last", with(last, named), 6, last),
    ]
}

/// How many pairs the plan of a table has.
fn pairs(accepted: &Lent) -> usize {
    let mut list = accepted.list.clone();
    raw::phase_plan(&accepted.caps, &accepted.places, &mut list).moves
}
