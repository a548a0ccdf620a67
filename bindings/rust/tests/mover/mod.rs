//! The eleven calls behind one trait, so that one test can run any
//! implementation of them.

#![allow(dead_code)]

pub mod faulty;

use crate::engine;
use crate::plain;
use seineflute::raw;
pub use seineflute::raw::{Answer, FileAnswer, SizeAnswer, SlotAnswer};

pub trait Mover {
    fn check_table(&self, caps: &[u16], places: &[u16]) -> Answer;
    fn slot_question(&self, caps: &[u16], places: &[u16], slot: usize) -> SlotAnswer;
    fn phase_plan(&self, caps: &[u16], places: &[u16], list: &mut [u16]) -> Answer;
    fn one_move(
        &self,
        caps: &[u16],
        b: usize,
        places: &mut [u16],
        cards: &mut [u8],
        from: usize,
        to: usize,
    ) -> Answer;
    fn budgeted_moves(
        &self,
        caps: &[u16],
        b: usize,
        places: &mut [u16],
        cards: &mut [u8],
        k: usize,
    ) -> Answer;
    fn copy_list(&self, caps: &[u16], places: &[u16], list: &mut [u16]) -> Answer;
    fn shuffle_cards(&self, caps: &[u16], b: usize, places: &mut [u16], cards: &mut [u8])
        -> Answer;
    fn whole_run(&self, caps: &[u16], b: usize, places: &mut [u16], cards: &mut [u8]) -> Answer;
    fn read_file(&self, file: &[u8], caps: &mut [u16], places: &mut [u16]) -> FileAnswer;
    fn write_file(
        &self,
        caps: &[u16],
        b: usize,
        places: &[u16],
        cards: &[u8],
        out: &mut [u8],
    ) -> SizeAnswer;
    fn list_job(&self, file: &[u8], out: &mut [u8]) -> SizeAnswer;
}

/// A module with the eleven calls as a `Mover`.
macro_rules! mover {
    ($name:ident, $module:ident) => {
        #[derive(Clone, Copy)]
        pub struct $name;

        impl Mover for $name {
            fn check_table(&self, caps: &[u16], places: &[u16]) -> Answer {
                $module::check_table(caps, places)
            }

            fn slot_question(&self, caps: &[u16], places: &[u16], slot: usize) -> SlotAnswer {
                $module::slot_question(caps, places, slot)
            }

            fn phase_plan(&self, caps: &[u16], places: &[u16], list: &mut [u16]) -> Answer {
                $module::phase_plan(caps, places, list)
            }

            fn one_move(
                &self,
                caps: &[u16],
                b: usize,
                places: &mut [u16],
                cards: &mut [u8],
                from: usize,
                to: usize,
            ) -> Answer {
                $module::one_move(caps, b, places, cards, from, to)
            }

            fn budgeted_moves(
                &self,
                caps: &[u16],
                b: usize,
                places: &mut [u16],
                cards: &mut [u8],
                k: usize,
            ) -> Answer {
                $module::budgeted_moves(caps, b, places, cards, k)
            }

            fn copy_list(&self, caps: &[u16], places: &[u16], list: &mut [u16]) -> Answer {
                $module::copy_list(caps, places, list)
            }

            fn shuffle_cards(
                &self,
                caps: &[u16],
                b: usize,
                places: &mut [u16],
                cards: &mut [u8],
            ) -> Answer {
                $module::shuffle_cards(caps, b, places, cards)
            }

            fn whole_run(
                &self,
                caps: &[u16],
                b: usize,
                places: &mut [u16],
                cards: &mut [u8],
            ) -> Answer {
                $module::whole_run(caps, b, places, cards)
            }

            fn read_file(&self, file: &[u8], caps: &mut [u16], places: &mut [u16]) -> FileAnswer {
                $module::read_file(file, caps, places)
            }

            fn write_file(
                &self,
                caps: &[u16],
                b: usize,
                places: &[u16],
                cards: &[u8],
                out: &mut [u8],
            ) -> SizeAnswer {
                $module::write_file(caps, b, places, cards, out)
            }

            fn list_job(&self, file: &[u8], out: &mut [u8]) -> SizeAnswer {
                $module::list_job(file, out)
            }
        }
    };
}

mover!(Proved, raw);
mover!(Plain, plain);
mover!(Engine, engine);
