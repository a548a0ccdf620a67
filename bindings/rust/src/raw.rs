//! The proved calls as they are: numbers in, numbers out. Each function is safe,
//! since a slice is all that the library asks of a list, and takes every input.
//!
//! A struct's fields are those of the library's answer: `number` is 0 where the
//! call is done, else a [`Refusal`](crate::Refusal)'s. `place` goes with 5 and
//! 6: the slot of the lowest bad entry, and of the lowest entry that repeats an
//! earlier one; with every other number it is 0. All else is 0 on a refusal.

/// What every call gives: its number, the place that goes with it, and the counts.
#[repr(C)]
#[derive(Clone, Copy, Debug, Default, PartialEq, Eq)]
pub struct Answer {
    pub number: usize,
    pub place: usize,
    pub phases: usize,
    pub moves: usize,
    pub copies: usize,
}

/// What the slot question gives.
#[repr(C)]
#[derive(Clone, Copy, Debug, Default, PartialEq, Eq)]
pub struct SlotAnswer {
    pub number: usize,
    pub place: usize,
    pub phases: usize,
    pub moves: usize,
    pub copies: usize,
    /// 0 none, 1 user slot, 2 spare.
    pub kind: usize,
    /// 0 none, 1 free, 2 settled, 3 on its rack but unsettled, 4 away.
    pub state: usize,
    /// The rack to which the card is away; 0 in every other state.
    pub rack: usize,
}

/// What the file reader gives.
#[repr(C)]
#[derive(Clone, Copy, Debug, Default, PartialEq, Eq)]
pub struct FileAnswer {
    pub number: usize,
    pub place: usize,
    pub phases: usize,
    pub moves: usize,
    pub copies: usize,
    /// N.
    pub racks: usize,
    /// B.
    pub bytes: usize,
    /// S.
    pub slots: usize,
    /// Where the card bytes begin; they go to the file's end.
    pub start: usize,
}

/// What the calls that fill a buffer of bytes give: the file writer and the listing.
#[repr(C)]
#[derive(Clone, Copy, Debug, Default, PartialEq, Eq)]
pub struct SizeAnswer {
    pub number: usize,
    pub place: usize,
    pub phases: usize,
    pub moves: usize,
    pub copies: usize,
    /// The bytes of the file, or of the text.
    pub size: usize,
}

/// Its name before 0.3.0, when the listing alone gave it.
pub type ListingAnswer = SizeAnswer;

/// The limits and marks that the library was proved with.
#[repr(C)]
#[derive(Clone, Copy, Debug, Default, PartialEq, Eq)]
pub struct Limits {
    /// The most racks.
    pub racks: usize,
    /// The most bytes of a card.
    pub bytes: usize,
    /// The most user slots of a rack.
    pub users: usize,
    /// The most user slots of all racks.
    pub total: usize,
    /// The most slots, spares among them.
    pub slots: usize,
    /// In a places table: the slot is free.
    pub free: usize,
    /// In a copy list: the hand.
    pub hand: usize,
    /// The most bytes of a file that is listed.
    pub file: usize,
    /// Room for the listing's text of every file.
    pub enough: usize,
}

/// The library's functions: a slice is a pointer and a number of entries.
mod c {
    use super::{Answer, FileAnswer, Limits, SizeAnswer, SlotAnswer};

    extern "C" {
        pub fn seineflute_limits() -> Limits;

        pub fn seineflute_check_table(
            caps: *const u16,
            caps_len: usize,
            places: *const u16,
            places_len: usize,
        ) -> Answer;

        pub fn seineflute_slot_question(
            caps: *const u16,
            caps_len: usize,
            places: *const u16,
            places_len: usize,
            slot: usize,
        ) -> SlotAnswer;

        pub fn seineflute_phase_plan(
            caps: *const u16,
            caps_len: usize,
            places: *const u16,
            places_len: usize,
            list: *mut u16,
            list_len: usize,
        ) -> Answer;

        pub fn seineflute_one_move(
            caps: *const u16,
            caps_len: usize,
            b: usize,
            places: *mut u16,
            places_len: usize,
            cards: *mut u8,
            cards_len: usize,
            from: usize,
            to: usize,
        ) -> Answer;

        pub fn seineflute_budgeted_moves(
            caps: *const u16,
            caps_len: usize,
            b: usize,
            places: *mut u16,
            places_len: usize,
            cards: *mut u8,
            cards_len: usize,
            k: usize,
        ) -> Answer;

        pub fn seineflute_copy_list(
            caps: *const u16,
            caps_len: usize,
            places: *const u16,
            places_len: usize,
            list: *mut u16,
            list_len: usize,
        ) -> Answer;

        pub fn seineflute_shuffle_cards(
            caps: *const u16,
            caps_len: usize,
            b: usize,
            places: *mut u16,
            places_len: usize,
            cards: *mut u8,
            cards_len: usize,
        ) -> Answer;

        pub fn seineflute_whole_run(
            caps: *const u16,
            caps_len: usize,
            b: usize,
            places: *mut u16,
            places_len: usize,
            cards: *mut u8,
            cards_len: usize,
        ) -> Answer;

        pub fn seineflute_read_file(
            file: *const u8,
            file_len: usize,
            caps: *mut u16,
            caps_len: usize,
            places: *mut u16,
            places_len: usize,
        ) -> FileAnswer;

        pub fn seineflute_write_file(
            caps: *const u16,
            caps_len: usize,
            b: usize,
            places: *const u16,
            places_len: usize,
            cards: *const u8,
            cards_len: usize,
            out: *mut u8,
            out_len: usize,
        ) -> SizeAnswer;

        pub fn seineflute_list_job(
            file: *const u8,
            file_len: usize,
            out: *mut u8,
            out_len: usize,
        ) -> SizeAnswer;
    }
}

// Every call below is sound for one reason: the pointers and lengths are those of
// slices, so they are aligned, not null and valid, and a `&mut` overlaps no other;
// the library is proved to read and write inside them only, and keeps none.

/// Limits and marks.
pub fn limits() -> Limits {
    // SAFETY: it takes nothing.
    unsafe { c::seineflute_limits() }
}

/// Table check.
pub fn check_table(caps: &[u16], places: &[u16]) -> Answer {
    // SAFETY: as said above.
    unsafe { c::seineflute_check_table(caps.as_ptr(), caps.len(), places.as_ptr(), places.len()) }
}

/// Slot question.
pub fn slot_question(caps: &[u16], places: &[u16], slot: usize) -> SlotAnswer {
    // SAFETY: as said above.
    unsafe {
        c::seineflute_slot_question(
            caps.as_ptr(),
            caps.len(),
            places.as_ptr(),
            places.len(),
            slot,
        )
    }
}

/// Phase plan: the pairs stand at the front of `list`, two numbers each.
pub fn phase_plan(caps: &[u16], places: &[u16], list: &mut [u16]) -> Answer {
    // SAFETY: as said above.
    unsafe {
        c::seineflute_phase_plan(
            caps.as_ptr(),
            caps.len(),
            places.as_ptr(),
            places.len(),
            list.as_mut_ptr(),
            list.len(),
        )
    }
}

/// One move.
pub fn one_move(
    caps: &[u16],
    b: usize,
    places: &mut [u16],
    cards: &mut [u8],
    from: usize,
    to: usize,
) -> Answer {
    // SAFETY: as said above.
    unsafe {
        c::seineflute_one_move(
            caps.as_ptr(),
            caps.len(),
            b,
            places.as_mut_ptr(),
            places.len(),
            cards.as_mut_ptr(),
            cards.len(),
            from,
            to,
        )
    }
}

/// Budgeted moves: at most `k`.
pub fn budgeted_moves(
    caps: &[u16],
    b: usize,
    places: &mut [u16],
    cards: &mut [u8],
    k: usize,
) -> Answer {
    // SAFETY: as said above.
    unsafe {
        c::seineflute_budgeted_moves(
            caps.as_ptr(),
            caps.len(),
            b,
            places.as_mut_ptr(),
            places.len(),
            cards.as_mut_ptr(),
            cards.len(),
            k,
        )
    }
}

/// Copy list: the copies stand at the front of `list`, two numbers each.
pub fn copy_list(caps: &[u16], places: &[u16], list: &mut [u16]) -> Answer {
    // SAFETY: as said above.
    unsafe {
        c::seineflute_copy_list(
            caps.as_ptr(),
            caps.len(),
            places.as_ptr(),
            places.len(),
            list.as_mut_ptr(),
            list.len(),
        )
    }
}

/// Shuffle.
pub fn shuffle_cards(caps: &[u16], b: usize, places: &mut [u16], cards: &mut [u8]) -> Answer {
    // SAFETY: as said above.
    unsafe {
        c::seineflute_shuffle_cards(
            caps.as_ptr(),
            caps.len(),
            b,
            places.as_mut_ptr(),
            places.len(),
            cards.as_mut_ptr(),
            cards.len(),
        )
    }
}

/// Whole run.
pub fn whole_run(caps: &[u16], b: usize, places: &mut [u16], cards: &mut [u8]) -> Answer {
    // SAFETY: as said above.
    unsafe {
        c::seineflute_whole_run(
            caps.as_ptr(),
            caps.len(),
            b,
            places.as_mut_ptr(),
            places.len(),
            cards.as_mut_ptr(),
            cards.len(),
        )
    }
}

/// Job file: the capacities and the places stand at the front of the two lists.
pub fn read_file(file: &[u8], caps: &mut [u16], places: &mut [u16]) -> FileAnswer {
    // SAFETY: as said above.
    unsafe {
        c::seineflute_read_file(
            file.as_ptr(),
            file.len(),
            caps.as_mut_ptr(),
            caps.len(),
            places.as_mut_ptr(),
            places.len(),
        )
    }
}

/// Write file: the job file stands at the front of `out`.
pub fn write_file(
    caps: &[u16],
    b: usize,
    places: &[u16],
    cards: &[u8],
    out: &mut [u8],
) -> SizeAnswer {
    // SAFETY: as said above.
    unsafe {
        c::seineflute_write_file(
            caps.as_ptr(),
            caps.len(),
            b,
            places.as_ptr(),
            places.len(),
            cards.as_ptr(),
            cards.len(),
            out.as_mut_ptr(),
            out.len(),
        )
    }
}

/// Listing: the text stands at the front of `out`. A text that says `refused` is a
/// text like any other.
pub fn list_job(file: &[u8], out: &mut [u8]) -> SizeAnswer {
    // SAFETY: as said above.
    unsafe { c::seineflute_list_job(file.as_ptr(), file.len(), out.as_mut_ptr(), out.len()) }
}
