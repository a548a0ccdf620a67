//! The stack that each call takes, in KB of 1,024 bytes: what was measured and half a
//! KB to spare, rounded up. They are the figures of the header, the crate's docs and
//! the README. Where one changes, it is changed here; `tests/stack.rs` then says where
//! else it stands, and `examples/stack.rs` fails where a call takes more.

pub const STACK: [(&str, usize); 12] = [
    ("limits", 1),
    ("check_table", 10),
    ("slot_question", 11),
    ("phase_plan", 11),
    ("read_file", 14),
    ("write_file", 10),
    ("one_move", 14),
    ("budgeted_moves", 40),
    ("copy_list", 29),
    ("shuffle_cards", 34),
    ("whole_run", 48),
    ("list_job", 344),
];
