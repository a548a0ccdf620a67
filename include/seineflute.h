/*
 * Seineflute moves claim cards between racks without ever losing one.
 *
 * Plain C99, for 64-bit Linux on x86-64. Link target/staticlib/libseineflute.a, which ./staticlib
 * makes. It needs nothing but memcpy and memset, keeps nothing between calls, allocates nothing, and
 * may be called from many threads at once with different lists. examples/case1.c is a whole program.
 *
 * Racks, slots, tables
 *
 * N racks, 1 to 64. Rack p has caps[p] user slots, 0 to 1,023, and one spare after them. The user
 * slots total at most 4,032. S = total + N, so at most 4,096. Slots are numbered from 0 through all
 * racks in order: rack 0's user slots, its spare, rack 1's user slots, its spare, and so on.
 *
 * places has S entries. Entry g is SEINEFLUTE_FREE if slot g is free, else the slot where the card
 * in g must end: a user slot that no other entry names. A card is away if that slot is on another
 * rack, and settled if it is its own slot.
 *
 * A card is b bytes, 1 to 256. cards has S * b bytes, slot 0 first.
 *
 * What is asked of pointers
 *
 * Each list is lent as two arguments: a pointer to its first entry, and then how many entries it has
 * (entries, not bytes). The pointer must be aligned for its entries and valid for all of them until
 * the call returns, and it must not be null, not even for a list of no entries: there any address
 * that is aligned will do, as that of an array which is not looked at. A list that is not const must
 * not overlap any other list of the same call; lists that are const may overlap each other. This is
 * all that is asked: every number, and every content of the lists, is allowed, and gets an answer.
 *
 * What is asked of the stack
 *
 * There is no heap, so a call's tables lie on the caller's stack. What each call takes, measured at the
 * largest jobs, with half a KB to spare, rounded up to whole KB of 1,024 bytes:
 *
 *     limits                                   1
 *     check_table, write_file                 10
 *     slot_question, phase_plan               11
 *     read_file, one_move                     14
 *     budgeted_moves                          40
 *     copy_list                               29
 *     shuffle_cards                           34
 *     whole_run                               48
 *     list_job                               344
 *
 * Outside itself the library calls memcpy and memset alone. In a program that binds them lazily the
 * first such call runs the loader on the same stack, some 4 KB more on x86-64: where the stack is
 * small, link with -z now, or statically.
 *
 * Large frames are touched page by page, so a stack that is too small ends in its guard page.
 * bindings/rust/examples/stack.rs measures anew, and fails where a call takes more.
 *
 * To follow a listing move by move
 *
 * Ask for a plan, carry it pair by pair with seineflute_one_move, and ask for the next one when it is
 * used up: these are the moves that a listing shows and that the whole run makes. Budgeted moves of a
 * few at a time are others: each call plans afresh, on the table as it is by then, and so may take
 * other slots, as one that a move has just left. Every card ends in its slot both ways, after as many
 * moves.
 *
 * Numbers given back
 *
 * Every call gives a number, which seineflute_words puts into words, a place, and counts of phases,
 * moves and copies. A count is 0 where the call does not speak of it. A number other than
 * SEINEFLUTE_DONE is a refusal: then all counts and all other fields but the place are 0, and nothing
 * lent has changed. Checks are made in the order of the numbers, and the first that applies is given;
 * the file reader has an order of its own.
 *
 * The place says which entry of the table is refused, by its slot. With SEINEFLUTE_BAD_ENTRY it is the
 * lowest bad entry, with SEINEFLUTE_NAMED_TWICE the lowest entry that repeats an earlier one: the later
 * of the two. In a file it is the slot too, not a byte. With every other number, and where the call is
 * done, it is 0; as 0 is a slot as well, the number tells whether there is a place.
 *
 * What a call writes into a lent list starts at its front, and the rest is unchanged.
 */
#ifndef SEINEFLUTE_H
#define SEINEFLUTE_H

#include <stddef.h>
#include <stdint.h>

#ifdef __cplusplus
extern "C" {
#endif

/*
 * The version of this header, which is that of the Rust crate beside it. The structs are those of
 * 0.4.0, and not those of 0.3: each answer that has a number has a place after it, so what was compiled
 * with a header before 0.4.0 has to be compiled again: a call would write behind its struct. Where the
 * card bytes of a file begin was `place` then, and is `start`: a caller that reads `place` for it still
 * compiles, and has to be changed.
 */
#define SEINEFLUTE_VERSION "0.5.1"
#define SEINEFLUTE_VERSION_MAJOR 0
#define SEINEFLUTE_VERSION_MINOR 5
#define SEINEFLUTE_VERSION_PATCH 1

/* Limits. */
enum {
    SEINEFLUTE_MAX_RACKS = 64,   /* racks */
    SEINEFLUTE_MAX_BYTES = 256,  /* bytes of a card */
    SEINEFLUTE_MAX_USERS = 1023, /* user slots of a rack */
    SEINEFLUTE_MAX_TOTAL = 4032, /* user slots of all racks */
    SEINEFLUTE_MAX_SLOTS = 4096, /* slots, spares among them */
    SEINEFLUTE_MAX_FILE = 32768  /* bytes of a file that is listed */
};

/* Room that is enough in every job. */
enum {
    SEINEFLUTE_PLAN_ROOM = 8192,     /* numbers of the phase plan: at most a pair for each slot */
    SEINEFLUTE_COPY_ROOM = 12288,    /* numbers of the copy list: at most three copies for two slots */
    SEINEFLUTE_WRITE_ROOM = 1056899, /* bytes of a job file: at most three for N and B, two for each rack and
                                        each slot, and the cards */
    SEINEFLUTE_TEXT_ROOM = 245818    /* bytes of the listing */
};

/* Marks. */
enum {
    SEINEFLUTE_FREE = 65535, /* in a places table: the slot is free */
    SEINEFLUTE_HAND = 65534  /* in a copy list: the hand, which belongs to the library */
};

/* Numbers given back. */
enum {
    SEINEFLUTE_DONE = 0,
    SEINEFLUTE_BAD_COUNT = 1,         /* N is 0 or above 64 */
    SEINEFLUTE_BAD_BYTES = 2,         /* B is 0 or above 256 */
    SEINEFLUTE_BAD_SIZE = 3,          /* a rack's user slots above 1,023, or the total above 4,032 */
    SEINEFLUTE_BAD_LENGTH = 4,        /* places is not S long, or cards is lent and not S * B long */
    SEINEFLUTE_BAD_ENTRY = 5,         /* an entry is neither free nor a user slot; in a file, it is not 0 and
                                         one less than it is no user slot; place: the lowest such entry */
    SEINEFLUTE_NAMED_TWICE = 6,       /* two entries name one slot; place: the lowest entry that repeats an
                                         earlier one */
    SEINEFLUTE_NO_SLOT = 7,           /* a slot number in the call is S or more */
    SEINEFLUTE_SOURCE_FREE = 8,       /* the source slot is free */
    SEINEFLUTE_SOURCE_HOME = 9,       /* the source's card is on its rack already */
    SEINEFLUTE_ELSEWHERE = 10,        /* the target is not on the card's destination rack */
    SEINEFLUTE_TARGET_TAKEN = 11,     /* the target is not free */
    SEINEFLUTE_SOME_AWAY = 12,        /* a card is away (copy list and shuffle only) */
    SEINEFLUTE_TOO_SHORT = 13,        /* the lent list is too short for what would be written */
    SEINEFLUTE_FILE_FORM = 14,        /* file: a number padded beyond its shortest form */
    SEINEFLUTE_FILE_ENDS = 15,        /* file: it ends too early */
    SEINEFLUTE_FILE_LEFT_OVER = 16,   /* file: bytes left over */
    SEINEFLUTE_FILE_ROOM = 17,        /* file: room for capacities below N, or for places below S */
    SEINEFLUTE_FILE_LARGE = 18,       /* in a listing's text only: file above 32,768 bytes */
    SEINEFLUTE_BUFFER_SHORT = 19,     /* the buffer is shorter than the file (file writer only) */
    SEINEFLUTE_FILE_GROUPS = 20       /* file: a number of more than three groups */
};

/* The words of a number that a call gives back; of a number that none gives, "no such number". */
static inline const char *seineflute_words(size_t number)
{
    switch (number) {
    case SEINEFLUTE_DONE: return "done";
    case SEINEFLUTE_BAD_COUNT: return "there are no racks, or more than 64";
    case SEINEFLUTE_BAD_BYTES: return "a card has no bytes, or more than 256";
    case SEINEFLUTE_BAD_SIZE: return "a rack has more than 1,023 user slots, or all racks more than 4,032";
    case SEINEFLUTE_BAD_LENGTH: return "places has not one entry for each slot, or cards not one card for each slot";
    case SEINEFLUTE_BAD_ENTRY: return "an entry is neither free nor a user slot";
    case SEINEFLUTE_NAMED_TWICE: return "an entry repeats an earlier one";
    case SEINEFLUTE_NO_SLOT: return "a slot number in the call is above that of the last slot";
    case SEINEFLUTE_SOURCE_FREE: return "the source slot is free";
    case SEINEFLUTE_SOURCE_HOME: return "the source's card is on its rack already";
    case SEINEFLUTE_ELSEWHERE: return "the target is not on the card's destination rack";
    case SEINEFLUTE_TARGET_TAKEN: return "the target is not free";
    case SEINEFLUTE_SOME_AWAY: return "a card is away: its slot is on another rack";
    case SEINEFLUTE_TOO_SHORT: return "the lent list is too short for what would be written";
    case SEINEFLUTE_FILE_FORM: return "file: a number is padded beyond its shortest form";
    case SEINEFLUTE_FILE_ENDS: return "file: it ends too early";
    case SEINEFLUTE_FILE_LEFT_OVER: return "file: bytes are left over";
    case SEINEFLUTE_FILE_ROOM: return "file: the room for capacities or for places is too short";
    case SEINEFLUTE_FILE_LARGE: return "file: it has more than 32,768 bytes";
    case SEINEFLUTE_BUFFER_SHORT: return "the buffer is shorter than the file";
    case SEINEFLUTE_FILE_GROUPS: return "file: a number has more than three groups";
    default: return "no such number";
    }
}

/* The kinds of a slot. */
enum {
    SEINEFLUTE_KIND_NONE = 0, /* on a refusal */
    SEINEFLUTE_KIND_USER = 1,
    SEINEFLUTE_KIND_SPARE = 2
};

/* What stands in a slot. */
enum {
    SEINEFLUTE_STATE_NONE = 0, /* on a refusal */
    SEINEFLUTE_STATE_FREE = 1,
    SEINEFLUTE_STATE_SETTLED = 2,
    SEINEFLUTE_STATE_UNSETTLED = 3, /* on its rack, but not in its slot */
    SEINEFLUTE_STATE_AWAY = 4       /* its slot is on another rack, which the field `rack` says */
};

/* What every call gives. */
typedef struct seineflute_answer {
    size_t number;
    size_t place; /* with 5 and 6, the slot of the entry; else 0 */
    size_t phases;
    size_t moves;
    size_t copies;
} seineflute_answer;

/* What the slot question gives. */
typedef struct seineflute_slot_answer {
    size_t number;
    size_t place;
    size_t phases;
    size_t moves;
    size_t copies;
    size_t kind;
    size_t state;
    size_t rack; /* the destination's rack of a card that is away; 0 in every other state */
} seineflute_slot_answer;

/* What the file reader gives. */
typedef struct seineflute_file_answer {
    size_t number;
    size_t place;
    size_t phases;
    size_t moves;
    size_t copies;
    size_t racks; /* N */
    size_t bytes; /* B */
    size_t slots; /* S */
    size_t start; /* where the card bytes begin: they are file[start] to the file's end */
} seineflute_file_answer;

/* What the calls that fill a buffer of bytes give: the file writer and the listing. */
typedef struct seineflute_size_answer {
    size_t number;
    size_t place;
    size_t phases;
    size_t moves;
    size_t copies;
    size_t size; /* the bytes of the file, or of the text */
} seineflute_size_answer;

/* Its name before 0.3.0, when the listing alone gave it. */
typedef seineflute_size_answer seineflute_listing_answer;

/* Limits and marks, as the library has them. */
typedef struct seineflute_limits_answer {
    size_t racks;  /* SEINEFLUTE_MAX_RACKS */
    size_t bytes;  /* SEINEFLUTE_MAX_BYTES */
    size_t users;  /* SEINEFLUTE_MAX_USERS */
    size_t total;  /* SEINEFLUTE_MAX_TOTAL */
    size_t slots;  /* SEINEFLUTE_MAX_SLOTS; twice that is SEINEFLUTE_PLAN_ROOM, three times SEINEFLUTE_COPY_ROOM */
    size_t free;   /* SEINEFLUTE_FREE */
    size_t hand;   /* SEINEFLUTE_HAND */
    size_t file;   /* SEINEFLUTE_MAX_FILE */
    size_t enough; /* SEINEFLUTE_TEXT_ROOM */
} seineflute_limits_answer;

/*
 * Limits. Gives the limits and marks that the library was proved with, to hold this header's against
 * (examples/limits.c).
 */
seineflute_limits_answer seineflute_limits(void);

/*
 * Table check. Gives 0 for a legal table, else 1, 3, 4, 5 or 6. All counts are 0.
 */
seineflute_answer seineflute_check_table(
    const uint16_t *caps, size_t caps_len,
    const uint16_t *places, size_t places_len);

/*
 * Slot question. Says whether a slot is a user slot or a spare, and whether it is free or its card
 * settled, on its rack but unsettled, or away and to which rack. Gives 0, 1, 3, 4, 5, 6 or 7; on a
 * refusal kind and state are none.
 */
seineflute_slot_answer seineflute_slot_question(
    const uint16_t *caps, size_t caps_len,
    const uint16_t *places, size_t places_len,
    size_t slot);

/*
 * Phase plan. Writes the pairs (from, to) of the present phase to the front of the list, two numbers
 * each, by target rack, source rack and source slot. Each rack takes as many cards as it has free
 * slots at the start of the phase, from the lowest source rack up, and of each source those in the
 * lowest slots; they take its free slots from the lowest up. The moves count is the number of pairs,
 * 0 where nothing is away. The call keeps no table of what racks hold for each other, so that a small
 * stack is enough: it counts again for each target. Gives 0, 1, 3, 4, 5, 6 or 13.
 */
seineflute_answer seineflute_phase_plan(
    const uint16_t *caps, size_t caps_len,
    const uint16_t *places, size_t places_len,
    uint16_t *list, size_t list_len);

/*
 * One move. The card in slot `from`, which must be away, goes to slot `to`, which must be free and on
 * the card's destination rack. The target gets the card's bytes and entry; the source becomes free
 * and all zero; nothing else changes. The moves count is 1. Gives 0 to 11. The pairs of one plan,
 * each moved once in any order, give the same cards and table.
 */
seineflute_answer seineflute_one_move(
    const uint16_t *caps, size_t caps_len,
    size_t b,
    uint16_t *places, size_t places_len,
    uint8_t *cards, size_t cards_len,
    size_t from, size_t to);

/*
 * Budgeted moves. Makes at most k moves: the present phase's pairs in plan order, a new plan when they
 * are used up. The moves count is the smaller of k and the cards away at entry. Gives 0 to 6. The next
 * call plans afresh, and may take other slots than this call's plan had: to follow a listing, see above.
 */
seineflute_answer seineflute_budgeted_moves(
    const uint16_t *caps, size_t caps_len,
    size_t b,
    uint16_t *places, size_t places_len,
    uint8_t *cards, size_t cards_len,
    size_t k);

/*
 * Copy list, with nothing away. Writes to the front of the list the copies that bring each card to its
 * slot inside its rack, two numbers each: from, then to. The hand, in which a cycle's last card waits,
 * is SEINEFLUTE_HAND. The copies count is the number of copies. Gives 0, 1, 3, 4, 5, 6, 12 or 13.
 */
seineflute_answer seineflute_copy_list(
    const uint16_t *caps, size_t caps_len,
    const uint16_t *places, size_t places_len,
    uint16_t *list, size_t list_len);

/*
 * Shuffle, with nothing away. Makes the copies of the copy list, then zeroes every free slot. Each
 * settled slot's entry now names itself, and every other is SEINEFLUTE_FREE. The copies count is the
 * number of copies. Gives 0 to 6 or 12.
 */
seineflute_answer seineflute_shuffle_cards(
    const uint16_t *caps, size_t caps_len,
    size_t b,
    uint16_t *places, size_t places_len,
    uint8_t *cards, size_t cards_len);

/*
 * Whole run. Phases until nothing is away, then the shuffle: at the end every card is in its slot.
 * The counts are the plans that had pairs, the pairs moved and the shuffle's copies. Gives 0 to 6.
 */
seineflute_answer seineflute_whole_run(
    const uint16_t *caps, size_t caps_len,
    size_t b,
    uint16_t *places, size_t places_len,
    uint8_t *cards, size_t cards_len);

/*
 * Job file. Reads N, B, the capacities, S entries (0 free, else destination + 1) and S * B card bytes,
 * and writes the capacities and the places to the front of the two lists. Numbers are groups of seven
 * bits, lowest first, top bit set where another follows, shortest form, at most three groups. The
 * card bytes stay where they are, from `start` to the file's end. Each number is checked as it is
 * read: form (14, 15, 20), then 1, 2, 3 or 5; after the last entry come 6, then 15 or 16 for the card
 * bytes, then 17. A third group with its top bit set is 20 at once, whatever follows. All counts are 0.
 * MAX_RACKS capacities and MAX_SLOTS places are room for every job.
 */
seineflute_file_answer seineflute_read_file(
    const uint8_t *file, size_t file_len,
    uint16_t *caps, size_t caps_len,
    uint16_t *places, size_t places_len);

/*
 * Write file. Writes to the front of the buffer the job file of the capacities, b, the places and the
 * cards: what seineflute_read_file reads as the same job. Every number is in its shortest form, so a file
 * that was read and is written again has the same bytes. The file has `size` bytes; a buffer exactly as
 * long is enough, and what lies behind the file is unchanged. There is no limit on its size: a file above
 * 32,768 bytes is written, though the listing refuses it. All counts are 0. Gives 0 to 6 or 19. For N
 * racks and S slots 3 + 2 * (N + S) + S * b bytes are always room enough, and SEINEFLUTE_WRITE_ROOM for
 * every job.
 */
seineflute_size_answer seineflute_write_file(
    const uint16_t *caps, size_t caps_len,
    size_t b,
    const uint16_t *places, size_t places_len,
    const uint8_t *cards, size_t cards_len,
    uint8_t *out, size_t out_len);

/*
 * Listing. Writes to the front of the buffer the text that the program shelve prints for a job file: a
 * line for each phase, the copies, the cards and the counts; or, for a file that the reader refuses or
 * that has more than 32,768 bytes (18), the one line `refused` with that number; its place, which
 * seineflute_read_file gives, is not in the line. Both are texts, and their number is 0: the only refusal
 * of the call itself is 13, where the buffer is too short for the text. The text has `size` bytes, with
 * no zero byte behind it. The place and all counts are 0: the counts stand in the text.
 * SEINEFLUTE_TEXT_ROOM bytes are room for every text.
 */
seineflute_size_answer seineflute_list_job(
    const uint8_t *file, size_t file_len,
    uint8_t *out, size_t out_len);

#ifdef __cplusplus
}
#endif

#endif
