/*
 * Every call on lists that lie on the heap and are exactly as long as they must be, so that valgrind
 * sees a step beyond an end or a use of what nobody wrote: at the largest jobs, and refused.
 *
 * Prints a line for each job with the counts of its run; says what went wrong, and gives 1, if a card
 * does not end in its slot.
 */
#include <stdio.h>
#include <stdlib.h>
#include <string.h>

#include "seineflute.h"

/* A job on the heap. */
struct job {
    size_t n, b, s;
    uint16_t *caps;
    uint16_t *places;
    uint8_t *cards;
};

static int wrong = 0;

static void expect(int holds, const char *what)
{
    if (!holds) {
        printf("wrong: %s\n", what);
        wrong = 1;
    }
}

static void *room(size_t bytes)
{
    void *p = malloc(bytes);
    if (p == NULL) {
        printf("no memory\n");
        exit(1);
    }
    return p;
}

/* The number of slots before rack p. */
static size_t base(const struct job *j, size_t p)
{
    size_t g = 0;
    for (size_t i = 0; i < p; i++)
        g += (size_t)j->caps[i] + 1;
    return g;
}

/* A card's byte i, where d is its destination: not zero, and different from card to card. */
static uint8_t byte_of(size_t d, size_t i)
{
    return (uint8_t)((d * 31 + i * 7 + d / 256) % 255 + 1);
}

/*
 * n racks of m user slots with cards of b bytes; the card in user slot u of each rack is bound for
 * user slot (u + turn) % m of the rack `on` racks further. Spares are free, and hold old bytes.
 */
static struct job make(size_t n, size_t m, size_t b, size_t on, size_t turn)
{
    struct job j;
    j.n = n;
    j.b = b;
    j.caps = room(n * sizeof *j.caps);
    for (size_t p = 0; p < n; p++)
        j.caps[p] = (uint16_t)m;
    j.s = base(&j, n);
    j.places = room(j.s * sizeof *j.places);
    j.cards = room(j.s * b);
    for (size_t p = 0; p < n; p++)
        for (size_t u = 0; u <= m; u++) {
            size_t g = base(&j, p) + u;
            size_t d = base(&j, (p + on) % n) + (m == 0 ? 0 : (u + turn) % m);
            j.places[g] = (uint16_t)(u < m ? d : SEINEFLUTE_FREE);
            for (size_t i = 0; i < b; i++)
                j.cards[g * b + i] = u < m ? byte_of(d, i) : 0xee;
        }
    return j;
}

static void drop(struct job j)
{
    free(j.caps);
    free(j.places);
    free(j.cards);
}

/* Every card in its slot, every other slot free and all zero. */
static void settled(const struct job *j)
{
    for (size_t p = 0; p < j->n; p++)
        for (size_t u = 0; u <= j->caps[p]; u++) {
            size_t g = base(j, p) + u;
            int user = u < j->caps[p];
            expect(j->places[g] == (user ? g : SEINEFLUTE_FREE), "an entry after the run");
            for (size_t i = 0; i < j->b; i++)
                expect(j->cards[g * j->b + i] == (user ? byte_of(g, i) : 0), "a byte after the run");
        }
}

/* A phase by its plan in a list of exactly that length, each pair by one move. */
static void one_phase(struct job *j)
{
    uint16_t *list = room(SEINEFLUTE_PLAN_ROOM * sizeof *list);
    seineflute_answer a = seineflute_phase_plan(j->caps, j->n, j->places, j->s, list, SEINEFLUTE_PLAN_ROOM);
    free(list);
    expect(a.number == SEINEFLUTE_DONE, "the plan");
    size_t pairs = a.moves;
    if (pairs == 0)
        return;
    list = room((2 * pairs - 1) * sizeof *list);
    a = seineflute_phase_plan(j->caps, j->n, j->places, j->s, list, 2 * pairs - 1);
    expect(a.number == SEINEFLUTE_TOO_SHORT, "a list that is too short");
    free(list);
    list = room(2 * pairs * sizeof *list);
    a = seineflute_phase_plan(j->caps, j->n, j->places, j->s, list, 2 * pairs);
    expect(a.number == SEINEFLUTE_DONE && a.moves == pairs, "a list that is exactly long enough");
    for (size_t i = 0; i < pairs; i++) {
        a = seineflute_one_move(j->caps, j->n, j->b, j->places, j->s, j->cards, j->s * j->b,
                                list[2 * i], list[2 * i + 1]);
        expect(a.number == SEINEFLUTE_DONE && a.moves == 1, "a move of the plan");
    }
    free(list);
}

/* The calls that only look, and refusals of those that are lent cards. */
static void looked_at(struct job *j)
{
    seineflute_answer a = seineflute_check_table(j->caps, j->n, j->places, j->s);
    expect(a.number == SEINEFLUTE_DONE, "the table check");
    a = seineflute_check_table(j->caps, j->n, j->places, j->s - 1);
    expect(a.number == SEINEFLUTE_BAD_LENGTH, "a table that is too short");
    seineflute_slot_answer q = seineflute_slot_question(j->caps, j->n, j->places, j->s, j->s - 1);
    expect(q.number == SEINEFLUTE_DONE && q.kind == SEINEFLUTE_KIND_SPARE && q.state == SEINEFLUTE_STATE_FREE,
           "the last spare");
    q = seineflute_slot_question(j->caps, j->n, j->places, j->s, j->s);
    expect(q.number == SEINEFLUTE_NO_SLOT && q.kind == SEINEFLUTE_KIND_NONE, "a slot number that is S");
    a = seineflute_whole_run(j->caps, j->n, j->b, j->places, j->s, j->cards, j->s * j->b - 1);
    expect(a.number == SEINEFLUTE_BAD_LENGTH, "cards that are too short");
    a = seineflute_one_move(j->caps, j->n, j->b, j->places, j->s, j->cards, j->s * j->b, SIZE_MAX, 0);
    expect(a.number == SEINEFLUTE_NO_SLOT, "a move from no slot");
}

/* The table with another entry in its last slot: refused with that number, and with that slot as its place. */
static void last_entry(struct job *j, uint16_t entry, size_t number)
{
    uint16_t *last = j->places + j->s - 1, right = *last;
    *last = entry;
    seineflute_answer a = seineflute_check_table(j->caps, j->n, j->places, j->s);
    expect(a.number == number && a.place == j->s - 1, "which entry the table check refuses");
    seineflute_slot_answer q = seineflute_slot_question(j->caps, j->n, j->places, j->s, 0);
    expect(q.number == number && q.place == j->s - 1 && q.kind == SEINEFLUTE_KIND_NONE,
           "which entry the slot question refuses");
    a = seineflute_whole_run(j->caps, j->n, j->b, j->places, j->s, j->cards, j->s * j->b);
    expect(a.number == number && a.place == j->s - 1, "which entry the whole run refuses");
    uint8_t none[1];
    seineflute_size_answer w =
        seineflute_write_file(j->caps, j->n, j->b, j->places, j->s, j->cards, j->s * j->b, none, 0);
    expect(w.number == number && w.place == j->s - 1 && w.size == 0, "which entry the file writer refuses");
    *last = right;
}

/* The copy list, then once more in a list of exactly its length; gives the copies. */
static size_t listed(struct job *j)
{
    uint16_t *list = room(SEINEFLUTE_COPY_ROOM * sizeof *list);
    seineflute_answer a = seineflute_copy_list(j->caps, j->n, j->places, j->s, list, SEINEFLUTE_COPY_ROOM);
    expect(a.number == SEINEFLUTE_DONE, "the copy list");
    free(list);
    size_t copies = a.copies;
    if (copies == 0)
        return 0;
    list = room(2 * copies * sizeof *list);
    a = seineflute_copy_list(j->caps, j->n, j->places, j->s, list, 2 * copies);
    expect(a.number == SEINEFLUTE_DONE && a.copies == copies, "a copy list exactly long enough");
    free(list);
    return copies;
}

/* Puts a number of a job file at *at; gives where the next one goes. */
static uint8_t *put(uint8_t *at, size_t x)
{
    while (x >= 128) {
        *at++ = (uint8_t)(x % 128 + 128);
        x /= 128;
    }
    *at++ = (uint8_t)x;
    return at;
}

/* The job's file, of so many bytes, written into buffers that are one byte too short and exactly long enough. */
static void written(struct job *j, const uint8_t *file, size_t size)
{
    uint8_t *out = room(size - 1);
    seineflute_size_answer w =
        seineflute_write_file(j->caps, j->n, j->b, j->places, j->s, j->cards, j->s * j->b, out, size - 1);
    expect(w.number == SEINEFLUTE_BUFFER_SHORT && w.size == 0, "a buffer shorter than the file");
    free(out);
    out = room(size);
    w = seineflute_write_file(j->caps, j->n, j->b, j->places, j->s, j->cards, j->s * j->b - 1, out, size);
    expect(w.number == SEINEFLUTE_BAD_LENGTH && w.size == 0, "a file of cards that are too short");
    w = seineflute_write_file(j->caps, j->n, j->b, j->places, j->s, j->cards, j->s * j->b, out, size);
    expect(w.number == SEINEFLUTE_DONE && w.size == size, "a buffer exactly as long as the file");
    expect(w.size == size && memcmp(out, file, size) == 0, "the bytes of the file");
    free(out);
}

/* The job as a file, written, read into lists of exactly its lengths, and cut by a byte. */
static void as_file(struct job *j)
{
    uint8_t *most = room(6 + 3 * j->n + 3 * j->s + j->s * j->b);
    uint8_t *at = put(put(most, j->n), j->b);
    for (size_t p = 0; p < j->n; p++)
        at = put(at, j->caps[p]);
    for (size_t g = 0; g < j->s; g++)
        at = put(at, j->places[g] == SEINEFLUTE_FREE ? 0 : (size_t)j->places[g] + 1);
    size_t start = (size_t)(at - most), size = start + j->s * j->b;
    memcpy(at, j->cards, j->s * j->b);
    uint8_t *file = room(size);
    memcpy(file, most, size);
    free(most);
    written(j, file, size);

    uint16_t *caps = room(j->n * sizeof *caps), *places = room(j->s * sizeof *places);
    seineflute_file_answer f = seineflute_read_file(file, size - 1, caps, j->n, places, j->s);
    expect(f.number == SEINEFLUTE_FILE_ENDS && f.place == 0 && f.start == 0, "a file that is cut");
    f = seineflute_read_file(file, size, caps, j->n, places, j->s - 1);
    expect(f.number == SEINEFLUTE_FILE_ROOM, "room for places that is too short");
    f = seineflute_read_file(file, size, caps, j->n, places, j->s);
    expect(f.number == SEINEFLUTE_DONE && f.racks == j->n && f.bytes == j->b && f.slots == j->s && f.start == start,
           "the file");
    expect(memcmp(caps, j->caps, j->n * sizeof *caps) == 0, "the capacities of the file");
    expect(memcmp(places, j->places, j->s * sizeof *places) == 0, "the places of the file");
    free(caps);
    free(places);

    uint8_t *text = room(SEINEFLUTE_TEXT_ROOM);
    seineflute_size_answer t = seineflute_list_job(file, size, text, SEINEFLUTE_TEXT_ROOM);
    expect(t.number == SEINEFLUTE_DONE, "the listing");
    expect((size > SEINEFLUTE_MAX_FILE) == (memcmp(text, "refused 18\n", 11) == 0), "a listing that is refused");
    size_t bytes = t.size;
    free(text);
    text = room(bytes);
    t = seineflute_list_job(file, size, text, bytes - 1);
    expect(t.number == SEINEFLUTE_TOO_SHORT && t.size == 0, "a buffer that is too short");
    t = seineflute_list_job(file, size, text, bytes);
    expect(t.number == SEINEFLUTE_DONE && t.size == bytes && text[bytes - 1] == '\n', "a buffer exactly long enough");
    free(text);
    free(file);
}

static void run(const char *name, size_t n, size_t m, size_t b, size_t on, size_t turn)
{
    struct job whole = make(n, m, b, on, turn);
    looked_at(&whole);
    last_entry(&whole, (uint16_t)(whole.s - 1), SEINEFLUTE_BAD_ENTRY);
    if (m > 0)
        last_entry(&whole, whole.places[0], SEINEFLUTE_NAMED_TWICE);
    as_file(&whole);
    seineflute_answer a =
        seineflute_whole_run(whole.caps, n, b, whole.places, whole.s, whole.cards, whole.s * b);
    expect(a.number == SEINEFLUTE_DONE, "the whole run");
    settled(&whole);
    printf("%s: slots %zu phases %zu moves %zu copies %zu\n", name, whole.s, a.phases, a.moves, a.copies);
    drop(whole);

    struct job steps = make(n, m, b, on, turn);
    one_phase(&steps);
    seineflute_answer k = seineflute_budgeted_moves(steps.caps, n, b, steps.places, steps.s, steps.cards,
                                                    steps.s * b, SIZE_MAX);
    expect(k.number == SEINEFLUTE_DONE, "the budgeted moves");
    size_t copies = listed(&steps);
    k = seineflute_shuffle_cards(steps.caps, n, b, steps.places, steps.s, steps.cards, steps.s * b);
    expect(k.number == SEINEFLUTE_DONE && k.copies == copies, "the shuffle");
    settled(&steps);
    drop(steps);
}

int main(void)
{
    run("full ring", 64, 63, 256, 1, 0);
    run("full ring of small cards", 64, 63, 1, 1, 5);
    run("long racks, turned", 3, 1023, 8, 1, 1);
    run("long racks, one cycle each", 3, 1023, 8, 0, 1);
    run("no user slots", 64, 0, 1, 0, 0);
    return wrong;
}
