/*
 * Case 1 of the paper cards: reads the job file of 21 bytes, writes it again from what was read, runs
 * it, prints the number, the counts, the table and the cards, and then the listing of the file. At last
 * it makes an entry of the table wrong, in two ways, and prints the refusals, which say that entry.
 *
 *     ./staticlib
 *     cc -std=c99 -Wall -Wextra -Iinclude examples/case1.c target/staticlib/libseineflute.a -o target/case1
 *     target/case1
 *
 * from the repository's root; `examples/build` does the same and compares what is printed.
 */
#include <stdio.h>
#include <string.h>

#include "seineflute.h"

static const uint8_t job[21] = {
    0x03, 0x01,                                     /* N, B */
    0x02, 0x02, 0x01,                               /* the capacities */
    0x04, 0x05, 0x00, 0x01, 0x07, 0x00, 0x02, 0x00, /* the entries: 0 free, else destination + 1 */
    0x41, 0x42, 0x00, 0x43, 0x44, 0x00, 0x45, 0x00  /* the cards */
};

static void print_answer(const char *call, seineflute_answer a)
{
    printf("%s: number %zu (%s) phases %zu moves %zu copies %zu\n", call, a.number, seineflute_words(a.number),
           a.phases, a.moves, a.copies);
}

/* A refusal for a person: 5 and 6 say which entry they speak of. */
static void print_refusal(const char *call, size_t number, size_t place)
{
    printf("%s: refused %zu (%s)", call, number, seineflute_words(number));
    if (number == SEINEFLUTE_BAD_ENTRY || number == SEINEFLUTE_NAMED_TWICE)
        printf(", entry %zu", place);
    printf("\n");
}

static void print_pairs(const uint16_t *list, size_t pairs)
{
    for (size_t i = 0; i < pairs; i++)
        printf("%s%u>%u", i == 0 ? "" : " ", (unsigned)list[2 * i], (unsigned)list[2 * i + 1]);
    printf("\n");
}

/* Writes the job's file and prints it; gives whether it has the bytes of the one above. */
static int written(const uint16_t *caps, size_t n, size_t b, const uint16_t *places, size_t s, const uint8_t *cards)
{
    static uint8_t out[SEINEFLUTE_WRITE_ROOM];
    seineflute_size_answer w = seineflute_write_file(caps, n, b, places, s, cards, s * b, out, sizeof out);
    printf("write: number %zu (%s) size %zu\n", w.number, seineflute_words(w.number), w.size);
    for (size_t i = 0; i < w.size; i++)
        printf("%s%02x", i == 0 ? "" : " ", out[i]);
    printf("\n");
    return w.size == sizeof job && memcmp(out, job, sizeof job) == 0;
}

/* Checks the table, which is settled, with its entry g changed to that. */
static void changed(const uint16_t *caps, size_t n, uint16_t *places, size_t s, size_t g, uint16_t entry)
{
    uint16_t right = places[g];
    places[g] = entry;
    seineflute_answer a = seineflute_check_table(caps, n, places, s);
    print_refusal("check", a.number, a.place);
    places[g] = right;
}

int main(void)
{
    static uint16_t caps[SEINEFLUTE_MAX_RACKS];
    static uint16_t places[SEINEFLUTE_MAX_SLOTS];
    static uint8_t cards[SEINEFLUTE_MAX_SLOTS * SEINEFLUTE_MAX_BYTES];
    static uint16_t list[SEINEFLUTE_PLAN_ROOM];

    seineflute_file_answer f =
        seineflute_read_file(job, sizeof job, caps, SEINEFLUTE_MAX_RACKS, places, SEINEFLUTE_MAX_SLOTS);
    if (f.number != SEINEFLUTE_DONE) {
        print_refusal("read", f.number, f.place);
        return 1;
    }
    size_t n = f.racks, b = f.bytes, s = f.slots;
    printf("read: racks %zu bytes %zu slots %zu start %zu\n", n, b, s, f.start);
    memcpy(cards, job + f.start, s * b);

    if (!written(caps, n, b, places, s, cards)) {
        printf("the file that was written is another\n");
        return 1;
    }

    seineflute_slot_answer q = seineflute_slot_question(caps, n, places, s, 1);
    printf("slot 1: kind %zu state %zu rack %zu\n", q.kind, q.state, q.rack);

    seineflute_answer a = seineflute_phase_plan(caps, n, places, s, list, SEINEFLUTE_PLAN_ROOM);
    print_answer("plan", a);
    print_pairs(list, a.moves);

    a = seineflute_whole_run(caps, n, b, places, s, cards, s * b);
    print_answer("run", a);
    if (a.number != SEINEFLUTE_DONE)
        return 1;

    printf("places:");
    for (size_t g = 0; g < s; g++) {
        if (places[g] == SEINEFLUTE_FREE)
            printf(" free");
        else
            printf(" %u", (unsigned)places[g]);
    }
    printf("\ncards:");
    for (size_t g = 0; g < s; g++) {
        printf(" ");
        for (size_t i = 0; i < b; i++)
            printf("%02x", cards[g * b + i]);
    }
    printf("\n");

    static uint8_t text[SEINEFLUTE_TEXT_ROOM];
    seineflute_size_answer l = seineflute_list_job(job, sizeof job, text, sizeof text);
    fwrite(text, 1, l.size, stdout);

    changed(caps, n, places, s, 4, 7); /* a spare */
    changed(caps, n, places, s, 4, 1); /* what entry 1 names */
    return 0;
}
