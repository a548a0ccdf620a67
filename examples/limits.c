/*
 * Every limit and mark of the header beside the library's own: prints a line for each, and says which
 * one differs, and gives 1, if one does.
 */
#include <stdio.h>

#include "seineflute.h"

static int wrong = 0;

static void same(const char *name, size_t header, size_t library)
{
    printf("%s %zu\n", name, header);
    if (header != library) {
        printf("wrong: the library has %zu\n", library);
        wrong = 1;
    }
}

int main(void)
{
    seineflute_limits_answer l = seineflute_limits();
    same("racks", SEINEFLUTE_MAX_RACKS, l.racks);
    same("bytes of a card", SEINEFLUTE_MAX_BYTES, l.bytes);
    same("user slots of a rack", SEINEFLUTE_MAX_USERS, l.users);
    same("user slots of all racks", SEINEFLUTE_MAX_TOTAL, l.total);
    same("slots", SEINEFLUTE_MAX_SLOTS, l.slots);
    same("free", SEINEFLUTE_FREE, l.free);
    same("hand", SEINEFLUTE_HAND, l.hand);
    same("bytes of a file", SEINEFLUTE_MAX_FILE, l.file);
    same("numbers of a plan", SEINEFLUTE_PLAN_ROOM, 2 * l.slots);
    same("numbers of a copy list", SEINEFLUTE_COPY_ROOM, 3 * l.slots);
    same("bytes of a file that is written", SEINEFLUTE_WRITE_ROOM, 3 + 2 * (l.racks + l.slots) + l.slots * l.bytes);
    same("bytes of a text", SEINEFLUTE_TEXT_ROOM, l.enough);
    return wrong;
}
