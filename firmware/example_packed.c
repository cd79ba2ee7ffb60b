/* A parlour of eight whose heads keep their tables packed over wilbryn.h: 92 bytes of storage each.
   Milkings, meetings and heard lists are made on what is stored; only a service tool unpacks. */
#include "wilbryn.h"

#include <stdio.h>
#include <stdlib.h>

enum { STALLS = 8, STORED = WILBRYN_PACKED_LENGTH(STALLS), SHOWN = WILBRYN_IMAGE_LENGTH(STALLS) };

/* What stays when the power is off. The heads are together in one program here; a head has just
   the table of its own stall. */
static uint8_t storage[STALLS][STORED];

static uint8_t *table_of(int stall) { return storage[stall - 1]; }

static void must(int is_accepted, const char *what, uint32_t answer) {
    if (is_accepted) return;
    printf("%s is refused: answer %u\n", what, answer);
    exit(1);
}

/* All heads of a parlour start fresh together. */
static void install(void) {
    for (uint8_t stall = 1; stall <= STALLS; stall++) {
        uint32_t answer = wilbryn_packed_fresh(table_of(stall), STORED, STALLS, stall);
        must(answer == 0, "a fresh table", answer);
    }
    printf("%d heads are fresh, each in %d bytes of storage\n", STALLS, STORED);
}

static void milk(int stall, uint16_t decilitres) {
    uint32_t answer = wilbryn_packed_milking(table_of(stall), STORED, decilitres);
    must(answer == 0, "a milking", answer);
    printf("head %d is milked: %u dl\n", stall, decilitres);
}

static void meet(int first, int second) {
    uint8_t verdicts[STALLS];
    uint32_t answer = wilbryn_packed_meeting(table_of(first), STORED, table_of(second), STORED,
                                             verdicts, sizeof verdicts);
    printf("heads %d and %d meet: ", first, second);
    if (answer >= WILBRYN_REFUSED) {
        printf("refused with %u, and nothing is changed\n", answer - WILBRYN_REFUSED);
        return;
    }
    printf("label %u\n", answer);
    for (int i = 0; i < STALLS; i++) {
        int newer = verdicts[i] == 1 ? first : second;
        if (verdicts[i] != 0) printf("  of stall %d head %d has newer news\n", i + 1, newer);
    }
}

static void show_yield(int stall, unsigned yield) {
    if (yield == WILBRYN_NOT_MILKED) {
        printf("  stall %d was not milked\n", stall);
    } else {
        printf("  stall %d gave %u dl\n", stall, yield);
    }
}

/* The records come with the largest yield first and those not milked last. */
static void show_heard(int stall) {
    uint8_t records[3 * STALLS];
    uint32_t count = wilbryn_packed_heard(table_of(stall), STORED, records, sizeof records);
    must(count < WILBRYN_REFUSED, "a heard list", count);
    printf("head %d has heard of %u stalls\n", stall, count);
    for (const uint8_t *at = records; at < records + 3 * count; at += 3) {
        show_yield(at[0], at[1] * 256u + at[2]);
    }
}

/* For power-on: a table that is refused must not be used. The check finds what cannot be a table. A
   damage that leaves another table it cannot find: storage that may fail wants a checksum too. */
static void look_after(int stall) {
    uint32_t answer = wilbryn_packed_check(table_of(stall), STORED);
    printf("head %d: ", stall);
    if (answer == 0) {
        printf("its table is good\n");
    } else {
        printf("its table is damaged, number %u\n", answer);
    }
}

/* The service tool knows the plain image alone: in the own row, which begins at byte
   4 + 2 * N * (stall - 1), each stall has a partner byte and a label byte. */
static void show_unpacked(int stall) {
    uint8_t image[SHOWN];
    uint32_t answer = wilbryn_unpack(table_of(stall), STORED, image, sizeof image);
    must(answer == 0, "unpacking", answer);
    printf("head %d, unpacked to %d bytes, knows of these meetings\n", stall, SHOWN);
    const uint8_t *own_row = image + 4 + 2 * STALLS * (stall - 1);
    for (int r = 1; r <= STALLS; r++) {
        const uint8_t *name = own_row + 2 * (r - 1);
        if (name[0] != 0) printf("  stall %d with stall %d, label %d\n", r, name[0], name[1]);
    }
}

int main(void) {
    install();
    milk(3, 183);
    meet(3, 8);
    milk(8, 95);
    meet(8, 1);
    show_heard(1);
    /* One bit of row 1, column 2: 20, which is none, becomes 21, own number with label 1. */
    table_of(8)[5] ^= 1;
    look_after(8);
    meet(8, 1);
    table_of(8)[5] ^= 1;
    look_after(8);
    meet(8, 1);
    show_unpacked(1);
    return 0;
}
