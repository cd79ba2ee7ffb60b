/* The heads of a parlour of three over wilbryn.h: two meet before and after the second is milked,
   and say what they then hold. Head 3 is out of range, so neither hears of it; once it has met head
   1, that can rank all stalls and say which yield all have heard. */
#include "wilbryn.h"

#include <stdio.h>
#include <stdlib.h>

enum { STALLS = 3, MOST_DECILITRES = 999, REFUSED_YIELD = 4 };

struct head {
    /* The whole state of a head. It has no pointers, so it can be kept and sent as it is. */
    uint8_t image[WILBRYN_IMAGE_LENGTH(STALLS)];
};

/* A refusal where none can be given means a wrong length or a damaged image: go no further. */
static void must(int is_accepted, const char *what, uint32_t answer) {
    if (is_accepted) return;
    printf("%s is refused: answer %u\n", what, answer);
    exit(1);
}

static void start(struct head *head, uint8_t stall) {
    uint32_t answer = wilbryn_fresh(head->image, sizeof head->image, STALLS, stall);
    must(answer == 0, "a fresh table", answer);
}

/* A meter can misread, so a yield out of range is reported and the one before it stays. The same
   answer at a yield in range would mean a damaged image. */
static void milk(struct head *head, uint16_t decilitres) {
    uint32_t answer = wilbryn_milking(head->image, sizeof head->image, decilitres);
    printf("head %d is milked: %u dl", head->image[1], decilitres);
    if (answer == REFUSED_YIELD && decilitres > MOST_DECILITRES) {
        printf(", which is no yield and changes nothing\n");
        return;
    }
    must(answer == 0, "a milking", answer);
    printf("\n");
}

static void meet(struct head *first, struct head *second) {
    static const char *const whose[] = {"neither", "the first", "the second"};
    uint8_t verdicts[STALLS];
    uint32_t answer = wilbryn_meeting(first->image, sizeof first->image, second->image,
                                      sizeof second->image, verdicts, sizeof verdicts);
    must(answer < WILBRYN_REFUSED, "a meeting", answer);
    printf("heads %d and %d meet, label %u\n", first->image[1], second->image[1], answer);
    for (int i = 0; i < STALLS; i++) {
        printf("  of stall %d %s has newer news\n", i + 1, whose[verdicts[i]]);
    }
}

/* A cow that gave nothing gave 0 dl, which is not the same as a stall that was not milked. */
static void show_record(const uint8_t *record) {
    unsigned yield = record[1] * 256u + record[2];
    if (yield == WILBRYN_NOT_MILKED) {
        printf("  stall %d was not milked\n", record[0]);
    } else {
        printf("  stall %d gave %u dl\n", record[0], yield);
    }
}

/* The records come with the largest yield first, so they are shown as they come. */
static void show(const struct head *head) {
    uint8_t records[3 * STALLS];
    uint32_t count = wilbryn_heard(head->image, sizeof head->image, records, sizeof records);
    must(count < WILBRYN_REFUSED, "a heard list", count);
    printf("head %d has heard of %u stalls\n", head->image[1], count);
    for (uint32_t i = 0; i < count; i++) show_record(records + 3 * i);
}

/* What the parlour computer asks before it drops old yields. */
static void show_settled(const struct head *head) {
    uint8_t counts[STALLS];
    uint32_t answer = wilbryn_settled(head->image, sizeof head->image, counts, sizeof counts);
    must(answer == 0, "the question what is settled", answer);
    printf("head %d knows how many have heard what it has\n", head->image[1]);
    for (int i = 0; i < STALLS; i++) {
        const char *so = counts[i] == STALLS ? ", so this yield can be dropped" : "";
        printf("  of stall %d: %d of %d%s\n", i + 1, counts[i], STALLS, so);
    }
}

int main(void) {
    struct head one, two, three;
    start(&one, 1);
    start(&two, 2);
    start(&three, 3);
    milk(&one, 183);
    milk(&one, 1000);
    meet(&one, &two);
    /* What is milked after a meeting the other hears of only at the next one. */
    milk(&two, 0);
    show(&one);
    show(&two);
    meet(&two, &one);
    show(&one);
    show_settled(&one);
    milk(&three, 217);
    meet(&one, &three);
    /* Stall 3 gave the most and comes first. */
    show(&one);
    /* Head 2 has not heard of this meeting yet, so of stalls 1 and 3 only two have. */
    show_settled(&one);
    return 0;
}
