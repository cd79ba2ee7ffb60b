/* The panel on the wall of a parlour of three over wilbryn.h, which shows what head 3 has heard:
   after the example session, then as the ranks move. */
#include "wilbryn.h"

#include <stdio.h>
#include <stdlib.h>

enum { STALLS = 3, LENGTH = WILBRYN_IMAGE_LENGTH(STALLS), AT_THE_WALL = 3 };

/* The heads are together in one program here; a head has just the image of its own stall. */
static uint8_t images[STALLS][LENGTH];

static uint8_t *image_of(int stall) { return images[stall - 1]; }

static void must(int is_accepted, const char *what, uint32_t answer) {
    if (is_accepted) return;
    printf("%s is refused: answer %u\n", what, answer);
    exit(1);
}

static void start(void) {
    for (uint8_t stall = 1; stall <= STALLS; stall++) {
        uint32_t answer = wilbryn_fresh(image_of(stall), LENGTH, STALLS, stall);
        must(answer == 0, "a fresh table", answer);
    }
}

static void milk(int stall, uint16_t decilitres) {
    uint32_t answer = wilbryn_milking(image_of(stall), LENGTH, decilitres);
    must(answer == 0, "a milking", answer);
}

static void meet(int first, int second) {
    uint8_t verdicts[STALLS];
    uint32_t answer = wilbryn_meeting(image_of(first), LENGTH, image_of(second), LENGTH, verdicts,
                                      sizeof verdicts);
    must(answer < WILBRYN_REFUSED, "a meeting", answer);
}

/* All that is on the wall is in the text, to the last newline. */
static void show(void) {
    uint8_t text[WILBRYN_PANEL_LENGTH];
    uint32_t answer = wilbryn_panel(image_of(AT_THE_WALL), LENGTH, text, sizeof text);
    must(answer < WILBRYN_REFUSED, "a panel", answer);
    fwrite(text, 1, answer, stdout);
}

int main(void) {
    start();
    milk(1, 18);
    meet(1, 2);
    meet(2, 3);
    show();
    milk(2, 217);
    milk(3, 18);
    meet(2, 3);
    printf("heads 2 and 3 were milked and met\n");
    /* Stalls 1 and 3 gave the same, and each has a rank of its own. */
    show();
    milk(1, 0);
    printf("head 1 was milked, but has met none since\n");
    show();
    meet(1, 3);
    printf("heads 1 and 3 met\n");
    /* A cow that gave nothing gave 0.0, which is not the same as not milked. */
    show();
    return 0;
}
