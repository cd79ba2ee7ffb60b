/* The line program of document 01 with requests 2026-05 and 2026-09 in plain C over plain.c,
   unproved: the baseline of the benchmark. It reads frames from standard input, one a line, and
   answers each with a line. */
#include "wilbryn.h"

#include <errno.h>
#include <stdbool.h>
#include <stdlib.h>
#include <string.h>
#include <unistd.h>

extern __typeof__(wilbryn_fresh) plain_fresh;
extern __typeof__(wilbryn_milking) plain_milking;
extern __typeof__(wilbryn_heard) plain_heard;
extern __typeof__(wilbryn_settled) plain_settled;
extern __typeof__(wilbryn_meeting) plain_meeting;

enum { BLOCK = 1 << 16, MOST = WILBRYN_MOST_HEADS, LONGEST_IMAGE = WILBRYN_IMAGE_LENGTH(MOST) };

/* The digits of a milking, and those of an image of the largest parlour with 00 and a newline. */
enum { LONGEST_FRAME = 8, LONGEST_ANSWER = 2 + 2 * LONGEST_IMAGE + 1 };

enum { OPENING = 1, MILKING, MEETING, IMAGE, HEARD, SETTLED };
static const uint8_t bytes_of_kind[] = {0, 2, 4, 3, 2, 2, 2};

/* The parlour: its N, or 0 before the opening, and the image of each stall. */
static uint8_t heads;
static size_t image_len;
static uint8_t images[MOST][LONGEST_IMAGE];

/* The answers that are not yet written. */
static char answers[BLOCK];
static size_t answers_len;

static void write_answers(void) {
    for (size_t done = 0; done < answers_len;) {
        ssize_t count = write(STDOUT_FILENO, answers + done, answers_len - done);
        if (count >= 0) {
            done += (size_t)count;
        } else if (errno != EINTR) {
            exit(1);
        }
    }
    answers_len = 0;
}

static void put_byte(uint8_t byte) {
    static const char digits[] = "0123456789abcdef";
    answers[answers_len++] = digits[byte >> 4];
    answers[answers_len++] = digits[byte & 15];
}

static void put_bytes(const uint8_t *bytes, size_t len) {
    for (size_t i = 0; i < len; i++) put_byte(bytes[i]);
}

static bool is_stall(uint8_t stall) { return stall >= 1 && stall <= heads; }

static uint8_t *image_of(uint8_t stall) { return images[stall - 1]; }

/* Each kind puts its answer and returns 0, or puts nothing and returns a refusal's number. */
static uint32_t open_parlour(uint8_t n) {
    if (n < 2 || n > MOST) return 1;
    heads = n;
    image_len = WILBRYN_IMAGE_LENGTH(n);
    for (uint8_t stall = 1; stall <= n; stall++) plain_fresh(image_of(stall), image_len, n, stall);
    put_byte(0);
    return 0;
}

static uint32_t milk(uint8_t stall, uint16_t yield) {
    if (!is_stall(stall)) return 3;
    uint32_t refusal = plain_milking(image_of(stall), image_len, yield);
    if (refusal == 0) put_byte(0);
    return refusal;
}

static uint32_t meet(uint8_t first, uint8_t second) {
    if (!is_stall(first) || !is_stall(second)) return 3;
    if (first == second) return 7;
    uint8_t verdicts[MOST];
    uint32_t label = plain_meeting(image_of(first), image_len, image_of(second), image_len,
                                   verdicts, heads);
    if (label >= WILBRYN_REFUSED) return label - WILBRYN_REFUSED;
    put_byte(0);
    put_byte((uint8_t)label);
    put_bytes(verdicts, heads);
    return 0;
}

static uint32_t show_image(uint8_t stall) {
    if (!is_stall(stall)) return 3;
    put_byte(0);
    put_bytes(image_of(stall), image_len);
    return 0;
}

static uint32_t show_heard(uint8_t stall) {
    if (!is_stall(stall)) return 3;
    uint8_t records[3 * MOST];
    uint32_t count = plain_heard(image_of(stall), image_len, records, 3u * heads);
    if (count >= WILBRYN_REFUSED) return count - WILBRYN_REFUSED;
    put_byte(0);
    put_byte((uint8_t)count);
    put_bytes(records, 3 * count);
    return 0;
}

static uint32_t show_settled(uint8_t stall) {
    if (!is_stall(stall)) return 3;
    uint8_t counts[MOST];
    uint32_t refusal = plain_settled(image_of(stall), image_len, counts, heads);
    if (refusal != 0) return refusal;
    put_byte(0);
    put_bytes(counts, heads);
    return 0;
}

static uint32_t answer_frame(const uint8_t *frame, size_t len) {
    if (len == 0 || frame[0] > SETTLED || len != bytes_of_kind[frame[0]]) return 10;
    bool open = heads != 0;
    if (open == (frame[0] == OPENING)) return 11;
    switch (frame[0]) {
    case OPENING: return open_parlour(frame[1]);
    case MILKING: return milk(frame[1], (uint16_t)(frame[2] << 8 | frame[3]));
    case MEETING: return meet(frame[1], frame[2]);
    case IMAGE: return show_image(frame[1]);
    case HEARD: return show_heard(frame[1]);
    default: return show_settled(frame[1]);
    }
}

/* The value of each digit plus 1, so that 0 says that a character is no digit. */
static const uint8_t digit_values[256] = {
    ['0'] = 1, ['1'] = 2,  ['2'] = 3,  ['3'] = 4,  ['4'] = 5,  ['5'] = 6,  ['6'] = 7,  ['7'] = 8,
    ['8'] = 9, ['9'] = 10, ['a'] = 11, ['b'] = 12, ['c'] = 13, ['d'] = 14, ['e'] = 15, ['f'] = 16,
};

/* Reads the bytes of a line. Returns how many there are, or 0 if it cannot be a frame. */
static size_t decode(const uint8_t *line, size_t len, uint8_t *frame) {
    if (len > LONGEST_FRAME || len % 2 != 0) return 0;
    for (size_t i = 0; i < len; i += 2) {
        unsigned high = digit_values[line[i]], low = digit_values[line[i + 1]];
        if (high == 0 || low == 0) return 0;
        frame[i / 2] = (uint8_t)((high - 1) << 4 | (low - 1));
    }
    return len / 2;
}

static void answer_line(const uint8_t *line, size_t len) {
    uint8_t frame[LONGEST_FRAME / 2];
    if (BLOCK - answers_len < LONGEST_ANSWER) write_answers();
    uint32_t refusal = answer_frame(frame, decode(line, len, frame));
    if (refusal != 0) put_byte((uint8_t)refusal);
    answers[answers_len++] = '\n';
}

/* The start of a line whose end is not yet read. One more than the longest frame is enough to tell
   that it is too long. */
static uint8_t started[LONGEST_FRAME + 1];
static size_t started_len;

static void keep_start(const uint8_t *part, size_t len) {
    size_t room = sizeof started - started_len;
    if (len > room) len = room;
    memcpy(started + started_len, part, len);
    started_len += len;
}

static void answer_started(void) {
    answer_line(started, started_len);
    started_len = 0;
}

static void answer_block(const uint8_t *at, const uint8_t *end) {
    while (at < end) {
        const uint8_t *newline = memchr(at, '\n', (size_t)(end - at));
        if (newline == NULL) {
            keep_start(at, (size_t)(end - at));
            return;
        }
        if (started_len == 0) {
            answer_line(at, (size_t)(newline - at));
        } else {
            keep_start(at, (size_t)(newline - at));
            answer_started();
        }
        at = newline + 1;
    }
}

/* Answers are never held back: they are written before each wait for input. */
static size_t read_block(uint8_t *block) {
    write_answers();
    for (;;) {
        ssize_t count = read(STDIN_FILENO, block, BLOCK);
        if (count >= 0) return (size_t)count;
        if (errno != EINTR) exit(1);
    }
}

int main(void) {
    static uint8_t block[BLOCK];
    size_t len;
    while ((len = read_block(block)) > 0) answer_block(block, block + len);
    if (started_len > 0) answer_started();
    write_answers();
    return 0;
}
