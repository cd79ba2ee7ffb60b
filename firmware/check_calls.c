/* What check_calls.h declares. */
#include "check_calls.h"

#include <stdio.h>
#include <stdlib.h>
#include <string.h>

static const char *const names[CALLS] = {"fresh",   "check", "milking", "heard", "settled",
                                         "meeting", "panel", "pack",    "unpack"};
static unsigned counts[CALLS];
const char *doing = "";

static void show(const char *what, struct run run) {
    printf("  %s (%zu bytes):", what, run.len);
    for (size_t i = 0; i < run.len; i++) printf(" %02x", run.bytes[i]);
    printf("\n");
}

/* Full of 0xee, so that a byte that is not written shows. */
struct run lend(size_t len) {
    struct run run = {malloc(len), len};
    if (run.bytes == NULL) {
        printf("no block of %zu bytes\n", len);
        exit(1);
    }
    memset(run.bytes, 0xee, len);
    return run;
}

struct run copy(struct run from) {
    struct run run = lend(from.len);
    memcpy(run.bytes, from.bytes, from.len);
    return run;
}

/* The bytes that pairs of digits stand for; blanks between pairs are skipped. */
struct run from_hex(const char *hex) {
    uint8_t bytes[1024];
    struct run run = {bytes, 0};
    unsigned byte;
    for (; *hex != '\0'; hex += *hex == ' ' ? 1 : 2) {
        if (*hex != ' ' && sscanf(hex, "%2x", &byte) == 1) bytes[run.len++] = (uint8_t)byte;
    }
    return copy(run);
}

/* What a panel with these lines leaves in its buffer. */
struct run from_lines(const char *lines) {
    struct run run = lend(WILBRYN_PANEL_LENGTH);
    memset(run.bytes, 0, run.len);
    memcpy(run.bytes, lines, strlen(lines));
    return run;
}

void give_back(struct run run) { free(run.bytes); }

/* Ends the run unless a call answered as wanted; before: the runs as they were lent. */
void expect(enum call call, uint32_t wanted, uint32_t got, const struct run *before, int runs) {
    counts[call]++;
    if (wanted == got) return;
    printf("%s: %s answers %u, not %u\n", doing, names[call], got, wanted);
    for (int i = 0; i < runs; i++) show("lent", before[i]);
    exit(1);
}

void expect_bytes(const char *what, struct run wanted, struct run got) {
    if (wanted.len == got.len && memcmp(wanted.bytes, got.bytes, got.len) == 0) return;
    printf("%s: %s differs\n", doing, what);
    show("wanted", wanted);
    show("got", got);
    exit(1);
}

void expect_hex(const char *what, const char *wanted, struct run got) {
    struct run bytes = from_hex(wanted);
    expect_bytes(what, bytes, got);
    give_back(bytes);
}

/* The calls, each with the answer that it must give and what it must leave. */

void check(uint32_t wanted, struct run image) {
    struct run before = copy(image);
    expect(CHECK, wanted, form.check(image.bytes, image.len), &before, 1);
    expect_bytes("image", before, image);
    give_back(before);
}

void fresh(uint32_t wanted, struct run image, uint8_t n, uint8_t stall) {
    struct run before = lend(image.len), after = lend(image.len);
    memset(image.bytes, 0xee, image.len);
    if (wanted == 0) {
        memset(after.bytes, 0, after.len);
        after.bytes[0] = n;
        after.bytes[1] = stall;
        memset(after.bytes + 2, 0xff, 2);
        form.write_no_names(after.bytes + 4, n);
        memset(after.bytes + yield_at(after, 1), 0xff, 2u * n);
    }
    expect(FRESH, wanted, form.fresh(image.bytes, image.len, n, stall), &before, 1);
    expect_bytes("image", after, image);
    give_back(before);
    give_back(after);
}

/* Request 2026-09: "From 9 up, an order byte becomes two bytes". */
static size_t order_width(struct run image) { return image.bytes[0] < 9 ? 1 : 2; }

size_t yield_at(struct run image, uint8_t stall) {
    size_t n = image.bytes[0];
    return image.len - order_width(image) * n - 2 * n + 2u * (stall - 1u);
}

size_t order_at(struct run image, uint8_t stall) {
    size_t n = image.bytes[0];
    return image.len - order_width(image) * (n + 1u - stall);
}

void put_yield(struct run image, size_t at, uint16_t yield) {
    image.bytes[at] = (uint8_t)(yield / 256);
    image.bytes[at + 1] = (uint8_t)(yield % 256);
}

void milking(uint32_t wanted, struct run image, uint16_t yield) {
    struct run before = copy(image), after = copy(image);
    if (wanted == 0) put_yield(after, 2, yield);
    expect(MILKING, wanted, form.milking(image.bytes, image.len, yield), &before, 1);
    expect_bytes("image", after, image);
    give_back(before);
    give_back(after);
}

/* Afterwards the buffer must hold this, and the image what it held before. */
static void read_into(enum call call, reading *reading, uint32_t wanted, struct run image,
                      struct run wanted_output) {
    struct run output = lend(wanted_output.len);
    struct run before[] = {copy(image), copy(output)};
    uint32_t got = reading(image.bytes, image.len, output.bytes, output.len);
    expect(call, wanted, got, before, 2);
    expect_bytes("what is lent to read", before[0], image);
    expect_bytes("the output", wanted_output, output);
    struct run all[] = {output, before[0], before[1]};
    for (int i = 0; i < 3; i++) give_back(all[i]);
}

/* list: the records wanted, in their order. */
void heard(uint32_t wanted, struct run image, size_t buffer, const char *list) {
    struct run after = lend(buffer), listed = from_hex(list);
    if (wanted < 256) {
        memset(after.bytes, 0, after.len);
        memcpy(after.bytes, listed.bytes, listed.len);
    }
    read_into(HEARD, form.heard, wanted, image, after);
    give_back(listed);
    give_back(after);
}

void reading_refused(enum call call, reading *reading, uint32_t number, struct run image,
                     size_t buffer) {
    struct run unchanged = lend(buffer);
    read_into(call, reading, number, image, unchanged);
    give_back(unchanged);
}

/* Into every length of buffer: all but the right one are 8. */
void read_into_all(enum call call, reading *reading, struct run image, struct run wanted_output) {
    read_into(call, reading, 0, image, wanted_output);
    for (size_t buffer = 0; buffer <= 160; buffer++) {
        if (buffer != wanted_output.len) reading_refused(call, reading, 8, image, buffer);
    }
}

/* lines: those of the text that is wanted. */
static void panel(struct run image, const char *lines) {
    struct run wanted = from_lines(lines);
    read_into(PANEL, form.panel, (uint32_t)strlen(lines), image, wanted);
    give_back(wanted);
}

/* Into buffers of some lengths, the right one among them. */
static void panel_refused(uint32_t number, struct run image) {
    size_t buffers[] = {0, WILBRYN_PANEL_LENGTH - 1, WILBRYN_PANEL_LENGTH, WILBRYN_PANEL_LENGTH + 1,
                        2 * WILBRYN_PANEL_LENGTH};
    for (int i = 0; i < 5; i++) {
        reading_refused(PANEL, form.panel, 256 + number, image, buffers[i]);
    }
}

/* The text, and what refused calls leave: for each other length of buffer, of which one has the low
   byte of the right one, and for a bad yield. */
static void panel_and_refuse(struct run image, const char *lines) {
    panel(image, lines);
    for (size_t buffer = 0; buffer <= 256 + WILBRYN_PANEL_LENGTH; buffer++) {
        if (buffer == WILBRYN_PANEL_LENGTH) continue;
        reading_refused(PANEL, form.panel, 256 + 8, image, buffer);
    }
    struct run bad = copy(image);
    put_yield(bad, 2, 1000);
    panel_refused(4, bad);
    give_back(bad);
}

/* The value of a digit; those after 9 are a to g. */
static uint8_t value_of(char digit) {
    return (uint8_t)(digit <= '9' ? digit - '0' : digit - 'a' + 10);
}

/* A byte for each of so many digits. */
static struct run from_digits(const char *digits, size_t len) {
    struct run run = lend(len);
    for (size_t i = 0; i < len; i++) run.bytes[i] = value_of(digits[i]);
    return run;
}

/* counts: for each stall a digit; more may follow. */
static void settled(struct run image, const char *counts) {
    struct run wanted = from_digits(counts, image.bytes[0]);
    read_into_all(SETTLED, form.settled, image, wanted);
    give_back(wanted);
}

struct run part(struct run run, size_t from, size_t to) {
    return (struct run){run.bytes + from, to - from};
}

/* wanted_verdicts: what the buffer holds afterwards. A refused meeting changes no image; an
   accepted one leaves N, stall and current yield, and the rest the same in both. */
void meeting(uint32_t wanted, struct run first, struct run second, struct run wanted_verdicts) {
    struct run verdicts = lend(wanted_verdicts.len);
    struct run runs[] = {first, second, verdicts}, before[3];
    for (int i = 0; i < 3; i++) before[i] = copy(runs[i]);
    uint32_t got = form.meeting(first.bytes, first.len, second.bytes, second.len, verdicts.bytes,
                                verdicts.len);
    expect(MEETING, wanted, got, before, 3);
    expect_bytes("the verdict buffer", wanted_verdicts, verdicts);
    for (int i = 0; i < 2; i++) {
        size_t stays = wanted < 256 ? 4 : runs[i].len;
        expect_bytes("what stays of an image", part(before[i], 0, stays), part(runs[i], 0, stays));
    }
    if (wanted < 256) {
        expect_bytes("the rest of the images", part(first, 4, first.len),
                     part(second, 4, second.len));
    }
    for (int i = 0; i < 3; i++) give_back(before[i]);
    give_back(verdicts);
}

void meeting_refused(uint32_t number, struct run first, struct run second, size_t buffer) {
    struct run unchanged = lend(buffer);
    meeting(256 + number, first, second, unchanged);
    give_back(unchanged);
}

/* The verdicts with the two named the other way: 1 and 2 are exchanged. */
static struct run exchanged(struct run verdicts) {
    struct run turned = copy(verdicts);
    for (size_t r = 0; r < turned.len; r++) {
        turned.bytes[r] = (uint8_t)((3 - turned.bytes[r]) % 3);
    }
    return turned;
}

/* Two heads of a list meet. Copies of them, named the other way, get the same label and bytes. */
static void meeting_either_way(uint32_t label, struct run one, struct run other,
                               struct run verdicts) {
    struct run turned[] = {copy(other), copy(one), exchanged(verdicts)};
    meeting(label, turned[0], turned[1], turned[2]);
    meeting(label, one, other, verdicts);
    expect_bytes("the one, named second", one, turned[1]);
    expect_bytes("the other, named first", other, turned[0]);
    for (int i = 0; i < 3; i++) give_back(turned[i]);
}

static void try_examples(void) {
    for (const struct example *example = form.examples; example->image != NULL; example++) {
        doing = example->what;
        uint32_t number = example->number;
        struct run image = from_hex(example->image);
        check(number, image);
        heard(256 + (number == 0 ? 8 : number), image, 2, "");
        if (number != 0) heard(256 + number, image, 6, "");
        reading_refused(SETTLED, form.settled, number == 0 ? 8 : number, image, 17);
        for (size_t buffer = 0; number != 0 && buffer <= 16; buffer++) {
            reading_refused(SETTLED, form.settled, number, image, buffer);
        }
        reading_refused(PANEL, form.panel, 256 + (number == 0 ? 8 : number), image, 9);
        if (number != 0) panel_refused(number, image);
        milking(number == 0 ? 4 : number, image, 1000);
        milking(number, image, 5);
        give_back(image);
    }
}

struct run fresh_of(uint8_t n, uint8_t stall) {
    struct run image = lend(form.lengths[n]);
    fresh(0, image, n, stall);
    return image;
}

static void try_fresh(void) {
    for (uint8_t n = 2; n <= form.most; n++) {
        doing = "a fresh image";
        struct run image = lend(form.lengths[n]);
        fresh(3, image, n, 0);
        fresh(3, image, n, n + 1);
        for (uint8_t stall = 1; stall <= n; stall++) {
            fresh(0, image, n, stall);
            check(0, image);
            heard(0, image, 3 * n, "");
            settled(image, "0000000000000000");
            panel(image, "");
        }
        panel_and_refuse(image, "");
        give_back(image);
    }
    doing = "the order 1, 2, 3 of a fresh image";
    struct run image = lend(2);
    fresh(1, image, 1, 0);
    fresh(1, image, form.most + 1, 0);
    fresh(2, image, 2, 0);
    give_back(image);
}

static void refuse_milkings(struct run image) {
    milking(4, image, 1000);
    milking(4, image, 0xfe00);
    milking(4, image, 0xfffe);
    milking(4, image, 0xffff);
}

static void try_milking(void) {
    doing = "milking";
    struct run image = fresh_of(2, 1);
    refuse_milkings(image);
    milking(0, image, 18);
    expect_hex("image", form.milked, image);
    panel(image, "");
    milking(0, image, 999);
    refuse_milkings(image);
    milking(0, image, 0);
    give_back(image);
}

struct parlour open_parlour(uint8_t n) {
    struct parlour parlour = {.n = n};
    for (uint8_t stall = 1; stall <= n; stall++) {
        parlour.images[stall] = fresh_of(n, stall);
    }
    return parlour;
}

void shut_parlour(struct parlour parlour) {
    for (uint8_t stall = 1; stall <= parlour.n; stall++) give_back(parlour.images[stall]);
}

static void try_heard(void) {
    doing = "the heard lists of the listing";
    struct run first = from_hex(form.listing[0]), last = from_hex(form.listing[2]);
    heard(2, first, 9, "010012 02ffff");
    heard(3, last, 9, "010012 02ffff 03ffff");
    heard(256 + 8, last, 8, "");
    heard(256 + 8, last, 10, "");
    doing = "the panels of the listing";
    panel_and_refuse(first, "1 1 1.8\n2 2 -\n");
    panel_and_refuse(last, "1 1 1.8\n2 2 -\n3 3 -\n");
    give_back(last);
    give_back(first);
}

/* Heard lists by rising stall, in ranking order as request 2026-07 says, and as the lines of text
   that request 2026-08 says. */
static const struct {
    const char *what;
    uint8_t n;
    const char *by_stall, *ranking, *lines;
} rankings[] = {
    {"the larger yield first", 2, "010007 020012", "020012 010007", "1 2 1.8\n2 1 0.7\n"},
    {"the larger yield first already", 2, "010012 020007", "010012 020007", "1 1 1.8\n2 2 0.7\n"},
    {"the larger yield has the smaller low byte", 2, "0100ff 020100", "020100 0100ff",
     "1 2 25.6\n2 1 25.5\n"},
    {"999 and 0", 2, "010000 0203e7", "0203e7 010000", "1 2 99.9\n2 1 0.0\n"},
    {"two equal yields", 2, "010012 020012", "010012 020012", "1 1 1.8\n2 2 1.8\n"},
    {"equal yields twice", 4, "010007 020012 030007 040012", "020012 040012 010007 030007",
     "1 2 1.8\n2 4 1.8\n3 1 0.7\n4 3 0.7\n"},
    {"a larger one between equal ones", 3, "010012 020013 030012", "020013 010012 030012",
     "1 2 1.9\n2 1 1.8\n3 3 1.8\n"},
    {"0 before not milked", 2, "01ffff 020000", "020000 01ffff", "1 2 0.0\n2 1 -\n"},
    {"0 twice before not milked", 4, "01ffff 020000 03ffff 040000", "020000 040000 01ffff 03ffff",
     "1 2 0.0\n2 4 0.0\n3 1 -\n4 3 -\n"},
    {"not milked among milked", 5, "01ffff 020012 03ffff 040063 05ffff",
     "040063 020012 01ffff 03ffff 05ffff", "1 4 9.9\n2 2 1.8\n3 1 -\n4 3 -\n5 5 -\n"},
    {"all not milked", 3, "01ffff 02ffff 03ffff", "01ffff 02ffff 03ffff", "1 1 -\n2 2 -\n3 3 -\n"},
    {"stalls never heard between", 8, "020005 04ffff 050009 080005", "050009 020005 080005 04ffff",
     "1 5 0.9\n2 2 0.5\n3 8 0.5\n4 4 -\n"},
    {"head 3 of 6 has heard of 3 and 6", 6, "030000 0603e7", "0603e7 030000",
     "1 6 99.9\n2 3 0.0\n"},
    {"each number of digits", 6, "010001 020009 03000a 040063 050064 060065",
     "060065 050064 040063 03000a 020009 010001",
     "1 6 10.1\n2 5 10.0\n3 4 9.9\n4 3 1.0\n5 2 0.9\n6 1 0.1\n"},
    {"eight equal yields", 8, "010012 020012 030012 040012 050012 060012 070012 080012",
     "010012 020012 030012 040012 050012 060012 070012 080012",
     "1 1 1.8\n2 2 1.8\n3 3 1.8\n4 4 1.8\n5 5 1.8\n6 6 1.8\n7 7 1.8\n8 8 1.8\n"},
    {"eight of the longest lines", 8, "010064 0203e7 030064 0403e7 050064 0603e7 070064 0803e7",
     "0203e7 0403e7 0603e7 0803e7 010064 030064 050064 070064",
     "1 2 99.9\n2 4 99.9\n3 6 99.9\n4 8 99.9\n5 1 10.0\n6 3 10.0\n7 5 10.0\n8 7 10.0\n"},
    {"eight in the order of stalls", 8, "0103e7 020200 0301ff 040100 0500ff 060001 070000 08ffff",
     "0103e7 020200 0301ff 040100 0500ff 060001 070000 08ffff",
     "1 1 99.9\n2 2 51.2\n3 3 51.1\n4 4 25.6\n5 5 25.5\n6 6 0.1\n7 7 0.0\n8 8 -\n"},
    {"eight in reverse", 8, "010000 020001 0300ff 040100 0501ff 060200 0702ff 0803e7",
     "0803e7 0702ff 060200 0501ff 040100 0300ff 020001 010000",
     "1 8 99.9\n2 7 76.7\n3 6 51.2\n4 5 51.1\n5 4 25.6\n6 3 25.5\n7 2 0.1\n8 1 0.0\n"},
    {"eight in reverse, stall 1 not milked", 8,
     "01ffff 020000 030001 040002 050003 060004 070005 080006",
     "080006 070005 060004 050003 040002 030001 020000 01ffff",
     "1 8 0.6\n2 7 0.5\n3 6 0.4\n4 5 0.3\n5 4 0.2\n6 3 0.1\n7 2 0.0\n8 1 -\n"},
    {"eight of all kinds", 8, "010000 02ffff 0303e7 040012 05ffff 060012 0703e7 080000",
     "0303e7 0703e7 040012 060012 010000 080000 02ffff 05ffff",
     "1 3 99.9\n2 7 99.9\n3 4 1.8\n4 6 1.8\n5 1 0.0\n6 8 0.0\n7 2 -\n8 5 -\n"},
    {"nine equal yields", 9, "010012 020012 030012 040012 050012 060012 070012 080012 090012",
     "010012 020012 030012 040012 050012 060012 070012 080012 090012",
     "1 1 1.8\n2 2 1.8\n3 3 1.8\n4 4 1.8\n5 5 1.8\n6 6 1.8\n7 7 1.8\n8 8 1.8\n9 9 1.8\n"},
    {"a rank of two digits", 10,
     "01ffff 020012 030012 040012 050012 060012 070012 080012 090012 0a0012",
     "020012 030012 040012 050012 060012 070012 080012 090012 0a0012 01ffff",
     "1 2 1.8\n2 3 1.8\n3 4 1.8\n4 5 1.8\n5 6 1.8\n6 7 1.8\n7 8 1.8\n8 9 1.8\n9 10 1.8\n10 1 -\n"},
    {"stalls never heard between, of sixteen", 16, "020005 09ffff 0a0009 100005",
     "0a0009 020005 100005 09ffff", "1 10 0.9\n2 2 0.5\n3 16 0.5\n4 9 -\n"},
    {"sixteen in reverse, of all kinds", 16,
     "01ffff 020000 030001 040009 05000a 060063 070064 0800ff "
     "090100 0a0101 0b01ff 0c0200 0d0280 0e0300 0f03e6 1003e7",
     "1003e7 0f03e6 0e0300 0d0280 0c0200 0b01ff 0a0101 090100 "
     "0800ff 070064 060063 05000a 040009 030001 020000 01ffff",
     "1 16 99.9\n2 15 99.8\n3 14 76.8\n4 13 64.0\n5 12 51.2\n6 11 51.1\n7 10 25.7\n8 9 25.6\n"
     "9 8 25.5\n10 7 10.0\n11 6 9.9\n12 5 1.0\n13 4 0.9\n14 3 0.1\n15 2 0.0\n16 1 -\n"},
    {"sixteen of the longest lines", 16,
     "010064 0203e7 030064 0403e7 050064 0603e7 070064 0803e7 "
     "090064 0a03e7 0b0064 0c03e7 0d0064 0e03e7 0f0064 1003e7",
     "0203e7 0403e7 0603e7 0803e7 0a03e7 0c03e7 0e03e7 1003e7 "
     "010064 030064 050064 070064 090064 0b0064 0d0064 0f0064",
     "1 2 99.9\n2 4 99.9\n3 6 99.9\n4 8 99.9\n5 10 99.9\n6 12 99.9\n7 14 99.9\n8 16 99.9\n"
     "9 1 10.0\n10 3 10.0\n11 5 10.0\n12 7 10.0\n13 9 10.0\n14 11 10.0\n15 13 10.0\n"
     "16 15 10.0\n"},
};

enum { RANKINGS = sizeof rankings / sizeof rankings[0] };

/* The image of the head at the first of these records' stalls, which has met those at the others in
   turn, so that each time the head has newer news of all before. Then the yields are put in. */
static struct run image_with(uint8_t n, struct run records) {
    struct parlour parlour = open_parlour(n);
    struct run image = parlour.images[records.bytes[0]], verdicts = lend(n);
    memset(verdicts.bytes, 0, n);
    for (size_t at = 3; at < records.len; at += 3) {
        meeting(0, image, parlour.images[records.bytes[at]], verdicts);
        verdicts.bytes[records.bytes[0] - 1] = verdicts.bytes[records.bytes[at] - 1] = 1;
    }
    struct run made = copy(image);
    for (size_t at = 0; at < records.len; at += 3) {
        memcpy(made.bytes + yield_at(made, records.bytes[at]), records.bytes + at + 1, 2);
    }
    give_back(verdicts);
    shut_parlour(parlour);
    return made;
}

/* The list, and what refused calls leave: for each other length of buffer, and for a bad yield. */
static void list_and_refuse(struct run image, uint32_t count, const char *ranking) {
    size_t right = 3u * image.bytes[0];
    heard(count, image, right, ranking);
    for (size_t buffer = 0; buffer <= 3 * WILBRYN_MOST_HEADS + 3; buffer++) {
        if (buffer != right) heard(256 + 8, image, buffer, "");
    }
    struct run bad = copy(image);
    put_yield(bad, yield_at(bad, 1), 1000);
    heard(256 + 4, bad, right, "");
    give_back(bad);
}

static void try_rankings(void) {
    for (int i = 0; i < RANKINGS; i++) {
        if (rankings[i].n > form.most) continue;
        doing = rankings[i].what;
        struct run records = from_hex(rankings[i].by_stall);
        struct run image = image_with(rankings[i].n, records);
        list_and_refuse(image, (uint32_t)records.len / 3, rankings[i].ranking);
        panel_and_refuse(image, rankings[i].lines);
        give_back(image);
        give_back(records);
    }
    doing = "a list of one";
    static const struct {
        uint16_t yield;
        const char *ranking, *lines;
    } ones[] = {{18, "020012", "1 2 1.8\n"},
                {WILBRYN_NOT_MILKED, "02ffff", "1 2 -\n"},
                {0, "020000", "1 2 0.0\n"}};
    struct run alone = from_hex(form.alone);
    for (int i = 0; i < 3; i++) {
        put_yield(alone, yield_at(alone, 2), ones[i].yield);
        list_and_refuse(alone, 1, ones[i].ranking);
        panel_and_refuse(alone, ones[i].lines);
    }
    give_back(alone);
}

/* The first of two heads that met has all four marks; then just those that check 6 demands, (1, 1),
   (2, 1) and (2, 2), which no list leaves. Of the listing, the first head has met once; the others
   know that the latest of stall 1 lies in the past of every latest. */
static void try_settled(void) {
    doing = "what is settled of two heads";
    struct run image = from_hex(form.apart[0]);
    settled(image, "22");
    image.bytes[image.len - 2] = 1;
    settled(image, "12");
    give_back(image);
    doing = "what is settled in the listing";
    static const char *const wanted[] = {"220", "322", "322"};
    for (int i = 0; i < 3; i++) {
        struct run left = from_hex(form.listing[i]);
        settled(left, wanted[i]);
        give_back(left);
    }
}

/* The lists to try: pairs of stalls, with a to g for 10 to 16; of each meeting the label, the
   verdicts, and the counts that both heads then have, in such digits too. What document 01 does not
   write down follows from its definitions. So in example 2.4: after 45 the meeting 12, the latest
   of stall 2, lies in the past of all five latests; after 25 stall 2 has a newer latest, which lies
   in the past of two.

   In the lists that end in 13 and in 24 the count of stall 1 falls from N for a newer meeting of
   stall 1: head 3 then has the meeting 13, which head 2 lacks; head 4 hears in the meeting 24 of
   the second 12, which head 3 lacks.

   In the last two lists head 1 meets the others in turn. When it has met k, its latest of a stall r
   from 2 to k is the meeting of 1 and r, which lies in the past of the latests of 1 and of r to
   k. */
static const struct {
    uint8_t n;
    const char *meetings, *labels, *verdicts, *settled;
} lists[] = {
    {2, "12 12 12 12", "0101", "00 00 00 00", "22 22 22 22"},
    {3, "12 13 12 12 12", "00121", "000 110 101 000 000", "220 232 223 223 223"},
    {5, "12 13 14 45 25 24 35", "0000000", "00000 11000 11100 11110 20222 01001 22022",
     "22000 23200 24320 35422 42532 42523 53242"},
    {5, "12 13 14 45 25 24 12", "0000001", "00000 11000 11100 11110 20222 01001 02022",
     "22000 23200 24320 35422 42532 42523 22534"},
    {4, "12 13 24 34", "0000", "0000 1100 1100 1212", "2200 2320 3202 3322"},
    {2, "12", "0", "00", "22"},
    {3, "31", "0", "000", "202"},
    {4, "24", "0", "0000", "0202"},
    {5, "51", "0", "00000", "20002"},
    {6, "36", "0", "000000", "002002"},
    {7, "72", "0", "0000000", "0200002"},
    {8, "87", "0", "00000000", "00000022"},
    {3, "12 23 13", "000", "000 110 022", "220 322 232"},
    {4, "12 23 34 12 24", "00010", "0000 1100 1110 0220 1122", "2200 3220 4322 2230 3232"},
    {9, "29", "0", "000000000", "020000002"},
    {9, "19 98 89", "001", "000000000 100000001 000000000", "200000002 300000022 300000022"},
    {10, "12 13 14 15 16 17 18 19 1a", "000000000",
     "0000000000 1100000000 1110000000 1111000000 1111100000 1111110000 1111111000 "
     "1111111100 1111111110",
     "2200000000 2320000000 2432000000 2543200000 2654320000 2765432000 2876543200 "
     "2987654320 2a98765432"},
    {16, "12 13 14 15 16 17 18 19 1a 1b 1c 1d 1e 1f 1g", "000000000000000",
     "0000000000000000 1100000000000000 1110000000000000 1111000000000000 "
     "1111100000000000 1111110000000000 1111111000000000 1111111100000000 "
     "1111111110000000 1111111111000000 1111111111100000 1111111111110000 "
     "1111111111111000 1111111111111100 1111111111111110",
     "2200000000000000 2320000000000000 2432000000000000 2543200000000000 "
     "2654320000000000 2765432000000000 2876543200000000 2987654320000000 "
     "2a98765432000000 2ba9876543200000 2cba987654320000 2dcba98765432000 "
     "2edcba9876543200 2fedcba987654320 2gfedcba98765432"},
};

enum { LISTS = sizeof lists / sizeof lists[0] };

static void try_lists(void) {
    for (int i = 0; i < LISTS; i++) {
        if (lists[i].n > form.most) continue;
        doing = lists[i].meetings;
        struct parlour parlour = open_parlour(lists[i].n);
        const char *pair = lists[i].meetings;
        for (uint8_t r = 1; r <= parlour.n; r++) milking(0, parlour.images[r], r);
        for (size_t at = 0; at < strlen(lists[i].labels); at++, pair += 3) {
            struct run one = parlour.images[value_of(pair[0])];
            struct run other = parlour.images[value_of(pair[1])];
            size_t from = at * (parlour.n + 1u);
            struct run verdicts = from_digits(lists[i].verdicts + from, parlour.n);
            meeting_either_way((uint32_t)(lists[i].labels[at] - '0'), one, other, verdicts);
            settled(one, lists[i].settled + from);
            settled(other, lists[i].settled + from);
            give_back(verdicts);
        }
        shut_parlour(parlour);
    }
}

/* The listing as document 01 has it, or with the two of each meeting named the other way: the same
   labels and images, and the verdicts 1 and 2 exchanged. */
static void try_listing_named(int one, int other, const char *last_verdicts) {
    struct parlour parlour = open_parlour(3);
    struct run *images = parlour.images;
    struct run none_newer = from_hex("000000"), two_newer = from_hex(last_verdicts);
    milking(0, images[1], 18);
    meeting(0, images[one], images[other], none_newer);
    meeting(0, images[one + 1], images[other + 1], two_newer);
    for (int i = 0; i < 3; i++) expect_hex("an image", form.listing[i], images[i + 1]);
    give_back(two_newer);
    give_back(none_newer);
    shut_parlour(parlour);
}

static void try_listing(void) {
    doing = "the listing";
    try_listing_named(1, 2, "010100");
    doing = "the listing, named the other way";
    try_listing_named(2, 1, "020200");
}

static void try_examples_in_meetings(void) {
    struct run good = fresh_of(2, 2), one = from_hex("01"), marks = fresh_of(2, 1);
    marks.bytes[marks.len - 1] = 1; /* 6 */
    for (const struct example *example = form.examples; example->image != NULL; example++) {
        doing = example->what;
        uint32_t number = example->number;
        struct run image = from_hex(example->image);
        if (number != 0) {
            meeting_refused(number, image, good, 2);
            meeting_refused(number, good, image, 0);
            meeting_refused(number, image, one, 2);
            meeting_refused(6, marks, image, 2);
        }
        give_back(image);
    }
    give_back(marks);
    give_back(one);
    give_back(good);
}

static void try_pairs(void) {
    struct run fresh1 = fresh_of(2, 1), again1 = copy(fresh1), fresh2 = fresh_of(2, 2);
    struct run of3 = fresh_of(3, 2);
    struct run odd1 = from_hex(form.apart[0]), odd2 = from_hex(form.apart[1]);
    doing = "one stall";
    meeting_refused(7, fresh1, again1, 2);
    meeting_refused(7, fresh1, again1, 1);
    doing = "different N";
    meeting_refused(7, fresh1, of3, 2);
    meeting_refused(7, of3, fresh1, 3);
    doing = "verdict buffer";
    for (size_t buffer = 0; buffer < 20; buffer++) {
        if (buffer != 2) meeting_refused(8, fresh1, fresh2, buffer);
    }
    meeting_refused(8, odd1, odd2, 1);
    doing = "images that do not belong together";
    meeting_refused(9, odd1, odd2, 2);
    meeting_refused(9, odd2, odd1, 2);
    struct run all[] = {fresh1, fresh2, again1, of3, odd1, odd2};
    for (int i = 0; i < 6; i++) give_back(all[i]);
}

void try_form(void) {
    try_examples();
    try_fresh();
    try_milking();
    try_heard();
    try_rankings();
    try_settled();
    try_lists();
    try_listing();
    try_examples_in_meetings();
    try_pairs();
}

void print_counts(void) {
    printf("%s:", form.says);
    for (int call = 0; call < CALLS; call++) {
        if (counts[call] != 0) printf(" %s %u", names[call], counts[call]);
    }
    printf("\n");
}
