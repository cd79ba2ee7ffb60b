/* The examples of document 01 packed by hand as request 2026-04 says, and those of requests 2026-05
   and 2026-07 to 2026-09, on the functions of wilbryn.h for packed images; and packing and
   unpacking. */
#include "check_calls.h"

#include <string.h>

_Static_assert(WILBRYN_PACKED_LENGTH(2) == 14 && WILBRYN_PACKED_LENGTH(3) == 22 &&
                   WILBRYN_PACKED_LENGTH(4) == 32 && WILBRYN_PACKED_LENGTH(5) == 44 &&
                   WILBRYN_PACKED_LENGTH(6) == 58 && WILBRYN_PACKED_LENGTH(7) == 74 &&
                   WILBRYN_PACKED_LENGTH(8) == 92,
               "the lengths of packed images");

/* Stall 1 of 8, which met stall 8 alone. In column 1 the byte with_8 has 7 in its upper three bits;
   in column 8 the byte with_1 has 0 there; both have the label in the lower five. In all other
   places each column has its own number. */
#define OF_EIGHT(with_8, with_1)                                                                   \
    "0801 03e7 " with_8 "20406080a0c0" with_1 " 0020406080a0c0e0 0020406080a0c0e0 "                \
    "0020406080a0c0e0 0020406080a0c0e0 0020406080a0c0e0 0020406080a0c0e0 " with_8                  \
    "20406080a0c0" with_1 " 0012ffffffffffffffffffffffff0000 8100000000000081"

/* The refusals 1 to 6; 0 is accepted. In column 1 none is 00, and 20 names stall 2 with label 0; in
   column 2 none is 20, and 00 names stall 1 with label 0. */
static const struct example examples[] = {
    {"N = 1", "01", 1},
    {"empty", "", 1},
    {"N = 9", "09", 1},
    {"N = 16", "10", 1},
    {"N = 17", "11", 1},
    {"N = 0", "0001 ffff 0020 0020 ffffffff 0000", 1},
    {"too short", "0201", 2},
    {"a byte short", "0201 ffff 0020 0020 ffffffff 00", 2},
    {"a byte long", "0201 ffff 0020 0020 ffffffff 0000 00", 2},
    {"not packed", "0201 ffff 00000000 00000000 ffffffff 0000", 2},
    {"own stall 3", "0203 ffff 0020 0020 ffffffff 0000", 3},
    {"own stall 0", "0200 ffff 0020 0020 ffffffff 0000", 3},
    {"own stall 3 and all else", "0203 03e8 0121 0121 03e8fffe ffff", 3},
    {"current yield 1000", "0201 03e8 0020 0020 ffffffff 0000", 4},
    {"current yield fffe", "0201 fffe 0020 0020 ffffffff 0000", 4},
    {"current yield not milked", "0201 ffff 0020 0020 ffffffff 0000", 0},
    {"current yield 999", "0201 03e7 0020 0020 ffffffff 0000", 0},
    {"current yield 0", "0201 0000 0020 0020 ffffffff 0000", 0},
    {"stall yield 1000", "0201 0000 2000 2000 000003e8 0303", 4},
    {"stall yield fe00", "0201 0000 2000 2000 fe000000 0303", 4},
    {"stall yield 1000 and a bad name", "0201 0000 0100 2000 000003e8 0303", 4},
    {"stall yield 999", "0201 0000 2000 2000 000003e7 0303", 0},
    {"stall yield not milked", "0201 0000 2000 2000 0000ffff 0303", 0},
    {"own number with label 1, column 1", "0201 ffff 0120 0020 ffffffff 0000", 5},
    {"own number with label 31, column 1", "0201 ffff 1f20 0020 ffffffff 0000", 5},
    {"own number with label 1, column 2", "0201 ffff 0021 0021 ffffffff 0000", 5},
    {"own number with label 31, column 2", "0201 ffff 003f 003f ffffffff 0000", 5},
    {"own number with label 1 in another row", "0201 0000 2000 0100 00000000 0303", 5},
    {"own number with label 0 in another row", "0201 0000 2000 0000 00000000 0303", 0},
    {"zeros in place of all names", "0201 ffff 0000 0000 ffffffff 0000", 5},
    {"partner above N", "0201 0000 4000 2000 00000000 0303", 5},
    {"partner 8", "0201 0000 e000 2000 00000000 0303", 5},
    {"row 2, column 2 not the own", "0201 0000 2000 2001 00000000 0303", 5},
    {"name in a row never heard", "0201 0000 2020 2020 0000ffff 0100", 5},
    {"own row without own stall", "0201 0000 0000 2000 ffff0000 0003", 5},
    {"never heard, yield 0", "0201 0000 2020 0020 00000000 0100", 5},
    {"never heard, not milked", "0201 0000 2020 0020 0000ffff 0100", 0},
    {"a bad name and bad marks", "0201 ffff 0120 0020 ffffffff 0001", 5},
    {"mark never heard", "0201 ffff 0020 0020 ffffffff 0001", 6},
    {"mark above N", "0201 0000 2000 2000 00000000 0703", 6},
    {"heard without (r, r)", "0201 0000 2000 2000 00000000 0301", 6},
    {"heard without (r, own)", "0201 0000 2000 2000 00000000 0302", 6},
    {"heard with the least marks", "0201 0000 2000 2000 00000000 0103", 0},
    {"N = 2, label 6", "0201 0000 2606 2606 00000000 0303", 0},
    {"N = 2, label 7", "0201 0000 2707 2707 00000000 0303", 5},
    {"N = 3, label 10", "0301 0000 2a0a40 2a0a40 002040 00000000ffff 030300", 0},
    {"N = 3, label 11", "0301 0000 2b0b40 2b0b40 002040 00000000ffff 030300", 5},
    {"N = 8, label 30", OF_EIGHT("fe", "1e"), 0},
    {"N = 8, label 31", OF_EIGHT("ff", "1f"), 5},
    {NULL, NULL, 0},
};

static void write_no_names(uint8_t *names, uint8_t n) {
    for (int i = 0; i < n * n; i++) names[i] = (uint8_t)(32 * (i % n));
}

const struct form form = {
    .says = "check_packed.c: as request 2026-04 says",
    .most = 8,
    .lengths = {[2] = 14, 22, 32, 44, 58, 74, 92},
    .write_no_names = write_no_names,
    .fresh = wilbryn_packed_fresh,
    .check = wilbryn_packed_check,
    .milking = wilbryn_packed_milking,
    .heard = wilbryn_packed_heard,
    .settled = wilbryn_packed_settled,
    .meeting = wilbryn_packed_meeting,
    .panel = wilbryn_packed_panel,
    .examples = examples,
    .milked = "0201 0012 0020 0020 ffffffff 0000",
    .alone = "0302 ffff 002040 000040 002040 ffff0012ffff 000200",
    .listing = {"0301 0012 200040 200040 002040 0012ffffffff 030300",
                "0302 ffff 200040 204020 204020 0012ffffffff 070606",
                "0303 ffff 200040 204020 204020 0012ffffffff 070606"},
    .apart = {"0201 0000 2000 2000 00000000 0303", "0202 0000 2101 2101 00000000 0303"},
};

/* Images, each with its packed one. */
static const struct {
    const char *image, *packed;
} both_forms[] = {
    {"0201 ffff 00000000 00000000 ffffffff 0000", "0201 ffff 0020 0020 ffffffff 0000"},
    {"0202 03e7 00000000 00000000 ffffffff 0000", "0202 03e7 0020 0020 ffffffff 0000"},
    {"0202 0000 02010101 02010101 00000000 0303", "0202 0000 2101 2101 00000000 0303"},
    {"0201 ffff 02000106 00000106 00050007 0303", "0201 ffff 2006 0006 00050007 0303"},
    {"0301 0012 020001000000 020001000000 000000000000 0012ffffffff 030300",
     "0301 0012 200040 200040 002040 0012ffffffff 030300"},
    {"0303 ffff 020001000000 020003000200 020003000200 0012ffffffff 070606",
     "0303 ffff 200040 204020 204020 0012ffffffff 070606"},
    {"0401 0000 0300030001000000 0200030002000000 0300030001000000 0000000000000000 "
     "00000007ffffffff 05070500",
     "0401 0000 40400060 20402060 40400060 00204060 00000007ffffffff 05070500"},
    {"0801 03e7 081e000000000000000000000000011e 00000000000000000000000000000000 "
     "00000000000000000000000000000000 00000000000000000000000000000000 "
     "00000000000000000000000000000000 00000000000000000000000000000000 "
     "00000000000000000000000000000000 081e000000000000000000000000011e "
     "0012ffffffffffffffffffffffff0000 8100000000000081",
     OF_EIGHT("fe", "1e")},
};

enum { BOTH_FORMS = sizeof both_forms / sizeof both_forms[0] };

static void try_both_forms(void) {
    doing = "both forms of an image";
    for (int i = 0; i < BOTH_FORMS; i++) {
        struct run image = from_hex(both_forms[i].image), packed = from_hex(both_forms[i].packed);
        check(0, packed);
        read_into_all(PACK, wilbryn_pack, image, packed);
        read_into_all(UNPACK, wilbryn_unpack, packed, image);
        give_back(packed);
        give_back(image);
    }
}

/* Images that are not packed, and the numbers that packing refuses them with. */
static const struct example not_packed[] = {
    {"empty", "", 1},
    {"N = 9", "09", 1},
    {"N = 16", "10", 1},
    {"N = 17", "11", 1},
    {"too short", "0201", 2},
    {"packed already", "0201 ffff 0020 0020 ffffffff 0000", 2},
    {"own stall 3", "0203 ffff 00000000 00000000 ffffffff 0000", 3},
    {"current yield 1000", "0201 03e8 00000000 00000000 ffffffff 0000", 4},
    {"partner is the column", "0201 ffff 01000000 00000000 ffffffff 0100", 5},
    {"label without partner", "0201 ffff 00010000 00000000 ffffffff 0000", 5},
    {"label 32", "0201 0000 02200120 02200120 00000000 0303", 5},
    {"mark never heard", "0201 ffff 00000000 00000000 ffffffff 0001", 6},
    {NULL, NULL, 0},
};

/* 1 to 6 come before 8, and stand whether the buffer is right or wrong. */
static void try_conversions_of(enum call call, reading *convert, const struct example *example) {
    for (; example->image != NULL; example++) {
        if (example->number == 0) continue;
        doing = example->what;
        struct run image = from_hex(example->image);
        size_t buffers[] = {0, 14, 18, 22, 31, 92, 156};
        for (int i = 0; i < 7; i++) {
            reading_refused(call, convert, example->number, image, buffers[i]);
        }
        give_back(image);
    }
}

static void try_conversions(void) {
    try_conversions_of(PACK, wilbryn_pack, not_packed);
    try_conversions_of(UNPACK, wilbryn_unpack, examples);
}

/* Of an image of so many heads a packed form could be thought to have one of these lengths: with
   order entries of one byte or of two. All calls on such runs are number 1, whatever is in them. */
static void try_as_packed(uint8_t n, struct run image) {
    size_t lengths[] = {n * n + 3u * n + 4, n * n + 4u * n + 4, image.len};
    for (int i = 0; i < 3; i++) {
        struct run packed = lend(lengths[i]), good = fresh_of(8, 8);
        fresh(1, packed, n, 1);
        memset(packed.bytes, 0, packed.len);
        memcpy(packed.bytes, image.bytes, 4);
        check(1, packed);
        milking(1, packed, 18);
        heard(256 + 1, packed, 3u * n, "");
        reading_refused(SETTLED, form.settled, 1, packed, n);
        reading_refused(PANEL, form.panel, 256 + 1, packed, WILBRYN_PANEL_LENGTH);
        reading_refused(UNPACK, wilbryn_unpack, 1, packed, image.len);
        meeting_refused(1, packed, good, 8);
        meeting_refused(1, good, packed, n);
        reading_refused(PACK, wilbryn_pack, 1, image, lengths[i]);
        give_back(good);
        give_back(packed);
    }
}

/* Request 2026-09: an image of 9 to 16 heads, which the plain calls take, is not packed, nor one
   with a fault in its length, its stall or its marks. */
static void try_over_eight(void) {
    doing = "more heads than a packed table has";
    for (uint8_t n = 9; n <= 16; n++) {
        struct run image = lend(WILBRYN_IMAGE_LENGTH(n));
        expect(FRESH, 0, wilbryn_fresh(image.bytes, image.len, n, n), &image, 1);
        expect(CHECK, 0, wilbryn_check(image.bytes, image.len), &image, 1);
        try_as_packed(n, image);
        try_as_packed(n, part(image, 0, image.len - 1));
        image.bytes[image.len - 1] = 1;
        try_as_packed(n, image);
        image.bytes[1] = 0;
        try_as_packed(n, image);
        give_back(image);
    }
}

static void try_fresh_bytes(void) {
    doing = "the bytes of fresh packed images";
    struct run two = fresh_of(2, 2), three = fresh_of(3, 1), eight = fresh_of(8, 8);
    expect_hex("stall 2 of 2", "0202 ffff 0020 0020 ffffffff 0000", two);
    expect_hex("stall 1 of 3", "0301 ffff 002040 002040 002040 ffffffffffff 000000", three);
    expect_hex("stall 8 of 8",
               "0808 ffff 0020406080a0c0e0 0020406080a0c0e0 0020406080a0c0e0 0020406080a0c0e0 "
               "0020406080a0c0e0 0020406080a0c0e0 0020406080a0c0e0 0020406080a0c0e0 "
               "ffffffffffffffffffffffffffffffff 0000000000000000",
               eight);
    struct run all[] = {two, three, eight};
    for (int i = 0; i < 3; i++) give_back(all[i]);
}

/* Fails where a call inside a block writes outside of the parts that it is lent. */
static void expect_only(struct run block, const struct run *lent, int runs) {
    struct run untouched = lend(block.len);
    for (int i = 0; i < runs; i++) memset(lent[i].bytes, 0xee, lent[i].len);
    expect_bytes("the room around what was lent", untouched, block);
    give_back(untouched);
}

/* Every call on parts of one block, with room between them. */
static void try_room(void) {
    doing = "runs with room around them";
    struct run block = lend(424 + WILBRYN_PANEL_LENGTH);
    struct run one = part(block, 16, 108), two = part(block, 112, 204);
    struct run image = part(block, 208, 364), verdicts = part(block, 368, 376);
    struct run records = part(block, 380, 404), counts = part(block, 408, 416);
    struct run text = part(block, 420, 420 + WILBRYN_PANEL_LENGTH);
    expect(FRESH, 0, form.fresh(one.bytes, one.len, 8, 1), NULL, 0);
    expect(FRESH, 0, form.fresh(two.bytes, two.len, 8, 8), NULL, 0);
    expect(MILKING, 0, form.milking(two.bytes, two.len, 999), NULL, 0);
    expect(MEETING, 0,
           form.meeting(one.bytes, one.len, two.bytes, two.len, verdicts.bytes, verdicts.len), NULL,
           0);
    expect(HEARD, 2, form.heard(two.bytes, two.len, records.bytes, records.len), NULL, 0);
    expect_hex("the records", "0803e7 01ffff 000000000000000000 000000000000000000", records);
    expect(SETTLED, 0, form.settled(two.bytes, two.len, counts.bytes, counts.len), NULL, 0);
    expect_hex("the counts", "0200000000000002", counts);
    struct run wanted = from_lines("1 8 99.9\n2 1 -\n");
    expect(PANEL, 15, form.panel(two.bytes, two.len, text.bytes, text.len), NULL, 0);
    expect_bytes("the text", wanted, text);
    give_back(wanted);
    expect(UNPACK, 0, wilbryn_unpack(one.bytes, one.len, image.bytes, image.len), NULL, 0);
    expect(PACK, 0, wilbryn_pack(image.bytes, image.len, two.bytes, two.len), NULL, 0);
    expect_bytes("packed again", one, two);
    struct run lent[] = {one, two, image, verdicts, records, counts, text};
    expect_only(block, lent, 7);
    give_back(block);
}

int main(void) {
    try_form();
    try_fresh_bytes();
    try_both_forms();
    try_conversions();
    try_over_eight();
    try_room();
    print_counts();
    return 0;
}
