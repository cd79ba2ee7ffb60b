/* The examples of document 01 with requests 2026-01 to 2026-03, 2026-05 and 2026-07 to 2026-09, on
   the functions of wilbryn.h. */
#include "check_calls.h"

#include <string.h>

_Static_assert(WILBRYN_NOT_MILKED == 0xffff, "not milked is ffff");
_Static_assert(WILBRYN_PANEL_LENGTH == 256, "the buffer of a panel has 256 bytes");
_Static_assert(WILBRYN_MOST_HEADS == 16 && WILBRYN_MOST_PACKED_HEADS == 8, "the most heads");
_Static_assert(WILBRYN_IMAGE_LENGTH(2) == 18 && WILBRYN_IMAGE_LENGTH(3) == 31 &&
                   WILBRYN_IMAGE_LENGTH(4) == 48 && WILBRYN_IMAGE_LENGTH(5) == 69 &&
                   WILBRYN_IMAGE_LENGTH(6) == 94 && WILBRYN_IMAGE_LENGTH(7) == 123 &&
                   WILBRYN_IMAGE_LENGTH(8) == 156,
               "the lengths of images with order bytes");
_Static_assert(WILBRYN_IMAGE_LENGTH(9) == 202 && WILBRYN_IMAGE_LENGTH(10) == 244 &&
                   WILBRYN_IMAGE_LENGTH(11) == 290 && WILBRYN_IMAGE_LENGTH(12) == 340 &&
                   WILBRYN_IMAGE_LENGTH(13) == 394 && WILBRYN_IMAGE_LENGTH(14) == 452 &&
                   WILBRYN_IMAGE_LENGTH(15) == 514 && WILBRYN_IMAGE_LENGTH(16) == 580,
               "the lengths of images with order entries of two bytes");

/* The refusals 1 to 6. The first of each number is document 01's own example; alone: with no other
   fault; 0 is accepted. */
static const struct example examples[] = {
    {"N = 1", "01", 1},
    {"empty", "", 1},
    {"N = 17", "11", 1},
    {"too short", "0201", 2},
    {"N = 9 alone", "09", 2},
    {"N = 16 alone", "10", 2},
    {"too long", "0201 ffff 00000000 00000000 ffffffff 0000 00", 2},
    {"own stall 3", "0203 0000 00000000 00000000 00000000 0000", 3},
    {"own stall 3 alone", "0203 ffff 00000000 00000000 ffffffff 0000", 3},
    {"own stall 0", "0200 ffff 00000000 00000000 ffffffff 0000", 3},
    {"current yield 1000", "0201 03e8 00000000 00000000 00000000 0000", 4},
    {"current yield 1000 alone", "0201 03e8 00000000 00000000 ffffffff 0000", 4},
    {"current yield fe00", "0201 fe00 00000000 00000000 ffffffff 0000", 4},
    {"current yield fffe", "0201 fffe 00000000 00000000 ffffffff 0000", 4},
    {"current yield not milked", "0201 ffff 00000000 00000000 ffffffff 0000", 0},
    {"current yield 999", "0201 03e7 00000000 00000000 ffffffff 0000", 0},
    {"current yield 0", "0201 0000 00000000 00000000 ffffffff 0000", 0},
    {"stall yield 1000", "0201 0000 02000100 02000100 000003e8 0303", 4},
    {"stall yield fe00", "0201 0000 02000100 02000100 0000fe00 0303", 4},
    {"stall yield fffe", "0201 0000 02000100 02000100 0000fffe 0303", 4},
    {"stall yield not milked", "0201 0000 02000100 02000100 0000ffff 0303", 0},
    {"stall yield 999", "0201 0000 02000100 02000100 000003e7 0303", 0},
    {"own stall yield not milked", "0201 0000 02000100 02000100 ffff0000 0303", 0},
    {"never heard, yield 1000", "0201 0000 02000000 00000000 000003e8 0100", 4},
    {"never heard, yield fe00", "0201 0000 02000000 00000000 0000fe00 0100", 4},
    {"never heard, yield fffe", "0201 0000 02000000 00000000 0000fffe 0100", 4},
    {"never heard, not milked", "0201 0000 02000000 00000000 0000ffff 0100", 0},
    {"partner is the column", "0201 0000 01000000 00000000 00000000 0000", 5},
    {"partner is the column alone", "0201 ffff 01000000 00000000 ffffffff 0100", 5},
    {"label without partner", "0201 ffff 00010000 00000000 ffffffff 0000", 5},
    {"partner above N", "0201 0000 03000100 02000100 00000000 0303", 5},
    {"row 2, column 2 not the own", "0201 0000 02000100 02000101 00000000 0303", 5},
    {"name in a row never heard", "0201 0000 02000000 02000000 0000ffff 0100", 5},
    {"own row without own stall", "0201 0000 00000100 02000100 ffff0000 0003", 5},
    {"never heard, yield 999", "0201 0000 02000000 00000000 000003e7 0100", 5},
    {"never heard, yield 1", "0201 0000 02000000 00000000 00000001 0100", 5},
    {"never heard, yield 0", "0201 0000 02000000 00000000 00000000 0100", 5},
    {"fresh, but stall 2 has yield 0", "0201 ffff 00000000 00000000 ffff0000 0000", 5},
    {"fresh, but its stall has yield 0", "0201 ffff 00000000 00000000 0000ffff 0000", 5},
    {"mark never heard", "0201 ffff 00000000 00000000 ffffffff 0001", 6},
    {"mark above N", "0201 0000 02000100 02000100 00000000 0703", 6},
    {"heard without (r, r)", "0201 0000 02000100 02000100 00000000 0301", 6},
    {"heard without (r, own)", "0201 0000 02000100 02000100 00000000 0302", 6},
    {"heard with the least marks", "0201 0000 02000100 02000100 00000000 0103", 0},
    {"N = 3, label 10", "0301 0000 020a010a0000 020a010a0000 000000000000 00000000ffff 030300", 0},
    {"N = 3, label 11", "0301 0000 020b010b0000 020b010b0000 000000000000 00000000ffff 030300", 5},
    {NULL, NULL, 0},
};

static void write_no_names(uint8_t *names, uint8_t n) { memset(names, 0, 2u * n * n); }

/* In the listing document 01 shows the last; by its rules head 2 differs from that in the stall
   alone, and head 1 has what the first meeting left. */
const struct form form = {
    .says = "check.c: as document 01 says",
    .most = 16,
    .lengths = {[2] = 18, 31, 48, 69, 94, 123, 156, 202, 244, 290, 340, 394, 452, 514, 580},
    .write_no_names = write_no_names,
    .fresh = wilbryn_fresh,
    .check = wilbryn_check,
    .milking = wilbryn_milking,
    .heard = wilbryn_heard,
    .settled = wilbryn_settled,
    .meeting = wilbryn_meeting,
    .panel = wilbryn_panel,
    .examples = examples,
    .milked = "0201 0012 00000000 00000000 ffffffff 0000",
    .alone = "0302 ffff 000000000000 000001000000 000000000000 ffff0012ffff 000200",
    .listing = {"0301 0012 020001000000 020001000000 000000000000 0012ffffffff 030300",
                "0302 ffff 020001000000 020003000200 020003000200 0012ffffffff 070606",
                "0303 ffff 020001000000 020003000200 020003000200 0012ffffffff 070606"},
    .apart = {"0201 0000 02000100 02000100 00000000 0303",
              "0202 0000 02010101 02010101 00000000 0303"},
};

/* Heads 2 and 3 of the listing, but head 3 has 19 for stall 1, of which both have the same news. No
   list leaves such images. Either way round they meet with one label and with no news newer, but
   each time both get the yield that the first has. */
static void try_from_no_list(void) {
    doing = "images from no list, named either way";
    struct run two = from_hex(form.listing[1]), none_newer = from_hex("000000");
    struct run three =
        from_hex("0303 ffff 020001000000 020003000200 020003000200 0013ffffffff 070606");
    struct run turned[] = {copy(three), copy(two)};
    meeting(1, two, three, none_newer);
    expect_hex("head 2, named first",
               "0302 ffff 020001000000 020003010201 020003010201 0012ffffffff 070606", two);
    meeting(1, turned[0], turned[1], none_newer);
    expect_hex("head 2, named second",
               "0302 ffff 020001000000 020003010201 020003010201 0013ffffffff 070606", turned[1]);
    struct run all[] = {two, none_newer, three, turned[0], turned[1]};
    for (int i = 0; i < 5; i++) give_back(all[i]);
}

/* What heads 1 and 3 have after they met below, by the rules of document 01. */
static const char *const milked_late[] = {
    "0401 0000 0300030001000000 0200030002000000 0300030001000000 0000000000000000 "
    "00000007ffffffff 05070500",
    "0403 ffff 0300030001000000 0200030002000000 0300030001000000 0000000000000000 "
    "00000007ffffffff 05070500",
};

/* Head 1 meets before it is milked, and head 3 hears of it from head 2; then it is milked with 0.
   Head 3 is never milked, and head 4 hears of it from head 1. */
static void try_not_milked(void) {
    doing = "a head that meets before it is milked";
    struct parlour parlour = open_parlour(4);
    struct run *images = parlour.images;
    struct run verdicts[] = {from_hex("00000000"), from_hex("02020000"), from_hex("00020200"),
                             from_hex("01010100")};
    milking(0, images[2], 7);
    meeting(0, images[1], images[2], verdicts[0]);
    heard(2, images[2], 12, "020007 01ffff");
    meeting(0, images[3], images[2], verdicts[1]);
    heard(3, images[3], 12, "020007 01ffff 03ffff");
    milking(0, images[1], 0);
    heard(2, images[1], 12, "020007 01ffff");
    meeting(0, images[1], images[3], verdicts[2]);
    expect_hex("image 1", milked_late[0], images[1]);
    expect_hex("image 3", milked_late[1], images[3]);
    heard(3, images[3], 12, "020007 010000 03ffff");
    meeting(0, images[1], images[4], verdicts[3]);
    heard(4, images[4], 12, "020007 010000 03ffff 04ffff");
    for (int i = 0; i < 4; i++) give_back(verdicts[i]);
    shut_parlour(parlour);
}

/* No list leaves these images; not milked takes the place of a number all the same. */
static void try_not_milked_after(void) {
    doing = "heads that are not milked where their stalls were";
    struct run first = from_hex("0201 ffff 02000100 02000100 00050007 0303");
    struct run second = from_hex("0202 ffff 02000100 02000100 00050007 0303");
    struct run none_newer = from_hex("0000");
    meeting(1, first, second, none_newer);
    expect_hex("the first", "0201 ffff 02010101 02010101 ffffffff 0303", first);
    give_back(none_newer);
    give_back(second);
    give_back(first);
}

/* The number for an image with this yield for a stall heard, or for one never heard. The current
   yield is refused as that of a stall heard. */
static const struct {
    uint16_t yield;
    uint32_t heard, never_heard;
} yields[] = {
    {0, 0, 5},      {1, 0, 5},      {999, 0, 5},    {1000, 4, 4},
    {0x7fff, 4, 4}, {0xfe00, 4, 4}, {0xfffe, 4, 4}, {0xffff, 0, 0},
};

enum { YIELDS = sizeof yields / sizeof yields[0] };

static void try_yields_at(struct run image, size_t at, int is_heard) {
    struct run changed = copy(image);
    for (int i = 0; i < YIELDS; i++) {
        put_yield(changed, at, yields[i].yield);
        check(is_heard ? yields[i].heard : yields[i].never_heard, changed);
    }
    give_back(changed);
}

static void try_yields(struct run image, uint8_t n, uint8_t other) {
    doing = "a yield in each place";
    try_yields_at(image, 2, 1);
    for (uint8_t r = 1; r <= n; r++) {
        try_yields_at(image, 2 + 2 * n * n + 2 * r, r == 1 || r == other);
    }
}

/* The highest label, by N. */
static const uint8_t label_limits[] = {[2] = 6,  10, 14, 18, 22, 26, 30, 34,
                                       38, 42, 46, 50, 54, 58, 62};

_Static_assert(WILBRYN_LABEL_LIMIT(2) == 6 && WILBRYN_LABEL_LIMIT(8) == 30 &&
                   WILBRYN_LABEL_LIMIT(16) == 62,
               "the limit of labels");

static size_t name_at(uint8_t n, uint8_t row, uint8_t column) {
    return 4u + 2u * n * (row - 1u) + 2u * (column - 1u);
}

/* In two names that must agree, or in one given twice. */
static void try_labels_at(struct run image, uint8_t n, size_t at, size_t also) {
    struct run changed = copy(image);
    for (unsigned label = 0; label <= 255; label++) {
        changed.bytes[at + 1] = changed.bytes[also + 1] = (uint8_t)label;
        check(label <= label_limits[n] ? 0 : 5, changed);
    }
    give_back(changed);
}

/* Only rows 1 and other have names. In column other they must agree. */
static void try_labels(struct run image, uint8_t n, uint8_t other) {
    doing = "a label in each place";
    try_labels_at(image, n, name_at(n, 1, 1), name_at(n, 1, 1));
    try_labels_at(image, n, name_at(n, other, 1), name_at(n, other, 1));
    try_labels_at(image, n, name_at(n, 1, other), name_at(n, other, other));
}

/* In the image of head 1, which has met one other. */
static void try_places_after(uint8_t n, uint8_t other) {
    doing = "a first meeting";
    struct parlour parlour = open_parlour(n);
    struct run image = parlour.images[1], verdicts = lend(n);
    memset(verdicts.bytes, 0, n);
    meeting(0, image, parlour.images[other], verdicts);
    try_yields(image, n, other);
    try_labels(image, n, other);
    give_back(verdicts);
    shut_parlour(parlour);
}

/* From 9 heads up some of the others are enough. */
static void try_places(void) {
    for (uint8_t n = 2; n <= form.most; n++) {
        for (uint8_t other = 2; other <= n; other++) {
            if (n < 9 || other == 2 || other == 9 || other == n) try_places_after(n, other);
        }
    }
}

/* Request 2026-09: the length of each size with the other width of order entries; then the lengths
   that 17 heads would have. */
static void try_lengths(void) {
    doing = "order entries of the other width";
    for (uint8_t n = 2; n <= form.most; n++) {
        struct run image = fresh_of(n, 1), other = lend(n < 9 ? image.len + n : image.len - n);
        memset(other.bytes, 0, other.len);
        memcpy(other.bytes, image.bytes, n < 9 ? image.len : other.len);
        check(2, other);
        fresh(2, other, n, 1);
        give_back(other);
        give_back(image);
    }
    doing = "17 heads";
    static const size_t lengths[] = {2 * 17 * 17 + 3 * 17 + 4, 2 * 17 * 17 + 4 * 17 + 4, 580};
    for (int i = 0; i < 3; i++) {
        struct run image = lend(lengths[i]);
        fresh(1, image, 17, 1);
        image.bytes[0] = 17;
        check(1, image);
        give_back(image);
    }
}

/* The order entry of a stall, of one byte or of two with the high one first, as a number. */
static unsigned marks_of(struct run image, uint8_t r) {
    const uint8_t *at = image.bytes + order_at(image, r);
    return image.bytes[0] < 9 ? at[0] : at[0] * 256u + at[1];
}

static void put_marks(struct run image, uint8_t r, unsigned marks) {
    uint8_t *at = image.bytes + order_at(image, r);
    if (image.bytes[0] >= 9) *at++ = (uint8_t)(marks / 256);
    *at = (uint8_t)(marks % 256);
}

static void add_marks(struct run image, uint8_t r, unsigned marks) {
    put_marks(image, r, marks_of(image, r) | marks);
}

/* An entry of two bytes with the low one first has marks to stalls never heard or above N, unless
   both are the same. */
static void try_low_byte_first(struct run image, uint8_t n, uint8_t other) {
    uint8_t *at = image.bytes + order_at(image, n), high = at[0];
    at[0] = at[1];
    at[1] = high;
    check(n - 8 == other ? 0 : 6, image);
}

/* In the image of the last head, which has met one other: both have marks to both. Each bit of each
   entry is turned over. Of the marks that are set the last head's to the other alone is not asked
   for. */
static void try_marks_after(uint8_t n, uint8_t other) {
    doing = "each mark";
    struct parlour parlour = open_parlour(n);
    struct run image = parlour.images[n], verdicts = lend(n);
    memset(verdicts.bytes, 0, n);
    meeting(0, image, parlour.images[other], verdicts);
    unsigned both = 1u << (n - 1) | 1u << (other - 1);
    for (uint8_t r = 1; r <= n; r++) {
        struct run wanted = copy(image), changed = copy(image);
        put_marks(wanted, r, r == n || r == other ? both : 0);
        expect_bytes("the order entry", wanted, image);
        for (uint8_t s = 1; s <= (n < 9 ? 8 : 16); s++) {
            put_marks(changed, r, marks_of(image, r) ^ 1u << (s - 1));
            check(r == n && s == other ? 0 : 6, changed);
        }
        give_back(changed);
        give_back(wanted);
    }
    if (n >= 9) try_low_byte_first(image, n, other);
    give_back(verdicts);
    shut_parlour(parlour);
}

static void try_marks(void) {
    for (uint8_t n = 2; n <= form.most; n++) {
        for (uint8_t other = 1; other < n; other++) try_marks_after(n, other);
    }
}

static void put_name(struct run image, uint8_t row, uint8_t column, uint8_t partner,
                     uint8_t label) {
    uint8_t *name = image.bytes + name_at(image.bytes[0], row, column);
    name[0] = partner;
    name[1] = label;
}

/* The image of head 1 or 2 with the most names of this pair, their labels counting up from the one
   given: two new ones in each row, but in the partner's row the own row's name of the partner. In
   the other columns all rows agree; their names have the highest label, which is not used for the
   pair. The marks are those that check 6 demands. */
static struct run crowded(uint8_t n, uint8_t stall, uint8_t label) {
    uint8_t partner = 3 - stall;
    struct run image = fresh_of(n, stall);
    for (uint8_t row = 1; row <= n; row++) {
        put_name(image, row, stall, partner, label++);
        if (row != partner) put_name(image, row, partner, stall, label++);
        for (uint8_t r = 3; r <= n; r++) put_name(image, row, r, 1, label_limits[n]);
        add_marks(image, row, 1u << (row - 1) | 1u << (stall - 1));
    }
    memcpy(image.bytes + name_at(n, partner, partner), image.bytes + name_at(n, stall, partner), 2);
    check(0, image);
    return image;
}

/* Copies of the images of heads 1 and 2 meet, either first. On the other stalls all rows of the
   first must agree, and the verdict must be 0, which leaves its rows and marks. All yields must be
   not milked. */
static void meet_copies(uint8_t label, struct run one, struct run other, struct run verdicts) {
    struct run first = copy(one), second = copy(other), after = copy(one);
    uint8_t n = one.bytes[0];
    for (uint8_t r = 1; r <= n; r++) add_marks(after, r, 3);
    for (uint8_t row = 1; row <= 2; row++) {
        put_marks(after, row, 3);
        put_name(after, row, 1, 2, label);
        put_name(after, row, 2, 1, label);
    }
    meeting(label, first, second, verdicts);
    expect_bytes("the first", after, first);
    check(0, first);
    check(0, second);
    struct run all[] = {first, second, after};
    for (int i = 0; i < 3; i++) give_back(all[i]);
}

/* The pair 1, 2 has 4 * N - 2 different names, so the own rows have in common just the names from
   column 3 on. At first neither head has a mark from 1 to these: 9. Then head 1 gets the mark
   (r, N) for each r. With N = 2 there is still nothing in common: 9. With more, head 2 now knows
   all latests of head 1. Head 1 does not know those of head 2 for 1 and 2, which have marks to 1
   and 2 alone: there head 2 is newer. From 3 on both know the same name, by its own mark: 0. */
static void try_crowded(uint8_t n) {
    doing = "a pair with the most names";
    struct run one = crowded(n, 1, 0), two = crowded(n, 2, 2 * n - 1), verdicts = lend(n);
    meeting_refused(9, one, two, n);
    for (uint8_t r = 1; r <= n; r++) add_marks(one, r, 1u << (n - 1));
    if (n == 2) {
        meeting_refused(9, one, two, n);
        meeting_refused(9, two, one, n);
    } else {
        memset(verdicts.bytes, 0, n);
        memset(verdicts.bytes, 2, 2);
        meet_copies(label_limits[n], one, two, verdicts);
        memset(verdicts.bytes, 1, 2);
        meet_copies(label_limits[n], two, one, verdicts);
    }
    struct run all[] = {one, two, verdicts};
    for (int i = 0; i < 3; i++) give_back(all[i]);
}

/* With N = 2 and a name in common the pair has at most 5. Here that is column 1 of the own rows:
   both know it, 0. Head 1 has the mark (2, 1), which check 6 demands of it, so head 2 knows its
   latest of 2. Head 2 lacks that mark, so head 1 does not know its: there head 2 is newer. */
static void try_crowded_two(void) {
    doing = "2 heads with the most names";
    struct run one = from_hex("0201 ffff 02000101 02020101 ffffffff 0103");
    struct run two = from_hex("0202 ffff 02000104 02000103 ffffffff 0302");
    struct run verdicts = from_hex("0002"), turned = from_hex("0001");
    meet_copies(5, one, two, verdicts);
    meet_copies(5, two, one, turned);
    struct run all[] = {one, two, verdicts, turned};
    for (int i = 0; i < 4; i++) give_back(all[i]);
}

static void try_most_names(void) {
    for (uint8_t n = 2; n <= form.most; n++) try_crowded(n);
    try_crowded_two();
}

int main(void) {
    try_form();
    try_from_no_list();
    try_not_milked();
    try_not_milked_after();
    try_places();
    try_lengths();
    try_marks();
    try_most_names();
    print_counts();
    return 0;
}
