/* Times the fresh table, the check, the heard list, what is settled, the meeting and the wall panel
   of wilbryn.h against the plain and the expert version on the same images, then those on packed
   images against the plain version and against wilbryn.h's own on the unpacked ones; and measures
   the stack that they touch. What writes is timed on copies, the check on images where they lie, as
   at a start-up. Then it times a start-up: the check of 10,000 stored images of 8 heads, plain and
   packed. Where the calls of the landing before are linked in as before_check and so on, all are
   timed against these too, in the same rounds, and with them milkings, packing and unpacking. */
#define _XOPEN_SOURCE 700
#include "wilbryn.h"

#include <stdio.h>
#include <stdlib.h>
#include <string.h>
#include <time.h>
#include <ucontext.h>

extern __typeof__(wilbryn_fresh) plain_fresh, expert_fresh, plain_packed_fresh;
extern __typeof__(wilbryn_milking) plain_milking;
extern __typeof__(wilbryn_pack) plain_pack;
extern __typeof__(wilbryn_unpack) plain_unpack;
extern __typeof__(wilbryn_check) plain_check, expert_check, plain_packed_check;
extern __typeof__(wilbryn_heard) plain_heard, expert_heard, plain_packed_heard;
extern __typeof__(wilbryn_settled) plain_settled, expert_settled, plain_packed_settled;
extern __typeof__(wilbryn_meeting) plain_meeting, expert_meeting, plain_packed_meeting;
extern __typeof__(wilbryn_panel) plain_panel, expert_panel, plain_packed_panel;

/* Null where no landing before is linked in. */
#define WEAK __attribute__((weak))
extern WEAK __typeof__(wilbryn_fresh) before_fresh, before_packed_fresh;
extern WEAK __typeof__(wilbryn_milking) before_milking, before_packed_milking;
extern WEAK __typeof__(wilbryn_pack) before_pack;
extern WEAK __typeof__(wilbryn_unpack) before_unpack;
extern WEAK __typeof__(wilbryn_check) before_check, before_packed_check;
extern WEAK __typeof__(wilbryn_heard) before_heard, before_packed_heard;
extern WEAK __typeof__(wilbryn_settled) before_settled, before_packed_settled;
extern WEAK __typeof__(wilbryn_meeting) before_meeting, before_packed_meeting;
extern WEAK __typeof__(wilbryn_panel) before_panel, before_packed_panel;

enum { MOST = WILBRYN_MOST_HEADS, MOST_PACKED = WILBRYN_MOST_PACKED_HEADS };

/* Of the landing before: its most heads, and the buffer that its panel wants. */
enum { MOST_BEFORE = 16, PANEL_BEFORE = 256 };

enum form { UNPACKED, PACKED, FORMS };

struct version {
    const char *name;
    enum form form;
    size_t most, panel_length;
    __typeof__(wilbryn_fresh) *fresh;
    __typeof__(wilbryn_check) *check;
    __typeof__(wilbryn_heard) *heard;
    __typeof__(wilbryn_settled) *settled;
    __typeof__(wilbryn_meeting) *meeting;
    __typeof__(wilbryn_panel) *panel;
    /* Timed against the landing before alone: null where a version is not compared with it. */
    __typeof__(wilbryn_milking) *milking;
    __typeof__(wilbryn_pack) *pack;
    __typeof__(wilbryn_unpack) *unpack;
};

/* The functions whose names start with these words. */
#define CALLS(words)                                                                               \
    words##_fresh, words##_check, words##_heard, words##_settled, words##_meeting, words##_panel

static const struct version
    plain = {"plain", UNPACKED, MOST, WILBRYN_PANEL_LENGTH, CALLS(plain),
             NULL, NULL, NULL},
    expert = {"expert", UNPACKED, MOST, WILBRYN_PANEL_LENGTH, CALLS(expert),
              NULL, NULL, NULL},
    before = {"before", UNPACKED, MOST_BEFORE, PANEL_BEFORE, CALLS(before), before_milking,
              before_pack, before_unpack},
    wilbryn = {"wilbryn", UNPACKED, MOST, WILBRYN_PANEL_LENGTH, CALLS(wilbryn), wilbryn_milking,
               wilbryn_pack, wilbryn_unpack},
    plain_packed = {"plain", PACKED, MOST_PACKED, WILBRYN_PANEL_LENGTH, CALLS(plain_packed),
                    NULL, NULL, NULL},
    before_packed = {"before", PACKED, MOST_PACKED, PANEL_BEFORE, CALLS(before_packed),
                     before_packed_milking, before_pack, before_unpack},
    wilbryn_packed = {"packed", PACKED, MOST_PACKED, WILBRYN_PANEL_LENGTH, CALLS(wilbryn_packed),
                      wilbryn_packed_milking, wilbryn_pack, wilbryn_unpack};

/* Of the versions that are compared, the last is measured against the others. */
enum { VERSIONS = 4 };

typedef const struct version *const compared[VERSIONS + 1];

static compared on_images = {&plain, &expert, &wilbryn};
static compared on_packed = {&plain_packed, &wilbryn, &wilbryn_packed};
static compared since_before = {&before, &wilbryn};
static compared since_before_packed = {&before_packed, &wilbryn_packed};
static compared at_start = {&before, &plain, &expert, &wilbryn};
static compared at_start_packed = {&before_packed, &plain_packed, &wilbryn_packed};

enum { PAIRS = 256, REPEATS = 8, WARM_UP = 4, ROUNDS = 61, STACK = 1 << 17 };
enum { LONGEST = WILBRYN_IMAGE_LENGTH(MOST) };

/* At a start-up: so many images of so many heads. */
enum { STORED = 10000, STORED_HEADS = 8, STORED_LENGTH = WILBRYN_IMAGE_LENGTH(STORED_HEADS) };

static uint64_t seed = 0x5eed0008;

static unsigned below(unsigned limit) {
    seed ^= seed << 13;
    seed ^= seed >> 7;
    seed ^= seed << 17;
    return (unsigned)(seed % limit);
}

_Static_assert(3 * MOST <= WILBRYN_PANEL_LENGTH, "the longest output is a panel");

/* What the calls are lent, for each form and N: two heads of one parlour just before a meeting, and
   a buffer for verdicts, counts, records or a text, in which none stands. */
static struct lent {
    uint8_t first[LONGEST], second[LONGEST], output[WILBRYN_PANEL_LENGTH];
} pairs_of[FORMS][MOST + 1][PAIRS], work;

/* One behind the other. */
static uint8_t stored[FORMS][STORED * STORED_LENGTH];

/* The N at work and its lengths; the versions compared and the number of the last, the most heads
   and the longest output that all of them have, and the one at work with its length and its pairs;
   and the image that is checked. */
static size_t n, lens[FORMS], len, most, output_length;
static const struct version *const *versions, *version;
static int last;
static const struct lent *pairs;
static const uint8_t *image;

static void work_on(size_t size) {
    n = size;
    lens[UNPACKED] = WILBRYN_IMAGE_LENGTH(n);
    lens[PACKED] = WILBRYN_PACKED_LENGTH(n);
}

/* All of these; without the first, where that is of the landing before and none is there. */
static void compare_these(compared these) {
    versions = these[0]->check == NULL ? these + 1 : these;
    most = MOST;
    output_length = WILBRYN_PANEL_LENGTH;
    for (int v = 0; versions[v] != NULL; v++) {
        last = v;
        if (versions[v]->most < most) most = versions[v]->most;
        if (versions[v]->panel_length < output_length) output_length = versions[v]->panel_length;
    }
}

static void work_with(int v) {
    version = versions[v];
    len = lens[version->form];
    pairs = pairs_of[version->form][n];
}

static void make_fresh(uint8_t images[MOST][LONGEST]) {
    for (uint8_t r = 0; r < n; r++) plain_fresh(images[r], lens[UNPACKED], (uint8_t)n, r + 1);
}

/* A milking, then a meeting of two heads, which are kept as they are before it. */
static void milk_and_meet(uint8_t images[MOST][LONGEST], struct lent *pair) {
    size_t len = lens[UNPACKED];
    unsigned a = below((unsigned)n), b = (a + 1 + below((unsigned)n - 1)) % (unsigned)n;
    plain_milking(images[below((unsigned)n)], len, (uint16_t)below(1000));
    memcpy(pair->first, images[a], len);
    memcpy(pair->second, images[b], len);
    plain_meeting(images[a], len, images[b], len, pair->output, n);
}

/* How many stalls the head of an image has heard of. */
static uint32_t count_heard(const uint8_t *image) {
    uint8_t records[3 * MOST];
    return plain_heard(image, lens[UNPACKED], records, 3 * n);
}

/* Each pair comes from a list of its own, of 20 to 200 meetings with milkings between, or of more
   until the first has heard of all stalls. Those of large parlours have no packed form. */
static void make_pair(struct lent *pair, struct lent *packed) {
    uint8_t images[MOST][LONGEST];
    make_fresh(images);
    for (unsigned left = 20 + below(181); left > 0; left--) milk_and_meet(images, pair);
    while (count_heard(pair->first) < n) milk_and_meet(images, pair);
    memset(pair->output, 0xee, sizeof pair->output);
    *packed = *pair;
    if (n > MOST_PACKED) return;
    plain_pack(pair->first, lens[UNPACKED], packed->first, lens[PACKED]);
    plain_pack(pair->second, lens[UNPACKED], packed->second, lens[PACKED]);
}

static uint8_t *place(enum form form, int i) { return stored[form] + (size_t)i * lens[form]; }

/* The image becomes number i of those that are stored, unless it is one of them. */
static int store(const uint8_t *image, int i) {
    for (int j = 0; j < i; j++) {
        if (memcmp(place(UNPACKED, j), image, lens[UNPACKED]) == 0) return i;
    }
    memcpy(place(UNPACKED, i), image, lens[UNPACKED]);
    plain_pack(image, lens[UNPACKED], place(PACKED, i), lens[PACKED]);
    return i + 1;
}

/* All heads of parlours after lists of 0 to 199 meetings, as far as they differ. */
static void make_stored(void) {
    uint8_t images[MOST][LONGEST];
    struct lent pair;
    work_on(STORED_HEADS);
    for (int count = 0, meetings = 0; count < STORED; meetings = (meetings + 1) % 200) {
        make_fresh(images);
        for (int left = meetings; left > 0; left--) milk_and_meet(images, &pair);
        for (size_t r = 0; r < n && count < STORED; r++) count = store(images[r], count);
    }
}

/* A call on what lies in work, or nothing (what is done between the calls). The check writes
   nothing, so it is one of an image wherever that lies. */
typedef uint32_t call(void);

static uint32_t nothing(void) { return 0; }
static uint32_t fresh(void) { return version->fresh(work.first, len, (uint8_t)n, image[1]); }
static uint32_t check(void) { return version->check(image, len); }
static uint32_t heard(void) { return version->heard(work.first, len, work.output, 3 * n); }
static uint32_t settled(void) { return version->settled(work.first, len, work.output, n); }
static uint32_t meeting(void) {
    return version->meeting(work.first, len, work.second, len, work.output, n);
}

static uint32_t milking(void) { return version->milking(work.first, len, 999); }
static uint32_t pack(void) { return version->pack(work.first, len, work.output, lens[PACKED]); }

static uint32_t unpack(void) {
    return version->unpack(work.first, len, work.second, lens[UNPACKED]);
}

static uint32_t panel(void) {
    return version->panel(work.first, len, work.output, version->panel_length);
}

static void lay_out(const struct lent *pair) {
    memcpy(work.first, pair->first, len);
    memcpy(work.second, pair->second, len);
    memcpy(work.output, pair->output, sizeof work.output);
    image = work.first;
}

/* What is timed: calls, and the sum of their answers. */
typedef uint32_t run(call *volatile call);

static uint32_t run_pairs(call *volatile call) {
    uint32_t sum = 0;
    for (int repeat = 0; repeat < REPEATS; repeat++) {
        for (int i = 0; i < PAIRS; i++) {
            lay_out(&pairs[i]);
            sum += call();
        }
    }
    return sum;
}

/* The first of each pair, where it lies. */
static uint32_t run_in_place(call *volatile call) {
    uint32_t sum = 0;
    for (int repeat = 0; repeat < REPEATS; repeat++) {
        for (int i = 0; i < PAIRS; i++) {
            image = pairs[i].first;
            sum += call();
        }
    }
    return sum;
}

/* Each stored image once, where it lies. */
static uint32_t run_stored(call *volatile call) {
    uint32_t sum = 0;
    for (int i = 0; i < STORED; i++) {
        image = place(version->form, i);
        sum += call();
    }
    return sum;
}

/* In nanoseconds. */
static double time_of(run *run, call *call) {
    static volatile uint32_t sink;
    struct timespec start, stop;
    clock_gettime(CLOCK_MONOTONIC, &start);
    sink = run(call);
    clock_gettime(CLOCK_MONOTONIC, &stop);
    (void)sink;
    return (double)(stop.tv_sec - start.tv_sec) * 1e9 + (double)(stop.tv_nsec - start.tv_nsec);
}

static int by_size(const void *a, const void *b) {
    double x = *(const double *)a, y = *(const double *)b;
    return (x > y) - (x < y);
}

/* The value below which this part of the values lies. */
static double quantile(const double *values, double part) {
    double sorted[ROUNDS];
    memcpy(sorted, values, sizeof sorted);
    qsort(sorted, ROUNDS, sizeof *sorted, by_size);
    return sorted[(int)(part * (ROUNDS - 1))];
}

/* The stack of a call: it runs on a painted stack of its own, and the lowest byte that lost its
   paint tells how far down it went, from its caller's last byte. */
static uint8_t stack[STACK];
static ucontext_t home;
static call *volatile on_stack;
static uint8_t *volatile callers_end;

static void enter(void) { on_stack(); }

static __attribute__((noinline)) uint32_t probe(void) {
    callers_end = (uint8_t *)__builtin_frame_address(0) + 2 * sizeof(void *);
    return 0;
}

static const uint8_t *lowest_touched(call *call) {
    ucontext_t context;
    memset(stack, 0xa5, sizeof stack);
    getcontext(&context);
    context.uc_stack.ss_sp = stack;
    context.uc_stack.ss_size = sizeof stack;
    context.uc_link = &home;
    makecontext(&context, enter, 0);
    on_stack = call;
    swapcontext(&home, &context);
    const uint8_t *at = stack;
    while (*at == 0xa5) at++;
    return at;
}

/* The most over some pairs. */
static size_t stack_of(call *call) {
    size_t most = 0;
    for (int i = 0; i < PAIRS; i += 8) {
        lowest_touched(probe);
        lay_out(&pairs[i]);
        size_t depth = (size_t)(callers_end - lowest_touched(call));
        if (depth > most) most = depth;
    }
    return most;
}

/* What lies in work, unpacked, and of the output what all versions have. */
static struct lent unpacked(void) {
    struct lent lent = work;
    memset(lent.output + output_length, 0, sizeof lent.output - output_length);
    if (version->form == PACKED) {
        plain_unpack(work.first, len, lent.first, lens[UNPACKED]);
        plain_unpack(work.second, len, lent.second, lens[UNPACKED]);
    }
    return lent;
}

/* All must do the same, or the times mean nothing. */
static void expect_same(call *call) {
    for (int i = 0; i < PAIRS; i++) {
        uint32_t answers[VERSIONS];
        struct lent after[VERSIONS];
        for (int v = 0; v <= last; v++) {
            work_with(v);
            memset(&work, 0, sizeof work);
            lay_out(&pairs[i]);
            answers[v] = call();
            after[v] = unpacked();
            if (answers[v] != answers[0] || memcmp(&after[v], &after[0], sizeof work) != 0) {
                printf("N = %zu: %s and %s differ\n", n, versions[0]->name, version->name);
                exit(1);
            }
        }
    }
}

/* The times of one N, round by round. */
static struct times {
    double between[VERSIONS][ROUNDS], of[VERSIONS][ROUNDS];
} times_of[MOST + 1];

/* The versions take turns at coming first. */
static void time_round(struct times *times, int round, run *run, call *call) {
    for (int turn = 0; turn <= last; turn++) {
        int v = (round + turn) % (last + 1);
        work_with(v);
        times->between[v][round] = time_of(run, nothing);
        times->of[v][round] = time_of(run, call);
    }
}

/* Rounds go through all these N, so that a slow spell of the machine meets all alike. */
static void time_all(size_t from, size_t to, run *run, call *call) {
    for (int round = -WARM_UP; round < ROUNDS; round++) {
        for (size_t size = from; size <= to; size++) {
            work_on(size);
            time_round(&times_of[size], round < 0 ? 0 : round, run, call);
        }
    }
}

/* The time below which this part of the rounds lies. */
static double time_at(size_t size, int v, double part) {
    return quantile(times_of[size].of[v], part) - quantile(times_of[size].between[v], 0.5);
}

/* A call's. */
static double median(size_t size, int v) { return time_at(size, v, 0.5) / (REPEATS * PAIRS); }

/* Of the last version to another, round by round. */
static void print_ratio(const struct times *times, int other) {
    double between = quantile(times->between[last], 0.5), ratios[ROUNDS];
    double others_between = quantile(times->between[other], 0.5);
    for (int i = 0; i < ROUNDS; i++) {
        ratios[i] = (times->of[last][i] - between) / (times->of[other][i] - others_between);
    }
    printf("%8.2f %6.2f to %5.2f", quantile(ratios, 0.5), quantile(ratios, 0.25),
           quantile(ratios, 0.75));
}

static void print_row(call *call) {
    printf("%3zu", n);
    for (int v = 0; v <= last; v++) printf("%8.1f", median(n, v));
    for (int v = 0; v < last; v++) print_ratio(&times_of[n], v);
    for (int v = 0; v <= last; v++) printf("%8.2f", median(n, v) / median(2, v));
    for (int v = 0; v <= last; v++) {
        work_with(v);
        printf("%8zu", stack_of(call));
    }
    printf("\n");
}

/* A head above a column for each version. */
static void print_above(const char *what) {
    int width = 8 * (last + 1), end = (width + (int)strlen(what)) / 2 + 2;
    printf("%*s%*s", end, what, width - end, "");
}

/* The names of the versions as heads of columns. */
static void print_names(void) {
    for (int v = 0; v <= last; v++) printf("%8s", versions[v]->name);
}

static void print_heads(const char *form, const char *what, const char *against, run *run) {
    printf("%s%s%s: medians of %d interleaved rounds, %s taken off\n   ", form, what, against,
           ROUNDS, run == run_pairs ? "the copying of the images" : "the loop");
    print_above("ns a call");
    for (int v = 0; v < last; v++) printf("%12s / %-9s", versions[last]->name, versions[v]->name);
    print_above("times N = 2");
    print_above("bytes of stack");
    printf("\n  N");
    print_names();
    for (int v = 0; v < last; v++) printf("   ratio    quartiles   ");
    print_names();
    print_names();
    printf("\n");
}

/* What is timed of each version, and how. */
static const struct timed {
    const char *what;
    run *run;
    call *call;
} timed[] = {{"fresh", run_in_place, fresh},  {"check", run_in_place, check},
             {"heard", run_pairs, heard},     {"settled", run_pairs, settled},
             {"meeting", run_pairs, meeting}, {"panel", run_pairs, panel}};

enum { TIMED = sizeof timed / sizeof timed[0] };

static void compare_call(const char *form, const char *against, const struct timed *timed) {
    print_heads(form, timed->what, against, timed->run);
    for (size_t size = 2; size <= most; size++) {
        work_on(size);
        expect_same(timed->call);
    }
    time_all(2, most, timed->run, timed->call);
    for (size_t size = 2; size <= most; size++) {
        work_on(size);
        print_row(timed->call);
    }
}

static void compare(const char *form, const char *against, compared these) {
    compare_these(these);
    for (int i = 0; i < TIMED; i++) compare_call(form, against, &timed[i]);
}

/* What is timed against the landing before alone. Large parlours have no packed form. */
static const struct timed
    milk = {"milking", run_pairs, milking},
    turn_packed = {"packing", run_pairs, pack},
    turn_plain = {"unpacking", run_pairs, unpack};

static void compare_since_before(void) {
    const char *against = ", since before";
    if (before.check != NULL) {
        compare("", against, since_before);
        compare_call("", against, &milk);
        most = MOST_PACKED;
        compare_call("", against, &turn_packed);
    }
    if (before_packed.check != NULL) {
        compare("packed ", against, since_before_packed);
        compare_call("packed ", against, &milk);
        compare_call("", against, &turn_plain);
    }
}

/* How many stored images have heard of this many stalls. */
static int count_stored(uint32_t heard) {
    int count = 0;
    for (int i = 0; i < STORED; i++) count += count_heard(place(UNPACKED, i)) == heard;
    return count;
}

/* A version that refuses an image does less than the others. */
static void expect_accepted(void) {
    for (int v = 0; v <= last; v++) {
        work_with(v);
        if (run_stored(check) != 0) {
            printf("%s refuses a stored image\n", version->name);
            exit(1);
        }
    }
}

static void start_up(const char *what, compared these) {
    compare_these(these);
    work_on(STORED_HEADS);
    expect_accepted();
    time_all(STORED_HEADS, STORED_HEADS, run_stored, check);
    printf("%s of %d accepted images of %d heads: %d interleaved rounds, the loop taken off\n",
           what, STORED, STORED_HEADS, ROUNDS);
    printf("%22s%17s%15s / it  quartiles\n", "microseconds", "quartiles", versions[last]->name);
    for (int v = 0; v <= last; v++) {
        printf("%8s%14.1f%10.1f to %8.1f", versions[v]->name, time_at(n, v, 0.5) / 1e3,
               time_at(n, v, 0.25) / 1e3, time_at(n, v, 0.75) / 1e3);
        if (v < last) print_ratio(&times_of[n], v);
        printf("\n");
    }
}

int main(void) {
    for (size_t size = 2; size <= MOST; size++) {
        work_on(size);
        for (int i = 0; i < PAIRS; i++) {
            make_pair(&pairs_of[UNPACKED][n][i], &pairs_of[PACKED][n][i]);
        }
    }
    make_stored();
    compare("", "", on_images);
    compare("packed ", "; wilbryn: that of the unpacked images", on_packed);
    compare_since_before();
    work_on(STORED_HEADS);
    printf("start-up: of %d stored images, %d of heads that met none, %d of heads that heard all\n",
           STORED, count_stored(0), count_stored(STORED_HEADS));
    start_up("check", at_start);
    start_up("packed check", at_start_packed);
    return 0;
}
