/* What the C checks share: runs lent in heap blocks of exactly their length; the calls of wilbryn.h
   on images of one form, plain or packed, each with the answer that it must give and what it must
   leave; the examples of document 01 that every form has. The first difference ends the run. */
#ifndef CHECK_CALLS_H
#define CHECK_CALLS_H

#include "wilbryn.h"

struct run {
    uint8_t *bytes;
    size_t len;
};

/* A call that reads an image and writes into a buffer. */
typedef __typeof__(wilbryn_settled) reading;

/* An image, and the number of its refusal or 0. */
struct example {
    const char *what, *image;
    uint32_t number;
};

/* The form that is checked: each check defines its own. */
extern const struct form {
    const char *says;                       /* what it says when all is well */
    uint8_t most;                           /* the most heads that it has images of */
    size_t lengths[WILBRYN_MOST_HEADS + 1]; /* by N */
    void (*write_no_names)(uint8_t *names, uint8_t n);
    __typeof__(wilbryn_fresh) *fresh;
    __typeof__(wilbryn_check) *check;
    __typeof__(wilbryn_milking) *milking;
    reading *heard, *settled;
    __typeof__(wilbryn_meeting) *meeting;
    reading *panel;
    const struct example *examples; /* the last has no image */
    const char *milked;             /* stall 1 of 2, fresh but for the yield 18 */
    const char *alone;              /* stall 2 of 3, which has heard of itself alone, with 18 */
    const char *listing[3];         /* what the listing leaves, by stall */
    const char *apart[2];           /* two that do not belong together: the example of 9 */
} form;

enum call { FRESH, CHECK, MILKING, HEARD, SETTLED, MEETING, PANEL, PACK, UNPACK, CALLS };

/* What is being tried, for the report of a difference. */
extern const char *doing;

struct run lend(size_t len);
struct run copy(struct run from);
struct run from_hex(const char *hex);
struct run from_lines(const char *lines);
struct run part(struct run run, size_t from, size_t to);
void give_back(struct run run);

void expect(enum call call, uint32_t wanted, uint32_t got, const struct run *before, int runs);
void expect_bytes(const char *what, struct run wanted, struct run got);
void expect_hex(const char *what, const char *wanted, struct run got);

void check(uint32_t wanted, struct run image);
void fresh(uint32_t wanted, struct run image, uint8_t n, uint8_t stall);
void milking(uint32_t wanted, struct run image, uint16_t yield);
void heard(uint32_t wanted, struct run image, size_t buffer, const char *list);
void read_into_all(enum call call, reading *reading, struct run image, struct run wanted_output);
void reading_refused(enum call call, reading *reading, uint32_t number, struct run image,
                     size_t buffer);
void meeting(uint32_t wanted, struct run first, struct run second, struct run wanted_verdicts);
void meeting_refused(uint32_t number, struct run first, struct run second, size_t buffer);

struct run fresh_of(uint8_t n, uint8_t stall);
size_t yield_at(struct run image, uint8_t stall);
size_t order_at(struct run image, uint8_t stall);
void put_yield(struct run image, size_t at, uint16_t yield);

struct parlour {
    uint8_t n;
    struct run images[WILBRYN_MOST_HEADS + 1]; /* from 1 */
};

struct parlour open_parlour(uint8_t n);
void shut_parlour(struct parlour parlour);

/* Everything that the form's examples and document 01's lists say, with requests 2026-05 and
   2026-07 to 2026-09. */
void try_form(void);

void print_counts(void);

#endif
