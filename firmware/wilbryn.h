/* Wilbryn: tables and meetings of milk meter heads.

   An image is the table of one head, as bytes: N (2 to 16), own stall (1 to N), current yield, N
   rows of N names (partner byte and label byte), N yields, N order entries. A yield is two bytes,
   high byte first: 0 to 999 decilitres, or WILBRYN_NOT_MILKED. An order entry is one byte up to 8
   heads and two bytes from 9 up, high byte first; its bit of value 2 to the power s - 1 is the mark
   for stall s. The image of N heads has WILBRYN_IMAGE_LENGTH(N) bytes.

   A packed image is the table of a head of 2 to 8 in fewer bytes, for storage. Each name is one
   byte: partner - 1 in the upper three bits, label in the lower five; in column c the partner c
   with label 0 means none. Header, yields and order bytes are as in the image. It has
   WILBRYN_PACKED_LENGTH(N) bytes. An image of 2 to 8 heads has one packed image and a packed image
   one image, so comparing the bytes of either form compares the tables. From 9 heads up there are
   no packed images.

   Runs of bytes are lent for the time of a call, as a pointer and a length. Those lent to one call
   must not overlap. No pointer may be null; a run of length 0 may have any other.

   A call that refuses changes no lent byte. The numbers of the refusals:

     1  image empty, or N not 2 to 16       6  bad order marks
        (packed, or to be packed: 2 to 8)   7  two images differ in N or have one stall
     2  length not the one for N; a         8  verdicts or counts not N bytes, records not
        packed image has its own               3 * N, text not WILBRYN_PANEL_LENGTH, or the
     3  stall not 1 to N                       output of pack or unpack not the length for N
     4  a yield over 999 and not 0xffff     9  the two images do not belong together
     5  a bad name

   The check of an image tries 1 to 6 in order and stops at the first that applies. A stall never
   heard has the yield WILBRYN_NOT_MILKED: with 0 to 999 the image is refused with 5. The check of a
   packed image tries 1, 2, then 3 to 6 of the unpacked form. There a label other than 0 with the
   column's own number is a bad name: 5. */
#ifndef WILBRYN_H
#define WILBRYN_H

#include <stddef.h>
#include <stdint.h>

#ifdef __cplusplus
extern "C" {
#endif

/* The most heads of a parlour, and of one whose tables can be packed. */
#define WILBRYN_MOST_HEADS 16
#define WILBRYN_MOST_PACKED_HEADS 8

/* The bytes of an order entry. */
#define WILBRYN_ORDER_WIDTH(n) ((n) > 8 ? 2u : 1u)

/* For 2 to 8 heads 18, 31, 48, 69, 94, 123, 156; for 9 to 16 heads 202, 244, 290, 340, 394, 452,
   514, 580. */
#define WILBRYN_IMAGE_LENGTH(n) (2u * (n) * (n) + (2u + WILBRYN_ORDER_WIDTH(n)) * (n) + 4u)

/* For 2 to 8 heads 14, 22, 32, 44, 58, 74, 92; no other N has packed images. */
#define WILBRYN_PACKED_LENGTH(n) ((n) * (n) + 3u * (n) + 4u)

/* Labels in images and answers run from 0 to this: 30 for 8 heads and 62 for 16, so a label fits
   five bits up to 8 heads and six bits up to 16. The check refuses a higher one with 5. No meeting
   of two accepted images needs a higher one, whatever made them, and some of 3 to 16 heads need
   this one. A meeting of 2 heads answers at most 5: two images that use the labels 0 to 5 have no
   meeting in common and are refused with 9. Heads that start fresh and are written by these calls
   alone never need more than N - 1. */
#define WILBRYN_LABEL_LIMIT(n) (4u * (n) - 2u)

/* The current yield of a head until its first milking, and the yield of a stall never heard. A cow
   that gave nothing has 0. */
#define WILBRYN_NOT_MILKED 0xffff

/* The bytes of the buffer that a wall panel is written into, for every N. Sixteen lines have at
   most 158, so a zero always follows the text. */
#define WILBRYN_PANEL_LENGTH 256

/* The heard lists, the meetings and the wall panels answer this plus the number of a refusal. */
#define WILBRYN_REFUSED 256

/* Writes the fresh image of a stall in a parlour of n: n, stall, the current yield and all n yields
   not milked, zeros elsewhere. Answers 0, or 1 for n, 2 for len, 3 for stall, tried in this
   order. */
uint32_t wilbryn_fresh(uint8_t *image, size_t len, uint8_t n, uint8_t stall);

/* Checks an image. Answers 0, or 1 to 6. In the proved library this and the check of a packed image,
   which a start-up runs on all that is stored, divide nowhere and multiply by written constants
   alone. */
uint32_t wilbryn_check(const uint8_t *image, size_t len);

/* Replaces the current yield. Answers 0, or 1 to 6 for the image, then 4 for a new yield over 999,
   WILBRYN_NOT_MILKED included. */
uint32_t wilbryn_milking(uint8_t *image, size_t len, uint16_t yield);

/* Writes a record for each stall that the head has heard of, itself included: the stall byte and
   its yield, WILBRYN_NOT_MILKED if its latest meeting came before its first milking; then zeros to
   the end. The records come in ranking order: the largest yield first, of equal yields that of the
   lower stall first, and those not milked last, again by rising stall. So the same stalls with the
   same yields give the same bytes. Answers how many there are, or 256 plus 1 to 6 for the image,
   then 256 + 8 if records_len is not 3 * N. */
uint32_t wilbryn_heard(const uint8_t *image, size_t len, uint8_t *records, size_t records_len);

/* Writes for each stall how many stalls this head knows to have heard its latest meeting of that
   stall, its own included: byte r - 1 is the number of stalls s with order mark (r, s), 0 for a
   stall never heard. Answers 0, or 1 to 6 for the image, then 8 if counts_len is not N.

   A parlour computer asks this before it drops old yields. If the heads of the parlour start fresh
   and are written by these calls alone, and the number for stall r is N, then every head has that
   meeting of r or a newer one, now and ever after: the yield told with it will never be news to any
   head again and can be dropped. Below N a head may still lack it. The number may fall again when
   this head hears of a newer meeting of r, since that one is not settled yet. */
uint32_t wilbryn_settled(const uint8_t *image, size_t len, uint8_t *counts, size_t counts_len);

/* Joins two heads of one parlour. Both images get the newest news of every stall; verdict byte
   r - 1 says who had it of stall r: 1 the first, 2 the second, 0 both the same. Answers the label
   of the meeting (at most WILBRYN_LABEL_LIMIT(N)), or 256 plus a refusal: 1 to 6 for the first
   image, 1 to 6 for the second, then 7, 8, 9.

   Either head may be lent first if those of the parlour start fresh and are written by these calls
   alone: the label and both images are the same, and verdicts 1 and 2 exchanged. Of other images
   this is not so: where the verdict is 0 but they differ, both get what the first has. */
uint32_t wilbryn_meeting(uint8_t *first, size_t first_len, uint8_t *second, size_t second_len,
                         uint8_t *verdicts, size_t verdicts_len);

/* Writes a head's wall panel in ASCII: a line for each stall that the head has heard of, itself
   included, in the order of wilbryn_heard; then zeros to the end. A line is the rank, the stall and
   the yield, with a blank between each two, and a newline. The rank counts the lines from 1, those
   of equal yields too. The yield is in litres with one decimal (18 decilitres are 1.8, 999 are 99.9
   and 0 are 0.0), or - for not milked. No number has leading zeros. This is what a head writes that
   has heard 21.7 litres of stall 2, 1.8 of stalls 1 and 4, and of stall 3 that it was not milked:

     1 2 21.7
     2 1 1.8
     3 4 1.8
     4 3 -

   Answers the length of the text, newlines counted, which is 0 where nobody was heard; or 256 plus
   1 to 6 for the image, then 256 + 8 if text_len is not WILBRYN_PANEL_LENGTH. */
uint32_t wilbryn_panel(const uint8_t *image, size_t len, uint8_t *text, size_t text_len);

/* Writes the packed image of an image. Answers 0, or 1 to 6 for the image, then 8 if packed_len is
   not WILBRYN_PACKED_LENGTH(N). Here an image of 9 to 16 heads has number 1, whatever else there is
   to say of it. */
uint32_t wilbryn_pack(const uint8_t *image, size_t len, uint8_t *packed, size_t packed_len);

/* Writes the image of a packed image. Answers 0, or 1 to 6 for the packed image, then 8 if len is
   not WILBRYN_IMAGE_LENGTH(N). Packing what it wrote gives the same packed image again, and
   unpacking what wilbryn_pack wrote gives the same image again. */
uint32_t wilbryn_unpack(const uint8_t *packed, size_t packed_len, uint8_t *image, size_t len);

/* The calls above on packed images. Each answers what the call above answers to the unpacked ones,
   and leaves the same verdicts, counts, records and text, and the packed form of the images that
   that call leaves. */

/* Writes the packed form of the fresh image. Answers 0, or 1 for n, 2 for packed_len, 3 for stall,
   tried in this order. */
uint32_t wilbryn_packed_fresh(uint8_t *packed, size_t packed_len, uint8_t n, uint8_t stall);

/* Checks a packed image. Answers 0, or 1 to 6. */
uint32_t wilbryn_packed_check(const uint8_t *packed, size_t packed_len);

/* As wilbryn_milking. Answers 0, or 1 to 6 for the packed image, then 4 for the new yield. */
uint32_t wilbryn_packed_milking(uint8_t *packed, size_t packed_len, uint16_t yield);

/* As wilbryn_heard. Answers how many records there are, or 256 plus 1 to 6 for the packed image, then
   256 + 8 if records_len is not 3 * N. */
uint32_t wilbryn_packed_heard(const uint8_t *packed, size_t packed_len, uint8_t *records,
                              size_t records_len);

/* As wilbryn_settled. Answers 0, or 1 to 6 for the packed image, then 8 if counts_len is not N. */
uint32_t wilbryn_packed_settled(const uint8_t *packed, size_t packed_len, uint8_t *counts,
                                size_t counts_len);

/* As wilbryn_meeting. Answers the label of the meeting, or 256 plus a refusal: 1 to 6 for the first
   packed image, 1 to 6 for the second, then 7, 8, 9. */
uint32_t wilbryn_packed_meeting(uint8_t *first, size_t first_len, uint8_t *second,
                                size_t second_len, uint8_t *verdicts, size_t verdicts_len);

/* As wilbryn_panel. Answers the length of the text, or 256 plus 1 to 6 for the packed image, then
   256 + 8 if text_len is not WILBRYN_PANEL_LENGTH. */
uint32_t wilbryn_packed_panel(const uint8_t *packed, size_t packed_len, uint8_t *text,
                              size_t text_len);

#ifdef __cplusplus
}
#endif

#endif
