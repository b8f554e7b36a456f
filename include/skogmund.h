/* The proved core of Skogmund, for C and for what can call C. `tools/library` proves it, compiles it for x86-64 and the System V calling
   convention and prints the directory of its libskogmund.a, which is what `rt lib` writes in crates/skogmund_c. Of other libraries it calls
   memcpy, memmove and memset only.

   A refusal is one number, 0 for none; it is taken apart below. docs/RULES.md has when each is given, and their order. A slice is a pointer and,
   behind it, how many elements it has; a slice of none may come with a null pointer. What is lent as a pointer to const is only read. Nothing is
   kept between calls, and there is no heap. No entry asks for more than pointers that are valid for their lengths, and slices that do not
   overlap one that is written to. A refusal leaves everything lent as it was.

   Stack, in octets, by the frames of the compiled entries: list 52,000; file_queue 32,000; file 20,000; join 13,000; empty 10,000; message
   6,000; the others below 2,000. */
#ifndef SKOGMUND_H
#define SKOGMUND_H

#include <stddef.h>
#include <stdint.h>

#if SIZE_MAX < UINT64_MAX
#error "skogmund needs a size_t of 64 bits"
#endif

/* The version of what is declared here: the first number rises where an entry or a name that was there changes or goes, the second where one
   is new. */
#define SKOGMUND_VERSION_MAJOR 4
#define SKOGMUND_VERSION_MINOR 0
#define SKOGMUND_VERSION (SKOGMUND_VERSION_MAJOR * 1000 + SKOGMUND_VERSION_MINOR)

/* ---- refusals

   A refusal is number x 2^40 + section x 2^32 + place. The section is 0 where none is meant. The place is counted from 1 in the
   section: with 8 and 21 it is one of its octets, with 11 the one behind its last, at most 65,537, which is not lent; with all others it is 0.
   Number, section and place are each an `unsigned`. */
#define SKOGMUND_NUMBER(refusal) ((unsigned)((uint64_t)(refusal) >> 40))
#define SKOGMUND_SECTION(refusal) ((unsigned)((uint64_t)(refusal) >> 32 & 255))
#define SKOGMUND_PLACE(refusal) ((unsigned)((uint64_t)(refusal) & 0xffffffff))

/* The numbers. */
#define SKOGMUND_REFUSED_UNDER_5 1        /* under 5 octets */
#define SKOGMUND_REFUSED_TOO_LONG 2       /* a section, a queue or a message above 65,536 octets */
#define SKOGMUND_REFUSED_LENGTH 3         /* octets 1-4 are not the lent length */
#define SKOGMUND_REFUSED_SECTION 4        /* another section number */
#define SKOGMUND_REFUSED_UNDER_HEAD 5     /* too short for what stands before the template, and its number */
#define SKOGMUND_REFUSED_TEMPLATE 6       /* a template that is not read */
#define SKOGMUND_REFUSED_UNDER_TEMPLATE 7 /* under the template's smallest total */
#define SKOGMUND_REFUSED_FIELD 8          /* a field out of its range; the place is the first octet of the lowest */
#define SKOGMUND_REFUSED_NO_RANGE 9       /* no time range: n is 0 */
#define SKOGMUND_REFUSED_WIDTH 10         /* section 3's width, Ni, Nj, Di, Dj and octet 12 disagree */
#define SKOGMUND_REFUSED_UNDER_TOTAL 11   /* shorter than the total (section 3 or 4); the place is the first octet that is not there */
#define SKOGMUND_REFUSED_POINTS 13        /* the points are not the list's sum, or without a list not Ni x Nj, with bit 8 of the scanning mode clear */
#define SKOGMUND_REFUSED_VALUES 14        /* section 5's N is not section 3's number of points */
#define SKOGMUND_REFUSED_DATA 15          /* section 7's length is not the one that N and the bits give */
#define SKOGMUND_REFUSED_SLOT 16          /* a slot above 63 */
#define SKOGMUND_REFUSED_CALENDAR 17      /* a calendar that is not the Gregorian one */
#define SKOGMUND_REFUSED_ROOM 18          /* too few places are lent, or a row or a shelf of another length */
#define SKOGMUND_REFUSED_QUEUE 19         /* a number that no queue has, or a record past the queue's end */
#define SKOGMUND_REFUSED_BODY 20          /* a record's body is not five sections of 5 or more octets */
#define SKOGMUND_REFUSED_OVER_TOTAL 21    /* longer than the total; the place is the first octet beyond */
#define SKOGMUND_REFUSED_START 22         /* a message under 20 octets, or its start, edition or total length is wrong */
#define SKOGMUND_REFUSED_ORDER 23         /* a message's section is under 5 octets, runs into the last four, is missing or out of order */
#define SKOGMUND_REFUSED_BIT_MAP 24       /* a message's section 6 is not 6 octets with 255 */
#define SKOGMUND_REFUSED_END 25           /* a message's last four octets are not 7777, or a section follows the 16th field */

#ifdef __cplusplus
extern "C" {
#endif

/* ---- sections */

/* A value that is missing. */
#define SKOGMUND_MISSING INT64_MIN

/* Enough places for the values of every section, and of a slot. */
#define SKOGMUND_VALUES 64

/* Reads section 1, 3, 4, 5 or 7. values[0] is the count of the values that follow, and they follow in the order of their octets: the
   section's length and number first, fields that the template lacks left out, lists not among them; section 1 ends with the real year.
   docs/VALUES.md has the fields by their indices; a grid's number of points, values[4], need not be Ni x Nj. Another section number is 4 with
   that number as the section, whatever else is lent. Then the section's own refusals (section 7 alone knows 1 to 4), then 18 where there are
   fewer than SKOGMUND_VALUES places. The places past the last value stay as they were. */
uint64_t skogmund_read(uint8_t section, const uint8_t *s, size_t n, int64_t *values, size_t places);

/* Where a part of a section stands: part 1 the list of section 3, 2 the k-th time range of section 4 (from 0), 3 its members, 4 its
   coordinates. span[0] is the first octet (from 1), span[1] the length. 18 where there are fewer than two places; in every other case the
   answer is 0, and both are 0 where the section is refused, where there is no such part or none of its octets, and from k = n up. k is
   looked at for part 2 only. The places past the second stay as they were. */
uint64_t skogmund_part(uint8_t part, const uint8_t *s, size_t n, uint64_t k, uint64_t *span, size_t places);

/* Unpacks sections 5 and 7 into a row of exactly N places. Section 5's refusals, section 7's, then 18 where the row has another length. */
uint64_t skogmund_unpack(const uint8_t *section5, size_t n5, const uint8_t *section7, size_t n7, uint32_t *row, size_t places);

/* ---- messages */

/* Enough places for the spans of every message: 16 fields, 10 places each. */
#define SKOGMUND_SPANS 160

/* Cuts a message into its fields, 1 to 16 of them. Where the sections 1, 3, 4, 5 and 7 of the k-th field (from 0) stand is in spans[10 * k] to
   spans[10 * k + 9], of each its first octet in the message (from 1) and its length; one that the field doesn't repeat stands where it did
   for the field before. count[0] is how many fields there are. 2; 22; the lowest of 23 to 25 at the first place where one is met; the refusal
   of the first field that is refused, without 17, which is a matter of filing; then 18 where there are fewer than SKOGMUND_SPANS places or
   none for the count (`one` is 0). The refusal of a field has the place in its section, and does not tell which field it is. The places past
   the last span, and those of `count` behind the first, stay as they were. */
uint64_t skogmund_message(const uint8_t *message, size_t n, uint64_t *spans, size_t places, uint64_t *count, size_t one);

/* ---- queues */

/* What the program `listing` prints for this queue, at the start of the text buffer, and its length in length[0]. Of a queue that is refused
   that is the line `refused N`, and the answer is 0. 18 where the text doesn't fit or there is no place for the length (`one` is 0). What is
   behind the text and past the first place stays as it was. No listing has more than 16,384 octets. */
uint64_t skogmund_list(const uint8_t *queue, size_t n, uint8_t *text, size_t places, uint64_t *length, size_t one);

/* ---- shelves

   A shelf is SKOGMUND_SHELF octets that the caller keeps, may store and may send to another trailer. They are 64 slots of 41 octets: octet 1
   is 0 for an empty slot, all of which is 0 then, and otherwise 1; 2-5 the real year + 2^31; 6 to 10 month, day, hour, minute, second; 11-14
   the issue; 15-41 octets 8-34 of section 4. Numbers are big-endian.

   Any octets are a shelf: a slot holds a card where its octet 1 is 1 and is empty where it is anything else, nothing else is looked at in an
   empty slot, and no value is checked, so that a month of 200 is compared and shown as it is. Where an entry changes a shelf and answers 0 it
   writes all of it in the form above, also where no slot holds another card than before. A shelf of another length is 18, after all other
   refusals. */
#define SKOGMUND_SHELF 2624

/* The empty shelf, all zero. */
uint64_t skogmund_empty(uint8_t *shelf, size_t octets);

/* Files a field; kept[0] is 1 where the slot holds another card than before, and otherwise 0. issue_plus_1 is 0 where no issue is named. 19
   where it is above 4,294,967,296; 16; the refusals of sections 1, 3, 4, 5 (with 14) and 7; 17; then 18, also where there is no place for the
   answer (`one` is 0). */
uint64_t skogmund_file(uint8_t *shelf, size_t octets, uint64_t slot, uint64_t issue_plus_1, const uint8_t *section1, size_t n1,
                       const uint8_t *section3, size_t n3, const uint8_t *section4, size_t n4, const uint8_t *section5, size_t n5,
                       const uint8_t *section7, size_t n7, uint64_t *kept, size_t one);

/* Files a queue; counts[0], counts[1] and counts[2] are its records kept, passed and refused. 2 or 19, then 18, also where there are fewer
   than three places for the counts. */
uint64_t skogmund_file_queue(uint8_t *shelf, size_t octets, const uint8_t *queue, size_t n, uint64_t *counts, size_t three);

/* Joins another shelf in, slot by slot; 18 where one of the two has another length. The other must not be the shelf itself, which would
   change nothing. */
uint64_t skogmund_join(uint8_t *shelf, size_t octets, const uint8_t *other, size_t n);

/* What a slot holds: values[0] is the count of the values that follow, 0 where it is empty, and otherwise 34: real year, month, day, hour,
   minute, second, issue, and octets 8-34 of section 4 one by one. 16 above slot 63, then 18, also where there are fewer than
   SKOGMUND_VALUES places. The places past the last value stay as they were. */
uint64_t skogmund_slot(const uint8_t *shelf, size_t octets, uint64_t slot, int64_t *values, size_t places);

#ifdef __cplusplus
}
#endif

#endif
