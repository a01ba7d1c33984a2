/* The independent implementation of correction sheets (sheet.c): written from a
 * ledger's list, read, and checked against a ledger. Functions that can refuse
 * return the refusal number, 0 for taken, and then leave what they were lent as it
 * was, save what is given beside a number. */
#ifndef SHEET_H
#define SHEET_H

#include "ref.h"

enum {
    MOST_SHEET_ROWS = ASSIGNED_SLOTS, /* the limit; nothing else here says it */
    OLD_SHEET_ROWS = 64,              /* what it was before (CR 11) */
    SHEET_HEAD_BYTES = 8, /* the first field, tag and length included */
    SHEET_ROW_BYTES = 24,
    SHEET_END_BYTES = 3,
    SHEET_BYTES = SHEET_HEAD_BYTES + ASSIGNED_SLOTS * SHEET_ROW_BYTES + SHEET_END_BYTES /* under any limit */
};

struct sheet {
    uint8_t prn, iod_ssr, iodp;
    size_t count;
    struct row row[ASSIGNED_SLOTS];
};

/* A number of a field's content: its bytes, the least and the most that it may be,
 * and the step from one to the next. */
struct sheet_number {
    int bytes;
    int32_t least, most, step;
};
enum { HEAD_NUMBERS = 4, ROW_NUMBERS = 8 };
extern const struct sheet_number sheet_head[HEAD_NUMBERS]; /* PRN, IOD SSR, IODP, rows */
extern const struct sheet_number sheet_row[ROW_NUMBERS];   /* slot, IODN, IOD Corr, radial, along, cross, clock, URA code */

/* The offset of row k, from 0; of the end, where k is the number of rows. */
size_t ref_sheet_row_at(size_t k);

/* The bytes of a sheet, whatever it says; how many there are is answered. Quarters
 * that no code gives are put as 64. */
size_t ref_sheet_bytes(const struct sheet *sheet, uint8_t bytes[SHEET_BYTES]);

/* The sheet that a ledger's list is: refusals 1, 17, 20. */
unsigned ref_list_sheet(const struct ledger *ledger, const uint16_t *issues, size_t n, struct sheet *sheet);

/* Writing: refusals 1, 17, 20, 22. The length goes to `written`. */
unsigned ref_write_sheet(const struct ledger *ledger, const uint16_t *issues, size_t n, uint8_t *room, size_t length,
                         size_t *written);

/* Reading, with at most `most` rows, which rise or may stand in any order, also
 * repeated: refusal 23, and the offset that goes with it to `at`. */
unsigned ref_read_sheet(const uint8_t *bytes, size_t length, size_t most, bool rising, struct sheet *sheet, size_t *at);

/* Checking: refusals 1, 17, 20, 23 and its offset, 27, and 24, 25, 26 and their row,
 * from 1. Where it is accepted, how many of our rows it leaves out goes to `beside`. */
unsigned ref_check_sheet(const struct ledger *ledger, const uint16_t *issues, size_t n, const uint8_t *bytes,
                         size_t length, size_t *beside);

/* How often a field was found wrong, and in which way. A number that is wrong is
 * WRONG_NUMBER and its place in the field, from 0. */
enum { HEAD_FIELD, ROW_FIELD, END_FIELD, BEHIND_END, SHEET_FIELDS };
enum { MISSING, OTHER_TAG, OTHER_LENGTH, CUT_SHORT, NOT_RISING, WRONG_NUMBER, WRONGS = WRONG_NUMBER + ROW_NUMBERS };
extern unsigned long ref_sheet_wrong[SHEET_FIELDS][WRONGS];

#endif
