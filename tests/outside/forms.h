/* Rows, contents, ledgers and refusals of the independent implementation in the
 * forms of the C boundary. All numbers in bytes are high byte first. */
#ifndef FORMS_H
#define FORMS_H

#include "ref.h"
#include "sheet.h"

enum { ROW_FORM_BYTES = 27, CONTENTS_FORM_BYTES = 516, LEDGER_FORM_BYTES = 9726, SHEET_HEADER_FORM_BYTES = 5 };

/* Where a ledger's bytes are what (docs/FORM.md): its PRN, its mask, a clock, an
 * orbit and a URA code for each slot; offsets in a clock, in an orbit and in a code. */
enum {
    L_PRN = 0,
    L_HAS_MASK = 1,
    L_SSR = 2,
    L_IODP = 3,
    L_MASK = 4,
    L_CLOCKS = 36,
    L_CLOCK_BYTES = 12,
    L_ORBITS = 3096,
    L_ORBIT_BYTES = 24,
    L_CODES = 9216,
    L_CODE_BYTES = 2,
    C_HELD = 0,
    C_BY_PLACE = 1,
    C_EPOCH = 2,
    C_SSR = 6,
    C_CORR = 7,
    C_C0 = 8,
    O_HELD = 0,
    O_EPOCH = 1,
    O_SSR = 5,
    O_IODN = 6,
    O_CORR = 8,
    O_RADIAL = 9,
    O_ALONG = 11,
    O_CROSS = 13,
    O_URA = 15,
    O_QUARTERS = 16,
    K_HELD = 0,
    K_CODE = 1
};

void row_to_bytes(const struct row *row, uint8_t bytes[ROW_FORM_BYTES]);
void contents_to_bytes(const struct contents *c, uint8_t bytes[CONTENTS_FORM_BYTES]);
void sheet_header_to_bytes(const struct sheet *sheet, uint8_t bytes[SHEET_HEADER_FORM_BYTES]);
void contents_from_bytes(const uint8_t bytes[CONTENTS_FORM_BYTES], struct contents *c);
uint32_t detail_to_number(unsigned refusal, const struct detail *detail);

/* What a ledger's bytes hold. Any bytes are a ledger. */
void ledger_from_bytes(const uint8_t bytes[LEDGER_FORM_BYTES], struct ledger *ledger);

/* A refusal, or 0, and the number that is given beside it. */
uint32_t beside_to_number(unsigned refusal, size_t beside);

#endif
