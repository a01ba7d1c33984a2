/* The independent implementation of a table of four ledgers and of the tally of
 * refusals (table.c), written from CR 14 and docs/FORM.md. A table here is kept by
 * PRN, not by room: for each of the ten the room that it has, and its ledger.
 *
 * Functions that can refuse return the refusal number, 0 for taken, and then leave
 * what they were lent as it was, save what is given beside a number. They make no
 * check 39: that is one of bytes. */
#ifndef TABLE_H
#define TABLE_H

#include "forms.h"
#include "ref.h"

enum { TEN = 10, ROOMS = 4, NO_ROOM = ROOMS, LAST_REFUSAL = 39 };
enum { TABLE_FORM_BYTES = ROOMS * LEDGER_FORM_BYTES, TALLY_FORM_BYTES = 4 * (LAST_REFUSAL + 1) };

/* The ten PRNs in rising order, and the place of a PRN among them, from 0; TEN if it
 * is none of them. */
extern const uint8_t the_ten[TEN];
unsigned ref_place_among_ten(unsigned prn);

struct table {
    struct {
        bool open;
        unsigned room; /* from 0, if it is open */
        struct ledger ledger;
    } of[TEN];
};

/* The room that is open for a PRN, NO_ROOM if none is; and its ledger, or NULL. */
unsigned ref_table_room(const struct table *table, unsigned prn);
const struct ledger *ref_table_ledger(const struct table *table, unsigned prn);

/* Opening takes the first free room: refusals 4, 28, 29. Closing: 30. */
unsigned ref_table_open(struct table *table, unsigned prn);
unsigned ref_table_close(struct table *table, unsigned prn);

/* A frame for the ledger of its PRN: refusals 1, 3, 4, and those of that ledger. */
unsigned ref_table_take(struct table *table, const uint8_t *frame, size_t length, struct detail *detail);

/* The list of a PRN: refusals 1, 17, 30. Row of a slot: 1, 11, 17, 30, 18. */
unsigned ref_table_rows(const struct table *table, unsigned prn, const uint16_t *issues, size_t n,
                        struct row rows[ASSIGNED_SLOTS], size_t *count);
unsigned ref_table_row(const struct table *table, unsigned prn, const uint16_t *issues, size_t n, unsigned slot,
                       struct row *row);

/* Its sheet, written: refusals 1, 17, 30, 20, 22. Checked: 1, 17, 30, 20, 23, 27, 24
 * to 26. What goes with the answer as in sheet.h. */
unsigned ref_table_write_sheet(const struct table *table, unsigned prn, const uint16_t *issues, size_t n, uint8_t *room,
                               size_t length, size_t *written);
unsigned ref_table_check_sheet(const struct table *table, unsigned prn, const uint16_t *issues, size_t n,
                               const uint8_t *bytes, size_t length, size_t *beside);

/* How often each refusal was given; entry 0 counts nothing. */
struct tally {
    uint32_t given[LAST_REFUSAL + 1];
};

/* Counts a refusal, and no higher than 4,294,967,295; 0 is none. */
void ref_tally(struct tally *tally, unsigned refusal);

/* Bytes. What a table's hold; false if they are no table. One room of a table,
 * written: the ledger that is open in it, or zeros. And a tally. */
bool table_from_bytes(struct table *table, const uint8_t *bytes, size_t n);
void room_to_bytes(const struct table *table, unsigned room, uint8_t bytes[LEDGER_FORM_BYTES]);
void ledger_to_bytes(const struct ledger *ledger, uint8_t bytes[LEDGER_FORM_BYTES]);
void tally_from_bytes(struct tally *tally, const uint8_t bytes[TALLY_FORM_BYTES]);
void tally_to_bytes(const struct tally *tally, uint8_t bytes[TALLY_FORM_BYTES]);

#endif
