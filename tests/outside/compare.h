/* What the parts of the comparison share: random numbers, room with an end that
 * cannot be passed, the case at hand, the comparison itself, and the ledger of the
 * library beside that of the independent implementation. compare.c has it all;
 * compare_sheet.c compares correction sheets, compare_table.c tables of ledgers. */
#ifndef COMPARE_H
#define COMPARE_H

#include "quieuvodan.h"
#include "ref.h"

#include <stdbool.h>
#include <stddef.h>
#include <stdint.h>

/* Random numbers; those of `between` include both ends. */
uint32_t any32(void);
unsigned below(unsigned n);
unsigned between(unsigned low, unsigned high);
bool chance(unsigned percent);
void any_bytes(uint8_t *bytes, size_t n);

#define PICK(list) list[below(sizeof list / sizeof list[0])]

/* The end of `size` bytes of room: what lies behind it cannot be touched. */
uint8_t *room_end(size_t size);

enum call {
    OPEN, TAKE, TAKE_DETAIL, REPLAY, REPLAY_DETAIL, READ, READ_FRAME, READ_FRAME_DETAIL, WRITE, ROWS, ROW, D1_READ,
    D1_WRITE, READ_CNAV1, JOIN_ISSUE, MAKE_FRAME, CHECK_FRAME, WRITE_SHEET, READ_SHEET, CHECK_SHEET, CALLS,
    NEXT_PIECE = CALLS, /* this one refuses nothing */
    TABLE_OPEN, TABLE_CLOSE, TABLE_TAKE, TABLE_TAKE_DETAIL, TABLE_ROWS, TABLE_ROW, TABLE_WRITE_SHEET, TABLE_CHECK_SHEET,
    ALL_CALLS /* those on tables are counted in compare_table.c */
};

enum { MARGIN = 32, MOST_LEDGER = QVD_LEDGER_BYTES + 64, MOST_VERDICT = 40, WANTED = 500 };

/* How often each call was answered what, by the independent implementation. */
extern unsigned long tally[CALLS][MOST_VERDICT];

/* The case at hand, for the report of a difference. */
struct now {
    const char *part;      /* of the run */
    unsigned long number;  /* of the log, message or contents in it */
    enum call call;
    const uint8_t *input;
    size_t input_bytes;
    const uint8_t *ledger; /* of a call on sheets, QVD_LEDGER_BYTES */
    const uint16_t *issues;
    size_t issue_count;
    unsigned slot;
    unsigned prn, flags, iodc;
    const uint8_t *message; /* that a frame is checked against */
    size_t message_bytes;
    const uint8_t *log;    /* frames handed in so far, each with its length before it in two bytes */
    size_t log_bytes;
    void (*more)(void);    /* prints what else there is to say, if it is not NULL */
};
extern struct now now;

/* Begins a part of the run, with random numbers of its own. */
void begin(const char *part);

extern unsigned long differences;
void same_number(const char *what, unsigned library, unsigned reference);
void same_bytes(const char *what, const uint8_t *library, const uint8_t *reference, size_t n);

/* A lent output of n bytes, filled at random, with a margin before it. What it
 * should be afterwards is prepared in `should`. */
struct lent {
    uint8_t should[MARGIN + QVD_ROWS_BYTES + 64];
    size_t n;
};
extern struct lent lent;
uint8_t *lend(size_t n);
void lent_is_right(const char *what);

/* The library's ledger, with a margin before it and up to 8 bytes after, and the
 * independent implementation's. */
extern uint8_t *ledger;
extern struct ledger reference_ledger;
void place_ledger(void);
void remember_ledger(void);
void ledger_is_unchanged(void);
size_t some_ledger_length(void);

extern uint8_t *issues_end;
extern const uint8_t ten[10];

/* Correction sheets: the run, the lines of the report, and whether something came
 * too seldom. */
void compare_sheets(unsigned long percent);
void print_sheets(void);
bool too_few_sheets(void);

/* And tables of ledgers, likewise. */
void compare_tables(unsigned long percent);
void print_tables(void);
bool too_few_tables(void);

/* What the messages of one PRN's frames are inclined to say, for so many PRNs at
 * once: anew, and with a mask that has come into force. A frame for such a PRN, of a
 * kind or, with 0, of any, a percentage of them faulty and damaged; its length is
 * answered. Issues that mostly meet its orbits, and how many there are; a slot to ask
 * for. */
enum { LEANINGS = 10, MOST_FRAME = 256, MOST_ISSUES = SLOTS + 8 };
void lean_anew(unsigned which);
void lean_on(unsigned which, const struct mask *mask);
size_t some_frame_for(unsigned which, unsigned prn, unsigned kind, unsigned faulty, unsigned damaged,
                      uint8_t bytes[MOST_FRAME]);
size_t some_issues_for(unsigned which, uint16_t issues[MOST_ISSUES]);
unsigned some_slot_for(unsigned which);

/* A sheet that a partner may send who has the list of a ledger and issues, changed
 * and damaged as it may be; any, where there is no list or the ledger is NULL. Its
 * length is answered. And room for the sheet of such a list, or near it. */
enum { MOST_PARTNERS_SHEET = QVD_SHEET_BYTES + 112 };
size_t some_partners_sheet(const struct ledger *of, const uint16_t *issues, size_t k, uint8_t bytes[MOST_PARTNERS_SHEET]);
size_t some_sheet_room(const struct ledger *of, const uint16_t *issues, size_t k);

#endif
