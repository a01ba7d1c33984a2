/* An independent implementation of PPP-B2b messages, frames and the ledger,
 * written from the rules and from the interface document alone. It shares no
 * table and no code with the library that it is compared with.
 *
 * Functions that can refuse return the refusal number, 0 for taken. What they
 * were lent stays as it was on a refusal; a detail alone is given always. */
#ifndef REF_H
#define REF_H

#include <stdbool.h>
#include <stddef.h>
#include <stdint.h>

enum {
    FRAME_BYTES = 125,
    MESSAGE_BYTES = 61,
    CHECKED_BITS = 462,   /* bits that the check is made over */
    SYMBOLS = 162,        /* symbols of the coded part */
    MESSAGE_SYMBOLS = 81, /* those of them that are the message */
    GROUPS = 81,          /* parity groups */
    SLOTS = 255,
    ASSIGNED_SLOTS = 174,
    ORBITS = 6,           /* most orbit records that a message holds */
    CLOCKS = 23,          /* most clock records that a message holds */
    BIAS_SATS = 31,       /* most satellites that a type 3 can name */
    BIASES = 25,          /* most biases that it has room for */
    CODES = 70,           /* URA codes of a type 5 */
    LAST_ISSUE = 1023,
    NO_ISSUE = 65535
};

enum { URA_UNKNOWN, URA_QUARTERS, URA_ABOVE };

struct ura {
    uint8_t kind;      /* one of the three above */
    uint32_t quarters; /* quarter millimetres; 0 for the other two kinds */
};

struct mask {
    uint32_t epoch;
    uint8_t iod_ssr;
    uint8_t iodp;
    bool set[SLOTS + 1]; /* by slot; entry 0 is not used */
    bool last;           /* the bit after that of slot 255 in 32 bytes: no slot's */
};

struct clock_record {
    uint16_t slot; /* in type 7 alone */
    uint8_t iod_corr;
    int16_t c0;
};

struct clock_part {
    uint32_t epoch;
    uint8_t iod_ssr;
    uint8_t iodp;   /* types 4 and 6 */
    uint16_t first; /* type 4: sub-type; type 6: Slot_S */
    uint8_t count;
    struct clock_record record[CLOCKS];
};

struct orbit_record {
    uint16_t slot;
    uint16_t iodn;
    uint8_t iod_corr;
    int16_t radial;
    int16_t along;
    int16_t cross;
    struct ura ura;
};

struct orbit_part {
    uint32_t epoch;
    uint8_t iod_ssr;
    uint8_t count;
    struct orbit_record record[ORBITS];
};

/* The biases of all satellites stand one behind the other, each satellite's own
 * number of them; a blank has none. */
struct bias_sat {
    uint16_t slot;
    uint8_t count; /* of its biases */
};

struct bias {
    uint8_t mode; /* signal and tracking mode */
    int16_t value;
};

struct bias_part {
    uint32_t epoch;
    uint8_t iod_ssr;
    uint8_t count; /* of the satellites */
    struct bias_sat sat[BIAS_SATS];
    struct bias bias[BIASES];
};

struct code_part {
    uint32_t epoch;
    uint8_t iod_ssr;
    uint8_t iodp;
    uint8_t sub;
    uint8_t code[CODES]; /* as ref_ura takes it */
};

/* What a message says. Values are raw; a part that the type does not have, or
 * that is absent, is all zero. */
struct contents {
    uint8_t kind; /* 1 to 7 or 63 */
    struct mask mask;
    struct clock_part clocks;
    struct orbit_part orbits;
    struct bias_part biases;
    struct code_part codes;
};

/* What is in force of a slot, with the epoch of the part that it came in; packed
 * so that a ledger fits the bytes that a caller of the library lends. */
struct held_orbit {
    uint32_t epoch : 17;
    bool held : 1;
    uint8_t iod_ssr;
    struct orbit_record record;
};

struct held_clock {
    uint32_t epoch : 17;
    bool held : 1;
    bool by_place : 1;
    uint8_t iod_ssr;
    uint8_t iod_corr;
    int16_t c0;
};

/* A URA code that a type 5 put in the place of the orbit's in force. */
struct held_code {
    bool held : 1;
    bool missed : 1; /* a code came while there was no orbit: for counting alone */
    uint8_t code;
};

struct ledger {
    uint8_t prn;
    bool has_mask;
    struct mask mask;
    uint16_t places;            /* number of set bits of the mask */
    uint8_t slot_at[SLOTS + 1]; /* slot_at[n] has place n, 1 to places */
    struct held_orbit orbit[SLOTS + 1];
    struct held_clock clock[SLOTS + 1];
    struct held_code code[SLOTS + 1];
};

/* What a refusal gives beside its number: of 6 the first two, of 19 the third.
 * All others, and a frame that is taken, give zeros. */
struct detail {
    uint8_t first;   /* failing parity group, 1 to 81 */
    uint8_t failing; /* how many of the 81 groups fail */
    uint16_t places; /* number of set bits of the mask in force */
};

/* Why a satellite of the mask in force has no row: the first that applies. */
enum {
    HAS_ROW,
    NO_ORBIT,    /* none in force */
    NO_CLOCK,    /* none in force */
    OTHER_SSR,   /* of the orbit or the clock, than the mask's */
    OTHER_CORR,  /* of the clock, than the orbit's */
    NO_URA,      /* it is unknown */
    UNUSABLE,    /* one of the four values */
    OTHER_ISSUE, /* broadcast, than IODN; or none */
    REASONS
};

struct row {
    uint8_t slot;
    uint8_t system; /* 1 BeiDou, 2 GPS, 3 Galileo, 4 GLONASS */
    uint8_t number; /* of the satellite in its system */
    uint16_t iodn;
    uint8_t iod_corr;
    int32_t radial, along, cross, clock; /* tenths of a millimetre */
    struct ura ura;
};

/* Field of 64: the product of two symbols. */
uint8_t ref_times(uint8_t a, uint8_t b);

/* How many of the 81 parity groups of the 162 symbols are not zero. The first
 * of them, from 1 in the print's order, goes to `first`; 0 if there is none. */
uint8_t ref_failing(const uint8_t symbol[SYMBOLS], uint8_t *first);

/* The symbols of a frame's coded part. */
void ref_symbols(const uint8_t frame[FRAME_BYTES], uint8_t symbol[SYMBOLS]);

/* The 24-bit check over the first 462 bits. */
uint32_t ref_check(const uint8_t message[MESSAGE_BYTES]);

/* The bit after the last of a type 6 or 7 with these counts, and of a type 3 as it
 * is written, where a blank has no biases. */
unsigned ref_end(unsigned kind, unsigned num_c, unsigned num_o);
unsigned ref_bias_end(const struct bias_part *part);

/* URA of a code 0 to 63, and the code of a URA or -1 if no code gives it. */
struct ura ref_ura(unsigned code);
int ref_ura_code(struct ura ura);

/* Fields: `width` bits (at most 32) from bit `at` on, high bit first. */
uint32_t ref_get_bits(const uint8_t *bytes, size_t at, unsigned width);
void ref_put_bits(uint8_t *bytes, size_t at, unsigned width, uint32_t value);

/* Messages: refusals 1, 2, 7 to 12 on reading; 1, 8 to 12, 16 on writing. */
unsigned ref_read(const uint8_t *message, size_t length, struct contents *out);
unsigned ref_write(const struct contents *in, uint8_t *room, size_t length);

/* A frame without a ledger: refusals 1, 3, 5 to 12. */
unsigned ref_read_frame(const uint8_t *frame, size_t length, struct contents *out);
unsigned ref_read_frame_detail(const uint8_t *frame, size_t length, struct contents *out, struct detail *detail);

/* How often a record met the one held for its slot, of the same kind, in these
 * ways, over all ledgers. */
enum {
    NONE_HELD,
    SSR_DIFFERS,
    SSR_DIFFERS_OLDER, /* and by its epoch it would not replace */
    CORR_DIFFERS,
    CORR_DIFFERS_OLDER,
    NEWER, /* the same issue, and replaces */
    OLDER, /* the same issue, and does not */
    EPOCHS_EQUAL,
    AHEAD_43199,
    AHEAD_43200,
    AHEAD_43201,
    OVER_MIDNIGHT,
    UNUSABLE_HOLDS_OFF, /* an unusable clock, and a usable older one */
    OLDER_THAN_DROPPED, /* none held: a mask dropped one of the same issue that is newer */
    MEETINGS
};
extern unsigned long ref_met[MEETINGS];

/* How often URA codes of a type 5, masks and orbits met in these ways, over all
 * ledgers. */
enum {
    CODE_KEPT,
    CODE_AGAIN,          /* one was held already */
    CODE_OLDER,          /* by its epoch, than the orbit that it changes; it counts */
    CODE_TO_UNKNOWN,     /* code 0 for an orbit whose URA is known */
    CODE_FROM_UNKNOWN,   /* another for an orbit whose URA is not */
    CODE_63,
    CODE_WITHOUT_ORBIT,  /* names a slot that has no orbit in force */
    CODE_FILLER,         /* behind the last set bit */
    CODE_LAST_PLACE,     /* at the last set bit */
    ORBIT_AFTER_MISSED,  /* an orbit for a slot that a code named when it had none */
    CODE_ENDED,          /* by another orbit that comes into force */
    CODE_OUTLIVES_ORBIT, /* an orbit that is held off does not end it */
    CODE_DROPPED,        /* by another mask */
    CODE_STAYS_BY_MASK,  /* the same mask does not drop it */
    CODE_EVENTS
};
extern unsigned long ref_codes[CODE_EVENTS];

/* The ledger: 4 on opening; 1, 3 to 15, 19 on taking a frame. A ledger whose PRN
 * is none of the ten takes no frame. */
unsigned ref_open(struct ledger *ledger, unsigned prn);
unsigned ref_take(struct ledger *ledger, const uint8_t *frame, size_t length);
unsigned ref_take_detail(struct ledger *ledger, const uint8_t *frame, size_t length, struct detail *detail);

/* A log whose bytes may be torn: how many of the `n` bytes that are left are the
 * next piece, to be handed in as a frame; 0 if none are left. A frame with the
 * right sync and all parity groups zero, whoever's it is and whatever it says, is
 * a piece; else what stands before the first such frame, if one begins within 125
 * bytes; else 125 bytes, or what is left. */
size_t ref_next_piece(const uint8_t *bytes, size_t n);

/* The epoch that a message carries, if it carries one; of two parts the clock
 * part's. */
bool ref_epoch(const struct contents *c, uint32_t *epoch);

/* How long after an epoch another one is, in seconds of the day. */
uint32_t ref_after(uint32_t later, uint32_t epoch);

/* Why a slot of the mask in force has no row, against 255 good issues. */
unsigned ref_reason(const struct ledger *ledger, const uint16_t *issues, unsigned slot);

/* The list, against `n` broadcast issues, issues[k - 1] for slot k. Count and
 * all rows, in rising slot order: refusals 1, 17. Row at a position (from 1):
 * 1, 17, 18. Row of a slot: 1, 11, 17, 18. A slot above 174 has no row. */
unsigned ref_count(const struct ledger *ledger, const uint16_t *issues, size_t n, size_t *count);
unsigned ref_rows(const struct ledger *ledger, const uint16_t *issues, size_t n,
                  struct row rows[ASSIGNED_SLOTS], size_t *count);
unsigned ref_row_at(const struct ledger *ledger, const uint16_t *issues, size_t n, size_t position,
                    struct row *row);
unsigned ref_row_of(const struct ledger *ledger, const uint16_t *issues, size_t n, unsigned slot,
                    struct row *row);

/* The frame of a message's 486 bits: its parity symbols solve the 81 groups.
 * PRN and flags are written as they are, 6 bits each. */
void ref_encode(const uint8_t message[MESSAGE_BYTES], unsigned prn, unsigned flags,
                uint8_t frame[FRAME_BYTES]);

/* Making a frame: refusals 1, 2, 4, 16; the message may be any 486 bits. Checking
 * one against its message: 1, 2, 3, 6, of which the detail gives the groups, and 38;
 * the frame's PRN and flags are not looked at. */
unsigned ref_make_frame(const uint8_t *message, size_t length, unsigned prn, unsigned flags, uint8_t *room,
                        size_t room_length);
unsigned ref_check_frame(const uint8_t *message, size_t length, const uint8_t *frame, size_t frame_length,
                         struct detail *detail);

/* Changes parity symbols of a frame so that the sum of one group (0 to 80)
 * changes by `value` and the sums of all others stay. */
void ref_spoil(uint8_t frame[FRAME_BYTES], unsigned group, uint8_t value);

/* The PRN of a frame, and the type of its message. */
unsigned ref_frame_prn(const uint8_t frame[FRAME_BYTES]);
unsigned ref_frame_type(const uint8_t frame[FRAME_BYTES]);

#endif
