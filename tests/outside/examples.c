/* The worked examples of the rules, the code word of the interface document's
 * appendix, and the table of correction masks of the D1 and D2 messages, held
 * against the independent implementation; the whole list and its correction sheet,
 * what refusals give beside their number, the frame of the appendix's word, and two
 * subframes worked by hand also against the library, through its C boundary. */
#include "quieuvodan.h"
#include "ref.h"
#include "sheet.h"
#include "words.h"

#include <stdio.h>
#include <string.h>

static int checked, failed;

#define CHECK(condition)                                                     \
    do {                                                                     \
        checked++;                                                           \
        if (!(condition)) {                                                  \
            failed++;                                                        \
            printf("examples: line %d: not so: %s\n", __LINE__, #condition); \
        }                                                                    \
    } while (0)

/* The appendix's code word: 81 message symbols and 81 parity symbols. */
static const uint8_t code_word[SYMBOLS] = {
    10, 50, 19, 33, 10, 38, 16, 41, 44, 47, 28, 5,  14, 58, 9,  52, 34, 63, 5,  28, 6,  61, 0,  49, 52, 55, 5,
    25, 16, 51, 27, 58, 11, 16, 9,  8,  55, 37, 35, 9,  54, 39, 22, 32, 25, 4,  15, 7,  11, 15, 26, 3,  57, 60,
    31, 31, 21, 57, 23, 7,  49, 24, 15, 25, 6,  8,  60, 61, 36, 3,  15, 22, 52, 0,  2,  10, 41, 46, 41, 28, 35,
    36, 46, 57, 0,  55, 1,  22, 45, 50, 9,  27, 9,  26, 3,  11, 41, 21, 31, 13, 43, 30, 13, 61, 31, 20, 8,  6,
    36, 3,  45, 12, 57, 59, 23, 10, 43, 45, 63, 1,  60, 15, 47, 10, 6,  40, 56, 24, 2,  19, 19, 46, 43, 19, 61,
    26, 1,  7,  61, 11, 55, 48, 43, 49, 44, 50, 27, 31, 27, 12, 60, 51, 58, 15, 6,  29, 61, 39, 38, 5,  53, 34
};

/* The appendix's table from powers of x to symbols. */
static const uint8_t power[63] = {
    1,  2,  4,  8,  16, 32, 3,  6,  12, 24, 48, 35, 5,  10, 20, 40, 19, 38, 15, 30, 60,
    59, 53, 41, 17, 34, 7,  14, 28, 56, 51, 37, 9,  18, 36, 11, 22, 44, 27, 54, 47, 29,
    58, 55, 45, 25, 50, 39, 13, 26, 52, 43, 21, 42, 23, 46, 31, 62, 63, 61, 57, 49, 33
};

static void field(void)
{
    CHECK(ref_times(2, 32) == 3);
    CHECK(ref_times(2, 63) == 61);
    CHECK(ref_times(32, 32) == 48);
    for (unsigned i = 0; i < 63; i++)
        for (unsigned j = 0; j < 63; j++)
            CHECK(ref_times(power[i], power[j]) == power[(i + j) % 63]);
    for (unsigned a = 0; a < 64; a++)
        CHECK(ref_times((uint8_t)a, 0) == 0 && ref_times(0, (uint8_t)a) == 0);
}

/* The failing groups where one symbol of the code word is damaged. */
static uint8_t damaged(int which, uint8_t *first)
{
    uint8_t symbol[SYMBOLS];
    memcpy(symbol, code_word, sizeof symbol);
    symbol[which] ^= 1;
    return ref_failing(symbol, first);
}

static void parity(void)
{
    uint8_t message[MESSAGE_BYTES] = { 0 }, frame[FRAME_BYTES], symbol[SYMBOLS], first;
    struct contents c;
    struct detail d;

    CHECK(ref_failing(code_word, &first) == 0 && first == 0);
    for (int i = 0; i < SYMBOLS; i++)
        for (unsigned v = 1; v < 64; v++) {
            memcpy(symbol, code_word, sizeof symbol);
            symbol[i] ^= (uint8_t)v;
            CHECK(ref_failing(symbol, &first) > 0 && first > 0);
        }
    /* The print has columns of 21, 21, 21 and 18 groups. Symbol 0 stands in lines
     * 8 of the first and 5 of the second, symbol 42 in lines 3 and 8 of the first,
     * symbol 161 in line 16 of the first and 1 of the second, symbol 14 in lines
     * 10 and 12 of the fourth. */
    CHECK(damaged(0, &first) == 2 && first == 8);
    CHECK(damaged(42, &first) == 2 && first == 3);
    CHECK(damaged(161, &first) == 2 && first == 16);
    CHECK(damaged(14, &first) == 2 && first == 63 + 10);
    /* The encoder makes the same parity from the message symbols. */
    for (size_t i = 0; i < MESSAGE_SYMBOLS; i++)
        ref_put_bits(message, 6 * i, 6, code_word[i]);
    ref_encode(message, 60, 0, frame);
    ref_symbols(frame, symbol);
    CHECK(memcmp(symbol, code_word, SYMBOLS) == 0);
    /* It is no message: its parity is right and its check bits are not. */
    CHECK(ref_read_frame(frame, FRAME_BYTES, &c) == 7);
    for (unsigned g = 0; g < GROUPS; g++) {
        ref_encode(message, 60, 0, frame);
        ref_spoil(frame, g, (uint8_t)(1 + g % 63));
        CHECK(ref_read_frame_detail(frame, FRAME_BYTES, &c, &d) == 6);
        CHECK(d.first == g + 1 && d.failing == 1 && d.places == 0);
        ref_spoil(frame, GROUPS - 1, 1);
        CHECK(ref_read_frame_detail(frame, FRAME_BYTES, &c, &d) == 6);
        CHECK(d.first == g + 1 && d.failing == (g < GROUPS - 1 ? 2 : 1));
        ref_spoil(frame, GROUPS - 1, 1);
        ref_spoil(frame, g, (uint8_t)(1 + g % 63));
        CHECK(ref_read_frame_detail(frame, FRAME_BYTES, &c, &d) == 7);
        CHECK(d.first == 0 && d.failing == 0);
    }
}

static void check_bits(void)
{
    uint8_t message[MESSAGE_BYTES] = { 0 };
    struct contents c;

    CHECK(ref_check(message) == 0);
    CHECK(ref_read(message, MESSAGE_BYTES, &c) == 8);
    ref_put_bits(message, CHECKED_BITS - 1, 1, 1);
    CHECK(ref_check(message) == 0x864CFB);
    CHECK(ref_read(message, MESSAGE_BYTES, &c) == 7);
}

static void ends(void)
{
    CHECK(ref_end(6, 22, 0) == 446);
    CHECK(ref_end(6, 2, 5) == 454);
    CHECK(ref_end(6, 3, 5) == 472);
    CHECK(ref_end(7, 15, 0) == 442);
    CHECK(ref_end(7, 2, 5) == 459);
    CHECK(ref_end(7, 3, 5) == 486);
    for (unsigned kind = 6; kind <= 7; kind++) {
        struct contents c = { .kind = (uint8_t)kind };
        uint8_t message[MESSAGE_BYTES];
        c.clocks.first = 1;
        c.clocks.count = 2;
        c.orbits.count = 5;
        CHECK(ref_write(&c, message, MESSAGE_BYTES) == 0);
        c.clocks.count = 3;
        CHECK(ref_write(&c, message, MESSAGE_BYTES) == 9);
    }
}

/* Type 3: 34 bits, 13 for a satellite, 16 for a bias. A blank's biases are stepped
 * over where they stand, and are not written. Millimetres of a bias. */
static void biases(void)
{
    static uint8_t form[QVD_CONTENTS_BYTES];
    struct contents c = { .kind = 3 }, again;
    uint8_t message[MESSAGE_BYTES];

    c.biases.count = 12;
    for (unsigned i = 0; i < 12; i++)
        c.biases.sat[i] = (struct bias_sat){ (uint16_t)(i + 1), (uint8_t)(1 + (i < 5)) };
    c.biases.bias[16] = (struct bias){ 12, -2048 };
    CHECK(ref_bias_end(&c.biases) == 462);
    CHECK(ref_write(&c, message, MESSAGE_BYTES) == 0);
    CHECK(ref_read(message, MESSAGE_BYTES, &again) == 0 && again.biases.sat[11].slot == 12);
    CHECK(again.biases.bias[16].mode == 12 && again.biases.bias[16].value * QVD_BIAS_MM == -34816);
    CHECK(qvd_read(message, MESSAGE_BYTES, form, sizeof form) == 0 && form[0] == 3 && form[270] == 12);
    CHECK(form[271 + 3 * 11 + 1] == 12 && form[364 + 3 * 16] == 12 && form[365 + 3 * 16] == 0xF8);
    CHECK(qvd_write(form, sizeof form, message, MESSAGE_BYTES) == 0);
    c.biases.sat[11].count = 2;
    CHECK(ref_bias_end(&c.biases) == 478 && ref_write(&c, message, MESSAGE_BYTES) == 9);
    c.biases.sat[11].slot = 0;
    CHECK(ref_bias_end(&c.biases) == 446 && ref_write(&c, message, MESSAGE_BYTES) == 0);
    CHECK(ref_read(message, MESSAGE_BYTES, &again) == 0 && again.biases.sat[11].count == 0);
    ref_put_bits(message, 446 - 4, 4, 1); /* the blank, which stands last, has a bias: it ends at 462 */
    ref_put_bits(message, CHECKED_BITS, 24, ref_check(message));
    CHECK(ref_read(message, MESSAGE_BYTES, &again) == 0 && again.biases.sat[11].count == 0);
    CHECK(qvd_read(message, MESSAGE_BYTES, form, sizeof form) == 0 && form[271 + 3 * 11 + 2] == 0);
    ref_put_bits(message, 446 - 4, 4, 2);
    ref_put_bits(message, CHECKED_BITS, 24, ref_check(message));
    CHECK(ref_read(message, MESSAGE_BYTES, &again) == 9);
    CHECK(qvd_read(message, MESSAGE_BYTES, form, sizeof form) == 9);
}

static void uras(void)
{
    CHECK(ref_ura(0).kind == URA_UNKNOWN);
    CHECK(ref_ura(1).kind == URA_QUARTERS && ref_ura(1).quarters == 1);
    CHECK(ref_ura(19).kind == URA_QUARTERS && ref_ura(19).quarters == 59);
    CHECK(ref_ura(62).kind == URA_QUARTERS && ref_ura(62).quarters == 21866);
    CHECK(ref_ura(63).kind == URA_ABOVE);
    for (unsigned code = 0; code < 64; code++)
        CHECK(ref_ura_code(ref_ura(code)) == (int)code);
    CHECK(ref_ura_code((struct ura){ URA_QUARTERS, 0 }) == -1);
    CHECK(ref_ura_code((struct ura){ URA_QUARTERS, 58 }) == -1);
    CHECK(ref_ura_code((struct ura){ URA_QUARTERS, 24053 }) == -1);
}

/* The frame of some contents, for PRN 60. */
static void frame_of(const struct contents *c, uint8_t frame[FRAME_BYTES])
{
    uint8_t message[MESSAGE_BYTES];
    CHECK(ref_write(c, message, MESSAGE_BYTES) == 0);
    ref_encode(message, 60, 0, frame);
}

static unsigned take(struct ledger *ledger, const struct contents *c)
{
    uint8_t frame[FRAME_BYTES];
    frame_of(c, frame);
    return ref_take(ledger, frame, FRAME_BYTES);
}

/* Whether the contents are refused 19, with so many places. */
static bool refused_19(struct ledger *ledger, const struct contents *c, unsigned places)
{
    uint8_t frame[FRAME_BYTES];
    struct detail d;
    frame_of(c, frame);
    return ref_take_detail(ledger, frame, FRAME_BYTES, &d) == 19 && d.places == places && d.first == 0 &&
           d.failing == 0;
}

static void epochs(void)
{
    struct contents c = { .kind = 1 }, back;
    uint8_t message[MESSAGE_BYTES];

    c.mask.epoch = 86399;
    CHECK(ref_write(&c, message, MESSAGE_BYTES) == 0);
    CHECK(ref_read(message, MESSAGE_BYTES, &back) == 0 && back.mask.epoch == 86399);
    ref_put_bits(message, 6, 17, 86400);
    ref_put_bits(message, CHECKED_BITS, 24, ref_check(message));
    CHECK(ref_read(message, MESSAGE_BYTES, &back) == 10);
    c.mask.epoch = 86400;
    CHECK(ref_write(&c, message, MESSAGE_BYTES) == 10);
}

static void first_slots(struct ledger *ledger, int count)
{
    struct contents c = { .kind = 1 };
    for (int slot = 1; slot <= count; slot++)
        c.mask.set[slot] = true;
    CHECK(take(ledger, &c) == 0);
}

static void places(void)
{
    struct ledger ledger;
    struct contents four = { .kind = 4 }, six = { .kind = 6 };

    CHECK(ref_open(&ledger, 60) == 0);
    CHECK(take(&ledger, &four) == 14);
    first_slots(&ledger, 46);
    four.clocks.first = 1;
    CHECK(take(&ledger, &four) == 0);
    four.clocks.first = 2;
    CHECK(take(&ledger, &four) == 15);
    first_slots(&ledger, 48);
    six.clocks.first = 47;
    six.clocks.count = 2;
    CHECK(take(&ledger, &six) == 0);
    six.clocks.count = 3;
    CHECK(refused_19(&ledger, &six, 48));
    first_slots(&ledger, 0);
    CHECK(refused_19(&ledger, &six, 0));
    for (uint16_t sub = 0; sub < 32; sub++) {
        four.clocks.first = sub;
        CHECK(take(&ledger, &four) == 15);
    }
    for (unsigned prn = 0; prn < 256; prn++) {
        bool among_ten = (prn >= 1 && prn <= 5) || (prn >= 59 && prn <= 63);
        CHECK(ref_open(&ledger, prn) == (among_ten ? 0 : 4));
    }
}

/* The five frames of the whole list, and the issues it is asked with. */
static void whole_list_frames(uint8_t frame[5][FRAME_BYTES], uint16_t issues[SLOTS])
{
    struct contents one = { .kind = 1 }, two = { .kind = 2 }, four = { .kind = 4 };

    one.mask.epoch = 3600;
    one.mask.iod_ssr = 1;
    one.mask.iodp = 5;
    one.mask.set[3] = one.mask.set[19] = one.mask.set[64] = one.mask.set[101] = true;
    two.orbits.epoch = 3606;
    two.orbits.iod_ssr = 1;
    two.orbits.record[0] = (struct orbit_record){ 19, 37, 2, 100, -50, 20, ref_ura(19) };
    two.orbits.record[1] = (struct orbit_record){ 64, 88, 4, -1, 0, 4095, ref_ura(63) };
    four.clocks.epoch = 3612;
    four.clocks.iod_ssr = 1;
    four.clocks.iodp = 5;
    four.clocks.record[0] = (struct clock_record){ 0, 1, 7 };
    four.clocks.record[1] = (struct clock_record){ 0, 2, -150 };
    four.clocks.record[2] = (struct clock_record){ 0, 4, -16384 };
    frame_of(&one, frame[0]);
    frame_of(&two, frame[1]);
    frame_of(&four, frame[2]);
    one.mask.iodp = 6;
    one.mask.set[5] = true;
    frame_of(&one, frame[3]);
    memcpy(frame[4], frame[2], FRAME_BYTES);
    for (int i = 0; i < SLOTS; i++)
        issues[i] = NO_ISSUE;
    issues[19 - 1] = 37;
    issues[64 - 1] = 88;
}

static void whole_list(void)
{
    uint8_t frame[5][FRAME_BYTES];
    uint16_t issues[SLOTS + 1];
    struct ledger ledger;
    struct row row, rows[ASSIGNED_SLOTS];
    size_t count;

    whole_list_frames(frame, issues);
    CHECK(ref_open(&ledger, 60) == 0);
    for (int i = 0; i < 3; i++)
        CHECK(ref_take(&ledger, frame[i], FRAME_BYTES) == 0);
    CHECK(ref_count(&ledger, issues, SLOTS, &count) == 0 && count == 1);
    CHECK(ref_rows(&ledger, issues, SLOTS, rows, &count) == 0 && count == 1);
    CHECK(rows[0].slot == 19);
    for (int way = 0; way < 2; way++) {
        memset(&row, 0, sizeof row);
        if (way == 0)
            CHECK(ref_row_at(&ledger, issues, SLOTS, 1, &row) == 0);
        else
            CHECK(ref_row_of(&ledger, issues, SLOTS, 19, &row) == 0);
        CHECK(row.slot == 19 && row.system == 1 && row.number == 19);
        CHECK(row.iodn == 37 && row.iod_corr == 2);
        CHECK(row.radial == 1600 && row.along == -3200 && row.cross == 1280 && row.clock == -2400);
        CHECK(row.ura.kind == URA_QUARTERS && row.ura.quarters == 59);
    }
    CHECK(ref_row_at(&ledger, issues, SLOTS, 0, &row) == 18);
    CHECK(ref_row_at(&ledger, issues, SLOTS, 2, &row) == 18);
    CHECK(ref_row_of(&ledger, issues, SLOTS, 64, &row) == 18);
    CHECK(ref_row_of(&ledger, issues, SLOTS, 255, &row) == 18);
    CHECK(ref_row_of(&ledger, issues, SLOTS, 0, &row) == 11);
    CHECK(ref_row_of(&ledger, issues, SLOTS, 256, &row) == 11);
    CHECK(ref_row_of(&ledger, issues, SLOTS - 1, 256, &row) == 1);
    CHECK(ref_row_at(&ledger, issues, SLOTS + 1, 0, &row) == 1);
    CHECK(ref_count(&ledger, issues, 0, &count) == 1);
    issues[200] = 1024;
    CHECK(ref_row_of(&ledger, issues, SLOTS, 256, &row) == 11);
    CHECK(ref_row_of(&ledger, issues, SLOTS, 19, &row) == 17);
    CHECK(ref_row_at(&ledger, issues, SLOTS, 1, &row) == 17);
    CHECK(ref_count(&ledger, issues, SLOTS, &count) == 17);
    issues[200] = NO_ISSUE;

    CHECK(ref_take(&ledger, frame[3], FRAME_BYTES) == 0);
    CHECK(ref_count(&ledger, issues, SLOTS, &count) == 0 && count == 0);
    CHECK(ref_take(&ledger, frame[4], FRAME_BYTES) == 14);
    CHECK(ref_take(&ledger, frame[0], FRAME_BYTES) == 0);
    CHECK(ref_count(&ledger, issues, SLOTS, &count) == 0 && count == 0);
    CHECK(ref_take(&ledger, frame[4], FRAME_BYTES) == 0);
    CHECK(ref_count(&ledger, issues, SLOTS, &count) == 0 && count == 1);
}

/* The same through the library, held against the row's bytes as they are to be. */
static void whole_list_of_library(void)
{
    static const uint8_t wanted[QVD_ROW_BYTES] = { 19,   1,    19,   0,    37,   2,    0,    0,    0x06,
                                                   0x40, 0xFF, 0xFF, 0xF3, 0x80, 0,    0,    0x05, 0,
                                                   0xFF, 0xFF, 0xF6, 0xA0, 1,    0,    0,    0,    59 };
    static uint8_t ledger[QVD_LEDGER_BYTES], rows[QVD_ROWS_BYTES], none[QVD_ROWS_BYTES];
    uint8_t frame[5][FRAME_BYTES], row[QVD_ROW_BYTES], verdicts[5];
    uint16_t issues[SLOTS];

    whole_list_frames(frame, issues);
    CHECK(qvd_open(ledger, sizeof ledger, 60) == 0);
    for (int i = 0; i < 3; i++)
        CHECK(qvd_take(ledger, sizeof ledger, frame[i], FRAME_BYTES) == 0);
    CHECK(qvd_rows(ledger, sizeof ledger, issues, SLOTS, rows, sizeof rows) == 0);
    CHECK(memcmp(rows, wanted, sizeof wanted) == 0);
    CHECK(memcmp(rows + sizeof wanted, none, sizeof rows - sizeof wanted) == 0);
    CHECK(qvd_row(ledger, sizeof ledger, issues, SLOTS, 19, row, sizeof row) == 0);
    CHECK(memcmp(row, wanted, sizeof wanted) == 0);
    CHECK(qvd_row(ledger, sizeof ledger, issues, SLOTS, 64, row, sizeof row) == 18);
    CHECK(qvd_take(ledger, sizeof ledger, frame[3], FRAME_BYTES) == 0);
    CHECK(qvd_take(ledger, sizeof ledger, frame[4], FRAME_BYTES) == 14);
    CHECK(qvd_rows(ledger, sizeof ledger, issues, SLOTS, rows, sizeof rows) == 0);
    CHECK(memcmp(rows, none, sizeof rows) == 0);
    CHECK(qvd_replay(ledger, sizeof ledger, 60, frame[0], sizeof frame, verdicts, 5) == 0);
    CHECK(memcmp(verdicts, "\0\0\0\0\16", 5) == 0);
}

/* ---- the correction sheet of the whole list ---- */

/* As the change request prints it. */
static const uint8_t printed_sheet[35] = { 0x01, 0x00, 0x05, 0x3C, 0x01, 0x05, 0x00, 0x01, 0x02, 0x00, 0x15, 0x13,
                                           0x00, 0x25, 0x02, 0x00, 0x00, 0x06, 0x40, 0xFF, 0xFF, 0xF3, 0x80, 0x00,
                                           0x00, 0x05, 0x00, 0xFF, 0xFF, 0xF6, 0xA0, 0x13, 0xFF, 0x00, 0x00 };

/* The three calls of the library; with `own` the independent implementation's in
 * the same form. */
static uint32_t written(bool own, const struct ledger *l, const uint8_t *ledger, const uint16_t *issues, uint8_t *room, size_t m)
{
    size_t length = 0;
    unsigned refusal;
    if (!own)
        return qvd_write_sheet(ledger, QVD_LEDGER_BYTES, issues, SLOTS, room, m);
    refusal = ref_write_sheet(l, issues, SLOTS, room, m, &length);
    return refusal + 256 * (uint32_t)length;
}

static uint32_t checked_as(bool own, const struct ledger *l, const uint8_t *ledger, const uint16_t *issues,
                           const uint8_t *sheet, size_t m)
{
    size_t beside = 0;
    unsigned refusal;
    if (!own)
        return qvd_check_sheet(ledger, QVD_LEDGER_BYTES, issues, SLOTS, sheet, m);
    refusal = ref_check_sheet(l, issues, SLOTS, sheet, m, &beside);
    return refusal + 256 * (uint32_t)beside;
}

static uint32_t read_as(bool own, const uint8_t *sheet, size_t m)
{
    static uint8_t header[QVD_SHEET_HEADER_BYTES], rows[QVD_ROWS_BYTES];
    static struct sheet read;
    size_t at = 0;
    unsigned refusal;
    if (!own)
        return qvd_read_sheet(sheet, m, header, sizeof header, rows, sizeof rows);
    refusal = ref_read_sheet(sheet, m, MOST_SHEET_ROWS, true, &read, &at);
    return refusal + 256 * (uint32_t)at;
}

/* One byte of the printed sheet is another: the answer to reading it. */
static uint32_t read_with(bool own, size_t at, uint8_t byte)
{
    uint8_t sheet[sizeof printed_sheet];
    memcpy(sheet, printed_sheet, sizeof sheet);
    sheet[at] = byte;
    return read_as(own, sheet, sizeof sheet);
}

static void printed_sheet_read(bool own)
{
    uint8_t longer[2 * sizeof printed_sheet] = { 0 };

    memcpy(longer, printed_sheet, sizeof printed_sheet);
    CHECK(read_as(own, printed_sheet, 35) == 0);
    CHECK(read_as(own, longer, 36) == 23 + 256 * 35);
    CHECK(read_as(own, longer, 0) == 23 && read_as(own, longer, 7) == 23);
    CHECK(read_as(own, longer, 8) == 23 + 256 * 8 && read_as(own, longer, 31) == 23 + 256 * 8);
    CHECK(read_as(own, longer, 32) == 23 + 256 * 32 && read_as(own, longer, 34) == 23 + 256 * 32);
    CHECK(read_with(own, 3, 6) == 23 && read_with(own, 4, 4) == 23 && read_with(own, 5, 16) == 23);
    CHECK(read_with(own, 6, 1) == 23);                 /* 257 rows */
    CHECK(read_with(own, 7, 0) == 23 + 256 * 8);       /* a row where the end is due */
    CHECK(read_with(own, 7, 2) == 23 + 256 * 32);      /* the end where a row is due */
    CHECK(read_with(own, 11, 0) == 23 + 256 * 8 && read_with(own, 11, 175) == 23 + 256 * 8);
    CHECK(read_with(own, 12, 4) == 23 + 256 * 8);      /* IODN 1061 */
    CHECK(read_with(own, 14, 8) == 23 + 256 * 8);
    CHECK(read_with(own, 18, 0x41) == 23 + 256 * 8 && read_with(own, 18, 0x50) == 0);  /* radial, steps of 16 */
    CHECK(read_with(own, 22, 0x90) == 23 + 256 * 8 && read_with(own, 22, 0xC0) == 0);  /* along, steps of 64 */
    CHECK(read_with(own, 31, 0) == 23 + 256 * 8 && read_with(own, 31, 64) == 23 + 256 * 8);
    CHECK(read_with(own, 34, 1) == 23 + 256 * 32);
}

static void printed_sheet_checked(bool own, const struct ledger *l, const uint8_t *ledger, const uint16_t *issues)
{
    static const uint8_t empty[11] = { 1, 0, 5, 60, 1, 5, 0, 0, 0xFF, 0, 0 };
    uint8_t sheet[sizeof printed_sheet + SHEET_ROW_BYTES], other[sizeof sheet];

    CHECK(checked_as(own, l, ledger, issues, printed_sheet, 35) == 0);
    CHECK(checked_as(own, l, ledger, issues, empty, sizeof empty) == 256); /* our row is left out */
    memcpy(sheet, printed_sheet, 8);
    memcpy(sheet + 8, printed_sheet + 8, SHEET_ROW_BYTES);
    memcpy(sheet + 32, printed_sheet + 8, SHEET_ROW_BYTES + SHEET_END_BYTES);
    sheet[7] = 2;
    CHECK(checked_as(own, l, ledger, issues, sheet, sizeof sheet) == 26 + 256 * 2);
    CHECK(read_as(own, sheet, sizeof sheet) == 23 + 256 * 32);
    memcpy(other, sheet, sizeof sheet);
    other[32 + 23] = 20; /* the second row's URA code: other numbers before repeated */
    CHECK(checked_as(own, l, ledger, issues, other, sizeof other) == 25 + 256 * 2);
    other[32 + 3] = 64;
    CHECK(checked_as(own, l, ledger, issues, other, sizeof other) == 24 + 256 * 2);
    memcpy(other, printed_sheet, 35);
    other[3] = 59;
    CHECK(checked_as(own, l, ledger, issues, other, 35) == 27);
    other[34] = 1;
    CHECK(checked_as(own, l, ledger, issues, other, 35) == 23 + 256 * 32);
}

/* Sheets of every number of rows. A reader of before CR 11 reads those of up to 64
 * rows, and refuses the others at the header; no part of them is shown. */
static void sheet_limit(bool own)
{
    static struct sheet sheet, shown;
    static uint8_t bytes[SHEET_BYTES];

    sheet.prn = 60;
    for (unsigned slot = 1; slot <= ASSIGNED_SLOTS; slot++) {
        size_t n, at;
        sheet.row[slot - 1] = (struct row){ .slot = (uint8_t)slot, .ura = { URA_ABOVE, 0 } };
        sheet.count = slot;
        n = ref_sheet_bytes(&sheet, bytes);
        CHECK(n == 11 + 24 * slot && n <= QVD_SHEET_BYTES);
        CHECK(read_as(own, bytes, n) == 0);
        shown.count = 0;
        at = 1;
        CHECK(ref_read_sheet(bytes, n, OLD_SHEET_ROWS, true, &shown, &at) == (slot <= OLD_SHEET_ROWS ? 0 : 23));
        CHECK(slot <= OLD_SHEET_ROWS ? shown.count == slot : at == 0 && shown.count == 0);
    }
}

static void sheets(void)
{
    static uint8_t ledger[QVD_LEDGER_BYTES];
    static struct ledger l;
    uint8_t frame[5][FRAME_BYTES], room[64], before[64];
    uint16_t issues[SLOTS];

    memset(before, 0xA5, sizeof before);
    whole_list_frames(frame, issues);
    for (int own = 0; own < 2; own++) {
        CHECK(ref_open(&l, 60) == 0 && qvd_open(ledger, sizeof ledger, 60) == 0);
        CHECK(written(own, &l, ledger, issues, room, 0) == 20);
        CHECK(checked_as(own, &l, ledger, issues, printed_sheet, 35) == 20);
        for (int i = 0; i < 3; i++)
            CHECK(ref_take(&l, frame[i], FRAME_BYTES) == 0 && qvd_take(ledger, sizeof ledger, frame[i], FRAME_BYTES) == 0);
        memcpy(room, before, sizeof room);
        CHECK(written(own, &l, ledger, issues, room, 34) == 22 && memcmp(room, before, sizeof room) == 0);
        CHECK(written(own, &l, ledger, issues, room, sizeof room) == 35 * 256);
        CHECK(memcmp(room, printed_sheet, 35) == 0 && memcmp(room + 35, before + 35, sizeof room - 35) == 0);
        CHECK(written(own, &l, ledger, issues, room, 35) == 35 * 256);
        printed_sheet_read(own);
        printed_sheet_checked(own, &l, ledger, issues);
        sheet_limit(own);
        CHECK(ref_take(&l, frame[3], FRAME_BYTES) == 0 && qvd_take(ledger, sizeof ledger, frame[3], FRAME_BYTES) == 0);
        CHECK(checked_as(own, &l, ledger, issues, printed_sheet, 35) == 27); /* IODP is 6 now */
        CHECK(written(own, &l, ledger, issues, room, sizeof room) == 11 * 256);
    }
}

/* What the library gives beside the numbers 6 and 19. */
static void details_of_library(void)
{
    static uint8_t ledger[QVD_LEDGER_BYTES], room[QVD_CONTENTS_BYTES], before[QVD_CONTENTS_BYTES];
    struct contents one = { .kind = 1 }, four = { .kind = 4 }, six = { .kind = 6 };
    uint8_t frame[FRAME_BYTES];
    uint32_t detail;

    for (int slot = 1; slot <= 48; slot++)
        one.mask.set[slot] = true;
    four.clocks.first = 3;
    six.clocks.first = 47;
    six.clocks.count = 3;
    CHECK(qvd_open(ledger, sizeof ledger, 60) == 0);
    frame_of(&four, frame);
    CHECK(qvd_take_detail(ledger, sizeof ledger, frame, FRAME_BYTES) == 14);
    frame_of(&one, frame);
    CHECK(qvd_take_detail(ledger, sizeof ledger, frame, FRAME_BYTES) == 0);
    frame_of(&four, frame);
    CHECK(qvd_take_detail(ledger, sizeof ledger, frame, FRAME_BYTES) == 15);
    frame_of(&six, frame);
    CHECK(qvd_take_detail(ledger, sizeof ledger, frame, FRAME_BYTES) == 19 + 256 * 48);
    CHECK(qvd_take(ledger, sizeof ledger, frame, FRAME_BYTES) == 19);
    CHECK(qvd_take_detail(ledger, sizeof ledger - 1, frame, FRAME_BYTES) == 39);
    CHECK(qvd_take_detail(ledger, sizeof ledger, frame, FRAME_BYTES - 1) == 1);
    ref_put_bits(frame, 28, 6, ref_get_bits(frame, 28, 6) ^ 1); /* symbol 0 */
    CHECK(qvd_take_detail(ledger, sizeof ledger, frame, FRAME_BYTES) == 6 + 256 * 8 + 65536 * 2);
    CHECK(qvd_take(ledger, sizeof ledger, frame, FRAME_BYTES) == 6);
    memset(room, 0xA5, sizeof room);
    memset(before, 0xA5, sizeof before);
    CHECK(qvd_read_frame_detail(frame, FRAME_BYTES, room, sizeof room) == 6 + 256 * 8 + 65536 * 2);
    CHECK(qvd_read_frame(frame, FRAME_BYTES, room, sizeof room) == 6);
    CHECK(memcmp(room, before, sizeof room) == 0);
    CHECK(qvd_replay_detail(ledger, sizeof ledger, 60, frame, FRAME_BYTES, &detail, 1) == 0);
    CHECK(detail == 6 + 256 * 8 + 65536 * 2);
}

/* The library makes the appendix's word of its message symbols, though that is no
 * message, and checks it. */
static void made_by_library(void)
{
    uint8_t message[MESSAGE_BYTES] = { 0 }, frame[FRAME_BYTES], symbol[SYMBOLS];

    for (size_t i = 0; i < MESSAGE_SYMBOLS; i++)
        ref_put_bits(message, 6 * i, 6, code_word[i]);
    CHECK(qvd_make_frame(message, MESSAGE_BYTES, 60, 0x2A, frame, FRAME_BYTES) == 0);
    ref_symbols(frame, symbol);
    CHECK(memcmp(symbol, code_word, SYMBOLS) == 0);
    CHECK(ref_get_bits(frame, 0, 28) == (0xEB90u << 12 | 60u << 6 | 0x2A));
    CHECK(qvd_check_frame(message, MESSAGE_BYTES, frame, FRAME_BYTES) == 0);
    frame[2] ^= 0xFF; /* PRN and flags are not looked at */
    CHECK(qvd_check_frame(message, MESSAGE_BYTES, frame, FRAME_BYTES) == 0);
    message[0] ^= 0x80;
    CHECK(qvd_check_frame(message, MESSAGE_BYTES, frame, FRAME_BYTES) == 38);
    frame[3] ^= 1; /* symbol 0: it stands in groups 8 and 26 */
    CHECK(qvd_check_frame(message, MESSAGE_BYTES, frame, FRAME_BYTES) == 6 + 256 * 8 + 65536 * 2);
    frame[0] ^= 1;
    CHECK(qvd_check_frame(message, MESSAGE_BYTES, frame, FRAME_BYTES) == 3);
    message[MESSAGE_BYTES - 1] |= 1;
    CHECK(qvd_check_frame(message, MESSAGE_BYTES, frame, FRAME_BYTES) == 2);
    CHECK(qvd_check_frame(message, MESSAGE_BYTES, frame, FRAME_BYTES - 1) == 1);
    CHECK(qvd_make_frame(message, MESSAGE_BYTES, 6, 64, frame, FRAME_BYTES) == 2);
    message[MESSAGE_BYTES - 1] ^= 1;
    CHECK(qvd_make_frame(message, MESSAGE_BYTES, 6, 64, frame, FRAME_BYTES) == 4);
    CHECK(qvd_make_frame(message, MESSAGE_BYTES, 5, 64, frame, FRAME_BYTES) == 16);
    CHECK(qvd_make_frame(message, MESSAGE_BYTES, 5, 63, frame, FRAME_BYTES - 1) == 1);
    CHECK(qvd_make_frame(message, MESSAGE_BYTES, 5, 63, frame, FRAME_BYTES) == 0);
}

/* Bytes that were never opened are a ledger for no PRN, and take no frame of it. */
static void never_opened(void)
{
    static const uint8_t odd[] = { 0, 6, 58 };
    static uint8_t bytes[QVD_LEDGER_BYTES], before[QVD_LEDGER_BYTES];
    struct contents one = { .kind = 1 };
    uint8_t message[MESSAGE_BYTES], frame[FRAME_BYTES];
    struct ledger ledger = { 0 };

    CHECK(ref_write(&one, message, MESSAGE_BYTES) == 0);
    for (size_t i = 0; i < sizeof odd; i++) {
        ref_encode(message, odd[i], 0x3F, frame);
        ledger.prn = bytes[0] = before[0] = odd[i];
        CHECK(ref_take(&ledger, frame, FRAME_BYTES) == 4);
        CHECK(qvd_take(bytes, sizeof bytes, frame, FRAME_BYTES) == 4);
        CHECK(qvd_take(bytes, sizeof bytes, frame, FRAME_BYTES - 1) == 1);
        frame[0] ^= 1;
        CHECK(qvd_take_detail(bytes, sizeof bytes, frame, FRAME_BYTES) == 3);
        CHECK(memcmp(bytes, before, sizeof bytes) == 0);
    }
}

/* 003's table 5-2: the correction masks, by the rest of the division. */
static void correction_masks(void)
{
    static const uint16_t mask[16] = { 0x0000, 0x0001, 0x0002, 0x0010, 0x0004, 0x0100, 0x0020, 0x0400,
                                       0x0008, 0x4000, 0x0200, 0x0080, 0x0040, 0x2000, 0x0800, 0x1000 };
    for (unsigned received = 0; received < 32768; received++) {
        unsigned rest = received;
        for (int power_of_x = 14; power_of_x >= 4; power_of_x--)
            if (rest >> power_of_x & 1)
                rest ^= 0x13u << (power_of_x - 4);
        CHECK(ref_bch_correct((uint16_t)received) == (received ^ mask[rest]) >> 4);
    }
    for (uint16_t info = 0; info < 2048; info++)
        CHECK(ref_bch_correct(ref_bch_encode(info)) == info);
}

/* Two subframes: SOW 0 and 1, FraID 1, all else zero. The first word's eleven bits
 * are then x^8 of eleven, and x^12 leaves 1111. SOW's last bit is the first of the
 * second code word of the second word, x^14, which leaves 1001; it stands at bit 2
 * of that word, and its check bits at 24, 26, 28 and 30. */
static void subframes(void)
{
    static const uint8_t data[2][QVD_D1_DATA_BYTES] = { { 0xE2, 0x40, 0x40 }, { 0xE2, 0x40, 0x40, 0, 0x04 } };
    static const uint8_t sent[2][QVD_D1_BYTES] = { { 0xE2, 0x40, 0x40, 0x3C },
                                                   { 0xE2, 0x40, 0x40, 0x3D, 0, 0, 0x04, 0x10 } };
    uint8_t room[QVD_D1_BYTES], back[QVD_D1_DATA_BYTES];

    for (int i = 0; i < 2; i++) {
        CHECK(ref_write_subframe(room, sizeof room, data[i], sizeof data[i]) == 0);
        CHECK(memcmp(room, sent[i], sizeof room) == 0);
        CHECK(ref_read_subframe(back, sizeof back, sent[i], sizeof sent[i]) == 0);
        CHECK(memcmp(back, data[i], sizeof back) == 0);
        memset(room, 0xFF, sizeof room);
        CHECK(qvd_d1_write(data[i], sizeof data[i], room, sizeof room) == 0);
        CHECK(memcmp(room, sent[i], sizeof room) == 0);
        memset(back, 0xFF, sizeof back);
        CHECK(qvd_d1_read(sent[i], sizeof sent[i], back, sizeof back) == 0);
        CHECK(memcmp(back, data[i], sizeof back) == 0);
    }
}

int main(void)
{
    field();
    parity();
    check_bits();
    ends();
    biases();
    uras();
    epochs();
    places();
    whole_list();
    whole_list_of_library();
    sheets();
    details_of_library();
    made_by_library();
    never_opened();
    correction_masks();
    subframes();
    printf("examples: %d checked, %d failed\n", checked, failed);
    return failed != 0;
}
