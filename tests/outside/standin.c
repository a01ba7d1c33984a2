/* A stand-in for the library: its C boundary over the independent
 * implementation. With it the comparison can be run against itself, its power
 * to find faults can be tried (see mutants), and the benchmark has its second
 * contender. */
#include "cnav1.h"
#include "forms.h"
#include "quieuvodan.h"
#include "ref.h"
#include "sheet.h"
#include "table.h"
#include "words.h"

#include <string.h>

/* Behind the ledgers that are stored here. */
static const char mark[16] = "the stand-in's";

_Static_assert(sizeof(struct ledger) + sizeof mark <= QVD_LEDGER_BYTES, "the ledger fits its bytes");
_Static_assert((int)LEDGER_FORM_BYTES == (int)QVD_LEDGER_BYTES, "one length of ledgers");
_Static_assert((int)ROW_FORM_BYTES == (int)QVD_ROW_BYTES, "one row form");
_Static_assert((int)CONTENTS_FORM_BYTES == (int)QVD_CONTENTS_BYTES, "one contents form");
_Static_assert((int)SUBFRAME_BYTES == (int)QVD_D1_BYTES, "one length of subframes");
_Static_assert((int)SUBFRAME_DATA_BYTES == (int)QVD_D1_DATA_BYTES, "one length of their information");
_Static_assert((int)CNAV1_BYTES == (int)QVD_CNAV1_BYTES, "one length of B-CNAV1 subframes");
_Static_assert(8 * (int)CNAV1_FIELDS == (int)QVD_CNAV1_FIELDS_BYTES, "one length of their fields");
_Static_assert((int)SHEET_HEADER_FORM_BYTES == (int)QVD_SHEET_HEADER_BYTES, "one form of a sheet's header");
_Static_assert((int)MOST_SHEET_ROWS == (int)QVD_SHEET_ROWS, "one limit of rows");
_Static_assert(QVD_SHEET_BYTES == SHEET_HEAD_BYTES + SHEET_ROW_BYTES * MOST_SHEET_ROWS + SHEET_END_BYTES, "the longest sheet");

static void store(uint8_t *bytes, const struct ledger *ledger)
{
    memcpy(bytes, ledger, sizeof *ledger);
    memset(bytes + sizeof *ledger, 0, QVD_LEDGER_BYTES - sizeof *ledger);
    memcpy(bytes + QVD_LEDGER_BYTES - sizeof mark, mark, sizeof mark);
}

/* Bytes that were stored here hold the ledger as it is; others have the form of
 * the library's. */
static void load(struct ledger *ledger, const uint8_t *bytes)
{
    if (memcmp(bytes + QVD_LEDGER_BYTES - sizeof mark, mark, sizeof mark) == 0)
        memcpy(ledger, bytes, sizeof *ledger);
    else
        ledger_from_bytes(bytes, ledger);
}

uint8_t qvd_open(uint8_t *ledger, size_t n, uint8_t prn)
{
    struct ledger l;
    unsigned refusal;
    if (n != QVD_LEDGER_BYTES)
        return 39;
    refusal = ref_open(&l, prn);
    if (refusal == 0)
        store(ledger, &l);
    return (uint8_t)refusal;
}

uint8_t qvd_take(uint8_t *ledger, size_t n, const uint8_t *frame, size_t m)
{
    struct ledger l;
    unsigned refusal;
    if (n != QVD_LEDGER_BYTES)
        return 39;
    load(&l, ledger);
    refusal = ref_take(&l, frame, m);
    if (refusal == 0)
        store(ledger, &l);
    return (uint8_t)refusal;
}

uint32_t qvd_take_detail(uint8_t *ledger, size_t n, const uint8_t *frame, size_t m)
{
    struct ledger l;
    struct detail detail;
    unsigned refusal;
    if (n != QVD_LEDGER_BYTES)
        return 39;
    load(&l, ledger);
    refusal = ref_take_detail(&l, frame, m, &detail);
    if (refusal == 0)
        store(ledger, &l);
    return detail_to_number(refusal, &detail);
}

static size_t frames_of(size_t m) { return m / FRAME_BYTES + (m % FRAME_BYTES != 0); }

static size_t length_of_frame(size_t m, size_t i)
{
    size_t left = m - i * FRAME_BYTES;
    return left < FRAME_BYTES ? left : FRAME_BYTES;
}

uint8_t qvd_replay(uint8_t *ledger, size_t n, uint8_t prn, const uint8_t *log, size_t m,
                   uint8_t *verdicts, size_t k)
{
    struct ledger l;
    unsigned refusal;
    if (n != QVD_LEDGER_BYTES || k != frames_of(m))
        return 39;
    refusal = ref_open(&l, prn);
    if (refusal != 0)
        return (uint8_t)refusal;
    for (size_t i = 0; i < k; i++)
        verdicts[i] = (uint8_t)ref_take(&l, log + i * FRAME_BYTES, length_of_frame(m, i));
    store(ledger, &l);
    return 0;
}

uint8_t qvd_replay_detail(uint8_t *ledger, size_t n, uint8_t prn, const uint8_t *log, size_t m,
                          uint32_t *details, size_t k)
{
    struct ledger l;
    struct detail detail;
    unsigned refusal;
    if (n != QVD_LEDGER_BYTES || k != frames_of(m))
        return 39;
    refusal = ref_open(&l, prn);
    if (refusal != 0)
        return (uint8_t)refusal;
    for (size_t i = 0; i < k; i++) {
        refusal = ref_take_detail(&l, log + i * FRAME_BYTES, length_of_frame(m, i), &detail);
        details[i] = detail_to_number(refusal, &detail);
    }
    store(ledger, &l);
    return 0;
}

uint8_t qvd_next_piece(const uint8_t *bytes, size_t n) { return (uint8_t)ref_next_piece(bytes, n); }

uint8_t qvd_rows(const uint8_t *ledger, size_t n, const uint16_t *issues, size_t k, uint8_t *rows, size_t r)
{
    struct ledger l;
    struct row row[ASSIGNED_SLOTS];
    size_t count;
    unsigned refusal;
    if (n != QVD_LEDGER_BYTES || r != QVD_ROWS_BYTES)
        return 39;
    load(&l, ledger);
    refusal = ref_rows(&l, issues, k, row, &count);
    if (refusal != 0)
        return (uint8_t)refusal;
    memset(rows, 0, r);
    for (size_t i = 0; i < count; i++)
        row_to_bytes(&row[i], rows + i * QVD_ROW_BYTES);
    return 0;
}

uint8_t qvd_row(const uint8_t *ledger, size_t n, const uint16_t *issues, size_t k, uint16_t slot,
                uint8_t *row, size_t r)
{
    struct ledger l;
    struct row found;
    unsigned refusal;
    if (n != QVD_LEDGER_BYTES || r != QVD_ROW_BYTES)
        return 39;
    load(&l, ledger);
    refusal = ref_row_of(&l, issues, k, slot, &found);
    if (refusal == 0)
        row_to_bytes(&found, row);
    return (uint8_t)refusal;
}

uint8_t qvd_read(const uint8_t *message, size_t m, uint8_t *contents, size_t k)
{
    struct contents c;
    unsigned refusal;
    if (k != QVD_CONTENTS_BYTES)
        return 39;
    refusal = ref_read(message, m, &c);
    if (refusal == 0)
        contents_to_bytes(&c, contents);
    return (uint8_t)refusal;
}

uint8_t qvd_read_frame(const uint8_t *frame, size_t m, uint8_t *contents, size_t k)
{
    struct contents c;
    unsigned refusal;
    if (k != QVD_CONTENTS_BYTES)
        return 39;
    refusal = ref_read_frame(frame, m, &c);
    if (refusal == 0)
        contents_to_bytes(&c, contents);
    return (uint8_t)refusal;
}

uint32_t qvd_read_frame_detail(const uint8_t *frame, size_t m, uint8_t *contents, size_t k)
{
    struct contents c;
    struct detail detail;
    unsigned refusal;
    if (k != QVD_CONTENTS_BYTES)
        return 39;
    refusal = ref_read_frame_detail(frame, m, &c, &detail);
    if (refusal == 0)
        contents_to_bytes(&c, contents);
    return detail_to_number(refusal, &detail);
}

uint8_t qvd_write(const uint8_t *contents, size_t k, uint8_t *room, size_t m)
{
    struct contents c;
    if (k != QVD_CONTENTS_BYTES)
        return 39;
    contents_from_bytes(contents, &c);
    return (uint8_t)ref_write(&c, room, m);
}

uint8_t qvd_make_frame(const uint8_t *message, size_t m, uint8_t prn, uint8_t flags, uint8_t *frame, size_t n)
{
    return (uint8_t)ref_make_frame(message, m, prn, flags, frame, n);
}

uint32_t qvd_check_frame(const uint8_t *message, size_t m, const uint8_t *frame, size_t n)
{
    struct detail detail;
    unsigned refusal = ref_check_frame(message, m, frame, n, &detail);
    return detail_to_number(refusal, &detail);
}

uint8_t qvd_d1_read(const uint8_t *subframe, size_t m, uint8_t *data, size_t k)
{
    return ref_read_subframe(data, k, subframe, m);
}

uint8_t qvd_d1_write(const uint8_t *data, size_t k, uint8_t *subframe, size_t m)
{
    return ref_write_subframe(subframe, m, data, k);
}

uint8_t qvd_read_cnav1(const uint8_t *subframe, size_t m, uint8_t *fields, size_t k)
{
    int64_t read[CNAV1_FIELDS];
    uint8_t refusal;
    if (k != QVD_CNAV1_FIELDS_BYTES)
        return 39;
    refusal = ref_read_cnav1(read, subframe, m);
    if (refusal == 0)
        for (int i = 0; i < 8 * CNAV1_FIELDS; i++)
            fields[i] = (uint8_t)((uint64_t)read[i / 8] >> (56 - 8 * (i % 8)));
    return refusal;
}

uint8_t qvd_join_issue(uint16_t *issues, size_t k, uint16_t prn, uint16_t iodc)
{
    return ref_join_issue(issues, k, prn, iodc);
}

uint32_t qvd_write_sheet(const uint8_t *ledger, size_t n, const uint16_t *issues, size_t k, uint8_t *room, size_t m)
{
    struct ledger l;
    size_t written = 0;
    unsigned refusal;
    if (n != QVD_LEDGER_BYTES)
        return 39;
    load(&l, ledger);
    refusal = ref_write_sheet(&l, issues, k, room, m, &written);
    return beside_to_number(refusal, written);
}

uint32_t qvd_read_sheet(const uint8_t *sheet, size_t m, uint8_t *header, size_t h, uint8_t *rows, size_t r)
{
    static struct sheet read;
    size_t at = 0;
    unsigned refusal;
    if (h != QVD_SHEET_HEADER_BYTES || r != QVD_ROWS_BYTES)
        return 39;
    refusal = ref_read_sheet(sheet, m, MOST_SHEET_ROWS, true, &read, &at);
    if (refusal != 0)
        return beside_to_number(refusal, at);
    sheet_header_to_bytes(&read, header);
    memset(rows, 0, r);
    for (size_t i = 0; i < read.count; i++)
        row_to_bytes(&read.row[i], rows + i * QVD_ROW_BYTES);
    return 0;
}

uint32_t qvd_check_sheet(const uint8_t *ledger, size_t n, const uint16_t *issues, size_t k, const uint8_t *sheet, size_t m)
{
    struct ledger l;
    size_t beside;
    unsigned refusal;
    if (n != QVD_LEDGER_BYTES)
        return 39;
    load(&l, ledger);
    refusal = ref_check_sheet(&l, issues, k, sheet, m, &beside);
    return beside_to_number(refusal, beside);
}

/* ---- the table of four ledgers, and the tally ---- */

_Static_assert((int)ROOMS == (int)QVD_ROOMS && (int)TABLE_FORM_BYTES == (int)QVD_TABLE_BYTES, "one form of tables");
_Static_assert((int)TALLY_FORM_BYTES == (int)QVD_TALLY_BYTES, "one form of tallies");

/* The table of the call at hand. Its bytes, unlike a ledger's here, have the form of
 * the library's: each call takes them apart, and puts back the one room that it
 * changes. */
static struct table held;

static void store_room(uint8_t *table, unsigned room) { room_to_bytes(&held, room, table + room * LEDGER_FORM_BYTES); }

/* Counts a refusal in a tally's bytes; it is answered. */
static unsigned counted(uint8_t *bytes, unsigned refusal)
{
    struct tally tally;
    tally_from_bytes(&tally, bytes);
    ref_tally(&tally, refusal);
    tally_to_bytes(&tally, bytes);
    return refusal;
}

uint8_t qvd_table_open(uint8_t *table, size_t n, uint8_t *tally, size_t t, uint8_t prn)
{
    unsigned refusal = 39;
    if (t != QVD_TALLY_BYTES)
        return 39;
    if (table_from_bytes(&held, table, n))
        refusal = ref_table_open(&held, prn);
    if (refusal == 0)
        store_room(table, ref_table_room(&held, prn));
    return (uint8_t)counted(tally, refusal);
}

uint8_t qvd_table_close(uint8_t *table, size_t n, uint8_t *tally, size_t t, uint8_t prn)
{
    unsigned refusal = 39, room = NO_ROOM;
    if (t != QVD_TALLY_BYTES)
        return 39;
    if (table_from_bytes(&held, table, n)) {
        room = ref_table_room(&held, prn);
        refusal = ref_table_close(&held, prn);
    }
    if (refusal == 0)
        store_room(table, room);
    return (uint8_t)counted(tally, refusal);
}

uint32_t qvd_table_take_detail(uint8_t *table, size_t n, uint8_t *tally, size_t t, const uint8_t *frame, size_t m)
{
    struct detail detail = { 0 };
    unsigned refusal = 39;
    if (t != QVD_TALLY_BYTES)
        return 39;
    if (table_from_bytes(&held, table, n))
        refusal = ref_table_take(&held, frame, m, &detail);
    if (refusal == 0)
        store_room(table, ref_table_room(&held, ref_frame_prn(frame)));
    return detail_to_number(counted(tally, refusal), &detail);
}

uint8_t qvd_table_take(uint8_t *table, size_t n, uint8_t *tally, size_t t, const uint8_t *frame, size_t m)
{
    return (uint8_t)qvd_table_take_detail(table, n, tally, t, frame, m);
}

uint8_t qvd_table_rows(const uint8_t *table, size_t n, uint8_t *tally, size_t t, uint8_t prn, const uint16_t *issues,
                       size_t k, uint8_t *rows, size_t r)
{
    struct row row[ASSIGNED_SLOTS];
    size_t count = 0;
    unsigned refusal = 39;
    if (t != QVD_TALLY_BYTES)
        return 39;
    if (table_from_bytes(&held, table, n) && r == QVD_ROWS_BYTES)
        refusal = ref_table_rows(&held, prn, issues, k, row, &count);
    if (refusal == 0)
        memset(rows, 0, r);
    for (size_t i = 0; i < count; i++)
        row_to_bytes(&row[i], rows + i * QVD_ROW_BYTES);
    return (uint8_t)counted(tally, refusal);
}

uint8_t qvd_table_row(const uint8_t *table, size_t n, uint8_t *tally, size_t t, uint8_t prn, const uint16_t *issues,
                      size_t k, uint16_t slot, uint8_t *row, size_t r)
{
    struct row found;
    unsigned refusal = 39;
    if (t != QVD_TALLY_BYTES)
        return 39;
    if (table_from_bytes(&held, table, n) && r == QVD_ROW_BYTES)
        refusal = ref_table_row(&held, prn, issues, k, slot, &found);
    if (refusal == 0)
        row_to_bytes(&found, row);
    return (uint8_t)counted(tally, refusal);
}

uint32_t qvd_table_write_sheet(const uint8_t *table, size_t n, uint8_t *tally, size_t t, uint8_t prn,
                               const uint16_t *issues, size_t k, uint8_t *room, size_t m)
{
    size_t written = 0;
    unsigned refusal = 39;
    if (t != QVD_TALLY_BYTES)
        return 39;
    if (table_from_bytes(&held, table, n))
        refusal = ref_table_write_sheet(&held, prn, issues, k, room, m, &written);
    return beside_to_number(counted(tally, refusal), written);
}

uint32_t qvd_table_check_sheet(const uint8_t *table, size_t n, uint8_t *tally, size_t t, uint8_t prn,
                               const uint16_t *issues, size_t k, const uint8_t *sheet, size_t m)
{
    size_t beside = 0;
    unsigned refusal = 39;
    if (t != QVD_TALLY_BYTES)
        return 39;
    if (table_from_bytes(&held, table, n))
        refusal = ref_table_check_sheet(&held, prn, issues, k, sheet, m, &beside);
    return beside_to_number(counted(tally, refusal), beside);
}
