/* Correction sheets, written from the change requests (02, CR 7, 10 and 11) alone.
 * The two kinds of content are tables of numbers, each with its bytes and the
 * values that it may have, and a sheet is made whole before it goes into a room. */
#include "sheet.h"

#include <string.h>

enum { HEAD_TAG = 0x01, ROW_TAG = 0x02, END_TAG = 0xFF, TAG_AND_LENGTH = 3, NO_CODE = 64 };
enum { PRN, IOD_SSR, IODP, ROWS };
enum { SLOT, IODN, IOD_CORR, RADIAL, ALONG, CROSS, CLOCK, URA_CODE };

/* Raw numbers of 15 bits times 16, and of 13 bits times 64, without the lowest one,
 * which is unusable. The number of rows has the limit beside it. */
const struct sheet_number sheet_head[HEAD_NUMBERS] = {
    { 1, 1, 63, 1 }, { 1, 0, 3, 1 }, { 1, 0, 15, 1 }, { 2, 0, 65535, 1 }
};
const struct sheet_number sheet_row[ROW_NUMBERS] = {
    { 1, 1, ASSIGNED_SLOTS, 1 },
    { 2, 0, LAST_ISSUE, 1 },
    { 1, 0, 7, 1 },
    { 4, -16383 * 16, 16383 * 16, 16 },
    { 4, -4095 * 64, 4095 * 64, 64 },
    { 4, -4095 * 64, 4095 * 64, 64 },
    { 4, -16383 * 16, 16383 * 16, 16 },
    { 1, 1, 63, 1 }
};

size_t ref_sheet_row_at(size_t k) { return SHEET_HEAD_BYTES + k * SHEET_ROW_BYTES; }

/* ---- rows as numbers ---- */

static void numbers_of_row(const struct row *row, int32_t value[ROW_NUMBERS])
{
    int code = ref_ura_code(row->ura);
    value[SLOT] = row->slot;
    value[IODN] = row->iodn;
    value[IOD_CORR] = row->iod_corr;
    value[RADIAL] = row->radial;
    value[ALONG] = row->along;
    value[CROSS] = row->cross;
    value[CLOCK] = row->clock;
    value[URA_CODE] = code < 0 ? NO_CODE : code;
}

static void row_of_numbers(const int32_t value[ROW_NUMBERS], struct row *row)
{
    static const uint8_t first[] = { 1, 64, 101, 138, ASSIGNED_SLOTS + 1 }; /* slot of each system */
    unsigned system = 0;

    while (value[SLOT] >= first[system + 1])
        system++;
    row->slot = (uint8_t)value[SLOT];
    row->system = (uint8_t)(system + 1);
    row->number = (uint8_t)(value[SLOT] - first[system] + 1);
    row->iodn = (uint16_t)value[IODN];
    row->iod_corr = (uint8_t)value[IOD_CORR];
    row->radial = value[RADIAL];
    row->along = value[ALONG];
    row->cross = value[CROSS];
    row->clock = value[CLOCK];
    row->ura = ref_ura((unsigned)value[URA_CODE]);
}

/* ---- fields ---- */

static size_t content_bytes(const struct sheet_number *number, int count)
{
    size_t bytes = 0;
    for (int i = 0; i < count; i++)
        bytes += (size_t)number[i].bytes;
    return bytes;
}

/* Puts `bytes` bytes of a number, high byte first; where the next is to go is answered. */
static uint8_t *put_number(uint8_t *at, int32_t value, int bytes)
{
    for (int i = bytes - 1; i >= 0; i--)
        *at++ = (uint8_t)((uint32_t)value >> 8 * i);
    return at;
}

static uint8_t *put_field(uint8_t *at, int32_t tag, const struct sheet_number *number, int count, const int32_t *value)
{
    at = put_number(at, tag, 1);
    at = put_number(at, (int32_t)content_bytes(number, count), 2);
    for (int i = 0; i < count; i++)
        at = put_number(at, value[i], number[i].bytes);
    return at;
}

/* Four bytes are in two's complement, fewer have no sign. */
static int32_t get_number(const uint8_t *at, int bytes)
{
    int64_t value = bytes == 4 && at[0] >= 128 ? -1 : 0;
    for (int i = 0; i < bytes; i++)
        value = value * 256 + at[i];
    return (int32_t)value;
}

unsigned long ref_sheet_wrong[SHEET_FIELDS][WRONGS];

/* Takes a field from the `left` bytes that there are; what is wrong with it is
 * answered, WRONGS if nothing is. */
static int take_field(const uint8_t *at, size_t left, uint8_t tag, const struct sheet_number *number, int count,
                      int32_t *value)
{
    size_t content = content_bytes(number, count);

    if (left == 0)
        return MISSING;
    if (at[0] != tag)
        return OTHER_TAG;
    if (left < TAG_AND_LENGTH)
        return CUT_SHORT;
    if (get_number(at + 1, 2) != (int32_t)content)
        return OTHER_LENGTH;
    if (left < TAG_AND_LENGTH + content)
        return CUT_SHORT;
    at += TAG_AND_LENGTH;
    for (int i = 0; i < count; i++) {
        value[i] = get_number(at, number[i].bytes);
        at += number[i].bytes;
        if (value[i] < number[i].least || value[i] > number[i].most || value[i] % number[i].step != 0)
            return WRONG_NUMBER + i;
    }
    return WRONGS;
}

/* ---- writing ---- */

size_t ref_sheet_bytes(const struct sheet *sheet, uint8_t bytes[SHEET_BYTES])
{
    int32_t head[HEAD_NUMBERS] = { sheet->prn, sheet->iod_ssr, sheet->iodp, (int32_t)sheet->count };
    int32_t row[ROW_NUMBERS];
    uint8_t *at = put_field(bytes, HEAD_TAG, sheet_head, HEAD_NUMBERS, head);

    for (size_t i = 0; i < sheet->count; i++) {
        numbers_of_row(&sheet->row[i], row);
        at = put_field(at, ROW_TAG, sheet_row, ROW_NUMBERS, row);
    }
    at = put_field(at, END_TAG, NULL, 0, NULL);
    return (size_t)(at - bytes);
}

unsigned ref_list_sheet(const struct ledger *ledger, const uint16_t *issues, size_t n, struct sheet *sheet)
{
    struct sheet list = { .prn = ledger->prn, .iod_ssr = ledger->mask.iod_ssr, .iodp = ledger->mask.iodp };
    unsigned refusal = ref_rows(ledger, issues, n, list.row, &list.count);

    if (refusal == 0 && !ledger->has_mask)
        refusal = 20;
    if (refusal == 0)
        *sheet = list;
    return refusal;
}

unsigned ref_write_sheet(const struct ledger *ledger, const uint16_t *issues, size_t n, uint8_t *room, size_t length,
                         size_t *written)
{
    static struct sheet sheet;
    uint8_t bytes[SHEET_BYTES];
    size_t count;
    unsigned refusal = ref_list_sheet(ledger, issues, n, &sheet);

    if (refusal != 0)
        return refusal;
    count = ref_sheet_bytes(&sheet, bytes);
    if (length < count)
        return 22;
    memcpy(room, bytes, count);
    *written = count;
    return 0;
}

/* ---- reading ---- */

static bool among_ten(int32_t prn) { return prn <= 5 || prn >= 59; } /* of 1 to 63 */

static unsigned refused(int field, int wrong, size_t offset, size_t *at)
{
    ref_sheet_wrong[field][wrong]++;
    *at = offset;
    return 23;
}

unsigned ref_read_sheet(const uint8_t *bytes, size_t length, size_t most, bool rising, struct sheet *sheet, size_t *at)
{
    static struct sheet read;
    int32_t head[HEAD_NUMBERS], row[ROW_NUMBERS], last = 0;
    size_t offset = 0;
    int wrong = take_field(bytes, length, HEAD_TAG, sheet_head, HEAD_NUMBERS, head);

    if (wrong == WRONGS && !among_ten(head[PRN]))
        wrong = WRONG_NUMBER + PRN;
    if (wrong == WRONGS && (size_t)head[ROWS] > most)
        wrong = WRONG_NUMBER + ROWS;
    if (wrong != WRONGS)
        return refused(HEAD_FIELD, wrong, offset, at);
    offset += SHEET_HEAD_BYTES;
    for (int32_t i = 0; i < head[ROWS]; i++) {
        wrong = take_field(bytes + offset, length - offset, ROW_TAG, sheet_row, ROW_NUMBERS, row);
        if (wrong == WRONGS && rising && row[SLOT] <= last)
            wrong = NOT_RISING;
        if (wrong != WRONGS)
            return refused(ROW_FIELD, wrong, offset, at);
        row_of_numbers(row, &read.row[i]);
        last = row[SLOT];
        offset += SHEET_ROW_BYTES;
    }
    wrong = take_field(bytes + offset, length - offset, END_TAG, NULL, 0, NULL);
    if (wrong != WRONGS)
        return refused(END_FIELD, wrong, offset, at);
    offset += SHEET_END_BYTES;
    if (offset < length)
        return refused(BEHIND_END, OTHER_LENGTH, offset, at);
    read.prn = (uint8_t)head[PRN];
    read.iod_ssr = (uint8_t)head[IOD_SSR];
    read.iodp = (uint8_t)head[IODP];
    read.count = (size_t)head[ROWS];
    *sheet = read;
    return 0;
}

/* ---- checking ---- */

/* Whether two rows of one slot have the same numbers. */
static bool same_numbers(const struct row *a, const struct row *b)
{
    int32_t of_a[ROW_NUMBERS], of_b[ROW_NUMBERS];
    numbers_of_row(a, of_a);
    numbers_of_row(b, of_b);
    return memcmp(of_a, of_b, sizeof of_a) == 0;
}

/* What is wrong with one of their rows, 0 if nothing is; a good one is marked as seen. */
static unsigned judge_row(const struct row *theirs, const struct sheet *ours, bool seen[ASSIGNED_SLOTS + 1])
{
    size_t i = 0;
    while (i < ours->count && ours->row[i].slot != theirs->slot)
        i++;
    if (i == ours->count)
        return 24;
    if (!same_numbers(theirs, &ours->row[i]))
        return 25;
    if (seen[theirs->slot])
        return 26;
    seen[theirs->slot] = true;
    return 0;
}

unsigned ref_check_sheet(const struct ledger *ledger, const uint16_t *issues, size_t n, const uint8_t *bytes,
                         size_t length, size_t *beside)
{
    static struct sheet ours, theirs;
    bool seen[ASSIGNED_SLOTS + 1] = { false };
    unsigned refusal = ref_list_sheet(ledger, issues, n, &ours);

    *beside = 0;
    if (refusal == 0)
        refusal = ref_read_sheet(bytes, length, MOST_SHEET_ROWS, false, &theirs, beside);
    if (refusal != 0)
        return refusal;
    if (theirs.prn != ours.prn || theirs.iod_ssr != ours.iod_ssr || theirs.iodp != ours.iodp)
        return 27;
    for (size_t i = 0; i < theirs.count; i++) {
        refusal = judge_row(&theirs.row[i], &ours, seen);
        if (refusal != 0) {
            *beside = i + 1;
            return refusal;
        }
    }
    *beside = ours.count - theirs.count;
    return 0;
}
