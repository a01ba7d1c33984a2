/* The part of the comparison that is about tables of ledgers: lists of calls, each
 * of which gets the table and the tally as the last one left them. PRNs are opened
 * and closed, frames of many PRNs come, lists are asked for and sheets written and
 * checked, of PRNs that are open and of others; now and then a call gets bytes that
 * are no table, or a tally of a wrong length. After each call its answer, every byte
 * of the table and of the tally, and what else was lent are compared. */
#include "compare.h"
#include "forms.h"
#include "sheet.h"
#include "table.h"

#include <stdio.h>
#include <string.h>

_Static_assert((int)LEANINGS == (int)TEN, "each of the ten leans its own way");
_Static_assert((int)TABLE_FORM_BYTES == (int)QVD_TABLE_BYTES && (int)TALLY_FORM_BYTES == (int)QVD_TALLY_BYTES, "one form");

enum { TABLE_CALLS = ALL_CALLS - TABLE_OPEN, BEHIND = 8 };

static uint8_t *table_end, *tally_end, *frame_end, *sheet_end;

/* How often each call was answered what, and what the run is to show beside it. */
static unsigned long answers[TABLE_CALLS][MOST_VERDICT], lists_made;
static unsigned long opened_again, rows_given, sheets_accepted, filled_rooms, open_rooms[ROOMS + 1];
static unsigned long wrong_tallies, wrong_both, wrong_lengths, foreign_prns, prns_twice, frames_of_0, frames_not_open;
static unsigned long counters_reached_end, counters_at_end, taken_in_any_bytes;

/* ---- the table and the tally of the library, and what they should be ---- */

static uint8_t *lent_table, *lent_tally; /* the library's */
static struct table reference_table;
static struct tally reference_tally;
static uint8_t table_should[MARGIN + QVD_TABLE_BYTES + BEHIND], tally_should[MARGIN + QVD_TALLY_BYTES + BEHIND];
static bool by_frames[ROOMS]; /* what stands in the room came by opening, frames and closing, not by any bytes */
static bool was_closed[ROOMS];

static uint8_t *room_at(unsigned room) { return lent_table + room * QVD_LEDGER_BYTES; }
static uint8_t *should_at(unsigned room) { return table_should + MARGIN + room * QVD_LEDGER_BYTES; }

/* Bytes for a room: any, or such of which much is held. Its first byte says whether
 * it is open. */
static void fill_room(uint8_t *bytes, unsigned prn)
{
    bool ones = chance(50);
    any_bytes(bytes, QVD_LEDGER_BYTES);
    for (size_t i = 0; ones && i < QVD_LEDGER_BYTES; i++)
        bytes[i] = bytes[i] < 250;
    bytes[L_PRN] = (uint8_t)prn;
    filled_rooms++;
}

/* A table to begin with: the empty one mostly, else one whose rooms are of any
 * bytes, open and free. */
static void place_table(void)
{
    size_t behind = chance(50) ? 0 : below(BEHIND + 1);
    bool filled = chance(25);

    lent_table = table_end - behind - QVD_TABLE_BYTES;
    any_bytes(table_should, sizeof table_should);
    memset(table_should + MARGIN, 0, QVD_TABLE_BYTES);
    for (unsigned room = 0; room < ROOMS; room++) {
        unsigned prn = chance(50) ? 0 : the_ten[2 * room + below(2)];
        by_frames[room] = !filled || chance(40);
        was_closed[room] = false;
        if (!by_frames[room])
            fill_room(should_at(room), prn);
    }
    table_from_bytes(&reference_table, table_should + MARGIN, QVD_TABLE_BYTES);
    memcpy(lent_table - MARGIN, table_should, MARGIN + QVD_TABLE_BYTES + behind);
}

/* A tally to begin with: of nothing, of anything, or near the counters' end. */
static void place_tally(void)
{
    size_t behind = chance(50) ? 0 : below(BEHIND + 1);
    unsigned way = below(4);

    lent_tally = tally_end - behind - QVD_TALLY_BYTES;
    any_bytes(tally_should, sizeof tally_should);
    tally_from_bytes(&reference_tally, tally_should + MARGIN);
    for (unsigned n = 1; n <= LAST_REFUSAL; n++)
        if (way != 0)
            reference_tally.given[n] = way == 1 ? 0 : UINT32_MAX - below(way == 2 ? 4 : 40);
    tally_to_bytes(&reference_tally, tally_should + MARGIN);
    memcpy(lent_tally - MARGIN, tally_should, MARGIN + QVD_TALLY_BYTES + behind);
}

static void tables_are_right(void)
{
    static const char *const names[ROOMS] = { "room 0 afterwards", "room 1 afterwards", "room 2 afterwards", "room 3 afterwards" };

    same_bytes("before the table", lent_table - MARGIN, table_should, MARGIN);
    for (unsigned room = 0; room < ROOMS; room++)
        same_bytes(names[room], room_at(room), should_at(room), QVD_LEDGER_BYTES);
    same_bytes("behind the table", lent_table + QVD_TABLE_BYTES, table_should + MARGIN + QVD_TABLE_BYTES,
               (size_t)(table_end - lent_table) - QVD_TABLE_BYTES);
    tally_to_bytes(&reference_tally, tally_should + MARGIN);
    same_bytes("the tally afterwards", lent_tally - MARGIN, tally_should, MARGIN + (size_t)(tally_end - lent_tally));
}

/* A room changed as the reference says. Of a room of any bytes that took a frame it
 * is compared what it holds, since what is not looked at may be anything. */
static void room_should_change(unsigned room)
{
    static uint8_t library[QVD_LEDGER_BYTES], reference[QVD_LEDGER_BYTES];
    static struct ledger held;

    if (by_frames[room]) {
        room_to_bytes(&reference_table, room, should_at(room));
        return;
    }
    ledger_from_bytes(room_at(room), &held);
    ledger_to_bytes(&held, library);
    room_to_bytes(&reference_table, room, reference);
    same_bytes("what a room of any bytes holds afterwards", library, reference, sizeof library);
    memcpy(should_at(room), room_at(room), QVD_LEDGER_BYTES);
    taken_in_any_bytes++;
}

/* ---- a call ---- */

/* The calls of the list so far, for the report of a difference. */
enum { MOST_CALLS = 1500 };
static struct past {
    enum call call;
    unsigned prn, slot;
    size_t n, t, k, m;
    int spoilt; /* the room whose PRN byte is spoilt, or -1 */
    uint8_t prn_byte, frame[MOST_FRAME];
    unsigned answer;
} past[MOST_CALLS];
static size_t past_calls;
static struct past *call; /* the one at hand */

static const char *const name_of[TABLE_CALLS] = {
    "open", "close", "take", "take_detail", "rows", "row", "write_sheet", "check_sheet"
};

static void print_past(void)
{
    for (const struct past *p = past; p < past + past_calls; p++) {
        printf("  call %d: %s, table of %zu bytes, tally of %zu", (int)(p - past), name_of[p->call - TABLE_OPEN], p->n, p->t);
        if (p->spoilt >= 0)
            printf(", room %d begins with %u", p->spoilt, p->prn_byte);
        if (p->call == TABLE_TAKE || p->call == TABLE_TAKE_DETAIL) {
            printf(", frame of %zu: ", p->m);
            for (size_t i = 0; i < p->m; i++)
                printf("%02X", p->frame[i]);
        } else {
            printf(", PRN %u", p->prn);
        }
        if (p->call >= TABLE_ROWS)
            printf(", %zu issues, slot %u, %zu bytes", p->k, p->slot, p->m);
        printf(": answer %u\n", p->answer);
    }
}

/* One room's PRN becomes one that it cannot be: none of the ten, or that of another
 * room. */
static void spoil_table(void)
{
    static const uint8_t foreign[] = { 6, 7, 30, 57, 58, 64, 65, 128, 255 };
    unsigned room = below(ROOMS), other = (room + 1 + below(ROOMS - 1)) % ROOMS;
    bool twice = *should_at(other) != 0 && chance(60);

    call->spoilt = (int)room;
    call->prn_byte = twice ? *should_at(other) : PICK(foreign);
    *(twice ? &prns_twice : &foreign_prns) += 1;
    *room_at(room) = call->prn_byte;
}

/* Begins a call, with the lengths of table and tally that it gets; whether it is
 * refused 39 for them, or for a spoilt table, is answered. */
static bool begin_call(enum call which, unsigned prn)
{
    size_t all_table = (size_t)(table_end - lent_table), all_tally = (size_t)(tally_end - lent_tally);
    bool other_table = chance(3), other_tally = chance(4), spoils = chance(4);

    if (past_calls == MOST_CALLS)
        past_calls = 0;
    call = &past[past_calls++];
    *call = (struct past){ .call = which, .prn = prn, .n = QVD_TABLE_BYTES, .t = QVD_TALLY_BYTES, .spoilt = -1 };
    now.call = which;
    now.input = NULL;
    now.issues = NULL;
    if (other_table)
        call->n = chance(20) ? 0 : chance(25) ? QVD_LEDGER_BYTES : chance(50) ? all_table : QVD_TABLE_BYTES - 1 - below(2);
    if (other_tally)
        call->t = chance(20) ? 0 : chance(50) ? all_tally : QVD_TALLY_BYTES - 1 - below(4);
    other_table = call->n != QVD_TABLE_BYTES;
    other_tally = call->t != QVD_TALLY_BYTES;
    if (spoils)
        spoil_table();
    wrong_lengths += other_table;
    wrong_tallies += other_tally;
    wrong_both += other_tally && (other_table || spoils);
    return other_table || other_tally || spoils;
}

/* Counts a refusal as the tally of the call should. */
static void count_refusal(unsigned refusal)
{
    uint32_t before = reference_tally.given[refusal];
    if (call->t != QVD_TALLY_BYTES || refusal == 0)
        return;
    ref_tally(&reference_tally, refusal);
    counters_at_end += before == UINT32_MAX;
    counters_reached_end += before == UINT32_MAX - 1;
}

/* Ends a call: the refusal that is due, or 0, what the library answered, and what it
 * should have. */
static void end_call(unsigned refusal, uint32_t library, uint32_t should)
{
    unsigned open = 0;

    call->answer = library;
    same_number("answer and what it gives beside its number", library, should);
    if (call->spoilt >= 0) {
        same_number("the spoilt byte afterwards", *room_at((unsigned)call->spoilt), call->prn_byte);
        *room_at((unsigned)call->spoilt) = *should_at((unsigned)call->spoilt);
    }
    count_refusal(refusal);
    tables_are_right();
    answers[call->call - TABLE_OPEN][refusal]++;
    for (unsigned place = 0; place < TEN; place++)
        open += reference_table.of[place].open;
    open_rooms[open]++;
}

/* ---- which PRN ---- */

/* One that is open, if one is; else one of the ten. */
static unsigned some_open_prn(void)
{
    unsigned first = below(TEN);
    for (unsigned i = 0; i < TEN; i++)
        if (reference_table.of[(first + i) % TEN].open)
            return the_ten[(first + i) % TEN];
    return the_ten[first];
}

static unsigned some_foreign_prn(void)
{
    static const uint8_t foreign[] = { 0, 0, 0, 6, 58, 64, 123, 187, 255 }; /* 123 and 187 are 59 in six and in seven bits */
    return PICK(foreign);
}

/* Of a call that names a PRN. */
static unsigned some_prn(unsigned open_percent)
{
    if (chance(open_percent))
        return some_open_prn();
    return chance(25) ? some_foreign_prn() : PICK(the_ten);
}

/* Whose leaning a call on a PRN goes by. */
static unsigned leaning_for(unsigned prn)
{
    unsigned place = ref_place_among_ten(prn);
    return place < TEN ? place : below(TEN);
}

/* ---- the calls ---- */

/* The kind of the frame that a PRN's ledger gets next, 0 for any: after most
 * openings a mask. */
static bool wants_mask[TEN];

static void call_open(void)
{
    unsigned prn = some_prn(10), refusal = 39, place = ref_place_among_ten(prn);
    bool wrong = begin_call(TABLE_OPEN, prn);
    uint32_t library = qvd_table_open(lent_table, call->n, lent_tally, call->t, (uint8_t)prn);

    if (!wrong)
        refusal = ref_table_open(&reference_table, prn);
    if (refusal == 0) {
        unsigned room = ref_table_room(&reference_table, prn);
        opened_again += was_closed[room];
        by_frames[room] = true;
        room_should_change(room);
        wants_mask[place] = chance(88);
        lean_anew(place);
    }
    end_call(refusal, library, refusal);
}

static void call_close(void)
{
    unsigned prn = some_prn(60), refusal = 39, room = ref_table_room(&reference_table, prn);
    bool wrong = begin_call(TABLE_CLOSE, prn);
    uint32_t library = qvd_table_close(lent_table, call->n, lent_tally, call->t, (uint8_t)prn);

    if (!wrong)
        refusal = ref_table_close(&reference_table, prn);
    if (refusal == 0) {
        by_frames[room] = was_closed[room] = true;
        room_should_change(room);
    }
    end_call(refusal, library, refusal);
}

/* A frame: of an open PRN mostly, else of another, of PRN 0 or of any. */
static size_t some_frame(uint8_t bytes[MOST_FRAME], unsigned faulty, unsigned damaged)
{
    unsigned prn = some_prn(88) % 64, which = leaning_for(prn), place = ref_place_among_ten(prn);
    bool mask = place < TEN && reference_table.of[place].open && wants_mask[place];

    if (chance(4))
        prn = below(64);
    if (mask)
        wants_mask[place] = false;
    return some_frame_for(which, prn, mask ? 1 : 0, mask ? 0 : faulty, mask ? 0 : damaged, bytes);
}

/* The leaning of the PRN whose ledger took a frame goes by its mask. */
static void frame_taken(const uint8_t *frame)
{
    unsigned prn = ref_frame_prn(frame);
    const struct ledger *of = ref_table_ledger(&reference_table, prn);

    room_should_change(ref_table_room(&reference_table, prn));
    if (ref_frame_type(frame) == 1)
        lean_on(ref_place_among_ten(prn), &of->mask);
}

static void call_take(bool detailed, unsigned faulty, unsigned damaged)
{
    uint8_t bytes[MOST_FRAME], *frame;
    size_t m = some_frame(bytes, faulty, damaged);
    bool wrong = begin_call(detailed ? TABLE_TAKE_DETAIL : TABLE_TAKE, 0);
    struct detail detail = { 0 };
    uint32_t library;
    unsigned refusal = 39;

    frame = frame_end - m;
    memcpy(frame, bytes, m);
    memcpy(call->frame, bytes, m);
    call->m = m;
    library = detailed ? qvd_table_take_detail(lent_table, call->n, lent_tally, call->t, frame, m)
                       : qvd_table_take(lent_table, call->n, lent_tally, call->t, frame, m);
    if (!wrong)
        refusal = ref_table_take(&reference_table, bytes, m, &detail);
    if (refusal == 0)
        frame_taken(bytes);
    if (refusal == 4) {
        frames_of_0 += ref_frame_prn(bytes) == 0;
        frames_not_open += ref_place_among_ten(ref_frame_prn(bytes)) < TEN;
    }
    end_call(refusal, library, detailed ? detail_to_number(refusal, &detail) : refusal);
    same_bytes("the frame afterwards", frame, bytes, m);
}

/* The issues of a question, where the library gets them, and as they were drawn. */
static uint16_t *issues, drawn[MOST_ISSUES];

static void lay_issues(unsigned prn)
{
    call->k = some_issues_for(leaning_for(prn), drawn);
    issues = (uint16_t *)(void *)(issues_end - 2 * call->k);
    memcpy(issues, drawn, 2 * call->k);
    now.issues = issues;
    now.issue_count = call->k;
}

static void issues_are_unchanged(void)
{
    same_bytes("the issues afterwards", (uint8_t *)issues, (uint8_t *)drawn, 2 * call->k);
}

/* The right length of a room mostly, else one near it. */
static size_t some_length(size_t right)
{
    return chance(97) ? right : chance(30) ? 0 : chance(50) ? right - 1 : right + 1;
}

static void call_rows(void)
{
    static struct row rows[ASSIGNED_SLOTS];
    unsigned prn = some_prn(75), refusal = 39;
    bool wrong = begin_call(TABLE_ROWS, prn);
    size_t r = call->m = some_length(QVD_ROWS_BYTES), count = 0;
    uint8_t *output = lend(r);
    uint32_t library;

    lay_issues(prn);
    library = qvd_table_rows(lent_table, call->n, lent_tally, call->t, (uint8_t)prn, issues, call->k, output, r);
    if (!wrong && r == QVD_ROWS_BYTES)
        refusal = ref_table_rows(&reference_table, prn, drawn, call->k, rows, &count);
    if (refusal == 0)
        memset(lent.should + MARGIN, 0, r);
    for (size_t i = 0; i < count; i++)
        row_to_bytes(&rows[i], lent.should + MARGIN + i * QVD_ROW_BYTES);
    rows_given += count;
    lent_is_right("rows");
    issues_are_unchanged();
    end_call(refusal, library, refusal);
}

static void call_row(void)
{
    unsigned prn = some_prn(75), refusal = 39, slot = some_slot_for(leaning_for(prn));
    bool wrong = begin_call(TABLE_ROW, prn);
    size_t r = call->m = some_length(QVD_ROW_BYTES);
    uint8_t *output = lend(r);
    struct row row;
    uint32_t library;

    lay_issues(prn);
    call->slot = slot;
    library = qvd_table_row(lent_table, call->n, lent_tally, call->t, (uint8_t)prn, issues, call->k, (uint16_t)slot, output, r);
    if (!wrong && r == QVD_ROW_BYTES)
        refusal = ref_table_row(&reference_table, prn, drawn, call->k, slot, &row);
    if (refusal == 0)
        row_to_bytes(&row, lent.should + MARGIN);
    lent_is_right("row");
    issues_are_unchanged();
    end_call(refusal, library, refusal);
}

static void call_write_sheet(void)
{
    unsigned prn = some_prn(80), refusal = 39;
    bool wrong = begin_call(TABLE_WRITE_SHEET, prn);
    size_t written = 0;
    uint8_t *room;
    uint32_t library;

    lay_issues(prn);
    call->m = some_sheet_room(ref_table_ledger(&reference_table, prn), drawn, call->k);
    room = lend(call->m);
    library = qvd_table_write_sheet(lent_table, call->n, lent_tally, call->t, (uint8_t)prn, issues, call->k, room, call->m);
    if (!wrong)
        refusal = ref_table_write_sheet(&reference_table, prn, drawn, call->k, lent.should + MARGIN, call->m, &written);
    lent_is_right("room");
    issues_are_unchanged();
    end_call(refusal, library, beside_to_number(refusal, written));
}

static void call_check_sheet(void)
{
    static uint8_t bytes[MOST_PARTNERS_SHEET];
    unsigned prn = some_prn(90), refusal = 39;
    bool wrong = begin_call(TABLE_CHECK_SHEET, prn);
    size_t beside = 0;
    uint8_t *sheet;
    uint32_t library;

    lay_issues(prn);
    call->m = some_partners_sheet(ref_table_ledger(&reference_table, prn), drawn, call->k, bytes);
    sheet = sheet_end - call->m;
    memcpy(sheet, bytes, call->m);
    now.input = sheet;
    now.input_bytes = call->m;
    library = qvd_table_check_sheet(lent_table, call->n, lent_tally, call->t, (uint8_t)prn, issues, call->k, sheet, call->m);
    if (!wrong)
        refusal = ref_table_check_sheet(&reference_table, prn, drawn, call->k, bytes, call->m, &beside);
    sheets_accepted += refusal == 0;
    issues_are_unchanged();
    same_bytes("the sheet afterwards", sheet, bytes, call->m);
    end_call(refusal, library, beside_to_number(refusal, beside));
}

/* ---- lists of calls ---- */

static unsigned long calls_of(int which)
{
    unsigned long sum = 0;
    for (int v = 0; v < MOST_VERDICT; v++)
        sum += answers[which][v];
    return sum;
}

static unsigned long all_calls(void)
{
    unsigned long sum = 0;
    for (int c = 0; c < TABLE_CALLS; c++)
        sum += calls_of(c);
    return sum;
}

static void compare_list_of_calls(unsigned length)
{
    unsigned faulty = chance(25) ? 5 : chance(60) ? 30 : 60, damaged = chance(25) ? 0 : 15;
    unsigned closing = chance(70) ? 2 : 7; /* percent of the calls */

    past_calls = 0;
    place_table();
    place_tally();
    for (unsigned place = 0; place < TEN; place++) {
        wants_mask[place] = chance(50);
        lean_anew(place);
    }
    for (unsigned i = 0; i < length; i++) {
        unsigned which = below(100);
        if (i < 3 || which < 7)
            call_open();
        else if (which < 7 + closing)
            call_close();
        else if (which < 19)
            call_rows();
        else if (which < 26)
            call_row();
        else if (which < 32)
            call_write_sheet();
        else if (which < 46)
            call_check_sheet();
        else
            call_take(which >= 73, faulty, damaged);
    }
}

void compare_tables(unsigned long percent)
{
    table_end = room_end(MARGIN + QVD_TABLE_BYTES + BEHIND);
    tally_end = room_end(MARGIN + QVD_TALLY_BYTES + BEHIND);
    frame_end = room_end(MOST_FRAME);
    sheet_end = room_end(MOST_PARTNERS_SHEET);
    begin("table, list of calls");
    now.more = print_past;
    while (all_calls() < 4000 * percent) {
        now.number = lists_made++;
        compare_list_of_calls(chance(20) ? between(1, 40) : between(100, MOST_CALLS));
    }
    now.more = NULL;
    now.issues = NULL;
    now.input = NULL;
}

/* ---- what came of it ---- */

/* The refusals that each call can give; each must have come WANTED times. */
static const uint8_t gives[TABLE_CALLS][16] = {
    { 4, 28, 29, 39 },
    { 30, 39 },
    { 1, 3, 4, 5, 6, 7, 8, 9, 10, 11, 12, 14, 15, 19, 39 },
    { 1, 3, 4, 5, 6, 7, 8, 9, 10, 11, 12, 14, 15, 19, 39 },
    { 1, 17, 30, 39 },
    { 1, 11, 17, 18, 30, 39 },
    { 1, 17, 20, 22, 30, 39 },
    { 1, 17, 20, 23, 24, 25, 26, 27, 30, 39 },
};

/* The second word of a call's name, if it has one. */
static const char *second_word(int which)
{
    const char *bar = strchr(name_of[which], '_');
    return bar == NULL ? "" : bar + 1;
}

void print_tables(void)
{
    printf("%-7s", "table");
    for (int c = 0; c < TABLE_CALLS; c++)
        printf(" %7.*s", (int)strcspn(name_of[c], "_"), name_of[c]);
    printf("      all\n%-7s", "");
    for (int c = 0; c < TABLE_CALLS; c++)
        printf(" %7s", second_word(c));
    printf("\n");
    for (int v = 0; v < MOST_VERDICT; v++) {
        unsigned long all = 0;
        for (int c = 0; c < TABLE_CALLS; c++)
            all += answers[c][v];
        if (all == 0)
            continue;
        if (v == 0)
            printf("%-7s", "taken");
        else
            printf("%-7d", v);
        for (int c = 0; c < TABLE_CALLS; c++)
            printf(" %7lu", answers[c][v]);
        printf(" %8lu\n", all);
    }
    printf("%-7s", "all");
    for (int c = 0; c < TABLE_CALLS; c++)
        printf(" %7lu", calls_of(c));
    printf(" %8lu\n", all_calls());
    printf("tables: %lu lists of calls; after a call none open %lu, one %lu, two %lu, three %lu, four %lu\n", lists_made,
           open_rooms[0], open_rooms[1], open_rooms[2], open_rooms[3], open_rooms[4]);
    printf("tables: %lu opened in a room that was closed, %lu rooms of any bytes, which took %lu frames, %lu rows, %lu sheets accepted\n",
           opened_again, filled_rooms, taken_in_any_bytes, rows_given, sheets_accepted);
    printf("tables: frames refused 4 of PRN 0 %lu, of one of the ten that is not open %lu\n", frames_of_0, frames_not_open);
    printf("tables: of a wrong length %lu, with a foreign PRN %lu, with a PRN twice %lu; tallies of a wrong length %lu, with a wrong table %lu\n",
           wrong_lengths, foreign_prns, prns_twice, wrong_tallies, wrong_both);
    printf("tallies: counters that reached 4294967295 %lu, that stayed there %lu\n", counters_reached_end, counters_at_end);
}

static bool too_seldom(const char *what, unsigned long times)
{
    if (times < WANTED)
        printf("compare: tables: %s came only %lu times\n", what, times);
    return times < WANTED;
}

bool too_few_tables(void)
{
    bool few = false;

    for (int c = 0; c < TABLE_CALLS; c++)
        for (int i = 0; i < 16 && gives[c][i] != 0; i++)
            if (answers[c][gives[c][i]] < WANTED) {
                printf("compare: refusal %d by qvd_table_%s came only %lu times\n", gives[c][i], name_of[c],
                       answers[c][gives[c][i]]);
                few = true;
            }
    for (unsigned open = 0; open <= ROOMS; open++)
        few |= too_seldom("so many rooms open", open_rooms[open]);
    few |= too_seldom("a closed room opened again", opened_again);
    few |= too_seldom("a frame in a room of any bytes", taken_in_any_bytes);
    few |= too_seldom("a frame of PRN 0", frames_of_0);
    few |= too_seldom("a frame of a PRN that is not open", frames_not_open);
    few |= too_seldom("a row", rows_given);
    few |= too_seldom("a sheet that is accepted", sheets_accepted);
    few |= too_seldom("a table of a wrong length", wrong_lengths);
    few |= too_seldom("a foreign PRN in a table", foreign_prns);
    few |= too_seldom("a PRN twice in a table", prns_twice);
    few |= too_seldom("a tally of a wrong length", wrong_tallies);
    few |= too_seldom("a tally of a wrong length with a wrong table", wrong_both);
    few |= too_seldom("a counter that reached its end", counters_reached_end);
    few |= too_seldom("a counter that stayed at its end", counters_at_end);
    if (all_calls() < 100000) {
        printf("compare: only %lu calls on tables\n", all_calls());
        few = true;
    }
    return few;
}
