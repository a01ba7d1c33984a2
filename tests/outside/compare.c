/* Makes many messages, frames, logs, contents, sheets, subframes and issue lists from a fixed seed,
 * good and damaged, hands them to the library and to the independent
 * implementation, and compares verdicts and what they give beside their number,
 * the pieces of torn logs, contents, written bytes, made frames, rows, and that
 * what was lent stays as it was on a refusal.
 *
 *   compare [SEED [PERCENT]]    PERCENT of the standard run's size, 100 if not given
 *
 * Ends with a table of how often each refusal number was compared, and with
 * status 1 at any difference, or if a number came too seldom. */
#include "cnav1.h"
#include "compare.h"
#include "forms.h"
#include "quieuvodan.h"
#include "ref.h"
#include "words.h"

#include <signal.h>
#include <stdio.h>
#include <stdlib.h>
#include <string.h>
#include <sys/mman.h>
#include <unistd.h>

/* ---- random numbers ---- */

static uint64_t seed, random_state;

uint32_t any32(void)
{
    uint64_t z = random_state += UINT64_C(0x9E3779B97F4A7C15);
    z = (z ^ z >> 30) * UINT64_C(0xBF58476D1CE4E5B9);
    z = (z ^ z >> 27) * UINT64_C(0x94D049BB133111EB);
    return (uint32_t)(z >> 32);
}

unsigned below(unsigned n) { return (unsigned)((uint64_t)any32() * n >> 32); }
unsigned between(unsigned low, unsigned high) { return low + below(high - low + 1); }
bool chance(unsigned percent) { return below(100) < percent; }

/* Random numbers are drawn in statements of their own wherever C leaves open
 * which of two draws comes first, so that every compiler makes the same run. */

void any_bytes(uint8_t *bytes, size_t n)
{
    size_t i = 0;
    for (; i + 4 <= n; i += 4) {
        uint32_t four = any32();
        memcpy(bytes + i, &four, 4);
    }
    for (; i < n; i++)
        bytes[i] = (uint8_t)any32();
}

/* Flips so many bits, drawn from a range of them; one may be drawn twice. */
static void flip_bits(uint8_t *bytes, unsigned from, unsigned to, unsigned times)
{
    while (times-- > 0) {
        unsigned bit = between(from, to);
        bytes[bit / 8] ^= (uint8_t)(0x80 >> bit % 8);
    }
}

/* ---- room with a page after it that cannot be touched ---- */

/* Buffers are laid so that they end there, and a call that goes past its buffer
 * stops the run. */
uint8_t *room_end(size_t size)
{
    size_t page = (size_t)sysconf(_SC_PAGESIZE), whole;
    uint8_t *start;
    if (page < 65536)
        page = 65536;
    whole = (size + page - 1) / page * page;
    start = mmap(NULL, whole + page, PROT_READ | PROT_WRITE, MAP_PRIVATE | MAP_ANONYMOUS, -1, 0);
    if (start == MAP_FAILED || mprotect(start + whole, page, PROT_NONE) != 0) {
        perror("compare: room");
        exit(2);
    }
    return start + whole;
}

enum { LOG_FRAMES = 8192 };

static uint8_t *input_end, *message_end, *output_end, *ledger_end, *log_end, *verdicts_end;
uint8_t *issues_end;

/* ---- what is being compared, and the first difference in full ---- */

static const char *const call_name[ALL_CALLS] = {
    "open", "take", "take_detail", "replay", "replay_detail", "read", "read_frame", "read_frame_detail", "write", "rows",
    "row", "d1_read", "d1_write", "read_cnav1", "join_issue", "make_frame", "check_frame", "write_sheet", "read_sheet",
    "check_sheet", "next_piece", "table_open", "table_close", "table_take", "table_take_detail", "table_rows", "table_row",
    "table_write_sheet", "table_check_sheet"
};

unsigned long tally[CALLS][MOST_VERDICT];
static unsigned long comparisons;
unsigned long differences;
static unsigned long lists_with_rows, rows_seen, masks_changed, frames_noise;
static unsigned long rows_of_any_bytes, subframes_corrected, frames_read_back;
static unsigned long fields_at_end[CNAV1_FIELDS][3]; /* of subframes that were taken: smallest, largest, all ones */
static unsigned long pieces_compared, pieces_of_length[FRAME_BYTES + 1], overlaps_seen;

/* How often messages, contents and frames of each type were answered what. */
enum { READING, WRITING, TAKING, DOINGS };
static unsigned long of_type[64][DOINGS][MOST_VERDICT];

/* What messages and contents of type 3 were like, and what the list owes to codes of
 * type 5. Sub-types of type 5 that were read, taken and refused 15. */
enum {
    NO_SATELLITE, MOST_SATELLITES, MOST_BIASES, BLANK_INSIDE, STEPPED_OVER, STEPPED_TOO_FAR, READ_TO_462, READ_PAST_462,
    WRITTEN_TO_462, WRITTEN_PAST_462, BLANK_WITH_COUNT, BLANK_SPARES, WRITTEN_MOST_BIASES, WRITTEN_31, WRITTEN_32,
    LOWEST_BIAS, HIGHEST_BIAS, ROW_BY_CODE, ROW_BY_CODE_ALONE, NO_ROW_BY_CODE, CASES
};
static const char *const case_name[CASES] = {
    "read without satellites", "read with 31", "read with 25 biases", "read with a blank inside",
    "read with a blank's biases stepped over", "refused 9 by a blank's biases alone", "read to bit 462",
    "read to bit 463 or 464 and refused", "written to bit 462", "written to bit 463 or 464 and refused",
    "written with a blank that has a count", "written where a blank's biases would not fit", "written with 25 biases",
    "written with 31 satellites", "refused 16 for 32 satellites", "with bias -2048", "with bias 2047",
    "rows with the URA of a code", "rows by a code alone", "slots that a code keeps out of the list",
};
static unsigned long cases[CASES], subs_read[8], subs_taken[8], subs_refused[8];

/* What came beside the numbers 6 and 19. */
static bool first_seen[GROUPS + 1], failing_seen[GROUPS + 1], places_seen[SLOTS + 1];

struct now now;

/* Each part has random numbers of its own, so that a change to one leaves the
 * others as they were. */
void begin(const char *part)
{
    now.part = part;
    now.log = NULL;
    now.message = NULL;
    now.ledger = NULL;
    now.more = NULL;
    random_state = seed * UINT64_C(0xD1342543DE82EF95);
    while (*part != 0)
        random_state = (random_state ^ (uint8_t)*part++) * UINT64_C(0x100000001B3);
}

static void print_bytes(const char *name, const uint8_t *bytes, size_t n)
{
    printf("  %s (%zu bytes):", name, n);
    for (size_t i = 0; i < n; i++)
        printf("%s%02X", i % 64 == 0 ? "\n    " : "", bytes[i]);
    printf("\n");
}

static void print_case(const char *what)
{
    printf("compare: first difference: %s %lu, qvd_%s: %s\n", now.part, now.number, call_name[now.call], what);
    if (now.call == ROW)
        printf("  slot %u\n", now.slot);
    if (now.call <= REPLAY_DETAIL || now.log != NULL)
        printf("  prn %u\n", now.prn);
    if (now.call == MAKE_FRAME)
        printf("  prn %u, flags %u\n", now.prn, now.flags);
    if (now.call == JOIN_ISSUE)
        printf("  prn %u, IODC %u\n", now.prn, now.iodc);
    if (now.message != NULL)
        print_bytes("message", now.message, now.message_bytes);
    if (now.input != NULL)
        print_bytes("input", now.input, now.input_bytes);
    if (now.ledger != NULL)
        print_bytes("ledger", now.ledger, QVD_LEDGER_BYTES);
    if (now.issues != NULL) {
        printf("  issues (%zu):", now.issue_count);
        for (size_t i = 0; i < now.issue_count; i++)
            printf("%s%u", i % 16 == 0 ? "\n    " : " ", now.issues[i]);
        printf("\n");
    }
    for (size_t at = 0; now.log != NULL && at < now.log_bytes;) {
        size_t n = (size_t)now.log[at] << 8 | now.log[at + 1];
        print_bytes("frame handed in before", now.log + at + 2, n);
        at += 2 + n;
    }
    if (now.more != NULL)
        now.more();
}

void same_number(const char *what, unsigned library, unsigned reference)
{
    comparisons++;
    if (library == reference)
        return;
    if (differences++ == 0) {
        print_case(what);
        printf("  library %u, independent implementation %u\n", library, reference);
    }
}

void same_bytes(const char *what, const uint8_t *library, const uint8_t *reference, size_t n)
{
    comparisons++;
    if (memcmp(library, reference, n) == 0)
        return;
    if (differences++ == 0) {
        size_t at = 0;
        while (library[at] == reference[at])
            at++;
        print_case(what);
        printf("  they differ from byte %zu on\n", at);
        print_bytes("library", library, n);
        print_bytes("should be", reference, n);
    }
}

static void same_verdict(enum call call, unsigned library, unsigned reference)
{
    same_number("verdict", library, reference);
    if (reference < MOST_VERDICT)
        tally[call][reference]++;
}

static void same_detail(enum call call, uint32_t library, unsigned reference, const struct detail *detail)
{
    same_number("verdict and what it gives beside its number", library, detail_to_number(reference, detail));
    tally[call][reference]++;
    first_seen[detail->first] = failing_seen[detail->failing] = places_seen[detail->places] = true;
}

/* A call that went past its buffer ends the run, but not without its case. */
static void stopped(int signal_number)
{
    if (differences == 0)
        print_case("went past a buffer");
    printf("outside: stopped by signal %d after %lu comparisons\n", signal_number, comparisons);
    fflush(stdout);
    _exit(1);
}

struct lent lent;

uint8_t *lend(size_t n)
{
    lent.n = n;
    any_bytes(lent.should, MARGIN + n);
    memcpy(output_end - n - MARGIN, lent.should, MARGIN + n);
    return output_end - n;
}

void lent_is_right(const char *what)
{
    same_bytes(what, output_end - lent.n - MARGIN, lent.should, MARGIN + lent.n);
}

/* ---- a message, bit by bit ---- */

/* What the messages of one log are inclined to say, so that masks, orbits,
 * clocks and issues meet. */
struct leaning {
    bool has_mask;
    uint8_t iod_ssr, iodp;
    unsigned places;
    uint8_t slot_at[SLOTS + 1];
    uint16_t iodn[SLOTS + 1];
    uint8_t iod_corr[SLOTS + 1];
    struct mask pool[6];
    unsigned pool_now;
};

static struct {
    uint8_t bytes[MESSAGE_BYTES];
    size_t at;
    bool faulty; /* slips may happen */
    bool junky;  /* reserved bits are set at random */
} draft;

static void put(unsigned width, uint32_t value)
{
    for (unsigned i = 0; i < width; i++, draft.at++)
        if (draft.at < CHECKED_BITS)
            ref_put_bits(draft.bytes, draft.at, 1, value >> (width - 1 - i) & 1);
}

static void put_reserved(unsigned width)
{
    for (unsigned i = 0; i < width; i++)
        put(1, draft.junky ? any32() & 1 : 0);
}

static bool slip(unsigned percent) { return draft.faulty && chance(percent); }

/* The epoch that this log leans on: most are at or near it, or half a day off, so
 * that records of one issue meet in every way. */
static uint32_t leaning_epoch;

static uint32_t some_epoch(void)
{
    static const uint32_t ahead[] = { 0, 0, 0, 1, 86399, 43199, 43200, 43201 };
    if (slip(8))
        return chance(50) ? 86400 : between(86400, 131071);
    if (chance(50))
        return (leaning_epoch + PICK(ahead)) % 86400;
    return chance(5) ? 86399 : below(86400);
}

static uint32_t some_value(unsigned width)
{
    uint32_t top = UINT32_C(1) << (width - 1);
    switch (below(24)) {
    case 0: return top;           /* the most negative: unusable */
    case 1: return top - 1;
    case 2: return top + 1;
    case 3: return 0;
    case 4: return 2 * top - 1;
    default: return below(2 * top);
    }
}

static unsigned some_ura(void)
{
    switch (below(20)) {
    case 0: return 0;
    case 1: return 63;
    case 2: return 62;
    case 3: return 1;
    default: return below(64);
    }
}

static unsigned some_slot(const struct leaning *l)
{
    if (slip(6))
        return chance(40) ? 256 : between(256, 511);
    if (chance(10))
        return 0;
    if (chance(4))
        return between(175, 255);
    if (l->has_mask && l->places > 0 && chance(80))
        return l->slot_at[between(1, l->places)];
    return between(1, 174);
}

/* A slot that is not among the n before it, unless by a slip. */
static unsigned fresh_slot(const struct leaning *l, const uint16_t *before, unsigned n)
{
    if (n > 0 && slip(6))
        return before[below(n)];
    for (int attempt = 0; attempt < 8; attempt++) {
        unsigned slot = some_slot(l);
        bool used = false;
        for (unsigned i = 0; i < n; i++)
            used = used || before[i] == slot;
        if (slot == 0 || !used)
            return slot;
    }
    return 0;
}

static unsigned some_corr(const struct leaning *l, unsigned slot)
{
    return slot >= 1 && slot <= SLOTS && chance(88) ? l->iod_corr[slot] : below(8);
}

static void put_head(const struct leaning *l)
{
    put(17, some_epoch());
    put_reserved(4);
    put(2, chance(94) ? l->iod_ssr : below(4));
}

static void put_orbits(const struct leaning *l, unsigned count)
{
    uint16_t before[8];
    put_head(l);
    for (unsigned i = 0; i < count; i++) {
        unsigned slot = fresh_slot(l, before, i);
        before[i] = (uint16_t)slot;
        put(9, slot);
        put(10, slot >= 1 && slot <= SLOTS && chance(92) ? l->iodn[slot] : below(1024));
        put(3, some_corr(l, slot));
        put(15, some_value(15));
        put(13, some_value(13));
        put(13, some_value(13));
        put(6, some_ura());
    }
}

static void put_placed_clock(const struct leaning *l, unsigned place)
{
    put(3, some_corr(l, place >= 1 && place <= l->places ? l->slot_at[place] : 0));
    put(15, some_value(15));
}

static void put_mask(struct leaning *l)
{
    const struct mask *mask;
    struct mask changed;

    if (!chance(50))
        l->pool_now = chance(30) ? 0 : below(6);
    mask = &l->pool[l->pool_now];
    if (slip(35)) {
        changed = *mask;
        changed.set[chance(30) ? 175 : chance(30) ? 255 : between(175, 255)] = true;
        mask = &changed;
    }
    put(17, some_epoch());
    put_reserved(4);
    put(2, mask->iod_ssr);
    put(4, mask->iodp);
    for (int slot = 1; slot <= SLOTS; slot++)
        put(1, mask->set[slot]);
}

static void put_mask_names(const struct leaning *l)
{
    put_head(l);
    put(4, chance(94) ? l->iodp : below(16));
}

static void put_type_4(const struct leaning *l)
{
    unsigned subs = (l->places + 22) / 23, sub = subs > 0 ? below(subs) : 0;
    if (slip(15))
        sub = chance(50) ? subs : below(32);
    put_mask_names(l);
    put(5, sub);
    for (unsigned j = 1; j <= CLOCKS; j++)
        put_placed_clock(l, 23 * sub + j);
}

/* Counts for type 6 or 7, that fit unless by a slip. */
static void some_counts(unsigned kind, unsigned most_c, unsigned *num_c, unsigned *num_o)
{
    unsigned fits = 0;
    *num_o = chance(25) ? 0 : below(7);
    while (fits < 31 && ref_end(kind, fits + 1, *num_o) <= CHECKED_BITS)
        fits++;
    if (fits > most_c)
        fits = most_c;
    *num_c = chance(30) ? fits : below(fits + 1);
    if (slip(8))
        *num_c = fits + 1;
    if (slip(4)) {
        *num_c = below(32);
        *num_o = below(8);
    }
}

static void put_type_6(const struct leaning *l)
{
    unsigned num_c, num_o, first = 1;
    some_counts(6, chance(95) ? l->places : 31, &num_c, &num_o);
    if (l->places >= num_c) {
        unsigned last_first = l->places - num_c + 1;
        first = chance(35) ? last_first : between(1, last_first);
        if (slip(50))
            first = chance(70) ? last_first + 1 : between(last_first + 1, SLOTS);
    }
    if (slip(8))
        first = chance(50) ? 0 : chance(50) ? 256 : between(256, 511);
    put(5, num_c);
    put(3, num_o);
    if (num_c > 0) {
        put_mask_names(l);
        put(9, first);
        for (unsigned j = 0; j < num_c; j++)
            put_placed_clock(l, first + j);
    }
    if (num_o > 0)
        put_orbits(l, num_o);
}

static void put_type_7(const struct leaning *l)
{
    unsigned num_c, num_o;
    uint16_t before[32];
    some_counts(7, 31, &num_c, &num_o);
    put(5, num_c);
    put(3, num_o);
    if (num_c > 0) {
        put_head(l);
        for (unsigned j = 0; j < num_c; j++) {
            unsigned slot = fresh_slot(l, before, j);
            before[j] = (uint16_t)slot;
            put(9, slot);
            put(3, some_corr(l, slot));
            put(15, some_value(15));
        }
    }
    if (num_o > 0)
        put_orbits(l, num_o);
}

/* Satellites and biases of a type 3: those that end at bit 462, just before it and
 * just behind it; as many biases as one can hold; or any that fit, or by a slip do not. */
static void some_bias_counts(unsigned *sats, unsigned *biases)
{
    static const uint8_t exact[][2] = { { 12, 17 }, { 28, 4 }, { 7, 21 }, { 23, 8 }, { 2, 25 } };
    static const uint8_t beyond[][2] = { { 17, 13 }, { 17, 13 }, { 6, 22 }, { 6, 22 }, { 6, 22 }, { 22, 9 }, { 3, 25 }, { 2, 26 }, { 31, 2 } };
    const uint8_t *pair = slip(18) ? PICK(beyond) : PICK(exact);
    unsigned most;

    *sats = pair[0];
    *biases = pair[1];
    if (pair[0] * 13u + pair[1] * 16u + 34 > CHECKED_BITS || chance(25))
        return;
    *sats = chance(5) ? 0 : chance(10) ? 31 : chance(50) ? below(8) : below(32);
    most = (CHECKED_BITS - 34 - 13 * *sats) / 16;
    if (most > 15 * *sats)
        most = 15 * *sats;
    *biases = chance(30) ? most : below(most + 1);
    if (slip(4)) {
        *sats = below(32);
        *biases = below(15 * *sats + 1);
    }
}

static uint32_t some_bias(void)
{
    static const uint16_t ends[] = { 0x800, 0x801, 0x7FF, 0, 0xFFF };
    return chance(20) ? PICK(ends) : below(4096);
}

/* Blanks have their share of the biases, or none. */
static void put_type_3(const struct leaning *l)
{
    unsigned sats, biases, blanks = chance(40) ? 0 : chance(50) ? 15 : 50;
    bool bare = chance(30); /* blanks have none, where all fit */
    uint16_t before[32];
    uint8_t count[32] = { 0 };

    some_bias_counts(&sats, &biases);
    for (unsigned i = 0; i < biases && i < 15 * sats; i++) {
        unsigned at = below(sats);
        while (count[at] == 15)
            at = (at + 1) % sats;
        count[at]++;
    }
    put_head(l);
    put(5, sats);
    for (unsigned i = 0; i < sats; i++) {
        unsigned slot = chance(blanks) ? 0 : fresh_slot(l, before, i);
        if (slot == 0 && bare && 34 + 13 * sats + 16 * biases <= CHECKED_BITS)
            count[i] = 0;
        before[i] = (uint16_t)slot;
        put(9, slot);
        put(4, count[i]);
        for (unsigned k = 0; k < count[i]; k++) {
            put(4, below(16));
            put(12, some_bias());
        }
    }
}

static void put_type_5(const struct leaning *l)
{
    unsigned subs = (l->places + 69) / 70, sub = subs > 0 ? below(subs) : 0;
    if (slip(30))
        sub = chance(30) ? subs : below(8);
    put_mask_names(l);
    put(3, sub);
    for (unsigned j = 1; j <= CODES; j++)
        put(6, some_ura());
}

static unsigned some_kind(void)
{
    static const uint8_t good[] = { 1, 2, 2, 2, 2, 3, 3, 3, 4, 4, 4, 4, 4, 5, 5, 5, 6, 6, 6, 6, 7, 7, 7, 7, 63 };
    if (slip(8))
        return 1;
    if (slip(5)) {
        unsigned kind = below(64);
        return chance(30) ? 8 * below(2) : kind;
    }
    return good[below(sizeof good)];
}

static void put_check(void) { ref_put_bits(draft.bytes, CHECKED_BITS, 24, ref_check(draft.bytes)); }

/* A message into draft.bytes; kind 0 is any. */
static void make_message(struct leaning *l, unsigned kind, unsigned faulty_percent)
{
    memset(&draft, 0, sizeof draft);
    draft.faulty = chance(faulty_percent);
    draft.junky = chance(30);
    if (kind == 0)
        kind = some_kind();
    put(6, kind);
    if (slip(2)) {
        while (draft.at < CHECKED_BITS)
            put(1, any32() & 1);
    } else {
        switch (kind) {
        case 1: put_mask(l); break;
        case 2: put_orbits(l, ORBITS); break;
        case 3: put_type_3(l); break;
        case 4: put_type_4(l); break;
        case 5: put_type_5(l); break;
        case 6: put_type_6(l); break;
        case 7: put_type_7(l); break;
        default: break;
        }
    }
    if (draft.at < CHECKED_BITS)
        put_reserved((unsigned)(CHECKED_BITS - draft.at));
    put_check();
    if (slip(6)) {
        if (chance(50))
            ref_put_bits(draft.bytes, CHECKED_BITS, 24, ref_check(draft.bytes) ^ (1u << below(24)));
        else
            flip_bits(draft.bytes, 0, CHECKED_BITS - 1, 1);
    }
}

/* ---- masks and leanings ---- */

static unsigned some_mask_size(void)
{
    static const uint8_t sizes[] = { 0,  1,   2,   22,  23,  24,  45,  46,  47,  48,  68,  69,  70,  71,  92,
                                     115, 138, 139, 140, 141, 161, 162, 173, 174, 175, 210, 211, 230, 254, 255 };
    return chance(60) ? sizes[below(sizeof sizes)] : chance(70) ? between(4, 60) : below(256);
}

static void some_mask(struct mask *mask)
{
    unsigned left = some_mask_size();
    unsigned slots = left > ASSIGNED_SLOTS || chance(30) ? SLOTS : ASSIGNED_SLOTS; /* some masks have reserved bits */
    memset(mask, 0, sizeof *mask);
    mask->iod_ssr = (uint8_t)below(4);
    mask->iodp = (uint8_t)below(16);
    /* Each slot is taken with the chance that the number still wanted needs. */
    for (unsigned slot = 1; slot <= slots; slot++)
        if (below(slots + 1 - slot) < left) {
            mask->set[slot] = true;
            left--;
        }
}

static void lean_on_mask(struct leaning *l, const struct mask *mask)
{
    l->has_mask = true;
    l->iod_ssr = mask->iod_ssr;
    l->iodp = mask->iodp;
    l->places = 0;
    for (int slot = 1; slot <= SLOTS; slot++)
        if (mask->set[slot])
            l->slot_at[++l->places] = (uint8_t)slot;
}

/* A pool of masks that differ little: the first; then in IODP, in IOD SSR, in
 * one bit alone; then another altogether; then the first with its last bit the
 * other way and another IODP. */
static void some_leaning(struct leaning *l)
{
    unsigned corrs = 1 + below(3), slot;
    memset(l, 0, sizeof *l);
    leaning_epoch = chance(20) ? (chance(50) ? 0 : 86399) : below(86400);
    some_mask(&l->pool[0]);
    for (int i = 1; i < 6; i++)
        l->pool[i] = l->pool[0];
    l->pool[1].iodp = (uint8_t)((l->pool[0].iodp + 1) % 16);
    l->pool[2].iod_ssr = (uint8_t)((l->pool[0].iod_ssr + 1) % 4);
    slot = chance(20) ? 1 : chance(20) ? ASSIGNED_SLOTS : chance(20) ? SLOTS : between(1, SLOTS);
    l->pool[3].set[slot] = !l->pool[3].set[slot];
    some_mask(&l->pool[4]);
    l->pool[5].iodp = (uint8_t)((l->pool[0].iodp + 15) % 16);
    l->pool[5].set[SLOTS] = !l->pool[5].set[SLOTS];
    lean_on_mask(l, &l->pool[0]);
    l->has_mask = chance(90);
    for (int i = 0; i <= SLOTS; i++) {
        l->iodn[i] = (uint16_t)(chance(10) ? (chance(50) ? 0 : 1023) : below(1024));
        l->iod_corr[i] = (uint8_t)below(corrs);
    }
}

/* ---- damage to a frame ---- */

/* Damages a frame in one or several ways; what it answers is its length. */
static size_t damage(uint8_t *frame, size_t most)
{
    size_t length = FRAME_BYTES;
    bool several = chance(25);
    unsigned group;
    do {
        switch (below(8)) {
        case 0: flip_bits(frame, 0, 15, 1 + below(2)); break;
        case 1: ref_put_bits(frame, 16, 6, chance(50) ? below(64) : chance(50) ? 59 : 1 + below(5)); break;
        case 2: ref_put_bits(frame, 22, 1, 1); break;
        case 3: flip_bits(frame, 28, 28 + 485, 1 + below(3)); break;
        case 4: flip_bits(frame, 28 + 486, 999, 1 + below(3)); break;
        case 5: group = below(GROUPS); ref_spoil(frame, group, (uint8_t)between(1, 63)); break;
        case 6:
            if (chance(30)) {
                any_bytes(frame, FRAME_BYTES);
                frames_noise++;
            } else {
                flip_bits(frame, 0, 999, 1 + below(40));
            }
            break;
        default:
            length = chance(30) ? below(FRAME_BYTES)
                   : chance(40) ? FRAME_BYTES - 1
                   : chance(60) ? FRAME_BYTES + 1
                                : between(FRAME_BYTES + 1, (unsigned)most);
            break;
        }
    } while (several && chance(60));
    return length;
}

/* ---- messages and frames without a ledger ---- */

/* What the type 3 of 61 bytes is like that was answered so. */
static void count_biases_read(const uint8_t *message, unsigned verdict)
{
    unsigned sats = ref_get_bits(message, 29, 5), at = 34, written = 34, biases = 0, stepped = 0, i = 0;
    bool blank = false, inside = false;

    for (; i < sats && at + 13 <= CHECKED_BITS; i++) {
        unsigned slot = ref_get_bits(message, at, 9), count = ref_get_bits(message, at + 9, 4);
        at += 13 + 16 * count;
        written += 13 + (slot == 0 ? 0 : 16 * count);
        biases += slot == 0 ? 0 : count;
        stepped += slot == 0 ? count : 0;
        inside = inside || (blank && slot != 0);
        blank = blank || slot == 0;
    }
    if (verdict == 9 && i == sats) {
        cases[READ_PAST_462] += at == 463 || at == 464;
        cases[STEPPED_TOO_FAR] += written <= CHECKED_BITS;
    }
    if (verdict != 0)
        return;
    cases[NO_SATELLITE] += sats == 0;
    cases[MOST_SATELLITES] += sats == BIAS_SATS;
    cases[MOST_BIASES] += biases == BIASES;
    cases[BLANK_INSIDE] += inside;
    cases[STEPPED_OVER] += stepped > 0;
    cases[READ_TO_462] += at == CHECKED_BITS;
}

/* A message of so many bytes and a frame of so many, by their type. */
static void count_message(enum call call, const uint8_t *bytes, size_t n, unsigned verdict)
{
    bool message = call == READ;
    unsigned kind;
    if (n != (message ? (size_t)MESSAGE_BYTES : (size_t)FRAME_BYTES))
        return;
    kind = message ? ref_get_bits(bytes, 0, 6) : ref_frame_type(bytes);
    of_type[kind][call == TAKE || call == TAKE_DETAIL ? TAKING : READING][verdict]++;
    if (message && kind == 3)
        count_biases_read(bytes, verdict);
    if (message && kind == 5)
        subs_read[ref_get_bits(bytes, 33, 3)] += verdict == 0;
    if (!message && kind == 5 && (call == TAKE || call == TAKE_DETAIL)) {
        subs_taken[ref_get_bits(bytes, 28 + 33, 3)] += verdict == 0;
        subs_refused[ref_get_bits(bytes, 28 + 33, 3)] += verdict == 15;
    }
}

/* By qvd_read, qvd_read_frame or qvd_read_frame_detail. */
static void compare_reading(enum call call, const uint8_t *bytes, size_t n)
{
    uint8_t *input = input_end - n, *output;
    struct contents c;
    struct detail detail = { 0 };
    size_t room = chance(1) ? (chance(50) ? QVD_CONTENTS_BYTES - 1 : QVD_CONTENTS_BYTES + below(8)) : QVD_CONTENTS_BYTES;
    uint32_t library;
    unsigned reference = 39;

    memcpy(input, bytes, n);
    output = lend(room);
    now.call = call;
    now.input = input;
    now.input_bytes = n;
    now.issues = NULL;
    library = call == READ       ? qvd_read(input, n, output, room)
            : call == READ_FRAME ? qvd_read_frame(input, n, output, room)
                                 : qvd_read_frame_detail(input, n, output, room);
    if (room == QVD_CONTENTS_BYTES)
        reference = call == READ ? ref_read(bytes, n, &c) : ref_read_frame_detail(bytes, n, &c, &detail);
    if (reference == 0)
        contents_to_bytes(&c, lent.should + MARGIN);
    if (call == READ_FRAME_DETAIL)
        same_detail(call, library, reference, &detail);
    else
        same_verdict(call, library, reference);
    count_message(call, bytes, n, reference);
    lent_is_right("contents");
    same_bytes("the input afterwards", input, bytes, n);
}

static void compare_messages(unsigned long count)
{
    struct leaning l;
    uint8_t bytes[256];

    begin("message");
    for (unsigned long i = 0; i < count; i++) {
        size_t n = MESSAGE_BYTES;
        now.number = i;
        if (i % 50 == 0)
            some_leaning(&l);
        make_message(&l, 0, 40);
        any_bytes(bytes, sizeof bytes);
        memcpy(bytes, draft.bytes, MESSAGE_BYTES);
        if (chance(5))
            bytes[MESSAGE_BYTES - 1] |= (uint8_t)between(1, 3);
        if (chance(4))
            flip_bits(bytes, 0, 8 * MESSAGE_BYTES - 1, 1);
        if (chance(3))
            n = chance(50) ? (chance(50) ? 60 : 62) : below(sizeof bytes);
        compare_reading(READ, bytes, n);
    }
}

static void compare_frames(unsigned long count)
{
    struct leaning l;
    uint8_t bytes[256];

    begin("frame");
    for (unsigned long i = 0; i < count; i++) {
        size_t n = FRAME_BYTES;
        unsigned prn = below(64);
        now.number = i;
        if (i % 50 == 0)
            some_leaning(&l);
        make_message(&l, 0, 50);
        any_bytes(bytes, sizeof bytes);
        ref_encode(draft.bytes, prn, chance(70) ? 0 : below(32), bytes);
        if (chance(25))
            n = damage(bytes, sizeof bytes);
        compare_reading(READ_FRAME, bytes, n);
        compare_reading(READ_FRAME_DETAIL, bytes, n);
    }
}

/* ---- writing ---- */

/* Where the fields lie in the form of contents. */
enum {
    F_KIND = 0,
    F_MASK = 1,
    F_BITS = 7,
    F_CLOCKS = 39,
    F_FIRST = 45,
    F_NUM_C = 47,
    F_CLOCK = 48,
    F_ORBITS = 163,
    F_NUM_O = 168,
    F_ORBIT = 169,
    F_BIASES = 265,
    F_SATS = 270,
    F_SAT = 271,
    F_BIAS = 364,
    F_CODES = 439,
    F_CODE = 446,
    MASK_BYTES = 32
};

static void form_put(uint8_t *form, size_t at, int size, uint32_t value)
{
    for (int i = 0; i < size; i++)
        form[at + (size_t)i] = (uint8_t)(value >> 8 * (size - 1 - i));
}

static void tweak_head(uint8_t *form, size_t part)
{
    static const uint32_t epochs[] = { 0, 86399, 86400, 86401, 131071, 131072, 0x15180 << 8, 0xFFFFFFFF };
    static const uint8_t ssrs[] = { 0, 3, 4, 7, 255 };
    if (chance(60))
        form_put(form, part, 4, PICK(epochs));
    else
        form_put(form, part + 4, 1, PICK(ssrs));
}

static void tweak_slot(uint8_t *form, size_t at, size_t other)
{
    static const uint16_t slots[] = { 0, 1, 63, 174, 175, 255, 256, 257, 511, 512, 65535 };
    if (chance(40))
        memmove(form + at, form + other, 2);
    else
        form_put(form, at, 2, PICK(slots));
}

static void tweak_clock(uint8_t *form)
{
    static const uint16_t values[] = { 0, 16383, 16384, 49152, 49151, 32767, 32768, 65535 };
    static const uint8_t corrs[] = { 0, 7, 8, 255 };
    unsigned most = form[F_NUM_C] > 0 && form[F_NUM_C] <= CLOCKS ? form[F_NUM_C] : CLOCKS;
    unsigned which = chance(80) ? below(most) : below(CLOCKS);
    size_t at = F_CLOCK + 5 * (size_t)which;
    switch (below(3)) {
    case 0: tweak_slot(form, at, F_CLOCK + 5 * (size_t)below(most)); break;
    case 1: form_put(form, at + 2, 1, PICK(corrs)); break;
    default: form_put(form, at + 3, 2, PICK(values)); break;
    }
}

static uint32_t some_quarters(void)
{
    static const uint32_t odd[] = { 0, 1, 2, 58, 59, 60, 21865, 21866, 21867, 24053, 65536 + 59, 0xFFFFFFFF };
    uint32_t more = chance(20) ? 1 : 0;
    return chance(60) ? ref_ura(between(1, 62)).quarters + more : PICK(odd);
}

static void tweak_orbit(uint8_t *form)
{
    static const uint16_t radials[] = { 0, 16383, 16384, 49152, 49151, 32767, 32768, 65535 };
    static const uint16_t others[] = { 0, 4095, 4096, 61440, 61439, 32767, 32768, 65535 };
    static const uint16_t iodns[] = { 0, 1023, 1024, 65535 };
    static const uint8_t corrs[] = { 0, 7, 8, 255 };
    unsigned most = form[F_NUM_O] > 0 && form[F_NUM_O] <= ORBITS ? form[F_NUM_O] : ORBITS;
    unsigned which = chance(80) ? below(most) : below(ORBITS);
    size_t at = F_ORBIT + 16 * (size_t)which;
    switch (below(8)) {
    case 0:
    case 1: tweak_slot(form, at, F_ORBIT + 16 * (size_t)below(most)); break;
    case 2: form_put(form, at + 2, 2, PICK(iodns)); break;
    case 3: form_put(form, at + 4, 1, PICK(corrs)); break;
    case 4: form_put(form, at + 5, 2, PICK(radials)); break;
    case 5: at += chance(50) ? 7 : 9; form_put(form, at, 2, PICK(others)); break;
    case 6:
        form_put(form, at + 11, 1, URA_QUARTERS);
        form_put(form, at + 12, 4, some_quarters());
        break;
    default: form_put(form, at + 11, 1, below(3)); break;
    }
}

static void tweak_mask(uint8_t *form)
{
    static const uint8_t iodps[] = { 0, 15, 16, 255 };
    static const uint8_t bits[] = { 0, 1, 1, 2, 128, 255 };
    unsigned slot;
    switch (below(5)) {
    case 0: tweak_head(form, F_MASK); break;
    case 1: form_put(form, F_MASK + 5, 1, PICK(iodps)); break;
    case 2: form[F_BITS + below(MASK_BYTES)] = PICK(bits); break;
    case 3: form[F_BITS + MASK_BYTES - 1] |= 1; break; /* the bit of no slot */
    default:
        slot = chance(50) ? between(174, 175) : between(1, 255);
        form[F_BITS + (slot - 1) / 8] ^= (uint8_t)(128 >> (slot - 1) % 8);
        break;
    }
}

static void tweak_clocks(uint8_t *form)
{
    static const uint8_t iodps[] = { 0, 15, 16, 255 };
    static const uint16_t firsts[] = { 0, 1, 31, 32, 255, 256, 511, 512, 65535 };
    switch (below(7)) {
    case 0:
    case 1: tweak_head(form, F_CLOCKS); break;
    case 2: form_put(form, F_CLOCKS + 5, 1, PICK(iodps)); break;
    case 3: form_put(form, F_FIRST, 2, PICK(firsts)); break;
    default: tweak_clock(form); break;
    }
}

static void tweak_orbits(uint8_t *form)
{
    if (chance(25))
        tweak_head(form, F_ORBITS);
    else
        tweak_orbit(form);
}

static unsigned form_slot(const uint8_t *form, size_t at) { return (unsigned)form[at] << 8 | form[at + 1]; }

/* The biases of a type 3's satellites that are no blanks. */
static unsigned form_biases(const uint8_t *form)
{
    unsigned biases = 0;
    for (unsigned i = 0; i < form[F_SATS] && i < BIAS_SATS; i++)
        if (form_slot(form, F_SAT + 3 * (size_t)i) != 0)
            biases += form[F_SAT + 3 * (size_t)i + 2];
    return biases;
}

/* Satellites and biases that end at bit 462 or just behind it, are the most that
 * there can be, or one more; some satellites are blanks that have a count of their own. */
static void tweak_bias_counts(uint8_t *form)
{
    static const uint8_t pairs[][2] = { { 12, 17 }, { 28, 4 }, { 17, 13 }, { 6, 22 }, { 22, 9 }, { 2, 25 }, { 2, 26 },
                                        { 31, 1 }, { 31, 2 }, { 32, 0 }, { 32, 0 }, { 32, 0 }, { 32, 1 }, { 33, 0 } };
    const uint8_t *pair = PICK(pairs);
    unsigned sats = pair[0] < BIAS_SATS ? pair[0] : BIAS_SATS, blanks = chance(50) ? 0 : chance(50) ? 20 : 60, named = 0;

    form[F_SATS] = pair[0];
    for (unsigned i = 0; i < BIAS_SATS; i++) {
        size_t at = F_SAT + 3 * (size_t)i;
        bool blank = i + 1 < sats && chance(blanks);
        form_put(form, at, 2, blank ? 0 : 1 + 8 * i + below(8));
        form_put(form, at + 2, 1, blank ? below(16) : 0);
        named += i < sats && !blank;
    }
    for (unsigned left = pair[1], i = 0; left > 0 && left <= 15 * named; i = (i + 1) % sats)
        if (form_slot(form, F_SAT + 3 * (size_t)i) != 0 && form[F_SAT + 3 * (size_t)i + 2] < 15 && chance(50)) {
            form[F_SAT + 3 * (size_t)i + 2]++;
            left--;
        }
    for (unsigned i = 0; i < BIASES; i++) {
        form_put(form, F_BIAS + 3 * (size_t)i, 1, below(16));
        form_put(form, F_BIAS + 3 * (size_t)i + 1, 2, below(4096) - 2048u);
    }
}

static void tweak_biases(uint8_t *form)
{
    static const uint8_t counts[] = { 0, 1, 14, 15, 16, 17, 24, 25, 26, 255 };
    static const uint8_t sats[] = { 0, 1, 2, 30, 31, 32, 33, 34, 255 };
    static const uint8_t modes[] = { 0, 15, 16, 17, 128, 255 };
    static const uint16_t values[] = { 0, 2047, 2048, 63488, 63487, 4095, 4096, 32767, 32768, 65535 };
    unsigned most = form[F_SATS] > 0 && form[F_SATS] <= BIAS_SATS ? form[F_SATS] : BIAS_SATS, biases = form_biases(form);
    size_t sat = F_SAT + 3 * (size_t)(chance(85) ? below(most) : below(BIAS_SATS));
    size_t bias = F_BIAS + 3 * (size_t)(biases > 0 && biases <= BIASES && chance(85) ? below(biases) : below(BIASES));
    switch (below(16)) {
    case 0:
    case 1: tweak_head(form, F_BIASES); break;
    case 2:
    case 3:
    case 4:
    case 13:
    case 14: tweak_slot(form, sat, F_SAT + 3 * (size_t)below(most)); break;
    case 5: form_put(form, sat + 2, 1, PICK(counts)); break;
    case 6: form_put(form, F_SATS, 1, PICK(sats)); break;
    case 7: form_put(form, bias, 1, PICK(modes)); break;
    case 8:
    case 9: form_put(form, bias + 1, 2, PICK(values)); break;
    default: tweak_bias_counts(form); break;
    }
}

static void tweak_codes(uint8_t *form)
{
    static const uint8_t iodps[] = { 0, 15, 16, 255 };
    static const uint8_t subs[] = { 0, 1, 3, 4, 7, 8, 255 };
    static const uint8_t codes[] = { 0, 1, 62, 63, 64, 127, 128, 255 };
    switch (below(6)) {
    case 0:
    case 1: tweak_head(form, F_CODES); break;
    case 2: form_put(form, F_CODES + 5, 1, PICK(iodps)); break;
    case 3: form_put(form, F_CODES + 6, 1, PICK(subs)); break;
    default: {
        size_t at = F_CODE + (chance(20) ? 0 : chance(20) ? CODES - 1 : below(CODES));
        form_put(form, at, 1, PICK(codes));
        break;
    }
    }
}

/* The counts of a type 6 or 7 that just fit, or just do not. */
static void tweak_counts(uint8_t *form)
{
    unsigned num_c = 0, num_o = below(7);
    while (num_c < CLOCKS && ref_end(form[F_KIND], num_c + 1, num_o) <= CHECKED_BITS)
        num_c++;
    form_put(form, F_NUM_C, 1, num_c + below(2));
    form_put(form, F_NUM_O, 1, num_o);
    if (chance(80))
        form_put(form, F_FIRST, 2, between(1, 255));
}

/* Changes one field, mostly of a part that the type has. */
static void tweak(uint8_t *form)
{
    static const uint8_t counts[] = { 0, 1, 2, 3, 5, 6, 7, 8, 15, 16, 22, 23, 24, 31, 32, 255 };
    static const uint8_t kinds[] = { 0, 1, 2, 3, 4, 5, 6, 7, 8, 62, 63, 64, 255 };
    unsigned kind = form[F_KIND];

    if (chance(5)) {
        form_put(form, F_KIND, 1, PICK(kinds));
    } else if ((kind == 6 || kind == 7) && chance(12)) {
        tweak_counts(form);
    } else if (chance(8)) {
        size_t which = chance(50) ? F_NUM_C : F_NUM_O;
        form_put(form, which, 1, PICK(counts));
    } else if (kind == 1 && chance(90)) {
        tweak_mask(form);
    } else if (kind == 2 && chance(90)) {
        tweak_orbits(form);
    } else if (kind == 4 && chance(90)) {
        tweak_clocks(form);
    } else if (kind == 3 && chance(90)) {
        tweak_biases(form);
    } else if (kind == 5 && chance(90)) {
        tweak_codes(form);
    } else {
        switch (below(11)) {
        case 0: tweak_mask(form); break;
        case 9: tweak_biases(form); break;
        case 10: tweak_codes(form); break;
        case 1:
        case 2:
        case 3:
        case 4: tweak_clocks(form); break;
        default: tweak_orbits(form); break;
        }
    }
}

static void keep(uint8_t *form, const uint8_t *from, size_t at, size_t n) { memcpy(form + at, from + at, n); }

/* Puts random bytes wherever writing does not look. */
static void junk_unread(uint8_t *form)
{
    uint8_t from[QVD_CONTENTS_BYTES];
    unsigned kind = form[F_KIND], num_c = 0, num_o = 0;

    memcpy(from, form, sizeof from);
    any_bytes(form, QVD_CONTENTS_BYTES);
    form[F_KIND] = (uint8_t)kind;
    if (kind == 1) {
        keep(form, from, F_MASK, 6 + MASK_BYTES);
    } else if (kind == 2) {
        num_o = ORBITS;
    } else if (kind == 4) {
        num_c = CLOCKS;
    } else if (kind == 6 || kind == 7) {
        keep(form, from, F_NUM_C, 1);
        keep(form, from, F_NUM_O, 1);
        num_c = form[F_NUM_C] < CLOCKS ? form[F_NUM_C] : CLOCKS;
        num_o = form[F_NUM_O] < ORBITS ? form[F_NUM_O] : ORBITS;
    }
    if (kind == 3) {
        keep(form, from, F_BIASES, F_SAT - F_BIASES);
        for (unsigned i = 0; i < form[F_SATS] && i < BIAS_SATS; i++) {
            size_t at = F_SAT + 3 * (size_t)i;
            keep(form, from, at, from[at] == 0 && from[at + 1] == 0 ? 2 : 3);
        }
        for (unsigned i = 0; i < form_biases(from) && i < BIASES; i++)
            keep(form, from, F_BIAS + 3 * (size_t)i, 3);
    } else if (kind == 5) {
        keep(form, from, F_CODES, QVD_CONTENTS_BYTES - F_CODES);
    }
    if (num_c > 0) {
        keep(form, from, F_CLOCKS, 5);
        if (kind != 7)
            keep(form, from, F_CLOCKS + 5, 3);
    }
    for (unsigned i = 0; i < num_c; i++) {
        size_t at = F_CLOCK + 5 * (size_t)i;
        if (kind == 7)
            keep(form, from, at, 2);
        if (kind != 7 || form[at] != 0 || form[at + 1] != 0)
            keep(form, from, at + 2, 3);
    }
    if (num_o > 0)
        keep(form, from, F_ORBITS, 5);
    for (unsigned i = 0; i < num_o; i++) {
        size_t at = F_ORBIT + 16 * (size_t)i;
        keep(form, from, at, 2);
        if (form[at] != 0 || form[at + 1] != 0)
            keep(form, from, at + 2, from[at + 11] == URA_QUARTERS ? 14 : 10);
    }
}

/* What the contents of type 3 are like that were answered so. */
static void count_biases_written(const uint8_t *form, unsigned verdict)
{
    unsigned sats = form[F_SATS], biases = form_biases(form), end = 34 + 13 * sats + 16 * biases, spared = 0;

    for (unsigned i = 0; i < sats && i < BIAS_SATS; i++)
        if (form_slot(form, F_SAT + 3 * (size_t)i) == 0)
            spared += form[F_SAT + 3 * (size_t)i + 2];
    cases[WRITTEN_PAST_462] += verdict == 9 && (end == 463 || end == 464);
    cases[WRITTEN_32] += verdict == 16 && sats == 32;
    if (verdict != 0)
        return;
    cases[WRITTEN_TO_462] += end == CHECKED_BITS;
    cases[BLANK_WITH_COUNT] += spared > 0;
    cases[BLANK_SPARES] += end + 16 * spared > CHECKED_BITS;
    cases[WRITTEN_MOST_BIASES] += biases == BIASES;
    cases[WRITTEN_31] += sats == BIAS_SATS;
    for (unsigned i = 0; i < biases; i++) {
        cases[LOWEST_BIAS] += form_slot(form, F_BIAS + 3 * (size_t)i + 1) == 63488;
        cases[HIGHEST_BIAS] += form_slot(form, F_BIAS + 3 * (size_t)i + 1) == 2047;
    }
}

static void compare_writing(const uint8_t *form, size_t n, size_t room)
{
    uint8_t *input = input_end - n, *output;
    struct contents c;
    unsigned library, reference = 39;

    memcpy(input, form, n);
    output = lend(room);
    now.call = WRITE;
    now.input = input;
    now.input_bytes = n;
    now.issues = NULL;
    library = qvd_write(input, n, output, room);
    if (n == QVD_CONTENTS_BYTES) {
        contents_from_bytes(form, &c);
        reference = ref_write(&c, lent.should + MARGIN, room);
    }
    same_verdict(WRITE, library, reference);
    if (n == QVD_CONTENTS_BYTES && form[F_KIND] < 64)
        of_type[form[F_KIND]][WRITING][reference]++;
    if (n == QVD_CONTENTS_BYTES && form[F_KIND] == 3)
        count_biases_written(form, reference);
    lent_is_right("room");
    same_bytes("the input afterwards", input, form, n);
}

static void compare_writes(unsigned long count)
{
    static const uint8_t kinds[] = { 1, 1, 1, 2, 2, 2, 3, 3, 3, 3, 3, 3, 4, 4, 4, 5, 5, 5, 5, 6, 6, 6, 6, 7, 7, 7, 7, 63 };
    struct leaning l;
    struct contents c;
    uint8_t form[QVD_CONTENTS_BYTES + 8];

    begin("contents");
    for (unsigned long i = 0; i < count; i++) {
        size_t n = QVD_CONTENTS_BYTES, room = MESSAGE_BYTES;
        now.number = i;
        if (i % 50 == 0)
            some_leaning(&l);
        do
            make_message(&l, PICK(kinds), 0);
        while (ref_read(draft.bytes, MESSAGE_BYTES, &c) != 0);
        any_bytes(form, sizeof form);
        contents_to_bytes(&c, form);
        if (chance(60)) {
            do
                tweak(form);
            while (chance(40));
        }
        if (chance(50))
            junk_unread(form);
        if (chance(1))
            n = QVD_CONTENTS_BYTES - 2 + below(8);
        if (chance(4))
            room = chance(60) ? (chance(50) ? 60 : 62) : below(128);
        compare_writing(form, n, room);
        /* What was written is read again. */
        if (room == MESSAGE_BYTES && n == QVD_CONTENTS_BYTES && chance(20)) {
            uint8_t written[MESSAGE_BYTES];
            memcpy(written, lent.should + MARGIN, MESSAGE_BYTES);
            written[MESSAGE_BYTES - 1] &= 0xFC;
            compare_reading(READ, written, MESSAGE_BYTES);
        }
    }
}

/* ---- the ledger and its list ---- */

uint8_t *ledger;
struct ledger reference_ledger;
static uint8_t ledger_before[MARGIN + MOST_LEDGER];

void place_ledger(void)
{
    ledger = ledger_end - QVD_LEDGER_BYTES - (chance(50) ? 0 : below(9));
    any_bytes(ledger - MARGIN, (size_t)(ledger_end - ledger) + MARGIN);
}

void remember_ledger(void)
{
    memcpy(ledger_before, ledger - MARGIN, (size_t)(ledger_end - ledger) + MARGIN);
}

void ledger_is_unchanged(void)
{
    same_bytes("the ledger afterwards", ledger - MARGIN, ledger_before, (size_t)(ledger_end - ledger) + MARGIN);
}

static void margins_are_unchanged(void)
{
    size_t after = (size_t)(ledger_end - ledger) - QVD_LEDGER_BYTES;
    same_bytes("before the ledger", ledger - MARGIN, ledger_before, MARGIN);
    if (after > 0)
        same_bytes("after the ledger", ledger + QVD_LEDGER_BYTES, ledger_before + MARGIN + QVD_LEDGER_BYTES, after);
}

/* A length that is not the ledger's, now and then. */
size_t some_ledger_length(void)
{
    size_t room = (size_t)(ledger_end - ledger);
    if (!chance(1))
        return QVD_LEDGER_BYTES;
    return chance(30) ? 0 : chance(50) ? QVD_LEDGER_BYTES - 1 : room;
}

/* Opens; whether there is then a ledger is answered. */
static bool compare_open(unsigned prn)
{
    size_t n = some_ledger_length();
    unsigned library, reference = 39;

    now.call = OPEN;
    now.input = NULL;
    now.issues = NULL;
    now.prn = prn;
    remember_ledger();
    library = qvd_open(ledger, n, (uint8_t)prn);
    if (n == QVD_LEDGER_BYTES)
        reference = ref_open(&reference_ledger, prn);
    same_verdict(OPEN, library, reference);
    if (reference != 0)
        ledger_is_unchanged();
    else
        margins_are_unchanged();
    return reference == 0;
}

/* By qvd_take or, with `detailed`, by qvd_take_detail. */
static void compare_take(const uint8_t *frame, size_t m, bool detailed)
{
    uint8_t *input = input_end - m;
    size_t n = some_ledger_length();
    struct detail detail = { 0 };
    uint32_t library;
    unsigned reference = 39;

    memcpy(input, frame, m);
    now.call = detailed ? TAKE_DETAIL : TAKE;
    now.input = input;
    now.input_bytes = m;
    now.issues = NULL;
    remember_ledger();
    library = detailed ? qvd_take_detail(ledger, n, input, m) : qvd_take(ledger, n, input, m);
    if (n == QVD_LEDGER_BYTES)
        reference = ref_take_detail(&reference_ledger, frame, m, &detail);
    if (detailed)
        same_detail(TAKE_DETAIL, library, reference, &detail);
    else
        same_verdict(TAKE, library, reference);
    count_message(now.call, frame, m, reference);
    if (reference != 0)
        ledger_is_unchanged();
    else
        margins_are_unchanged();
    same_bytes("the input afterwards", input, frame, m);
}

/* Issues that mostly meet the leaning's IODN; now and then a wrong one or a
 * wrong number of them. Their number is answered. */
static size_t some_issues(const struct leaning *l, uint16_t issues[SLOTS + 8])
{
    bool sparse = chance(10), wrong = chance(7);
    for (unsigned i = 0; i < SLOTS + 8; i++) {
        unsigned slot = i + 1;
        issues[i] = slot > SLOTS || sparse || chance(4) ? (uint16_t)(chance(50) ? NO_ISSUE : below(1024)) : l->iodn[slot];
    }
    if (wrong) {
        unsigned at = chance(20) ? 0 : chance(20) ? SLOTS - 1 : below(SLOTS);
        issues[at] = (uint16_t)(chance(30) ? 1024 : chance(30) ? 65534 : between(1024, 65534));
    }
    return chance(96) ? SLOTS : chance(50) ? (chance(50) ? SLOTS - 1 : SLOTS + 1) : below(SLOTS + 8);
}

/* What the list owes to codes. */
static void count_codes(const uint16_t *issues, const struct row *rows, size_t count)
{
    for (size_t i = 0; i < count; i++) {
        unsigned slot = rows[i].slot;
        cases[ROW_BY_CODE] += reference_ledger.code[slot].held;
        cases[ROW_BY_CODE_ALONE] +=
            reference_ledger.code[slot].held && reference_ledger.orbit[slot].record.ura.kind == URA_UNKNOWN;
    }
    for (unsigned slot = 1; reference_ledger.has_mask && slot <= ASSIGNED_SLOTS; slot++) {
        struct held_code *code = &reference_ledger.code[slot];
        if (!code->held || code->code != 0 || !reference_ledger.mask.set[slot])
            continue;
        code->held = false;
        cases[NO_ROW_BY_CODE] += ref_reason(&reference_ledger, issues, slot) == HAS_ROW;
        code->held = true;
    }
}

static void ask_rows(const uint16_t *issues, size_t k)
{
    static struct row rows[ASSIGNED_SLOTS];
    size_t n = some_ledger_length();
    size_t r = chance(1) ? QVD_ROWS_BYTES - QVD_ROW_BYTES + below(2 * QVD_ROW_BYTES) : QVD_ROWS_BYTES, count = 0;
    uint8_t *output = lend(r);
    unsigned library, reference = 39;

    now.call = ROWS;
    library = qvd_rows(ledger, n, issues, k, output, r);
    if (n == QVD_LEDGER_BYTES && r == QVD_ROWS_BYTES)
        reference = ref_rows(&reference_ledger, issues, k, rows, &count);
    if (reference == 0) {
        memset(lent.should + MARGIN, 0, r);
        for (size_t i = 0; i < count; i++)
            row_to_bytes(&rows[i], lent.should + MARGIN + i * QVD_ROW_BYTES);
        rows_seen += count;
        lists_with_rows += count > 0;
        count_codes(issues, rows, count);
    }
    same_verdict(ROWS, library, reference);
    lent_is_right("rows");
}

static void ask_row(const struct leaning *l, const uint16_t *issues, size_t k)
{
    static const uint16_t odd[] = { 0, 1, 63, 64, 100, 101, 137, 138, 174, 175, 255, 256, 257, 511, 65535 };
    size_t n = some_ledger_length();
    size_t r = chance(1) ? QVD_ROW_BYTES - 1 + below(3) : QVD_ROW_BYTES;
    uint8_t *output = lend(r);
    struct row row;
    unsigned library, reference = 39;

    now.call = ROW;
    now.slot = chance(25) ? PICK(odd)
             : l->places > 0 && chance(80) ? l->slot_at[between(1, l->places)]
             : chance(80) ? between(1, 255)
                          : below(65536);
    library = qvd_row(ledger, n, issues, k, (uint16_t)now.slot, output, r);
    if (n == QVD_LEDGER_BYTES && r == QVD_ROW_BYTES)
        reference = ref_row_of(&reference_ledger, issues, k, now.slot, &row);
    if (reference == 0)
        row_to_bytes(&row, lent.should + MARGIN);
    same_verdict(ROW, library, reference);
    lent_is_right("row");
}

static void compare_list(const struct leaning *l)
{
    uint16_t drawn[SLOTS + 8];
    size_t k = some_issues(l, drawn);
    uint16_t *issues = (uint16_t *)(void *)(issues_end - 2 * k);

    memcpy(issues, drawn, 2 * k);
    now.input = NULL;
    now.issues = issues;
    now.issue_count = k;
    remember_ledger();
    ask_rows(issues, k);
    for (int i = 0; i < 4; i++)
        ask_row(l, issues, k);
    ledger_is_unchanged();
    same_bytes("the issues afterwards", (uint8_t *)issues, (uint8_t *)drawn, 2 * k);
}

/* ---- logs ---- */

const uint8_t ten[10] = { 1, 2, 3, 4, 5, 59, 60, 61, 62, 63 };

/* The frames handed in for this log, for the report of a difference. */
static uint8_t handed[(2 + 256) * 512];

/* By qvd_replay, a byte a frame, or with `detailed` by qvd_replay_detail, a
 * number of four bytes. */
static void compare_replay(unsigned prn, const uint8_t *log, size_t m, const struct leaning *l, bool detailed)
{
    static uint8_t verdicts_should[MARGIN + 4 * (LOG_FRAMES + 64)];
    size_t frames = (m + FRAME_BYTES - 1) / FRAME_BYTES, k = frames, n, size = detailed ? 4 : 1;
    uint8_t *input = log_end - m, *verdicts;
    unsigned library, reference = 39;

    if (chance(6))
        k = chance(50) ? frames + 1 : frames > 0 ? frames - 1 : 2;
    if (chance(4))
        prn = below(256);
    memmove(input, log, m);
    place_ledger();
    remember_ledger();
    n = some_ledger_length();
    verdicts = verdicts_end - size * k;
    any_bytes(verdicts_should, MARGIN + size * k);
    memcpy(verdicts - MARGIN, verdicts_should, MARGIN + size * k);
    now.call = detailed ? REPLAY_DETAIL : REPLAY;
    now.input = input;
    now.input_bytes = m;
    now.issues = NULL;
    now.prn = prn;
    now.log = NULL;
    if (detailed)
        library = qvd_replay_detail(ledger, n, (uint8_t)prn, input, m, (uint32_t *)(void *)verdicts, k);
    else
        library = qvd_replay(ledger, n, (uint8_t)prn, input, m, verdicts, k);
    if (n == QVD_LEDGER_BYTES && k == frames)
        reference = ref_open(&reference_ledger, prn);
    same_number("verdict on the log", library, reference);
    if (reference == 0)
        for (size_t i = 0; i < frames; i++) {
            size_t at = i * FRAME_BYTES, left = m - at;
            struct detail detail;
            unsigned verdict =
                ref_take_detail(&reference_ledger, input + at, left < FRAME_BYTES ? left : FRAME_BYTES, &detail);
            uint32_t number = detail_to_number(verdict, &detail);
            if (detailed)
                memcpy(verdicts_should + MARGIN + 4 * i, &number, 4);
            else
                verdicts_should[MARGIN + i] = (uint8_t)verdict;
            tally[now.call][verdict]++;
        }
    else
        tally[now.call][reference]++;
    same_bytes(detailed ? "details" : "verdicts", verdicts - MARGIN, verdicts_should, MARGIN + size * k);
    same_bytes("the log afterwards", input, log, m);
    if (reference != 0) {
        ledger_is_unchanged();
        return;
    }
    margins_are_unchanged();
    for (int i = 0; i < 3; i++)
        compare_list(l);
}

static void compare_log(unsigned long number, unsigned length)
{
    static uint8_t log[FRAME_BYTES * 512];
    struct leaning l;
    uint8_t bytes[256];
    size_t log_bytes = 0, handed_bytes = 0;
    unsigned prn = ten[below(10)];
    unsigned faulty = chance(30) ? 0 : chance(70) ? 25 : 60, damaged = chance(30) ? 0 : 12;
    bool mask_first = chance(90);
    unsigned detailed = chance(40) ? 0 : chance(50) ? 50 : 100; /* percent of the frames */

    now.number = number;
    now.log = handed;
    now.log_bytes = 0;
    some_leaning(&l);
    place_ledger();
    while (!compare_open(prn))
        ;
    for (unsigned i = 0; i < length; i++) {
        size_t n = FRAME_BYTES;
        bool had_mask = reference_ledger.has_mask;
        struct mask old = reference_ledger.mask;
        make_message(&l, i == 0 && mask_first ? 1 : 0, i == 0 ? 0 : faulty);
        any_bytes(bytes, sizeof bytes);
        ref_encode(draft.bytes, prn, chance(80) ? 0 : below(32), bytes);
        if (i > 0 && chance(damaged))
            n = damage(bytes, sizeof bytes);
        compare_take(bytes, n, chance(detailed));
        handed[handed_bytes] = (uint8_t)(n >> 8);
        handed[handed_bytes + 1] = (uint8_t)n;
        memcpy(handed + handed_bytes + 2, bytes, n);
        handed_bytes += 2 + n;
        now.log_bytes = handed_bytes;
        if (n == FRAME_BYTES) {
            memcpy(log + log_bytes, bytes, FRAME_BYTES);
            log_bytes += FRAME_BYTES;
        }
        old.epoch = reference_ledger.mask.epoch;
        if (had_mask != reference_ledger.has_mask || memcmp(&old, &reference_ledger.mask, sizeof old) != 0) {
            masks_changed++;
            compare_list(&l);
            lean_on_mask(&l, &reference_ledger.mask);
            compare_list(&l);
        } else if (chance(12)) {
            compare_list(&l);
        }
    }
    compare_list(&l);
    if (chance(90)) {
        size_t rest = chance(40) ? 0 : below(FRAME_BYTES);
        any_bytes(log + log_bytes, rest);
        if (chance(20) && log_bytes > 0)
            log_bytes -= 1 + below(FRAME_BYTES - 1), rest = 0;
        compare_replay(prn, log, log_bytes + rest, &l, chance(50));
    }
}

/* Masks of few places, or of as many as a sub-type of type 5 ends with, that differ
 * in little. */
static void lean_on_few(struct leaning *l)
{
    static const uint8_t sizes[] = { 1, 2, 3, 5, 8, 12, 69, 70, 71, 72, 139, 140, 141, 142, 209, 210, 211, 212, 255 };
    unsigned size = chance(60) ? 1 + below(8) : PICK(sizes), slot;
    struct mask *mask = &l->pool[0];

    memset(mask->set, 0, sizeof mask->set);
    for (unsigned places = 0; places < size;) {
        slot = size < 12 && chance(80) ? between(1, 20) : between(1, size <= ASSIGNED_SLOTS ? ASSIGNED_SLOTS : SLOTS);
        places += !mask->set[slot];
        mask->set[slot] = true;
    }
    for (int i = 1; i < 6; i++)
        memcpy(l->pool[i].set, mask->set, sizeof mask->set);
    slot = between(1, 20);
    l->pool[3].set[slot] = !l->pool[3].set[slot];
    l->pool[4] = l->pool[0];
    l->pool[4].set[SLOTS] = !l->pool[4].set[SLOTS];
    lean_on_mask(l, mask);
}

/* Codes of type 5 between masks, orbits and clocks of few satellites, with the list
 * after every frame; or types 3 and 5 that are often faulty, as messages too. */
static void compare_codes(unsigned long count)
{
    static const uint8_t all[] = { 1, 2, 2, 2, 3, 4, 5, 5, 5, 5, 6, 7, 7, 7 };
    static const uint8_t both[] = { 1, 2, 3, 3, 3, 3, 3, 3, 3, 5, 5, 5, 5, 5 };
    struct leaning l;
    uint8_t frame[FRAME_BYTES];

    begin("codes");
    for (unsigned long i = 0; i < count; i++) {
        unsigned prn = PICK(ten), length = 1 + below(40);
        size_t handed_bytes = 0;
        bool faulty = chance(60);

        now.number = i;
        now.log = handed;
        now.log_bytes = 0;
        some_leaning(&l);
        lean_on_few(&l);
        place_ledger();
        while (!compare_open(prn))
            ;
        for (unsigned k = 0; k < length; k++) {
            unsigned kind = k == 0 && chance(90) ? 1 : faulty ? PICK(both) : PICK(all);
            make_message(&l, kind, k == 0 ? 0 : faulty ? 60 : 10);
            if (faulty && chance(5))
                flip_bits(draft.bytes, CHECKED_BITS, CHECKED_BITS + 23, 1);
            if (faulty)
                compare_reading(READ, draft.bytes, MESSAGE_BYTES);
            ref_encode(draft.bytes, prn, 0, frame);
            compare_take(frame, FRAME_BYTES, chance(20));
            handed[handed_bytes] = 0;
            handed[handed_bytes + 1] = FRAME_BYTES;
            memcpy(handed + handed_bytes + 2, frame, FRAME_BYTES);
            handed_bytes += 2 + FRAME_BYTES;
            now.log_bytes = handed_bytes;
            if (kind == 1 && reference_ledger.has_mask && chance(90))
                lean_on_mask(&l, &reference_ledger.mask);
            if (!faulty || chance(10))
                compare_list(&l);
        }
    }
    now.log = NULL;
}

/* Logs of no byte, of one, of noise, and of one frame over and over. */
static void compare_odd_logs(void)
{
    static uint8_t log[FRAME_BYTES * LOG_FRAMES];
    struct leaning l;

    begin("odd log");
    for (unsigned i = 0; i < 60; i++) {
        size_t m = i % 3 == 0 ? 0 : i % 3 == 1 ? 1 : between(1, 3 * FRAME_BYTES);
        now.number = i;
        some_leaning(&l);
        any_bytes(log, m);
        compare_replay(ten[i % 10], log, m, &l, i / 3 % 2 == 1);
    }
    for (unsigned i = 0; i < 10; i++) {
        size_t frames = 300;
        now.number = 60 + i;
        some_leaning(&l);
        any_bytes(log, frames * FRAME_BYTES);
        for (size_t f = 0; f < frames; f++)
            if (i % 2 == 1)
                ref_put_bits(log + f * FRAME_BYTES, 0, 23, 0xEB90u << 7 | (unsigned)ten[i] << 1);
        compare_replay(ten[i], log, frames * FRAME_BYTES, &l, i / 2 % 2 == 1);
    }
    now.number = 70;
    some_leaning(&l);
    make_message(&l, 7, 0);
    ref_encode(draft.bytes, 60, 0, log);
    for (size_t f = 1; f < LOG_FRAMES; f++)
        memcpy(log + f * FRAME_BYTES, log, FRAME_BYTES);
    compare_replay(60, log, LOG_FRAMES * FRAME_BYTES - 1, &l, false);
    compare_replay(60, log, LOG_FRAMES * FRAME_BYTES - 1, &l, true);
}

/* Openings with every number as PRN, each on bytes that are anything. */
static void compare_opens(unsigned rounds)
{
    begin("opening");
    for (unsigned i = 0; i < 256 * rounds; i++) {
        struct leaning l;
        now.number = i;
        place_ledger();
        if (compare_open(i % 256)) {
            some_leaning(&l);
            compare_list(&l);
        }
    }
}

/* ---- bytes that no opening made ---- */

static bool among_ten(unsigned prn)
{
    for (size_t i = 0; i < sizeof ten; i++)
        if (ten[i] == prn)
            return true;
    return false;
}

/* A frame for a ledger that is for none of the ten: refused 1, 3 or 4, whatever
 * else is wrong with it. */
static void compare_foreign(const uint8_t *frame, size_t m, bool detailed)
{
    uint8_t *input = input_end - m;
    size_t n = some_ledger_length();
    uint32_t library;

    memcpy(input, frame, m);
    now.call = detailed ? TAKE_DETAIL : TAKE;
    now.input = input;
    now.input_bytes = m;
    remember_ledger();
    library = detailed ? qvd_take_detail(ledger, n, input, m) : qvd_take(ledger, n, input, m);
    same_verdict(now.call, library,
                 n != QVD_LEDGER_BYTES                  ? 39
                 : m != FRAME_BYTES                     ? 1
                 : frame[0] != 0xEB || frame[1] != 0x90 ? 3
                                                        : 4);
    ledger_is_unchanged();
    same_bytes("the input afterwards", input, frame, m);
}

/* Ledgers whose first byte, the PRN, is none of the ten, the others zero or
 * anything. Most frames that they are handed name the same PRN, or 0. */
static void compare_unopened(unsigned count)
{
    static const uint8_t odd[] = { 0, 0, 0, 6, 58, 64 };
    struct leaning l;
    uint8_t bytes[256];

    begin("ledger for no PRN");
    now.issues = NULL;
    for (unsigned i = 0; i < count; i++) {
        bool zeros = chance(50);
        unsigned prn = i % 256;
        if (chance(50) || among_ten(prn))
            prn = PICK(odd);
        now.number = i;
        now.prn = prn;
        some_leaning(&l);
        place_ledger();
        if (zeros)
            memset(ledger, 0, QVD_LEDGER_BYTES);
        ledger[0] = (uint8_t)prn;
        for (unsigned frame = 0; frame < 6; frame++) {
            unsigned named = chance(60) ? prn % 64 : chance(50) ? 0 : below(64);
            size_t n = FRAME_BYTES;
            make_message(&l, frame == 0 ? 1 : 0, 10);
            any_bytes(bytes, sizeof bytes);
            ref_encode(draft.bytes, named, chance(80) ? 0 : below(64), bytes);
            if (chance(25))
                n = damage(bytes, sizeof bytes);
            compare_foreign(bytes, n, chance(50));
        }
        if (zeros) {
            memset(&reference_ledger, 0, sizeof reference_ledger);
            compare_list(&l);
            now.issues = NULL;
        }
    }
}

/* The rows of ledgers whose bytes are all 1, or 1 and now and then 0. What they
 * hold is the library's affair, but its rows must have slots that rise and are
 * none above 174, zeros after them, and be the rows that each slot has. */
static void compare_any_bytes(unsigned count)
{
    static uint8_t rows[QVD_ROWS_BYTES], zero[QVD_ROWS_BYTES];
    static const uint16_t values[] = { 0, 1, 256, 257 };
    uint16_t *issues = (uint16_t *)(void *)(issues_end - 2 * SLOTS);

    begin("any bytes");
    now.issues = issues;
    now.issue_count = SLOTS;
    for (unsigned i = 0; i < count; i++) {
        unsigned zeros = chance(40) ? 0 : below(6), others = chance(40) ? 0 : below(30); /* percent */
        size_t at = 0, next = 0;
        unsigned last = 0;

        now.number = i;
        place_ledger();
        for (size_t k = 0; k < QVD_LEDGER_BYTES; k++)
            ledger[k] = !chance(zeros);
        for (size_t k = 0; k < SLOTS; k++)
            issues[k] = chance(others) ? PICK(values) : 257;
        now.input = ledger;
        now.input_bytes = QVD_LEDGER_BYTES;
        remember_ledger();

        now.call = ROWS;
        same_verdict(ROWS, qvd_rows(ledger, QVD_LEDGER_BYTES, issues, SLOTS, rows, sizeof rows), 0);
        for (; at < sizeof rows && rows[at] != 0; at += QVD_ROW_BYTES) {
            same_number("the slots rise, and none is above 174", rows[at] > last && rows[at] <= ASSIGNED_SLOTS, true);
            last = rows[at];
            rows_of_any_bytes++;
        }
        same_bytes("zeros after the rows", rows + at, zero, sizeof rows - at);

        now.call = ROW;
        for (now.slot = 0; now.slot < 260; now.slot++) {
            uint8_t *output = lend(QVD_ROW_BYTES);
            unsigned wanted = now.slot == 0 || now.slot > SLOTS ? 11 : 18;
            if (wanted == 18 && next < at && rows[next] == now.slot) {
                memcpy(lent.should + MARGIN, rows + next, QVD_ROW_BYTES);
                next += QVD_ROW_BYTES;
                wanted = 0;
            }
            same_verdict(ROW, qvd_row(ledger, QVD_LEDGER_BYTES, issues, SLOTS, (uint16_t)now.slot, output, QVD_ROW_BYTES),
                         wanted);
            lent_is_right("row");
        }
        ledger_is_unchanged();
    }
}

/* ---- pieces of torn logs ---- */

static void compare_piece(const uint8_t *bytes, size_t n)
{
    uint8_t *input = input_end - n;
    size_t reference = ref_next_piece(bytes, n);

    memcpy(input, bytes, n);
    now.call = NEXT_PIECE;
    now.input = input;
    now.input_bytes = n;
    same_number("length of the next piece", qvd_next_piece(input, n), (unsigned)reference);
    same_bytes("the input afterwards", input, bytes, n);
    pieces_compared++;
    pieces_of_length[reference]++;
}

/* A good frame of some message, PRN and flags. */
static void some_frame(const struct leaning *l, uint8_t frame[FRAME_BYTES])
{
    struct leaning own = *l;
    unsigned prn = below(64), flags = chance(60) ? 0 : below(64);
    make_message(&own, 0, 30);
    if (chance(15))
        any_bytes(draft.bytes, MESSAGE_BYTES); /* the check is wrong, the parity right */
    ref_encode(draft.bytes, prn, flags, frame);
}

/* Two good frames, of which the second begins `apart` bytes behind the first and
 * in it. All good frames are the one of no bits and sums of those of one bit, of
 * which there are 498: the message's, the PRN's and the flags'. So the bits that
 * the two share are equations in 996 unknowns, and these are solved; those left
 * open are drawn. No answer where there is no solution: one byte apart the two
 * syncs do not fit. */
enum { UNIT_BITS = 486 + 12, UNKNOWNS = 2 * UNIT_BITS, UNKNOWN_WORDS = UNKNOWNS / 64 + 1 };

static uint8_t zero_frame[FRAME_BYTES], unit_frame[UNIT_BITS][FRAME_BYTES];

static void make_units(void)
{
    uint8_t message[MESSAGE_BYTES] = { 0 };
    ref_encode(message, 0, 0, zero_frame);
    for (unsigned i = 0; i < UNIT_BITS; i++) {
        unsigned head = i < 486 ? 0 : 1u << (i - 486);
        memset(message, 0, sizeof message);
        if (i < 486)
            ref_put_bits(message, i, 1, 1);
        ref_encode(message, head >> 6, head & 63, unit_frame[i]);
        for (unsigned k = 0; k < FRAME_BYTES; k++)
            unit_frame[i][k] ^= zero_frame[k];
    }
}

static unsigned bit_of(const uint8_t *bytes, unsigned bit) { return bytes[bit / 8] >> (7 - bit % 8) & 1; }
static bool word_bit(const uint64_t *words, unsigned bit) { return words[bit / 64] >> bit % 64 & 1; }

/* Brings the equations, the right side in bit UNKNOWNS, to the form in which each
 * has an unknown of its own; its number goes to `own`. How many there are then is
 * answered, or 0 if they contradict each other. */
static unsigned solve(uint64_t (*equation)[UNKNOWN_WORDS], unsigned count, unsigned *own)
{
    unsigned done = 0;
    for (unsigned unknown = 0; unknown < UNKNOWNS && done < count; unknown++) {
        unsigned pivot = done;
        while (pivot < count && !word_bit(equation[pivot], unknown))
            pivot++;
        if (pivot == count)
            continue;
        for (unsigned w = 0; w < UNKNOWN_WORDS; w++) {
            uint64_t other = equation[pivot][w];
            equation[pivot][w] = equation[done][w];
            equation[done][w] = other;
        }
        for (unsigned i = 0; i < count; i++)
            if (i != done && word_bit(equation[i], unknown))
                for (unsigned w = 0; w < UNKNOWN_WORDS; w++)
                    equation[i][w] ^= equation[done][w];
        own[done++] = unknown;
    }
    for (unsigned i = done; i < count; i++)
        if (word_bit(equation[i], UNKNOWNS))
            return 0;
    return done;
}

static bool overlap(unsigned apart, uint8_t bytes[2 * FRAME_BYTES])
{
    static uint64_t equation[8 * FRAME_BYTES][UNKNOWN_WORDS];
    static unsigned own[UNKNOWNS];
    unsigned count = 8 * (FRAME_BYTES - apart), done;
    bool value[UNKNOWNS];

    memset(equation, 0, sizeof equation);
    for (unsigned k = 0; k < count; k++) {
        uint64_t *e = equation[k];
        for (unsigned i = 0; i < UNIT_BITS; i++) {
            e[i / 64] |= (uint64_t)bit_of(unit_frame[i], k + 8 * apart) << i % 64;
            e[(UNIT_BITS + i) / 64] |= (uint64_t)bit_of(unit_frame[i], k) << (UNIT_BITS + i) % 64;
        }
        e[UNKNOWNS / 64] |= (uint64_t)(bit_of(zero_frame, k + 8 * apart) ^ bit_of(zero_frame, k)) << UNKNOWNS % 64;
    }
    done = solve(equation, count, own);
    if (done == 0)
        return false;
    for (unsigned i = 0; i < UNKNOWNS; i++)
        value[i] = any32() & 1;
    for (unsigned k = 0; k < done; k++) {
        bool sum = word_bit(equation[k], UNKNOWNS);
        for (unsigned i = own[k] + 1; i < UNKNOWNS; i++)
            sum ^= word_bit(equation[k], i) && value[i];
        value[own[k]] = sum;
    }
    memcpy(bytes, zero_frame, FRAME_BYTES);
    memcpy(bytes + FRAME_BYTES, zero_frame + FRAME_BYTES - apart, apart);
    for (unsigned i = 0; i < UNKNOWNS; i++)
        for (unsigned k = 0; value[i] && k < FRAME_BYTES; k++) {
            if (i < UNIT_BITS)
                bytes[k] ^= unit_frame[i][k];
            else if (k + apart >= FRAME_BYTES)
                bytes[k + apart] ^= unit_frame[i - UNIT_BITS][k];
        }
    return true;
}

/* Two frames that overlap, so many bytes apart, behind 0 to 126 bytes of noise
 * and before more of it; whole, and cut short. */
static void compare_overlap(unsigned apart)
{
    uint8_t bytes[5 * FRAME_BYTES], pair[2 * FRAME_BYTES];

    if (!overlap(apart, pair))
        return;
    same_number("the first of two frames is a piece", (unsigned)ref_next_piece(pair, FRAME_BYTES), FRAME_BYTES);
    same_number("the second of two frames is a piece", (unsigned)ref_next_piece(pair + apart, FRAME_BYTES), FRAME_BYTES);
    overlaps_seen++;
    for (unsigned before = 0; before < FRAME_BYTES + 2; before += 1 + below(5)) {
        any_bytes(bytes, sizeof bytes);
        memcpy(bytes + before, pair, FRAME_BYTES + apart);
        compare_piece(bytes, sizeof bytes);
        compare_piece(bytes, before + FRAME_BYTES + below(apart + 1));
    }
}

/* Good frames one behind the other, some of them damaged, some bytes of them lost
 * or too many, read from an offset on; each offset of a frame comes in turn. */
static void compare_torn(const struct leaning *l, unsigned offset)
{
    uint8_t bytes[6 * FRAME_BYTES];
    size_t n = 0;

    while (n < 4 * FRAME_BYTES) {
        some_frame(l, bytes + n);
        if (chance(25))
            damage(bytes + n, FRAME_BYTES + 1);
        n += FRAME_BYTES;
        if (chance(20))
            n -= 1 + below(FRAME_BYTES - 1);
        if (chance(10)) {
            unsigned more = 1 + below(FRAME_BYTES);
            any_bytes(bytes + n, more);
            n += more;
        }
    }
    compare_piece(bytes + offset, n - offset);
    compare_piece(bytes + offset, below(301));
    compare_piece(bytes + offset, 2 * FRAME_BYTES - 2 + below(4));
    compare_piece(bytes + n - offset, offset);
}

/* Noise with syncs in it, and now and then a frame that has one wrong symbol, lacks
 * its sync, or is all zeros behind it. */
static void compare_noise(const struct leaning *l)
{
    uint8_t bytes[6 * FRAME_BYTES], frame[FRAME_BYTES];
    unsigned syncs = chance(50) ? below(4) : below(200), at = below(3 * FRAME_BYTES);

    if (chance(30))
        memset(bytes, chance(50) ? 0 : 0xEB, sizeof bytes);
    else
        any_bytes(bytes, sizeof bytes);
    while (syncs-- > 0) {
        unsigned where = below(sizeof bytes - 1);
        bytes[where] = 0xEB;
        bytes[where + 1] = 0x90;
    }
    some_frame(l, frame);
    switch (below(5)) {
    case 0: flip_bits(frame, 28, 999, 1); break;
    case 1: flip_bits(frame, 0, 15, 1); break;
    case 2: memset(frame + 2, 0, FRAME_BYTES - 2); break;
    case 3: frame[0] = 0x90, frame[1] = 0xEB; break;
    default: break;
    }
    memcpy(bytes + at, frame, FRAME_BYTES);
    compare_piece(bytes, sizeof bytes);
    compare_piece(bytes, at + FRAME_BYTES - below(2));
    compare_piece(bytes, below(301));
}

static void compare_pieces(unsigned long count)
{
    struct leaning l;

    begin("piece");
    now.issues = NULL;
    make_units();
    for (unsigned apart = 1; apart < FRAME_BYTES; apart++) {
        now.number = apart;
        compare_overlap(apart);
    }
    for (unsigned long i = 0; i < count; i++) {
        now.number = i;
        if (i % 50 == 0)
            some_leaning(&l);
        compare_torn(&l, (unsigned)(i % FRAME_BYTES));
        compare_noise(&l);
    }
}

/* ---- subframes of D1 and D2 ---- */

enum { PREAMBLE = 0x712, LAST_SECOND = 604799, CODE_WORDS = 19, SUBFRAME_BITS = 300 };

/* The information of a subframe; what it is refused with is answered, 0 if it is
 * good, and it is good unless `faulty`. */
static unsigned some_data(uint8_t data[SUBFRAME_DATA_BYTES], bool faulty)
{
    static const uint8_t wrong[] = { 0, 6, 7 };
    unsigned refusal = 0;

    any_bytes(data, SUBFRAME_DATA_BYTES);
    ref_put_bits(data, 0, 11, PREAMBLE);
    ref_put_bits(data, 15, 3, between(1, 5));
    ref_put_bits(data, 18, 20, chance(10) ? LAST_SECOND : chance(5) ? 0 : below(LAST_SECOND + 1));
    if (faulty && chance(40)) {
        ref_put_bits(data, 18, 20, chance(40) ? LAST_SECOND + 1 : between(LAST_SECOND + 1, (1 << 20) - 1));
        refusal = 34;
    }
    if (faulty && chance(40)) {
        ref_put_bits(data, 15, 3, PICK(wrong));
        refusal = 33;
    }
    if (faulty && chance(40)) {
        unsigned other = chance(50) ? PREAMBLE ^ 1u << below(11) : chance(30) ? PREAMBLE ^ 2047 : below(2048);
        ref_put_bits(data, 0, 11, other);
        refusal = other != PREAMBLE ? 32 : refusal;
    }
    return refusal;
}

/* Where bit k of a code word lies in a subframe: the first is the end of the
 * first word; then two to a word, bit by bit in turn. */
static unsigned code_bit(unsigned word, unsigned k)
{
    return word == 0 ? 15 + k : 30 * ((word + 1) / 2) + 2 * k + (word + 1) % 2;
}

/* One of the two calls on subframes: verdict, room and what stays as it was. Where
 * the input is taken, `output` then is what the library put into its room. The
 * library's verdict is answered. */
static unsigned compare_d1(enum call call, const uint8_t *bytes, size_t n, size_t room, const uint8_t **output)
{
    uint8_t *input = input_end - n, *lent_room = lend(room);
    bool reading = call == D1_READ;
    unsigned library, reference;

    memcpy(input, bytes, n);
    now.call = call;
    now.input = input;
    now.input_bytes = n;
    library = (reading ? qvd_d1_read : qvd_d1_write)(input, n, lent_room, room);
    reference = (reading ? ref_read_subframe : ref_write_subframe)(lent.should + MARGIN, room, bytes, n);
    same_verdict(call, library, reference);
    lent_is_right(reading ? "information" : "subframe");
    same_bytes("the input afterwards", input, bytes, n);
    *output = reference == 0 ? lent_room : NULL;
    return library;
}

/* Whether the library's room then holds `data` is compared too, where it is
 * given and the subframe is taken. The library's verdict is answered. */
static unsigned compare_d1_reading(const uint8_t *bytes, size_t n, size_t room, const uint8_t *data)
{
    const uint8_t *read;
    unsigned library = compare_d1(D1_READ, bytes, n, room, &read);

    if (data != NULL && read != NULL)
        same_bytes("what was sent", read, data, SUBFRAME_DATA_BYTES);
    return library;
}

/* What was written is read again. */
static void compare_d1_writing(const uint8_t *bytes, size_t n, size_t room)
{
    const uint8_t *output;
    uint8_t written[SUBFRAME_BYTES];

    compare_d1(D1_WRITE, bytes, n, room, &output);
    if (output != NULL) {
        memcpy(written, output, sizeof written);
        compare_d1_reading(written, sizeof written, SUBFRAME_DATA_BYTES, bytes);
    }
}

/* The right length mostly, else one near it, the other of the two, or any. */
static size_t some_d1_length(size_t right, size_t other)
{
    if (chance(97))
        return right;
    return chance(50) ? right - 1 + 2 * below(2) : chance(30) ? other : below(64);
}

static void compare_subframes(unsigned long count)
{
    uint8_t bytes[64], data[64];

    begin("subframe");
    now.issues = NULL;
    for (unsigned long i = 0; i < count; i++) {
        unsigned way = below(10);
        bool sent = way < 6; /* code words have at most one flip each */
        unsigned refusal, library;
        size_t n, room;

        now.number = i;
        any_bytes(bytes, sizeof bytes);
        any_bytes(data, sizeof data);
        refusal = some_data(data, chance(30));
        ref_code_subframe(bytes, data);
        if (way >= 2 && way < 6) {
            unsigned percent = chance(30) ? 100 : below(100);
            for (unsigned word = 0; word < CODE_WORDS; word++)
                if (chance(percent)) {
                    unsigned bit = code_bit(word, below(15));
                    flip_bits(bytes, bit, bit, 1);
                }
            subframes_corrected++;
        } else if (way == 6) {
            flip_bits(bytes, 0, SUBFRAME_BITS - 1, 1 + below(chance(50) ? 4 : 40));
        } else if (way == 7 || way == 8) {
            any_bytes(bytes + 4, SUBFRAME_BYTES - 4);
            bytes[SUBFRAME_BYTES - 1] &= 0xF0;
        } else if (way == 9) {
            any_bytes(bytes, SUBFRAME_BYTES);
            if (chance(80))
                bytes[SUBFRAME_BYTES - 1] &= 0xF0;
        }
        if (chance(4)) {
            bytes[SUBFRAME_BYTES - 1] |= (uint8_t)between(1, 15);
            sent = false;
        }
        n = some_d1_length(SUBFRAME_BYTES, SUBFRAME_DATA_BYTES);
        room = some_d1_length(SUBFRAME_DATA_BYTES, SUBFRAME_BYTES);
        sent = sent && n == SUBFRAME_BYTES && room == SUBFRAME_DATA_BYTES;
        library = compare_d1_reading(bytes, n, room, sent ? data : NULL);
        if (sent)
            same_number("verdict on what was sent", library, refusal);
        n = some_d1_length(SUBFRAME_DATA_BYTES, SUBFRAME_BYTES);
        room = some_d1_length(SUBFRAME_BYTES, SUBFRAME_DATA_BYTES);
        compare_d1_writing(data, n, room);
    }
}

/* ---- subframe 2 of B-CNAV1, and its IODC joined into an issue list ---- */

/* The bits of a field that are its smallest number, its largest, and all ones. */
static int64_t field_end(int f, int which)
{
    int64_t all = (INT64_C(1) << cnav1_field[f].width) - 1, top = all / 2;
    if (which == 2)
        return f == CNAV1_HOW ? 167 : all;
    if (cnav1_field[f].complement)
        return which == 0 ? top + 1 : top;
    return which == 0 ? 0 : f == CNAV1_HOW ? 167 : all;
}

static int64_t any_field(int f)
{
    uint64_t high = any32();
    return (int64_t)((high << 32 | any32()) & ((UINT64_C(1) << cnav1_field[f].width) - 1));
}

/* Some field at one of its ends, or all of them, or none; HOW up to 167 or above. */
static void some_fields(int64_t fields[CNAV1_FIELDS], bool good)
{
    unsigned way = below(10);
    int end = (int)below(3), one = (int)below(CNAV1_FIELDS);
    for (int f = 0; f < CNAV1_FIELDS; f++)
        fields[f] = way == 0 || (way < 4 && f == one) || (way == 4 && chance(50)) ? field_end(f, end) : any_field(f);
    if (fields[CNAV1_HOW] > 167 || chance(60))
        fields[CNAV1_HOW] = below(168);
    if (!good)
        fields[CNAV1_HOW] = chance(30) ? 168 : between(168, 255);
    else if (chance(10))
        fields[CNAV1_HOW] = 167;
}

static void fields_to_bytes(uint8_t *bytes, const int64_t fields[CNAV1_FIELDS])
{
    for (int f = 0; f < CNAV1_FIELDS; f++)
        for (int i = 0; i < 8; i++)
            bytes[8 * f + i] = (uint8_t)((uint64_t)fields[f] >> (56 - 8 * i));
}

static void compare_cnav1(const uint8_t *bytes, size_t n, size_t room)
{
    uint8_t *input = input_end - n, *lent_room = lend(room);
    int64_t fields[CNAV1_FIELDS];
    unsigned library, reference = 39;

    memcpy(input, bytes, n);
    now.call = READ_CNAV1;
    now.input = input;
    now.input_bytes = n;
    library = qvd_read_cnav1(input, n, lent_room, room);
    if (room == QVD_CNAV1_FIELDS_BYTES) {
        reference = ref_read_cnav1(fields, bytes, n);
        if (reference == 0)
            fields_to_bytes(lent.should + MARGIN, fields);
    }
    same_verdict(READ_CNAV1, library, reference);
    lent_is_right("fields");
    same_bytes("the input afterwards", input, bytes, n);
    if (reference != 0)
        return;
    for (int f = 0; f < CNAV1_FIELDS; f++)
        for (int end = 0; end < 3; end++)
            fields_at_end[f][end] +=
                ((uint64_t)fields[f] & ((UINT64_C(1) << cnav1_field[f].width) - 1)) == (uint64_t)field_end(f, end);
}

static void compare_cnav1_subframes(unsigned long count)
{
    uint8_t bytes[256];
    int64_t fields[CNAV1_FIELDS];

    begin("B-CNAV1 subframe");
    now.issues = NULL;
    for (unsigned long i = 0; i < count; i++) {
        size_t n = CNAV1_BYTES, room = QVD_CNAV1_FIELDS_BYTES;

        now.number = i;
        any_bytes(bytes, sizeof bytes);
        some_fields(fields, chance(85));
        ref_write_cnav1(bytes, fields);
        if (chance(5))
            flip_bits(bytes, 576, 599, 1);
        else if (chance(8))
            flip_bits(bytes, 0, 599, 1 + below(chance(50) ? 3 : 40));
        else if (chance(3))
            any_bytes(bytes, CNAV1_BYTES);
        else if (chance(1))
            memset(bytes, chance(50) ? 0 : 255, CNAV1_BYTES);
        if (chance(5))
            n = chance(50) ? CNAV1_BYTES - 1 + 2 * below(2) : below(200);
        if (chance(5))
            room = chance(50) ? QVD_CNAV1_FIELDS_BYTES - 1 + 2 * below(2) : below(600);
        compare_cnav1(bytes, n, room);
    }
}

/* Joins an IODC into a list of n entries, which then is what it became. */
static void compare_join(uint16_t *list, size_t n, unsigned prn, unsigned iodc)
{
    uint8_t *lent_room = lend(2 * n);
    unsigned library, reference;

    memcpy(lent_room, list, 2 * n);
    now.call = JOIN_ISSUE;
    now.issues = list;
    now.issue_count = n;
    now.prn = prn;
    now.iodc = iodc;
    library = qvd_join_issue((uint16_t *)(void *)lent_room, n, (uint16_t)prn, (uint16_t)iodc);
    reference = ref_join_issue(list, n, prn, iodc);
    memcpy(lent.should + MARGIN, list, 2 * n);
    same_verdict(JOIN_ISSUE, library, reference);
    lent_is_right("issues");
}

static void compare_joins(unsigned long count)
{
    static uint16_t list[300];

    begin("joined issue");
    now.input = NULL;
    for (unsigned long i = 0; i < count; i++) {
        size_t n = chance(94) ? SLOTS : chance(60) ? SLOTS - 1 + 2 * below(2) : below(300);

        if (i % 40 == 0)
            for (int k = 0; k < 300; k++)
                list[k] = (uint16_t)(chance(30) ? NO_ISSUE : chance(5) ? LAST_ISSUE : below(LAST_ISSUE + 1));
        now.number = i;
        for (int joins = 0; joins < 3; joins++) {
            unsigned prn = chance(90) ? between(1, 63) : chance(40) ? 64 * below(2) : below(65536);
            unsigned iodc = chance(90) ? below(1024) : chance(40) ? 1023 + below(2) : chance(30) ? 65535 : below(65536);
            compare_join(list, n, prn, iodc);
        }
        if (n > 0 && chance(20)) {
            size_t at = chance(40) ? n - 1 : below((unsigned)n);
            uint16_t was = list[at];
            list[at] = (uint16_t)(chance(40) ? 1024 : chance(40) ? 65534 : between(1024, 65534));
            compare_join(list, n, between(1, 63), below(1024));
            compare_join(list, n, chance(50) ? 64 : 0, below(1024));
            list[at] = was;
        }
    }
    now.issues = NULL;
}

/* ---- frames made from messages, and checked against them ---- */

/* A length that is right, one near it, that of the other of the two, or any. */
static size_t some_near_length(size_t right, size_t other)
{
    return chance(60) ? right - 1 + 2 * below(2) : chance(40) ? other : below(200);
}

/* A made frame whose first flag is 0 reads as its message does, both by the
 * library; the contents' room is touched by neither if it is refused. */
static void compare_read_back(const uint8_t *message, const uint8_t *frame, unsigned flags)
{
    static uint8_t of_message[QVD_CONTENTS_BYTES], of_frame[QVD_CONTENTS_BYTES];
    unsigned alone = qvd_read(message, MESSAGE_BYTES, of_message, sizeof of_message);
    unsigned framed = qvd_read_frame(frame, FRAME_BYTES, of_frame, sizeof of_frame);

    if (flags >= 32) {
        same_number("verdict on the made frame, withdrawn", framed, 5);
        return;
    }
    same_number("verdict on the made frame, as on its message", framed, alone);
    if (alone == 0)
        same_bytes("contents of the made frame, as of its message", of_frame, of_message, sizeof of_frame);
    frames_read_back++;
}

/* Checks a frame of m bytes against a message of n. */
static void compare_check(const uint8_t *message, size_t n, const uint8_t *frame, size_t m)
{
    uint8_t *input = input_end - m, *against = message_end - n;
    struct detail detail;
    uint32_t library;
    unsigned reference;

    memcpy(input, frame, m);
    memcpy(against, message, n);
    now.call = CHECK_FRAME;
    now.input = input;
    now.input_bytes = m;
    now.message = against;
    now.message_bytes = n;
    library = qvd_check_frame(against, n, input, m);
    reference = ref_check_frame(message, n, frame, m, &detail);
    same_detail(CHECK_FRAME, library, reference, &detail);
    same_bytes("the frame afterwards", input, frame, m);
    same_bytes("the message afterwards", against, message, n);
    now.message = NULL;
}

/* Makes a frame in a room of m bytes of a message of n. One that is made is
 * accepted against its message, and reads as that does. */
static void compare_make(const uint8_t *message, size_t n, unsigned prn, unsigned flags, size_t m)
{
    uint8_t *input = input_end - n, *output = lend(m);
    unsigned library, reference;

    memcpy(input, message, n);
    now.call = MAKE_FRAME;
    now.input = input;
    now.input_bytes = n;
    now.prn = prn;
    now.flags = flags;
    library = qvd_make_frame(input, n, (uint8_t)prn, (uint8_t)flags, output, m);
    reference = ref_make_frame(message, n, prn, flags, lent.should + MARGIN, m);
    same_verdict(MAKE_FRAME, library, reference);
    lent_is_right("frame");
    same_bytes("the input afterwards", input, message, n);
    if (library == 0 && reference == 0) {
        uint8_t made[FRAME_BYTES];
        memcpy(made, output, sizeof made);
        same_number("verdict on the made frame, against its message", qvd_check_frame(input, n, made, sizeof made), 0);
        compare_read_back(message, made, flags);
    }
}

/* Symbol i, from 0, of the coded part becomes another. */
static void change_symbol(uint8_t *frame, unsigned i)
{
    size_t at = 28 + 6 * (size_t)i;
    ref_put_bits(frame, at, 6, ref_get_bits(frame, at, 6) ^ between(1, 63));
}

/* Changes some of a message's 486 bits: one, one symbol, several bits, or all. */
static void change_message(uint8_t message[MESSAGE_BYTES])
{
    unsigned at = 6 * below(MESSAGE_SYMBOLS);
    switch (below(5)) {
    case 0: flip_bits(message, 0, 485, 1); break;
    case 1: at = chance(50) ? 0 : 485; flip_bits(message, at, at, 1); break;
    case 2: ref_put_bits(message, at, 6, ref_get_bits(message, at, 6) ^ between(1, 63)); break;
    case 3: flip_bits(message, 0, 485, 2 + below(40)); break;
    default: any_bytes(message, MESSAGE_BYTES); break;
    }
}

/* A frame that is not the message's, in one of these ways or in several: other
 * message symbols with the parity that is right for them; another sync; one wrong
 * symbol or many, of the message or of the parity; one failing group; noise. PRN
 * and flags are any. */
static void some_wrong_frame(const uint8_t message[MESSAGE_BYTES], uint8_t frame[FRAME_BYTES])
{
    uint8_t changed[MESSAGE_BYTES];
    unsigned prn = below(64), flags = below(64), way = below(9), many = chance(50) ? 1 : between(2, 40), group;
    bool other = way <= 3;

    memcpy(changed, message, MESSAGE_BYTES);
    if (other)
        change_message(changed);
    ref_encode(changed, prn, flags, frame);
    if (way == 3) /* both 6 and 38 */
        way = between(4, 7);
    if (way == 4 || way == 5)
        while (many-- > 0)
            change_symbol(frame, (way == 5 ? MESSAGE_SYMBOLS : 0) + below(MESSAGE_SYMBOLS));
    if (way == 6) {
        group = below(GROUPS);
        ref_spoil(frame, group, (uint8_t)between(1, 63));
    }
    if (way == 7 && chance(30)) {
        any_bytes(frame + 2, FRAME_BYTES - 2);
        frames_noise++;
    } else if (way == 7) {
        flip_bits(frame, 28, 999, 1 + below(3));
    }
    if (way == 8 || chance(4))
        flip_bits(frame, 0, 15, 1 + below(2));
}

static void compare_made(unsigned long count)
{
    struct leaning l;
    uint8_t message[256], frame[256];

    begin("made frame");
    now.issues = NULL;
    any_bytes(message, sizeof message);
    message[MESSAGE_BYTES - 1] &= 0xFC;
    for (unsigned prn = 0; prn < 256; prn++)
        for (unsigned flags = 0; flags < 256; flags++) {
            now.number = 256 * prn + flags;
            compare_make(message, MESSAGE_BYTES, prn, flags, FRAME_BYTES);
        }
    for (unsigned long i = 0; i < count; i++) {
        unsigned prn = chance(92) ? PICK(ten) : below(256);
        unsigned flags = chance(60) ? 0 : chance(80) ? below(64) : chance(50) ? 64 : below(256);
        size_t n = MESSAGE_BYTES, m = FRAME_BYTES;

        now.number = i;
        if (i % 50 == 0)
            some_leaning(&l);
        make_message(&l, 0, 40);
        any_bytes(message, sizeof message);
        any_bytes(frame, sizeof frame);
        if (chance(70))
            memcpy(message, draft.bytes, MESSAGE_BYTES);
        else if (chance(10))
            memset(message, chance(50) ? 0 : 255, MESSAGE_BYTES);
        message[MESSAGE_BYTES - 1] &= 0xFC;
        if (chance(8))
            message[MESSAGE_BYTES - 1] |= (uint8_t)between(1, 3);
        if (chance(8))
            n = some_near_length(MESSAGE_BYTES, FRAME_BYTES);
        if (chance(8))
            m = some_near_length(FRAME_BYTES, MESSAGE_BYTES);
        compare_make(message, n, prn, flags, m);
        ref_encode(message, prn, flags, frame);
        compare_check(message, n, frame, m);
        some_wrong_frame(message, frame);
        compare_check(message, n, frame, m);
        some_wrong_frame(message, frame);
        compare_check(message, n, frame, m);
    }
}

/* ---- what the part about tables of ledgers draws from here ---- */

static struct leaning leaning_of[LEANINGS];

void lean_anew(unsigned which) { some_leaning(&leaning_of[which]); }
void lean_on(unsigned which, const struct mask *mask) { lean_on_mask(&leaning_of[which], mask); }

size_t some_frame_for(unsigned which, unsigned prn, unsigned kind, unsigned faulty, unsigned damaged,
                      uint8_t bytes[MOST_FRAME])
{
    make_message(&leaning_of[which], kind, faulty);
    any_bytes(bytes, MOST_FRAME);
    ref_encode(draft.bytes, prn, chance(80) ? 0 : below(32), bytes);
    return chance(damaged) ? damage(bytes, MOST_FRAME) : FRAME_BYTES;
}

size_t some_issues_for(unsigned which, uint16_t issues[MOST_ISSUES]) { return some_issues(&leaning_of[which], issues); }

unsigned some_slot_for(unsigned which)
{
    static const uint16_t odd[] = { 0, 0, 1, 174, 175, 255, 256, 256, 257, 65535 };
    const struct leaning *l = &leaning_of[which];
    return chance(20) ? PICK(odd) : l->places > 0 && chance(85) ? l->slot_at[between(1, l->places)] : between(1, 255);
}

/* ---- the run ---- */

/* The refusals that each call can give; each must have come WANTED times. (A
 * replay's frames have all been taken one by one before; of a detailed one those
 * are asked for that give more than their number.) */
static const uint8_t gives[CALLS][16] = {
    [OPEN] = { 4 },
    [TAKE] = { 1, 3, 4, 5, 6, 7, 8, 9, 10, 11, 12, 14, 15, 19 },
    [TAKE_DETAIL] = { 1, 3, 4, 5, 6, 7, 8, 9, 10, 11, 12, 14, 15, 19 },
    [REPLAY_DETAIL] = { 6, 19 },
    [READ] = { 1, 2, 7, 8, 9, 10, 11, 12 },
    [READ_FRAME] = { 1, 3, 5, 6, 7, 8, 9, 10, 11, 12 },
    [READ_FRAME_DETAIL] = { 1, 3, 5, 6, 7, 8, 9, 10, 11, 12 },
    [WRITE] = { 1, 8, 9, 10, 11, 12, 16 },
    [ROWS] = { 1, 17 },
    [ROW] = { 1, 11, 17, 18 },
    [D1_READ] = { 31, 32, 33, 34 },
    [D1_WRITE] = { 31, 32, 33, 34 },
    [READ_CNAV1] = { 35, 36, 37, 39 },
    [JOIN_ISSUE] = { 1, 11, 17 },
    [MAKE_FRAME] = { 1, 2, 4, 16 },
    [CHECK_FRAME] = { 1, 2, 3, 6, 38 },
    [WRITE_SHEET] = { 1, 17, 20, 22, 39 },
    [READ_SHEET] = { 23, 39 },
    [CHECK_SHEET] = { 1, 17, 20, 23, 24, 25, 26, 27, 39 },
};

static unsigned long calls_of(enum call call)
{
    unsigned long sum = 0;
    for (int v = 0; v < MOST_VERDICT; v++)
        sum += tally[call][v];
    return sum;
}

/* How many of the numbers 1 to `most` were seen. */
static unsigned count_seen(const bool *seen, int most)
{
    unsigned count = 0;
    for (int i = 1; i <= most; i++)
        count += seen[i];
    return count;
}

/* A line of the table's head: of each call's name the word `which`, from 0. */
static void print_head(int which)
{
    printf("%-7s", which == 0 ? "refusal" : "");
    for (int c = 0; c < CALLS; c++) {
        const char *word = call_name[c];
        for (int i = 0; i < which && word != NULL; i++) {
            word = strchr(word, '_');
            word = word == NULL ? NULL : word + 1;
        }
        if (word != NULL)
            printf(" %7.*s", (int)strcspn(word, "_"), word);
        else
            printf(" %7s", "");
    }
    printf("%s\n", which == 0 ? "      all" : "");
}

/* How a record can meet the one that is held for its slot, in ref.h's order. */
static const char *const met_name[MEETINGS] = {
    "none held", "other IOD SSR", "other IOD SSR and older", "other IOD Corr", "other IOD Corr and older", "newer", "older",
    "of the same epoch", "43199 ahead", "43200 ahead", "43201 ahead", "newer over midnight",
    "usable and older than an unusable one", "older than one that a mask dropped",
};

/* How codes of type 5, masks and orbits can meet, in ref.h's order. */
static const char *const code_name[CODE_EVENTS] = {
    "kept", "in the place of another", "older than the orbit", "that make a URA unknown", "that make it known", "63",
    "for no orbit", "of filler", "at the last place", "lost before an orbit came", "ended by an orbit",
    "not ended by an orbit that was held off", "dropped by a mask", "not dropped by the same mask",
};

/* What each type was answered; those that were never answered so are left out. */
static void print_types(void)
{
    static const char *const doing[DOINGS] = { "read", "written", "taken" };
    static const uint8_t types[] = { 1, 2, 3, 4, 5, 6, 7, 63 };
    for (size_t t = 0; t < sizeof types; t++) {
        printf("type %u:", types[t]);
        for (int d = 0; d < DOINGS; d++) {
            printf("%s %s %lu, refused", d == 0 ? "" : ";", doing[d], of_type[types[t]][d][0]);
            for (int v = 7; v < MOST_VERDICT - 1; v++)
                if (of_type[types[t]][d][v] > 0)
                    printf(" %d: %lu", v, of_type[types[t]][d][v]);
        }
        printf("\n");
    }
}

static void print_biases_and_codes(void)
{
    printf("type 3 and the list with codes:");
    for (int i = 0; i < CASES; i++)
        printf(" %lu %s%s", cases[i], case_name[i], i + 1 < CASES ? "," : "\n");
    printf("codes of type 5:");
    for (int i = 0; i < CODE_EVENTS; i++)
        printf(" %lu %s%s", ref_codes[i], code_name[i], i + 1 < CODE_EVENTS ? "," : "\n");
    printf("sub-types of type 5, read, taken and refused 15:");
    for (int sub = 0; sub < 8; sub++)
        printf(" %d: %lu %lu %lu%s", sub, subs_read[sub], subs_taken[sub], subs_refused[sub], sub < 7 ? "," : "\n");
}

static void print_table(void)
{
    for (int which = 0; which < 3; which++)
        print_head(which);
    for (int v = 0; v < MOST_VERDICT; v++) {
        unsigned long all = 0;
        for (int c = 0; c < CALLS; c++)
            all += tally[c][v];
        if (all == 0)
            continue;
        if (v == 0)
            printf("%-7s", "taken");
        else
            printf("%-7d", v);
        for (int c = 0; c < CALLS; c++)
            printf(" %7lu", tally[c][v]);
        printf(" %8lu\n", all);
    }
    printf("%-7s", "all");
    for (int c = 0; c < CALLS; c++)
        printf(" %7lu", calls_of((enum call)c));
    printf("\n%lu mask changes, %lu frames of noise, %lu lists with rows, %lu rows, %lu rows of any bytes\n",
           masks_changed, frames_noise, lists_with_rows, rows_seen, rows_of_any_bytes);
    printf("%lu made frames read as their messages\n", frames_read_back);
    printf("%lu subframes with at most one flip in each code word\n", subframes_corrected);
    printf("records that met the one held:");
    for (int i = 0; i < MEETINGS; i++)
        printf(" %lu %s%s", ref_met[i], met_name[i], i + 1 < MEETINGS ? "," : "\n");
    print_types();
    print_biases_and_codes();
    printf("%lu pieces, %lu pairs of good frames that overlap\n", pieces_compared, overlaps_seen);
    print_sheets();
    print_tables();
    printf("beside 6 and 19: %u first groups, %u numbers of failing groups, %u numbers of places\n",
           count_seen(first_seen, GROUPS), count_seen(failing_seen, GROUPS), count_seen(places_seen, SLOTS));
}

/* The refusals that types 3 and 5 can be given when they are read, written and taken. */
static const uint8_t gives_type[8][DOINGS][8] = {
    [3] = { { 7, 9, 10, 11, 12 }, { 1, 9, 10, 11, 12, 16 }, { 7, 9, 10, 11, 12 } },
    [5] = { { 7, 10 }, { 1, 10, 16 }, { 7, 10, 14, 15 } },
};

/* Whether something of types 3 and 5 came too seldom. */
static bool too_few_of_types(void)
{
    bool few = false;
    for (int type = 3; type <= 5; type += 2)
        for (int d = 0; d < DOINGS; d++)
            for (int i = 0; i < 8 && gives_type[type][d][i] != 0; i++) {
                unsigned long came = of_type[type][d][gives_type[type][d][i]];
                if (came < WANTED) {
                    printf("compare: refusal %d of type %d came only %lu times (doing %d)\n", gives_type[type][d][i], type, came, d);
                    few = true;
                }
            }
    for (int i = 0; i < CASES; i++)
        if (cases[i] < WANTED) {
            printf("compare: only %lu %s\n", cases[i], case_name[i]);
            few = true;
        }
    for (int i = 0; i < CODE_EVENTS; i++)
        if (ref_codes[i] < WANTED) {
            printf("compare: only %lu codes %s\n", ref_codes[i], code_name[i]);
            few = true;
        }
    for (int sub = 0; sub < 8; sub++)
        if (subs_read[sub] < 100 || (sub < 4 ? subs_taken[sub] : subs_refused[sub]) < 100) {
            printf("compare: sub-type %d of type 5 came too seldom\n", sub);
            few = true;
        }
    return few;
}

/* Whether something that the run is to show came too seldom. */
static bool too_few(void)
{
    bool few = too_few_sheets() | too_few_tables() | too_few_of_types();
    for (int c = 0; c < CALLS; c++)
        for (int i = 0; i < 16 && gives[c][i] != 0; i++)
            if (tally[c][gives[c][i]] < WANTED) {
                printf("compare: refusal %d by qvd_%s came only %lu times\n", gives[c][i], call_name[c],
                       tally[c][gives[c][i]]);
                few = true;
            }
    for (int f = 0; f < CNAV1_FIELDS; f++)
        for (int end = 0; end < 3; end++)
            if (fields_at_end[f][end] < WANTED) {
                printf("compare: %s of B-CNAV1 was at its end %d only %lu times\n", cnav1_field[f].name, end,
                       fields_at_end[f][end]);
                few = true;
            }
    for (unsigned n = 0; n <= FRAME_BYTES; n++)
        if (pieces_of_length[n] < 20) {
            printf("compare: a piece of %u bytes came only %lu times\n", n, pieces_of_length[n]);
            few = true;
        }
    for (int i = 0; i < MEETINGS; i++)
        if (ref_met[i] < WANTED) {
            printf("compare: a record that is %s met the one held only %lu times\n", met_name[i], ref_met[i]);
            few = true;
        }
    if (count_seen(first_seen, GROUPS) < GROUPS) {
        printf("compare: not every parity group was the first to fail\n");
        few = true;
    }
    if (frames_read_back < 5000) {
        printf("compare: only %lu made frames were read back\n", frames_read_back);
        few = true;
    }
    if (calls_of(TAKE) < 100000 || calls_of(TAKE_DETAIL) < 50000 || calls_of(READ) < 100000 ||
        calls_of(WRITE) < 50000 || lists_with_rows < 10000 || pieces_compared < 20000 || overlaps_seen < 100) {
        printf("compare: fewer frames, messages, lists or pieces than the standard run has\n");
        few = true;
    }
    return few;
}

int main(int argc, char **argv)
{
    unsigned long percent = argc > 2 ? strtoul(argv[2], NULL, 10) : 100, logs = 0;
    bool few;

    setvbuf(stdout, NULL, _IOLBF, 0);
    signal(SIGSEGV, stopped);
    signal(SIGBUS, stopped);
    signal(SIGILL, stopped);
    seed = argc > 1 ? strtoull(argv[1], NULL, 10) : 1;
    input_end = room_end(1024);
    message_end = room_end(256);
    output_end = room_end(MARGIN + QVD_ROWS_BYTES + 64);
    ledger_end = room_end(MARGIN + MOST_LEDGER);
    log_end = room_end(FRAME_BYTES * LOG_FRAMES);
    verdicts_end = room_end(MARGIN + 4 * (LOG_FRAMES + 64));
    issues_end = room_end(2 * (SLOTS + 8));

    compare_opens(4);
    compare_unopened(1000);
    compare_any_bytes(100);
    compare_odd_logs();
    compare_messages(1200 * percent);
    compare_frames(400 * percent);
    compare_writes(1100 * percent);
    compare_subframes(600 * percent);
    compare_cnav1_subframes(300 * percent);
    compare_joins(100 * percent);
    compare_made(100 * percent);
    compare_pieces(40 * percent);
    compare_sheets(percent);
    compare_tables(percent);
    begin("log");
    while (calls_of(TAKE) < 1200 * percent)
        compare_log(logs++, 1 + below(chance(20) ? 10 : 300));
    compare_codes(20 * percent);

    print_table();
    few = percent >= 100 && too_few();
    printf("outside: %lu comparisons, %lu differences\n", comparisons, differences);
    return differences != 0 || few;
}
