/* night_ref [-e] [-m] [--csv] [--quiet] [--min-rows N] [--max-refused PERCENT]
 *           [--max-age SECONDS] [--max-gap SECONDS] PRN[,PRN..] ISSUES LOG..
 *
 * What the program night is to print, by the independent implementation: one
 * fresh ledger for PRN, the pieces of the logs, which are one stream, and the
 * list against the broadcast issues. With several PRNs, up to four, all have their
 * ledger in one table: first it is said what came of all pieces, then of each PRN
 * what is said of one, counting the pieces that carry it. With -m the logs are mixed ones, of text: a
 * line is a frame, or a subframe of B-CNAV1 or D1 with the satellite that it was
 * heard from, and the issues of the B-CNAV1 subframes are joined into ISSUES, or
 * into no issues where ISSUES is the word none. A file name - is standard input.
 * Status 3 where a limit does not hold, 2 for usage. Issues are taken to be well
 * formed; a file that is not ends the program with status 1. */
#include "cnav1.h"
#include "lines.h"
#include "ref.h"
#include "table.h"
#include "texts.h"
#include "words.h"

#include <stdio.h>
#include <stdlib.h>
#include <string.h>

static const char *const refusal_words[] = {
    [1] = "wrong length",
    [2] = "the two bits after the message are not zero",
    [3] = "sync is not EB90",
    [4] = "another PRN than the ledger's, or none of the ten",
    [5] = "service withdrawn",
    [6] = "parity wrong",
    [7] = "check bits wrong",
    [8] = "type not handled",
    [9] = "parts end after bit 462",
    [10] = "epoch above 86399",
    [11] = "slot out of range",
    [12] = "one slot twice",
    [14] = "no mask in force, or its IOD SSR or IODP differ",
    [15] = "no satellite has the sub-type's first place",
    [16] = "a field exceeds its width, or no URA code gives the quarters",
    [17] = "an issue is neither 0 to 1023 nor none",
    [18] = "no such row",
    [19] = "no satellite has the last place from Slot_S on",
};
enum { REFUSALS = sizeof refusal_words / sizeof refusal_words[0] };

static const char *const reason_words[REASONS] = { "", "orbit", "clock", "ssr", "corr", "ura", "unusable", "issue" };

/* ---- what is asked for ---- */

static struct {
    bool each, mixed, csv, quiet;
    bool limits_refused, limits_age, limits_gap;
    unsigned long min_rows, max_refused, max_age, max_gap;
} asked = { .min_rows = 1 };

static void usage(void)
{
    fprintf(stderr, "usage: night_ref [-e] [-m] [--csv] [--quiet] [--min-rows N] [--max-refused PERCENT] [--max-age SECONDS] "
                    "[--max-gap SECONDS] PRN[,PRN..] ISSUES LOG..\n");
    exit(2);
}

static unsigned long number_of(const char *word)
{
    if (!is_number(word))
        usage();
    return strtoul(word, NULL, 10);
}

/* Takes the options; the place of the first argument behind them is answered. */
static int take_options(char **argv)
{
    int arg = 1;
    for (; argv[arg] != NULL && argv[arg][0] == '-' && argv[arg][1] != 0; arg++) {
        const char *option = argv[arg];
        if (strcmp(option, "-e") == 0) {
            asked.each = true;
        } else if (strcmp(option, "-m") == 0) {
            asked.mixed = true;
        } else if (strcmp(option, "--csv") == 0) {
            asked.csv = true;
        } else if (strcmp(option, "--quiet") == 0) {
            asked.quiet = true;
        } else if (strcmp(option, "--min-rows") == 0) {
            asked.min_rows = number_of(argv[++arg]);
        } else if (strcmp(option, "--max-refused") == 0) {
            asked.limits_refused = true;
            asked.max_refused = number_of(argv[++arg]);
        } else if (strcmp(option, "--max-age") == 0) {
            asked.limits_age = true;
            asked.max_age = number_of(argv[++arg]);
        } else if (strcmp(option, "--max-gap") == 0) {
            asked.limits_gap = true;
            asked.max_gap = number_of(argv[++arg]);
        } else {
            usage();
        }
    }
    return arg;
}

/* ---- the night ---- */

static struct table table;
static struct tally tally; /* of all pieces */
static unsigned prns[ROOMS], prn_count;

/* What is counted of pieces: how many there were and what came of them, and of the
 * epochs that accepted frames carried. Of all pieces, and of those that carry each
 * PRN where there are several. */
struct counted {
    unsigned long pieces, taken, refused[REFUSALS];
    struct {
        bool any;
        uint32_t first, last, gap;
        unsigned long piece; /* that carried the last of them */
    } epochs;
};
static struct counted all, carrying[ROOMS];

static void count_epoch(struct counted *counted, const uint8_t *frame)
{
    struct contents c;
    uint32_t epoch, after;
    if (ref_read_frame(frame, FRAME_BYTES, &c) != 0 || !ref_epoch(&c, &epoch))
        return;
    if (!counted->epochs.any)
        counted->epochs.first = counted->epochs.last = epoch;
    after = ref_after(epoch, counted->epochs.last);
    if (after < 43200 && after > counted->epochs.gap)
        counted->epochs.gap = after;
    counted->epochs.any = true;
    counted->epochs.last = epoch;
    counted->epochs.piece = counted->pieces;
}

static void count_piece(struct counted *counted, const uint8_t *piece, unsigned refusal)
{
    counted->pieces++;
    if (refusal == 0) {
        counted->taken++;
        count_epoch(counted, piece);
    } else {
        counted->refused[refusal]++;
    }
}

/* Whether a piece carries a PRN: it has a frame's length and sync. */
static bool carries(const uint8_t *piece, size_t n, unsigned prn)
{
    return n == FRAME_BYTES && ref_get_bits(piece, 0, 16) == 0xEB90 && ref_frame_prn(piece) == prn;
}

/* The line of a piece, for -e. */
static void print_piece(const uint8_t *piece, unsigned refusal, const struct detail *detail)
{
    printf("frame %lu", all.pieces);
    if (refusal == 0)
        printf(" taken type %u", ref_frame_type(piece));
    else
        printf(" refused %u", refusal);
    if (refusal == 6)
        printf(" group %u failing %u", detail->first, detail->failing);
    if (refusal == 19)
        printf(" places %u", detail->places);
    printf("\n");
}

static void take_piece(const uint8_t *piece, size_t n)
{
    struct detail detail;
    unsigned refusal = ref_table_take(&table, piece, n, &detail);

    ref_tally(&tally, refusal);
    count_piece(&all, piece, refusal);
    for (unsigned i = 0; i < prn_count; i++)
        if (carries(piece, n, prns[i]))
            count_piece(&carrying[i], piece, refusal);
    if (asked.each && !asked.csv)
        print_piece(piece, refusal, &detail);
    if (!asked.quiet && all.pieces % 100000 == 0)
        fprintf(stderr, "... %lu frames\n", all.pieces);
}

/* ---- mixed logs ---- */

/* Subframes of one signal: how many there were, and how often each was refused. */
struct heard {
    unsigned long all, refused[40];
};
static struct heard cnav1, d1;
static unsigned long lines, bad_lines;

static void take_cnav1(const struct bytes *subframe, unsigned prn, uint16_t issues[SLOTS])
{
    int64_t fields[CNAV1_FIELDS];
    unsigned refusal = ref_read_cnav1(fields, subframe->at, subframe->n);

    if (refusal == 0)
        refusal = ref_join_issue(issues, SLOTS, prn, (unsigned)fields[CNAV1_IODC]);
    cnav1.all++;
    cnav1.refused[refusal]++;
}

static void take_d1(const struct bytes *subframe)
{
    uint8_t data[SUBFRAME_DATA_BYTES];

    d1.all++;
    d1.refused[ref_read_subframe(data, sizeof data, subframe->at, subframe->n)]++;
}

/* Takes what the words of a line say; false if they are no record. */
static bool take_record(const struct chars word[3], size_t words, uint16_t issues[SLOTS])
{
    bool is_frame = words == 2 && word_is(word[0], "B2B");
    bool is_cnav1 = words == 3 && word_is(word[0], "CNAV1");
    bool is_d1 = words == 3 && word_is(word[0], "D1");
    unsigned prn = is_cnav1 || is_d1 ? slot_of(word[1]) : 0;
    struct bytes said = { 0 };
    bool good = is_frame || (prn >= 1 && prn <= 63);

    good = good && read_hex(word[words - 1], &said);
    if (good && is_frame)
        take_piece(said.at, said.n);
    else if (good && is_cnav1)
        take_cnav1(&said, prn, issues);
    else if (good)
        take_d1(&said);
    free(said.at);
    return good;
}

static void take_mixed(const char *name, uint16_t issues[SLOTS])
{
    struct bytes bytes = { 0 };
    struct chars text, line;

    read_file(name, &bytes);
    text = text_of(&bytes);
    for (unsigned long number = 1; next_line(&text, &line); number++) {
        struct chars word[3];
        size_t words = words_of(line, word, 3);
        if (words == 0 && line.n <= LINE_BYTES)
            continue;
        lines++;
        if (line.n <= LINE_BYTES && take_record(word, words, issues))
            continue;
        bad_lines++;
        if (bad_lines == 1 && !asked.quiet)
            fprintf(stderr, "... %s: line %lu: not a record\n", called(name), number);
    }
    free(bytes.at);
}

static void print_heard(const char *signal, const char *done, const struct heard *heard)
{
    printf("%s %lu %s %lu refused %lu\n", signal, heard->all, done, heard->refused[0], heard->all - heard->refused[0]);
    for (int i = 1; i < 40; i++)
        if (heard->refused[i] > 0)
            printf("%s-refusal %d %lu\n", signal, i, heard->refused[i]);
}

/* ---- the report ---- */

/* How many places of a mask in force are those of satellites: they come first. */
static unsigned assigned(const struct ledger *ledger)
{
    unsigned n = 0;
    while (n < ledger->places && ledger->slot_at[n + 1] <= ASSIGNED_SLOTS)
        n++;
    return n;
}

static void print_refused(int refusal, unsigned long times)
{
    if (times > 0)
        printf("refusal %d %lu %s\n", refusal, times, refusal_words[refusal]);
}

static void print_pieces(const struct counted *counted)
{
    printf("frames %lu taken %lu refused %lu\n", counted->pieces, counted->taken, counted->pieces - counted->taken);
    for (int i = 1; i < REFUSALS; i++)
        print_refused(i, counted->refused[i]);
}

static void print_mixed(void)
{
    print_heard("cnav1", "joined", &cnav1);
    print_heard("d1", "read", &d1);
    printf("lines %lu bad %lu\n", lines, bad_lines);
}

static void print_counts(const struct ledger *ledger, const struct counted *counted)
{
    print_pieces(counted);
    if (asked.mixed && prn_count == 1)
        print_mixed();
    if (ledger->has_mask)
        printf("mask ssr %u iodp %u satellites %u\n", ledger->mask.iod_ssr, ledger->mask.iodp, assigned(ledger));
    else
        printf("mask none\n");
    if (ledger->has_mask && assigned(ledger) < ledger->places)
        printf("reserved %u\n", ledger->places - assigned(ledger));
    if (counted->epochs.any)
        printf("epochs first %u last %u longest-gap %u frames-since %lu\n", (unsigned)counted->epochs.first,
               (unsigned)counted->epochs.last, (unsigned)counted->epochs.gap, counted->pieces - counted->epochs.piece);
    else
        printf("epochs none\n");
}

static void print_rows_of(const struct ledger *ledger, char separator, const struct row *rows, size_t count)
{
    for (size_t i = 0; i < count; i++) {
        if (asked.csv && prn_count > 1)
            printf("%u%c", ledger->prn, separator);
        print_row(separator, &rows[i]);
        printf("%c%u%c%u\n", separator, (unsigned)ledger->orbit[rows[i].slot].epoch, separator,
               (unsigned)ledger->clock[rows[i].slot].epoch);
    }
}

/* The satellites of the mask in force that have no row. */
static void print_absent(const struct ledger *ledger, const uint16_t issues[SLOTS], size_t rows)
{
    unsigned absent = 0;
    for (unsigned n = 1; ledger->has_mask && n <= assigned(ledger); n++)
        absent += ref_reason(ledger, issues, ledger->slot_at[n]) != HAS_ROW;
    if (ledger->has_mask && absent + rows != assigned(ledger))
        stop("the list", "rows and reasons do not fit each other");
    printf("absent %u\n", absent);
    if (absent > 0)
        printf("slot sat why\n");
    for (unsigned n = 1; absent > 0 && n <= assigned(ledger); n++) {
        unsigned slot = ledger->slot_at[n], reason = ref_reason(ledger, issues, slot);
        if (reason == HAS_ROW)
            continue;
        printf("%u ", slot);
        print_satellite(slot);
        printf(" %s\n", reason_words[reason]);
    }
}

/* The beginning of a line that says that a limit does not hold: with several PRNs and
 * nothing but their table on standard output, it names the PRN. */
static void print_unfit(FILE *out, unsigned prn)
{
    if (asked.csv && prn_count > 1)
        fprintf(out, "prn %u ", prn);
    fprintf(out, "unfit ");
}

/* A line for each limit that does not hold; whether all hold is answered. */
static bool judge(const struct ledger *ledger, const struct counted *counted, const struct row *rows, size_t count)
{
    FILE *out = asked.csv ? stderr : stdout;
    unsigned long refused = counted->pieces - counted->taken;
    uint32_t age = 0, gap = counted->epochs.gap;
    bool fit = true;

    for (size_t i = 0; i < count; i++) {
        uint32_t after = ref_after(counted->epochs.last, ledger->clock[rows[i].slot].epoch);
        if (after > age)
            age = after;
    }
    if (count < asked.min_rows) {
        print_unfit(out, ledger->prn);
        fit = fprintf(out, "rows %zu below %lu\n", count, asked.min_rows) < 0;
    }
    if (asked.limits_refused && refused * 100 > asked.max_refused * counted->pieces) {
        print_unfit(out, ledger->prn);
        fit = fprintf(out, "refused %lu of %lu above %lu percent\n", refused, counted->pieces, asked.max_refused) < 0;
    }
    if (asked.limits_age && age > asked.max_age) {
        print_unfit(out, ledger->prn);
        fit = fprintf(out, "age %u above %lu\n", (unsigned)age, asked.max_age) < 0;
    }
    if (asked.limits_gap && gap > asked.max_gap) {
        print_unfit(out, ledger->prn);
        fit = fprintf(out, "gap %u above %lu\n", (unsigned)gap, asked.max_gap) < 0;
    }
    return fit;
}

/* What is said of one PRN; whether all limits hold for it is answered. */
static bool report(const struct ledger *ledger, const struct counted *counted, const uint16_t issues[SLOTS])
{
    static struct row rows[ASSIGNED_SLOTS];
    size_t count;

    ref_rows(ledger, issues, SLOTS, rows, &count);
    if (asked.csv) {
        print_rows_of(ledger, ',', rows, count);
    } else {
        printf("prn %u\n", ledger->prn);
        print_counts(ledger, counted);
        printf("rows %zu\n", count);
        print_head(' ', " orbit_s clock_s");
        print_rows_of(ledger, ' ', rows, count);
        print_absent(ledger, issues, count);
    }
    return judge(ledger, counted, rows, count);
}

/* What stands before the reports: with commas the head of the one table, of which
 * several PRNs have a column; with several PRNs what came of all pieces, the
 * refusals as the tally has them. */
static void print_before(void)
{
    if (asked.csv) {
        printf("%s", prn_count > 1 ? "prn," : "");
        print_head(',', " orbit_s clock_s");
    } else if (prn_count > 1) {
        printf("frames %lu taken %lu refused %lu\n", all.pieces, all.taken, all.pieces - all.taken);
        for (int i = 1; i < REFUSALS; i++)
            print_refused(i, tally.given[i]);
        if (asked.mixed)
            print_mixed();
    }
}

/* The logs as one stream of frames. */
static void take_logs(char **names)
{
    struct bytes log = { 0 };

    for (; *names != NULL; names++)
        read_file(*names, &log);
    for (size_t at = 0, n; at < log.n; at += n) {
        n = ref_next_piece(log.at + at, log.n - at);
        take_piece(log.at + at, n);
    }
    free(log.at);
}

/* Opens a ledger for each PRN of a word, with commas between them: one to four of the
 * ten, each once. */
static void open_ledgers(const char *word)
{
    char number[16];
    for (const char *at = word;; at++) {
        size_t digits = strcspn(at, ",");
        snprintf(number, sizeof number, "%.*s", (int)(digits < sizeof number ? digits : sizeof number - 1), at);
        if (!is_number(number) || ref_table_open(&table, (unsigned)number_of(number)) != 0)
            stop(word, "not one to four PRNs, each once, of 1 to 5 and 59 to 63");
        prns[prn_count++] = (unsigned)number_of(number);
        at += digits;
        if (*at == 0)
            return;
    }
}

int main(int argc, char **argv)
{
    static uint16_t issues[SLOTS];
    bool fit = true;
    int arg = take_options(argv);

    program = "night_ref";
    if (argc - arg < 3)
        usage();
    open_ledgers(argv[arg]);
    if (strcmp(argv[arg + 1], "none") == 0)
        no_issues(issues);
    else
        read_issues(argv[arg + 1], issues);
    if (!asked.mixed)
        take_logs(argv + arg + 2);
    for (char **name = argv + arg + 2; asked.mixed && *name != NULL; name++)
        take_mixed(*name, issues);

    print_before();
    for (unsigned i = 0; i < prn_count; i++)
        fit &= report(ref_table_ledger(&table, prns[i]), prn_count == 1 ? &all : &carrying[i], issues);
    if (fflush(stdout) != 0)
        stop("standard output", "cannot be written");
    return fit ? 0 : 3;
}
