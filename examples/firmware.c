/* firmware [-i ISSUES] [PRN..]: what a receiver's firmware does with the library, in
 * one file. Frames of 125 bytes come on standard input, one behind the other, of as
 * many correction satellites as the receiver hears; those of up to four PRNs, 59, 60
 * and 61 if none is named, are kept in one table. When the input ends it prints what
 * came of the frames, and how many satellites each PRN has corrections for.
 *
 * ISSUES has a line such as C19 37 for each satellite: its broadcast issue. Without
 * it no issue is known, and then no satellite qualifies.
 *
 * All memory is static: no heap, and nothing of the library but its header.
 *
 *     cc -I include examples/firmware.c target/staticlib/libquieuvodan.a -o firmware
 *
 * Status: 0 well, 1 bad input, 2 a bad argument; both are said in one line on
 * standard error, and then nothing is printed. */
#include "quieuvodan.h"

#include <errno.h>
#include <fcntl.h>
#include <inttypes.h>
#include <stdbool.h>
#include <stdio.h>
#include <stdlib.h>
#include <string.h>
#include <unistd.h>

/* The receiver's state: zero bytes are the empty table and a tally of nothing. */
static uint8_t table[QVD_TABLE_BYTES];
static uint8_t tally[QVD_TALLY_BYTES];
static uint16_t issues[QVD_ISSUES];

/* Says in one line what is wrong, and ends the program. */
static _Noreturn void fail(int status, const char *where, const char *what)
{
    fprintf(stderr, "firmware: %s: %s\n", where, what);
    exit(status);
}

/* ---- opening ---- */

/* A word of one to three digits, or -1. */
static int number_of(const char *word)
{
    size_t digits = strspn(word, "0123456789");
    return digits == 0 || digits > 3 || word[digits] != 0 ? -1 : atoi(word);
}

static void open_prn(const char *word)
{
    int prn = number_of(word);

    if (prn < 0 || prn > UINT8_MAX)
        fail(2, word, "not a PRN");
    switch (qvd_table_open(table, sizeof table, tally, sizeof tally, (uint8_t)prn)) {
    case QVD_TAKEN: return;
    case QVD_PRN: fail(2, word, "not a PRN of 1 to 5 or 59 to 63");
    case QVD_IS_OPEN: fail(2, word, "given twice");
    case QVD_FULL: fail(2, word, "one PRN too many: there is room for four");
    default: fail(2, word, "cannot be opened");
    }
}

/* ---- issues ---- */

/* The next line of a file, without its end and cut to the room; false at the end. */
static bool next_line(int file, const char *name, char *line, size_t room)
{
    size_t n = 0;
    ssize_t got;
    char c = 0;

    while ((got = read(file, &c, 1)) == 1 && c != '\n')
        if (n + 1 < room)
            line[n++] = c;
    if (got < 0)
        fail(1, name, strerror(errno));
    line[n] = 0;
    return got == 1 || n > 0;
}

/* The issue that a line says, at its slot; a blank line and a remark say nothing.
 * False if it is something else. */
static bool take_issue(const char *line)
{
    static const struct {
        char letter;
        unsigned before, most;
    } systems[] = { { 'C', 0, 63 }, { 'G', 63, 37 }, { 'E', 100, 37 }, { 'R', 137, 37 } };
    char letter, rest = '#';
    unsigned number, issue;

    line += strspn(line, " \t\r");
    if (*line == 0 || *line == '#')
        return true;
    if (sscanf(line, "%c%2u %4u %c", &letter, &number, &issue, &rest) < 3 || rest != '#' || issue > 1023)
        return false;
    for (size_t i = 0; i < sizeof systems / sizeof systems[0]; i++)
        if (systems[i].letter == letter && number >= 1 && number <= systems[i].most) {
            issues[systems[i].before + number - 1] = (uint16_t)issue;
            return true;
        }
    return false;
}

static void read_issues(const char *name)
{
    int file = open(name, O_RDONLY);
    char line[256];

    if (file < 0)
        fail(1, name, strerror(errno));
    while (next_line(file, name, line, sizeof line))
        if (!take_issue(line))
            fail(1, name, "a line that is no issue");
    close(file);
}

/* ---- frames ---- */

/* Waits for a frame; its length is answered: 0 at the end, and less than 125 where
 * the input ends inside it. */
static size_t next_frame(uint8_t frame[QVD_FRAME_BYTES])
{
    size_t n = 0;
    while (n < QVD_FRAME_BYTES) {
        ssize_t got = read(STDIN_FILENO, frame + n, QVD_FRAME_BYTES - n);
        if (got < 0 && errno == EINTR)
            continue;
        if (got < 0)
            fail(1, "standard input", strerror(errno));
        if (got == 0)
            break;
        n += (size_t)got;
    }
    return n;
}

/* What came of the frames; of refusal 6 the frame with the most failing groups. */
static struct {
    unsigned long frames, taken;
    unsigned first, failing;
} seen;

/* The loop. */
static void run(void)
{
    uint8_t frame[QVD_FRAME_BYTES];
    size_t n;

    while ((n = next_frame(frame)) == sizeof frame) {
        uint32_t answer = qvd_table_take_detail(table, sizeof table, tally, sizeof tally, frame, n);
        seen.frames++;
        seen.taken += answer == QVD_TAKEN;
        if (answer % 256 == QVD_PARITY && answer / 65536 > seen.failing) {
            seen.first = answer / 256 % 256;
            seen.failing = answer / 65536;
        }
    }
    if (n != 0)
        fail(1, "standard input", "ends inside a frame");
}

/* ---- the report ---- */

/* How often a refusal was given. */
static uint32_t given(unsigned refusal)
{
    const uint8_t *at = tally + 4 * refusal;
    return (uint32_t)at[0] << 24 | (uint32_t)at[1] << 16 | (uint32_t)at[2] << 8 | at[3];
}

/* The rows of a PRN's list: each begins with its slot, and zeros are behind them. */
static unsigned rows_of(uint8_t prn)
{
    static uint8_t rows[QVD_ROWS_BYTES];
    unsigned count = 0;

    if (qvd_table_rows(table, sizeof table, tally, sizeof tally, prn, issues, QVD_ISSUES, rows, sizeof rows) != QVD_TAKEN)
        return 0;
    while (count < QVD_MOST_ROWS && rows[count * QVD_ROW_BYTES] != 0)
        count++;
    return count;
}

static void report(void)
{
    printf("frames %lu taken %lu refused %lu\n", seen.frames, seen.taken, seen.frames - seen.taken);
    for (unsigned refusal = QVD_BAD_LENGTH; refusal <= QVD_LENGTH; refusal++)
        if (given(refusal) > 0)
            printf("refusal %u %" PRIu32 "\n", refusal, given(refusal));
    if (seen.failing > 0)
        printf("parity most-failing %u first %u\n", seen.failing, seen.first);
    for (unsigned room = 0; room < QVD_ROOMS; room++) {
        uint8_t prn = table[room * QVD_LEDGER_BYTES];
        if (prn != 0)
            printf("prn %u rows %u\n", prn, rows_of(prn));
    }
}

int main(int argc, char **argv)
{
    static char output[1024];
    int arg = 1;

    setvbuf(stdout, output, _IOFBF, sizeof output);
    for (unsigned slot = 1; slot <= QVD_ISSUES; slot++)
        issues[slot - 1] = QVD_NO_ISSUE;
    if (arg < argc && strcmp(argv[arg], "-i") == 0) {
        if (arg + 1 == argc)
            fail(2, "-i", "a file of issues is wanted");
        read_issues(argv[arg + 1]);
        arg += 2;
    }
    if (arg == argc) {
        open_prn("59");
        open_prn("60");
        open_prn("61");
    }
    for (; arg < argc; arg++)
        open_prn(argv[arg]);
    run();
    report();
    if (fflush(stdout) != 0)
        fail(1, "standard output", "cannot be written");
    return 0;
}
