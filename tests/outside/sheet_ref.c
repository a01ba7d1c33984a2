/* What the program `sheet` must print, by the independent implementation.
 *
 *   sheet_ref write PRN ISSUES LOG..        the correction sheet, in bytes; nothing if
 *                                           it is refused, and status 1
 *   sheet_ref read FILE                     what the sheet says, or `refused 23 at 32`
 *   sheet_ref check FILE PRN ISSUES LOG..   `accepted left-out 3`, or `refused 25 row 2`,
 *                                           `refused 27` and the like, and status 3
 *   sheet_ref make N LOG ISSUES             writes LOG, frames for PRN 60, and ISSUES, of
 *                                           which the list has rows for slots 1 to N
 *
 * A file name - is standard input. Files are taken to be well formed; one that is
 * not ends the program with status 1. */
#include "lines.h"
#include "ref.h"
#include "sheet.h"
#include "texts.h"

#include <stdio.h>
#include <stdlib.h>
#include <string.h>

static struct ledger ledger;
static uint16_t issues[SLOTS];

/* Fills ledger and issues as `night` does: the pieces of the logs, which are one
 * stream. `words` are PRN, ISSUES and LOG.. */
static void run_night(char **words)
{
    struct bytes log = { 0 };

    if (!is_number(words[0]) || ref_open(&ledger, (unsigned)strtoul(words[0], NULL, 10)) != 0)
        stop(words[0], "no such PRN");
    read_issues(words[1], issues);
    for (words += 2; *words != NULL; words++)
        read_file(*words, &log);
    for (size_t at = 0, n; at < log.n; at += n) {
        n = ref_next_piece(log.at + at, log.n - at);
        ref_take(&ledger, log.at + at, n);
    }
    free(log.at);
}

static int write_sheet(char **words)
{
    uint8_t room[SHEET_BYTES];
    size_t written;
    unsigned refusal;

    run_night(words);
    refusal = ref_write_sheet(&ledger, issues, SLOTS, room, sizeof room, &written);
    if (refusal == 0)
        return fwrite(room, 1, written, stdout) != written;
    fprintf(stderr, "sheet_ref: refused %u\n", refusal);
    return 1;
}

static int read_sheet(const char *name)
{
    static struct sheet sheet;
    struct bytes file = { 0 };
    size_t at;

    read_file(name, &file);
    if (ref_read_sheet(file.at, file.n, MOST_SHEET_ROWS, true, &sheet, &at) != 0) {
        printf("refused 23 at %zu\n", at);
        return 0;
    }
    printf("prn %u ssr %u iodp %u rows %zu\n", sheet.prn, sheet.iod_ssr, sheet.iodp, sheet.count);
    print_head(' ', "");
    for (size_t i = 0; i < sheet.count; i++) {
        print_row(' ', &sheet.row[i]);
        printf("\n");
    }
    return 0;
}

static int check_sheet(const char *name, char **words)
{
    struct bytes file = { 0 };
    size_t beside;
    unsigned refusal;

    read_file(name, &file);
    run_night(words);
    refusal = ref_check_sheet(&ledger, issues, SLOTS, file.at, file.n, &beside);
    switch (refusal) {
    case 0: printf("accepted left-out %zu\n", beside); return 0;
    case 23: printf("refused 23 at %zu\n", beside); return 3;
    case 24:
    case 25:
    case 26: printf("refused %u row %zu\n", refusal, beside); return 3;
    default: printf("refused %u\n", refusal); return 3;
    }
}

/* ---- a list of as many rows as is asked for ---- */

static void put_frame(FILE *out, const struct contents *c)
{
    uint8_t message[MESSAGE_BYTES], frame[FRAME_BYTES];
    if (ref_write(c, message, MESSAGE_BYTES) != 0)
        stop("the log", "a message cannot be written");
    ref_encode(message, 60, 0, frame);
    fwrite(frame, 1, FRAME_BYTES, out);
}

static void make_log(FILE *out, unsigned rows)
{
    struct contents one = { .kind = 1, .mask = { .epoch = 3600, .iod_ssr = 2, .iodp = 9 } };

    for (unsigned slot = 1; slot <= rows; slot++)
        one.mask.set[slot] = true;
    put_frame(out, &one);
    for (unsigned first = 1; first <= rows; first += ORBITS) {
        struct contents two = { .kind = 2, .orbits = { .epoch = 3600, .iod_ssr = 2 } };
        for (unsigned i = 0; i < ORBITS && first + i <= rows; i++) {
            int n = (int)(first + i);
            two.orbits.record[i] = (struct orbit_record){ (uint16_t)n, (uint16_t)(5 * n), (uint8_t)(n % 8), (int16_t)(90 * n - 9000),
                                                          (int16_t)(20 * n - 2000), (int16_t)(4095 - 40 * n),
                                                          ref_ura((unsigned)(1 + n % 63)) };
        }
        put_frame(out, &two);
    }
    for (unsigned sub = 0; sub * CLOCKS < rows; sub++) {
        struct contents four = { .kind = 4, .clocks = { .epoch = 3606, .iod_ssr = 2, .iodp = 9, .first = (uint16_t)sub } };
        for (unsigned i = 0; i < CLOCKS; i++) {
            int n = (int)(sub * CLOCKS + i + 1);
            four.clocks.record[i] = (struct clock_record){ 0, (uint8_t)(n % 8), (int16_t)(150 * n - 16383) };
        }
        put_frame(out, &four);
    }
}

static int make(char **words)
{
    FILE *log = is_number(words[0]) ? fopen(words[1], "wb") : NULL, *list = fopen(words[2], "wb");
    unsigned rows = (unsigned)strtoul(words[0], NULL, 10);

    if (log == NULL || list == NULL || rows > ASSIGNED_SLOTS)
        stop(words[1], "cannot be made");
    make_log(log, rows);
    for (unsigned slot = 1; slot <= rows; slot++) {
        static const uint8_t first[] = { 1, 64, 101, 138 };
        unsigned system = slot < 64 ? 0 : slot < 101 ? 1 : slot < 138 ? 2 : 3;
        fprintf(list, "%c%02u %u\n", "CGER"[system], slot - first[system] + 1, 5 * slot);
    }
    return fclose(log) != 0 || fclose(list) != 0;
}

int main(int argc, char **argv)
{
    int status = 2;

    program = "sheet_ref";
    if (argc >= 5 && strcmp(argv[1], "write") == 0)
        status = write_sheet(argv + 2);
    else if (argc == 3 && strcmp(argv[1], "read") == 0)
        status = read_sheet(argv[2]);
    else if (argc >= 6 && strcmp(argv[1], "check") == 0)
        status = check_sheet(argv[2], argv + 3);
    else if (argc == 5 && strcmp(argv[1], "make") == 0)
        status = make(argv + 2);
    else
        fprintf(stderr, "usage: sheet_ref write PRN ISSUES LOG.. | read FILE | check FILE PRN ISSUES LOG.. | make N LOG ISSUES\n");
    if (fflush(stdout) != 0)
        stop("standard output", "cannot be written");
    return status;
}
