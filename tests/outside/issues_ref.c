/* issues_ref [-i ISSUES] FILE
 *
 * What the program issues is to print, by the independent implementation, written
 * from 02, CR 6, and README.md: FILE has lines "C19 HEX", a subframe 2 of B-CNAV1
 * in hexadecimal and the satellite that it was heard from. Each that is not refused
 * is joined, in turn, into the broadcast list of ISSUES, or into one of no issues;
 * then the list is printed as an ISSUES file. A refused line is named on standard
 * error and changes nothing; a line that is no record ends the program with
 * status 1, and nothing is printed. A file name - is standard input. */
#include "cnav1.h"
#include "lines.h"
#include "ref.h"

#include <stdio.h>
#include <stdlib.h>
#include <string.h>

/* Joins what a line says; the refusal number is answered. A blank line is taken. */
static unsigned join_line(const char *name, unsigned long number, struct chars line, uint16_t issues[SLOTS])
{
    struct bytes subframe = { 0 };
    struct chars word[2];
    int64_t fields[CNAV1_FIELDS];
    size_t words = words_of(line, word, 2);
    unsigned prn = words == 2 ? slot_of(word[0]) : 0, refusal;

    if (words == 0 && line.n <= LINE_BYTES)
        return 0;
    if (line.n > LINE_BYTES || prn == 0 || prn > 63 || !read_hex(word[1], &subframe)) {
        char what[60];
        snprintf(what, sizeof what, "line %lu: not a record", number);
        stop(name, what);
    }
    refusal = ref_read_cnav1(fields, subframe.at, subframe.n);
    if (refusal == 0)
        refusal = ref_join_issue(issues, SLOTS, prn, (unsigned)fields[CNAV1_IODC]);
    free(subframe.at);
    return refusal;
}

static void join_file(const char *name, uint16_t issues[SLOTS])
{
    struct bytes bytes = { 0 };
    struct chars text, line;

    read_file(name, &bytes);
    text = text_of(&bytes);
    for (unsigned long number = 1; next_line(&text, &line); number++) {
        unsigned refusal = join_line(called(name), number, line, issues);
        if (refusal != 0)
            fprintf(stderr, "%s: %s: line %lu: refused %u\n", program, called(name), number, refusal);
    }
    free(bytes.at);
}

int main(int argc, char **argv)
{
    uint16_t issues[SLOTS];
    bool begun = argc == 4 && strcmp(argv[1], "-i") == 0;
    const char *file = argv[argc - 1];

    program = "issues_ref";
    if ((argc != 2 && !begun) || (file[0] == '-' && file[1] != 0)) {
        fprintf(stderr, "usage: issues_ref [-i ISSUES] FILE\n");
        return 2;
    }
    no_issues(issues);
    if (begun)
        read_issues(argv[2], issues);
    join_file(file, issues);
    for (unsigned slot = 1; slot <= ASSIGNED_SLOTS; slot++) {
        if (issues[slot - 1] == NO_ISSUE)
            continue;
        print_satellite(slot);
        printf(" %u\n", issues[slot - 1]);
    }
    if (fflush(stdout) != 0)
        stop("standard output", "cannot be written");
    return 0;
}
