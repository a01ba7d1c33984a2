/* Files, lines and words of text: see lines.h. */
#include "lines.h"

#include "ref.h"

#include <stdio.h>
#include <stdlib.h>
#include <string.h>

const char *program = "?";

void stop(const char *file, const char *what)
{
    fprintf(stderr, "%s: %s: %s\n", program, file, what);
    exit(1);
}

/* ---- files ---- */

static void make_room(struct bytes *bytes, size_t room)
{
    if (room <= bytes->room)
        return;
    bytes->room = 2 * room + 65536;
    bytes->at = realloc(bytes->at, bytes->room);
    if (bytes->at == NULL)
        stop("memory", "there is none left");
}

void read_file(const char *name, struct bytes *bytes)
{
    FILE *in = strcmp(name, "-") == 0 ? stdin : fopen(name, "rb");
    size_t got;
    if (in == NULL)
        stop(name, "cannot be opened");
    do {
        make_room(bytes, bytes->n + 1);
        got = fread(bytes->at + bytes->n, 1, bytes->room - bytes->n, in);
        bytes->n += got;
    } while (got > 0);
    if (ferror(in))
        stop(called(name), "cannot be read");
    if (in != stdin)
        fclose(in);
}

const char *called(const char *name) { return strcmp(name, "-") == 0 ? "standard input" : name; }

/* ---- lines and words ---- */

struct chars text_of(const struct bytes *bytes)
{
    struct chars text = { bytes->at, bytes->n };
    if (text.n >= 3 && memcmp(text.at, "\xEF\xBB\xBF", 3) == 0)
        text = (struct chars){ text.at + 3, text.n - 3 };
    return text;
}

bool next_line(struct chars *text, struct chars *line)
{
    size_t end = 0;
    if (text->n == 0)
        return false;
    while (end < text->n && text->at[end] != '\n')
        end++;
    *line = (struct chars){ text->at, end };
    if (end < text->n)
        end++;
    *text = (struct chars){ text->at + end, text->n - end };
    if (line->n > 0 && line->at[line->n - 1] == '\r')
        line->n--;
    return true;
}

static bool is_blank(uint8_t c) { return c == ' ' || c == '\t' || c == '\r'; }

size_t words_of(struct chars line, struct chars *word, size_t most)
{
    size_t count = 0, i = 0;
    for (;;) {
        size_t from;
        while (i < line.n && is_blank(line.at[i]))
            i++;
        if (i == line.n || line.at[i] == '#')
            return count;
        from = i;
        while (i < line.n && !is_blank(line.at[i]))
            i++;
        if (count < most)
            word[count] = (struct chars){ line.at + from, i - from };
        count++;
    }
}

bool word_is(struct chars word, const char *text) { return word.n == strlen(text) && memcmp(word.at, text, word.n) == 0; }

/* What a hexadecimal digit stands for, of either case; 16 if it is none. */
static unsigned digit_of(uint8_t c)
{
    if (c >= '0' && c <= '9')
        return c - '0';
    if (c >= 'A' && c <= 'F')
        return c - 'A' + 10u;
    return c >= 'a' && c <= 'f' ? c - 'a' + 10u : 16;
}

bool read_hex(struct chars word, struct bytes *bytes)
{
    if (word.n % 2 != 0)
        return false;
    make_room(bytes, word.n / 2);
    bytes->n = word.n / 2;
    for (size_t i = 0; i < word.n; i += 2) {
        unsigned high = digit_of(word.at[i]), low = digit_of(word.at[i + 1]);
        if (high == 16 || low == 16)
            return false;
        bytes->at[i / 2] = (uint8_t)(16 * high + low);
    }
    return true;
}

/* ---- satellites and their issues ---- */

static const char letters[] = "CGER";
static const uint8_t before[] = { 0, 63, 100, 137, 174 };

/* A decimal number, where all above 9999 are 9999; -1 if it is none. */
static int number_of(struct chars word)
{
    int number = 0;
    for (size_t i = 0; i < word.n; i++) {
        if (digit_of(word.at[i]) > 9)
            return -1;
        number = 10 * number + (int)digit_of(word.at[i]);
        if (number > 9999)
            number = 9999;
    }
    return word.n == 0 ? -1 : number;
}

unsigned slot_of(struct chars word)
{
    int number = word.n == 3 ? number_of((struct chars){ word.at + 1, 2 }) : 0;
    for (int system = 0; system < 4; system++)
        if (number > 0 && word.at[0] == (uint8_t)letters[system] && before[system] + number <= before[system + 1])
            return (unsigned)(before[system] + number);
    return 0;
}

void print_satellite(unsigned slot)
{
    int system = 0;
    while (slot > before[system + 1])
        system++;
    printf("%c%02u", letters[system], slot - before[system]);
}

void no_issues(uint16_t *issues)
{
    for (int i = 0; i < SLOTS; i++)
        issues[i] = NO_ISSUE;
}

/* A line of ISSUES: a satellite and its issue, or nothing. */
static void read_issue(const char *name, struct chars line, uint16_t *issues)
{
    struct chars word[2];
    size_t words = words_of(line, word, 2);
    unsigned slot;
    int issue;

    if (line.n > LINE_BYTES)
        stop(name, "line too long");
    if (words == 0)
        return;
    if (words != 2)
        stop(name, "malformed line");
    slot = slot_of(word[0]);
    issue = number_of(word[1]);
    if (slot == 0 || issue < 0 || issue > LAST_ISSUE)
        stop(name, "no such satellite or issue");
    if (issues[slot - 1] != NO_ISSUE)
        stop(name, "satellite named twice");
    issues[slot - 1] = (uint16_t)issue;
}

void read_issues(const char *name, uint16_t *issues)
{
    struct bytes bytes = { 0 };
    struct chars text, line;

    no_issues(issues);
    read_file(name, &bytes);
    text = text_of(&bytes);
    while (next_line(&text, &line))
        read_issue(called(name), line, issues);
    free(bytes.at);
}
