/* Files, lines and words of text, for the counterparts of the programs that read
 * text (lines.c): issues_ref and night_ref. Written from README.md and
 * docs/DECISIONS.md. Any byte may stand in a text, also zero. */
#ifndef LINES_H
#define LINES_H

#include <stdbool.h>
#include <stddef.h>
#include <stdint.h>

enum { LINE_BYTES = 65536 };

/* Ends the program with status 1 and one line on standard error, which begins
 * with the program's name. */
extern const char *program;
_Noreturn void stop(const char *file, const char *what);

struct bytes {
    uint8_t *at;
    size_t n, room;
};

/* Puts what a file holds behind the bytes that there are; - is standard input. */
void read_file(const char *name, struct bytes *bytes);

/* What a file is called in a line on standard error. */
const char *called(const char *name);

struct chars {
    const uint8_t *at;
    size_t n;
};

/* The text of a file's bytes: a byte order mark before it is left out. */
struct chars text_of(const struct bytes *bytes);

/* Takes the next line off a text, without its end, LF or CR LF; false if there is
 * none. */
bool next_line(struct chars *text, struct chars *line);

/* The words of a line up to one that begins with #, where a remark begins; `most` of
 * them are kept, and how many there are is answered. What stands between words is
 * blanks, tabs and carriage returns. */
size_t words_of(struct chars line, struct chars *word, size_t most);

bool word_is(struct chars word, const char *text);

/* The bytes that a word says in hexadecimal, two digits a byte, put in the place of
 * those that there are; false if it is no such word. */
bool read_hex(struct chars word, struct bytes *bytes);

/* The slot of a satellite's RINEX name, a letter and two digits; 0 if it is none. */
unsigned slot_of(struct chars word);

/* And back: the name of the satellite of a slot, 1 to 174, to standard output. */
void print_satellite(unsigned slot);

/* The broadcast list of an ISSUES file, issues[k - 1] for slot k, of 255. A file
 * that is not well formed ends the program. */
void no_issues(uint16_t *issues);
void read_issues(const char *name, uint16_t *issues);

#endif
