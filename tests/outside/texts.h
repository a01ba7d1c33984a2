/* What the counterparts of the programs print alike: the table of rows. And whether
 * a word of a command line is a number. */
#ifndef TEXTS_H
#define TEXTS_H

#include "ref.h"

/* Whether a word is a number of at most nine digits. */
bool is_number(const char *word);

/* The head of the table of rows, with more columns behind it; and a row without the
 * end of its line. */
void print_head(char separator, const char *more);
void print_row(char separator, const struct row *row);

#endif
