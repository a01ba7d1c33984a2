/* The independent implementation of subframe 2 of B-CNAV1, and of joining its IODC
 * into the broadcast list (cnav1.c). Reading and joining answer 0 for taken, or the
 * refusal number, with what they were lent as it was. */
#ifndef CNAV1_H
#define CNAV1_H

#include <stdbool.h>
#include <stddef.h>
#include <stdint.h>

enum { CNAV1_BYTES = 75, CNAV1_FIELDS = 31, CNAV1_HOW = 1, CNAV1_IODC = 2 };

/* A field: its bits, and whether they are in two's complement. */
struct cnav1_field {
    const char *name;
    int width;
    bool complement;
};
extern const struct cnav1_field cnav1_field[CNAV1_FIELDS];

/* The subframe of 31 numbers, of each the low bits that its field has, with the
 * check that is right for them. */
void ref_write_cnav1(uint8_t subframe[CNAV1_BYTES], const int64_t fields[CNAV1_FIELDS]);

uint8_t ref_read_cnav1(int64_t fields[CNAV1_FIELDS], const uint8_t *s, size_t length);
uint8_t ref_join_issue(uint16_t *issues, size_t count, unsigned prn, unsigned iodc);

#endif
