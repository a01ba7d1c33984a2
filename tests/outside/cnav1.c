/* Subframe 2 of B-CNAV1, written from source document 001 (figures 6-6 and 6-12 to
 * 6-14 for the order and the widths, tables 7-2 and 7-5 to 7-8 for the signs) and
 * from the change request alone. Bits are kept one to an element, and the check is
 * what is left of a long division of polynomials, so no step is shared with the
 * library. */
#include "cnav1.h"

#include <string.h>

enum { BITS = 600, CHECK_BITS = 24, DATA_BITS = BITS - CHECK_BITS };

const struct cnav1_field cnav1_field[CNAV1_FIELDS] = {
    { "WN", 13, false },     { "HOW", 8, false },      { "IODC", 10, false },   { "IODE", 8, false },
    /* ephemeris I, 203 bits */
    { "toe", 11, false },    { "SatType", 2, false },  { "dA", 26, true },      { "Adot", 25, true },
    { "dn0", 17, true },     { "dn0dot", 23, true },   { "M0", 33, true },      { "e", 33, false },
    { "omega", 33, true },
    /* ephemeris II, 222 bits */
    { "Omega0", 33, true },  { "i0", 33, true },       { "Omegadot", 19, true }, { "i0dot", 15, true },
    { "Cis", 16, true },     { "Cic", 16, true },      { "Crs", 24, true },     { "Crc", 24, true },
    { "Cus", 21, true },     { "Cuc", 21, true },
    /* clock, 69 bits */
    { "toc", 11, false },    { "a0", 25, true },       { "a1", 22, true },      { "a2", 11, true },
    { "TGDB2ap", 12, true }, { "ISCB1Cd", 12, true },  { "TGDB1Cp", 12, true }, { "Rev", 7, false },
};

/* ---- bits, high bit first ---- */

static void bytes_to_bits(uint8_t bits[BITS], const uint8_t bytes[CNAV1_BYTES])
{
    for (int i = 0; i < CNAV1_BYTES; i++)
        for (int k = 0; k < 8; k++)
            bits[8 * i + k] = bytes[i] >> (7 - k) & 1;
}

static void bits_to_bytes(uint8_t bytes[CNAV1_BYTES], const uint8_t bits[BITS])
{
    for (int i = 0; i < CNAV1_BYTES; i++) {
        unsigned byte = 0;
        for (int k = 0; k < 8; k++)
            byte = byte * 2 + bits[8 * i + k];
        bytes[i] = (uint8_t)byte;
    }
}

/* ---- the check ---- */

/* x^24 times the polynomial of the data bits, divided by the generator; what is
 * left is the check. */
static void divide(uint8_t left[CHECK_BITS], const uint8_t bits[DATA_BITS])
{
    static const int exponents[] = { 24, 23, 18, 17, 14, 11, 10, 7, 6, 5, 4, 3, 1, 0 };
    uint8_t dividend[BITS] = { 0 };
    memcpy(dividend, bits, DATA_BITS);
    for (int i = 0; i < DATA_BITS; i++)
        if (dividend[i])
            for (size_t k = 0; k < sizeof exponents / sizeof *exponents; k++)
                dividend[i + 24 - exponents[k]] ^= 1;
    memcpy(left, dividend + DATA_BITS, CHECK_BITS);
}

/* ---- fields ---- */

static int64_t number_of(const uint8_t *bits, const struct cnav1_field *field)
{
    int64_t number = field->complement && bits[0] ? -1 : 0;
    for (int i = 0; i < field->width; i++)
        number = number * 2 + bits[i];
    return number;
}

void ref_write_cnav1(uint8_t subframe[CNAV1_BYTES], const int64_t fields[CNAV1_FIELDS])
{
    uint8_t bits[BITS];
    int at = 0;
    for (int f = 0; f < CNAV1_FIELDS; f++)
        for (int i = cnav1_field[f].width - 1; i >= 0; i--)
            bits[at++] = (uint64_t)fields[f] >> i & 1;
    divide(bits + DATA_BITS, bits);
    bits_to_bytes(subframe, bits);
}

uint8_t ref_read_cnav1(int64_t fields[CNAV1_FIELDS], const uint8_t *s, size_t length)
{
    uint8_t bits[BITS], check[CHECK_BITS];
    int64_t read[CNAV1_FIELDS];
    int at = 0;
    if (length != CNAV1_BYTES)
        return 35;
    bytes_to_bits(bits, s);
    divide(check, bits);
    if (memcmp(check, bits + DATA_BITS, CHECK_BITS) != 0)
        return 36;
    for (int f = 0; f < CNAV1_FIELDS; f++) {
        read[f] = number_of(bits + at, &cnav1_field[f]);
        at += cnav1_field[f].width;
    }
    if (read[CNAV1_HOW] >= 7 * 24)
        return 37;
    memcpy(fields, read, sizeof read);
    return 0;
}

/* ---- the broadcast list ---- */

uint8_t ref_join_issue(uint16_t *issues, size_t count, unsigned prn, unsigned iodc)
{
    bool ill = iodc >= 1024;
    if (count != 255)
        return 1;
    if (prn == 0 || prn >= 64)
        return 11;
    for (size_t i = 0; i < count; i++)
        ill = ill || (issues[i] >= 1024 && issues[i] != 65535);
    if (ill)
        return 17;
    issues[prn - 1] = (uint16_t)iodc;
    return 0;
}
