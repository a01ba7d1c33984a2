/* What the program `cnav1` must print, by the independent implementation.
 *
 *   cnav1_ref FILE       a line for each 75 bytes of FILE, and for what is left
 *   cnav1_ref -m FILE    writes FILE: subframes as a receiver has them, one with all
 *                        fields at their smallest, one at their largest, one of zero
 *                        bits; then refused ones: HOW 168, a flipped bit, a cut end */
#include "cnav1.h"

#include <stdio.h>
#include <string.h>

static const char *const name[CNAV1_FIELDS] = {
    "wn",    "how",  "iodc", "iode",     "toe",   "sattype", "da",      "adot",    "dn0", "dn0dot", "m0",
    "e",     "omega", "omega0", "i0",    "omegadot", "i0dot", "cis",    "cic",     "crs", "crc",    "cus",
    "cuc",   "toc",  "a0",   "a1",       "a2",    "tgdb2ap", "iscb1cd", "tgdb1cp", "rev"
};

static int print_lines(FILE *file)
{
    uint8_t bytes[CNAV1_BYTES];
    int64_t fields[CNAV1_FIELDS];
    size_t n;

    while ((n = fread(bytes, 1, sizeof bytes, file)) > 0) {
        unsigned refusal = ref_read_cnav1(fields, bytes, n);
        if (refusal != 0) {
            printf("refused %u\n", refusal);
            continue;
        }
        for (int f = 0; f < CNAV1_FIELDS; f++)
            printf("%s%s %lld", f == 0 ? "" : " ", name[f], (long long)fields[f]);
        printf("\n");
    }
    return ferror(file) != 0;
}

/* The smallest number of a field, or the largest; HOW goes up to 167. */
static int64_t field_end(int f, int largest)
{
    int64_t all = (INT64_C(1) << cnav1_field[f].width) - 1;
    if (cnav1_field[f].complement)
        return largest ? all / 2 : -(all / 2) - 1;
    return !largest ? 0 : f == CNAV1_HOW ? 167 : all;
}

static int make_file(FILE *file)
{
    /* a medium orbit, an inclined one and a geostationary one */
    static const int64_t heard[3][CNAV1_FIELDS] = {
        { 900, 12, 37, 37, 144, 3, 1187, -40321, 9876, -1203, -1234567890, 3210987, 2109876543, -987654321,
          1310720001, -35001, 412, -83, 57, -4021, 68012, -3120, 9011, 144, -1208765, 4821, 0, -37, 12, 21, 0 },
        { 900, 12, 293, 37, 144, 2, -51201, 9034, -2311, 87, 3987654321, 12345678, -2012345678, 1765432109,
          1301234567, -17011, -96, 1204, -877, 30221, -120987, 8123, -6544, 144, 98121, -1022, -3, 402, -19, -250, 0 },
        { 900, 13, 549, 37, 145, 1, 204800, -1, 31022, 5011, -4294967295, 4123456, 4294967295, -3456789012, 61234567,
          1211, 1033, 20011, -19876, -700123, 812345, -65001, 70012, 145, 7654321, 991, 2, 2047, -2048, 0, 127 },
    };
    uint8_t bytes[CNAV1_BYTES];
    int64_t fields[CNAV1_FIELDS];

    for (int i = 0; i < 3; i++) {
        ref_write_cnav1(bytes, heard[i]);
        fwrite(bytes, 1, sizeof bytes, file);
    }
    for (int largest = 0; largest < 2; largest++) {
        for (int f = 0; f < CNAV1_FIELDS; f++)
            fields[f] = field_end(f, largest);
        ref_write_cnav1(bytes, fields);
        fwrite(bytes, 1, sizeof bytes, file);
    }
    memset(bytes, 0, sizeof bytes);
    fwrite(bytes, 1, sizeof bytes, file);
    memcpy(fields, heard[0], sizeof fields);
    fields[CNAV1_HOW] = 168;
    ref_write_cnav1(bytes, fields);
    fwrite(bytes, 1, sizeof bytes, file);
    bytes[40] ^= 16;
    fwrite(bytes, 1, sizeof bytes, file);
    ref_write_cnav1(bytes, heard[1]);
    fwrite(bytes, 1, sizeof bytes, file);
    fwrite(bytes, 1, 60, file);
    return ferror(file) != 0;
}

int main(int argc, char **argv)
{
    int makes = argc == 3 && strcmp(argv[1], "-m") == 0, status;
    FILE *file = makes || argc == 2 ? fopen(argv[argc - 1], makes ? "wb" : "rb") : NULL;

    if (file == NULL) {
        fprintf(stderr, "usage: cnav1_ref [-m] FILE\n");
        return 2;
    }
    status = makes ? make_file(file) : print_lines(file);
    return fclose(file) != 0 || status;
}
