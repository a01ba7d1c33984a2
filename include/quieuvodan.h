/* Quieuvodan: BeiDou PPP-B2b messages read and written, frames made, checked and
 * kept in a ledger, or in a table of ledgers for several correction satellites at
 * once, and the list of the satellites that qualify; the list as a correction
 * sheet, written, read and checked; subframes of the D1 and D2 messages; and
 * subframe 2 of B-CNAV1, whose IODC is joined into the issue list. For C and C++.
 *
 * Link with libquieuvodan.a (x86-64 Linux), which `tools/staticlib`
 * writes to target/staticlib/. It uses memcpy and memset of the C library and
 * nothing else: no heap, no files, no global state. Functions on different
 * memory may run at the same time.
 *
 *     cc -I include program.c target/staticlib/libquieuvodan.a
 *
 * Every function is total: for any bytes it ends, and answers QVD_TAKEN or one
 * refusal number, the lowest that applies. That number is what it returns, save
 * that qvd_take_detail, qvd_read_frame_detail and qvd_check_frame put more above
 * it for two of the refusals, that the three functions on sheets put an offset, a
 * row, a length or a count above it, that the functions qvd_table_.. do as those
 * without `table_` in their name, and that qvd_next_piece returns a length and
 * refuses nothing. A refusal leaves all that was lent as it was, every byte of it,
 * whichever function refuses and with whatever number; only the tally of a table's
 * functions, which is lent for that, then counts one more.
 *
 * QVD_LENGTH comes before all others: a ledger, a form or a room that is not as
 * long as this header says, or bytes that are no table. A length that the rules themselves speak of is
 * refused by their number instead: a frame, a message, the room for either and
 * the issue list with QVD_BAD_LENGTH, both lengths of the two functions on D1 and
 * D2 subframes with QVD_D1_LENGTH, a B-CNAV1 subframe with QVD_CNAV1_LENGTH, room
 * that is shorter than a sheet with QVD_SHEET_ROOM. A sheet may have any length.
 *
 * What the caller must keep, since no length can show it:
 * - each pointer is valid for the number of elements that follows it, also
 *   where that number is wrong for the function, and is not NULL, even for 0;
 * - memory that a function changes overlaps nothing else that it is lent;
 * - uint16_t and uint32_t memory is aligned as C asks, and its numbers are in
 *   the machine's own byte order;
 * - nothing else changes the memory during the call.
 *
 * The proofs say, for every input, exactly what is returned and what each lent
 * room then holds: crates/ledger_calls/specs, and those of row_calls,
 * message_calls, signal_calls, sheet_calls and table_calls. */
#ifndef QUIEUVODAN_H
#define QUIEUVODAN_H

#include <stddef.h>
#include <stdint.h>

#ifdef __cplusplus
extern "C" {
#endif

/* Sizes in bytes, save QVD_ISSUES: the entries of an issue list. */
enum {
    QVD_FRAME_BYTES = 125,
    QVD_MESSAGE_BYTES = 61,
    QVD_LEDGER_BYTES = 9726,
    QVD_ISSUES = 255,
    QVD_ROW_BYTES = 27,
    QVD_MOST_ROWS = 174,
    QVD_ROWS_BYTES = 4698, /* QVD_MOST_ROWS rows */
    QVD_CONTENTS_BYTES = 516,
    QVD_D1_BYTES = 38,      /* a subframe */
    QVD_D1_DATA_BYTES = 28, /* its information bits */
    QVD_CNAV1_BYTES = 75,   /* a subframe 2 */
    QVD_CNAV1_FIELDS_BYTES = 248, /* its 31 fields */
    QVD_SHEET_ROWS = 174,   /* most rows of a correction sheet */
    QVD_SHEET_BYTES = 4187, /* the longest sheet: 11 bytes, and 24 a row */
    QVD_SHEET_HEADER_BYTES = 5 /* what its header says */
};

/* The ledgers of a table, its size in bytes, and that of a tally. */
enum {
    QVD_ROOMS = 4,
    QVD_TABLE_BYTES = QVD_ROOMS * QVD_LEDGER_BYTES,
    QVD_TALLY_BYTES = 160
};

/* What the functions answer. */
enum {
    QVD_TAKEN = 0,
    QVD_BAD_LENGTH = 1,     /* frame or its room not 125 bytes, message or its room not 61, issue list not 255 */
    QVD_LAST_BITS = 2,      /* a message's last two bits are not zero */
    QVD_SYNC = 3,           /* sync is not 0xEB90 */
    QVD_PRN = 4,            /* frame of another PRN than the ledger's; to open or make for a PRN that is not 1 to 5 or 59 to 63 */
                            /* table: frame of a PRN that is not open */
    QVD_WITHDRAWN = 5,      /* first flag bit is 1 */
    QVD_PARITY = 6,         /* some parity group is not zero */
    QVD_CHECK = 7,          /* check bits wrong */
    QVD_TYPE = 8,           /* type is not 1 to 7 or 63 */
    QVD_PARTS_END = 9,      /* types 3, 6, 7: parts end after bit 462 */
    QVD_EPOCH = 10,         /* an epoch above 86399 */
    QVD_SLOT = 11,          /* a slot above 255; Slot_S 0 or above 255; a row asked for slot 0 or above 255; joining: PRN not 1 to 63 */
    QVD_TWICE = 12,         /* one slot twice among orbit records, type 7 clock records or satellites of type 3 */
                            /* 13 is given no more: a mask may have bits set in 175 to 255 */
    QVD_MASK = 14,          /* types 4, 5, 6: no mask in force, or its IOD SSR or IODP differ */
    QVD_PLACE = 15,         /* types 4, 5: no satellite has the sub-type's first place */
    QVD_FIELD = 16,         /* writing: a field exceeds its width, or no URA code gives the quarters; flags above 63 */
    QVD_ISSUE = 17,         /* an issue is neither 0 to 1023 nor 65535; joining: also an IODC above 1023 */
    QVD_NO_ROW = 18,        /* the slot does not qualify */
    QVD_LAST_PLACE = 19,    /* type 6: no satellite has the last place from Slot_S on */
    QVD_NO_MASK = 20,       /* sheet to write or check: no mask is in force */
                            /* 21 is given no more: a sheet has room for every slot that a list can have */
    QVD_SHEET_ROOM = 22,    /* sheet to write: the room is shorter than the sheet */
    QVD_SHEET = 23,         /* a sheet that cannot be read; with the offset of its first wrong field */
    QVD_SHEET_SLOT = 24,    /* sheet to check: a row's slot is none of our list's; with the row */
    QVD_SHEET_NUMBERS = 25, /* sheet to check: a row has other numbers than ours; with the row */
    QVD_SHEET_TWICE = 26,   /* sheet to check: a row stood there before; with the row */
    QVD_SHEET_HEADER = 27,  /* sheet to check: its PRN, IOD SSR or IODP is not the ledger's */
    QVD_IS_OPEN = 28,       /* table, to open: the PRN is open */
    QVD_FULL = 29,          /* table, to open: four other PRNs are open */
    QVD_NOT_OPEN = 30,      /* table, to close or to ask: the PRN is not open */
    QVD_D1_LENGTH = 31,     /* subframe not 38 bytes, its information not 28, a subframe's last four bits not zero */
    QVD_D1_PREAMBLE = 32,   /* preamble is not 11100010010 */
    QVD_D1_FRAID = 33,      /* FraID is not 1 to 5 */
    QVD_D1_SOW = 34,        /* SOW is above 604799 */
    QVD_CNAV1_LENGTH = 35,  /* B-CNAV1 subframe 2 not 75 bytes */
    QVD_CNAV1_CHECK = 36,   /* its check bits wrong */
    QVD_CNAV1_HOUR = 37,    /* its HOW is above 167 */
    QVD_CHANGED = 38,       /* a frame that is checked has other message symbols than its message */
    QVD_LENGTH = 39         /* a ledger, contents, rows, verdicts, details, fields or header of another length than here */
                            /* table: bytes that are no table; a tally, rows or a row of another length than here */
};

enum { QVD_NO_ISSUE = 65535 };
enum { QVD_BEIDOU = 1, QVD_GPS = 2, QVD_GALILEO = 3, QVD_GLONASS = 4 };
enum { QVD_URA_UNKNOWN = 0, QVD_URA_QUARTERS = 1, QVD_URA_ABOVE = 2 };
enum { QVD_BIAS_MM = 17 }; /* a code bias is its raw value times so many millimetres */

/* The fields of a B-CNAV1 subframe 2 in the interface document's order. */
enum {
    QVD_CNAV1_WN, QVD_CNAV1_HOW, QVD_CNAV1_IODC, QVD_CNAV1_IODE,
    QVD_CNAV1_TOE, QVD_CNAV1_SATTYPE, QVD_CNAV1_DA, QVD_CNAV1_ADOT, QVD_CNAV1_DN0, QVD_CNAV1_DN0DOT,
    QVD_CNAV1_M0, QVD_CNAV1_E, QVD_CNAV1_OMEGA, QVD_CNAV1_OMEGA0, QVD_CNAV1_I0, QVD_CNAV1_OMEGADOT,
    QVD_CNAV1_I0DOT, QVD_CNAV1_CIS, QVD_CNAV1_CIC, QVD_CNAV1_CRS, QVD_CNAV1_CRC, QVD_CNAV1_CUS,
    QVD_CNAV1_CUC, QVD_CNAV1_TOC, QVD_CNAV1_A0, QVD_CNAV1_A1, QVD_CNAV1_A2, QVD_CNAV1_TGDB2AP,
    QVD_CNAV1_ISCB1CD, QVD_CNAV1_TGDB1CP, QVD_CNAV1_REV, QVD_CNAV1_FIELDS
};

/* Forms. All numbers are high byte first; those marked s are in two's
 * complement. Offsets and sizes are in bytes.
 *
 * A row, 27 bytes. Orbit values and clock are in tenths of a millimetre.
 *      0  1  slot                 6  4  radial, s       22  1  URA: its kind
 *      1  1  system              10  4  along, s        23  4  URA: quarter
 *      2  1  number in it        14  4  cross, s              millimetres, 0 for
 *      3  2  IODN                18  4  clock, s              the other kinds
 *      5  1  IOD Corr
 *
 * Contents, 516 bytes. Values are raw, as the message has them. A part that the
 * type lacks, a blank record and a record past the count are all zero when they
 * are read, and are not looked at when they are written.
 *      0  1  type: 1 to 7 or 63
 *      1  4  mask part: epoch
 *      5  1  IOD SSR
 *      6  1  IODP
 *      7  32  the mask: slot 1 is the high bit of the first byte, slot 255 the
 *            second lowest of the last; the last bit is 0, and set is refused 16
 *     39  4  clock part: epoch
 *     43  1  IOD SSR
 *     44  1  IODP (types 4 and 6)
 *     45  2  sub-type (type 4) or Slot_S (type 6)
 *     47  1  number of clock records: NumC in types 6 and 7; a type 4 is read as 23
 *            and written as 23 whatever stands here
 *     48  23 x 5  slot (2; type 7 alone), IOD Corr (1), C0 (2, s)
 *    163  4  orbit part: epoch
 *    167  1  IOD SSR
 *    168  1  number of orbit records: NumO in types 6 and 7; a type 2 is read as 6
 *            and written as 6 whatever stands here
 *    169  6 x 16  slot (2), IODN (2), IOD Corr (1), radial, along, cross (2 each, s),
 *                 URA: its kind (1) and quarters (4); any other kind than 1 and 2
 *                 is unknown, and quarters are looked at in kind 1 alone
 *    265  4  bias part (type 3): epoch
 *    269  1  IOD SSR
 *    270  1  number of satellites, up to 31
 *    271  31 x 3  slot (2), number of its biases (1), up to 15
 *    364  25 x 3  signal and tracking mode (1), bias (2, s; -2048 to 2047): those of
 *                 the first satellite, then those of the second, and so on. A blank,
 *                 slot 0, has none: it is read with number 0, and its number is not
 *                 looked at when it is written. Biases past the last satellite's are
 *                 not looked at
 *    439  4  code part (type 5): epoch
 *    443  1  IOD SSR
 *    444  1  IODP
 *    445  1  sub-type, up to 7
 *    446  70  URA codes, up to 63: 0 unknown, 63 above 5466.5 mm, the others
 *             3^(code / 8) * (4 + code modulo 8) - 4 quarter millimetres
 *
 * A ledger is 9726 bytes that only these functions need to understand. Any bytes
 * are some ledger; qvd_open makes a fresh one. Zero bytes, never opened, are a
 * ledger for no PRN: they refuse every frame. A ledger may be copied and stored.
 *
 * An issue list has entry k - 1 for slot k: 0 to 1023, or QVD_NO_ISSUE.
 *
 * A table, QVD_TABLE_BYTES: QVD_ROOMS rooms one behind the other, each of a
 * ledger's size. A room's first byte is the PRN that it is open for, 1 to 5 or 59
 * to 63, and the room is then that PRN's ledger; 0 is a room that is free. Bytes
 * are a table exactly if they have that length, each room's first byte is 0 or one
 * of the ten, and no PRN has two rooms. Zero bytes are the empty table: nothing
 * needs to be called to make one. A table may be copied and stored.
 *
 * A tally, QVD_TALLY_BYTES: how often each refusal was given. The counter of number
 * n, 1 to 39, is the 4 bytes from 4 * n on, and stops at 4294967295. The first 4
 * bytes are no counter and never change. Any bytes are a tally; zero bytes have
 * counted nothing.
 *
 * A subframe of a D1 or D2 message, 38 bytes: its ten words of 30 bits as they
 * are sent, high bit first, then four zero bits. Its information, 28 bytes: the
 * 26 information bits of the first word and the 22 of each other, 224 in all,
 * high bit first. Preamble, FraID and SOW are bits 1 to 11, 16 to 18 and 19 to 38
 * of these.
 *
 * A subframe 2 of B-CNAV1, 75 bytes: its 600 bits before the coding, high bit
 * first, the last 24 of them the check. Its fields, 248 bytes: 31 raw numbers of 8
 * bytes, s, field QVD_CNAV1_.. at 8 times its number. WN, HOW, IODC, IODE, toe,
 * SatType, e, toc and Rev have no sign in the subframe; the others are negative
 * where their highest bit is set. Rev is given as it is sent.
 *
 * A correction sheet, 11 bytes and 24 a row: fields one behind the other, each a
 * tag (1 byte), the length of its content (2) and the content. Orbit values and
 * clock are in tenths of a millimetre. docs/SHEET.md has it byte by byte.
 *     01, 5   PRN (1), IOD SSR (1), IODP (1), number of rows (2)
 *     02, 21  for each row: slot (1), IODN (2), IOD Corr (1), radial, along, cross,
 *             clock (4 each, s), URA code (1)
 *     FF, 0   the end
 * What its header says, 5 bytes: the content of the field 01. */

/* Makes the n bytes a fresh ledger for a PRN, whatever they held. 4, 39. */
uint8_t qvd_open(uint8_t *ledger, size_t n, uint8_t prn);

/* Takes one frame, whole or not at all. 1, 3 to 12, 14, 15, 19, 39. */
uint8_t qvd_take(uint8_t *ledger, size_t n, const uint8_t *frame, size_t m);

/* Takes one frame as qvd_take does, and says more about two refusals. What
 * qvd_take would return is the answer modulo 256. 1, 3 to 12, 14, 15, 19, 39.
 *      6 + 256 * first + 65536 * failing   first: the first parity group that is
 *          not zero, 1 to 81, down each column of the interface document's print,
 *          columns left to right; failing: how many of the 81 are not zero
 *     19 + 256 * set   set: the number of set bits of the mask in force, up to 255
 * Any other answer is the number alone. */
uint32_t qvd_take_detail(uint8_t *ledger, size_t n, const uint8_t *frame, size_t m);

/* Makes a fresh ledger for a PRN and takes the frames of a log of m bytes in
 * order: pieces of 125 bytes, and what is left at the end as one more frame.
 * verdicts gets what qvd_take would return for each; k is the number of frames,
 * (m + 124) / 125, or 39. 4, 39. */
uint8_t qvd_replay(uint8_t *ledger, size_t n, uint8_t prn, const uint8_t *log, size_t m,
                   uint8_t *verdicts, size_t k);

/* As qvd_replay, with what qvd_take_detail would return for each frame. 4, 39. */
uint8_t qvd_replay_detail(uint8_t *ledger, size_t n, uint8_t prn, const uint8_t *log, size_t m,
                          uint32_t *details, size_t k);

/* Finds the next piece of a log in the n bytes that are left: how many of them to
 * hand in as the next frame, 1 to 125, or 0 where n is 0. Frames are found by their
 * sync and their parity: if a frame with sync 0xEB90 and all 81 parity groups zero
 * begins at the first byte, it is 125; else it is the number of bytes before the
 * first such frame that begins 1 to 125 bytes on; else 125, or n where that is less.
 * Every byte is then in exactly one piece, in order, and a good frame that no
 * earlier good frame overlaps is handed in whole, wherever it stands. A piece that
 * is no whole frame is refused: one that is not 125 bytes long with 1. A log of
 * whole frames is cut as qvd_replay cuts it.
 * The first 250 bytes decide: a buffer that is refilled from a file needs to hold
 * no more, and must hold as many while the log has them.
 *     for (size_t at = 0; at < m; at += n) {
 *         n = qvd_next_piece(log + at, m - at);
 *         refusal = qvd_take(ledger, QVD_LEDGER_BYTES, log + at, n);
 *     } */
uint8_t qvd_next_piece(const uint8_t *bytes, size_t n);

/* Gives the rows of all slots that qualify, one after the other in rising slot
 * order, then zeros; r is QVD_ROWS_BYTES. A row's first byte, its slot, is 1 to
 * 174: a slot above never qualifies, so that all rows stand in it whatever bytes
 * the ledger has. A row's URA is that of the orbit in force, or what a type 5 put
 * in its place. 1, 17, 39. */
uint8_t qvd_rows(const uint8_t *ledger, size_t n, const uint16_t *issues, size_t k,
                 uint8_t *rows, size_t r);

/* Gives the row of a slot; r is QVD_ROW_BYTES. 1, 11, 17, 18, 39. */
uint8_t qvd_row(const uint8_t *ledger, size_t n, const uint16_t *issues, size_t k, uint16_t slot,
                uint8_t *row, size_t r);

/* Reads a message of m bytes; k is QVD_CONTENTS_BYTES. 1, 2, 7 to 12, 39. */
uint8_t qvd_read(const uint8_t *message, size_t m, uint8_t *contents, size_t k);

/* Reads a frame of m bytes without a ledger, for any PRN; k is
 * QVD_CONTENTS_BYTES. 1, 3, 5 to 12, 39. */
uint8_t qvd_read_frame(const uint8_t *frame, size_t m, uint8_t *contents, size_t k);

/* As qvd_read_frame, and says more about refusal 6, as qvd_take_detail does: then
 * it returns 6 + 256 * first + 65536 * failing. 1, 3, 5 to 12, 39. */
uint32_t qvd_read_frame_detail(const uint8_t *frame, size_t m, uint8_t *contents, size_t k);

/* Writes the message of contents into a room of m bytes, QVD_MESSAGE_BYTES; k is
 * QVD_CONTENTS_BYTES. 1, 8 to 12, 16, 39. */
uint8_t qvd_write(const uint8_t *contents, size_t k, uint8_t *room, size_t m);

/* Makes the frame of a message of m bytes, QVD_MESSAGE_BYTES, in a room of n bytes,
 * QVD_FRAME_BYTES: sync, the PRN, the six flags, the message's 81 symbols and their
 * 81 parity symbols, the only ones with which all parity groups are zero. Any 486
 * bits can be sent: neither the check bits nor the type are looked at. The first
 * flag, 32, says that the service is withdrawn. 1, 2, 4, 16. */
uint8_t qvd_make_frame(const uint8_t *message, size_t m, uint8_t prn, uint8_t flags,
                       uint8_t *frame, size_t n);

/* Checks a frame of n bytes against the message of m bytes that it is to carry:
 * its sync, its parity groups, and that its first 81 symbols are the message's.
 * PRN and flags are not looked at. It says more about refusal 6, as
 * qvd_take_detail does: then it returns 6 + 256 * first + 65536 * failing. A frame
 * that qvd_make_frame makes of the message is taken. 1, 2, 3, 6, 38. */
uint32_t qvd_check_frame(const uint8_t *message, size_t m, const uint8_t *frame, size_t n);

/* Reads the information of a subframe of m bytes, QVD_D1_BYTES, into a room of k
 * bytes, QVD_D1_DATA_BYTES. A code word with at most one flipped bit gives back
 * the eleven bits that were sent; with more flips it may give others. Preamble,
 * FraID and SOW are looked at after that. 31 to 34. */
uint8_t qvd_d1_read(const uint8_t *subframe, size_t m, uint8_t *data, size_t k);

/* Writes the subframe of information of k bytes, QVD_D1_DATA_BYTES, into a room
 * of m bytes, QVD_D1_BYTES. 31 to 34. */
uint8_t qvd_d1_write(const uint8_t *data, size_t k, uint8_t *subframe, size_t m);

/* Reads the fields of a B-CNAV1 subframe 2 of m bytes, QVD_CNAV1_BYTES, into a room
 * of k bytes, QVD_CNAV1_FIELDS_BYTES. 35 to 37, 39. */
uint8_t qvd_read_cnav1(const uint8_t *subframe, size_t m, uint8_t *fields, size_t k);

/* Puts the IODC that BeiDou satellite prn sends into an issue list of k entries,
 * QVD_ISSUES: entry prn - 1 becomes the IODC, the others are left. 1, 11, 17. */
uint8_t qvd_join_issue(uint16_t *issues, size_t k, uint16_t prn, uint16_t iodc);

/* Writes the rows of all slots that qualify as a correction sheet into the first
 * bytes of a room of m bytes, and returns 256 times the sheet's length; the room
 * past it stays as it was. The sheet of r rows has 11 + 24 * r bytes, at most
 * QVD_SHEET_BYTES. A refusal is the number alone, below 256, in this order: 39, 1,
 * 17, 20, 22. */
uint32_t qvd_write_sheet(const uint8_t *ledger, size_t n, const uint16_t *issues, size_t k,
                         uint8_t *room, size_t m);

/* Reads a correction sheet of m bytes: what its header says into h bytes,
 * QVD_SHEET_HEADER_BYTES, and its rows into r bytes, QVD_ROWS_BYTES, as qvd_rows
 * gives them: one after the other, then zeros. A sheet is read exactly if the
 * rules of qvd_write_sheet can give it: PRN of the ten, IOD SSR up to 3, IODP up to
 * 15, as many rows as the header says and at most QVD_SHEET_ROWS, slots 1 to 174
 * that rise, IODN up to 1023, IOD Corr up to 7, radial and clock 16 times -16383
 * to 16383, along and cross 64 times -4095 to 4095, URA codes 1 to 63, and nothing
 * behind the end. Else it returns 23 + 256 * offset: that of the tag of the first
 * field that is wrong, missing or cut short, or of the first byte behind the end.
 * 23, 39. */
uint32_t qvd_read_sheet(const uint8_t *sheet, size_t m, uint8_t *header, size_t h,
                        uint8_t *rows, size_t r);

/* Checks a correction sheet of m bytes against a ledger and issues. It is accepted
 * exactly if it reads as by qvd_read_sheet, save that its rows may stand in any
 * order, its header has the ledger's PRN and the IOD SSR and IODP of the mask in
 * force, and each of its rows is one of the list's, none twice. Then 256 times the
 * number of the list's rows that it leaves out is returned: 0 is a sheet with all
 * rows. What qvd_write_sheet writes is accepted so while the ledger takes no frame.
 * Else, in this order: 39, 1, 17, 20; 23 + 256 * offset; 27; then for the first row
 * that is wrong, from 1, the lowest of 24 + 256 * row, its slot is none of the
 * list's, 25 + 256 * row, it has other numbers, 26 + 256 * row, it is repeated. */
uint32_t qvd_check_sheet(const uint8_t *ledger, size_t n, const uint16_t *issues, size_t k,
                         const uint8_t *sheet, size_t m);

/* Several correction satellites at once: one table, one tally, and each frame goes
 * to the ledger of its own PRN. What a PRN's frames are answered and what its list
 * is are those of a ledger that was opened when the PRN was and got its frames
 * alone; other PRNs show in QVD_FULL and in the tally, and nowhere else.
 *
 *     static uint8_t table[QVD_TABLE_BYTES], tally[QVD_TALLY_BYTES];
 *     qvd_table_open(table, sizeof table, tally, sizeof tally, 59);
 *     qvd_table_open(table, sizeof table, tally, sizeof tally, 60);
 *     while (next_frame(frame))
 *         qvd_table_take(table, sizeof table, tally, sizeof tally, frame, sizeof frame);
 *
 * Each call is lent the table of n bytes, QVD_TABLE_BYTES, and the tally of t,
 * QVD_TALLY_BYTES. Whatever number a call refuses with, it raises that number's
 * counter by one and changes nothing else, neither the table nor what else it was
 * lent; a call that is taken counts nothing. 39 comes before all else: first for a
 * tally of another length, and then nothing is counted; then for bytes that are no
 * table; then for the room of rows or of a row. The numbers after it stand below in
 * the order in which they are given. No call changes another room than that of the
 * PRN that it names or that its frame carries. */

/* Opens the first free room for a PRN: all its bytes become those of a fresh
 * ledger, whatever they were. 39, 4, 28, 29. */
uint8_t qvd_table_open(uint8_t *table, size_t n, uint8_t *tally, size_t t, uint8_t prn);

/* Closes the room of a PRN: all its bytes become 0. 39, 30. */
uint8_t qvd_table_close(uint8_t *table, size_t n, uint8_t *tally, size_t t, uint8_t prn);

/* Hands a frame of m bytes to the ledger of its PRN, which takes it, whole or not at
 * all, as qvd_take does. 4: no room is open for its PRN; a frame that is refused 1
 * or 3 has none. 39, then the lowest of 1, 3 to 12, 14, 15, 19. */
uint8_t qvd_table_take(uint8_t *table, size_t n, uint8_t *tally, size_t t,
                       const uint8_t *frame, size_t m);

/* As qvd_table_take, and says more about 6 and 19, as qvd_take_detail does. The
 * counter that is raised is that of the answer modulo 256. */
uint32_t qvd_table_take_detail(uint8_t *table, size_t n, uint8_t *tally, size_t t,
                               const uint8_t *frame, size_t m);

/* Gives the rows of a PRN's list as qvd_rows does; r is QVD_ROWS_BYTES. 39, 1, 17,
 * 30. */
uint8_t qvd_table_rows(const uint8_t *table, size_t n, uint8_t *tally, size_t t, uint8_t prn,
                       const uint16_t *issues, size_t k, uint8_t *rows, size_t r);

/* Gives the row of a slot in a PRN's list as qvd_row does; r is QVD_ROW_BYTES. 39, 1,
 * 11, 17, 30, 18. */
uint8_t qvd_table_row(const uint8_t *table, size_t n, uint8_t *tally, size_t t, uint8_t prn,
                      const uint16_t *issues, size_t k, uint16_t slot, uint8_t *row, size_t r);

/* Writes a PRN's list as a correction sheet as qvd_write_sheet does, and returns 256
 * times its length. 39, 1, 17, 30, 20, 22. */
uint32_t qvd_table_write_sheet(const uint8_t *table, size_t n, uint8_t *tally, size_t t, uint8_t prn,
                               const uint16_t *issues, size_t k, uint8_t *room, size_t m);

/* Checks a correction sheet of m bytes against a PRN's list as qvd_check_sheet does,
 * and returns 256 times the number of rows that it leaves out, or the refusal and
 * what goes with it above. The counter that is raised is that of the answer modulo
 * 256. 39, 1, 17, 30, 20, 23, 27, then of the first row that is wrong the lowest of
 * 24 to 26. */
uint32_t qvd_table_check_sheet(const uint8_t *table, size_t n, uint8_t *tally, size_t t, uint8_t prn,
                               const uint16_t *issues, size_t k, const uint8_t *sheet, size_t m);

#ifdef __cplusplus
}
#endif

#endif
