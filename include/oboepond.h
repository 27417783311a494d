/*
 * Oboepond: conversion between a code page and Unicode text in UTF-8 or UTF-32, by a conversion table.
 * This header has the eleven functions of the static library as they are, over slices that you lend.
 * oboepond_table.h makes a table of them, and a call short: begin there.
 *
 * To build: the library is for Linux on x86-64, the one target that the kit builds for, and uses
 * nothing but memcpy and memset of the C library:
 *   tools/build.sh cabi
 *   cc -I include program.c target/staticlib/libcabi.a -o program
 *
 * No function keeps anything between calls (what a text in pieces needs is kept by the caller, in
 * `kept`) or takes memory but its stack: at most 2 KiB for load and check, 36 KiB for a conversion,
 * whole or a piece of it, but 68 KiB for a piece from Unicode, 3 KiB for a close and for the audit.
 * Each is proved: for every content of the slices it answers what is written here, ends, and touches
 * no other memory.
 * The caller sees to it that each pointer is not null, is aligned for its type and has the stated
 * number of elements behind it, and that no slice that is written overlaps another. A pointer of
 * length 0 is not null either: the kit does not say that it may be, so it may not. (The calls of
 * oboepond_table.h take a null pointer of length 0.)
 *
 * Slices that hold a table:
 *   record   7 numbers: rows, mappings, mb_cur_min, mb_cur_max, subchar's bits, subchar's length,
 *            subchar1 (0 where there is none, else 1 + its byte)
 *   states   4,096 numbers are needed, 256 for each row
 *   codes, infos, order   2,048 numbers each are needed
 * A code's bits hold its bytes with the first one on top: 81 7C is 0x817C0000, of length 2.
 * Numbers past the needed ones are never touched.
 *
 * Every function answers OBOEPOND_SHORT (70) where `record`, `kept` or `result` has fewer numbers than
 * it says, and a function that takes a scheme OBOEPOND_NO_SCHEME (71) where the number is none: then
 * nothing is written anywhere, `kept` and `result` included. 70 goes before 71, and both before all
 * others. A `record`, `kept` or `result` longer than said keeps the rest of its values.
 */
#ifndef OBOEPOND_H
#define OBOEPOND_H

#include <stddef.h>
#include <stdint.h>

#ifdef __cplusplus
extern "C" {
#endif

/* The version of this interface. Before 1.0 a new second number may change what is here. */
#define OBOEPOND_VERSION_MAJOR 0
#define OBOEPOND_VERSION_MINOR 6
#define OBOEPOND_VERSION_PATCH 0
#define OBOEPOND_VERSION "0.6.0"

/* How many numbers a slice needs. */
#define OBOEPOND_RECORD 7      /* record */
#define OBOEPOND_STATES 4096   /* states */
#define OBOEPOND_MAPPINGS 2048 /* codes, infos and order, each */
#define OBOEPOND_KEPT 5        /* kept */
#define OBOEPOND_LOADED 1      /* result of oboepond_load */
#define OBOEPOND_DONE 3        /* result of a conversion: whole, of a piece, or closing */
#define OBOEPOND_AUDITED 5     /* result of oboepond_audit */

/* Output that always suffices for n bytes of input, either way and in every scheme, so that the answer is
 * never 50. It is four bytes for each byte of the input, and four for a mark; for a piece, four more for
 * each of the three bytes that may be kept. Proved: room-enough, from-room-enough, and never-full of
 * all-pieces (docs/PROMISES.md). n is at most (SIZE_MAX - 16) / 4. */
#define OBOEPOND_ROOM(n) ((size_t)4 * (size_t)(n) + 4)
#define OBOEPOND_PIECE_ROOM(n) ((size_t)4 * (size_t)(n) + 16)

/* The longest table text that is read. */
#define OBOEPOND_TEXT 1048576

/* Schemes: how Unicode text stands in bytes. UTF-8 is that of RFC 3629. UTF-32 has four bytes for each
 * character: a surrogate, or a number over 10FFFF, is illegal (52); a rest of fewer than four bytes is
 * cut short (51). */
#define OBOEPOND_UTF8 0
#define OBOEPOND_UTF32BE 1 /* big-endian; an initial FEFF is text */
#define OBOEPOND_UTF32LE 2 /* little-endian; an initial FEFF is text */
#define OBOEPOND_UTF32 3   /* with a byte order mark, which is no text. Read: 00 00 FE FF at the front says
                              big-endian, FF FE 00 00 little-endian, no mark big-endian. Written:
                              00 00 FE FF, then big-endian */

/* Done: the text is accepted; the table is valid; all is read; codes were looked at. */
#define OBOEPOND_OK 0

/* A text is refused. 1 and 2 come first and name line 0; otherwise the first line at which something
 * is wrong is named, counted from 1, with the lowest number that holds there. */
#define OBOEPOND_MEMORY_TOO_SMALL 1 /* states, codes, infos or order is shorter than needed */
#define OBOEPOND_TEXT_TOO_LONG 2    /* over 1,048,576 bytes */
#define OBOEPOND_NO_FORM 10         /* a line of no known form */
#define OBOEPOND_KEY_AGAIN 11       /* a key that may stand once stands again */
#define OBOEPOND_UNFIT_VALUE 12     /* a known key with a value of the wrong form */
#define OBOEPOND_KEY_ABSENT 13      /* at CHARMAP a required key or state row is absent */
#define OBOEPOND_NOT_BUILT 14       /* a form that is not built: classes DBCS and EBCDIC_STATEFUL, icu:base,
                                       surrogates, `initial` off row 0, letter s, an end with a next row other
                                       than 0, a second CHARMAP, indicator 4, several code points or a + in a mapping */
#define OBOEPOND_OUT_OF_RANGE 15    /* a falling range, a next row over 7f, or a 17th row */
#define OBOEPOND_STATES_BROKEN 16   /* at CHARMAP: a row led to is absent or row 0; a way is longer than mb_cur_max;
                                       subchar or subchar1 is no complete code (subchar1: of one byte);
                                       mb_cur_min is over mb_cur_max */
#define OBOEPOND_NO_SCALAR 20       /* a mapping's code point is a surrogate or over U+10FFFF */
#define OBOEPOND_NO_SUCH_CODE 21    /* its bytes are no complete code of mb_cur_min to mb_cur_max bytes that can be
                                       assigned, or the code point is over U+FFFF and the code's end has no p */
#define OBOEPOND_LEADING_ZERO 22    /* a |0 or |1 line with a code of several bytes that begins 00 */
#define OBOEPOND_NO_SUBCHAR1 23     /* a |2 line whose bytes are not the subchar1 byte */
#define OBOEPOND_BYTES_TAKEN 24     /* an earlier |0 or |3 line reads these bytes */
#define OBOEPOND_POINT_TAKEN 25     /* an earlier |0, |1 or |2 line has this code point */
#define OBOEPOND_TOO_MANY 26        /* the 2,049th mapping */
#define OBOEPOND_NO_END 27          /* END CHARMAP never came; the line is the count of lines plus 1 */
#define OBOEPOND_NOT_READ_BACK 28   /* at END CHARMAP: some |1 line has bytes that no |0 or |3 line has. The panel
                                       would show a character that nobody can read back */

/* The parts of an audit's entry: the code's bits, its length in bytes, its byte i (0 is the first), and
 * the cause for which it is listed. */
#define OBOEPOND_ENTRY_BITS(entry) ((uint32_t)(entry))
#define OBOEPOND_ENTRY_LENGTH(entry) ((uint32_t)((entry) >> 32) & 0xff)
#define OBOEPOND_ENTRY_BYTE(entry, i) ((uint8_t)((entry) >> (24 - 8 * (i))))
#define OBOEPOND_ENTRY_CAUSE(entry) ((uint32_t)((entry) >> 40))
#define OBOEPOND_CAUSE_MARKED 1      /* the table marks the code as unassigned: it is ended by u */
#define OBOEPOND_CAUSE_NOT_READ 2    /* no line reads it */
#define OBOEPOND_CAUSE_OTHER_CODE 3  /* it reads, but is written as another code */
#define OBOEPOND_CAUSE_NOT_WRITTEN 4 /* it reads, but is not written */

/* An audit call is refused. */
#define OBOEPOND_BAD_POSITION 40 /* the position is neither the beginning nor a complete code */

/* A call in pieces is refused. */
#define OBOEPOND_BAD_KEPT 42 /* `kept` is what no call hands back under this table, scheme and settings: start
                                afresh, with zeros */

/* A conversion ends before all is read, at the first sequence for which one holds; of several at one
 * place the order is 51, 52, 53, 50. Only the mark that OBOEPOND_UTF32 writes goes before the first
 * sequence: 50 where it does not fit, whatever the input.
 *
 * With 52 the result has the length of the illegal sequence in bytes. Of the table's bytes it runs up
 * to and including the byte that broke it; but where that byte is not its first and could begin a
 * sequence (it is not illegal in row 0), it ends before that byte. So 81 2D 33, where 81 2D is no code
 * but 2D is, has an illegal sequence of length 1, the stray 81, and goes on with 2D 33. In UTF-8 the
 * length is 1, each illegal byte being a sequence of its own; in UTF-32 it is 4.
 * To go on after a 52, skip that many bytes behind those read and call again with the rest; or set
 * `skip`. With skip other than 0 a conversion passes over an illegal sequence by its length, writes
 * U+FFFD for it, or subchar towards the table's bytes, and goes on: there is no 52 then, but 50 where
 * that does not fit. Input that ends inside a sequence is 51 all the same.
 * What no rule can mend: where a stray byte and the byte behind it form a legal code (81 81 in
 * Shift-JIS), they are read as that code, and the bytes behind them are read one off. */
#define OBOEPOND_FULL 50       /* what is written for the sequence, or the mark, does not fit into the output */
#define OBOEPOND_CUT_SHORT 51  /* the input ends inside a sequence */
#define OBOEPOND_ILLEGAL 52    /* the sequence is illegal, and skipping is off */
#define OBOEPOND_UNASSIGNED 53 /* the sequence is unassigned, and substituting is off */

/* Record and memory are not what an accepted text leaves. */
#define OBOEPOND_BAD_TABLE 60

/* This interface's own numbers. */
#define OBOEPOND_SHORT 70     /* `record`, `kept` or `result` is too short */
#define OBOEPOND_NO_SCHEME 71 /* the number given for the scheme is none of those above */

/*
 * Loads a table's text. Answers 0, or 1 to 28 as above; 70 where record has fewer than 7 numbers or
 * result has none.
 * result: the line (0 where accepted, and with 1 and 2).
 * Accepted: record and slices hold the table, with zeros in the needed places that it does not use.
 * Refused: the record is zeros; with 1 and 2 the slices keep their values, with any other number all
 * needed places are zeros.
 */
uint32_t oboepond_load(const uint8_t *text, size_t text_len,
                       uint32_t *record, size_t record_len,
                       uint16_t *states, size_t states_len,
                       uint32_t *codes, size_t codes_len,
                       uint32_t *infos, size_t infos_len,
                       uint32_t *order, size_t order_len,
                       uint64_t *result, size_t result_len);

/*
 * Tests whether record and memory are as an accepted text leaves them: 0 if so, else 60; 70 where
 * record has fewer than 7 numbers. Writes nothing.
 */
uint32_t oboepond_check(const uint32_t *record, size_t record_len,
                        const uint16_t *states, size_t states_len,
                        const uint32_t *codes, size_t codes_len,
                        const uint32_t *infos, size_t infos_len,
                        const uint32_t *order, size_t order_len);

/*
 * From the table's bytes to UTF-8. substitute 0 is strict; with anything else an unassigned code gives
 * U+001A where it has one byte and the table has a subchar1, else U+FFFD. skip 0 stops at an illegal
 * sequence; with anything else it is passed over, and U+FFFD is written for it, never U+001A, in the
 * strict setting too.
 * Answers 0, 50 to 53 or 60; 70 where record has fewer than 7 numbers or result fewer than 3.
 * result: bytes read, bytes written, and with 52 the length of the illegal sequence, else 0. Reading
 * stops before the sequence that the number is about, and what was written before it stands; output
 * bytes past the written count keep their values. After a 52 the rest begins at bytes read + length.
 * With 60 nothing is read or written: result is 0, 0, 0.
 * An output of four bytes for each byte of input is always enough.
 */
uint32_t oboepond_to_utf8(const uint32_t *record, size_t record_len,
                          const uint16_t *states, size_t states_len,
                          const uint32_t *codes, size_t codes_len,
                          const uint32_t *infos, size_t infos_len,
                          const uint32_t *order, size_t order_len,
                          const uint8_t *input, size_t input_len,
                          uint8_t *output, size_t output_len,
                          uint32_t substitute, uint32_t skip,
                          uint64_t *result, size_t result_len);

/*
 * From UTF-8 to the table's bytes. With fallback other than 0 the |1 lines write too. substitute 0 is
 * strict; with anything else an unassigned code point gives subchar1 where a |2 line names it, else
 * subchar. skip 0 stops at an illegal byte; with anything else it is passed over, and subchar is
 * written for it, never subchar1, in the strict setting too: two for C0 AD, three for ED A0 80.
 * Numbers, result and output as for oboepond_to_utf8.
 */
uint32_t oboepond_from_utf8(const uint32_t *record, size_t record_len,
                            const uint16_t *states, size_t states_len,
                            const uint32_t *codes, size_t codes_len,
                            const uint32_t *infos, size_t infos_len,
                            const uint32_t *order, size_t order_len,
                            const uint8_t *input, size_t input_len,
                            uint8_t *output, size_t output_len,
                            uint32_t fallback, uint32_t substitute, uint32_t skip,
                            uint64_t *result, size_t result_len);

/*
 * From the table's bytes to Unicode text in a scheme; with OBOEPOND_UTF8 this is oboepond_to_utf8.
 * With OBOEPOND_UTF32 the mark is written before any byte of the input is looked at, for an empty input
 * too; where the output has fewer than four bytes, the answer is 50 (only 60 goes before) and result is
 * 0, 0, 0. The bytes written include the mark.
 * Answers 0, 50 to 53 or 60; 70 as for oboepond_to_utf8, 71 where scheme is none of the four.
 * substitute, skip, result and output as for oboepond_to_utf8. An output of four bytes for each byte of
 * input is always enough; OBOEPOND_UTF32 needs four more for the mark. After a 50 or 52 with the mark
 * written, go on with OBOEPOND_UTF32BE, so that no second mark is written.
 */
uint32_t oboepond_to_unicode(const uint32_t *record, size_t record_len,
                             const uint16_t *states, size_t states_len,
                             const uint32_t *codes, size_t codes_len,
                             const uint32_t *infos, size_t infos_len,
                             const uint32_t *order, size_t order_len,
                             const uint8_t *input, size_t input_len,
                             uint8_t *output, size_t output_len,
                             uint32_t scheme, uint32_t substitute, uint32_t skip,
                             uint64_t *result, size_t result_len);

/*
 * From Unicode text in a scheme to the table's bytes; with OBOEPOND_UTF8 this is oboepond_from_utf8.
 * With OBOEPOND_UTF32 a mark at the front gives no output, and its four bytes count as read: 4 with the
 * mark alone, and 4 where the first character behind it stops the conversion. A second mark is text.
 * A mark is looked for at the front of each call's input: once a call has read four bytes or more, or
 * an illegal sequence was passed over, go on with OBOEPOND_UTF32LE if the text began FF FE 00 00, else
 * with OBOEPOND_UTF32BE, mark or no mark.
 * Answers 0, 50 to 53 or 60; 70 and 71 as for oboepond_to_unicode. fallback, substitute, skip, result
 * and output as for oboepond_from_utf8.
 */
uint32_t oboepond_from_unicode(const uint32_t *record, size_t record_len,
                               const uint16_t *states, size_t states_len,
                               const uint32_t *codes, size_t codes_len,
                               const uint32_t *infos, size_t infos_len,
                               const uint32_t *order, size_t order_len,
                               const uint8_t *input, size_t input_len,
                               uint8_t *output, size_t output_len,
                               uint32_t scheme, uint32_t fallback, uint32_t substitute, uint32_t skip,
                               uint64_t *result, size_t result_len);

/*
 * A text in pieces, as a cable delivers it: one call for each piece, in order, and a closing call behind
 * the last. What is between two pieces stands in `kept`, five numbers, all zeros for a fresh start:
 *   [0]  the kept bytes, those of a sequence that is not yet whole, as a code's bits
 *   [1]  how many they are, 0 to 3
 *   [2]  the mark of OBOEPOND_UTF32: 0 it is ahead, 1 it is behind and the text is big-endian, 2 it is
 *        behind and the text is little-endian. 0 in all other schemes
 *   [3]  the standing answer: 0, 51, 52 or 53
 *   [4]  the length of the illegal sequence where 52 stands, else 0
 * Table, scheme and settings stay the same from the fresh start to the end of the text. However it is
 * cut, empty pieces included, the outputs joined, the last answer with its length, and its place (the
 * sum of all bytes read, less the bytes kept) are those of the whole conversion with space enough.
 *
 * In order, a call answers 70 or 71; 60; 42; the standing answer; then, where the mark that OBOEPOND_UTF32
 * writes is ahead, it writes the mark, or answers 50; then it goes on with kept bytes and piece as one
 * text. With 60 and 42 result is 0, 0, 0, and neither output nor `kept` changes. Afterwards:
 *    0       all of the piece is read. If it ends inside a sequence, the bytes of that sequence, at most
 *            three, are kept, and count as read.
 *   50       what was written stands. Go on with fresh space and the rest of the piece, which begins
 *            behind the bytes read; an empty rest too. An output of four bytes always suffices to go on.
 *   52, 53   this is the text's end: the answer stands, and every further call gives it again, with the
 *            same length, nothing read, written or changed, until a fresh start.
 * With 50, 52 and 53 reading stops before the sequence; where that began in an earlier piece, the bytes
 * read are 0, and its bytes stay kept. So a 50 while skipping in UTF-8 can leave one or two bytes 80 to BF
 * kept: the next call, with an empty piece too, skips them first.
 * result: bytes read of this piece, bytes written, and with 52 the length of the illegal sequence, else 0.
 *
 * 42 is given for: more than three bytes kept, or bits behind them that are not 0; kept bytes that do not
 * all lead on by the table's states, or in UTF-8 do not begin a well-formed sequence (with skip one or two
 * bytes 80 to BF may stand there too); a mark over 2, or not 0 where the scheme has none, or 2 where it is
 * written, or still to be written while bytes are kept or an answer stands; a standing answer that is none
 * of the four; 51 with no bytes kept; 52 with a length that no illegal sequence has, or of the table's
 * bytes with more kept than that; a length without 52.
 *
 * oboepond_to_unicode_piece: from the table's bytes to Unicode text. scheme, substitute, skip and output as
 * for oboepond_to_unicode. The first call writes the mark of OBOEPOND_UTF32, for an empty piece too.
 * Answers 0, 42, 50 to 53 or 60, 70, 71; 51 only where it stands.
 */
uint32_t oboepond_to_unicode_piece(const uint32_t *record, size_t record_len,
                                   const uint16_t *states, size_t states_len,
                                   const uint32_t *codes, size_t codes_len,
                                   const uint32_t *infos, size_t infos_len,
                                   const uint32_t *order, size_t order_len,
                                   uint32_t *kept, size_t kept_len,
                                   const uint8_t *input, size_t input_len,
                                   uint8_t *output, size_t output_len,
                                   uint32_t scheme, uint32_t substitute, uint32_t skip,
                                   uint64_t *result, size_t result_len);

/*
 * From Unicode text in pieces to the table's bytes. scheme, fallback, substitute, skip and output as for
 * oboepond_from_unicode, the rest as for oboepond_to_unicode_piece. With OBOEPOND_UTF32 the order is chosen
 * when the text's first four bytes are there; up to three are kept before that. `kept` says 1 or 2 once
 * those four are read: the mark, or without one the first character; where that stops the call it still
 * says 0.
 */
uint32_t oboepond_from_unicode_piece(const uint32_t *record, size_t record_len,
                                     const uint16_t *states, size_t states_len,
                                     const uint32_t *codes, size_t codes_len,
                                     const uint32_t *infos, size_t infos_len,
                                     const uint32_t *order, size_t order_len,
                                     uint32_t *kept, size_t kept_len,
                                     const uint8_t *input, size_t input_len,
                                     uint8_t *output, size_t output_len,
                                     uint32_t scheme, uint32_t fallback, uint32_t substitute, uint32_t skip,
                                     uint64_t *result, size_t result_len);

/*
 * The closing calls, behind the last piece of a text. 70, 71, 60, 42 and a standing answer as for a piece.
 * Then: 51 where bytes are kept; they stay kept, and 51 stands from now on. Else the mark of OBOEPOND_UTF32
 * is written if no call did so, or the answer is 50 with nothing changed. Else 0: `kept` is zeros, and the
 * next text can begin.
 * result: 0, bytes written (4 where the mark is written, else 0), and the length with a standing 52, else 0.
 */
uint32_t oboepond_to_unicode_close(const uint32_t *record, size_t record_len,
                                   const uint16_t *states, size_t states_len,
                                   const uint32_t *codes, size_t codes_len,
                                   const uint32_t *infos, size_t infos_len,
                                   const uint32_t *order, size_t order_len,
                                   uint32_t *kept, size_t kept_len,
                                   uint8_t *output, size_t output_len,
                                   uint32_t scheme, uint32_t substitute, uint32_t skip,
                                   uint64_t *result, size_t result_len);

uint32_t oboepond_from_unicode_close(const uint32_t *record, size_t record_len,
                                     const uint16_t *states, size_t states_len,
                                     const uint32_t *codes, size_t codes_len,
                                     const uint32_t *infos, size_t infos_len,
                                     const uint32_t *order, size_t order_len,
                                     uint32_t *kept, size_t kept_len,
                                     uint8_t *output, size_t output_len,
                                     uint32_t scheme, uint32_t fallback, uint32_t substitute, uint32_t skip,
                                     uint64_t *result, size_t result_len);

/*
 * One call of the audit: looks at the complete codes after a position, in byte order, and writes an
 * entry for each that does not come home (does not read as a code point which, strict and under the
 * same fallback setting, is written as the same code). The position is a code's bits and length;
 * length 0 with bits 0 is the beginning. Each code looked at takes one from the allowance; the call
 * stops when that is used, when no code is left, or before a code whose entry has no place.
 * An entry is the code's bits + 2^32 * its length + 2^40 * its cause; OBOEPOND_ENTRY_BITS, _LENGTH and
 * _CAUSE take it apart. Of several causes it has the lowest.
 * Answers 0, 60 or 40 (60 goes before 40); 70 where record has fewer than 7 numbers or result fewer
 * than 5.
 * result: entries written, bits and length of the last code looked at (or the position as it came),
 * 1 where no complete code follows it and else 0, codes looked at.
 * Entries past the written ones keep their values. With 60 and 40 no entry is written, and result is 0,
 * the position as it came, 0, 0.
 */
uint32_t oboepond_audit(const uint32_t *record, size_t record_len,
                        const uint16_t *states, size_t states_len,
                        const uint32_t *codes, size_t codes_len,
                        const uint32_t *infos, size_t infos_len,
                        const uint32_t *order, size_t order_len,
                        uint32_t fallback, uint32_t bits, uint32_t len, uint64_t allowance,
                        uint64_t *entries, size_t entries_len,
                        uint64_t *result, size_t result_len);

#ifdef __cplusplus
}
#endif

#endif
