/*
 * Oboepond, the short way: a table as one struct, and calls that take the table, the input, the output
 * and the settings. Everything here is inline, over the functions of oboepond.h, where every answer is
 * described; nothing more has to be linked.
 *
 *   static struct oboepond_table table;
 *   uint64_t line;
 *   uint32_t number = oboepond_table_load(&table, text, text_len, &line);
 *   if (number != OBOEPOND_OK)
 *       printf("line %llu: %s\n", (unsigned long long)line, oboepond_message(number));
 *
 *   struct oboepond_settings strict = {0};
 *   struct oboepond_done done =
 *       oboepond_table_to_unicode(&table, input, input_len, output, OBOEPOND_ROOM(input_len), strict);
 *
 * The struct has 32,796 bytes: let it be static or on the heap rather than on a small stack.
 * A pointer of length 0 may be null in these calls. All others point to as many bytes as is said, and
 * the output does not overlap the input or the table.
 */
#ifndef OBOEPOND_TABLE_H
#define OBOEPOND_TABLE_H

#include "oboepond.h"

#ifdef __cplusplus
extern "C" {
#endif

/* A table. Its bytes are in the machine's order and have no gaps, so it can be written to a file as it
 * stands, and read back; test what comes back with oboepond_table_check. */
struct oboepond_table {
    uint32_t record[OBOEPOND_RECORD];
    uint16_t states[OBOEPOND_STATES];
    uint32_t codes[OBOEPOND_MAPPINGS];
    uint32_t infos[OBOEPOND_MAPPINGS];
    uint32_t order[OBOEPOND_MAPPINGS];
};

typedef char oboepond_table_has_no_gaps[sizeof(struct oboepond_table) == 32796 ? 1 : -1];

/* How to convert. With zeros the Unicode side is UTF-8, fallbacks are off, and the first sequence that
 * is unassigned or illegal stops the conversion. */
struct oboepond_settings {
    uint32_t scheme;     /* OBOEPOND_UTF8, OBOEPOND_UTF32BE, OBOEPOND_UTF32LE or OBOEPOND_UTF32 */
    uint32_t fallback;   /* not 0: |1 lines write too. Nothing towards Unicode asks for it */
    uint32_t substitute; /* not 0: something is written for what is unassigned, and no 53 is given */
    uint32_t skip;       /* not 0: what is illegal is passed over, and no 52 is given */
};

/* What a conversion did. */
struct oboepond_done {
    uint32_t number; /* OBOEPOND_OK, or why it stopped */
    size_t read;     /* bytes of the input that were read */
    size_t written;  /* bytes of the output that were written */
    size_t illegal;  /* with OBOEPOND_ILLEGAL the length of the sequence behind those read, else 0 */
};

/* What a text in pieces keeps between two calls: zeros for a fresh start. */
struct oboepond_kept {
    uint32_t numbers[OBOEPOND_KEPT];
};

/* A place in the audit: a code's bits and its length. Zeros are the beginning. */
struct oboepond_position {
    uint32_t bits;
    uint32_t length;
};

/* What an audit call did. */
struct oboepond_audited {
    uint32_t number;
    size_t written; /* entries that were written */
    struct oboepond_position position; /* go on from here */
    int finished;   /* not 0: no code follows */
    uint64_t count; /* codes looked at */
};

/* A pointer that is not null, for a slice of no bytes too. */
static inline const uint8_t *oboepond_bytes_in(const void *bytes)
{
    static const uint8_t none = 0;
    return bytes ? (const uint8_t *)bytes : &none;
}

static inline uint8_t *oboepond_bytes_out(void *bytes)
{
    static uint8_t none; /* never written: its slice has length 0 */
    return bytes ? (uint8_t *)bytes : &none;
}

/* A table's slices with their lengths. */
#define OBOEPOND_LENT(table) \
    (table)->record, OBOEPOND_RECORD, (table)->states, OBOEPOND_STATES, (table)->codes, OBOEPOND_MAPPINGS, \
        (table)->infos, OBOEPOND_MAPPINGS, (table)->order, OBOEPOND_MAPPINGS

static inline struct oboepond_done oboepond_done_of(uint32_t number, const uint64_t *result)
{
    struct oboepond_done done;
    done.number = number;
    done.read = (size_t)result[0];
    done.written = (size_t)result[1];
    done.illegal = (size_t)result[2];
    return done;
}

/* Loads a table's text. Answers 0, or why the text is refused; then *line is the line, and the table is
 * all zeros, with OBOEPOND_TEXT_TOO_LONG only its record. `line` may be null. */
static inline uint32_t oboepond_table_load(struct oboepond_table *table, const void *text, size_t text_len,
                                           uint64_t *line)
{
    uint64_t result[OBOEPOND_LOADED] = {0};
    uint32_t number =
        oboepond_load(oboepond_bytes_in(text), text_len, OBOEPOND_LENT(table), result, OBOEPOND_LOADED);
    if (line)
        *line = result[0];
    return number;
}

/* Tests a table that comes from elsewhere: 0 where it is as an accepted text leaves it, else 60. Every
 * other call tests it too; this one is for those who want to know before. */
static inline uint32_t oboepond_table_check(const struct oboepond_table *table)
{
    return oboepond_check(OBOEPOND_LENT(table));
}

/* From the table's bytes to Unicode text. With an output of OBOEPOND_ROOM(input_len) bytes it is never
 * full. */
static inline struct oboepond_done oboepond_table_to_unicode(const struct oboepond_table *table, const void *input,
                                                             size_t input_len, void *output, size_t output_len,
                                                             struct oboepond_settings settings)
{
    uint64_t result[OBOEPOND_DONE] = {0};
    uint32_t number = oboepond_to_unicode(OBOEPOND_LENT(table), oboepond_bytes_in(input), input_len,
                                          oboepond_bytes_out(output), output_len, settings.scheme,
                                          settings.substitute, settings.skip, result, OBOEPOND_DONE);
    return oboepond_done_of(number, result);
}

/* From Unicode text to the table's bytes; the same goes for the output. */
static inline struct oboepond_done oboepond_table_from_unicode(const struct oboepond_table *table,
                                                               const void *input, size_t input_len, void *output,
                                                               size_t output_len, struct oboepond_settings settings)
{
    uint64_t result[OBOEPOND_DONE] = {0};
    uint32_t number =
        oboepond_from_unicode(OBOEPOND_LENT(table), oboepond_bytes_in(input), input_len, oboepond_bytes_out(output),
                              output_len, settings.scheme, settings.fallback, settings.substitute, settings.skip,
                              result, OBOEPOND_DONE);
    return oboepond_done_of(number, result);
}

/* The same in pieces: one call for each piece, in order, with the same `kept`, table and settings, and
 * then a closing call. After OBOEPOND_FULL call again with the rest of the piece and fresh space; an
 * output of four bytes always suffices to go on. */
static inline struct oboepond_done oboepond_table_to_unicode_piece(const struct oboepond_table *table,
                                                                   struct oboepond_kept *kept, const void *input,
                                                                   size_t input_len, void *output,
                                                                   size_t output_len,
                                                                   struct oboepond_settings settings)
{
    uint64_t result[OBOEPOND_DONE] = {0};
    uint32_t number = oboepond_to_unicode_piece(OBOEPOND_LENT(table), kept->numbers, OBOEPOND_KEPT,
                                                oboepond_bytes_in(input), input_len, oboepond_bytes_out(output),
                                                output_len, settings.scheme, settings.substitute, settings.skip,
                                                result, OBOEPOND_DONE);
    return oboepond_done_of(number, result);
}

static inline struct oboepond_done oboepond_table_from_unicode_piece(const struct oboepond_table *table,
                                                                     struct oboepond_kept *kept, const void *input,
                                                                     size_t input_len, void *output,
                                                                     size_t output_len,
                                                                     struct oboepond_settings settings)
{
    uint64_t result[OBOEPOND_DONE] = {0};
    uint32_t number =
        oboepond_from_unicode_piece(OBOEPOND_LENT(table), kept->numbers, OBOEPOND_KEPT, oboepond_bytes_in(input),
                                    input_len, oboepond_bytes_out(output), output_len, settings.scheme,
                                    settings.fallback, settings.substitute, settings.skip, result, OBOEPOND_DONE);
    return oboepond_done_of(number, result);
}

/* The closing calls. The output is for a mark that no piece has written. */
static inline struct oboepond_done oboepond_table_to_unicode_close(const struct oboepond_table *table,
                                                                   struct oboepond_kept *kept, void *output,
                                                                   size_t output_len,
                                                                   struct oboepond_settings settings)
{
    uint64_t result[OBOEPOND_DONE] = {0};
    uint32_t number = oboepond_to_unicode_close(OBOEPOND_LENT(table), kept->numbers, OBOEPOND_KEPT,
                                                oboepond_bytes_out(output), output_len, settings.scheme,
                                                settings.substitute, settings.skip, result, OBOEPOND_DONE);
    return oboepond_done_of(number, result);
}

static inline struct oboepond_done oboepond_table_from_unicode_close(const struct oboepond_table *table,
                                                                     struct oboepond_kept *kept, void *output,
                                                                     size_t output_len,
                                                                     struct oboepond_settings settings)
{
    uint64_t result[OBOEPOND_DONE] = {0};
    uint32_t number = oboepond_from_unicode_close(OBOEPOND_LENT(table), kept->numbers, OBOEPOND_KEPT,
                                                  oboepond_bytes_out(output), output_len, settings.scheme,
                                                  settings.fallback, settings.substitute, settings.skip, result,
                                                  OBOEPOND_DONE);
    return oboepond_done_of(number, result);
}

/* How many bytes a text in pieces keeps. The place of the last answer in the whole text is the sum of all
 * bytes read, less these. */
static inline size_t oboepond_kept_bytes(const struct oboepond_kept *kept)
{
    return kept->numbers[1];
}

/* One call of the audit from a position on: at most `allowance` codes are looked at, and an entry is
 * written for each that does not round-trip under this fallback setting. */
static inline struct oboepond_audited oboepond_table_audit(const struct oboepond_table *table, uint32_t fallback,
                                                           struct oboepond_position position, uint64_t allowance,
                                                           uint64_t *entries, size_t entries_len)
{
    static uint64_t none; /* never written: its slice has length 0 */
    uint64_t result[OBOEPOND_AUDITED] = {0};
    struct oboepond_audited audited;
    audited.number = oboepond_audit(OBOEPOND_LENT(table), fallback, position.bits, position.length, allowance,
                                    entries ? entries : &none, entries_len, result, OBOEPOND_AUDITED);
    audited.written = (size_t)result[0];
    audited.position.bits = (uint32_t)result[1];
    audited.position.length = (uint32_t)result[2];
    audited.finished = result[3] != 0;
    audited.count = result[4];
    return audited;
}

/* What a number says: what happened, and what you do next. */
static inline const char *oboepond_message(uint32_t number)
{
    switch (number) {
    case OBOEPOND_OK:
        return "Done. Nothing is left to do.";
    case OBOEPOND_MEMORY_TOO_SMALL:
        return "The memory for the table is too small. Lend 4,096 numbers for states, and 2,048 each for codes, "
               "infos and order.";
    case OBOEPOND_TEXT_TOO_LONG:
        return "The table's text has over 1,048,576 bytes. Give the text of one table, without what does not "
               "belong to it.";
    case OBOEPOND_NO_FORM:
        return "This line has no form that a table may have here. Correct it, or see whether the file is a .ucm "
               "table at all.";
    case OBOEPOND_KEY_AGAIN:
        return "This line has a key that an earlier line has. Remove one of the two.";
    case OBOEPOND_UNFIT_VALUE:
        return "The value of this key has the wrong form. Correct it.";
    case OBOEPOND_KEY_ABSENT:
        return "Above this CHARMAP line a required key or the state rows are absent. Add them.";
    case OBOEPOND_NOT_BUILT:
        return "This line asks for something that is not built, such as shift states, a delta table or several "
               "code points in a mapping. Take another table.";
    case OBOEPOND_OUT_OF_RANGE:
        return "This state row has a range that falls or a next row over 7f, or is the 17th row. Correct it.";
    case OBOEPOND_STATES_BROKEN:
        return "Above this CHARMAP line the state rows, mb_cur_min, mb_cur_max, subchar and subchar1 do not fit "
               "together. Correct them.";
    case OBOEPOND_NO_SCALAR:
        return "The code point of this mapping is a surrogate or over U+10FFFF. Correct it.";
    case OBOEPOND_NO_SUCH_CODE:
        return "The bytes of this mapping are no code that the state rows allow, or not for a code point over "
               "U+FFFF. Correct the bytes or the rows.";
    case OBOEPOND_LEADING_ZERO:
        return "The code of this |0 or |1 line has several bytes and begins 00. Correct it.";
    case OBOEPOND_NO_SUBCHAR1:
        return "The bytes of this |2 line are not subchar1. Correct them, or the key subchar1.";
    case OBOEPOND_BYTES_TAKEN:
        return "An earlier |0 or |3 line reads these bytes. Remove one of the two lines, or let one of them only "
               "write (|1).";
    case OBOEPOND_POINT_TAKEN:
        return "An earlier |0, |1 or |2 line has this code point. Remove one of the two lines, or let one of them "
               "only read (|3).";
    case OBOEPOND_TOO_MANY:
        return "This is the 2,049th mapping. Take a table of at most 2,048.";
    case OBOEPOND_NO_END:
        return "The text ends without END CHARMAP. Get the whole file.";
    case OBOEPOND_NOT_READ_BACK:
        return "Some |1 line above this END CHARMAP line has bytes that no |0 or |3 line has, so nobody could read "
               "them back. Add a line that reads them, or remove the |1 line.";
    case OBOEPOND_BAD_POSITION:
        return "The position is neither the beginning nor a complete code of this table. Go on from a position "
               "that a call handed back, or begin again.";
    case OBOEPOND_BAD_KEPT:
        return "What was kept is not what a call with this table, scheme and settings handed back. Start the text "
               "afresh, with zeros.";
    case OBOEPOND_FULL:
        return "The output is full. Take what is written, and call again with the rest of the input and fresh "
               "space.";
    case OBOEPOND_CUT_SHORT:
        return "The input ends inside a character. Get the rest, and call again from the bytes read on. In pieces, "
               "start the text afresh.";
    case OBOEPOND_ILLEGAL:
        return "An illegal sequence stands behind the bytes read. Go on behind it, by its length (in pieces, with a "
               "fresh start), or set skip.";
    case OBOEPOND_UNASSIGNED:
        return "A character that the table does not have stands behind the bytes read. Set substitute, or take "
               "another table.";
    case OBOEPOND_BAD_TABLE:
        return "The table's memory is not what loading left. Load the table's text again.";
    case OBOEPOND_SHORT:
        return "The slice for record, kept or result is too short. Lend as many numbers as the header says.";
    case OBOEPOND_NO_SCHEME:
        return "This number is no scheme. Give 0 (UTF-8), 1 (UTF-32BE), 2 (UTF-32LE) or 3 (UTF-32).";
    default:
        return "No call gives this number.";
    }
}

#ifdef __cplusplus
}
#endif

#endif
