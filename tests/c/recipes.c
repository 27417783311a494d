/*
 * The recipes of docs/API.md, each a function. main tries them on table K.
 */
#include "oboepond_table.h"

#include <stdio.h>
#include <stdlib.h>
#include <string.h>

/* Load a table: 1 where the file holds one. */
static int load_file(struct oboepond_table *table, const char *name)
{
    static char text[OBOEPOND_TEXT + 1]; /* one byte more: a longer text is refused, not cut */
    uint64_t line = 0;
    FILE *file = fopen(name, "rb");
    if (!file) {
        perror(name);
        return 0;
    }
    size_t len = fread(text, 1, sizeof text, file);
    fclose(file);
    uint32_t number = oboepond_table_load(table, text, len, &line);
    if (number != OBOEPOND_OK)
        fprintf(stderr, "%s, line %llu: %s\n", name, (unsigned long long)line, oboepond_message(number));
    return number == OBOEPOND_OK;
}

/* Convert a file of any length to UTF-8. `place` is where it stopped, if it did. */
static uint32_t convert_file(const struct oboepond_table *table, FILE *from, FILE *to, uint64_t *place)
{
    char piece[4096];
    static char output[OBOEPOND_PIECE_ROOM(sizeof piece)];
    struct oboepond_settings settings = {0}; /* UTF-8, strict */
    struct oboepond_kept kept = {{0}};       /* a fresh start */
    struct oboepond_done done = {0};
    size_t len;

    *place = 0;
    while (done.number == OBOEPOND_OK && (len = fread(piece, 1, sizeof piece, from)) > 0) {
        done = oboepond_table_to_unicode_piece(table, &kept, piece, len, output, sizeof output, settings);
        fwrite(output, 1, done.written, to);
        *place += done.read;
    }
    if (done.number == OBOEPOND_OK)
        done = oboepond_table_to_unicode_close(table, &kept, output, sizeof output, settings);
    *place -= oboepond_kept_bytes(&kept);
    return done.number;
}

/* Go on after 50: a text of any length through a small output. */
static struct oboepond_done convert_in_steps(const struct oboepond_table *table, const char *input, size_t len, FILE *to)
{
    char output[16]; /* four bytes would do */
    struct oboepond_settings settings = {0};
    struct oboepond_done done;
    size_t from = 0;

    do {
        done = oboepond_table_to_unicode(table, input + from, len - from, output, sizeof output, settings);
        fwrite(output, 1, done.written, to);
        from += done.read;
    } while (done.number == OBOEPOND_FULL);
    done.read = from;
    return done;
}

/* Skip what cannot be read, and say where it stood. The rest begins behind `read`, and with 52 behind the
 * illegal sequence too. What is unassigned (53) is substituted: it is read, and nothing has to be skipped. */
static size_t convert_and_report(const struct oboepond_table *table, const char *input, size_t len, char *output,
                                 size_t room)
{
    struct oboepond_settings settings = {0};
    size_t from = 0, written = 0;

    settings.substitute = 1;
    for (;;) {
        struct oboepond_done done = oboepond_table_to_unicode(table, input + from, len - from, output + written,
                                                              room - written, settings);
        from += done.read;
        written += done.written;
        if (done.number != OBOEPOND_ILLEGAL) {
            if (done.number != OBOEPOND_OK)
                printf("byte %zu: %s\n", from, oboepond_message(done.number));
            return written;
        }
        printf("byte %zu: %zu illegal\n", from, done.illegal);
        from += done.illegal;
    }
}

/* List what does not round-trip. */
static uint32_t list_findings(const struct oboepond_table *table, FILE *to)
{
    uint64_t entries[64];
    struct oboepond_position position = {0, 0}; /* the beginning */
    struct oboepond_audited audited;

    do {
        audited = oboepond_table_audit(table, 0, position, UINT64_MAX, entries, 64);
        for (size_t i = 0; i < audited.written; i++) {
            for (uint32_t b = 0; b < OBOEPOND_ENTRY_LENGTH(entries[i]); b++)
                fprintf(to, "%02X", OBOEPOND_ENTRY_BYTE(entries[i], b));
            fprintf(to, " %u\n", OBOEPOND_ENTRY_CAUSE(entries[i]));
        }
        position = audited.position;
    } while (audited.number == OBOEPOND_OK && !audited.finished);
    return audited.number;
}

/* Keep a table in a file, and test it when it comes back. */
static int keep_table(const struct oboepond_table *table, const char *name)
{
    FILE *file = fopen(name, "wb");
    if (!file)
        return 0;
    size_t kept = fwrite(table, sizeof *table, 1, file);
    return fclose(file) == 0 && kept == 1;
}

static int fetch_table(struct oboepond_table *table, const char *name)
{
    FILE *file = fopen(name, "rb");
    if (!file)
        return 0;
    size_t fetched = fread(table, sizeof *table, 1, file);
    fclose(file);
    return fetched == 1 && oboepond_table_check(table) == OBOEPOND_OK;
}

/* A UTF-32 file into the table's bytes: the mark chooses the byte order; fallbacks are on. */
static struct oboepond_done from_utf32(const struct oboepond_table *table, const char *input, size_t len, char *output,
                                       size_t room)
{
    struct oboepond_settings settings = {0};
    settings.scheme = OBOEPOND_UTF32;
    settings.fallback = 1;
    return oboepond_table_from_unicode(table, input, len, output, room, settings);
}

static void put(const char *bytes, size_t len)
{
    for (size_t i = 0; i < len; i++)
        printf("%s%02X", i ? " " : "", (unsigned char)bytes[i]);
}

/* A sum over the bytes of a table (FNV-1a); tests/ has the same for the bytes that Rust writes. */
static uint64_t sum_of(const void *bytes, size_t len)
{
    uint64_t sum = 0xcbf29ce484222325u;
    for (size_t i = 0; i < len; i++)
        sum = (sum ^ ((const unsigned char *)bytes)[i]) * 0x100000001b3u;
    return sum;
}

/* recipes TABLE FOLDER: `FOLDER/in` is converted to `FOLDER/out`; the rest is printed. */
int main(int count, char **names)
{
    static struct oboepond_table table, again;
    char name[4096], output[256];
    uint64_t place;

    if (count != 3 || !load_file(&table, names[1]))
        return 1;
    printf("version %s\n", OBOEPOND_VERSION);
    printf("bytes %016llx\n", (unsigned long long)sum_of(&table, sizeof table));

    snprintf(name, sizeof name, "%s/in", names[2]);
    FILE *from = fopen(name, "rb");
    snprintf(name, sizeof name, "%s/out", names[2]);
    FILE *to = fopen(name, "wb");
    if (!from || !to)
        return 1;
    uint32_t number = convert_file(&table, from, to, &place);
    printf("file: %u at %llu: %s\n", number, (unsigned long long)place, oboepond_message(number));
    fclose(from);
    fclose(to);

    struct oboepond_done done = convert_in_steps(&table, "\x81\x7C\x33\x81\x7C\x33\x81\x7C\x33\x81\x7C\x33", 12, stdout);
    printf(" number %u, read %zu\n", done.number, done.read);

    const char *stray = "\x81\x7C\x81\x2D\x33\x81\x80\x33\x81";
    put(output, convert_and_report(&table, stray, 9, output, OBOEPOND_ROOM(9)));
    printf("\n");

    printf("audit: %u\n", list_findings(&table, stdout));

    snprintf(name, sizeof name, "%s/table", names[2]);
    printf("kept: %d, ", keep_table(&table, name));
    printf("back: %d, ", fetch_table(&again, name) && memcmp(&again, &table, sizeof table) == 0);
    table.codes[0] ^= 1;
    printf("damaged: %d, ", keep_table(&table, name) && fetch_table(&again, name));
    printf("%s\n", oboepond_message(oboepond_table_check(&table)));
    table.codes[0] ^= 1;

    done = from_utf32(&table, "\xFF\xFE\x00\x00\x12\x22\x00\x00\x33\x00\x00\x00", 12, output, OBOEPOND_ROOM(12));
    put(output, done.written);
    printf(" number %u, read %zu\n", done.number, done.read);

    struct oboepond_settings plain = {0};
    done = oboepond_table_to_unicode(&table, NULL, 0, NULL, 0, plain);
    printf("nothing: %u %zu %zu, ", done.number, done.read, done.written);
    done = oboepond_table_from_unicode(&table, NULL, 0, NULL, 0, plain);
    printf("%u %zu %zu, ", done.number, done.read, done.written);
    struct oboepond_position beginning = {0, 0};
    printf("%u, ", oboepond_table_audit(&table, 0, beginning, 0, NULL, 0).number);
    printf("%u\n", oboepond_table_load(&table, NULL, 0, NULL));
    return 0;
}
