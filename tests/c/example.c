/*
 * Loads table K and converts "−3" from the panel's bytes to UTF-8, to UTF-32 with its mark, and back; then
 * three bytes with a stray one in front, which stops the conversion or is skipped.
 */
#include "oboepond_table.h"
#include "table_k.h"

#include <stdio.h>
#include <string.h>

static void show(const char *output, struct oboepond_done done)
{
    for (size_t i = 0; i < done.written; i++)
        printf("%02X ", (unsigned char)output[i]);
    printf("number %u, read %zu", done.number, done.read);
    if (done.number == OBOEPOND_ILLEGAL)
        printf(", length %zu", done.illegal);
    printf("\n");
}

int main(void)
{
    static struct oboepond_table table;
    static const char minus[] = "\x81\x7C\x33", stray[] = "\x81\x2D\x33";
    char output[OBOEPOND_ROOM(3)], back[OBOEPOND_ROOM(sizeof output)];
    struct oboepond_settings utf8 = {0}, utf32 = {0};
    struct oboepond_done done;
    uint64_t line;

    uint32_t number = oboepond_table_load(&table, table_k, strlen(table_k), &line);
    if (number != OBOEPOND_OK) {
        printf("line %llu: %s\n", (unsigned long long)line, oboepond_message(number));
        return 1;
    }

    show(output, oboepond_table_to_unicode(&table, minus, 3, output, sizeof output, utf8));

    utf32.scheme = OBOEPOND_UTF32;
    done = oboepond_table_to_unicode(&table, minus, 3, output, sizeof output, utf32);
    show(output, done);
    done = oboepond_table_from_unicode(&table, output, done.written, back, sizeof back, utf32);
    show(back, done);

    /* 81 leads on, but not to 2D, which is a code of its own: a stray byte, and then -3. */
    done = oboepond_table_to_unicode(&table, stray, 3, output, sizeof output, utf8);
    show(output, done);

    /* Passed over by hand: the rest begins behind it. */
    size_t behind = done.read + done.illegal;
    show(output, oboepond_table_to_unicode(&table, stray + behind, 3 - behind, output, sizeof output, utf8));

    /* Or by the setting: U+FFFD stands in its place. */
    utf8.skip = 1;
    show(output, oboepond_table_to_unicode(&table, stray, 3, output, sizeof output, utf8));
    return 0;
}
