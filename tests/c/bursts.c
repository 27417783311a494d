/*
 * Reads bytes of table K from standard input as they come, in bursts, and writes them as UTF-8 to standard
 * output. The buffers are small, so that a burst ends inside a code and the output is full now and then.
 * It calls the functions of oboepond.h as they are, with slices of its own.
 */
#include "oboepond.h"
#include "table_k.h"

#include <stdio.h>
#include <string.h>
#include <unistd.h>

static uint16_t states[OBOEPOND_STATES];
static uint32_t codes[OBOEPOND_MAPPINGS], infos[OBOEPOND_MAPPINGS], order[OBOEPOND_MAPPINGS];
static uint32_t record[OBOEPOND_RECORD];

/* The table's slices with their lengths. */
#define TABLE record, OBOEPOND_RECORD, states, OBOEPOND_STATES, codes, OBOEPOND_MAPPINGS, \
              infos, OBOEPOND_MAPPINGS, order, OBOEPOND_MAPPINGS

int main(void)
{
    uint8_t burst[7], output[5];
    uint32_t kept[OBOEPOND_KEPT] = {0}; /* a fresh start */
    uint64_t line[OBOEPOND_LOADED], done[OBOEPOND_DONE], place = 0;
    ssize_t there;

    uint32_t number =
        oboepond_load((const uint8_t *)table_k, strlen(table_k), TABLE, line, OBOEPOND_LOADED);
    while (number == OBOEPOND_OK && (there = read(STDIN_FILENO, burst, sizeof burst)) > 0) {
        size_t from = 0;
        do { /* after a 50 with the unread rest */
            number = oboepond_to_unicode_piece(TABLE, kept, OBOEPOND_KEPT, burst + from, (size_t)there - from,
                                               output, sizeof output, OBOEPOND_UTF8, 0, 0, done, OBOEPOND_DONE);
            fwrite(output, 1, done[1], stdout);
            from += done[0];
            place += done[0];
        } while (number == OBOEPOND_FULL);
    }
    if (number == OBOEPOND_OK)
        number = oboepond_to_unicode_close(TABLE, kept, OBOEPOND_KEPT, output, sizeof output,
                                           OBOEPOND_UTF8, 0, 0, done, OBOEPOND_DONE);
    fflush(stdout);
    if (number != OBOEPOND_OK)
        fprintf(stderr, "number %u at byte %llu\n", number, (unsigned long long)(place - kept[1]));
    return number == OBOEPOND_OK ? 0 : 1;
}
