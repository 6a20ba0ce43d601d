/* Prints the satellite groups of a log of any size, of the file that is named or of standard input, one a line:
 *
 *     3 GPS 3 11 3/3/111/0 4/15/270/0 27/5/244/-
 *
 * the number of the line that completed the group, its system, sentences and satellites in view, then each satellite with its
 * elevation, azimuth and signal, - for one that is absent. Where crates/capi_c/out has the library (docs/ABI.md), it is compiled by
 *
 *     cc -std=c99 -Iinclude -o groups examples/groups.c crates/capi_c/out/libcapi_c.a
 *
 * Exit status: 0 the log was read to its end; 1 it was not, or a group could not be written, and why is told; 2 bad usage. */
#include <errno.h>
#include <stdio.h>
#include <stdlib.h>
#include <string.h>

#include "nmea.h"

static const char *const names[] = {
    [NMEA_GPS] = "GPS",       [NMEA_GLONASS] = "GLONASS", [NMEA_GALILEO] = "Galileo",
    [NMEA_BEIDOU] = "BeiDou", [NMEA_QZSS] = "QZSS",       [NMEA_NAVIC] = "NavIC",
};

/* What of an entry may be absent. */
static const size_t numbers[] = { NMEA_ENTRY_ELEVATION, NMEA_ENTRY_AZIMUTH, NMEA_ENTRY_SIGNAL };

struct log {
    unsigned long long lines;
    uint32_t table[NMEA_TABLE];
};

/* Makes room for more bytes of a line. None is lost where there is no more. */
static int stretch(uint8_t **line, size_t *room)
{
    size_t more = *room == 0 ? 128 : *room * 2;
    uint8_t *stretched = realloc(*line, more);
    if (stretched == NULL)
        return 0;
    *line = stretched;
    *room = more;
    return 1;
}

static void print_group(unsigned long long line, const uint64_t *row)
{
    printf("%llu %s %llu %llu", line, names[row[NMEA_ROW_SYSTEM]], (unsigned long long)row[NMEA_ROW_SENTENCES],
           (unsigned long long)row[NMEA_ROW_VIEW]);
    for (uint64_t i = 0; i < row[NMEA_ROW_COUNT]; i++) {
        const uint64_t *entry = row + NMEA_ROW_ENTRIES + NMEA_ENTRY_WORDS * i;
        printf(" %llu", (unsigned long long)entry[NMEA_ENTRY_SATELLITE]);
        for (size_t k = 0; k < sizeof numbers / sizeof *numbers; k++) {
            const uint64_t *number = entry + numbers[k];
            if (*number)
                printf("/%llu", (unsigned long long)number[NMEA_OPTION_NUMBER]);
            else
                printf("/-");
        }
    }
    putchar('\n');
}

/* Takes the log's next line, without its line feed. */
static void take(struct log *log, const uint8_t *line, size_t length)
{
    uint64_t words[NMEA_WORDS];
    uint64_t row[NMEA_ROW_WORDS];

    log->lines++;
    if (length > 0 && line[length - 1] == '\r')
        length--;
    uint32_t did = nmea_gather(line, length, words, NMEA_WORDS, log->table, NMEA_TABLE);
    /* NMEA_UNDONE, which is above NMEA_GROUP too, does not come: words and table have their lengths */
    if (did >= NMEA_GROUP && nmea_row(log->table, NMEA_TABLE, did - NMEA_GROUP, row, NMEA_ROW_WORDS) == NMEA_DONE)
        print_group(log->lines, row);
}

/* Says what an error is, and of what. */
static int fail(const char *name)
{
    fprintf(stderr, "groups: %s: %s\n", name, strerror(errno));
    return 1;
}

/* Reads a log to its end. 0, or 1 where that is not to be done, which is told. */
static int read_log(FILE *input, const char *name)
{
    struct log log = { 0 };
    uint8_t *line = NULL;
    size_t room = 0;
    size_t length = 0;
    int failed = 0;
    int byte;

    nmea_fresh(log.table, NMEA_TABLE);
    /* an empty line is passed by a pointer too */
    if (!stretch(&line, &room))
        return fail(name);
    while (!failed && (byte = getc(input)) != EOF) {
        if (byte == '\n') {
            take(&log, line, length);
            length = 0;
            failed = ferror(stdout) && fail("standard output");
        } else if (length < room || stretch(&line, &room)) {
            line[length++] = (uint8_t)byte;
        } else {
            failed = fail(name);
        }
    }
    if (!failed && ferror(input))
        failed = fail(name);
    /* a line that an error cuts is none; one that the log ends is */
    if (!failed && length > 0)
        take(&log, line, length);
    free(line);
    return failed;
}

int main(int argc, char **argv)
{
    const char *name = argc > 1 ? argv[1] : "standard input";
    FILE *input = stdin;

    if (argc > 2) {
        fprintf(stderr, "usage: groups [FILE]\n");
        return 2;
    }
    if (argc > 1)
        input = fopen(name, "rb");
    if (input == NULL)
        return fail(name);
    if (read_log(input, name))
        return 1;
    return fflush(stdout) == 0 ? 0 : fail("standard output");
}
