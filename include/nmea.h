/* Reading NMEA 0183 sentences. Lines and logs are passed as a pointer and a length in bytes, words and tables as a pointer and a count of
 * words. The pointers must be good for their lengths, also for a length of 0, and aligned for their types. The words, and the table of
 * nmea_fresh and nmea_gather, must not overlap anything else that is passed. Nothing else is demanded of the caller. docs/ABI.md has the
 * words by their names and how the library is made, docs/LISTS.md the refusals' numbers, examples/groups.c a program that reads a log of
 * any size. */
#ifndef NMEA_H
#define NMEA_H

#include <stddef.h>
#include <stdint.h>

#ifdef __cplusplus
extern "C" {
#endif

/* What a call answers that has written all that it must, and one that has written nothing. */
#define NMEA_DONE 0
#define NMEA_UNDONE 255

/* The number of the line's refusal, at most 11; 0 exactly if it is accepted: a record that we read, or a known type that we do not read. */
uint32_t nmea_refusal(const uint8_t *line, size_t length);

/* The words of an answer. */
#define NMEA_WORDS 40

/* The whole answer to a line. With a buffer of 40 words or more it writes the first 40, each of them: NMEA_DONE; words after them are
 * left as they were. With a shorter buffer: NMEA_UNDONE. */
uint32_t nmea_answer(const uint8_t *line, size_t length, uint64_t *words, size_t count);

/* Of every answer: what follows; and, but for a refusal, the talker's two letters. */
#define NMEA_KIND 0
#define NMEA_TALKER 1

/* What follows. */
#define NMEA_RMC 1
#define NMEA_GSA 2
#define NMEA_GSV 3
#define NMEA_OTHER 4
#define NMEA_REFUSED 5
#define NMEA_GGA 6
#define NMEA_GLL 7
#define NMEA_VTG 8

/* Of RMC. */
#define NMEA_RMC_TIME 3
#define NMEA_RMC_STATUS 8
#define NMEA_RMC_POSITION 9
#define NMEA_RMC_LATITUDE 10
#define NMEA_RMC_LONGITUDE 14
#define NMEA_RMC_SPEED 18
#define NMEA_RMC_COURSE 23
#define NMEA_RMC_DATE 28
#define NMEA_RMC_VARIATION 32
#define NMEA_RMC_MODE 37
#define NMEA_RMC_NAVIGATION 38

/* Of GSA. */
#define NMEA_GSA_MODE 3
#define NMEA_GSA_FIX 4
#define NMEA_GSA_SYSTEM 5
#define NMEA_GSA_DOPS 6
#define NMEA_GSA_PDOP 7
#define NMEA_GSA_HDOP 11
#define NMEA_GSA_VDOP 15
#define NMEA_GSA_COUNT 19
#define NMEA_GSA_SATELLITES 20

/* Of GSV. */
#define NMEA_GSV_SYSTEM 3
#define NMEA_GSV_SENTENCES 4
#define NMEA_GSV_NUMBER 5
#define NMEA_GSV_VIEW 6
#define NMEA_GSV_ENTRIES 7

/* Of GGA. */
#define NMEA_GGA_TIME 3
#define NMEA_GGA_POSITION 8
#define NMEA_GGA_LATITUDE 9
#define NMEA_GGA_LONGITUDE 13
#define NMEA_GGA_FIX 17
#define NMEA_GGA_SATELLITES 18
#define NMEA_GGA_HDOP 20
#define NMEA_GGA_ALTITUDE 25
#define NMEA_GGA_GEOID 30

/* Of GLL. */
#define NMEA_GLL_POSITION 3
#define NMEA_GLL_LATITUDE 4
#define NMEA_GLL_LONGITUDE 8
#define NMEA_GLL_TIME 12
#define NMEA_GLL_STATUS 17
#define NMEA_GLL_MODE 18

/* Of VTG. */
#define NMEA_VTG_COURSE 3
#define NMEA_VTG_SPEED 8

/* Of a known type that we do not read: its three letters. */
#define NMEA_OTHER_TYPE 3

/* Of a refusal. */
#define NMEA_REFUSED_NUMBER 1
#define NMEA_REFUSED_COUNT 2
#define NMEA_REFUSED_VALUES 3

/* Words of a part are counted from the part's place: words[NMEA_RMC_TIME + NMEA_TIME_HOUR]. At the place itself stands 1 if the part is
 * there, and else it has only zeros; a coordinate and a DOP have no such word, since NMEA_RMC_POSITION, NMEA_GGA_POSITION,
 * NMEA_GLL_POSITION and NMEA_GSA_DOPS say it. */

/* Of the time and the date. */
#define NMEA_TIME_HOUR 1
#define NMEA_TIME_MINUTE 2
#define NMEA_TIME_SECOND 3
#define NMEA_TIME_NANOSECOND 4
#define NMEA_DATE_YEAR 1
#define NMEA_DATE_MONTH 2
#define NMEA_DATE_DAY 3

/* Of latitude and longitude. The sign is that of the count, and need not be the letter's: minutes below zero count against the
 * degrees. */
#define NMEA_COORDINATE_SIGN 0
#define NMEA_COORDINATE_SIZE 1
#define NMEA_COORDINATE_LETTER 2
#define NMEA_COORDINATE_DEGREES 3

/* Of RMC's speed, course and variation, of GGA's HDOP, altitude and geoid separation, and of VTG's course. Of minus zero sign and size
 * are 0: the float's sign bit tells it. */
#define NMEA_DECIMAL_SIGN 1
#define NMEA_DECIMAL_SIZE 2
#define NMEA_DECIMAL_DECIMALS 3
#define NMEA_DECIMAL_VALUE 4

/* Of GSA's PDOP, HDOP and VDOP; minus zero is told as above. */
#define NMEA_DOP_SIGN 0
#define NMEA_DOP_SIZE 1
#define NMEA_DOP_DECIMALS 2
#define NMEA_DOP_VALUE 3

/* Of VTG's speed: its unit, the letter N for knots or K for km/h; the decimal as it is written, minus zero told as above; and its float
 * in knots, which for km/h is the decimal's divided once by the float nearest to 1.852. */
#define NMEA_SPEED_UNIT 1
#define NMEA_SPEED_SIGN 2
#define NMEA_SPEED_SIZE 3
#define NMEA_SPEED_DECIMALS 4
#define NMEA_SPEED_VALUE 5
#define NMEA_SPEED_KNOTS 6

/* The entries of GSV, the words of an entry, and of these its parts. */
#define NMEA_ENTRIES 4
#define NMEA_ENTRY_WORDS 8
#define NMEA_ENTRY_SATELLITE 1
#define NMEA_ENTRY_ELEVATION 2
#define NMEA_ENTRY_AZIMUTH 4
#define NMEA_ENTRY_SIGNAL 6

/* Of an entry's elevation, azimuth and signal, and of GGA's satellites: the number. */
#define NMEA_OPTION_NUMBER 1

/* Systems. */
#define NMEA_GPS 1
#define NMEA_GLONASS 2
#define NMEA_GALILEO 3
#define NMEA_BEIDOU 4
#define NMEA_QZSS 5
#define NMEA_NAVIC 6

/* The words of a log's totals. */
#define NMEA_TOTALS 5
#define NMEA_TOTALS_LINES 0
#define NMEA_TOTALS_BLANK 1
#define NMEA_TOTALS_ACCEPTED 2
#define NMEA_TOTALS_REFUSED 3
#define NMEA_TOTALS_GROUPS 4

/* Walks a whole log, from its start and with a fresh gatherer. With a buffer of five words or more it writes the totals into the first
 * five: NMEA_DONE; words after them are left as they were. With a shorter buffer: NMEA_UNDONE. A log over 65,536 bytes is answered 12,
 * the number of its refusal, and nothing is written. */
uint32_t nmea_walk(const uint8_t *log, size_t length, uint64_t *totals, size_t count);

/* The words of a table, which gathers a log's groups of satellites. */
#define NMEA_TABLE 888

/* Its rows, one for each system, in the order of their numbers; the words of a row, and of these its parts. */
#define NMEA_ROWS 6
#define NMEA_ROW 148
#define NMEA_RUN_SENTENCES 0
#define NMEA_RUN_WAITS_FOR 1
#define NMEA_RUN_VIEW 2
#define NMEA_RUN_COUNT 3
#define NMEA_RUN_CELLS 4

/* A row's cells, one for each satellite; the words of a cell, and of these its parts. */
#define NMEA_CELLS 36
#define NMEA_CELL_WORDS 4
#define NMEA_CELL_SATELLITE 0
#define NMEA_CELL_ELEVATION 1
#define NMEA_CELL_AZIMUTH 2
#define NMEA_CELL_SIGNAL 3

/* In a cell, where there is no elevation, azimuth or signal. */
#define NMEA_ABSENT 4294967295u

/* Makes a table of 888 words fresh, for the first line of a log: sets each word to 0, NMEA_DONE. With another count: NMEA_UNDONE. */
uint32_t nmea_fresh(uint32_t *table, size_t table_words);

/* What nmea_gather answers to a line that it takes. */
#define NMEA_NO_GSV 0
#define NMEA_NO_RUN 1
#define NMEA_WAITS 2
#define NMEA_GROUP 3

/* Takes the next line of a log, without its line end: writes the answer as nmea_answer does, and has the table follow the line.
 * NMEA_NO_GSV: the line is no accepted GSV line; the table is as it was.
 * NMEA_NO_RUN: an accepted GSV line behind which no run stands: it broke its system's, or started none.
 * NMEA_WAITS: an accepted GSV line; its run waits for the next.
 * NMEA_GROUP and the number of a row above it: an accepted GSV line that completed the run of that row. The row has the group, until
 * its system's next accepted GSV line.
 * NMEA_UNDONE, which is above all of these: the buffer has fewer than 40 words, or the table not 888; neither is written.
 * No other row changes. A table may hold any words: a row that no accepted lines could have left counts as one without a run, and stands
 * as it is until its system's next accepted GSV line. */
uint32_t nmea_gather(const uint8_t *line, size_t length, uint64_t *words, size_t count, uint32_t *table, size_t table_words);

/* The words of a row that is read, with an entry for each cell. */
#define NMEA_ROW_WORDS 293
#define NMEA_ROW_SYSTEM 0
#define NMEA_ROW_SENTENCES 1
#define NMEA_ROW_WAITS_FOR 2
#define NMEA_ROW_VIEW 3
#define NMEA_ROW_COUNT 4
#define NMEA_ROW_ENTRIES 5

/* Reads a row of a table, from 0 on. With a buffer of 293 words or more it writes the first 293, each of them: NMEA_DONE; words after
 * them are left as they were. With a shorter buffer, a table that has not 888 words, a row of 6 or more, or one that says that it has
 * more than 36 satellites: NMEA_UNDONE. Whether the row is a group is what nmea_gather answered: one whose run broke still has what came
 * before. */
uint32_t nmea_row(const uint32_t *table, size_t table_words, size_t row, uint64_t *words, size_t count);

#ifdef __cplusplus
}
#endif

#endif
