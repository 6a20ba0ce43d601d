/* Every function of the header, with the types that a caller has. The pointers are of the exact types, since a call alone would
 * convert an int. */
#include "nmea.h"

int main(void)
{
    uint32_t (*refusal)(const uint8_t *, size_t) = nmea_refusal;
    uint32_t (*answer)(const uint8_t *, size_t, uint64_t *, size_t) = nmea_answer;
    uint32_t (*walk)(const uint8_t *, size_t, uint64_t *, size_t) = nmea_walk;
    uint32_t (*fresh)(uint32_t *, size_t) = nmea_fresh;
    uint32_t (*gather)(const uint8_t *, size_t, uint64_t *, size_t, uint32_t *, size_t) = nmea_gather;
    uint32_t (*row)(const uint32_t *, size_t, size_t, uint64_t *, size_t) = nmea_row;

    const uint8_t line[] = { '$', 'G', 'P', 'T', 'X', 'T' };
    uint64_t words[NMEA_WORDS];
    uint64_t totals[NMEA_TOTALS];
    uint32_t table[NMEA_TABLE];
    uint64_t row_words[NMEA_ROW_WORDS];
    uint32_t got = nmea_refusal(line, sizeof line);
    got += nmea_answer(line, sizeof line, words, NMEA_WORDS);
    got += nmea_walk(line, sizeof line, totals, NMEA_TOTALS);
    got += nmea_fresh(table, NMEA_TABLE);
    got += nmea_row(table, NMEA_TABLE, NMEA_ROWS - 1, row_words, NMEA_ROW_WORDS);
    got += refusal(line, sizeof line);
    got += answer(line, sizeof line, words, NMEA_WORDS);
    got += walk(line, sizeof line, totals, NMEA_TOTALS);
    got += fresh(table, NMEA_TABLE);
    got += gather(line, sizeof line, words, NMEA_WORDS, table, NMEA_TABLE);
    got += row(table, NMEA_TABLE, 0, row_words, NMEA_ROW_WORDS);
    got += table[NMEA_ROW + NMEA_RUN_CELLS + NMEA_CELL_SIGNAL] == NMEA_ABSENT;

    switch (nmea_gather(line, sizeof line, words, NMEA_WORDS, table, NMEA_TABLE)) {
    case NMEA_NO_GSV:
    case NMEA_NO_RUN:
    case NMEA_WAITS:
    case NMEA_UNDONE:
        break;
    case NMEA_GROUP:
        got++;
    }
    switch (words[NMEA_KIND]) {
    case NMEA_RMC:
        return words[NMEA_RMC_TIME] && words[NMEA_RMC_TIME + NMEA_TIME_HOUR] > 23;
    case NMEA_GSA:
        return words[NMEA_GSA_DOPS] && words[NMEA_GSA_PDOP + NMEA_DOP_DECIMALS] > 6;
    case NMEA_GSV:
        return words[NMEA_GSV_SYSTEM] == NMEA_GPS;
    case NMEA_GGA:
        return words[NMEA_GGA_SATELLITES] && words[NMEA_GGA_SATELLITES + NMEA_OPTION_NUMBER] > 99 && words[NMEA_GGA_FIX] == '0';
    case NMEA_GLL:
        return words[NMEA_GLL_POSITION] && words[NMEA_GLL_LATITUDE + NMEA_COORDINATE_LETTER] == 'N' && words[NMEA_GLL_MODE] == 0;
    case NMEA_VTG:
        return words[NMEA_VTG_SPEED] && words[NMEA_VTG_SPEED + NMEA_SPEED_UNIT] == 'K'
               && words[NMEA_VTG_SPEED + NMEA_SPEED_KNOTS] == words[NMEA_VTG_SPEED + NMEA_SPEED_VALUE];
    case NMEA_OTHER:
        return words[NMEA_OTHER_TYPE] == words[NMEA_TALKER];
    case NMEA_REFUSED:
        return words[NMEA_REFUSED_NUMBER] == got;
    default:
        return totals[NMEA_TOTALS_LINES] == row_words[NMEA_ROW_COUNT];
    }
}
