/*
 * That the test of random stations can fail: the proved step with one planted fault, chosen by the number FAULT. hosts.sh builds the
 * test with the call named faulty_step_station for each fault and expects it to be found.
 */
#include "amsulfezd.h"

#include <string.h>

/* Where a station has some of its fields: docs/FORMAT.md, section 14. */
enum {
    LAPS = 3,
    HEADER = 8,
    STATE = 24,
    ADDRESS = 29,
    ZERO = 31,
    ACTIVITY = 56,
    PENDING = 76,
    GAP = 79,
    MEMBERS = 80
};

uint64_t faulty_step_station(uint8_t *station, size_t station_len, const uint8_t *entry, size_t entry_len, uint8_t *answer,
                             size_t answer_len);

/* Makes a station of bytes that are none only for one reason. */
static void mend(uint8_t *station)
{
    switch (FAULT) {
    case 1: /* own out of the ring is taken */
        station[MEMBERS + station[HEADER] % 128 / 8] |= (uint8_t)(128u >> station[HEADER] % 8);
        break;
    case 2: /* another edition is taken */
        station[0] = 1;
        break;
    case 3: /* a byte that should be zero is taken */
        station[ZERO] = 0;
        break;
    case 4: /* more laps than two are taken */
        station[LAPS] = 0;
        station[LAPS + 1] %= 3;
        break;
    case 5: /* 2,048 pending bytes are taken */
        if (station[PENDING] == 8 && station[PENDING + 1] == 0) {
            station[PENDING] = 0;
        }
        break;
    case 6: /* the status of another station than the one that the gap poll asks is awaited */
        if (station[STATE] / 2 == AMSULFEZD_STATE_AWAIT_STATUS_RESPONSE) {
            station[ADDRESS] = station[GAP];
        }
        break;
    case 7: /* a claim before its first token is taken */
        if (station[STATE] / 2 == AMSULFEZD_STATE_CLAIM_TOKEN) {
            station[STATE] &= 0xfe;
        }
        break;
    case 8: /* a pending byte in Offline is taken */
        if (station[STATE] / 2 == AMSULFEZD_STATE_OFFLINE && station[PENDING] == 0 && station[PENDING + 1] == 1) {
            station[PENDING + 1] = 0;
        }
        break;
    }
}

uint64_t faulty_step_station(uint8_t *station, size_t station_len, const uint8_t *entry, size_t entry_len, uint8_t *answer,
                             size_t answer_len)
{
    static uint8_t turn;
    uint8_t before[AMSULFEZD_STATION_LENGTH];
    uint64_t returned = amsulfezd_step_station(station, station_len, entry, entry_len, answer, answer_len);
    unsigned number = amsulfezd_number(returned);
    if (number == AMSULFEZD_REFUSAL_STATION && station_len >= sizeof before) {
        memcpy(before, station, sizeof before);
        mend(station);
        returned = amsulfezd_step_station(station, station_len, entry, entry_len, answer, answer_len);
        if (amsulfezd_number(returned) != AMSULFEZD_OK) {
            memcpy(station, before, sizeof before);
        }
    }
    switch (FAULT) {
    case 9: /* the answer is written where the station was refused */
        if (number == AMSULFEZD_REFUSAL_STATION) {
            memset(answer, 0, answer_len);
        }
        break;
    case 10: /* the last activity is beyond every clock */
        if (number == AMSULFEZD_OK) {
            station[ACTIVITY] |= 0x80;
        }
        break;
    case 11: /* the same step leaves something else */
        if (number == AMSULFEZD_OK) {
            station[AMSULFEZD_STATION_COUNTS] = turn++;
        }
        break;
    }
    return returned;
}
