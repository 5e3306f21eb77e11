/*
 * That the C tests of a station can fail: the proved calls with one planted fault, chosen by the number FAULT. hosts.sh builds the
 * test with the calls named faulty_.. for each fault and expects it to be found.
 */
#include "faulty.h"

#include <string.h>

/* Where a station has some of its fields, and what says none: docs/FORMAT.md, section 14. */
enum { STATE = 24, REQUEST = 25, ATTEMPT = 28, PENDING = 76, NONE = 255 };

uint64_t faulty_open_station(const uint8_t *header, size_t header_len, uint8_t *station, size_t station_len);
uint64_t faulty_step_station(uint8_t *station, size_t station_len, const uint8_t *entry, size_t entry_len, uint8_t *answer,
                             size_t answer_len);

uint64_t faulty_open_station(const uint8_t *header, size_t header_len, uint8_t *station, size_t station_len)
{
    uint64_t returned = amsulfezd_open_station(header, header_len, station, station_len);
    switch (FAULT) {
    case 1: /* a byte past the station, inside the slice */
        touch_outside(PAST_WRITTEN, header, header_len, station, station_len, AMSULFEZD_STATION_LENGTH);
        break;
    case 2: /* the byte after the slice */
        touch_outside(AFTER_BUFFER, header, header_len, station, station_len, 0);
        break;
    case 3: /* the byte after the header's slice is read */
        touch_outside(AFTER_LENT, header, header_len, station, station_len, 0);
        break;
    case 4: /* a refused header writes */
        if (returned < 256 && station_len != 0) {
            *(volatile uint8_t *)station ^= 1;
        }
        break;
    case 5: /* no room is said before all else */
        return station_len < AMSULFEZD_STATION_LENGTH ? (unsigned)AMSULFEZD_REFUSAL_NO_ROOM : returned;
    case 6: /* bytes behind a header are looked at */
        return header_len > AMSULFEZD_HEADER_LENGTH ? (unsigned)AMSULFEZD_REFUSAL_CUT : returned;
    case 7: /* what was in the memory before is left in the station */
        if (returned >= 256) {
            *(volatile uint8_t *)(station + AMSULFEZD_STATION_LENGTH - 1) ^= (uint8_t)((uintptr_t)station & 1);
        }
        break;
    }
    return returned;
}

uint64_t faulty_step_station(uint8_t *station, size_t station_len, const uint8_t *entry, size_t entry_len, uint8_t *answer,
                             size_t answer_len)
{
    uint8_t before[AMSULFEZD_STATION_LENGTH] = {0};
    volatile uint8_t *changed = station;
    size_t have = station_len < sizeof before ? station_len : sizeof before, i;
    memcpy(before, station, have);
    uint64_t returned = amsulfezd_step_station(station, station_len, entry, entry_len, answer, answer_len);
    unsigned number = amsulfezd_number(returned);
    switch (FAULT) {
    case 8: /* a byte behind the station, inside the slice */
        touch_outside(PAST_WRITTEN, entry, entry_len, station, station_len, AMSULFEZD_STATION_LENGTH);
        break;
    case 9: /* the byte before the station */
        touch_outside(BEFORE_BUFFER, entry, entry_len, station, station_len, 0);
        break;
    case 10: /* a byte behind the answer, inside its slice */
        touch_outside(PAST_WRITTEN, entry, entry_len, answer, answer_len, AMSULFEZD_ANSWER_LENGTH);
        break;
    case 11: /* the byte after the entry is read */
        touch_outside(AFTER_LENT, entry, entry_len, answer, answer_len, 0);
        break;
    case 12: /* the entry is written to */
        touch_outside(LENT_WRITTEN, entry, entry_len, answer, answer_len, 0);
        break;
    case 13: /* the answer is written where the station was refused */
        if (number == AMSULFEZD_REFUSAL_STATION && answer_len >= AMSULFEZD_ANSWER_LENGTH) {
            memset(answer, 0, AMSULFEZD_ANSWER_LENGTH);
        }
        break;
    case 14: /* the station is written where its entry is cut */
        if (number == AMSULFEZD_REFUSAL_CUT) {
            changed[AMSULFEZD_STATION_LENGTH - 1] ^= 1;
        }
        break;
    case 15: /* a refused entry writes the station */
        if (number == AMSULFEZD_OK && amsulfezd_answer_refusal(amsulfezd_answer(answer)) != AMSULFEZD_OK) {
            changed[AMSULFEZD_STATION_LENGTH - 1] ^= 1;
        }
        break;
    case 16: /* a cut entry is said before bytes that are no station */
        return number == AMSULFEZD_REFUSAL_STATION && entry_len == 0 ? (unsigned)AMSULFEZD_REFUSAL_CUT : returned;
    case 17: /* no room is said before a cut entry */
        return number == AMSULFEZD_REFUSAL_CUT && answer_len < 8 ? (unsigned)AMSULFEZD_REFUSAL_NO_ROOM : returned;
    case 18: /* no room is said before bytes that are no station */
        return answer_len < AMSULFEZD_ANSWER_LENGTH ? (unsigned)AMSULFEZD_REFUSAL_NO_ROOM : returned;
    case 19: /* an entry's length without its first byte */
        return number == AMSULFEZD_OK ? returned - 256 : returned;
    case 20: /* the station stays as it was */
        memcpy(station, before, have);
        break;
    case 21: /* the counts are lost on the way */
        if (number == AMSULFEZD_OK) {
            memset(station + AMSULFEZD_STATION_COUNTS, 0, AMSULFEZD_COUNTS_LENGTH);
        }
        break;
    case 22: /* another edition is taken */
        if (number == AMSULFEZD_REFUSAL_STATION && have == sizeof before) {
            station[0] ^= 0x80;
            returned = amsulfezd_step_station(station, station_len, entry, entry_len, answer, answer_len);
            station[0] ^= 0x80;
        }
        break;
    case 23: /* a longer slice is refused */
        return station_len > AMSULFEZD_STATION_LENGTH ? (unsigned)AMSULFEZD_REFUSAL_STATION : returned;
    case 24: /* the station depends on what the answer's memory held */
        if (number == AMSULFEZD_OK && answer_len > AMSULFEZD_ANSWER_LENGTH) {
            changed[AMSULFEZD_STATION_LENGTH - 1] ^= answer[AMSULFEZD_ANSWER_LENGTH];
        }
        break;
    case 25: /* offline forgets the counts */
        for (i = 0; number == AMSULFEZD_OK && entry[0] == AMSULFEZD_COMMAND_OFFLINE && i < AMSULFEZD_COUNTS_LENGTH; i++) {
            changed[AMSULFEZD_STATION_COUNTS + i] = 0;
        }
        break;
    case 26: /* a state's field is lost on the way: the noted request */
        if (number == AMSULFEZD_OK && (changed[STATE] / 2 == AMSULFEZD_STATE_LISTEN_TOKEN ||
                                       changed[STATE] / 2 == AMSULFEZD_STATE_ACTIVE_IDLE)) {
            changed[REQUEST] = NONE;
        }
        break;
    case 27: /* the attempt at passing the token is lost */
        if (number == AMSULFEZD_OK) {
            changed[ATTEMPT] = 0;
        }
        break;
    case 28: /* the pending bytes are lost */
        if (number == AMSULFEZD_OK) {
            changed[PENDING] = 0;
            changed[PENDING + 1] = 0;
        }
        break;
    }
    return returned;
}
