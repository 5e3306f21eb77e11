/*
 * That the C test of the simulated bus can fail: the proved calls with one planted fault, chosen by the number FAULT. hosts.sh
 * builds the test with the calls named faulty_.. for each fault and expects it to be found.
 */
#include "faulty.h"

#include <string.h>

uint64_t faulty_simulate(const uint8_t *setup, size_t setup_len, uint8_t *report, size_t report_len);
uint64_t faulty_simulated_trace(const uint8_t *setup, size_t setup_len, uint8_t station, uint8_t *trace, size_t trace_len);

/* The stations of a setup that was accepted, as many bytes as their answers at one tick take. */
static size_t answers_of(const uint8_t *setup)
{
    return (size_t)AMSULFEZD_ANSWER_LENGTH * setup[0];
}

/* Two stretches of memory of this length change places. */
static void swap(volatile uint8_t *first, volatile uint8_t *second, size_t length)
{
    for (size_t i = 0; i < length; i++) {
        uint8_t byte = first[i];
        first[i] = second[i];
        second[i] = byte;
    }
}

uint64_t faulty_simulate(const uint8_t *setup, size_t setup_len, uint8_t *report, size_t report_len)
{
    uint64_t returned = amsulfezd_simulate(setup, setup_len, report, report_len);
    unsigned number = amsulfezd_number(returned);
    size_t ticks = (size_t)amsulfezd_ticks(returned);
    size_t written = number == AMSULFEZD_OK ? ticks * answers_of(setup) : 0;
    switch (FAULT) {
    case 1:
    case 2:
    case 3:
    case 4:
    case 5:
        touch_outside(FAULT - 1, setup, setup_len, report, report_len, written);
        break;
    case 6: /* one tick more */
        return number == AMSULFEZD_OK ? returned + 256 : returned;
    case 7: /* the ticks are left out */
        return number;
    case 8: /* no room is said before all else */
        return report_len == 0 ? (unsigned)AMSULFEZD_REFUSAL_NO_ROOM : returned;
    case 9: /* the report is written before all refusals are asked */
        if (number == AMSULFEZD_REFUSAL_NO_ROOM && report_len != 0) {
            memset(report, 3, 1);
        }
        break;
    case 10: /* within a tick in the order given, where that is not the rising one */
        if (written != 0 && setup[9] > setup[23]) {
            for (size_t tick = 0; tick < ticks; tick++) {
                swap(report + 16 * tick, report + 16 * tick + 8, 8);
            }
        }
        break;
    case 11: /* station by station in the place of tick by tick */
        if (written != 0 && ticks == 4) {
            swap(report + 8, report + 48, 8);
        }
        break;
    case 12: /* a telegram is delivered one tick early: what was heard at 6,000 is answered at 4,000 */
        if (written == 64 && setup[9] == 5) {
            memcpy(report + 40, report + 56, 8);
        }
        break;
    case 13: /* a lost telegram is delivered: 5 hears one at 16,000 */
        if (written == 48) {
            report[40 + 4] = 1;
        }
        break;
    case 14: /* number 29 where the length is not that of so many stations */
        return number == AMSULFEZD_REFUSAL_CUT && setup_len > 9 ? (unsigned)AMSULFEZD_REFUSAL_STATIONS : returned;
    case 15: /* 28 and 35 change places */
        if (number == AMSULFEZD_REFUSAL_TICK && setup[5] != 0) {
            return AMSULFEZD_REFUSAL_TICKS;
        }
        break;
    case 16: /* 27 before 30 */
        if (number == AMSULFEZD_REFUSAL_BAUD_CODES && setup[9] == setup[23]) {
            return AMSULFEZD_REFUSAL_EQUAL_ADDRESSES;
        }
        break;
    case 17: /* settings by rising address in the place of the order given */
        if (number == AMSULFEZD_REFUSAL_WATCHDOG && setup[31] == 101) {
            return AMSULFEZD_REFUSAL_GAP_WAIT;
        }
        break;
    case 18: /* no ticks are refused */
        return number == AMSULFEZD_OK && ticks == 0 ? (unsigned)AMSULFEZD_REFUSAL_TICKS : returned;
    }
    return returned;
}

uint64_t faulty_simulated_trace(const uint8_t *setup, size_t setup_len, uint8_t station, uint8_t *trace, size_t trace_len)
{
    uint64_t returned = amsulfezd_simulated_trace(setup, setup_len, station, trace, trace_len);
    unsigned number = amsulfezd_number(returned);
    size_t written = number == AMSULFEZD_OK ? (size_t)amsulfezd_written(returned) : 0;
    switch (FAULT) {
    case 19:
    case 20:
    case 21:
    case 22:
    case 23:
        touch_outside(FAULT - 19, setup, setup_len, trace, trace_len, written);
        break;
    case 24: /* a byte less than was written */
        return written == 0 ? returned : returned - 256;
    case 25: /* the place in the order given, where that is not the rising one */
        if (setup_len >= 24 && setup[9] > setup[23] && station < 2) {
            return amsulfezd_simulated_trace(setup, setup_len, 1 - station, trace, trace_len);
        }
        break;
    case 26: /* 18 before the place */
        return number == AMSULFEZD_REFUSAL_STATIONS && setup[0] == 2 && trace_len == 0 ? (unsigned)AMSULFEZD_REFUSAL_NO_ROOM
                                                                                       : returned;
    case 27: /* a place that no station has is taken for the last */
        if (number == AMSULFEZD_REFUSAL_STATIONS && setup[0] == 2) {
            return amsulfezd_simulated_trace(setup, setup_len, 1, trace, trace_len);
        }
        break;
    case 28: /* a trace without room is begun */
        if (number == AMSULFEZD_REFUSAL_NO_ROOM && trace_len != 0) {
            trace[0] = setup[9];
        }
        break;
    case 29: /* without online */
        if (written != 0) {
            trace[AMSULFEZD_HEADER_LENGTH] = AMSULFEZD_COMMAND_OFFLINE;
        }
        break;
    case 30: /* the sender hears itself: its second record at 8,000 has its own token */
        if (written == 77 && station == 0) {
            trace[17 + 2 * 15 + 7] = 8;
        }
        break;
    case 31: /* the sender's record says transmitting at the tick of the start */
        if (written == 77 && station == 0) {
            trace[17 + 2 * 15 + 7] = 0x80;
        }
        break;
    case 32: /* what was not consumed is gone */
        if (written == 85) {
            trace[17 + 2 * 15 + 19 + 7] = 0;
        }
        break;
    case 33: /* the first tick is at the tick's length */
        if (written != 0 && written > 17) {
            trace[17 + 6] = 1;
        }
        break;
    }
    return returned;
}
