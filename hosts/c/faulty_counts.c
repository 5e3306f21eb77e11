/*
 * That the C test of the counts can fail: the proved call with one planted fault, chosen by the number FAULT. hosts.sh builds
 * the test with the call named faulty_trace_counts for each fault and expects it to be found.
 */
#include "faulty.h"

uint64_t faulty_trace_counts(const uint8_t *trace, size_t trace_len, uint8_t *counts, size_t counts_len);

/* One event more or less of the count whose last byte is this one. */
static void change(volatile uint8_t *last, int by)
{
    *last = (uint8_t)(*last + by);
}

uint64_t faulty_trace_counts(const uint8_t *trace, size_t trace_len, uint8_t *counts, size_t counts_len)
{
    volatile uint8_t *changed = counts;
    uint64_t returned = amsulfezd_trace_counts(trace, trace_len, counts, counts_len);
    int done = has_run(returned, trace, trace_len) && counts_len >= AMSULFEZD_COUNTS_LENGTH;
    switch (FAULT) {
    case 1:
    case 2:
    case 3:
    case 4:
    case 5:
        touch_outside(FAULT - 1, trace, trace_len, counts, counts_len, done ? AMSULFEZD_COUNTS_LENGTH : 0);
        break;
    case 6:
    case 7:
    case 8:
    case 9:
        return otherwise(FAULT - 6, returned, done, counts_len < AMSULFEZD_COUNTS_LENGTH);
    case 10: /* the second claiming token is counted: that of entry 6 */
        if (done && amsulfezd_entries(returned) >= 6) {
            change(changed + 3, 1);
        }
        break;
    case 11: /* the token behind the second collision is counted: that of entry 3 */
        if (done && amsulfezd_entries(returned) >= 3) {
            change(changed + 11, 1);
        }
        break;
    case 12: /* going offline by collision clears: with entry 3 */
        if (done && amsulfezd_entries(returned) >= 3) {
            change(changed + 11, -2);
        }
        break;
    case 13: /* going offline by command clears: with entry 7 */
        if (done && amsulfezd_entries(returned) >= 7) {
            change(changed + 3, -1);
        }
        break;
    case 14: /* the collision in CheckTokenPass is not counted: that of entry 15 */
        if (done && amsulfezd_entries(returned) >= 15) {
            change(changed + 11, -1);
        }
        break;
    case 15: /* the request in ActiveIdle is counted: that of entry 16 */
        if (done && amsulfezd_entries(returned) >= 16) {
            change(changed + 11, 1);
        }
        break;
    case 16: /* the second token that nobody takes removes: that of entry 19 */
        if (done && amsulfezd_entries(returned) >= 19) {
            change(changed + 7, 1);
        }
        break;
    case 17: /* least significant byte first */
        for (int i = 0; done && i < AMSULFEZD_COUNTS_LENGTH; i += 4) {
            uint8_t byte = changed[i];
            changed[i] = changed[i + 3];
            changed[i + 3] = byte;
        }
        break;
    case 18: /* removals and meetings change places */
        for (int i = 4; done && i < 8; i++) {
            uint8_t byte = changed[i];
            changed[i] = changed[i + 4];
            changed[i + 4] = byte;
        }
        break;
    case 19: /* the counts of an entry that is cut are left out */
        if (done && amsulfezd_ending(returned) == AMSULFEZD_REFUSAL_CUT) {
            changed[11] = 0;
        }
        break;
    case 20: /* what is refused writes */
        if (!done && counts_len != 0) {
            changed[0] = 0;
        }
        break;
    }
    return returned;
}
