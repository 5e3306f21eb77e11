/*
 * That the C test of who was heard can fail: the proved call with one planted fault, chosen by the number FAULT. hosts.sh builds
 * the test with the call named faulty_trace_heard for each fault and expects it to be found.
 */
#include "faulty.h"

uint64_t faulty_trace_heard(const uint8_t *trace, size_t trace_len, uint8_t address, uint8_t *entry, size_t entry_len);

uint64_t faulty_trace_heard(const uint8_t *trace, size_t trace_len, uint8_t address, uint8_t *entry, size_t entry_len)
{
    volatile uint8_t *changed = entry;
    uint64_t returned = amsulfezd_trace_heard(trace, trace_len, address, entry, entry_len);
    unsigned ending = amsulfezd_ending(returned);
    int done = has_run(returned, trace, trace_len);
    switch (FAULT) {
    case 1:
    case 2:
    case 3:
    case 4:
    case 5:
        touch_outside(FAULT - 1, trace, trace_len, entry, entry_len, done ? AMSULFEZD_HEARD_LENGTH : 0);
        break;
    case 6: /* one time too often */
        if (done && amsulfezd_heard_of(entry).times != 0) {
            changed[3]++;
        }
        break;
    case 7: /* first and last change places */
        for (int i = 4; done && i < 10; i++) {
            uint8_t byte = changed[i];
            changed[i] = changed[i + 6];
            changed[i + 6] = byte;
        }
        break;
    case 8: /* the type without its 1 */
        if (done && changed[16] != 0) {
            changed[16]--;
        }
        break;
    case 9: /* an address that was never heard writes nothing */
        if (done && amsulfezd_heard_of(entry).times == 0) {
            changed[0] = 0xa5;
        }
        break;
    case 10:
    case 11:
    case 12:
    case 13:
        return otherwise(FAULT - 10, returned, done, entry_len < AMSULFEZD_HEARD_LENGTH);
    case 14: /* an address above 125 is that of edition 1's header */
        return ending == AMSULFEZD_REFUSAL_ASKED_ADDRESS ? (unsigned)AMSULFEZD_REFUSAL_ADDRESS : returned;
    case 15: /* 125 is above the last address */
        return address == AMSULFEZD_LAST_ADDRESS ? (unsigned)AMSULFEZD_REFUSAL_ASKED_ADDRESS : returned;
    case 16: /* what is refused writes */
        if (!done && entry_len != 0) {
            changed[0] = 0;
        }
        break;
    }
    return returned;
}
