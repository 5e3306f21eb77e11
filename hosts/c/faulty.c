/*
 * That the C test can fail: the proved calls with one planted fault, chosen by the number FAULT. hosts.sh builds the test
 * with `-Damsulfezd_replay_trace=faulty_replay_trace -Damsulfezd_other_edition=faulty_other_edition` for each fault and
 * expects it to be found.
 */
#include "faulty.h"

uint64_t faulty_replay_trace(const uint8_t *trace, size_t trace_len, uint8_t *answers, size_t answers_len);
uint64_t faulty_other_edition(const uint8_t *header, size_t header_len, uint8_t *out, size_t out_len);

uint64_t faulty_replay_trace(const uint8_t *trace, size_t trace_len, uint8_t *answers, size_t answers_len)
{
    volatile uint8_t *written = answers;
    uint64_t returned = amsulfezd_replay_trace(trace, trace_len, answers, answers_len);
    size_t used = (size_t)amsulfezd_entries(returned) * AMSULFEZD_ANSWER_LENGTH;
    switch (FAULT) {
    case 1:
    case 2:
    case 3:
    case 4:
    case 5:
        touch_outside(FAULT - 1, trace, trace_len, answers, answers_len, used);
        break;
    case 6: /* a byte of an answer is wrong */
        if (used != 0) {
            written[used - 1] ^= 4;
        }
        break;
    case 7: /* one entry more than was answered */
        return returned + 256;
    case 8: /* another ending number */
        return returned ^ 1;
    case 9: /* a refused header writes an answer */
        if (used == 0 && AMSULFEZD_ANSWER_LENGTH <= answers_len) {
            written[0] = 0;
        }
        break;
    }
    return returned;
}

uint64_t faulty_other_edition(const uint8_t *header, size_t header_len, uint8_t *out, size_t out_len)
{
    volatile uint8_t *changed = out;
    uint64_t returned = amsulfezd_other_edition(header, header_len, out, out_len);
    size_t written = (size_t)amsulfezd_written(returned);
    switch (FAULT) {
    case 10:
    case 11:
    case 12:
    case 13:
    case 14:
        touch_outside(FAULT - 10, header, header_len, out, out_len, written);
        break;
    case 15: /* a bit of the header is wrong */
        if (written != 0) {
            changed[written - 1] ^= 0x40;
        }
        break;
    case 16: /* one byte more than was written */
        return written != 0 ? returned + 256 : returned;
    case 17: /* no room is said where the header is refused */
        return amsulfezd_number(returned) != 0 && out_len < 14 ? (unsigned)AMSULFEZD_REFUSAL_NO_ROOM : returned;
    case 18: /* a refused header writes */
        if (written == 0 && out_len != 0) {
            changed[0] = AMSULFEZD_EDITION_2;
        }
        break;
    case 19: /* a header of edition 2 is asked for 16 bytes */
        return header_len == 14 && header[0] == AMSULFEZD_EDITION_2 ? (unsigned)AMSULFEZD_REFUSAL_CUT : returned;
    case 20: /* with bytes behind the header nothing is moved */
        return header_len > 16 ? (unsigned)AMSULFEZD_REFUSAL_CUT : returned;
    }
    return returned;
}
