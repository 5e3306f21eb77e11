/*
 * That the C test of frames can fail: the proved calls with one planted fault, chosen by the number FAULT. hosts.sh builds
 * the test with the two calls named faulty_.. for each fault and expects it to be found.
 */
#include "faulty.h"

uint64_t faulty_read_frame(const uint8_t *frame, size_t frame_len);
uint64_t faulty_write_frame(uint32_t word, uint8_t *frame, size_t frame_len);

uint64_t faulty_read_frame(const uint8_t *frame, size_t frame_len)
{
    volatile const uint8_t *read = frame;
    uint64_t returned = amsulfezd_read_frame(frame, frame_len);
    switch (FAULT) {
    case 1: /* the byte after the frame is read */
        return returned + 0 * read[frame_len];
    case 2: /* the byte before the frame is read */
        return returned + 0 * read[-1];
    case 3: /* the frame is written to */
        if (frame_len != 0) {
            *(volatile uint8_t *)(uintptr_t)frame ^= 1;
        }
        break;
    case 4: /* one byte more is used */
        return returned < 256 ? returned : returned + 256;
    case 5: /* another word */
        return returned < 256 ? returned : returned ^ UINT64_C(1) << 25;
    case 6: /* another number */
        return returned < 256 ? returned ^ 1 : returned;
    case 7: /* a frame cut short by one byte is read */
        return returned == AMSULFEZD_REFUSAL_FRAME_CUT && frame_len == 9 ? 0x828900000a00 : returned;
    case 8: /* bytes after the frame are refused */
        return returned >= 256 && amsulfezd_frame_bytes(returned) < frame_len ? AMSULFEZD_REFUSAL_FRAME_CUT : returned;
    default:
        break;
    }
    return returned;
}

uint64_t faulty_write_frame(uint32_t word, uint8_t *frame, size_t frame_len)
{
    volatile uint8_t *written = frame;
    uint64_t returned = amsulfezd_write_frame(word, frame, frame_len);
    size_t used = amsulfezd_frame_bytes(returned);
    switch (FAULT) {
    case 9:
    case 10:
    case 11:
        touch_outside(FAULT - 9, frame, frame_len, frame, frame_len, used);
        break;
    case 12: /* a byte of the frame is wrong */
        if (used != 0) {
            written[used - 1] ^= 4;
        }
        break;
    case 13: /* what has no room is begun */
        if (returned == AMSULFEZD_REFUSAL_NO_ROOM && frame_len != 0) {
            written[0] = AMSULFEZD_FRAME_SD1;
        }
        break;
    case 14: /* no room is said before a bad word */
        return frame_len == 0 ? AMSULFEZD_REFUSAL_NO_ROOM : returned;
    case 15: /* one byte more than was written */
        return returned < 256 ? returned : returned + 256;
    case 16: /* another request is written */
        return returned == AMSULFEZD_REFUSAL_FUNCTION_CODE ? 6 * 256 : returned;
    default:
        break;
    }
    return returned;
}
