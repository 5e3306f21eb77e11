/*
 * A reader and a writer of frames in plain C, from document 02, P1, as an engineer would write them. They stand beside the
 * proved calls in two places: measure_frames.sh counts the instructions of both readers, and the tests of the comparison
 * and of the C host run on them where the proved library is not wanted. Nothing else uses them.
 *
 * Without PLAIN_MEASURED the two calls have the library's names, so that they can be linked in its place. With it this is
 * a program: it reads frames from standard input, each preceded by a byte with its length, and prints how many there were
 * and the sum of what the reader returned.
 */
#include "amsulfezd.h"

/* The end byte's place, and the last refusals of document 02's order: check byte, end byte, extension bit, function code. */
static uint64_t checked(const uint8_t *frame, size_t frame_len, size_t before, size_t body, unsigned *code)
{
    size_t used = before + body + 2, i;
    unsigned sum = 0;
    if (frame_len < used) {
        return AMSULFEZD_REFUSAL_FRAME_CUT;
    }
    for (i = before; i < before + body; i++) {
        sum += frame[i];
    }
    if (frame[used - 2] != (sum & 0xff)) {
        return AMSULFEZD_REFUSAL_CHECK_BYTE;
    }
    if (frame[used - 1] != AMSULFEZD_FRAME_END) {
        return AMSULFEZD_REFUSAL_END_BYTE;
    }
    if ((frame[before] | frame[before + 1]) & 0x80) {
        return AMSULFEZD_REFUSAL_ADDRESS_EXTENSION;
    }
    if (frame[before + 2] & 0x80) {
        return AMSULFEZD_REFUSAL_FUNCTION_CODE;
    }
    *code = frame[before + 2];
    return (uint64_t)used << 8;
}

static uint64_t addressed(unsigned kind, const uint8_t *addresses)
{
    return (uint64_t)kind << 30 | (uint64_t)addresses[0] << 23 | (uint64_t)addresses[1] << 16;
}

uint64_t amsulfezd_read_frame(const uint8_t *frame, size_t frame_len)
{
    size_t before = 1, body;
    unsigned code = 0;
    uint64_t used, word;
    if (frame_len == 0) {
        return AMSULFEZD_REFUSAL_FRAME_CUT;
    }
    switch (frame[0]) {
    case AMSULFEZD_FRAME_SC:
        return (uint64_t)AMSULFEZD_TELEGRAM_SHORT_CONFIRMATION << 46 | 1 << 8;
    case AMSULFEZD_FRAME_SD4:
        if (frame_len < 3) {
            return AMSULFEZD_REFUSAL_FRAME_CUT;
        }
        if ((frame[1] | frame[2]) & 0x80) {
            return AMSULFEZD_REFUSAL_ADDRESS_EXTENSION;
        }
        return addressed(AMSULFEZD_TELEGRAM_TOKEN, frame + 1) << 16 | 3 << 8;
    case AMSULFEZD_FRAME_SD1:
        body = 3;
        break;
    case AMSULFEZD_FRAME_SD3:
        body = 11;
        break;
    case AMSULFEZD_FRAME_SD2:
        if (frame_len < 4) {
            return AMSULFEZD_REFUSAL_FRAME_CUT;
        }
        if (frame[2] != frame[1] || frame[3] != AMSULFEZD_FRAME_SD2 || frame[1] < 4 || frame[1] > 249) {
            return AMSULFEZD_REFUSAL_FRAME_HEADER;
        }
        before = 4;
        body = frame[1];
        break;
    default:
        return AMSULFEZD_REFUSAL_START_BYTE;
    }
    used = checked(frame, frame_len, before, body, &code);
    if (used < 256) {
        return used;
    }
    if (code & 0x40) {
        word = addressed(AMSULFEZD_TELEGRAM_REQUEST, frame + before);
        if (frame[0] == AMSULFEZD_FRAME_SD1 && code == AMSULFEZD_FRAME_STATUS_REQUEST) {
            word |= 1 << 15;
        }
    } else {
        word = addressed(AMSULFEZD_TELEGRAM_RESPONSE, frame + before) | (uint64_t)code << 9;
    }
    return word << 16 | used;
}

uint64_t amsulfezd_write_frame(uint32_t word, uint8_t *frame, size_t frame_len)
{
    /* the bits that each kind leaves zero */
    static const uint32_t zero[] = {0x0000ffff, 0x3fffffff, 0x00007fff, 0x000081ff};
    unsigned kind = word >> 30;
    uint8_t bytes[6];
    size_t length = 6, i;
    if (word & zero[kind]) {
        return AMSULFEZD_REFUSAL_ZERO_BIT;
    }
    bytes[0] = AMSULFEZD_FRAME_SD1;
    bytes[1] = (uint8_t)(word >> 23 & 0x7f);
    bytes[2] = (uint8_t)(word >> 16 & 0x7f);
    bytes[3] = (uint8_t)(word >> 9 & 0x3f);
    if (kind == AMSULFEZD_TELEGRAM_TOKEN) {
        bytes[0] = AMSULFEZD_FRAME_SD4;
        length = 3;
    } else if (kind == AMSULFEZD_TELEGRAM_SHORT_CONFIRMATION) {
        bytes[0] = AMSULFEZD_FRAME_SC;
        length = 1;
    } else if (kind == AMSULFEZD_TELEGRAM_REQUEST) {
        if (!(word & 0x8000)) {
            return AMSULFEZD_REFUSAL_FUNCTION_CODE;
        }
        bytes[3] = AMSULFEZD_FRAME_STATUS_REQUEST;
    }
    bytes[4] = (uint8_t)(bytes[1] + bytes[2] + bytes[3]);
    bytes[5] = AMSULFEZD_FRAME_END;
    if (frame_len < length) {
        return AMSULFEZD_REFUSAL_NO_ROOM;
    }
    for (i = 0; i < length; i++) {
        frame[i] = bytes[i];
    }
    return (uint64_t)length << 8;
}

#ifdef PLAIN_MEASURED
#include <inttypes.h>
#include <stdio.h>

/* As many bytes of its input the program reads. */
enum { LARGEST = 4096 };

int main(void)
{
    static uint8_t input[LARGEST];
    size_t length = fread(input, 1, sizeof input, stdin), at = 0;
    uint64_t frames = 0, sum = 0;
    while (at < length && input[at] <= length - at - 1) {
        sum += amsulfezd_read_frame(input + at + 1, input[at]);
        frames++;
        at += 1 + (size_t)input[at];
    }
    printf("%" PRIu64 " %" PRIu64 "\n", frames, sum);
    return 0;
}
#endif
