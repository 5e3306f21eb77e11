/*
 * That the C test of captures can fail: the proved calls with one planted fault, chosen by the number FAULT. hosts.sh builds
 * the test with the two calls named faulty_.. for each fault and expects it to be found.
 */
#include "faulty.h"

typedef uint64_t call(const uint8_t *lent, size_t lent_len, uint8_t *buffer, size_t room, uint64_t *place, uint64_t *written);

call faulty_import_capture, faulty_export_capture;

/* The faults that either call can have beside those of faulty.h. */
enum fault {
    BEFORE_LENT = LENT_WRITTEN + 1,
    LAST_BYTE,
    FROM_0,
    PLACE_UNSAID,
    WRITTEN_UNSAID,
    BEHIND_PLACE,
    NUMBER,
    NOTHING_STANDS
};

/* A call with one of the faults that either can have, or with none of them. */
static uint64_t faulty(call *proved, int fault, const uint8_t *lent, size_t lent_len, uint8_t *buffer, size_t room,
                       uint64_t *place, uint64_t *written)
{
    volatile uint8_t *changed = buffer;
    volatile const uint8_t *read = lent;
    uint64_t place_before = *place, written_before = *written;
    uint64_t returned = proved(lent, lent_len, buffer, room, place, written);
    switch (fault) {
    case BEFORE_LENT: /* the byte before what was lent is read */
        return returned + 0 * read[-1];
    case LAST_BYTE: /* the last byte written is wrong */
        if (*written != 0) {
            changed[*written - 1] ^= 1;
        }
        break;
    case FROM_0: /* the line or entry counts from 0 */
        *place -= *place != 0;
        break;
    case PLACE_UNSAID: /* it is written only where something is refused */
        if (returned == AMSULFEZD_OK) {
            *place = place_before;
        }
        break;
    case WRITTEN_UNSAID: /* the bytes written are said only where nothing is refused */
        if (returned != AMSULFEZD_OK) {
            *written = written_before;
        }
        break;
    case BEHIND_PLACE: /* the number behind the line or entry is written */
        ((volatile uint64_t *)place)[1] = 0;
        break;
    case NUMBER: /* another number */
        return returned ^ 1;
    case NOTHING_STANDS: /* on a refusal nothing stands */
        if (returned != AMSULFEZD_OK) {
            *written = 0;
        }
        break;
    default:
        touch_outside(fault, lent, lent_len, buffer, room, (size_t)*written);
        break;
    }
    return returned;
}

uint64_t faulty_import_capture(const uint8_t *text, size_t text_len, uint8_t *entries, size_t entries_len, uint64_t *line,
                               uint64_t *written)
{
    uint64_t returned;
    switch (FAULT) {
    case 1:
    case 2:
    case 3:
    case 4:
    case 5:
    case 6:
    case 7:
    case 8:
    case 9:
    case 10:
    case 11:
    case 12:
    case 13:
        return faulty(amsulfezd_import_capture, FAULT - 1, text, text_len, entries, entries_len, line, written);
    case 14: /* bytes after the frame are not looked at */
        returned = amsulfezd_import_capture(text, text_len, entries, entries_len, line, written);
        return returned == AMSULFEZD_REFUSAL_CAPTURE_LINE && *line == 9 && text_len > 4 && text[text_len - 2] != '\r' &&
                       text[text_len - 4] == '5'
                   ? AMSULFEZD_OK
                   : returned;
    case 15: /* 33 is said after the frame is read */
        returned = amsulfezd_import_capture(text, text_len, entries, entries_len, line, written);
        return returned == AMSULFEZD_REFUSAL_CAPTURE_COUNT && text_len > 3 && text[text_len - 3] == '0'
                   ? AMSULFEZD_REFUSAL_START_BYTE
                   : returned;
    default:
        return amsulfezd_import_capture(text, text_len, entries, entries_len, line, written);
    }
}

uint64_t faulty_export_capture(const uint8_t *entries, size_t entries_len, uint8_t *text, size_t text_len, uint64_t *entry,
                               uint64_t *written)
{
    switch (FAULT) {
    case 16:
    case 17:
    case 18:
    case 19:
    case 20:
    case 21:
    case 22:
    case 23:
    case 24:
    case 25:
    case 26:
    case 27:
    case 28:
        return faulty(amsulfezd_export_capture, FAULT - 16, entries, entries_len, text, text_len, entry, written);
    default:
        return amsulfezd_export_capture(entries, entries_len, text, text_len, entry, written);
    }
}
