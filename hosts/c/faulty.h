/*
 * What the planted faults of the calls share: those that any call can have which is lent bytes to read and a buffer to write.
 * The number FAULT chooses a fault. hosts.sh builds a test with its calls named faulty_.. for each number and expects it to be
 * found; how many there are it counts by the lines `case` of the file that includes this.
 */
#ifndef FAULTY_H
#define FAULTY_H

#include "amsulfezd.h"

/* The faults, from 0. */
enum outside { PAST_WRITTEN, AFTER_BUFFER, BEFORE_BUFFER, AFTER_LENT, LENT_WRITTEN };

/* Reads or writes where a call must not, after a call that has written so many bytes. Any other number does nothing. */
static inline void touch_outside(int fault, const uint8_t *lent, size_t lent_len, uint8_t *buffer, size_t room, size_t written)
{
    volatile uint8_t *changed = buffer;
    switch (fault) {
    case PAST_WRITTEN: /* a byte past what was written, inside the buffer */
        if (written < room) {
            changed[written] ^= 1;
        }
        break;
    case AFTER_BUFFER: /* the byte after the buffer */
        changed[room] ^= 1;
        break;
    case BEFORE_BUFFER: /* the byte before the buffer */
        changed[-1] ^= 1;
        break;
    case AFTER_LENT: /* the byte after what was lent is read */
        (void)*(volatile const uint8_t *)(lent + lent_len);
        break;
    case LENT_WRITTEN: /* what was lent is written to */
        if (lent_len != 0) {
            *(volatile uint8_t *)(uintptr_t)lent ^= 1;
        }
        break;
    default:
        break;
    }
}

/* Whether a call that asks of a trace's run has written: nothing was refused, but for a trace that ends inside an entry. */
static inline int has_run(uint64_t returned, const uint8_t *trace, size_t trace_len)
{
    unsigned ending = amsulfezd_ending(returned);
    return ending == AMSULFEZD_OK ||
           (ending == AMSULFEZD_REFUSAL_CUT && trace_len >= amsulfezd_header_length(trace, trace_len));
}

/* The faults of what such a call returns, from 0. */
enum returned { ENTRY_MORE, NO_ENDING, CUT_REFUSED, ROOM_FIRST };

/* What it returns otherwise, where it has run or not, with too little room or enough. */
static inline uint64_t otherwise(int fault, uint64_t returned, int run, int small)
{
    unsigned ending = amsulfezd_ending(returned);
    switch (fault) {
    case ENTRY_MORE: /* one entry more */
        return run ? returned + 256 : returned;
    case NO_ENDING: /* the ending number is left out */
        return run ? returned - ending : returned;
    case CUT_REFUSED: /* a trace that ends inside an entry is refused */
        return run && ending == AMSULFEZD_REFUSAL_CUT ? ending : returned;
    case ROOM_FIRST: /* no room is said before all else */
        return small ? (unsigned)AMSULFEZD_REFUSAL_NO_ROOM : returned;
    default:
        return returned;
    }
}

#endif
