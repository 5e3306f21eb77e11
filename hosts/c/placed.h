/*
 * What the tests of the calls on a station share: a station's header, slices that lie at one end of a page between two that may
 * not be touched, and what is looked at around them. A program that includes this includes no header before it.
 */
#ifndef PLACED_H
#define PLACED_H

#include "guarded.h"

enum { LENGTH = AMSULFEZD_STATION_LENGTH, ANSWER = AMSULFEZD_ANSWER_LENGTH, MORE = 3 };

/* Station 5 with one application, in both editions; fields.c has the bits of the second. */
#define HEADER 0x05, 0x06, 0x00, 0xc8, 0x00, 0x00, 0x7e, 0xb4, 0x0a, 0x7e, 0x01, 0x0b, 0x01, 0x00, 0x00, 0x00
#define HEADER_2 0x82, 0x0a, 0xc0, 0x19, 0x00, 0x07, 0xeb, 0x41, 0x5f, 0x84, 0x2c, 0x00, 0x00, 0x00

/* A slice: so many bytes of it are given, and it is so long. */
struct slice {
    const uint8_t *bytes;
    size_t count;
    size_t length;
};

/* How many of the given bytes are in the slice. */
static inline size_t given_in(struct slice slice)
{
    return slice.count < slice.length ? slice.count : slice.length;
}

/* A slice at one end of a page that is filled with the pattern, with the given bytes at its start. */
static inline uint8_t *placed(struct guarded page, struct slice slice, bool upper, uint8_t pattern)
{
    memset(page.page, pattern, page.size);
    uint8_t *at = at_end(page, slice.length, upper);
    if (given_in(slice) != 0) {
        memcpy(at, slice.bytes, given_in(slice));
    }
    return at;
}

/* So much room, with nothing given. */
static inline struct slice room_of(size_t length)
{
    struct slice slice = {NULL, 0, length};
    return slice;
}

/* Whether all of the page but the slice's first bytes is the pattern. */
static inline bool kept_around(struct guarded page, const uint8_t *at, size_t count, uint8_t pattern)
{
    size_t below = (size_t)(at - page.page);
    return all_are(page.page, below, pattern) && all_are(at + count, page.size - below - count, pattern);
}

/* Whether a slice that was placed so has not changed, and nothing around it. */
static inline bool kept(struct guarded page, const uint8_t *at, struct slice slice, uint8_t pattern)
{
    size_t have = given_in(slice);
    return (have == 0 || memcmp(at, slice.bytes, have) == 0) && kept_around(page, at, have, pattern);
}

/* How long the entry at the start of these bytes is; they may be fewer. */
static inline size_t entry_length(const uint8_t *bytes)
{
    return bytes[0] <= AMSULFEZD_COMMAND_PASSIVE ? 1 : (size_t)bytes[0] + 1;
}

/* A poll at 1,000 us that hears a token from 9 to 9, and a record of 3 bytes, which is refused with 12. */
#define POLL 18, 0, 0, 0, 0, 0x03, 0xe8, 0x08, 3, 0, 0, 0, 0, 0, 0, 0x04, 0x89, 0, 0
#define SHORT_RECORD 3, 0, 0, 0

#endif
