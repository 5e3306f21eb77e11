/*
 * Tests the proved calls on frames from C, against bytes that are stated here by hand, from document 02, P1. Every frame
 * and every buffer lies between two pages that may not be touched, once flush against the upper one and once flush
 * against the lower one, and is filled with a pattern: a byte read or written outside ends the program, and a byte inside
 * that should have kept its value is found.
 *
 * usage: test_frames
 */
#include "guarded.h"

/* A frame with its word; `written`: the writer writes the word as this frame. */
struct stated {
    const char *name;
    size_t length;
    uint32_t word;
    bool written;
    uint8_t bytes[AMSULFEZD_FRAME_READ_LENGTH];
};

static struct stated frames[] = {
    {"a token from 9 to 9", 3, 0x04890000, true, {0xdc, 9, 9}},
    {"a token from 126 to 127", 3, 0x3ffe0000, true, {0xdc, 0x7f, 0x7e}},
    {"a short confirmation", 1, 0x40000000, true, {0xe5}},
    {"a status request from 9 to 5", 6, 0x82898000, true, {0x10, 5, 9, 0x49, 0x57, 0x16}},
    {"a response from 20 to 5", 6, 0xc2941000, true, {0x10, 5, 20, 0x08, 0x21, 0x16}},
    {"a response from 126 to 127", 6, 0xfffe7e00, true, {0x10, 0x7f, 0x7e, 0x3f, 0x3c, 0x16}},
    {"another request without data", 6, 0x82890000, false, {0x10, 5, 9, 0x59, 0x67, 0x16}},
    {"a request with 8 bytes and 49h", 14, 0x82890000, false, {0xa2, 5, 9, 0x49, 1, 1, 1, 1, 1, 1, 1, 1, 0x5f, 0x16}},
    {"the shortest request with SD2 and 49h", 10, 0x82890000, false, {0x68, 4, 4, 0x68, 5, 9, 0x49, 0, 0x57, 0x16}},
    {"a response with two bytes", 11, 0xc2941000, false, {0x68, 5, 5, 0x68, 5, 20, 8, 0x12, 0x34, 0x67, 0x16}},
    /* its data are 246 bytes of 01: 01 + 02 + 03 + f6 = fc */
    {"the longest response", 255, 0xc0820600, false, {0x68, 249, 249, 0x68, 1, 2, 3}},
};
enum { FRAMES = sizeof frames / sizeof frames[0] };

static void finish_longest(void)
{
    uint8_t *bytes = frames[FRAMES - 1].bytes;
    memset(bytes + 7, 1, 246);
    bytes[253] = 0xfc;
    bytes[254] = 0x16;
}

/* A frame that is refused, and its number. */
struct refused {
    unsigned number;
    size_t length;
    uint8_t bytes[14];
};

static const struct refused refusals[] = {
    {20, 1, {0x00}},
    {20, 1, {0x16}},
    {20, 3, {0x69, 4, 4}},
    {19, 1, {0x68}},
    {19, 2, {0x68, 3}},
    {19, 3, {0x68, 4, 5}},
    {21, 4, {0x68, 3, 3, 0x68}},
    {21, 4, {0x68, 250, 250, 0x68}},
    {21, 4, {0x68, 4, 5, 0x68}},
    {21, 4, {0x68, 4, 4, 0x16}},
    {19, 4, {0x68, 249, 249, 0x68}},
    {22, 10, {0x68, 4, 4, 0x68, 5, 9, 0x49, 0, 0x58, 0x17}},
    {23, 10, {0x68, 4, 4, 0x68, 5, 9, 0x49, 0, 0x57, 0x17}},
    {24, 10, {0x68, 4, 4, 0x68, 5, 0x89, 0x49, 0, 0xd7, 0x16}},
    {34, 10, {0x68, 4, 4, 0x68, 5, 9, 0xc9, 0, 0xd7, 0x16}},
    {22, 6, {0x10, 5, 9, 0x49, 0x58, 0x17}},
    {22, 6, {0x10, 5, 9, 0x49, 0x67, 0x16}},
    {23, 6, {0x10, 5, 9, 0x49, 0x57, 0x00}},
    {23, 6, {0x10, 0x85, 9, 0x49, 0xd7, 0x17}},
    {24, 6, {0x10, 0x85, 9, 0x49, 0xd7, 0x16}},
    {24, 6, {0x10, 0x85, 9, 0xc9, 0x57, 0x16}},
    {34, 6, {0x10, 5, 9, 0xc9, 0xd7, 0x16}},
    {22, 14, {0xa2, 5, 9, 0x49, 1, 1, 1, 1, 1, 1, 1, 1, 0x60, 0x16}},
    {23, 14, {0xa2, 5, 9, 0x49, 1, 1, 1, 1, 1, 1, 1, 1, 0x5f, 0x5f}},
    {24, 3, {0xdc, 0x80, 0}},
    {24, 3, {0xdc, 0, 0x80}},
};

/* A word that is not written, and its number: whatever the room. */
static const struct {
    uint32_t word;
    unsigned number;
} bad_words[] = {
    {0x04890001, 14}, {0x04890100, 14}, {0x04898000, 14}, {0x04892000, 14}, {0x04890200, 14},
    {0x40800000, 14}, {0x40010000, 14}, {0x40008000, 14}, {0x8289a000, 14}, {0x82890001, 14},
    {0x82890200, 14}, {0xc2949000, 14}, {0xc2941001, 14}, {0x82890000, 34}, {0xbfff0000, 34},
};

/* The lengths of slices that are tried: 0 to 20, and those around the longest frame. */
static const size_t others[] = {254, 255, 256};
enum { SMALL = 21, LENGTHS = SMALL + sizeof others / sizeof others[0] };

static size_t length_at(size_t i)
{
    return i < SMALL ? i : others[i - SMALL];
}

static struct guarded page;

/* Fills the page and gives the slice of this length at one end of it. */
static uint8_t *slice(size_t length, bool upper, uint8_t pattern)
{
    memset(page.page, pattern, page.size);
    return at_end(page, length, upper);
}

/* Reads these bytes with the slice at both ends, and looks at what is returned and at every byte of the page. */
static void reads(const uint8_t *bytes, size_t length, uint64_t expected, const char *name)
{
    for (size_t i = 0; i < 2 * sizeof patterns; i++) {
        uint8_t pattern = patterns[i / 2];
        uint8_t *frame = slice(length, i % 2 == 0, pattern);
        memcpy(frame, bytes, length);
        uint64_t returned = amsulfezd_read_frame(frame, length);
        check(returned == expected, "not what reading should return", name, length);
        check(memcmp(frame, bytes, length) == 0, "the frame has changed", name, length);
        check(all_are(page.page, (size_t)(frame - page.page), pattern), "a byte below the frame has changed", name, length);
        check(all_are(frame + length, page.size - (size_t)(frame - page.page) - length, pattern),
              "a byte above the frame has changed", name, length);
    }
}

/* Each frame in slices of every length: cut short it is 19; what follows it is not looked at. */
static void test_reading(void)
{
    for (size_t i = 0; i < FRAMES; i++) {
        for (size_t k = 0; k < LENGTHS; k++) {
            size_t length = length_at(k), used = frames[i].length;
            uint8_t bytes[AMSULFEZD_FRAME_READ_LENGTH + 1];
            for (size_t j = 0; j < sizeof bytes; j++) {
                bytes[j] = j < used ? frames[i].bytes[j] : (uint8_t)(3 * j);
            }
            uint64_t read = (uint64_t)frames[i].word << 16 | (uint64_t)used << 8;
            reads(bytes, length, length < used ? AMSULFEZD_REFUSAL_FRAME_CUT : read, frames[i].name);
        }
    }
    for (size_t i = 0; i < sizeof refusals / sizeof refusals[0]; i++) {
        reads(refusals[i].bytes, refusals[i].length, refusals[i].number, "a refused frame");
    }
}

/* Writes a word with this much room; `count` bytes of `bytes` are expected, and all else as it was. */
static void writes(uint32_t word, size_t room, uint64_t expected, const uint8_t *bytes, size_t count, const char *name)
{
    for (size_t i = 0; i < 2 * sizeof patterns; i++) {
        uint8_t pattern = patterns[i / 2];
        uint8_t *frame = slice(room, i % 2 == 0, pattern);
        uint64_t returned = amsulfezd_write_frame(word, frame, room);
        check(returned == expected, "not what writing should return", name, room);
        check(memcmp(frame, bytes, count) == 0, "not the frame that it should write", name, room);
        check(all_are(frame + count, room - count, pattern), "a byte past the frame has changed", name, room);
        check(all_are(page.page, (size_t)(frame - page.page), pattern), "a byte below the buffer has changed", name, room);
        check(all_are(frame + room, page.size - (size_t)(frame - page.page) - room, pattern),
              "a byte above the buffer has changed", name, room);
    }
}

/* Each word with every room: the frame if there is room for it, and else nothing. */
static void test_writing(void)
{
    for (size_t k = 0; k < LENGTHS; k++) {
        size_t room = length_at(k);
        for (size_t i = 0; i < FRAMES; i++) {
            size_t length = frames[i].length;
            if (!frames[i].written) {
                continue;
            }
            if (room < length) {
                writes(frames[i].word, room, AMSULFEZD_REFUSAL_NO_ROOM, frames[i].bytes, 0, frames[i].name);
            } else {
                writes(frames[i].word, room, (uint64_t)length << 8, frames[i].bytes, length, frames[i].name);
            }
        }
        for (size_t i = 0; i < sizeof bad_words / sizeof bad_words[0]; i++) {
            writes(bad_words[i].word, room, bad_words[i].number, frames[0].bytes, 0, "a word that is not written");
        }
    }
}

int main(int count, char **words)
{
    (void)words;
    if (count != 1) {
        fputs("test_frames: usage: test_frames\n", stderr);
        return EXIT_FAILURE;
    }
    catch_touches();
    page = make_guarded();
    finish_longest();
    test_reading();
    test_writing();
    printf("C host: %lu checks of the calls on frames hold, each between two guard pages\n", checks);
    return EXIT_SUCCESS;
}
