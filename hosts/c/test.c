/*
 * Tests the proved calls from C. Every buffer lies between two pages that may not be touched, once flush against the upper
 * one and once flush against the lower one, and is filled with a pattern: a byte read or written outside a buffer ends
 * the program, and a byte inside that should have kept its value is found.
 *
 * usage: test
 */
#include "guarded.h"

/* Document 01's example 12 behind its header: online, and polls at 1000, 7399, 7400, 7532 and 7598. */
#define EXAMPLE_12_ENTRIES                             \
    0,                                                 \
    14, 0, 0, 0, 0, 0x03, 0xe8, 0, 0, 0, 0, 0, 0, 0, 0, \
    14, 0, 0, 0, 0, 0x1c, 0xe7, 0, 0, 0, 0, 0, 0, 0, 0, \
    14, 0, 0, 0, 0, 0x1c, 0xe8, 0, 0, 0, 0, 0, 0, 0, 0, \
    14, 0, 0, 0, 0, 0x1d, 0x6c, 0, 0, 0, 0, 0, 0, 0, 0, \
    14, 0, 0, 0, 0, 0x1d, 0xae, 0, 0, 0, 0, 0, 0, 0, 0

/* Its header in both editions; fields.c has the bits of the second. */
#define EXAMPLE_12_HEADER 0x05, 0x06, 0x00, 0xc8, 0x00, 0x00, 0x7e, 0xb4, 0x0a, 0x7e, 0x01, 0x0b, 0x01, 0x00, 0x00, 0x00
#define EXAMPLE_12_HEADER_2 0x82, 0x0a, 0xc0, 0x19, 0x00, 0x07, 0xeb, 0x41, 0x5f, 0x84, 0x2c, 0x00, 0x00, 0x00

static const uint8_t example_12[] = {EXAMPLE_12_HEADER, EXAMPLE_12_ENTRIES};
static const uint8_t example_12_2[] = {EXAMPLE_12_HEADER_2, EXAMPLE_12_ENTRIES};

/* Its answers, as document 01 prints them, with the ending that document 02 gives each line (P5): alone. */
#define ENTRIES 6
static const uint8_t example_12_answers[ENTRIES * AMSULFEZD_ANSWER_LENGTH] = {
    0x00, 0x00, 0x00, 0x00, 0x00, 0x00, 0x01, 0xfc,
    0x03, 0x10, 0x00, 0x00, 0x00, 0x00, 0x01, 0xfc,
    0x03, 0x10, 0x00, 0x00, 0x00, 0x00, 0x01, 0xfc,
    0x02, 0x42, 0x14, 0x00, 0x30, 0x00, 0x01, 0xfc,
    0x02, 0x32, 0x14, 0x00, 0x30, 0x00, 0x01, 0xfc,
    0x02, 0x30, 0x00, 0x00, 0x00, 0x00, 0x01, 0xfc,
};

/* The longest answer buffer that is tried. */
#define LONGEST 64

/* A trace, what it is called, and how it must end with room for every answer. */
struct expected {
    const char *name;
    const uint8_t *trace;
    size_t trace_len;
    const uint8_t *answers;
    uint64_t entries;
    unsigned ending;
};

static struct guarded trace_page, answer_page;

/* Runs a trace with this much room for answers, both buffers at the ends given, and looks at every byte. */
static void run_once(struct expected expected, size_t length, bool trace_upper, bool answers_upper, uint8_t pattern)
{
    memset(trace_page.page, pattern, trace_page.size);
    memset(answer_page.page, pattern, answer_page.size);
    uint8_t *trace = at_end(trace_page, expected.trace_len, trace_upper);
    uint8_t *answers = at_end(answer_page, length, answers_upper);
    memcpy(trace, expected.trace, expected.trace_len);

    uint64_t returned = amsulfezd_replay_trace(trace, expected.trace_len, answers, length);

    uint64_t room = length / AMSULFEZD_ANSWER_LENGTH;
    bool enough = expected.entries <= room;
    uint64_t entries = enough ? expected.entries : room;
    unsigned ending = enough ? expected.ending : (unsigned)AMSULFEZD_REFUSAL_NO_ROOM;
    size_t written = (size_t)entries * AMSULFEZD_ANSWER_LENGTH;
    check(amsulfezd_entries(returned) == entries, "not the entries that should be answered", expected.name, length);
    check(amsulfezd_ending(returned) == ending, "not the ending number that it should be", expected.name, length);
    check(memcmp(answers, expected.answers, written) == 0, "not the answers that it should give", expected.name, length);
    check(all_are(answers + written, length - written, pattern), "a byte of the buffer past the answers has changed",
          expected.name, length);
    check(all_are(answer_page.page, (size_t)(answers - answer_page.page), pattern),
          "a byte below the buffer has changed", expected.name, length);
    check(all_are(answers + length, answer_page.size - (size_t)(answers - answer_page.page) - length, pattern),
          "a byte above the buffer has changed", expected.name, length);
    check(memcmp(trace, expected.trace, expected.trace_len) == 0, "the trace has changed", expected.name, length);
}

/* Runs a trace with every length of buffer, at both ends, with both patterns. */
static void run_all(struct expected expected)
{
    for (size_t length = 0; length <= LONGEST; length++) {
        for (size_t i = 0; i < sizeof patterns; i++) {
            run_once(expected, length, true, true, patterns[i]);
            run_once(expected, length, true, false, patterns[i]);
            run_once(expected, length, false, true, patterns[i]);
            run_once(expected, length, false, false, patterns[i]);
        }
    }
}

/* Example 12 in an edition, whole and cut after each of its bytes. */
static void test_example_12(struct expected whole, size_t header)
{
    run_all(whole);
    for (size_t length = 0; length < whole.trace_len; length++) {
        struct expected cut = whole;
        cut.name = "example 12 cut short";
        cut.trace_len = length;
        /* Online has 1 byte, each poll 15. */
        size_t polls = length <= header ? 0 : (length - header - 1) / 15;
        cut.entries = length <= header ? 0 : 1 + polls;
        bool between = length == header || (length > header && (length - header - 1) % 15 == 0);
        cut.ending = between ? AMSULFEZD_OK : AMSULFEZD_REFUSAL_CUT;
        for (size_t i = 0; i < sizeof patterns; i++) {
            run_once(cut, LONGEST, true, true, patterns[i]);
            run_once(cut, LONGEST, false, false, patterns[i]);
        }
    }
}

/* A header with one bad byte. */
struct fault {
    size_t at;
    uint8_t value;
    unsigned ending;
};

/* Faults of example 12's header in edition 1. */
static const struct fault faults[] = {
    {0, 126, AMSULFEZD_REFUSAL_ADDRESS},     {1, 11, AMSULFEZD_REFUSAL_BAUD},
    {3, 199, AMSULFEZD_REFUSAL_SLOT},        {9, 5, AMSULFEZD_REFUSAL_HSA},
    {9, 127, AMSULFEZD_REFUSAL_HSA},         {4, 1, AMSULFEZD_REFUSAL_ROTATION},
    /* rotation 180: 4 comes before 25; slots 32,456 and 65,480 with rotation 32,436, the second above 16 bits */
    {6, 0, AMSULFEZD_REFUSAL_ROTATION},      {2, 0x7e, AMSULFEZD_REFUSAL_GAP_ROOM},
    {2, 0xff, AMSULFEZD_REFUSAL_GAP_ROOM},
    {8, 0, AMSULFEZD_REFUSAL_GAP_WAIT},      {8, 101, AMSULFEZD_REFUSAL_GAP_WAIT},
    {10, 0, AMSULFEZD_REFUSAL_RETRY},        {10, 16, AMSULFEZD_REFUSAL_RETRY},
    {11, 10, AMSULFEZD_REFUSAL_MIN_TSDR},    {12, 0, AMSULFEZD_REFUSAL_APPLICATIONS},
    {12, 9, AMSULFEZD_REFUSAL_APPLICATIONS}, {13, 1, AMSULFEZD_REFUSAL_WATCHDOG},
    {14, 1, AMSULFEZD_REFUSAL_WATCHDOG},     {15, 1, AMSULFEZD_REFUSAL_ZERO_BIT},
};

/* Faults of example 12's header in edition 2: the byte holds the bad field, or a part of it. */
static const struct fault faults_2[] = {
    {1, 0xfc, AMSULFEZD_REFUSAL_ADDRESS},   /* 1111110 0: address 126 */
    {1, 0xfe, AMSULFEZD_REFUSAL_ADDRESS},   /* 1111111 0: address 127 */
    {1, 0x0b, AMSULFEZD_REFUSAL_BAUD},      /* 0000101 1, 110: baud code 14 */
    {3, 0x18, AMSULFEZD_REFUSAL_SLOT},      /* 00000, 00011000, 000: slot 192 */
    {8, 0x40, AMSULFEZD_REFUSAL_HSA},       /* 010 00000, 10: HSA 2 */
    {9, 0xc4, AMSULFEZD_REFUSAL_HSA},       /* 11111, 11 0001 00: HSA 127 */
    {4, 0x1f, AMSULFEZD_REFUSAL_ROTATION},  /* 000 11111, ..: rotation above 32,505,856 */
    {2, 0xdf, AMSULFEZD_REFUSAL_GAP_ROOM},  /* 110 11111, 00011001, 000: slot 63,688 with rotation 32,436 */
    {7, 0x4f, AMSULFEZD_REFUSAL_GAP_WAIT},  /* 0100 1111, 010: gap wait 122 */
    {9, 0x80, AMSULFEZD_REFUSAL_RETRY},     /* 10 0000 00: retry 0 */
    {10, 0x28, AMSULFEZD_REFUSAL_MIN_TSDR}, /* 00, 001010 00: min Tsdr 10 */
    {12, 0x80, AMSULFEZD_REFUSAL_WATCHDOG}, /* 1 0000000: factors 1 and 0 */
    {13, 0x80, AMSULFEZD_REFUSAL_WATCHDOG}, /* 1 0000000: factors 0 and 1 */
    {13, 0x01, AMSULFEZD_REFUSAL_ZERO_BIT}, /* 0 0000001: the last bit */
    {13, 0x40, AMSULFEZD_REFUSAL_ZERO_BIT}, /* 0 1000000: the first of the last seven */
    {0, 0x83, AMSULFEZD_REFUSAL_ADDRESS},   /* an address of edition 1, above 125 */
};

#define FAULTS (sizeof faults / sizeof faults[0])
#define FAULTS_2 (sizeof faults_2 / sizeof faults_2[0])

/* A header with a fault is refused by its number, whatever the room, and nothing is written. */
static void test_refused_headers(const uint8_t *good, size_t length, const struct fault *list, size_t count)
{
    for (size_t i = 0; i < count; i++) {
        uint8_t trace[sizeof example_12];
        memcpy(trace, good, length);
        trace[list[i].at] = list[i].value;
        struct expected refused = {"a refused header", trace, length, example_12_answers, 0, list[i].ending};
        run_all(refused);
    }
}

/* ---- The call that moves a header -------------------------------------------------------------------------------- */

/* The most bytes that are lent to it, to read and to write. */
#define MOST 20

/* A header with bytes behind it, its own length, the same header in the other edition, and its refusal. */
struct moved {
    const char *name;
    uint8_t header[MOST];
    size_t length;
    uint8_t other[AMSULFEZD_HEADER_LENGTH];
    size_t other_length;
    unsigned refusal;
};

/* Headers in both editions; fields.c has the bits of the second. The bytes behind them mean nothing. */
#define LIMITS 0x7d, 0x0a, 0x03, 0xe8, 0x01, 0x00, 0x02, 0xe8, 0x64, 0x7e, 0x0f, 0xff, 0x08, 0xff, 0xff, 0x00
#define LIMITS_2 0x82, 0xfb, 0x40, 0x7d, 0x10, 0x00, 0x2e, 0x8c, 0x9f, 0xbf, 0xff, 0xff, 0xff, 0x80
#define UNLIKE 0x02, 0x00, 0xff, 0xff, 0x00, 0x01, 0x00, 0x64, 0x01, 0x03, 0x05, 0x3c, 0x04, 0x04, 0xfa, 0x00
#define UNLIKE_2 0x82, 0x04, 0x1f, 0xff, 0xe0, 0x10, 0x06, 0x40, 0x20, 0xd4, 0xf1, 0x82, 0x7d, 0x00
#define BEHIND 0x82, 0xff, 0x00, 0x7f
#define BEHIND_2 0x00, 0xff, 0x82, 0x7f, 0x01, 0x02

static const struct moved headers[] = {
    {"example 12", {EXAMPLE_12_HEADER, BEHIND}, 16, {EXAMPLE_12_HEADER_2}, 14, AMSULFEZD_OK},
    {"example 12, edition 2", {EXAMPLE_12_HEADER_2, BEHIND_2}, 14, {EXAMPLE_12_HEADER}, 16, AMSULFEZD_OK},
    {"the limits", {LIMITS, BEHIND}, 16, {LIMITS_2}, 14, AMSULFEZD_OK},
    {"the limits, edition 2", {LIMITS_2, BEHIND_2}, 14, {LIMITS}, 16, AMSULFEZD_OK},
    {"no two fields alike", {UNLIKE, BEHIND}, 16, {UNLIKE_2}, 14, AMSULFEZD_OK},
    {"no two fields alike, edition 2", {UNLIKE_2, BEHIND_2}, 14, {UNLIKE}, 16, AMSULFEZD_OK},
};

#define HEADERS (sizeof headers / sizeof headers[0])

/* Moves the first bytes of a header with this much room, both buffers at the ends given, and looks at every byte. */
static void move_once(const struct moved *moved, size_t length, size_t room, bool header_upper, bool out_upper,
                      uint8_t pattern)
{
    memset(trace_page.page, pattern, trace_page.size);
    memset(answer_page.page, pattern, answer_page.size);
    uint8_t *header = at_end(trace_page, length, header_upper);
    uint8_t *out = at_end(answer_page, room, out_upper);
    memcpy(header, moved->header, length);

    uint64_t returned = amsulfezd_other_edition(header, length, out, room);

    unsigned number = length < moved->length               ? (unsigned)AMSULFEZD_REFUSAL_CUT
                      : moved->refusal != AMSULFEZD_OK     ? moved->refusal
                      : room < moved->other_length         ? (unsigned)AMSULFEZD_REFUSAL_NO_ROOM
                                                           : (unsigned)AMSULFEZD_OK;
    size_t written = number == AMSULFEZD_OK ? moved->other_length : 0;
    check(amsulfezd_number(returned) == number, "not the refusal number that it should be", moved->name, room);
    check(amsulfezd_written(returned) == written, "not the bytes that should be written", moved->name, room);
    check(memcmp(out, moved->other, written) == 0, "not the header that it should be", moved->name, room);
    check(all_are(out + written, room - written, pattern), "a byte of the buffer past the header has changed",
          moved->name, room);
    check(all_are(answer_page.page, (size_t)(out - answer_page.page), pattern), "a byte below the buffer has changed",
          moved->name, room);
    check(all_are(out + room, answer_page.size - (size_t)(out - answer_page.page) - room, pattern),
          "a byte above the buffer has changed", moved->name, room);
    check(memcmp(header, moved->header, length) == 0, "the header that was lent has changed", moved->name, length);
}

/* Moves the first bytes of a header with every room, at both ends, with both patterns. */
static void move_all(const struct moved *moved, size_t length)
{
    for (size_t room = 0; room <= MOST; room++) {
        for (size_t i = 0; i < sizeof patterns; i++) {
            move_once(moved, length, room, true, true, patterns[i]);
            move_once(moved, length, room, true, false, patterns[i]);
            move_once(moved, length, room, false, true, patterns[i]);
            move_once(moved, length, room, false, false, patterns[i]);
        }
    }
}

/* Headers that move, of every length from none to some bytes behind them. */
static void test_moves(void)
{
    for (size_t i = 0; i < HEADERS; i++) {
        for (size_t length = 0; length <= MOST; length++) {
            move_all(&headers[i], length);
        }
    }
}

/* Headers with a fault: 17 where they are cut, else their number, whatever the room. */
static void test_refused_moves(const struct moved *good, const struct fault *list, size_t count)
{
    for (size_t i = 0; i < count; i++) {
        struct moved refused = *good;
        refused.name = "a refused header that is moved";
        refused.header[list[i].at] = list[i].value;
        refused.length = refused.header[0] == AMSULFEZD_EDITION_2 ? 14 : 16;
        refused.refusal = list[i].ending;
        move_all(&refused, 13);
        move_all(&refused, 14);
        move_all(&refused, 15);
        move_all(&refused, 16);
        move_all(&refused, MOST);
    }
}

int main(int count, char **words)
{
    (void)words;
    if (count != 1) {
        fputs("test: usage: test\n", stderr);
        return EXIT_FAILURE;
    }
    catch_touches();
    trace_page = make_guarded();
    answer_page = make_guarded();
    struct expected first = {"example 12", example_12, sizeof example_12, example_12_answers, ENTRIES, AMSULFEZD_OK};
    struct expected second = {"example 12, edition 2", example_12_2, sizeof example_12_2, example_12_answers, ENTRIES,
                              AMSULFEZD_OK};
    test_example_12(first, AMSULFEZD_HEADER_LENGTH);
    test_example_12(second, AMSULFEZD_HEADER_LENGTH_2);
    test_refused_headers(example_12, sizeof example_12, faults, FAULTS);
    test_refused_headers(example_12_2, sizeof example_12_2, faults_2, FAULTS_2);
    test_moves();
    test_refused_moves(&headers[0], faults, FAULTS);
    test_refused_moves(&headers[1], faults_2, FAULTS_2);
    printf("C host: %lu checks hold, each buffer between two guard pages, no byte outside the answers changed\n", checks);
    return EXIT_SUCCESS;
}
