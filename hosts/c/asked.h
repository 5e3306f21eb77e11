/*
 * What the tests of the calls share that ask something of a trace's run, such as who was heard: a station's header in both
 * editions, a trace that is cut after each of its bytes, every room, and headers that are refused. Trace and buffer lie each
 * between two pages that may not be touched, flush against the upper or the lower one, and are filled with a pattern: a byte
 * read or written outside ends the program, and a byte inside that should have kept its value is found. A program that includes
 * this includes no header before it.
 */
#ifndef ASKED_H
#define ASKED_H

#include "guarded.h"

/* Station 5 with one application, in both editions; fields.c has the bits of the second. */
#define HEADER 0x05, 0x06, 0x00, 0xc8, 0x00, 0x00, 0x7e, 0xb4, 0x0a, 0x7e, 0x01, 0x0b, 0x01, 0x00, 0x00, 0x00
#define HEADER_2 0x82, 0x0a, 0xc0, 0x19, 0x00, 0x07, 0xeb, 0x41, 0x5f, 0x84, 0x2c, 0x00, 0x00, 0x00

/* The most room that is tried, and the longest trace. */
enum { MOST = 20, LONGEST = 1024 };

/* A call that is tested, and how many bytes it writes. */
typedef uint64_t asks(const uint8_t *trace, size_t trace_len, uint8_t *buffer, size_t room);
struct question {
    asks *call;
    size_t length;
    const char *what; /* what it is asked for, in words, and as a number where there are several */
    size_t number;
};

/* A trace: its bytes, the length of its header, and those of its entries, the byte that says what each is among them. */
struct asked {
    const uint8_t *bytes;
    size_t length;
    size_t header;
    const size_t *entries;
    size_t count;
};

static struct guarded trace_page, buffer_page;

/* Asks with this much room, both buffers at the ends given, and looks at every byte. `bytes` is NULL where none is written. */
static void ask_once(struct question question, const uint8_t *bytes_of_trace, size_t length, size_t room, uint64_t expected,
                     const uint8_t *bytes, bool upper, uint8_t pattern)
{
    const char *what = question.what;
    memset(trace_page.page, pattern, trace_page.size);
    memset(buffer_page.page, pattern, buffer_page.size);
    uint8_t *trace = at_end(trace_page, length, upper);
    uint8_t *buffer = at_end(buffer_page, room, upper);
    memcpy(trace, bytes_of_trace, length);

    uint64_t returned = question.call(trace, length, buffer, room);

    size_t written = bytes == NULL ? 0 : question.length;
    check(returned == expected, "not what it should return", what, question.number);
    check(bytes == NULL || memcmp(buffer, bytes, written) == 0, "not the bytes that it should be", what, question.number);
    check(all_are(buffer + written, room - written, pattern), "a byte past them has changed", what, question.number);
    check(all_are(buffer_page.page, (size_t)(buffer - buffer_page.page), pattern), "a byte below the buffer has changed",
          what, question.number);
    check(all_are(buffer + room, buffer_page.size - (size_t)(buffer - buffer_page.page) - room, pattern),
          "a byte above the buffer has changed", what, question.number);
    check(memcmp(trace, bytes_of_trace, length) == 0, "the trace has changed", what, question.number);
}

/* Asks with both patterns at both ends. */
static void ask(struct question question, const uint8_t *trace, size_t length, size_t room, uint64_t expected,
                const uint8_t *bytes)
{
    for (size_t i = 0; i < 2 * sizeof patterns; i++) {
        ask_once(question, trace, length, room, expected, bytes, i % 2 == 0, patterns[i / 2]);
    }
}

/* The trace whole and cut after each of its bytes: `each` is given the length, the whole entries and the ending number. */
static void cut_trace(struct asked trace, void (*each)(const uint8_t *trace, size_t length, size_t entries, unsigned ending))
{
    size_t end = trace.header, entries = 0;
    for (size_t cut = trace.header; cut <= trace.length; cut++) {
        while (entries < trace.count && end + trace.entries[entries] <= cut) {
            end += trace.entries[entries++];
        }
        each(trace.bytes, cut, entries, cut == end ? (unsigned)AMSULFEZD_OK : (unsigned)AMSULFEZD_REFUSAL_CUT);
    }
    check(entries == trace.count && end == trace.length, "the entries are not the trace's", "length", trace.length);
}

/* Every room from none to more than enough: these bytes, or 18 and nothing. */
static void ask_rooms(struct question question, struct asked trace, const uint8_t *bytes)
{
    for (size_t room = 0; room <= MOST; room++) {
        bool enough = room >= question.length;
        ask(question, trace.bytes, trace.length, room, enough ? 256 * trace.count : (uint64_t)AMSULFEZD_REFUSAL_NO_ROOM,
            enough ? bytes : NULL);
    }
}

/* A header that is cut, or refused with this value at this place: its number, whatever the room, and nothing is written. */
static void ask_refused_header(struct question question, struct asked good, size_t at, uint8_t value, unsigned number)
{
    uint8_t trace[LONGEST];
    memcpy(trace, good.bytes, good.length);
    for (size_t room = 0; room <= MOST; room++) {
        ask(question, trace, good.header - 1, room, AMSULFEZD_REFUSAL_CUT, NULL);
        ask(question, trace, 0, room, AMSULFEZD_REFUSAL_CUT, NULL);
    }
    trace[at] = value;
    for (size_t room = 0; room <= MOST; room++) {
        ask(question, trace, good.length, room, number, NULL);
    }
}

/* The same of the headers of both editions with some of their faults. */
static void ask_refused_headers(struct question question, struct asked first, struct asked second)
{
    ask_refused_header(question, first, 15, 1, AMSULFEZD_REFUSAL_ZERO_BIT);
    ask_refused_header(question, first, 2, 0x7e, AMSULFEZD_REFUSAL_GAP_ROOM);
    ask_refused_header(question, second, 13, 1, AMSULFEZD_REFUSAL_ZERO_BIT);
}

/* To be called first: the pages, and what ends a program that touches others. */
static void prepare(int count, const char *name)
{
    if (count != 1) {
        fprintf(stderr, "%s: usage: %s\n", name, name);
        exit(EXIT_FAILURE);
    }
    catch_touches();
    trace_page = make_guarded();
    buffer_page = make_guarded();
}

#endif
