/*
 * Makes the proved calls on frames, on captures and on a simulated bus, for the comparison on machines that run the library
 * but cannot link it: reads calls from standard input and writes what each left to standard output, in the form that
 * oracle/src/comparison/calls_program.rs states, until its input ends. What is lent, each buffer and each number ends where a
 * page begins that may not be touched: a byte read or written behind it ends the program.
 */
#define _DEFAULT_SOURCE
#include "amsulfezd.h"

#include <stdio.h>
#include <stdlib.h>
#include <string.h>
#include <sys/mman.h>
#include <unistd.h>

/* So many bytes before each slice are watched, and so many a slice may have. */
enum { BELOW = 16, LONGEST = 1 << 23 };

/* The bytes of a call before what is lent, and those of what it left before the buffer. */
enum { ASKED = 13, SAID = 25 };

/* Ends the program with one line that says why. */
static void fail(const char *why)
{
    fprintf(stderr, "answer_calls: %s\n", why);
    exit(EXIT_FAILURE);
}

/* The end of some pages, before one that may not be touched. */
static uint8_t *guarded(size_t size, size_t page)
{
    uint8_t *pages = mmap(NULL, size + page, PROT_READ | PROT_WRITE, MAP_PRIVATE | MAP_ANONYMOUS, -1, 0);
    if (pages == MAP_FAILED || mprotect(pages + size, page, PROT_NONE) != 0) {
        fail("no memory");
    }
    return pages + size;
}

/* The ends of the pages for what is lent, the buffer, and the two numbers. */
static uint8_t *ends[4];

static uint64_t number_of(const uint8_t *bytes, int count)
{
    uint64_t number = 0;
    for (int i = 0; i < count; i++) {
        number = 256 * number + bytes[i];
    }
    return number;
}

/* Puts bytes before the end of the pages, and a pattern before them. */
static uint8_t *place(uint8_t *end, const uint8_t *bytes, size_t length)
{
    memset(end - length - BELOW, 0x3c, BELOW);
    memcpy(end - length, bytes, length);
    return end - length;
}

/* Whether the pattern before these bytes is still there. */
static int kept_below(const uint8_t *bytes)
{
    int kept = 1;
    for (ptrdiff_t i = 1; i <= BELOW; i++) {
        kept = kept && bytes[-i] == 0x3c;
    }
    return kept;
}

/* Makes the call that stands here, and writes what it left. */
static size_t make(const uint8_t *call, uint8_t *left)
{
    size_t lent_len = number_of(call + 5, 4), buffer_len = number_of(call + 9, 4);
    uint8_t *lent = place(ends[0], call + ASKED, lent_len);
    uint8_t *buffer = place(ends[1], call + ASKED + lent_len, buffer_len);
    uint64_t numbers[] = {0, UINT64_C(0xa5a5a5a5a5a5a5a5), UINT64_C(0x5a5a5a5a5a5a5a5a)};
    uint64_t *at = (uint64_t *)(void *)place(ends[2], (uint8_t *)&numbers[1], sizeof numbers[1]);
    uint64_t *written = (uint64_t *)(void *)place(ends[3], (uint8_t *)&numbers[2], sizeof numbers[2]);
    switch (call[0]) {
    case 0:
        numbers[0] = amsulfezd_read_frame(lent, lent_len);
        break;
    case 1:
        numbers[0] = amsulfezd_write_frame((uint32_t)number_of(call + 1, 4), buffer, buffer_len);
        break;
    case 2:
        numbers[0] = amsulfezd_import_capture(lent, lent_len, buffer, buffer_len, at, written);
        break;
    case 3:
        numbers[0] = amsulfezd_export_capture(lent, lent_len, buffer, buffer_len, at, written);
        break;
    case 4:
        numbers[0] = amsulfezd_simulate(lent, lent_len, buffer, buffer_len);
        break;
    case 5:
        numbers[0] = amsulfezd_simulated_trace(lent, lent_len, (uint8_t)number_of(call + 1, 4), buffer, buffer_len);
        break;
    default:
        fail("there is no such call");
    }
    /* the calls on captures alone are lent numbers */
    int captures = call[0] == 2 || call[0] == 3;
    numbers[1] = captures ? *at : 0;
    numbers[2] = captures ? *written : 0;
    for (int i = 0; i < 24; i++) {
        left[i] = (uint8_t)(numbers[i / 8] >> (56 - 8 * (i % 8)));
    }
    left[24] = (uint8_t)(memcmp(lent, call + ASKED, lent_len) == 0 && kept_below(lent) && kept_below(buffer) &&
                         kept_below((uint8_t *)at) && kept_below((uint8_t *)written));
    memcpy(left + SAID, buffer, buffer_len);
    return SAID + buffer_len;
}

int main(void)
{
    size_t page = (size_t)sysconf(_SC_PAGESIZE);
    for (size_t i = 0; i < sizeof ends / sizeof ends[0]; i++) {
        ends[i] = guarded((BELOW + LONGEST + page) / page * page, page);
    }
    for (;;) {
        uint8_t head[8];
        size_t count = fread(head, 1, 8, stdin);
        if (count == 0 && feof(stdin)) {
            return EXIT_SUCCESS;
        }
        if (count != 8) {
            fail("the input ends inside calls");
        }
        size_t calls = number_of(head, 4), length = number_of(head + 4, 4);
        /* what a call left has twelve bytes more than the call, and at most its buffer */
        uint8_t *asked = malloc(length + 1), *said = malloc(length + 12 * calls + 1);
        if (asked == NULL || said == NULL) {
            fail("no memory");
        }
        if (fread(asked, 1, length, stdin) != length) {
            fail("the input ends inside calls");
        }
        size_t at = 0, written = 0;
        for (size_t i = 0; i < calls; i++) {
            uint64_t lent, buffer;
            if (length - at < ASKED) {
                fail("a call is longer than all of them");
            }
            lent = number_of(asked + at + 5, 4);
            buffer = number_of(asked + at + 9, 4);
            if (lent > LONGEST || buffer > LONGEST || length - at - ASKED < lent + buffer) {
                fail("a call is longer than all of them, or than there is room for");
            }
            written += make(asked + at, said + written);
            at += ASKED + lent + buffer;
        }
        if (fwrite(said, 1, written, stdout) != written || fflush(stdout) != 0) {
            fail("standard output cannot be written");
        }
        free(said);
        free(asked);
    }
}
