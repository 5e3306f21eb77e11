/*
 * What the tests of the calls share: buffers between two pages that may not be touched, a pattern that fills them, and
 * checks that end the program. A program that includes this includes no header before it.
 */
#ifndef GUARDED_H
#define GUARDED_H

#define _DEFAULT_SOURCE
#include "amsulfezd.h"

#include <signal.h>
#include <stdbool.h>
#include <stdio.h>
#include <stdlib.h>
#include <string.h>
#include <sys/mman.h>
#include <unistd.h>

/* Each run is done with both patterns, so that no answer byte can pass for an untouched one. */
static const uint8_t patterns[] = {0xa5, 0x5a};

static unsigned long checks;

/* Ends the program if something that should hold does not. */
static void check(bool holds, const char *what, const char *where, size_t length)
{
    checks++;
    if (!holds) {
        fprintf(stderr, "test: %s (%s, length %zu)\n", what, where, length);
        exit(EXIT_FAILURE);
    }
}

/* A guard page was touched: one line, then the end. */
static void touched(int signal_number)
{
    static const char words[] = "test: a byte outside a buffer was read or written\n";
    (void)signal_number;
    if (write(STDERR_FILENO, words, sizeof words - 1) < 0) {
        _exit(2);
    }
    _exit(EXIT_FAILURE);
}

/* A page between two pages that may not be touched. */
struct guarded {
    uint8_t *page;
    size_t size;
};

static struct guarded make_guarded(void)
{
    size_t size = (size_t)sysconf(_SC_PAGESIZE);
    uint8_t *pages = mmap(NULL, 3 * size, PROT_NONE, MAP_PRIVATE | MAP_ANONYMOUS, -1, 0);
    check(pages != MAP_FAILED, "three pages of memory cannot be had", "mmap", 3 * size);
    check(mprotect(pages + size, size, PROT_READ | PROT_WRITE) == 0, "a page cannot be opened", "mprotect", size);
    struct guarded guarded = {pages + size, size};
    return guarded;
}

/* The buffer of this length at one end of the page: flush against the upper or the lower guard page. */
static uint8_t *at_end(struct guarded guarded, size_t length, bool upper)
{
    return upper ? guarded.page + guarded.size - length : guarded.page;
}

/* Whether all these bytes are the pattern: the first is, and each other is like the one before it. */
static bool all_are(const uint8_t *bytes, size_t length, uint8_t pattern)
{
    return length == 0 || (bytes[0] == pattern && memcmp(bytes, bytes + 1, length - 1) == 0);
}

/* A touched guard page ends the program with one line. */
static void catch_touches(void)
{
    struct sigaction action;
    memset(&action, 0, sizeof action);
    action.sa_handler = touched;
    check(sigaction(SIGSEGV, &action, NULL) == 0, "a signal cannot be caught", "SIGSEGV", 0);
    check(sigaction(SIGBUS, &action, NULL) == 0, "a signal cannot be caught", "SIGBUS", 0);
}

#endif
