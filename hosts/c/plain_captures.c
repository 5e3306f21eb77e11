/*
 * An importer and an exporter of captures in plain C, from document 02, P13, as an engineer would write them. They stand beside
 * the proved calls in two places: speed_captures.sh runs both, and the tests of the comparison and of the C host run on them
 * where the proved library is not wanted. Nothing else uses them.
 *
 * Without PLAIN_MEASURED the two calls have the library's names, so that they can be linked in its place. With it they are
 * named plain_.. and this is a program that imports a file and exports it again by the library and by them, five times in
 * turn, and prints the middle of the speeds of each beside that of a search for the line feeds.
 *
 * usage: plain_captures FILE
 */
#ifdef PLAIN_MEASURED
#define _POSIX_C_SOURCE 199309L
#define IMPORT plain_import_capture
#define EXPORT plain_export_capture
#else
#define IMPORT amsulfezd_import_capture
#define EXPORT amsulfezd_export_capture
#endif
#include "amsulfezd.h"

#include <string.h>

/* The longest frame that P1 reads, and one byte more, by which what is longer is known. */
enum { MOST_BYTES = AMSULFEZD_FRAME_READ_LENGTH + 1 };

/* The value of a hex digit, or 16. */
static unsigned digit(uint8_t byte)
{
    if (byte >= '0' && byte <= '9') {
        return (unsigned)byte - '0';
    }
    byte |= 0x20;
    return byte >= 'a' && byte <= 'f' ? (unsigned)byte - 'a' + 10 : 16;
}

/* A line's parts: its time, the first bytes of its frame, how many bytes that has, and where the next line begins. */
struct line {
    uint64_t time;
    uint8_t frame[MOST_BYTES];
    size_t bytes;
    size_t next;
};

/* Takes apart the line that begins here; 0 if it is not built as it should be. */
static int take_apart(const uint8_t *text, size_t text_len, size_t at, struct line *line)
{
    size_t begins = at;
    uint64_t time = 0;
    for (; at < text_len && text[at] >= '0' && text[at] <= '9'; at++) {
        time = 10 * time + (text[at] - (uint64_t)'0');
        if (time >> 48 != 0) {
            return 0;
        }
    }
    if (at == begins || (text[begins] == '0' && at - begins > 1) || at == text_len || text[at] != ' ') {
        return 0;
    }
    line->time = time;
    line->bytes = 0;
    for (at++; at + 1 < text_len; at += 2) {
        unsigned high = digit(text[at]), low;
        if (high > 15) {
            break;
        }
        low = digit(text[at + 1]);
        if (low > 15) {
            return 0;
        }
        if (line->bytes < MOST_BYTES) {
            line->frame[line->bytes] = (uint8_t)(high << 4 | low);
        }
        line->bytes++;
    }
    line->next = at + 1;
    return line->bytes != 0 && at < text_len && text[at] == '\n';
}

uint64_t IMPORT(const uint8_t *text, size_t text_len, uint8_t *entries, size_t entries_len, uint64_t *line, uint64_t *written);

uint64_t IMPORT(const uint8_t *text, size_t text_len, uint8_t *entries, size_t entries_len, uint64_t *line, uint64_t *written)
{
    size_t at = 0, used = 0, entry = 0;
    uint64_t number = 0, refusal = AMSULFEZD_OK, before = 0;
    unsigned count = 0;
    while (at < text_len) {
        struct line one;
        uint64_t read;
        number++;
        if (!take_apart(text, text_len, at, &one)) {
            refusal = AMSULFEZD_REFUSAL_CAPTURE_LINE;
            break;
        }
        if (count != 0 && one.time < before) {
            refusal = AMSULFEZD_REFUSAL_CAPTURE_TIME;
            break;
        }
        if (one.time != before) {
            count = 0;
        }
        if (count == AMSULFEZD_CAPTURE_TELEGRAMS) {
            refusal = AMSULFEZD_REFUSAL_CAPTURE_COUNT;
            break;
        }
        read = amsulfezd_read_frame(one.frame, one.bytes < MOST_BYTES ? one.bytes : MOST_BYTES);
        if (amsulfezd_number(read) != AMSULFEZD_OK) {
            refusal = amsulfezd_number(read);
            break;
        }
        if (amsulfezd_frame_bytes(read) < one.bytes) {
            refusal = AMSULFEZD_REFUSAL_CAPTURE_LINE;
            break;
        }
        if (entries_len - used < (count == 0 ? AMSULFEZD_CAPTURE_ENTRY : AMSULFEZD_CAPTURE_ADDED)) {
            refusal = AMSULFEZD_REFUSAL_NO_ROOM;
            break;
        }
        if (count == 0) {
            entry = used;
            before = one.time;
            amsulfezd_store(entries + used + 1, 8, one.time << 16);
            memset(entries + used + 9, 0, 6);
            used += AMSULFEZD_CAPTURE_ENTRY - AMSULFEZD_CAPTURE_ADDED;
        }
        amsulfezd_store(entries + used, AMSULFEZD_CAPTURE_ADDED, amsulfezd_frame_word(read));
        used += AMSULFEZD_CAPTURE_ADDED;
        count++;
        entries[entry] = (uint8_t)(used - entry - 1);
        entries[entry + 7] = (uint8_t)(count << 3);
        at = one.next;
    }
    *line = refusal == AMSULFEZD_OK ? 0 : number;
    *written = used;
    return refusal;
}

/* The bytes of a number, most significant first. */
static uint64_t load(const uint8_t *bytes, size_t count)
{
    uint64_t number = 0;
    size_t i;
    for (i = 0; i < count; i++) {
        number = number << 8 | bytes[i];
    }
    return number;
}

/* Whether a decision is refused, and how. */
static unsigned decision_refusal(uint64_t word)
{
    int sends = word >> 23 & 1, replies = word >> 22 & 1;
    if ((word & 127) != 0 || (!sends && word != 0) || (!replies && (word >> 15 & 127) != 0)) {
        return AMSULFEZD_REFUSAL_ZERO_BIT;
    }
    return sends && (word >> 7 & 255) == 0 ? AMSULFEZD_REFUSAL_NO_BYTES : AMSULFEZD_OK;
}

/* Whether a record for one application is refused, and how. */
static unsigned record_refusal(const uint8_t *record, size_t length)
{
    size_t count, i;
    unsigned refusal;
    if (length < 8) {
        return AMSULFEZD_REFUSAL_RECORD_LENGTH;
    }
    count = record[6] >> 3 & 15;
    if (count > 8) {
        return AMSULFEZD_REFUSAL_TELEGRAM_COUNT;
    }
    if (length != 14 + 4 * count) {
        return AMSULFEZD_REFUSAL_RECORD_LENGTH;
    }
    for (i = 8; i < 14; i += 3) {
        refusal = decision_refusal(load(record + i, 3));
        if (refusal != AMSULFEZD_OK) {
            return refusal;
        }
    }
    for (i = 14; i < length; i += 4) {
        uint8_t frame[AMSULFEZD_FRAME_WRITTEN_LENGTH];
        refusal = amsulfezd_number(amsulfezd_write_frame((uint32_t)load(record + i, 4), frame, sizeof frame));
        if (refusal == AMSULFEZD_REFUSAL_ZERO_BIT) {
            return refusal;
        }
    }
    return AMSULFEZD_OK;
}

/* Writes the line of a word at this time to a place with room for the longest; gives its length, or 0 for a word that has none. */
static size_t write_line(uint8_t *to, uint64_t time, uint32_t word)
{
    static const char digits[] = "0123456789abcdef";
    uint8_t frame[AMSULFEZD_FRAME_WRITTEN_LENGTH], decimal[20];
    uint64_t returned = amsulfezd_write_frame(word, frame, sizeof frame);
    size_t count = 0, length = 0, i;
    if (amsulfezd_number(returned) != AMSULFEZD_OK) {
        return 0;
    }
    do {
        decimal[count++] = (uint8_t)('0' + time % 10);
        time /= 10;
    } while (time != 0);
    while (count != 0) {
        to[length++] = decimal[--count];
    }
    to[length++] = ' ';
    for (i = 0; i < amsulfezd_frame_bytes(returned); i++) {
        to[length++] = (uint8_t)digits[frame[i] >> 4];
        to[length++] = (uint8_t)digits[frame[i] & 15];
    }
    to[length++] = '\n';
    return length;
}

uint64_t EXPORT(const uint8_t *entries, size_t entries_len, uint8_t *text, size_t text_len, uint64_t *entry, uint64_t *written);

uint64_t EXPORT(const uint8_t *entries, size_t entries_len, uint8_t *text, size_t text_len, uint64_t *entry, uint64_t *written)
{
    size_t at = 0, used = 0, i;
    uint64_t number = 0;
    unsigned refusal = AMSULFEZD_OK;
    while (at < entries_len && refusal == AMSULFEZD_OK) {
        const uint8_t *record = entries + at + 1;
        size_t length = entries[at] < 3 ? 0 : entries[at];
        number++;
        if (entries_len - at - 1 < length) {
            refusal = AMSULFEZD_REFUSAL_CUT;
            break;
        }
        at += 1 + length;
        if (length == 0) {
            continue;
        }
        refusal = record_refusal(record, length);
        for (i = 14; refusal == AMSULFEZD_OK && i < length; i += 4) {
            uint8_t line[AMSULFEZD_CAPTURE_LINE_LENGTH];
            size_t bytes = write_line(line, load(record, 6), (uint32_t)load(record + i, 4));
            if (text_len - used < bytes) {
                refusal = AMSULFEZD_REFUSAL_NO_ROOM;
            } else {
                memcpy(text + used, line, bytes);
                used += bytes;
            }
        }
    }
    *entry = refusal == AMSULFEZD_OK ? 0 : number;
    *written = used;
    return refusal;
}

#ifdef PLAIN_MEASURED
#include <stdio.h>
#include <stdlib.h>
#include <time.h>

enum { RUNS = 5 };

static void fail(const char *why)
{
    fprintf(stderr, "plain_captures: %s\n", why);
    exit(EXIT_FAILURE);
}

static uint8_t *take(size_t size)
{
    uint8_t *bytes = (uint8_t *)malloc(size + 1);
    if (bytes == NULL) {
        fail("there is not enough memory");
    }
    return bytes;
}

static double now(void)
{
    struct timespec time;
    if (clock_gettime(CLOCK_MONOTONIC, &time) != 0) {
        fail("there is no clock");
    }
    return (double)time.tv_sec + (double)time.tv_nsec / 1e9;
}

static int compare(const void *left, const void *right)
{
    double difference = *(const double *)left - *(const double *)right;
    return difference < 0 ? -1 : difference > 0;
}

/* The middle of the speeds, and how far they lie apart. */
static void say(const char *what, double *seconds, size_t bytes, uint64_t lines)
{
    double middle;
    qsort(seconds, RUNS, sizeof *seconds, compare);
    middle = seconds[RUNS / 2];
    printf("%-24s %7.0f MB/s, %11.0f lines/s, runs apart by %.0f %%\n", what, (double)bytes / 1e6 / middle,
           (double)lines / middle, 100 * (seconds[RUNS - 1] - seconds[0]) / middle);
}

typedef uint64_t call(const uint8_t *lent, size_t length, uint8_t *buffer, size_t room, uint64_t *place, uint64_t *written);

static double timed(call *which, const uint8_t *lent, size_t length, uint8_t *buffer, size_t room, uint64_t *written)
{
    uint64_t place;
    double begun = now();
    if (which(lent, length, buffer, room, &place, written) != AMSULFEZD_OK) {
        fail("the file is refused");
    }
    return now() - begun;
}

int main(int count, char **words)
{
    static double search[RUNS], imports[2][RUNS], exports[2][RUNS];
    FILE *file = count == 2 ? fopen(words[1], "rb") : NULL;
    long size;
    size_t length, room;
    uint64_t lines = 0, written[2], back[2];
    uint8_t *text, *entries[2], *again[2];
    int run, which;
    if (file == NULL || fseek(file, 0, SEEK_END) != 0 || (size = ftell(file)) < 0 || fseek(file, 0, SEEK_SET) != 0) {
        fail("usage: plain_captures FILE");
    }
    length = (size_t)size;
    text = take(length);
    if (fread(text, 1, length, file) != length) {
        fail("the file cannot be read whole");
    }
    fclose(file);
    for (run = 0; run < RUNS; run++) {
        const uint8_t *at = text;
        double begun = now();
        lines = 0;
        while ((at = (const uint8_t *)memchr(at, '\n', (size_t)(text + length - at))) != NULL) {
            at++;
            lines++;
        }
        search[run] = now() - begun;
    }
    room = AMSULFEZD_CAPTURE_ENTRY * (size_t)lines;
    for (which = 0; which < 2; which++) {
        /* every page is there before it is measured */
        entries[which] = (uint8_t *)memset(take(room), 0, room);
        again[which] = (uint8_t *)memset(take(length), 0, length);
    }
    for (run = 0; run < RUNS; run++) {
        call *const importers[] = {amsulfezd_import_capture, plain_import_capture};
        call *const exporters[] = {amsulfezd_export_capture, plain_export_capture};
        for (which = 0; which < 2; which++) {
            imports[which][run] = timed(importers[which], text, length, entries[which], room, &written[which]);
        }
        for (which = 0; which < 2; which++) {
            exports[which][run] = timed(exporters[which], entries[which], written[which], again[which], length, &back[which]);
        }
    }
    if (written[0] != written[1] || memcmp(entries[0], entries[1], written[0]) != 0 || back[0] != back[1] ||
        memcmp(again[0], again[1], back[0]) != 0) {
        fail("the two do not leave the same");
    }
    printf("a text of %zu bytes, %llu lines: %llu bytes of entries, %llu bytes of text again\n", length,
           (unsigned long long)lines, (unsigned long long)written[0], (unsigned long long)back[0]);
    say("line feeds by memchr", search, length, lines);
    say("import, proved", imports[0], length, lines);
    say("import, plain C", imports[1], length, lines);
    say("export, proved", exports[0], back[0], lines);
    say("export, plain C", exports[1], back[1], lines);
    return EXIT_SUCCESS;
}
#endif
