/*
 * Makes the proved calls, for the comparison on machines that run the library but cannot link it: reads calls from standard
 * input and writes what each left to standard output, in the form that oracle/src/comparison/program.rs states, until its
 * input ends.
 */
#include "amsulfezd.h"

#include <stdio.h>
#include <stdlib.h>
#include <string.h>

/* So many bytes before and after each buffer are watched. */
#define AROUND 64

/* Ends the program with one line that says why. */
static void fail(const char *why)
{
    fprintf(stderr, "answer_traces: %s\n", why);
    exit(EXIT_FAILURE);
}

/* Memory of this length between watched bytes of this value. */
static uint8_t *guarded(size_t length, uint8_t value)
{
    uint8_t *start = malloc(length + 2 * AROUND);
    if (start == NULL) {
        fail("no memory");
    }
    memset(start, value, length + 2 * AROUND);
    return start + AROUND;
}

/* Whether the bytes around are as they were. */
static int kept(const uint8_t *bytes, size_t length, uint8_t value)
{
    for (size_t i = 0; i < AROUND; i++) {
        if (bytes[-(ptrdiff_t)i - 1] != value || bytes[length + i] != value) {
            return 0;
        }
    }
    return 1;
}

static void read_all(uint8_t *bytes, size_t length)
{
    if (fread(bytes, 1, length, stdin) != length) {
        fail("the input ends inside a call");
    }
}

static uint64_t number_of(const uint8_t *bytes)
{
    uint64_t number = 0;
    for (int i = 0; i < 8; i++) {
        number = 256 * number + bytes[i];
    }
    return number;
}

/* So many bytes behind a station and a table, in the slices that are lent, are watched. */
#define BEHIND 8

/* A station and a table of who was heard, each with bytes behind it. */
static uint8_t station[AMSULFEZD_STATION_LENGTH + BEHIND], table[AMSULFEZD_HEARD_TABLE_LENGTH + BEHIND];

/* Takes the station one entry further, with the table or without. What is refused, and a command, leave the table. */
static uint64_t step(const uint8_t *entry, size_t length, uint8_t *answer, size_t room, int with_table)
{
    static uint8_t before[sizeof table];
    if (!with_table) {
        return amsulfezd_step_station(station, sizeof station, entry, length, answer, room);
    }
    memcpy(before, table, sizeof table);
    uint64_t stepped = amsulfezd_step_heard(station, sizeof station, entry, length, answer, room, table, sizeof table);
    int polled = amsulfezd_number(stepped) == AMSULFEZD_OK && entry[0] > AMSULFEZD_COMMAND_PASSIVE &&
                 amsulfezd_answer_refusal(amsulfezd_answer(answer)) == AMSULFEZD_OK;
    size_t kept_from = polled ? AMSULFEZD_HEARD_TABLE_LENGTH : 0;
    if (memcmp(table + kept_from, before + kept_from, sizeof table - kept_from) != 0) {
        fail("what is refused, or a command, changes the table, or a byte behind it");
    }
    return stepped;
}

/* Steps a trace one entry at a time, as oracle/src/comparison/steps.rs says. */
static uint64_t step_trace(const uint8_t *trace, size_t length, uint8_t *answers, size_t room, int with_table)
{
    uint8_t before[sizeof station];
    memset(station, 0x69, sizeof station);
    memcpy(before, station, sizeof station);
    uint64_t opened = amsulfezd_open_station(trace, length, station, sizeof station);
    if (amsulfezd_number(opened) != AMSULFEZD_OK) {
        if (memcmp(station, before, sizeof station) != 0) {
            fail("a refused header writes");
        }
        return opened;
    }
    if (amsulfezd_written(opened) != AMSULFEZD_STATION_LENGTH) {
        fail("not the bytes of a station");
    }
    size_t at = amsulfezd_header_length(trace, length), answered = 0;
    while (at < length) {
        uint8_t *answer = answers + AMSULFEZD_ANSWER_LENGTH * answered;
        memcpy(before, station, AMSULFEZD_STATION_LENGTH);
        uint64_t stepped =
            step(trace + at, length - at, answer, room - AMSULFEZD_ANSWER_LENGTH * answered, with_table);
        unsigned number = amsulfezd_number(stepped);
        unsigned refused = number == AMSULFEZD_OK ? amsulfezd_answer_refusal(amsulfezd_answer(answer)) : number;
        if (memcmp(station, before, refused == AMSULFEZD_OK ? 0 : AMSULFEZD_STATION_LENGTH) != 0 ||
            memcmp(station + AMSULFEZD_STATION_LENGTH, before + AMSULFEZD_STATION_LENGTH, BEHIND) != 0) {
            fail("what is refused changes the station, or a byte behind it");
        }
        if (number != AMSULFEZD_OK) {
            return 256 * answered + stepped;
        }
        at += amsulfezd_stepped(stepped);
        answered++;
    }
    return 256 * answered;
}

/* What the calls on the station and the table refuse, in their order, and that they then write nothing. */
static void refuses(void)
{
    uint8_t before[sizeof station], room[AMSULFEZD_HEARD_LENGTH], untouched[sizeof room], online[1] = {0};
    static uint8_t known[sizeof table];
    memset(room, 0x69, sizeof room);
    memcpy(untouched, room, sizeof room);
    memcpy(before, station, sizeof station);
    memcpy(known, table, sizeof table);
    const size_t short_station = AMSULFEZD_STATION_LENGTH - 1, short_table = AMSULFEZD_HEARD_TABLE_LENGTH - 1;
    const uint64_t numbers[] = {
        amsulfezd_station_counts(station, short_station, room, 0),
        amsulfezd_station_counts(station, sizeof station, room, AMSULFEZD_COUNTS_LENGTH - 1),
        amsulfezd_table_heard(table, sizeof table, AMSULFEZD_LAST_ADDRESS + 1, room, 0),
        amsulfezd_table_heard(table, sizeof table, AMSULFEZD_LAST_ADDRESS, room, AMSULFEZD_HEARD_LENGTH - 1),
        amsulfezd_step_heard(station, short_station, online, 0, room, 0, table, 0),
        amsulfezd_step_heard(station, sizeof station, online, 0, room, 0, table, 0),
        amsulfezd_step_heard(station, sizeof station, online, 1, room, AMSULFEZD_ANSWER_LENGTH, table, short_table),
        amsulfezd_step_heard(station, sizeof station, online, 1, room, AMSULFEZD_ANSWER_LENGTH - 1, table, sizeof table),
    };
    static const uint64_t expected[] = {36, 18, 26, 18, 36, 17, 18, 18};
    if (memcmp(numbers, expected, sizeof expected) != 0) {
        fail("not what the calls should refuse");
    }
    if (memcmp(station, before, sizeof station) != 0 || memcmp(table, known, sizeof table) != 0 ||
        memcmp(room, untouched, sizeof room) != 0) {
        fail("what is refused writes");
    }
}

/* Steps a trace with a table and says the counts and who was heard, as oracle/src/comparison/beside.rs says. */
static uint64_t step_heard_trace(const uint8_t *trace, size_t length, uint8_t *left, size_t room)
{
    const size_t said = AMSULFEZD_COUNTS_LENGTH + AMSULFEZD_HEARD_TABLE_LENGTH;
    if (room < said) {
        fail("no room for what is said at the end");
    }
    memset(table, 0, AMSULFEZD_HEARD_TABLE_LENGTH);
    memset(table + AMSULFEZD_HEARD_TABLE_LENGTH, 0x69, BEHIND);
    uint64_t returned = step_trace(trace, length, left + said, room - said, 1);
    if (station[0] == 0x69) {
        return returned; /* no station was made of the header */
    }
    if (amsulfezd_station_counts(station, sizeof station, left, AMSULFEZD_COUNTS_LENGTH) != AMSULFEZD_OK) {
        fail("no counts of a station");
    }
    for (uint8_t address = 0; address <= AMSULFEZD_LAST_ADDRESS; address++) {
        uint8_t *entry = left + AMSULFEZD_COUNTS_LENGTH + AMSULFEZD_HEARD_LENGTH * address;
        if (amsulfezd_table_heard(table, sizeof table, address, entry, AMSULFEZD_HEARD_LENGTH) != AMSULFEZD_OK) {
            fail("a table does not say of an address");
        }
    }
    refuses();
    return returned;
}

/* Makes the call with this number, which the comparison gives it. */
static uint64_t make(uint8_t which, uint8_t address, const uint8_t *lent, size_t length, uint8_t *buffer, size_t room)
{
    switch (which) {
    case 0:
        return amsulfezd_replay_trace(lent, length, buffer, room);
    case 1:
        return amsulfezd_other_edition(lent, length, buffer, room);
    case 2:
        return amsulfezd_trace_heard(lent, length, address, buffer, room);
    case 3:
        return amsulfezd_trace_counts(lent, length, buffer, room);
    case 4:
        return step_trace(lent, length, buffer, room, 0);
    case 5:
        return step_heard_trace(lent, length, buffer, room);
    default:
        fail("there is no such call");
        return 0;
    }
}

int main(void)
{
    for (;;) {
        uint8_t head[18]; /* which call, the address, the two lengths, and later the number and whether all else was kept */
        size_t count = fread(head, 1, 18, stdin);
        if (count == 0 && feof(stdin)) {
            return EXIT_SUCCESS;
        }
        if (count != 18) {
            fail("the input ends inside a call");
        }
        size_t length = number_of(head + 2), room = number_of(head + 10);
        uint8_t *lent = guarded(length, 0x3c), *buffer = guarded(room, 0xc3);
        read_all(lent, length);
        read_all(buffer, room);
        uint8_t *given = guarded(length, 0);
        memcpy(given, lent, length);

        uint64_t returned = make(head[0], head[1], lent, length, buffer, room);

        int others = kept(lent, length, 0x3c) && kept(buffer, room, 0xc3);
        for (int i = 0; i < 8; i++) {
            head[i] = (uint8_t)(returned >> (56 - 8 * i));
        }
        head[8] = others && memcmp(given, lent, length) == 0;
        if (fwrite(head, 1, 9, stdout) != 9 || fwrite(buffer, 1, room, stdout) != room || fflush(stdout) != 0) {
            fail("standard output cannot be written");
        }
        free(given - AROUND);
        free(buffer - AROUND);
        free(lent - AROUND);
    }
}
