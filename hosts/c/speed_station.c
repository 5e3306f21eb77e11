/*
 * Measures a step of a station in the caller's memory, its bytes read and written, beside the same poll in a trace: nanoseconds of
 * this process's own time, the least of some runs, so that other work on the machine shows as little as it can. The ring has so many
 * others, next above our address or next below it.
 *
 * With words it only steps, for scripts/measure_station.sh to count the instructions.
 *
 * usage: speed_station [OTHERS above|below STEPS]
 */
#define _POSIX_C_SOURCE 200809L
#include "amsulfezd.h"

#include <stdio.h>
#include <stdlib.h>
#include <string.h>
#include <time.h>

enum { OWN = 60, ADDRESSES = 126, POLLS = 5000, RUNS = 40 };

/* Where a station has its ring's members: docs/FORMAT.md, section 14. */
enum { MEMBERS = 80 };

static void fail(const char *why)
{
    fprintf(stderr, "speed_station: %s\n", why);
    exit(EXIT_FAILURE);
}

/* The time that this process has had, in nanoseconds. */
static double now(void)
{
    struct timespec time;
    if (clock_gettime(CLOCK_PROCESS_CPUTIME_ID, &time) != 0) {
        fail("there is no clock");
    }
    return (double)time.tv_sec * 1e9 + (double)time.tv_nsec;
}

/* A station that is put online, with so many others in its ring. */
static void begin(const uint8_t *header, int others, int below, uint8_t *station)
{
    uint8_t answer[AMSULFEZD_ANSWER_LENGTH], online[1] = {AMSULFEZD_COMMAND_ONLINE};
    amsulfezd_open_station(header, AMSULFEZD_HEADER_LENGTH, station, AMSULFEZD_STATION_LENGTH);
    for (int i = 1; i <= others; i++) {
        int address = (below ? OWN + ADDRESSES - i : OWN + i) % ADDRESSES;
        station[MEMBERS + address / 8] |= (uint8_t)(128 >> address % 8);
    }
    if (amsulfezd_step_station(station, AMSULFEZD_STATION_LENGTH, online, 1, answer, sizeof answer) != 256) {
        fail("the station is refused");
    }
}

/* Steps it by the same poll again and again; it listens all the time. */
static void repeat(uint8_t *station, const uint8_t *entry, size_t length, int steps)
{
    uint8_t answer[AMSULFEZD_ANSWER_LENGTH] = {0};
    for (int i = 0; i < steps; i++) {
        amsulfezd_step_station(station, AMSULFEZD_STATION_LENGTH, entry, length, answer, sizeof answer);
    }
    if (amsulfezd_answer_state(amsulfezd_answer(answer)) != AMSULFEZD_STATE_LISTEN_TOKEN) {
        fail("the station does not listen");
    }
}

/* A step of a station that listens, with so many others in its ring, in nanoseconds. */
static double step(const uint8_t *header, const uint8_t *entry, size_t length, int others, int below)
{
    uint8_t station[AMSULFEZD_STATION_LENGTH];
    double least = 1e18;
    begin(header, others, below, station);
    for (int run = 0; run < RUNS; run++) {
        double begun = now();
        repeat(station, entry, length, POLLS);
        double taken = (now() - begun) / POLLS;
        least = taken < least ? taken : least;
    }
    return least;
}

/* The same poll in a trace. */
static double replay(const uint8_t *header, const uint8_t *entry, size_t length)
{
    static uint8_t trace[AMSULFEZD_HEADER_LENGTH + 1 + POLLS * AMSULFEZD_ENTRY_LENGTH], answers[8 * (POLLS + 1)];
    size_t at = AMSULFEZD_HEADER_LENGTH;
    double least = 1e18;
    memcpy(trace, header, AMSULFEZD_HEADER_LENGTH);
    trace[at++] = AMSULFEZD_COMMAND_ONLINE;
    for (int i = 0; i < POLLS; i++, at += length) {
        memcpy(trace + at, entry, length);
    }
    for (int run = 0; run < RUNS; run++) {
        double begun = now();
        if (amsulfezd_replay_trace(trace, at, answers, sizeof answers) != 256 * (POLLS + 1)) {
            fail("the trace is refused");
        }
        double taken = (now() - begun) / POLLS;
        least = taken < least ? taken : least;
    }
    return least;
}

int main(int count, char **words)
{
    static const int others[] = {0, 1, 2, 4, 8, 16, 32, 64, 125};
    uint8_t header[AMSULFEZD_HEADER_LENGTH], entry[AMSULFEZD_ENTRY_LENGTH];
    struct amsulfezd_poll poll = amsulfezd_poll_at(1000, 1);
    size_t length = amsulfezd_write_poll(entry, sizeof entry, &poll);
    if (amsulfezd_new_settings(OWN, 10, 1, header, sizeof header) != AMSULFEZD_OK) {
        fail("the settings are refused");
    }
    if (count == 4) {
        uint8_t station[AMSULFEZD_STATION_LENGTH];
        begin(header, atoi(words[1]), strcmp(words[2], "below") == 0, station);
        repeat(station, entry, length, atoi(words[3]));
        return EXIT_SUCCESS;
    }
    printf("a poll of ListenToken in a trace: %.0f ns\n", replay(header, entry, length));
    puts("| Others in the ring | A step, above our address, ns | Below it, ns |\n|---|---|---|");
    for (size_t i = 0; i < sizeof others / sizeof others[0]; i++) {
        printf("| %d | %.0f | %.0f |\n", others[i], step(header, entry, length, others[i], 0),
               step(header, entry, length, others[i], 1));
    }
    return EXIT_SUCCESS;
}
