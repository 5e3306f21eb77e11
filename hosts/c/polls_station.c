/*
 * Runs the polls that `rounds` writes, as a trace or as a station that is stepped one entry at a time, for
 * scripts/measure_station.sh to count the instructions of each. The input is what the program run_polls reads: the address, the
 * number of applications, and entries, for a station with the defaults at 500 kbit/s that is put online first.
 *
 * usage: polls_station trace|step <INPUT
 */
#include "amsulfezd.h"

#include <stdio.h>
#include <stdlib.h>
#include <string.h>

enum { MOST = 1 << 20 };

static uint8_t trace[AMSULFEZD_HEADER_LENGTH + 1 + MOST], answers[AMSULFEZD_ANSWER_LENGTH * (MOST / 15)];

static void fail(const char *why)
{
    fprintf(stderr, "polls_station: %s\n", why);
    exit(EXIT_FAILURE);
}

/* Steps the entries one by one, and returns what the trace call would. */
static uint64_t step(const uint8_t *header, const uint8_t *entries, size_t length)
{
    uint8_t station[AMSULFEZD_STATION_LENGTH];
    size_t at = 0, count = 0;
    if (amsulfezd_number(amsulfezd_open_station(header, AMSULFEZD_HEADER_LENGTH, station, sizeof station)) != AMSULFEZD_OK) {
        fail("the header is refused");
    }
    while (at < length) {
        uint64_t returned = amsulfezd_step_station(station, sizeof station, entries + at, length - at,
                                                   answers + AMSULFEZD_ANSWER_LENGTH * count, AMSULFEZD_ANSWER_LENGTH);
        if (amsulfezd_number(returned) != AMSULFEZD_OK) {
            fail("an entry is refused");
        }
        at += amsulfezd_stepped(returned);
        count++;
    }
    return 256 * count;
}

int main(int count, char **words)
{
    uint8_t head[2];
    uint8_t *entries = trace + AMSULFEZD_HEADER_LENGTH;
    if (count != 2) {
        fail("usage: polls_station trace|step <INPUT");
    }
    if (fread(head, 1, sizeof head, stdin) != sizeof head) {
        fail("no address and number of applications");
    }
    size_t length = fread(entries + 1, 1, MOST, stdin) + 1;
    if (length == MOST + 1 || amsulfezd_new_settings(head[0], 6, head[1], trace, AMSULFEZD_HEADER_LENGTH) != AMSULFEZD_OK) {
        fail("too many entries, or no settings");
    }
    entries[0] = AMSULFEZD_COMMAND_ONLINE;
    uint64_t returned = strcmp(words[1], "step") == 0
                            ? step(trace, entries, length)
                            : amsulfezd_replay_trace(trace, AMSULFEZD_HEADER_LENGTH + length, answers, sizeof answers);
    if (amsulfezd_ending(returned) != AMSULFEZD_OK) {
        fail("the trace is refused");
    }
    fwrite(answers, AMSULFEZD_ANSWER_LENGTH, amsulfezd_entries(returned), stdout);
    return EXIT_SUCCESS;
}
