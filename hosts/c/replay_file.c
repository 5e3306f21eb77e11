/*
 * Replays a trace from a file of any size with the proved call, and prints as the program `replay` does: each answer as 16
 * hexadecimal digits, then the number of entries answered and the ending number.
 *
 * usage: replay_file FILE
 */
#include "amsulfezd.h"
#include "files.h"

#include <inttypes.h>

/* How many entries a trace has at most: a byte for each command, a byte and its record for each poll. */
static size_t count_entries(struct content trace)
{
    size_t entries = 0;
    for (size_t at = amsulfezd_header_length(trace.bytes, trace.length); at < trace.length; entries++) {
        at += trace.bytes[at] < 3 ? 1 : (size_t)trace.bytes[at] + 1;
    }
    return entries;
}

int main(int count, char **words)
{
    me = "replay_file";
    if (count != 2) {
        fail("usage: replay_file FILE");
    }
    struct content trace = read_file(words[1]);
    size_t length = AMSULFEZD_ANSWER_LENGTH * count_entries(trace);
    uint8_t *answers = take(length);
    uint64_t returned = amsulfezd_replay_trace(trace.bytes, trace.length, answers, length);
    uint64_t entries = amsulfezd_entries(returned);
    for (uint64_t entry = 0; entry < entries; entry++) {
        for (size_t i = 0; i < AMSULFEZD_ANSWER_LENGTH; i++) {
            printf("%02x", answers[AMSULFEZD_ANSWER_LENGTH * entry + i]);
        }
        putchar('\n');
    }
    printf("%" PRIu64 " %u\n", entries, amsulfezd_ending(returned));
    free(answers);
    free(trace.bytes);
    if (fflush(stdout) != 0) {
        fail("standard output: %s", strerror(errno));
    }
    return EXIT_SUCCESS;
}
