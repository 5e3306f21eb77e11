/*
 * Large traces through the proved call, made in memory: large polls BYTES, a trace of at most BYTES bytes of polls in
 * which nothing comes; large bad ENTRIES, a trace of ENTRIES records of three bytes, each of which is refused with 12.
 * Prints one line and ends with status 0 if every answer is as expected.
 */
#include "amsulfezd.h"

#include <stdio.h>
#include <stdlib.h>
#include <string.h>

/* The length of an entry with a record of three bytes. */
enum { BAD = 4 };

static int fail(const char *why)
{
    fprintf(stderr, "large: %s\n", why);
    return 1;
}

/* Memory that is zero, or the end of the program. */
static uint8_t *zeros(size_t size)
{
    uint8_t *memory = calloc(size ? size : 1, 1);
    if (memory == NULL) {
        exit(fail("there is not enough memory"));
    }
    return memory;
}

/* The header of document 01's example 12. */
static size_t put_header(uint8_t *trace, size_t size)
{
    const struct amsulfezd_header header = amsulfezd_new_header(5, 6, 1);
    return amsulfezd_write_header(trace, size, &header);
}

/* Online, and then polls 100 microseconds apart in which nothing comes, as many as fit. Its entries are counted. */
static size_t polls(uint8_t *trace, size_t size, size_t *entries)
{
    size_t length = put_header(trace, size), written;
    struct amsulfezd_poll poll = amsulfezd_poll_at(1000, 1);
    length += amsulfezd_write_command(trace + length, size - length, AMSULFEZD_COMMAND_ONLINE);
    *entries = 1;
    while ((written = amsulfezd_write_poll(trace + length, size - length, &poll)) != 0) {
        length += written;
        poll.clock += 100;
        (*entries)++;
    }
    return length;
}

/* Records of three bytes. */
static size_t bad(uint8_t *trace, size_t size, size_t entries)
{
    size_t length = put_header(trace, size);
    for (size_t i = 0; i < entries; i++) {
        trace[length + BAD * i] = BAD - 1;
    }
    return length + BAD * entries;
}

int main(int count, char **words)
{
    char *end = NULL;
    unsigned long long number = count == 3 ? strtoull(words[2], &end, 10) : 0;
    int refused = count == 3 && strcmp(words[1], "bad") == 0;
    if (count != 3 || *end != '\0' || number < 100 || number > (1ull << 32) ||
        (!refused && strcmp(words[1], "polls") != 0)) {
        return fail("usage: large polls BYTES or large bad ENTRIES, with a number from 100 to 2^32");
    }
    size_t entries = (size_t)number;
    size_t room = refused ? AMSULFEZD_HEADER_LENGTH + BAD * entries : (size_t)number;
    uint8_t *trace = zeros(room);
    size_t size = refused ? bad(trace, room, entries) : polls(trace, room, &entries);
    uint8_t *answers = zeros(AMSULFEZD_ANSWER_LENGTH * entries);
    uint64_t result = amsulfezd_replay_trace(trace, size, answers, AMSULFEZD_ANSWER_LENGTH * entries);
    if (amsulfezd_entries(result) != entries || amsulfezd_ending(result) != AMSULFEZD_OK) {
        return fail("not every entry was answered");
    }
    uint64_t sent = 0;
    for (size_t i = 0; i < entries; i++) {
        uint64_t answer = amsulfezd_answer(answers + AMSULFEZD_ANSWER_LENGTH * i);
        if (amsulfezd_answer_refusal(answer) != (refused ? AMSULFEZD_REFUSAL_RECORD_LENGTH : AMSULFEZD_OK)) {
            return fail("an answer has another refusal than expected");
        }
        sent += amsulfezd_answer_sent(answer) != AMSULFEZD_SENT_NONE;
    }
    printf("large: %zu bytes, %zu entries, all answered, %llu of them with a telegram sent\n", size, entries,
           (unsigned long long)sent);
    return 0;
}
