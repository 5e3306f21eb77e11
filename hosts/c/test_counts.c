/*
 * Tests the proved call that gives the counts of a station's life, against counts that are stated here by hand, from document
 * 02, P6, as asked.h says.
 *
 * usage: test_counts
 */
#include "asked.h"

/* A poll record with so many telegrams, its clock, and what its one application declines. */
#define POLL(telegrams, clock) 14 + 4 * (telegrams), 0, 0, 0, 0, (clock) / 256, (clock) % 256, 8 * (telegrams), 0, 0, 0, 0, 0, 0, 0
#define TOKEN_BY_US 0x04, 0x85, 0, 0       /* from 5 to 9 */
#define TOKEN_9_TO_9 0x04, 0x89, 0, 0
#define TOKEN_TO_US 0x02, 0x89, 0, 0       /* from 9 to 5 */
#define STATUS_REQUEST 0x82, 0x89, 0x80, 0 /* from 9 to 5 */
#define REQUEST_BY_US 0x8a, 0x05, 0, 0     /* from 5 to 20 */

/*
 * Online; a token from our own address, and at 8,192 a second one, which takes the station offline, with a third behind it.
 * Online; at 16,384, more than the lost-token time of 6,400 us after that, the first poll claims the token, at 16,600 it is sent
 * a second time. Offline, and online: fresh but for the counts. 9 passes the token to itself twice, asks who we are, is answered,
 * and passes the token to us. The application declines, and the token goes to 9. In CheckTokenPass a token from our own address
 * is heard, in ActiveIdle then a request from it, which is not counted, and 9's token to us. The application declines, and 9 gets
 * three tokens to which nobody is heard; at 25,600 it is out of the ring. Then a record of three bytes, which is refused.
 */
#define ENTRIES                                          \
    0,                                                   \
    POLL(1, 4096), TOKEN_BY_US,                          \
    POLL(2, 8192), TOKEN_BY_US, TOKEN_BY_US,             \
    0,                                                   \
    POLL(0, 16384),                                      \
    POLL(0, 16600),                                      \
    1,                                                   \
    0,                                                   \
    POLL(2, 20480), TOKEN_9_TO_9, TOKEN_9_TO_9,          \
    POLL(1, 20780), STATUS_REQUEST,                      \
    POLL(0, 20864),                                      \
    POLL(1, 21248), TOKEN_TO_US,                         \
    POLL(0, 21504),                                      \
    POLL(0, 21760),                                      \
    POLL(1, 22016), TOKEN_BY_US,                         \
    POLL(2, 22272), REQUEST_BY_US, TOKEN_TO_US,          \
    POLL(0, 22528),                                      \
    POLL(0, 22784),                                      \
    POLL(0, 23552),                                      \
    POLL(0, 24576),                                      \
    POLL(0, 25600),                                      \
    3, 0, 0, 0

static const uint8_t trace_1[] = {HEADER, ENTRIES};
static const uint8_t trace_2[] = {HEADER_2, ENTRIES};

static const size_t lengths[] = {1, 19, 23, 1, 15, 15, 1, 1, 23, 19, 15, 19, 15, 15, 19, 23, 15, 15, 15, 15, 15, 4};
enum { COUNT = sizeof lengths / sizeof lengths[0] };
static const struct asked first = {trace_1, sizeof trace_1, AMSULFEZD_HEADER_LENGTH, lengths, COUNT};
static const struct asked second = {trace_2, sizeof trace_2, AMSULFEZD_HEADER_LENGTH_2, lengths, COUNT};

/* The counts after so many whole entries: those of the last line that is not beyond them. */
static const struct {
    size_t entries;
    uint8_t bytes[AMSULFEZD_COUNTS_LENGTH];
} stated[] = {
    {0, {0, 0, 0, 0, 0, 0, 0, 0, 0, 0, 0, 0}},
    {2, {0, 0, 0, 0, 0, 0, 0, 0, 0, 0, 0, 1}},
    {3, {0, 0, 0, 0, 0, 0, 0, 0, 0, 0, 0, 2}},
    {5, {0, 0, 0, 1, 0, 0, 0, 0, 0, 0, 0, 2}},
    {15, {0, 0, 0, 1, 0, 0, 0, 0, 0, 0, 0, 3}},
    {21, {0, 0, 0, 1, 0, 0, 0, 1, 0, 0, 0, 3}},
};

static uint64_t counts(const uint8_t *trace, size_t trace_len, uint8_t *bytes, size_t room)
{
    return amsulfezd_trace_counts(trace, trace_len, bytes, room);
}

static const struct question question = {counts, AMSULFEZD_COUNTS_LENGTH, "room", MOST};

/* The counts after so many whole entries. */
static const uint8_t *expect(size_t entries)
{
    const uint8_t *bytes = NULL;
    for (size_t i = 0; i < sizeof stated / sizeof stated[0]; i++) {
        if (stated[i].entries <= entries) {
            bytes = stated[i].bytes;
        }
    }
    return bytes;
}

static void ask_counts(const uint8_t *trace, size_t length, size_t entries, unsigned ending)
{
    ask(question, trace, length, MOST, 256 * entries + ending, expect(entries));
}

int main(int count, char **words)
{
    (void)words;
    prepare(count, "test_counts");
    cut_trace(first, ask_counts);
    cut_trace(second, ask_counts);
    ask_rooms(question, first, expect(COUNT));
    ask_rooms(question, second, expect(COUNT));
    ask_refused_headers(question, first, second);
    printf("C host: %lu checks of the counts hold, each buffer between two guard pages\n", checks);
    return EXIT_SUCCESS;
}
