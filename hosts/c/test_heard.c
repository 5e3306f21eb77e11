/*
 * Tests the proved call that says when an address was heard, against entries that are stated here by hand, from document 02,
 * P7, as asked.h says; and the table beside a station that is stepped along the same trace, against the same entries.
 *
 * usage: test_heard
 */
#include "asked.h"

/*
 * Online; it listens. At 4,096 four telegrams: a token from 9 to 12, a response from 12 (slave, status 3), a token from 9 to 9,
 * a response from 126. At 4,095, which is before that, one from 20: a transmission counts as going on, and it is not consumed.
 * At 8,192 a short confirmation, a token from 5, which is our own address, a status request from 127. Offline and online: the
 * station is fresh and takes any clock. At 2,048 a response from 9 (without token, Ok) and a token from 12. Then a record of
 * three bytes, which is refused.
 */
#define ENTRIES \
    0, \
    30, 0, 0, 0, 0, 0x10, 0x00, 0x20, 0, 0, 0, 0, 0, 0, 0, 0x06, 0x09, 0, 0, 0xc4, 0x8c, 0x06, 0, 0x04, 0x89, 0, 0, 0xc4, 0xfe, 0x20, 0, \
    18, 0, 0, 0, 0, 0x0f, 0xff, 0x08, 0, 0, 0, 0, 0, 0, 0, 0x06, 0x14, 0, 0, \
    26, 0, 0, 0, 0, 0x20, 0x00, 0x18, 0, 0, 0, 0, 0, 0, 0, 0x40, 0, 0, 0, 0x04, 0x85, 0, 0, 0x84, 0xff, 0x80, 0, \
    1, \
    0, \
    22, 0, 0, 0, 0, 0x08, 0x00, 0x10, 0, 0, 0, 0, 0, 0, 0, 0xc4, 0x89, 0x40, 0, 0x04, 0x8c, 0, 0, \
    3, 0, 0, 0

static const uint8_t trace_1[] = {HEADER, ENTRIES};
static const uint8_t trace_2[] = {HEADER_2, ENTRIES};

static const size_t lengths[] = {1, 31, 19, 27, 1, 1, 23, 4};
enum { COUNT = sizeof lengths / sizeof lengths[0] };
static const struct asked first = {trace_1, sizeof trace_1, AMSULFEZD_HEADER_LENGTH, lengths, COUNT};
static const struct asked second = {trace_2, sizeof trace_2, AMSULFEZD_HEADER_LENGTH_2, lengths, COUNT};

/* When an address is heard after so many whole entries: times, first, last, 0 or 1 + type. */
struct stated {
    uint8_t address;
    size_t entries;
    uint8_t bytes[AMSULFEZD_HEARD_LENGTH];
};

/* An address has the entry of the last line that is not beyond the whole entries, and zeros before its first. */
static const struct stated stated[] = {
    {5, 4, {0, 0, 0, 1, 0, 0, 0, 0, 0x20, 0, 0, 0, 0, 0, 0x20, 0, 0}},
    {9, 2, {0, 0, 0, 2, 0, 0, 0, 0, 0x10, 0, 0, 0, 0, 0, 0x10, 0, 0}},
    {9, 7, {0, 0, 0, 3, 0, 0, 0, 0, 0x10, 0, 0, 0, 0, 0, 0x08, 0, 3}},
    {12, 2, {0, 0, 0, 1, 0, 0, 0, 0, 0x10, 0, 0, 0, 0, 0, 0x10, 0, 1}},
    {12, 7, {0, 0, 0, 2, 0, 0, 0, 0, 0x10, 0, 0, 0, 0, 0, 0x08, 0, 1}},
};

/* The entry of an address after so many whole entries. */
static void expect(uint8_t address, size_t entries, uint8_t bytes[AMSULFEZD_HEARD_LENGTH])
{
    memset(bytes, 0, AMSULFEZD_HEARD_LENGTH);
    for (size_t i = 0; i < sizeof stated / sizeof stated[0]; i++) {
        if (stated[i].address == address && stated[i].entries <= entries) {
            memcpy(bytes, stated[i].bytes, AMSULFEZD_HEARD_LENGTH);
        }
    }
}

/* The address that is asked for. */
static uint8_t asked_for;

static uint64_t heard(const uint8_t *trace, size_t trace_len, uint8_t *entry, size_t room)
{
    return amsulfezd_trace_heard(trace, trace_len, asked_for, entry, room);
}

/* The question when this address was heard. */
static struct question of(unsigned address)
{
    struct question question = {heard, AMSULFEZD_HEARD_LENGTH, "address", address};
    asked_for = (uint8_t)address;
    return question;
}

/* Every address there is: of a trace that is cut those that were heard by then, some others, and all above 125. */
static void ask_addresses(const uint8_t *trace, size_t length, size_t entries, unsigned ending)
{
    for (unsigned address = 0; address < 256; address++) {
        uint8_t bytes[AMSULFEZD_HEARD_LENGTH];
        expect((uint8_t)address, entries, bytes);
        if (address > AMSULFEZD_LAST_ADDRESS) {
            ask(of(address), trace, length, MOST, AMSULFEZD_REFUSAL_ASKED_ADDRESS, NULL);
        } else if ((entries == COUNT && ending == AMSULFEZD_OK) || bytes[3] != 0 || address % 25 == 0) {
            ask(of(address), trace, length, MOST, 256 * entries + ending, bytes);
        }
    }
}

/* An address above 125 is refused before all else, whatever the room and the header. */
static void ask_above(struct asked good, size_t at)
{
    uint8_t trace[LONGEST];
    memcpy(trace, good.bytes, good.length);
    trace[at] ^= 1;
    for (size_t room = 0; room <= MOST; room++) {
        ask(of(126), good.bytes, good.length, room, AMSULFEZD_REFUSAL_ASKED_ADDRESS, NULL);
        ask(of(255), trace, good.length, room, AMSULFEZD_REFUSAL_ASKED_ADDRESS, NULL);
        ask(of(255), trace, good.header - 1, room, AMSULFEZD_REFUSAL_ASKED_ADDRESS, NULL);
    }
}

/* A station that is stepped along the entries with a table: after each of them the table says what is stated after so many. */
static void step_entries(struct asked trace)
{
    static uint8_t table[AMSULFEZD_HEARD_TABLE_LENGTH];
    uint8_t station[AMSULFEZD_STATION_LENGTH], answer[AMSULFEZD_ANSWER_LENGTH];
    uint8_t bytes[AMSULFEZD_HEARD_LENGTH], said[AMSULFEZD_HEARD_LENGTH];
    const uint8_t *entry = trace.bytes + trace.header;
    memset(table, 0, sizeof table);
    amsulfezd_open_station(trace.bytes, trace.header, station, sizeof station);
    for (size_t i = 0; i < trace.count; i++) {
        uint64_t returned = amsulfezd_step_heard(station, sizeof station, entry, trace.entries[i], answer, sizeof answer, table,
                                                 sizeof table);
        check(returned == 256 * trace.entries[i], "not what it should return", "step", i);
        entry += trace.entries[i];
        for (unsigned address = 0; address <= AMSULFEZD_LAST_ADDRESS; address++) {
            expect((uint8_t)address, i + 1, bytes);
            amsulfezd_table_heard(table, sizeof table, (uint8_t)address, said, sizeof said);
            check(memcmp(said, bytes, sizeof bytes) == 0, "not the entry that it should be", "table", address);
        }
    }
}

int main(int count, char **words)
{
    uint8_t nine[AMSULFEZD_HEARD_LENGTH];
    (void)words;
    prepare(count, "test_heard");
    expect(9, COUNT, nine);
    cut_trace(first, ask_addresses);
    cut_trace(second, ask_addresses);
    ask_rooms(of(9), first, nine);
    ask_rooms(of(9), second, nine);
    ask_refused_headers(of(9), first, second);
    ask_above(first, 15);
    ask_above(second, 13);
    step_entries(first);
    step_entries(second);
    printf("C host: %lu checks of who was heard hold, each buffer between two guard pages\n", checks);
    return EXIT_SUCCESS;
}
