/*
 * Tests the proved calls beside a live station: a step with a table of who was heard, what such a table says of an address, and the
 * counts of a station's life. What they return, refuse and leave is stated here by hand, from docs/FORMAT.md and document 02, P6 and
 * P7. Each trace that is named is stepped one entry at a time with a table and without: both leave the same station and answer; the
 * table is after each entry what plain_heard.h makes of it, and at the end it says of all 126 addresses what the call on the whole
 * trace says, and the counts are that trace's. The order of refusals is tried on a station in each state. Each slice lies between two
 * pages that may not be touched, flush against the upper or the lower one, and everything else is filled with a pattern: a byte
 * read or written outside ends the program, and a byte that should have kept its value is found.
 *
 * usage: test_beside TRACE..
 */
#include "placed.h"

#include "files.h"
#include "plain_heard.h"

enum { TABLE = AMSULFEZD_HEARD_TABLE_LENGTH, HEARD = AMSULFEZD_HEARD_LENGTH, COUNTS = AMSULFEZD_COUNTS_LENGTH };
enum { LAST = AMSULFEZD_LAST_ADDRESS };

static struct guarded station_page, lent_page, answer_page, table_page;

/* ---- The counts of a station's life ------------------------------------------------------------------------------------ */

/* Asks these bytes for the counts with so much room: this number, and these counts where it is 0. */
static void count_once(struct slice given, size_t room, unsigned number, const uint8_t *counts, bool upper, uint8_t pattern)
{
    const uint8_t *station = placed(station_page, given, upper, pattern);
    uint8_t *buffer = placed(answer_page, room_of(room), upper, pattern);
    size_t written = number == AMSULFEZD_OK ? COUNTS : 0;
    uint64_t returned = amsulfezd_station_counts(station, given.length, buffer, room);
    check(returned == number, "not what it should return", "counts", room);
    check(memcmp(buffer, counts, written) == 0, "not the counts that they should be", "counts", room);
    check(kept_around(answer_page, buffer, written, pattern), "a byte that is not the counts' has changed", "counts", room);
    check(kept(station_page, station, given, pattern), "the station has changed", "counts", given.length);
}

/* With both patterns at both ends. */
static void count_all(struct slice given, size_t room, unsigned number, const uint8_t *counts)
{
    for (size_t i = 0; i < 2 * sizeof patterns; i++) {
        count_once(given, room, number, counts, i % 2 == 0, patterns[i / 2]);
    }
}

/* Lengths of this station, so far apart, with every room, and the same of another edition, which is no station: 36, then 18. */
static void test_count(const uint8_t *station, const uint8_t *counts, size_t apart)
{
    uint8_t broken[LENGTH];
    memcpy(broken, station, LENGTH);
    broken[0] ^= 0x80;
    for (size_t length = 0; length <= LENGTH + MORE; length += length < LENGTH - 1 ? apart : 1) {
        for (size_t room = 0; room <= COUNTS + MORE; room++) {
            struct slice given = {station, LENGTH, length}, other = {broken, LENGTH, length};
            unsigned number = length < LENGTH  ? (unsigned)AMSULFEZD_REFUSAL_STATION
                              : room < COUNTS ? (unsigned)AMSULFEZD_REFUSAL_NO_ROOM
                                               : (unsigned)AMSULFEZD_OK;
            count_all(given, room, number, counts);
            count_all(other, room, AMSULFEZD_REFUSAL_STATION, counts);
        }
    }
}

/* ---- What a table says of an address ----------------------------------------------------------------------------------- */

/* Asks a table for an address with so much room: this number, and this entry where it is 0. */
static void ask_once(struct slice table, unsigned address, size_t room, unsigned number, const uint8_t *entry, bool upper,
                     uint8_t pattern)
{
    const uint8_t *lent = placed(table_page, table, upper, pattern);
    uint8_t *buffer = placed(answer_page, room_of(room), upper, pattern);
    size_t written = number == AMSULFEZD_OK ? HEARD : 0;
    uint64_t returned = amsulfezd_table_heard(lent, table.length, (uint8_t)address, buffer, room);
    check(returned == number, "not what it should return", "table", address);
    check(memcmp(buffer, entry, written) == 0, "not the entry that it should be", "table", address);
    check(kept_around(answer_page, buffer, written, pattern), "a byte that is not the entry's has changed", "table", address);
    check(kept(table_page, lent, table, pattern), "the table has changed", "table", table.length);
}

/* With both patterns at both ends. The number is 26, then 18, and in a table that is too short for it an address was never heard. */
static void ask_all(const uint8_t *bytes, size_t length, unsigned address, size_t room)
{
    struct slice table = {bytes, TABLE, length};
    uint8_t entry[HEARD] = {0};
    unsigned number = address > LAST ? (unsigned)AMSULFEZD_REFUSAL_ASKED_ADDRESS
                      : room < HEARD ? (unsigned)AMSULFEZD_REFUSAL_NO_ROOM
                                     : (unsigned)AMSULFEZD_OK;
    if (address <= LAST) {
        plain_said(bytes, length, address, entry);
    }
    for (size_t i = 0; i < 2 * sizeof patterns; i++) {
        ask_once(table, address, room, number, entry, i % 2 == 0, patterns[i / 2]);
    }
}

/* Puts the entry of an address into a table. */
static void put_entry(uint8_t *table, unsigned address, uint32_t times, uint64_t first, uint64_t last, uint8_t type)
{
    uint8_t *to = amsulfezd_store(table + HEARD * address, 4, times);
    to = amsulfezd_store(to, 6, first);
    to = amsulfezd_store(to, 6, last);
    amsulfezd_store(to, 1, type);
}

/* An address has this entry in the table. */
static void has_heard(const uint8_t *table, unsigned address, uint32_t times, uint64_t first, uint64_t last, uint8_t type)
{
    uint8_t entry[HEARD];
    check(amsulfezd_table_heard(table, TABLE, (uint8_t)address, entry, sizeof entry) == AMSULFEZD_OK, "refused", "table", address);
    check(amsulfezd_load(entry, 4) == times && amsulfezd_load(entry + 4, 6) == first && amsulfezd_load(entry + 10, 6) == last &&
              entry[16] == type,
          "not the entry that it should be", "table", address);
}

/*
 * A table in which no two entries are alike. Every fifth address was never heard, and of these every other one has bytes behind its
 * times all the same. Of every seventh address the last byte is no type, which is taken as the last one.
 */
static void test_table(void)
{
    static uint8_t table[TABLE];
    for (unsigned address = 0; address <= LAST; address++) {
        uint32_t times = address % 5 == 3 ? 0 : address % 5 == 4 ? UINT32_MAX : 1 + UINT32_C(0x01020304) * address;
        if (address % 10 != 3) {
            put_entry(table, address, times, UINT64_C(0xa1b2c3d4e500) + address, UINT64_C(0x0123456789ff) - address,
                      (uint8_t)(address % 7 == 6 ? 255 - address : address % 5));
        }
    }
    has_heard(table, 3, 0, 0, 0, 0);
    has_heard(table, 8, 0, 0, 0, 0);
    has_heard(table, 9, UINT32_MAX, UINT64_C(0xa1b2c3d4e509), UINT64_C(0x0123456789f6), 4);
    has_heard(table, 6, UINT32_C(0x060c1219), UINT64_C(0xa1b2c3d4e506), UINT64_C(0x0123456789f9), 4);
    has_heard(table, 7, UINT32_C(0x070e151d), UINT64_C(0xa1b2c3d4e507), UINT64_C(0x0123456789f8), 2);
    for (unsigned address = 0; address < 256; address++) {
        for (size_t room = 0; room <= HEARD + MORE; room++) {
            ask_all(table, TABLE, address, room);
        }
    }
    for (size_t length = 0; length <= TABLE + MORE; length++) {
        ask_all(table, length, 0, HEARD);
        ask_all(table, length, (unsigned)(length / HEARD), HEARD + length % (MORE + 1));
        ask_all(table, length, LAST, HEARD);
        ask_all(table, length, LAST + 1, length % 2 == 0 ? HEARD : 0);
    }
}

/* ---- A step with a table ----------------------------------------------------------------------------------------------- */

/* What a step leaves: what it returned, the station, the answer's bytes, and the table. */
struct left {
    uint64_t returned;
    uint8_t station[LENGTH];
    uint8_t answer[ANSWER];
    uint8_t table[TABLE];
};

/* Steps, and sees that nothing was written but the first bytes of station, answer and table, and not those where it was refused. */
static void step_once(struct slice given, struct slice entry, size_t room, struct slice table, bool upper, uint8_t pattern,
                      struct left *left)
{
    uint8_t *station = placed(station_page, given, upper, pattern);
    const uint8_t *lent = placed(lent_page, entry, upper, pattern);
    uint8_t *answer = placed(answer_page, room_of(room), upper, pattern);
    uint8_t *heard = placed(table_page, table, upper, pattern);
    memset(left, 0, sizeof *left);
    left->returned = amsulfezd_step_heard(station, given.length, lent, entry.length, answer, room, heard, table.length);
    bool refused = amsulfezd_number(left->returned) != AMSULFEZD_OK;
    check(!refused || left->returned < 256, "a refusal with bytes", "step", given.length);
    check(kept_around(station_page, station, given_in(given), pattern), "a byte around the station has changed", "step",
          given.length);
    check(kept_around(table_page, heard, given_in(table), pattern), "a byte around the table has changed", "step", table.length);
    check(!refused || kept(station_page, station, given, pattern), "a refused step has changed the station", "step", given.length);
    check(!refused || kept(table_page, heard, table, pattern), "a refused step has changed the table", "step", table.length);
    check(kept_around(answer_page, answer, refused ? 0 : ANSWER, pattern), "a byte that is not the answer's has changed", "step",
          room);
    check(kept(lent_page, lent, entry, pattern), "the entry has changed", "step", entry.length);
    memcpy(left->station, station, given_in(given) < LENGTH ? given_in(given) : LENGTH);
    memcpy(left->answer, answer, refused ? 0 : ANSWER);
    memcpy(left->table, heard, given_in(table));
}

/* With both patterns at both ends: the same is left each time. */
static const struct left *step_all(struct slice given, struct slice entry, size_t room, struct slice table)
{
    static struct left left, again;
    step_once(given, entry, room, table, true, patterns[0], &left);
    for (size_t i = 1; i < 2 * sizeof patterns; i++) {
        step_once(given, entry, room, table, i % 2 == 0, patterns[i / 2], &again);
        check(memcmp(&left, &again, sizeof left) == 0, "the same step leaves something else", "step", given.length);
    }
    return &left;
}

/*
 * A whole entry on a station, with a table: the entry's bytes are returned; station and answer are those of a step without a table;
 * and the table has heard what the answer says was consumed.
 */
static const struct left *step_whole(struct slice given, struct slice entry, size_t room, struct slice table)
{
    static uint8_t heard[TABLE];
    uint8_t station[LENGTH], answer[ANSWER];
    const struct left *left = step_all(given, entry, room, table);
    memcpy(station, given.bytes, LENGTH);
    memcpy(heard, table.bytes, TABLE);
    uint64_t returned = amsulfezd_step_station(station, LENGTH, entry.bytes, entry.count, answer, sizeof answer);
    check(returned == 256 * entry.count && left->returned == returned, "not what it should return", "step", entry.count);
    check(memcmp(left->station, station, LENGTH) == 0, "not the station of a step without a table", "step", entry.count);
    check(memcmp(left->answer, answer, ANSWER) == 0, "not the answer of a step without a table", "step", entry.count);
    plain_hear(heard, entry.bytes, amsulfezd_answer_consumed(amsulfezd_answer(answer)));
    check(memcmp(left->table, heard, TABLE) == 0, "not the table that it should be", "step", entry.count);
    return left;
}

/* A step that is refused with this number. */
static void step_refused(struct slice given, struct slice entry, size_t room, struct slice table, unsigned number)
{
    check(step_all(given, entry, room, table)->returned == number, "not the number that it should return", "step", number);
}

/* A table by which every address was heard. */
static uint8_t full_table[TABLE];

/*
 * Eight telegrams at 4,096: a token from 9, a response from 12 (slave, status 3), another token from 9, a response from 126, a short
 * confirmation, a request from 127, a response from 125 (in the ring), a token from 0.
 */
static const uint8_t many[] = {46,   0,    0, 0, 0,    0x10, 0,    0x40, 0,    0,    0, 0, 0,    0,    0,
                               0x06, 0x09, 0, 0, 0xc4, 0x8c, 0x06, 0,    0x04, 0x89, 0, 0, 0xc4, 0xfe, 0x20, 0,
                               0x40, 0,    0, 0, 0x84, 0xff, 0,    0,    0xc2, 0xfd, 0x60, 0, 0x04, 0x80, 0,    0};
static const uint8_t poll[] = {POLL};
static const uint8_t short_record[] = {SHORT_RECORD};
static const uint8_t online[] = {AMSULFEZD_COMMAND_ONLINE};

static const struct {
    const uint8_t *bytes;
    size_t count;
} entries[] = {{online, sizeof online}, {poll, sizeof poll}, {many, sizeof many}, {short_record, sizeof short_record}};
enum { ENTRIES = sizeof entries / sizeof entries[0] };

/* One step with slices of these lengths: 36 for a station that is none or too short, then 17, then 18, or it is done. */
static void step_lengths(const uint8_t *station, bool is_station, size_t station_len, size_t which, size_t entry_len, size_t room,
                         size_t table_len)
{
    struct slice given = {station, LENGTH, station_len}, entry = {entries[which].bytes, entries[which].count, entry_len};
    struct slice table = {full_table, TABLE, table_len};
    if (!is_station || station_len < LENGTH) {
        step_refused(given, entry, room, table, AMSULFEZD_REFUSAL_STATION);
    } else if (entry_len < entry.count) {
        step_refused(given, entry, room, table, AMSULFEZD_REFUSAL_CUT);
    } else if (room < ANSWER || table_len < TABLE) {
        step_refused(given, entry, room, table, AMSULFEZD_REFUSAL_NO_ROOM);
    } else {
        step_whole(given, entry, room, table);
    }
}

/* The refusals of a step on this station, in their order: each length that matters of each slice, with all of the others. */
static void test_order(const uint8_t *station)
{
    static const size_t stations[] = {0, LENGTH - 1, LENGTH, LENGTH + MORE}, rooms[] = {0, ANSWER - 1, ANSWER, ANSWER + MORE};
    static const size_t tables[] = {0, TABLE - 1, TABLE, TABLE + MORE};
    uint8_t broken[LENGTH];
    memcpy(broken, station, LENGTH);
    broken[0] ^= 0x80; /* another edition */
    for (size_t i = 0; i < 4 * 4 * 4 * ENTRIES; i++) {
        size_t station_len = stations[i % 4], room = rooms[i / 4 % 4], table_len = tables[i / 16 % 4], which = i / 64;
        size_t count = entries[which].count;
        step_lengths(station, true, station_len, which, count, room, table_len);
        step_lengths(station, true, station_len, which, count + MORE, room, table_len);
        step_lengths(station, true, station_len, which, count - 1, room, table_len);
        step_lengths(broken, false, station_len, which, i % 3 == 0 ? count - 1 : count, room, table_len);
    }
}

/* Every length of each slice, the others being long enough, or the one before it in the order too short. */
static void test_lengths(const uint8_t *station)
{
    for (size_t length = 0; length <= LENGTH + MORE; length++) {
        step_lengths(station, true, length, 2, sizeof many, ANSWER, TABLE);
    }
    for (size_t which = 0; which < ENTRIES; which++) {
        for (size_t length = 0; length <= entries[which].count + MORE; length++) {
            step_lengths(station, true, LENGTH, which, length, ANSWER, TABLE);
            step_lengths(station, true, LENGTH - 1, which, length, ANSWER, TABLE);
        }
    }
    for (size_t room = 0; room <= ANSWER + MORE; room++) {
        step_lengths(station, true, LENGTH, 2, sizeof many, room, TABLE);
        step_lengths(station, true, LENGTH, 2, sizeof many - 1, room, TABLE);
    }
    for (size_t length = 0; length <= TABLE + MORE; length++) {
        step_lengths(station, true, LENGTH, 2, sizeof many, ANSWER, length);
        step_lengths(station, true, LENGTH, 2, sizeof many - 1, ANSWER, length);
    }
}

/* What a station that listens hears of the eight telegrams, stated by hand: from nobody heard before, and from entries at their ends. */
static void test_hearing(const uint8_t *listening)
{
    static uint8_t table[TABLE];
    struct slice given = {listening, LENGTH, LENGTH}, entry = {many, sizeof many, sizeof many}, lent = {table, TABLE, TABLE};
    const struct left *left = step_whole(given, entry, ANSWER, lent);
    check(amsulfezd_answer_consumed(amsulfezd_answer(left->answer)) == 8, "not all of them are consumed", "step", 8);
    for (unsigned address = 0; address <= LAST; address++) {
        uint32_t times = address == 9 ? 2 : address == 0 || address == 12 || address == 125 ? 1 : 0;
        uint64_t clock = times == 0 ? 0 : 4096;
        has_heard(left->table, address, times, clock, clock, address == 12 ? 1 : address == 125 ? 4 : 0);
    }
    /* Counts stop at their largest, first stays, last may go back, a token leaves the type and a response sets it. */
    put_entry(table, 9, UINT32_MAX - 1, 9000, 9999, 2);
    put_entry(table, 12, UINT32_MAX, 1, 4095, 3);
    put_entry(table, 0, 255, 0, 0, 3);
    put_entry(table, 125, 1, UINT64_C(0xffffffffffff), UINT64_C(0xffffffffffff), 0);
    put_entry(table, 124, 1, 2, 3, 4);
    left = step_whole(given, entry, ANSWER, lent);
    has_heard(left->table, 9, UINT32_MAX, 9000, 4096, 2);
    has_heard(left->table, 12, UINT32_MAX, 1, 4096, 1);
    has_heard(left->table, 0, 256, 0, 4096, 3);
    has_heard(left->table, 125, 2, UINT64_C(0xffffffffffff), 4096, 4);
    has_heard(left->table, 124, 1, 2, 3, 4);
    has_heard(left->table, 5, 0, 0, 0, 0);
    /* Any content is taken as a table: a last byte that is no type as the last one. Who is not heard keeps such a byte. */
    for (unsigned value = 1; value < 256; value += 127) {
        memset(table, (int)value, sizeof table);
        step_whole(given, entry, ANSWER, lent);
    }
    put_entry(table, 0, 3, 1, 2, 200);
    put_entry(table, 12, 3, 1, 2, 200);
    put_entry(table, 9, 0, 1, 2, 0);
    left = step_whole(given, entry, ANSWER, lent);
    has_heard(left->table, 0, 4, 1, 4096, 4);
    has_heard(left->table, 12, 4, 1, 4096, 1);
    has_heard(left->table, 9, 2, 4096, 4096, 0);
    check(left->table[HEARD * 20 + 16] == 255, "an address that was not heard has changed", "table", 20);
}

/* ---- Traces ------------------------------------------------------------------------------------------------------------ */

static unsigned long stepped, heard_at_all;

/* The first station that was seen in each state, and its counts. */
static unsigned states_seen;
static struct {
    uint8_t station[LENGTH];
    uint8_t counts[COUNTS];
} seen[AMSULFEZD_STATE_PASSIVE_IDLE + 1];

/* At the end of a trace: what table and station say is what the calls on the whole trace say. */
static void test_asked(struct content trace, const uint8_t *station, const uint8_t *table, const char *name)
{
    struct slice given = {station, LENGTH, LENGTH}, lent = {table, TABLE, TABLE};
    uint8_t counts[COUNTS], entry[HEARD];
    amsulfezd_trace_counts(trace.bytes, trace.length, counts, sizeof counts);
    count_all(given, COUNTS, AMSULFEZD_OK, counts);
    for (unsigned address = 0; address <= LAST; address++) {
        amsulfezd_trace_heard(trace.bytes, trace.length, (uint8_t)address, entry, sizeof entry);
        ask_once(lent, address, HEARD, AMSULFEZD_OK, entry, address % 2 == 0, patterns[address / 2 % 2]);
        check(memcmp(entry, table + HEARD * address, HEARD) == 0, "heard otherwise", name, address);
        heard_at_all += amsulfezd_heard_of(entry).times != 0;
    }
}

/* A trace, stepped one entry at a time with a table. */
static void test_trace(const char *name)
{
    static uint8_t table[TABLE];
    struct content trace = read_file(name);
    size_t at = amsulfezd_header_length(trace.bytes, trace.length), entry = 0;
    uint8_t station[LENGTH];
    bool opened = amsulfezd_open_station(trace.bytes, trace.length, station, LENGTH) >= 256;
    memset(table, 0, sizeof table);
    while (opened && at < trace.length && entry_length(trace.bytes + at) <= trace.length - at) {
        size_t length = entry_length(trace.bytes + at);
        struct slice given = {station, LENGTH, LENGTH + entry % 2}, one = {trace.bytes + at, length, length + entry % 3 % 2};
        struct slice lent = {table, TABLE, TABLE + (entry + 1) % 2};
        const struct left *left = step_whole(given, one, ANSWER, lent);
        unsigned state = amsulfezd_answer_state(amsulfezd_answer(left->answer));
        memcpy(station, left->station, LENGTH);
        memcpy(table, left->table, TABLE);
        at += length;
        if ((states_seen & 1u << state) == 0) {
            states_seen |= 1u << state;
            memcpy(seen[state].station, station, LENGTH);
            amsulfezd_trace_counts(trace.bytes, at, seen[state].counts, COUNTS);
        }
        entry++;
        stepped++;
    }
    if (opened) {
        struct slice given = {station, LENGTH, LENGTH}, rest = {trace.bytes + at, trace.length - at, trace.length - at};
        struct slice lent = {table, TABLE, TABLE};
        step_refused(given, rest, ANSWER, lent, AMSULFEZD_REFUSAL_CUT);
        test_asked(trace, station, table, name);
    }
    free(trace.bytes);
}

int main(int count, char **words)
{
    static const uint8_t header[] = {HEADER}, none[COUNTS];
    uint8_t station[LENGTH], listening[LENGTH], answer[ANSWER];
    me = "test_beside";
    if (count < 2) {
        fail("usage: test_beside TRACE..");
    }
    catch_touches();
    lent_page = make_guarded();
    station_page = make_guarded();
    answer_page = make_guarded();
    table_page = make_guarded();
    for (unsigned address = 0; address <= LAST; address++) {
        put_entry(full_table, address, address + 1, address, 2 * address, (uint8_t)(address % 5));
    }
    amsulfezd_open_station(header, sizeof header, station, sizeof station);
    /* Online, and a poll in which it begins to listen. */
    memcpy(listening, station, LENGTH);
    amsulfezd_step_station(listening, LENGTH, online, sizeof online, answer, sizeof answer);
    amsulfezd_step_station(listening, LENGTH, poll, sizeof poll, answer, sizeof answer);
    test_hearing(listening);
    for (int i = 1; i < count; i++) {
        test_trace(words[i]);
    }
    test_count(station, none, 1);
    test_table();
    test_lengths(listening);
    test_order(station);
    for (size_t state = 0; state < sizeof seen / sizeof seen[0]; state++) {
        test_count(seen[state].station, seen[state].counts, LENGTH - 1);
        test_order(seen[state].station);
    }
    check(states_seen == (1u << (AMSULFEZD_STATE_PASSIVE_IDLE + 1)) - 1, "not every state was reached", "traces", states_seen);
    check(heard_at_all >= 50, "hardly anybody was heard", "traces", heard_at_all);
    printf("C host: beside a station its counts and who was heard, %lu entries of %d traces stepped, %lu checks\n", stepped,
           count - 1, checks);
    return EXIT_SUCCESS;
}
