/*
 * Tests the proved calls on a station in the caller's memory. What they return, refuse and leave is stated here by hand, from
 * docs/FORMAT.md; what a step answers is held to the trace call: each trace that is named is stepped one entry at a time, and
 * every answer, the ending and the counts of the station's life are those of the calls on the whole trace. (test_beside.c does so
 * with a table of who was heard.) The order of refusals is tried on a station in each state. Header, station, entry and answer lie
 * each between two pages that may not be touched, flush against the upper or the lower one, and everything else is filled with a
 * pattern: a byte read or written outside ends the program, and a byte that should have kept its value is found.
 *
 * usage: test_station TRACE..
 */
#include "placed.h"

#include "files.h"

/* A station's header, in both editions. */
static const uint8_t header_1[] = {HEADER}, header_2[] = {HEADER_2};

/* Their fresh station, as docs/FORMAT.md, section 14, has it: offline, no field of a state, address 5 alone in the ring. */
static const uint8_t fresh[LENGTH] = {
    1, 0, 0, 0, 0, 0, 0, 0, HEADER, [80] = 0x04,
};

static struct guarded lent_page, station_page, answer_page;

/* ---- Opening ----------------------------------------------------------------------------------------------------------- */

/* Opens a station with so many bytes of a header and so much room: this number, and nothing written where it is not 0. */
static void open_once(const uint8_t *header, size_t length, size_t room, unsigned number, uint8_t *opened, bool upper,
                      uint8_t pattern)
{
    struct slice given = {header, length, length};
    const uint8_t *lent = placed(lent_page, given, upper, pattern);
    uint8_t *station = placed(station_page, room_of(room), upper, pattern);
    uint64_t returned = amsulfezd_open_station(lent, length, station, room);
    size_t written = number == AMSULFEZD_OK ? LENGTH : 0;
    check(returned == 256 * written + number, "not what it should return", "open", room);
    check(kept_around(station_page, station, written, pattern), "a byte that is not the station's has changed", "open", room);
    check(kept(lent_page, lent, given, pattern), "the header has changed", "open", length);
    memcpy(opened, station, written);
}

/* With both patterns at both ends, and the same station each time. */
static void open_all(const uint8_t *header, size_t length, size_t room, unsigned number, uint8_t *opened)
{
    uint8_t again[LENGTH] = {0};
    for (size_t i = 0; i < 2 * sizeof patterns; i++) {
        open_once(header, length, room, number, i == 0 ? opened : again, i % 2 == 0, patterns[i / 2]);
        check(number != AMSULFEZD_OK || memcmp(opened, again, LENGTH) == 0 || i == 0, "not the same station", "open", room);
    }
}

/* Every room around a station's length: the header's number, 18, or a station. */
static void open_rooms(const uint8_t *header, size_t length, unsigned number)
{
    uint8_t opened[LENGTH];
    for (size_t room = 0; room <= LENGTH + MORE; room++) {
        open_all(header, length, room,
                 number != AMSULFEZD_OK ? number : room < LENGTH ? (unsigned)AMSULFEZD_REFUSAL_NO_ROOM : (unsigned)AMSULFEZD_OK,
                 opened);
    }
}

/* Headers of every length, both editions, with and without bytes behind them, and one for each reason why they are refused. */
static void test_open(void)
{
    static const struct {
        size_t at;
        uint8_t byte;
        unsigned number;
    } refused[] = {{0, 126, AMSULFEZD_REFUSAL_ADDRESS},     {1, 11, AMSULFEZD_REFUSAL_BAUD},
                   {3, 0x63, AMSULFEZD_REFUSAL_SLOT},       {9, 5, AMSULFEZD_REFUSAL_HSA},
                   {4, 2, AMSULFEZD_REFUSAL_ROTATION},      {2, 0x7e, AMSULFEZD_REFUSAL_GAP_ROOM},
                   {8, 0, AMSULFEZD_REFUSAL_GAP_WAIT},      {10, 16, AMSULFEZD_REFUSAL_RETRY},
                   {11, 10, AMSULFEZD_REFUSAL_MIN_TSDR},    {12, 9, AMSULFEZD_REFUSAL_APPLICATIONS},
                   {13, 1, AMSULFEZD_REFUSAL_WATCHDOG},     {15, 1, AMSULFEZD_REFUSAL_ZERO_BIT}};
    uint8_t header[AMSULFEZD_HEADER_LENGTH + MORE];
    for (size_t length = 0; length <= sizeof header; length++) {
        memset(header, 0xff, sizeof header);
        memcpy(header, header_1, sizeof header_1);
        open_rooms(header, length, length < sizeof header_1 ? (unsigned)AMSULFEZD_REFUSAL_CUT : (unsigned)AMSULFEZD_OK);
        memset(header, 0xff, sizeof header);
        memcpy(header, header_2, sizeof header_2);
        open_rooms(header, length, length < sizeof header_2 ? (unsigned)AMSULFEZD_REFUSAL_CUT : (unsigned)AMSULFEZD_OK);
    }
    for (size_t i = 0; i < sizeof refused / sizeof refused[0]; i++) {
        memcpy(header, header_1, sizeof header_1);
        header[refused[i].at] = refused[i].byte;
        open_rooms(header, sizeof header_1, refused[i].number);
    }
    memcpy(header, header_2, sizeof header_2);
    header[13] = 1;
    open_rooms(header, sizeof header_2, AMSULFEZD_REFUSAL_ZERO_BIT);
}

/* ---- Stepping ---------------------------------------------------------------------------------------------------------- */

/* What a step leaves: what it returned, the station, and the answer's bytes. */
struct left {
    uint64_t returned;
    uint8_t station[LENGTH];
    uint8_t answer[ANSWER];
};

/* Steps, and sees that nothing was written but the first bytes of station and answer, and not those where it was refused. */
static struct left step_once(struct slice given, struct slice entry, size_t room, bool upper, uint8_t pattern)
{
    struct left left = {0, {0}, {0}};
    uint8_t *station = placed(station_page, given, upper, pattern);
    const uint8_t *lent = placed(lent_page, entry, upper, pattern);
    uint8_t *answer = placed(answer_page, room_of(room), upper, pattern);
    size_t have = given_in(given);
    left.returned = amsulfezd_step_station(station, given.length, lent, entry.length, answer, room);
    bool refused = amsulfezd_number(left.returned) != AMSULFEZD_OK;
    check(!refused || left.returned < 256, "a refusal with bytes", "step", given.length);
    check(kept_around(station_page, station, have, pattern), "a byte around the station has changed", "step", given.length);
    check(!refused || memcmp(station, given.bytes, have) == 0, "a refused step has changed the station", "step", given.length);
    check(kept_around(answer_page, answer, refused ? 0 : ANSWER, pattern), "a byte that is not the answer's has changed", "step",
          room);
    check(kept(lent_page, lent, entry, pattern), "the entry has changed", "step", entry.length);
    memcpy(left.station, station, have < LENGTH ? have : LENGTH);
    memcpy(left.answer, answer, refused ? 0 : ANSWER);
    return left;
}

/* With both patterns at both ends: the same is left each time. */
static struct left step_all(struct slice given, struct slice entry, size_t room)
{
    struct left left = step_once(given, entry, room, true, patterns[0]);
    for (size_t i = 1; i < 2 * sizeof patterns; i++) {
        struct left again = step_once(given, entry, room, i % 2 == 0, patterns[i / 2]);
        check(memcmp(&left, &again, sizeof left) == 0, "the same step leaves something else", "step", given.length);
    }
    return left;
}

/* A step that is refused with this number. */
static void step_refused(const uint8_t *station, size_t station_len, struct slice entry, size_t room, unsigned number)
{
    struct slice given = {station, LENGTH, station_len};
    check(step_all(given, entry, room).returned == number, "not the number that it should return", "step", number);
}

static const uint8_t poll[] = {POLL};
static const uint8_t short_record[] = {SHORT_RECORD};
static const uint8_t online[] = {AMSULFEZD_COMMAND_ONLINE};

/* The refusals of a step on this station, in their order: 36, 17, 18. */
static void test_order(const uint8_t *station)
{
    static const struct slice entries[] = {{online, 1, 1}, {poll, sizeof poll, sizeof poll}, {short_record, 4, 4}};
    static const struct slice no_entries[] = {{online, 1, 0}, {poll, sizeof poll, 1}, {short_record, 4, 3}};
    uint8_t broken[LENGTH];
    for (size_t i = 0; i < sizeof entries / sizeof entries[0]; i++) {
        for (size_t room = 0; room <= ANSWER + MORE; room++) {
            for (size_t length = 0; length < LENGTH; length += room % ANSWER == 0 ? 1 : 15) {
                step_refused(station, length, entries[i], room, AMSULFEZD_REFUSAL_STATION);
                step_refused(station, length, no_entries[i], room, AMSULFEZD_REFUSAL_STATION);
            }
            memcpy(broken, station, LENGTH);
            broken[0] ^= 0x80; /* another edition */
            for (size_t length = LENGTH; length <= LENGTH + MORE; length++) {
                step_refused(broken, length, entries[i], room, AMSULFEZD_REFUSAL_STATION);
                step_refused(broken, length, no_entries[i], room, AMSULFEZD_REFUSAL_STATION);
                step_refused(station, length, no_entries[i], room, AMSULFEZD_REFUSAL_CUT);
            }
        }
    }
    for (size_t cut = 0; cut < sizeof poll; cut++) {
        struct slice entry = {poll, sizeof poll, cut};
        step_refused(station, LENGTH, entry, 0, AMSULFEZD_REFUSAL_CUT);
        step_refused(station, LENGTH, entry, ANSWER, AMSULFEZD_REFUSAL_CUT);
    }
    for (size_t i = 0; i < sizeof entries / sizeof entries[0]; i++) {
        struct slice given = {station, LENGTH, LENGTH};
        struct left left = step_all(given, entries[i], ANSWER);
        check(left.returned == 256 * entries[i].count, "not what it should return", "step", entries[i].count);
        for (size_t room = 0; room < ANSWER; room++) {
            step_refused(station, LENGTH, entries[i], room, AMSULFEZD_REFUSAL_NO_ROOM);
        }
        /* Bytes behind station, entry and answer make no difference. */
        for (size_t more = 0; more <= MORE; more++) {
            struct slice longer = {station, LENGTH, LENGTH + more};
            struct slice entry = {entries[i].bytes, entries[i].count, entries[i].count + more};
            struct left again = step_all(longer, entry, ANSWER + more);
            check(memcmp(&left, &again, sizeof left) == 0, "bytes behind make a difference", "step", more);
        }
    }
}

/* ---- Traces ------------------------------------------------------------------------------------------------------------ */

static unsigned long stepped;
static unsigned states_seen;

/* The counts of the station's life are what the call on the whole trace says. */
static void test_asked(struct content trace, const uint8_t *station, const char *name)
{
    uint8_t stated[AMSULFEZD_COUNTS_LENGTH], read[AMSULFEZD_COUNTS_LENGTH];
    amsulfezd_trace_counts(trace.bytes, trace.length, stated, sizeof stated);
    check(amsulfezd_station_counts(station, LENGTH, read, sizeof read) == AMSULFEZD_OK && memcmp(stated, read, sizeof read) == 0,
          "not the trace's counts", name, trace.length);
}

/* A trace, stepped one entry at a time. */
static void test_trace(const char *name)
{
    struct content trace = read_file(name);
    size_t at = amsulfezd_header_length(trace.bytes, trace.length), room = ANSWER * trace.length, entry = 0;
    uint8_t *answers = take(room), station[LENGTH];
    uint64_t run = amsulfezd_replay_trace(trace.bytes, trace.length, answers, room);
    bool has_run = trace.length >= at && (amsulfezd_entries(run) != 0 || amsulfezd_ending(run) == AMSULFEZD_OK ||
                                          amsulfezd_ending(run) == AMSULFEZD_REFUSAL_CUT);
    open_all(trace.bytes, at < trace.length ? at : trace.length, LENGTH, has_run ? (unsigned)AMSULFEZD_OK : amsulfezd_ending(run),
             station);
    while (has_run && at < trace.length && entry_length(trace.bytes + at) <= trace.length - at) {
        struct slice given = {station, LENGTH, LENGTH + (entry + 1) % 2};
        struct slice one = {trace.bytes + at, entry_length(trace.bytes + at), entry_length(trace.bytes + at)};
        struct left left = step_all(given, one, ANSWER);
        check(entry < amsulfezd_entries(run), "more entries than the trace has", name, entry);
        check(left.returned == 256 * one.count, "not what it should return", name, entry);
        check(memcmp(left.answer, answers + ANSWER * entry, ANSWER) == 0, "not the trace's answer", name, entry + 1);
        uint64_t answer = amsulfezd_answer(left.answer);
        check(amsulfezd_answer_refusal(answer) == AMSULFEZD_OK || memcmp(station, left.station, LENGTH) == 0,
              "a refused entry has changed the station", name, entry + 1);
        memcpy(station, left.station, LENGTH);
        if ((states_seen & 1u << amsulfezd_answer_state(answer)) == 0) {
            states_seen |= 1u << amsulfezd_answer_state(answer);
            test_order(station);
        }
        at += one.count;
        entry++;
        stepped++;
    }
    if (has_run) {
        check(entry == amsulfezd_entries(run), "fewer entries than the trace has", name, entry);
        struct slice rest = {trace.bytes + at, trace.length - at, trace.length - at};
        step_refused(station, LENGTH, rest, ANSWER, AMSULFEZD_REFUSAL_CUT);
        check((at < trace.length) == (amsulfezd_ending(run) == AMSULFEZD_REFUSAL_CUT), "not the trace's ending", name, at);
        test_asked(trace, station, name);
    }
    free(answers);
    free(trace.bytes);
}

int main(int count, char **words)
{
    uint8_t station[LENGTH];
    me = "test_station";
    if (count < 2) {
        fail("usage: test_station TRACE..");
    }
    catch_touches();
    lent_page = make_guarded();
    station_page = make_guarded();
    answer_page = make_guarded();
    test_open();
    open_all(header_2, sizeof header_2, LENGTH, AMSULFEZD_OK, station);
    check(memcmp(station, fresh, LENGTH) == 0, "not the fresh station that it should be", "edition 2", LENGTH);
    open_all(header_1, sizeof header_1, LENGTH, AMSULFEZD_OK, station);
    check(memcmp(station, fresh, LENGTH) == 0, "not the fresh station that it should be", "edition 1", LENGTH);
    test_order(station);
    for (int i = 1; i < count; i++) {
        test_trace(words[i]);
    }
    check(states_seen == (1u << (AMSULFEZD_STATE_PASSIVE_IDLE + 1)) - 1, "not every state was reached", "traces", states_seen);
    printf("C host: a station in the caller's memory, %lu entries of %d traces stepped, %lu checks\n", stepped, count - 1, checks);
    return EXIT_SUCCESS;
}
