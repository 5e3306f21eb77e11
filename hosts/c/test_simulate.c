/*
 * Tests the proved calls that simulate several stations on one bus, against answers and records that are stated here by hand, from
 * document 02, P12. Setup and buffer lie each between two pages that may not be touched, flush against the upper or the lower one,
 * and are filled with a pattern: a byte read or written outside ends the program, and a byte inside that should have kept its
 * value is found.
 *
 * usage: test_simulate
 */
#include "guarded.h"

/* A station at 500 kbaud: slot 200 bits, which are 400 us, rotation 32,436, gap wait 10, HSA 126, retry 1, min Tsdr 11. */
#define STATION(address) (address), 6, 0, 200, 0, 0, 0x7e, 0xb4, 10, 126, 1, 11, 0, 0
#define NUMBER(n) (uint8_t)((n) >> 24), (uint8_t)((n) >> 16 & 255), (uint8_t)((n) >> 8 & 255), (uint8_t)((n) & 255)

/* An answer of eight bytes. */
#define ANSWER(a, b, c, d, e, f, g, h) 0x##a, 0x##b, 0x##c, 0x##d, 0x##e, 0x##f, 0x##g, 0x##h
#define LISTENS ANSWER(03, 10, 00, 00, 00, 00, 01, fc)
#define HEARS_2 ANSWER(03, 10, 00, 00, 01, 00, 00, 08)
#define CLAIMS_2 ANSWER(02, 42, 08, 00, 30, 00, 01, fc)
#define CLAIMS_5 ANSWER(02, 42, 14, 00, 30, 00, 01, fc)
#define HOLDS_2 ANSWER(02, 32, 08, 00, 30, 00, 01, fc)
#define HOLDS_5 ANSWER(02, 32, 14, 00, 30, 00, 01, fc)
#define DECLINES ANSWER(04, 60, 00, 00, 00, 00, 01, fc)

/* A record at a clock of four bytes, without a telegram, and with the token that 2 sent to itself. */
#define RECORD(clock) 14, 0, 0, NUMBER(clock), 0, 0, 0, 0, 0, 0, 0, 0
#define RECORD_WITH_TOKEN(clock) 18, 0, 0, NUMBER(clock), 8, 0, 0, 0, 0, 0, 0, 0, 1, 2, 0, 0

/* The header of a station's trace, and online. */
#define HEADER(address) (address), 6, 0, 200, 0, 0, 0x7e, 0xb4, 10, 126, 1, 11, 1, 0, 0, 0, 0

/*
 * Station 5 is given first, 2 second; the report goes by rising address. 2 takes the token for lost after 4,000 us, 5 after 6,400.
 * Ticks of 2,000 us: 2 claims at 4,000, and its token, which ends at 4,066, is in 5's record at 6,000. There 2 sends the second
 * one, and 5 consumes the first.
 */
static const uint8_t heard_setup[] = {2, NUMBER(2000), NUMBER(4), STATION(5), STATION(2)};
static const uint8_t heard_report[] = {LISTENS, LISTENS, LISTENS, LISTENS, CLAIMS_2, LISTENS, HOLDS_2, HEARS_2};
static const uint8_t heard_traces[][128] = {
    {HEADER(2), RECORD(0), RECORD(2000), RECORD(4000), RECORD(6000)},
    {HEADER(5), RECORD(0), RECORD(2000), RECORD(4000), RECORD_WITH_TOKEN(6000)},
};
static const size_t heard_lengths[] = {17 + 4 * 15, 17 + 3 * 15 + 19};

/*
 * Ticks of 4,000 us. At 8,000 the first token of 2 is in 5's record, but 5 has waited 6,400 us: it claims and consumes nothing.
 * So the token stands in its next record too. The tokens of 8,000, 2's second and 5's first, are of one tick: both are lost. So
 * is what is sent at 12,000, where 2's application declines and 5 alone sends: it is heard by 2 at 16,000.
 */
static const uint8_t kept_setup[] = {2, NUMBER(4000), NUMBER(4), STATION(2), STATION(5)};
static const uint8_t kept_report[] = {LISTENS, LISTENS, CLAIMS_2, LISTENS, HOLDS_2, CLAIMS_5, DECLINES, HOLDS_5};
static const uint8_t kept_traces[][128] = {
    {HEADER(2), RECORD(0), RECORD(4000), RECORD(8000), RECORD(12000)},
    {HEADER(5), RECORD(0), RECORD(4000), RECORD_WITH_TOKEN(8000), RECORD_WITH_TOKEN(12000)},
};
static const size_t kept_lengths[] = {17 + 4 * 15, 17 + 2 * 15 + 2 * 19};

/* Ticks of 8,000 us: both claim at the second, and each telegram meets the other's. */
static const uint8_t lost_setup[] = {2, NUMBER(8000), NUMBER(3), STATION(2), STATION(5)};
static const uint8_t lost_report[] = {LISTENS, LISTENS, CLAIMS_2, CLAIMS_5, HOLDS_2, HOLDS_5};
static const uint8_t lost_traces[][128] = {
    {HEADER(2), RECORD(0), RECORD(8000), RECORD(16000)},
    {HEADER(5), RECORD(0), RECORD(8000), RECORD(16000)},
};
static const size_t lost_lengths[] = {17 + 3 * 15, 17 + 3 * 15};

/* No tick at all: no report, and a trace of header and online. */
static const uint8_t none_setup[] = {2, NUMBER(1), NUMBER(0), STATION(2), STATION(5)};
static const uint8_t none_traces[][128] = {{HEADER(2)}, {HEADER(5)}};
static const size_t none_lengths[] = {17, 17};

static struct guarded setup_page, buffer_page;

/* The place that says that the whole is simulated. */
enum { WHOLE = -1 };

/* Calls with this much room, both buffers at the ends given, and looks at every byte. `bytes` is NULL where none is written. */
static void call_once(const uint8_t *setup, size_t length, int place, size_t room, uint64_t expected, const uint8_t *bytes,
                      size_t written, bool upper, uint8_t pattern)
{
    const char *what = place == WHOLE ? "simulate" : "simulated_trace";
    memset(setup_page.page, pattern, setup_page.size);
    memset(buffer_page.page, pattern, buffer_page.size);
    uint8_t *lent = at_end(setup_page, length, upper);
    uint8_t *buffer = at_end(buffer_page, room, upper);
    memcpy(lent, setup, length);

    uint64_t returned = place == WHOLE ? amsulfezd_simulate(lent, length, buffer, room)
                                       : amsulfezd_simulated_trace(lent, length, (uint8_t)place, buffer, room);

    check(returned == expected, "not what it should return", what, room);
    check(written == 0 || memcmp(buffer, bytes, written) == 0, "not the bytes that it should be", what, room);
    check(all_are(buffer + written, room - written, pattern), "a byte past them has changed", what, room);
    check(all_are(buffer_page.page, (size_t)(buffer - buffer_page.page), pattern), "a byte below the buffer has changed", what,
          room);
    check(all_are(buffer + room, buffer_page.size - (size_t)(buffer - buffer_page.page) - room, pattern),
          "a byte above the buffer has changed", what, room);
    check(memcmp(lent, setup, length) == 0, "the setup has changed", what, room);
}

/* Calls with both patterns at both ends. */
static void call(const uint8_t *setup, size_t length, int place, size_t room, uint64_t expected, const uint8_t *bytes,
                 size_t written)
{
    for (size_t i = 0; i < 2 * sizeof patterns; i++) {
        call_once(setup, length, place, room, expected, bytes, written, i % 2 == 0, patterns[i / 2]);
    }
}

/* A setup with its report and the traces of its two stations, with every room from none to more than enough. */
static void runs(const uint8_t *setup, size_t length, const uint8_t *report, size_t report_len, const uint8_t traces[][128],
                 const size_t *lengths)
{
    uint64_t ticks = amsulfezd_load(setup + 5, 4);
    for (size_t room = 0; room <= report_len + 9; room++) {
        bool enough = room >= report_len;
        call(setup, length, WHOLE, room, enough ? 256 * ticks : (uint64_t)AMSULFEZD_REFUSAL_NO_ROOM, report,
             enough ? report_len : 0);
    }
    for (int place = 0; place < 2; place++) {
        for (size_t room = 0; room <= lengths[place] + 9; room++) {
            bool enough = room >= lengths[place];
            call(setup, length, place, room, enough ? 256 * lengths[place] : (uint64_t)AMSULFEZD_REFUSAL_NO_ROOM,
                 traces[place], enough ? lengths[place] : 0);
        }
        /* what the trace call answers is the station's part, behind the answer to online */
        uint8_t answers[64];
        uint64_t returned = amsulfezd_replay_trace(traces[place], lengths[place], answers, sizeof answers);
        check(returned == 256 * (ticks + 1), "the trace is not replayed", "replay_trace", lengths[place]);
        for (uint64_t tick = 0; tick < ticks; tick++) {
            check(memcmp(answers + 8 * (tick + 1), report + 16 * tick + 8 * (size_t)place, 8) == 0, "not the station's part",
                  "replay_trace", (size_t)tick);
        }
    }
}

/* A setup that is refused with this number by both calls, whatever the room, and nothing is written. */
static void refused(const uint8_t *setup, size_t length, unsigned number)
{
    for (size_t room = 0; room <= 100; room += 20) {
        call(setup, length, WHOLE, room, number, NULL, 0);
        call(setup, length, 0, room, number, NULL, 0);
        call(setup, length, 255, room, number, NULL, 0);
    }
}

/* The same setup with this value at this place. */
static void refused_with(size_t at, uint8_t value, unsigned number)
{
    uint8_t setup[sizeof heard_setup];
    memcpy(setup, heard_setup, sizeof setup);
    setup[at] = value;
    refused(setup, sizeof setup, number);
}

/* Every refusal; then all faults at once, and one after the other made good, which shows their order. */
static void refusals(void)
{
    static const struct {
        size_t at;
        uint8_t value;
        unsigned number;
    } faults[] = {
        {0, 0, 29}, {0, 1, 29},  {0, 9, 29},   {0, 3, 17},   {1, 1, 28},  {5, 1, 35},  {10, 7, 30}, {24, 11, 30}, {9, 2, 27},
        {9, 126, 1}, {9, 0x82, 1}, {23, 255, 1}, {12, 199, 2}, {18, 5, 3}, {18, 127, 3}, {15, 0, 4},  {29, 0, 4},   {11, 0x7e, 25},
        {17, 0, 5},  {17, 101, 5}, {19, 0, 6},   {33, 16, 6},  {20, 10, 7}, {21, 1, 8},  {36, 1, 8},
    };
    uint8_t setup[sizeof heard_setup + 1];
    for (size_t i = 0; i < sizeof faults / sizeof faults[0]; i++) {
        refused_with(faults[i].at, faults[i].value, faults[i].number);
    }
    for (size_t length = 0; length < sizeof heard_setup; length++) {
        refused(heard_setup, length, AMSULFEZD_REFUSAL_CUT);
    }
    memcpy(setup, heard_setup, sizeof heard_setup);
    setup[sizeof heard_setup] = 0;
    refused(setup, sizeof setup, AMSULFEZD_REFUSAL_CUT);

    /* nine stations; no tick; too many ticks; codes 6 and 7; both addresses 200; the first with no gap wait and one factor */
    memset(setup + 1, 0, 4);
    memset(setup + 5, 255, 4);
    setup[0] = 9;
    setup[9] = setup[23] = 200;
    setup[24] = 7;
    setup[17] = 0;
    setup[21] = 1;
    refused(setup, 8, AMSULFEZD_REFUSAL_CUT);
    refused(setup, sizeof heard_setup, AMSULFEZD_REFUSAL_STATIONS);
    setup[0] = 2;
    refused(setup, sizeof setup, AMSULFEZD_REFUSAL_CUT);
    refused(setup, sizeof heard_setup, AMSULFEZD_REFUSAL_TICK);
    setup[4] = 1;
    refused(setup, sizeof heard_setup, AMSULFEZD_REFUSAL_TICKS);
    memcpy(setup + 5, heard_setup + 5, 4);
    refused(setup, sizeof heard_setup, AMSULFEZD_REFUSAL_BAUD_CODES);
    setup[24] = 6;
    refused(setup, sizeof heard_setup, AMSULFEZD_REFUSAL_EQUAL_ADDRESSES);
    setup[23] = 2;
    setup[31] = 101;
    refused(setup, sizeof heard_setup, AMSULFEZD_REFUSAL_ADDRESS);
    setup[9] = 5;
    refused(setup, sizeof heard_setup, AMSULFEZD_REFUSAL_GAP_WAIT);
    setup[17] = 10;
    refused(setup, sizeof heard_setup, AMSULFEZD_REFUSAL_WATCHDOG);
    setup[21] = 0;
    refused(setup, sizeof heard_setup, AMSULFEZD_REFUSAL_GAP_WAIT);
    setup[31] = 10;
    /* a place that no station has, before the room */
    for (size_t room = 0; room <= 200; room += 25) {
        call(setup, sizeof heard_setup, 2, room, AMSULFEZD_REFUSAL_STATIONS, NULL, 0);
        call(setup, sizeof heard_setup, 255, room, AMSULFEZD_REFUSAL_STATIONS, NULL, 0);
    }
}

int main(int count, char **words)
{
    (void)words;
    if (count != 1) {
        fprintf(stderr, "test_simulate: usage: test_simulate\n");
        return EXIT_FAILURE;
    }
    catch_touches();
    setup_page = make_guarded();
    buffer_page = make_guarded();
    runs(heard_setup, sizeof heard_setup, heard_report, sizeof heard_report, heard_traces, heard_lengths);
    runs(kept_setup, sizeof kept_setup, kept_report, sizeof kept_report, kept_traces, kept_lengths);
    runs(lost_setup, sizeof lost_setup, lost_report, sizeof lost_report, lost_traces, lost_lengths);
    runs(none_setup, sizeof none_setup, NULL, 0, none_traces, none_lengths);
    refusals();
    printf("C host: %lu checks of the calls on a simulated bus hold, each buffer between two guard pages\n", checks);
    return EXIT_SUCCESS;
}
