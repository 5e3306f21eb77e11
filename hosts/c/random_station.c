/*
 * Steps bytes that were made at random as if they were stations: each is refused with 36, or it is a sound station. The bytes lie
 * between two pages that may not be touched, flush against the upper or the lower one. Most are stations that the traces lead
 * through, with a bit, a byte or a part changed; some are wholly random.
 *
 * What is refused is refused whatever the entry and leaves everything as it was. What is taken is sound as docs/FORMAT.md says it of
 * a station's bytes, field by field; it is stepped along a few entries, each answered the same a second time, and is a sound station
 * after each.
 *
 * usage: random_station COUNT TRACE..
 */
#include "guarded.h"

#include "files.h"

enum { LENGTH = AMSULFEZD_STATION_LENGTH, ANSWER = AMSULFEZD_ANSWER_LENGTH };

/* How many stations of the traces are kept to be changed, and along how many entries a station is stepped. */
enum { POOL = 4096, STEPS = 4 };

static uint8_t pool[POOL][LENGTH];
static size_t pooled;

static struct guarded station_page;
static unsigned long refused, taken;

/* The next of a row of numbers, below a limit. */
static uint32_t below(uint32_t limit)
{
    static uint64_t row = 1;
    row = row * UINT64_C(6364136223846793005) + UINT64_C(1442695040888963407);
    return (uint32_t)((row >> 32) * limit >> 32);
}

/* ---- What is sound ----------------------------------------------------------------------------------------------------- */

/* The bytes of a station, and where its fields stand: docs/FORMAT.md, section 14. */
enum {
    EDITION = 0,
    CONNECTIVITY = 1,
    NEXT_APPLICATION = 2,
    LAPS = 3,
    FLAGS = 5,
    HEADER = 8,
    STATE = 24,
    REQUEST = 25,
    NEW_PREVIOUS = 26,
    COLLISIONS = 27,
    ATTEMPT = 28,
    ADDRESS = 29,
    FIRST_APPLICATION = 30,
    ZERO = 31,
    TOKEN_TIME = 32,
    LAST_TOKEN_TIME = 40,
    END_OF_HOLD = 48,
    ACTIVITY = 56,
    PENDING = 76,
    ZERO_2 = 78,
    GAP = 79,
    MEMBERS = 80
};
enum { NONE = 255, OFFLINE = 0, ONLINE = 2 };

/* A number of so many bytes. */
static uint64_t number_at(const uint8_t *station, size_t at, unsigned count)
{
    return amsulfezd_load(station + at, count);
}

static size_t applications_of(const uint8_t *station)
{
    return station[HEADER + 12];
}

/* The time of so many bits in microseconds, rounded up. */
static uint64_t time_of(const uint8_t *station, uint64_t bits)
{
    static const uint64_t rates[] = {9600,   19200,   31250,   45450,   93750,   187500,
                                     500000, 1500000, 3000000, 6000000, 12000000};
    uint64_t rate = rates[station[HEADER + 1]];
    return (bits * 1000000 + rate - 1) / rate;
}

/* A clock has 48 bits. */
static bool is_clock(uint64_t time)
{
    return time >> 48 == 0;
}

/* A poll record has 11 bits for the pending bytes. */
static bool is_pending(uint64_t bytes)
{
    return bytes >> 11 == 0;
}

/* An address that the state holds, or none. */
static bool is_address_or_none(uint8_t byte)
{
    return byte < 128 || byte == NONE;
}

/* The header is accepted, the numbers beside it are in their ranges, and what is unused is zero. */
static bool sound_whole(const uint8_t *station)
{
    uint64_t flags = number_at(station, FLAGS, 3);
    uint8_t own = station[HEADER];
    return station[EDITION] == 1 && amsulfezd_finish_settings(station + HEADER, AMSULFEZD_HEADER_LENGTH) == AMSULFEZD_OK &&
           station[CONNECTIVITY] <= ONLINE && station[NEXT_APPLICATION] < applications_of(station) &&
           number_at(station, LAPS, 2) <= 2 && flags <= 7 && is_pending(number_at(station, PENDING, 2)) && station[ZERO] == 0 &&
           station[ZERO_2] == 0 &&
           (station[MEMBERS + own / 8] >> (7 - own % 8) & 1) == 1 &&
           (station[MEMBERS + 15] & 3) == 0;
}

/* Whether the gap is polled. */
static bool is_polled(const uint8_t *station)
{
    return (station[FLAGS + 2] & 2) != 0;
}

/* The gap state: an address below HSA that is polled and is not our own, or a count of rotations. */
static bool sound_gap(const uint8_t *station)
{
    return is_polled(station) ? station[GAP] < station[HEADER + 9] && station[GAP] != station[HEADER]
                              : station[GAP] <= station[HEADER + 8] + 1;
}

/* The times: the last activity, where it is known, and the end of hold. */
static bool sound_times(const uint8_t *station)
{
    bool known = (station[FLAGS + 2] & 1) != 0;
    uint64_t activity = number_at(station, ACTIVITY, 8), end = number_at(station, END_OF_HOLD, 8);
    uint64_t span = time_of(station, number_at(station, HEADER + 4, 4));
    uint64_t less = time_of(station, number_at(station, HEADER + 2, 2) + 100);
    uint64_t latest = (UINT64_C(1) << 48) - 1 + time_of(station, 11 * 255);
    uint64_t last = number_at(station, LAST_TOKEN_TIME, 8);
    bool fresh = end == 0 && last == 0;
    bool set = is_clock(end - span) && end - span != last;
    bool set_for_gap = is_clock(end - span + less) && end - span + less != last;
    return is_clock(last) && (known ? activity <= latest : activity == 0) && (fresh || set || set_for_gap);
}

/* Nothing but the activity and the connectivity is other than in a fresh station. */
static bool is_fresh(const uint8_t *station)
{
    return number_at(station, LAST_TOKEN_TIME, 8) == 0 && number_at(station, END_OF_HOLD, 8) == 0 && !is_polled(station) &&
           station[GAP] == 0 && number_at(station, PENDING, 2) == 0 && station[NEXT_APPLICATION] == 0;
}

/* The fields that a state can have. */
enum { FLAG = 1, ASKED = 2, PREVIOUS = 4, COLLIDED = 8, TRIED = 16, AWAITED = 32, TOKEN = 64 };

/* Those of each state. */
static const unsigned fields[] = {
    [AMSULFEZD_STATE_OFFLINE] = 0,
    [AMSULFEZD_STATE_LISTEN_TOKEN] = ASKED | COLLIDED,
    [AMSULFEZD_STATE_ACTIVE_IDLE] = ASKED | PREVIOUS | COLLIDED,
    [AMSULFEZD_STATE_USE_TOKEN] = FLAG | TOKEN,
    [AMSULFEZD_STATE_CLAIM_TOKEN] = 0,
    [AMSULFEZD_STATE_AWAIT_DATA_RESPONSE] = AWAITED | TOKEN,
    [AMSULFEZD_STATE_PASS_TOKEN] = FLAG,
    [AMSULFEZD_STATE_CHECK_TOKEN_PASS] = TRIED,
    [AMSULFEZD_STATE_AWAIT_STATUS_RESPONSE] = AWAITED,
    [AMSULFEZD_STATE_PASSIVE_IDLE] = ASKED,
};

/* The fields of the state are in their ranges, and those that it does not have are zero. */
static bool sound_fields(const uint8_t *station, unsigned has)
{
    uint8_t first = station[FIRST_APPLICATION];
    return ((has & FLAG) != 0 || station[STATE] % 2 == 0) &&
           ((has & ASKED) != 0 ? is_address_or_none(station[REQUEST]) : station[REQUEST] == 0) &&
           ((has & PREVIOUS) != 0 ? is_address_or_none(station[NEW_PREVIOUS]) : station[NEW_PREVIOUS] == 0) &&
           station[COLLISIONS] <= ((has & COLLIDED) != 0 ? 1 : 0) && station[ATTEMPT] <= ((has & TRIED) != 0 ? 2 : 0) &&
           station[ADDRESS] <= ((has & AWAITED) != 0 ? 127 : 0) &&
           ((has & TOKEN) != 0 ? first == NONE || first < applications_of(station) : first == 0) &&
           ((has & TOKEN) != 0 ? is_clock(number_at(station, TOKEN_TIME, 8)) : number_at(station, TOKEN_TIME, 8) == 0);
}

/* The state, and what it says of the rest: when it is offline, when the activity is known, which token is in hand, who is asked. */
static bool sound_state(const uint8_t *station)
{
    unsigned state = station[STATE] / 2u;
    uint8_t own = station[HEADER];
    bool known = (station[FLAGS + 2] & 1) != 0;
    bool last_token = number_at(station, TOKEN_TIME, 8) == number_at(station, LAST_TOKEN_TIME, 8);
    if (state > AMSULFEZD_STATE_PASSIVE_IDLE || !sound_fields(station, fields[state])) {
        return false;
    }
    switch (state) {
    case AMSULFEZD_STATE_OFFLINE:
        return is_fresh(station);
    case AMSULFEZD_STATE_LISTEN_TOKEN:
        return station[CONNECTIVITY] != OFFLINE && station[REQUEST] != own;
    case AMSULFEZD_STATE_ACTIVE_IDLE:
        return station[CONNECTIVITY] != OFFLINE && known && station[NEW_PREVIOUS] != own;
    case AMSULFEZD_STATE_PASSIVE_IDLE:
        return station[CONNECTIVITY] != OFFLINE && station[REQUEST] != own && (known || station[REQUEST] == NONE);
    case AMSULFEZD_STATE_USE_TOKEN:
        return station[CONNECTIVITY] != OFFLINE && known &&
               (station[STATE] % 2 == 0 ? station[FIRST_APPLICATION] == NONE : last_token);
    case AMSULFEZD_STATE_AWAIT_STATUS_RESPONSE:
        return station[CONNECTIVITY] != OFFLINE && known && is_polled(station) && station[ADDRESS] == station[GAP];
    case AMSULFEZD_STATE_AWAIT_DATA_RESPONSE:
        return station[CONNECTIVITY] != OFFLINE && known && last_token;
    default:
        return station[CONNECTIVITY] != OFFLINE && known;
    }
}

/* Whether bytes are a sound station, as docs/FORMAT.md says it field by field. */
static bool sound(const uint8_t *station)
{
    return sound_whole(station) && sound_gap(station) && sound_times(station) && sound_state(station);
}

/* ---- What is tried ------------------------------------------------------------------------------------------------------- */

/* Keeps the stations that a trace leads through, as far as there is place. */
static void keep_stations(const char *name)
{
    struct content trace = read_file(name);
    size_t at = amsulfezd_header_length(trace.bytes, trace.length);
    uint8_t station[LENGTH], answer[ANSWER];
    uint64_t returned = amsulfezd_open_station(trace.bytes, trace.length, station, sizeof station);
    while (amsulfezd_number(returned) == AMSULFEZD_OK && pooled < POOL) {
        check(sound(station), "a station that is stepped is not sound", name, at);
        memcpy(pool[pooled++], station, LENGTH);
        returned = amsulfezd_step_station(station, sizeof station, trace.bytes + at, trace.length - at, answer, sizeof answer);
        at += amsulfezd_stepped(returned);
    }
    free(trace.bytes);
}

/* A station of the traces with one thing changed. */
static void change(uint8_t *station)
{
    static const uint8_t edges[] = {0, 1, 2, 3, 8, 9, 10, 124, 125, 126, 127, 128, 254, 255};
    size_t at = below(LENGTH), count = 1 + below(16);
    const uint8_t *other = pool[below((uint32_t)pooled)];
    switch (below(5)) {
    case 0: /* a bit */
        station[at] ^= (uint8_t)(1u << below(8));
        break;
    case 1: /* a byte */
        station[at] = (uint8_t)below(256);
        break;
    case 2: /* a byte that is often a border */
        station[at] = edges[below(sizeof edges)];
        break;
    case 3: /* one more or one less */
        station[at] = (uint8_t)(station[at] + (below(2) == 0 ? 1 : 255));
        break;
    default: /* a part of another station */
        memcpy(station + at, other + at, at + count < LENGTH ? count : LENGTH - at);
        break;
    }
}

/* Bytes to be tried. */
static void make(uint8_t *station)
{
    uint32_t choice = below(16);
    memcpy(station, pool[below((uint32_t)pooled)], LENGTH);
    if (choice == 0) {
        /* wholly random, half of them with the edition's byte */
        for (size_t i = below(2); i < LENGTH; i++) {
            station[i] = (uint8_t)below(256);
        }
    } else {
        for (uint32_t changes = 1 + below(3); changes != 0; changes--) {
            change(station);
        }
    }
}

/* An entry for a station with so many applications; seldom one that it refuses. */
static size_t make_entry(uint8_t *to, size_t applications)
{
    static const uint64_t steps[] = {0, 1, 66, 400, 6400, 100000};
    static uint64_t clock;
    struct amsulfezd_decisions decisions[8];
    struct amsulfezd_telegram telegrams[2];
    clock = below(8) == 0 ? (uint64_t)below(UINT32_MAX) << 16 : clock + steps[below(6)];
    clock &= (UINT64_C(1) << 48) - 1;
    struct amsulfezd_poll poll = amsulfezd_poll_at(clock, below(64) == 0 ? applications % 8 + 1 : applications);
    if (below(16) == 0) {
        return amsulfezd_write_command(to, AMSULFEZD_ENTRY_LENGTH, below(3));
    }
    for (size_t i = 0; i < 8; i++) {
        decisions[i].normal = below(2) == 0 ? amsulfezd_asks((uint8_t)below(128), 10) : amsulfezd_declines();
        decisions[i].high = below(2) == 0 ? amsulfezd_tells(10) : amsulfezd_declines();
    }
    poll.telegram_count = below(3);
    for (size_t i = 0; i < poll.telegram_count; i++) {
        uint8_t source = (uint8_t)below(128), destination = (uint8_t)below(128);
        telegrams[i] = below(2) == 0 ? amsulfezd_token(source, destination) : amsulfezd_status_request(source, destination);
    }
    poll.decisions = decisions;
    poll.telegrams = telegrams;
    poll.pending = (uint16_t)(below(4) == 0 ? below(2048) : 0);
    return amsulfezd_write_poll(to, AMSULFEZD_ENTRY_LENGTH, &poll);
}

/* A station that was taken: stepping goes on, and a step that is made again leaves the same. */
static void step_on(uint8_t *station)
{
    for (int i = 0; i < STEPS; i++) {
        uint8_t entry[AMSULFEZD_ENTRY_LENGTH], answer[ANSWER], before[LENGTH], after[LENGTH], again[ANSWER];
        size_t length = make_entry(entry, applications_of(station));
        memcpy(before, station, LENGTH);
        check(amsulfezd_step_station(station, LENGTH, entry, length, answer, ANSWER) == 256 * length, "it is not stepped",
              "taken", length);
        uint64_t word = amsulfezd_answer(answer);
        check(amsulfezd_answer_state(word) <= AMSULFEZD_STATE_PASSIVE_IDLE, "there is no such state", "taken", length);
        check(amsulfezd_answer_refusal(word) == AMSULFEZD_OK || memcmp(before, station, LENGTH) == 0,
              "a refused entry has changed the station", "taken", length);
        check(sound(station), "it is not sound after a step", "taken", (size_t)i);
        memcpy(after, station, LENGTH);
        memcpy(station, before, LENGTH);
        amsulfezd_step_station(station, LENGTH, entry, length, again, ANSWER);
        check(memcmp(after, station, LENGTH) == 0 && memcmp(answer, again, ANSWER) == 0, "the same step leaves something else",
              "taken", length);
    }
}

/* Tries these bytes. */
static void try_bytes(const uint8_t *bytes, bool upper)
{
    static const uint8_t online[] = {AMSULFEZD_COMMAND_ONLINE};
    uint8_t *station = at_end(station_page, LENGTH, upper), answer[ANSWER];
    memcpy(station, bytes, LENGTH);
    memset(answer, 0xa5, ANSWER);
    uint64_t number = amsulfezd_step_station(station, LENGTH, online, 0, answer, 0);
    check(memcmp(station, bytes, LENGTH) == 0, "an empty entry has changed the bytes", "tried", LENGTH);
    check(number == (sound(bytes) ? AMSULFEZD_REFUSAL_CUT : AMSULFEZD_REFUSAL_STATION), "refused though sound, or taken though not",
          "tried", (size_t)number);
    if (number == AMSULFEZD_REFUSAL_STATION) {
        check(amsulfezd_step_station(station, LENGTH, online, 1, answer, ANSWER) == AMSULFEZD_REFUSAL_STATION,
              "refused for one entry and not for another", "tried", LENGTH);
        check(memcmp(station, bytes, LENGTH) == 0 && all_are(answer, ANSWER, 0xa5), "what is refused writes", "tried", LENGTH);
        refused++;
    } else {
        step_on(station);
        taken++;
    }
}

int main(int count, char **words)
{
    char *end = NULL;
    unsigned long tries = count < 3 ? 0 : strtoul(words[1], &end, 10);
    uint8_t bytes[LENGTH];
    me = "random_station";
    if (tries == 0 || *end != '\0') {
        fail("usage: random_station COUNT TRACE..");
    }
    catch_touches();
    station_page = make_guarded();
    for (int i = 2; i < count; i++) {
        keep_stations(words[i]);
    }
    check(pooled > 0, "no trace has a station", "pool", 0);
    for (unsigned long i = 0; i < tries; i++) {
        make(bytes);
        try_bytes(bytes, i % 2 == 0);
    }
    check(refused > tries / 100 && taken > tries / 100, "hardly any were refused, or hardly any taken", "tried", tries);
    printf("C host: %lu stations of random or changed bytes, %lu refused, %lu sound and stepped on\n", tries, refused, taken);
    return EXIT_SUCCESS;
}
