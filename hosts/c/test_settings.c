/*
 * Tests the proved calls on settings in the caller's memory, against headers that are stated here by hand, from document 01,
 * "Settings" and "Trace". The header lies between two pages that may not be touched, flush against the upper or the lower one,
 * and everything else is filled with a pattern: a byte read or written outside ends the program, and a byte that should have
 * kept its value is found.
 *
 * usage: test_settings
 */
#include "guarded.h"

enum { LENGTH = AMSULFEZD_HEADER_LENGTH, MOST = LENGTH + 3 };

/* Each setter with its value as 32 bits. */
enum setter { SLOT, HSA, ROTATION, GAP_WAIT, RETRY, MIN_TSDR, WATCHDOG, FINISH, SETTERS };

static uint64_t call(enum setter setter, uint8_t *header, size_t length, uint32_t value)
{
    switch (setter) {
    case SLOT:
        return amsulfezd_set_slot_bits(header, length, (uint16_t)value);
    case HSA:
        return amsulfezd_set_highest_station_address(header, length, (uint8_t)value);
    case ROTATION:
        return amsulfezd_set_token_rotation_bits(header, length, value);
    case GAP_WAIT:
        return amsulfezd_set_gap_wait_rotations(header, length, (uint8_t)value);
    case RETRY:
        return amsulfezd_set_max_retry_limit(header, length, (uint8_t)value);
    case MIN_TSDR:
        return amsulfezd_set_min_tsdr_bits(header, length, (uint8_t)value);
    case WATCHDOG:
        return amsulfezd_set_watchdog_timeout(header, length, value);
    default:
        return amsulfezd_finish_settings(header, length);
    }
}

/* A call on a header: what it returns, and the header after it. A value in the place of the header's bytes from `at` on. */
struct stated {
    enum setter setter;
    uint32_t value;
    unsigned number;
    size_t at, count;
    uint8_t bytes[8];
};

/* Station 5 with one application, the defaults of baud code 6. */
#define FRESH 0x05, 0x06, 0x00, 0xc8, 0x00, 0x00, 0x7e, 0xb4, 0x0a, 0x7e, 0x01, 0x0b, 0x01, 0x00, 0x00, 0x00

/* One after the other on the same header: each boundary of each setter. */
static const struct stated stated[] = {
    {FINISH, 0, 0, 0, 0, {0}},
    {SLOT, 199, AMSULFEZD_REFUSAL_SLOT, 0, 0, {0}},
    {SLOT, 200, 0, 2, 2, {0x00, 0xc8}},
    {SLOT, 65535, 0, 2, 2, {0xff, 0xff}},
    {FINISH, 0, AMSULFEZD_REFUSAL_GAP_ROOM, 0, 0, {0}},
    {HSA, 5, AMSULFEZD_REFUSAL_HSA, 0, 0, {0}},
    {HSA, 127, AMSULFEZD_REFUSAL_HSA, 0, 0, {0}},
    {HSA, 6, 0, 4, 6, {0x00, 0x00, 0x75, 0x30, 0x0a, 0x06}},
    {HSA, 126, 0, 4, 6, {0x00, 0x09, 0x9c, 0xf0, 0x0a, 0x7e}},
    {FINISH, 0, 0, 0, 0, {0}},
    {ROTATION, 255, AMSULFEZD_REFUSAL_ROTATION, 0, 0, {0}},
    {ROTATION, 16777961, AMSULFEZD_REFUSAL_ROTATION, 0, 0, {0}},
    {ROTATION, 0x80000000u, AMSULFEZD_REFUSAL_ROTATION, 0, 0, {0}},
    {ROTATION, 16777960, 0, 4, 4, {0x01, 0x00, 0x02, 0xe8}},
    {ROTATION, 256, 0, 4, 4, {0x00, 0x00, 0x01, 0x00}},
    {FINISH, 0, AMSULFEZD_REFUSAL_GAP_ROOM, 0, 0, {0}},
    {GAP_WAIT, 0, AMSULFEZD_REFUSAL_GAP_WAIT, 0, 0, {0}},
    {GAP_WAIT, 101, AMSULFEZD_REFUSAL_GAP_WAIT, 0, 0, {0}},
    {GAP_WAIT, 1, 0, 8, 1, {0x01}},
    {GAP_WAIT, 100, 0, 8, 1, {0x64}},
    {RETRY, 0, AMSULFEZD_REFUSAL_RETRY, 0, 0, {0}},
    {RETRY, 16, AMSULFEZD_REFUSAL_RETRY, 0, 0, {0}},
    {RETRY, 15, 0, 10, 1, {0x0f}},
    {MIN_TSDR, 10, AMSULFEZD_REFUSAL_MIN_TSDR, 0, 0, {0}},
    {MIN_TSDR, 255, 0, 11, 1, {0xff}},
    {MIN_TSDR, 11, 0, 11, 1, {0x0b}},
    {WATCHDOG, 9, AMSULFEZD_REFUSAL_WATCHDOG, 0, 0, {0}},
    {WATCHDOG, 650001, AMSULFEZD_REFUSAL_WATCHDOG, 0, 0, {0}},
    {WATCHDOG, 0xffffffffu, AMSULFEZD_REFUSAL_WATCHDOG, 0, 0, {0}},
    {WATCHDOG, 10, 0, 13, 2, {0x01, 0x01}},
    {WATCHDOG, 10000, 0, 13, 2, {0x04, 0xfa}},
    {ROTATION, 32436, 0, 4, 4, {0x00, 0x00, 0x7e, 0xb4}},
    {SLOT, 200, 0, 2, 2, {0x00, 0xc8}},
    {FINISH, 0, 0, 0, 0, {0}},
};

static struct guarded page;

/* One call with this much room at one end; `after` has the header's bytes after it. */
static void call_once(enum setter setter, uint32_t value, const uint8_t *before, size_t length, unsigned number,
                      const uint8_t *after, bool upper, uint8_t pattern)
{
    memset(page.page, pattern, page.size);
    uint8_t *header = at_end(page, length, upper);
    memcpy(header, before, length < LENGTH ? length : LENGTH);
    uint64_t returned = call(setter, header, length, value);
    size_t have = length < LENGTH ? length : LENGTH;
    check(returned == number, "not what it should return", "setter", setter);
    check(memcmp(header, after, have) == 0, "not the header that it should be", "setter", setter);
    check(all_are(header + have, length - have, pattern), "a byte behind the header has changed", "setter", setter);
    check(all_are(page.page, (size_t)(header - page.page), pattern), "a byte below the slice has changed", "setter", setter);
    check(all_are(header + length, page.size - (size_t)(header - page.page) - length, pattern),
          "a byte above the slice has changed", "setter", setter);
}

/* With both patterns at both ends, and with bytes behind the header. */
static void call_all(enum setter setter, uint32_t value, const uint8_t *before, size_t length, unsigned number,
                     const uint8_t *after)
{
    for (size_t i = 0; i < 2 * sizeof patterns; i++) {
        call_once(setter, value, before, length, number, after, i % 2 == 0, patterns[i / 2]);
    }
}

/* A value that each setter takes. */
static const uint32_t good[SETTERS] = {300, 100, 5000, 5, 2, 20, 1000, 0};

/* Each setter's boundaries, one after the other on one header. */
static void test_stated(void)
{
    uint8_t header[LENGTH] = {FRESH};
    for (size_t i = 0; i < sizeof stated / sizeof stated[0]; i++) {
        uint8_t after[LENGTH];
        memcpy(after, header, LENGTH);
        memcpy(after + stated[i].at, stated[i].bytes, stated[i].count);
        for (size_t length = LENGTH; length <= MOST; length++) {
            call_all(stated[i].setter, stated[i].value, header, length, stated[i].number, after);
        }
        memcpy(header, after, LENGTH);
    }
}

/* Headers that are not taken, or are but for 25: the number of each call, nothing written where it is not 0. */
static void test_refused(void)
{
    static const struct {
        size_t at;
        uint8_t byte;
        unsigned number;
    } bad[] = {
        {0, 126, AMSULFEZD_REFUSAL_ADDRESS},      {0, AMSULFEZD_EDITION_2, AMSULFEZD_REFUSAL_ADDRESS},
        {1, 11, AMSULFEZD_REFUSAL_BAUD},          {3, 0x63, AMSULFEZD_REFUSAL_SLOT},
        {9, 5, AMSULFEZD_REFUSAL_HSA},            {9, 127, AMSULFEZD_REFUSAL_HSA},
        {4, 2, AMSULFEZD_REFUSAL_ROTATION},       {8, 101, AMSULFEZD_REFUSAL_GAP_WAIT},
        {10, 16, AMSULFEZD_REFUSAL_RETRY},        {11, 10, AMSULFEZD_REFUSAL_MIN_TSDR},
        {12, 9, AMSULFEZD_REFUSAL_APPLICATIONS},  {12, 0, AMSULFEZD_REFUSAL_APPLICATIONS},
        {13, 1, AMSULFEZD_REFUSAL_WATCHDOG},      {15, 1, AMSULFEZD_REFUSAL_ZERO_BIT},
    };
    static const uint8_t fresh[LENGTH] = {FRESH};
    for (int setter = 0; setter < SETTERS; setter++) {
        for (size_t length = 0; length < LENGTH; length++) {
            call_all((enum setter)setter, good[setter], fresh, length, AMSULFEZD_REFUSAL_CUT, fresh);
        }
        for (size_t i = 0; i < sizeof bad / sizeof bad[0]; i++) {
            /* With room for a gap poll, and without: then 25 and the later reason are both there. */
            for (int room = 0; room < 2; room++) {
                uint8_t header[LENGTH];
                memcpy(header, fresh, LENGTH);
                header[2] = room ? 0x00 : 0xff;
                header[bad[i].at] = bad[i].byte;
                unsigned number = bad[i].number;
                if (!room && bad[i].number == AMSULFEZD_REFUSAL_SLOT) {
                    continue; /* the slot is long enough then */
                }
                if (!room && setter == FINISH && bad[i].at != 0 && bad[i].at != 1 && bad[i].at != 9 && bad[i].at != 4) {
                    number = AMSULFEZD_REFUSAL_GAP_ROOM;
                }
                call_all((enum setter)setter, good[setter], header, LENGTH, number, header);
            }
        }
    }
}

/* A pair of factors that no time gives stays, and so do the applications. */
static void test_kept(void)
{
    static const uint8_t header[LENGTH] = {0x05, 0x06, 0x00, 0xc8, 0x00, 0x00, 0x7e, 0xb4,
                                           0x0a, 0x7e, 0x01, 0x0b, 0x08, 0xff, 0x01, 0x00};
    uint8_t after[LENGTH];
    memcpy(after, header, LENGTH);
    after[10] = 7;
    call_all(RETRY, 7, header, LENGTH, 0, after);
    memcpy(after, header, LENGTH);
    after[13] = 1;
    after[14] = 255;
    call_all(WATCHDOG, 2550, header, LENGTH, 0, after);
}

/* New settings of every address, baud code and number of applications at their ends, with every room. */
static void test_new(void)
{
    static const uint8_t least[11][2] = {{0, 100}, {0, 100}, {0, 100}, {0, 100}, {0, 100}, {0, 100},
                                         {0, 200}, {1, 44},  {1, 144}, {2, 88},  {3, 232}};
    for (unsigned address = 124; address < 128; address++) {
        for (unsigned baud = 0; baud < 13; baud++) {
            for (unsigned applications = 0; applications < 11; applications++) {
                for (size_t i = 0; i < 2 * sizeof patterns * (MOST + 1); i++) {
                    size_t length = i / (2 * sizeof patterns);
                    uint8_t pattern = patterns[i / 2 % sizeof patterns];
                    memset(page.page, pattern, page.size);
                    uint8_t *header = at_end(page, length, i % 2 == 0);
                    unsigned number = address > 125                           ? AMSULFEZD_REFUSAL_ADDRESS
                                      : baud > 10                             ? AMSULFEZD_REFUSAL_BAUD
                                      : applications < 1 || applications > 8 ? AMSULFEZD_REFUSAL_APPLICATIONS
                                      : length < LENGTH                       ? AMSULFEZD_REFUSAL_NO_ROOM
                                                                              : AMSULFEZD_OK;
                    uint64_t returned =
                        amsulfezd_new_settings((uint8_t)address, (uint8_t)baud, (uint8_t)applications, header, length);
                    check(returned == number, "not what it should return", "new", baud);
                    size_t written = number == 0 ? LENGTH : 0;
                    if (number == 0) {
                        uint8_t stated_header[LENGTH] = {FRESH};
                        stated_header[0] = (uint8_t)address;
                        stated_header[1] = (uint8_t)baud;
                        memcpy(stated_header + 2, least[baud], 2);
                        stated_header[12] = (uint8_t)applications;
                        check(memcmp(header, stated_header, LENGTH) == 0, "not the header that it should be", "new", baud);
                        check(amsulfezd_finish_settings(header, length) == 0, "new settings are not finished", "new", baud);
                    }
                    check(all_are(page.page, (size_t)(header - page.page), pattern), "a byte below has changed", "new", baud);
                    check(all_are(header + written, page.size - (size_t)(header - page.page) - written, pattern),
                          "a byte above the header has changed", "new", baud);
                }
            }
        }
    }
}

int main(void)
{
    catch_touches();
    page = make_guarded();
    test_stated();
    test_refused();
    test_kept();
    test_new();
    printf("C host: settings in the caller's memory, %lu checks\n", checks);
    return EXIT_SUCCESS;
}
