/*
 * Tests the proved calls on captures from C, against bytes that are stated here by hand, from document 02, P13. What is lent,
 * each buffer and each number lies between two pages that may not be touched, once flush against the upper one and once flush
 * against the lower one, and the buffers are filled with a pattern: a byte read or written outside ends the program, and a
 * byte inside that should have kept its value is found.
 *
 * usage: test_captures
 */
#include "guarded.h"

/* The longest slice that is tried: eight telegrams of one time. */
enum { MOST = 80 };

/* The slices and numbers that a call is lent, a page each. */
static struct guarded lent_page, buffer_page, place_page, written_page;

typedef uint64_t call(const uint8_t *lent, size_t lent_len, uint8_t *buffer, size_t room, uint64_t *place, uint64_t *written);

/* A call with all that it should leave: the first `count` of `bytes`, the number, and the line or entry. */
struct stated {
    const char *name;
    const uint8_t *lent;
    size_t lent_len;
    const uint8_t *bytes;
    size_t count;
    unsigned number;
    uint64_t place;
};

/* A slice of this length at one end of its page, which is filled with the pattern first. */
static uint8_t *slice(struct guarded page, size_t length, bool upper, uint8_t pattern)
{
    memset(page.page, pattern, page.size);
    return at_end(page, length, upper);
}

/* That a page holds the pattern but for these bytes. */
static void kept_around(struct guarded page, const uint8_t *bytes, size_t length, uint8_t pattern, const char *name)
{
    size_t below = (size_t)(bytes - page.page);
    check(all_are(page.page, below, pattern), "a byte below a slice has changed", name, length);
    check(all_are(bytes + length, page.size - below - length, pattern), "a byte above a slice has changed", name, length);
}

/* Makes the call with this much room at both ends of the pages, and looks at all that it left. */
static void leaves(call *which, const struct stated *stated, size_t room)
{
    for (size_t i = 0; i < 2 * sizeof patterns; i++) {
        uint8_t pattern = patterns[i / 2];
        bool upper = i % 2 == 0;
        uint8_t *lent = slice(lent_page, stated->lent_len, upper, pattern);
        uint8_t *buffer = slice(buffer_page, room, upper, pattern);
        uint64_t *place = (uint64_t *)(void *)slice(place_page, sizeof *place, upper, pattern);
        uint64_t *written = (uint64_t *)(void *)slice(written_page, sizeof *written, upper, pattern);
        memcpy(lent, stated->lent, stated->lent_len);
        uint64_t returned = which(lent, stated->lent_len, buffer, room, place, written);
        check(returned == stated->number, "not the number that it should return", stated->name, room);
        check(*place == stated->place, "not the line or entry that it should say", stated->name, room);
        check(*written == stated->count, "not the bytes that it should say were written", stated->name, room);
        check(memcmp(buffer, stated->bytes, stated->count) == 0, "not the bytes that it should write", stated->name, room);
        check(all_are(buffer + stated->count, room - stated->count, pattern), "a byte past them has changed", stated->name,
              room);
        check(memcmp(lent, stated->lent, stated->lent_len) == 0, "what was lent has changed", stated->name, room);
        kept_around(lent_page, lent, stated->lent_len, pattern, stated->name);
        kept_around(buffer_page, buffer, room, pattern, stated->name);
        kept_around(place_page, (uint8_t *)place, sizeof *place, pattern, stated->name);
        kept_around(written_page, (uint8_t *)written, sizeof *written, pattern, stated->name);
    }
}

/*
 * Three lines, two of one time: a token from 9 to 5 and a short confirmation at 1,000 us, 8 + 6 + 8 = 22 bytes, count 2; a
 * status request from 9 to 5 at 2^48 - 1, 18 bytes, count 1.
 */
static const char text[] = "1000 dc0509\n1000 E5\n281474976710655 100509495716\n";
static const char lower[] = "1000 dc0509\n1000 e5\n281474976710655 100509495716\n";
static const uint8_t entries[] = {
    0x16, 0, 0, 0, 0, 0x03, 0xe8, 0x10, 0, 0, 0, 0, 0, 0, 0, 0x02, 0x89, 0, 0, 0x40, 0, 0, 0,
    0x12, 0xff, 0xff, 0xff, 0xff, 0xff, 0xff, 0x08, 0, 0, 0, 0, 0, 0, 0, 0x82, 0x89, 0x80, 0,
};
/* The first line alone. */
static const uint8_t one[] = {0x12, 0, 0, 0, 0, 0x03, 0xe8, 0x08, 0, 0, 0, 0, 0, 0, 0, 0x02, 0x89, 0, 0};

/* Where the lines end, in the text and in the entries. */
static const size_t line_ends[] = {0, 12, 20, sizeof text - 1};
static const size_t entry_ends[] = {0, sizeof one, sizeof one + 4, sizeof entries};

/* Every room: as many lines as there is room for. */
static void test_rooms(void)
{
    for (size_t room = 0; room <= MOST; room++) {
        size_t lines = 0, whole = 0;
        while (lines < 3 && entry_ends[lines + 1] <= room) {
            lines++;
        }
        while (whole < 3 && line_ends[whole + 1] <= room) {
            whole++;
        }
        struct stated import = {"an import", (const uint8_t *)text, sizeof text - 1, lines == 1 ? one : entries,
                                entry_ends[lines], lines == 3 ? AMSULFEZD_OK : AMSULFEZD_REFUSAL_NO_ROOM,
                                lines == 3 ? 0 : lines + 1};
        leaves(amsulfezd_import_capture, &import, room);
        struct stated export = {"an export", entries, sizeof entries, (const uint8_t *)lower, line_ends[whole],
                                whole == 3 ? AMSULFEZD_OK : AMSULFEZD_REFUSAL_NO_ROOM,
                                whole == 3 ? 0 : whole == 2 ? 2 : 1};
        leaves(amsulfezd_export_capture, &export, room);
    }
}

/* Every place to cut the text and the entries. */
static void test_cuts(void)
{
    for (size_t length = 0; length < sizeof text; length++) {
        size_t lines = 0;
        while (lines < 3 && line_ends[lines + 1] <= length) {
            lines++;
        }
        bool whole = line_ends[lines] == length;
        struct stated import = {"a cut text", (const uint8_t *)text, length, lines == 1 ? one : entries, entry_ends[lines],
                                whole ? AMSULFEZD_OK : AMSULFEZD_REFUSAL_CAPTURE_LINE, whole ? 0 : lines + 1};
        leaves(amsulfezd_import_capture, &import, MOST);
    }
    for (size_t length = 0; length <= sizeof entries; length++) {
        bool whole = length == 0 || length == 23 || length == sizeof entries;
        struct stated export = {"cut entries", entries, length, (const uint8_t *)lower,
                                length < 23 ? 0 : line_ends[length < sizeof entries ? 2 : 3],
                                whole ? AMSULFEZD_OK : AMSULFEZD_REFUSAL_CUT, whole ? 0 : length < 23 ? 1 : 2};
        leaves(amsulfezd_export_capture, &export, MOST);
    }
}

/* Lines that are refused behind eight of the time 7, and their numbers; room for all and for none. */
static void test_refused_lines(void)
{
    static const struct {
        unsigned number;
        unsigned without_room;
        const char *line;
    } refused[] = {
        {31, 31, "\n"},          {31, 31, "8 e5"},          {31, 31, "8 e5\r\n"},       {31, 31, "8\te5\n"},
        {31, 31, "8  e5\n"},     {31, 31, "8 e5 \n"},       {31, 31, "08 e5\n"},        {31, 31, "+8 e5\n"},
        {31, 31, "8 e\n"},       {31, 31, "8 \n"},          {31, 31, " e5\n"},          {31, 31, "8 g5\n"},
        {31, 31, "281474976710656 e5\n"},                   {31, 31, "18446744073709551624 e5\n"},
        {31, 31, "6 e\n"},       {31, 31, "7 e5"},          {32, 32, "6 e5\n"},         {32, 32, "6 00\n"},
        {33, 33, "7 e5\n"},      {33, 33, "7 00\n"},        {33, 33, "7 e5e5\n"},       {20, 20, "8 00\n"},
        {19, 19, "8 dc05\n"},    {19, 19, "8 68\n"},        {21, 21, "8 68030368\n"},   {22, 22, "8 100509495816\n"},
        {23, 23, "8 100509495717\n"},                       {24, 24, "8 dc8009\n"},     {34, 34, "8 100509c9d716\n"},
        {20, 20, "8 00e5\n"},    {31, 31, "8 e5e5\n"},      {31, 31, "8 dc050916\n"},   {0, 18, "8 e5\n"},
    };
    uint8_t expected[64] = {46, 0, 0, 0, 0, 0, 7, 0x40};
    for (size_t i = 0; i < 8; i++) {
        expected[15 + 4 * i] = 0x40;
    }
    for (size_t i = 0; i < sizeof refused / sizeof refused[0]; i++) {
        char lines[MOST] = "7 e5\n7 e5\n7 e5\n7 e5\n7 e5\n7 e5\n7 e5\n7 e5\n";
        strncat(lines, refused[i].line, sizeof lines - strlen(lines) - 1);
        struct stated import = {refused[i].line, (const uint8_t *)lines, strlen(lines), expected, 47, refused[i].without_room,
                                9};
        leaves(amsulfezd_import_capture, &import, 47);
        leaves(amsulfezd_import_capture, &import, 47 + 3);
        if (refused[i].number != 0) {
            import.number = refused[i].number;
            leaves(amsulfezd_import_capture, &import, MOST);
        }
    }
}

/* Entries that are refused behind a command and a line, and their numbers; and what is skipped. */
static void test_refused_entries(void)
{
    static const struct {
        unsigned number;
        size_t length;
        uint8_t bytes[20];
    } refused[] = {
        {12, 4, {3, 0, 0, 0}},
        {12, 16, {15}},
        {12, 15, {14, 0, 0, 0, 0, 0, 0, 8}},
        {13, 9, {8, 0, 0, 0, 0, 0, 0, 0x48}},
        {14, 15, {14, 0, 0, 0, 0, 0, 0, 0, 0, 0x40}},
        {14, 15, {14, 0, 0, 0, 0, 0, 0, 0, 0, 0, 0, 0, 0, 0, 1}},
        {15, 15, {14, 0, 0, 0, 0, 0, 0, 0, 0, 0x80}},
        {14, 19, {18, 0, 0, 0, 0, 0, 0, 8, 0, 0, 0, 0, 0, 0, 0, 0x40, 0x80}},
        {17, 3, {3, 0, 0}},
        {17, 1, {255}},
    };
    for (size_t i = 0; i < sizeof refused / sizeof refused[0]; i++) {
        uint8_t bytes[MOST] = {0};
        memcpy(bytes + 1, one, sizeof one);
        memcpy(bytes + 1 + sizeof one, refused[i].bytes, refused[i].length);
        struct stated export = {"a refused entry", bytes, 1 + sizeof one + refused[i].length, (const uint8_t *)lower, 12,
                                refused[i].number, 3};
        leaves(amsulfezd_export_capture, &export, 12);
        leaves(amsulfezd_export_capture, &export, MOST);
    }
    /* online, offline, passive; a request that is no status request; transmitting, pending bytes, decisions */
    static const uint8_t skipped[] = {0, 1, 2, 0x16, 0, 0, 0, 0, 0, 0, 0x97, 0xff, 0xca, 0x05, 0, 0x80, 0x05, 0,
                                      0x82, 0x89, 0, 0, 0x40, 0, 0, 0};
    struct stated export = {"what is skipped", skipped, sizeof skipped, (const uint8_t *)"0 e5\n", 5, AMSULFEZD_OK, 0};
    leaves(amsulfezd_export_capture, &export, 5);
    leaves(amsulfezd_export_capture, &export, MOST);
}

int main(int count, char **words)
{
    (void)words;
    if (count != 1) {
        fputs("test_captures: usage: test_captures\n", stderr);
        return EXIT_FAILURE;
    }
    catch_touches();
    lent_page = make_guarded();
    buffer_page = make_guarded();
    place_page = make_guarded();
    written_page = make_guarded();
    test_rooms();
    test_cuts();
    test_refused_lines();
    test_refused_entries();
    printf("C host: %lu checks of the calls on captures hold, each between two guard pages\n", checks);
    return EXIT_SUCCESS;
}
