/*
 * Tests the readers and writers of amsulfezd.h against bytes that are stated here by hand, from document 01, its
 * example 12 and the trace and answers of docs/QUALIFICATION.md, part 5, and from document 02, P6, P7 and P9. It calls nothing of
 * the library, and it is C99 and C++11 at once, so that it shows that the header is both. hosts.sh plants faults in the header, each of which it
 * must find.
 *
 * usage: fields
 */
#include "amsulfezd.h"

#include <stdio.h>
#include <stdlib.h>
#include <string.h>

/* What a buffer is filled with before something is written to it. */
enum { PATTERN = 0xa5 };

static unsigned long checks;

/* Ends the program if something that should hold does not. */
static void check(int holds, const char *what, const char *where)
{
    checks++;
    if (!holds) {
        fprintf(stderr, "fields: %s (%s)\n", what, where);
        exit(EXIT_FAILURE);
    }
}

/* The bytes that digits give, two or eight to a byte: hexadecimal or binary. Blanks are left out. */
static size_t bytes_of(const char *digits, unsigned base, uint8_t *bytes)
{
    const size_t to_a_byte = base == 16 ? 2 : 8;
    size_t count = 0;
    unsigned byte = 0;
    for (; *digits != '\0'; digits++) {
        const char digit[2] = {*digits, '\0'};
        if (*digits == ' ') {
            continue;
        }
        byte = byte * base + (unsigned)strtoul(digit, NULL, (int)base);
        count++;
        if (count % to_a_byte == 0) {
            bytes[count / to_a_byte - 1] = (uint8_t)byte;
            byte = 0;
        }
    }
    check(count % to_a_byte == 0, "not whole bytes", digits);
    return count / to_a_byte;
}

/* ---- Readers ----------------------------------------------------------------------------------------------------- */

/* An answer's fields, in their order. */
enum { FIELDS = 15 };

static void reads(const char *digits, unsigned base, const unsigned fields[FIELDS])
{
    uint8_t bytes[AMSULFEZD_ANSWER_LENGTH];
    const size_t count = bytes_of(digits, base, bytes);
    const uint64_t answer = amsulfezd_answer(bytes);
    check(count == AMSULFEZD_ANSWER_LENGTH, "not 8 bytes", digits);
    check(amsulfezd_answer_refusal(answer) == fields[0], "refusal", digits);
    check(amsulfezd_answer_outcome(answer) == fields[1], "outcome", digits);
    check(amsulfezd_answer_state(answer) == fields[2], "state", digits);
    check(amsulfezd_answer_sent(answer) == fields[3], "sent kind", digits);
    check(amsulfezd_answer_destination(answer) == fields[4], "destination", digits);
    check(amsulfezd_answer_response_type(answer) == fields[5], "response type", digits);
    check(amsulfezd_answer_application(answer) == fields[6], "application", digits);
    check(amsulfezd_answer_high(answer) == fields[7], "high", digits);
    check(amsulfezd_answer_bytes(answer) == fields[8], "bytes", digits);
    check(amsulfezd_answer_consumed(answer) == fields[9], "telegrams consumed", digits);
    check(amsulfezd_answer_notice(answer) == fields[10], "notice", digits);
    check(amsulfezd_answer_notice_application(answer) == fields[11], "the notice's application", digits);
    check(amsulfezd_answer_notice_address(answer) == fields[12], "the notice's address", digits);
    check(amsulfezd_answer_next_application(answer) == fields[13], "next application", digits);
    check(amsulfezd_answer_next_station(answer) == fields[14], "next station", digits);
}

static void test_readers(void)
{
    /* Example 12, alone: after online, the first poll, the claim, and the second token. */
    static const unsigned online[FIELDS] = {0, 0, 0, 0, 0, 0, 0, 0, 0, 0, 0, 0, 0, 0, 127};
    static const unsigned listens[FIELDS] = {0, 3, 1, 0, 0, 0, 0, 0, 0, 0, 0, 0, 0, 0, 127};
    static const unsigned claims[FIELDS] = {0, 2, 4, 1, 5, 0, 0, 0, 3, 0, 0, 0, 0, 0, 127};
    static const unsigned holds[FIELDS] = {0, 2, 3, 1, 5, 0, 0, 0, 3, 0, 0, 0, 0, 0, 127};
    /* QUALIFICATION, part 5: application 0 asks 20, times out, and sends no bytes. Alone, and then with 9 as next. */
    static const unsigned asks[FIELDS] = {0, 2, 5, 4, 20, 0, 0, 0, 10, 0, 0, 0, 0, 0, 127};
    static const unsigned times_out[FIELDS] = {0, 4, 6, 0, 0, 0, 0, 0, 0, 0, 2, 0, 20, 0, 127};
    static const unsigned refused[FIELDS] = {15, 0, 3, 0, 0, 0, 0, 0, 0, 0, 0, 0, 0, 0, 127};
    static const unsigned two[FIELDS] = {15, 0, 3, 0, 0, 0, 0, 0, 0, 0, 0, 0, 0, 0, 9};
    /* Document 02, P10: a passive station answers 9's request with "slave". */
    static const unsigned passive[FIELDS] = {0, 2, 9, 3, 9, 0, 0, 0, 6, 0, 0, 0, 0, 0, 7};
    /* Every second field full, then the others. */
    static const unsigned even[FIELDS] = {31, 0, 15, 0, 127, 0, 7, 0, 255, 0, 3, 0, 127, 0, 127};
    static const unsigned odd[FIELDS] = {0, 7, 0, 7, 0, 3, 0, 1, 0, 15, 0, 7, 0, 7, 0};
    reads("00000000000001fc", 16, online);
    reads("03100000000001fc", 16, listens);
    reads("02421400300001fc", 16, claims);
    reads("02321400300001fc", 16, holds);
    reads("02585000a00001fc", 16, asks);
    reads("04600000008141fc", 16, times_out);
    reads("78300000000001fc", 16, refused);
    reads("7830000000000024", 16, two);
    reads("029624006000001c", 16, passive);
    reads("11111 000 1111 000 1111111 00 111 0 11111111 0000 11 000 1111111 000 1111111 00", 2, even);
    reads("00000 111 0000 111 0000000 11 000 1 00000000 1111 00 111 0000000 111 0000000 11", 2, odd);
    check(AMSULFEZD_NOBODY == 127, "not document 02's number", "AMSULFEZD_NOBODY");
    check(amsulfezd_answer_next_station(UINT64_C(0x00000000000001fc)) == AMSULFEZD_NOBODY, "nobody", "alone");
    check(amsulfezd_answer_next_station(UINT64_C(0x0000000000000014)) != AMSULFEZD_NOBODY, "a station", "5 is next");
    check(amsulfezd_entries(1000 * 256 + 17) == 1000, "entries", "1000 * 256 + 17");
    check(amsulfezd_ending(6 * 256 + 17) == 17, "ending number", "6 * 256 + 17");
}

/* An entry of who was heard has these fields: times, first, last, response seen, type. */
static void reads_heard(const char *digits, const uint64_t fields[5])
{
    uint8_t bytes[AMSULFEZD_HEARD_LENGTH + 1] = {0};
    const size_t count = bytes_of(digits, 16, bytes);
    const struct amsulfezd_heard heard = amsulfezd_heard_of(bytes);
    check(count == AMSULFEZD_HEARD_LENGTH, "not 17 bytes", digits);
    check(heard.times == fields[0], "times heard", digits);
    check(heard.first == fields[1], "first clock", digits);
    check(heard.last == fields[2], "last clock", digits);
    check(heard.response_seen == fields[3], "response seen", digits);
    check(heard.station_type == fields[4], "station type", digits);
}

/* Entries of document 02, P7, by hand; and its number. */
static void test_heard(void)
{
    static const uint64_t never[5] = {0, 0, 0, 0, 0};
    static const uint64_t token[5] = {1, 1500, 1500, 0, 0};
    static const uint64_t slave[5] = {3, 8000, 1000, 1, 0};
    static const uint64_t in_ring[5] = {256, 0, UINT64_C(0xffffffffffff), 1, 3};
    static const uint64_t even[5] = {UINT64_C(0xffffffff), 0, UINT64_C(0xffffffffffff), 0, 0};
    static const uint64_t odd[5] = {0, UINT64_C(0xffffffffffff), 0, 1, 2};
    static const uint64_t unlike[5] = {UINT64_C(0x01020304), UINT64_C(0x05060708090a), UINT64_C(0x0b0c0d0e0f10), 1, 1};
    reads_heard("00000000 000000000000 000000000000 00", never);
    reads_heard("00000001 0000000005dc 0000000005dc 00", token);
    reads_heard("00000003 000000001f40 0000000003e8 01", slave);
    reads_heard("00000100 000000000000 ffffffffffff 04", in_ring);
    reads_heard("ffffffff 000000000000 ffffffffffff 00", even);
    reads_heard("00000000 ffffffffffff 000000000000 03", odd);
    reads_heard("01020304 05060708090a 0b0c0d0e0f10 02", unlike);
    check(AMSULFEZD_HEARD_LENGTH == 4 + 6 + 6 + 1 && AMSULFEZD_LAST_ADDRESS == 125, "lengths", "who was heard");
    check(AMSULFEZD_REFUSAL_ASKED_ADDRESS == 26, "not document 02's number", "who was heard");
}

/* The counts of a station's life are these: claims, removals, meetings. */
static void reads_counts(const char *digits, uint32_t claims, uint32_t removals, uint32_t meetings)
{
    uint8_t bytes[AMSULFEZD_COUNTS_LENGTH + 1] = {0};
    const size_t count = bytes_of(digits, 16, bytes);
    const struct amsulfezd_counts counts = amsulfezd_counts_of(bytes);
    check(count == AMSULFEZD_COUNTS_LENGTH, "not 12 bytes", digits);
    check(counts.claims == claims, "claims", digits);
    check(counts.removals == removals, "removals", digits);
    check(counts.meetings == meetings, "meetings", digits);
}

/* Counts: none, each alone, all at their largest, and no two bytes alike. */
static void test_counts(void)
{
    reads_counts("00000000 00000000 00000000", 0, 0, 0);
    reads_counts("00000001 00000000 00000000", 1, 0, 0);
    reads_counts("00000000 00000100 00000000", 0, 256, 0);
    reads_counts("00000000 00000000 00010000", 0, 0, 65536);
    reads_counts("ffffffff 00000000 ffffffff", 0xffffffff, 0, 0xffffffff);
    reads_counts("00000000 ffffffff 00000000", 0, 0xffffffff, 0);
    reads_counts("01020304 05060708 090a0b0c", 0x01020304, 0x05060708, 0x090a0b0c);
    check(AMSULFEZD_COUNTS_LENGTH == 3 * 4, "lengths", "counts");
}

/* What a step returned, and the lengths of a station, of its counts in it and of a table of who was heard. */
static void test_station(void)
{
    check(AMSULFEZD_STATION_LENGTH == 96 && AMSULFEZD_STATION_COUNTS == 64, "lengths", "station");
    check(AMSULFEZD_HEARD_TABLE_LENGTH == 126 * 17, "lengths", "table");
    check(amsulfezd_stepped(256 * 19) == 19 && amsulfezd_stepped(AMSULFEZD_REFUSAL_STATION) == 0, "bytes stepped", "station");
    check(amsulfezd_stepped(256 * 256) == 256 && amsulfezd_number(256 * 256) == 0, "bytes stepped", "the longest entry");
}

/* A frame's word has these fields: kind, destination, source, status request, type, status. */
static void reads_word(uint32_t word, const unsigned fields[6], const char *where)
{
    const struct amsulfezd_telegram telegram = amsulfezd_telegram_of(word);
    check(telegram.kind == fields[0], "kind", where);
    check(telegram.destination == fields[1], "destination", where);
    check(telegram.source == fields[2], "source", where);
    check(telegram.status_request == fields[3], "status request", where);
    check(telegram.station_type == fields[4], "station type", where);
    check(telegram.status == fields[5], "status", where);
}

/* Document 02's numbers of frames; what the calls on frames return; the fields of a word. */
static void test_frames(void)
{
    static const unsigned refusals[] = {
        AMSULFEZD_REFUSAL_FRAME_CUT,  AMSULFEZD_REFUSAL_START_BYTE, AMSULFEZD_REFUSAL_FRAME_HEADER,
        AMSULFEZD_REFUSAL_CHECK_BYTE, AMSULFEZD_REFUSAL_END_BYTE,   AMSULFEZD_REFUSAL_ADDRESS_EXTENSION,
    };
    static const unsigned request[6] = {2, 5, 9, 1, 0, 0};
    static const unsigned response[6] = {3, 127, 126, 0, 3, 15};
    static const unsigned even[6] = {3, 0, 127, 0, 3, 0};
    static const unsigned odd[6] = {0, 127, 0, 1, 0, 15};
    unsigned i;
    for (i = 0; i < sizeof refusals / sizeof refusals[0]; i++) {
        check(refusals[i] == 19 + i, "not document 02's number", "refusals");
    }
    check(AMSULFEZD_REFUSAL_FUNCTION_CODE == 34, "not document 02's number", "function code");
    check(AMSULFEZD_REFUSAL_STATION == 36, "not document 02's number", "station");
    check(AMSULFEZD_FRAME_SD1 == 0x10 && AMSULFEZD_FRAME_SD2 == 0x68 && AMSULFEZD_FRAME_SD3 == 0xa2 &&
              AMSULFEZD_FRAME_SD4 == 0xdc && AMSULFEZD_FRAME_SC == 0xe5,
          "not document 02's byte", "start bytes");
    check(AMSULFEZD_FRAME_END == 0x16 && AMSULFEZD_FRAME_STATUS_REQUEST == 0x49, "not document 02's byte",
          "end byte and status request");
    check(AMSULFEZD_FRAME_READ_LENGTH == 4 + 249 + 2 && AMSULFEZD_FRAME_WRITTEN_LENGTH == 6, "lengths", "frames");
    check(amsulfezd_number(UINT64_C(0xfffe7e00ff17)) == 0x17, "the number", "fffe7e00 ff 17");
    check(amsulfezd_frame_bytes(UINT64_C(0xfffe7e00ff17)) == 0xff, "the bytes", "fffe7e00 ff 17");
    check(amsulfezd_frame_bytes(UINT64_C(0xfffe7e010617)) == 6, "the bytes", "fffe7e01 06 17");
    check(amsulfezd_frame_word(UINT64_C(0xfffe7e00ff17)) == UINT32_C(0xfffe7e00), "the word", "fffe7e00 ff 17");
    reads_word(UINT32_C(0x82898000), request, "a status request from 9 to 5");
    reads_word(UINT32_C(0xfffe7e00), response, "a response from 126 to 127");
    reads_word(UINT32_C(0xc07f6000), even, "every second field full");
    reads_word(UINT32_C(0x3f809fff), odd, "the other fields full");
}

/* Document 01's numbers, in their order, and document 02's 25, 27 to 30 and 35. */
static void test_numbers(void)
{
    static const unsigned refusals[] = {
        AMSULFEZD_OK,
        AMSULFEZD_REFUSAL_ADDRESS,
        AMSULFEZD_REFUSAL_SLOT,
        AMSULFEZD_REFUSAL_HSA,
        AMSULFEZD_REFUSAL_ROTATION,
        AMSULFEZD_REFUSAL_GAP_WAIT,
        AMSULFEZD_REFUSAL_RETRY,
        AMSULFEZD_REFUSAL_MIN_TSDR,
        AMSULFEZD_REFUSAL_WATCHDOG,
        AMSULFEZD_REFUSAL_FACTORS,
        AMSULFEZD_REFUSAL_BAUD,
        AMSULFEZD_REFUSAL_APPLICATIONS,
        AMSULFEZD_REFUSAL_RECORD_LENGTH,
        AMSULFEZD_REFUSAL_TELEGRAM_COUNT,
        AMSULFEZD_REFUSAL_ZERO_BIT,
        AMSULFEZD_REFUSAL_NO_BYTES,
        AMSULFEZD_REFUSAL_PASSIVE,
        AMSULFEZD_REFUSAL_CUT,
        AMSULFEZD_REFUSAL_NO_ROOM,
    };
    static const unsigned outcomes[] = {AMSULFEZD_OUTCOME_NONE, AMSULFEZD_OUTCOME_OFFLINE,
                                        AMSULFEZD_OUTCOME_TRANSMISSION, AMSULFEZD_OUTCOME_BUS,
                                        AMSULFEZD_OUTCOME_DELAY};
    static const unsigned states[] = {
        AMSULFEZD_STATE_OFFLINE,        AMSULFEZD_STATE_LISTEN_TOKEN,
        AMSULFEZD_STATE_ACTIVE_IDLE,    AMSULFEZD_STATE_USE_TOKEN,
        AMSULFEZD_STATE_CLAIM_TOKEN,    AMSULFEZD_STATE_AWAIT_DATA_RESPONSE,
        AMSULFEZD_STATE_PASS_TOKEN,     AMSULFEZD_STATE_CHECK_TOKEN_PASS,
        AMSULFEZD_STATE_AWAIT_STATUS_RESPONSE, AMSULFEZD_STATE_PASSIVE_IDLE,
    };
    static const char *const names[] = {
        "Offline",           "ListenToken", "ActiveIdle",     "UseToken",            "ClaimToken",
        "AwaitDataResponse", "PassToken",   "CheckTokenPass", "AwaitStatusResponse", "PassiveIdle",
        "unknown",
    };
    static const unsigned sent[] = {AMSULFEZD_SENT_NONE, AMSULFEZD_SENT_TOKEN, AMSULFEZD_SENT_STATUS_REQUEST,
                                    AMSULFEZD_SENT_STATUS_RESPONSE, AMSULFEZD_SENT_APPLICATION};
    static const unsigned types[] = {AMSULFEZD_TYPE_SLAVE, AMSULFEZD_TYPE_NOT_READY, AMSULFEZD_TYPE_WITHOUT_TOKEN,
                                     AMSULFEZD_TYPE_IN_RING};
    static const unsigned notices[] = {AMSULFEZD_NOTICE_NONE, AMSULFEZD_NOTICE_REPLY, AMSULFEZD_NOTICE_TIMEOUT};
    static const unsigned commands[] = {AMSULFEZD_COMMAND_ONLINE, AMSULFEZD_COMMAND_OFFLINE, AMSULFEZD_COMMAND_PASSIVE};
    static const unsigned kinds[] = {AMSULFEZD_TELEGRAM_TOKEN, AMSULFEZD_TELEGRAM_SHORT_CONFIRMATION,
                                     AMSULFEZD_TELEGRAM_REQUEST, AMSULFEZD_TELEGRAM_RESPONSE};
    unsigned i;
#define COUNTS(list) \
    for (i = 0; i < sizeof(list) / sizeof(list)[0]; i++) { \
        check((list)[i] == i, "not document 01's number", #list); \
    }
    COUNTS(refusals)
    COUNTS(outcomes)
    COUNTS(states)
    COUNTS(sent)
    COUNTS(types)
    COUNTS(notices)
    COUNTS(commands)
    COUNTS(kinds)
    check(AMSULFEZD_REFUSAL_GAP_ROOM == 25, "not document 02's number", "refusals");
    check(AMSULFEZD_REFUSAL_EQUAL_ADDRESSES == 27 && AMSULFEZD_REFUSAL_TICK == 28 && AMSULFEZD_REFUSAL_STATIONS == 29 &&
              AMSULFEZD_REFUSAL_BAUD_CODES == 30 && AMSULFEZD_REFUSAL_TICKS == 35,
          "not document 02's number", "refusals of a setup");
    for (i = 0; i < sizeof names / sizeof names[0]; i++) {
        check(strcmp(amsulfezd_state_name(i), names[i]) == 0, "the name of a state", names[i]);
    }
}

/* ---- Writers ----------------------------------------------------------------------------------------------------- */

/* Where the writers write: room for the longest entry, and bytes before and behind it that must keep their value. */
enum { MARGIN = 16 };
static uint8_t memory[MARGIN + AMSULFEZD_ENTRY_LENGTH + MARGIN];
static uint8_t *const to = memory + MARGIN;

static void fill(void)
{
    memset(memory, PATTERN, sizeof memory);
}

/* Exactly these bytes were written; if none are given, nothing was. */
static void wrote(size_t returned, const char *digits, const char *where)
{
    uint8_t expected[sizeof memory];
    size_t count;
    memset(expected, PATTERN, sizeof expected);
    count = bytes_of(digits, 16, expected + MARGIN);
    check(returned == count, "not the number of bytes that it should be", where);
    check(memcmp(memory, expected, sizeof memory) == 0, "not the bytes that it should write", where);
}

/* A poll is written so: with just enough room, with more, and not with a byte less. */
static void writes_poll(const struct amsulfezd_poll *poll, const char *digits, const char *where)
{
    uint8_t expected[AMSULFEZD_ENTRY_LENGTH];
    const size_t length = bytes_of(digits, 16, expected);
    fill();
    wrote(amsulfezd_write_poll(to, length, poll), digits, where);
    fill();
    wrote(amsulfezd_write_poll(to, AMSULFEZD_ENTRY_LENGTH, poll), digits, where);
    fill();
    wrote(amsulfezd_write_poll(to, length - 1, poll), "", where);
    fill();
    wrote(amsulfezd_write_poll(to, 0, poll), "", where);
}

/* A poll does not fit, whatever the room: also with more than an entry can have. */
static void refuses_poll(const struct amsulfezd_poll *poll, const char *where)
{
    fill();
    wrote(amsulfezd_write_poll(to, AMSULFEZD_ENTRY_LENGTH + MARGIN, poll), "", where);
}

static void test_header(void)
{
    struct amsulfezd_header header = amsulfezd_new_header(5, 6, 1);
    size_t room;
    fill();
    wrote(amsulfezd_write_header(to, 16, &header), "050600c800007eb40a7e010b01000000", "example 12's header");
    for (room = 0; room < 16; room++) {
        fill();
        wrote(amsulfezd_write_header(to, room, &header), "", "a header without room");
    }
    header.address = 0x7d;
    header.baud = 0x0a;
    header.slot_bits = 0x1234;
    header.rotation_bits = 0x56789abc;
    header.gap_wait = 0x64;
    header.hsa = 0x7e;
    header.retry = 0x0f;
    header.min_tsdr = 0x0b;
    header.applications = 0x08;
    header.factor_1 = 0xf1;
    header.factor_2 = 0xf2;
    fill();
    wrote(amsulfezd_write_header(to, 17, &header), "7d 0a 1234 56789abc 64 7e 0f 0b 08 f1 f2 00", "each field");
}

/* A header that does not fit into edition 2. */
static void refuses_header_2(const struct amsulfezd_header *header, const char *name)
{
    fill();
    wrote(amsulfezd_write_header_2(to, 20, header), "", name);
}

/* Edition 2: the fields' bits one after the other, as document 02 lists them, and the same bits as bytes. */
static void test_header_2(void)
{
    static const struct {
        const char *bits, *digits, *name;
    } second[] = {
        /* 82h, 5, 6, 200, 32,436, 10, 126, 1, 11, 1 - 1, 0 and 0, zero */
        {"10000010 0000101 0110 0000000011001000 0000000000111111010110100 0001010 1111110 0001 00001011 000 "
         "00000000 00000000 0000000",
         "82 0a c0 19 00 07 eb 41 5f 84 2c 00 00 00", "example 12's header in edition 2"},
        /* 82h, 125, 10, 1,000, 16,777,960, 100, 126, 15, 255, 8 - 1, 255 and 255, zero */
        {"10000010 1111101 1010 0000001111101000 1000000000000001011101000 1100100 1111110 1111 11111111 111 "
         "11111111 11111111 0000000",
         "82 fb 40 7d 10 00 2e 8c 9f bf ff ff ff 80", "the limits in edition 2"},
        /* 82h, 2, 0, 65,535, 65,636, 1, 3, 5, 60, 4 - 1, 4 and 250, zero */
        {"10000010 0000010 0000 1111111111111111 0000000010000000001100100 0000001 0000011 0101 00111100 011 "
         "00000100 11111010 0000000",
         "82 04 1f ff e0 10 06 40 20 d4 f1 82 7d 00", "no two fields alike in edition 2"},
        /* 82h and the largest values that fit: 127, 15, 65,535, 2^25 - 1, 127, 127, 15, 255, 8 - 1, 255 and 255, zero */
        {"10000010 1111111 1111 1111111111111111 1111111111111111111111111 1111111 1111111 1111 11111111 111 "
         "11111111 11111111 0000000",
         "82 ff ff ff ff ff ff ff ff ff ff ff ff 80", "the largest values that fit into edition 2"},
    };
    struct amsulfezd_header headers[4], header;
    uint8_t packed[AMSULFEZD_HEADER_LENGTH_2], bytes[AMSULFEZD_HEADER_LENGTH_2];
    size_t i, room;
    headers[0] = amsulfezd_new_header(5, 6, 1);
    headers[1] = amsulfezd_new_header(125, 10, 8);
    headers[1].slot_bits = 1000;
    headers[1].rotation_bits = 16777960;
    headers[1].gap_wait = 100;
    headers[1].retry = 15;
    headers[1].min_tsdr = headers[1].factor_1 = headers[1].factor_2 = 255;
    headers[2] = amsulfezd_new_header(2, 0, 4);
    headers[2].slot_bits = 65535;
    headers[2].rotation_bits = 65636;
    headers[2].gap_wait = 1;
    headers[2].hsa = 3;
    headers[2].retry = 5;
    headers[2].min_tsdr = 60;
    headers[2].factor_1 = 4;
    headers[2].factor_2 = 250;
    headers[3] = headers[1];
    headers[3].address = headers[3].gap_wait = headers[3].hsa = 127;
    headers[3].baud = 15;
    headers[3].slot_bits = 65535;
    headers[3].rotation_bits = 33554431;
    for (i = 0; i < 4; i++) {
        check(bytes_of(second[i].bits, 2, packed) == AMSULFEZD_HEADER_LENGTH_2, "not 14 bytes", second[i].name);
        check(bytes_of(second[i].digits, 16, bytes) == AMSULFEZD_HEADER_LENGTH_2, "not 14 bytes", second[i].name);
        check(memcmp(packed, bytes, sizeof bytes) == 0, "not the bits' bytes", second[i].name);
        for (room = 0; room < 14; room++) {
            fill();
            wrote(amsulfezd_write_header_2(to, room, &headers[i]), "", "a header of edition 2 without room");
        }
        fill();
        wrote(amsulfezd_write_header_2(to, 14, &headers[i]), second[i].digits, second[i].name);
        memset(to, 0, 14);
        wrote(amsulfezd_write_header_2(to, 14, &headers[i]), second[i].digits, second[i].name);
    }

    /* A value that is one too large for its field, in turn, and no application. */
#define UNFIT_2(field, value) \
    header = headers[3]; \
    header.field = value; \
    refuses_header_2(&header, #field);
    UNFIT_2(address, 128)
    UNFIT_2(baud, 16)
    UNFIT_2(rotation_bits, 33554432)
    UNFIT_2(gap_wait, 128)
    UNFIT_2(hsa, 128)
    UNFIT_2(retry, 16)
    UNFIT_2(applications, 0)
    UNFIT_2(applications, 9)

    /* Which edition a trace has. */
    check(AMSULFEZD_EDITION_2 == 130, "the first byte of edition 2", "82h");
    for (i = 0; i < 256; i++) {
        bytes[0] = (uint8_t)i;
        check(amsulfezd_header_length(bytes, 1) == (i == 130 ? 14u : 16u), "the length of a header", "its first byte");
        check(amsulfezd_header_length(bytes, 0) == 16, "the length of a header", "no byte");
    }
    check(amsulfezd_written(1000 * 256 + 25) == 1000, "bytes written", "1000 * 256 + 25");
    check(amsulfezd_number(14 * 256 + 25) == 25, "refusal number", "14 * 256 + 25");
    check(amsulfezd_ticks(UINT64_C(1000000) * 256) == 1000000, "ticks", "1000000 * 256");
}

static void test_commands(void)
{
    unsigned command;
    static const char *const digits[] = {"00", "01", "02", "", ""};
    for (command = 0; command < sizeof digits / sizeof digits[0]; command++) {
        fill();
        wrote(amsulfezd_write_command(to, 1, command), digits[command], "a command");
        fill();
        wrote(amsulfezd_write_command(to, 0, command), "", "a command without room");
    }
}

static void test_polls(void)
{
    struct amsulfezd_decisions decisions[31];
    struct amsulfezd_telegram telegrams[15];
    struct amsulfezd_poll poll = amsulfezd_poll_at(1000, 1);
    size_t i;

    writes_poll(&poll, "0e 0000000003e8 0000 000000 000000", "example 12's first poll");

    poll = amsulfezd_poll_at(7664, 1);
    decisions[0].normal = amsulfezd_asks(20, 10);
    decisions[0].high = amsulfezd_declines();
    poll.decisions = decisions;
    writes_poll(&poll, "0e 000000001df0 0000 ca0500 000000", "part 5's poll with a question");

    poll = amsulfezd_poll_at(1500, 1);
    telegrams[0] = amsulfezd_token(9, 9);
    poll.pending = 3;
    poll.telegram_count = 1;
    poll.telegrams = telegrams;
    writes_poll(&poll, "12 0000000005dc 0803 000000 000000 04890000", "part 5's telegram");

    poll = amsulfezd_poll_at(UINT64_C(0x123456789abc), 2);
    poll.transmitting = 1;
    poll.pending = 0x155;
    decisions[0].normal = amsulfezd_asks(85, 10);
    decisions[0].high = amsulfezd_declines();
    decisions[1].normal = amsulfezd_declines();
    decisions[1].high = amsulfezd_tells(255);
    poll.decisions = decisions;
    telegrams[0] = amsulfezd_token(9, 5);
    telegrams[1] = amsulfezd_short_confirmation();
    telegrams[2] = amsulfezd_status_request(127, 5);
    telegrams[3] = amsulfezd_response(9, 5, AMSULFEZD_TYPE_WITHOUT_TOKEN, 15);
    telegrams[4] = amsulfezd_request(2, 3);
    poll.telegram_count = 5;
    poll.telegrams = telegrams;
    writes_poll(&poll,
                "28 123456789abc a955 ea8500 000000 000000 807f80 "
                "02890000 40000000 82ff8000 c2895e00 81820000",
                "a poll with everything in it");

    /* Every field full. */
    poll = amsulfezd_poll_at((UINT64_C(1) << 48) - 1, 1);
    poll.transmitting = 1;
    poll.pending = 2047;
    decisions[0].normal = amsulfezd_asks(127, 255);
    decisions[0].high = amsulfezd_asks(127, 255);
    poll.decisions = decisions;
    telegrams[0] = amsulfezd_response(127, 127, 3, 15);
    telegrams[0].status_request = 1;
    poll.telegram_count = 1;
    poll.telegrams = telegrams;
    writes_poll(&poll, "12 ffffffffffff 8fff ffff80 ffff80 fffffe00", "a poll with full fields");

    /* The longest, and one that is longer. */
    for (i = 0; i < 31; i++) {
        decisions[i].normal = decisions[i].high = amsulfezd_declines();
    }
    for (i = 0; i < 15; i++) {
        telegrams[i] = amsulfezd_short_confirmation();
    }
    poll = amsulfezd_poll_at(0, 31);
    poll.decisions = decisions;
    poll.telegram_count = 15;
    poll.telegrams = telegrams;
    fill();
    check(amsulfezd_write_poll(to, AMSULFEZD_ENTRY_LENGTH, &poll) == 255, "the longest poll", "31 applications");
    check(to[0] == 254 && to[7] == 0x78 && to[8] == 0 && to[194] == 0 && to[195] == 0x40 && to[254] == 0,
          "the longest poll's bytes", "31 applications");
    check(to[255] == PATTERN, "a byte behind the poll has changed", "31 applications");
    poll.applications = 32;
    poll.decisions = NULL;
    refuses_poll(&poll, "32 applications and 15 telegrams");
    poll.applications = SIZE_MAX / 6 + 1;
    refuses_poll(&poll, "more applications than can be counted");
}

/* A value that is one too large for its field, in turn. */
static void test_unfit(void)
{
    struct amsulfezd_decisions decisions;
    struct amsulfezd_telegram telegrams[16];
    struct amsulfezd_poll good = amsulfezd_poll_at(0, 1), poll;
    int i;
    good.decisions = &decisions;
    good.telegrams = telegrams;
    good.telegram_count = 1;
    decisions.normal = decisions.high = amsulfezd_declines();
    for (i = 0; i < 16; i++) {
        telegrams[i] = amsulfezd_short_confirmation();
    }
    writes_poll(&good, "12 000000000000 0800 000000 000000 40000000", "a poll that fits");

    poll = good;
    poll.clock = UINT64_C(1) << 48;
    refuses_poll(&poll, "clock");
    poll = good;
    poll.transmitting = 2;
    refuses_poll(&poll, "transmitting");
    poll = good;
    poll.pending = 2048;
    refuses_poll(&poll, "pending bytes");
    poll = good;
    poll.telegram_count = 16;
    refuses_poll(&poll, "telegram count");

#define UNFIT(field, value) \
    field = value; \
    refuses_poll(&good, #field); \
    decisions.normal = decisions.high = amsulfezd_declines(); \
    telegrams[0] = amsulfezd_short_confirmation();
    UNFIT(decisions.normal.sends, 2)
    UNFIT(decisions.normal.expects_reply, 2)
    UNFIT(decisions.normal.reply_address, 128)
    UNFIT(decisions.high.sends, 2)
    UNFIT(decisions.high.expects_reply, 2)
    UNFIT(decisions.high.reply_address, 128)
    UNFIT(telegrams[0].kind, 4)
    UNFIT(telegrams[0].destination, 128)
    UNFIT(telegrams[0].source, 128)
    UNFIT(telegrams[0].status_request, 2)
    UNFIT(telegrams[0].station_type, 4)
    UNFIT(telegrams[0].status, 16)
}

int main(int count, char **words)
{
    (void)words;
    if (count != 1) {
        fputs("fields: usage: fields\n", stderr);
        return EXIT_FAILURE;
    }
    test_readers();
    test_numbers();
    test_frames();
    test_heard();
    test_counts();
    test_station();
    test_header();
    test_header_2();
    test_commands();
    test_polls();
    test_unfit();
    printf("C host: %lu checks of the readers and writers hold\n", checks);
    return EXIT_SUCCESS;
}
