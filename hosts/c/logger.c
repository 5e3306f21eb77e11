/*
 * A logger that runs the proved station itself, poll by poll, on a bus that is simulated in this program. It is station 5, with
 * one application that asks the cabinets 20, 21 and 22 for their temperatures, some 4 ms from round to round. An operator panel, station 9, is in
 * its ring. At 02:10:00 somebody pulls the panel's plug: the token is passed into silence, three times, the panel is taken out
 * of the ring, and the archive, which this program prints, goes on with the cabinets' readings. From the repository's root:
 *
 *   cc -Ihosts/c hosts/c/logger.c target/staticlib/libamsulfezd.a -o target/logger && target/logger
 *
 * With a FILE the logger is restarted a millisecond after the plug was pulled: its station is saved to the file, forgotten and
 * loaded again. What is printed is the same; logger.txt has it, stated by hand (hosts/README.md says how the times come about).
 *
 * usage: logger [FILE]
 */
#include "amsulfezd.h"

#include <errno.h>
#include <inttypes.h>
#include <stdarg.h>
#include <stdbool.h>
#include <stdio.h>
#include <stdlib.h>
#include <string.h>

enum { LOGGER = 5, PANEL = 9, FIRST_CABINET = 20, CABINETS = 3 };

/* 500,000 bits a second: a bit takes 2 us, a byte 11 bits. The logger polls once a bit. */
enum { BAUD_CODE = 6, BIT = 2, BYTE = 11 * BIT };

/* In microseconds since midnight: when the plug is pulled, when the scene begins and ends, when the logger is restarted. */
#define PULLED (UINT64_C(130) * 60 * 1000000)
#define BEGIN (PULLED - 9800)
#define END (PULLED + 8000)
#define RESTARTED (PULLED + 1000)

/* The cabinets are asked again 4 ms after the first of them was, or when the token comes next. */
enum { PERIOD = 4000 };

/* In microseconds: after what a cabinet answers, the panel passes the token back, and the panel answers anything else. */
enum { CABINET_DELAY = 60, PASS_DELAY = 66, PANEL_DELAY = 100 };

/* Function codes: a request for data, a response with data. */
enum { REQUEST_DATA = 0x6d, RESPONSE_DATA = 0x08 };

/* Ends the program with one line that says why. */
static void fail(const char *format, ...)
{
    va_list words;
    va_start(words, format);
    fputs("logger: ", stderr);
    vfprintf(stderr, format, words);
    fputc('\n', stderr);
    va_end(words);
    exit(EXIT_FAILURE);
}

/* A time of day. */
static void print_time(uint64_t clock)
{
    uint64_t seconds = clock / 1000000;
    printf("%02" PRIu64 ":%02" PRIu64 ":%02" PRIu64 ".%06" PRIu64, seconds / 3600, seconds / 60 % 60, seconds % 60,
           clock % 1000000);
}

/* ---- The bus: a wire, the port of the logger, the panel and the cabinets ---------------------------------------------- */

/* A frame, who sends it, and when its first bit stands on the wire. */
struct frame {
    uint64_t start;
    uint8_t sender;
    uint8_t bytes[16];
    size_t length;
};

/* On this bus nobody speaks out of turn, so there is one frame at a time. */
struct bus {
    struct frame frame;     /* the one on the wire or about to be; none if its length is 0 */
    size_t arrived;         /* how many of its bytes have come to the logger's port */
    uint8_t received[256];  /* what the port has received and the logger has not yet taken */
    size_t count;
    unsigned panel_steps;   /* how far the panel has come with what it does before the logger is in the ring */
    unsigned readings[CABINETS];
};

static uint64_t end_of(const struct frame *frame)
{
    return frame->start + BYTE * frame->length;
}

/* Puts a frame on the wire. An unplugged panel does not. */
static void say(struct bus *bus, uint64_t start, uint8_t sender, const uint8_t *bytes, size_t length)
{
    if (sender == PANEL && start >= PULLED) {
        return;
    }
    if (bus->frame.length != 0) {
        fail("two frames on the wire");
    }
    bus->frame.start = start;
    bus->frame.sender = sender;
    memcpy(bus->frame.bytes, bytes, length);
    bus->frame.length = length;
    bus->arrived = 0;
}

/* Puts a telegram on the wire: the proved call writes its frame. */
static void say_telegram(struct bus *bus, uint64_t start, uint8_t sender, struct amsulfezd_telegram telegram)
{
    uint8_t bytes[AMSULFEZD_FRAME_WRITTEN_LENGTH];
    uint64_t written = amsulfezd_write_frame((uint32_t)amsulfezd_telegram_word(&telegram), bytes, sizeof bytes);
    if (amsulfezd_number(written) != AMSULFEZD_OK) {
        fail("a telegram: %s", amsulfezd_refusal_words(amsulfezd_number(written)));
    }
    say(bus, start, sender, bytes, amsulfezd_frame_bytes(written));
}

/* A frame with data, SD2. Returns its length. */
static size_t with_data(uint8_t *to, uint8_t destination, uint8_t source, uint8_t code, const uint8_t *data, size_t count)
{
    const uint8_t head[] = {AMSULFEZD_FRAME_SD2, (uint8_t)(3 + count), (uint8_t)(3 + count), AMSULFEZD_FRAME_SD2,
                            destination, source, code};
    uint8_t sum = (uint8_t)(destination + source + code);
    memcpy(to, head, sizeof head);
    for (size_t i = 0; i < count; i++) {
        to[sizeof head + i] = data[i];
        sum = (uint8_t)(sum + data[i]);
    }
    to[sizeof head + count] = sum;
    to[sizeof head + count + 1] = AMSULFEZD_FRAME_END;
    return sizeof head + count + 2;
}

/* A cabinet answers with its temperature in tenths of a degree: its own address in degrees, a tenth more each time. */
static void cabinet_answers(struct bus *bus, uint64_t now, uint8_t cabinet, uint8_t asker)
{
    unsigned *readings = &bus->readings[cabinet - FIRST_CABINET];
    unsigned tenths = 10u * cabinet + *readings;
    uint8_t data[2] = {(uint8_t)(tenths / 256), (uint8_t)(tenths % 256)}, bytes[16];
    if (asker == LOGGER) {
        *readings += 1;
    }
    say(bus, now + CABINET_DELAY, cabinet, bytes, with_data(bytes, asker, cabinet, RESPONSE_DATA, data, sizeof data));
}

/* The panel, alone at first, passes the token to itself twice and then asks whether the logger is there. */
static void panel_begins(struct bus *bus)
{
    switch (bus->panel_steps++) {
    case 0:
        say_telegram(bus, BEGIN + 500, PANEL, amsulfezd_token(PANEL, PANEL));
        break;
    case 1:
        say_telegram(bus, BEGIN + 1000, PANEL, amsulfezd_token(PANEL, PANEL));
        break;
    case 2:
        say_telegram(bus, BEGIN + 1300, PANEL, amsulfezd_status_request(PANEL, LOGGER));
        break;
    default:
        break;
    }
}

/* The frame on the wire has ended: whom it concerns answers. */
static void frame_ends(struct bus *bus)
{
    uint64_t now = end_of(&bus->frame);
    uint64_t read = amsulfezd_read_frame(bus->frame.bytes, bus->frame.length);
    struct amsulfezd_telegram heard = amsulfezd_telegram_of(amsulfezd_frame_word(read));
    if (amsulfezd_number(read) != AMSULFEZD_OK) {
        fail("a frame: %s", amsulfezd_refusal_words(amsulfezd_number(read)));
    }
    bus->frame.length = 0;
    if (heard.kind == AMSULFEZD_TELEGRAM_REQUEST && heard.destination >= FIRST_CABINET) {
        cabinet_answers(bus, now, heard.destination, heard.source);
    } else if (heard.kind == AMSULFEZD_TELEGRAM_TOKEN && heard.source == LOGGER && heard.destination == PANEL) {
        /* It has the token, and asks the first cabinet itself. */
        const uint8_t nothing[1] = {0};
        uint8_t bytes[16];
        say(bus, now + PANEL_DELAY, PANEL, bytes, with_data(bytes, FIRST_CABINET, PANEL, REQUEST_DATA, nothing, 1));
    } else if (heard.kind == AMSULFEZD_TELEGRAM_RESPONSE && heard.destination == PANEL) {
        /* A cabinet's answer, or the logger's, which is ready for the ring: the token goes to the logger. */
        uint64_t delay = heard.source == LOGGER ? PANEL_DELAY : PASS_DELAY;
        say_telegram(bus, now + delay, PANEL, amsulfezd_token(PANEL, LOGGER));
    } else if (heard.source == PANEL) {
        panel_begins(bus);
    }
}

/* The bus up to this time: bytes come to the port as they end on the wire, but for the logger's own. */
static void run_bus(struct bus *bus, uint64_t now)
{
    const struct frame *frame = &bus->frame;
    while (frame->length != 0 && frame->sender != LOGGER && bus->arrived < frame->length &&
           frame->start + BYTE * (bus->arrived + 1) <= now) {
        bus->received[bus->count++] = frame->bytes[bus->arrived++];
    }
    if (frame->length != 0 && end_of(frame) <= now) {
        frame_ends(bus);
    }
}

/* ---- The logger: a port, an application, and the station ---------------------------------------------------------------- */

/* The application: which cabinet is asked next, and from when on. */
struct application {
    uint8_t next;
    uint64_t due;
};

struct logger {
    uint8_t station[AMSULFEZD_STATION_LENGTH];
    uint8_t heard[AMSULFEZD_HEARD_TABLE_LENGTH];
    struct application application;
    unsigned state, next_station; /* after the last poll */
    unsigned polls;
};

/* The request that the application would send. Returns its length. */
static size_t request(const struct application *application, uint8_t *to)
{
    const uint8_t data[1] = {0};
    return with_data(to, (uint8_t)(FIRST_CABINET + application->next), LOGGER, REQUEST_DATA, data, sizeof data);
}

/* The application is told of a reply, whose frame this is, or that none came: a line of the archive. */
static void told(uint64_t now, uint64_t answer, const uint8_t *frame)
{
    print_time(now);
    if (amsulfezd_answer_notice(answer) == AMSULFEZD_NOTICE_REPLY) {
        unsigned tenths = 256u * frame[7] + frame[8];
        printf("  cabinet %u: %u.%u C\n", amsulfezd_answer_notice_address(answer), tenths / 10, tenths % 10);
    } else {
        printf("  cabinet %u: no answer\n", amsulfezd_answer_notice_address(answer));
    }
}

/* The application's request was sent: the next one goes to the next cabinet, and after the last a round is over. */
static void sent(struct application *application, uint64_t now)
{
    if (application->next == 0) {
        application->due = now + PERIOD;
    }
    application->next = (uint8_t)((application->next + 1) % CABINETS);
}

/* Whether the application would send: a round is due, or has begun. */
static bool wants(const struct application *application, uint64_t now)
{
    return application->next != 0 || now >= application->due;
}

/* The frames that stand whole in what was received, at most eight; where the one behind each ends. */
static size_t read_received(const struct bus *bus, struct amsulfezd_telegram *telegrams, size_t *ends)
{
    size_t found = 0, at = 0;
    while (found < AMSULFEZD_CAPTURE_TELEGRAMS && at < bus->count) {
        uint64_t read = amsulfezd_read_frame(bus->received + at, bus->count - at);
        if (amsulfezd_number(read) == AMSULFEZD_REFUSAL_FRAME_CUT) {
            break; /* more is to come */
        }
        if (amsulfezd_number(read) != AMSULFEZD_OK) {
            fail("received: %s", amsulfezd_refusal_words(amsulfezd_number(read)));
        }
        telegrams[found] = amsulfezd_telegram_of(amsulfezd_frame_word(read));
        at += amsulfezd_frame_bytes(read);
        ends[found++] = at;
    }
    return found;
}

/* Sends what the station has decided to send. */
static void send(struct bus *bus, uint64_t now, struct application *application, uint64_t answer)
{
    uint8_t to = (uint8_t)amsulfezd_answer_destination(answer), bytes[16];
    switch (amsulfezd_answer_sent(answer)) {
    case AMSULFEZD_SENT_TOKEN:
        say_telegram(bus, now, LOGGER, amsulfezd_token(LOGGER, to));
        break;
    case AMSULFEZD_SENT_STATUS_REQUEST:
        say_telegram(bus, now, LOGGER, amsulfezd_status_request(LOGGER, to));
        break;
    case AMSULFEZD_SENT_STATUS_RESPONSE:
        say_telegram(bus, now, LOGGER,
                     amsulfezd_response(LOGGER, to, (uint8_t)amsulfezd_answer_response_type(answer), 0));
        break;
    case AMSULFEZD_SENT_APPLICATION:
        say(bus, now, LOGGER, bytes, request(application, bytes));
        sent(application, now);
        break;
    default:
        break;
    }
}

/* What the service desk wants to know of the ring. */
static void note_ring(struct logger *logger, uint64_t now, uint64_t answer)
{
    unsigned next = amsulfezd_answer_next_station(answer), state = amsulfezd_answer_state(answer);
    if (next != logger->next_station) {
        print_time(now);
        if (next == AMSULFEZD_NOBODY) {
            printf("  %u is out of the ring: the logger is alone\n", logger->next_station);
        } else {
            printf("  %u is in the ring\n", next);
        }
    } else if (logger->state == AMSULFEZD_STATE_CHECK_TOKEN_PASS && amsulfezd_answer_sent(answer) == AMSULFEZD_SENT_TOKEN) {
        print_time(now);
        printf("  %u is silent: the token once more\n", amsulfezd_answer_destination(answer));
    }
    logger->next_station = next;
    logger->state = state;
}

/* Takes the station one entry further, with the table of who was heard beside it. */
static uint64_t step(struct logger *logger, const uint8_t *entry, size_t length)
{
    uint8_t bytes[AMSULFEZD_ANSWER_LENGTH];
    uint64_t returned = amsulfezd_step_heard(logger->station, sizeof logger->station, entry, length, bytes, sizeof bytes,
                                             logger->heard, sizeof logger->heard);
    uint64_t answer = amsulfezd_answer(bytes);
    unsigned number = amsulfezd_number(returned);
    if (number == AMSULFEZD_OK) {
        number = amsulfezd_answer_refusal(answer);
    }
    if (number != AMSULFEZD_OK) {
        fail("the station refuses: %s", amsulfezd_refusal_words(number));
    }
    return answer;
}

/* One poll: what the port and the application say goes in, what the station decides comes out and is done. */
static void poll(struct logger *logger, struct bus *bus, uint64_t now)
{
    struct amsulfezd_telegram telegrams[AMSULFEZD_CAPTURE_TELEGRAMS];
    size_t ends[AMSULFEZD_CAPTURE_TELEGRAMS], taken = 0;
    uint8_t entry[AMSULFEZD_ENTRY_LENGTH], frame[16];
    struct amsulfezd_decisions decisions = {amsulfezd_declines(), amsulfezd_declines()};
    struct amsulfezd_poll record = amsulfezd_poll_at(now, 1);
    record.transmitting = bus->frame.length != 0 && bus->frame.sender == LOGGER && bus->frame.start <= now;
    record.pending = (uint16_t)bus->count;
    record.telegram_count = read_received(bus, telegrams, ends);
    record.telegrams = telegrams;
    if (wants(&logger->application, now)) {
        decisions.normal = amsulfezd_asks((uint8_t)(FIRST_CABINET + logger->application.next),
                                          (uint8_t)request(&logger->application, frame));
    }
    record.decisions = &decisions;

    uint64_t answer = step(logger, entry, amsulfezd_write_poll(entry, sizeof entry, &record));

    logger->polls++;
    if (amsulfezd_answer_consumed(answer) != 0) {
        taken = ends[amsulfezd_answer_consumed(answer) - 1];
    }
    if (amsulfezd_answer_notice(answer) != AMSULFEZD_NOTICE_NONE) {
        told(now, answer, bus->received);
    }
    send(bus, now, &logger->application, answer);
    note_ring(logger, now, answer);
    bus->count -= taken;
    memmove(bus->received, bus->received + taken, bus->count);
}

/* Saves the station, forgets it and loads it again, as a restart does. */
static void restart(struct logger *logger, const char *name)
{
    FILE *file = fopen(name, "wb");
    if (file == NULL || fwrite(logger->station, 1, sizeof logger->station, file) != sizeof logger->station ||
        fclose(file) != 0) {
        fail("%s: %s", name, strerror(errno));
    }
    memset(logger->station, 0, sizeof logger->station);
    file = fopen(name, "rb");
    if (file == NULL || fread(logger->station, 1, sizeof logger->station, file) != sizeof logger->station) {
        fail("%s: the station cannot be read", name);
    }
    fclose(file);
}

/* The settings, finished, and a station of them that is online. */
static void open_station(struct logger *logger)
{
    uint8_t header[AMSULFEZD_HEADER_LENGTH], online[1];
    uint64_t number = amsulfezd_new_settings(LOGGER, BAUD_CODE, 1, header, sizeof header);
    if (number == AMSULFEZD_OK) {
        number = amsulfezd_set_gap_wait_rotations(header, sizeof header, 100);
    }
    if (number == AMSULFEZD_OK) {
        number = amsulfezd_finish_settings(header, sizeof header);
    }
    if (number == AMSULFEZD_OK) {
        number = amsulfezd_number(
            amsulfezd_open_station(header, sizeof header, logger->station, sizeof logger->station));
    }
    if (number != AMSULFEZD_OK) {
        fail("the settings: %s", amsulfezd_refusal_words((unsigned)number));
    }
    uint64_t answer = step(logger, online, amsulfezd_write_command(online, sizeof online, AMSULFEZD_COMMAND_ONLINE));
    logger->next_station = amsulfezd_answer_next_station(answer);
}

/* The counts of the station's life, and who was heard. */
static void print_end(const struct logger *logger)
{
    uint8_t bytes[AMSULFEZD_COUNTS_LENGTH], entry[AMSULFEZD_HEARD_LENGTH];
    if (amsulfezd_station_counts(logger->station, sizeof logger->station, bytes, sizeof bytes) != AMSULFEZD_OK) {
        fail("the station has no counts");
    }
    struct amsulfezd_counts counts = amsulfezd_counts_of(bytes);
    printf("%u polls: %" PRIu32 " tokens claimed, %" PRIu32 " neighbour removed, our own address met %" PRIu32 " times\n",
           logger->polls, counts.claims, counts.removals, counts.meetings);
    for (uint8_t address = 0; address <= AMSULFEZD_LAST_ADDRESS; address++) {
        if (amsulfezd_table_heard(logger->heard, sizeof logger->heard, address, entry, sizeof entry) != AMSULFEZD_OK) {
            fail("the table says nothing");
        }
        struct amsulfezd_heard heard = amsulfezd_heard_of(entry);
        if (heard.times != 0) {
            printf("heard %u: %" PRIu32 " times, last at ", address, heard.times);
            print_time(heard.last);
            putchar('\n');
        }
    }
}

int main(int count, char **words)
{
    static struct bus bus;
    static struct logger logger;
    if (count > 2) {
        fail("usage: logger [FILE]");
    }
    logger.application.due = BEGIN;
    open_station(&logger);
    panel_begins(&bus);
    for (uint64_t now = BEGIN; now <= END; now += BIT) {
        if (now == PULLED) {
            print_time(now);
            puts("  the panel's plug is pulled");
        }
        if (now == RESTARTED && count == 2) {
            restart(&logger, words[1]);
        }
        run_bus(&bus, now);
        poll(&logger, &bus, now);
    }
    print_end(&logger);
    return fflush(stdout) == 0 ? EXIT_SUCCESS : EXIT_FAILURE;
}
