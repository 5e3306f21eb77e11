/*
 * Writes a trace, replays it with the proved call and prints the state after each entry: a station alone on its bus
 * claims the token and asks station 20, which does not answer. From the repository's root:
 *
 *   cc -Ihosts/c hosts/c/example.c target/staticlib/libamsulfezd.a -o target/example && target/example
 */
#include "amsulfezd.h"

#include <inttypes.h>
#include <stdio.h>

int main(void)
{
    /* Address 5, baud code 6 (500,000 bits a second, so 1 bit is 2 us), one application. */
    const struct amsulfezd_header header = amsulfezd_new_header(5, 6, 1);
    const uint64_t clocks[] = {1000, 7400, 7532, 7664, 8284};
    uint8_t trace[128], answers[64];
    size_t length = amsulfezd_write_header(trace, sizeof trace, &header);
    length += amsulfezd_write_command(trace + length, sizeof trace - length, AMSULFEZD_COMMAND_ONLINE);
    for (int i = 0; i < 5; i++) {
        struct amsulfezd_poll poll = amsulfezd_poll_at(clocks[i], header.applications);
        struct amsulfezd_decisions decisions = {amsulfezd_asks(20, 10), amsulfezd_declines()};
        if (clocks[i] == 7664) {
            poll.decisions = &decisions; /* application 0 would send 10 bytes to 20 and wait for its reply */
        }
        size_t written = amsulfezd_write_poll(trace + length, sizeof trace - length, &poll);
        if (written == 0) {
            fputs("example: the poll does not fit\n", stderr);
            return 1;
        }
        length += written;
    }
    uint64_t returned = amsulfezd_replay_trace(trace, length, answers, sizeof answers);
    for (uint64_t i = 0; i < amsulfezd_entries(returned); i++) {
        uint64_t answer = amsulfezd_answer(answers + AMSULFEZD_ANSWER_LENGTH * i);
        printf("%016" PRIx64 "  %s, %u bytes sent\n", answer, amsulfezd_state_name(amsulfezd_answer_state(answer)),
               amsulfezd_answer_bytes(answer));
    }
    printf("%" PRIu64 " entries, ending number %u\n", amsulfezd_entries(returned), amsulfezd_ending(returned));
    return amsulfezd_ending(returned) == AMSULFEZD_OK ? 0 : 1;
}
