/*
 * Asks the proved call for the counts of a station's life: how often it claimed the token, removed a neighbour and met its own
 * address. The trace is a file of any size. Prints the three counts, and then the number of entries and the ending number. A
 * refused header prints that last line alone.
 *
 * usage: counts_file FILE
 */
#include "amsulfezd.h"
#include "files.h"

#include <inttypes.h>

/* Whether the trace was run: it has a header that is accepted. */
static int was_run(unsigned ending, struct content trace)
{
    return ending == AMSULFEZD_OK ||
           (ending == AMSULFEZD_REFUSAL_CUT && trace.length >= amsulfezd_header_length(trace.bytes, trace.length) &&
            trace.length <= UINT64_C(1) << 32);
}

int main(int count, char **words)
{
    me = "counts_file";
    if (count != 2) {
        fail("usage: counts_file FILE");
    }
    struct content trace = read_file(words[1]);
    uint8_t bytes[AMSULFEZD_COUNTS_LENGTH];
    uint64_t returned = amsulfezd_trace_counts(trace.bytes, trace.length, bytes, sizeof bytes);
    unsigned ending = amsulfezd_ending(returned);
    if (was_run(ending, trace)) {
        struct amsulfezd_counts counts = amsulfezd_counts_of(bytes);
        printf("%" PRIu32 " %" PRIu32 " %" PRIu32 "\n", counts.claims, counts.removals, counts.meetings);
    }
    printf("%" PRIu64 " %u\n", amsulfezd_entries(returned), ending);
    free(trace.bytes);
    if (fflush(stdout) != 0) {
        fail("standard output: %s", strerror(errno));
    }
    return EXIT_SUCCESS;
}
