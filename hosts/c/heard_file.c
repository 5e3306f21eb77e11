/*
 * Asks the proved call of each of the 126 addresses when the station of a trace heard it. The trace is a file of any size.
 * Prints a line for each address that was heard, the address and the entry's 17 bytes as 34 hexadecimal digits, and then the
 * number of entries and the ending number. A refused header prints that last line alone.
 *
 * usage: heard_file FILE
 */
#include "amsulfezd.h"
#include "files.h"

#include <inttypes.h>

int main(int count, char **words)
{
    me = "heard_file";
    if (count != 2) {
        fail("usage: heard_file FILE");
    }
    struct content trace = read_file(words[1]);
    uint64_t returned = 0;
    for (unsigned address = 0; address <= AMSULFEZD_LAST_ADDRESS; address++) {
        uint8_t entry[AMSULFEZD_HEARD_LENGTH] = {0};
        returned = amsulfezd_trace_heard(trace.bytes, trace.length, (uint8_t)address, entry, sizeof entry);
        if (amsulfezd_heard_of(entry).times == 0) {
            continue;
        }
        printf("%u ", address);
        for (size_t i = 0; i < sizeof entry; i++) {
            printf("%02x", entry[i]);
        }
        putchar('\n');
    }
    printf("%" PRIu64 " %u\n", amsulfezd_entries(returned), amsulfezd_ending(returned));
    free(trace.bytes);
    if (fflush(stdout) != 0) {
        fail("standard output: %s", strerror(errno));
    }
    return EXIT_SUCCESS;
}
