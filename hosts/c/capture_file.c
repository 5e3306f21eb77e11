/*
 * What the proved calls on captures leave with this much room, for the stories of traces/captures: the room, each entry as hex
 * digits or the text, and the number, the line or entry, and the bytes written. `imported` reads a bus monitor's text, `exported`
 * entries without a header. Files are imported and exported by the program amsulfezd (hosts/rust/desk).
 *
 * usage: capture_file imported FILE ROOM | exported FILE ROOM
 */
#include "amsulfezd.h"
#include "files.h"

#include <inttypes.h>

static void print(const uint8_t *bytes, size_t length)
{
    if (fwrite(bytes, 1, length, stdout) != length) {
        fail("standard output: %s", strerror(errno));
    }
}

/* The room that decimal digits give, or the end of the program. */
static size_t room_of(const char *digits)
{
    char *end = NULL;
    unsigned long number = strtoul(digits, &end, 10);
    if (digits[0] < '0' || digits[0] > '9' || *end != '\0' || number > 1000000) {
        fail("ROOM is a whole number from 0 to 1000000, not '%s'", digits);
    }
    return number;
}

/* What an import left with this much room. */
static void show_imported(const char *name, size_t room)
{
    struct content text = read_file(name);
    uint8_t *entries = take(room);
    uint64_t line, written;
    uint64_t number = amsulfezd_import_capture(text.bytes, text.length, entries, room, &line, &written);
    printf("room %zu\n", room);
    for (size_t at = 0; at < written;) {
        for (size_t end = at + 1 + entries[at]; at < end; at++) {
            printf("%02x", entries[at]);
        }
        putchar('\n');
    }
    printf("%" PRIu64 " %" PRIu64 " %" PRIu64 "\n", number, line, written);
    free(entries);
    free(text.bytes);
}

/* What an export left with this much room. */
static void show_exported(const char *name, size_t room)
{
    struct content entries = read_file(name);
    uint8_t *text = take(room);
    uint64_t entry, written;
    uint64_t number = amsulfezd_export_capture(entries.bytes, entries.length, text, room, &entry, &written);
    printf("room %zu\n", room);
    print(text, (size_t)written);
    printf("%" PRIu64 " %" PRIu64 " %" PRIu64 "\n", number, entry, written);
    free(text);
    free(entries.bytes);
}

int main(int count, char **words)
{
    const char *what = count == 4 ? words[1] : "";
    me = "capture_file";
    if (strcmp(what, "imported") == 0) {
        show_imported(words[2], room_of(words[3]));
    } else if (strcmp(what, "exported") == 0) {
        show_exported(words[2], room_of(words[3]));
    } else {
        fail("usage: capture_file imported FILE ROOM | exported FILE ROOM");
    }
    if (fflush(stdout) != 0) {
        fail("standard output: %s", strerror(errno));
    }
    return EXIT_SUCCESS;
}
