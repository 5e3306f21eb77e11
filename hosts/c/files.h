/*
 * What the programs on files share: reading a file to its end, and one line that ends the program. A program says its name in
 * `me`.
 */
#ifndef FILES_H
#define FILES_H

#include <errno.h>
#include <stdarg.h>
#include <stdint.h>
#include <stdio.h>
#include <stdlib.h>
#include <string.h>

/* What the program's lines begin with. */
static const char *me;

/* A file's content. */
struct content {
    uint8_t *bytes;
    size_t length;
};

/* Ends the program with one line that says why. */
static void fail(const char *format, ...)
{
    va_list words;
    va_start(words, format);
    fprintf(stderr, "%s: ", me);
    vfprintf(stderr, format, words);
    fputc('\n', stderr);
    va_end(words);
    exit(EXIT_FAILURE);
}

/* Memory for so many bytes, and one more, as the calls ask for a pointer also where there is nothing to write. */
static inline uint8_t *take(size_t size)
{
    uint8_t *bytes = malloc(size + 1);
    if (bytes == NULL) {
        fail("no memory for %zu bytes", size);
    }
    return bytes;
}

/* Reads a file to its end. */
static struct content read_file(const char *name)
{
    FILE *file = fopen(name, "rb");
    if (file == NULL) {
        fail("%s: %s", name, strerror(errno));
    }
    struct content content = {NULL, 0};
    size_t room = 0;
    for (;;) {
        if (content.length == room) {
            room = room == 0 ? 4096 : 2 * room;
            content.bytes = realloc(content.bytes, room);
            if (content.bytes == NULL) {
                fail("%s: no memory for %zu bytes", name, room);
            }
        }
        size_t count = fread(content.bytes + content.length, 1, room - content.length, file);
        if (count == 0) {
            break;
        }
        content.length += count;
    }
    if (ferror(file)) {
        fail("%s: %s", name, strerror(errno));
    }
    fclose(file);
    return content;
}

#endif
