/* Does what the program ick does, by one call of the library:
 *
 *     example ARGUMENT..
 *
 * If the last argument names a file that can be read, it is the call's file. Standard input is read whole first. */
#define _DEFAULT_SOURCE /* for MAP_ANONYMOUS and MAP_NORESERVE */
#include "ick.h"

#include <errno.h>
#include <stdio.h>
#include <stdlib.h>
#include <string.h>
#include <sys/mman.h>

struct bytes {
    uint8_t *start;
    size_t length;
};

static void out_of_memory(void) {
    fputs("OUT OF MEMORY\n", stderr);
    exit(4);
}

/* Makes room for that many bytes in all. There is always a pointer, also to no byte. */
static void grow(struct bytes *bytes, size_t room) {
    uint8_t *start = realloc(bytes->start, room + 1);
    if (start == NULL)
        out_of_memory();
    bytes->start = start;
}

static void append(struct bytes *bytes, const void *more, size_t count) {
    grow(bytes, bytes->length + count);
    memcpy(bytes->start + bytes->length, more, count);
    bytes->length += count;
}

static struct bytes arguments_of(int count, char **words) {
    struct bytes arguments = {NULL, 0};
    grow(&arguments, 0);
    for (int i = 1; i < count; i++)
        append(&arguments, words[i], strlen(words[i]) + 1);
    return arguments;
}

static struct bytes content_of(FILE *stream) {
    struct bytes content = {NULL, 0};
    char block[4096];
    size_t count;
    grow(&content, 0);
    while (stream != NULL && (count = fread(block, 1, sizeof block, stream)) > 0)
        append(&content, block, count);
    return content;
}

/* Returns room for a text of at least so many bytes, and for any text if the system grants so many addresses: a page
 * takes memory only when the call writes there. */
static struct bytes room_for(size_t least) {
    struct bytes room = {NULL, (size_t)1 << 40};
    for (; room.length >= least && room.length >= 65536; room.length >>= 8) {
        void *start = mmap(NULL, room.length, PROT_READ | PROT_WRITE, MAP_PRIVATE | MAP_ANONYMOUS | MAP_NORESERVE, -1, 0);
        if (start != MAP_FAILED) {
            room.start = start;
            return room;
        }
    }
    grow(&room, least);
    room.length = least;
    return room;
}

int main(int count, char **words) {
    FILE *stream = count > 1 ? fopen(words[count - 1], "rb") : NULL;
    if (stream == NULL && errno == ENOMEM)
        out_of_memory();
    struct bytes arguments = arguments_of(count, words);
    struct bytes file = content_of(stream);
    struct bytes input = content_of(stdin);
    struct bytes output, errors;
    struct ick_lengths lengths = {0, 0};
    uint8_t status;

    /* The call is made again only if the system refused room for any text. */
    do {
        output = room_for(lengths.output);
        errors = room_for(lengths.errors);
        status = ick_serve(arguments.start, arguments.length, file.start, file.length, input.start, input.length,
                           output.start, output.length, errors.start, errors.length, &lengths);
    } while (lengths.output > output.length || lengths.errors > errors.length);
    fwrite(output.start, 1, lengths.output, stdout);
    fwrite(errors.start, 1, lengths.errors, stderr);
    return status;
}
