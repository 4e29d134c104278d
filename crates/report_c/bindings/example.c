/* An example: prints the report of the scene in the file that its first argument names.

       example FILE [--color] [--counter] [--replay] [--level N] [--room N]

   N of --level is a number from 0 (none) to 7 (all). With --room it makes one call with a buffer of N bytes. The
   status is 0, or 2 if a line of the scene or a word is wrong, or 3 for any other fault. */
#include "norigully.h"

#include <stdio.h>
#include <stdlib.h>
#include <string.h>

typedef struct {
    uint8_t *bytes;
    size_t length;
} Buffer;

/* Says why there is no report, and answers the status. */
static int give_up(const char *why, int status)
{
    fprintf(stderr, "example: %s\n", why);
    return status;
}

/* The whole file, or no bytes where it cannot be read. The caller frees them. */
static Buffer read_file(const char *name)
{
    Buffer read = {malloc(1), 0};
    FILE *file = fopen(name, "rb");
    size_t room = 1, taken = 0;
    while (file && read.bytes && (taken = fread(read.bytes + read.length, 1, room - read.length, file)) > 0) {
        read.length += taken;
        if (read.length == room) {
            uint8_t *more = realloc(read.bytes, room *= 2);
            if (!more)
                free(read.bytes);
            read.bytes = more;
        }
    }
    if (!file || ferror(file)) {
        free(read.bytes);
        read.bytes = NULL;
    }
    if (file)
        fclose(file);
    return read;
}

/* Prints the report by a buffer of this size, and returns the status. With `may_grow`, a buffer that is too small is
   made larger once. */
static int print_report(const NorigullyOptions *options, Buffer scene, size_t room, bool may_grow)
{
    uint8_t *out = calloc(room ? room : 1, 1);
    if (!out)
        return give_up("out of memory", 3);
    NorigullyOutcome outcome = norigully_report(options, scene.bytes, scene.length, out, room);
    int status = 0;
    switch (outcome.status) {
    case NORIGULLY_WRITTEN:
        if (fwrite(out, 1, outcome.length, stdout) < outcome.length || fflush(stdout))
            status = give_up("write failed", 3);
        break;
    case NORIGULLY_TOO_LONG:
        free(out);
        if (may_grow)
            return print_report(options, scene, outcome.length, false);
        fprintf(stderr, "example: the report has %zu bytes, and there is room for %zu\n", outcome.length, room);
        return 3;
    case NORIGULLY_WRONG_LINE:
        fprintf(stderr, "example: line %llu is wrong\n", (unsigned long long)outcome.line);
        status = 2;
        break;
    case NORIGULLY_UNKNOWN_LEVEL:
        status = give_up("there is no such level", 2);
        break;
    default:
        status = give_up("out of memory", 3);
    }
    free(out);
    return status;
}

int main(int count, char **words)
{
    NorigullyOptions options = {false, false, false, NORIGULLY_LEVEL_PASS};
    size_t room = 64 * 1024;
    bool may_grow = true;
    for (int at = 2; at < count; at++) {
        if (!strcmp(words[at], "--color"))
            options.should_colorize = true;
        else if (!strcmp(words[at], "--counter"))
            options.show_counter = true;
        else if (!strcmp(words[at], "--replay"))
            options.is_replay = true;
        else if (!strcmp(words[at], "--level") && at + 1 < count)
            options.status_level = (uint32_t)strtoul(words[++at], NULL, 10);
        else if (!strcmp(words[at], "--room") && at + 1 < count) {
            room = strtoul(words[++at], NULL, 10);
            may_grow = false;
        } else
            count = 0;
    }
    if (count < 2)
        return give_up("usage: example FILE [--color] [--counter] [--replay] [--level N] [--room N]", 2);
    Buffer scene = read_file(words[1]);
    if (!scene.bytes)
        return give_up("the file cannot be read", 3);
    int status = print_report(&options, scene, room, may_grow);
    free(scene.bytes);
    return status;
}
