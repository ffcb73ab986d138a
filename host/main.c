/*
 * A small host: reads a law text with a case text directly after it and
 * prints `cause N`.
 *
 *    host FILE       FILE may be - for standard input
 *    host            standard input
 *
 * Exit status: 0 accepted, 1 refused, 2 input or output failed.
 */
#include <inttypes.h>
#include <stdint.h>
#include <stdio.h>
#include <string.h>

#include "vangprune.h"

/* One byte more than a text may have, so that a longer one is seen to be. */
#define TEXT_ROOM 60001

enum { ACCEPTED = 0, REFUSED = 1, FAILED = 2 };

static uint8_t text[TEXT_ROOM];

/* Fills the buffer from a stream; answers 0 when reading failed. */
static int read_text(FILE *from, size_t *len)
{
    *len = fread(text, 1, sizeof text, from);
    return !ferror(from);
}

/* Fills the buffer from the named file or, for "-", from standard input. */
static int read_named(const char *name, size_t *len)
{
    FILE *file;
    int is_read;

    if (strcmp(name, "-") == 0)
        return read_text(stdin, len);
    file = fopen(name, "rb");
    if (file == NULL)
        return 0;
    is_read = read_text(file, len);
    fclose(file);
    return is_read;
}

int main(int argc, char **argv)
{
    const char *name = argc > 1 ? argv[1] : "-";
    size_t len = 0;
    uint32_t cause;

    if (argc > 2) {
        fputs("usage: host [FILE]\n", stderr);
        return FAILED;
    }
    if (!read_named(name, &len)) {
        fprintf(stderr, "host: cannot read %s\n", name);
        return FAILED;
    }
    /* An empty text is handed over as no bytes at all. */
    cause = vangprune_verdict(len > 0 ? text : NULL, len);
    if (printf("cause %" PRIu32 "\n", cause) < 0 || fflush(stdout) != 0) {
        fputs("host: cannot write\n", stderr);
        return FAILED;
    }
    return cause == 0 ? ACCEPTED : REFUSED;
}
