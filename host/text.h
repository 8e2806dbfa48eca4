/* A file with a program text, and behind it the input I1: read, and parted as document 01's program does. */
#ifndef HOST_TEXT_H
#define HOST_TEXT_H

#include "../include/eol2.h"

#include <stdio.h>
#include <stdlib.h>
#include <string.h>

/* "A program reads at most 65,536 bytes of standard input" */
enum { HOST_FILE = 65536 };

/* At most `most` bytes of a file; "-" is standard input. */
static inline size_t host_read(const char *name, uint8_t *to, size_t most)
{
    FILE *f = strcmp(name, "-") ? fopen(name, "rb") : stdin;
    if (!f) {
        perror(name);
        exit(2);
    }
    size_t n = fread(to, 1, most, f);
    if (ferror(f)) {
        perror(name);
        exit(2);
    }
    if (f != stdin)
        fclose(f);
    return n;
}

/* Where the text ends: after the first line that starts with KONP, or at the end where there is none. */
static inline size_t host_text_end(const uint8_t *s, size_t n)
{
    int found = 0;
    for (size_t at = 0; at < n; at++) {
        if ((at == 0 || s[at - 1] == '\n') && n - at >= 4 && !memcmp(s + at, "KONP", 4))
            found = 1;
        if (found && s[at] == '\n')
            return at + 1;
    }
    return n;
}

#endif
