/* A text that a benchmark makes. */
#ifndef BENCH_MADE_H
#define BENCH_MADE_H

#include "../include/eol2.h"

#include <stdarg.h>
#include <stdio.h>
#include <stdlib.h>

static char text[EOL2_TEXT + 4096];
static size_t bytes;

/* Puts more behind it. */
static void add(const char *form, ...)
{
    va_list words;
    va_start(words, form);
    bytes += (size_t)vsnprintf(text + bytes, sizeof text - bytes, form, words);
    va_end(words);
    if (bytes > EOL2_TEXT) {
        fprintf(stderr, "bench: a text that is made is too long\n");
        exit(2);
    }
}

#endif
