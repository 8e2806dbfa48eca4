/* Times runs: nanoseconds a step of a program, and for three of them beside it the same work directly in C. `bench/run` builds and runs it.

       steps STEPS FILE...

   A FILE has a text, and behind it an input. A text ends in a jump to where its round begins; with STOP in the place of that jump it makes one
   round, and the steps of that round are counted. The ratio is a round's time here to the same round's in C. */
#include "../host/text.h"
#include "clock.h"
#include "native.h"

#include <stdbool.h>

static uint32_t table[EOL2_TABLE];
static uint8_t state[EOL2_STATE], file[HOST_FILE], once[EOL2_TEXT];

static const struct {
    const char *name;
    uint32_t (*work)(const uint8_t *, size_t);
} natives[] = {{"sort", native_sort}, {"count", native_loop}, {"files", native_copy}};

/* Loads and starts; says and ends where a call refuses. */
static void ready(const char *name, const uint8_t *text, size_t bytes, const uint8_t *input, size_t n)
{
    uint64_t answer = eol2_load(text, bytes, table, EOL2_TABLE);
    if (eol2_number(answer) == EOL2_ACCEPTED)
        answer = eol2_start(table, EOL2_TABLE, input, n, NULL, 0, state, EOL2_STATE);
    if (eol2_number(answer) != EOL2_ACCEPTED) {
        printf("%s: answer %u, line %u\n", name, (unsigned)eol2_number(answer), (unsigned)eol2_line(answer));
        exit(1);
    }
}

/* The best of 7 runs of a budget from the start, in nanoseconds. */
static double timed_run(const char *name, const uint8_t *text, size_t bytes, const uint8_t *input, size_t n, uint32_t budget, uint64_t *answer)
{
    double best = 1e18;
    for (int k = 0; k < 7; k++) {
        ready(name, text, bytes, input, n);
        double a = now();
        *answer = eol2_run(table, EOL2_TABLE, input, n, NULL, 0, state, EOL2_STATE, budget);
        double b = now();
        if (b - a < best)
            best = b - a;
    }
    return best;
}

/* The text of one round: its last SKOCZ and what it names made into STOP, blanks for the rest. */
static bool make_once(const uint8_t *text, size_t bytes)
{
    memcpy(once, text, bytes);
    for (size_t at = bytes; at-- > 0;)
        if (bytes - at > 5 && !memcmp(once + at, "SKOCZ", 5)) {
            for (size_t k = at; once[k] != '\n'; k++)
                once[k] = ' ';
            memcpy(once + at, "STOP", 4);
            return true;
        }
    return false;
}

static double timed_native(uint32_t (*work)(const uint8_t *, size_t), const uint8_t *input, size_t n)
{
    static volatile uint32_t sink;
    double best = 1e18;
    for (int k = 0; k < 25; k++) {
        double a = now();
        for (int round = 0; round < 100; round++)
            sink += work(input, n);
        double b = now();
        if (b - a < best)
            best = b - a;
    }
    return best / 100;
}

static void bench(const char *path, uint32_t steps)
{
    const char *slash = strrchr(path, '/');
    char name[32];
    snprintf(name, sizeof name, "%s", slash ? slash + 1 : path);
    if (strrchr(name, '.'))
        *strrchr(name, '.') = 0;
    size_t all = host_read(path, file, sizeof file), bytes = host_text_end(file, all);
    const uint8_t *input = file + bytes;
    uint64_t answer;
    double time = timed_run(name, file, bytes, input, all - bytes, steps, &answer);
    uint32_t count = eol2_count(answer);
    double step = time / (count ? count : 1);
    printf("%-8s %8.2f ns a step (%u steps, answer %u)", name, step, (unsigned)count, (unsigned)eol2_number(answer));
    for (size_t k = 0; k < sizeof natives / sizeof *natives; k++)
        if (!strcmp(natives[k].name, name) && make_once(file, bytes)) {
            timed_run(name, once, bytes, input, all - bytes, UINT32_MAX, &answer);
            double here = step * eol2_count(answer), native = timed_native(natives[k].work, input, all - bytes);
            printf("; a round of %u steps %8.1f us, in C %7.2f us: ratio %.1f", (unsigned)eol2_count(answer), here / 1000, native / 1000,
                   here / native);
        }
    printf("\n");
}

int main(int count, char **words)
{
    if (count < 3) {
        fprintf(stderr, "usage: %s STEPS FILE...\n", words[0]);
        return 2;
    }
    for (int k = 2; k < count; k++)
        bench(words[k], (uint32_t)strtoul(words[1], NULL, 10));
    return 0;
}
