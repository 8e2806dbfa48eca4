/* Times what start and run do beside their steps: the checks of a full table (62), of full inputs (61) and of a full state (63), and a state laid
   out for work and written back; a full state written as text and read back; and moves of a word in states that are more and less full.
   `bench/run` builds and runs it. docs/LAYOUT.md has the places. */
#include "../include/eol2.h"
#include "clock.h"

#include <stdio.h>
#include <stdlib.h>
#include <string.h>

static uint32_t table[EOL2_TABLE];
static uint8_t state[EOL2_STATE];
static uint8_t input[EOL2_INPUT], saved[EOL2_SAVED], twin[EOL2_STATE];

/* ---- a full table */

/* 60 characters that differ in the last ones: a head and 15 cells */
static void word(uint32_t *at, uint32_t head, int k)
{
    char w[61];
    snprintf(w, sizeof w, "A%056d%03d", 0, k);
    at[0] = head;
    for (int q = 0; q < 15; q++)
        at[1 + q] = (uint32_t)w[4 * q] | (uint32_t)w[4 * q + 1] << 8 | (uint32_t)w[4 * q + 2] << 16 | (uint32_t)w[4 * q + 3] << 24;
}

/* 512 instructions, 128 labels and texts of 60 characters, 32 switches with 128 entries, 128 numbers */
static void fill_table(void)
{
    const uint32_t z1 = 1 + 8 * (1 + 64 * 11);
    const uint32_t counts[6] = {512, 128, 32, 128, 128, 128};
    memcpy(table, counts, sizeof counts);
    for (uint32_t i = 0; i < 512; i++) {
        uint32_t *at = table + 8 + 4 * i;
        at[0] = 10 + 64 * (i + 1);                                          /* UMIESC */
        at[1] = i % 2 ? 5 + 8 * (256 + i / 4) : 6 + 8 * (31 + i / 4);       /* a text or a number */
        at[2] = z1;
    }
    table[8] = 20 + 64;                                                     /* WYKONAJ, for the return stack */
    table[9] = 2;
    table[10] = 0;
    table[8 + 4 * 511] = 41 + 64 * 512;                                     /* STOP */
    table[9 + 4 * 511] = table[10 + 4 * 511] = 0;
    for (int k = 0; k < 128; k++) {
        word(table + 2056 + 16 * k, 60 + 64 * (uint32_t)k, k);
        word(table + 4104 + 16 * k, 60, k);
        table[6184 + k] = (uint32_t)k + 128 * (256 + (uint32_t)k);
        table[6312 + k] = 8388607 + 100 + (uint32_t)k;
    }
    for (uint32_t k = 0; k < 32; k++)
        table[6152 + k] = 1 + 2 * 4 + 512 * 4 * k;
}

/* ---- states */

static size_t number(size_t at, uint32_t n, int cells)
{
    for (int k = 0; k < cells; k++)
        state[at++] = (uint8_t)(n >> 8 * k);
    return at;
}

static size_t eight(size_t at)
{
    state[at] = 8;
    memset(state + at + 1, 'A', 8);
    return at + 9;
}

/* A state whose text is nearly the longest: 991 numbers, a word of 255 characters in each expression and one of 32, 256 records, 64 returns, both
   outputs. */
static void fill_longest(void)
{
    const uint32_t scalars[8] = {1, EOL2_INPUT, EOL2_INPUT, 511, 256, 1024, 8192, 256};
    memset(state, 0, sizeof state);
    for (int k = 0; k < 8; k++)
        number((size_t)(3 * k), scalars[k], 3);
    size_t at = 222;
    for (int s = 0; s < 99; s++) {
        size_t from = at;
        for (int k = 0; s < 32 && k < (s ? 23 : 22); k++)
            at = number(number(at, 256, 2), 16777214, 3);
        for (int k = 0; s < 32 && k < (s ? 1 : 2); k++) {
            const size_t length = k ? 32 : 255;
            state[at] = (uint8_t)length;
            memset(state + at + 1, 'A' + s % 26, length);
            at += length + 1;
        }
        for (int k = 0; s >= 32 && s < 96 && k < 4; k++) {
            at = number(number(at, (uint32_t)(4 * (s - 32) + k + 1), 3), 5, 2);
            at = number(number(number(at, 256, 2), 0, 3), 5, 2);
        }
        for (int k = 0; s == 96 && k < 64; k++)
            at = number(at, 1, 2);
        if (s > 96) {
            memset(state + at, 'Q', EOL2_OUTPUT);
            at += EOL2_OUTPUT;
        }
        number(24 + 2 * (size_t)s, (uint32_t)(at - from), 2);
    }
}

/* So many sixteenths of a full state: of 512 words in expressions, 256 records of two words, 64 returns and both outputs, which are 1,024 components
   and 8,192 characters. At least a word in each expression. */
static void fill_state(int sixteenths, uint32_t next, uint32_t read)
{
    const int words = sixteenths ? sixteenths : 1, records = sixteenths / 4;
    const uint32_t parts = 32 * (uint32_t)words + 128 * (uint32_t)records, all = 64 * (uint32_t)records;
    const uint32_t scalars[8] = {1, read, read, next, all, parts, 8 * parts, all};
    memset(state, 0, sizeof state);
    for (int k = 0; k < 8; k++)
        number((size_t)(3 * k), scalars[k], 3);
    size_t at = 222;
    for (int s = 0; s < 99; s++) {
        size_t from = at;
        if (s < 32)
            for (int k = 0; k < words; k++)
                at = eight(at);
        else if (s < 96)
            for (int k = 0; k < records; k++) {
                at = number(at, (uint32_t)(records * (s - 32) + k + 1), 3);
                at = number(at, 18, 2);
                at = eight(eight(at));
                at = number(at, 18, 2);
            }
        else if (s == 96)
            for (int k = 0; k < 4 * sixteenths; k++)
                at = number(at, 1, 2);
        else {
            memset(state + at, 'Q', 256 * (size_t)sixteenths);
            at += 256 * (size_t)sixteenths;
        }
        number(24 + 2 * (size_t)s, (uint32_t)(at - from), 2);
    }
}

/* ---- calls */

/* The best of 200 runs, in nanoseconds; says and ends where the answer is another than expected. */
static double timed_run(size_t inputs, size_t bytes, uint32_t budget, unsigned expected)
{
    double best = 1e18;
    for (int k = 0; k < 200; k++) {
        double a = now();
        uint64_t answer = eol2_run(table, EOL2_TABLE, input, inputs, input, inputs, state, bytes, budget);
        double b = now();
        if (eol2_number(answer) != expected) {
            printf("calls: answer %u for %u\n", (unsigned)eol2_number(answer), expected);
            exit(1);
        }
        if (b - a < best)
            best = b - a;
    }
    return best;
}

/* A state that is too short is refused after table and inputs, one with its next instruction past the table after all else of it. */
static void checks(void)
{
    fill_table();
    memset(input, 'I', sizeof input);
    double t = timed_run(0, EOL2_STATE - 1, 0, EOL2_BAD_STATE);
    double i = timed_run(EOL2_INPUT, EOL2_STATE - 1, 0, EOL2_BAD_STATE);
    fill_state(16, 512, EOL2_INPUT);
    double s = timed_run(EOL2_INPUT, EOL2_STATE, 0, EOL2_BAD_STATE);
    fill_state(16, 0, EOL2_INPUT);
    double r = timed_run(EOL2_INPUT, EOL2_STATE, 0, EOL2_PAUSED);
    printf("full table   checked in %7.0f ns\n", t);
    printf("full inputs  checked in %7.0f ns\n", i - t);
    printf("full state   checked in %7.0f ns\n", s - i);
    printf("full state   laid out and written back in %7.0f ns\n", r - s);
}

static uint64_t write_state(size_t bytes)
{
    (void)bytes;
    return eol2_write_state(table, EOL2_TABLE, input, EOL2_INPUT, input, EOL2_INPUT, state, EOL2_STATE, saved, EOL2_SAVED);
}

static uint64_t read_state(size_t bytes)
{
    return eol2_read_state(table, EOL2_TABLE, input, EOL2_INPUT, input, EOL2_INPUT, saved, bytes, twin, EOL2_STATE);
}

/* The best of 200 calls, in nanoseconds, and the answer's count. */
static double timed_call(uint64_t (*call)(size_t), size_t bytes, size_t *count, unsigned expected)
{
    double best = 1e18;
    for (int k = 0; k < 200; k++) {
        double a = now();
        uint64_t answer = call(bytes);
        double b = now();
        if (eol2_number(answer) != expected) {
            printf("calls: answer %u for %u\n", (unsigned)eol2_number(answer), expected);
            exit(1);
        }
        *count = eol2_count(answer);
        if (b - a < best)
            best = b - a;
    }
    return best;
}

/* With the full table and full inputs, which both calls check first. */
static void keeping(void)
{
    static const char *const titles[] = {"full state   of words", "full state   of numbers"};
    size_t bytes, none;
    for (int k = 0; k < 2; k++) {
        if (k)
            fill_longest();
        else
            fill_state(16, 511, EOL2_INPUT);
        const double w = timed_call(write_state, 0, &bytes, EOL2_ACCEPTED), r = timed_call(read_state, bytes, &none, EOL2_ACCEPTED);
        if (memcmp(state, twin, sizeof state)) {
            printf("calls: another state is read back\n");
            exit(1);
        }
        printf("%-23s written as %zu bytes in %7.0f ns, read back in %7.0f ns, with the checks of table and inputs\n", titles[k], bytes, w, r);
    }
    /* lines that are all right, of a frame that belongs nowhere, and as many as a text can have */
    for (bytes = 0; bytes + 11 <= EOL2_SAVED; bytes += 11)
        memcpy(saved + bytes, "05000000FB\n", 11);
    printf("4,341 lines  that are no state refused in %7.0f ns\n", timed_call(read_state, bytes, &none, EOL2_BAD_FRAMES));
}

/* nanoseconds a step of a text that moves words, less what a run of no steps takes; its second instruction is next */
static double timed_moves(const char *text, int sixteenths)
{
    const uint32_t steps = 200000;
    double best = 1e18;
    if (eol2_number(eol2_load((const uint8_t *)text, strlen(text), table, EOL2_TABLE)) != EOL2_ACCEPTED) {
        printf("calls: refused: %s\n", text);
        exit(1);
    }
    fill_state(sixteenths, 1, 0);
    double none = timed_run(0, EOL2_STATE, 0, EOL2_PAUSED);
    for (int k = 0; k < 7; k++) {
        fill_state(sixteenths, 1, 0);
        double a = now();
        eol2_run(table, EOL2_TABLE, NULL, 0, NULL, 0, state, EOL2_STATE, steps);
        double b = now();
        if (b - a < best)
            best = b - a;
    }
    return (best - none) / steps;
}

static void moves(void)
{
    static const char *const states[] = {"nearly empty", "half full", "full"};
    static const char to_the_front[] = "SEKCJA S\nWYKONAJ L\nL: PRZESLIJ A1,A20,1\nPRZESLIJ A20,A1,1\nSKOCZ L\nKONS\nKONP S\n";
    static const char to_the_end[] = "SEKCJA S\nWYKONAJ L\nL: PRZESLIJ A1,Z20,1\nPRZESLIJ A20,Z1,1\nSKOCZ L\nKONS\nKONP S\n";
    for (int k = 0; k < 3; k++)
        printf("%-12s a word from a front to a front and back: %5.1f ns a step, to an end and back: %5.1f ns a step\n", states[k],
               timed_moves(to_the_front, 8 * k), timed_moves(to_the_end, 8 * k));
}

int main(void)
{
    checks();
    keeping();
    moves();
    return 0;
}
