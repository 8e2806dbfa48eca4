/* Times a class of sixteen pupils against sixteen separate starts and runs, in one run, with a small table and with a full one. `bench/run` builds
   and runs it. The class is to cost no more than the separate calls less fifteen checks of the table; where it does, the exit status is 1. */
#include "../include/eol2.h"
#include "clock.h"

#include <stdio.h>
#include <stdlib.h>
#include <string.h>

enum { WORK = 400, TIMES = 60 };

static char text[EOL2_TEXT];
static uint32_t table[EOL2_TABLE], lengths[EOL2_CLASS], budgets[EOL2_CLASS], results[3 * EOL2_CLASS];
static uint8_t inputs[EOL2_CLASS * WORK], out[EOL2_CLASS * EOL2_OUTPUT], state[EOL2_STATE];

/* Copies its input word by word to Q1; behind that as many instructions, each with a label, text or number of its own, as are asked for. */
static void load(int more)
{
    int n = sprintf(text, "SEKCJA S\nX: CZYTAJ I1,A1,B\nPISZ A1,Q1\nUMIESC '-',Q1\nUSUN I1,1\nSKOPL X\nSTOP\n");
    for (int k = 0; k < more; k++)
        if (k < 126)
            n += sprintf(text + n, "A%015d: UMIESC 'WZOR%017d',A1\n", k, k);
        else
            n += sprintf(text + n, "UMIESC %d,A1\n", k % 126 + 16);
    n += sprintf(text + n, "STOP\nKONS\nKONP S\n");
    const uint64_t answer = eol2_load((const uint8_t *)text, (size_t)n, table, EOL2_TABLE);
    if (eol2_number(answer) != EOL2_ACCEPTED) {
        printf("class: load answers %u, line %u\n", (unsigned)eol2_number(answer), (unsigned)eol2_line(answer));
        exit(2);
    }
}

static void as_class(void)
{
    eol2_class(table, EOL2_TABLE, inputs, sizeof inputs, lengths, EOL2_CLASS, budgets, EOL2_CLASS, results, 3 * EOL2_CLASS, out, sizeof out);
}

static void separately(void)
{
    for (size_t k = 0; k < EOL2_CLASS; k++) {
        size_t bytes;
        eol2_start(table, EOL2_TABLE, inputs + WORK * k, WORK, NULL, 0, state, EOL2_STATE);
        const uint64_t answer = eol2_run(table, EOL2_TABLE, inputs + WORK * k, WORK, NULL, 0, state, EOL2_STATE, budgets[k]);
        const uint8_t *q1 = eol2_output(state, 1, &bytes);
        if (results[3 * k] != eol2_number(answer) || results[3 * k + 1] != eol2_count(answer) || results[3 * k + 2] != bytes
            || memcmp(out + EOL2_OUTPUT * k, q1, bytes)) {
            printf("class: pupil %zu gets another answer\n", k);
            exit(2);
        }
    }
}

/* a state that is too short is refused after the table and no inputs */
static void check(void)
{
    eol2_start(table, EOL2_TABLE, NULL, 0, NULL, 0, state, EOL2_STATE - 1);
}

static double timed(void (*work)(void))
{
    const double a = now();
    work();
    return now() - a;
}

static int measure(const char *title, int more, uint32_t budget)
{
    double best[3] = {1e18, 1e18, 1e18};
    load(more);
    for (size_t k = 0; k < EOL2_CLASS; k++)
        budgets[k] = budget;
    for (int k = 0; k < TIMES; k++) {
        const double times[3] = {timed(as_class), timed(separately), timed(check)};
        for (int c = 0; c < 3; c++)
            best[c] = times[c] < best[c] ? times[c] : best[c];
    }
    printf("%s, budget %4u: class of sixteen %8.1f us, separately %8.1f us, a check of the table %6.1f us\n", title, (unsigned)budget, best[0] / 1000,
           best[1] / 1000, best[2] / 1000);
    return best[0] > best[1] - 15 * best[2];
}

int main(void)
{
    int slow = 0;
    for (size_t k = 0; k < EOL2_CLASS; k++)
        lengths[k] = WORK;
    for (size_t k = 0; k < sizeof inputs; k++)
        inputs[k] = k % 7 == 6 ? ' ' : (uint8_t)('A' + k % 23);
    for (int b = 0; b < 3; b++) {
        slow |= measure("small table", 0, (uint32_t[]){0, 100, 1000}[b]);
        slow |= measure("full table ", 500, (uint32_t[]){0, 100, 1000}[b]);
    }
    return slow;
}
