/* Measures how much stack the eight calls take, and fails where it is EOL2_STACK or more. `host/run` builds it, without sanitizers.

       stack FILE..

   Each FILE has a program text, and behind it an input. The calls run in a thread whose stack is filled with one byte beforehand; what is not
   that byte afterwards was used. What a thread takes that does nothing is left out. */
#define _GNU_SOURCE
#include "text.h"

#include <pthread.h>
#include <sys/mman.h>

enum { ROOM = 4 * EOL2_STACK, PAINT = 0x5a, CALLS = 8, STEPS = 1000 };

static uint8_t *stack, file[HOST_FILE], state[EOL2_STATE], other[EOL2_TEXT], saved[EOL2_SAVED];
static uint32_t table[EOL2_TABLE];
static size_t text_bytes, file_bytes, saved_bytes;
static uint64_t answer;

static void *idle(void *nothing)
{
    return nothing;
}

static void *load(void *nothing)
{
    answer = eol2_load(file, text_bytes, table, EOL2_TABLE);
    return nothing;
}

static void *start(void *nothing)
{
    answer = eol2_start(table, EOL2_TABLE, file + text_bytes, file_bytes - text_bytes, NULL, 0, state, EOL2_STATE);
    return nothing;
}

static void *run(void *nothing)
{
    answer = eol2_run(table, EOL2_TABLE, file + text_bytes, file_bytes - text_bytes, NULL, 0, state, EOL2_STATE, STEPS);
    return nothing;
}

static void *convert(void *nothing)
{
    answer = eol2_convert(file, text_bytes, other, sizeof other);
    return nothing;
}

static void *write_state(void *nothing)
{
    answer = eol2_write_state(table, EOL2_TABLE, file + text_bytes, file_bytes - text_bytes, NULL, 0, state, EOL2_STATE, saved, sizeof saved);
    saved_bytes = eol2_count(answer);
    return nothing;
}

static void *read_state(void *nothing)
{
    answer = eol2_read_state(table, EOL2_TABLE, file + text_bytes, file_bytes - text_bytes, NULL, 0, saved, saved_bytes, state, EOL2_STATE);
    return nothing;
}

static void *shorten(void *nothing)
{
    static uint32_t own[EOL2_TABLE];
    answer = eol2_shorten(file, text_bytes, own, EOL2_TABLE, other, sizeof other);
    return nothing;
}

/* A class of as many pupils as there may be, all with the same work. */
static void *class(void *nothing)
{
    static uint8_t work[EOL2_CLASS * HOST_FILE], out[EOL2_CLASS * EOL2_OUTPUT];
    static uint32_t lengths[EOL2_CLASS], budgets[EOL2_CLASS], results[3 * EOL2_CLASS];
    const size_t bytes = file_bytes - text_bytes;
    for (size_t k = 0; k < EOL2_CLASS; k++) {
        memcpy(work + k * bytes, file + text_bytes, bytes);
        lengths[k] = (uint32_t)bytes, budgets[k] = STEPS;
    }
    answer = eol2_class(table, EOL2_TABLE, work, EOL2_CLASS * bytes, lengths, EOL2_CLASS, budgets, EOL2_CLASS, results, 3 * EOL2_CLASS, out,
                        sizeof out);
    return nothing;
}

/* How many bytes of its stack a thread uses. */
static size_t used(void *(*work)(void *))
{
    pthread_attr_t attributes;
    pthread_t thread;
    size_t at = 0;
    memset(stack, PAINT, ROOM);
    if (pthread_attr_init(&attributes) || pthread_attr_setstack(&attributes, stack, ROOM) || pthread_create(&thread, &attributes, work, NULL)
        || pthread_join(thread, NULL)) {
        fprintf(stderr, "stack: no thread\n");
        exit(2);
    }
    while (at < ROOM && stack[at] == PAINT)
        at++;
    return ROOM - at;
}

int main(int count, char **words)
{
    static void *(*const works[CALLS])(void *) = {load, start, run, convert, write_state, read_state, shorten, class};
    size_t most[CALLS] = {0};
    stack = mmap(NULL, ROOM, PROT_READ | PROT_WRITE, MAP_PRIVATE | MAP_ANONYMOUS, -1, 0);
    if (stack == MAP_FAILED) {
        perror("stack");
        return 2;
    }
    const size_t own = used(idle);
    for (int k = 1; k < count; k++) {
        file_bytes = host_read(words[k], file, sizeof file);
        text_bytes = host_text_end(file, file_bytes);
        for (int c = 0; c < CALLS; c++) {
            const size_t n = used(works[c]) - own;
            most[c] = n > most[c] ? n : most[c];
        }
    }
    printf("stack: load %zu, start %zu, run %zu, convert %zu, write %zu, read %zu, shorten %zu, class %zu bytes of %d\n", most[0], most[1],
           most[2], most[3], most[4], most[5], most[6], most[7], EOL2_STACK);
    for (int c = 0; c < CALLS; c++)
        if (most[c] >= EOL2_STACK)
            return 1;
    return 0;
}
