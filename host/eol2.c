/* Loads a program text, starts it, and runs it in slices: a model of how a host program calls EOL-2. It can leave the state in a file, and go on
   from there another day. `host/run` builds it.

       eol2 [--slice N] [--limit N] [--resume STATE] [--save STATE] [FILE]

   FILE (without one, standard input) has the text up to the end of the first line that starts with KONP, and behind it I1. Each run takes at
   most N instructions (--slice, 1000), all runs together at most N (--limit, 100000). It prints Q1, a new line, and how it ended: STOP and the
   number, or PAUSE, with line and steps. Where a call is refused it prints BLAD, number and line alone, and its exit status is 1.

   --save writes the state in which the runs end to a file, in place of what it had. --resume begins with the state of such a file, where the text
   and I1 must be those it was saved with; steps count from there. Both may name the same file. What is wrong with a saved state is said in words
   on standard error too. Exit status 2: wrong use, or a file that cannot be read or written; then the file of --save is as it was. */
#include "text.h"

#include <limits.h>

static uint8_t file[HOST_FILE];
static uint32_t table[EOL2_TABLE];
static uint8_t state[EOL2_STATE], saved[EOL2_SAVED + 1];
static const uint8_t *i1;
static size_t i1_bytes;
static uint32_t slice = 1000, limit = 100000;
static const char *name = "-", *resume, *save;

static _Noreturn void wrong(const char *what)
{
    fprintf(stderr, "eol2: %s\nusage: eol2 [--slice N] [--limit N] [--resume STATE] [--save STATE] [FILE]\n", what);
    exit(2);
}

static _Noreturn void refused(uint64_t answer)
{
    printf("BLAD %02u LINE %u\n", (unsigned)eol2_number(answer), (unsigned)eol2_line(answer));
    exit(1);
}

/* ---- a state in a file */

/* The state of a file; what is wrong with it, in words. */
static void read_saved(void)
{
    const size_t bytes = host_read(resume, saved, sizeof saved);
    if (bytes > EOL2_SAVED) {
        fprintf(stderr, "eol2: %s: longer than any saved state\n", resume);
        exit(1);
    }
    const uint64_t answer = eol2_read_state(table, EOL2_TABLE, i1, i1_bytes, NULL, 0, saved, bytes, state, EOL2_STATE);
    if (eol2_number(answer) == EOL2_BAD_LINES)
        fprintf(stderr, "eol2: %s: damaged, or no saved state: a line is not hexadecimal, or its length or its sum is wrong\n", resume);
    if (eol2_number(answer) == EOL2_BAD_FRAMES)
        fprintf(stderr, "eol2: %s: no state of this text and this input: saved with others, or its lines are not all there in their order\n", resume);
    if (eol2_number(answer) != EOL2_ACCEPTED)
        refused(answer);
}

static FILE *new_file;
static char new_name[PATH_MAX];

/* A new file beside the one of --save, so that this one is replaced as a whole or not at all. It is made before the run, which may be long. */
static void open_save(void)
{
    const int n = snprintf(new_name, sizeof new_name, "%s.new", save);
    new_file = n > 0 && (size_t)n < sizeof new_name ? fopen(new_name, "wb") : NULL;
    if (!new_file) {
        perror(save);
        exit(2);
    }
}

static void write_saved(void)
{
    const uint64_t answer = eol2_write_state(table, EOL2_TABLE, i1, i1_bytes, NULL, 0, state, EOL2_STATE, saved, EOL2_SAVED);
    if (eol2_number(answer) != EOL2_ACCEPTED)
        refused(answer);
    const int whole = fwrite(saved, 1, eol2_count(answer), new_file) == eol2_count(answer);
    if (fclose(new_file) || !whole || rename(new_name, save)) {
        perror(save);
        remove(new_name);
        exit(2);
    }
}

/* ---- the command's words */

static uint32_t steps_of(const char *word)
{
    char *end;
    unsigned long n = word ? strtoul(word, &end, 10) : 0;
    if (!word || *word < '0' || *word > '9' || *end || n > UINT32_MAX)
        wrong("--slice and --limit take a number of instructions below 4294967296");
    return (uint32_t)n;
}

static const char *file_of(const char *word)
{
    if (!word || !*word)
        wrong("--resume and --save take the name of a file");
    return word;
}

static void take_words(char **words)
{
    for (words++; *words; words++) {
        const char *word = *words;
        if (!strcmp(word, "--slice"))
            slice = steps_of(*++words);
        else if (!strcmp(word, "--limit"))
            limit = steps_of(*++words);
        else if (!strcmp(word, "--resume"))
            resume = file_of(*++words);
        else if (!strcmp(word, "--save"))
            save = file_of(*++words);
        else if (word[0] == '-' && word[1])
            wrong("no such option");
        else
            name = word;
    }
    if (slice == 0)
        wrong("a slice has at least one instruction");
}

/* ---- load, start or go on, run */

static void load(void)
{
    const size_t bytes = host_read(name, file, sizeof file), text = host_text_end(file, bytes);
    const uint64_t answer = eol2_load(file, text, table, EOL2_TABLE);
    if (eol2_number(answer) != EOL2_ACCEPTED)
        refused(answer);
    i1 = file + text;
    i1_bytes = bytes - text;
}

static void start(void)
{
    const uint64_t answer = eol2_start(table, EOL2_TABLE, i1, i1_bytes, NULL, 0, state, EOL2_STATE);
    if (eol2_number(answer) != EOL2_ACCEPTED)
        refused(answer);
}

static uint32_t steps;

static uint64_t run(void)
{
    uint64_t answer;
    do {
        uint32_t budget = limit - steps < slice ? limit - steps : slice;
        answer = eol2_run(table, EOL2_TABLE, i1, i1_bytes, NULL, 0, state, EOL2_STATE, budget);
        steps += eol2_count(answer);
        /* here a drawing program would look at Q1, or at its window */
    } while (eol2_number(answer) == EOL2_PAUSED && steps < limit);
    return answer;
}

static void print(uint64_t answer)
{
    size_t length;
    const uint8_t *q1 = eol2_output(state, 1, &length);
    fwrite(q1, 1, length, stdout);
    putchar('\n');
    if (eol2_number(answer) == EOL2_PAUSED)
        printf("PAUSE");
    else
        printf("STOP %u", (unsigned)eol2_number(answer));
    printf(" LINE %u STEPS %u\n", (unsigned)eol2_next_line(table, state), (unsigned)steps);
}

int main(int count, char **words)
{
    (void)count;
    take_words(words);
    load();
    if (resume)
        read_saved();
    else
        start();
    if (save)
        open_save();
    print(run());
    if (save)
        write_saved();
    return 0;
}
