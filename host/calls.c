/* Runs scripts of calls over the static library, and compares every answer. `host/run` builds it, and runs it on vectors-02/2.NN/NAME.calls.

       calls FILE..

   The first line of a script says the level: `level 3` is EOL-2 with requests 2.1 to 2.3 at least. Then a line is a call: its name, its arguments,
   ` => ` and the answer, with one space between words; or a comment, which starts with #. Numbers are decimal, bytes hexadecimal, - is no byte.
   One table and one state serve a whole script.

       load TEXT GRADE => NUMBER LINE
       start PREVIEW I1 I2 => NUMBER
       inputs I1 I2                      (no call: the inputs of the runs that follow, in place of those of the last start)
       run BUDGET => NUMBER COUNT
       output K => BYTES                 (no call: Q K of the state)
       convert TEXT LENGTH => NUMBER BYTES   (to a buffer of that length)
       write LENGTH => NUMBER BYTES      (the state, to a buffer of that length)
       read SAVED => NUMBER              (into the state)
       shorten TEXT LENGTH => NUMBER BYTES   (to a buffer of that length, with a table of its own)
       class LENGTH LENGTHS BUDGETS DATA => NUMBER [ANSWER:COUNT:Q1 ..]   (to a buffer of that length; numbers with commas between, - for none)

   GRADE and PREVIEW are 0: no call takes them yet. What is lent lies between pages that trap (lent.h); what a call only reads, and what a
   refused one leaves alone, is compared too. */
#include "../include/eol2.h"
#include "lent.h"

#include <stdarg.h>

enum { LEVEL = 9, WORDS_MOST = 64, ANSWER_MOST = 4 * EOL2_INPUT, BUFFER_MOST = 3 * EOL2_TEXT, CLASS_MOST = 64, DATA_MOST = 4 * EOL2_INPUT };

static struct lent text, saved, table, i1, i2, state, out, data, lengths, budgets, results;
static uint8_t table_now[EOL2_TABLE * 4], state_now[EOL2_STATE], before[BUFFER_MOST];
static struct { uint8_t at[EOL2_INPUT + 1]; size_t bytes; } inputs[2];
static const char *script;
static unsigned long line, calls;
static char answer[ANSWER_MOST];
static size_t answer_bytes;

static _Noreturn void stop(int status, const char *form, ...)
{
    va_list words;
    va_start(words, form);
    printf("%s:%lu: ", script, line);
    vprintf(form, words);
    printf("\n");
    va_end(words);
    exit(status);
}

/* ---- words of a script, and the answer in its form */

static uint32_t number(const char *word)
{
    char *end;
    unsigned long n = strtoul(word, &end, 10);
    if (!*word || *end || n > UINT32_MAX)
        stop(2, "not a number: %s", word);
    return (uint32_t)n;
}

/* An argument that no call takes yet. */
static void none(const char *word)
{
    if (number(word))
        stop(2, "no call takes %s here", word);
}

static int digit(char c)
{
    const char *all = "0123456789abcdef", *found = c ? strchr(all, c) : NULL;
    if (!found)
        stop(2, "not hexadecimal");
    return (int)(found - all);
}

static size_t bytes(const char *word, uint8_t *to, size_t most)
{
    size_t n = 0;
    for (; strcmp(word, "-") && *word; word += 2) {
        if (n == most)
            stop(2, "too many bytes");
        to[n++] = (uint8_t)(16 * digit(word[0]) + digit(word[1]));
    }
    return n;
}

static void tell_number(uint32_t n)
{
    answer_bytes += (size_t)sprintf(answer + answer_bytes, "%s%u", answer_bytes ? " " : "", (unsigned)n);
}

static void tell_bytes(const uint8_t *at, size_t n)
{
    if (!n)
        answer_bytes += (size_t)sprintf(answer + answer_bytes, "-");
    for (size_t k = 0; k < n; k++)
        answer_bytes += (size_t)sprintf(answer + answer_bytes, "%02x", at[k]);
}

/* ---- calls */

/* Lends memory with a content: in turns at the front and at the end of its pages, and by a null pointer where it is empty. */
static void lend(struct lent *l, const uint8_t *content, size_t n)
{
    lent_fill(l, content, n, (int)(calls & 1), (int)(calls & 2));
}

static void lend_all(void)
{
    lend(&table, table_now, sizeof table_now);
    lend(&i1, inputs[0].at, inputs[0].bytes);
    lend(&i2, inputs[1].at, inputs[1].bytes);
    lend(&state, state_now, sizeof state_now);
    lend(&saved, before, 0);
    lend(&out, before, 0);
    lend(&data, before, 0), lend(&lengths, before, 0), lend(&budgets, before, 0), lend(&results, before, 0);
}

/* After a call that may write `written`, and `second` where it is one, and was refused or not. */
static void look_twice(struct lent *written, struct lent *second, int refused)
{
    struct lent *all[] = {&text, &saved, &table, &i1, &i2, &state, &out, &data, &lengths, &budgets, &results};
    calls++;
    for (int k = 0; k < (int)(sizeof all / sizeof *all); k++) {
        if (!lent_guarded(all[k]))
            stop(1, "the call wrote beside buffer %d", k);
        if (((all[k] != written && all[k] != second) || refused) && !lent_same(all[k], 0))
            stop(1, "the call wrote buffer %d", k);
    }
}

static void look(struct lent *written, int refused)
{
    look_twice(written, NULL, refused);
    memcpy(table_now, table.at, sizeof table_now);
    memcpy(state_now, state.at, sizeof state_now);
}

static void load(char **words)
{
    static uint8_t s[2 * EOL2_TEXT];
    none(words[2]);
    lend_all();
    lend(&text, s, bytes(words[1], s, sizeof s));
    uint64_t a = eol2_load(text.at, text.length, (uint32_t *)(void *)table.at, EOL2_TABLE);
    look(&table, eol2_number(a) == EOL2_BAD_SIZE);
    tell_number(eol2_number(a));
    tell_number(eol2_line(a));
}

static void take_inputs(char **words)
{
    for (int k = 0; k < 2; k++)
        inputs[k].bytes = bytes(words[1 + k], inputs[k].at, sizeof inputs[k].at);
}

static void start(char **words)
{
    none(words[1]);
    take_inputs(words + 1);
    lend_all();
    uint64_t a = eol2_start((const uint32_t *)(const void *)table.at, EOL2_TABLE, i1.at, i1.length, i2.at, i2.length, state.at, EOL2_STATE);
    look(&state, eol2_number(a) != EOL2_ACCEPTED);
    tell_number(eol2_number(a));
}

static void run(char **words)
{
    lend_all();
    uint64_t a = eol2_run((const uint32_t *)(const void *)table.at, EOL2_TABLE, i1.at, i1.length, i2.at, i2.length, state.at, EOL2_STATE,
                          number(words[1]));
    uint32_t n = eol2_number(a);
    look(&state, n == EOL2_BAD_TABLE || n == EOL2_BAD_INPUTS || n == EOL2_BAD_STATE);
    tell_number(n);
    tell_number(eol2_count(a));
}

/* A buffer to fill, of a length that a script asks for, with other bytes for each call. */
static void lend_out(const char *word)
{
    const size_t n = number(word);
    if (n > sizeof before)
        stop(2, "a buffer too long: %s", word);
    for (size_t k = 0; k < n; k++)
        before[k] = (uint8_t)(k + 7 * calls);
    lend(&out, before, n);
}

/* The answer of a call that fills the buffer, whose rest stays. */
static void tell_part(uint64_t a)
{
    const uint32_t count = eol2_count(a);
    if (count > out.length || !lent_same(&out, count))
        stop(1, "the call wrote beyond its %u bytes", (unsigned)count);
    tell_number(eol2_number(a));
    answer_bytes += (size_t)sprintf(answer + answer_bytes, " ");
    tell_bytes(out.at, count);
}

/* After a call that fills the buffer, and leaves it as it was where the number is not 80. */
static void tell_filled(uint64_t a)
{
    look(&out, eol2_number(a) != EOL2_ACCEPTED);
    tell_part(a);
}

static void convert(char **words)
{
    static uint8_t s[2 * EOL2_TEXT];
    lend_all();
    lend(&text, s, bytes(words[1], s, sizeof s));
    lend_out(words[2]);
    tell_filled(eol2_convert(text.at, text.length, out.at, out.length));
}

static void write_state(char **words)
{
    lend_all();
    lend_out(words[1]);
    tell_filled(eol2_write_state((const uint32_t *)(const void *)table.at, EOL2_TABLE, i1.at, i1.length, i2.at, i2.length, state.at, EOL2_STATE,
                                 out.at, out.length));
}

static void read_state(char **words)
{
    static uint8_t s[BUFFER_MOST];
    lend_all();
    lend(&saved, s, bytes(words[1], s, sizeof s));
    uint64_t a = eol2_read_state((const uint32_t *)(const void *)table.at, EOL2_TABLE, i1.at, i1.length, i2.at, i2.length, saved.at, saved.length,
                                 state.at, EOL2_STATE);
    look(&state, eol2_number(a) != EOL2_ACCEPTED);
    if (eol2_count(a))
        stop(1, "read answers with count %u", (unsigned)eol2_count(a));
    tell_number(eol2_number(a));
}

/* The table is one of its own, not the script's; loading the part leaves the same in another. */
static void shorten(char **words)
{
    static uint8_t s[2 * EOL2_TEXT], cells[EOL2_TABLE * 4];
    static uint32_t twin[EOL2_TABLE];
    lend_all();
    memset(cells, (int)(calls & 255), sizeof cells);
    lend(&table, cells, sizeof cells);
    lend(&text, s, bytes(words[1], s, sizeof s));
    lend_out(words[2]);
    uint64_t a = eol2_shorten(text.at, text.length, (uint32_t *)(void *)table.at, EOL2_TABLE, out.at, out.length);
    look_twice(&out, &table, eol2_number(a) == EOL2_BAD_SIZE);
    tell_part(a);
    if (eol2_number(a) != EOL2_BAD_SIZE
        && (eol2_number(eol2_load(out.at, eol2_count(a), twin, EOL2_TABLE)) != eol2_number(a) || memcmp(twin, table.at, sizeof twin)))
        stop(1, "loading the part answers otherwise, or leaves another table");
}

/* Numbers with commas between, lent; how many there are. */
static size_t lend_numbers(struct lent *l, char *word)
{
    uint32_t all[CLASS_MOST];
    size_t n = 0;
    for (char *rest = strcmp(word, "-") ? word : NULL; (word = strsep(&rest, ","));) {
        if (n == CLASS_MOST)
            stop(2, "too many numbers");
        all[n++] = number(word);
    }
    lend(l, (const uint8_t *)all, 4 * n);
    return n;
}

static uint32_t result(size_t k)
{
    uint32_t n;
    memcpy(&n, results.at + 4 * k, sizeof n);
    return n;
}

/* The three results of a pupil, and that the bytes behind its Q1 stay, up to the next part. */
static void tell_pupil(size_t k, size_t pupils)
{
    const size_t from = EOL2_OUTPUT * k, q1 = result(3 * k + 2), end = k + 1 < pupils ? from + EOL2_OUTPUT : out.length;
    if (q1 > EOL2_OUTPUT || memcmp(out.at + from + q1, out.before + from + q1, end - from - q1))
        stop(1, "class wrote behind the Q1 of pupil %zu", k);
    tell_number(result(3 * k));
    answer_bytes += (size_t)sprintf(answer + answer_bytes, ":%u:", (unsigned)result(3 * k + 1));
    tell_bytes(out.at + from, q1);
}

/* With as many results as the pupils need, and where there are some with one too few before: 71. */
static void class(char **words)
{
    static uint8_t s[DATA_MOST], cells[12 * CLASS_MOST];
    lend_all();
    const size_t n = lend_numbers(&lengths, words[2]), m = lend_numbers(&budgets, words[3]);
    const uint32_t *const t = (const uint32_t *)(const void *)table.at;
    lend(&data, s, bytes(words[4], s, sizeof s)), lend_out(words[1]);
    memset(cells, (int)(calls & 255), sizeof cells);
    uint64_t a = 0;
    for (int few = n != 0; few >= 0; few--) {
        lend(&results, cells, 12 * n - 4 * (size_t)few);
        a = eol2_class(t, EOL2_TABLE, data.at, data.length, (uint32_t *)(void *)lengths.at, n, (uint32_t *)(void *)budgets.at, m,
                       (uint32_t *)(void *)results.at, results.length / 4, out.at, out.length);
        look_twice(&out, &results, few || eol2_number(a) != EOL2_ACCEPTED);
        if (eol2_count(a) || (few && eol2_number(a) != EOL2_BAD_CLASS && eol2_number(a) != EOL2_BAD_TABLE))
            stop(1, "class answers %u with count %u to %zu results", (unsigned)eol2_number(a), (unsigned)eol2_count(a), results.length / 4);
    }
    tell_number(eol2_number(a));
    for (size_t k = 0; eol2_number(a) == EOL2_ACCEPTED && k < n; k++)
        tell_pupil(k, n);
}

static void output(char **words)
{
    size_t n;
    const uint8_t *at = eol2_output(state_now, (int)number(words[1]), &n);
    tell_bytes(at, n);
}

static const struct { const char *name; int words; void (*make)(char **words); } names[] = {
    {"load", 3, load}, {"start", 4, start}, {"inputs", 3, take_inputs}, {"run", 2, run}, {"output", 2, output},
    {"convert", 3, convert}, {"write", 2, write_state}, {"read", 2, read_state},
    {"shorten", 3, shorten}, {"class", 5, class}};

/* ---- scripts */

static void one_line(char *s)
{
    static char nothing[] = "";
    char *words[WORDS_MOST], *expected = strstr(s, " => ");
    int count = 0;
    if (expected)
        *expected = 0, expected += 4;
    else
        expected = nothing;
    for (char *word = strtok(s, " "); word && count < WORDS_MOST; word = strtok(NULL, " "))
        words[count++] = word;
    for (size_t k = 0; count && k < sizeof names / sizeof *names; k++)
        if (!strcmp(words[0], names[k].name) && count == names[k].words) {
            answer_bytes = 0, answer[0] = 0;
            names[k].make(words);
            if (strcmp(answer, expected))
                stop(1, "%s answers %s, not %s", words[0], answer, expected);
            return;
        }
    stop(2, "no call that is known");
}

static void one_script(const char *name)
{
    char *s = NULL;
    size_t room = 0;
    FILE *f = fopen(name, "r");
    script = name, line = 0;
    memset(table_now, 0, sizeof table_now), memset(state_now, 0, sizeof state_now);
    inputs[0].bytes = inputs[1].bytes = 0;
    if (!f)
        stop(2, "no such file");
    while (getline(&s, &room, f) > 0) {
        line++;
        s[strcspn(s, "\n")] = 0;
        if (line == 1 && (strncmp(s, "level ", 6) || number(s + 6) > LEVEL))
            stop(2, "not of a level up to %d", LEVEL);
        if (line > 1 && s[0] != '#')
            one_line(s);
    }
    if (!line)
        stop(2, "an empty script");
    free(s);
    fclose(f);
}

int main(int count, char **words)
{
    lent_make(&text, 2 * EOL2_TEXT), lent_make(&table, sizeof table_now), lent_make(&i1, EOL2_INPUT + 1), lent_make(&i2, EOL2_INPUT + 1);
    lent_make(&state, sizeof state_now), lent_make(&saved, sizeof before), lent_make(&out, sizeof before);
    lent_make(&data, DATA_MOST), lent_make(&lengths, 4 * CLASS_MOST), lent_make(&budgets, 4 * CLASS_MOST), lent_make(&results, 12 * CLASS_MOST);
    lend(&text, state_now, 0);
    for (int k = 1; k < count; k++)
        one_script(words[k]);
    printf("scripts: %lu calls in %d, 0 differences\n", calls, count - 1);
    return 0;
}
