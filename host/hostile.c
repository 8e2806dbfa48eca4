/* Hands hostile memory to the eight calls, and checks what they answer and leave. `host/run` builds it, with AddressSanitizer and UBSan.

       hostile SEED ROUNDS FILE...

   Each FILE has a program text, and behind it an input: the good memory that is then damaged. Of a text without macros the one in the other
   edition is good memory too. A round makes texts, tables, states, inputs and buffers (random bytes; random characters; good ones; good ones with
   bits flipped, bytes replaced, parts cut out or put in, lines exchanged; texts with macros made by chance; too short, too long, empty, null) and
   calls load, convert, start and run on them. States are written as text and read back; the texts are damaged in many ways, also with lengths and
   sums mended, so that only the state itself tells. Of texts with few lines the short part is compared with one that is found here, by trials with
   load. Classes are made of such inputs, with lengths, budgets and buffers that fit and that do not, and each pupil is compared with a start and a
   run of its own. The last line has the counts; the first difference ends it with status 1. */
#define _GNU_SOURCE
#include "lent.h"
#include "text.h"

#include <pthread.h>
#include <stdarg.h>

enum { FILES = 128, TEXT_MOST = EOL2_TEXT + 4096, CELLS_MOST = EOL2_TABLE + 64, STATE_MOST = EOL2_STATE + 256, INPUT_MOST = EOL2_INPUT + 4096 };
enum { SAVED_MOST = EOL2_SAVED + 4096, OUT_MOST = SAVED_MOST };
enum { LOAD, START, RUN, CONVERT, WRITE, READ, SHORTEN, CLASS, CALLS };
enum { PUPILS_MOST = EOL2_CLASS + 4, WORK_MOST = 4 * INPUT_MOST, PARTS_MOST = EOL2_CLASS * EOL2_OUTPUT + 4096 };

static const char characters[] = " .(+*);-/,:'=[]<>?\x1b\x0e" "ABCDEFGHIJKLMNOPQRSTUVWXYZ" "abcdefghijklmnopqrstuvwxyz\x0f" "0123456789\n\x0c\r\x7f";

static struct lent text, saved, table, i1, i2, state, out;
static struct lent work, lengths, budgets, results, parts; /* of a class */
static struct { uint8_t text[EOL2_TEXT], input[EOL2_INPUT]; size_t text_bytes, input_bytes; uint32_t table[EOL2_TABLE]; } good[FILES];
static int goods;
static unsigned long turn, calls[CALLS], answers[CALLS][128];

/* ---- numbers at random, the same for the same seed */

static uint64_t seed;

static uint64_t any(void)
{
    seed ^= seed << 13;
    seed ^= seed >> 7;
    seed ^= seed << 17;
    return seed * 0x2545f4914f6cdd1dull >> 16;
}

static size_t below(size_t n)
{
    return (size_t)(any() % n);
}

static int one_in(size_t n)
{
    return below(n) == 0;
}

/* ---- what is found */

static void differs(const char *form, ...)
{
    va_list words;
    va_start(words, form);
    printf("round %lu: ", turn);
    vprintf(form, words);
    printf("\n(text %zu bytes, table %zu bytes, I1 %zu, I2 %zu, state %zu, saved %zu, buffer %zu)\n", text.length, table.length, i1.length, i2.length,
           state.length, saved.length, out.length);
    va_end(words);
    exit(1);
}

/* Is the number on the list of the call? */
static int listed(int call, uint32_t number)
{
    static const uint8_t lists[CALLS][20] = {
        {EOL2_BAD_SIZE, EOL2_BAD_BYTE, EOL2_BAD_TEXT, EOL2_BAD_LENGTH, EOL2_BAD_HEADING, EOL2_BAD_OPERATOR, EOL2_BAD_SWITCH_LABELS,
         EOL2_BAD_REPEATED_LABEL, EOL2_BAD_LABEL_NAME, EOL2_BAD_COUNT, EOL2_BAD_ARGUMENT, EOL2_BAD_ROOM, EOL2_BAD_END, EOL2_BAD_LABEL,
         EOL2_BAD_SWITCH, EOL2_BAD_MACROS, EOL2_BAD_CALL, EOL2_BAD_EXPANSION, EOL2_ACCEPTED, 255},
        {EOL2_BAD_TABLE, EOL2_BAD_INPUTS, EOL2_BAD_STATE, EOL2_ACCEPTED, 255},
        {EOL2_BAD_TABLE, EOL2_BAD_INPUTS, EOL2_BAD_STATE, EOL2_PAUSED, EOL2_STOP_STATEMENT, EOL2_STOP_NOTHING, EOL2_STOP_KIND,
         EOL2_STOP_RANGE, EOL2_STOP_DIVISOR, EOL2_STOP_INDEX, EOL2_STOP_RETURN, EOL2_STOP_RECORD, EOL2_STOP_ROOM, EOL2_STOP_ADDRESSES, 255},
        {EOL2_BAD_CONVERSION, EOL2_ACCEPTED, 255},
        {EOL2_BAD_TABLE, EOL2_BAD_INPUTS, EOL2_BAD_STATE, EOL2_ACCEPTED, 255},
        {EOL2_BAD_TABLE, EOL2_BAD_INPUTS, EOL2_BAD_STATE, EOL2_BAD_LINES, EOL2_BAD_FRAMES, EOL2_ACCEPTED, 255},
        [CLASS] = {EOL2_BAD_TABLE, EOL2_BAD_CLASS, EOL2_ACCEPTED, 255}};
    if (call == SHORTEN) /* what load answers */
        call = LOAD;
    for (int k = 0; lists[call][k] != 255; k++)
        if (lists[call][k] == number)
            return 1;
    return 0;
}

/* Counts a call, and checks what holds of every one: a number of its list, and the guard bytes and what was lent to be read as they were. */
static uint64_t judged(int call, const char *name, uint64_t answer)
{
    struct lent *all[] = {&text, &saved, &table, &i1, &i2, &state, &out, &work, &lengths, &budgets, &results, &parts};
    struct lent *written[CALLS] = {&table, &state, &state, &out, &out, &state, &out, &parts};
    struct lent *second = call == SHORTEN ? &table : call == CLASS ? &results : NULL;
    uint32_t number = eol2_number(answer);
    calls[call]++;
    if (!listed(call, number))
        differs("%s answers %u", name, (unsigned)number);
    answers[call][number]++;
    for (size_t k = 0; k < sizeof all / sizeof *all; k++) {
        if (!lent_guarded(all[k]))
            differs("%s (answer %u) wrote beside buffer %zu", name, (unsigned)number, k);
        if (all[k] != written[call] && all[k] != second && !lent_same(all[k], 0))
            differs("%s (answer %u) wrote buffer %zu", name, (unsigned)number, k);
    }
    return answer;
}

static int zeros(const uint8_t *s, size_t n)
{
    for (size_t k = 0; k < n; k++)
        if (s[k])
            return 0;
    return 1;
}

/* The rule of question 61, for one input. */
static int good_input(const struct lent *l)
{
    static uint8_t known[256];
    for (size_t k = 0; !known[' '] && k < sizeof characters - 1; k++)
        known[(uint8_t)characters[sizeof characters - 2 - k]] = 1;
    if (l->length > EOL2_INPUT)
        return 0;
    for (size_t k = 0; k < l->length; k++)
        if (!known[l->at[k]])
            return 0;
    return 1;
}

/* Has the text a star or a round bracket at all? */
static int starred(void)
{
    for (size_t k = 0; k < text.length; k++)
        if (strchr("*()", text.at[k] ? text.at[k] : ' '))
            return 1;
    return 0;
}

/* Question 68: lines of capital hexadecimal digits, two a byte, each with its length in the third and fourth byte, a sum that is a multiple of
   256, and a new line at its end. */
static int sound_lines(const uint8_t *s, size_t n)
{
    static const char digits[] = "0123456789ABCDEF";
    for (size_t at = 0; at < n;) {
        unsigned bytes = 0, sum = 0, length = 0;
        for (; at + 1 < n && s[at] != '\n'; at += 2, bytes++) {
            const char *high = memchr(digits, s[at], 16), *low = memchr(digits, s[at + 1], 16);
            if (!high || !low)
                return 0;
            const unsigned byte = (unsigned)(16 * (high - digits) + (low - digits));
            sum += byte;
            length += bytes == 2 ? 256 * byte : bytes == 3 ? byte : 0;
        }
        if (at == n || s[at++] != '\n' || bytes < 5 || length != bytes - 5 || sum % 256)
            return 0;
    }
    return 1;
}

/* ---- the eight calls, each with what its declaration says */

static uint64_t load(void)
{
    const size_t cells = table.length / 4, bytes = EOL2_TABLE * 4;
    lent_writable(&text, 0);
    uint64_t answer = eol2_load(text.at, text.length, (uint32_t *)(void *)table.at, cells);
    lent_writable(&text, 1);
    judged(LOAD, "load", answer);
    const uint32_t number = eol2_number(answer), line = eol2_line(answer);
    uint32_t lines = 1;
    for (size_t k = 0; k < text.length; k++)
        lines += text.at[k] == '\n';
    if ((number == EOL2_BAD_SIZE) != (cells < EOL2_TABLE || text.length > EOL2_TEXT))
        differs("load answers %u to its sizes", (unsigned)number);
    if (number == EOL2_BAD_SIZE || number == EOL2_ACCEPTED ? line != 0 : line < 1 || line > lines)
        differs("load answers %u with line %u", (unsigned)number, (unsigned)line);
    if (number >= EOL2_BAD_MACROS && number <= EOL2_BAD_EXPANSION && !starred())
        differs("load answers %u to a text without macros", (unsigned)number);
    if (!lent_same(&table, number == EOL2_BAD_SIZE ? 0 : bytes))
        differs("load (answer %u) changed what must stay", (unsigned)number);
    if (number != EOL2_BAD_SIZE && number != EOL2_ACCEPTED && !zeros(table.at, bytes))
        differs("load (answer %u) leaves more than zeros", (unsigned)number);
    return answer;
}

static uint64_t start(void)
{
    lent_writable(&table, 0), lent_writable(&i1, 0), lent_writable(&i2, 0);
    uint64_t answer =
        eol2_start((uint32_t *)(void *)table.at, table.length / 4, i1.at, i1.length, i2.at, i2.length, state.at, state.length);
    lent_writable(&table, 1), lent_writable(&i1, 1), lent_writable(&i2, 1);
    judged(START, "start", answer);
    const uint32_t number = eol2_number(answer);
    const int inputs = good_input(&i1) && good_input(&i2), room = state.length >= EOL2_STATE;
    if (eol2_count(answer) || !lent_same(&state, number == EOL2_ACCEPTED ? EOL2_STATE : 0))
        differs("start (answer %u) counts, or changed what must stay", (unsigned)number);
    if (number != EOL2_BAD_TABLE && number != (uint32_t)(!inputs ? EOL2_BAD_INPUTS : !room ? EOL2_BAD_STATE : EOL2_ACCEPTED))
        differs("start answers %u where inputs are %d and room is %d", (unsigned)number, inputs, room);
    if (table.length / 4 < EOL2_TABLE && number != EOL2_BAD_TABLE)
        differs("start answers %u to a short table", (unsigned)number);
    if (number == EOL2_ACCEPTED && (state.at[0] != 1 || !zeros(state.at + 1, EOL2_STATE - 1)))
        differs("start leaves another state than the first");
    return answer;
}

static uint64_t run(uint32_t budget)
{
    lent_writable(&table, 0), lent_writable(&i1, 0), lent_writable(&i2, 0);
    uint64_t answer =
        eol2_run((uint32_t *)(void *)table.at, table.length / 4, i1.at, i1.length, i2.at, i2.length, state.at, state.length, budget);
    lent_writable(&table, 1), lent_writable(&i1, 1), lent_writable(&i2, 1);
    judged(RUN, "run", answer);
    const uint32_t number = eol2_number(answer), count = eol2_count(answer);
    const int refused = number == EOL2_BAD_TABLE || number == EOL2_BAD_INPUTS || number == EOL2_BAD_STATE;
    if (!lent_same(&state, refused ? 0 : EOL2_STATE))
        differs("run (answer %u) changed what must stay", (unsigned)number);
    if (refused ? count != 0 : number == EOL2_PAUSED ? count != budget : count >= budget)
        differs("run answers %u with count %u to a budget of %u", (unsigned)number, (unsigned)count, (unsigned)budget);
    if (number != EOL2_BAD_TABLE && (number == EOL2_BAD_INPUTS) == (good_input(&i1) && good_input(&i2)))
        differs("run answers %u to its inputs", (unsigned)number);
    return answer;
}

/* After a call that fills the buffer: a count of at most so many bytes with 80, else 0; and the rest stays. */
static void filled(const char *name, uint64_t answer, size_t most)
{
    const uint32_t number = eol2_number(answer), count = eol2_count(answer);
    if (number == EOL2_ACCEPTED ? count == 0 || count > out.length || count > most : count != 0)
        differs("%s answers %u with count %u", name, (unsigned)number, (unsigned)count);
    if (!lent_same(&out, count))
        differs("%s (answer %u) changed what must stay", name, (unsigned)number);
}

static uint64_t convert(void)
{
    lent_writable(&text, 0);
    uint64_t answer = eol2_convert(text.at, text.length, out.at, out.length);
    lent_writable(&text, 1);
    judged(CONVERT, "convert", answer);
    filled("convert", answer, EOL2_TEXT);
    return answer;
}

static uint64_t write_state(void)
{
    lent_writable(&table, 0), lent_writable(&i1, 0), lent_writable(&i2, 0), lent_writable(&state, 0);
    uint64_t answer = eol2_write_state((uint32_t *)(void *)table.at, table.length / 4, i1.at, i1.length, i2.at, i2.length, state.at, state.length,
                                       out.at, out.length);
    lent_writable(&table, 1), lent_writable(&i1, 1), lent_writable(&i2, 1), lent_writable(&state, 1);
    judged(WRITE, "write", answer);
    const uint32_t number = eol2_number(answer), count = eol2_count(answer);
    filled("write", answer, EOL2_SAVED);
    if (number != EOL2_BAD_TABLE && (number == EOL2_BAD_INPUTS) == (good_input(&i1) && good_input(&i2)))
        differs("write answers %u to its inputs", (unsigned)number);
    if (number == EOL2_ACCEPTED && !sound_lines(out.at, count))
        differs("write gives lines that are not right");
    return answer;
}

static uint64_t read_state(void)
{
    lent_writable(&table, 0), lent_writable(&i1, 0), lent_writable(&i2, 0), lent_writable(&saved, 0);
    uint64_t answer = eol2_read_state((uint32_t *)(void *)table.at, table.length / 4, i1.at, i1.length, i2.at, i2.length, saved.at, saved.length,
                                      state.at, state.length);
    lent_writable(&table, 1), lent_writable(&i1, 1), lent_writable(&i2, 1), lent_writable(&saved, 1);
    judged(READ, "read", answer);
    const uint32_t number = eol2_number(answer);
    const int inputs = good_input(&i1) && good_input(&i2), room = state.length >= EOL2_STATE, lines = sound_lines(saved.at, saved.length);
    const uint32_t first = !inputs ? EOL2_BAD_INPUTS : !room ? EOL2_BAD_STATE : !lines ? EOL2_BAD_LINES : 0;
    if (eol2_count(answer) || !lent_same(&state, number == EOL2_ACCEPTED ? EOL2_STATE : 0))
        differs("read (answer %u) counts, or changed what must stay", (unsigned)number);
    if (number != EOL2_BAD_TABLE && (first ? number != first : number != EOL2_BAD_FRAMES && number != EOL2_ACCEPTED))
        differs("read answers %u where inputs are %d, room is %d and lines are %d", (unsigned)number, inputs, room, lines);
    return answer;
}

static uint64_t shorten(void)
{
    const size_t cells = table.length / 4;
    lent_writable(&text, 0);
    uint64_t answer = eol2_shorten(text.at, text.length, (uint32_t *)(void *)table.at, cells, out.at, out.length);
    lent_writable(&text, 1);
    judged(SHORTEN, "shorten", answer);
    const uint32_t number = eol2_number(answer), count = eol2_count(answer);
    if ((number == EOL2_BAD_SIZE) != (cells < EOL2_TABLE || text.length > EOL2_TEXT || out.length < text.length))
        differs("shorten answers %u to its sizes", (unsigned)number);
    if (number == EOL2_BAD_SIZE ? count != 0 : number == EOL2_ACCEPTED ? count != text.length : count > text.length)
        differs("shorten answers %u with count %u", (unsigned)number, (unsigned)count);
    if (!lent_same(&out, count) || !lent_same(&table, number == EOL2_BAD_SIZE ? 0 : EOL2_TABLE * 4))
        differs("shorten (answer %u) changed what must stay", (unsigned)number);
    if (number != EOL2_BAD_SIZE && number != EOL2_ACCEPTED && !zeros(table.at, EOL2_TABLE * 4))
        differs("shorten (answer %u) leaves more than zeros in the table", (unsigned)number);
    return answer;
}

/* Lends what a call left to the next one, as it stands. */
static void again(struct lent *l)
{
    static uint8_t copy[EOL2_INPUT * 2];
    memcpy(copy, l->at, l->length);
    lent_fill(l, copy, l->length, one_in(2), 0);
}

/* ---- memory to lend */

/* A length near one that counts: 0, less, the same, more. */
static size_t near(size_t size, size_t most)
{
    switch (below(8)) {
    case 0: return one_in(2) ? 0 : below(size);
    case 1: return size - 1 - below(8);
    case 2: return size + 1 + below(most - size);
    case 3: return size + 1;
    default: return size;
    }
}

static void random_bytes(uint8_t *s, size_t n, int few)
{
    for (size_t k = 0; k < n; k += 6) {
        const uint64_t bits = any();
        memcpy(s + k, &bits, n - k < 6 ? n - k : 6);
    }
    for (size_t k = 0; few && k < n; k++)
        s[k] = s[k] % 8 ? 0 : s[k] / 16;
}

static void random_characters(uint8_t *s, size_t n)
{
    for (size_t k = 0; k < n; k++)
        s[k] = (uint8_t)characters[below(sizeof characters - 1)];
}

/* Flips bits, and sets bytes to small numbers. */
static void damage(uint8_t *s, size_t n, size_t times)
{
    while (n && times--)
        if (one_in(2))
            s[below(n)] ^= (uint8_t)(1u << below(8));
        else
            s[below(n)] = (uint8_t)below(70);
}

/* Puts instructions of a good table in the place of others, all but the last, which must end the program: another well-formed table. */
static void shuffle(uint8_t *s, size_t count, size_t times)
{
    while (count > 1 && times--)
        memmove(s + 32 + 16 * below(count - 1), s + 32 + 16 * below(count), 16);
}

static void lend(struct lent *l, const uint8_t *content, size_t length)
{
    lent_fill(l, content, length, one_in(2), one_in(2));
}

/* Where the line of a place begins. */
static size_t line_start(const uint8_t *s, size_t at)
{
    while (at && s[at - 1] != '\n')
        at--;
    return at;
}

/* A text while it is made. */
static struct { uint8_t at[TEXT_MOST]; size_t bytes; } made;

static void add(const void *piece, size_t bytes)
{
    if (bytes && made.bytes + bytes <= sizeof made.at) {
        memcpy(made.at + made.bytes, piece, bytes);
        made.bytes += bytes;
    }
}

static void add_words(const char *words)
{
    add(words, strlen(words));
}

static void add_one_of(const char *const *pieces, size_t count)
{
    add_words(pieces[below(count)]);
}

/* Pieces of the language, and some that break it. */
static void add_piece(void)
{
    static const char *const pieces[] = {"SEKCJA S\n", "KONS\n", "KONP S\n", "STOP\n", "SKOCZ A\n", "A: ", "STOP: ", "GOTO: ", "B: NAZWA A:'X',A\n",
        "C: INDEKS A\n", "UMIESC 'A',A1\n", "UMIESC 8388608,A1\n", "/*", "*/", "'", ":", ";", "PISZ A1,Q3\n", "DODAJ B1,Z32\n", "*", "\n", "SKONA A1,B\n", "A",
        "SECTION S\n", "ENDS\n", "GOTO A\n", "D: NAME A\n", "WRITE A1,Q1\n", "SECTION",
        "\xff", "UMIESC '*L*,',Z1,2,3,4\n", "WROC\n", "0123456789", "UMIESC 'Rod z',Q1\n", "z: ", "PISZ A1,q1\n", "UMIESC '*l',A1\n",
        "A23456789B123456789C123456789D123456789E123456789F123456789G1:"};
    add_one_of(pieces, sizeof pieces / sizeof *pieces);
}

/* What may stand in a body with the parameter X (or X and Y), or in the section; now and then what may not. */
static void add_element(int body)
{
    static const char *const both[] = {"*M 1\n", "*M 1;", "*N\n", "*N;", "*O 1,2;", "*O N 2\n", "* M, 'T' /* C */;", "\n", ";;", "/* M */", "UMIESC 1,A1\n",
        "UMIESC 'X',A1\n", "COFNIJ P1\n", "STOP\n", "L: STOP\n", "SKOCZ L\n"};
    static const char *const bodies[] = {"*M X\n", "*O A'X X;", "*X;", "*X\n", "UMIESC X,A1\n", "UMIESC 'X',A'X\n", "X: STOP\n", "L'X: STOP\n", "X", "Y\n"};
    static const char *const wrong[] = {"*", "(", ")", "'", "()", "* \n", "*M\n", "*Q;", "*'M'", "*A'X", "5A", "A'X'Y", "*O 1\n", "/*", "*/", "#"};
    if (one_in(40))
        add_one_of(wrong, sizeof wrong / sizeof *wrong);
    else if (body && one_in(2))
        add_one_of(bodies, sizeof bodies / sizeof *bodies);
    else
        add_one_of(both, sizeof both / sizeof *both);
}

/* A text with macros, made by chance: a list, mostly well formed, and a section with calls. */
static void make_macros(void)
{
    static const char *const heads[] = {"M X(", "N X(", "N(", "O X,Y(", "O Y X\n(", "\nN\n(", "M,X(", "R X,X(", "M 5(", "O("};
    add_words("SEKCJA S\n(");
    add_words(one_in(2) ? "M X(*X\n)N()O X,Y(UMIESC X,A'Y\n)" : "");
    for (size_t macros = below(4); macros; macros--) {
        add_one_of(heads, sizeof heads / sizeof *heads);
        for (size_t elements = below(4); elements; elements--)
            add_element(1);
        add_words(one_in(40) ? "" : ")");
    }
    add_words(one_in(40) ? "" : ")\n");
    for (size_t elements = below(6); elements; elements--)
        add_element(0);
    add_words("\nSTOP\nKONS\nKONP S\n");
}

/* A text of few characters, most of them signs of macros, in a good frame. */
static void make_signs(void)
{
    static const char signs[] = "*()';:,*()'  \n\nMMXXA15";
    add_words(one_in(2) ? "SEKCJA S\n" : "SEKCJA S\n(M X(");
    for (size_t count = below(one_in(8) ? 400 : 40); count; count--)
        add(signs + below(sizeof signs - 1), 1);
    add_words("\nSTOP\nKONS\nKONP S\n");
}

/* A good text, whole, or with what makes it too long behind it. */
static void make_good(int k)
{
    add(good[k].text, good[k].text_bytes);
    if (one_in(4))
        for (size_t most = near(EOL2_TEXT, TEXT_MOST); made.bytes < most;)
            add_words("\n");
}

/* A good text with a piece put in, a line of it repeated, and a part cut out. */
static void make_damaged(int k)
{
    const uint8_t *from = good[k].text;
    const size_t bytes = good[k].text_bytes, cut = one_in(3) ? below(30) : 0, line = line_start(from, below(bytes));
    const size_t length = strcspn((const char *)from + line, "\n") + 1, most = one_in(4) ? 600 : 3;
    size_t at = below(bytes + 1);
    if (one_in(2))
        at = line_start(from, at);
    add(from, at);
    if (one_in(2))
        add_piece();
    else if (one_in(2))
        add_element(1);
    for (size_t times = one_in(3) ? below(most) : 0; times && made.bytes + 2 * bytes < TEXT_MOST; times--)
        add(from + line, length);
    at = at + cut < bytes ? at + cut : bytes;
    add(from + at, bytes - at);
}

/* A good text with its stars, brackets and apostrophes dropped or doubled here and there, or put around a line. */
static void make_signs_damaged(int k)
{
    const uint8_t *from = good[k].text;
    const size_t often = 2 + below(20), around = one_in(3) ? line_start(from, below(good[k].text_bytes)) : SIZE_MAX;
    for (size_t at = 0; at < good[k].text_bytes; at++) {
        const int sign = strchr("*()'", from[at]) != NULL && one_in(often), closes = from[at] == '\n' && around <= at;
        add("(", at == around);
        add(")", closes && line_start(from, at) == around);
        add(from + at, !sign || one_in(2));
        add(from + at, sign && one_in(2));
    }
}

/* The same lines with some exchanged with the ones before them. */
static void exchange_lines(size_t times)
{
    static uint8_t line[EOL2_TEXT];
    while (made.bytes && times--) {
        const size_t second = line_start(made.at, below(made.bytes)), first = second ? line_start(made.at, second - 1) : 0;
        size_t end = second;
        while (end < made.bytes && made.at[end++] != '\n')
            continue;
        if (second - first > sizeof line)
            continue;
        memcpy(line, made.at + first, second - first);
        memmove(made.at + first, made.at + second, end - second);
        memcpy(made.at + first + (end - second), line, second - first);
    }
}

/* A text: random; pieces; with macros, by chance; a good text, whole or with damage. */
static void lend_text(int k)
{
    made.bytes = 0;
    switch (below(10)) {
    case 0: /* random bytes, or characters */
        made.bytes = one_in(4) ? near(EOL2_TEXT, TEXT_MOST) : below(400);
        if (one_in(2))
            random_bytes(made.at, made.bytes, 0);
        else
            random_characters(made.at, made.bytes);
        break;
    case 1:
        for (size_t count = below(40); count; count--)
            add_piece();
        break;
    case 2: make_good(k); break;
    case 3:
    case 4: make_macros(); break;
    case 5: make_signs(); break;
    case 6: make_signs_damaged(k); break;
    default: make_damaged(k);
    }
    if (one_in(10))
        exchange_lines(1 + below(3));
    if (one_in(6))
        damage(made.at, made.bytes, 1 + below(2));
    lend(&text, made.at, made.bytes);
}

/* A table: random; zeros with small numbers; the good table, whole, with its instructions in disorder or with damage. Any length. */
static void lend_table(int k)
{
    static uint8_t s[CELLS_MOST * 4];
    size_t cells = one_in(3) ? near(EOL2_TABLE, CELLS_MOST) : EOL2_TABLE, kind = below(10);
    random_bytes(s, sizeof s, kind == 0);
    if (kind > 1)
        memcpy(s, good[k].table, sizeof good[k].table);
    if (kind > 2)
        shuffle(s, good[k].table[0], below(12));
    if (kind > 7) /* where the counts and the first instructions, labels, texts, switches, entries or numbers are */
        damage(s + (size_t[]){0, 32, 8224, 16416, 24608, 24736, 25248}[below(7)], one_in(4) ? 7520 : 64, 1 + below(3));
    lend(&table, s, cells * 4);
}

static void lend_input(struct lent *l, int k)
{
    static uint8_t s[INPUT_MOST];
    size_t n = one_in(8) ? near(EOL2_INPUT, INPUT_MOST) : below(300);
    if (one_in(12))
        random_bytes(s, n, 0);
    else
        random_characters(s, n);
    if (one_in(2))
        memcpy(s, good[k].input, n = good[k].input_bytes);
    if (n && one_in(12))
        damage(s, n, 1);
    lend(l, s, n);
}

static void lend_state(void)
{
    static uint8_t s[STATE_MOST];
    random_bytes(s, sizeof s, one_in(2));
    lend(&state, s, one_in(2) ? near(EOL2_STATE, STATE_MOST) : EOL2_STATE);
}

static void lend_out(size_t length)
{
    static uint8_t s[OUT_MOST];
    random_bytes(s, length, one_in(2));
    lend(&out, s, length);
}

/* ---- saved states to lend */

/* A saved state while it is made, and one of before, of another program mostly. */
static struct kept { uint8_t at[SAVED_MOST]; size_t bytes; } kept, other;

static void keep(struct kept *k, const uint8_t *s, size_t n)
{
    memcpy(k->at, s, k->bytes = n);
}

/* Puts bytes in the place of n that stand there. */
static void replace(size_t at, size_t n, const uint8_t *s, size_t bytes)
{
    if (kept.bytes - n + bytes > sizeof kept.at)
        return;
    memmove(kept.at + at + bytes, kept.at + at + n, kept.bytes - at - n);
    memcpy(kept.at + at, s, bytes);
    kept.bytes = kept.bytes - n + bytes;
}

static size_t line_end(size_t at)
{
    while (at < kept.bytes && kept.at[at++] != '\n')
        continue;
    return at;
}

static void put_digits(uint8_t *s, unsigned byte)
{
    s[0] = (uint8_t)"0123456789ABCDEF"[byte / 16 % 16], s[1] = (uint8_t)"0123456789ABCDEF"[byte % 16];
}

/* Gives the line that begins there its length and its sum again, where it is long enough. */
static void mend(size_t at)
{
    const size_t end = line_end(at), bytes = (end - at) / 2;
    unsigned sum = 0;
    if (bytes < 5)
        return;
    put_digits(kept.at + at + 4, (unsigned)((bytes - 5) / 256));
    put_digits(kept.at + at + 6, (unsigned)((bytes - 5) % 256));
    for (size_t k = 0; k + 1 < bytes; k++) {
        char digits[3] = {(char)kept.at[at + 2 * k], (char)kept.at[at + 2 * k + 1], 0};
        sum += (unsigned)strtoul(digits, NULL, 16);
    }
    put_digits(kept.at + at + 2 * (bytes - 1), (256 - sum % 256) % 256);
}

/* A frame by chance, of a kind and an index that are mostly there, put in at the beginning of a line. */
static void put_frame(size_t at)
{
    uint8_t s[64];
    const size_t contents = below(one_in(8) ? 25 : 10);
    for (size_t k = 0; k < contents + 5; k++)
        put_digits(s + 2 * k, k == 0 ? (unsigned)below(7) : k == 1 && one_in(4) ? (unsigned)below(35) : (unsigned)below(one_in(4) ? 256 : 4));
    s[2 * (contents + 5)] = '\n';
    replace(at, 0, s, 2 * (contents + 5) + 1);
    mend(at);
}

/* Bytes of a line changed, in its contents mostly; its length and its sum mended, mostly. */
static void change_line(size_t at, size_t end)
{
    uint8_t digits[2];
    for (size_t times = 1 + below(2); times && end - at > 11; times--) {
        const size_t byte = one_in(6) ? below((end - at) / 2) : 4 + below((end - at - 11) / 2);
        put_digits(digits, one_in(2) ? (unsigned)below(8) : (unsigned)any() % 256);
        memcpy(kept.at + at + 2 * byte, digits, 2);
    }
    if (end - at > 11 && one_in(4)) /* one byte of the contents more, or less */
        replace(at + 8, one_in(2) ? 2 : 0, digits, one_in(2) ? 2 : 0);
    if (!one_in(6))
        mend(at);
}

/* A line put to another place, or there once more. */
static void move_line(size_t at, size_t end)
{
    static uint8_t line[SAVED_MOST];
    const size_t n = end - at;
    memcpy(line, kept.at + at, n);
    if (one_in(2))
        replace(at, n, line, 0);
    if (!one_in(4))
        replace(line_start(kept.at, below(kept.bytes + 1)), 0, line, n);
}

/* No saved state at all: nothing, random bytes, random digits, right lines of frames made by chance; sometimes more than any state has. */
static void make_lines(void)
{
    const size_t most = one_in(8) ? near(EOL2_SAVED, SAVED_MOST - 64) : below(200), kind = below(3);
    random_bytes(kept.at, kept.bytes = kind < 2 ? most : 0, 0);
    for (size_t k = 0; kind == 1 && k < most; k++)
        kept.at[k] = (uint8_t)"0123456789ABCDEF"[kept.at[k] % 16];
    while (kind == 2 && kept.bytes < most)
        put_frame(kept.bytes);
}

/* Damage to the saved state. Tells whether it is that of one byte, which no text outlives. */
static int damage_saved(void)
{
    const size_t at = line_start(kept.at, below(kept.bytes + 1)), end = line_end(at), place = below(kept.bytes + 1);
    const size_t before = kept.bytes;
    const uint8_t sign = one_in(4) ? (uint8_t)any() : (uint8_t)"0123456789ABCDEFabcdef \r\n"[below(25)];
    switch (below(11)) {
    case 0: /* one byte changed, left out or put in */
        if (place == kept.bytes || kept.at[place] == sign)
            break;
        replace(place, !one_in(4), &sign, !one_in(4));
        return kept.bytes != before || kept.at[place] == sign;
    case 1: /* cut, or a part cut out */
        replace(place, one_in(2) ? kept.bytes - place : below(kept.bytes - place + 1), &sign, 0);
        break;
    case 2:
    case 3: move_line(at, end); break;
    case 4: put_frame(at); break;
    case 5: /* another program's state, whole or from a line on */
        if (one_in(2))
            kept = other;
        else
            replace(at, kept.bytes - at, other.at, line_start(other.at, below(other.bytes + 1)));
        break;
    case 6: make_lines(); break;
    default: change_line(at, end);
    }
    return 0;
}

/* ---- a round */

/* What an accepted run leaves is good for the next: a pause goes on, a stop stays. */
static void goes_on(uint64_t answer)
{
    again(&state);
    if (run(0) != (uint64_t)EOL2_PAUSED << 32 || !lent_same(&state, 0))
        differs("after an accepted run, a run of 0 does not pause in the same state");
    if (eol2_number(answer) != EOL2_PAUSED) {
        again(&state);
        if (run(UINT32_MAX) != (uint64_t)eol2_number(answer) << 32 || !lent_same(&state, 0))
            differs("after stop %u a run does not stop there again", (unsigned)eol2_number(answer));
    }
}

/* One run of a budget is the same as two of its parts, and, where it stops, as one with the greatest budget. */
static void runs(void)
{
    static uint8_t first[STATE_MOST], last[STATE_MOST];
    const size_t n = state.length;
    const uint32_t budget = (uint32_t)below(one_in(8) ? 5000 : 100), part = (uint32_t)below(budget + 1);
    if (n)
        memcpy(first, state.at, n);
    const uint64_t whole = run(budget);
    const uint32_t number = eol2_number(whole);
    if (n)
        memcpy(last, state.at, n);
    if (number >= EOL2_BAD_INPUTS && number <= EOL2_BAD_STATE) {
        if (run(UINT32_MAX) != whole)
            differs("a refusal depends on the budget");
        return;
    }
    lend(&state, first, n);
    uint64_t second = run(part);
    uint32_t count = eol2_count(second);
    if (eol2_number(second) == EOL2_PAUSED) {
        again(&state);
        second = run(budget - part);
        count += eol2_count(second);
    }
    if (eol2_number(second) != number || count != eol2_count(whole) || memcmp(last, state.at, n))
        differs("runs of %u and %u differ from one of %u", (unsigned)part, (unsigned)(budget - part), (unsigned)budget);
    if (number != EOL2_PAUSED) {
        lend(&state, first, n);
        if (run(UINT32_MAX) != whole || memcmp(last, state.at, n))
            differs("a run that stops depends on its budget");
    }
    goes_on(whole);
}

/* The saved state that is lent: read, it is refused and changes nothing, or it is the text of the state that is read, and that runs. */
static void reads(void)
{
    lend(&saved, kept.at, kept.bytes);
    if (eol2_number(read_state()) != EOL2_ACCEPTED)
        return;
    again(&state);
    if (run(0) != (uint64_t)EOL2_PAUSED << 32 || !lent_same(&state, 0))
        differs("a state that is read does not run");
    lend_out(EOL2_SAVED);
    if (write_state() != ((uint64_t)EOL2_ACCEPTED << 32 | kept.bytes) || memcmp(out.at, kept.at, kept.bytes))
        differs("a text that is read is not the one that its state has");
    lend_out(below(64));
}

/* A state, written, in buffers of several lengths, and read back into any memory; then its text with damage, so often. The lent state is not
   kept. */
static void keeps(int times)
{
    static uint8_t first[STATE_MOST];
    static struct kept whole;
    const size_t n = state.length;
    if (n)
        memcpy(first, state.at, n);
    const uint32_t number = eol2_number(run(0));
    lend(&state, first, n), lend_out(EOL2_SAVED + below(64));
    const uint64_t answer = write_state();
    const size_t count = eol2_count(answer);
    if (eol2_number(answer) != (number == EOL2_PAUSED ? EOL2_ACCEPTED : number))
        differs("write answers %u where run answers %u", (unsigned)eol2_number(answer), (unsigned)number);
    if (number == EOL2_PAUSED) {
        other = kept;
        keep(&kept, out.at, count);
        lend_out(count);
        if (write_state() != answer || memcmp(kept.at, out.at, count))
            differs("write leaves other bytes in a buffer of the exact length");
        lend_out(one_in(2) ? count - 1 : below(count));
        if (eol2_number(write_state()) != EOL2_BAD_STATE)
            differs("write takes a buffer that is too short");
        lend(&saved, kept.at, count), lend_state(), lend_out(below(64));
        if (state.length >= EOL2_STATE && (eol2_number(read_state()) != EOL2_ACCEPTED || memcmp(first, state.at, EOL2_STATE)))
            differs("a state is not read back");
    }
    for (; kept.bytes && times; times--) {
        whole = kept;
        if (damage_saved() && sound_lines(kept.at, kept.bytes))
            differs("lines are right with one byte changed");
        lend_state(), reads();
        kept = whole;
    }
}

/* Does the lent text load into a table that is long enough? Its cells are then those of `cells`. */
static int loads(uint8_t *cells)
{
    static uint8_t any_cells[EOL2_TABLE * 4];
    lend(&table, any_cells, sizeof any_cells);
    const int accepted = eol2_number(load()) == EOL2_ACCEPTED;
    memcpy(cells, table.at, sizeof any_cells);
    again(&table);
    return accepted;
}

/* The other edition of a text: 80 where it loads and has room, the buffer's exact length enough and one byte less too little; the same table;
   and back, the same bytes. The lent text is not kept. */
static void converts(void)
{
    static uint8_t given[TEXT_MOST], turned[TEXT_MOST], cells[EOL2_TABLE * 4], other[EOL2_TABLE * 4];
    const size_t bytes = text.length;
    const int accepted = loads(cells), plain = !starred();
    if (bytes)
        memcpy(given, text.at, bytes);
    lend_out(one_in(2) ? near(EOL2_TEXT, TEXT_MOST) : below(2 * bytes + 2) % TEXT_MOST);
    uint64_t answer = convert();
    if (!accepted && eol2_number(answer) == EOL2_ACCEPTED)
        differs("convert takes a text that does not load");
    lend_out(EOL2_TEXT);
    if (eol2_number(answer) != EOL2_ACCEPTED)
        answer = convert();
    else if (convert() != answer)
        differs("convert answers otherwise to a buffer of another length");
    /* a word of the other edition is longer by some letters, a statement less than twice as long */
    if (accepted && plain && 2 * bytes < EOL2_TEXT && eol2_number(answer) != EOL2_ACCEPTED)
        differs("convert refuses a text that loads");
    if (eol2_number(answer) != EOL2_ACCEPTED)
        return;
    const size_t count = eol2_count(answer);
    memcpy(turned, out.at, count);
    lend_out(count);
    if (convert() != answer || memcmp(turned, out.at, count))
        differs("convert leaves other bytes in a buffer of the exact length");
    lend_out(count - 1);
    if (eol2_number(convert()) != EOL2_BAD_CONVERSION)
        differs("convert takes a buffer that is one byte too short");
    lend(&text, turned, count), lend_out(bytes);
    if (!loads(other) || memcmp(cells, other, sizeof cells))
        differs("the other edition's text loads to another table");
    if (convert() != ((uint64_t)EOL2_ACCEPTED << 32 | bytes) || memcmp(given, out.at, bytes))
        differs("there and back is not the same text");
}

/* The part of the lent text with so many bytes, by trials: a line is cut out, and put back where the number is another. */
static size_t short_part(uint8_t *part, uint32_t number)
{
    static uint8_t line[TEXT_MOST];
    static uint32_t cells[EOL2_TABLE];
    size_t n = text.length, before;
    if (n)
        memcpy(part, text.at, n);
    do {
        before = n;
        for (size_t end = n; end;) {
            const size_t from = line_start(part, end - 1), bytes = end - from;
            memcpy(line, part + from, bytes);
            memmove(part + from, part + end, n - end);
            n -= bytes;
            if (eol2_number(eol2_load(part, n, cells, EOL2_TABLE)) != number) {
                memmove(part + end, part + from, n - from);
                memcpy(part + from, line, bytes);
                n += bytes;
            }
            end = from;
        }
    } while (n != before);
    return n;
}

/* The short part of a text, in buffers of several lengths and with tables of several lengths: 40 where one is too short; else the part that the
   trials find, with load's number. A text that loads is its own part. Where trials would take long, only the refusals for the sizes. */
static void shortens(int k)
{
    static uint8_t part[TEXT_MOST], given[TEXT_MOST];
    size_t lines = 0, n = text.length;
    for (size_t at = 0; at < n; at++)
        lines += text.at[at] == '\n';
    if (lines <= (starred() ? 25 : 60)) {
        if (n)
            memcpy(given, text.at, n);
        lend_table(k), lend_out(one_in(2) ? near(n < 8 ? 8 : n, OUT_MOST) : n + below(64));
        shorten();
        lend_table(k), lend_out(n);
        const uint64_t answer = shorten();
        const uint32_t number = eol2_number(answer);
        if (number == EOL2_BAD_SIZE)
            return;
        if (table.length >= EOL2_TABLE * 4 && number != eol2_number(eol2_load(text.at, n, (uint32_t *)(void *)table.at, EOL2_TABLE)))
            differs("shorten answers %u, and load otherwise", (unsigned)number);
        const size_t count = number == EOL2_ACCEPTED ? n : short_part(part, number);
        if (count != eol2_count(answer) || (count && memcmp(out.at, number == EOL2_ACCEPTED ? given : part, count)))
            differs("shorten (answer %u) leaves another part, of %u bytes for %zu", (unsigned)number, (unsigned)eol2_count(answer), count);
    }
    lend_table(k), lend_out(n ? n - 1 : 0);
    if (n && eol2_number(shorten()) != EOL2_BAD_SIZE)
        differs("shorten takes a buffer that is one byte too short");
}

/* ---- a class */

static uint32_t number_at(const struct lent *l, size_t k)
{
    uint32_t n;
    memcpy(&n, l->at + 4 * k, sizeof n);
    return n;
}

/* Inputs end to end, a length and a budget for each; then, now and then, lengths and budgets that do not belong to them: more or fewer, one more or
   less, exchanged, sums that are right but for 2 to the 32nd. Results and parts as long as they need, or not. */
static void lend_class(int k)
{
    static uint8_t s[WORK_MOST], any_bytes[PARTS_MOST];
    static uint32_t of_pupils[PUPILS_MOST], steps[PUPILS_MOST];
    const size_t pupils = one_in(8) ? below(PUPILS_MOST + 1) : below(one_in(4) ? EOL2_CLASS + 1 : 4);
    size_t bytes = 0, count = pupils;
    for (size_t p = 0; p < pupils; p++) {
        size_t n = one_in(40) ? near(EOL2_INPUT, INPUT_MOST) : one_in(4) ? good[k].input_bytes : below(60);
        n = bytes + n < WORK_MOST ? n : 0;
        if (n == good[k].input_bytes && n)
            memcpy(s + bytes, good[k].input, n);
        else
            random_characters(s + bytes, n);
        if (n && one_in(8))
            damage(s + bytes, n, 1);
        of_pupils[p] = (uint32_t)n, steps[p] = (uint32_t)below(one_in(8) ? 3000 : 60);
        bytes += n;
    }
    if (pupils && one_in(8))
        of_pupils[below(pupils)] += one_in(2) ? 1 : (uint32_t)any();
    if (pupils > 1 && one_in(8)) { /* the sum is right in 32 bits */
        const uint32_t more = (uint32_t)any();
        of_pupils[0] += more, of_pupils[pupils - 1] -= more;
    }
    if (pupils && one_in(20))
        for (size_t p = 0; p < pupils; p++)
            of_pupils[p] = UINT32_MAX;
    if (one_in(10) && count < PUPILS_MOST)
        of_pupils[count++] = 0;
    lend(&work, s, bytes), lend(&lengths, (const uint8_t *)of_pupils, 4 * count);
    lend(&budgets, (const uint8_t *)steps, 4 * (one_in(10) ? below(PUPILS_MOST + 1) : count));
    random_bytes(any_bytes, sizeof any_bytes, one_in(2));
    const size_t cells = 3 * count + (one_in(4) ? below(9) : 0), needed = EOL2_OUTPUT * count + (one_in(4) ? below(4096) : 0);
    const size_t room = needed < PARTS_MOST ? needed : PARTS_MOST;
    lend(&results, any_bytes, 4 * (one_in(12) && cells ? below(cells) : cells));
    lend(&parts, any_bytes, one_in(12) && room ? one_in(2) ? room - 1 : below(room) : room);
}

/* Question 71. */
static int fits(void)
{
    const size_t count = lengths.length / 4;
    uint64_t sum = 0;
    for (size_t p = 0; p < count; p++)
        sum += number_at(&lengths, p);
    return count <= EOL2_CLASS && budgets.length == lengths.length && sum == work.length && results.length >= 12 * count
        && parts.length >= EOL2_OUTPUT * count;
}

/* What the pupil p got is what a start and a run of its own give, on a state with any content. Bytes behind its Q1 stay. */
static void check_pupil(size_t p, size_t from)
{
    static uint8_t own[EOL2_STATE];
    const uint32_t *const t = (const uint32_t *)(const void *)table.at;
    const uint8_t *const input = work.at ? work.at + from : NULL, *q1 = NULL;
    const size_t cells = table.length / 4, bytes = number_at(&lengths, p), at = EOL2_OUTPUT * p;
    size_t length = 0;
    memset(own, (int)below(256), sizeof own);
    uint64_t answer = eol2_start(t, cells, input, bytes, NULL, 0, own, sizeof own);
    if (eol2_number(answer) == EOL2_ACCEPTED) {
        answer = eol2_run(t, cells, input, bytes, NULL, 0, own, sizeof own, number_at(&budgets, p));
        q1 = eol2_output(own, 1, &length);
    }
    if (number_at(&results, 3 * p) != eol2_number(answer) || number_at(&results, 3 * p + 1) != eol2_count(answer)
        || number_at(&results, 3 * p + 2) != length)
        differs("pupil %zu gets another answer than by itself (%u)", p, (unsigned)eol2_number(answer));
    if ((length && memcmp(parts.at + at, q1, length)) || memcmp(parts.at + at + length, parts.before + at + length, EOL2_OUTPUT - length))
        differs("pupil %zu gets another Q1 than by itself, or more is written", p);
}

static void classes(int k)
{
    const size_t cells = table.length / 4;
    lend_class(k);
    struct lent *const read[] = {&table, &work, &lengths, &budgets};
    for (int b = 0; b < 4; b++)
        lent_writable(read[b], 0);
    const uint64_t answer = eol2_class((const uint32_t *)(const void *)table.at, cells, work.at, work.length, (uint32_t *)(void *)lengths.at,
                                       lengths.length / 4, (uint32_t *)(void *)budgets.at, budgets.length / 4, (uint32_t *)(void *)results.at,
                                       results.length / 4, parts.at, parts.length);
    for (int b = 0; b < 4; b++)
        lent_writable(read[b], 1);
    judged(CLASS, "class", answer);
    const size_t count = lengths.length / 4;
    const uint32_t number = eol2_number(answer);
    static uint8_t own[EOL2_STATE];
    const uint64_t alone = eol2_start((const uint32_t *)(const void *)table.at, cells, NULL, 0, NULL, 0, own, sizeof own);
    const int table_good = eol2_number(alone) != EOL2_BAD_TABLE;
    if (eol2_count(answer) || number != (uint32_t)(!table_good ? EOL2_BAD_TABLE : !fits() ? EOL2_BAD_CLASS : EOL2_ACCEPTED))
        differs("class answers %u where its table is %d and its sizes are %d", (unsigned)number, table_good, fits());
    if (!lent_same(&results, number == EOL2_ACCEPTED ? 12 * count : 0) || !lent_same(&parts, number == EOL2_ACCEPTED ? EOL2_OUTPUT * count : 0))
        differs("class (answer %u) changed what must stay", (unsigned)number);
    for (size_t p = 0, from = 0; number == EOL2_ACCEPTED && p < count; from += number_at(&lengths, p++))
        check_pupil(p, from);
    lend(&results, own, 0), lend(&parts, own, 0);
}

static void round_of(int k)
{
    static uint8_t first[EOL2_TABLE * 4], now[STATE_MOST];
    size_t n;
    lend_text(k), lend_table(k), lend_input(&i1, k), lend_input(&i2, k), lend_state();
    /* load, and on an accepted text once more into another table: the same cells; start never brings 62 */
    if (eol2_number(load()) == EOL2_ACCEPTED) {
        memcpy(first, table.at, sizeof first);
        lend_table(k);
        if (table.length >= sizeof first && (eol2_number(load()) != EOL2_ACCEPTED || memcmp(first, table.at, sizeof first)))
            differs("load makes two tables of one text");
        lend(&table, first, sizeof first);
        const uint32_t number = eol2_number(start());
        if (number == EOL2_BAD_TABLE)
            differs("the table of an accepted text brings 62");
        if (number == EOL2_ACCEPTED) {
            again(&state);
            if (eol2_number(run(100)) < EOL2_STOP_STATEMENT || eol2_number(run(0)) != EOL2_PAUSED)
                differs("the table of an accepted text does not run");
        }
    }
    /* its short part, and the text in the other edition */
    lend_state();
    shortens(k);
    converts();
    /* a class, start and run on whatever is there */
    lend_table(k), lend_state(), lend_out(below(64));
    classes(k);
    runs();
    lend_state(), keeps(1);
    lend_state();
    if (eol2_number(start()) != EOL2_ACCEPTED)
        return;
    again(&state);
    runs();
    /* run on from there with damage to the state, after it was written and read back */
    memcpy(now, state.at, n = state.length);
    keeps(4);
    lend(&state, now, n);
    damage(state.at, one_in(2) ? EOL2_STATE : 400, 1 + below(2));
    again(&state);
    runs();
    if (one_in(4))
        keeps(1);
}

/* The rounds, on a stack of their own: what a call may take, and some for this program. */
enum { OWN_STACK = 65536 };

static void *all_rounds(void *rounds)
{
    for (turn = 0; turn < *(unsigned long *)rounds; turn++)
        round_of((int)(turn % (unsigned long)goods));
    return NULL;
}

static void run_rounds(unsigned long rounds)
{
    pthread_attr_t attributes;
    pthread_t thread;
    if (pthread_attr_init(&attributes) || pthread_attr_setstacksize(&attributes, EOL2_STACK + OWN_STACK)
        || pthread_create(&thread, &attributes, all_rounds, &rounds) || pthread_join(thread, NULL)) {
        fprintf(stderr, "hostile: no thread for the rounds\n");
        exit(2);
    }
}

static void add_good(const char *name, const uint8_t *from, size_t bytes, const uint8_t *input, size_t input_bytes)
{
    if (goods == FILES || bytes == 0 || bytes > EOL2_TEXT || input_bytes > EOL2_INPUT || from[bytes - 1] != '\n') {
        fprintf(stderr, "hostile: %s is too long or does not end in a new line, or is one file too many\n", name);
        exit(2);
    }
    memcpy(good[goods].text, from, good[goods].text_bytes = bytes);
    memcpy(good[goods].input, input, good[goods].input_bytes = input_bytes);
    uint64_t answer = eol2_load(good[goods].text, bytes, good[goods].table, EOL2_TABLE);
    if (eol2_number(answer) != EOL2_ACCEPTED) {
        printf("%s: load answers %u, line %u\n", name, (unsigned)eol2_number(answer), (unsigned)eol2_line(answer));
        exit(1);
    }
    goods++;
}

/* A text of a file, and the same in the other edition. */
static void read_good(const char *name)
{
    static uint8_t file[HOST_FILE], other[EOL2_TEXT];
    const size_t n = host_read(name, file, sizeof file), end = host_text_end(file, n);
    add_good(name, file, end, file + end, n - end);
    const uint64_t answer = eol2_convert(file, end, other, sizeof other);
    if (eol2_number(answer) == EOL2_ACCEPTED)
        add_good(name, other, eol2_count(answer), file + end, n - end);
}

int main(int count, char **words)
{
    if (count < 4) {
        fprintf(stderr, "usage: %s SEED ROUNDS FILE...\n", words[0]);
        return 2;
    }
    seed = strtoull(words[1], NULL, 10) * 2 + 1;
    const unsigned long rounds = strtoul(words[2], NULL, 10);
    for (int k = 3; k < count; k++)
        read_good(words[k]);
    lent_make(&text, TEXT_MOST), lent_make(&table, CELLS_MOST * 4), lent_make(&i1, INPUT_MOST), lent_make(&i2, INPUT_MOST);
    lent_make(&state, STATE_MOST), lent_make(&saved, SAVED_MOST), lent_make(&out, OUT_MOST);
    lent_make(&work, WORK_MOST), lent_make(&lengths, 4 * PUPILS_MOST), lent_make(&budgets, 4 * PUPILS_MOST);
    lent_make(&results, 12 * PUPILS_MOST + 64), lent_make(&parts, PARTS_MOST);
    lend_out(0), lend(&saved, kept.at, 0), lend(&work, kept.at, 0), lend(&lengths, kept.at, 0), lend(&budgets, kept.at, 0);
    lend(&results, kept.at, 0), lend(&parts, kept.at, 0);
    run_rounds(rounds);
    static const char *const names[CALLS] = {"load", "start", "run", "convert", "write", "read", "shorten", "class"};
    unsigned long all = 0;
    for (int c = 0; c < CALLS; c++) {
        printf("%-7s", names[c]);
        for (int k = 0; k < 128; k++)
            if (answers[c][k])
                printf(" %02d: %lu", k, answers[c][k]);
        printf("\n");
        all += calls[c];
    }
    printf("hostile memory: %lu calls (", all);
    for (int c = 0; c < CALLS; c++)
        printf("%s%s %lu", c ? ", " : "", names[c], calls[c]);
    printf("), 0 differences\n");
    return 0;
}
