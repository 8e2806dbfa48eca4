/* Times load and the converter: nanoseconds a byte of a text, on full texts of real statements in both editions and on texts that cost the most;
   then texts with macros, a byte of the written-out text. `bench/run` builds and runs it. Each line has the answer, so that a text that is refused
   early does not pass for a fast one. */
#include "clock.h"
#include "made.h"

#include <string.h>

static uint32_t table[EOL2_TABLE];
static uint8_t other[EOL2_TEXT];

/* What is left up to a full text, as one comment with spaces before it, and the end. */
static void fill(size_t most)
{
    static const char end[] = "STOP\nKONS\nKONP S\n";
    if (bytes + 5 + sizeof end < most) {
        add("/*");
        while (bytes + 2 + sizeof end < most)
            add("%c", bytes % 64 ? '-' : '\n');
        add("*/\n");
    }
    add("%s", end);
}

/* A name of n characters, different for each k. */
static const char *name(int n, int k)
{
    static char s[64];
    snprintf(s, sizeof s, "A%0*d", n - 1, k);
    return s;
}

/* ---- the texts */

/* 511 instructions of many kinds, with labels, texts, numbers and a switch */
static void lines(const char *remark)
{
    static const char *const forms[] = {"UMIESC 'WZOR%03d',Z1", "PRZESLIJ B1,A2,1", "DODAJ A3,%d", "RW B1,'OSNOWA'", "SKOPL DALEJ", "CZYTAJ I1,Z4,BR",
        "WSTAW A1,D1", "KOPIUJ D1,D2,3", "ROZBIJ B5,LD", "PISZ B1,Q1,' '", "WYKONAJ DALEJ", "WYNA B1,WYBOR", "USUN A7", "LICZBA B8", "COFNIJ P1", "WROC"};
    add("DALEJ: COFNIJ P1\n");
    for (int k = 1; k < 511; k++) {
        if (k % 5 == 1)
            add("%s: ", name(8, k));
        add(forms[k % 16], 16 + k / 16);
        add("%s\n", remark);
    }
    add("WYBOR: NAZWA DALEJ:'LEWO',DALEJ:'PRAWO',DALEJ\n");
}

static void statements(void)
{
    lines("");
}

static void remarks(void)
{
    lines("    /* THE NEXT PART IS WOVEN FROM THE LEFT */");
}

static void comment(void)
{
}

/* 128 labels of 60 characters, and the last of them used as often as there is room */
static void labels(void)
{
    for (int k = 0; k < 128; k++)
        add("%s: STOP\n", name(60, k));
    while (bytes + 90 < EOL2_TEXT)
        add("SKOCZ %s\n", name(60, 127));
}

/* 511 instructions that use the last of 128 labels */
static void uses(void)
{
    for (int k = 0; k < 128; k++) {
        add("%s: ", name(40, k));
        add("WYKONAJ %s\n", name(40, 127));
    }
    for (int k = 128; k < 511; k++)
        add("SKOCZ %s\n", name(40, 127));
}

/* 128 texts of 60 characters, and the last of them used as often as there is room */
static void texts(void)
{
    for (int k = 0; k < 128; k++)
        add("UMIESC '%s',A1\n", name(60, k));
    while (bytes + 90 < EOL2_TEXT)
        add("UMIESC '%s',A1\n", name(60, 127));
}

/* 8,000 different labels of three characters, a digit last, and no other statement but the end */
static void alone(void)
{
    for (int k = 0; k < 8000; k++)
        add("%c%c%c:", 'A' + k / 10 / 36 % 26, "ABCDEFGHIJKLMNOPQRSTUVWXYZ0123456789"[k / 10 % 36], '0' + k % 10);
    add("\n");
}

/* as many empty statements, and spaces, as there is room for */
static void empty(void)
{
    while (bytes + 40 < EOL2_TEXT)
        add(" ;\n");
}

/* ---- texts with macros */

/* 102 calls that write 510 instructions with a remark to each, some 32,000 bytes */
static void patterns(void)
{
    add("(PATTERN TEXT,N,COUNT(UMIESC TEXT,A'N /* THE NEXT WORD OF THE PATTERN, AS THE RULE HAS IT, IN FRONT */\n"
        "PRZESLIJ A'N,B2,1 /* IT MOVES ON */\nDODAJ A3,COUNT /* COUNTED IN RODS */\nPISZ B'N,Q1,' ' /* AND SHOWN, WITH A SPACE */\n"
        "WYKONAJ DALEJ /* AND THE REST OF THE ROW, WHICH IS DONE FOR EACH PATTERN IN THE SAME WAY */))\nDALEJ: COFNIJ P1\n");
    for (int k = 0; k < 102; k++)
        add("*PATTERN 'WZOR%02d',%d,%d\n", k, 1 + k % 32, 16 + k);
}

/* 32 calls that write a comment of 1,000 bytes: nothing but bytes to copy and to pass over */
static void copies(void)
{
    add("(REMARK(/*");
    for (int k = 0; k < 1000; k++)
        add("%c", k % 64 ? '-' : '\n');
    add("*/))\n");
    for (int k = 0; k < 32; k++)
        add("*REMARK\n");
}

/* 24 calls of a macro with 20 calls, of which each calls the macro of a parameter, which joins another: 480 instructions in short pieces */
static void pieces(void)
{
    add("(TWENTY X(");
    for (int k = 0; k < 20; k++)
        add("*ONE X,%d\n", k % 9 + 1);
    add(")ONE X,N(*X N;)STEP N(UMIESC 'ROW',A'N /* THE PATTERN GOES ON AND ON, AS ITS RULE SAYS */))\n");
    for (int k = 0; k < 24; k++)
        add("*TWENTY STEP\n");
}

/* 16 layers of ten macros, each with calls of all ten of the next layer, and the last ones empty, so that nothing is written: 10 to the 15th
   calls if they were made one by one. Every call has these arguments, and comes so often. */
static void layers(const char *parameter, const char *argument, int often)
{
    add("(");
    for (int layer = 0; layer < 16; layer++)
        for (int k = 0; k < 10; k++) {
            add("L%dX%d%s(", layer, k, parameter);
            for (int j = 0; layer < 15 && j < 10 * often; j++)
                add("*L%dX%d%s;", layer + 1, j / often, argument);
            add(")\n");
        }
    add(")\n*L0X0%s\n", *parameter ? " A" : "");
}

static void once(void)
{
    layers("", "", 1);
}

static void twice(void)
{
    layers("", "", 2);
}

static void joined(void)
{
    layers(" P", " A'P", 1);
}

/* 2,300 macros, and a call of each, from the last to the first */
static void many(void)
{
    add("(");
    for (int k = 0; k < 2300; k++)
        add("A%04d()", k);
    add(")\n");
    for (int k = 2299; k >= 0; k--)
        add("*A%04d;", k);
    add("\n");
}

/* 15 macros one below the other, each calling the next twice with new arguments, the last one the macro of its first parameter: 2 to the 14th
   calls by a parameter, which have to be made */
static void handed(void)
{
    add("(");
    for (int k = 1; k < 15; k++)
        add("D%d Q,P(*D%d Q,A'P;*D%d Q,B'P;)\n", k, k + 1, k + 1);
    add("D15 Q,P(*Q)N())\n*D1 N,X\n");
}

/* How many bytes are written out: as many as leave room for some spaces at the end, and no more, up to 66. 0 where it cannot be told so. */
static size_t written_out(void)
{
    size_t room = 0;
    while (bytes + room < EOL2_TEXT) {
        text[bytes + room++] = ' ';
        if (eol2_number(eol2_load((const uint8_t *)text, bytes + room, table, EOL2_TABLE)) == EOL2_BAD_EXPANSION)
            return EOL2_TEXT + 1 - room;
    }
    return 0;
}

static uint64_t load(void)
{
    return eol2_load((const uint8_t *)text, bytes, table, EOL2_TABLE);
}

static uint64_t convert(void)
{
    return eol2_convert((const uint8_t *)text, bytes, other, sizeof other);
}

/* The best time of a call on the text as it stands. The value of the answer is load's line, or the converter's count. */
static double best_of(const char *title, const char *value, uint64_t (*call)(void))
{
    double best = 1e18;
    uint64_t answer = 0;
    for (int k = 0; k < 25; k++) {
        double a = now();
        answer = call();
        double b = now();
        if (b - a < best)
            best = b - a;
    }
    printf("%-45s %5zu bytes %9.1f us %7.2f ns a byte %7.1f MB/s (answer %02u, %s %u)\n", title, bytes, best / 1000, best / (double)bytes,
           (double)bytes * 1000 / best, (unsigned)eol2_number(answer), value, (unsigned)eol2_line(answer));
    return best;
}

static double measure(const char *title, void (*make)(void), int full)
{
    bytes = 0;
    add("SEKCJA S\n");
    make();
    fill(full ? EOL2_TEXT : 0);
    return best_of(title, "line", load);
}

/* The same in both editions, and the converter both ways. */
static void measure_editions(const char *title, void (*make)(void), int full)
{
    measure(title, make, full);
    for (int k = 0; k < 2; k++) {
        best_of(k ? "    converted back" : "    converted", "bytes", convert);
        bytes = eol2_count(convert());
        memcpy(text, other, bytes);
        if (!k)
            best_of("    in English", "line", load);
    }
}

/* The same for a text with macros, and how fast its written-out text is loaded. */
static void measure_written(const char *title, void (*make)(void))
{
    const double best = measure(title, make, 0);
    const size_t out = written_out();
    printf("%-45s %5zu bytes %12s %7.2f ns a byte %7.1f MB/s\n", "    written out", out, "", best / (double)out, (double)out * 1000 / best);
}

int main(void)
{
    measure_editions("512 statements", statements, 0);
    measure_editions("512 statements with remarks, a full text", remarks, 1);
    measure("one long comment", comment, 1);
    measure("128 labels of 60 characters, the last used", labels, 0);
    measure("512 instructions, each with the last label", uses, 0);
    measure("128 texts of 60 characters, the last used", texts, 0);
    measure("8,000 different labels alone", alone, 0);
    measure("empty statements", empty, 0);
    measure_written("macros: 510 instructions in 102 calls", patterns);
    measure_written("macros: long comments", copies);
    measure_written("macros: calls by a parameter in calls", pieces);
    measure("16 layers of ten macros, a full text", once, 1);
    measure("the same, each call twice", twice, 1);
    measure("the same, with joined arguments", joined, 1);
    measure("2,300 macros, each called", many, 0);
    measure("15 macros that hand a name on, two calls each", handed, 0);
    return 0;
}
