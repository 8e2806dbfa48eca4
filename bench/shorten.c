/* Times the short part of a text (eol2_shorten), in processor time: 300 lines with one fault, which are to take less than 0.2 s; then texts that
   cost much, each once. `bench/run` builds and runs it. Each line has the answer and the length of the part. */
#include "clock.h"
#include "made.h"

static uint32_t table[EOL2_TABLE];
static uint8_t part[EOL2_TEXT];

/* ---- the texts */

/* 300 lines of many kinds, with labels, texts, numbers and a switch; line 150 is the one given */
static void customer(const char *fault)
{
    static const char *const forms[] = {"UMIESC 'WZOR%03d',Z1", "PRZESLIJ B1,A2,1", "DODAJ A3,%d", "RW B1,'OSNOWA'", "SKOPL DALEJ", "CZYTAJ I1,Z4,BR",
        "WSTAW A1,D1", "KOPIUJ D1,D2,3", "ROZBIJ B5,LD", "PISZ B1,Q1,' '", "WYKONAJ DALEJ", "WYNA B1,WYBOR", "USUN A7", "LICZBA B8", "COFNIJ P1", "WROC"};
    add("SEKCJA S\nDALEJ: COFNIJ P1\n");
    for (int k = 3; k < 297; k++) {
        if (k == 150)
            add("%s", fault);
        else {
            add(k % 5 == 1 ? "A%03d: " : "", k);
            add(forms[k % 16], 16 + k / 16);
        }
        add(" /* THE NEXT PART */\n");
    }
    add("WYBOR: NAZWA DALEJ:'LEWO',DALEJ:'PRAWO',DALEJ\nSTOP\nKONS\nKONP S\n");
}

static void bad_operator(int n)
{
    (void)n;
    customer("UMIESX 'ROD',A1");
}

static void bad_label(int n)
{
    (void)n;
    customer("SKOCZ DALEKO");
}

/* empty lines, and behind them a fault */
static void empty(int n)
{
    add("SEKCJA S\n");
    while (n--)
        add("\n");
    add("FOO\n");
}

/* different labels, one a line, and behind them a fault: each is compared with all before it */
static void labels(int n)
{
    add("SEKCJA S\n");
    while (n--)
        add("A%c%c%c:\n", 'A' + n / 26 / 26, 'A' + n / 26 % 26, 'A' + n % 26);
    add("FOO\n");
}

/* jumps that each need the label of the next line, with a fault that is asked later: a round drops one line, the first of them */
static void jumps(int n)
{
    add("SEKCJA S\nSKONA A1,W\n");
    for (int k = 0; k < n; k++)
        add("B%d: SKOCZ B%d\n", k, k + 1);
    add("B%d: STOP\nKONS\nKONP S\n", n);
}

/* the same of macros that each call the next one: there may be thousands of them */
static void macros(int n)
{
    add("SEKCJA S\n(Z X()\n");
    for (int k = 0; k < n; k++)
        add("A%d(*A%d)\n", k, k + 1);
    add("A%d())\n*Z\n", n);
}

/* ---- times */

/* The best of some calls, in nanoseconds. */
static double measure(const char *title, void (*make)(int), int n, int times)
{
    double best = 1e18;
    uint64_t answer = 0;
    bytes = 0;
    make(n);
    while (times--) {
        double a = now();
        answer = eol2_shorten((const uint8_t *)text, bytes, table, EOL2_TABLE, part, sizeof part);
        double b = now();
        if (b - a < best)
            best = b - a;
    }
    printf("%-55s %5zu bytes %12.1f us (answer %02u, part %5u bytes)\n", title, bytes, best / 1000, (unsigned)eol2_number(answer),
           (unsigned)eol2_count(answer));
    fflush(stdout);
    return best;
}

int main(void)
{
    const double operator_time = measure("short part: 300 lines, a bad operator", bad_operator, 0, 25);
    const double label_time = measure("short part: 300 lines, a label that is not there", bad_label, 0, 25);
    measure("short part: 127 jumps that need each other", jumps, 127, 1);
    measure("short part: 32,000 empty lines before a fault", empty, 32000, 1);
    measure("short part: 1,000 labels alone before a fault", labels, 1000, 1);
    measure("short part: 2,000 labels alone before a fault", labels, 2000, 1);
    measure("short part: 50 macros that need each other", macros, 50, 1);
    measure("short part: 100 macros that need each other", macros, 100, 1);
    measure("short part: 200 macros that need each other", macros, 200, 1);
    return operator_time >= 2e8 || label_time >= 2e8;
}
