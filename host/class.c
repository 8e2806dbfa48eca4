/* Runs one program on the work of a class: up to sixteen files of a folder, each the input I1 of one pupil. `host/run` builds it.

       eol2-class PROGRAM FOLDER [BUDGET]

   PROGRAM has the text, up to the end of the first line that starts with KONP; an input behind it is not read. The pupils are the files of FOLDER,
   in the order of their names; folders in it, and names that begin with a point, are left out. Each run takes at most BUDGET instructions, 100000
   where none is given. It prints a table with a line for each pupil: the name, how its run ended (STOP and the number, PAUSE, or BLAD 61 for an
   input that is refused), the steps, and how many characters Q1 has; then, behind an empty line for each, the name and Q1 of all whose Q1 is not
   empty. The exit status is 0, however the runs ended.

   Where the text is refused it prints BLAD, number and line alone, as eol2 does, and the exit status is 1. Status 2, and what is wrong in words on
   standard error: wrong use, a file or a folder that cannot be read, no file in the folder, or more than sixteen. */
#define _GNU_SOURCE
#include "text.h"

#include <dirent.h>
#include <limits.h>
#include <sys/stat.h>

/* one byte more than an input may have, so that a longer one is refused, and it alone */
static uint8_t file[HOST_FILE], inputs[EOL2_CLASS * (EOL2_INPUT + 1)], out[EOL2_CLASS * EOL2_OUTPUT];
static uint32_t table[EOL2_TABLE], lengths[EOL2_CLASS], budgets[EOL2_CLASS], results[3 * EOL2_CLASS];
static char *names[EOL2_CLASS];
static size_t pupils, inputs_bytes;
static const char *folder;

static _Noreturn void wrong(const char *what)
{
    fprintf(stderr, "eol2-class: %s\nusage: eol2-class PROGRAM FOLDER [BUDGET]\n", what);
    exit(2);
}

static uint32_t budget_of(const char *word)
{
    char *end;
    const unsigned long n = strtoul(word, &end, 10);
    if (*word < '0' || *word > '9' || *end || n > UINT32_MAX)
        wrong("a budget is a number of instructions below 4294967296");
    return (uint32_t)n;
}

/* ---- the folder */

static const char *path_of(const char *name)
{
    static char path[PATH_MAX];
    const int n = snprintf(path, sizeof path, "%s/%s", folder, name);
    if (n < 0 || (size_t)n >= sizeof path) {
        fprintf(stderr, "eol2-class: %s/%s: the name is too long\n", folder, name);
        exit(2);
    }
    return path;
}

/* Is it a file, and not hidden? A folder, a pipe or a device is not opened. */
static int is_work(const struct dirent *entry)
{
    struct stat about;
    return entry->d_name[0] != '.' && !stat(path_of(entry->d_name), &about) && S_ISREG(about.st_mode);
}

static void read_folder(uint32_t budget)
{
    struct dirent **all;
    const int n = scandir(folder, &all, is_work, alphasort);
    if (n < 0) {
        perror(folder);
        exit(2);
    }
    if (n == 0 || n > EOL2_CLASS) {
        fprintf(stderr, n ? "eol2-class: %s has %d files, and a class has at most %d\n" : "eol2-class: %s has no files\n", folder, n, EOL2_CLASS);
        exit(2);
    }
    for (pupils = 0; pupils < (size_t)n; pupils++) {
        names[pupils] = all[pupils]->d_name;
        lengths[pupils] = (uint32_t)host_read(path_of(names[pupils]), inputs + inputs_bytes, EOL2_INPUT + 1);
        inputs_bytes += lengths[pupils];
        budgets[pupils] = budget;
    }
}

/* ---- the table */

static void print_name(const char *name)
{
    for (; *name; name++)
        putchar((unsigned char)*name < ' ' || *name == 127 ? '?' : *name);
}

static void print_table(void)
{
    size_t width = 4;
    for (size_t k = 0; k < pupils; k++)
        width = strlen(names[k]) > width ? strlen(names[k]) : width;
    printf("%-*s  ANSWER        STEPS    Q1\n", (int)width, "FILE");
    for (size_t k = 0; k < pupils; k++) {
        const uint32_t *r = results + 3 * k;
        print_name(names[k]);
        printf("%*s  ", (int)(width - strlen(names[k])), "");
        if (r[0] == EOL2_PAUSED)
            printf("PAUSE  ");
        else
            printf("%s %02u", r[0] == EOL2_BAD_INPUTS ? "BLAD" : "STOP", (unsigned)r[0]);
        printf("  %10u  %4u\n", (unsigned)r[1], (unsigned)r[2]);
    }
    for (size_t k = 0; k < pupils; k++)
        if (results[3 * k + 2]) {
            putchar('\n');
            print_name(names[k]);
            putchar('\n');
            fwrite(out + EOL2_OUTPUT * k, 1, results[3 * k + 2], stdout);
            if (out[EOL2_OUTPUT * k + results[3 * k + 2] - 1] != '\n')
                putchar('\n');
        }
}

int main(int count, char **words)
{
    if (count < 3 || count > 4)
        wrong("a program, a folder and perhaps a budget");
    const uint32_t budget = count > 3 ? budget_of(words[3]) : 100000;
    folder = words[2];
    const size_t text = host_text_end(file, host_read(words[1], file, sizeof file));
    const uint64_t answer = eol2_load(file, text, table, EOL2_TABLE);
    if (eol2_number(answer) != EOL2_ACCEPTED) {
        printf("BLAD %02u LINE %u\n", (unsigned)eol2_number(answer), (unsigned)eol2_line(answer));
        return 1;
    }
    read_folder(budget);
    if (eol2_number(eol2_class(table, EOL2_TABLE, inputs, inputs_bytes, lengths, pupils, budgets, pupils, results, 3 * pupils, out, sizeof out))
        != EOL2_ACCEPTED) {
        fprintf(stderr, "eol2-class: the call is refused\n"); /* it never is: 71 is kept by the sizes above, 62 by load */
        return 2;
    }
    print_table();
    if (fflush(stdout)) {
        perror("standard output");
        return 2;
    }
    return 0;
}
