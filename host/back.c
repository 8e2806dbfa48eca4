/* Turns texts into the other edition and back. `host/run` builds it.

       back LEAST FILE..

   Each FILE has a text up to the end of the first line that starts with KONP. Where it loads and is taken by the converter, the other edition
   loads to the same table, and comes back byte for byte. Where it does not load the converter refuses it. At least LEAST texts are to be taken.
   The last line has the counts; it ends at the first difference, with status 1. */
#include "text.h"

static uint8_t file[HOST_FILE], other[EOL2_TEXT], again[EOL2_TEXT];
static uint32_t table[EOL2_TABLE], twin[EOL2_TABLE];

static void wrong(const char *name, const char *what)
{
    fprintf(stderr, "%s: %s\n", name, what);
    exit(1);
}

/* whether the text is taken; everything that is then to hold is looked at */
static int taken(const char *name, size_t text)
{
    const int loads = eol2_number(eol2_load(file, text, table, EOL2_TABLE)) == EOL2_ACCEPTED;
    const uint64_t there = eol2_convert(file, text, other, sizeof other);
    if (eol2_number(there) != EOL2_ACCEPTED)
        return 0;
    if (!loads)
        wrong(name, "does not load, and is converted");
    if (eol2_number(eol2_load(other, eol2_count(there), twin, EOL2_TABLE)) != EOL2_ACCEPTED || memcmp(table, twin, sizeof table))
        wrong(name, "the other edition has another table");
    const uint64_t back = eol2_convert(other, eol2_count(there), again, sizeof again);
    if (eol2_number(back) != EOL2_ACCEPTED || eol2_count(back) != text || memcmp(again, file, text))
        wrong(name, "does not come back");
    return 1;
}

int main(int count, char **words)
{
    if (count < 2) {
        fprintf(stderr, "usage: %s LEAST FILE..\n", words[0]);
        return 2;
    }
    int texts = 0;
    for (int k = 2; k < count; k++) {
        const size_t bytes = host_read(words[k], file, sizeof file);
        texts += taken(words[k], host_text_end(file, bytes));
    }
    printf("converter: %d of %d texts there and back\n", texts, count - 2);
    return texts < atoi(words[1]);
}
