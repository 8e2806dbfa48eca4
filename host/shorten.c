/* Gives a short part of a refused program text that is refused with the same number. `host/run` builds it.

       eol2-shorten < FILE > PART

   Standard input is what the program eol2 takes: the text up to the end of the first line that starts with KONP, and behind it I1, which does not
   matter here. Of a refused text it prints the part, some of its lines in their order, and then the line that eol2 prints for that part, such as
   `BLAD 12 LINE 2`: the line of the fault is one of the part. The exit status is 1. A last line of the part without a new line gets one. A text
   that loads is printed whole, with no such line behind it; that it loads is said on standard error, and the exit status is 0. Of a text that is
   too long there is no part, and `BLAD 40 LINE 0` is all. Status 2: wrong use, or standard input or output failed.

   A text of some hundred lines takes milliseconds, 32,000 lines some seconds; macros can be written for which it takes many hours
   (docs/requests/2.7.md). */
#include "text.h"

static uint8_t file[HOST_FILE], part[EOL2_TEXT];
static uint32_t table[EOL2_TABLE];

/* The line of a refusal, as eol2 prints it, on a line of its own. */
static void print_refusal(size_t bytes)
{
    const uint64_t answer = eol2_load(part, bytes, table, EOL2_TABLE);
    if (bytes && part[bytes - 1] != '\n')
        putchar('\n');
    printf("BLAD %02u LINE %u\n", (unsigned)eol2_number(answer), (unsigned)eol2_line(answer));
}

int main(int count, char **words)
{
    if (count > 1) {
        fprintf(stderr, "usage: %s < FILE > PART\nPrints a short part of a refused program text that shows the same fault.\n", words[0]);
        return 2;
    }
    const size_t text = host_text_end(file, host_read("-", file, sizeof file));
    const uint64_t answer = eol2_shorten(file, text, table, EOL2_TABLE, part, sizeof part);
    const uint32_t number = eol2_number(answer);
    fwrite(part, 1, eol2_count(answer), stdout);
    if (number == EOL2_ACCEPTED)
        fprintf(stderr, "%s: the text loads, and is printed as it is\n", words[0]);
    else if (number == EOL2_BAD_SIZE)
        printf("BLAD %u LINE 0\n", (unsigned)number);
    else
        print_refusal(eol2_count(answer));
    if (fflush(stdout)) {
        perror("standard output");
        return 2;
    }
    return number != EOL2_ACCEPTED;
}
