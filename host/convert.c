/* Turns a program text into the other edition: SEKCJA and the Polish operators into SECTION and the English ones, or back. `host/run` builds it.

       eol2-convert < TEXT > OTHER

   All of standard input is the text, up to KONP's statement; an input behind it does not belong to it. Where the text is taken, the other
   edition is all that is printed, and the exit status is 0. Where it is not (it does not load, it has macros, or the result is too long) it
   prints `BLAD 67`, and the exit status is 1: eol2 tells why a text does not load. Status 2: wrong use, or standard input or output failed. */
#include "../include/eol2.h"

#include <stdio.h>

/* one byte more than load takes, so that a longer text is refused by its length */
static uint8_t text[EOL2_TEXT + 1], other[EOL2_TEXT];

int main(int count, char **words)
{
    if (count > 1) {
        fprintf(stderr, "usage: %s < TEXT > OTHER\nTurns a program text into the other edition, SEKCJA .. or SECTION ..\n", words[0]);
        return 2;
    }
    const size_t bytes = fread(text, 1, sizeof text, stdin);
    if (ferror(stdin)) {
        perror("standard input");
        return 2;
    }
    const uint64_t answer = eol2_convert(text, bytes, other, sizeof other);
    const int taken = eol2_number(answer) == EOL2_ACCEPTED;
    if (taken)
        fwrite(other, 1, eol2_count(answer), stdout);
    else
        printf("BLAD %02u\n", (unsigned)eol2_number(answer));
    if (fflush(stdout)) {
        perror("standard output");
        return 2;
    }
    return !taken;
}
