/* The work of sort.eol, count.eol and files.eol, directly in C, with the same algorithms on arrays. bench/steps.c calls it. */
#include "native.h"

#include <string.h>

/* ---- sort */

struct word {
    const uint8_t *at;
    size_t length;
};

static uint8_t ranks[256];

static void make_ranks(void)
{
    static const char order[] = " .(+*);-/,:'=[]<>?\x1b\x0e" "ABCDEFGHIJKLMNOPQRSTUVWXYZ" "abcdefghijklmnopqrstuvwxyz\x0f" "0123456789\n\x0c\r\x7f";
    for (int k = 0; order[k]; k++)
        ranks[(uint8_t)order[k]] = (uint8_t)(k + 1);
}

static int precedes(const struct word *a, const struct word *b)
{
    size_t n = a->length < b->length ? a->length : b->length;
    for (size_t k = 0; k < n; k++)
        if (a->at[k] != b->at[k])
            return ranks[a->at[k]] < ranks[b->at[k]];
    return a->length < b->length;
}

uint32_t native_sort(const uint8_t *input, size_t bytes)
{
    struct word list[256];
    size_t count = 0, at = 0;
    if (!ranks[' '])
        make_ranks();
    for (;;) {
        while (at < bytes && (input[at] == ' ' || input[at] == '\n'))
            at++;
        if (at == bytes || count == 256)
            break;
        struct word w = {input + at, 0};
        while (at < bytes && input[at] != ' ' && input[at] != '\n')
            at++, w.length++;
        size_t place = 0;
        while (place < count && precedes(&list[place], &w))
            place++;
        memmove(list + place + 1, list + place, (count - place) * sizeof *list);
        list[place] = w;
        count++;
    }
    uint32_t sum = 0;
    for (size_t k = 0; k < count; k++)
        sum = sum * 31 + list[k].at[0];
    return sum;
}

/* ---- loop */

uint32_t native_loop(const uint8_t *input, size_t bytes)
{
    uint32_t sum = 0;
    (void)input, (void)bytes;
    for (int32_t a = 1; a < 61; a++)
        for (int32_t b = 1; b < 61; b++) {
            int32_t x = a, y = b;
            for (int32_t rest = x % y; rest; rest = x % y)
                x = y, y = rest;
            sum += (uint32_t)(a * b / y);
        }
    return sum;
}

/* ---- copy */

struct component {
    uint8_t length; /* of a word; 0 for a number */
    char word[11];
    int32_t number;
};

struct record {
    uint32_t address;
    struct component components[5];
};

static struct record first[100], second[100], taken;

static void set_word(struct component *c, const char *word)
{
    c->length = (uint8_t)strlen(word);
    memcpy(c->word, word, c->length);
}

/* a number from 1 to 100 as a word */
static void set_digits(struct component *c, int n)
{
    char digits[4];
    int at = 3;
    digits[3] = 0;
    for (; n; n /= 10)
        digits[--at] = (char)('0' + n % 10);
    set_word(c, digits + at);
}

static size_t find(const struct record *list, size_t count, const char *word)
{
    const size_t n = strlen(word);
    size_t k = 0;
    while (k < count && (list[k].components[0].length != n || memcmp(list[k].components[0].word, word, n)))
        k++;
    return k;
}

uint32_t native_copy(const uint8_t *input, size_t bytes)
{
    uint32_t last = 0;
    (void)input, (void)bytes;
    for (int k = 0; k < 100; k++) {
        struct record *r = &first[k];
        memset(r, 0, sizeof *r);
        r->address = ++last;
        set_digits(&r->components[0], 100 - k);
        set_word(&r->components[1], "PASMO");
        r->components[2].number = 100 - k;
        set_word(&r->components[3], "KOLOR");
        set_word(&r->components[4], "NIC");
    }
    memcpy(second, first, sizeof second);
    for (int k = 0; k < 100; k++)
        second[k].address = ++last;
    size_t one = find(second, 100, "1"), forty = find(second, 100, "40");
    taken = second[forty];
    memmove(second + forty, second + forty + 1, (99 - forty) * sizeof *second);
    memmove(second + forty + 1, second + forty, (99 - forty) * sizeof *second);
    second[forty] = taken;
    second[forty].address = ++last;
    uint32_t sum = last + (uint32_t)one + second[forty].address;
    memset(second, 0, 50 * sizeof *second);
    memset(second + 50, 0, 50 * sizeof *second);
    memset(first, 0, sizeof first);
    return sum;
}
