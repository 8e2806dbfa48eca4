/* Memory lent to a call under watch: a buffer of any length between pages that trap, guard bytes in the rest of its own pages, and a copy of
   what it held. It lies flush with the page before or the page behind it. Where the compiler has AddressSanitizer, the guard bytes are poisoned
   too, so that a call of memcpy or memset from any code reports them. */
#ifndef HOST_LENT_H
#define HOST_LENT_H

#include <stdint.h>
#include <stdio.h>
#include <stdlib.h>
#include <string.h>
#include <sys/mman.h>
#include <unistd.h>

#ifdef __SANITIZE_ADDRESS__
#include <sanitizer/asan_interface.h>
#else
#define ASAN_POISON_MEMORY_REGION(at, n) ((void)(at), (void)(n))
#define ASAN_UNPOISON_MEMORY_REGION(at, n) ((void)(at), (void)(n))
#endif

enum { GUARD = 0xa5 };

struct lent {
    uint8_t *room, *before, *guard; /* pages of its own; what the buffer held; as many guard bytes */
    size_t size;
    uint8_t *at; /* the buffer */
    size_t length;
};

/* Pages for buffers of up to `most` bytes. */
static inline void lent_make(struct lent *l, size_t most)
{
    size_t page = (size_t)sysconf(_SC_PAGESIZE);
    l->size = (most + page - 1) / page * page;
    uint8_t *all = mmap(NULL, l->size + 2 * page, PROT_NONE, MAP_PRIVATE | MAP_ANONYMOUS, -1, 0);
    l->before = malloc(l->size);
    l->guard = malloc(l->size);
    if (all == MAP_FAILED || mprotect(all + page, l->size, PROT_READ | PROT_WRITE) || !l->before || !l->guard) {
        perror("memory to lend");
        exit(2);
    }
    l->room = all + page;
    memset(l->guard, GUARD, l->size);
}

/* Lends `length` bytes with this content, at the front or at the end of the pages; of length 0, also by a null pointer. */
static inline void lent_fill(struct lent *l, const uint8_t *content, size_t length, int front, int null)
{
    ASAN_UNPOISON_MEMORY_REGION(l->room, l->size);
    l->length = length;
    l->at = front ? l->room : l->room + l->size - length;
    memset(l->room, GUARD, l->size);
    memcpy(l->at, content, length);
    memcpy(l->before, content, length);
    ASAN_POISON_MEMORY_REGION(l->room, l->size);
    ASAN_UNPOISON_MEMORY_REGION(l->at, length);
    if (length == 0 && null)
        l->at = NULL;
}

/* Lets a call read the buffer alone, or write it too. */
static inline void lent_writable(struct lent *l, int writable)
{
    if (mprotect(l->room, l->size, writable ? PROT_READ | PROT_WRITE : PROT_READ)) {
        perror("memory to lend");
        exit(2);
    }
}

/* Are the bytes around the buffer as they were? */
static inline int lent_guarded(struct lent *l)
{
    ASAN_UNPOISON_MEMORY_REGION(l->room, l->size);
    if (!l->at)
        return !memcmp(l->room, l->guard, l->size);
    size_t ahead = (size_t)(l->at - l->room);
    return !memcmp(l->room, l->guard, ahead) && !memcmp(l->at + l->length, l->guard, l->size - ahead - l->length);
}

/* Are the bytes of the buffer from `from` on as they were? */
static inline int lent_same(const struct lent *l, size_t from)
{
    return from >= l->length || !memcmp(l->at + from, l->before + from, l->length - from);
}

#endif
