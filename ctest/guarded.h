/* What the C tests share: reading their vectors, and lending memory that tells when it is used otherwise than it was lent. */
#ifndef GUARDED_H
#define GUARDED_H

#include <stdint.h>
#include <stdio.h>
#include <stdlib.h>
#include <string.h>
#include <sys/mman.h>

enum { CANARY = 64, PAGE = 4096, UNWRITTEN = 0x5a };

static inline FILE *opened(const char *name) {
    FILE *f = fopen(name, "r");
    if (f == NULL) {
        fprintf(stderr, "cannot open %s\n", name);
        exit(2);
    }
    return f;
}

static inline int digit(int c) { return c <= '9' ? c - '0' : c - 'a' + 10; }

/* The bytes that a word of hexadecimal digits spells; "-" is none. */
static inline size_t bytes_of(const char *word, uint8_t *to) {
    size_t n = 0;
    if (strcmp(word, "-") == 0)
        return 0;
    for (; word[2 * n] != '\0'; n++)
        to[n] = (uint8_t)(digit(word[2 * n]) * 16 + digit(word[2 * n + 1]));
    return n;
}

/* The places that a word spells, four digits each; "-" is none. */
static inline size_t places_of(const char *word, uint16_t *to) {
    size_t n = 0;
    if (strcmp(word, "-") == 0)
        return 0;
    for (; word[4 * n] != '\0'; n++) {
        uint8_t two[2];
        char digits[5] = {0};
        memcpy(digits, word + 4 * n, 4);
        bytes_of(digits, two);
        to[n] = (uint16_t)(two[0] * 256 + two[1]);
    }
    return n;
}

/* The pages of a buffer of n bytes, canaries included; behind them is one more, which nobody may touch. */
static inline size_t pages_of(size_t n) { return (n + CANARY + PAGE - 1) / PAGE * PAGE; }

/* A buffer of n bytes, with canaries ahead of it. It ends where a page begins that nobody may touch, so that a read beyond it ends the test too. */
static inline uint8_t *guarded(size_t n) {
    size_t all = pages_of(n);
    uint8_t *p = mmap(NULL, all + PAGE, PROT_READ | PROT_WRITE, MAP_PRIVATE | MAP_ANONYMOUS, -1, 0);
    if (p == MAP_FAILED || mprotect(p + all, PAGE, PROT_NONE) != 0) {
        perror("guarded");
        exit(2);
    }
    uint8_t *buffer = p + all - n;
    memset(buffer - CANARY, 0xc3, CANARY);
    memset(buffer, UNWRITTEN, n);
    return buffer;
}

/* A copy that can be read and not written. */
static inline const void *lent(const void *from, size_t n) {
    uint8_t *buffer = guarded(n);
    memcpy(buffer, from, n);
    if (mprotect(buffer + n - pages_of(n), pages_of(n), PROT_READ) != 0) {
        perror("lent");
        exit(2);
    }
    return buffer;
}

static inline void give_back(const void *buffer, size_t n) { munmap((uint8_t *)buffer + n - pages_of(n), pages_of(n) + PAGE); }

/* Whether what is ahead of the buffer stands as it was. */
static inline int intact(const uint8_t *buffer) {
    for (size_t i = 1; i <= CANARY; i++)
        if (buffer[-(ptrdiff_t)i] != 0xc3)
            return 0;
    return 1;
}

/* Whether a space of n bytes begins with what was to be written, is untouched behind it, and its canaries stand. */
static inline int holds(const uint8_t *space, size_t n, const void *written, size_t count) {
    int ok = count <= n && memcmp(space, written, count) == 0 && intact(space);
    for (size_t i = count; i < n; i++)
        ok = ok && space[i] == UNWRITTEN;
    return ok;
}

#endif
