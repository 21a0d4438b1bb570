/*
 * What the programs of this folder share. All memory is lent in blocks of the exact size, so that a checker of memory sees each
 * octet too many.
 */
#include "mrt.h"

#include <stdio.h>
#include <stdlib.h>
#include <string.h>

#define FILL 0x5a5a5a5a5a5a5a5aULL
#define UNTOUCHED 0xa5

static unsigned long checks, wrong;

static void expect(int holds, const char *what, unsigned long a, unsigned long b) {
    checks++;
    if (!holds) {
        wrong++;
        printf("wrong: %s (%lu, %lu)\n", what, a, b);
    }
}

/* A block of exactly n octets; of none, NULL. */
static void *block(size_t n) {
    void *p = n ? malloc(n) : NULL;
    if (n && !p) {
        abort();
    }
    return p;
}

static inline uint8_t *copy(const uint8_t *from, size_t n) {
    uint8_t *p = block(n);
    if (n) {
        memcpy(p, from, n);
    }
    return p;
}

static inline uint64_t *places(size_t n) {
    uint64_t *p = block(n * sizeof *p);
    for (size_t i = 0; i < n; i++) {
        p[i] = FILL;
    }
    return p;
}

/* The values stand at the front, and what comes after them is as it was. */
static inline int holds(const uint64_t *out, size_t n, const uint64_t *values, size_t count) {
    for (size_t i = 0; i < n; i++) {
        if (out[i] != (i < count ? values[i] : FILL)) {
            return 0;
        }
    }
    return 1;
}

/* A block of n octets that nobody has written to. */
static inline uint8_t *untouched(size_t n) {
    uint8_t *p = block(n);
    if (n) {
        memset(p, UNTOUCHED, n);
    }
    return p;
}

/* The number v in n octets, the highest first, and where they end. */
static inline size_t put(uint8_t *to, size_t at, size_t n, uint64_t v) {
    for (size_t i = 0; i < n; i++) {
        to[at + i] = (uint8_t)(v >> (8 * (n - 1 - i)));
    }
    return at + n;
}

static inline int known(uint64_t type) {
    return type <= 13 || type == 16 || type == 17 || type == 32 || type == 33 || type == 48 || type == 49;
}

/* Whether a header of this type has microseconds. */
static inline int timed(uint64_t type) { return type == 17 || type == 33 || type == 49; }

/* Whether n octets are these. Of none, whether there are none. */
static inline int same(const void *a, const void *b, size_t n) { return !n || !memcmp(a, b, n); }

static int result(void) {
    printf("%lu checks, %lu wrong\n", checks, wrong);
    return wrong != 0;
}
