/* What the runs share: the places of a store, lent bytes, the stores they begin with, and how a reply is told.
   A run prints what stands in door/expected/runs under its name, worked out from the documents. */
#ifndef RUNS_COMMON_H
#define RUNS_COMMON_H
#include "../reasons.h"
#include <stdio.h>
#include <stdlib.h>
#include <sys/mman.h>

/* The places of a store, opaque to other programs. */
typedef struct {
    uint8_t assumptions, claims, pad[6];
    uint64_t count;
    uint8_t entries[256][6]; /* consequent, count, four supports */
    uint8_t sizes[128];
    uint32_t members[128][12];
    uint64_t nogood_count;
    uint32_t nogoods[32];
    uint8_t depth, tail[7];
} layout;
static_assert(sizeof(layout) == sizeof(reasons_store), "the places of a store");

static inline layout places(const reasons_store *store) {
    layout l;
    memcpy(&l, store, sizeof l);
    return l;
}

static inline reasons_store stored(const layout *l) {
    reasons_store s;
    memcpy(&s, l, sizeof s);
    return s;
}

/* Ends the run: what must be so is not. */
static inline _Noreturn void broken(const char *what) {
    fprintf(stderr, "not as it should be: %s\n", what);
    exit(1);
}

/* size bytes whose end is the end of what may be touched */
static inline void *lent(size_t size) {
    size_t page = 4096, whole = (size + page - 1) / page * page + page;
    char *from = mmap(NULL, whole + page, PROT_READ | PROT_WRITE, MAP_PRIVATE | MAP_ANONYMOUS, -1, 0);
    if (from == MAP_FAILED || mprotect(from + whole, page, PROT_NONE)) broken("no memory");
    return from + whole - size;
}

/* .. each of them so */
static inline void *filled(size_t size, uint8_t byte) { return memset(lent(size), byte, size); }

/* Supports, and how many: one at least. */
#define OF(...) (const uint32_t[]){__VA_ARGS__}, sizeof((const uint32_t[]){__VA_ARGS__}) / sizeof(uint32_t)

static inline reasons_store opened(uint32_t assumptions, uint32_t claims) {
    reasons_store s;
    if (reasons_open(&s, assumptions, claims)) broken("open");
    return s;
}

static inline reasons_store added(reasons_store s, uint32_t consequent, const uint32_t *supports, size_t count) {
    if (reasons_add(&s, consequent, supports, count, NULL)) broken("add");
    return s;
}

/* The listed case of document 01. */
static inline reasons_store listed_case(void) {
    reasons_store s = added(opened(3, 2), 4, OF(1));
    s = added(s, 4, OF(2, 3));
    s = added(s, 5, OF(2, 4));
    return added(s, 0, OF(1, 2));
}

/* With other counts in its places, whatever it holds. */
static inline reasons_store counting(reasons_store s, uint8_t assumptions, uint8_t claims) {
    layout l = places(&s);
    l.assumptions = assumptions, l.claims = claims;
    return stored(&l);
}

/* Pair k, from 0, of nine assumptions: 1,2 and 1,3 to 1,9, then 2,3 .. */
static inline void pair(unsigned k, uint32_t *low, uint32_t *high) {
    for (*low = 1; k >= 9 - *low; ++*low) k -= 9 - *low;
    *high = *low + 1 + k;
}

/* What a call that writes answered. */
static inline void told(reasons_reply reply, size_t length) {
    if (reply) printf(" refused %d:", reply);
    else printf(" length %zu:", length);
}

/* Each byte as a number, a space before it. */
static inline void numbers(const uint8_t *bytes, size_t count) {
    for (size_t i = 0; i < count; i++) printf(" %d", bytes[i]);
    puts("");
}
#endif
