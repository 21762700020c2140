/* The walk over the stages: cases made here as files and loaded, so that all their records are judged at once. A line for each: its title, the number
   of the reply and the number that it names; where it is done the depth, and of one list how many members it has and which, as numbers. */
#include "common.h"

/* The counts of a case, and its records: a consequent, then supports, of which 0 is none. */
typedef struct { uint32_t assumptions, claims, count, records[256][3]; } rules;

static void with(rules *r, uint32_t consequent, uint32_t first, uint32_t second) {
    memcpy(r->records[r->count++], (uint32_t[]){consequent, first, second}, sizeof *r->records);
}

/* n from each of the assumptions 1 to last alone */
static void singles(rules *r, uint32_t n, uint32_t last) {
    for (uint32_t k = 1; k <= last; k++) with(r, n, k, 0);
}

/* What comes before n on the chain from 1 through assumptions 2 to 8, claims 33 to 128 and assumptions 9 to 32 to falsity; 0 for 1, a premise. */
static uint32_t before(uint32_t n) { return n == 0 ? 32 : n == 9 ? 128 : n == 33 ? 8 : n - 1; }

static uint8_t *number(uint8_t *at, uint32_t n) {
    if (n < 128) return *at = (uint8_t)n, at + 1;
    return at[0] = (uint8_t)(n % 128 + 128), at[1] = (uint8_t)(n / 128), at + 2;
}

/* the bytes of the case file, and how many */
static size_t file(const rules *r, uint8_t *bytes) {
    uint8_t *at = number(number(number(bytes, r->assumptions), r->claims), r->count);
    for (uint32_t i = 0; i < r->count; i++) {
        const uint32_t *j = r->records[i];
        at = number(number(at, j[0]), (j[1] > 0) + (j[2] > 0));
        for (int k = 1; k < 3; k++)
            if (j[k]) at = number(at, j[k]);
    }
    return (size_t)(at - bytes);
}

/* The label of n, or the nogoods, by the call for a member; at the place after the last there is none. */
static void list(const reasons_store *s, uint32_t n) {
    layout l = places(s);
    size_t count = n ? l.sizes[n - 1] : l.nogood_count;
    uint32_t set;
    printf(" %zu", count);
    for (size_t i = 0; i < count; i++) {
        if (reasons_member(s, n, i, &set)) broken("member");
        printf(" %u", set);
    }
    if (reasons_member(s, n, count, &set) != REASONS_PLACE) broken("a member after the last");
}

/* the line of a case, with the list of n */
static void tell(const char *title, const rules *r, uint32_t n) {
    uint8_t bytes[4096];
    size_t size = file(r, bytes);
    reasons_store s;
    uint32_t named;
    reasons_reply reply = reasons_load(&s, memcpy(lent(size), bytes, size), size, NULL, &named);
    printf("%s: %d", title, reply);
    if (reply == REASONS_LABEL) printf(" %u", named);
    if (reply == REASONS_DONE) printf(" %d", places(&s).depth), list(&s, n);
    puts("");
}

static void pairs(const char *title, unsigned count) {
    rules r = {.assumptions = 9};
    for (unsigned k = 0; k < count; k++) {
        uint32_t low, high;
        pair(k, &low, &high);
        with(&r, 0, low, high);
    }
    tell(title, &r, 0);
}

int main(void) {
    rules r = {.assumptions = 13, .claims = 1};
    singles(&r, 14, 12);
    tell("twelve singles", &r, 14);
    with(&r, 14, 13, 0);
    tell("thirteen singles", &r, 14);

    r = (rules){.assumptions = 13, .claims = 1};
    with(&r, 14, 0, 0);
    singles(&r, 14, 13);
    tell("thirteen singles and a premise", &r, 14);

    r = (rules){.assumptions = 13, .claims = 2};
    singles(&r, 14, 13);
    with(&r, 14, 15, 0);
    with(&r, 15, 0, 0);
    tell("thirteen singles and a premise one step away", &r, 14);

    r = (rules){.assumptions = 13, .claims = 1};
    with(&r, 0, 13, 0);
    singles(&r, 14, 13);
    tell("thirteen singles, one of them a nogood", &r, 14);

    pairs("thirty-two pairs", 32);
    pairs("thirty-three pairs", 33);

    r = (rules){.assumptions = 32, .claims = 96};
    for (uint32_t n = 0; n <= 128; n++) with(&r, n, before(n), 0);
    tell("a chain of 129", &r, 0);
    return 0;
}
