/* The calls of the proved library libdoor.a, for programs in C11 or C++11 (x86-64 Linux).
   The door_* functions are the proved ones. They take the store by value and are declared for the inline functions
   below, which are what a program calls: each is one call, and a test of its reply. docs/PROMISES.md says what is
   trusted here. Every call answers for every number, store and length; a refusal changes neither the store nor anything
   else that is pointed to, but for the record and the number that a refusal names. What one argument lends may not be
   what another lends: the bytes of `out` lie apart from the list, the supports and the file. */
#ifndef REASONS_H
#define REASONS_H
#include <assert.h>
#include <stdalign.h>
#include <stdbool.h>
#include <stddef.h>
#include <stdint.h>
#include <string.h>
#ifdef __cplusplus
extern "C" {
#endif

/* A store: opaque, no pointer inside, so it may be copied, saved and read back.
   Any bytes may be handed in: what has not the right shape is refused with REASONS_SHAPE.
   No call sets the 13 bytes of padding (2 to 7 and 7,961 to 7,967); the functions below clear them in every store
   that they hand out, so two stores with the same contents have the same bytes. */
typedef struct { uint64_t opaque[996]; } reasons_store;
static_assert(sizeof(reasons_store) == 7968 && alignof(reasons_store) == 8, "the store of the library");

/* The replies, by the numbers of document 01. 10 is unused. */
typedef enum {
    REASONS_DONE = 0,
    REASONS_ALREADY = 1,   /* already held, store unchanged */
    REASONS_SHAPE = 2,     /* wrong shape of store */
    REASONS_COUNTS = 3,    /* more than 32 assumptions, or than 96 claims */
    REASONS_NUMBER = 4,    /* a number above A+M, or an assumption above A in a set */
    REASONS_FALSITY = 5,   /* falsity as a support */
    REASONS_SUPPORTS = 6,  /* more than 4 supports */
    REASONS_FULL = 7,      /* 256 held already; in a file, a count above 256 */
    REASONS_LABEL = 8,     /* a label over 12 */
    REASONS_NOGOODS = 9,   /* nogoods over 32 */
    REASONS_ENDS = 11,     /* the file ends inside the case */
    REASONS_FORM = 12,     /* bad number form */
    REASONS_AFTER = 13,    /* bytes after the last record */
    REASONS_LONG = 14,     /* more than 4,096 bytes; given by programs, and in what is printed of a file */
    REASONS_SHORT = 15,    /* lent bytes shorter than the text or context */
    REASONS_PLACE = 16,    /* no member at that place */
    REASONS_ITSELF = 17,   /* its own consequent as a support */
    REASONS_UNHELD = 18    /* not held, store unchanged */
} reasons_reply;

/* What a set is to a number, and the bytes of a context; 3 stands in contexts alone: the set is consistent, and the line says contradicted. */
typedef enum {
    REASONS_UNSUPPORTED = 0,
    REASONS_SUPPORTED = 1,
    REASONS_INCONSISTENT = 2,
    REASONS_CONTRADICTED = 3
} reasons_answer;

enum {
    REASONS_CONTEXT = 129,           /* no context has more bytes: one for each of 0 to A+M */
    REASONS_LONGEST_LINE = 2857,     /* no line of a listing is longer, its newline included */
    REASONS_LONGEST_LISTING = 141756, /* no listing is longer, and no line of a refusal */
    REASONS_LONGEST_STAGES = 53300,  /* no lines of stages are longer */
    REASONS_LONGEST_CASE = 1796      /* no case file that is written is longer */
};

/* A justification of a list: count supports, at most 4, stand in the first places; a count above 4 is refused with 6. */
typedef struct { uint32_t consequent; size_t count; uint32_t supports[4]; } reasons_item;
static_assert(sizeof(reasons_item) == 32 && offsetof(reasons_item, count) == 8 && offsetof(reasons_item, supports) == 16, "the item of the library");

/* ---- the proved functions */

typedef struct { uint32_t reply, named, record; reasons_store store; } reasons_kept;
typedef struct { uint32_t reply, answer, reason; } reasons_reasoned;
typedef struct { uint32_t reply; size_t value; } reasons_told;
static_assert(sizeof(reasons_kept) == 7984 && offsetof(reasons_kept, named) == 4 && offsetof(reasons_kept, record) == 8 && offsetof(reasons_kept, store) == 16, "a store handed out");
static_assert(sizeof(reasons_reasoned) == 12 && offsetof(reasons_reasoned, answer) == 4 && offsetof(reasons_reasoned, reason) == 8, "an answer with its reason");
static_assert(sizeof(reasons_told) == 16 && offsetof(reasons_told, value) == 8, "a number told");

/* What is asked of a bare list: what is 0 for the word of a number, 1 for the context, 2 or more for the stages; the number counts with 0 alone. */
typedef struct { uint32_t assumptions, claims, what, number, set; } reasons_asked;
static_assert(sizeof(reasons_asked) == 20 && offsetof(reasons_asked, what) == 8 && offsetof(reasons_asked, set) == 16, "the question of the library");

reasons_kept door_open(uint32_t assumptions, uint32_t claims);
reasons_kept door_load(const uint8_t *bytes, size_t length);
reasons_kept door_add(reasons_store store, uint32_t consequent, const uint32_t *supports, size_t count);
reasons_kept door_add_all(reasons_store store, const reasons_item *list, size_t items, uint8_t *out, size_t room);
reasons_kept door_withdraw(reasons_store store, uint32_t consequent, const uint32_t *supports, size_t count);
bool door_shape(reasons_store store);
reasons_reasoned door_question(reasons_store store, uint32_t n, uint32_t set);
uint32_t door_context(reasons_store store, uint32_t set, uint8_t *out, size_t room);
reasons_told door_member(reasons_store store, uint32_t n, size_t place);
reasons_told door_line(reasons_store store, uint32_t n, uint8_t *out, size_t room);
reasons_told door_case_line(reasons_store store, uint8_t *out, size_t room);
reasons_told door_listing(reasons_store store, uint8_t *out, size_t room);
reasons_told door_stages(reasons_store store, uint32_t set, uint8_t *out, size_t room);
reasons_told door_write(reasons_store store, uint8_t *out, size_t room);
reasons_told door_plain_question(reasons_store store, uint32_t n, uint32_t set);
uint32_t door_plain_context(reasons_store store, uint32_t set, uint8_t *out, size_t room);
reasons_told door_bare(reasons_asked asked, const reasons_item *list, size_t items, uint8_t *out, size_t room);
reasons_told door_refusal(uint32_t number, uint32_t record, uint8_t *out, size_t room);
reasons_told door_printed(const uint8_t *bytes, size_t length, uint8_t *out, size_t room);

/* ---- what is behind the functions below */

/* Clears the padding of a store. */
static inline void reasons_clean(reasons_store *store) {
    memset((char *)store + 2, 0, 6);
    memset((char *)store + 7961, 0, 7);
}

/* A pointer handed to the library is never null, not even one to nothing. */
static inline const void *reasons_lent(const void *p) {
    static const uint64_t nothing[4] = {0, 0, 0, 0};
    return p ? p : nothing;
}

/* So many supports; of a null pointer with a count above 0 as many zeros, at most 5, so that 5 or 6 refuses them: nothing becomes a premise by mistake. */
static inline size_t reasons_count(const uint32_t *supports, size_t count) { return supports || count < 5 ? count : 5; }

/* So many items; of a null list with a count above 0 one with too many supports, so that 6 refuses it, or 15 where it is added: nothing is answered of items that were not handed over. */
static inline size_t reasons_items(const reasons_item *list, size_t items) { return list || !items ? items : 1; }
static inline const reasons_item *reasons_list(const reasons_item *list) {
    static const reasons_item faulty = {0, 5, {0, 0, 0, 0}};
    return list ? list : &faulty;
}

static inline uint8_t *reasons_room(void *p) {
    static uint64_t nothing;
    return (uint8_t *)(p ? p : &nothing);
}

static inline reasons_reply reasons_keep(const reasons_kept *k, reasons_store *store, uint32_t *named) {
    if (k->reply == REASONS_DONE) {
        *store = k->store;
        reasons_clean(store);
    }
    if (named) *named = k->named;
    return (reasons_reply)k->reply;
}

static inline reasons_reply reasons_tell(reasons_told t, size_t *value) {
    if (t.reply == REASONS_DONE && value) *value = t.value;
    return (reasons_reply)t.reply;
}

/* ---- the calls. named, record, reason, length and written may be null; store, answer and set may not. A file and `out`
   may be null and then lend nothing, whatever length stands beside them. So may a list with no items and supports with
   no count; a null list with items is refused, with 6 or, in adding, with 15, and null supports with a count with 5 or 6. */

/* The set of one assumption, 1 to 32; join sets with |. Of any other number, which is no assumption, the empty set. */
static inline uint32_t reasons_assume(uint32_t k) { return k - 1 < 32 ? (uint32_t)1 << (k - 1) : 0; }

/* A store that holds nothing. Refused: 3. */
static inline reasons_reply reasons_open(reasons_store *store, uint32_t assumptions, uint32_t claims) {
    reasons_kept k = door_open(assumptions, claims);
    return reasons_keep(&k, store, NULL);
}

/* The store of a case file. Refused, the first fault: 11, 12; 3, 7; 6; 4, 5, 17; 13; then 9 and 8 by stage. A file of
   more than 4,096 bytes is not refused for its length here: 14 is for programs to give, before they load.
   record is set to the record being read, from 1, 0 in the header; where it is done, to the number of records in the file;
   named to the number that 8 names, else 0. */
static inline reasons_reply reasons_load(reasons_store *store, const void *bytes, size_t length, uint32_t *record, uint32_t *named) {
    reasons_kept k = door_load((const uint8_t *)reasons_lent(bytes), bytes ? length : 0);
    if (record) *record = k.record;
    return reasons_keep(&k, store, named);
}

/* Adds a justification. Refused: 2, 6, 4, 5, 17, 1, 7, then 9 and 8 by stage; 1 says that it is held already.
   named is set to the number that 8 names, else to 0; here and in withdrawing. */
static inline reasons_reply reasons_add(reasons_store *store, uint32_t consequent, const uint32_t *supports, size_t count, uint32_t *named) {
    reasons_kept k = door_add(*store, consequent, (const uint32_t *)reasons_lent(supports), reasons_count(supports, count));
    return reasons_keep(&k, store, named);
}

/* Adds the items of a list in their order, each refused one passed over; a byte for each receives its reply, later bytes are kept.
   Refused: 2, 15; a null list with items lends no byte for a reply, and so is 15. Done says that the list was gone through, not that an item was added: its byte says that. An 8 names no number here. */
static inline reasons_reply reasons_add_all(reasons_store *store, const reasons_item *list, size_t items, uint8_t *out, size_t room) {
    reasons_kept k = door_add_all(*store, reasons_list(list), reasons_items(list, items), reasons_room(out), out && (list || !items) ? room : 0);
    return reasons_keep(&k, store, NULL);
}

/* Withdraws a justification. Refused: 2, 6, 4, 5, 17, 18, then 9 and 8 by stage. */
static inline reasons_reply reasons_withdraw(reasons_store *store, uint32_t consequent, const uint32_t *supports, size_t count, uint32_t *named) {
    reasons_kept k = door_withdraw(*store, consequent, (const uint32_t *)reasons_lent(supports), reasons_count(supports, count));
    return reasons_keep(&k, store, named);
}

/* Whether the store has the right shape. Refuses nothing. */
static inline bool reasons_shape(const reasons_store *store) { return door_shape(*store); }

/* What the set is to n; reason is the nogood or the member that makes it so, and 0 if unsupported. A reason 0 beside
   another answer is the empty set: it holds from nothing. Refused: 2, 4. */
static inline reasons_reply reasons_question(const reasons_store *store, uint32_t n, uint32_t set, reasons_answer *answer, uint32_t *reason) {
    reasons_reasoned r = door_question(*store, n, set);
    if (r.reply == REASONS_DONE) {
        *answer = (reasons_answer)r.answer;
        if (reason) *reason = r.reason;
    }
    return (reasons_reply)r.reply;
}

/* A byte for each of 0 to A+M, later bytes kept. Refused: 2, 4, 15. */
static inline reasons_reply reasons_context(const reasons_store *store, uint32_t set, uint8_t *out, size_t room) {
    return (reasons_reply)door_context(*store, set, reasons_room(out), out ? room : 0);
}

/* The set at a place, from 0, of n's label; of the nogoods for n = 0. Refused: 2, 4, 16. */
static inline reasons_reply reasons_member(const reasons_store *store, uint32_t n, size_t place, uint32_t *set) {
    reasons_told t = door_member(*store, n, place);
    if (t.reply == REASONS_DONE) *set = (uint32_t)t.value;
    return (reasons_reply)t.reply;
}

/* The line of n, its newline included, not ended by a zero. Refused: 2, 4, 15. */
static inline reasons_reply reasons_line(const reasons_store *store, uint32_t n, char *out, size_t room, size_t *length) {
    return reasons_tell(door_line(*store, n, reasons_room(out), out ? room : 0), length);
}

/* The first line of the listing. Refused: 2, 15. */
static inline reasons_reply reasons_case_line(const reasons_store *store, char *out, size_t room, size_t *length) {
    return reasons_tell(door_case_line(*store, reasons_room(out), out ? room : 0), length);
}

/* The whole listing. Refused: 2, 15. */
static inline reasons_reply reasons_listing(const reasons_store *store, char *out, size_t room, size_t *length) {
    return reasons_tell(door_listing(*store, reasons_room(out), out ? room : 0), length);
}

/* The case file of what is held: each justification once, in order, each number in its shortest form. Refused: 2, 15. */
static inline reasons_reply reasons_write(const reasons_store *store, void *out, size_t room, size_t *length) {
    return reasons_tell(door_write(*store, reasons_room(out), out ? room : 0), length);
}

/* One line a stage from 0: the stage, then every number that followed from the set by then. Refused: 2, 4, 15. */
static inline reasons_reply reasons_stages(const reasons_store *store, uint32_t set, char *out, size_t room, size_t *length) {
    return reasons_tell(door_stages(*store, set, reasons_room(out), out ? room : 0), length);
}

/* The question and the context without labels, from the justifications alone; no reason, and 0 in place of 3. Refused: 2, 4; 2, 4, 15. */
static inline reasons_reply reasons_plain_question(const reasons_store *store, uint32_t n, uint32_t set, reasons_answer *answer) {
    reasons_told t = door_plain_question(*store, n, set);
    if (t.reply == REASONS_DONE) *answer = (reasons_answer)t.value;
    return (reasons_reply)t.reply;
}
static inline reasons_reply reasons_plain_context(const reasons_store *store, uint32_t set, uint8_t *out, size_t room) {
    return (reasons_reply)door_plain_context(*store, set, reasons_room(out), out ? room : 0);
}

/* The plain question, the context and the stages of a list of any number of items, in no store. The first fault refuses:
   3, then each item in order by 6, 4, 5, 17, then 4 for the number or the set asked, then, but for the question, 15. */
static inline reasons_reply reasons_bare_question(uint32_t assumptions, uint32_t claims, const reasons_item *list, size_t items, uint32_t n, uint32_t set, reasons_answer *answer) {
    reasons_asked asked = {assumptions, claims, 0, n, set};
    reasons_told t = door_bare(asked, reasons_list(list), reasons_items(list, items), reasons_room(NULL), 0);
    if (t.reply == REASONS_DONE) *answer = (reasons_answer)t.value;
    return (reasons_reply)t.reply;
}
static inline reasons_reply reasons_bare_context(uint32_t assumptions, uint32_t claims, const reasons_item *list, size_t items, uint32_t set, uint8_t *out, size_t room) {
    reasons_asked asked = {assumptions, claims, 1, 0, set};
    return (reasons_reply)door_bare(asked, reasons_list(list), reasons_items(list, items), reasons_room(out), out ? room : 0).reply;
}
static inline reasons_reply reasons_bare_stages(uint32_t assumptions, uint32_t claims, const reasons_item *list, size_t items, uint32_t set, char *out, size_t room, size_t *length) {
    reasons_asked asked = {assumptions, claims, 2, 0, set};
    return reasons_tell(door_bare(asked, reasons_list(list), reasons_items(list, items), reasons_room(out), out ? room : 0), length);
}

/* The line of a refusal and of a record, as the listing program prints it; 30 bytes always do. Refused: 15. */
static inline reasons_reply reasons_refusal(reasons_reply reply, uint32_t record, char *out, size_t room, size_t *length) {
    return reasons_tell(door_refusal((uint32_t)reply, record, reasons_room(out), out ? room : 0), length);
}

/* What the listing program prints of the bytes of a file: the listing, or the refusal's line. Refused: 15. */
static inline reasons_reply reasons_printed(const void *bytes, size_t length, char *out, size_t room, size_t *written) {
    return reasons_tell(door_printed((const uint8_t *)reasons_lent(bytes), bytes ? length : 0, reasons_room(out), out ? room : 0), written);
}
#ifdef __cplusplus
}
#endif
#endif
