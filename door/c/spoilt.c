/* spoilt FILE N [SEED]: N stores, most of them spoilt copies of FILE's, through every call that takes a store, and as many
   lists, faulty and not, through those of a bare list. The right shape, and what the lists say, are worked out here from
   the documents; each call must answer 2 where the shape is wrong and what the lists say where it is right, its texts and
   bytes included; each list its first fault, or what follows by it. Of adding and withdrawing the reply and what is then
   held are worked out, but for whether 8 or 9 is due; with few assumptions these too, and the lists and the depth of the
   store that is handed out, by trying every set. Every lent range ends at a page that may not be touched. */
#define _GNU_SOURCE
#include "runs/common.h"

static uint64_t state = 1;
static uint32_t draw(uint32_t below) {
    state ^= state << 13, state ^= state >> 7, state ^= state << 17;
    return (uint32_t)(state >> 16) % below;
}

static _Noreturn void fails(const char *what, long i) {
    fprintf(stderr, "store %ld: %s\n", i, what);
    exit(1);
}

/* ---- the right shape, by document 01 */

static bool before(uint32_t a, uint32_t b) {
    int x = __builtin_popcount(a), y = __builtin_popcount(b);
    return x < y || (x == y && a < b);
}

static bool right_list(const uint32_t *l, uint64_t count, uint64_t places, unsigned assumptions) {
    for (uint64_t i = 0; i < places; i++) {
        if (i >= count && l[i]) return false;
        if (i < count && ((uint64_t)l[i] >> assumptions)) return false;
        if (i + 1 < count && !before(l[i], l[i + 1])) return false;
        for (uint64_t j = 0; i < count && j < i; j++)
            if ((l[j] & l[i]) == l[j]) return false;
    }
    return true;
}

static int compare(const uint8_t *a, const uint8_t *b) {
    if (a[0] != b[0]) return a[0] - b[0];
    if (a[1] != b[1]) return a[1] - b[1];
    return memcmp(a + 2, b + 2, a[1]);
}

static bool right_entry(const uint8_t *e, unsigned top) {
    if (e[0] > top || e[1] > 4) return false;
    for (int k = 0; k < 4; k++) {
        if (k >= e[1] && e[2 + k]) return false;
        if (k < e[1] && (e[2 + k] == 0 || e[2 + k] > top || e[2 + k] == e[0] || (k && e[1 + k] >= e[2 + k]))) return false;
    }
    return true;
}

static bool right(const layout *s) {
    unsigned top = s->assumptions + s->claims;
    if (s->assumptions > 32 || s->claims > 96 || s->count > 256 || s->nogood_count > 32 || s->depth > 129) return false;
    for (uint64_t i = 0; i < 256; i++) {
        if (i >= s->count && memcmp(s->entries[i], "\0\0\0\0\0", 6)) return false;
        if (i < s->count && !right_entry(s->entries[i], top)) return false;
        if (i + 1 < s->count && compare(s->entries[i], s->entries[i + 1]) >= 0) return false;
    }
    for (unsigned n = 1; n <= 128; n++) {
        if (s->sizes[n - 1] > 12 || (n > top && s->sizes[n - 1])) return false;
        if (!right_list(s->members[n - 1], s->sizes[n - 1], 12, s->assumptions)) return false;
    }
    return right_list(s->nogoods, s->nogood_count, 32, s->assumptions);
}

/* ---- what the lists say */

static uint64_t first(const uint32_t *l, uint64_t count, uint32_t set) {
    uint64_t i = 0;
    while (i < count && (l[i] & set) != l[i]) i++;
    return i;
}

static reasons_answer says(const layout *s, uint32_t n, uint32_t set, uint32_t *reason) {
    uint64_t i = first(s->nogoods, s->nogood_count, set), size = n ? s->sizes[n - 1] : 0;
    *reason = 0;
    if (i < s->nogood_count) return *reason = s->nogoods[i], REASONS_INCONSISTENT;
    i = n ? first(s->members[n - 1], size, set) : 0;
    if (i < size) return *reason = s->members[n - 1][i], REASONS_SUPPORTED;
    return REASONS_UNSUPPORTED;
}

/* which numbers follow from the set by the justifications, falsity ignored or not: the fixed point */
static void follow(const layout *s, uint32_t set, bool *follows) {
    memset(follows, 0, 129);
    for (unsigned k = 1; k <= s->assumptions; k++) follows[k] = set >> (k - 1) & 1;
    for (bool more = true; more;) {
        more = false;
        for (uint64_t i = 0; i < s->count; i++) {
            const uint8_t *e = s->entries[i];
            bool all = !follows[e[0]];
            for (int k = 0; all && k < e[1]; k++) all = follows[e[2 + k]];
            if (all) follows[e[0]] = more = true;
        }
    }
}

/* the byte of a context: the answer, or 3 where the set is consistent, the label empty, and n follows from all assumptions together */
static uint8_t byte(const layout *s, uint32_t n, uint32_t set, const bool *follows) {
    uint32_t why;
    reasons_answer a = says(s, n, set, &why);
    return a == REASONS_UNSUPPORTED && n && !s->sizes[n - 1] && follows[n] ? REASONS_CONTRADICTED : a;
}

static uint8_t plain(uint32_t n, const bool *follows) { return follows[0] ? REASONS_INCONSISTENT : follows[n] ? REASONS_SUPPORTED : REASONS_UNSUPPORTED; }

static long counts[32];
static uint8_t *lent_end;
static uint32_t *supports;
enum { LISTED = 40 };
static reasons_item *item, *listed;

/* ---- the texts and the case file */

static char wanted[REASONS_LONGEST_LISTING + 1];

static size_t set_text(char *at, uint32_t set) {
    size_t size = (size_t)sprintf(at, " {");
    for (unsigned k = 1; k <= 32; k++)
        if (set >> (k - 1) & 1) size += (size_t)sprintf(at + size, size > 2 ? ",%u" : "%u", k);
    return size + (size_t)sprintf(at + size, "}");
}

/* the line of n: its number, its word, its members; all are the numbers that follow from all assumptions together */
static size_t line_text(const layout *s, uint32_t n, const bool *all, char *at) {
    uint64_t count = n ? s->sizes[n - 1] : s->nogood_count;
    const uint32_t *list = n ? s->members[n - 1] : s->nogoods;
    size_t size = (size_t)sprintf(at, "%u %s", n, !n ? "nogood" : count ? "supported" : all[n] ? "contradicted" : "unsupported");
    for (uint64_t i = 0; i < count; i++) size += set_text(at + size, list[i]);
    return size + (size_t)sprintf(at + size, "\n");
}

static size_t case_text(const layout *s, char *at) { return (size_t)sprintf(at, "case %u %u %u %u\n", s->assumptions, s->claims, (unsigned)s->count, s->depth); }

static size_t listing_text(const layout *s, const bool *all, char *at) {
    size_t size = case_text(s, at);
    for (uint32_t n = 0; n <= (uint32_t)(s->assumptions + s->claims); n++) size += line_text(s, n, all, at + size);
    return size;
}

static char *number(char *at, unsigned n) {
    if (n < 128) return *at = (char)n, at + 1;
    return at[0] = (char)(n % 128 + 128), at[1] = (char)(n / 128), at + 2;
}

/* A, M, the count, then each justification: consequent, number of supports, supports */
static size_t file_bytes(const layout *s, char *out) {
    char *at = number(number(number(out, s->assumptions), s->claims), (unsigned)s->count);
    for (uint64_t i = 0; i < s->count; i++) {
        at = number(number(at, s->entries[i][0]), s->entries[i][1]);
        for (int k = 0; k < s->entries[i][1]; k++) at = number(at, s->entries[i][2 + k]);
    }
    return (size_t)(at - out);
}

/* a line for each stage, up to the last with something new; the justifications as items */
static size_t stages_text(const reasons_item *list, size_t items, uint32_t assumptions, uint32_t top, uint32_t set, char *at) {
    bool now[129] = {false}, next[129];
    size_t size = 0;
    for (uint32_t k = 1; k <= assumptions; k++) now[k] = set >> (k - 1) & 1;
    for (unsigned stage = 0;; stage++) {
        size += (size_t)sprintf(at + size, "%u", stage);
        for (uint32_t n = 0; n <= top; n++)
            if (now[n]) size += (size_t)sprintf(at + size, " %u", n);
        size += (size_t)sprintf(at + size, "\n");
        memcpy(next, now, sizeof next);
        for (size_t i = 0; i < items; i++) {
            bool all = true;
            for (size_t k = 0; all && k < list[i].count; k++) all = now[list[i].supports[k]];
            if (all) next[list[i].consequent] = true;
        }
        if (!memcmp(now, next, sizeof next)) return size;
        memcpy(now, next, sizeof now);
    }
}

/* what is held, as items */
static size_t held_items(const layout *s, reasons_item *to) {
    for (uint64_t i = 0; i < s->count; i++) {
        to[i] = (reasons_item){.consequent = s->entries[i][0], .count = s->entries[i][1]};
        for (int k = 0; k < 4; k++) to[i].supports[k] = s->entries[i][2 + k];
    }
    return s->count;
}

/* room bytes at the end of what may be touched, each of them 9 */
static uint8_t *room_of(size_t room) { return (uint8_t *)memset(lent_end - room, 9, room); }

/* about as many bytes as are wanted: one less, as many, or a few more */
static size_t about(size_t size) { return size + draw(5) - (size ? 1 : 0); }

/* The reply to a call that writes into the last room bytes: it was refused already, or 15, and then no byte is written; else what is wanted, and the later bytes kept. */
static void writes(reasons_reply got, reasons_reply refused, size_t room, const size_t *length, size_t size, const char *what, long i) {
    reasons_reply want = refused ? refused : room < size ? REASONS_SHORT : REASONS_DONE;
    size_t kept = want ? 0 : size;
    counts[got]++;
    if (got != want || (!want && (*length != size || memcmp(lent_end - room, wanted, size)))) fails(what, i);
    for (size_t k = kept; k < room; k++)
        if ((lent_end - room)[k] != 9) fails(what, i);
}

static reasons_reply met(reasons_reply r) {
    counts[r]++;
    return r;
}

static void reads(const reasons_store *store, const layout *s, bool ok, long i) {
    unsigned top = s->assumptions + s->claims;
    uint32_t n = draw(3) ? draw(top + 2) : draw(300), set = draw(2) ? draw(64) : (uint32_t)state, place = draw(14), reason, why, member;
    bool within = s->assumptions >= 32 || !(set >> s->assumptions), all[129] = {false}, some[129] = {false};
    size_t length = 0, size = 0, room;
    reasons_answer answer;
    static reasons_item held[256];
    if (ok) follow(s, s->assumptions ? ~(uint32_t)0 >> (32 - s->assumptions) : 0, all);
    if (ok && within) follow(s, set, some);

    reasons_reply shape = ok ? REASONS_DONE : REASONS_SHAPE, asked = !ok ? REASONS_SHAPE : !within ? REASONS_NUMBER : REASONS_DONE;
    reasons_reply want = asked ? asked : n > top ? REASONS_NUMBER : REASONS_DONE;
    if (met(reasons_question(store, n, set, &answer, &reason)) != want) fails("question", i);
    if (!want && (says(s, n, set, &why) != answer || why != reason)) fails("question's answer", i);
    if (met(reasons_plain_question(store, n, set, &answer)) != want || (!want && answer != plain(n, some))) fails("plain question", i);

    if (!asked)
        for (unsigned k = 0; k <= top; k++) wanted[k] = (char)byte(s, k, set, all);
    room = about(size = asked ? 0 : top + 1);
    writes(reasons_context(store, set, room_of(room), room), asked, room, &size, size, "context", i);
    if (!asked)
        for (unsigned k = 0; k <= top; k++) wanted[k] = (char)plain(k, some);
    writes(reasons_plain_context(store, set, room_of(room), room), asked, room, &size, size, "plain context", i);
    size = asked ? 0 : stages_text(held, held_items(s, held), s->assumptions, top, set, wanted), room = about(size);
    writes(reasons_stages(store, set, (char *)room_of(room), room, &length), asked, room, &length, size, "stages", i);

    uint64_t members = n == 0 ? s->nogood_count : n <= 128 ? s->sizes[n - 1] : 0;
    want = !ok ? REASONS_SHAPE : n > top ? REASONS_NUMBER : place >= members ? REASONS_PLACE : REASONS_DONE;
    if (met(reasons_member(store, n, place, &member)) != want) fails("member", i);
    if (!want && member != (n ? s->members[n - 1][place] : s->nogoods[place])) fails("member's set", i);

    want = !ok ? REASONS_SHAPE : n > top ? REASONS_NUMBER : REASONS_DONE;
    size = want ? 0 : line_text(s, n, all, wanted), room = about(size);
    writes(reasons_line(store, n, (char *)room_of(room), room, &length), want, room, &length, size, "line", i);
    size = shape ? 0 : case_text(s, wanted), room = about(size);
    writes(reasons_case_line(store, (char *)room_of(room), room, &length), shape, room, &length, size, "first line", i);
    size = shape ? 0 : listing_text(s, all, wanted), room = about(size);
    writes(reasons_listing(store, (char *)room_of(room), room, &length), shape, room, &length, size, "listing", i);
    size = shape ? 0 : file_bytes(s, wanted), room = about(size);
    writes(reasons_write(store, room_of(room), room, &length), shape, room, &length, size, "case file", i);
}

/* ---- a bare list */

static reasons_reply fault(const reasons_item *h, uint32_t top) {
    if (h->count > 4) return REASONS_SUPPORTS;
    bool above = h->consequent > top, zero = false, itself = false;
    for (size_t k = 0; k < h->count; k++) {
        above |= h->supports[k] > top;
        zero |= !h->supports[k];
        itself |= h->supports[k] == h->consequent;
    }
    return above ? REASONS_NUMBER : zero ? REASONS_FALSITY : itself ? REASONS_ITSELF : REASONS_DONE;
}

/* what follows from the set by the items: the fixed point */
static void follow_list(const reasons_item *list, size_t items, uint32_t assumptions, uint32_t set, bool *follows) {
    memset(follows, 0, 129);
    for (uint32_t k = 1; k <= assumptions; k++) follows[k] = set >> (k - 1) & 1;
    for (bool more = true; more;) {
        more = false;
        for (size_t i = 0; i < items; i++) {
            bool all = !follows[list[i].consequent];
            for (size_t k = 0; all && k < list[i].count; k++) all = follows[list[i].supports[k]];
            if (all) follows[list[i].consequent] = more = true;
        }
    }
}

static void bares(const layout *s, long i) {
    uint32_t assumptions = draw(16) ? s->assumptions : draw(40), claims = draw(16) ? s->claims : draw(110), top = assumptions + claims;
    size_t items = draw(LISTED + 1), room, size, length = 0;
    reasons_item *list = listed + LISTED - items;
    reasons_reply want = assumptions > 32 || claims > 96 ? REASONS_COUNTS : REASONS_DONE;
    for (size_t k = 0; k < items; k++) {
        const uint8_t *e = s->entries[draw(256)];
        if (draw(4)) e = s->entries[draw(s->count && s->count <= 256 ? (uint32_t)s->count : 1)];
        list[k] = (reasons_item){.consequent = draw(64) ? e[0] : draw(300), .count = draw(64) ? e[1] : draw(7), .supports = {e[2], e[3], e[4], e[5]}};
        if (!draw(64)) list[k].supports[draw(4)] = draw(300);
        if (!want) want = fault(&list[k], top);
    }
    uint32_t n = draw(3) ? draw(top + 2) : draw(300), set = draw(2) ? draw(64) : (uint32_t)state;
    bool within = assumptions >= 32 || !(set >> assumptions), follows[129];
    reasons_answer answer;
    if (!want && within) follow_list(list, items, assumptions, set, follows);
    reasons_reply asked = want ? want : within ? REASONS_DONE : REASONS_NUMBER;
    want = asked ? asked : n > top ? REASONS_NUMBER : REASONS_DONE;
    if (met(reasons_bare_question(assumptions, claims, list, items, n, set, &answer)) != want || (!want && answer != plain(n, follows))) fails("bare question", i);
    if (!asked)
        for (uint32_t k = 0; k <= top; k++) wanted[k] = (char)plain(k, follows);
    room = about(size = asked ? 0 : top + 1);
    writes(reasons_bare_context(assumptions, claims, list, items, set, room_of(room), room), asked, room, &size, size, "bare context", i);
    size = asked ? 0 : stages_text(list, items, assumptions, top, set, wanted), room = about(size);
    writes(reasons_bare_stages(assumptions, claims, list, items, set, (char *)room_of(room), room, &length), asked, room, &length, size, "bare stages", i);
}

/* ---- a store changed */

/* a justification as it is held: its supports rising, each once */
static void entry_of(uint8_t *e, uint32_t consequent, const uint32_t *of, uint32_t count) {
    memset(e, 0, 6);
    e[0] = (uint8_t)consequent;
    for (uint32_t n = 1; n <= 128; n++)
        for (uint32_t k = 0; k < count; k++)
            if (of[k] == n) {
                e[2 + e[1]++] = (uint8_t)n;
                break;
            }
}

/* the place of the first that is not before it */
static uint64_t place_of(const layout *s, const uint8_t *e) {
    uint64_t at = 0;
    while (at < s->count && compare(s->entries[at], e) < 0) at++;
    return at;
}

/* with the justification put in at its place, or taken out from there */
static layout holding(layout s, const uint8_t *e, bool in) {
    uint64_t at = place_of(&s, e), rest = s.count - at;
    if (in) {
        memmove(s.entries[at + 1], s.entries[at], rest * 6);
        memcpy(s.entries[at], e, 6);
        s.count++;
    } else {
        memmove(s.entries[at], s.entries[at + 1], (rest - 1) * 6);
        memset(s.entries[--s.count], 0, 6);
    }
    return s;
}

enum { FEW = 4 };
typedef bool followed[1 << FEW][129];

/* the sets from which n follows, no proper subset with it: of a label those from which falsity does not */
static uint64_t smallest(followed f, unsigned sets, uint32_t n, uint32_t *to) {
    uint64_t count = 0;
    for (unsigned size = 0; size <= FEW; size++)
        for (unsigned e = 0; e < sets; e++) {
            bool least = f[e][n] && !(n && f[e][0]) && (unsigned)__builtin_popcount(e) == size;
            for (unsigned d = 0; least && d < e; d++) least = (d & e) != d || !f[d][n];
            if (least) to[count++] = e;
        }
    return count;
}

/* the lists of a stage in their places */
static void lists_of(layout *s, followed f) {
    unsigned sets = 1u << s->assumptions;
    memset(s->sizes, 0, sizeof s->sizes), memset(s->members, 0, sizeof s->members), memset(s->nogoods, 0, sizeof s->nogoods);
    s->nogood_count = smallest(f, sets, 0, s->nogoods);
    for (uint32_t n = 1; n <= (uint32_t)(s->assumptions + s->claims); n++) s->sizes[n - 1] = (uint8_t)smallest(f, sets, n, s->members[n - 1]);
}

/* The store of what is held with at most four assumptions: stage by stage, every set tried, until two agree. No list is over: none has more than six. */
static layout judged(layout s) {
    static followed now, next;
    memset(now, 0, sizeof now);
    for (unsigned e = 0; e < 1u << s.assumptions; e++)
        for (unsigned k = 1; k <= s.assumptions; k++) now[e][k] = e >> (k - 1) & 1;
    lists_of(&s, now);
    memset(s.pad, 0, 6), memset(s.tail, 0, 7);
    for (s.depth = 0;; s.depth++) {
        memcpy(next, now, sizeof now);
        for (unsigned e = 0; e < 1u << s.assumptions; e++)
            for (uint64_t i = 0; i < s.count; i++) {
                bool all = true;
                for (int k = 0; all && k < s.entries[i][1]; k++) all = now[e][s.entries[i][2 + k]];
                if (all) next[e][s.entries[i][0]] = true;
            }
        layout later = s;
        lists_of(&later, next);
        if (!memcmp(&later, &s, sizeof s)) return s;
        later.depth = s.depth;
        s = later;
        memcpy(now, next, sizeof now);
    }
}

/* whether the bytes that no call sets are clear */
static bool clean(const reasons_store *store) {
    layout s;
    memcpy(&s, store, sizeof s);
    return !memcmp(s.pad, "\0\0\0\0\0", 6) && !memcmp(s.tail, "\0\0\0\0\0\0", 7);
}

/* A change answered 0: the store holds what it should, has the right shape and clean padding, and with few assumptions the lists and the depth worked out. */
static void stands(const reasons_store *after, const layout *held, const char *what, long i) {
    layout now = places(after);
    if (now.assumptions != held->assumptions || now.claims != held->claims || now.count != held->count || memcmp(now.entries, held->entries, sizeof now.entries)) fails(what, i);
    if (!right(&now) || !clean(after)) fails(what, i);
    if (now.assumptions > FEW) return;
    layout want = judged(*held);
    if (memcmp(&want, after, sizeof want)) fails(what, i);
}

static void changes(const reasons_store *store, const layout *s, bool ok, long i) {
    reasons_store after = *store;
    uint32_t count = draw(4), n = draw(4) ? draw(s->assumptions + s->claims + 1u) : draw(300), named;
    uint32_t *handed = supports;
    for (uint32_t k = 0; k < 4; k++) supports[k] = draw(8) ? 1 + draw(8) : draw(300);
    if (draw(2) && s->count && s->count <= 256) { /* one that is held */
        const uint8_t *e = s->entries[draw((uint32_t)s->count)];
        n = e[0], count = e[1] <= 4 ? e[1] : 4;
        handed = supports + 4 - count;
        for (uint32_t k = 0; k < count; k++) handed[k] = e[2 + k];
    } else handed += 4 - count;
    *item = (reasons_item){.consequent = n, .count = count};
    for (uint32_t k = 0; k < count; k++) item->supports[k] = handed[k];

    uint8_t e[6];
    entry_of(e, n, handed, count);
    reasons_reply first = !ok ? REASONS_SHAPE : fault(item, s->assumptions + s->claims);
    uint64_t at = first ? 0 : place_of(s, e);
    bool held = !first && at < s->count && !compare(s->entries[at], e), few = s->assumptions <= FEW;
    reasons_reply want = first ? first : held ? REASONS_ALREADY : s->count == 256 ? REASONS_FULL : REASONS_DONE;
    reasons_reply r = met(reasons_add(&after, n, handed, count, &named));
    if (r != want && (want || few || (r != REASONS_LABEL && r != REASONS_NOGOODS))) fails("add", i);
    if ((r == REASONS_LABEL) != (named > 0)) fails("the number that adding names", i);
    layout with = *s;
    if (!r) with = holding(*s, e, true), stands(&after, &with, "add's store", i);
    else if (memcmp(&after, store, sizeof after)) fails("add's refusal", i);

    reasons_store one = *store, was = *store;
    bool lent_one = draw(8);
    if (!draw(8)) item->count = 5 + draw(300);
    uint8_t *byte_of = room_of(lent_one);
    reasons_reply all = met(reasons_add_all(&one, item, 1, byte_of, lent_one));
    if (all != (!ok ? REASONS_SHAPE : !lent_one ? REASONS_SHORT : REASONS_DONE)) fails("add_all", i);
    if (!all && *byte_of != (item->count > 4 ? REASONS_SUPPORTS : r)) fails("add_all's byte", i);
    if (all && lent_one && *byte_of != 9) fails("add_all's byte kept", i);
    if (!all) reasons_clean(&was);
    if (memcmp(&one, !all && !*byte_of ? &after : &was, sizeof one)) fails("add_all's store", i);

    after = *store;
    want = first ? first : held ? REASONS_DONE : REASONS_UNHELD;
    r = met(reasons_withdraw(&after, n, handed, count, &named));
    if (r != want && (want || few || (r != REASONS_LABEL && r != REASONS_NOGOODS))) fails("withdraw", i);
    if ((r == REASONS_LABEL) != (named > 0)) fails("the number that withdrawing names", i);
    if (!r) with = holding(*s, e, false), stands(&after, &with, "withdraw's store", i);
    else if (memcmp(&after, store, sizeof after)) fails("withdraw's refusal", i);
}

/* Spoils a few bytes, most of them near the counts, or all of them; every fifth store is left whole or has its lists exchanged for others of right shape. */
static void spoil(reasons_store *store, long i) {
    layout s;
    memcpy(&s, store, sizeof s);
    uint8_t *bytes = (uint8_t *)&s;
    switch (i % 10) {
        case 0: for (size_t k = 0; k < sizeof s; k++) bytes[k] = (uint8_t)draw(256); break;
        case 1: break;
        case 2: s.sizes[draw(64)] = (uint8_t)draw(2), s.depth = (uint8_t)draw(131); break;
        case 3: if (s.nogood_count) s.nogoods[--s.nogood_count] = 0; break;
        case 4: s.sizes[s.assumptions] = 1, memset(s.members[s.assumptions], 0, 48); break;
        case 5: bytes[draw(16)] = (uint8_t)draw(256); break;
        case 6: bytes[16 + draw(1536)] ^= (uint8_t)(1u << draw(8)); break;
        case 7: bytes[1552 + draw(6416)] ^= (uint8_t)(1u << draw(8)); break;
        default: for (uint32_t k = draw(3); k < 3; k++) bytes[draw(sizeof s)] = (uint8_t)draw(4); break;
    }
    memcpy(store, &s, sizeof s);
}

int main(int argc, char **argv) {
    if (argc < 3) return 2;
    if (argc > 3) state = 2 * strtoull(argv[3], NULL, 10) + 1;
    FILE *f = fopen(argv[1], "rb");
    uint8_t file[4096];
    size_t size = f ? fread(file, 1, sizeof file, f) : 0;
    uint8_t *bytes = lent(size);
    memcpy(bytes, file, size);
    reasons_store whole, s;
    if (reasons_load(&whole, bytes, size, NULL, NULL)) return 2;
    lent_end = (uint8_t *)lent(REASONS_LONGEST_LISTING + 8) + REASONS_LONGEST_LISTING + 8;
    supports = lent(16), item = lent(32), listed = lent(LISTED * sizeof *listed);
    long stood = 0, all = atol(argv[2]);
    for (long i = 0; i < all; i++) {
        layout l;
        s = whole;
        spoil(&s, i);
        memcpy(&l, &s, sizeof l);
        bool ok = right(&l);
        stood += ok;
        if (reasons_shape(&s) != ok) fails("the shape", i);
        reads(&s, &l, ok, i);
        changes(&s, &l, ok, i);
        bares(&l, i);
    }
    printf("%ld stores, %ld of right shape; replies", all, stood);
    for (int k = 0; k < 32; k++)
        if (counts[k]) printf(" %d:%ld", k, counts[k]);
    puts("");
    return stood > 0 && stood < all ? 0 : 1;
}
