/* A list of three items into lent bytes that are one too few, just enough and more; into a store of wrong shape; a list of none; and counts above four. */
#include "common.h"

/* 3 from 1; four supports where the count says five; 3 from 2. */
static const reasons_item three[3] = {{3, 1, {1}}, {3, 5, {1, 1, 1, 1}}, {3, 1, {2}}};

/* A number above A+M, falsity and its own consequent among the supports, with counts above four; then the first again with a count of four. */
static const reasons_item many[3] = {{300, 5, {300}}, {3, SIZE_MAX, {3, 3, 3, 3}}, {300, 4, {300}}};

/* The reply, how many justifications the store holds that is handed back, and the bytes, 46 at first, of which the call is lent the first so many. */
static void season(const char *title, reasons_store s, const reasons_item *list, size_t items, size_t room, size_t shown) {
    reasons_item *handed = memcpy(lent(items * sizeof *list), list, items * sizeof *list);
    uint8_t *bytes = filled(shown, 46);
    reasons_kept k = door_add_all(s, handed, items, bytes, room);
    printf("%s replied %u, %d held:", title, k.reply, (int)places(&k.store).count);
    numbers(bytes, shown);

    reasons_store after = s;
    uint8_t *again = filled(shown, 46);
    if (reasons_add_all(&after, handed, items, again, room) != k.reply || memcmp(again, bytes, shown)) broken("the replies through the header");
    reasons_clean(&k.store);
    if (memcmp(&after, k.reply ? &s : &k.store, sizeof s)) broken("the store through the header");
}

int main(void) {
    reasons_store s = opened(2, 1);
    season("2 bytes", s, three, 3, 2, 2);
    season("3 bytes", s, three, 3, 3, 3);
    season("5 bytes", s, three, 3, 5, 5);
    season("wrong shape", counting(s, 2, 97), three, 3, 2, 2); /* and too few bytes: 2 comes before 15 */
    season("no items, no bytes", s, three, 0, 0, 1);
    season("counts above four", s, many, 3, 3, 3);
    return 0;
}
