/* The cases of document 01, "Both sides of each limit", that add: how many are held, and what the last call answers. */
#include "common.h"

/* How many are held, what the next one answers, and the number that a refusal 8 names. */
static void next(const char *title, reasons_store s, uint32_t consequent, const uint32_t *supports, size_t count) {
    uint32_t named;
    printf("%s: %d held, then ", title, (int)places(&s).count);
    reasons_reply reply = reasons_add(&s, consequent, supports, count, &named);
    printf("%d", reply);
    if (reply == REASONS_LABEL) printf(" naming %u", named);
    puts("");
}

/* claim 14 from each of the assumptions 1 to 12 alone */
static reasons_store twelve(reasons_store s) {
    for (uint32_t i = 1; i <= 12; i++) s = added(s, 14, OF(i));
    return s;
}

/* falsity from the first so many pairs of nine assumptions */
static reasons_store pairs(unsigned count) {
    reasons_store s = opened(9, 0);
    for (unsigned k = 0; k < count; k++) {
        uint32_t low, high;
        pair(k, &low, &high);
        s = added(s, 0, OF(low, high));
    }
    return s;
}

/* 256 justifications among claims that no assumption carries */
static reasons_store crowd(void) {
    reasons_store s = opened(32, 96);
    for (uint32_t i = 0; i < 256; i++) s = added(s, 33 + i % 16, OF(49 + i / 16));
    return s;
}

int main(void) {
    next("thirteen singles", twelve(opened(13, 1)), 14, OF(13));
    next("with a premise first", twelve(added(opened(13, 1), 14, NULL, 0)), 14, OF(13));
    next("31 pairs", pairs(31), 0, OF(6, 8));
    next("32 pairs", pairs(32), 0, OF(6, 9));
    next("five equal supports", opened(1, 1), 2, OF(1, 1, 1, 1, 1));
    next("supports 2,1,2 and 1,2", added(opened(2, 1), 3, OF(2, 1, 2)), 3, OF(1, 2));
    next("256 held, one of them again", crowd(), 48, OF(64));
    next("256 held, a new one", crowd(), 48, OF(65));
    next("the stage-1 label, refused by the whole set", twelve(added(added(opened(13, 2), 15, NULL, 0), 14, OF(15))), 14, OF(13));
    return 0;
}
