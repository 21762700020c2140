/* The sowing of README by calls: prints its listing; then asks, withdraws, and is refused. */
#include "reasons.h"
#include <stdio.h>

static int fails(const char *what) { return fprintf(stderr, "not as it should be: %s\n", what), 1; }

int main(void) {
    static const struct { uint32_t consequent, count, supports[2]; } rules[] = {
        {0, 2, {2, 3}}, {4, 1, {1}}, {5, 1, {2}}, {6, 2, {3, 4}}, {7, 2, {3, 5}}, {0, 2, {1, 2}},
    };
    const uint32_t utc_and_slip = reasons_assume(1) | reasons_assume(3), local_and_slip = reasons_assume(2) | reasons_assume(3);
    static char text[REASONS_LONGEST_LISTING];
    size_t length;
    reasons_store s, before;
    reasons_answer answer;
    uint32_t reason, set, named;
    uint8_t bytes[10] = {9, 9, 9, 9, 9, 9, 9, 9, 9, 9};

    if (reasons_open(&s, 3, 4) != REASONS_DONE) return fails("open");
    for (size_t i = 0; i < sizeof rules / sizeof *rules; i++)
        if (reasons_add(&s, rules[i].consequent, rules[i].supports, rules[i].count, NULL) != REASONS_DONE) return fails("add");
    if (reasons_listing(&s, text, sizeof text, &length) != REASONS_DONE) return fails("listing");
    fwrite(text, 1, length, stdout);

    if (reasons_question(&s, 6, utc_and_slip, &answer, &reason) || answer != REASONS_SUPPORTED || reason != utc_and_slip) return fails("14 April");
    if (reasons_question(&s, 7, local_and_slip, &answer, &reason) || answer != REASONS_INCONSISTENT || reason != local_and_slip) return fails("15 April");
    if (reasons_question(&s, 7, reasons_assume(2), &answer, &reason) || answer != REASONS_UNSUPPORTED || reason != 0) return fails("without the slip");
    if (reasons_context(&s, utc_and_slip, bytes, 7) != REASONS_SHORT || bytes[0] != 9) return fails("a context of 7 bytes");
    if (reasons_context(&s, utc_and_slip, bytes, sizeof bytes) || memcmp(bytes, (uint8_t[]){0, 1, 0, 1, 1, 0, 1, REASONS_CONTRADICTED, 9, 9}, 10)) return fails("context");
    if (reasons_member(&s, 0, 1, &set) || set != local_and_slip) return fails("member");
    if (reasons_member(&s, 6, 1, &set) != REASONS_PLACE) return fails("no member there");

    before = s;
    if (reasons_add(&s, 6, (const uint32_t[]){4, 3}, 2, NULL) != REASONS_ALREADY) return fails("held already");
    if (reasons_add(&s, 9, NULL, 0, NULL) != REASONS_NUMBER) return fails("a number above");
    if (reasons_withdraw(&s, 6, (const uint32_t[]){3}, 1, NULL) != REASONS_UNHELD) return fails("not held");
    if (memcmp(&before, &s, sizeof s)) return fails("a refusal changes nothing");
    if (reasons_withdraw(&s, 7, (const uint32_t[]){3, 5}, 2, NULL) || !memcmp(&before, &s, sizeof s)) return fails("withdraw");
    if (reasons_add(&s, 7, (const uint32_t[]){5, 3}, 2, NULL) || memcmp(&before, &s, sizeof s)) return fails("withdrawn and added, byte for byte");

    static const reasons_item list[] = {{4, 1, {1}}, {6, 2, {3, 4}}, {0, 2, {2, 3}}};
    if (reasons_bare_question(3, 4, list, 3, 6, utc_and_slip, &answer) || answer != REASONS_SUPPORTED) return fails("a bare list");
    if (reasons_bare_context(3, 4, list, 3, local_and_slip, bytes, 8) || memcmp(bytes, (uint8_t[]){2, 2, 2, 2, 2, 2, 2, 2, 9, 9}, 10)) return fails("the context of a bare list");
    if (reasons_bare_stages(3, 4, list, 3, utc_and_slip, text, sizeof text, &length) || length != 24 || memcmp(text, "0 1 3\n1 1 3 4\n2 1 3 4 6\n", 24)) return fails("the stages of a bare list");
    if (reasons_bare_question(3, 2, list, 3, 5, 0, &answer) != REASONS_NUMBER || reasons_bare_question(33, 2, list, 3, 5, 0, &answer) != REASONS_COUNTS) return fails("a bare list's first fault");
    if (reasons_add(&s, 5, NULL, 1, NULL) != REASONS_FALSITY || reasons_add(&s, 5, NULL, 9, NULL) != REASONS_SUPPORTS) return fails("no supports, and a count");

    if (reasons_load(&s, (const uint8_t[]){3, 4, 1, 9, 0}, 5, &set, &named) != REASONS_NUMBER || set != 1 || named != 0) return fails("a file's first record");
    if (memcmp(&before, &s, sizeof s)) return fails("a refused load changes nothing");
    s.opaque[0] = ~(uint64_t)0;
    if (reasons_shape(&s) || reasons_question(&s, 6, 1, &answer, NULL) != REASONS_SHAPE) return fails("a spoilt store");
    return 0;
}
