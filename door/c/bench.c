/* bench FILE WHAT TIMES: loads FILE, then TIMES calls of WHAT. Under callgrind a run less one of no calls gives the instructions of a call (door/figures). */
#include "reasons.h"
#include <stdio.h>
#include <stdlib.h>

static uint8_t written[REASONS_LONGEST_CASE], *at = written;
static reasons_item list[256];

/* the next number of the case file that was written */
static uint32_t next(void) {
    uint32_t low = *at++;
    return low < 128 ? low : low - 128 + 128 * *at++;
}

/* what is held, as a list; how many items it has */
static size_t held(const reasons_store *s, uint32_t *assumptions, uint32_t *claims) {
    if (reasons_write(s, written, sizeof written, NULL)) exit(1);
    *assumptions = next(), *claims = next();
    size_t items = next();
    for (size_t i = 0; i < items; i++) {
        list[i].consequent = next(), list[i].count = next();
        for (size_t k = 0; k < list[i].count; k++) list[i].supports[k] = next();
    }
    return items;
}

int main(int argc, char **argv) {
    static uint8_t file[4096];
    static char text[REASONS_LONGEST_LISTING];
    if (argc != 4) return 2;
    FILE *f = fopen(argv[1], "rb");
    size_t size = f ? fread(file, 1, sizeof file, f) : 0, length = 0, sum = 0;
    reasons_store whole, s;
    reasons_answer answer = REASONS_UNSUPPORTED;
    uint32_t set = 0, assumptions, claims;
    if (reasons_load(&whole, file, size, NULL, NULL)) return 1;
    s = whole;
    size_t items = held(&s, &assumptions, &claims);
    for (long i = 0, times = atol(argv[3]); i < times; i++) {
        uint32_t n = 13 + (uint32_t)i % 40;
        switch (argv[2][0]) {
            case 'q': sum += reasons_question(&s, n, (uint32_t)i * 37 & 0xfff, &answer, &set) + answer; break;
            case 'c': sum += reasons_context(&s, (uint32_t)i * 37 & 0xfff, (uint8_t *)text, REASONS_CONTEXT); break;
            case 'm': sum += reasons_member(&s, n, 0, &set) + set; break;
            case 'l': sum += reasons_line(&s, n, text, REASONS_LONGEST_LINE, &length) + length; break;
            case 'L': sum += reasons_listing(&s, text, sizeof text, &length) + length; break;
            case 'a': s = whole, sum += reasons_add(&s, n, (uint32_t[]){1 + (uint32_t)i % 12, 1 + (uint32_t)i * 5 % 12}, 2, NULL); break;
            case 'p': sum += reasons_plain_question(&s, n, (uint32_t)i * 37 & 0xfff, &answer) + answer; break;
            case 's': sum += reasons_stages(&s, (uint32_t)i * 37 & 0xfff, text, sizeof text, &length) + length; break;
            case 'b': sum += reasons_bare_question(assumptions, claims, list, items, n, (uint32_t)i * 37 & 0xfff, &answer) + answer; break;
            case 'w': sum += reasons_write(&s, text, sizeof text, &length) + length; break;
            case 'f': sum += reasons_load(&s, file, size, NULL, NULL); break;
            default: return 2;
        }
    }
    return sum == 1;
}
