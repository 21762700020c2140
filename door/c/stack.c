/* stack FILE: the bytes of stack that each call takes below its caller, seen by painting the stack of a thread. */
#define _GNU_SOURCE
#include "reasons.h"
#include <pthread.h>
#include <stdio.h>
#include <stdlib.h>

enum { SIZE = 1 << 20, LEFT = 1024 }; /* what lies this far below the frame is painted */

static uint8_t file[4096], *low;
static char text[REASONS_LONGEST_LISTING];
static size_t size, length;
static reasons_store s;
static const char *const calls[] = {"open", "load", "add", "withdraw", "question", "context", "member", "line", "first line", "listing", "printed", "shape", "a list of one", "case file", "stages", "plain question", "plain context", "bare question", "bare context", "bare stages"};
static const reasons_item list[] = {{20, 1, {1}}, {21, 2, {1, 20}}};
static size_t which;

static void call(void) {
    uint32_t set;
    reasons_answer answer;
    switch (which) {
        case 0: reasons_open(&s, 12, 40); break;
        case 1: reasons_load(&s, file, size, NULL, NULL); break;
        case 2: reasons_add(&s, 50, (uint32_t[]){1, 2, 3}, 3, NULL); break;
        case 3: reasons_withdraw(&s, file[3], (uint32_t[]){file[5], file[6], file[7], file[8]}, file[4], NULL); break;
        case 4: reasons_question(&s, 20, 1, &answer, NULL); break;
        case 5: reasons_context(&s, 1, (uint8_t *)text, REASONS_CONTEXT); break;
        case 6: reasons_member(&s, 20, 0, &set); break;
        case 7: reasons_line(&s, 20, text, REASONS_LONGEST_LINE, &length); break;
        case 8: reasons_case_line(&s, text, REASONS_LONGEST_LINE, &length); break;
        case 9: reasons_listing(&s, text, sizeof text, &length); break;
        case 10: reasons_printed(file, size, text, sizeof text, &length); break;
        case 11: reasons_shape(&s); break;
        case 12: reasons_add_all(&s, &(reasons_item){.consequent = 50, .count = 3, .supports = {1, 2, 3}}, 1, (uint8_t *)text, 1); break;
        case 13: reasons_write(&s, text, REASONS_LONGEST_CASE, &length); break;
        case 14: reasons_stages(&s, 0xfff, text, sizeof text, &length); break;
        case 15: reasons_plain_question(&s, 20, 1, &answer); break;
        case 16: reasons_plain_context(&s, 1, (uint8_t *)text, REASONS_CONTEXT); break;
        case 17: reasons_bare_question(12, 40, list, 2, 20, 1, &answer); break;
        case 18: reasons_bare_context(12, 40, list, 2, 1, (uint8_t *)text, REASONS_CONTEXT); break;
        case 19: reasons_bare_stages(12, 40, list, 2, 1, text, sizeof text, &length); break;
    }
}

static void *run(void *arg) {
    uint8_t *here = __builtin_frame_address(0), *p = low;
    (void)arg;
    for (; p < here - LEFT; p++) *(volatile uint8_t *)p = 0xa5;
    call();
    for (p = low; *(volatile uint8_t *)p == 0xa5;) p++;
    printf("| %s | %td |\n", calls[which], here - p);
    return NULL;
}

int main(int argc, char **argv) {
    FILE *f = argc == 2 ? fopen(argv[1], "rb") : NULL;
    if (!f) return 2;
    size = fread(file, 1, sizeof file, f);
    low = aligned_alloc(4096, SIZE);
    for (which = 0; which < sizeof calls / sizeof *calls; which++) {
        pthread_t thread;
        pthread_attr_t how;
        if (reasons_load(&s, file, size, NULL, NULL)) return 1;
        pthread_attr_init(&how);
        if (pthread_attr_setstack(&how, low, SIZE) || pthread_create(&thread, &how, run, NULL)) return 2;
        pthread_join(thread, NULL);
    }
    return 0;
}
