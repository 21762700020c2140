/* Two stores in two threads, the rules of one in the opposite order: both end with the same bytes, every time. */
#include "reasons.h"
#include <pthread.h>
#include <stdio.h>

static const struct { uint32_t consequent, count, supports[2]; } rules[] = {
    {0, 2, {2, 3}}, {4, 1, {1}}, {5, 1, {2}}, {6, 2, {3, 4}}, {7, 2, {3, 5}}, {0, 2, {1, 2}},
};

static void *sow(void *last) {
    reasons_store *out = last, s, again;
    size_t backward = (size_t)out->opaque[0];
    for (int turn = 0; turn < 2000; turn++) {
        if (reasons_open(&s, 3, 4)) return NULL;
        for (size_t i = 0; i < 6; i++) {
            size_t k = backward ? 5 - i : i;
            if (reasons_add(&s, rules[k].consequent, rules[k].supports, rules[k].count, NULL)) return NULL;
        }
        if (turn && memcmp(&s, &again, sizeof s)) return NULL;
        again = s;
    }
    *out = s;
    return last;
}

int main(void) {
    static reasons_store stores[2];
    pthread_t threads[2];
    void *done[2] = {NULL, NULL};
    stores[1].opaque[0] = 1;
    for (int i = 0; i < 2; i++)
        if (pthread_create(&threads[i], NULL, sow, &stores[i])) return 2;
    for (int i = 0; i < 2; i++) pthread_join(threads[i], &done[i]);
    if (!done[0] || !done[1] || memcmp(&stores[0], &stores[1], sizeof stores[0])) return fputs("the stores differ\n", stderr), 1;
    return 0;
}
