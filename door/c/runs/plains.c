/* The plain path into lent bytes that are one too few, just enough and more, of a store and of a bare list; a set above A and a wrong shape before that. */
#include "common.h"

/* Falsity from 1, 2 from 1, 3 from 2, the last twice: from {1} the lines have 22 bytes, the context 4. */
static const reasons_item list[4] = {{0, 1, {1}}, {2, 1, {1}}, {3, 1, {2}}, {3, 1, {2}}};

/* The same as a store. */
static reasons_store chain(void) {
    reasons_store s = opened(1, 2);
    for (int i = 0; i < 3; i++) s = added(s, list[i].consequent, list[i].supports, 1);
    return s;
}

/* What the call answered of the lines, and the bytes, points at first. */
static void lines(reasons_reply reply, size_t length, const char *bytes, size_t room) {
    printf("%zu bytes:", room);
    told(reply, length);
    printf("\n%.*s\n", (int)room, bytes);
}

/* .. of a context */
static void values(reasons_reply reply, const uint8_t *bytes, size_t room) {
    printf("%zu bytes: replied %d:", room, reply);
    numbers(bytes, room);
}

static void stages(reasons_store s, uint32_t set, size_t room) {
    char *bytes = filled(room, '.');
    size_t length = 0;
    reasons_reply reply = reasons_stages(&s, set, bytes, room, &length);
    lines(reply, length, bytes, room);
}

static void context(reasons_store s, uint32_t set, size_t room) {
    uint8_t *bytes = filled(room, '.');
    reasons_reply reply = reasons_plain_context(&s, set, bytes, room);
    values(reply, bytes, room);
}

static void bare_stages(uint32_t assumptions, uint32_t set, size_t room) {
    char *bytes = filled(room, '.');
    size_t length = 0;
    reasons_reply reply = reasons_bare_stages(assumptions, 2, memcpy(lent(sizeof list), list, sizeof list), 4, set, bytes, room, &length);
    lines(reply, length, bytes, room);
}

static void bare_context(uint32_t assumptions, uint32_t set, size_t room) {
    uint8_t *bytes = filled(room, '.');
    reasons_reply reply = reasons_bare_context(assumptions, 2, memcpy(lent(sizeof list), list, sizeof list), 4, set, bytes, room);
    values(reply, bytes, room);
}

int main(void) {
    reasons_store s = chain(), wrong = counting(s, 1, 97);
    puts("stages");
    stages(s, 1, 21);
    stages(s, 1, 22);
    stages(s, 1, 25);
    stages(s, 2, 21);
    stages(wrong, 2, 21);
    puts("context");
    context(s, 1, 3);
    context(s, 1, 4);
    context(s, 1, 6);
    context(s, 2, 3);
    context(wrong, 2, 3);
    puts("bare stages");
    bare_stages(1, 1, 21);
    bare_stages(1, 1, 22);
    bare_stages(1, 1, 25);
    bare_stages(1, 2, 21);
    bare_stages(33, 2, 21);
    puts("bare context");
    bare_context(1, 1, 3);
    bare_context(1, 1, 4);
    bare_context(1, 1, 6);
    bare_context(1, 2, 3);
    bare_context(33, 2, 3);
    return 0;
}
