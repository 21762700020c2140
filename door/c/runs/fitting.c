/* The line of 4 of the listed case, which has 22 bytes, into lent bytes that are one too few, just enough and more; and the line of a number above A+M.
   Then its file, which has 18 bytes; what was written is loaded, and what that holds written again. And the file of a store of the wrong shape. */
#include "common.h"

/* The line of n into so many bytes, points at first, shown after the call. */
static void line(const char *title, const reasons_store *s, uint32_t n, size_t room, const char *end) {
    char *bytes = filled(room, '.');
    size_t length = 0;
    reasons_reply reply = reasons_line(s, n, bytes, room, &length);
    printf("%s:", title);
    told(reply, length);
    printf(" %.*s%s", (int)room, bytes, end);
}

/* The file into so many bytes, 99 at first, shown after the call; these bytes. */
static uint8_t *file(const reasons_store *s, size_t room) {
    uint8_t *bytes = filled(room, 99);
    size_t length = 0;
    reasons_reply reply = reasons_write(s, bytes, room, &length);
    printf("%zu bytes:", room);
    told(reply, length);
    numbers(bytes, room);
    return bytes;
}

int main(void) {
    reasons_store s = listed_case(), again, wrong = counting(s, 33, 2);
    uint32_t record;
    line("21 bytes", &s, 4, 21, "\n");
    line("22 bytes", &s, 4, 22, "");
    line("25 bytes", &s, 4, 25, "\n");
    line("number 6", &s, 6, 22, "\n");
    file(&s, 17);
    file(&s, 21);
    reasons_reply reply = reasons_load(&again, file(&s, 18), 18, &record, NULL);
    printf("loaded: reply %d, record %u; ", reply, record);
    file(&again, 21);
    printf("33 assumptions: ");
    file(&wrong, 21);
    return 0;
}
