/* Every reply that a caller can get, by its name; its number is that of document 01 and of the requests after it, not of the header. */
#include "runs/common.h"

static_assert(REASONS_DONE == 0 && REASONS_ALREADY == 1 && REASONS_SHAPE == 2 && REASONS_COUNTS == 3 && REASONS_NUMBER == 4 && REASONS_FALSITY == 5, "0 to 5");
static_assert(REASONS_SUPPORTS == 6 && REASONS_FULL == 7 && REASONS_LABEL == 8 && REASONS_NOGOODS == 9, "6 to 9");
static_assert(REASONS_ENDS == 11 && REASONS_FORM == 12 && REASONS_AFTER == 13 && REASONS_LONG == 14 && REASONS_SHORT == 15 && REASONS_PLACE == 16, "11 to 16");
static_assert(REASONS_ITSELF == 17 && REASONS_UNHELD == 18, "17 and 18");
static_assert(REASONS_UNSUPPORTED == 0 && REASONS_SUPPORTED == 1 && REASONS_INCONSISTENT == 2 && REASONS_CONTRADICTED == 3, "the bytes of a context");

static unsigned met; /* a bit for each reply that was got */

/* The call must answer so. */
static void gets(reasons_reply got, reasons_reply want, const char *what) {
    if (got != want) broken(what);
    met |= 1u << got;
}

/* A file of 13 or more records, n from each of 1 to 13 alone, then the rest. */
static size_t thirteen(uint8_t *file, uint8_t n, const uint8_t *rest, size_t size, uint8_t count) {
    size_t at = 3;
    memcpy(file, (uint8_t[]){13, 2, count}, 3);
    for (uint8_t k = 1; k <= 13; k++) memcpy(file + at, (uint8_t[]){n, 1, k}, 3), at += 3;
    memcpy(file + at, rest, size);
    return at + size;
}

/* What is loaded from these bytes: its reply, its record and the number that it names. */
static void loads(const uint8_t *bytes, size_t size, reasons_reply want, uint32_t record, uint32_t named, const char *what) {
    uint32_t at = 99, of = 99;
    reasons_store s;
    gets(reasons_load(&s, memcpy(lent(size), bytes, size), size, &at, &of), want, what);
    if (at != record || of != named) broken(what);
}

int main(void) {
    reasons_store s, spoilt;
    reasons_answer answer;
    uint32_t set, named = 99;
    uint8_t file[256], byte = 9;
    static uint8_t longer[4097];
    static char text[64];
    size_t length;

    gets(reasons_open(&s, 32, 96), REASONS_DONE, "open");
    gets(reasons_open(&s, 33, 0), REASONS_COUNTS, "33 assumptions");
    gets(reasons_open(&s, 0, 97), REASONS_COUNTS, "97 claims");
    s = opened(13, 2);
    gets(reasons_add(&s, 15, OF(1, 2), NULL), REASONS_DONE, "add");
    gets(reasons_add(&s, 15, OF(2, 1, 2), NULL), REASONS_ALREADY, "held already");
    gets(reasons_add(&s, 16, OF(1), NULL), REASONS_NUMBER, "a number above");
    gets(reasons_question(&s, 15, reasons_assume(14), &answer, NULL), REASONS_NUMBER, "an assumption above");
    gets(reasons_add(&s, 15, OF(0), NULL), REASONS_FALSITY, "falsity as a support");
    gets(reasons_add(&s, 15, OF(1, 1, 1, 1, 1), NULL), REASONS_SUPPORTS, "five supports");
    gets(reasons_add(&s, 15, OF(15), NULL), REASONS_ITSELF, "its own consequent");
    gets(reasons_withdraw(&s, 15, OF(1), NULL), REASONS_UNHELD, "not held");
    gets(reasons_context(&s, 0, &byte, 1), REASONS_SHORT, "a context of one byte");
    gets(reasons_member(&s, 15, 1, &set), REASONS_PLACE, "no member there");
    spoilt = counting(s, 33, 0);
    gets(reasons_question(&spoilt, 15, 0, &answer, NULL), REASONS_SHAPE, "33 assumptions in a store");

    /* the thirteenth member: added, loaded, and come back where a premise is withdrawn */
    for (uint32_t k = 1; k <= 12; k++) gets(reasons_add(&s, 14, OF(k), &named), REASONS_DONE, "twelve");
    if (named) broken("a number named by done");
    gets(reasons_add(&s, 14, OF(13), &named), REASONS_LABEL, "the thirteenth");
    if (named != 14) broken("the number that adding names");
    loads(file, thirteen(file, 14, file, 0, 13), REASONS_LABEL, 13, 14, "a file of thirteen");
    uint8_t also[256];
    thirteen(also, 15, also, 0, 13);
    loads(file, thirteen(file, 14, also + 3, 39, 26), REASONS_LABEL, 26, 14, "a file in which 14 and 15 are over at once");
    loads(file, thirteen(file, 15, (uint8_t[]){14, 1, 15}, 3, 14), REASONS_LABEL, 14, 15, "a file in which 15 is over first");
    s = added(opened(13, 2), 15, NULL, 0);
    for (uint32_t k = 1; k <= 13; k++) s = added(s, 15, OF(k));
    named = 99;
    gets(reasons_withdraw(&s, 15, NULL, 0, &named), REASONS_LABEL, "withdrawn, thirteen are left");
    if (named != 15) broken("the number that withdrawing names");

    s = opened(9, 0);
    for (unsigned k = 0; k < 33; k++) {
        uint32_t low, high;
        pair(k, &low, &high);
        named = 99;
        gets(reasons_add(&s, 0, OF(low, high), &named), k < 32 ? REASONS_DONE : REASONS_NOGOODS, "pairs");
        if (named) broken("a number named by another reply than 8");
    }
    s = opened(32, 96);
    for (uint32_t i = 0; i < 256; i++) s = added(s, 33 + i % 16, OF(49 + i / 16));
    gets(reasons_add(&s, 48, OF(65), NULL), REASONS_FULL, "256 held");

    loads((uint8_t[]){3, 4, 1, 4, 1, 1}, 6, REASONS_DONE, 1, 0, "a file");
    loads((uint8_t[]){1, 1, 0x81, 2}, 4, REASONS_FULL, 0, 0, "a count of 257");
    loads(file, 0, REASONS_ENDS, 0, 0, "no bytes");
    loads((uint8_t[]){3, 4, 2, 4, 1, 1, 5}, 7, REASONS_ENDS, 2, 0, "a file cut in its second record");
    loads((uint8_t[]){1, 1, 1, 0x80, 0}, 5, REASONS_FORM, 1, 0, "80 00");
    loads((uint8_t[]){1, 1, 0, 7}, 4, REASONS_AFTER, 0, 0, "a byte after the case");

    gets(reasons_printed(longer, 4097, text, sizeof text, &length), REASONS_DONE, "4,097 bytes");
    if (length != 13 || memcmp(text, "refused 14 0\n", 13)) broken("what is printed of 4,097 bytes");
    gets(reasons_refusal(REASONS_LONG, 0, text, sizeof text, &length), REASONS_DONE, "its line");
    if (length != 13 || memcmp(text, "refused 14 0\n", 13)) broken("the line of 14");

    /* null pointers with a length beside them */
    s = opened(3, 4);
    reasons_store before = s;
    uint8_t bytes[200] = {9};
    gets(reasons_bare_question(3, 4, NULL, 1, 4, 1, &answer), REASONS_SUPPORTS, "a null list of one");
    gets(reasons_bare_question(33, 4, NULL, 1, 4, 1, &answer), REASONS_COUNTS, "a null list, and too many assumptions");
    gets(reasons_bare_context(3, 4, NULL, 200, 1, bytes, 200), REASONS_SUPPORTS, "a null list of 200");
    gets(reasons_bare_stages(3, 4, NULL, 2, 1, text, sizeof text, NULL), REASONS_SUPPORTS, "a null list of 2");
    gets(reasons_bare_question(3, 4, NULL, 0, 1, 1, &answer), REASONS_DONE, "a null list of none");
    gets(reasons_add_all(&s, NULL, 200, bytes, 200), REASONS_SHORT, "a null list added");
    gets(reasons_add_all(&s, NULL, 0, NULL, 0), REASONS_DONE, "a null list of none, added");
    gets(reasons_add_all(&spoilt, NULL, 200, bytes, 200), REASONS_SHAPE, "a null list, and a wrong shape");
    gets(reasons_add(&s, 5, NULL, 1, NULL), REASONS_FALSITY, "null supports");
    gets(reasons_load(&s, NULL, 100, NULL, NULL), REASONS_ENDS, "a null file");
    gets(reasons_context(&s, 0, NULL, 100), REASONS_SHORT, "null bytes lent");
    if (bytes[0] != 9 || memcmp(&before, &s, sizeof s)) broken("a refusal changes nothing");

    if (met != (0x7FFFFu & ~(1u << 10) & ~(1u << 14))) broken("a reply that no call gave");
    return 0;
}
