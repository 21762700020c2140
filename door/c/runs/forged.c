/* Stores of the wrong shape, one for each clause, on every call: each must answer 2, leave the store as it was and the lent bytes alone.
   Then stores of right shape whose lists are untrue: questions read the lists; adding, withdrawing and the file work from the justifications;
   whether a label is empty is read from the list, whether its number is then contradicted from the justifications. */
#include "common.h"

/* Spoils the listed case in way k, and gives its name; none after the last. Number n has its label at place n - 1. */
static const char *spoil(layout *s, int k) {
    uint8_t (*e)[6] = s->entries, other[6];
    uint32_t *four = s->members[3], *five = s->members[4];
    switch (k) {
        case 0: s->assumptions = 33; return "A over 32";
        case 1: s->claims = 97; return "M over 96";
        case 2: s->count = 257; return "held over 256";
        case 3: e[0][1] = 5; return "more than four supports";
        case 4: e[3][0] = 6; return "consequent out of range";
        case 5: e[3][3] = 6; return "support out of range";
        case 6: memcpy(other, e[1], 6), memcpy(e[1], e[2], 6), memcpy(e[2], other, 6); return "justifications out of order";
        case 7: memcpy(e[2], e[1], 6); return "equal neighbours";
        case 8: e[0][2] = 2, e[0][3] = 1; return "supports not rising";
        case 9: e[0][3] = 1; return "supports repeated";
        case 10: e[1][2] = 0; return "a support 0";
        case 11: e[1][5] = 1; return "unused support not zero";
        case 12: e[4][0] = 1; return "unused consequent not zero";
        case 13: e[255][1] = 1; return "unused count of supports not zero";
        case 14: e[255][2] = 1; return "unused supports not zero";
        case 15: e[3][3] = 5; return "a consequent among its supports";
        case 16: s->sizes[0] = 13; return "members over 12";
        case 17: s->nogood_count = 33; return "nogoods over 32";
        case 18: four[0] = 6, four[1] = 1; return "label out of order";
        case 19: four[1] = 1; return "equal members";
        case 20: four[0] = 2; return "a member inside another";
        case 21: five[0] = 8; return "assumption above A in a label";
        case 22: s->nogoods[0] = 8; return "assumption above A in the nogoods";
        case 23: s->nogood_count = 2, s->nogoods[0] = 6, s->nogoods[1] = 3; return "nogoods out of order";
        case 24: s->nogood_count = 2, s->nogoods[0] = 1, s->nogoods[1] = 3; return "a nogood inside another";
        case 25: s->depth = 130; return "depth 130";
        case 26: s->members[0][1] = 1; return "unused member not zero";
        case 27: s->nogoods[31] = 1; return "unused nogood not zero";
        case 28: s->sizes[5] = 1; return "a member of a number above A+M";
        case 29: s->members[5][0] = 1; return "a place of a number above A+M not zero";
        case 30: s->sizes[4] = 3, five[0] = 1, five[1] = 2, five[2] = 5; return "{1} {2} {1,3} in a label";
        case 31: s->nogood_count = 3, s->nogoods[0] = 1, s->nogoods[1] = 2, s->nogoods[2] = 5; return "{1} {2} {1,3} in the nogoods";
        default: return NULL;
    }
}

/* ---- the calls: the reply, whether the store is as it was, and whether every lent byte is */

enum { ROOM = 200, BYTE = 7 };

static bool same(reasons_store a, reasons_store b) {
    reasons_clean(&a), reasons_clean(&b);
    return !memcmp(&a, &b, sizeof a);
}

static void kept(bool so) { printf(so ? " kept" : " CHANGED"); }

/* The store that the library hands back, and the caller's after the call of the header, which must answer alike. */
static void changes(const char *name, const reasons_store *s, reasons_kept k, reasons_reply reply, const reasons_store *after) {
    if (k.reply != (uint32_t)reply) broken("the reply through the header");
    printf(" %s %d", name, reply);
    kept(same(k.store, *s) && !memcmp(after, s, sizeof *s));
}

/* A call that reads is handed a copy of the store and hands none back: the caller's is as it was. */
static void reads(const char *name, reasons_reply reply, const reasons_store *s, const reasons_store *was) {
    printf(", %s %d", name, reply);
    kept(!memcmp(s, was, sizeof *s));
}

static void untouched(const uint8_t *bytes) {
    for (int i = 0; i < ROOM; i++)
        if (bytes[i] != BYTE) {
            printf(" TOUCHED");
            return;
        }
    printf(" untouched");
}

static void calls(const reasons_store *s) {
    reasons_store mine = *s;
    reasons_answer answer;
    uint32_t set;
    size_t length;
    reasons_reply reply = reasons_add(&mine, 4, OF(3), NULL);
    changes("add", s, door_add(*s, 4, OF(3)), reply, &mine);
    mine = *s;
    printf(",");
    reply = reasons_withdraw(&mine, 4, OF(1), NULL);
    changes("withdraw", s, door_withdraw(*s, 4, OF(1)), reply, &mine);
    mine = *s;
    reads("question", reasons_question(&mine, 4, 1, &answer, NULL), &mine, s);
    uint8_t *bytes = filled(ROOM, BYTE);
    reads("context", reasons_context(&mine, 1, bytes, ROOM), &mine, s);
    untouched(bytes);
    reads("member", reasons_member(&mine, 4, 0, &set), &mine, s);
    bytes = filled(ROOM, BYTE);
    reads("line", reasons_line(&mine, 4, (char *)bytes, ROOM, &length), &mine, s);
    untouched(bytes);
    bytes = filled(ROOM, BYTE);
    reads("write", reasons_write(&mine, bytes, ROOM, &length), &mine, s);
    untouched(bytes);
    puts("");
}

/* ---- untrue lists */

static void asked(const reasons_store *s, uint32_t set) {
    static const char *const words[] = {"unsupported", "supported by", "inconsistent by"};
    reasons_answer answer;
    uint32_t reason;
    reasons_reply reply = reasons_question(s, 5, set, &answer, &reason);
    if (reply) printf("%d", reply);
    else if (answer) printf("%s %u", words[answer], reason);
    else printf("%s", words[0]);
}

static reasons_store withdrawn(reasons_store s, uint32_t consequent, const uint32_t *supports, size_t count) {
    if (reasons_withdraw(&s, consequent, supports, count, NULL)) broken("withdraw");
    return s;
}

/* what is written of a store, bytes after it as they were */
static uint8_t *filed(const reasons_store *s) {
    uint8_t *bytes = filled(ROOM, BYTE);
    if (reasons_write(s, bytes, ROOM, NULL)) broken("write");
    return bytes;
}

/* The listed case with an untrue label, {1} alone for 5, against the true lists. */
static void compared(reasons_store base) {
    layout l = places(&base);
    l.members[4][0] = 1;
    reasons_store other = stored(&l);
    printf("untrue lists: question 5 of {1} is ");
    asked(&other, 1);
    printf(", of {2,3} ");
    asked(&other, 6);
    printf("; with 5 from 3 added, as from the true lists:");
    kept(same(added(base, 5, OF(3)), added(other, 5, OF(3))));
    printf("; with 4 from 1 withdrawn:");
    kept(same(withdrawn(base, 4, OF(1)), withdrawn(other, 4, OF(1))));
    puts(memcmp(filed(&base), filed(&other), ROOM) ? "; ANOTHER FILE" : "; the same file");
}

/* The listed case with no label for 5, which follows from 2 and 4: the context of {3} and the line of 5. */
static void unlisted(reasons_store base) {
    layout l = places(&base);
    l.sizes[4] = 0, l.members[4][0] = 0;
    reasons_store other = stored(&l);
    uint8_t *context = filled(6, BYTE);
    char *line = filled(15, '.');
    if (reasons_context(&other, 4, context, 6) || reasons_line(&other, 5, line, 15, NULL)) broken("an emptied label");
    printf("an emptied label: byte 4 of {3} is %d, byte 5 is %d, the line %.15s", context[4], context[5], line);
}

int main(void) {
    reasons_store base = listed_case();
    const char *name;
    for (int k = 0;; k++) {
        layout l = places(&base);
        if (!(name = spoil(&l, k))) break;
        reasons_store s = stored(&l);
        printf("%s:", name);
        calls(&s);
    }
    compared(base);
    unlisted(base);
    return 0;
}
