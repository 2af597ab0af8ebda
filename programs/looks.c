/* Looks for `scripts/count-instructions` to count: `looks SECTORS WHAT` makes a card of 64 buckets
 * with that many sectors each, posts until half of them are used, every other post being a
 * correction, and then asks 1,000 times. It prints the number of looks and a sum over the answers. */
#include "card.h"

#include <stdio.h>
#include <stdlib.h>
#include <string.h>

enum { BUCKETS = 64, LOOKS = 1000, MOST = BUCKETS * CARD_SECTORS_MAX };

static uint8_t card[CARD_BYTES(BUCKETS, CARD_SECTORS_MAX)];
static uint32_t posted[MOST];

/* Numbers that look random and are the same on every machine. */
static uint32_t random_below(uint32_t limit) {
    static uint32_t state = 7;
    state = state * 1664525u + 1013904223u;
    return (state >> 8) % limit;
}

int main(int argc, char **argv) {
    uint32_t sectors = argc == 3 ? (uint32_t)strtoul(argv[1], NULL, 10) : 0;
    size_t len = sectors <= CARD_SECTORS_MAX ? CARD_BYTES(BUCKETS, sectors) : 0;
    uint32_t stamp = 0, sum = 0, i;
    if (card_format(card, len, BUCKETS, sectors, 3 * sectors / 4, 0).code != CARD_OK) {
        fputs("looks SECTORS latest|now|past|none\n", stderr);
        return 2;
    }
    while (card_state(card, len).used < BUCKETS / 2) {
        /* bibs are even, so that the odd ones are looked for in vain */
        uint32_t bib = stamp % 2 == 1 ? posted[random_below(stamp)] : 2 + 2 * random_below(100000);
        posted[stamp++] = bib;
        if (card_post(card, len, bib, stamp, CARD_STATUS_TIMED, 61230).code != CARD_OK)
            return 1;
    }
    for (i = 0; i < LOOKS; i++) {
        struct card_answer answer;
        uint32_t bib = posted[random_below(stamp)], at = CARD_NOW;
        if (strcmp(argv[2], "latest") == 0)
            bib = posted[stamp - 1 - i % 16];
        else if (strcmp(argv[2], "past") == 0)
            at = 1 + random_below(stamp);
        else if (strcmp(argv[2], "none") == 0)
            bib++;
        answer = card_look(card, len, bib, at);
        sum = sum * 31 + answer.at + answer.time + answer.reads;
    }
    printf("%d %lu\n", LOOKS, (unsigned long)sum);
    return 0;
}
