/* What include/card.h says, held to the library and to words written here a second time. It compiles as C and as C++. */
#include "card.h"

#include <stdio.h>
#include <stdlib.h>
#include <string.h>

static int wrong = 0;

#define CHECK(fact) check(fact, #fact)

static void check(int holds, const char *fact) {
    if (!holds) {
        printf("not so: %s\n", fact);
        wrong = 1;
    }
}

static void layout_of_the_structs(void) {
    CHECK(sizeof(struct card_answer) == 24);
    CHECK(offsetof(struct card_answer, bib) == 4 && offsetof(struct card_answer, at) == 8);
    CHECK(offsetof(struct card_answer, status) == 12 && offsetof(struct card_answer, time) == 16);
    CHECK(offsetof(struct card_answer, reads) == 20);
    CHECK(sizeof(struct card_tally) == 16 && offsetof(struct card_tally, count) == 8);
    CHECK(sizeof(struct card_state) == 32 && offsetof(struct card_state, buckets) == 4);
    CHECK(offsetof(struct card_state, sectors) == 8 && offsetof(struct card_state, td) == 12);
    CHECK(offsetof(struct card_state, ti) == 16 && offsetof(struct card_state, begin) == 20);
    CHECK(offsetof(struct card_state, last) == 24 && offsetof(struct card_state, used) == 28);
    CHECK(sizeof(struct card_digits) == 12 && offsetof(struct card_digits, places) == 4);
}

/* The answer number of a format of a blank card that is as long as CARD_BYTES says. */
static uint32_t formatted(uint32_t buckets, uint32_t sectors, uint32_t td, uint32_t ti) {
    size_t len = CARD_BYTES(buckets, sectors);
    uint8_t *card = (uint8_t *)calloc(len, 1);
    uint32_t code;
    if (card == NULL)
        return CARD_SHAPE;
    code = card_format(card, len, buckets, sectors, td, ti).code;
    free(card);
    return code;
}

static void limits(void) {
    CHECK(formatted(CARD_BUCKETS_MIN, CARD_SECTORS_MIN, CARD_TD_MIN, CARD_TI_MIN) == CARD_OK);
    CHECK(formatted(CARD_BUCKETS_MAX, CARD_SECTORS_MAX, CARD_SECTORS_MAX, CARD_SECTORS_MAX) == CARD_OK);
    CHECK(formatted(CARD_BUCKETS_MIN - 1, CARD_SECTORS_MIN, 0, 0) == CARD_SHAPE);
    CHECK(formatted(CARD_BUCKETS_MAX + 1, CARD_SECTORS_MIN, 0, 0) == CARD_SHAPE);
    CHECK(formatted(CARD_BUCKETS_MIN, CARD_SECTORS_MIN - 1, 0, 0) == CARD_SHAPE);
    CHECK(formatted(CARD_BUCKETS_MIN, CARD_SECTORS_MAX + 1, 0, 0) == CARD_SHAPE);
    CHECK(formatted(CARD_BUCKETS_MIN, CARD_SECTORS_MIN, CARD_TD_MIN - 1, 0) == CARD_SHAPE);
    CHECK(formatted(CARD_BUCKETS_MIN, CARD_SECTORS_MIN, 0, CARD_TI_MIN - 1) == CARD_SHAPE);
}

/* td 0 and ti 0 as the header words them: the head has TD in byte 2 and TI in byte 3. */
static void thresholds(void) {
    uint8_t card[CARD_BYTES(2, 15)] = {0};
    CHECK(card_format(card, sizeof card, 2, 15, 0, 0).code == CARD_OK);
    CHECK(card[2] == 7 && card[3] == 14);
}

/* Each answer number, from a call that gives it. */
static void answer_numbers(void) {
    uint8_t card[CARD_BYTES(2, 4)] = {0};
    size_t len = sizeof card;
    CHECK(card_look(card, len, 1, 1).code == CARD_LAYOUT && CARD_LAYOUT == 1);
    CHECK(card_format(card, len - 1, 2, 4, 0, 0).code == CARD_SHAPE && CARD_SHAPE == 8);
    CHECK(card_format(card, len, 2, 4, 0, 0).code == CARD_OK && CARD_OK == 0);
    CHECK(card_format(card, len, 2, 4, 0, 0).code == CARD_NOT_BLANK && CARD_NOT_BLANK == 9);
    CHECK(card_look(card, len, 0, 1).code == CARD_NO_BIB && CARD_NO_BIB == 2);
    CHECK(card_post(card, len, 1, 0, 0, 5).code == CARD_STAMP && CARD_STAMP == 3);
    CHECK(card_strike(card, len, 1, 1).code == CARD_NOTHING_STANDS && CARD_NOTHING_STANDS == 5);
    CHECK(card_post(card, len, 1, 1, 0, 5).code == CARD_OK);
    CHECK(card_post(card, len, 1, 2, 0, 5).code == CARD_OK);
    CHECK(card_post(card, len, 1, CARD_NOW, 0, 5).code == CARD_OK);
    CHECK(card_post(card, len, 1, CARD_NOW, 0, 5).code == CARD_STAMP);
    CHECK(card_digits(0, 7).code == CARD_PANEL && CARD_PANEL == 7);
    card[16] = 5;
    CHECK(card_next(card, len, 0, CARD_NOW).code == CARD_DAMAGE && CARD_DAMAGE == 4);
}

static void a_full_card(void) {
    uint8_t card[CARD_BYTES(2, 4)] = {0};
    uint32_t at;
    CHECK(card_format(card, sizeof card, 2, 4, 0, 0).code == CARD_OK);
    for (at = 1; at <= 3; at++)
        CHECK(card_post(card, sizeof card, 1, at, 0, 5).code == CARD_OK);
    CHECK(card_post(card, sizeof card, 1, at, 0, 5).code == CARD_FULL && CARD_FULL == 6);
}

/* A request in the layout that the header words: kind, three zeros, bib, stamp, value, low bytes first. */
static void request(uint8_t *at, uint8_t kind, uint8_t bib, uint8_t stamp, uint8_t value) {
    memset(at, 0, CARD_SECTOR_BYTES);
    at[0] = kind;
    at[4] = bib;
    at[8] = stamp;
    at[12] = value;
}

/* Each answer of a request, and both of the batch; what is expected was reckoned from the header's words. The card has
 * room for three entries. */
static void batches(void) {
    static const uint8_t said[9] = {0, 3, 2, 11, 11, 0, 5, 0, 6};
    static const uint8_t nothing[9] = {0};
    uint8_t requests[9 * CARD_SECTOR_BYTES], answers[9] = {0};
    uint8_t card[CARD_BYTES(2, 4)] = {0}, before[sizeof card];
    request(requests, CARD_KIND_POST, 7, 10, 90);
    request(requests + 16, CARD_KIND_POST, 8, 10, 91); /* not above 10 */
    request(requests + 32, CARD_KIND_STRIKE, 0, 11, 0);
    request(requests + 48, 3, 7, 11, 0);
    request(requests + 64, CARD_KIND_STRIKE, 7, 11, 1); /* with a value */
    request(requests + 80, CARD_KIND_STRIKE, 7, 11, 0);
    request(requests + 96, CARD_KIND_STRIKE, 7, 12, 0); /* struck already */
    request(requests + 112, CARD_KIND_POST, 7, 12, 92);
    request(requests + 128, CARD_KIND_POST, 7, 13, 93); /* no room */
    CHECK(card_batch(card, sizeof card, requests, 32, answers, 2) == CARD_OK);
    CHECK(answers[0] == CARD_LAYOUT && answers[1] == CARD_LAYOUT && answers[2] == 0);
    CHECK(card_format(card, sizeof card, 2, 4, 0, 0).code == CARD_OK);
    memcpy(before, card, sizeof card);
    memset(answers, 0, sizeof answers);
    CHECK(card_batch(card, sizeof card, requests, 31, answers, 2) == CARD_UNPAIRED && CARD_UNPAIRED == 12);
    CHECK(card_batch(card, sizeof card, requests, 32, answers, 1) == CARD_UNPAIRED);
    CHECK(card_batch(card, sizeof card, requests, 0, answers, 0) == CARD_OK);
    CHECK(memcmp(card, before, sizeof card) == 0 && memcmp(answers, nothing, sizeof answers) == 0);
    CHECK(card_batch(card, sizeof card, requests, sizeof requests, answers, sizeof answers) == CARD_OK);
    CHECK(memcmp(answers, said, sizeof answers) == 0 && CARD_NO_REQUEST == 11);
    CHECK(card_look(card, sizeof card, 7, 10).time == 90 && card_look(card, sizeof card, 7, 11).at == 0);
    CHECK(card_look(card, sizeof card, 7, 12).time == 92 && card_state(card, sizeof card).last == 12);
}

/* A card of 16 buckets of four sectors with seven records, stamped 1 to 7. */
static void seven(uint8_t *card, size_t len) {
    uint32_t at;
    CHECK(card_format(card, len, 16, 4, 0, 0).code == CARD_OK);
    for (at = 1; at <= 7; at++)
        CHECK(card_post(card, len, 10 * at, at, 0, 100 + at).code == CARD_OK);
}

/* Seven records and one entry more, three to a bucket: three buckets and one over them. */
static void seasons(void) {
    static const struct card_state begun = {CARD_OK, 4, 4, 2, 4, 7, 7, 4};
    static const struct card_answer found = {CARD_OK, 70, 7, 0, 107, 2}, early = {CARD_TOO_EARLY, 0, 0, 0, 0, 0};
    uint8_t card[CARD_BYTES(16, 4)] = {0}, target[CARD_BYTES(4, 4)] = {0}, page[CARD_SECTOR_BYTES];
    struct card_state state;
    struct card_answer answer;
    seven(card, sizeof card);
    CHECK(card_season(card, sizeof card, 7, target, CARD_BYTES(3, 4), 3, 4, 0, 0) == CARD_FULL);
    CHECK(card_season(card, sizeof card, 7, target, sizeof target, 4, 4, 0, 0) == CARD_OK);
    state = card_state(target, sizeof target);
    CHECK(memcmp(&state, &begun, sizeof state) == 0);
    answer = card_look(target, sizeof target, 70, 7);
    CHECK(memcmp(&answer, &found, sizeof answer) == 0);
    answer = card_look(target, sizeof target, 70, 6);
    CHECK(memcmp(&answer, &early, sizeof answer) == 0 && CARD_TOO_EARLY == 13);
    CHECK(card_next(target, sizeof target, 0, 6).code == CARD_TOO_EARLY);
    CHECK(card_next(target, sizeof target, 0, 7).bib == 10);
    CHECK(card_records(target, sizeof target, 0, 6, page, 0).code == CARD_TOO_EARLY);
    CHECK(card_records(target, sizeof target, 60, 7, page, sizeof page).count == 1);
    CHECK(card_post(target, sizeof target, 70, 7, 0, 1).code == CARD_STAMP);
    CHECK(card_post(target, sizeof target, 70, 8, 0, 1).code == CARD_OK);
}

/* The refusals of card_season in the header's order, each where those behind it would be given too. */
static void refused_seasons(void) {
    uint8_t card[CARD_BYTES(16, 4)] = {0}, season[CARD_BYTES(5, 4)] = {0}, target[CARD_BYTES(2, 4)] = {0};
    static const uint8_t blank[sizeof target] = {0};
    seven(card, sizeof card);
    CHECK(card_season(card, sizeof card, 7, season, sizeof season, 5, 4, 0, 0) == CARD_OK);
    season[16 * (1 + 5) + 1] = 1; /* damage in bucket 1 */
    target[0] = 1;
    CHECK(card_season(season, sizeof season - 1, 6, target, sizeof target, 3, 4, 0, 0) == CARD_LAYOUT);
    CHECK(card_season(season, sizeof season, 6, target, sizeof target, 3, 4, 0, 0) == CARD_TOO_EARLY);
    CHECK(card_season(season, sizeof season, 7, target, sizeof target, 3, 4, 0, 0) == CARD_SHAPE);
    CHECK(card_season(season, sizeof season, 7, target, sizeof target, 2, 4, 0, 0) == CARD_NOT_BLANK);
    target[0] = 0;
    CHECK(card_season(season, sizeof season, 7, target, sizeof target, 2, 4, 0, 0) == CARD_DAMAGE);
    season[16 * (1 + 5) + 1] = 0;
    CHECK(card_season(season, sizeof season, 7, target, sizeof target, 2, 4, 0, 0) == CARD_FULL);
    CHECK(memcmp(target, blank, sizeof target) == 0);
}

/* A copy of a copy is the copy. */
static void copied_seasons(void) {
    uint8_t card[CARD_BYTES(16, 4)] = {0}, once[CARD_BYTES(4, 6)] = {0};
    uint8_t between[CARD_BYTES(9, 5)] = {0}, twice[CARD_BYTES(4, 6)] = {0};
    seven(card, sizeof card);
    CHECK(card_season(card, sizeof card, 7, once, sizeof once, 4, 6, 0, 0) == CARD_OK);
    CHECK(card_season(card, sizeof card, 7, between, sizeof between, 9, 5, 2, 4) == CARD_OK);
    CHECK(card_season(between, sizeof between, 7, twice, sizeof twice, 4, 6, 0, 0) == CARD_OK);
    CHECK(memcmp(once, twice, sizeof once) == 0);
}

/* A card's state, and that of bytes that are no card. */
static void states(void) {
    static const struct card_state blank = {CARD_LAYOUT, 0, 0, 0, 0, 0, 0, 0};
    static const struct card_state left = {CARD_OK, 5, 6, 3, 4, 0, 77, 2};
    uint8_t card[CARD_BYTES(5, 6)] = {0};
    struct card_state state = card_state(card, sizeof card);
    CHECK(memcmp(&state, &blank, sizeof state) == 0);
    CHECK(card_format(card, sizeof card, 5, 6, 3, 4).code == CARD_OK);
    CHECK(card_post(card, sizeof card, 9, 77, 0, 1).code == CARD_OK);
    state = card_state(card, sizeof card);
    CHECK(memcmp(&state, &left, sizeof state) == 0);
}

/* A journal of three sectors, in the layout that the header words, from blank to full. */
static void journals(void) {
    static const struct card_answer accepted = {CARD_OK, 0, 0, 0, 0, 0};
    static const struct card_answer found = {CARD_OK, 8, 10, 0, 61, 0}, none = {CARD_OK, 8, 0, 0, 0, 0};
    uint8_t journal[3 * CARD_SECTOR_BYTES] = {0}, expected[sizeof journal] = {0};
    struct card_answer answer = journal_post(journal, sizeof journal, 8, 10, 0, 61);
    CHECK(memcmp(&answer, &accepted, sizeof answer) == 0);
    CHECK(journal_post(journal, sizeof journal, 3, 20, 0, 58).code == CARD_OK);
    answer = journal_strike(journal, sizeof journal, 8, 30);
    CHECK(memcmp(&answer, &accepted, sizeof answer) == 0);
    request(expected, CARD_KIND_POST, 8, 10, 61);
    request(expected + 16, CARD_KIND_POST, 3, 20, 58);
    request(expected + 32, CARD_KIND_STRIKE, 8, 30, 0);
    CHECK(memcmp(journal, expected, sizeof journal) == 0);
    answer = journal_look(journal, sizeof journal, 8, 29);
    CHECK(memcmp(&answer, &found, sizeof answer) == 0);
    answer = journal_look(journal, sizeof journal, 8, 30);
    CHECK(memcmp(&answer, &none, sizeof answer) == 0);
    answer = journal_next(journal, sizeof journal, 3, 29);
    CHECK(memcmp(&answer, &found, sizeof answer) == 0);
    answer = journal_next(journal, sizeof journal, 3, CARD_NOW);
    CHECK(memcmp(&answer, &accepted, sizeof answer) == 0);
    CHECK(memcmp(journal, expected, sizeof journal) == 0);
}

/* The refusals of the journal's calls in the header's order, each where those behind it would be given too. */
static void refused_journals(void) {
    static const struct card_answer refused = {CARD_LAYOUT, 0, 0, 0, 0, 0};
    uint8_t journal[CARD_SECTOR_BYTES] = {0}, before[sizeof journal];
    struct card_answer answer;
    request(journal, CARD_KIND_POST, 8, 10, 61);
    memcpy(before, journal, sizeof journal);
    answer = journal_strike(journal, sizeof journal - 1, 0, 10);
    CHECK(memcmp(&answer, &refused, sizeof answer) == 0);
    CHECK(journal_strike(journal, sizeof journal, 0, 10).code == CARD_NO_BIB);
    CHECK(journal_strike(journal, sizeof journal, 7, 10).code == CARD_STAMP);
    CHECK(journal_strike(journal, sizeof journal, 7, 11).code == CARD_NOTHING_STANDS);
    CHECK(journal_strike(journal, sizeof journal, 8, 11).code == CARD_FULL);
    CHECK(journal_post(journal, sizeof journal, 0, 10, 0, 1).code == CARD_NO_BIB);
    CHECK(journal_post(journal, sizeof journal, 7, 10, 0, 1).code == CARD_STAMP);
    CHECK(journal_post(journal, sizeof journal, 7, 11, 0, 1).code == CARD_FULL);
    CHECK(journal_post(journal, 0, 7, 11, 0, 1).code == CARD_FULL);
    CHECK(journal_look(journal, sizeof journal - 1, 0, 10).code == CARD_LAYOUT);
    CHECK(journal_look(journal, sizeof journal, 0, 10).code == CARD_NO_BIB);
    CHECK(memcmp(journal, before, sizeof journal) == 0);
    journal[0] = 3;
    CHECK(journal_next(journal, sizeof journal, 0, 10).code == CARD_LAYOUT);
    CHECK(journal_post(journal, sizeof journal, 7, 11, 0, 1).code == CARD_LAYOUT);
}

/* Each status as it is posted, asked, laid down in a row and stored, and 14 in its place among the refusals. */
static void statuses(void) {
    uint8_t card[CARD_BYTES(16, 4)] = {0}, journal[4 * CARD_SECTOR_BYTES] = {0}, page[4 * CARD_SECTOR_BYTES];
    uint8_t requests[3 * CARD_SECTOR_BYTES], answers[3] = {0};
    struct card_answer answer;
    uint32_t status;
    CHECK(CARD_STATUS_TIMED == 0 && CARD_STATUS_DID_NOT_FINISH == 1);
    CHECK(CARD_STATUS_DISQUALIFIED == 2 && CARD_STATUS_DID_NOT_START == 3 && CARD_NO_STATUS == 14);
    CHECK(card_format(card, sizeof card, 16, 4, 0, 0).code == CARD_OK);
    for (status = 0; status <= 3; status++) {
        CHECK(card_post(card, sizeof card, 5 + status, 10 + status, status, 0).code == CARD_OK);
        CHECK(journal_post(journal, sizeof journal, 5 + status, 10 + status, status, 0).code == CARD_OK);
        answer = card_look(card, sizeof card, 5 + status, CARD_NOW);
        CHECK(answer.at == 10 + status && answer.status == status && answer.time == 0);
        answer = journal_next(journal, sizeof journal, 4 + status, CARD_NOW);
        CHECK(answer.at == 10 + status && answer.status == status && answer.time == 0);
        CHECK(journal[CARD_SECTOR_BYTES * status] == 1 && journal[CARD_SECTOR_BYTES * status + 1] == status);
    }
    CHECK(card_records(card, sizeof card, 0, CARD_NOW, page, sizeof page).count == 4);
    CHECK(memcmp(page, journal, sizeof page) == 0);
    CHECK(card_post(card, sizeof card, 0, 1, 4, 0).code == CARD_NO_BIB);
    CHECK(card_post(card, sizeof card, 5, 1, 4, 0).code == CARD_NO_STATUS);
    CHECK(card_post(card, sizeof card, 5, 1, 1, 1).code == CARD_NO_STATUS);
    CHECK(card_post(card, sizeof card, 5, 1, 1, 0).code == CARD_STAMP);
    CHECK(journal_post(journal, sizeof journal, 0, 1, 4, 0).code == CARD_NO_BIB);
    CHECK(journal_post(journal, sizeof journal, 5, 1, 4, 0).code == CARD_NO_STATUS);
    CHECK(journal_post(journal, sizeof journal, 5, 1, 1, 0).code == CARD_STAMP);
    request(requests, CARD_KIND_POST, 5, 20, 0);
    request(requests + 16, CARD_KIND_POST, 6, 21, 0);
    request(requests + 32, CARD_KIND_STRIKE, 6, 22, 0);
    requests[1] = CARD_STATUS_DISQUALIFIED;
    requests[17] = 4;
    requests[33] = 1;
    CHECK(card_batch(card, sizeof card, requests, sizeof requests, answers, sizeof answers) == CARD_OK);
    CHECK(answers[0] == CARD_OK && answers[1] == CARD_NO_STATUS && answers[2] == CARD_NO_REQUEST);
    CHECK(card_look(card, sizeof card, 5, 20).status == CARD_STATUS_DISQUALIFIED);
}

/* What was said of a bib, strikes included, through rewritings; and the refusals in the header's order. */
static void histories(void) {
    uint8_t card[CARD_BYTES(16, 4)] = {0}, out[4 * CARD_SECTOR_BYTES], expected[4 * CARD_SECTOR_BYTES];
    struct card_tally tally;
    uint32_t at;
    CHECK(card_format(card, sizeof card, 16, 4, 0, 0).code == CARD_OK);
    CHECK(card_post(card, sizeof card, 7, 10, CARD_STATUS_TIMED, 90).code == CARD_OK);
    CHECK(card_strike(card, sizeof card, 7, 20).code == CARD_OK);
    CHECK(card_post(card, sizeof card, 7, 30, CARD_STATUS_DISQUALIFIED, 0).code == CARD_OK);
    for (at = 31; at <= 39; at++)
        CHECK(card_post(card, sizeof card, 8, at, CARD_STATUS_TIMED, at).code == CARD_OK);
    request(expected, CARD_KIND_POST, 7, 10, 90);
    request(expected + 16, CARD_KIND_STRIKE, 7, 20, 0);
    request(expected + 32, CARD_KIND_POST, 7, 30, 0);
    expected[33] = CARD_STATUS_DISQUALIFIED;
    memset(expected + 48, 0x5a, 16);
    memset(out, 0x5a, sizeof out);
    tally = card_history(card, sizeof card, 7, CARD_NOW, out, sizeof out);
    CHECK(tally.code == CARD_OK && tally.count == 3 && memcmp(out, expected, sizeof out) == 0);
    tally = card_history(card, sizeof card, 7, 29, out, 32);
    CHECK(tally.code == CARD_OK && tally.count == 2);
    CHECK(card_history(card, sizeof card, 9, CARD_NOW, out, 0).code == CARD_OK);
    tally = card_history(card, sizeof card, 7, 30, out, 47);
    CHECK(tally.code == CARD_NO_ROOM && tally.count == 0 && CARD_NO_ROOM == 15);
    card[8] = 5; /* a beginning */
    card[sizeof card - 16] = CARD_KIND_POST; /* a post of bib 0, which no path leads to */
    CHECK(card_history(card, sizeof card - 1, 0, 4, out, 0).code == CARD_LAYOUT);
    CHECK(card_history(card, sizeof card, 0, 4, out, 0).code == CARD_NO_BIB);
    CHECK(card_history(card, sizeof card, 7, 4, out, 0).code == CARD_TOO_EARLY);
    CHECK(card_history(card, sizeof card, 7, 30, out, 0).code == CARD_DAMAGE);
    CHECK(memcmp(out, expected, sizeof out) == 0);
}

static void texts(void) {
    static const char *const said[] = {
        "accepted",
        "the card's head or length breaks the layout",
        "bib 0 is no bib",
        "the stamp is not above the largest on the card",
        "the card is damaged on the log or path",
        "nothing stands for this bib",
        "the card is full",
        "the time does not fit the field",
        "the shape breaks a limit or is not of the card's length",
        "the card is not blank",
        "no answer of the card",
        "the request is not laid out as a post or a strike",
        "the requests are not whole or not as many as the answers",
        "the stamp asked about is before the card's beginning",
        "the status is none, or has a time beside it",
        "the buffer is too short",
        "no answer of the card",
    };
    uint32_t code;
    for (code = 0; code < sizeof said / sizeof *said; code++)
        check(strcmp(card_text(code), said[code]) == 0, said[code]);
}

static void version(void) {
    char numbers[16];
    snprintf(numbers, sizeof numbers, "%d.%d.%d", CARD_VERSION_MAJOR, CARD_VERSION_MINOR, CARD_VERSION_PATCH);
    check(strcmp(numbers, CARD_VERSION) == 0, "the version's numbers are its text");
}

int main(void) {
    layout_of_the_structs();
    limits();
    thresholds();
    answer_numbers();
    a_full_card();
    batches();
    seasons();
    refused_seasons();
    copied_seasons();
    states();
    journals();
    refused_journals();
    statuses();
    histories();
    texts();
    version();
    return wrong;
}
