/* A day's meeting on a card that lies in a file: `meeting FILE`.
 *
 * The first run makes the file and records the morning; a later run opens it again, asks the card for
 * its last stamp and goes on above it, call by call and then with a heat's sheet in one call, and at last
 * takes what stands to a fresh card. The file is mapped into memory, so the card's bytes are lent to the
 * calls as they are.
 */
#define _POSIX_C_SOURCE 200809L

#include "card.h"

#include <fcntl.h>
#include <stdio.h>
#include <stdlib.h>
#include <sys/mman.h>
#include <sys/stat.h>
#include <unistd.h>

enum { BUCKETS = 16, SECTORS = 4, PAGE = 3, LINES = 6, NEXT_BUCKETS = 8, NEXT_SECTORS = 8 };

struct file {
    uint8_t *card;
    size_t len;
    int made; /* the file was not there before */
};

static void die(const char *what) {
    perror(what);
    exit(1);
}

/* Maps the file; a new one is made as long as the card, all zeros, which is what blank means. */
static struct file open_card(const char *path) {
    struct file file = {NULL, CARD_BYTES(BUCKETS, SECTORS), 0};
    struct stat stat;
    void *bytes;
    int fd = open(path, O_RDWR | O_CREAT, 0644);
    if (fd < 0 || fstat(fd, &stat) != 0)
        die(path);
    file.made = stat.st_size == 0;
    if (file.made && ftruncate(fd, (off_t)file.len) != 0)
        die(path);
    /* a file of another length is lent as it is: the calls refuse what is no card */
    if (!file.made)
        file.len = (size_t)stat.st_size;
    bytes = mmap(NULL, file.len, PROT_READ | PROT_WRITE, MAP_SHARED, fd, 0);
    if (bytes == MAP_FAILED || close(fd) != 0)
        die(path);
    file.card = (uint8_t *)bytes;
    return file;
}

static void close_card(struct file file) {
    if (msync(file.card, file.len, MS_SYNC) != 0 || munmap(file.card, file.len) != 0)
        die("the card");
}

/* What the card says of itself; the caller goes on above its last stamp. */
static struct card_state state(struct file file) {
    struct card_state state = card_state(file.card, file.len);
    if (state.code != CARD_OK)
        printf("state: %s\n", card_text(state.code));
    else
        printf("state: last stamp %u, %u of %u buckets fresh\n", state.last, state.buckets - state.used,
               state.buckets);
    return state;
}

static void post(struct file file, uint32_t bib, uint32_t at, uint32_t time) {
    struct card_answer answer = card_post(file.card, file.len, bib, at, CARD_STATUS_TIMED, time);
    printf("post bib %u at %u, time %u: %s\n", bib, at, time, card_text(answer.code));
}

/* What a panel would show for a result without a time. */
static const char *words(uint32_t status) {
    return status == CARD_STATUS_DID_NOT_FINISH ? "did not finish"
         : status == CARD_STATUS_DISQUALIFIED   ? "disqualified"
                                                : "did not start";
}

/* A result that stands like a time, but has none. */
static void post_without_time(struct file file, uint32_t bib, uint32_t at, uint32_t status) {
    struct card_answer answer = card_post(file.card, file.len, bib, at, status, 0);
    printf("post bib %u at %u, %s: %s\n", bib, at, words(status), card_text(answer.code));
}

static void strike(struct file file, uint32_t bib, uint32_t at) {
    struct card_answer answer = card_strike(file.card, file.len, bib, at);
    printf("strike bib %u at %u: %s\n", bib, at, card_text(answer.code));
}

static void look(struct file file, uint32_t bib, uint32_t at) {
    struct card_answer answer = card_look(file.card, file.len, bib, at);
    printf("bib %u as of %u: ", bib, at);
    if (answer.code != CARD_OK)
        printf("%s\n", card_text(answer.code));
    else if (answer.at == 0)
        printf("nothing stands (%u buckets read)\n", answer.reads);
    else if (answer.status != CARD_STATUS_TIMED)
        printf("%s, posted at %u (%u buckets read)\n", words(answer.status), answer.at, answer.reads);
    else
        printf("time %u, posted at %u (%u buckets read)\n", answer.time, answer.at, answer.reads);
}

/* What a panel of `field` places shows of a time. */
static void panel(uint32_t time, uint32_t field) {
    struct card_digits digits = card_digits(time, field);
    uint32_t i;
    printf("panel of %u, time %u: ", field, time);
    if (digits.code != CARD_OK) {
        printf("%s\n", card_text(digits.code));
        return;
    }
    for (i = 0; i < field; i++)
        printf("%s%u", i + 4 == field && i > 0 ? ":" : i + 2 == field ? "." : "", digits.places[i]);
    printf("\n");
}

/* Every record that stands as of a stamp, one call for each. */
static void list(struct file file, uint32_t at) {
    uint32_t bib = 0;
    for (;;) {
        struct card_answer answer = card_next(file.card, file.len, bib, at);
        if (answer.code != CARD_OK) {
            printf("list: %s\n", card_text(answer.code));
            return;
        }
        if (answer.bib == 0)
            return;
        printf("standing: bib %u, time %u, posted at %u\n", answer.bib, answer.time, answer.at);
        bib = answer.bib;
    }
}

/* The number in four bytes, low first. */
static uint32_t number(const uint8_t *bytes) {
    return bytes[0] | (uint32_t)bytes[1] << 8 | (uint32_t)bytes[2] << 16 | (uint32_t)bytes[3] << 24;
}

/* The same records a page at a time, one call for each page. */
static void pages(struct file file, uint32_t at) {
    uint8_t page[PAGE * CARD_SECTOR_BYTES];
    uint32_t bib = 0;
    struct card_tally tally;
    do {
        size_t i;
        tally = card_records(file.card, file.len, bib, at, page, sizeof page);
        if (tally.code != CARD_OK)
            printf("page: %s\n", card_text(tally.code));
        for (i = 0; i < tally.count; i++) {
            bib = number(page + CARD_SECTOR_BYTES * i + 4);
            printf("%sbib %u %u", i == 0 ? "page: " : ", ", bib,
                   number(page + CARD_SECTOR_BYTES * i + 12));
        }
        if (tally.count > 0)
            printf("\n");
    } while (tally.count == PAGE);
}

/* A line of a heat's sheet. */
struct line {
    uint8_t kind; /* an enum card_kind */
    uint32_t bib;
    uint32_t at;
    uint32_t time;
};

static void put_number(uint8_t *bytes, uint32_t number) {
    int i;
    for (i = 0; i < 4; i++)
        bytes[i] = (uint8_t)(number >> 8 * i & 0xff);
}

/* The line as a request of card_batch. */
static void put_request(uint8_t *request, struct line line) {
    request[0] = line.kind;
    request[1] = CARD_STATUS_TIMED;
    request[2] = request[3] = 0;
    put_number(request + 4, line.bib);
    put_number(request + 8, line.at);
    put_number(request + 12, line.time);
}

/* A whole sheet in one call. Each line has its own answer, and a refused one does not stop the others. */
static void heat(struct file file, const struct line *lines) {
    uint8_t requests[LINES * CARD_SECTOR_BYTES], answers[LINES];
    uint32_t code;
    int i;
    for (i = 0; i < LINES; i++)
        put_request(requests + CARD_SECTOR_BYTES * i, lines[i]);
    code = card_batch(file.card, file.len, requests, sizeof requests, answers, sizeof answers);
    printf("heat of %d lines: %s\n", LINES, card_text(code));
    for (i = 0; i < LINES && code == CARD_OK; i++)
        printf("heat: kind %u, bib %u at %u: %s\n", lines[i].kind, lines[i].bib, lines[i].at,
               card_text(answers[i]));
}

static void morning(struct file file) {
    struct card_answer answer = card_format(file.card, file.len, BUCKETS, SECTORS, 0, 0);
    printf("new card of %zu bytes: %s\n", file.len, card_text(answer.code));
    post(file, 8, 10, 61230);
    post(file, 3, 20, 58900);
    post(file, 11, 30, 59990);
    post(file, 5, 40, 60000);
    post(file, 11, 50, 59980); /* a correction */
    strike(file, 8, 60);
    look(file, 11, 49);
    look(file, 11, 50);
    look(file, 8, 59);
    look(file, 8, 60);
    list(file, CARD_NOW);
    pages(file, 59);
    panel(58900, 4);
    panel(60000, 4);
    panel(60000, 5);
    panel(60000, 6);
}

/* The season goes on with a fresh card, here one in memory: what stands is on it, and what was before has to
 * be asked of the old one. */
static void season(struct file file) {
    static uint8_t blank[CARD_BYTES(NEXT_BUCKETS, NEXT_SECTORS)];
    struct file fresh = {blank, sizeof blank, 1};
    uint32_t at = card_state(file.card, file.len).last;
    uint32_t code =
        card_season(file.card, file.len, at, fresh.card, fresh.len, NEXT_BUCKETS, NEXT_SECTORS, 0, 0);
    printf("season card of %zu bytes as of %u: %s\n", fresh.len, at, card_text(code));
    list(fresh, at);
    state(fresh);
    look(file, 22, at - 1);
    look(fresh, 22, at - 1);
    post(fresh, 22, at, 57850);
    post(fresh, 22, at + 1, 57850);
    look(fresh, 22, at + 1);
    post_without_time(fresh, 21, at + 2, CARD_STATUS_DISQUALIFIED);
    look(fresh, 21, at + 1);
    look(fresh, 21, at + 2);
}

/* The last heat, its clock from `at` on. */
static void evening(struct file file, uint32_t at) {
    const struct line lines[LINES] = {
        {CARD_KIND_POST, 21, at, 57300},
        {CARD_KIND_POST, 22, at + 1, 57900},
        {CARD_KIND_POST, 0, at + 2, 58000},    /* the scanner read no bib */
        {CARD_KIND_STRIKE, 22, at + 2, 57900}, /* a strike has no time */
        {CARD_KIND_POST, 23, at + 1, 58400},   /* the clock ran backwards */
        {CARD_KIND_STRIKE, 22, at + 2, 0},
    };
    heat(file, lines);
    list(file, CARD_NOW);
    state(file);
    season(file);
}

static void afternoon(struct file file) {
    struct card_state found = state(file);
    uint32_t last = found.last;
    if (found.code != CARD_OK) /* some other file */
        exit(1);
    post(file, 3, last, 58000); /* not above it */
    post(file, 8, last + 1, 62010);
    strike(file, 7, last + 2);
    look(file, 8, last + 1);
    look(file, 8, last);
    list(file, CARD_NOW);
    state(file);
    evening(file, last + 2);
}

int main(int argc, char **argv) {
    struct file file;
    if (argc != 2) {
        fprintf(stderr, "usage: meeting FILE\n");
        return 2;
    }
    file = open_card(argv[1]);
    if (file.made)
        morning(file);
    else
        afternoon(file);
    close_card(file);
    return 0;
}
