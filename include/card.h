/* Race results on a write-once card: the calls of libcard.a.
 *
 * A card is `len` bytes at `card`. It keeps, for each bib number, every result that was posted and
 * every strike, each under a clock stamp, and never changes a byte that it has written. So what
 * stands for a bib can be asked as of any past stamp. docs/FORMAT.md says what each byte means.
 *
 * Words used below. A card has a head, a log of its roots and a number of buckets; a bucket has a
 * number of sectors of 16 bytes, each blank or one entry. A data bucket holds posts and strikes,
 * an index bucket leads to other buckets. The path of a call is the buckets it reads, from the
 * root to a data bucket. Damage is bytes that break the format.
 *
 * Every call takes every card and every number: bytes that are no card are refused, not trusted.
 * A call reads and writes only the bytes lent to it, allocates nothing and keeps nothing between
 * calls. `card` is not null, and with it `len` bytes can be read (and written, where it is not
 * const).
 *
 * A refusal has its number in `code` and zeros beside it, and the card is unchanged. Where several
 * numbers could be given, the first in the order listed at the call is. Accepted is code 0. The
 * requests of card_batch are answered and refused likewise, each by itself.
 *
 * Threads. Any number of threads may ask (card_look, card_next, card_records, card_history,
 * card_state) at the same time, and card_season asks the card that it copies.
 * card_format, card_post, card_strike and card_batch need the card alone, and card_season its
 * target: no other call on it may run meanwhile, and the caller sees to that. Different cards have
 * nothing to do with each other.
 *
 * Stack. On a card that these calls have made, each call takes at most CARD_STACK_OURS bytes of
 * stack, and on any bytes at all at most CARD_STACK_ANY: a card of another's making may have paths
 * of thousands of buckets. Both are measured, not proved; docs/PERFORMANCE.md has each call's own.
 *
 * Machine. The archive is for x86-64 with the System V calling convention, in ELF objects: Linux
 * and the BSDs, not Windows or macOS. It asks for memcpy and memset and nothing else.
 *
 * Blank is 0x00. A memory that erases to 0xFF has to be lent inverted, each byte as its complement.
 *
 * Power lost inside card_format, card_post, card_strike or card_batch is not provided for. The card
 * may then be damaged, or lack the call's entry, and where a full bucket was being divided, records
 * of it may be missing as of the call's stamp and later. What there is nevertheless: no byte
 * written before the call is touched; sectors are written one at a time, those of fresh buckets
 * first, then the entries that lead to them, the lower level before the upper, and an entry of the
 * root log last of all; and the sixteen bytes of a sector are stored one after the other, the kind
 * first. So until the first entry that leads to a fresh bucket is there, every question is answered
 * as before the call. What the call has written stays: its fresh buckets count as used, and its
 * stamp as given. In card_batch all this holds of the request at hand; what the ones before it have
 * written is whole. card_season writes to its target alone, and the root entry last of all: until
 * that is there the target has no root, which is damage, and the copy has to be made again on
 * another blank card. That is the order in the source; compiler, cache and memory keep it only
 * where they are made to. A caller who needs more makes the call on a copy and brings the changed
 * sectors over in that order.
 *
 * The last stamp. A post or strike needs a stamp above every stamp on the card, so one stamped
 * 4294967295 closes the card: it can be asked, but no more be written. card_state tells the largest
 * stamp of a card that is opened again.
 *
 * The beginning. A card made by card_format answers as of every stamp from 0. One made by card_season
 * as of a stamp begins with that stamp, and questions as of an earlier one are refused with 13.
 *
 * The journal. A controller that has no room for a card's tree keeps a plain journal: the journal_
 * calls, the last ones below. What is said above of every call, of threads, stack, machine, blank
 * bytes and the last stamp holds for them too: journal_post and journal_strike need the journal
 * alone, any number of threads may ask it. Power lost inside one of those two may leave its sector
 * in part: the slice may then be no journal, or have another last entry than was asked for. The
 * sectors before that one are a journal still, if they are lent by themselves.
 */
#ifndef CARD_H
#define CARD_H

#include <stddef.h>
#include <stdint.h>

#ifdef __cplusplus
extern "C" {
#ifdef __GNUC__
/* A struct and a call may have one name, of which g++ -Wshadow warns. */
#pragma GCC diagnostic push
#pragma GCC diagnostic ignored "-Wshadow"
#endif
#endif

/* The version of this header and of the archive that belongs to it. */
#define CARD_VERSION_MAJOR 0
#define CARD_VERSION_MINOR 1
#define CARD_VERSION_PATCH 0
#define CARD_VERSION "0.1.0"

/* Limits of what card_format and card_season take. TD and TI go up to the number of sectors. */
#define CARD_BUCKETS_MIN 2
#define CARD_BUCKETS_MAX 4096
#define CARD_SECTORS_MIN 4
#define CARD_SECTORS_MAX 32
#define CARD_TD_MIN 2
#define CARD_TI_MIN 4

/* The bytes of a sector, of a record or entry that card_records and card_history lay down and of a
 * request of card_batch. */
#define CARD_SECTOR_BYTES 16

/* The length of a card of `buckets` buckets of `sectors` sectors, for numbers within the limits. */
#define CARD_BYTES(buckets, sectors) \
    ((size_t)CARD_SECTOR_BYTES * (1 + (size_t)(buckets) * ((size_t)(sectors) + 1)))

/* The largest stamp: a question as of it is one as of now. */
#define CARD_NOW UINT32_C(4294967295)

/* Bytes of stack that suffice for any call: see Stack above. */
#define CARD_STACK_OURS 10240
#define CARD_STACK_ANY 524288

/* The answer numbers. */
enum card_code {
    CARD_OK = 0,             /* accepted, found, none or the end */
    CARD_LAYOUT = 1,         /* the head or the length is not that of a card; or no journal */
    CARD_NO_BIB = 2,         /* bib 0 */
    CARD_STAMP = 3,          /* the stamp is not above every stamp of the buckets, or journal */
    CARD_DAMAGE = 4,         /* damage met on the root log or on the path */
    CARD_NOTHING_STANDS = 5, /* a strike where nothing stands */
    CARD_FULL = 6,           /* more fresh buckets needed than remain, or no blank in the root log
                              * or journal */
    CARD_PANEL = 7,          /* no such field, or the time is too long for it */
    CARD_SHAPE = 8,          /* a limit of the shape broken, or the length not the shape's */
    CARD_NOT_BLANK = 9,      /* a byte of the card to be made is nonzero */
    CARD_NO_REQUEST = 11,    /* a request of a batch is not laid out as a post or a strike */
    CARD_UNPAIRED = 12,      /* a batch's requests are not whole, or not as many as its answers */
    CARD_TOO_EARLY = 13,     /* the stamp asked about is before the card's beginning */
    CARD_NO_STATUS = 14,     /* a status above 3, or a time beside a status other than 0 */
    CARD_NO_ROOM = 15        /* the buffer is too short for a history */
};

/* What a result says beside its time. Each of them stands until it is corrected or struck. The time
 * is 0 unless the status is CARD_STATUS_TIMED. */
enum card_status {
    CARD_STATUS_TIMED = 0,
    CARD_STATUS_DID_NOT_FINISH = 1,
    CARD_STATUS_DISQUALIFIED = 2,
    CARD_STATUS_DID_NOT_START = 3
};

/* What a request of card_batch asks for, and what an entry of card_history is: its byte 0. */
enum card_kind {
    CARD_KIND_POST = 1,
    CARD_KIND_STRIKE = 2
};

/* What an answer number means, in words. Of a journal 1, 3 and 6 say "the card" too. */
static inline const char *card_text(uint32_t code) {
    switch (code) {
    case CARD_OK:
        return "accepted";
    case CARD_LAYOUT:
        return "the card's head or length breaks the layout";
    case CARD_NO_BIB:
        return "bib 0 is no bib";
    case CARD_STAMP:
        return "the stamp is not above the largest on the card";
    case CARD_DAMAGE:
        return "the card is damaged on the log or path";
    case CARD_NOTHING_STANDS:
        return "nothing stands for this bib";
    case CARD_FULL:
        return "the card is full";
    case CARD_PANEL:
        return "the time does not fit the field";
    case CARD_SHAPE:
        return "the shape breaks a limit or is not of the card's length";
    case CARD_NOT_BLANK:
        return "the card is not blank";
    case CARD_NO_REQUEST:
        return "the request is not laid out as a post or a strike";
    case CARD_UNPAIRED:
        return "the requests are not whole or not as many as the answers";
    case CARD_TOO_EARLY:
        return "the stamp asked about is before the card's beginning";
    case CARD_NO_STATUS:
        return "the status is none, or has a time beside it";
    case CARD_NO_ROOM:
        return "the buffer is too short";
    default:
        return "no answer of the card";
    }
}

/* The answer of a call on a card or on a journal. */
struct card_answer {
    uint32_t code;   /* an enum card_code */
    uint32_t bib;    /* the record's bib */
    uint32_t at;     /* its stamp; 0 is no record */
    uint32_t status; /* an enum card_status */
    uint32_t time;   /* its time in thousandths of a second */
    uint32_t reads;  /* buckets read, in card_look only; a journal has none */
};

/* The answer of card_records and of card_history. */
struct card_tally {
    uint32_t code; /* an enum card_code */
    size_t count;  /* records or entries laid down */
};

/* The answer of card_state. */
struct card_state {
    uint32_t code;    /* CARD_OK or CARD_LAYOUT */
    uint32_t buckets; /* the card's buckets */
    uint32_t sectors; /* the sectors of a bucket */
    uint32_t td;      /* the threshold for data buckets, as the head has it: never 0 */
    uint32_t ti;      /* the threshold for index buckets, likewise */
    uint32_t begin;   /* the beginning: the stamp from which the card answers */
    uint32_t last;    /* the largest stamp; a post or strike needs one above it */
    uint32_t used;    /* the highest bucket used; those above it, buckets - used, are fresh */
};

/* The answer of card_digits. */
struct card_digits {
    uint32_t code;     /* CARD_OK or CARD_PANEL */
    uint8_t places[6]; /* the digits 0 to 9, highest first; places past the field are 0 */
};

/* Makes a blank card an empty one of `buckets` buckets of `sectors` sectors.
 * `td` and `ti` decide what becomes of a full bucket: its entries are thinned to the last of each
 * key and go to one fresh bucket where fewer than `td` (a data bucket) or `ti` (an index bucket)
 * are left, else to two. td 0 means half of `sectors` rounded down, sectors / 2;
 * ti 0 means `sectors` less an eighth of them rounded down, sectors - sectors / 8.
 * Refused: 8, a limit broken or `len` not CARD_BYTES(buckets, sectors); 9, a byte of the card
 * nonzero.
 * Leaves the head, one root entry, one index bucket and one data bucket with one entry each; all
 * other bytes stay zero. The answer is all zeros. */
struct card_answer card_format(uint8_t *card, size_t len, uint32_t buckets, uint32_t sectors,
                               uint32_t td, uint32_t ti);

/* Writes a result for `bib`: a first one or a correction. `status` is an enum card_status, and `time`
 * is 0 unless it is CARD_STATUS_TIMED.
 * Refused: 1, head or length breaks the layout; 2, bib 0; 14, `status` above 3, or a time beside a
 * status of 1 to 3; 3, `at` not above the largest stamp of the card's buckets; 4, damage met on the log or path; 6, more fresh buckets needed than remain,
 * or no blank log sector for a new root.
 * Leaves the entry in the first blank sector of the bib's data bucket, or fresh buckets and the
 * entries leading to them where that bucket was full. Only blank sectors are written. The answer
 * is all zeros. */
struct card_answer card_post(uint8_t *card, size_t len, uint32_t bib, uint32_t at, uint32_t status,
                             uint32_t time);

/* Erases what stands for `bib`, for questions as of `at` and later.
 * Refused: 1, 2, 3, 4 as card_post; 5, nothing stands; 6 as card_post. There is no 14.
 * Leaves what card_post would, with a strike in the place of the post. The answer is all zeros. */
struct card_answer card_strike(uint8_t *card, size_t len, uint32_t bib, uint32_t at);

/* Makes many posts and strikes in one call: a heat sheet, or a morning's results.
 * `requests` are sectors of 16 bytes, one behind the other. Byte 0 is the kind, 1 for a post and 2
 * for a strike; byte 1 is the status of a post, and 0 in a strike; bytes 2 and 3 are 0; bib, stamp
 * and value follow, each of 4 bytes, low first, from bytes 4, 8 and 12 on. The value is the time of a
 * post, and 0 in a strike. `answers` has one byte
 * for each request, which becomes its answer number. Neither is null, all their bytes can be read
 * and those of `answers` written, and no byte is lent twice: card, requests and answers do not
 * overlap.
 * Card and answers are left as the same calls, one by one and in this order, would leave and answer
 * them, and so it does not matter where a row of requests is cut into batches. A request that is
 * refused changes no byte of the card and does not stop the batch. What is saved is time: a post
 * by itself reads the whole card for its largest stamp; a batch does so once for all its requests,
 * or twice where the first of them is refused.
 * The batch itself answers 12 ahead of all else if `requests_len` is no multiple of 16 or if
 * `answers_len` is not the number of requests; then nothing is written, no answer either. Otherwise
 * it answers 0, also where there is no request, and also where every request is refused.
 * A request is refused: 1, head or length breaks the layout, so that every request is answered 1;
 * 11, its kind is not 1 or 2, its byte 2 or 3 is not 0, or it is a strike with a status or a value;
 * then 2, 14, 3, 4, 5, 6 as card_post and card_strike. */
uint32_t card_batch(uint8_t *card, size_t len, const uint8_t *requests, size_t requests_len,
                    uint8_t *answers, size_t answers_len);

/* What stands for `bib` as of stamp `at`.
 * Found: bib, stamp, status and time of the record, and the number of buckets read. None: bib, stamp
 * 0, status 0, time 0, and the number of buckets read.
 * Refused: 1, head or length breaks the layout; 2, bib 0; 13, `at` before the card's beginning; 4,
 * damage met on the log or path.
 * Leaves the card as it was. */
struct card_answer card_look(const uint8_t *card, size_t len, uint32_t bib, uint32_t at);

/* The record of the smallest bib above `bib` that stands as of stamp `at`; `bib` may be 0.
 * Found: bib, stamp, status and time of the record, reads 0. The end: all zeros.
 * Refused: 1, head or length breaks the layout; 13, `at` before the card's beginning; 4, damage met
 * on the log or path.
 * Leaves the card as it was. */
struct card_answer card_next(const uint8_t *card, size_t len, uint32_t bib, uint32_t at);

/* The records that card_next gives one after the other above `bib`, laid down at `out` as post
 * sectors of 16 bytes, as many as there are and as fit whole into its `room` bytes. Byte 0 is 1,
 * byte 1 the status, bytes 2 and 3 are 0, and bib, stamp and time follow, each of 4 bytes, low first. The bytes behind
 * the last record stay as they were. `out` is not null, its bytes can be read and written, and none
 * of them is the card's.
 * Refused: 1, head or length breaks the layout; 13, `at` before the card's beginning; both also where
 * `out` has no room for a record; 4, damage met before `out` is full. Then no byte of `out` is
 * written.
 * Leaves the card as it was. */
struct card_tally card_records(const uint8_t *card, size_t len, uint32_t bib, uint32_t at,
                               uint8_t *out, size_t room);

/* Everything ever said of `bib` up to stamp `at`: its posts and strikes, each once, by rising stamp,
 * laid down at `out` as sectors of 16 bytes, in the layout of the requests of card_batch. The answer
 * has their number. The bytes behind the last stay as they were. `out` is not null, its bytes can be
 * read and written, and none of them is the card's.
 * On a card made by card_format these are the posts and strikes of the bib that were accepted; on a
 * season card the record that it began with, if any, and what was accepted since. A bucket that is
 * rewritten copies entries; the copies count once. On a card of another's making one stamp may be
 * there twice for the bib: then the first such entry of the lowest bucket is given.
 * Refused: 1, head or length breaks the layout; 2, bib 0; 13, `at` before the card's beginning; 4, a
 * sector of the buckets, on a path or not, that is damaged or a root entry; the log is not asked; 15,
 * the whole sectors of `out` are too few. Then no byte of `out` is written. `room` of 16 bytes for
 * each bucket sector of the card is always enough.
 * Leaves the card as it was. */
struct card_tally card_history(const uint8_t *card, size_t len, uint32_t bib, uint32_t at,
                               uint8_t *out, size_t room);

/* Begins a fresh card with what stands on another, for when that one is full: a season card.
 * `target` is a blank card of `target_len` bytes; buckets, sectors, td and ti are its shape, as in
 * card_format. `target` is not null, its bytes can be read and written, and none of them is the
 * card's.
 * The records that stand on `card` as of `at` go to the target, just those that card_next gives one
 * after the other from bib 0, each with its own stamp; nothing of what was corrected or struck
 * before does. From `at` on the target answers by these records and by what is written to it.
 * What was before `at` is refused there, and has to be asked of the old card.
 * A post or strike on the target needs a stamp above `at`. So `at` is best the old card's last
 * stamp, from card_state: as of CARD_NOW the target would be closed before it is used.
 * A bucket is filled to q = sectors * 3 / 4 of its sectors, whatever td is. The target needs a
 * bucket for every q of the records and one entry more, rounded up; one for every q of those
 * buckets, rounded up; and so on until it is one: two buckets at least. Those left are what it has
 * for the season.
 * A season card can be copied again. If nothing was written to it meanwhile, its copy as of the
 * same stamp is byte for byte what a copy of the first card to that shape would be.
 * Refused: 1, head or length of the card breaks the layout; 13, `at` before the card's beginning;
 * 8, a limit of the target's shape broken or `target_len` not CARD_BYTES(buckets, sectors); 9, a
 * byte of the target nonzero; 4, damage met on the card where card_next would meet it, up to the
 * end; 6, the target has too few buckets. Then no byte of the target is written.
 * Leaves the card as it was. The answer is the number alone. */
uint32_t card_season(const uint8_t *card, size_t len, uint32_t at, uint8_t *target, size_t target_len,
                     uint32_t buckets, uint32_t sectors, uint32_t td, uint32_t ti);

/* What a program has to know of a card that it opens again: its shape, its beginning, its largest
 * stamp and how many buckets are used.
 * `begin` is 0 on a card made by card_format, and the stamp that a season card was made as of.
 * `last` is the largest stamp of any sector of the buckets whose kind is not 0, or 0 where there is
 * none: just what refusal 3 compares with. On a card that these calls have made it is the stamp of
 * the last post or strike that was accepted, or the beginning where there was none. `used` is the
 * highest bucket with a nonzero byte, or 0; the next fresh bucket is the one above it.
 * Refused: 1, head or length breaks the layout. Damage is not asked for.
 * Leaves the card as it was. */
struct card_state card_state(const uint8_t *card, size_t len);

/* The digits of a time in thousandths on a panel field of 4 (seconds, hundredths), 5 (a minute
 * digit before them) or 6 (two) places. A time that is no whole hundredth goes to the next longer
 * one: 58901 is shown as 58.91. Leading zeros are shown. What a panel shows for a result without a
 * time is for its program to say: of the time 0 beside it these are only zeros.
 * Refused: 7, field not 4, 5 or 6, or the time, so rounded, too long for it: above 59.99, 9:59.99,
 * 99:59.99. */
struct card_digits card_digits(uint32_t time, uint32_t field);

/* The plain journal: accepted posts and strikes in arrival order, one sector of 16 bytes for each, on
 * a slice of `len` bytes at `journal` that is blank at first. There is nothing to format, and all
 * of the slice is for entries; but every call reads it through, so that a question takes the longer
 * the longer the slice is. docs/PERFORMANCE.md says where a card begins to be quicker.
 * A slice is a journal if `len` is a multiple of 16 and its sectors are posts and strikes, laid out
 * as the requests of card_batch are, then blanks: bibs from 1, and stamps from 1, each above the one
 * before it. Whether a strike struck something is not asked. An empty slice is a journal, and full.
 * From a blank slice and a card just formatted, the same calls are answered alike, but for the reads,
 * until one of the two has answered 6. No call on a journal answers 4 or 13. */

/* Writes a result for `bib`: a first one or a correction, with status and time as in card_post.
 * Refused: 1, the slice is no journal; 2, bib 0; 14, `status` above 3, or a time beside a status of
 * 1 to 3; 3, `at` not above the last stamp, or 0; 6, no blank sector.
 * Leaves the entry in the first blank sector, and every other byte as it was. The answer is all
 * zeros. */
struct card_answer journal_post(uint8_t *journal, size_t len, uint32_t bib, uint32_t at, uint32_t status,
                                uint32_t time);

/* Erases what stands for `bib`, for questions as of `at` and later.
 * Refused: 1, 2, 3 as journal_post; 5, nothing stands; 6 as journal_post. There is no 14.
 * Leaves what journal_post would, with a strike in the place of the post. The answer is all zeros. */
struct card_answer journal_strike(uint8_t *journal, size_t len, uint32_t bib, uint32_t at);

/* What stands for `bib` as of stamp `at`.
 * Found: bib, stamp, status and time of the record. None: bib, and the rest 0. Reads is 0.
 * Refused: 1, the slice is no journal; 2, bib 0.
 * Leaves the journal as it was. */
struct card_answer journal_look(const uint8_t *journal, size_t len, uint32_t bib, uint32_t at);

/* The record of the smallest bib above `bib` that stands as of stamp `at`; `bib` may be 0.
 * Found: bib, stamp, status and time of the record. The end: all zeros. Reads is 0.
 * Refused: 1, the slice is no journal.
 * Leaves the journal as it was. */
struct card_answer journal_next(const uint8_t *journal, size_t len, uint32_t bib, uint32_t at);

#ifdef __cplusplus
#ifdef __GNUC__
#pragma GCC diagnostic pop
#endif
}
#endif

#endif
