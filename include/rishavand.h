/*
 * Rishavand: a proved IPv4 route table in a buffer that the caller lends.
 *
 * A pool is an array of uint32_t. The caller owns it, lends it to each call as a
 * pointer and a count of words, and may copy or keep it between calls; the
 * library has no memory of its own, allocates nothing and starts no thread.
 *
 * What each call answers is proved for any words that the pool may hold and for
 * any numbers that are passed. What C cannot promise the caller has to:
 *   - `pool` points to `words` readable (and, where it is not const, writable)
 *     words, is aligned for uint32_t and is not null, even where `words` is 0;
 *   - an out-parameter points to as many words as its array says, is not null
 *     and does not lie inside the pool;
 *   - no other thread changes the pool while a call runs.
 *
 * An address is one number with the first octet highest: 127.0.0.1 is 0x7F000001.
 */
#ifndef RISHAVAND_H
#define RISHAVAND_H

#include <stddef.h>
#include <stdint.h>

#ifdef __cplusplus
extern "C" {
#endif

/* The largest capacity, the most changes that may stand in a trial, the last
 * port, of which the first is 0, and the last metric, of which the first is 1. */
#define RISHAVAND_LARGEST_CAPACITY 512
#define RISHAVAND_MOST_CHANGES 64
#define RISHAVAND_LAST_PORT 15
#define RISHAVAND_LAST_METRIC 15

/* What rishavand_words answers for a good capacity, as a constant, for an array:
 * 8 words, 12 for each route and 16 for each change. */
#define RISHAVAND_WORDS(capacity) (8 + 12 * (capacity) + 16 * RISHAVAND_MOST_CHANGES)

/* The words that are enough for any capacity. */
#define RISHAVAND_MOST_WORDS RISHAVAND_WORDS(RISHAVAND_LARGEST_CAPACITY)

/* What a call answers: 0 for done, or why it refused. A refusal changes no word
 * of the pool and writes no out-parameter. Where several would do, the first in
 * the order that stands at the call is given. */
enum rishavand_number {
    RISHAVAND_DONE = 0,
    RISHAVAND_BAD_CAPACITY = 1,     /* capacity 0 or above RISHAVAND_LARGEST_CAPACITY */
    RISHAVAND_SHORT_BUFFER = 2,     /* buffer shorter than needed */
    RISHAVAND_BAD_PREFIX = 3,       /* length above 32, a set bit past the length, or a mask with a hole */
    RISHAVAND_BAD_HOP = 4,          /* no such kind, port above RISHAVAND_LAST_PORT, or gateway 0.0.0.0 */
    RISHAVAND_ALREADY_THERE = 5,    /* prefix already there */
    RISHAVAND_NOT_THERE = 6,        /* prefix not there */
    RISHAVAND_TABLE_FULL = 7,       /* routes held equal the capacity */
    RISHAVAND_TRIAL_FULL = 8,       /* a trial is open with RISHAVAND_MOST_CHANGES standing */
    RISHAVAND_NOT_SOUND = 9,        /* pool not sound, or too short for what it says */
    RISHAVAND_TRIAL_IS_OPEN = 10,   /* a trial is already open */
    RISHAVAND_NO_TRIAL = 11,        /* no trial is open */
    RISHAVAND_NOTHING_STANDING = 12, /* trial open, nothing standing */
    RISHAVAND_NO_MATCH = 13,        /* no route matches */
    RISHAVAND_NO_FURTHER = 14,      /* no further route */
    RISHAVAND_ROUTE_IS_FIXED = 15,  /* a learned change or delete aimed at a fixed route */
    RISHAVAND_BAD_METRIC = 16       /* learned metric 0 or above RISHAVAND_LAST_METRIC */
};

/* The kinds of a hop. Which of port and gateway a kind uses stands beside it;
 * the others are 0 going out and are not looked at coming in. */
enum rishavand_kind {
    RISHAVAND_DIRECT = 0,           /* straight out of a port: port */
    RISHAVAND_VIA = 1,              /* by a gateway behind a port: port, gateway */
    RISHAVAND_REJECT = 2            /* nowhere: neither */
};

/* Where a route came from. A metric goes out with a learned one, else 0. */
enum rishavand_origin {
    RISHAVAND_FIXED = 0,            /* a plain add or change made it */
    RISHAVAND_LEARNED = 1           /* a learned add or change made it */
};

/* Where each word of a route stands. */
enum rishavand_route_word {
    RISHAVAND_ADDRESS = 0,
    RISHAVAND_LENGTH = 1,
    RISHAVAND_KIND = 2,
    RISHAVAND_PORT = 3,
    RISHAVAND_GATEWAY = 4,
    RISHAVAND_ORIGIN = 5,
    RISHAVAND_METRIC = 6,
    RISHAVAND_ROUTE_WORDS = 7
};

/* How many words a pool of this capacity needs; 0 for a capacity that
 * rishavand_fresh refuses. */
size_t rishavand_words(uint32_t capacity);

/* Makes an empty table with no trial open, whatever the words held.
 * 0, 1, 2: 1 before 2. */
uint32_t rishavand_fresh(uint32_t *pool, size_t words, uint32_t capacity);

/* Whether the pool is sound: 1 yes, 0 no. Any words may be asked about. */
uint32_t rishavand_sound(const uint32_t *pool, size_t words);

/* One route more, and it is fixed. 0, or the first of 9, 3, 4, 5, 8, 7. */
uint32_t rishavand_add(uint32_t *pool, size_t words, uint32_t address, uint32_t length,
                       uint32_t kind, uint32_t port, uint32_t gateway);

/* Another hop for the route of a prefix, which is fixed from then on; the same
 * hop again is accepted and counts as a change. 0, or the first of 9, 3, 4, 6, 8. */
uint32_t rishavand_change(uint32_t *pool, size_t words, uint32_t address, uint32_t length,
                          uint32_t kind, uint32_t port, uint32_t gateway);

/* One route less, whatever its origin. 0, or the first of 9, 3, 6, 8. */
uint32_t rishavand_delete(uint32_t *pool, size_t words, uint32_t address, uint32_t length);

/* The same for what a routing protocol learns: it leaves fixed routes alone.
 * One learned route more. 0, or the first of 9, 3, 4, 16, 5, 8, 7. */
uint32_t rishavand_learned_add(uint32_t *pool, size_t words, uint32_t address, uint32_t length,
                               uint32_t kind, uint32_t port, uint32_t gateway, uint32_t metric);

/* Another hop and another metric for a learned route.
 * 0, or the first of 9, 3, 4, 16, 6, 15, 8. */
uint32_t rishavand_learned_change(uint32_t *pool, size_t words, uint32_t address, uint32_t length,
                                  uint32_t kind, uint32_t port, uint32_t gateway, uint32_t metric);

/* One learned route less. 0, or the first of 9, 3, 6, 15, 8. */
uint32_t rishavand_learned_delete(uint32_t *pool, size_t words, uint32_t address, uint32_t length);

/* The route with the longest prefix that matches a destination: address, length,
 * kind, port, gateway, origin, metric. 0 or 13 in a sound pool. It is the call
 * made per packet and does not test the whole pool: in one that is not sound it
 * ends, stays inside the pool and answers 0, 9 or 13. */
uint32_t rishavand_lookup(const uint32_t *pool, size_t words, uint32_t destination,
                          uint32_t route[RISHAVAND_ROUTE_WORDS]);

/* The walk: lower addresses first, for one address the longer prefix first.
 * The first route: 0, or the first of 9, 14. */
uint32_t rishavand_first(const uint32_t *pool, size_t words, uint32_t route[RISHAVAND_ROUTE_WORDS]);

/* The next route after a prefix, held or not: 0, or the first of 9, 3, 14. */
uint32_t rishavand_next(const uint32_t *pool, size_t words, uint32_t address, uint32_t length,
                        uint32_t route[RISHAVAND_ROUTE_WORDS]);

/* How many routes the table still takes. 0 or 9. */
uint32_t rishavand_room(const uint32_t *pool, size_t words, uint32_t room[1]);

/* The length of a mask. 0, or 3 for a mask with a hole. */
uint32_t rishavand_mask_length(uint32_t mask, uint32_t length[1]);

/* The length to pass with a mask: its ones, or 33 for one with a hole, so that
 * the call that it is passed to answers 3 in its place. It answers no number. */
uint32_t rishavand_masked(uint32_t mask);

/* Opens a trial: from here on each accepted add, delete and change, plain and
 * learned, is recorded with its whole route, so that taking it back restores the
 * origin too; at most RISHAVAND_MOST_CHANGES. 0, or the first of 9, 10. */
uint32_t rishavand_open(uint32_t *pool, size_t words);

/* Keeps the trial's changes and closes it. 0, or the first of 9, 11. */
uint32_t rishavand_keep(uint32_t *pool, size_t words);

/* Takes back all recorded changes and closes the trial; while one is open it is
 * never refused in a sound pool. 0, or the first of 9, 11. */
uint32_t rishavand_back_out(uint32_t *pool, size_t words);

/* Takes back the newest recorded change; the trial stays open.
 * 0, or the first of 9, 11, 12. */
uint32_t rishavand_step_back(uint32_t *pool, size_t words);

#ifdef __cplusplus
}
#endif

#endif
