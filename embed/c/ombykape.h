/* The proved pool for C: the calls of libexports.a, and those on desks of libturns.a.
 *
 * A pool is a map from 64-bit keys to 64-bit values in lent 64-bit words. The calls that change it plan: format, recover, put
 * and delete write events into a lent list and change no word of the pool, and the caller then carries the events out, in
 * order. On persistent memory that takes real stores of 8 bytes, flushes of the line's words (clwb, clflushopt or clflush)
 * and fences (sfence); a line of the pool is one cache line if the words start at one. carry_out, carry_all and turn carry
 * out by plain stores and leave flushes and fences away, so they suit memory that no power cut has to spare.
 *
 * Every call is total: it takes memory of any content and any length, and refuses what it cannot use. A refusal leaves
 * everything lent unchanged. What is proved is proved of callers that keep these duties:
 * - Every pointer is aligned for its type and not null, at a length of 0 too. Its length, counted in elements, says how many of
 *   them may be read, and written where the pointer is not to const.
 * - No two of the pieces of memory lent to one call overlap, unless both are only read.
 * - Nothing else, no thread, no process and no device, writes to what is lent before the call returns, or reads what the call
 *   writes. The calls keep no pointer and have no state of their own.
 * - For a mapped file: no one shortens the file while a call runs.
 */
#ifndef OMBYKAPE_H
#define OMBYKAPE_H

#include <stddef.h>
#include <stdint.h>

#ifdef __cplusplus
extern "C" {
#endif

#define OMBYKAPE_LINE_WORDS 8            /* the words of a line */
#define OMBYKAPE_LIST_WORDS 372          /* the words of an event list, at least */
#define OMBYKAPE_CAPACITY_MOST 40000     /* the nodes of a pool, at most */
#define OMBYKAPE_MEMBERS_MOST 16         /* the desks of a list, at most */
#define OMBYKAPE_WORDS_OF(capacity) (72 + 16 * (size_t)(capacity)) /* the words that a pool of a legal capacity takes */

/* An event n, from 1, takes words 2n - 2 and 2n - 1 of the list: the kind in the top byte, with the number of the word or the
 * line below it, and then the value stored (0 for a flush or a fence). */
enum ombykape_event { OMBYKAPE_STORE = 1, OMBYKAPE_FLUSH = 2, OMBYKAPE_FENCE = 3 };

#define OMBYKAPE_EVENT_KIND(first) ((first) >> 56)
#define OMBYKAPE_EVENT_NUMBER(first) ((first) & 0x00ffffffffffffffu)

/* The kinds of an answer. */
enum ombykape_kind {
    OMBYKAPE_REFUSED = 0,
    OMBYKAPE_NEW = 1,       /* put of an absent key */
    OMBYKAPE_REPLACED = 2,  /* put of a present key */
    OMBYKAPE_REMOVED = 3,   /* delete of a present key */
    OMBYKAPE_ABSENT = 4,    /* fetch or delete of an absent key */
    OMBYKAPE_FOUND = 5,     /* fetch of a present key */
    OMBYKAPE_FORMATTED = 6,
    OMBYKAPE_CLEAN = 7,     /* recover: no change was unfinished */
    OMBYKAPE_RECOVERED = 8, /* recover: a committed change is done again */
    OMBYKAPE_SOUND = 9,     /* check: well formed */
    OMBYKAPE_FAULT = 10,    /* check: not well formed */
    OMBYKAPE_DONE = 11,     /* carry_out */
    OMBYKAPE_ACCEPTED = 12, /* submit */
    OMBYKAPE_IDLE = 13      /* turn: no desk was full */
};

/* The numbers of refusal. */
enum ombykape_refusal {
    OMBYKAPE_SHORT_LIST = 1,   /* the event list is under 372 words */
    OMBYKAPE_NO_POOL = 2,      /* too few words, another form number, a wrong header, or fewer words than its total */
    OMBYKAPE_UNFINISHED = 3,   /* the commit word is not 0: recover first */
    OMBYKAPE_DAMAGED = 4,      /* the header's counts or a node on the way are damaged, or all of eight levels are full */
    OMBYKAPE_NO_ROOM = 5,      /* a split needs more nodes than are left */
    OMBYKAPE_BAD_LOG = 6,      /* the log is not one that recovery takes */
    OMBYKAPE_BAD_CAPACITY = 7, /* the capacity is outside 1 to 40,000 */
    OMBYKAPE_SHORT_SLICE = 8,  /* fewer words than a pool of that capacity takes */
    OMBYKAPE_NO_DESK = 9,      /* no desks or over 16, or the member or last served is past them */
    OMBYKAPE_FULL_DESK = 10,   /* the member's desk is full */
    OMBYKAPE_SHORT_MARKS = 11, /* fewer marks than the capacity */
    OMBYKAPE_NO_EVENT = 12     /* no such event, or it reaches outside the words */
};

typedef struct {
    uint64_t kind;   /* an ombykape_kind */
    uint64_t events; /* of a call that plans: the events that the list holds, from its start; of carry_out 1 */
    uint64_t value;  /* the value found, the pairs replayed, or the number of the refusal */
} ombykape_reply;

typedef struct {
    uint64_t kind;    /* OMBYKAPE_SOUND, OMBYKAPE_FAULT or OMBYKAPE_REFUSED */
    uint64_t number;  /* the nodes, the node at fault (0: the nodes differ from the header's count), or the refusal's number */
    uint64_t records; /* the records of a sound pool */
} ombykape_verdict;

/* A refused turn has member 0. A refusal with a member is the answer to that member, whose desk is then empty. */
typedef struct {
    uint64_t kind;   /* the answer to the request served, OMBYKAPE_IDLE, or OMBYKAPE_REFUSED */
    uint64_t member; /* the member served, from 1; 0 for none */
    uint64_t events; /* the events carried out, which the list holds, from its start */
    uint64_t last;   /* the last served, to be handed to the next turn */
    uint64_t value;  /* the value found, or the number of the refusal */
} ombykape_turn_reply;

/* A member's desk. Kind 0 is an empty one, with key and value 0; so is any kind over 3. */
typedef struct {
    uint64_t kind; /* 0 empty, 1 put, 2 fetch, 3 delete */
    uint64_t key;
    uint64_t value;
} ombykape_desk;

/* Plan into the list. */
ombykape_reply ombykape_format(const uint64_t *pool, size_t pool_len, uint64_t *list, size_t list_len, uint64_t capacity);
ombykape_reply ombykape_recover(const uint64_t *pool, size_t pool_len, uint64_t *list, size_t list_len);
ombykape_reply ombykape_put(const uint64_t *pool, size_t pool_len, uint64_t *list, size_t list_len, uint64_t key,
                            uint64_t value);
ombykape_reply ombykape_delete(const uint64_t *pool, size_t pool_len, uint64_t *list, size_t list_len, uint64_t key);

/* Read. check takes a byte of marks for each node of the capacity, and writes them. */
ombykape_reply ombykape_fetch(const uint64_t *pool, size_t pool_len, uint64_t key);
ombykape_verdict ombykape_check(const uint64_t *pool, size_t pool_len, uint8_t *marks, size_t marks_len);

/* Carry out event n of the list, from 1, or all up to a number, by plain stores; carry_all passes over what carry_out refuses. */
ombykape_reply ombykape_carry_out(uint64_t *pool, size_t pool_len, const uint64_t *list, size_t list_len, uint64_t n);
void ombykape_carry_all(uint64_t *pool, size_t pool_len, const uint64_t *list, size_t list_len, uint64_t events);

/* Desks, in libturns.a: lay a request on the desk of a member, from 1; serve the first full desk after the one last served (0 at first),
 * going round, carrying its events out by plain stores. */
ombykape_reply ombykape_submit_put(ombykape_desk *desks, size_t desks_len, uint64_t member, uint64_t key, uint64_t value);
ombykape_reply ombykape_submit_fetch(ombykape_desk *desks, size_t desks_len, uint64_t member, uint64_t key);
ombykape_reply ombykape_submit_delete(ombykape_desk *desks, size_t desks_len, uint64_t member, uint64_t key);
ombykape_turn_reply ombykape_turn(uint64_t *pool, size_t pool_len, uint64_t *list, size_t list_len, ombykape_desk *desks,
                                  size_t desks_len, uint64_t last);

#ifdef __cplusplus
}
#endif

#endif
