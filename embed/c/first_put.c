/* The first put from C: lends memory, formats it, puts and gets, with the planned events carried out by its own stores,
 * flushes and fences. The memory here is ordinary; a map of persistent memory in its place is used the same way. */
#include "ombykape.h"

#include <cpuid.h>
#include <immintrin.h>
#include <inttypes.h>
#include <stdio.h>

#define CAPACITY 100
#define WORDS OMBYKAPE_WORDS_OF(CAPACITY)

static _Alignas(64) uint64_t pool[WORDS]; /* starts at a cache line, so a line of the pool is one */
static uint64_t list[OMBYKAPE_LIST_WORDS];

static int has_clwb(void)
{
    unsigned a, b, c, d;
    return __get_cpuid_count(7, 0, &a, &b, &c, &d) && (b >> 24 & 1);
}

__attribute__((target("clwb"))) static void flush_by_clwb(uint64_t *line)
{
    _mm_clwb(line);
}

/* Carries out one event: 0, or -1 if it cannot be carried out. A store is volatile, so it is one store, and in its place. */
static int carry(uint64_t first, uint64_t value, int clwb)
{
    uint64_t number = OMBYKAPE_EVENT_NUMBER(first), line = number * OMBYKAPE_LINE_WORDS;
    switch (OMBYKAPE_EVENT_KIND(first)) {
    case OMBYKAPE_STORE:
        if (number >= WORDS)
            return -1;
        *(volatile uint64_t *)&pool[number] = value;
        return 0;
    case OMBYKAPE_FLUSH:
        if (line >= WORDS)
            return -1;
        if (clwb)
            flush_by_clwb(&pool[line]);
        else
            _mm_clflush(&pool[line]);
        return 0;
    case OMBYKAPE_FENCE:
        _mm_sfence();
        return 0;
    default:
        return -1;
    }
}

/* Carries out the events that a call planned, in order, if it answered as wanted: 0, or -1. */
static int carry_planned(const char *what, ombykape_reply reply, enum ombykape_kind wanted)
{
    int bad = reply.kind != wanted, clwb = has_clwb();
    for (uint64_t n = 0; !bad && n < reply.events; n++)
        bad = carry(list[2 * n], list[2 * n + 1], clwb);
    if (bad)
        fprintf(stderr, "%s: kind %" PRIu64 ", value %" PRIu64 "\n", what, reply.kind, reply.value);
    return bad ? -1 : 0;
}

int main(void)
{
    ombykape_reply made = ombykape_format(pool, WORDS, list, OMBYKAPE_LIST_WORDS, CAPACITY);
    if (carry_planned("format", made, OMBYKAPE_FORMATTED) != 0)
        return 1;
    ombykape_reply put = ombykape_put(pool, WORDS, list, OMBYKAPE_LIST_WORDS, 7, 70);
    if (carry_planned("put", put, OMBYKAPE_NEW) != 0)
        return 1;
    ombykape_reply got = ombykape_fetch(pool, WORDS, 7);
    if (carry_planned("get", got, OMBYKAPE_FOUND) != 0)
        return 1;
    printf("format formatted %" PRIu64 "\n", made.events);
    printf("put new %" PRIu64 "\n", put.events);
    printf("get found:%" PRIu64 " %" PRIu64 "\n", got.value, got.events);
    return 0;
}
