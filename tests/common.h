/*
 * What the C tests share: the words of document 01 as plain data, a generator of numbers that gives
 * the same runs everywhere, and a writer of both packed forms. The writer takes any field that its
 * bits can hold, also one that the rules refuse, since the tests need those too.
 */
#ifndef COMMON_H
#define COMMON_H

#include <stddef.h>
#include <stdint.h>
#include <stdio.h>
#include <stdlib.h>
#include <string.h>

/* Numbered as they are packed. An action has one of the first two kinds. */
enum { INPUT, OUTPUT, GAP, END };
enum { CLEAR, SUSPECT, CERTAIN, BLIND };

enum {
    LONGEST = 32,        /* the longest sequence that is taken */
    LONGEST_PACKED = 63, /* the longest that six bits can claim */
    PROPERTY_ROOM = 71,  /* bytes of that one's form */
    RECORD = 6,
    HIGHEST_BOUND = 60000000,
    MOST_OPEN = 64,
    MOST_COUNTED = 16383
};
static const uint64_t HIGHEST_STAMP = 1099511627775u;

static const char *const verdict_words[] = {"clear", "suspect", "certain", "blind"};

struct action {
    unsigned kind, number;
};

struct property {
    unsigned length;
    struct action sequence[LONGEST_PACKED];
    uint64_t allowed; /* bit k for output k */
    uint64_t lb, ub;
};

struct line { /* or a gap mark, with the number of lost lines for its action's */
    struct action action;
    uint64_t stamp;
};

/* ---- numbers: xorshift64*, since rand() differs from one C library to the next */

static uint64_t generator = 1;

static inline void start_generator(uint64_t seed) { generator = seed ? seed : 1; }

static inline uint64_t any_number(void)
{
    generator ^= generator >> 12;
    generator ^= generator << 25;
    generator ^= generator >> 27;
    return generator * 2685821657736338717u;
}

static inline uint64_t below(uint64_t n) { return (any_number() >> 11) % n; }
static inline int one_in(uint64_t n) { return below(n) == 0; }

/* ---- packed forms */

static inline void put_field(uint8_t *bytes, size_t *at, uint64_t value, unsigned width)
{
    while (width-- > 0) {
        if (value >> width & 1) bytes[*at / 8] |= (uint8_t)(128 >> *at % 8);
        ++*at;
    }
}

static inline size_t pack_property(const struct property *p, uint8_t bytes[PROPERTY_ROOM])
{
    size_t at = 0;
    memset(bytes, 0, PROPERTY_ROOM);
    put_field(bytes, &at, p->length, 6);
    put_field(bytes, &at, p->lb, 26);
    put_field(bytes, &at, p->ub, 26);
    for (unsigned i = 0; i < p->length; i++) {
        put_field(bytes, &at, p->sequence[i].kind, 1);
        put_field(bytes, &at, p->sequence[i].number, 6);
    }
    for (unsigned k = 0; k < 64; k++) put_field(bytes, &at, p->allowed >> k & 1, 1);
    return (at + 7) / 8;
}

static inline void pack_record(uint8_t bytes[RECORD], unsigned kind, unsigned action, uint64_t field)
{
    size_t at = 0;
    memset(bytes, 0, RECORD);
    put_field(bytes, &at, kind, 2);
    put_field(bytes, &at, action, 6);
    put_field(bytes, &at, field, 40);
}

/* All the lines and an end record; bytes has room for n + 1 records. */
static inline size_t pack_trace(const struct line *lines, size_t n, uint8_t *bytes)
{
    uint64_t before = 0;
    for (size_t i = 0; i < n; i++) {
        pack_record(bytes + i * RECORD, lines[i].action.kind, lines[i].action.number,
                    lines[i].stamp - before);
        before = lines[i].stamp;
    }
    pack_record(bytes + n * RECORD, END, 0, 0);
    return (n + 1) * RECORD;
}

/* ---- random properties and lines */

/* Few actions in play, so that sequences occur in random runs at all. */
struct pool {
    unsigned size;
    struct action actions[4];
};

static inline unsigned any_action_number(void)
{
    static const unsigned edges[] = {0, 1, 2, 31, 32, 62, 63};
    return one_in(4) ? (unsigned)below(64) : edges[below(7)];
}

static inline struct action from_pool(const struct pool *pool)
{
    return pool->actions[below(pool->size)];
}

static inline struct pool random_pool(void)
{
    struct pool pool;
    pool.size = 2 + (unsigned)below(1 + below(3));
    for (unsigned i = 0; i < pool.size; i++) {
        /* one input and one output at least; equal numbers often, as ?3 and !3 differ */
        pool.actions[i].kind = i < 2 ? i : (unsigned)below(2);
        pool.actions[i].number = i > 0 && one_in(3) ? pool.actions[0].number : any_action_number();
    }
    return pool;
}

static inline unsigned random_length(void)
{
    switch (below(16)) {
    case 0: return 1 + (unsigned)below(LONGEST);
    case 1: return 5 + (unsigned)below(5);
    default: return 1 + (unsigned)below(1 + below(4)); /* 1 to 4, the short ones oftener */
    }
}

static inline void random_bounds(struct property *p)
{
    p->lb = 1 + below(1 + below(12));
    p->ub = one_in(6) ? p->lb : p->lb + below(13 - p->lb);
    if (one_in(16)) { /* the same at the far end */
        p->lb += HIGHEST_BOUND - 12;
        p->ub += HIGHEST_BOUND - 12;
    }
}

static inline struct property random_property(const struct pool *pool)
{
    struct property p;
    memset(&p, 0, sizeof p);
    p.length = random_length();
    for (unsigned i = 0; i < p.length; i++) p.sequence[i] = from_pool(pool);
    p.allowed = one_in(4) ? any_number() : one_in(4) ? ~(uint64_t)0 : 0;
    for (unsigned i = 0; i < pool->size; i++)
        if (pool->actions[i].kind == OUTPUT && one_in(3))
            p.allowed ^= (uint64_t)1 << pool->actions[i].number;
    random_bounds(&p);
    return p;
}

/* A stamp not below the latest of the n lines, mostly on one side of a bound. */
static inline uint64_t random_stamp(const struct property *p, const struct line *lines, size_t n,
                                    uint64_t least)
{
    uint64_t latest = n ? lines[n - 1].stamp : least;
    uint64_t a = n ? lines[n - 1 - below(n < 8 ? n : 8)].stamp : least;
    uint64_t stamp = latest;
    switch (below(16)) {
    case 0:
    case 1: stamp = a + 2 * p->lb - 1; break;
    case 2:
    case 3: stamp = a + 2 * p->lb; break;
    case 4:
    case 5: stamp = a + 2 * p->ub; break;
    case 6: stamp = a + 2 * p->ub + 1; break;
    case 7: stamp = latest + 2 * p->ub; break;
    case 8: stamp = latest + 2 * p->ub + 1; break;
    case 9: stamp = a + 2 * p->lb + below(2 * (p->ub - p->lb) + 1); break;
    case 10: stamp = latest + below(2 * p->ub + 1); break;
    case 11:
    case 12: stamp = latest + 1; break;
    default: break;
    }
    if (stamp < latest) stamp = latest;
    return stamp < HIGHEST_STAMP ? stamp : HIGHEST_STAMP;
}

/* ---- the rest of a test's frame */

static inline uint64_t number_argument(int argc, char **argv, int i, uint64_t otherwise)
{
    return argc > i ? strtoull(argv[i], NULL, 10) : otherwise;
}

#endif
