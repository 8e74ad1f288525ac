/*
 * Random runs of up to ten lines, compared with a listing of all their orders.
 *
 *   orders [RUNS [SEED]]
 *
 * The listing follows document 01's definition of an explanation, document 02's of a breach (CR 1)
 * and nothing that was derived from them: no cuts, no closing, no matched lengths. Each beginning of
 * each log is judged by both sides.
 */
#include "anthegyra.h"
#include "common.h"

enum { MOST_LINES = 10 };

/* ---- what could have happened at the node */

/* Moments in the order's own order, each as early as it can be: if these pass an upper end, so do
   all others. */
static int is_explanation(const struct property *p, const struct line *order, size_t size)
{
    int64_t lb = (int64_t)p->lb, ub = (int64_t)p->ub, moment = INT64_MIN;
    for (size_t k = 0; k < size; k++) {
        int64_t t = (int64_t)order[k].stamp;
        int64_t least = order[k].action.kind == INPUT ? t + lb : t - ub;
        int64_t most = order[k].action.kind == INPUT ? t + ub : t - lb;
        if (moment < least) moment = least;
        if (moment > most) return 0;
    }
    return 1;
}

static int occurs_at(const struct property *p, const struct line *order, size_t at)
{
    for (size_t i = 0; i < p->length; i++)
        if (order[at + i].action.kind != p->sequence[i].kind ||
            order[at + i].action.number != p->sequence[i].number)
            return 0;
    return 1;
}

/* The sequence, then inputs or none, then an output outside the set. */
static int breaks(const struct property *p, const struct line *order, size_t size)
{
    for (size_t at = 0; at + p->length < size; at++) {
        size_t next = at + p->length;
        if (!occurs_at(p, order, at)) continue;
        while (next < size && order[next].action.kind == INPUT) next++;
        if (next < size && !(p->allowed >> order[next].action.number & 1)) return 1;
    }
    return 0;
}

struct tally {
    unsigned breaking, keeping;
};

/* Adds to the tally every order that begins with order[0..size) and goes on with the lines that are
   left, each channel in its own order. */
static void list_orders(const struct property *p, struct line *order, size_t size,
                        const struct line *ins, size_t ins_left,
                        const struct line *outs, size_t outs_left, struct tally *tally)
{
    if (ins_left == 0 && outs_left == 0) {
        if (!is_explanation(p, order, size)) return;
        if (breaks(p, order, size)) tally->breaking++; else tally->keeping++;
        return;
    }
    if (ins_left > 0) {
        order[size] = ins[0];
        list_orders(p, order, size + 1, ins + 1, ins_left - 1, outs, outs_left, tally);
    }
    if (outs_left > 0) {
        order[size] = outs[0];
        list_orders(p, order, size + 1, ins, ins_left, outs + 1, outs_left - 1, tally);
    }
}

static unsigned verdict_of_run(const struct property *p, const struct line *run, size_t size)
{
    struct line ins[MOST_LINES], outs[MOST_LINES], order[MOST_LINES];
    size_t m = 0, n = 0;
    struct tally tally = {0, 0};
    for (size_t i = 0; i < size; i++)
        if (run[i].action.kind == INPUT) ins[m++] = run[i]; else outs[n++] = run[i];
    list_orders(p, order, 0, ins, m, outs, n, &tally);
    if (tally.breaking + tally.keeping == 0) {
        printf("orders: a run without an explanation, which document 01 rules out\n");
        exit(1);
    }
    return tally.breaking == 0 ? CLEAR : tally.keeping == 0 ? CERTAIN : SUSPECT;
}

/* ---- gaps */

static unsigned expected_verdict(const struct property *p, const struct line *log, size_t n)
{
    struct line run[MOST_LINES];
    size_t size = 0;
    uint64_t latest = 0;
    int blind = 0;
    for (size_t i = 0; i < n; i++) {
        if (log[i].action.kind == GAP) {
            blind = 1;
        } else {
            if (blind && log[i].stamp > latest + 2 * p->ub) { /* a boundary stands before it */
                blind = 0;
                size = 0;
            }
            if (!blind) run[size++] = log[i];
        }
        latest = log[i].stamp;
    }
    return blind ? BLIND : verdict_of_run(p, run, size);
}

/* ---- random logs */

static struct action random_action(const struct property *p, const struct pool *pool, size_t i)
{
    struct action action = from_pool(pool);
    if (one_in(8)) { /* one that the property does not know */
        action.kind = (unsigned)below(2);
        action.number = any_action_number();
    } else if (one_in(3)) { /* the sequence itself, from the log's start */
        action = p->sequence[i % p->length];
    }
    return action;
}

static uint64_t first_stamp(void)
{
    switch (below(8)) {
    case 0: return 0;
    case 1: return HIGHEST_STAMP - below(200); /* the log may then run into the limit */
    default: return below(100);
    }
}

static size_t random_log(const struct property *p, const struct pool *pool, struct line *log)
{
    size_t size = one_in(4) ? below(MOST_LINES + 1) : MOST_LINES;
    uint64_t least = first_stamp();
    unsigned gaps = one_in(2) ? 0 : 1 + (unsigned)below(3);
    for (size_t i = 0; i < size; i++) {
        log[i].stamp = random_stamp(p, log, i, least);
        log[i].action = random_action(p, pool, i);
        if (gaps > 0 && one_in(6)) {
            log[i].action.kind = GAP;
            log[i].action.number = any_action_number(); /* of lost lines: nothing depends on it */
            gaps--;
        }
    }
    return size;
}

/* ---- the comparison */

static void print_action(struct action action)
{
    if (action.kind == GAP) printf("gap");
    else printf("%c%u", action.kind == INPUT ? '?' : '!', action.number);
}

/* In the form that tools/pack takes, so that a difference can be tried again by hand. */
static void print_stretch(const struct property *p, const struct line *log, size_t n)
{
    printf("bounds %llu %llu\nsequence", (unsigned long long)p->lb, (unsigned long long)p->ub);
    for (unsigned i = 0; i < p->length; i++) {
        printf(" ");
        print_action(p->sequence[i]);
    }
    printf("\nallow%s", p->allowed ? "" : " none");
    for (unsigned k = 0; k < 64; k++)
        if (p->allowed >> k & 1) printf(" !%u", k);
    printf("\n");
    for (size_t i = 0; i < n; i++) {
        print_action(log[i].action);
        printf(" @%llu", (unsigned long long)log[i].stamp);
        if (log[i].action.kind == GAP) printf(" lost %u", log[i].action.number);
        printf("\n");
    }
}

/* The verdict on the log's first n lines, once both sides have given the same. */
static unsigned compared(const struct property *p, const struct line *log, size_t n)
{
    uint8_t property[PROPERTY_ROOM], trace[(MOST_LINES + 1) * RECORD];
    size_t property_len = pack_property(p, property), trace_len = pack_trace(log, n, trace);
    unsigned expected = expected_verdict(p, log, n);
    uint64_t got = anthegyra_stretch_judge(property, property_len, trace, trace_len);
    if (got != (uint64_t)expected * 16384 + n) {
        print_stretch(p, log, n);
        printf("expected: refusal 0, %s, count %u\n", verdict_words[expected], (unsigned)n);
        printf("got: refusal %u, %s, count %u\n", anthegyra_refusal(got),
               verdict_words[anthegyra_verdict(got)], anthegyra_count(got));
        exit(1);
    }
    return expected;
}

int main(int argc, char **argv)
{
    uint64_t runs = number_argument(argc, argv, 1, 20000);
    uint64_t seed = number_argument(argc, argv, 2, 20260101);
    unsigned long seen[4] = {0, 0, 0, 0};
    struct line log[MOST_LINES];
    start_generator(seed);
    for (uint64_t run = 0; run < runs; run++) {
        struct pool pool = random_pool();
        struct property p = random_property(&pool);
        size_t size = random_log(&p, &pool, log);
        for (size_t n = 0; n <= size; n++) seen[compared(&p, log, n)]++;
    }
    unsigned long all = seen[CLEAR] + seen[SUSPECT] + seen[CERTAIN] + seen[BLIND];
    printf("orders: seed %llu, %llu runs, %lu verdicts compared: "
           "clear %lu, suspect %lu, certain %lu, blind %lu, 0 differences\n",
           (unsigned long long)seed, (unsigned long long)runs, all, seen[CLEAR], seen[SUSPECT],
           seen[CERTAIN], seen[BLIND]);
    for (unsigned verdict = CLEAR; verdict <= BLIND; verdict++)
        if (runs >= 1000 && seen[verdict] < all / 50) {
            printf("orders: too few are %s for the comparison to mean much\n", verdict_words[verdict]);
            return 1;
        }
    return 0;
}
