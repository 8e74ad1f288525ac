/*
 * Times the stretch judge (or, built with -DWALK, the walk by value) per record, at 3, 20 and 61 open inputs and sequences of 1, 6
 * and 32 actions, and for logs of different lengths. Not a test: nothing is asserted.
 *
 *   bench [RECORDS]       for each number at least that many records are judged
 */
#define _POSIX_C_SOURCE 199309L
#include "anthegyra.h"
#include "common.h"

#include <time.h>

static double now(void)
{
    struct timespec t;
    clock_gettime(CLOCK_MONOTONIC, &t);
    return t.tv_sec + t.tv_nsec * 1e-9;
}

/* ?0 ?1 ?0 ?1 .. as the sequence, so that many lengths are matched at once; no output is allowed. */
static size_t property_of(uint8_t *bytes, unsigned n, uint64_t lb, uint64_t ub)
{
    struct property p;
    memset(&p, 0, sizeof p);
    p.length = n;
    for (unsigned i = 0; i < n; i++) p.sequence[i].number = i % 2;
    p.lb = lb;
    p.ub = ub;
    return pack_property(&p, bytes);
}

/* Lines in turn an input and an output, so far apart that `held` inputs stay open. */
static size_t trace_of(uint8_t *bytes, size_t records, unsigned held, uint64_t ub)
{
    uint64_t apart = 2 * ub / held + 1;
    for (size_t i = 0; i < records; i++) {
        if (i % 2) pack_record(bytes + RECORD * i, OUTPUT, 2, 0);
        else pack_record(bytes + RECORD * i, INPUT, (unsigned)(i / 2 % 2), apart);
    }
    pack_record(bytes + RECORD * records, END, 0, 0);
    return RECORD * (records + 1);
}

/* The log is judged, or walked over, `times` times; the number taken each time. */
#ifdef WALK
static const char *const called = "walk by value, by records in one call";
static const size_t logs[] = {1, 500, 4000};

size_t anthegyra_pace_walk(const uint8_t *property, size_t property_len, const uint8_t *trace,
                           size_t trace_len, size_t budget, size_t times);

static size_t taken(const uint8_t *p, size_t pn, const uint8_t *t, size_t tn, size_t records, size_t times)
{
    return anthegyra_pace_walk(p, pn, t, tn, records, times);
}
#else
static const char *const called = "stretch judge, by records in the log";
static const size_t logs[] = {500, 4000, 16000};

static size_t taken(const uint8_t *p, size_t pn, const uint8_t *t, size_t tn, size_t records, size_t times)
{
    size_t count = records;
    for (size_t i = 0; i < times; i++) {
        size_t now_taken = anthegyra_count(anthegyra_stretch_judge(p, pn, t, tn));
        if (now_taken != records) count = now_taken;
    }
    return count;
}
#endif

int main(int argc, char **argv)
{
    static const unsigned lengths[] = {1, 6, 32}, held[] = {3, 20, 61};
    size_t least = argc > 1 ? (size_t)strtoull(argv[1], NULL, 10) : 2000000;
    uint8_t property[PROPERTY_ROOM];
    uint8_t *trace = malloc(RECORD * 16001);
    if (!trace) return 1;
    printf("%s, nanoseconds a record\n", called);
    printf("sequence  open inputs %10lu%10lu%10lu\n", (unsigned long)logs[0], (unsigned long)logs[1], (unsigned long)logs[2]);
    for (int i = 0; i < 3; i++)
        for (int j = 0; j < 3; j++) {
            uint64_t ub = 6100;
            size_t pn = property_of(property, lengths[i], 10, ub);
            printf("%8u  %11u ", lengths[i], held[j]);
            for (int k = 0; k < 3; k++) {
                size_t tn = trace_of(trace, logs[k], held[j], ub), times = least / logs[k] + 1;
                double start = now();
                size_t count = taken(property, pn, trace, tn, logs[k], times);
                double took = now() - start;
                if (count != logs[k]) printf("(took %lu of %lu) ", (unsigned long)count, (unsigned long)logs[k]);
                printf("%10.1f", took / times / logs[k] * 1e9);
            }
            printf("\n");
        }
    free(trace);
    return 0;
}
