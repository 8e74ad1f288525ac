/*
 * The edges of the C call itself: slices that are empty or null, the shortest traces, one trace for
 * each verdict, the longest count, what the header says of gaps and of cutting a long log, and the
 * archive's version. Prints each number taken apart; edges.expected has the whole.
 */
#include "anthegyra.h"
#include "common.h"

static uint8_t property[PROPERTY_ROOM], trace[(MOST_COUNTED + 2) * RECORD];
static size_t property_len, trace_len;

static void show(const char *what, const uint8_t *p, size_t p_len, const uint8_t *t, size_t t_len)
{
    uint64_t n = anthegyra_stretch_judge(p, p_len, t, t_len);
    printf("%s: refusal %u, verdict %u, count %u\n", what, anthegyra_refusal(n), anthegyra_verdict(n),
           anthegyra_count(n));
}

static void show_lines(const char *what, const struct line *lines, size_t n)
{
    trace_len = pack_trace(lines, n, trace);
    show(what, property, property_len, trace, trace_len);
}

/* Outputs only: nothing is open, so the count alone decides. */
static void show_outputs(const char *what, size_t n)
{
    for (size_t i = 0; i < n; i++) pack_record(trace + i * RECORD, OUTPUT, 0, 0);
    pack_record(trace + n * RECORD, END, 0, 0);
    show(what, property, property_len, trace, (n + 1) * RECORD);
}

static void use_property(const struct property *p) { property_len = pack_property(p, property); }

/* The names that the header gives to the numbers, and whose archive this is. */
static void show_names(void)
{
    printf("version: %s\n", anthegyra_version() == ANTHEGYRA_VERSION ? "the header's" : "another than the header's");
    printf("verdicts: %d %d %d %d\n", ANTHEGYRA_CLEAR, ANTHEGYRA_SUSPECT, ANTHEGYRA_CERTAIN,
           ANTHEGYRA_BLIND);
    printf("refusals: %d %d %d %d %d %d %d %d %d %d %d\n", ANTHEGYRA_TAKEN, ANTHEGYRA_LENGTH,
           ANTHEGYRA_BOUNDS, ANTHEGYRA_ACTION, ANTHEGYRA_STAMP_LIMIT, ANTHEGYRA_STAMP_FALLS,
           ANTHEGYRA_ROOM, ANTHEGYRA_MISSING, ANTHEGYRA_BROKEN, ANTHEGYRA_TOO_LONG, ANTHEGYRA_SESSION);
}

/* A gap mark closes a run, and a tail judged alone accuses where the whole log does not. */
static void show_cuts(void)
{
    const struct property p = {2, {{OUTPUT, 5}, {OUTPUT, 6}}, 0, 10, 30};
    const struct line whole[] = {
        {{INPUT, 7}, 180}, {{OUTPUT, 5}, 200}, {{OUTPUT, 6}, 200}, {{OUTPUT, 2}, 201}};
    const struct line marked[] = {
        {{GAP, 63}, 180}, {{OUTPUT, 5}, 200}, {{OUTPUT, 6}, 200}, {{OUTPUT, 2}, 201}};
    const struct line quiet[] = {
        {{GAP, 1}, 201}, {{OUTPUT, 5}, 262}, {{OUTPUT, 6}, 262}, {{OUTPUT, 2}, 263}};
    const struct line closed[] = {
        {{OUTPUT, 5}, 200}, {{OUTPUT, 6}, 200}, {{OUTPUT, 2}, 201}, {{GAP, 0}, 300}};
    use_property(&p);
    show_lines("a log", whole, 4);
    show_lines("its tail alone", whole + 1, 3);
    show_lines("its tail behind a gap mark", marked, 4);
    show_lines("a tail behind a gap mark and a quiet of more than 2 UB", quiet, 4);
    show_lines("a certain run that a gap mark closes", closed, 4);
    show_lines("the same up to the gap mark", closed, 3);
}

int main(void)
{
    /* property B of document 01 */
    const struct property b = {1, {{INPUT, 0}}, 2, 10, 30};
    const struct line clear[] = {{{INPUT, 0}, 100}, {{OUTPUT, 2}, 119}};
    const struct line suspect[] = {{{INPUT, 0}, 100}, {{OUTPUT, 2}, 160}};
    const struct line certain[] = {{{INPUT, 0}, 100}, {{OUTPUT, 2}, 161}};
    const struct line blind[] = {{{INPUT, 0}, 100}, {{GAP, 5}, 200}, {{OUTPUT, 2}, 260}};
    use_property(&b);

    show("both null", NULL, 0, NULL, 0);
    show("both empty", property, 0, trace, 0);
    show("trace null", property, property_len, NULL, 0);
    show_lines("no record", NULL, 0);
    show("property null", NULL, 0, trace, trace_len);
    show_lines("one record", clear, 1);
    show("one record without an end", property, property_len, trace, RECORD);
    show_lines("clear", clear, 2);
    show_lines("suspect", suspect, 2);
    show_lines("certain", certain, 2);
    show_lines("blind", blind, 3);
    show_outputs("16,383 records", 16383);
    show_outputs("16,384 records", 16384);
    show_cuts();
    show_names();
    return 0;
}
