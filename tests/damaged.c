/*
 * Damaged and undamaged bytes, compared with a second reading of document 01.
 *
 *   damaged [INPUTS [SEED]]
 *
 * The second reading goes over whole inputs: it reads the bytes bit by bit, keeps every line of the
 * open run, and judges that run once, at the end, over the grid of all its cuts. Refusal, verdict
 * and count are compared for each input, and the lent bytes must come back as they were.
 */
#include "anthegyra.h"
#include "common.h"

enum {
    MOST_LINES = MOST_COUNTED + 8,
    TRACE_ROOM = (MOST_LINES + 2) * RECORD
};

struct slice {
    const uint8_t *bytes;
    size_t len;
};

struct answer {
    unsigned refusal, verdict, count;
};

/* ---- the second reading: the property */

static uint64_t field(const uint8_t *bytes, size_t at, unsigned width)
{
    uint64_t value = 0;
    for (unsigned i = 0; i < width; i++, at++) value = 2 * value + (bytes[at / 8] >> (7 - at % 8) & 1);
    return value;
}

/* '122 + 7n bits' is read of every n that six bits can claim, so that 7 and 8 can stand before 1. */
static size_t form_bits(unsigned length) { return 122 + 7 * (size_t)length; }
static size_t form_bytes(unsigned length) { return (form_bits(length) + 7) / 8; }

static int pad_is_zero(const uint8_t *bytes, unsigned length)
{
    for (size_t at = form_bits(length); at < 8 * form_bytes(length); at++)
        if (field(bytes, at, 1)) return 0;
    return 1;
}

static unsigned property_refusal(const struct slice *s, struct property *p)
{
    memset(p, 0, sizeof *p);
    if (s->len == 0) return 7;
    p->length = (unsigned)field(s->bytes, 0, 6);
    if (s->len < form_bytes(p->length)) return 7;
    if (!pad_is_zero(s->bytes, p->length)) return 8;
    if (p->length == 0 || p->length > LONGEST) return 1;
    p->lb = field(s->bytes, 6, 26);
    p->ub = field(s->bytes, 32, 26);
    if (p->lb < 1 || p->ub < p->lb || p->ub > HIGHEST_BOUND) return 2;
    for (unsigned i = 0; i < p->length; i++) {
        p->sequence[i].kind = (unsigned)field(s->bytes, 58 + 7 * i, 1);
        p->sequence[i].number = (unsigned)field(s->bytes, 59 + 7 * i, 6);
    }
    for (unsigned k = 0; k < 64; k++)
        p->allowed |= field(s->bytes, 58 + 7 * p->length + k, 1) << k;
    if (s->len > form_bytes(p->length)) return 8;
    return 0;
}

/* ---- the second reading: lines, gaps and room */

struct run {
    int blind;
    uint64_t latest;
    size_t ins, outs;
    struct line in[MOST_LINES], out[MOST_LINES];
};

static void fresh(struct run *run)
{
    run->blind = 0;
    run->latest = 0;
    run->ins = run->outs = 0;
}

static size_t open_at(const struct run *run, const struct property *p, uint64_t stamp)
{
    size_t open = 0;
    while (open < run->ins && run->in[run->ins - 1 - open].stamp + 2 * p->ub >= stamp) open++;
    return open;
}

static void mark(struct run *run, uint64_t stamp)
{
    run->blind = 1;
    run->ins = run->outs = 0;
    run->latest = stamp;
}

static unsigned take(struct run *run, const struct property *p, const struct line *line)
{
    if (run->blind && line->stamp - run->latest > 2 * p->ub) run->blind = 0;
    if (!run->blind) {
        size_t own = line->action.kind == INPUT;
        if (open_at(run, p, line->stamp) + own > MOST_OPEN) return 6;
        if (own) run->in[run->ins++] = *line; else run->out[run->outs++] = *line;
    }
    run->latest = line->stamp;
    return 0;
}

static unsigned record_refusal(const uint8_t *record, uint64_t latest)
{
    unsigned kind = record[0] >> 6, action = record[0] & 63;
    uint64_t stamp = field(record, 8, 40);
    if (kind == END && (action != 0 || stamp != 0)) return 8;
    if (latest + stamp > HIGHEST_STAMP) return 4;
    return 0;
}

/* The refusal that the whole trace meets, 0 if none; the run that stands after it and the count. */
static unsigned trace_refusal(const struct slice *s, const struct property *p, struct run *run,
                              size_t *count)
{
    size_t at = 0;
    for (*count = 0;; ++*count, at += RECORD) {
        if (s->len - at < RECORD) return 7;
        const uint8_t *record = s->bytes + at;
        unsigned refusal = record_refusal(record, run->latest);
        if (refusal) return refusal;
        struct line line = {{record[0] >> 6, record[0] & 63}, run->latest + field(record, 8, 40)};
        if (line.action.kind == END) break;
        if (line.action.kind == GAP) mark(run, line.stamp);
        else if ((refusal = take(run, p, &line)) != 0) return refusal;
    }
    if (s->len - at > RECORD) return 8;
    return *count > MOST_COUNTED ? 9 : 0;
}

/* ---- the second reading: the verdict over the grid of cuts */

/* A set of what orders leave behind: bit k of `waiting` for k matched actions where the sequence has occurred and only inputs
   since, of `other` where not, and whether some have broken. */
struct set {
    uint64_t other, waiting;
    int broken;
};

/* Matched lengths after one more action, found by trying each; kept, since long runs ask often. */
static signed char matched_kept[LONGEST + 1][2][64];

static int ends_with_beginning(const struct property *p, unsigned k, struct action a, unsigned j)
{
    if (p->sequence[j - 1].kind != a.kind || p->sequence[j - 1].number != a.number) return 0;
    for (unsigned i = 0; i + 1 < j; i++) {
        struct action was = p->sequence[k + 1 - j + i];
        if (was.kind != p->sequence[i].kind || was.number != p->sequence[i].number) return 0;
    }
    return 1;
}

static unsigned matched_after(const struct property *p, unsigned k, struct action a)
{
    signed char *kept = &matched_kept[k][a.kind][a.number];
    if (*kept < 0) {
        unsigned j = k < p->length ? k + 1 : k;
        while (j > 0 && !ends_with_beginning(p, k, a, j)) j--;
        *kept = (signed char)j;
    }
    return (unsigned)*kept;
}

static void put(const struct property *p, struct set *to, unsigned k, int waiting)
{
    if (waiting || k == p->length) to->waiting |= (uint64_t)1 << k;
    else to->other |= (uint64_t)1 << k;
}

static struct set after(const struct property *p, struct set from, struct action a)
{
    struct set to = {0, 0, from.broken};
    int outside = a.kind == OUTPUT && !(p->allowed >> a.number & 1);
    for (unsigned k = 0; k <= p->length; k++) {
        if (from.other >> k & 1) put(p, &to, matched_after(p, k, a), 0);
        if (!(from.waiting >> k & 1)) continue;
        if (outside) to.broken = 1;
        else put(p, &to, matched_after(p, k, a), a.kind == INPUT);
    }
    return to;
}

static struct set joined(struct set a, struct set b)
{
    return (struct set){a.other | b.other, a.waiting | b.waiting, a.broken | b.broken};
}

/* Row q holds, for each possible cut after i inputs and q outputs, what the orders that come through
   possible cuts alone leave there. A row is written over the one before it: below the row's first
   possible cut nothing is read again, and above the last one nothing has been written. */
static unsigned verdict_of(const struct run *run, const struct property *p)
{
    static struct set row[MOST_LINES + 1];
    size_t first = 0;
    memset(row, 0, (run->ins + 1) * sizeof *row);
    memset(matched_kept, -1, sizeof matched_kept);
    row[0].other = 1;
    for (size_t q = 0; q <= run->outs; q++) {
        if (q > 0)
            while (first < run->ins && run->in[first].stamp + 2 * p->ub < run->out[q - 1].stamp)
                first++;
        for (size_t i = first; i <= run->ins; i++) {
            if (i > 0 && q < run->outs && run->in[i - 1].stamp + 2 * p->lb > run->out[q].stamp) break;
            if (q > 0) row[i] = after(p, row[i], run->out[q - 1].action);
            if (i > first) row[i] = joined(row[i], after(p, row[i - 1], run->in[i - 1].action));
        }
    }
    if (!row[run->ins].broken) return CLEAR;
    return row[run->ins].other | row[run->ins].waiting ? SUSPECT : CERTAIN;
}

static struct answer second_reading(const struct slice *property, const struct slice *trace)
{
    static struct run run;
    struct answer answer = {0, 0, 0};
    struct property p;
    size_t count;
    fresh(&run);
    answer.refusal = property_refusal(property, &p);
    if (!answer.refusal) answer.refusal = trace_refusal(trace, &p, &run, &count);
    if (answer.refusal) return answer;
    answer.verdict = run.blind ? BLIND : verdict_of(&run, &p);
    answer.count = (unsigned)count;
    return answer;
}

/* ---- inputs: sound ones first */

struct input {
    struct property p; /* as it was packed, before damage */
    size_t lines;
    size_t property_len, trace_len;
    uint8_t property[PROPERTY_ROOM + 16], trace[TRACE_ROOM];
};

static struct line lines[MOST_LINES];

static void pack(struct input *in)
{
    in->property_len = pack_property(&in->p, in->property);
    in->trace_len = pack_trace(lines, in->lines, in->trace);
}

static void put_line(struct input *in, unsigned kind, unsigned number, uint64_t stamp)
{
    struct line line = {{kind, number}, stamp};
    lines[in->lines++] = line;
}

static void random_lines(struct input *in, const struct pool *pool, size_t size, uint64_t least)
{
    /* crowded traces stay within a few stamps, so that the room matters */
    int crowded = one_in(4), gaps = one_in(2);
    while (size-- > 0) {
        uint64_t stamp = random_stamp(&in->p, lines, in->lines, least);
        struct action a = from_pool(pool);
        if (one_in(8)) a = in->p.sequence[in->lines % in->p.length];
        if (crowded && in->lines > 0 && !one_in(16)) stamp = lines[in->lines - 1].stamp;
        if (gaps && one_in(16)) put_line(in, GAP, any_action_number(), stamp);
        else put_line(in, a.kind, a.number, stamp);
    }
}

static void sound(struct input *in)
{
    struct pool pool = random_pool();
    uint64_t least = one_in(8) ? HIGHEST_STAMP - below(300) : below(100);
    size_t size = one_in(16) ? below(400) : below(30);
    in->p = random_property(&pool);
    in->lines = 0;
    random_lines(in, &pool, size, least);
    pack(in);
}

/* 64 inputs open, one fewer or one more, reached in several ways, and then lines on both sides of the
   stamp at which the first of them closes. Near the limit some of these stamps pass it. */
static void crowd(struct input *in)
{
    struct pool pool = random_pool();
    size_t size = MOST_OPEN - 1 + below(3);
    uint64_t start, stamp;
    int spread = one_in(2);
    in->p = random_property(&pool);
    in->lines = 0;
    start = one_in(8) ? HIGHEST_STAMP - below(4 * in->p.ub) : below(100);
    if (one_in(3)) {
        put_line(in, GAP, any_action_number(), start);
        start += 2 * in->p.ub + below(2); /* still blind, or the boundary */
    }
    stamp = start;
    while (size-- > 0) {
        put_line(in, INPUT, from_pool(&pool).number, stamp);
        stamp += spread && one_in(40);
    }
    if (one_in(3)) put_line(in, OUTPUT, pool.actions[1].number, stamp);
    if (stamp < start + 2 * in->p.ub) stamp = start + 2 * in->p.ub;
    stamp += below(2);
    put_line(in, one_in(4) ? OUTPUT : INPUT, pool.actions[0].number, stamp);
    stamp += below(2);
    put_line(in, INPUT, pool.actions[0].number, stamp);
    put_line(in, OUTPUT, pool.actions[1].number, stamp + 2 * in->p.ub + below(2));
    pack(in);
}

static void long_trace(struct input *in, size_t size)
{
    struct pool pool = random_pool();
    unsigned outputs_only = (unsigned)below(2); /* nothing is ever open, so nothing is refused early */
    in->p = random_property(&pool);
    in->p.lb = 1 + below(12);
    in->p.ub = in->p.lb + below(12);
    in->lines = 0;
    for (uint64_t stamp = 0; in->lines < size; stamp += below(3)) {
        struct action a = from_pool(&pool);
        if (one_in(1000)) stamp += 2 * in->p.ub;
        if (one_in(4000)) put_line(in, GAP, any_action_number(), stamp);
        else put_line(in, outputs_only ? OUTPUT : a.kind, a.number, stamp);
    }
    pack(in);
}

/* ---- inputs: damage. Each takes what it finds, so that two kinds of damage can meet. */

static size_t record_somewhere(const struct input *in)
{
    return in->trace_len < RECORD ? 0 : below(in->trace_len / RECORD) * RECORD;
}

static void cut_property(struct input *in)
{
    in->property_len = one_in(8) ? 0 : one_in(4) && in->property_len ? in->property_len - 1
                                                                     : below(in->property_len + 1);
}

static void cut_trace(struct input *in)
{
    if (one_in(3) && in->trace_len >= RECORD) in->trace_len -= RECORD; /* the end record itself */
    else if (one_in(8)) in->trace_len = 0;
    else in->trace_len = below(in->trace_len + 1);
}

static void flip(uint8_t *bytes, size_t len)
{
    for (unsigned i = 1 + (unsigned)below(3); i > 0 && len > 0; i--)
        bytes[below(len)] ^= (uint8_t)(1 << below(8));
}

static void flip_property(struct input *in) { flip(in->property, in->property_len); }
static void flip_trace(struct input *in) { flip(in->trace, in->trace_len); }

static void spoil_pad(struct input *in)
{
    if (in->property_len > 0) in->property[in->property_len - 1] |= (uint8_t)(1 << below(7));
}

static void spoil_bounds(struct input *in)
{
    static const uint64_t edges[] = {0, 1, 2, HIGHEST_BOUND - 1, HIGHEST_BOUND, HIGHEST_BOUND + 1,
                                     67108863}; /* the highest that 26 bits hold */
    in->p.lb = one_in(4) ? in->p.lb : edges[below(7)];
    in->p.ub = one_in(4) ? in->p.lb - (in->p.lb > 0) : edges[below(7)];
    in->property_len = pack_property(&in->p, in->property);
}

static void spoil_length(struct input *in)
{
    unsigned length = one_in(3) ? 0 : LONGEST + (unsigned)below(one_in(3) ? 3 : 32);
    for (unsigned i = 0; i < length; i++) {
        in->p.sequence[i].kind = (unsigned)below(2);
        in->p.sequence[i].number = (unsigned)below(64);
    }
    in->p.length = length;
    in->property_len = pack_property(&in->p, in->property);
}

/* A gap mark in a record's place, with any number of lost lines. */
static void mark_somewhere(struct input *in)
{
    if (in->trace_len < RECORD) return;
    in->trace[record_somewhere(in)] = (uint8_t)(GAP << 6 | any_action_number());
}

static void spoil_end(struct input *in)
{
    size_t at = record_somewhere(in);
    if (in->trace_len < RECORD) return;
    if (one_in(2)) at = (in->trace_len / RECORD - 1) * RECORD;
    in->trace[at] = (uint8_t)(END << 6);
    if (one_in(2)) in->trace[at] |= (uint8_t)(1 << below(6));
    if (one_in(2)) in->trace[at + 1 + below(5)] ^= (uint8_t)(1 << below(8));
}

/* The sum of the stamp fields, brought to just below or above the limit at one record. */
static void reach_limit(struct input *in)
{
    size_t at = record_somewhere(in), pos = 8;
    uint64_t sum = 0, own;
    if (in->trace_len < RECORD) return;
    for (size_t i = 0; i < at; i += RECORD) sum += field(in->trace + i, 8, 40);
    own = sum > HIGHEST_STAMP ? HIGHEST_STAMP : HIGHEST_STAMP - sum - 1 + below(3);
    if (own > HIGHEST_STAMP || one_in(6)) own = HIGHEST_STAMP;
    memset(in->trace + at + 1, 0, RECORD - 1);
    put_field(in->trace + at, &pos, own, 40);
}

static void behind(uint8_t *bytes, size_t *len, size_t most)
{
    for (size_t i = 1 + below(one_in(4) ? most : 1); i > 0; i--)
        bytes[(*len)++] = one_in(2) ? 0 : (uint8_t)below(256);
}

static void behind_property(struct input *in)
{
    if (in->property_len + 8 <= sizeof in->property) behind(in->property, &in->property_len, 8);
}

static void behind_end(struct input *in)
{
    if (in->trace_len + RECORD <= sizeof in->trace) behind(in->trace, &in->trace_len, RECORD);
}

static void any_bytes(struct input *in)
{
    in->property_len = below(50);
    in->trace_len = below(20);
    for (size_t i = 0; i < in->property_len; i++) in->property[i] = (uint8_t)below(256);
    for (size_t i = 0; i < in->trace_len; i++) in->trace[i] = (uint8_t)below(256);
}

static void (*const damages[])(struct input *) = {
    cut_property, cut_trace, flip_property, flip_trace, spoil_pad, spoil_bounds, spoil_length,
    mark_somewhere, spoil_end, reach_limit, reach_limit, behind_property, behind_end, any_bytes,
};

static void random_input(struct input *in)
{
    unsigned times = one_in(3) ? 0 : one_in(3) ? 2 : 1;
    if (one_in(120)) long_trace(in, MOST_COUNTED - 1 + below(4));
    else if (one_in(6)) crowd(in);
    else sound(in);
    if (in->lines > 1000 && one_in(2)) times = 0;
    while (times-- > 0) damages[below(sizeof damages / sizeof *damages)](in);
}

/* ---- the comparison */

static void print_bytes(const char *what, const struct slice *s)
{
    printf("%s, %lu bytes:", what, (unsigned long)s->len);
    for (size_t i = 0; i < s->len; i++) printf("%s%02X", i % RECORD ? " " : "\n  ", s->bytes[i]);
    printf("\n");
}

static unsigned long inputs, refused[16], verdicts[4];

static void compare(struct input *in)
{
    static uint8_t trace_before[TRACE_ROOM];
    uint8_t property_before[sizeof in->property];
    struct slice property = {in->property, in->property_len}, trace = {in->trace, in->trace_len};
    memcpy(property_before, in->property, sizeof in->property);
    memcpy(trace_before, in->trace, in->trace_len);
    /* an empty slice has any pointer, also none */
    if (property.len == 0 && one_in(2)) property.bytes = NULL;
    if (trace.len == 0 && one_in(2)) trace.bytes = NULL;
    struct answer expected = second_reading(&property, &trace);
    uint64_t got = anthegyra_stretch_judge(property.bytes, property.len, trace.bytes, trace.len);
    int altered = memcmp(property_before, in->property, sizeof in->property) != 0 ||
                  memcmp(trace_before, in->trace, in->trace_len) != 0;
    uint64_t wanted = (uint64_t)expected.refusal * 65536 + expected.verdict * 16384 + expected.count;
    if (altered || got != wanted) {
        struct slice p = {property_before, property.len}, t = {trace_before, trace.len};
        print_bytes("property", &p);
        print_bytes("trace", &t);
        printf("expected: refusal %u, verdict %u, count %u\n", expected.refusal, expected.verdict,
               expected.count);
        printf("got: refusal %u, verdict %u, count %u%s\n", anthegyra_refusal(got),
               anthegyra_verdict(got), anthegyra_count(got), altered ? ", lent bytes altered" : "");
        printf("damaged: input %lu differs\n", inputs + 1);
        exit(1);
    }
    inputs++;
    refused[expected.refusal]++;
    if (!expected.refusal) verdicts[expected.verdict]++;
}

/* Inputs that chance might not make, each side of each bound once. */
static void compare_named(struct input *in)
{
    for (size_t size = MOST_COUNTED; size <= MOST_COUNTED + 1; size++) {
        long_trace(in, size);
        for (size_t i = 0; i < size; i++) in->trace[i * RECORD] = OUTPUT << 6;
        compare(in);
        behind_end(in); /* 8 is met before 9 is looked for */
        compare(in);
    }
    for (unsigned length = 0; length <= LONGEST_PACKED; length++) {
        sound(in);
        in->p.length = length;
        pack(in);
        for (in->property_len -= 1; in->property_len <= form_bytes(length) + 1; in->property_len++)
            compare(in);
    }
    for (unsigned later = 0; later < 2; later++) { /* document 01, case 14 */
        sound(in);
        in->lines = 0;
        for (unsigned i = 0; i < MOST_OPEN; i++) put_line(in, INPUT, 0, 0);
        put_line(in, INPUT, 0, 2 * in->p.ub + later);
        pack(in);
        compare(in);
    }
}

int main(int argc, char **argv)
{
    static struct input in;
    uint64_t wanted = number_argument(argc, argv, 1, 20000);
    uint64_t seed = number_argument(argc, argv, 2, 20260101);
    start_generator(seed);
    compare_named(&in);
    while (inputs < wanted) {
        random_input(&in);
        compare(&in);
    }
    printf("damaged: seed %llu, %lu inputs: refusal 0 %lu "
           "(clear %lu, suspect %lu, certain %lu, blind %lu)",
           (unsigned long long)seed, inputs, refused[0], verdicts[CLEAR], verdicts[SUSPECT],
           verdicts[CERTAIN], verdicts[BLIND]);
    for (unsigned r = 1; r < 16; r++)
        if (refused[r]) printf(", %u %lu", r, refused[r]);
    printf("; 0 differences\n");
    for (unsigned r = 0; r <= 9; r++)
        if (inputs >= 20000 && r != 3 && r != 5 && refused[r] < 20) {
            printf("damaged: refusal %u occurs too seldom for the comparison to mean much\n", r);
            return 1;
        }
    return 0;
}
