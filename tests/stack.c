/*
 * How much stack the call for C takes: it is made on a stack of its own, which is painted before and looked
 * at afterwards, for fixed and drawn stretches. Fails where that is not less than what the header says.
 */
#include "anthegyra.h"
#include "common.h"

enum { ROOM = 1 << 18, PROMISED = 20000 };

static uint8_t stack[ROOM] __attribute__((aligned(64)));
static uint8_t property[PROPERTY_ROOM], trace[(MOST_COUNTED + 2) * RECORD];
static size_t most, calls;

/* The archive is x86-64, and so is this. */
static uint64_t judge_there(const uint8_t *p, size_t p_len, const uint8_t *t, size_t t_len)
{
    uint64_t n = (uint64_t)anthegyra_stretch_judge;
    __asm__ volatile("movq %%rsp, %%rbx\n\tmovq %[top], %%rsp\n\tcall *%%rax\n\tmovq %%rbx, %%rsp"
                     : "+a"(n), "+D"(p), "+S"(p_len), "+d"(t), "+c"(t_len)
                     : [top] "r"(stack + ROOM)
                     : "rbx", "r8", "r9", "r10", "r11", "xmm0", "xmm1", "xmm2", "xmm3", "xmm4", "xmm5", "xmm6",
                       "xmm7", "xmm8", "xmm9", "xmm10", "xmm11", "xmm12", "xmm13", "xmm14", "xmm15", "memory",
                       "cc");
    return n;
}

/* Two paints: a byte of the one may have been written by the call itself. */
static void measure(size_t p_len, size_t t_len)
{
    static const uint8_t paints[] = {0xA5, 0x5A};
    for (size_t i = 0; i < sizeof paints; i++) {
        size_t clean = 0;
        memset(stack, paints[i], ROOM);
        if (judge_there(property, p_len, trace, t_len) != anthegyra_stretch_judge(property, p_len, trace, t_len)) {
            puts("stack: FAILED: another answer on another stack");
            exit(1);
        }
        while (clean < ROOM && stack[clean] == paints[i]) clean++;
        if (ROOM - clean > most) most = ROOM - clean;
    }
    calls++;
}

/* Inputs that stay open, then one output more: up to 64 of them, and one too many. */
static void fixed(void)
{
    static const size_t lengths[] = {0, 1, 31, 32, 33, 63};
    for (size_t i = 0; i < sizeof lengths / sizeof *lengths; i++)
        for (unsigned kinds = 1; kinds <= 3; kinds++)
            for (size_t open = 0; open <= MOST_OPEN + 1; open += 13) {
                struct property p = {(unsigned)lengths[i], {{0, 0}}, 0, 10, HIGHEST_BOUND};
                size_t p_len;
                for (unsigned k = 0; k < p.length; k++) p.sequence[k].number = k % kinds;
                p_len = pack_property(&p, property);
                for (size_t k = 0; k < open; k++) pack_record(trace + k * RECORD, INPUT, (unsigned)(k % kinds), 0);
                pack_record(trace + open * RECORD, OUTPUT, 0, 2 * HIGHEST_BOUND);
                pack_record(trace + (open + 1) * RECORD, END, 0, 0);
                measure(p_len, (open + 2) * RECORD);
                measure(p_len, (open + 1) * RECORD);
                measure(p_len - 1, (open + 2) * RECORD);
            }
    for (size_t k = 0; k <= MOST_COUNTED; k++) pack_record(trace + k * RECORD, k % 2 ? OUTPUT : INPUT, 0, HIGHEST_BOUND);
    pack_record(trace + (MOST_COUNTED + 1) * RECORD, END, 0, 0);
    measure(17, (MOST_COUNTED + 2) * RECORD);
    measure(17, 0);
    measure(0, 0);
}

static void drawn(void)
{
    const struct pool pool = random_pool();
    const struct property p = random_property(&pool);
    struct line lines[80];
    size_t p_len = pack_property(&p, property), n = below(81);
    for (size_t i = 0; i < n; i++) {
        lines[i].stamp = random_stamp(&p, lines, i, 0);
        lines[i].action = from_pool(&pool);
        if (one_in(40)) lines[i].action.kind = GAP;
    }
    measure(p_len, pack_trace(lines, n, trace));
}

int main(int argc, char **argv)
{
    uint64_t count = number_argument(argc, argv, 1, 1000);
    start_generator(number_argument(argc, argv, 2, 20260101));
    fixed();
    for (uint64_t i = 0; i < count; i++) drawn();
    printf("stack: %u calls took at most %u bytes\n", (unsigned)calls, (unsigned)most);
    /* where little is seen the paint was not where the call wrote */
    return most < PROMISED && most > 256 ? 0 : 1;
}
