/* A plain switch interpreter of the processor's words, to compare with: the same instructions, tests, batches and two loops as
   crates/processor_bench. Arguments: rounds of arithmetic, rounds of calls. */
#include <inttypes.h>
#include <stdbool.h>
#include <stdint.h>
#include <stdio.h>
#include <stdlib.h>
#include <string.h>

enum event_kind { CONTINUE, HOME, STUCK, BIND, OPEN, FIND, CLOSE, END };

struct event {
    enum event_kind kind;
    uint64_t word;
    uint8_t r, group;
    bool global;
};

struct shown {
    bool read;
    uint64_t number;
};

struct machine {
    uint64_t *words;
    size_t size;
    uint64_t regs[8];
    uint64_t pc;
    uint64_t *returns;
    size_t returns_len, returns_used;
    uint64_t *pushed;
    size_t pushed_len, pushed_used;
    const uint64_t *input;
    size_t input_len;
    struct shown *log;
    size_t log_len, log_used;
    uint64_t made;
};

#define EVENT(k) ((struct event){ .kind = (k) })
#define NEED_REG(n) do { if ((n) >= 8) return EVENT(STUCK); } while (0)
#define NEED_WORD(at) do { if ((at) >= m->size) return EVENT(STUCK); } while (0)

static void set(struct machine *m, uint8_t r, uint64_t x)
{
    if (r < 8)
        m->regs[r] = x;
    m->pc++;
}

static struct event step(struct machine *m)
{
    if (m->made < INT64_MAX)
        m->made++;
    if (m->pc == 0)
        return EVENT(HOME);
    NEED_WORD(m->pc);
    uint64_t w = m->words[m->pc];
    uint8_t r = w >> 8, a = w >> 16, b = w >> 24;
    uint32_t k = w >> 32;
    uint64_t there = (uint32_t)(m->pc + k);
    uint64_t at;
    switch (w & 255) {
    case 1:
        set(m, r, k);
        return EVENT(CONTINUE);
    case 2:
        NEED_REG(a);
        at = m->regs[a] + k;
        NEED_WORD(at);
        set(m, r, m->words[at]);
        return EVENT(CONTINUE);
    case 3:
        NEED_REG(a);
        NEED_REG(r);
        at = m->regs[a] + k;
        NEED_WORD(at);
        m->words[at] = m->regs[r];
        m->pc++;
        return EVENT(CONTINUE);
    case 4:
        set(m, r, there);
        return EVENT(CONTINUE);
    case 5:
        NEED_REG(a);
        NEED_REG(b);
        set(m, r, m->regs[a] + m->regs[b]);
        return EVENT(CONTINUE);
    case 6:
        NEED_REG(a);
        NEED_REG(b);
        set(m, r, m->regs[a] - m->regs[b]);
        return EVENT(CONTINUE);
    case 7:
        NEED_REG(a);
        NEED_REG(b);
        set(m, r, m->regs[a] * m->regs[b]);
        return EVENT(CONTINUE);
    case 8:
        NEED_REG(a);
        NEED_REG(b);
        set(m, r, m->regs[a] < m->regs[b]);
        return EVENT(CONTINUE);
    case 9:
        NEED_REG(a);
        NEED_REG(b);
        set(m, r, m->regs[a] == m->regs[b]);
        return EVENT(CONTINUE);
    case 10:
        NEED_REG(a);
        set(m, r, m->regs[a]);
        return EVENT(CONTINUE);
    case 11:
        m->pc = there;
        return EVENT(CONTINUE);
    case 12:
        NEED_REG(r);
        m->pc = m->regs[r] == 0 ? there : m->pc + 1;
        return EVENT(CONTINUE);
    case 13:
        NEED_WORD(there);
        if (m->words[there] == 0)
            return (struct event){ .kind = BIND, .word = there };
        m->returns[m->returns_used++] = m->pc + 1;
        m->pc = m->words[there];
        return EVENT(CONTINUE);
    case 14:
        NEED_REG(r);
        m->returns[m->returns_used++] = m->pc + 1;
        m->pc = m->regs[r];
        return EVENT(CONTINUE);
    case 15:
        if (m->returns_used == 0)
            return EVENT(STUCK);
        m->pc = m->returns[--m->returns_used];
        return EVENT(CONTINUE);
    case 16:
        NEED_REG(r);
        m->pushed[m->pushed_used++] = m->regs[r];
        m->pc++;
        return EVENT(CONTINUE);
    case 17:
        if (m->pushed_used == 0)
            return EVENT(STUCK);
        set(m, r, m->pushed[--m->pushed_used]);
        return EVENT(CONTINUE);
    case 18:
        NEED_REG(r);
        m->log[m->log_used++] = (struct shown){ false, m->regs[r] };
        m->pc++;
        return EVENT(CONTINUE);
    case 19: {
        uint64_t x = 0;
        m->log[m->log_used++] = (struct shown){ true, 0 };
        if (m->input_len > 0) {
            x = *m->input++;
            m->input_len--;
        }
        set(m, r, x);
        return EVENT(CONTINUE);
    }
    case 20:
        NEED_WORD(there);
        m->pc++;
        return (struct event){ .kind = OPEN, .word = m->words[there], .r = r, .global = a == 1 };
    case 21:
        NEED_WORD(there);
        m->pc++;
        return (struct event){ .kind = FIND, .r = r, .group = a, .word = m->words[there] };
    case 22:
        m->pc++;
        return (struct event){ .kind = CLOSE, .r = r };
    case 23:
        m->pc++;
        return (struct event){ .kind = END, .r = r };
    default:
        return EVENT(STUCK);
    }
}

enum { BATCH = 1000, ROW = 2000 };

static size_t least(size_t x, size_t y)
{
    return x < y ? x : y;
}

static size_t room_left(const struct machine *m)
{
    return least(m->returns_len - m->returns_used,
                 least(m->pushed_len - m->pushed_used, m->log_len - m->log_used));
}

static struct event batch(struct machine *m)
{
    for (int i = 0; i < BATCH; i++) {
        struct event e = step(m);
        if (e.kind != CONTINUE)
            return e;
    }
    return EVENT(CONTINUE);
}

static struct event spin(struct machine *m, uint64_t batches)
{
    for (uint64_t i = 0; i < batches; i++) {
        if (room_left(m) < BATCH)
            return EVENT(STUCK);
        struct event e = batch(m);
        if (e.kind != CONTINUE)
            return e;
    }
    return EVENT(CONTINUE);
}

static const uint64_t arithmetic[] = {
    0,
    0x0000000000000013, /* in 0 */
    0x0000000100000101, /* set 1 1 */
    0x0000000d00000304, /* own 3 16 */
    0x9e3779b100000501, /* set 5 2654435761 */
    0x0000000000030402, /* get 4 3 0 */
    0x0000000000040205, /* add 2 4 0 */
    0x0000000005020207, /* mul 2 2 5 */
    0x0000000000030203, /* sto 3 0 2 */
    0x0000000001000006, /* sub 0 0 1 */
    0x0000000002040608, /* less 6 4 2 */
    0x000000020000000c, /* if0 0 13 */
    0xfffffff90000000b, /* jump 5 */
    0x0000000000000212, /* out 2 */
    0x000000000000000f, /* ret */
    0,
    12345,
};

static const uint64_t calls[] = {
    0,
    0x0000000000000013, /* in 0 */
    0x0000000100000101, /* set 1 1 */
    0x0000000000000010, /* push 0 */
    0x0000000b0000000d, /* call 15 */
    0x0000000000000011, /* pop 0 */
    0x0000000001000006, /* sub 0 0 1 */
    0x000000020000000c, /* if0 0 9 */
    0xfffffffb0000000b, /* jump 3 */
    0x0000000000000212, /* out 2 */
    0x000000000000000f, /* ret */
    0x0000000000000210, /* push 2 */
    0x0000000000000311, /* pop 3 */
    0x0000000000020205, /* add 2 2 0 */
    0x000000000000000f, /* ret */
    11,
};

static void report(const char *name, const uint64_t *program, size_t size, uint64_t rounds)
{
    if (rounds == 0)
        return;
    struct machine m = {
        .words = malloc(size * sizeof *program), .size = size,
        .returns = calloc(ROW, sizeof(uint64_t)), .returns_len = ROW,
        .pushed = calloc(ROW, sizeof(uint64_t)), .pushed_len = ROW,
        .input = &rounds, .input_len = 1,
        .log = calloc(ROW, sizeof(struct shown)), .log_len = ROW,
    };
    memcpy(m.words, program, size * sizeof *program);
    m.returns[m.returns_used++] = 0;
    m.pc = 1;
    if (spin(&m, rounds).kind != HOME || m.log_used == 0 || m.log[m.log_used - 1].read) {
        fprintf(stderr, "%s: not home\n", name);
        exit(1);
    }
    printf("%s %" PRIu64 ": %" PRIu64 "\n", name, rounds, m.log[m.log_used - 1].number);
}

int main(int argc, char **argv)
{
    if (argc != 3) {
        fprintf(stderr, "rounds of arithmetic, then of calls\n");
        return 1;
    }
    report("arithmetic", arithmetic, sizeof arithmetic / sizeof *arithmetic, strtoull(argv[1], NULL, 10));
    report("calls", calls, sizeof calls / sizeof *calls, strtoull(argv[2], NULL, 10));
    return 0;
}
