/* The machine of document 01 as a plain C program would have it: one struct, pointers into its bytes, one switch. It is what ours is
 * timed against, and no part of ours. Every refusal of a step is here, and a refused step changes nothing. No journal.
 *
 * The language is that of main.rattle: standard input is the number of steps, as four bytes, low byte first; a byte that is not 0
 * where there is a device; a byte that is not looked at; and then the program. Standard output is a line for each number: what the
 * run answered, the accepted steps, the registers, and a number made of the memory. */
#include <stdbool.h>
#include <stddef.h>
#include <stdint.h>
#include <stdio.h>

enum { A, B, C, M, SP, PC, BP, FLAGS };

/* Bits of FLAGS. */
enum { HALT = 1, KEEP_REMAINDER = 2, STORE_FAILED = 4, HOLDS = 8 };

/* A refusal is its number in document 01. */
enum answer {
    CONTINUE = 0,
    BAD_STATE = 1,
    FETCH_UNMAPPED = 2,
    ADDRESS_OVERFLOW = 3,
    BAD_OPCODE = 4,
    BAD_COMPARE = 5,
    BAD_ARITH = 6,
    ARITH_OVERFLOW = 7,
    DIVIDE_BY_ZERO = 8,
    PC_OVERFLOW = 9,
    DEBUG = 100,
    STOP = 101,
};

enum { ADD, SUB, MUL, DIV, MOD, EXP, SQRT };

#define ENTRIES 8
#define LAST_ADDRESS 65535

struct region {
    uint16_t start;
    uint16_t len;
};

struct device {
    uint16_t start;
    uint16_t end;
};

struct machine {
    uint16_t reg[8];
    bool debug;
    unsigned regions;
    struct region region[ENTRIES];
    unsigned devices;
    struct device device[ENTRIES];
    uint8_t *memory;
    size_t memory_length;
    uint8_t *bank;
    size_t bank_length;
};

/* The state. */

static bool regions_overlap(struct region a, struct region b)
{
    return (a.start <= b.start && b.start < a.start + a.len) || (b.start <= a.start && a.start < b.start + b.len);
}

static bool devices_overlap(struct device a, struct device b)
{
    return a.start <= b.end && b.start <= a.end;
}

static bool valid_regions(const struct machine *m)
{
    if (m->regions > ENTRIES)
        return false;
    for (unsigned i = 0; i < m->regions; i++) {
        if (m->region[i].start + m->region[i].len > LAST_ADDRESS)
            return false;
        for (unsigned j = i + 1; j < m->regions; j++)
            if (regions_overlap(m->region[i], m->region[j]))
                return false;
    }
    for (unsigned i = m->regions; i < ENTRIES; i++)
        if (m->region[i].start != 0 || m->region[i].len != 0)
            return false;
    return true;
}

static bool valid_devices(const struct machine *m)
{
    size_t bytes = 0;

    if (m->devices > ENTRIES)
        return false;
    for (unsigned i = 0; i < m->devices; i++) {
        if (m->device[i].start > m->device[i].end)
            return false;
        bytes += m->device[i].end - m->device[i].start;
        for (unsigned j = i + 1; j < m->devices; j++)
            if (devices_overlap(m->device[i], m->device[j]))
                return false;
    }
    for (unsigned i = m->devices; i < ENTRIES; i++)
        if (m->device[i].start != 0 || m->device[i].end != 0)
            return false;
    return bytes <= m->bank_length;
}

/* Memory. */

/* A device's byte at the address, or NULL where no device covers it. */
static uint8_t *device_byte(struct machine *m, uint16_t a)
{
    uint8_t *bytes = m->bank;

    for (unsigned i = 0; i < m->devices; i++) {
        const struct device *d = &m->device[i];
        if (d->start <= a && a < d->end)
            return bytes + (a - d->start);
        bytes += d->end - d->start;
    }
    return NULL;
}

static bool is_protected(const struct machine *m, uint16_t a)
{
    for (unsigned i = 0; i < m->regions; i++) {
        const struct region *r = &m->region[i];
        if (r->start <= a && a < r->start + r->len)
            return true;
    }
    return false;
}

/* Where the byte of an address is read, or NULL where it is unmapped. */
static const uint8_t *source(struct machine *m, uint16_t a)
{
    uint8_t *p = device_byte(m, a);

    if (p != NULL)
        return p;
    return a < m->memory_length ? &m->memory[a] : NULL;
}

/* Where a store to an address goes, or NULL where it takes none. */
static uint8_t *target(struct machine *m, uint16_t a)
{
    uint8_t *p = device_byte(m, a);

    if (p != NULL)
        return p;
    return a < m->memory_length && !is_protected(m, a) ? &m->memory[a] : NULL;
}

/* Reads a word. `absent` is what is answered where one of its bytes is unmapped. */
static enum answer read_word(struct machine *m, uint16_t a, enum answer absent, uint16_t *word)
{
    const uint8_t *low = source(m, a);
    const uint8_t *high;

    if (low == NULL)
        return absent;
    if (a == LAST_ADDRESS)
        return ADDRESS_OVERFLOW;
    high = source(m, a + 1);
    if (high == NULL)
        return absent;
    *word = *low | *high << 8;
    return CONTINUE;
}

/* The ends of a step. */

/* PC is raised and nothing else changes. */
static enum answer go_on(struct machine *m)
{
    if (m->reg[PC] > LAST_ADDRESS - 2)
        return PC_OVERFLOW;
    m->reg[PC] += 2;
    return CONTINUE;
}

/* A register gets its value, and PC is raised: also where it is that register. */
static enum answer settle(struct machine *m, unsigned d, uint16_t value)
{
    uint16_t pc = d == PC ? value : m->reg[PC];

    if (pc > LAST_ADDRESS - 2)
        return PC_OVERFLOW;
    m->reg[d] = value;
    m->reg[PC] = pc + 2;
    return CONTINUE;
}

static enum answer fail_store(struct machine *m)
{
    return settle(m, FLAGS, m->reg[FLAGS] | HALT | STORE_FAILED);
}

/* Instructions. */

static enum answer load_word(struct machine *m, unsigned r, uint16_t a)
{
    uint16_t word = m->reg[r];
    enum answer answer = read_word(m, a, CONTINUE, &word);

    return answer == CONTINUE ? settle(m, r, word) : answer;
}

static enum answer load_byte(struct machine *m, unsigned r, uint16_t a)
{
    const uint8_t *p = source(m, a);

    return p != NULL ? settle(m, r, *p) : go_on(m);
}

/* Where the high byte takes no store the low one is stored. */
static enum answer store_word(struct machine *m, uint16_t word, uint16_t a)
{
    uint8_t *low = target(m, a);
    uint8_t *high;
    enum answer answer;

    if (low == NULL)
        return fail_store(m);
    if (a == LAST_ADDRESS)
        return ADDRESS_OVERFLOW;
    high = target(m, a + 1);
    answer = high != NULL ? go_on(m) : fail_store(m);
    if (answer == CONTINUE) {
        *low = word & 0xff;
        if (high != NULL)
            *high = word >> 8;
    }
    return answer;
}

static enum answer store_byte(struct machine *m, uint8_t byte, uint16_t a)
{
    uint8_t *p = target(m, a);
    enum answer answer;

    if (p == NULL)
        return fail_store(m);
    answer = go_on(m);
    if (answer == CONTINUE)
        *p = byte;
    return answer;
}

static enum answer copy(struct machine *m, unsigned from, unsigned to)
{
    const uint8_t *p = source(m, m->reg[from]);

    return p != NULL ? store_byte(m, *p, m->reg[to]) : fail_store(m);
}

static uint16_t root(uint16_t v)
{
    uint32_t low = 0;
    uint32_t high = 256;

    while (high - low > 1) {
        uint32_t middle = (low + high) / 2;
        if (middle * middle <= v)
            low = middle;
        else
            high = middle;
    }
    return low;
}

/* Once past 65,535 a power stays there: the loop ends. */
static uint32_t power(uint16_t a, uint16_t b)
{
    uint32_t value = 1;

    for (unsigned i = 0; i < b && value <= 65535; i++)
        value *= a;
    return value;
}

static enum answer reckon(unsigned op, uint16_t x, uint16_t y, uint16_t *result)
{
    uint32_t value = 0;

    if (y == 0 && (op == DIV || op == MOD))
        return DIVIDE_BY_ZERO;
    switch (op) {
    case ADD: value = x + y; break;
    case SUB: value = (uint32_t)x - y; break;
    case MUL: value = (uint32_t)x * y; break;
    case DIV: value = x / y; break;
    case MOD: value = x % y; break;
    case EXP: value = power(x, y); break;
    case SQRT: value = root(x); break;
    }
    if (value > 65535)
        return ARITH_OVERFLOW;
    *result = value;
    return CONTINUE;
}

static enum answer arith(struct machine *m, unsigned op, unsigned d, uint16_t x, uint16_t y)
{
    uint16_t value;
    enum answer answer = reckon(op, x, y, &value);

    return answer == CONTINUE ? settle(m, d, value) : answer;
}

/* A division of Arith, where FLAGS ask for it, stores the remainder's low byte at the old SP. */
static enum answer divide(struct machine *m, unsigned d, uint16_t y)
{
    uint16_t x = m->reg[d];
    uint16_t old_sp = m->reg[SP];
    bool keep = m->reg[FLAGS] & KEEP_REMAINDER;
    enum answer answer = arith(m, DIV, d, x, y);

    if (answer == CONTINUE && keep) {
        uint8_t *p = target(m, old_sp);
        if (p != NULL)
            *p = x % y;
    }
    return answer;
}

static enum answer compare(struct machine *m, unsigned op, uint16_t x, uint16_t y)
{
    bool holds;

    switch (op) {
    case 0: holds = x == y; break;
    case 1: holds = x != y; break;
    case 2: holds = x < y; break;
    case 3: holds = x <= y; break;
    case 4: holds = x > y; break;
    case 5: holds = x >= y; break;
    default: return BAD_COMPARE;
    }
    return settle(m, FLAGS, holds ? m->reg[FLAGS] | HOLDS : m->reg[FLAGS] & ~HOLDS);
}

static enum answer call(struct machine *m, uint16_t address)
{
    if (m->reg[PC] > LAST_ADDRESS - 2)
        return PC_OVERFLOW;
    m->reg[M] = m->reg[PC] + 2;
    m->reg[PC] = address;
    return CONTINUE;
}

static enum answer jump(struct machine *m, uint16_t address)
{
    m->reg[PC] = address;
    return CONTINUE;
}

/* The `width` bits of a word from bit `at` on. */
static unsigned bits(uint16_t w, unsigned at, unsigned width)
{
    return w >> at & ((1u << width) - 1);
}

/* The operand whose mode bit is at `at`: a register, or an immediate of `width` bits. */
static uint16_t operand(const struct machine *m, uint16_t w, unsigned at, unsigned width)
{
    return bits(w, at, 1) ? m->reg[bits(w, at + 1, 3)] : bits(w, at + 1, width);
}

static enum answer transfer(struct machine *m, uint16_t w, bool whole_word)
{
    unsigned r = bits(w, 4, 3);
    unsigned a = m->reg[bits(w, 7, 3)] + bits(w, 11, 5);
    bool store = bits(w, 10, 1);

    if (a > LAST_ADDRESS)
        return ADDRESS_OVERFLOW;
    if (whole_word)
        return store ? store_word(m, m->reg[r], a) : load_word(m, r, a);
    return store ? store_byte(m, m->reg[r] & 0xff, a) : load_byte(m, r, a);
}

static enum answer move_shifted(struct machine *m, uint16_t w)
{
    unsigned d = bits(w, 4, 3);
    unsigned amount = bits(w, 7, 3);
    unsigned value = bits(w, 10, 1) ? m->reg[d] << amount : m->reg[d] >> amount;

    return settle(m, d, value | bits(w, 11, 5));
}

static enum answer conditional_jump(struct machine *m, uint16_t w)
{
    if (bits(w, 4, 1)) /* a plain jump to a register */
        return jump(m, m->reg[bits(w, 5, 3)]);
    if (!(m->reg[FLAGS] & HOLDS))
        return go_on(m);
    m->reg[FLAGS] &= ~HOLDS;
    return jump(m, bits(w, 5, 11));
}

static enum answer act(struct machine *m, uint16_t w)
{
    unsigned d = bits(w, 4, 3);
    unsigned op = bits(w, 7, 3);

    switch (bits(w, 0, 4)) {
    case 0: {
        enum answer answer = go_on(m);
        return answer == CONTINUE && m->debug ? DEBUG : answer;
    }
    case 1:
        return settle(m, d, operand(m, w, 7, 8));
    case 2:
        return move_shifted(m, w);
    case 3:
        op = bits(w, 7, 2);
        if (op == DIV)
            return divide(m, d, operand(m, w, 9, 6));
        return arith(m, op, d, m->reg[d], operand(m, w, 9, 6));
    case 4:
        return transfer(m, w, true);
    case 5:
        return conditional_jump(m, w);
    case 6:
        return jump(m, operand(m, w, 4, 11));
    case 7:
        return compare(m, op, m->reg[d], operand(m, w, 10, 5));
    case 8:
        return transfer(m, w, false);
    case 9:
        return copy(m, d, op);
    case 10:
        if (op > SQRT)
            return BAD_ARITH;
        return arith(m, op, d, m->reg[bits(w, 10, 3)], m->reg[bits(w, 13, 3)]);
    case 11:
        return bits(w, 4, 1) ? jump(m, m->reg[M]) : call(m, bits(w, 5, 11));
    default:
        return BAD_OPCODE;
    }
}

static enum answer step(struct machine *m)
{
    uint16_t word;
    enum answer answer;

    if (m->reg[FLAGS] & HALT)
        return STOP;
    answer = read_word(m, m->reg[PC], FETCH_UNMAPPED, &word);
    return answer == CONTINUE ? act(m, word) : answer;
}

/* At most n steps; `count` is how many were accepted. */
static enum answer run(struct machine *m, uint32_t n, uint32_t *count)
{
    *count = 0;
    if (!valid_regions(m) || !valid_devices(m))
        return BAD_STATE;
    while (*count < n) {
        enum answer answer = step(m);
        if (answer == CONTINUE || answer == DEBUG)
            ++*count;
        if (answer != CONTINUE)
            return answer;
    }
    return CONTINUE;
}

/* The program that is timed. */

static uint8_t memory[65536];
static uint8_t bank[16];

static void protect(struct machine *m, uint16_t start, uint16_t len)
{
    m->region[m->regions++] = (struct region){ .start = start, .len = len };
}

static void add_device(struct machine *m, uint16_t start, uint16_t size)
{
    m->device[m->devices++] = (struct device){ .start = start, .end = start + size };
}

static unsigned long long sum_of(const uint8_t *bytes, size_t length)
{
    unsigned long long sum = 0;

    for (size_t i = 0; i < length; i++)
        sum = sum % 4294967291 * 31 + bytes[i];
    return sum;
}

int main(void)
{
    uint8_t head[6];
    struct machine m = { .memory = memory, .memory_length = sizeof memory, .bank = bank, .bank_length = sizeof bank };
    uint32_t count;
    enum answer answer;
    size_t length;

    if (fread(head, 1, sizeof head, stdin) != sizeof head)
        return 1;
    length = fread(memory, 1, sizeof memory, stdin);
    protect(&m, 0, length / 2);
    if (head[4] != 0)
        add_device(&m, 60000, sizeof bank);

    answer = run(&m, head[0] | head[1] << 8 | head[2] << 16 | (uint32_t)head[3] << 24, &count);

    printf("%d\n%lu\n", answer, (unsigned long)count);
    for (int i = 0; i < 8; i++)
        printf("%u\n", m.reg[i]);
    printf("%llu\n", sum_of(memory, sizeof memory));
    return 0;
}
