/* A step a second time, written from the paper's table of instructions. It works on a copy of the registers and a list of bytes to
 * store, so that a refusal has changed nothing. */
#include "check.h"

struct turn {
    struct machine *m;
    unsigned r[8]; /* as they will be */
    unsigned stores, at[2];
    uint8_t value[2];
};

static unsigned field(unsigned word, unsigned from, unsigned width)
{
    return word >> from & ((1u << width) - 1);
}

static bool store(struct turn *t, unsigned a, unsigned value)
{
    if (!takes_store(t->m, a))
        return false;
    t->at[t->stores] = a;
    t->value[t->stores++] = (uint8_t)(value & 255);
    return true;
}

static void failed(struct turn *t)
{
    t->r[KETTLE_FLAGS] |= KETTLE_FLAG_HALT | KETTLE_FLAG_FAILED;
}

static unsigned byte(struct turn *t, unsigned a)
{
    bool of_device;
    return *ref_byte(t->m, a, &of_device);
}

/* op 0 to 3 for Arith, to 6 for ArithRegReg: 7, 8, or 0 and the result */
static unsigned reckon(unsigned op, unsigned a, unsigned b, unsigned *result)
{
    unsigned long long v = 0;
    switch (op) {
    case 0: v = (unsigned long long)a + b; break;
    case 1:
        if (b > a)
            return 7;
        v = a - b;
        break;
    case 2: v = (unsigned long long)a * b; break;
    case 3:
    case 4:
        if (b == 0)
            return 8;
        v = op == 3 ? a / b : a % b;
        break;
    case 5:
        v = 1;
        if (a == 0 && b > 0)
            v = 0;
        else if (a > 1)
            for (unsigned i = 0; i < b && v <= 65535; i++)
                v *= a;
        break;
    default:
        while ((v + 1) * (v + 1) <= a)
            v++;
        break;
    }
    if (v > 65535)
        return 7;
    *result = (unsigned)v;
    return 0;
}

static bool compare(unsigned op, unsigned a, unsigned b)
{
    switch (op) {
    case 0: return a == b;
    case 1: return a != b;
    case 2: return a < b;
    case 3: return a <= b;
    case 4: return a > b;
    default: return a >= b;
    }
}

static unsigned load_or_store(struct turn *t, const unsigned *old, unsigned w, bool is_word)
{
    unsigned reg = field(w, 4, 3), a = old[field(w, 7, 3)] + field(w, 11, 5);
    if (a > 65535)
        return 3;
    if (field(w, 10, 1)) {
        if (is_word && a == 65535 && takes_store(t->m, a))
            return 3;
        if (!store(t, a, old[reg]) || (is_word && !store(t, a + 1, old[reg] >> 8)))
            failed(t);
        return 0;
    }
    if (!is_mapped(t->m, a))
        return 0;
    if (!is_word) {
        t->r[reg] = byte(t, a);
        return 0;
    }
    if (a == 65535)
        return 3;
    if (is_mapped(t->m, a + 1))
        t->r[reg] = byte(t, a) + 256 * byte(t, a + 1);
    return 0;
}

/* the act; *stays if PC is not raised after it */
static unsigned act(struct turn *t, const unsigned *old, unsigned w, bool *stays)
{
    unsigned reg = field(w, 4, 3), number;
    switch (field(w, 0, 4)) {
    case 0: return 0;
    case 1: t->r[reg] = field(w, 7, 1) ? old[field(w, 8, 3)] : field(w, 8, 8); return 0;
    case 2:
        t->r[reg] = (field(w, 10, 1) ? old[reg] << field(w, 7, 3) & 65535 : old[reg] >> field(w, 7, 3)) | field(w, 11, 5);
        return 0;
    case 3: {
        unsigned other = field(w, 9, 1) ? old[field(w, 10, 3)] : field(w, 10, 6), op = field(w, 7, 2);
        number = reckon(op, old[reg], other, &t->r[reg]);
        if (number == 0 && op == 3 && old[KETTLE_FLAGS] & KETTLE_FLAG_REMAINDER)
            store(t, old[KETTLE_SP], old[reg] % other);
        return number;
    }
    case 4: return load_or_store(t, old, w, true);
    case 8: return load_or_store(t, old, w, false);
    case 5:
    case 6: {
        bool by_register = field(w, 4, 1), always = by_register || field(w, 0, 4) == 6;
        *stays = always || old[KETTLE_FLAGS] & KETTLE_FLAG_TRUE;
        if (!always)
            t->r[KETTLE_FLAGS] &= ~(unsigned)KETTLE_FLAG_TRUE;
        if (*stays)
            t->r[KETTLE_PC] = by_register ? old[field(w, 5, 3)] : field(w, 5, 11);
        return 0;
    }
    case 7: {
        if (field(w, 7, 3) > 5)
            return 5;
        unsigned other = field(w, 10, 1) ? old[field(w, 11, 3)] : field(w, 11, 5);
        t->r[KETTLE_FLAGS] &= ~(unsigned)KETTLE_FLAG_TRUE;
        if (compare(field(w, 7, 3), old[reg], other))
            t->r[KETTLE_FLAGS] |= KETTLE_FLAG_TRUE;
        return 0;
    }
    case 9:
        if (!is_mapped(t->m, old[reg]) || !store(t, old[field(w, 7, 3)], byte(t, old[reg])))
            failed(t);
        return 0;
    case 10:
        if (field(w, 7, 3) == 7)
            return 6;
        return reckon(field(w, 7, 3), old[field(w, 10, 3)], old[field(w, 13, 3)], &t->r[reg]);
    case 11:
        *stays = true;
        if (field(w, 4, 1)) {
            t->r[KETTLE_PC] = old[KETTLE_M];
            return 0;
        }
        if (old[KETTLE_PC] >= 65534)
            return 9;
        t->r[KETTLE_M] = old[KETTLE_PC] + 2;
        t->r[KETTLE_PC] = field(w, 5, 11);
        return 0;
    default: return 4;
    }
}

uint64_t ref_turn(struct machine *m)
{
    struct turn t = {.m = m};
    unsigned old[8], pc = reg(m, KETTLE_PC), word, number;
    bool stays = false, of_device;
    for (unsigned i = 0; i < 8; i++)
        old[i] = t.r[i] = reg(m, (enum kettle_register)i);
    if (old[KETTLE_FLAGS] & KETTLE_FLAG_HALT)
        return 257;
    if (!is_mapped(m, pc))
        return 2;
    if (pc == 65535)
        return 3;
    if (!is_mapped(m, pc + 1))
        return 2;
    word = byte(&t, pc) + 256 * byte(&t, pc + 1);
    number = act(&t, old, word, &stays);
    if (number != 0)
        return number;
    if (!stays) {
        if (t.r[KETTLE_PC] >= 65534)
            return 9;
        t.r[KETTLE_PC] += 2;
    }
    ref_record(m, t.stores, t.at);
    for (unsigned i = 0; i < t.stores; i++)
        *ref_byte(m, t.at[i], &of_device) = t.value[i];
    for (unsigned i = 0; i < 8; i++)
        put_register(m, (enum kettle_register)i, t.r[i]);
    return field(word, 0, 4) == 0 && m->block.at[KETTLE_BLOCK_DEBUG] == 1 ? 256 : 0;
}
