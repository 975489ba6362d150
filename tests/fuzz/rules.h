/*
 * rules.h: the machine's rules over whole states, written from its description and from the Rust: when a state is valid, where a
 * byte is, what a step does, what each entry answers and leaves; which line of a text is a CJP to a register; which words have a
 * text, with which labels, and how many of its references wait at once. The step and the line of a CJP were written with our source
 * in sight. The harness holds the library beside them.
 */
#ifndef RULES_H
#define RULES_H

#include "seamkettle.h"

enum { MEMORY_MOST = 66047, DEVICES_MOST = 66047, JOURNAL_MOST = 131071, BLOCK_MOST = 255 };

/* A machine with all that is lent to it. */
struct whole {
    size_t block_len, memory_len, devices_len, journal_len;
    uint8_t block[BLOCK_MOST + 1], memory[MEMORY_MOST + 1], devices[DEVICES_MOST + 1], journal[JOURNAL_MOST + 1];
};

static void copy_whole(struct whole *to, const struct whole *from)
{
    to->block_len = from->block_len;
    to->memory_len = from->memory_len;
    to->devices_len = from->devices_len;
    to->journal_len = from->journal_len;
    memcpy(to->block, from->block, from->block_len);
    memcpy(to->memory, from->memory, from->memory_len);
    memcpy(to->devices, from->devices, from->devices_len);
    memcpy(to->journal, from->journal, from->journal_len);
}

static void put_word(uint8_t *at, unsigned value)
{
    at[0] = (uint8_t)value;
    at[1] = (uint8_t)(value >> 8);
}

static unsigned reg(const struct whole *w, enum kettle_register r)
{
    return kettle_register_of(w->block, r);
}

static unsigned region_count(const struct whole *w) { return w->block[KETTLE_BLOCK_PROTECTED]; }
static unsigned region_start(const struct whole *w, unsigned i) { return kettle_word(w->block + KETTLE_BLOCK_REGIONS + 4 * i); }
static unsigned region_len(const struct whole *w, unsigned i) { return kettle_word(w->block + KETTLE_BLOCK_REGIONS + 4 * i + 2); }
static unsigned device_count(const struct whole *w) { return w->block[KETTLE_BLOCK_DEVICE_COUNT]; }
static unsigned device_start(const struct whole *w, unsigned i) { return kettle_word(w->block + KETTLE_BLOCK_DEVICES + 4 * i); }
static unsigned device_end(const struct whole *w, unsigned i) { return kettle_word(w->block + KETTLE_BLOCK_DEVICES + 4 * i + 2); }
static unsigned next_slot(const struct whole *w) { return kettle_word(w->block + KETTLE_BLOCK_NEXT); }

/* how many records the journal has room for */
static unsigned slots(const struct whole *w)
{
    size_t n = w->journal_len / KETTLE_RECORD_SIZE;
    return n < KETTLE_RECORD_MOST ? (unsigned)n : KETTLE_RECORD_MOST;
}

static int regions_overlap(unsigned a, unsigned a_len, unsigned b, unsigned b_len)
{
    return (b <= a && a < b + b_len) || (a <= b && b < a + a_len);
}

static int devices_overlap(unsigned a, unsigned a_end, unsigned b, unsigned b_end)
{
    return a <= b_end && a_end >= b;
}

static int is_block(const struct whole *w)
{
    return w->block_len == KETTLE_BLOCK_SIZE && w->block[KETTLE_BLOCK_DEBUG] <= 1;
}

static size_t devices_used(const struct whole *w)
{
    size_t used = 0;
    for (unsigned i = 0; i < device_count(w); i++)
        used += device_end(w, i) - device_start(w, i);
    return used;
}

/* of a block: "A state is valid if .." */
static int is_valid(const struct whole *w)
{
    unsigned regions = region_count(w), devices = device_count(w);
    if (regions > 8 || devices > 8)
        return 0;
    for (unsigned i = 0; i < 8; i++) {
        if (i >= regions && (region_start(w, i) || region_len(w, i)))
            return 0;
        if (i >= devices && (device_start(w, i) || device_end(w, i)))
            return 0;
        if (region_start(w, i) + region_len(w, i) > 65535 || device_start(w, i) > device_end(w, i))
            return 0;
    }
    for (unsigned i = 0; i < 8; i++)
        for (unsigned j = 0; j < i; j++) {
            if (i < regions && regions_overlap(region_start(w, i), region_len(w, i), region_start(w, j), region_len(w, j)))
                return 0;
            if (i < devices && devices_overlap(device_start(w, i), device_end(w, i), device_start(w, j), device_end(w, j)))
                return 0;
        }
    if (devices_used(w) > w->devices_len || kettle_held(w->block) > slots(w))
        return 0;
    return slots(w) ? next_slot(w) < slots(w) : next_slot(w) == 0;
}

/* the byte that address a shows, or NULL */
static uint8_t *shown(struct whole *w, unsigned a)
{
    size_t at = 0;
    for (unsigned i = 0; i < device_count(w); i++) {
        if (device_start(w, i) <= a && a < device_end(w, i))
            return w->devices + at + (a - device_start(w, i));
        at += device_end(w, i) - device_start(w, i);
    }
    return a < w->memory_len ? w->memory + a : NULL;
}

/* the byte that takes a store to address a, or NULL */
static uint8_t *taking(struct whole *w, unsigned a)
{
    uint8_t *byte = shown(w, a);
    if (byte && byte >= w->memory && byte < w->memory + w->memory_len)
        for (unsigned i = 0; i < region_count(w); i++)
            if (region_start(w, i) <= a && a < region_start(w, i) + region_len(w, i))
                return NULL;
    return byte;
}

static void empty_journal(struct whole *w)
{
    put_word(w->block + KETTLE_BLOCK_NEXT, 0);
    put_word(w->block + KETTLE_BLOCK_HELD, 0);
}

/* ---- which lines of a text strict assembly refuses with 32 ----------------------------------------------------------------- */

static int is_blank(uint8_t byte)
{
    return byte == 32 || (byte >= 9 && byte <= 13);
}

/* the next token of a line, from *at on: its length, and *at is where it begins */
static size_t token(const uint8_t *line, size_t len, size_t *at)
{
    size_t end;
    while (*at < len && is_blank(line[*at]))
        ++*at;
    for (end = *at; end < len && !is_blank(line[end]);)
        end++;
    return end - *at;
}

static int is_register(const uint8_t *name, size_t len)
{
    static const char *const names[8] = {"A", "B", "C", "M", "SP", "PC", "BP", "FLAGS"};
    for (unsigned i = 0; i < 8; i++)
        if (len == strlen(names[i]) && !memcmp(name, names[i], len))
            return 1;
    return 0;
}

/* CJP in either case, a register, and nothing after it. (With a final colon it would be no register.) */
static int is_register_cjp(const uint8_t *line, size_t len)
{
    size_t at = 0, n = token(line, len, &at);
    if (n != 3 || (line[at] | 32) != 'c' || (line[at + 1] | 32) != 'j' || (line[at + 2] | 32) != 'p')
        return 0;
    at += n;
    n = token(line, len, &at);
    if (!is_register(line + at, n))
        return 0;
    at += n;
    return token(line, len, &at) == 0;
}

/* the first such line of a text, from 1; 0 for none */
static uint64_t register_cjp_line(const uint8_t *text, size_t len)
{
    uint64_t line = 1;
    for (size_t from = 0, to; from < len; from = to + 1, line++) {
        for (to = from; to < len && text[to] != 10;)
            to++;
        if (is_register_cjp(text + from, to - from))
            return line;
    }
    return 0;
}

/* ---- source for words ------------------------------------------------------------------------------------------------------ */

enum { SOURCE_LABELS = 1024, WAITING_MOST = 512 };

/* the bits that a word of this kind can have; -1 for one that says no instruction */
static long usable_bits(unsigned word)
{
    switch (word & 15) {
    case 0: return 0;
    case 1: return word & 0x80 ? 0x7ff : 0xffff;
    case 3: return word & 0x200 ? 0x1fff : 0xffff;
    case 5:
    case 6: return word & 0x10 ? 0xff : 0xffff;
    case 7: return (word >> 7 & 7) > 5 ? -1 : word & 0x400 ? 0x3fff : 0xffff;
    case 9: return 0x3ff;
    case 10: return (word >> 7 & 7) > 6 ? -1 : 0xffff;
    case 11: return word & 0x10 ? 0x1f : 0xffff; /* RET, which has no address in a text */
    case 2:
    case 4:
    case 8: return 0xffff;
    default: return -1;
    }
}

static int has_text(unsigned word)
{
    long bits = usable_bits(word);
    return bits >= 0 && (word & ~(unsigned)bits) == 0;
}

/* 31, 16 and 33, with its index; else 0 */
static uint64_t source_unfit(const uint8_t *words, size_t len)
{
    if (len % 2)
        return KETTLE_BAD_BLOCK;
    if (len / 2 > KETTLE_WORDS_MOST)
        return KETTLE_TOO_LONG;
    for (size_t i = 0; i < len / 2; i++)
        if (!has_text(kettle_word(words + 2 * i)))
            return KETTLE_NO_TEXT | (uint64_t)i << 16;
    return 0;
}

/* Is it a jump or call to a number that has a label, in a program of so many words? The label's word beside it. */
static int has_label(unsigned word, size_t count, size_t *at)
{
    unsigned kind = word & 31, address = word >> 5;
    *at = address / 2;
    return (kind == 5 || kind == 6 || kind == 11) && address % 2 == 0 && *at < count;
}

/* which words have a label line before them; how many */
static unsigned labels_of(const uint8_t *words, size_t count, uint8_t used[SOURCE_LABELS])
{
    unsigned n = 0;
    size_t at;
    memset(used, 0, SOURCE_LABELS);
    for (size_t i = 0; i < count; i++)
        if (has_label(kettle_word(words + 2 * i), count, &at) && !used[at])
            used[at] = 1, n++;
    return n;
}

/* the line of the text that finds 512 references waiting, from 1; 0 for none */
static uint64_t full_line(const uint8_t *words, size_t count, const uint8_t used[SOURCE_LABELS])
{
    static unsigned waits[SOURCE_LABELS];
    unsigned waiting = 0;
    uint64_t line = 0;
    size_t at;
    memset(waits, 0, sizeof waits);
    for (size_t i = 0; i < count; i++, line++) {
        if (i < SOURCE_LABELS && used[i])
            line++, waiting -= waits[i];
        if (!has_label(kettle_word(words + 2 * i), count, &at) || at <= i)
            continue;
        if (waiting == WAITING_MOST)
            return line + 1;
        waiting++;
        waits[at]++;
    }
    return 0;
}

/* ---- what an entry answers, and what it leaves in w ------------------------------------------------------------------------ */

/* 31 and 1, which come first everywhere; else 0 */
static uint64_t unfit(const struct whole *w)
{
    return !is_block(w) ? KETTLE_BAD_BLOCK : !is_valid(w) ? KETTLE_BAD_STATE : 0;
}

static uint64_t set_register_rule(struct whole *w, size_t number, uint16_t value)
{
    if (unfit(w))
        return unfit(w);
    if (number > 7)
        return KETTLE_BAD_REGISTER;
    put_word(w->block + 2 * number, value);
    empty_journal(w);
    return 0;
}

static int past_end(size_t start, size_t len)
{
    return start > 65535 || len > 65535 || start + len > 65535;
}

static int region_meets(const struct whole *w, unsigned start, unsigned len)
{
    for (unsigned i = 0; i < region_count(w); i++)
        if (regions_overlap(start, len, region_start(w, i), region_len(w, i)))
            return 1;
    return 0;
}

static void add_region(struct whole *w, unsigned start, unsigned len)
{
    uint8_t *entry = w->block + KETTLE_BLOCK_REGIONS + 4 * region_count(w);
    put_word(entry, start);
    put_word(entry + 2, len);
    w->block[KETTLE_BLOCK_PROTECTED]++;
}

static uint64_t protect_rule(struct whole *w, size_t start, size_t len)
{
    if (unfit(w))
        return unfit(w);
    if (past_end(start, len))
        return KETTLE_RANGE_OVERFLOW;
    if (region_meets(w, (unsigned)start, (unsigned)len))
        return KETTLE_OVERLAP;
    if (region_count(w) == 8)
        return KETTLE_TABLE_FULL;
    add_region(w, (unsigned)start, (unsigned)len);
    empty_journal(w);
    return 0;
}

static uint64_t device_rule(struct whole *w, size_t start, size_t size)
{
    if (unfit(w))
        return unfit(w);
    if (past_end(start, size))
        return KETTLE_RANGE_OVERFLOW;
    for (unsigned i = 0; i < device_count(w); i++)
        if (devices_overlap((unsigned)start, (unsigned)(start + size), device_start(w, i), device_end(w, i)))
            return KETTLE_OVERLAP;
    if (device_count(w) == 8)
        return KETTLE_TABLE_FULL;
    if (devices_used(w) + size > w->devices_len)
        return KETTLE_NO_DEVICE_ROOM;
    uint8_t *entry = w->block + KETTLE_BLOCK_DEVICES + 4 * device_count(w);
    put_word(entry, (unsigned)start);
    put_word(entry + 2, (unsigned)(start + size));
    w->block[KETTLE_BLOCK_DEVICE_COUNT]++;
    empty_journal(w);
    return 0;
}

static uint64_t forget_rule(struct whole *w)
{
    if (unfit(w))
        return unfit(w);
    empty_journal(w);
    return 0;
}

static uint64_t load_rule(struct whole *w, const uint8_t *words, size_t len)
{
    if (!is_block(w) || len % 2)
        return KETTLE_BAD_BLOCK;
    if (!is_valid(w))
        return KETTLE_BAD_STATE;
    if (len / 2 > 32768)
        return KETTLE_TOO_LONG;
    if (region_count(w) == 8)
        return KETTLE_TABLE_FULL;
    empty_journal(w);
    for (size_t a = 0; a < len; a++) {
        uint8_t *byte = taking(w, (unsigned)a);
        if (!byte)
            return KETTLE_WRITE_FAILED;
        *byte = words[a];
    }
    if (region_meets(w, 0, (unsigned)(len / 2)))
        return KETTLE_OVERLAP;
    add_region(w, 0, (unsigned)(len / 2));
    return 0;
}

static uint64_t read_rule(struct whole *w, size_t start, size_t size, uint8_t *buffer, size_t len)
{
    if (unfit(w))
        return unfit(w);
    if (past_end(start, size))
        return KETTLE_RANGE_OVERFLOW;
    if (len < size)
        return KETTLE_NO_ROOM;
    size_t n = 0;
    for (; n < size && shown(w, (unsigned)(start + n)); n++)
        buffer[n] = *shown(w, (unsigned)(start + n));
    return (uint64_t)n << 16;
}

static uint64_t step_back_rule(struct whole *w)
{
    if (unfit(w))
        return unfit(w);
    unsigned held = kettle_held(w->block), most = slots(w);
    if (!held)
        return KETTLE_NOTHING_TO_UNDO;
    unsigned slot = (next_slot(w) + most - 1) % most;
    const uint8_t *record = w->journal + (size_t)slot * KETTLE_RECORD_SIZE;
    if (record[0] > 2)
        return KETTLE_BAD_JOURNAL;
    uint8_t *first = record[0] > 0 ? taking(w, kettle_word(record + 17)) : w->memory;
    uint8_t *second = record[0] > 1 ? taking(w, kettle_word(record + 20)) : w->memory;
    if (!first || !second)
        return KETTLE_BAD_JOURNAL;
    if (record[0] > 1)
        *second = record[22];
    if (record[0] > 0)
        *first = record[19];
    memcpy(w->block, record + 1, 16);
    put_word(w->block + KETTLE_BLOCK_NEXT, slot);
    put_word(w->block + KETTLE_BLOCK_HELD, held - 1);
    return 0;
}

/* What a step answers before its instruction acts, or 0. */
static uint64_t fetch_rule(struct whole *w, unsigned *word)
{
    *word = 0;
    if (unfit(w))
        return unfit(w);
    if (reg(w, KETTLE_FLAGS) & KETTLE_FLAG_HALT)
        return KETTLE_STOP;
    unsigned pc = reg(w, KETTLE_PC);
    if (!shown(w, pc))
        return KETTLE_FETCH_UNMAPPED;
    if (pc == 65535)
        return KETTLE_ADDRESS_OVERFLOW;
    if (!shown(w, pc + 1))
        return KETTLE_FETCH_UNMAPPED;
    *word = *shown(w, pc) | (unsigned)*shown(w, pc + 1) << 8;
    if ((*word & 15) > 11)
        return KETTLE_BAD_OPCODE;
    if ((*word & 15) == 7 && (*word >> 7 & 7) > 5)
        return KETTLE_BAD_COMPARE;
    if ((*word & 15) == 10 && (*word >> 7 & 7) > 6)
        return KETTLE_BAD_ARITH;
    return 0;
}

/* a step in the making: registers, and the bytes that it stores */
struct step {
    uint32_t r[8];
    unsigned kind, at[2];
    uint8_t byte[2];
};

static int store(struct whole *w, struct step *s, unsigned a, unsigned value)
{
    if (!taking(w, a))
        return 0;
    s->at[s->kind] = a;
    s->byte[s->kind++] = (uint8_t)value;
    return 1;
}

static void halt_unless(struct step *s, int stored)
{
    if (!stored)
        s->r[KETTLE_FLAGS] |= KETTLE_FLAG_HALT | KETTLE_FLAG_FAILED;
}

/* the operators by number: add, sub, mul, div, mod, exp, sqrt */
static uint64_t reckon(unsigned op, uint64_t x, uint64_t y, uint32_t *result)
{
    uint64_t v = 1;
    switch (op) {
    case 0: v = x + y; break;
    case 1: v = x - y; break;
    case 2: v = x * y; break;
    case 3:
    case 4:
        if (!y)
            return KETTLE_DIVIDE_BY_ZERO;
        v = op == 3 ? x / y : x % y;
        break;
    case 5:
        if (x < 2)
            v = y ? x : 1;
        else
            for (; y && v < 65536; y--)
                v *= x;
        break;
    default:
        for (v = 0; (v + 1) * (v + 1) <= x;)
            v++;
    }
    *result = (uint32_t)v;
    return v > 65535 ? KETTLE_ARITH_OVERFLOW : 0;
}

static int compares(unsigned op, uint32_t x, uint32_t y)
{
    switch (op) {
    case 0: return x == y;
    case 1: return x != y;
    case 2: return x < y;
    case 3: return x <= y;
    case 4: return x > y;
    default: return x >= y;
    }
}

/* load or store: a word (op 4) or a byte (op 8) */
static uint64_t transfer(struct whole *w, struct step *s, unsigned word)
{
    unsigned r = word >> 4 & 7, at = s->r[word >> 7 & 7] + (word >> 11), wide = (word & 15) == 4;
    if (at > 65535)
        return KETTLE_ADDRESS_OVERFLOW;
    if (word >> 10 & 1) {
        unsigned value = s->r[r];
        if (!store(w, s, at, value))
            halt_unless(s, 0);
        else if (wide && at == 65535)
            return KETTLE_ADDRESS_OVERFLOW;
        else if (wide)
            halt_unless(s, store(w, s, at + 1, value >> 8));
    } else if (shown(w, at)) {
        if (wide && at == 65535)
            return KETTLE_ADDRESS_OVERFLOW;
        if (!wide)
            s->r[r] = *shown(w, at);
        else if (shown(w, at + 1))
            s->r[r] = *shown(w, at) | (unsigned)*shown(w, at + 1) << 8;
    }
    return 0;
}

/* One step, recorded; the word that was fetched and how many bytes were stored beside it. */
static uint64_t step_rule(struct whole *w, unsigned *word, unsigned *kind)
{
    uint64_t code = fetch_rule(w, word);
    *kind = 3;
    if (code)
        return code;
    struct step s = {{0}, 0, {0, 0}, {0, 0}};
    for (unsigned i = 0; i < 8; i++)
        s.r[i] = reg(w, (enum kettle_register)i);
    unsigned i = *word, op = i & 15, d = i >> 4 & 7, jumped = 0;
    uint32_t y, result = 0;
    switch (op) {
    case 1: s.r[d] = i & 128 ? s.r[i >> 8 & 7] : i >> 8; break;
    case 2: s.r[d] = ((i & 1024 ? s.r[d] << (i >> 7 & 7) : s.r[d] >> (i >> 7 & 7)) & 65535) | i >> 11; break;
    case 3:
        y = i & 512 ? s.r[i >> 10 & 7] : i >> 10;
        code = reckon(i >> 7 & 3, s.r[d], y, &result);
        if (code)
            return code;
        if ((i >> 7 & 3) == 3 && s.r[KETTLE_FLAGS] & KETTLE_FLAG_REMAINDER)
            store(w, &s, s.r[KETTLE_SP], s.r[d] % y);
        s.r[d] = result;
        break;
    case 4:
    case 8:
        code = transfer(w, &s, i);
        if (code)
            return code;
        break;
    case 5:
    case 6:
        if (op == 5 && !(i & 16)) {
            if (!(s.r[KETTLE_FLAGS] & KETTLE_FLAG_TRUE))
                break;
            s.r[KETTLE_FLAGS] &= ~(uint32_t)KETTLE_FLAG_TRUE;
        }
        s.r[KETTLE_PC] = i & 16 ? s.r[i >> 5 & 7] : i >> 5;
        jumped = 1;
        break;
    case 7:
        y = i & 1024 ? s.r[i >> 11 & 7] : i >> 11;
        result = compares(i >> 7 & 7, s.r[d], y) ? KETTLE_FLAG_TRUE : 0;
        s.r[KETTLE_FLAGS] = (s.r[KETTLE_FLAGS] & ~(uint32_t)KETTLE_FLAG_TRUE) | result;
        break;
    case 9: {
        const uint8_t *from = shown(w, s.r[d]);
        halt_unless(&s, from && store(w, &s, s.r[i >> 7 & 7], *from));
        break;
    }
    case 10:
        code = reckon(i >> 7 & 7, s.r[i >> 10 & 7], s.r[i >> 13], &result);
        if (code)
            return code;
        s.r[d] = result;
        break;
    case 11:
        if (!(i & 16) && s.r[KETTLE_PC] >= 65534)
            return KETTLE_PC_OVERFLOW;
        y = s.r[KETTLE_PC] + 2;
        s.r[KETTLE_PC] = i & 16 ? s.r[KETTLE_M] : i >> 5;
        if (!(i & 16))
            s.r[KETTLE_M] = y;
        jumped = 1;
        break;
    default: break;
    }
    if (!jumped && s.r[KETTLE_PC] >= 65534)
        return KETTLE_PC_OVERFLOW;
    if (!jumped)
        s.r[KETTLE_PC] += 2;
    unsigned most = slots(w), slot = next_slot(w), held = kettle_held(w->block);
    if (most) {
        uint8_t *record = w->journal + (size_t)slot * KETTLE_RECORD_SIZE;
        memset(record, 0, KETTLE_RECORD_SIZE);
        record[0] = (uint8_t)s.kind;
        memcpy(record + 1, w->block, 16);
        for (unsigned k = 0; k < s.kind; k++) {
            put_word(record + 17 + 3 * k, s.at[k]);
            record[19 + 3 * k] = *shown(w, s.at[k]);
        }
        put_word(w->block + KETTLE_BLOCK_NEXT, (slot + 1) % most);
        put_word(w->block + KETTLE_BLOCK_HELD, held < most ? held + 1 : most);
    }
    for (unsigned k = 0; k < s.kind; k++)
        *taking(w, s.at[k]) = s.byte[k];
    for (unsigned k = 0; k < 8; k++)
        put_word(w->block + 2 * k, s.r[k]);
    *kind = s.kind;
    return op == 0 && w->block[KETTLE_BLOCK_DEBUG] ? KETTLE_DEBUG : 0;
}

#endif
