/*
 * faults.c: entries with a fault in them, to see that the harness finds it. FAULT chooses one; the linker puts these in the
 * place of the library's (-Wl,--wrap). tests/fuzz/fuzz.mk builds and runs each over the seeds alone, and each must be found.
 */
#include "seamkettle.h"

#define PARTS uint8_t *b, size_t bl, uint8_t *m, size_t ml, uint8_t *d, size_t dl, uint8_t *j, size_t jl
#define KEPT uint8_t *b, size_t bl, uint8_t *m, size_t ml, uint8_t *d, size_t dl, const uint8_t *j, size_t jl
#define GIVEN b, bl, m, ml, d, dl, j, jl
#define ONLY_TABLES uint8_t *b, size_t bl, const uint8_t *d, size_t dl, const uint8_t *j, size_t jl
#define GIVEN_TABLES b, bl, d, dl, j, jl

uint64_t __real_kettle_assemble(const uint8_t *, size_t, uint8_t, uint8_t *, size_t);
uint64_t __real_kettle_load(KEPT, const uint8_t *, size_t);
uint64_t __real_kettle_step(PARTS);
uint64_t __real_kettle_run(PARTS, uint32_t);
uint64_t __real_kettle_step_back(KEPT);
uint64_t __real_kettle_set_register(ONLY_TABLES, size_t, uint16_t);
uint64_t __real_kettle_protect(ONLY_TABLES, size_t, size_t);
uint64_t __real_kettle_device(ONLY_TABLES, size_t, size_t);
uint64_t __real_kettle_read(const uint8_t *, size_t, const uint8_t *, size_t, const uint8_t *, size_t, const uint8_t *, size_t,
                            size_t, size_t, uint8_t *, size_t);
uint64_t __real_kettle_list(const uint8_t *, size_t, uint8_t *, size_t);
uint64_t __real_kettle_print(uint16_t, uint8_t *, size_t);
uint64_t __real_kettle_text(const uint8_t *, size_t, uint8_t *, size_t);

static int accepted(uint64_t a) { return kettle_code_of(a) == 0 || kettle_code_of(a) == KETTLE_DEBUG; }

uint64_t __wrap_kettle_assemble(const uint8_t *t, size_t tl, uint8_t strict, uint8_t *w, size_t wl)
{
    uint64_t a = __real_kettle_assemble(t, tl, FAULT == 1 ? strict == 1 : strict, w, wl); /* 1: only 1 is strict */
    if (FAULT == 2 && kettle_code_of(a) && wl && wl % 2 == 0)
        w[wl - 1] = 1; /* a byte stays */
    if (FAULT == 3 && kettle_code_of(a) == 0 && kettle_open_references(a))
        a -= (uint64_t)1 << 32 & (strict ? ~(uint64_t)0 : 0); /* one open reference fewer, strictly */
    if (FAULT == 4 && tl && ((const volatile uint8_t *)t)[tl] == 'x')
        a ^= 1; /* the byte after the text is read */
    if (FAULT == 24 && kettle_code_of(a) == KETTLE_NOT_DECODABLE)
        a = __real_kettle_assemble(t, tl, 0, w, wl); /* a CJP to a register is let through, strictly */
    return a;
}

uint64_t __wrap_kettle_load(KEPT, const uint8_t *w, size_t wl)
{
    uint64_t a = __real_kettle_load(GIVEN, w, wl);
    if (FAULT == 5 && kettle_code_of(a) == KETTLE_WRITE_FAILED && bl == KETTLE_BLOCK_SIZE)
        b[KETTLE_BLOCK_HELD] = 1; /* the journal is not emptied */
    if (FAULT == 6 && a == 0 && wl > 2 && ml > 2)
        b[KETTLE_BLOCK_REGIONS + 4 * (b[KETTLE_BLOCK_PROTECTED] - 1) + 2]++; /* one byte more is protected */
    return a;
}

uint64_t __wrap_kettle_step(PARTS)
{
    uint64_t a = __real_kettle_step(GIVEN);
    if (FAULT == 7 && kettle_code_of(a) == KETTLE_ADDRESS_OVERFLOW && ml)
        m[ml - 1] ^= 1; /* a refused step stores */
    if (FAULT == 8 && accepted(a) && jl > 46 && kettle_word(b + KETTLE_BLOCK_NEXT) == 2)
        j[jl - 1] ^= 1; /* bytes past the record change */
    if (FAULT == 9 && accepted(a) && jl > 23 && j[0] == 1 && kettle_word(b + KETTLE_BLOCK_NEXT) == 1)
        j[19] ^= 1; /* the old byte is not the old byte */
    if (FAULT == 10 && kettle_code_of(a) == KETTLE_STOP)
        a = KETTLE_DEBUG;
    return a;
}

uint64_t __wrap_kettle_run(PARTS, uint32_t n)
{
    uint64_t a = __real_kettle_run(GIVEN, n);
    if (FAULT == 11 && kettle_steps(a) > 200)
        a -= 1 << 16; /* one step fewer is counted */
    if (FAULT == 12 && kettle_steps(a) > 2 && dl)
        d[dl - 1] ^= 1;
    return a;
}

uint64_t __wrap_kettle_step_back(KEPT)
{
    uint64_t a = __real_kettle_step_back(GIVEN);
    if (FAULT == 13 && a == KETTLE_BAD_JOURNAL)
        b[KETTLE_BLOCK_HELD]--; /* a refused one goes back */
    if (FAULT == 14 && a == 0)
        *(uint8_t *)(uintptr_t)j = 0; /* the slot does not stay */
    return a;
}

uint64_t __wrap_kettle_set_register(ONLY_TABLES, size_t r, uint16_t v)
{
    return __real_kettle_set_register(GIVEN_TABLES, FAULT == 15 ? (uint16_t)r : r, v); /* a number is cut */
}

uint64_t __wrap_kettle_protect(ONLY_TABLES, size_t s, size_t l)
{
    return __real_kettle_protect(GIVEN_TABLES, s, FAULT == 16 ? (uint16_t)l : l);
}

uint64_t __wrap_kettle_device(ONLY_TABLES, size_t s, size_t l)
{
    uint64_t a = __real_kettle_device(GIVEN_TABLES, s, l);
    if (FAULT == 17 && a == KETTLE_TABLE_FULL)
        a = KETTLE_NO_DEVICE_ROOM; /* the wrong one of two */
    return a;
}

uint64_t __wrap_kettle_read(const uint8_t *b, size_t bl, const uint8_t *m, size_t ml, const uint8_t *d, size_t dl, const uint8_t *j,
                        size_t jl, size_t s, size_t n, uint8_t *o, size_t ol)
{
    uint64_t a = __real_kettle_read(GIVEN, s, n, o, ol);
    if (FAULT == 18 && kettle_code_of(a) == 0 && kettle_bytes(a) < ol)
        o[kettle_bytes(a)] = 0; /* one byte more is written */
    if (FAULT == 19 && kettle_code_of(a) == 0 && ol)
        o[ol] = 0; /* and past the buffer */
    return a;
}

uint64_t __wrap_kettle_list(const uint8_t *t, size_t tl, uint8_t *o, size_t ol)
{
    uint64_t a = __real_kettle_list(t, tl, o, ol);
    if (FAULT == 20 && kettle_code_of(a) == 0 && o[0] == '0')
        o[8] = o[8] == '0' ? '1' : '0'; /* another word */
    if (FAULT == 21 && kettle_code_of(a) == KETTLE_NO_ROOM && ol)
        o[0] = 'r'; /* a refused listing is begun */
    return a;
}

uint64_t __wrap_kettle_print(uint16_t w, uint8_t *o, size_t ol)
{
    uint64_t a = __real_kettle_print(w, o, ol);
    if (FAULT == 22 && kettle_code_of(a) == 0 && kettle_bytes(a) < ol)
        o[kettle_bytes(a)] = 0; /* a byte 0 at its end */
    if (FAULT == 23 && kettle_code_of(a) == 0 && o[0] == 'C' && o[1] == 'J')
        o[0] = 'J', o[1] = 'M'; /* not what the listing says */
    return a;
}

static int is_digit(uint8_t byte) { return byte >= '0' && byte <= '9'; }

/* a fault in an accepted text: 30 to 33 */
static void mar(uint8_t *o, size_t n)
{
    size_t i;
    for (i = 0; i + 3 < n; i++) {
        if (FAULT == 30 && o[i] == 'L' && o[i + 4] >= 'A' && o[i + 4] <= 'F')
            o[i + 4] |= 32; /* a label in small letters, on both its lines */
        if (FAULT == 31 && o[i] == 'C' && o[i + 1] == 'J' && o[i + 4] >= 'A' && o[i + 4] != 'L')
            o[i] = 'J', o[i + 1] = 'M'; /* JMP for a CJP to a register */
        if (FAULT == 32 && o[i] == '[' && is_digit(o[i + 2]) && i + 7 < n && o[i + 3] == ' ' && o[i + 6] == ']') {
            uint8_t first = o[i + 2];
            o[i + 2] = o[i + 5], o[i + 5] = first; /* the amount first */
        }
        if (FAULT == 33 && o[i] == 'D' && o[i + 1] == 'B')
            o[i + 2] = 'X';
    }
}

uint64_t __wrap_kettle_text(const uint8_t *w, size_t wl, uint8_t *o, size_t ol)
{
    if (FAULT == 25 && wl > 2 * KETTLE_WORDS_MOST)
        return KETTLE_TOO_LONG; /* 16 before 31 */
    uint64_t a = __real_kettle_text(w, wl, o, ol);
    if (FAULT == 26 && kettle_code_of(a) == KETTLE_NO_TEXT)
        a += 1 << 16; /* the word after it */
    if (FAULT == 27 && kettle_code_of(a) == KETTLE_NO_TEXT && ol < wl)
        a = KETTLE_NO_ROOM; /* the wrong one of two */
    if (FAULT == 28 && kettle_code_of(a) == KETTLE_NO_ROOM && ol)
        o[0] = 'L'; /* a refused text is begun */
    if (FAULT == 29 && kettle_code_of(a) == 0 && kettle_bytes(a) < ol)
        o[kettle_bytes(a)] = 0; /* a byte 0 at its end */
    if (kettle_code_of(a) == 0)
        mar(o, kettle_bytes(a));
    return a;
}
