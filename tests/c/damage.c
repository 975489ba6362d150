/* Damage: each byte of a block set to each of its 256 values, for every entry; each byte of a journal too; and two at once. What an
 * entry answers, and every byte after it, is held against the second reckoning (reference.c). */
#include <string.h>

#include "check.h"

enum { MEMORY = 64, DEVICES = 40, JOURNAL = 3 * KETTLE_RECORD_SIZE + 5 };

/* Every byte of memory and devices has zeros in its low four bits, so that any word that is fetched is a NOOP and goes on. */
struct base {
    uint8_t block[KETTLE_BLOCK_SIZE], memory[MEMORY], devices[DEVICES], journal[JOURNAL];
};

static struct base base;
static struct machine m, want;
static struct bytes words, got, hoped;

static void restore(struct machine *x)
{
    memcpy(x->block.at, base.block, KETTLE_BLOCK_SIZE);
    memcpy(x->memory.at, base.memory, MEMORY);
    memcpy(x->devices.at, base.devices, DEVICES);
    if (x->journal.len > 0)
        memcpy(x->journal.at, base.journal, x->journal.len);
}

static void alike(void)
{
    CHECK(memcmp(m.block.at, want.block.at, KETTLE_BLOCK_SIZE) == 0);
    CHECK(memcmp(m.memory.at, want.memory.at, MEMORY) == 0);
    CHECK(memcmp(m.devices.at, want.devices.at, DEVICES) == 0);
    CHECK(m.journal.len == 0 || memcmp(m.journal.at, want.journal.at, m.journal.len) == 0);
}

#define SAME(real, reckoned) \
    do { \
        restore(&m); \
        restore(&want); \
        NUMBER(real, reckoned); \
        alike(); \
    } while (0)

/* every entry on the base as it is now */
static void entries(void)
{
    SAME(step(&m), ref_step(&want));
    SAME(run(&m, 0), ref_run(&want, 0));
    SAME(run(&m, 5), ref_run(&want, 5));
    SAME(back(&m), ref_back(&want));
    SAME(forget(&m), ref_forget(&want));
    SAME(set(&m, KETTLE_M, 0x1234), ref_set(&want, KETTLE_M, 0x1234));
    SAME(set(&m, 8, 0x1234), ref_set(&want, 8, 0x1234));
    SAME(protect(&m, 30, 2), ref_protect(&want, 30, 2));
    SAME(protect(&m, 30, 65535), ref_protect(&want, 30, 65535));
    SAME(device(&m, 40, 3), ref_device(&want, 40, 3));
    SAME(device(&m, 200, 30), ref_device(&want, 200, 30));
    SAME(load(&m, &words), ref_load(&want, &words));
    memset(got.at, 0xcc, got.len);
    memset(hoped.at, 0xcc, hoped.len);
    SAME(read_out(&m, 8, got.len, &got), ref_read(&want, 8, got.len, &hoped));
    CHECK(memcmp(got.at, hoped.at, got.len) == 0);
}

static void record(unsigned slot, unsigned kind, unsigned a, unsigned b)
{
    uint8_t *p = base.journal + (size_t)KETTLE_RECORD_SIZE * slot;
    for (unsigned i = 0; i < KETTLE_RECORD_SIZE; i++)
        p[i] = (uint8_t)(7 * i + slot);
    p[0] = (uint8_t)kind;
    put_word(p + 17, a);
    p[19] = 0x70;
    put_word(p + 20, b);
    p[22] = 0x80;
}

static void pair(size_t table, unsigned i, unsigned start, unsigned other)
{
    put_word(base.block + table + 4 * (size_t)i, start);
    put_word(base.block + table + 4 * (size_t)i + 2, other);
}

/* four blocks: a new one; one in the midst of things; one with full tables; one that is as full as can be, in debug mode */
static void build(int which)
{
    memset(&base, 0, sizeof base);
    for (unsigned i = 0; i < MEMORY; i++)
        base.memory[i] = (uint8_t)(i << 4);
    for (unsigned i = 0; i < DEVICES; i++)
        base.devices[i] = (uint8_t)(0xf0 - (i << 4));
    for (unsigned i = 0; i < JOURNAL; i++)
        base.journal[i] = (uint8_t)(i * 11);
    record(0, 2, 20, 21);
    record(1, 1, 17, 1000);
    record(2, 0, 1000, 1000);
    if (which == 0)
        return;
    put_word(base.block + 2 * KETTLE_PC, 10);
    put_word(base.block + 2 * KETTLE_FLAGS, 8);
    put_word(base.block + KETTLE_BLOCK_NEXT, 2);
    put_word(base.block + KETTLE_BLOCK_HELD, 2);
    base.block[KETTLE_BLOCK_PROTECTED] = 2;
    pair(KETTLE_BLOCK_REGIONS, 0, 2, 6);
    pair(KETTLE_BLOCK_REGIONS, 1, 50, 300);
    base.block[KETTLE_BLOCK_DEVICE_COUNT] = 2;
    pair(KETTLE_BLOCK_DEVICES, 0, 16, 20);
    pair(KETTLE_BLOCK_DEVICES, 1, 80, 100);
    if (which == 1)
        return;
    put_word(base.block + KETTLE_BLOCK_NEXT, 0);
    put_word(base.block + KETTLE_BLOCK_HELD, 3);
    base.block[KETTLE_BLOCK_PROTECTED] = 8;
    base.block[KETTLE_BLOCK_DEVICE_COUNT] = 8;
    for (unsigned i = 2; i < 8; i++) {
        pair(KETTLE_BLOCK_REGIONS, i, 1000 + 256 * i, 255);
        pair(KETTLE_BLOCK_DEVICES, i, 256 * i, 256 * i + 2);
    }
    if (which == 2)
        return;
    base.block[KETTLE_BLOCK_DEBUG] = 1;
    put_word(base.block + KETTLE_BLOCK_NEXT, 0);
    put_word(base.block + KETTLE_BLOCK_HELD, 0);
    put_word(base.block + 2 * KETTLE_PC, 65533);
    pair(KETTLE_BLOCK_REGIONS, 7, 65000, 535);
    pair(KETTLE_BLOCK_DEVICES, 7, 65531, 65535);
}

static void every_byte(uint8_t *bytes, size_t len, const char *what, int which)
{
    for (size_t i = 0; i < len; i++) {
        uint8_t old = bytes[i];
        for (int value = 0; value < 256; value++) {
            during(what, which, (long)i, value);
            bytes[i] = (uint8_t)value;
            entries();
        }
        bytes[i] = old;
    }
}

static void two_at_once(int which)
{
    for (int round = 0; round < 3000; round++) {
        during("a block with two bytes damaged", which, round, 0);
        size_t i = any_below(KETTLE_BLOCK_SIZE), k = any_below(KETTLE_BLOCK_SIZE);
        uint8_t old_i = base.block[i], old_k = base.block[k];
        base.block[i] = (uint8_t)(any_below(2) ? any_below(256) : any_below(10));
        base.block[k] = (uint8_t)(any_below(2) ? any_below(256) : any_below(10));
        entries();
        base.block[k] = old_k;
        base.block[i] = old_i;
    }
}

void test_damage(void)
{
    words = lend(6);
    memcpy(words.at, "\x10\x20\x30\x40\x50\x60", 6);
    read_only(&words);
    got = lend(24);
    hoped = lend(24);
    for (int which = 0; which < 4; which++) {
        /* the last one has no journal: room for 0 records */
        size_t journal = which == 3 ? KETTLE_RECORD_SIZE - 1 : JOURNAL;
        build(which);
        m = machine(MEMORY, DEVICES, journal, 0);
        want = machine(MEMORY, DEVICES, journal, 0);
        restore(&m);
        CHECK(is_valid(&m));
        entries();
        every_byte(base.block, KETTLE_BLOCK_SIZE, "a block, its damaged byte", which);
        two_at_once(which);
        if (which == 2) {
            for (unsigned slot = 0; slot < 3; slot++) {
                put_word(base.block + KETTLE_BLOCK_NEXT, (slot + 1) % 3);
                every_byte(base.journal + (size_t)KETTLE_RECORD_SIZE * slot, KETTLE_RECORD_SIZE, "a record, its damaged byte",
                           (int)slot);
            }
        }
        discard(&m);
        discard(&want);
    }
    give_back(&words);
    give_back(&got);
    give_back(&hoped);
}
