/* Journals: the records of each step, taking them back, and journals of every small length. */
#include <string.h>

#include "check.h"

/* STR A, B; STB A, B; DIV A, #2 with its remainder; MOV C, #9 */
static const unsigned program[] = {0x0484, 0x0488, 0x0983, 0x0921};

static struct machine ready(size_t journal)
{
    struct machine m = machine(64, 4, journal, 0);
    NUMBER(device(&m, 41, 4), KETTLE_ACCEPTED);
    NUMBER(load_words(&m, 4, program), KETTLE_ACCEPTED);
    m.memory.at[40] = 0x11;
    m.memory.at[50] = 0x33;
    m.devices.at[0] = 0x22;
    NUMBER(set(&m, KETTLE_A, 0x1235), KETTLE_ACCEPTED);
    NUMBER(set(&m, KETTLE_B, 40), KETTLE_ACCEPTED);
    NUMBER(set(&m, KETTLE_SP, 50), KETTLE_ACCEPTED);
    NUMBER(set(&m, KETTLE_FLAGS, KETTLE_FLAG_REMAINDER), KETTLE_ACCEPTED);
    return m;
}

static void record(const uint8_t *at, unsigned kind, const uint8_t *registers, unsigned a, unsigned old_a, unsigned b, unsigned old_b)
{
    uint8_t want[KETTLE_RECORD_SIZE];
    want[0] = (uint8_t)kind;
    memcpy(want + 1, registers, 16);
    put_word(want + 17, a);
    want[19] = (uint8_t)old_a;
    put_word(want + 20, b);
    want[22] = (uint8_t)old_b;
    CHECK(memcmp(at, want, sizeof want) == 0);
}

static void records(void)
{
    struct machine m = ready(4 * KETTLE_RECORD_SIZE + 1);
    memset(m.journal.at, 0xdd, m.journal.len);
    uint8_t before[4][16];
    for (unsigned i = 0; i < 4; i++) {
        memcpy(before[i], m.block.at, 16);
        NUMBER(step(&m), KETTLE_ACCEPTED);
        NUMBER(next(&m), (i + 1) % 4);
        NUMBER(kettle_held(m.block.at), i + 1);
        CHECK(all_are(m.journal.at + KETTLE_RECORD_SIZE * (i + 1), m.journal.len - KETTLE_RECORD_SIZE * (i + 1), 0xdd));
    }
    record(m.journal.at, 2, before[0], 40, 0x11, 41, 0x22); /* one byte of memory, one of the device */
    record(m.journal.at + KETTLE_RECORD_SIZE, 1, before[1], 40, 0x35, 0, 0);
    record(m.journal.at + 2 * KETTLE_RECORD_SIZE, 1, before[2], 50, 0x33, 0, 0);
    record(m.journal.at + 3 * KETTLE_RECORD_SIZE, 0, before[3], 0, 0, 0, 0);
    NUMBER(m.memory.at[40], 0x35);
    NUMBER(m.devices.at[0], 0x12);
    NUMBER(m.memory.at[50], 1);
    NUMBER(reg(&m, KETTLE_A), 0x1235 / 2);

    for (unsigned i = 4; i-- > 0;) {
        NUMBER(back(&m), KETTLE_ACCEPTED);
        CHECK(memcmp(m.block.at, before[i], 16) == 0);
        NUMBER(next(&m), i);
        NUMBER(kettle_held(m.block.at), i);
    }
    NUMBER(m.memory.at[40], 0x11);
    NUMBER(m.devices.at[0], 0x22);
    NUMBER(m.memory.at[50], 0x33);
    NUMBER(back(&m), KETTLE_NOTHING_TO_UNDO);
    discard(&m);
}

/* What no record names is 11: a kind over 2, an address that takes no store. Nothing is restored then, not even the other byte. */
static void bad_records(void)
{
    struct machine m = ready(KETTLE_RECORD_SIZE);
    NUMBER(step(&m), KETTLE_ACCEPTED);
    for (int kind = 3; kind < 256; kind++) {
        m.journal.at[0] = (uint8_t)kind;
        NUMBER(back(&m), KETTLE_BAD_JOURNAL);
    }
    m.journal.at[0] = 2;
    static const unsigned none[] = {0, 3, 64, 255, 65535}; /* protected, or not there */
    for (size_t i = 0; i < sizeof none / sizeof *none; i++) {
        put_word(m.journal.at + 17, none[i]);
        NUMBER(back(&m), KETTLE_BAD_JOURNAL);
        put_word(m.journal.at + 17, 40);
        put_word(m.journal.at + 20, none[i]);
        NUMBER(back(&m), KETTLE_BAD_JOURNAL);
        put_word(m.journal.at + 20, 41);
    }
    /* places that the kind does not use are not looked at */
    put_word(m.journal.at + 20, 0);
    m.journal.at[0] = 1;
    NUMBER(back(&m), KETTLE_ACCEPTED);
    NUMBER(m.memory.at[40], 0x11);
    NUMBER(m.devices.at[0], 0x12);
    discard(&m);

    /* the same address twice: the second is restored first, so that the first one's byte stays */
    m = ready(KETTLE_RECORD_SIZE);
    NUMBER(step(&m), KETTLE_ACCEPTED);
    put_word(m.journal.at + 20, 40);
    NUMBER(back(&m), KETTLE_ACCEPTED);
    NUMBER(m.memory.at[40], 0x11);
    NUMBER(m.devices.at[0], 0x12);
    discard(&m);
}

static void lengths(void)
{
    for (size_t len = 0; len <= 70; len++) {
        unsigned room = (unsigned)(len / KETTLE_RECORD_SIZE);
        for (uint32_t steps = 0; steps <= 10; steps++) {
            during("a journal of length, steps", (long)len, (long)steps, 0);
            struct machine m = machine(32, 0, len, 0);
            if (len > 0)
                memset(m.journal.at, 0xdd, len);
            NUMBER(run(&m, steps), (uint64_t)steps << 16);
            unsigned held = steps < room ? steps : room;
            NUMBER(kettle_held(m.block.at), held);
            NUMBER(next(&m), room == 0 ? 0 : steps % room);
            CHECK(all_are(m.journal.at + KETTLE_RECORD_SIZE * held, len - KETTLE_RECORD_SIZE * held, 0xdd));
            for (unsigned i = 0; i < held; i++)
                NUMBER(back(&m), KETTLE_ACCEPTED);
            NUMBER(reg(&m, KETTLE_PC), 2 * (steps - held));
            NUMBER(back(&m), KETTLE_NOTHING_TO_UNDO);
            discard(&m);
        }
        /* next and held as the room allows */
        struct machine m = machine(32, 0, len, 0);
        for (unsigned n = 0; n < 6; n++)
            for (unsigned held = 0; held < 6; held++) {
                put_word(m.block.at + KETTLE_BLOCK_NEXT, n);
                put_word(m.block.at + KETTLE_BLOCK_HELD, held);
                bool good = held <= room && (n < room || n == 0);
                NUMBER(run(&m, 0), good ? KETTLE_ACCEPTED : KETTLE_BAD_STATE);
            }
        discard(&m);
    }
}

/* 4,096 records at most, however long the journal is */
static void most(void)
{
    static const size_t lens[] = {4095 * 23, 4096 * 23 - 1, 4096 * 23, 4097 * 23, 200000};
    for (size_t i = 0; i < sizeof lens / sizeof *lens; i++) {
        struct machine m = machine(2, 0, lens[i], 0);
        unsigned room = i < 2 ? 4095 : KETTLE_RECORD_MOST;
        put_word(m.memory.at, 0x0006); /* JMP #0 */
        NUMBER(run(&m, 10000), (uint64_t)10000 << 16);
        NUMBER(kettle_held(m.block.at), room);
        NUMBER(next(&m), 10000 % room);
        CHECK(all_are(m.journal.at + (size_t)room * 23, m.journal.len - (size_t)room * 23, 0));
        for (unsigned k = 0; k < room; k++)
            NUMBER(back(&m), KETTLE_ACCEPTED);
        NUMBER(back(&m), KETTLE_NOTHING_TO_UNDO);
        discard(&m);
    }
}

/* what empties a journal, and what does not */
static void emptied(void)
{
    for (int i = 0; i < 8; i++) {
        struct machine m = machine(64, 8, 3 * KETTLE_RECORD_SIZE, 0);
        NUMBER(run(&m, 2), (uint64_t)2 << 16);
        NUMBER(set(&m, 8, 0), KETTLE_BAD_REGISTER);
        NUMBER(protect(&m, 65535, 1), KETTLE_RANGE_OVERFLOW);
        NUMBER(device(&m, 0, 9), KETTLE_NO_DEVICE_ROOM);
        struct bytes buffer = lend(4);
        NUMBER(read_out(&m, 0, 4, &buffer), (uint64_t)4 << 16);
        give_back(&buffer);
        NUMBER(kettle_held(m.block.at), 2);
        switch (i) {
        case 0: NUMBER(set(&m, KETTLE_A, 0), KETTLE_ACCEPTED); break;
        case 1: NUMBER(protect(&m, 0, 1), KETTLE_ACCEPTED); break;
        case 2: NUMBER(device(&m, 0, 8), KETTLE_ACCEPTED); break;
        case 3: NUMBER(forget(&m), KETTLE_ACCEPTED); break;
        case 4: NUMBER(load_words(&m, 0, NULL), KETTLE_ACCEPTED); break;
        case 5: NUMBER(load_words(&m, 1, (unsigned[]){7}), KETTLE_ACCEPTED); break;
        case 6: NUMBER(load_words(&m, 33, (unsigned[33]){0}), KETTLE_WRITE_FAILED); break;
        default: NUMBER(back(&m), KETTLE_ACCEPTED); NUMBER(back(&m), KETTLE_ACCEPTED); break;
        }
        NUMBER(kettle_held(m.block.at), 0);
        NUMBER(next(&m), 0);
        NUMBER(back(&m), KETTLE_NOTHING_TO_UNDO);
        discard(&m);
    }
}

void test_journals(void)
{
    records();
    bad_records();
    lengths();
    most();
    emptied();
}
