/* Every instruction word, in many states, and random programs: number and bytes against the second interpreter. */
#include <string.h>

#include "check.h"

static struct machine m, want;

static unsigned any_value(size_t memory)
{
    switch (any_below(6)) {
    case 0: return any_below(65536);
    case 1: return 65535 - any_below(40);
    case 2: return any_below(4);
    default: return any_below(memory < 65000 ? (uint32_t)memory + 8 : 200);
    }
}

/* the same in both */
static void both(uint8_t *at, uint8_t *as_well, uint8_t value)
{
    *at = value;
    *as_well = value;
}

static void any_registers(void)
{
    for (unsigned i = 0; i < 8; i++)
        put_register(&m, (enum kettle_register)i, any_value(m.memory.len));
    put_register(&m, KETTLE_FLAGS, any_below(40) == 0 ? any_below(65536) : any_below(8) << 1);
    memcpy(want.block.at, m.block.at, 16);
}

static void tables(void)
{
    for (int i = 0; i < 4; i++) {
        size_t at = any_value(m.memory.len), region = any_value(m.memory.len), len = any_below(12);
        device(&m, at, len / 2);
        protect(&m, region, len);
    }
    memcpy(want.block.at, m.block.at, KETTLE_BLOCK_SIZE);
}

static void word_at(unsigned pc, unsigned word)
{
    bool of_device;
    for (unsigned i = 0; i < 2; i++)
        if (pc + i < 65536 && is_mapped(&m, pc + i))
            both(ref_byte(&m, pc + i, &of_device), ref_byte(&want, pc + i, &of_device), (uint8_t)(word >> 8 * i & 255));
}

static void alike(void)
{
    CHECK(memcmp(m.block.at, want.block.at, KETTLE_BLOCK_SIZE) == 0);
    CHECK(m.memory.len == 0 || memcmp(m.memory.at, want.memory.at, m.memory.len) == 0);
    CHECK(m.devices.len == 0 || memcmp(m.devices.at, want.devices.at, m.devices.len) == 0);
    CHECK(m.journal.len == 0 || memcmp(m.journal.at, want.journal.at, m.journal.len) == 0);
}

static void begin(size_t memory, size_t journal, int debug)
{
    m = machine(memory, 24, journal, debug);
    want = machine(memory, 24, journal, debug);
    for (size_t i = 0; i < memory; i++)
        both(m.memory.at + i, want.memory.at + i, (uint8_t)any_below(256));
    tables();
}

static void end(void)
{
    discard(&m);
    discard(&want);
}

static void every_word(size_t memory, size_t journal, int debug, unsigned stride)
{
    begin(memory, journal, debug);
    for (unsigned word = any_below(stride); word < 65536; word += stride) {
        during("a word, memory of length", (long)word, (long)memory, 0);
        any_registers();
        word_at(reg(&m, KETTLE_PC), word);
        NUMBER(step(&m), ref_step(&want));
        alike();
        if (any_below(4) == 0) {
            NUMBER(back(&m), ref_back(&want));
            alike();
        }
    }
    end();
}

static void programs(void)
{
    for (int round = 0; round < 600; round++) {
        size_t memory = 40 + any_below(200), journal = any_below(90);
        int debug = (int)any_below(2);
        begin(memory, journal, debug);
        for (int i = 0; i < 12; i++) {
            uint32_t steps = any_below(60);
            during("a random program, its run", round, i, 0);
            any_registers();
            put_register(&m, KETTLE_PC, 2 * any_below((uint32_t)m.memory.len / 2));
            memcpy(want.block.at, m.block.at, 16);
            /* words that are instructions, from PC on */
            for (unsigned k = 0; k < 20; k++) {
                unsigned op = any_below(12);
                word_at(reg(&m, KETTLE_PC) + 2 * k, any_below(4096) << 4 | op);
            }
            NUMBER(run(&m, steps), ref_run(&want, steps));
            alike();
        }
        end();
    }
}

void test_instructions(void)
{
    every_word(96, 3 * KETTLE_RECORD_SIZE, 0, 1);
    every_word(131, 2 * KETTLE_RECORD_SIZE + 7, 1, 1);
    every_word(64, 0, 0, 3);
    every_word(65535, KETTLE_RECORD_SIZE, 0, 61);
    every_word(65536, 5 * KETTLE_RECORD_SIZE, 0, 31);
    programs();
}
