/* Steps and runs: each number that a step can answer, and the bytes after it. */
#include <string.h>

#include "check.h"

enum { NOOP = 0x0000, MOV_A_5 = 0x0501, HALT = 0x0171 /* MOV FLAGS, #1 */ };

/* a machine with one word at PC, and nothing protected */
static struct machine at(unsigned pc, unsigned word, size_t memory)
{
    struct machine m = machine(memory, 0, 3 * KETTLE_RECORD_SIZE, 0);
    put_register(&m, KETTLE_PC, pc);
    for (unsigned i = 0; i < 2; i++)
        if (pc + i < memory)
            m.memory.at[pc + i] = (uint8_t)(word >> 8 * i & 255);
    return m;
}

/* one step of one word, refused with this number */
static void refused(unsigned word, unsigned number, unsigned a, unsigned b)
{
    struct machine m = at(8, word, 64);
    during("the word", (long)word, 0, 0);
    put_register(&m, KETTLE_A, a);
    put_register(&m, KETTLE_B, b);
    NUMBER(step(&m), number);
    NUMBER(run(&m, 5), number);
    discard(&m);
}

static void refusals(void)
{
    static const size_t short_ones[] = {0, 1, 2, 8, 9};
    for (size_t i = 0; i < sizeof short_ones / sizeof *short_ones; i++) {
        struct machine m = at(8, NOOP, short_ones[i]);
        NUMBER(step(&m), KETTLE_FETCH_UNMAPPED);
        discard(&m);
    }
    struct machine m = at(65535, NOOP, 65535);
    NUMBER(step(&m), KETTLE_FETCH_UNMAPPED);
    discard(&m);
    for (size_t memory = 65536; memory <= 65540; memory++) {
        m = at(65535, NOOP, memory);
        NUMBER(step(&m), KETTLE_ADDRESS_OVERFLOW);
        put_register(&m, KETTLE_PC, 65534);
        NUMBER(step(&m), KETTLE_PC_OVERFLOW);
        put_register(&m, KETTLE_FLAGS, 1);
        NUMBER(step(&m), KETTLE_STOP);
        discard(&m);
    }

    refused(0x0084 | 31u << 11, KETTLE_ADDRESS_OVERFLOW, 0, 65535); /* LDR A, [B #31] */
    refused(0x0488 | 1u << 11, KETTLE_ADDRESS_OVERFLOW, 0, 65535);  /* STB A, [B #1] */
    for (unsigned op = 12; op < 16; op++)
        for (unsigned high = 0; high < 4096; high += 273)
            refused(op | high << 4, KETTLE_BAD_OPCODE, 0, 0);
    refused(0x0307, KETTLE_BAD_COMPARE, 0, 0);
    refused(0x0387, KETTLE_BAD_COMPARE, 0, 0);
    refused(0x038a, KETTLE_BAD_ARITH, 0, 0);
    refused(0x0003 | 1u << 10, KETTLE_ARITH_OVERFLOW, 65535, 0);              /* ADD A, #1 */
    refused(0x0003 | 1u << 7 | 1u << 10, KETTLE_ARITH_OVERFLOW, 0, 0);        /* SUB A, #1 */
    refused(0x0003 | 2u << 7 | 2u << 10, KETTLE_ARITH_OVERFLOW, 32768, 0);    /* MUL A, #2 */
    refused(0x0003 | 3u << 7, KETTLE_DIVIDE_BY_ZERO, 7, 0);                   /* DIV A, #0 */
    refused(0x0003 | 3u << 7 | 1u << 9 | 1u << 10, KETTLE_DIVIDE_BY_ZERO, 7, 0); /* DIV A, B */

    /* a word at 65,535 whose low byte is there */
    m = at(8, 0x0084, 65536); /* LDR A, B */
    put_register(&m, KETTLE_B, 65535);
    NUMBER(step(&m), KETTLE_ADDRESS_OVERFLOW);
    put_word(m.memory.at + 8, 0x0484); /* STR A, B */
    NUMBER(step(&m), KETTLE_ADDRESS_OVERFLOW);
    discard(&m);

    /* what would be stored before PC overflows is not stored */
    m = at(65534, 0x0488, 65536); /* STB A, B */
    put_register(&m, KETTLE_A, 0x55);
    put_register(&m, KETTLE_B, 4);
    NUMBER(step(&m), KETTLE_PC_OVERFLOW);
    NUMBER(m.memory.at[4], 0);
    discard(&m);
}

/* every memory length that matters */
static void memories(void)
{
    static const size_t lengths[] = {0, 1, 2, 3, 65534, 65535, 65536, 65537, 70000, 200000};
    for (size_t i = 0; i < sizeof lengths / sizeof *lengths; i++) {
        size_t n = lengths[i];
        during("memory of length", (long)n, 0, 0);
        struct machine m = machine(n, 0, 0, 0);
        NUMBER(step(&m), n >= 2 ? KETTLE_ACCEPTED : KETTLE_FETCH_UNMAPPED);
        NUMBER(reg(&m, KETTLE_PC), n >= 2 ? 2 : 0);
        put_register(&m, KETTLE_PC, 0);
        uint64_t answer = run(&m, 100000);
        /* from 0 on, every word that is there, up to that at 65,534 */
        NUMBER(kettle_steps(answer), n >= 65536 ? 32767 : n / 2);
        NUMBER(kettle_code_of(answer), n >= 65536 ? KETTLE_PC_OVERFLOW : KETTLE_FETCH_UNMAPPED);
        NUMBER(reg(&m, KETTLE_PC), n >= 65536 ? 65534 : n / 2 * 2);
        CHECK(all_are(m.memory.at, n, 0));
        discard(&m);
    }
}

static void accepted(void)
{
    /* MOV A, #5; MUL A, #9; STR A, [B #8]; MOV FLAGS, #1 */
    static const unsigned program[] = {1281, 9475, 17540, 369};
    struct machine m = machine(16, 0, 5 * KETTLE_RECORD_SIZE, 0);
    NUMBER(load_words(&m, 4, program), KETTLE_ACCEPTED);
    NUMBER(set(&m, KETTLE_B, 6), KETTLE_ACCEPTED);
    NUMBER(step(&m), KETTLE_ACCEPTED);
    NUMBER(reg(&m, KETTLE_A), 5);
    NUMBER(step(&m), KETTLE_ACCEPTED);
    NUMBER(reg(&m, KETTLE_A), 45);
    NUMBER(step(&m), KETTLE_ACCEPTED);
    NUMBER(kettle_word(m.memory.at + 14), 45);
    NUMBER(step(&m), KETTLE_ACCEPTED);
    NUMBER(reg(&m, KETTLE_FLAGS), KETTLE_FLAG_HALT);
    NUMBER(step(&m), KETTLE_STOP);
    NUMBER(run(&m, 9), KETTLE_STOP);
    NUMBER(run(&m, 0), KETTLE_ACCEPTED);
    NUMBER(kettle_held(m.block.at), 4);
    NUMBER(next(&m), 4);
    discard(&m);

    /* hex word 1234 stored at 3 of 4 bytes leaves hex 34 and flags 5 */
    m = machine(4, 0, KETTLE_RECORD_SIZE, 0);
    put_word(m.memory.at, 0x0484); /* STR A, B */
    put_register(&m, KETTLE_A, 0x1234);
    put_register(&m, KETTLE_B, 3);
    NUMBER(step(&m), KETTLE_ACCEPTED);
    NUMBER(m.memory.at[3], 0x34);
    NUMBER(reg(&m, KETTLE_FLAGS), KETTLE_FLAG_HALT | KETTLE_FLAG_FAILED);
    NUMBER(reg(&m, KETTLE_PC), 2);
    discard(&m);

    /* MOV PC, #10 gives 12 */
    m = at(0, 0x0a51, 2);
    NUMBER(step(&m), KETTLE_ACCEPTED);
    NUMBER(reg(&m, KETTLE_PC), 12);
    discard(&m);

    /* a comparison sets its flag, a taken CJP clears it; a failed load leaves its register */
    m = machine(8, 0, 0, 0);
    put_word(m.memory.at, 0x0007);     /* EQ A, #0 */
    put_word(m.memory.at + 2, 0x00c5); /* CJP #6 */
    put_word(m.memory.at + 6, 0x0084); /* LDR A, B */
    put_register(&m, KETTLE_B, 7);
    NUMBER(step(&m), KETTLE_ACCEPTED);
    NUMBER(reg(&m, KETTLE_FLAGS), KETTLE_FLAG_TRUE);
    NUMBER(step(&m), KETTLE_ACCEPTED);
    NUMBER(reg(&m, KETTLE_FLAGS), 0);
    NUMBER(reg(&m, KETTLE_PC), 6);
    put_register(&m, KETTLE_A, 77);
    NUMBER(step(&m), KETTLE_ACCEPTED);
    NUMBER(reg(&m, KETTLE_A), 77);
    discard(&m);
}

static void devices(void)
{
    /* LDB A, B; ADD A, #1; STB A, B, over a device that hides memory */
    struct machine m = machine(64, 8, 0, 0);
    NUMBER(device(&m, 30, 4), KETTLE_ACCEPTED);
    NUMBER(device(&m, 50, 4), KETTLE_ACCEPTED);
    NUMBER(protect(&m, 40, 20), KETTLE_ACCEPTED);
    NUMBER(load_words(&m, 3, (unsigned[]){0x0088, 0x0403, 0x0488}), KETTLE_ACCEPTED);
    NUMBER(set(&m, KETTLE_B, 51), KETTLE_ACCEPTED);
    m.devices.at[5] = 200; /* the second device's second byte, which the region over it does not protect */
    NUMBER(run(&m, 3), (uint64_t)3 << 16);
    NUMBER(m.devices.at[5], 201);
    NUMBER(reg(&m, KETTLE_A), 201);
    NUMBER(m.memory.at[51], 0);
    NUMBER(reg(&m, KETTLE_FLAGS), 0);
    /* a protected byte takes no store */
    NUMBER(set(&m, KETTLE_B, 49), KETTLE_ACCEPTED);
    NUMBER(set(&m, KETTLE_PC, 4), KETTLE_ACCEPTED);
    NUMBER(run(&m, 9), KETTLE_STOP | (uint64_t)1 << 16);
    NUMBER(m.memory.at[49], 0);
    NUMBER(reg(&m, KETTLE_FLAGS), KETTLE_FLAG_HALT | KETTLE_FLAG_FAILED);
    discard(&m);
}

static void debugging(void)
{
    struct machine m = machine(8, 0, 2 * KETTLE_RECORD_SIZE, 1);
    put_word(m.memory.at, MOV_A_5);
    put_word(m.memory.at + 6, HALT);
    NUMBER(run(&m, 100), KETTLE_DEBUG | (uint64_t)2 << 16);
    NUMBER(run(&m, 100), KETTLE_DEBUG | (uint64_t)1 << 16);
    NUMBER(run(&m, 1), (uint64_t)1 << 16);
    NUMBER(run(&m, 1), KETTLE_STOP);
    NUMBER(reg(&m, KETTLE_PC), 8);
    NUMBER(kettle_held(m.block.at), 2);
    discard(&m);

    m = machine(8, 0, 0, 0);
    NUMBER(run(&m, 3), (uint64_t)3 << 16);
    NUMBER(run(&m, 100), KETTLE_FETCH_UNMAPPED | (uint64_t)1 << 16); /* a refused run keeps its accepted steps */
    NUMBER(reg(&m, KETTLE_PC), 8);
    discard(&m);
}

/* a loop that never ends: as many steps as asked for */
static void long_runs(void)
{
    struct machine m = machine(2, 0, 5 * KETTLE_RECORD_SIZE, 0);
    put_word(m.memory.at, 0x0006); /* JMP #0 */
    static const uint32_t counts[] = {0, 1, 65535, 65536, 65537, 1000000};
    unsigned total = 0;
    for (size_t i = 0; i < sizeof counts / sizeof *counts; i++) {
        NUMBER(run(&m, counts[i]), (uint64_t)counts[i] << 16);
        total += counts[i];
        NUMBER(next(&m), total % 5);
        NUMBER(kettle_held(m.block.at), total < 5 ? total : 5);
    }
    discard(&m);
    m = machine(65536, 0, 0, 0);
    put_word(m.memory.at + 2, HALT);
    NUMBER(run(&m, UINT32_MAX), KETTLE_STOP | (uint64_t)2 << 16);
    discard(&m);
}

void test_steps(void)
{
    refusals();
    memories();
    accepted();
    devices();
    debugging();
    long_runs();
}
