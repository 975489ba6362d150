/* The header's helpers that ask how a machine ended or protect a program, and what its sentences promise a host beside them. */
#include <string.h>

#include "check.h"

enum {
    HALT = 0x0171, /* MOV FLAGS, #1 */
    MOV_A_5 = 0x0501,
    DIV_A_2 = 0x0983,
    LDR_A_B = 0x0084,
    STR_A_B = 0x0484,
    LDB_A_B = 0x0088,
    STB_A_B = 0x0488,
    CPY_A_B = 0x0089
};

/* ---- halted, failed ------------------------------------------------------------------------------------------------------ */

/* 64 bytes, 30 to 33 of them protected; this word at 8 and a halt behind it */
static struct machine at_word(unsigned word, unsigned a, unsigned b)
{
    struct machine m = machine(64, 0, 2 * KETTLE_RECORD_SIZE, 0);
    NUMBER(protect(&m, 30, 4), KETTLE_ACCEPTED);
    put_word(m.memory.at + 8, word);
    put_word(m.memory.at + 10, HALT);
    put_register(&m, KETTLE_PC, 8);
    put_register(&m, KETTLE_A, a);
    put_register(&m, KETTLE_B, b);
    put_register(&m, KETTLE_SP, 31);
    put_register(&m, KETTLE_FLAGS, KETTLE_FLAG_REMAINDER | KETTLE_FLAG_TRUE);
    during("the word, with A and B", (long)word, (long)a, (long)b);
    return m;
}

static void is(const struct machine *m, bool halted, bool failed)
{
    CHECK((kettle_halted(m->block.at) != 0) == halted);
    CHECK((kettle_failed(m->block.at) != 0) == failed);
}

/* a store that fails is accepted, and is the last step */
static void failed_stores(void)
{
    static const unsigned stores[][3] = {
        {STR_A_B, 0x1234, 30}, {STR_A_B, 0x1234, 29}, {STR_A_B, 0x1234, 33}, {STR_A_B, 0x1234, 64},  {STR_A_B, 0x1234, 63},
        {STB_A_B, 0x1234, 30}, {STB_A_B, 0x1234, 33}, {STB_A_B, 0x1234, 64}, {STB_A_B, 0x1234, 65535},
        {CPY_A_B, 64, 40} /* no source */, {CPY_A_B, 40, 64}, {CPY_A_B, 40, 31}};
    for (size_t i = 0; i < sizeof stores / sizeof *stores; i++) {
        struct machine m = at_word(stores[i][0], stores[i][1], stores[i][2]);
        is(&m, false, false);
        NUMBER(step(&m), KETTLE_ACCEPTED);
        is(&m, false, true);
        NUMBER(reg(&m, KETTLE_FLAGS), KETTLE_FLAG_HALT | KETTLE_FLAG_FAILED | KETTLE_FLAG_REMAINDER | KETTLE_FLAG_TRUE);
        NUMBER(step(&m), KETTLE_STOP);
        NUMBER(back(&m), KETTLE_ACCEPTED);
        is(&m, false, false);
        NUMBER(run(&m, 10), KETTLE_STOP | (uint64_t)1 << 16);
        is(&m, false, true);
        discard(&m);
    }
}

/* one that does not fail goes on to the halt; so does a remainder that can't be stored */
static void good_stores(void)
{
    static const unsigned stores[][3] = {{STR_A_B, 0x1234, 40}, {STB_A_B, 0x1234, 29}, {STB_A_B, 0x1234, 34}, {CPY_A_B, 31, 40},
                                         {DIV_A_2, 7, 0}};
    for (size_t i = 0; i < sizeof stores / sizeof *stores; i++) {
        struct machine m = at_word(stores[i][0], stores[i][1], stores[i][2]);
        NUMBER(step(&m), KETTLE_ACCEPTED);
        is(&m, false, false);
        NUMBER(run(&m, 10), KETTLE_STOP | (uint64_t)1 << 16);
        is(&m, true, false);
        discard(&m);
    }
}

/* a load that fails leaves its register and sets no flag, and the machine goes on */
static void failed_loads(void)
{
    static const unsigned loads[][2] = {{LDR_A_B, 64}, {LDR_A_B, 63}, {LDR_A_B, 65534}, {LDB_A_B, 64}, {LDB_A_B, 65535}};
    for (size_t i = 0; i < sizeof loads / sizeof *loads; i++) {
        struct machine m = at_word(loads[i][0], 0x1234, loads[i][1]);
        m.memory.at[63] = 0x77;
        NUMBER(step(&m), KETTLE_ACCEPTED);
        CHECK(kept(&m.memory));
        NUMBER(reg(&m, KETTLE_A), 0x1234);
        NUMBER(reg(&m, KETTLE_FLAGS), KETTLE_FLAG_REMAINDER | KETTLE_FLAG_TRUE);
        NUMBER(reg(&m, KETTLE_PC), 10);
        is(&m, false, false);
        discard(&m);
    }
}

/* a run whose last allowed step halts is accepted: the code alone does not tell */
static void last_step(void)
{
    for (uint32_t steps = 0; steps <= 5; steps++) {
        struct machine m = at_word(MOV_A_5, 0, 0);
        NUMBER(kettle_code_of(run(&m, steps)), steps <= 2 ? KETTLE_ACCEPTED : KETTLE_STOP);
        is(&m, steps >= 2, false);
        discard(&m);
    }
    struct machine m = at_word(STB_A_B, 0, 30);
    NUMBER(run(&m, 1), (uint64_t)1 << 16);
    is(&m, false, true);
    discard(&m);
}

/* after Stop exactly one of the two is so, else none of them, whatever the other bits are */
static void flags(void)
{
    struct machine m = machine(2, 0, 0, 0);
    is(&m, false, false);
    for (unsigned value = 0; value < 65536; value++) {
        during("FLAGS", (long)value, 0, 0);
        put_register(&m, KETTLE_FLAGS, value);
        put_register(&m, KETTLE_PC, 0);
        is(&m, value % 2 == 1 && value / 4 % 2 == 0, value % 2 == 1 && value / 4 % 2 == 1);
        NUMBER(step(&m), value % 2 == 1 ? KETTLE_STOP : KETTLE_ACCEPTED);
        CHECK((kettle_halted(m.block.at) != 0) + (kettle_failed(m.block.at) != 0) == (int)(value % 2));
    }
    for (int other = 0; other < 2; other++) {
        memset(m.block.at, 0xff, KETTLE_BLOCK_SIZE);
        put_register(&m, KETTLE_FLAGS, other ? KETTLE_FLAG_HALT : 0);
        is(&m, other, false);
    }
    discard(&m);
}

/* ---- the rest of a program's bytes --------------------------------------------------------------------------------------- */

/* count words, each STB A, B */
static uint64_t load_stores(struct machine *m, size_t count)
{
    struct bytes words = lend(2 * count);
    for (size_t i = 0; i < count; i++)
        put_word(words.at + 2 * i, STB_A_B);
    read_only(&words);
    uint64_t answer = load(m, &words);
    give_back(&words);
    return answer;
}

/* does a program store here? Block and memory are as before, after it */
static bool stores_at(struct machine *m, unsigned pc, size_t a)
{
    uint8_t before[KETTLE_BLOCK_SIZE], old = m->memory.at[a], value = (uint8_t)~old;
    memcpy(before, m->block.at, sizeof before);
    put_register(m, KETTLE_A, value);
    put_register(m, KETTLE_B, (unsigned)a);
    put_register(m, KETTLE_PC, pc);
    NUMBER(kettle_step(ALL(m)), KETTLE_ACCEPTED);
    bool stored = !kettle_failed(m->block.at);
    NUMBER(m->memory.at[a], stored ? value : old);
    m->memory.at[a] = old;
    memcpy(m->block.at, before, sizeof before);
    return stored;
}

static void region(const struct machine *m, unsigned i, size_t start, size_t len)
{
    const uint8_t *entry = m->block.at + KETTLE_BLOCK_REGIONS + 4 * (size_t)i;
    CHECK(m->block.at[KETTLE_BLOCK_PROTECTED] > i);
    NUMBER(kettle_word(entry), start);
    NUMBER(kettle_word(entry + 2), len);
}

/* a load leaves the second half open, and this closes it: up to the program's last byte and not further */
static void protected_rest(size_t count)
{
    struct machine m = machine(65536, 0, KETTLE_RECORD_SIZE, 0);
    unsigned pc = count > 0 ? 0 : 1000; /* an empty program has no store of its own */
    put_word(m.memory.at + 1000, STB_A_B);
    NUMBER(load_stores(&m, count), KETTLE_ACCEPTED);
    keep(&m.memory);
    for (size_t a = 0; a < 2 * count; a++) {
        during("after a load of words, the address", (long)count, (long)a, 0);
        CHECK(stores_at(&m, pc, a) == (a >= count));
    }
    NUMBER(protect_rest(&m, 2 * count), KETTLE_ACCEPTED);
    NUMBER(m.block.at[KETTLE_BLOCK_PROTECTED], 2);
    region(&m, 0, 0, count);
    region(&m, 1, count, count);
    for (size_t a = 0; a < 2 * count; a++) {
        during("after protecting the rest of words, the address", (long)count, (long)a, 0);
        CHECK(!stores_at(&m, pc, a));
    }
    CHECK(stores_at(&m, pc, 2 * count));
    CHECK(stores_at(&m, pc, 2 * count + 1));
    CHECK(kept(&m.memory));
    discard(&m);
}

static void refused_rests(void)
{
    /* a program to the end of memory, which kettle_assemble never makes */
    struct machine m = machine(65536, 0, 0, 0);
    NUMBER(load_stores(&m, 32768), KETTLE_ACCEPTED);
    NUMBER(protect_rest(&m, 65536), KETTLE_RANGE_OVERFLOW);
    discard(&m);

    for (size_t regions = 6; regions < 8; regions++) {
        m = machine(64, 0, 0, 0);
        for (size_t i = 0; i < regions; i++)
            NUMBER(protect(&m, 100 + i, 1), KETTLE_ACCEPTED);
        NUMBER(load_stores(&m, 5), KETTLE_ACCEPTED);
        NUMBER(protect_rest(&m, 10), regions == 6 ? KETTLE_ACCEPTED : KETTLE_TABLE_FULL);
        discard(&m);
    }

    m = machine(64, 0, 0, 0);
    NUMBER(load_stores(&m, 5), KETTLE_ACCEPTED);
    NUMBER(protect(&m, 9, 1), KETTLE_ACCEPTED);
    NUMBER(protect_rest(&m, 10), KETTLE_OVERLAP);
    m.block.at[KETTLE_BLOCK_PROTECTED] = 9;
    NUMBER(protect_rest(&m, 10), KETTLE_BAD_STATE);
    m.block.at[KETTLE_BLOCK_DEBUG] = 2;
    NUMBER(protect_rest(&m, 10), KETTLE_BAD_BLOCK);
    discard(&m);
}

/* ---- what the header says of hosts --------------------------------------------------------------------------------------- */

/* a second program needs a fresh block: the first one's region is in its way */
static void second_load(size_t first, size_t second, unsigned number)
{
    struct machine m = machine(64, 0, 0, 0);
    during("a load of words, after one of", (long)second, (long)first, 0);
    NUMBER(load_stores(&m, first), KETTLE_ACCEPTED);
    NUMBER(load_stores(&m, second), number);
    kettle_fresh(m.block.at, 0);
    NUMBER(load_stores(&m, second), KETTLE_ACCEPTED);
    region(&m, 0, 0, second);
    discard(&m);
}

static void second_loads(void)
{
    second_load(1, 1, KETTLE_WRITE_FAILED);
    second_load(5, 3, KETTLE_WRITE_FAILED);
    second_load(3, 5, KETTLE_WRITE_FAILED);
    second_load(0, 4, KETTLE_OVERLAP);
    second_load(4, 0, KETTLE_OVERLAP);

    /* where a device takes every store, nothing fails before the regions meet */
    struct machine m = machine(64, 16, 0, 0);
    NUMBER(device(&m, 0, 16), KETTLE_ACCEPTED);
    NUMBER(load_stores(&m, 4), KETTLE_ACCEPTED);
    NUMBER(load_stores(&m, 4), KETTLE_OVERLAP);
    discard(&m);
}

/* the last byte is a program's, and no host's but in its own memory */
static void last_byte(void)
{
    struct machine m = machine(65536, 1, 0, 0);
    struct bytes buffer = lend(2);
    put_word(m.memory.at, STB_A_B);
    put_word(m.memory.at + 2, 0x00a8); /* LDB C, B */
    put_register(&m, KETTLE_A, 0x1234);
    put_register(&m, KETTLE_B, 65535);
    NUMBER(run(&m, 2), (uint64_t)2 << 16);
    NUMBER(m.memory.at[65535], 0x34);
    NUMBER(reg(&m, KETTLE_C), 0x34);
    is(&m, false, false);
    NUMBER(protect(&m, 65535, 1), KETTLE_RANGE_OVERFLOW);
    NUMBER(protect(&m, 0, 65536), KETTLE_RANGE_OVERFLOW);
    NUMBER(device(&m, 65535, 1), KETTLE_RANGE_OVERFLOW);
    NUMBER(read_out(&m, 65535, 1, &buffer), KETTLE_RANGE_OVERFLOW);
    NUMBER(read_out(&m, 65534, 2, &buffer), KETTLE_RANGE_OVERFLOW);
    NUMBER(read_out(&m, 65534, 1, &buffer), (uint64_t)1 << 16);
    NUMBER(protect(&m, 65534, 1), KETTLE_ACCEPTED);
    NUMBER(device(&m, 65534, 1), KETTLE_ACCEPTED);
    give_back(&buffer);
    discard(&m);
}

/* a step back overwrites what the host wrote since, in memory and in a device, if it did not forget */
static void host_writes(bool of_device, bool forgets)
{
    struct machine m = machine(64, 8, KETTLE_RECORD_SIZE, 0);
    NUMBER(device(&m, 40, 8), KETTLE_ACCEPTED);
    uint8_t *byte = of_device ? m.devices.at + 2 : m.memory.at + 50;
    put_word(m.memory.at, STB_A_B);
    put_register(&m, KETTLE_A, 0x22);
    put_register(&m, KETTLE_B, of_device ? 42 : 50);
    *byte = 0x11;
    NUMBER(step(&m), KETTLE_ACCEPTED);
    NUMBER(*byte, 0x22);
    *byte = 0x33;
    if (forgets)
        NUMBER(forget(&m), KETTLE_ACCEPTED);
    NUMBER(back(&m), forgets ? KETTLE_NOTHING_TO_UNDO : KETTLE_ACCEPTED);
    NUMBER(*byte, forgets ? 0x33 : 0x11);
    discard(&m);
}

/* five steps in four slots, or forgotten; then the journal has another length */
static struct machine other_journal(size_t slots, bool forgotten)
{
    struct machine m = machine(64, 8, 4 * KETTLE_RECORD_SIZE, 0);
    NUMBER(run(&m, 5), (uint64_t)5 << 16);
    if (forgotten)
        NUMBER(forget(&m), KETTLE_ACCEPTED);
    give_back(&m.journal);
    m.journal = lend(slots * KETTLE_RECORD_SIZE + 22);
    during("a journal of four slots that now has", (long)slots, forgotten, 0);
    return m;
}

/* a journal that gets too short for its records: a bad state for each entry */
static void too_short(size_t slots)
{
    struct machine m = other_journal(slots, false);
    struct bytes buffer = lend(4), none = lend(0);
    NUMBER(run(&m, 0), KETTLE_BAD_STATE);
    NUMBER(run(&m, 9), KETTLE_BAD_STATE);
    NUMBER(step(&m), KETTLE_BAD_STATE);
    NUMBER(back(&m), KETTLE_BAD_STATE);
    NUMBER(set(&m, KETTLE_A, 1), KETTLE_BAD_STATE);
    NUMBER(protect(&m, 0, 1), KETTLE_BAD_STATE);
    NUMBER(protect_rest(&m, 2), KETTLE_BAD_STATE);
    NUMBER(device(&m, 0, 1), KETTLE_BAD_STATE);
    NUMBER(forget(&m), KETTLE_BAD_STATE);
    NUMBER(load(&m, &none), KETTLE_BAD_STATE);
    NUMBER(read_out(&m, 0, 4, &buffer), KETTLE_BAD_STATE);
    CHECK(kettle_record(m.block.at, m.journal.at, m.journal.len, 0) == NULL);
    give_back(&buffer);
    give_back(&none);
    discard(&m);
}

/* One that still has room for them is taken as it is, though its records are others. After kettle_forget any length will do. */
static void other_lengths(void)
{
    for (size_t slots = 0; slots < 8; slots++) {
        struct machine m = other_journal(slots, true);
        NUMBER(back(&m), KETTLE_NOTHING_TO_UNDO);
        NUMBER(run(&m, 3), (uint64_t)3 << 16);
        NUMBER(kettle_held(m.block.at), slots < 3 ? slots : 3);
        discard(&m);
        if (slots < 4) {
            too_short(slots);
            continue;
        }
        m = other_journal(slots, false);
        CHECK(kettle_record(m.block.at, m.journal.at, m.journal.len, 0) == m.journal.at);
        NUMBER(run(&m, 3), (uint64_t)3 << 16);
        NUMBER(back(&m), KETTLE_ACCEPTED);
        discard(&m);
    }
}

/* a mistyped label is no refusal: its word is 0, and the machine goes on behind it */
static void open_reference(int strict)
{
    struct bytes text = lend_text("loop:\nMOV A, #5\nJMP Loop\nMOV FLAGS, #1\n"), words = lend(16);
    struct machine m = machine(64, 0, 0, 0);
    uint64_t answer = assemble(&text, strict, &words);
    NUMBER(kettle_code_of(answer), KETTLE_ACCEPTED);
    NUMBER(kettle_words(answer), 3);
    NUMBER(kettle_open_references(answer), 1);
    NUMBER(kettle_labels(answer), 1);
    NUMBER(kettle_word(words.at + 2), 0);
    NUMBER(kettle_load(ALL(&m), words.at, kettle_words_len(answer)), KETTLE_ACCEPTED);
    NUMBER(run(&m, 100), KETTLE_STOP | (uint64_t)3 << 16);
    is(&m, true, false);
    NUMBER(reg(&m, KETTLE_PC), 6);
    NUMBER(reg(&m, KETTLE_A), 5);
    give_back(&text);
    give_back(&words);
    discard(&m);
}

void test_helpers(void)
{
    static const size_t counts[] = {0, 1, 2, 3, 500, 32767};
    failed_stores();
    good_stores();
    failed_loads();
    last_step();
    flags();
    for (size_t i = 0; i < sizeof counts / sizeof *counts; i++)
        protected_rest(counts[i]);
    refused_rests();
    second_loads();
    last_byte();
    for (int i = 0; i < 4; i++)
        host_writes(i & 1, i & 2);
    other_lengths();
    open_reference(0);
    open_reference(1);
}
