/* struct kettle_machine: each wrapper answers what the plain form answers of a copy, and leaves the same bytes. */
#include <string.h>

#include "check.h"

/* two machines of the same bytes, and the struct over the second */
struct twins {
    struct machine plain, other;
    struct kettle_machine by;
};

static void any_bytes(struct bytes *a, struct bytes *b)
{
    for (size_t i = 0; i < a->len; i++)
        a->at[i] = b->at[i] = (uint8_t)any_below(256);
}

static struct twins twins(size_t memory, size_t devices, size_t journal)
{
    struct twins t = {.plain = machine(memory, devices, journal, 0), .other = machine(memory, devices, journal, 0)};
    struct kettle_machine by = {.block = t.other.block.at,
                                .memory = t.other.memory.at,
                                .memory_len = memory,
                                .devices = t.other.devices.at,
                                .devices_len = devices,
                                .journal = t.other.journal.at,
                                .journal_len = journal};
    t.by = by;
    any_bytes(&t.plain.memory, &t.other.memory);
    any_bytes(&t.plain.devices, &t.other.devices);
    any_bytes(&t.plain.journal, &t.other.journal);
    return t;
}

static bool same(const struct bytes *a, const struct bytes *b)
{
    return a->len == 0 || memcmp(a->at, b->at, a->len) == 0;
}

static void alike(const struct twins *t)
{
    CHECK(same(&t->plain.block, &t->other.block));
    CHECK(same(&t->plain.memory, &t->other.memory));
    CHECK(same(&t->plain.devices, &t->other.devices));
    CHECK(same(&t->plain.journal, &t->other.journal));
}

/* the i-th newest is in the same place of both, and both are nowhere else */
static void records_alike(const struct twins *t)
{
    for (size_t i = 0; i < 7; i++) {
        const struct bytes *j = &t->plain.journal;
        const uint8_t *one = kettle_record(t->plain.block.at, j->at, j->len, i), *two = kettle_machine_record(&t->by, i);
        CHECK((one == NULL) == (two == NULL));
        if (one != NULL && two != NULL)
            CHECK(one - j->at == two - t->other.journal.at);
    }
}

static void read_alike(struct twins *t, size_t start, size_t size)
{
    size_t room = any_below(5) == 0 ? any_below(40) : 40;
    struct bytes one = lend(room), two = lend(room);
    NUMBER(kettle_machine_read(&t->by, start, size, two.at, two.len), read_out(&t->plain, start, size, &one));
    CHECK(same(&one, &two));
    give_back(&one);
    give_back(&two);
}

/* words that do something, for the most part, or an odd length of them */
static void load_alike(struct twins *t)
{
    struct bytes words = lend(any_below(30));
    for (size_t i = 0; i + 1 < words.len; i += 2) {
        unsigned fields = any_below(65536) & 0xfff0;
        put_word(words.at + i, fields | any_below(12));
    }
    NUMBER(kettle_machine_load(&t->by, words.at, words.len), load(&t->plain, &words));
    give_back(&words);
}

/* registers that point into memory, now and then one that does not or none */
static void set_alike(struct twins *t)
{
    size_t number = any_below(9);
    uint16_t value = (uint16_t)(any_below(4) == 0 ? any_below(65536) : any_below(64));
    if (number == KETTLE_FLAGS)
        value = (uint16_t)(any_below(8) << 1);
    NUMBER(kettle_machine_set_register(&t->by, number, value), set(&t->plain, number, value));
}

static void any_call(struct twins *t)
{
    size_t a = any_below(80), n = any_below(10);
    uint32_t steps = any_below(8);
    switch (any_below(14)) {
    case 0: load_alike(t); break;
    case 1: NUMBER(kettle_machine_protect(&t->by, a, n), protect(&t->plain, a, n)); break;
    case 2: NUMBER(kettle_machine_protect_rest(&t->by, 2 * n), protect_rest(&t->plain, 2 * n)); break;
    case 3: NUMBER(kettle_machine_device(&t->by, a, n), device(&t->plain, a, n)); break;
    case 4: NUMBER(kettle_machine_forget(&t->by), forget(&t->plain)); break;
    case 5:
    case 6: set_alike(t); break;
    case 7: read_alike(t, a, any_below(45)); break;
    case 8:
    case 9: NUMBER(kettle_machine_run(&t->by, steps), run(&t->plain, steps)); break;
    case 10:
    case 11: NUMBER(kettle_machine_step_back(&t->by), back(&t->plain)); break;
    default: NUMBER(kettle_machine_step(&t->by), step(&t->plain)); break;
    }
}

static void any_calls(void)
{
    for (int round = 0; round < 600; round++) {
        size_t memory = any_below(70), devices = any_below(30), journal = any_below(6 * KETTLE_RECORD_SIZE);
        struct twins t = twins(memory, devices, journal);
        for (int call = 0; call < 60; call++) {
            during("twins, their call", round, call, 0);
            any_call(&t);
            alike(&t);
            records_alike(&t);
        }
        discard(&t.plain);
        discard(&t.other);
    }
}

/* what is not named is empty: a machine with a block and nothing else */
static void block_alone(void)
{
    struct bytes block = lend(KETTLE_BLOCK_SIZE);
    struct kettle_machine m = {.block = block.at};
    kettle_fresh(block.at, 0);
    NUMBER(kettle_machine_run(&m, 0), KETTLE_ACCEPTED);
    NUMBER(kettle_machine_run(&m, 1), KETTLE_FETCH_UNMAPPED);
    NUMBER(kettle_machine_step(&m), KETTLE_FETCH_UNMAPPED);
    NUMBER(kettle_machine_step_back(&m), KETTLE_NOTHING_TO_UNDO);
    NUMBER(kettle_machine_load(&m, NULL, 0), KETTLE_ACCEPTED);
    NUMBER(kettle_machine_protect(&m, 9, 1), KETTLE_ACCEPTED);
    NUMBER(kettle_machine_protect_rest(&m, 0), KETTLE_ACCEPTED);
    NUMBER(kettle_machine_device(&m, 9, 1), KETTLE_NO_DEVICE_ROOM);
    NUMBER(kettle_machine_set_register(&m, KETTLE_A, 7), KETTLE_ACCEPTED);
    NUMBER(kettle_machine_forget(&m), KETTLE_ACCEPTED);
    NUMBER(kettle_machine_read(&m, 0, 0, NULL, 0), KETTLE_ACCEPTED);
    CHECK(kettle_machine_record(&m, 0) == NULL);
    NUMBER(kettle_register_of(m.block, KETTLE_A), 7);
    give_back(&block);
}

void test_wrappers(void)
{
    any_calls();
    block_alone();
}
