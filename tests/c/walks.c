/* Steps, runs and step-backs in any order, beside a stack that keeps every past state whole: a step-back is to lead where the step
 * before it came from, registers, memory and devices alike, and is refused exactly when the journal holds no record. */
#include <string.h>

#include "check.h"

enum { MEMORY = 96, DEVICES = 12, DEEP = 64 };

struct past {
    uint8_t registers[16], memory[MEMORY], devices[DEVICES];
};

static struct past stack[DEEP];
static unsigned depth, room;

static struct past now(const struct machine *m)
{
    struct past p;
    memcpy(p.registers, m->block.at, sizeof p.registers);
    memcpy(p.memory, m->memory.at, sizeof p.memory);
    memcpy(p.devices, m->devices.at, sizeof p.devices);
    return p;
}

/* the oldest one is forgotten where the journal has no room for it */
static void push(struct past p)
{
    if (room == 0)
        return;
    if (depth == room) {
        memmove(stack, stack + 1, (depth - 1) * sizeof *stack);
        depth--;
    }
    stack[depth++] = p;
}

/* a word that is likely to do something */
static unsigned any_word(void)
{
    unsigned word = any_below(65536);
    if (any_below(8) == 0)
        return word;
    return (word & 0xfff0) | any_below(12);
}

static void any_program(struct machine *m)
{
    for (size_t i = 0; i < MEMORY; i += 2)
        put_word(m->memory.at + i, any_word());
    for (size_t i = 0; i < DEVICES; i++)
        m->devices.at[i] = (uint8_t)any_below(256);
}

/* registers that point into memory; the journal is emptied by it */
static void set_out(struct machine *m)
{
    for (size_t r = 0; r < 8; r++) {
        unsigned value = any_below(6) == 0 ? any_below(65536) : any_below(MEMORY + 8);
        if (r == KETTLE_PC)
            value = 2 * any_below(MEMORY / 2);
        if (r == KETTLE_FLAGS)
            value = any_below(8) << 1;
        NUMBER(set(m, r, (uint16_t)value), KETTLE_ACCEPTED);
    }
    depth = 0;
}

static bool is_accepted(uint64_t answer)
{
    return kettle_code_of(answer) == KETTLE_ACCEPTED || kettle_code_of(answer) == KETTLE_DEBUG;
}

/* a run is so many steps: they are made one by one on a copy */
static bool running(struct machine *m, struct machine *copy, uint32_t steps)
{
    memcpy(copy->block.at, m->block.at, KETTLE_BLOCK_SIZE);
    memcpy(copy->memory.at, m->memory.at, MEMORY);
    memcpy(copy->devices.at, m->devices.at, DEVICES);
    if (m->journal.len > 0)
        memcpy(copy->journal.at, m->journal.at, m->journal.len);
    uint64_t answer = KETTLE_ACCEPTED, count = 0;
    while (count < steps && answer == KETTLE_ACCEPTED) {
        struct past p = now(copy);
        answer = step(copy);
        if (is_accepted(answer)) {
            push(p);
            count++;
        }
    }
    NUMBER(run(m, steps), answer | count << 16);
    CHECK(memcmp(copy->block.at, m->block.at, KETTLE_BLOCK_SIZE) == 0);
    CHECK(memcmp(copy->memory.at, m->memory.at, MEMORY) == 0);
    CHECK(memcmp(copy->devices.at, m->devices.at, DEVICES) == 0);
    CHECK(m->journal.len == 0 || memcmp(copy->journal.at, m->journal.at, m->journal.len) == 0);
    return is_accepted(answer);
}

static bool stepping(struct machine *m)
{
    struct past p = now(m);
    uint64_t answer = step(m);
    if (is_accepted(answer))
        push(p);
    return is_accepted(answer);
}

static void stepping_back(struct machine *m)
{
    uint64_t answer = back(m);
    NUMBER(answer, depth > 0 ? KETTLE_ACCEPTED : KETTLE_NOTHING_TO_UNDO);
    if (answer != KETTLE_ACCEPTED)
        return;
    struct past p = now(m);
    CHECK(memcmp(&p, &stack[--depth], sizeof p) == 0);
}

void test_walks(void)
{
    for (int walk = 0; walk < 400; walk++) {
        room = any_below(5) == 0 ? DEEP : any_below(8);
        size_t journal = room * KETTLE_RECORD_SIZE + any_below(KETTLE_RECORD_SIZE);
        int debug = (int)any_below(2);
        struct machine m = machine(MEMORY, DEVICES, journal, debug), copy = machine(MEMORY, DEVICES, journal, debug);
        any_program(&m);
        for (int i = 0; i < 3; i++) {
            size_t at = any_below(MEMORY + 8), region = any_below(MEMORY), len = any_below(10);
            device(&m, at, len / 2);
            protect(&m, region, len);
        }
        set_out(&m);
        for (int move = 0; move < 250; move++) {
            during("a walk, its move", walk, move, 0);
            uint32_t kind = any_below(10);
            bool goes_on = true;
            if (kind < 4)
                goes_on = stepping(&m);
            else if (kind < 6)
                goes_on = running(&m, &copy, any_below(12));
            else
                stepping_back(&m);
            NUMBER(kettle_held(m.block.at), depth);
            if (!goes_on && any_below(3) == 0)
                set_out(&m);
        }
        while (depth > 0)
            stepping_back(&m);
        stepping_back(&m);
        discard(&m);
        discard(&copy);
    }
}
