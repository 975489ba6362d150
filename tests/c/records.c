/* The journal's records as a host reads them: each newest one beside what stepping back restores, and the places in it. */
#include <string.h>

#include "check.h"

enum { SIZE = KETTLE_RECORD_SIZE };

/* MOV M, A; ADD A, #1; STB A, B; STR A, C; JMP #0: records of each kind, and other registers in each round */
static const unsigned program[] = {0x00b1, 0x0403, 0x0488, 0x0504, 0x0006};

static struct machine ready(size_t journal)
{
    struct machine m = machine(64, 4, journal, 0);
    NUMBER(device(&m, 50, 1), KETTLE_ACCEPTED);
    NUMBER(load_words(&m, 5, program), KETTLE_ACCEPTED);
    NUMBER(set(&m, KETTLE_B, 40), KETTLE_ACCEPTED);
    NUMBER(set(&m, KETTLE_C, 49), KETTLE_ACCEPTED);
    return m;
}

static struct machine copy_of(const struct machine *m)
{
    struct machine c = machine(m->memory.len, m->devices.len, m->journal.len, 0);
    memcpy(c.block.at, m->block.at, KETTLE_BLOCK_SIZE);
    memcpy(c.memory.at, m->memory.at, m->memory.len);
    memcpy(c.devices.at, m->devices.at, m->devices.len);
    if (m->journal.len > 0)
        memcpy(c.journal.at, m->journal.at, m->journal.len);
    return c;
}

static const uint8_t *record(const struct machine *m, size_t i)
{
    return kettle_record(m->block.at, m->journal.at, m->journal.len, i);
}

/* ---- beside step-backs --------------------------------------------------------------------------------------------------- */

/* the byte that a record names, with its address before it, is there again */
static void old_byte(const struct machine *past, const uint8_t *address, uint8_t old)
{
    bool of_device;
    CHECK(is_mapped(past, kettle_word(address)));
    if (is_mapped(past, kettle_word(address)))
        NUMBER(*ref_byte(past, kettle_word(address), &of_device), old);
}

/* this machine is what it was before the record's step */
static void restored(const struct machine *past, const uint8_t *r)
{
    CHECK(r != NULL);
    if (r == NULL)
        return;
    for (unsigned i = 0; i < 8; i++)
        NUMBER(kettle_record_register(r, (enum kettle_register)i), reg(past, (enum kettle_register)i));
    CHECK(r[KETTLE_RECORD_KIND] <= 2);
    if (r[KETTLE_RECORD_KIND] >= 1)
        old_byte(past, r + KETTLE_RECORD_FIRST_ADDRESS, r[KETTLE_RECORD_FIRST_BYTE]);
    if (r[KETTLE_RECORD_KIND] == 2)
        old_byte(past, r + KETTLE_RECORD_SECOND_ADDRESS, r[KETTLE_RECORD_SECOND_BYTE]);
}

/* Each record that is held is what so many step-backs restore, made on a copy; there is none past them, and looking changes
 * nothing. */
static void look(struct machine *m)
{
    struct machine past = copy_of(m);
    size_t held = kettle_held(m->block.at);
    const size_t none[] = {held, held + 1, KETTLE_RECORD_MOST, 65535, 65536, SIZE_MAX};
    keep_all(m);
    for (size_t i = 0; i < held; i++) {
        NUMBER(kettle_step_back(ALL(&past)), KETTLE_ACCEPTED);
        restored(&past, record(m, i));
    }
    NUMBER(kettle_step_back(ALL(&past)), KETTLE_NOTHING_TO_UNDO);
    for (size_t i = 0; i < sizeof none / sizeof *none; i++)
        CHECK(record(m, none[i]) == NULL);
    CHECK(all_kept(m));
    discard(&past);
}

/* round the journal, some steps back, and on */
static void rounds(size_t journal)
{
    struct machine m = ready(journal);
    uint32_t room = (uint32_t)(journal / SIZE < KETTLE_RECORD_MOST ? journal / SIZE : KETTLE_RECORD_MOST);
    const uint32_t lengths[] = {0, 1, room / 2, room, 2 * room + 1, 3 * room + 2, 1};
    for (size_t i = 0; i < sizeof lengths / sizeof *lengths; i++) {
        during("a journal of length, steps", (long)journal, (long)lengths[i], 0);
        NUMBER(run(&m, lengths[i]), (uint64_t)lengths[i] << 16);
        look(&m);
    }
    NUMBER(kettle_held(m.block.at), room);
    for (uint32_t i = 0; i < room / 3 + 1 && i < room; i++)
        NUMBER(kettle_step_back(ALL(&m)), KETTLE_ACCEPTED);
    look(&m);
    NUMBER(run(&m, 1), (uint64_t)1 << 16);
    look(&m);
    NUMBER(forget(&m), KETTLE_ACCEPTED);
    look(&m);
    discard(&m);
}

/* ---- blocks that are not of their journal -------------------------------------------------------------------------------- */

/* the slot so many before this one */
static size_t slot_before(size_t slot, size_t room, size_t count)
{
    for (size_t k = 0; k < count; k++)
        slot = slot == 0 ? room - 1 : slot - 1;
    return slot;
}

/* a record is there exactly if the state is valid and so many are held */
static void cursor(struct machine *m, unsigned at, unsigned held)
{
    size_t len = m->journal.len, room = len / SIZE < KETTLE_RECORD_MOST ? len / SIZE : KETTLE_RECORD_MOST;
    put_word(m->block.at + KETTLE_BLOCK_NEXT, at);
    put_word(m->block.at + KETTLE_BLOCK_HELD, held);
    bool valid = is_valid(m);
    NUMBER(kettle_run(ALL(m), 0), valid ? KETTLE_ACCEPTED : KETTLE_BAD_STATE);
    const size_t some[] = {0, 1, 2, 3, 4, 5, 6, 7, 4094, 4095, 4096, 4097, 65534, 65535, 65536, SIZE_MAX};
    for (size_t k = 0; k < sizeof some / sizeof *some; k++) {
        size_t i = some[k];
        if (valid && i < held)
            CHECK(record(m, i) == m->journal.at + SIZE * slot_before(at, room, i + 1));
        else
            CHECK(record(m, i) == NULL);
    }
}

static void cursors(size_t journal)
{
    static const unsigned numbers[] = {0, 1, 2, 3, 4, 5, 6, 255, 256, 4095, 4096, 4097, 65535};
    enum { COUNT = sizeof numbers / sizeof *numbers };
    struct machine m = machine(2, 0, journal, 0);
    for (size_t n = 0; n < COUNT; n++)
        for (size_t h = 0; h < COUNT; h++) {
            during("a journal of length, next, held", (long)journal, (long)numbers[n], (long)numbers[h]);
            cursor(&m, numbers[n], numbers[h]);
        }
    discard(&m);
}

/* a journal of which not all is lent any more, in the same place */
static void cut_journals(void)
{
    struct machine m = ready(5 * SIZE);
    NUMBER(run(&m, 3), (uint64_t)3 << 16);
    for (size_t len = 0; len <= m.journal.len; len++)
        for (size_t i = 0; i < 5; i++) {
            during("three records in a journal cut to length", (long)len, (long)i, 0);
            const uint8_t *r = kettle_record(m.block.at, m.journal.at, len, i);
            CHECK(r == (i < 3 && len >= (size_t)4 * SIZE ? m.journal.at + SIZE * (2 - i) : NULL));
        }
    discard(&m);
}

/* ---- the places in a record ---------------------------------------------------------------------------------------------- */

/* one step of this word, with A = 1234 hex and B = 40, over bytes 11, 22 hex: its record, by the names of the header */
static void places(unsigned word, unsigned kind, size_t memory)
{
    struct machine m = machine(memory, 0, SIZE, 0);
    static const unsigned registers[] = {0x1234, 40, 0x2122, 0x3132, 0x4142, 6, 0x6162, 0x7172};
    memset(m.journal.at, 0xdd, SIZE);
    for (unsigned i = 0; i < 8; i++)
        put_register(&m, (enum kettle_register)i, registers[i]);
    put_word(m.memory.at + 6, word);
    memcpy(m.memory.at + 40, "\x11\x22", memory - 40);
    NUMBER(step(&m), KETTLE_ACCEPTED);
    const uint8_t *r = record(&m, 0);
    CHECK(r == m.journal.at);
    NUMBER(m.journal.at[KETTLE_RECORD_KIND], kind);
    for (unsigned i = 0; i < 8; i++) {
        NUMBER(kettle_word(m.journal.at + KETTLE_RECORD_REGISTERS + 2 * i), registers[i]);
        NUMBER(kettle_record_register(m.journal.at, (enum kettle_register)i), registers[i]);
    }
    NUMBER(kettle_word(m.journal.at + KETTLE_RECORD_FIRST_ADDRESS), kind >= 1 ? 40 : 0);
    NUMBER(m.journal.at[KETTLE_RECORD_FIRST_BYTE], kind >= 1 ? 0x11 : 0);
    NUMBER(kettle_word(m.journal.at + KETTLE_RECORD_SECOND_ADDRESS), kind == 2 ? 41 : 0);
    NUMBER(m.journal.at[KETTLE_RECORD_SECOND_BYTE], kind == 2 ? 0x22 : 0);
    discard(&m);
}

static void named_places(void)
{
    NUMBER(KETTLE_RECORD_KIND, 0);
    NUMBER(KETTLE_RECORD_REGISTERS, KETTLE_RECORD_KIND + 1);
    NUMBER(KETTLE_RECORD_FIRST_ADDRESS, KETTLE_RECORD_REGISTERS + 8 * 2);
    NUMBER(KETTLE_RECORD_FIRST_BYTE, KETTLE_RECORD_FIRST_ADDRESS + 2);
    NUMBER(KETTLE_RECORD_SECOND_ADDRESS, KETTLE_RECORD_FIRST_BYTE + 1);
    NUMBER(KETTLE_RECORD_SECOND_BYTE, KETTLE_RECORD_SECOND_ADDRESS + 2);
    NUMBER(KETTLE_RECORD_SIZE, KETTLE_RECORD_SECOND_BYTE + 1);
    NUMBER(KETTLE_RECORD_SIZE, 23);
    NUMBER(KETTLE_RECORD_MOST, 4096);
    places(0x0484, 2, 42); /* STR A, B */
    places(0x0484, 1, 41); /* of which the high byte fails */
    places(0x0488, 1, 42); /* STB A, B */
    places(0x0501, 0, 42); /* MOV A, #5 */
    places(0x0006, 0, 42); /* JMP #0 */
}

void test_records(void)
{
    static const size_t slots[] = {0, 1, 2, 5, 4095, 4096, 4097, 5000};
    for (size_t i = 0; i < sizeof slots / sizeof *slots; i++) {
        rounds(slots[i] * SIZE);
        cursors(slots[i] * SIZE);
        cursors(slots[i] * SIZE + SIZE - 1);
    }
    rounds(6 * SIZE - 1);
    cut_journals();
    named_places();
}
