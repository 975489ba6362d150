/* What a host sets: a register, a protected region, a device. */
#include <string.h>

#include "check.h"

static void registers(void)
{
    struct machine m = machine(0, 0, 0, 0);
    for (size_t r = 0; r < 8; r++) {
        NUMBER(set(&m, r, (uint16_t)(0xfe00 + r)), KETTLE_ACCEPTED);
        for (size_t k = 0; k < 8; k++)
            NUMBER(kettle_register_of(m.block.at, (enum kettle_register)k), k <= r ? 0xfe00 + k : 0);
        CHECK(memcmp(m.block.copy + 16, m.block.at + 16, KETTLE_BLOCK_SIZE - 16) == 0);
    }
    static const size_t none[] = {8, 9, 255, 256, 65535, 65536, 65537, (size_t)1 << 32, SIZE_MAX};
    for (size_t i = 0; i < sizeof none / sizeof *none; i++)
        NUMBER(set(&m, none[i], 5), KETTLE_BAD_REGISTER);
    m.block.at[KETTLE_BLOCK_HELD] = 1;
    NUMBER(set(&m, 8, 5), KETTLE_BAD_STATE);
    discard(&m);
}

/* a range that ends past 65,535 is 12 whatever its numbers are, and none of them is cut to sixteen bits */
static void wide_ranges(void)
{
    static const size_t numbers[] = {0,       1,       2,           65534,         65535,        65536,    65537,
                                     131072, 131073, 0xffffffffu, (size_t)1 << 32, (size_t)1 << 48, SIZE_MAX / 2, SIZE_MAX - 65535,
                                     SIZE_MAX - 1, SIZE_MAX};
    size_t n = sizeof numbers / sizeof *numbers;
    struct bytes buffer = lend(16);
    for (size_t i = 0; i < n; i++)
        for (size_t k = 0; k < n; k++) {
            size_t start = numbers[i], len = numbers[k];
            bool past = start > 65535 || len > 65535 - start;
            during("a range", (long)start, (long)len, 0);
            struct machine m = machine(16, 65535, 0, 0);
            NUMBER(protect(&m, start, len), past ? KETTLE_RANGE_OVERFLOW : KETTLE_ACCEPTED);
            NUMBER(device(&m, start, len), past ? KETTLE_RANGE_OVERFLOW : KETTLE_ACCEPTED);
            if (!past) {
                NUMBER(kettle_word(m.block.at + KETTLE_BLOCK_REGIONS), start);
                NUMBER(kettle_word(m.block.at + KETTLE_BLOCK_REGIONS + 2), len);
                NUMBER(kettle_word(m.block.at + KETTLE_BLOCK_DEVICES), start);
                NUMBER(kettle_word(m.block.at + KETTLE_BLOCK_DEVICES + 2), start + len);
            }
            kettle_fresh(m.block.at, 0);
            uint64_t answer = read_out(&m, start, len, &buffer);
            if (past)
                NUMBER(answer, KETTLE_RANGE_OVERFLOW);
            else if (len > 16)
                NUMBER(answer, KETTLE_NO_ROOM);
            else
                NUMBER(answer, (uint64_t)(start < 16 ? len : 0) << 16);
            discard(&m);
        }
    give_back(&buffer);
}

static void regions(void)
{
    struct machine m = machine(0, 0, 46, 0);
    NUMBER(protect(&m, 10, 10), KETTLE_ACCEPTED);
    NUMBER(protect(&m, 20, 5), KETTLE_ACCEPTED); /* regions may touch */
    NUMBER(protect(&m, 5, 5), KETTLE_ACCEPTED);
    NUMBER(protect(&m, 19, 1), KETTLE_OVERLAP);
    NUMBER(protect(&m, 12, 0), KETTLE_OVERLAP); /* its start lies inside */
    NUMBER(protect(&m, 0, 6), KETTLE_OVERLAP);
    NUMBER(protect(&m, 0, 100), KETTLE_OVERLAP);
    NUMBER(protect(&m, 25, 0), KETTLE_ACCEPTED);
    NUMBER(protect(&m, 25, 0), KETTLE_ACCEPTED); /* nothing lies inside an empty one */
    NUMBER(protect(&m, 24, 2), KETTLE_OVERLAP);
    NUMBER(protect(&m, 25, 1), KETTLE_OVERLAP);
    NUMBER(protect(&m, 65535, 0), KETTLE_ACCEPTED);
    NUMBER(protect(&m, 65534, 1), KETTLE_ACCEPTED);
    NUMBER(protect(&m, 300, 1), KETTLE_ACCEPTED);
    NUMBER(m.block.at[KETTLE_BLOCK_PROTECTED], 8);
    NUMBER(protect(&m, 1, 65535), KETTLE_RANGE_OVERFLOW); /* 12 before 13 before 14 */
    NUMBER(protect(&m, 300, 1), KETTLE_OVERLAP);
    NUMBER(protect(&m, 400, 1), KETTLE_TABLE_FULL);
    discard(&m);
}

static void devices(void)
{
    struct machine m = machine(0, 40, 46, 0);
    NUMBER(device(&m, 100, 16), KETTLE_ACCEPTED);
    NUMBER(device(&m, 116, 1), KETTLE_OVERLAP); /* devices may not touch */
    NUMBER(device(&m, 117, 1), KETTLE_ACCEPTED);
    NUMBER(device(&m, 99, 0), KETTLE_ACCEPTED);
    NUMBER(device(&m, 98, 1), KETTLE_OVERLAP);
    NUMBER(device(&m, 99, 0), KETTLE_OVERLAP);
    NUMBER(device(&m, 100, 24), KETTLE_OVERLAP); /* 13 before 17 */
    NUMBER(device(&m, 200, 24), KETTLE_NO_DEVICE_ROOM);
    NUMBER(device(&m, 200, 23), KETTLE_ACCEPTED);
    NUMBER(device(&m, 300, 1), KETTLE_NO_DEVICE_ROOM);
    for (size_t i = 0; i < 4; i++)
        NUMBER(device(&m, 300 + 2 * i, 0), KETTLE_ACCEPTED);
    NUMBER(m.block.at[KETTLE_BLOCK_DEVICE_COUNT], 8);
    NUMBER(device(&m, 400, 1), KETTLE_TABLE_FULL); /* 14 before 17 */
    NUMBER(device(&m, 306, 0), KETTLE_OVERLAP);
    NUMBER(device(&m, 65535, 1), KETTLE_RANGE_OVERFLOW);
    discard(&m);
}

/* random tables against the second reckoning */
static void any_tables(void)
{
    for (int round = 0; round < 300; round++) {
        size_t room = any_below(100), journal = any_below(70);
        struct machine m = machine(8, room, journal, 0), want = machine(8, room, journal, 0);
        for (int i = 0; i < 40; i++) {
            size_t start = any_below(4) == 0 ? 65500 + any_below(60) : any_below(120), len = any_below(12);
            during("random tables", round, i, (long)start);
            if (any_below(2) == 0)
                NUMBER(protect(&m, start, len), ref_protect(&want, start, len));
            else
                NUMBER(device(&m, start, len), ref_device(&want, start, len));
            CHECK(memcmp(m.block.at, want.block.at, KETTLE_BLOCK_SIZE) == 0);
            CHECK(is_valid(&m));
        }
        discard(&m);
        discard(&want);
    }
}

void test_tables(void)
{
    registers();
    wide_ranges();
    regions();
    devices();
    any_tables();
}
