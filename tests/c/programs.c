/* Programs: loading words, reading memory out. */
#include <string.h>

#include "check.h"

static void loading(void)
{
    struct machine m = machine(16, 0, 46, 0);
    memset(m.memory.at, 0xee, 16);
    NUMBER(load_words(&m, 3, (unsigned[]){0x0501, 0x2503, 0x4484}), KETTLE_ACCEPTED);
    static const uint8_t want[16] = {0x01, 0x05, 0x03, 0x25, 0x84, 0x44, 0xee, 0xee, 0xee, 0xee, 0xee, 0xee, 0xee, 0xee, 0xee, 0xee};
    CHECK(memcmp(m.memory.at, want, 16) == 0);
    /* three words protect bytes 0 to 2 */
    NUMBER(m.block.at[KETTLE_BLOCK_PROTECTED], 1);
    NUMBER(kettle_word(m.block.at + KETTLE_BLOCK_REGIONS), 0);
    NUMBER(kettle_word(m.block.at + KETTLE_BLOCK_REGIONS + 2), 3);
    CHECK(!takes_store(&m, 2) && takes_store(&m, 3));
    discard(&m);
}

static void refused_loads(void)
{
    /* memory too short: what was stored stays, a word's low byte too; the journal is emptied */
    for (size_t len = 0; len < 8; len++) {
        struct machine m = machine(len, 0, 46, 0);
        put_word(m.block.at + KETTLE_BLOCK_NEXT, 1);
        put_word(m.block.at + KETTLE_BLOCK_HELD, 2);
        NUMBER(load_words(&m, 4, (unsigned[]){0x1211, 0x1413, 0x1615, 0x1817}), KETTLE_WRITE_FAILED);
        for (size_t i = 0; i < len; i++)
            NUMBER(m.memory.at[i], 0x11 + i);
        NUMBER(m.block.at[KETTLE_BLOCK_PROTECTED], 0);
        discard(&m);
    }

    /* a protected byte on the way */
    struct machine m = machine(16, 0, 0, 0);
    NUMBER(protect(&m, 3, 1), KETTLE_ACCEPTED);
    NUMBER(load_words(&m, 4, (unsigned[]){0x1211, 0x1413, 0x1615, 0x1817}), KETTLE_WRITE_FAILED);
    CHECK(memcmp(m.memory.at, "\x11\x12\x13\0\0\0\0\0", 8) == 0);
    discard(&m);

    /* stored whole, and then the region overlaps one that denies no store */
    m = machine(16, 0, 46, 0);
    NUMBER(protect(&m, 1, 0), KETTLE_ACCEPTED);
    put_word(m.block.at + KETTLE_BLOCK_NEXT, 1);
    put_word(m.block.at + KETTLE_BLOCK_HELD, 2);
    NUMBER(load_words(&m, 2, (unsigned[]){0x1211, 0x1413}), KETTLE_OVERLAP);
    CHECK(memcmp(m.memory.at, "\x11\x12\x13\x14\0\0\0\0", 8) == 0);
    NUMBER(m.block.at[KETTLE_BLOCK_PROTECTED], 1);
    discard(&m);

    /* a full table */
    m = machine(16, 0, 46, 0);
    for (size_t i = 0; i < 8; i++)
        NUMBER(protect(&m, 100 + i, 1), KETTLE_ACCEPTED);
    put_word(m.block.at + KETTLE_BLOCK_HELD, 2);
    NUMBER(load_words(&m, 1, (unsigned[]){0x1211}), KETTLE_TABLE_FULL);
    NUMBER(load_words(&m, 0, NULL), KETTLE_TABLE_FULL);

    /* odd lengths; 31 before 1 before 16 before 14 */
    struct bytes words = lend(65538);
    NUMBER(load(&m, &words), KETTLE_TOO_LONG);
    for (size_t len = 1; len < 12; len += 2) {
        struct bytes odd = lend(len);
        NUMBER(load(&m, &odd), KETTLE_BAD_BLOCK);
        give_back(&odd);
    }
    m.block.at[KETTLE_BLOCK_PROTECTED] = 9;
    NUMBER(load(&m, &words), KETTLE_BAD_STATE);
    struct bytes odd = lend(65539);
    NUMBER(load(&m, &odd), KETTLE_BAD_BLOCK);
    give_back(&odd);
    give_back(&words);
    discard(&m);
}

static void long_programs(void)
{
    static const size_t counts[] = {32767, 32768, 32769, 32770, 100000};
    for (size_t i = 0; i < sizeof counts / sizeof *counts; i++) {
        size_t n = counts[i];
        during("a program of words", (long)n, 0, 0);
        struct machine m = machine(65536, 0, 23, 0);
        struct bytes words = lend(2 * n);
        for (size_t k = 0; k < 2 * n; k++)
            words.at[k] = (uint8_t)any_below(256);
        read_only(&words);
        NUMBER(load(&m, &words), n <= 32768 ? KETTLE_ACCEPTED : KETTLE_TOO_LONG);
        if (n <= 32768) {
            CHECK(memcmp(m.memory.at, words.at, 2 * n) == 0);
            NUMBER(kettle_word(m.block.at + KETTLE_BLOCK_REGIONS + 2), n);
        }
        discard(&m);
        give_back(&words);
    }
}

/* devices take their part of a program, and show theirs to a reader */
static void through_devices(void)
{
    struct machine m = machine(12, 5, 0, 0);
    memset(m.memory.at, 0x99, 12);
    NUMBER(device(&m, 3, 2), KETTLE_ACCEPTED);
    NUMBER(device(&m, 11, 3), KETTLE_ACCEPTED);
    NUMBER(load_words(&m, 6, (unsigned[]){0x0201, 0x0403, 0x0605, 0x0807, 0x0a09, 0x0c0b}), KETTLE_ACCEPTED);
    CHECK(memcmp(m.memory.at, "\1\2\3\x99\x99\6\7\10\11\12\13\x99", 12) == 0);
    CHECK(memcmp(m.devices.at, "\4\5\14\0\0", 5) == 0);
    m.devices.at[4] = 0x77;

    struct bytes buffer = lend(20);
    memset(buffer.at, 0xcc, 20);
    NUMBER(read_out(&m, 0, 20, &buffer), (uint64_t)14 << 16);
    CHECK(memcmp(buffer.at, "\1\2\3\4\5\6\7\10\11\12\13\14\0\x77\xcc\xcc\xcc\xcc\xcc\xcc", 20) == 0);
    NUMBER(read_out(&m, 14, 4, &buffer), 0);
    NUMBER(read_out(&m, 0, 0, &buffer), 0);
    NUMBER(read_out(&m, 65535, 0, &buffer), 0);
    NUMBER(read_out(&m, 0, 21, &buffer), KETTLE_NO_ROOM);
    NUMBER(read_out(&m, 65530, 6, &buffer), KETTLE_RANGE_OVERFLOW); /* 12 before 19 */
    NUMBER(read_out(&m, 65530, 21, &buffer), KETTLE_RANGE_OVERFLOW);
    m.block.at[KETTLE_BLOCK_DEVICE_COUNT] = 3;
    NUMBER(read_out(&m, 0, 1, &buffer), 0x10000); /* a third device (0, 0), which is valid */
    m.block.at[KETTLE_BLOCK_DEVICE_COUNT] = 9;
    NUMBER(read_out(&m, 65530, 21, &buffer), KETTLE_BAD_STATE);
    give_back(&buffer);
    discard(&m);
}

static void reading_all(void)
{
    struct machine m = machine(70000, 0, 0, 0);
    struct bytes buffer = lend(65535);
    for (size_t i = 0; i < m.memory.len; i++)
        m.memory.at[i] = (uint8_t)any_below(256);
    NUMBER(read_out(&m, 0, 65535, &buffer), (uint64_t)65535 << 16);
    CHECK(memcmp(buffer.at, m.memory.at, 65535) == 0);
    give_back(&buffer);
    struct bytes none = lend(0);
    NUMBER(read_out(&m, 7, 0, &none), 0);
    NUMBER(read_out(&m, 7, 1, &none), KETTLE_NO_ROOM);
    give_back(&none);
    discard(&m);
}

/* random loads and readings against the second reckoning */
static void any_programs(void)
{
    for (int round = 0; round < 1500; round++) {
        size_t memory = any_below(40), devices = any_below(20), journal = any_below(50);
        struct machine m = machine(memory, devices, journal, 0);
        for (int i = 0; i < 4; i++) {
            size_t region = any_below(24), at = any_below(40), size = any_below(8);
            protect(&m, region, size / 2);
            device(&m, at, size);
        }
        struct machine want = machine(memory, devices, journal, 0);
        memcpy(want.block.at, m.block.at, KETTLE_BLOCK_SIZE);
        struct bytes words = lend(any_below(24)), got = lend(any_below(50)), hoped = lend(got.len);
        for (size_t i = 0; i < words.len; i++)
            words.at[i] = (uint8_t)(1 + any_below(255));
        during("a random load", round, (long)words.len, 0);
        NUMBER(load(&m, &words), ref_load(&want, &words));
        CHECK(memcmp(m.block.at, want.block.at, KETTLE_BLOCK_SIZE) == 0);
        CHECK(m.memory.len == 0 || memcmp(m.memory.at, want.memory.at, m.memory.len) == 0);
        CHECK(m.devices.len == 0 || memcmp(m.devices.at, want.devices.at, m.devices.len) == 0);
        size_t start = any_below(50), size = any_below(50);
        NUMBER(read_out(&m, start, size, &got), ref_read(&want, start, size, &hoped));
        CHECK(got.len == 0 || memcmp(got.at, hoped.at, got.len) == 0);
        give_back(&words);
        give_back(&got);
        give_back(&hoped);
        discard(&m);
        discard(&want);
    }
}

void test_programs(void)
{
    loading();
    refused_loads();
    long_programs();
    through_devices();
    reading_all();
    any_programs();
}
