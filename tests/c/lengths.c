/* Lengths: nothing at all, and gigabytes of which all but the first bytes trap; and pages that can only be read. */
#include <string.h>

#include "check.h"

#define GIGABYTES ((size_t)8 << 30)

/* every buffer of length 0, as NULL and as an address that can't be touched */
static void nothing(void)
{
    struct machine m = machine(0, 0, 0, 0);
    struct bytes none = lend(0);
    NUMBER(step(&m), KETTLE_FETCH_UNMAPPED);
    NUMBER(run(&m, 0), KETTLE_ACCEPTED);
    NUMBER(run(&m, 3), KETTLE_FETCH_UNMAPPED);
    NUMBER(back(&m), KETTLE_NOTHING_TO_UNDO);
    NUMBER(set(&m, KETTLE_A, 1), KETTLE_ACCEPTED);
    NUMBER(protect(&m, 0, 0), KETTLE_ACCEPTED);
    NUMBER(device(&m, 0, 0), KETTLE_ACCEPTED);
    NUMBER(device(&m, 7, 1), KETTLE_NO_DEVICE_ROOM);
    NUMBER(forget(&m), KETTLE_ACCEPTED);
    NUMBER(load(&m, &none), KETTLE_ACCEPTED);
    NUMBER(load_words(&m, 1, (unsigned[]){1}), KETTLE_WRITE_FAILED);
    NUMBER(read_out(&m, 0, 0, &none), 0);
    NUMBER(read_out(&m, 0, 1, &none), KETTLE_NO_ROOM);
    NUMBER(assemble(&none, 1, &none), 0);
    NUMBER(list(&none, &none), KETTLE_NO_ROOM);
    NUMBER(text_of(&none, &none), 0);
    discard(&m);
    m = machine(0, 0, 0, 0);
    give_back(&m.block);
    m.block = lend(0);
    NUMBER(step(&m), KETTLE_BAD_BLOCK);
    NUMBER(forget(&m), KETTLE_BAD_BLOCK);
    discard(&m);
    give_back(&none);
}

/* Words that are too many, or of odd length, are not looked at, and of a long buffer only the text's bytes are written. */
static void huge_sources(const struct bytes *too_many, const struct bytes *odd)
{
    struct bytes out = lend_huge(8, GIGABYTES), none = lend_huge(0, GIGABYTES), words = lend(4);
    NUMBER(kettle_text(odd->at, odd->len, none.at, none.len), KETTLE_BAD_BLOCK);
    NUMBER(kettle_text(too_many->at, too_many->len, none.at, none.len), KETTLE_TOO_LONG);
    NUMBER(kettle_text(words.at, words.len, out.at, out.len), (uint64_t)8 << 16);
    CHECK(memcmp(out.at, "DBG\nDBG\n", 8) == 0);
    NUMBER(kettle_text(NULL, 0, none.at, none.len), 0);
    words.at[3] = 1;
    NUMBER(kettle_text(words.at, words.len, none.at, none.len), KETTLE_NO_TEXT | (uint64_t)1 << 16);
    give_back(&out);
    give_back(&none);
    give_back(&words);
}

/* Memory past 65,535 and the journal past 4,096 records are never touched, devices only where they have bytes. */
static void huge_buffers(void)
{
    struct bytes block = lend(KETTLE_BLOCK_SIZE), memory = lend_huge(65536, GIGABYTES), devices = lend_huge(10, GIGABYTES);
    struct bytes journal = lend_huge((size_t)KETTLE_RECORD_MOST * KETTLE_RECORD_SIZE, GIGABYTES), words = lend(65536);
    struct bytes too_many = lend_huge(0, GIGABYTES), odd = lend_huge(0, GIGABYTES - 1);
#define HUGE_ONES block.at, block.len, memory.at, memory.len, devices.at, devices.len, journal.at, journal.len
#define HUGE_TABLES block.at, block.len, devices.at, devices.len, journal.at, journal.len
    kettle_fresh(block.at, 0);
    NUMBER(kettle_load(HUGE_ONES, too_many.at, too_many.len), KETTLE_TOO_LONG);
    NUMBER(kettle_load(HUGE_ONES, odd.at, odd.len), KETTLE_BAD_BLOCK);
    NUMBER(kettle_device(HUGE_TABLES, 60000, 10), KETTLE_ACCEPTED);
    NUMBER(kettle_protect(HUGE_TABLES, 65000, 535), KETTLE_ACCEPTED);
    NUMBER(kettle_set_register(HUGE_TABLES, KETTLE_A, 9), KETTLE_ACCEPTED);
    NUMBER(kettle_forget(HUGE_TABLES), KETTLE_ACCEPTED);
    NUMBER(kettle_load(HUGE_ONES, words.at, 65000), KETTLE_ACCEPTED);
    /* all of memory, NOOP by NOOP, and the journal once round and on */
    NUMBER(kettle_run(HUGE_ONES, 100000), KETTLE_PC_OVERFLOW | (uint64_t)32767 << 16);
    NUMBER(kettle_held(block.at), KETTLE_RECORD_MOST);
    NUMBER(kettle_word(block.at + KETTLE_BLOCK_NEXT), 32767 % KETTLE_RECORD_MOST);
    NUMBER(kettle_step(HUGE_ONES), KETTLE_PC_OVERFLOW);
    put_word(block.at + 2 * KETTLE_PC, 65535);
    NUMBER(kettle_step(HUGE_ONES), KETTLE_ADDRESS_OVERFLOW);
    for (unsigned i = 0; i < KETTLE_RECORD_MOST; i++)
        NUMBER(kettle_step_back(HUGE_ONES), KETTLE_ACCEPTED);
    NUMBER(kettle_step_back(HUGE_ONES), KETTLE_NOTHING_TO_UNDO);
    struct bytes buffer = lend_huge(65535, GIGABYTES);
    NUMBER(kettle_read(HUGE_ONES, 0, 65535, buffer.at, buffer.len), (uint64_t)65535 << 16);
    NUMBER(kettle_read(HUGE_ONES, 0, 65536, buffer.at, buffer.len), KETTLE_RANGE_OVERFLOW);
    NUMBER(kettle_read(HUGE_ONES, 0, GIGABYTES, buffer.at, buffer.len), KETTLE_RANGE_OVERFLOW);

    /* a block of gigabytes is none, and is not looked at */
    struct bytes no_block = lend_huge(0, GIGABYTES);
    NUMBER(kettle_step(no_block.at, no_block.len, NULL, 0, NULL, 0, NULL, 0), KETTLE_BAD_BLOCK);
    NUMBER(kettle_run(no_block.at, no_block.len, NULL, 0, NULL, 0, NULL, 0, 1), KETTLE_BAD_BLOCK);
    NUMBER(kettle_step_back(no_block.at, no_block.len, NULL, 0, NULL, 0, NULL, 0), KETTLE_BAD_BLOCK);
    NUMBER(kettle_load(no_block.at, no_block.len, NULL, 0, NULL, 0, NULL, 0, NULL, 0), KETTLE_BAD_BLOCK);
    NUMBER(kettle_read(no_block.at, no_block.len, NULL, 0, NULL, 0, NULL, 0, 0, 0, NULL, 0), KETTLE_BAD_BLOCK);
    NUMBER(kettle_set_register(no_block.at, no_block.len, NULL, 0, NULL, 0, 0, 0), KETTLE_BAD_BLOCK);
    NUMBER(kettle_protect(no_block.at, no_block.len, NULL, 0, NULL, 0, 0, 0), KETTLE_BAD_BLOCK);
    NUMBER(kettle_device(no_block.at, no_block.len, NULL, 0, NULL, 0, 0, 0), KETTLE_BAD_BLOCK);
    NUMBER(kettle_forget(no_block.at, no_block.len, NULL, 0, NULL, 0), KETTLE_BAD_BLOCK);

    /* a text over 65,536 bytes is not read by the listing; the words of odd length are not touched */
    struct bytes text = lend_huge(0, GIGABYTES), out = lend_huge(18, GIGABYTES);
    NUMBER(kettle_list(text.at, text.len, out.at, out.len), (uint64_t)18 << 16);
    CHECK(memcmp(out.at, "refused 19 line 0\n", 18) == 0);
    NUMBER(kettle_assemble(text.at, text.len, 1, odd.at, odd.len), KETTLE_BAD_BLOCK);
    huge_sources(&too_many, &odd);

    struct bytes *all[] = {&block, &memory, &devices, &journal, &words, &too_many, &odd, &buffer, &no_block, &text, &out};
    for (size_t i = 0; i < sizeof all / sizeof *all; i++)
        give_back(all[i]);
}

/* What an entry does not write may stand in pages that can only be read: a write of the same byte would trap too. */
static void pages_to_read(void)
{
    struct machine m = machine(64, 8, 2 * KETTLE_RECORD_SIZE, 0);
    struct bytes words = lend(8), buffer = lend(64);
    NUMBER(device(&m, 60, 8), KETTLE_ACCEPTED);
    NUMBER(run(&m, 1), 0x10000);
    read_only(&m.journal);
    read_only(&words);
    NUMBER(back(&m), KETTLE_ACCEPTED);
    NUMBER(load(&m, &words), KETTLE_ACCEPTED);
    read_only(&m.devices);
    read_only(&m.memory);
    NUMBER(set(&m, KETTLE_A, 1), KETTLE_ACCEPTED);
    NUMBER(protect(&m, 32, 1), KETTLE_ACCEPTED);
    NUMBER(device(&m, 32, 0), KETTLE_ACCEPTED);
    NUMBER(forget(&m), KETTLE_ACCEPTED);
    NUMBER(run(&m, 0), KETTLE_ACCEPTED);
    read_only(&m.block);
    NUMBER(read_out(&m, 0, 64, &buffer), (uint64_t)64 << 16);
    NUMBER(text_of(&words, &buffer), (uint64_t)16 << 16);
    read_only(&buffer); /* now a refusal may not write there either */
    NUMBER(kettle_text(words.at, words.len, buffer.at, 15), KETTLE_NO_ROOM);
    NUMBER(kettle_text(words.at, 7, buffer.at, 64), KETTLE_BAD_BLOCK);
    discard(&m);
    give_back(&words);
    give_back(&buffer);

    /* a refusal, and Stop, write nothing anywhere */
    m = machine(64, 8, 2 * KETTLE_RECORD_SIZE, 0);
    m.block.at[KETTLE_BLOCK_PROTECTED] = 9;
    m.memory.at[0] = 1;
    words = lend(8);
    read_only(&m.memory);
    read_only(&m.devices);
    read_only(&m.journal);
    NUMBER(step(&m), KETTLE_BAD_STATE);
    NUMBER(run(&m, 3), KETTLE_BAD_STATE);
    NUMBER(back(&m), KETTLE_BAD_STATE);
    NUMBER(load(&m, &words), KETTLE_BAD_STATE);
    m.block.at[KETTLE_BLOCK_PROTECTED] = 0;
    put_register(&m, KETTLE_FLAGS, 1);
    NUMBER(step(&m), KETTLE_STOP);
    NUMBER(run(&m, 3), KETTLE_STOP);
    put_register(&m, KETTLE_FLAGS, 0);
    put_register(&m, KETTLE_PC, 65535);
    NUMBER(step(&m), KETTLE_FETCH_UNMAPPED);
    give_back(&words);
    discard(&m);
}

/* Buffers that a call does not write may be one and the same. */
static void one_buffer(void)
{
    struct machine m = machine(64, 46, 46, 0);
    struct bytes one = lend(46), buffer = lend(60);
    for (size_t i = 0; i < one.len; i++)
        one.at[i] = (uint8_t)(i + 1);
    read_only(&one);
#define ONE one.at, one.len
    NUMBER(kettle_device(BLOCK(&m), ONE, ONE, 50, 4), KETTLE_ACCEPTED);
    NUMBER(kettle_protect(BLOCK(&m), ONE, ONE, 30, 3), KETTLE_ACCEPTED);
    NUMBER(kettle_set_register(BLOCK(&m), ONE, ONE, KETTLE_A, 3), KETTLE_ACCEPTED);
    NUMBER(kettle_forget(BLOCK(&m), ONE, ONE), KETTLE_ACCEPTED);
    NUMBER(kettle_read(BLOCK(&m), ONE, ONE, ONE, 0, 60, buffer.at, buffer.len), (uint64_t)46 << 16);
    CHECK(memcmp(buffer.at, one.at, 46) == 0);
    NUMBER(kettle_read(BLOCK(&m), ONE, ONE, ONE, 50, 4, buffer.at, buffer.len), (uint64_t)4 << 16);
    CHECK(memcmp(buffer.at, "\1\2\3\4", 4) == 0);
    /* the words of a load in its journal, which stays */
    NUMBER(kettle_load(BLOCK(&m), m.memory.at, m.memory.len, m.devices.at, m.devices.len, ONE, one.at, 8), KETTLE_ACCEPTED);
    CHECK(memcmp(m.memory.at, one.at, 8) == 0);
    give_back(&one);
    give_back(&buffer);
    discard(&m);
}

void test_lengths(void)
{
    nothing();
    one_buffer();
    huge_buffers();
    pages_to_read();
}
