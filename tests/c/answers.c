/* Answers and blocks: what the header reads off them, and 31 for what is no block. */
#include <string.h>

#include "check.h"

static void blocks(void)
{
    uint8_t block[KETTLE_BLOCK_SIZE];
    memset(block, 0xcc, sizeof block);
    kettle_fresh(block, 0);
    CHECK(all_are(block, sizeof block, 0));
    kettle_fresh(block, 7);
    NUMBER(block[KETTLE_BLOCK_DEBUG], 1);
    block[KETTLE_BLOCK_DEBUG] = 0;
    CHECK(all_are(block, sizeof block, 0));

    for (size_t i = 0; i < sizeof block; i++)
        block[i] = (uint8_t)(i + 1);
    NUMBER(kettle_word(block), 0x0201);
    NUMBER(kettle_register_of(block, KETTLE_A), 0x0201);
    NUMBER(kettle_register_of(block, KETTLE_B), 0x0403);
    NUMBER(kettle_register_of(block, KETTLE_C), 0x0605);
    NUMBER(kettle_register_of(block, KETTLE_M), 0x0807);
    NUMBER(kettle_register_of(block, KETTLE_SP), 0x0a09);
    NUMBER(kettle_register_of(block, KETTLE_PC), 0x0c0b);
    NUMBER(kettle_register_of(block, KETTLE_BP), 0x0e0d);
    NUMBER(kettle_register_of(block, KETTLE_FLAGS), 0x100f);
    NUMBER(kettle_held(block), 0x5756);
    memset(block, 0xff, sizeof block);
    NUMBER(kettle_register_of(block, KETTLE_FLAGS), 65535);
    NUMBER(kettle_held(block), 65535);
}

/* ---- answers by their meaning -------------------------------------------------------------------------------------------- */

/* what is counted above a code: of an accepted assembly words, open references and labels, of a refused one the line alone; of
 * other accepted calls bytes, of 33 a word's index */
static void made_up(void)
{
    static const uint64_t above[] = {0, 1, 0xffff, 0x10000, 0xfedcba987654u, 0xffffffffffffu};
    for (size_t i = 0; i < sizeof above / sizeof *above; i++)
        for (unsigned code = 0; code < 65536; code++) {
            during("a made-up answer", (long)code, (long)above[i], 0);
            uint64_t answer = above[i] << 16 | code;
            bool good = code == 0;
            NUMBER(kettle_code_of(answer), code);
            NUMBER(kettle_line(answer), good ? 0 : above[i]);
            NUMBER(kettle_words(answer), good ? above[i] % 65536 : 0);
            NUMBER(kettle_words_len(answer), good ? above[i] % 65536 * 2 : 0);
            NUMBER(kettle_open_references(answer), good ? above[i] / 65536 % 65536 : 0);
            NUMBER(kettle_labels(answer), good ? above[i] / 65536 / 65536 : 0);
            NUMBER(kettle_bytes(answer), good ? above[i] : 0);
            NUMBER(kettle_index(answer), code == KETTLE_NO_TEXT ? above[i] : 0);
            NUMBER(kettle_steps(answer), above[i] % ((uint64_t)1 << 32));
        }
}

/* a text, and what its answer counts: a host that forgets to look at the code loads nothing of a refused one */
static void counted(const char *source, unsigned code, uint64_t line, unsigned words, unsigned open, unsigned labels)
{
    struct bytes text = lend_text(source), room = lend(4);
    struct machine m = machine(64, 0, 0, 0);
    during(source, (long)code, 0, 0);
    uint64_t answer = assemble(&text, 1, &room);
    NUMBER(kettle_code_of(answer), code);
    NUMBER(kettle_line(answer), line);
    NUMBER(kettle_words(answer), words);
    NUMBER(kettle_words_len(answer), 2 * words);
    NUMBER(kettle_open_references(answer), open);
    NUMBER(kettle_labels(answer), labels);
    memset(m.memory.at, 0xdd, m.memory.len);
    NUMBER(kettle_load(ALL(&m), room.at, kettle_words_len(answer)), KETTLE_ACCEPTED);
    CHECK(all_are(m.memory.at + 2 * words, m.memory.len - 2 * words, 0xdd));
    NUMBER(kettle_word(m.block.at + KETTLE_BLOCK_REGIONS + 2), words);
    give_back(&text);
    give_back(&room);
    discard(&m);
}

static void assemblies(void)
{
    counted("", KETTLE_ACCEPTED, 0, 0, 0, 0);
    counted("a:\nMOV A, #1\nb:\nJMP a\nc:", KETTLE_ACCEPTED, 0, 2, 0, 3);
    counted("JMP b\nJMP a\n", KETTLE_ACCEPTED, 0, 2, 2, 0);
    counted("MOV A, #1\nMOV X, #1\n", KETTLE_INVALID_REGISTER, 2, 0, 0, 0);
    counted("MOV A, #1\n\nADD A\n", KETTLE_INVALID_OPERANDS, 3, 0, 0, 0);
    counted("FOO\n", KETTLE_INVALID_INSTRUCTION, 1, 0, 0, 0);
    counted("a:\nJMP b\nMOV A, #x\n", KETTLE_INVALID_IMMEDIATE, 3, 0, 0, 0);
    counted("a:\n\n\n\x80\n", KETTLE_NOT_ASCII, 4, 0, 0, 0);
    counted("DBG\na:\nDBG\nDBG\n", KETTLE_PROGRAM_FULL, 4, 0, 0, 0);
    counted("a:\nMOV A, #256\n", KETTLE_FIELD_TOO_WIDE, 2, 0, 0, 0);
    counted("a:\nJMP b\n\nCJP A\n", KETTLE_NOT_DECODABLE, 4, 0, 0, 0);

    /* of words that have an odd length nothing is counted, not even a line */
    struct bytes text = lend_text("DBG\nFOO\n"), odd = lend(3);
    uint64_t answer = assemble(&text, 0, &odd);
    NUMBER(answer, KETTLE_BAD_BLOCK);
    NUMBER(kettle_line(answer), 0);
    NUMBER(kettle_words_len(answer), 0);
    give_back(&text);
    give_back(&odd);
}

/* steps of a run that was accepted, stopped and refused; bytes that were read, listed, printed and written as text, or not */
static void runs_and_buffers(void)
{
    struct machine m = machine(6, 0, 0, 0);
    struct bytes buffer = lend(20), text = lend_text("RET");
    during("steps and bytes", 0, 0, 0);
    NUMBER(kettle_steps(run(&m, 0)), 0);
    NUMBER(kettle_steps(run(&m, 2)), 2);
    NUMBER(kettle_steps(run(&m, 9)), 1);
    NUMBER(kettle_code_of(run(&m, 9)), KETTLE_FETCH_UNMAPPED);
    put_register(&m, KETTLE_FLAGS, KETTLE_FLAG_HALT);
    NUMBER(run(&m, 9), KETTLE_STOP);
    NUMBER(kettle_bytes(read_out(&m, 0, 20, &buffer)), 6);
    NUMBER(kettle_bytes(read_out(&m, 4, 1, &buffer)), 1);
    NUMBER(kettle_bytes(read_out(&m, 0, 21, &buffer)), 0);
    NUMBER(kettle_bytes(print(0x001b, &buffer)), 3);
    NUMBER(kettle_bytes(print(0x000c, &buffer)), 0);
    NUMBER(kettle_bytes(list(&text, &buffer)), 0);
    give_back(&buffer);
    buffer = lend(29);
    NUMBER(kettle_bytes(list(&text, &buffer)), strlen("0000 001B RET\nwords 1 open 0\n"));
    struct bytes words = lend(4);
    NUMBER(kettle_bytes(text_of(&words, &buffer)), strlen("DBG\nDBG\n"));
    NUMBER(kettle_index(text_of(&words, &buffer)), 0);
    words.at[2] = 12;
    NUMBER(kettle_bytes(text_of(&words, &buffer)), 0); /* the index is no count of bytes */
    NUMBER(kettle_index(text_of(&words, &buffer)), 1);
    give_back(&words);
    give_back(&buffer);
    give_back(&text);
    discard(&m);
}

/* ---- the paper's numbers, their names and texts -------------------------------------------------------------------------- */

#define ROW(code) {code, #code}
static const struct {
    unsigned number;
    const char *name;
} codes[] = {
    ROW(KETTLE_ACCEPTED), ROW(KETTLE_BAD_STATE), ROW(KETTLE_FETCH_UNMAPPED), ROW(KETTLE_ADDRESS_OVERFLOW), ROW(KETTLE_BAD_OPCODE),
    ROW(KETTLE_BAD_COMPARE), ROW(KETTLE_BAD_ARITH), ROW(KETTLE_ARITH_OVERFLOW), ROW(KETTLE_DIVIDE_BY_ZERO),
    ROW(KETTLE_PC_OVERFLOW), ROW(KETTLE_NOTHING_TO_UNDO), ROW(KETTLE_BAD_JOURNAL), ROW(KETTLE_RANGE_OVERFLOW),
    ROW(KETTLE_OVERLAP), ROW(KETTLE_TABLE_FULL), ROW(KETTLE_WRITE_FAILED), ROW(KETTLE_TOO_LONG), ROW(KETTLE_NO_DEVICE_ROOM),
    ROW(KETTLE_BAD_REGISTER), ROW(KETTLE_NO_ROOM), ROW(KETTLE_INVALID_REGISTER), ROW(KETTLE_INVALID_OPERANDS),
    ROW(KETTLE_INVALID_INSTRUCTION), ROW(KETTLE_INVALID_FORMAT), ROW(KETTLE_INVALID_IMMEDIATE), ROW(KETTLE_UNRESOLVED_LABEL),
    ROW(KETTLE_NOT_ASCII), ROW(KETTLE_TOO_MANY_LABELS), ROW(KETTLE_TOO_MANY_FIXUPS), ROW(KETTLE_PROGRAM_FULL),
    ROW(KETTLE_FIELD_TOO_WIDE), ROW(KETTLE_BAD_BLOCK), ROW(KETTLE_NOT_DECODABLE), ROW(KETTLE_NO_TEXT), ROW(KETTLE_DEBUG),
    ROW(KETTLE_STOP)};

enum { CODES = sizeof codes / sizeof *codes };

static void numbers(void)
{
    during("the paper's numbers", 0, 0, 0);
    for (unsigned i = 0; i < CODES; i++)
        NUMBER(codes[i].number, i < 34 ? i : 256 + i - 34);
    NUMBER(CODES, 36);
    static const unsigned registers[] = {KETTLE_A, KETTLE_B, KETTLE_C, KETTLE_M, KETTLE_SP, KETTLE_PC, KETTLE_BP, KETTLE_FLAGS};
    for (unsigned i = 0; i < 8; i++)
        NUMBER(registers[i], i);
    NUMBER(KETTLE_FLAG_HALT, 1);
    NUMBER(KETTLE_FLAG_REMAINDER, 2);
    NUMBER(KETTLE_FLAG_FAILED, 4);
    NUMBER(KETTLE_FLAG_TRUE, 8);
    NUMBER(KETTLE_VERSION, 10000 * KETTLE_VERSION_MAJOR + 100 * KETTLE_VERSION_MINOR + KETTLE_VERSION_PATCH);
    NUMBER(kettle_version(), KETTLE_VERSION);
}

/* a number that is none has the name ? and a text of its own */
static void no_code(unsigned number)
{
    during("no code", (long)number, 0, 0);
    CHECK(strcmp(kettle_code_name(number), "?") == 0);
    CHECK(strcmp(kettle_code_text(number), "not a code of this library") == 0);
}

static void names_and_texts(void)
{
    for (unsigned i = 0; i < CODES; i++) {
        const char *text = kettle_code_text(codes[i].number);
        during("the code", (long)codes[i].number, 0, 0);
        CHECK(strcmp(kettle_code_name(codes[i].number), codes[i].name) == 0);
        CHECK(text[0] != 0 && strcmp(text, kettle_code_text(65535)) != 0);
        for (unsigned k = 0; k < i; k++)
            CHECK(strcmp(text, kettle_code_text(codes[k].number)) != 0);
    }
    for (unsigned number = 34; number < 65536; number++)
        if (number != 256 && number != 257)
            no_code(number);
    no_code(65536);
    no_code(65536 + KETTLE_BAD_STATE);
    no_code(0u - 1);
}

/* ---- a block ------------------------------------------------------------------------------------------------------------- */

static void layout(void)
{
    NUMBER(KETTLE_BLOCK_REGISTERS, 0);
    NUMBER(KETTLE_BLOCK_DEBUG, 16);
    NUMBER(KETTLE_BLOCK_PROTECTED, KETTLE_BLOCK_DEBUG + 1);
    NUMBER(KETTLE_BLOCK_REGIONS, KETTLE_BLOCK_PROTECTED + 1);
    NUMBER(KETTLE_BLOCK_DEVICE_COUNT, KETTLE_BLOCK_REGIONS + 8 * 4);
    NUMBER(KETTLE_BLOCK_DEVICES, KETTLE_BLOCK_DEVICE_COUNT + 1);
    NUMBER(KETTLE_BLOCK_NEXT, KETTLE_BLOCK_DEVICES + 8 * 4);
    NUMBER(KETTLE_BLOCK_HELD, KETTLE_BLOCK_NEXT + 2);
    NUMBER(KETTLE_BLOCK_SIZE, KETTLE_BLOCK_HELD + 2);

    /* what the entries write stands where the header says */
    struct machine m = machine(64, 8, 46, 1);
    NUMBER(protect(&m, 0x0102, 0x0304), KETTLE_ACCEPTED);
    NUMBER(protect(&m, 0x1112, 0), KETTLE_ACCEPTED);
    NUMBER(device(&m, 0x2122, 5), KETTLE_ACCEPTED);
    NUMBER(set(&m, KETTLE_C, 0x3132), KETTLE_ACCEPTED);
    NUMBER(step(&m), KETTLE_DEBUG);
    uint8_t want[KETTLE_BLOCK_SIZE] = {0, 0, 0, 0, 0x32, 0x31, 0, 0, 0, 0, 2};
    want[16] = 1;
    want[17] = 2;
    put_word(want + 18, 0x0102);
    put_word(want + 20, 0x0304);
    put_word(want + 22, 0x1112);
    want[50] = 1;
    put_word(want + 51, 0x2122);
    put_word(want + 53, 0x2127);
    want[83] = 1;
    want[85] = 1;
    CHECK(memcmp(m.block.at, want, sizeof want) == 0);
    discard(&m);
}

/* ---- what is no block ---------------------------------------------------------------------------------------------------- */

/* every entry with a block of this length, or of this debug byte: 31, and nothing changes */
static void no_block(struct machine *m)
{
    struct bytes words = lend(4), buffer = lend(8);
    keep(&buffer);
    NUMBER(step(m), KETTLE_BAD_BLOCK);
    NUMBER(run(m, 0), KETTLE_BAD_BLOCK);
    NUMBER(run(m, 9), KETTLE_BAD_BLOCK);
    NUMBER(back(m), KETTLE_BAD_BLOCK);
    NUMBER(set(m, 0, 1), KETTLE_BAD_BLOCK);
    NUMBER(set(m, 8, 1), KETTLE_BAD_BLOCK);
    NUMBER(protect(m, 0, 1), KETTLE_BAD_BLOCK);
    NUMBER(protect(m, SIZE_MAX, SIZE_MAX), KETTLE_BAD_BLOCK);
    NUMBER(device(m, 0, 1), KETTLE_BAD_BLOCK);
    NUMBER(device(m, SIZE_MAX, SIZE_MAX), KETTLE_BAD_BLOCK);
    NUMBER(forget(m), KETTLE_BAD_BLOCK);
    NUMBER(load(m, &words), KETTLE_BAD_BLOCK);
    NUMBER(read_out(m, 0, 8, &buffer), KETTLE_BAD_BLOCK);
    NUMBER(read_out(m, 0, 9, &buffer), KETTLE_BAD_BLOCK);
    CHECK(kept(&buffer));
    give_back(&words);
    give_back(&buffer);
}

static void block_lengths(void)
{
    static const size_t lengths[] = {0, 1, 16, 17, 86, 88, 95, 174, 65536 + 87};
    struct machine m = machine(64, 8, 46, 0);
    for (size_t i = 0; i < sizeof lengths / sizeof *lengths; i++) {
        during("a block of length", (long)lengths[i], 0, 0);
        give_back(&m.block);
        m.block = lend(lengths[i]);
        no_block(&m);
    }
    discard(&m);
}

static void debug_bytes(void)
{
    for (int value = 2; value < 256; value++) {
        during("the debug byte", value, 0, 0);
        struct machine m = machine(8, 8, 23, 0);
        m.block.at[KETTLE_BLOCK_DEBUG] = (uint8_t)value;
        no_block(&m);
        /* 31 comes before 1 */
        m.block.at[KETTLE_BLOCK_PROTECTED] = 9;
        no_block(&m);
        discard(&m);
    }
}

void test_answers(void)
{
    blocks();
    made_up();
    assemblies();
    runs_and_buffers();
    numbers();
    names_and_texts();
    layout();
    block_lengths();
    debug_bytes();
}
