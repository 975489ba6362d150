/*
 * stack.c: how much stack each entry takes. Each is called on a stack of its own, painted before, over inputs that go as deep as
 * any: every instruction, every mnemonic and form of operand, full tables, the largest texts, programs and buffers. Prints the
 * bytes of each, and fails where they are more than the header's KETTLE_STACK_ numbers. (What is reserved without being touched is
 * not seen here; tests/c/frames reads that off the machine code.)
 */
#define _GNU_SOURCE
#include <stdio.h>
#include <stdlib.h>
#include <string.h>
#include <ucontext.h>

#include "seamkettle.h"

enum { STACK = 1 << 20, PAINT = 0x5a, TEXT_MOST = 1 << 18 };

static uint8_t stack[STACK] __attribute__((aligned(16)));
static uint8_t block[KETTLE_BLOCK_SIZE], memory[65536], devices[4096], journal[KETTLE_RECORD_SIZE * KETTLE_RECORD_MOST],
    words[65540], text[TEXT_MOST], out[KETTLE_LISTING_MOST], buffer[65536];
static size_t text_len;
static ucontext_t here, there;
static uint64_t sink;

#define MACHINE block, sizeof block, memory, sizeof memory, devices, sizeof devices, journal, sizeof journal
#define TABLES block, sizeof block, devices, sizeof devices, journal, sizeof journal

/* The calls are made on the painted stack, what they need is prepared on the usual one. */
static size_t stack_of(void (*prepare)(void), void (*calls)(void))
{
    if (prepare)
        prepare();
    memset(stack, PAINT, sizeof stack);
    getcontext(&there);
    there.uc_stack.ss_sp = stack;
    there.uc_stack.ss_size = sizeof stack;
    there.uc_link = &here;
    makecontext(&there, calls, 0);
    swapcontext(&here, &there);
    size_t free_bytes = 0;
    while (free_bytes < sizeof stack && stack[free_bytes] == PAINT)
        free_bytes++;
    return sizeof stack - free_bytes;
}

/* ---- machines -------------------------------------------------------------------------------------------------------------- */

/* eight devices and so many regions */
static void add_tables(unsigned regions)
{
    for (unsigned i = 0; i < 8; i++)
        sink += kettle_device(TABLES, 50000 + 600 * i, 500);
    for (unsigned i = 0; i < regions; i++)
        sink += kettle_protect(TABLES, 40000 + 100 * i, 50);
}

static void full_machine(int debug, unsigned regions)
{
    kettle_fresh(block, debug);
    add_tables(regions);
}

static void put_register(enum kettle_register r, unsigned value)
{
    block[2 * r] = (uint8_t)value;
    block[2 * r + 1] = (uint8_t)(value >> 8);
}

/* every word at 0, on registers that make stores succeed, fail and meet a device */
static void all_words(uint64_t (*call)(void))
{
    static const unsigned places[] = {0, 100, 39999, 40010, 50000, 50499, 54700, 65534, 65535};
    static uint8_t fresh[KETTLE_BLOCK_SIZE];
    memcpy(fresh, block, sizeof block);
    for (unsigned p = 0; p < sizeof places / sizeof *places; p++)
        for (unsigned word = 0; word < 65536; word++) {
            memcpy(block, fresh, sizeof block);
            for (unsigned r = 0; r < 8; r++)
                put_register((enum kettle_register)r,
                             r == KETTLE_PC ? 0 : r == KETTLE_FLAGS ? (p & 1 ? 10 : 0) : places[(p + r) % 9]);
            memory[0] = (uint8_t)word;
            memory[1] = (uint8_t)(word >> 8);
            sink += call();
        }
}

static void full(void) { full_machine(1, 8); }
static void empty(void) { kettle_fresh(block, 0); }
static uint64_t step_once(void) { return kettle_step(MACHINE); }
static uint64_t run_three(void) { return kettle_run(MACHINE, 3); }

/* three records, of a word, of a byte and of nothing stored: STR A, [B #0] and STB A, [C #0] and MOV A, #0 */
static void three_steps(void)
{
    static const uint8_t program[] = {0x84, 0x04, 0x08, 0x05, 0x01, 0x00};
    kettle_fresh(block, 0);
    sink += kettle_load(MACHINE, program, sizeof program);
    add_tables(7);
    sink += kettle_set_register(TABLES, KETTLE_B, 50000) + kettle_set_register(TABLES, KETTLE_C, 30000);
    if (kettle_run(MACHINE, 3) != (uint64_t)3 << 16)
        abort();
}

static void nothing(void) { sink++; }
static void steps(void) { all_words(step_once); }
static void runs(void) { all_words(run_three); }

static void steps_back(void)
{
    for (unsigned i = 0; i < 4; i++)
        sink += kettle_step_back(MACHINE);
    sink += kettle_step_back(block, 1, memory, 0, devices, 0, journal, 0);
}

static void loads(void)
{
    for (size_t n = 0; n < sizeof words; n += n < 64 ? 1 : 4093) {
        full_machine(0, 7);
        sink += kettle_load(MACHINE, words, n);
    }
    full_machine(0, 0);
    sink += kettle_load(MACHINE, words, 65536);
    full_machine(0, 0);
    sink += kettle_load(MACHINE, words, 65538) + kettle_load(MACHINE, words, 65540);
}

static void registers(void)
{
    for (size_t number = 0; number < 10; number++)
        sink += kettle_set_register(TABLES, number, 65535);
}

static void tables(uint64_t (*add)(uint8_t *, size_t, const uint8_t *, size_t, const uint8_t *, size_t, size_t, size_t))
{
    static const size_t numbers[] = {0, 1, 50, 500, 40020, 50600, 65534, 65535, 65536, (size_t)-1};
    for (unsigned i = 0; i < 10; i++)
        for (unsigned j = 0; j < 10; j++)
            sink += add(TABLES, numbers[i], numbers[j]);
}

static void regions(void) { tables(kettle_protect); }
static void new_devices(void) { tables(kettle_device); }

static void forgets(void)
{
    sink += kettle_forget(TABLES) + kettle_forget(block, 1, devices, 0, journal, 0);
}

static void reads(void)
{
    for (size_t start = 0; start < 65540; start += 4099)
        sink += kettle_read(MACHINE, start, 65535 - (start < 65535 ? start : 0), buffer, sizeof buffer);
    sink += kettle_read(MACHINE, 0, 65535, buffer, 10);
}

/* what each word says, in too little room and in enough */
static void prints(void)
{
    for (unsigned word = 0; word < 65536; word++)
        for (size_t room = 0; room <= KETTLE_PRINT_MOST; room += KETTLE_PRINT_MOST / 2)
            sink += kettle_print((uint16_t)word, out, room);
}

static void set_word(size_t i, unsigned word)
{
    words[2 * i] = (uint8_t)word;
    words[2 * i + 1] = (uint8_t)(word >> 8);
}

/* the source of each word alone; of as many as there can be, with every label; one without a text, too little room, too many */
static void sources(void)
{
    for (unsigned word = 0; word < 65536; word++) {
        set_word(0, word);
        sink += kettle_text(words, 2, out, sizeof out) + kettle_text(words, 2, out, 3);
    }
    for (unsigned i = 0; i < KETTLE_WORDS_MOST; i++)
        set_word(i, i < 1024 ? i << 6 | 6 : 0xff7a);
    sink += kettle_text(words, 2 * KETTLE_WORDS_MOST, out, sizeof out) + kettle_text(words, 2 * KETTLE_WORDS_MOST, out, 100);
    set_word(KETTLE_WORDS_MOST - 1, 0x0010);
    sink += kettle_text(words, 2 * KETTLE_WORDS_MOST, out, sizeof out);
    sink += kettle_text(words, 65536, out, sizeof out) + kettle_text(words, 65537, out, sizeof out) + kettle_text(words, 0, out, 0);
}

static void versions(void) { sink += kettle_version(); }

/* ---- texts ----------------------------------------------------------------------------------------------------------------- */

static void add_line(const char *line)
{
    size_t n = strlen(line);
    if (text_len + n + 1 <= sizeof text) {
        memcpy(text + text_len, line, n);
        text[text_len + n] = '\n';
        text_len += n + 1;
    }
}

static void assemble_once(void)
{
    sink += kettle_assemble(text, text_len, 0, words, sizeof words) + kettle_assemble(text, text_len, 1, words, sizeof words)
            + kettle_assemble(text, text_len, 1, words, 2);
}

static void list_once(void)
{
    sink += kettle_list(text, text_len, out, sizeof out) + kettle_list(text, text_len, out, 20);
}

/* Texts are made on the usual stack, and each is handed over on the painted one. */
static size_t texts(void (*call)(void))
{
    static const char *const names[] = {"MOV",  "MSL", "MSR", "ADD", "SUB",  "MUL", "DIV",  "LDR",  "STR",  "LDB",  "STB",
                                        "EQ",   "NEQ", "LT",  "LTE", "GT",   "GTE", "JMP",  "CJP",  "CALL", "RET",  "DBG",
                                        "ADDR", "SUBR", "MULR", "DIVR", "MODR", "EXPR", "SQRTR", "CPY", "NONE"};
    static const char *const operands[] = {"",           "A",           "A, B",         "A, #1",        "A, B, C",     "#1",
                                           "#2048",      "A, [B #1]",   "A, [#1 #2]",   "A, [#1 #300]", "A, #65536",   "label",
                                           "A, [B #99]", "A, B, C, M",  "FLAGS, FLAGS, FLAGS", "A #0x",  "A, [[B #7]]]", "Q, R, S",
                                           "A, #65535",  "A, [B #31]",  "BP, [SP #+31]", "A, [SP, 3]"};
    char line[128];
    size_t most = 0, used;
    for (unsigned i = 0; i < sizeof names / sizeof *names; i++)
        for (unsigned j = 0; j < sizeof operands / sizeof *operands; j++) {
            text_len = 0;
            snprintf(line, sizeof line, "%s %s", names[i], operands[j]);
            add_line("label:");
            add_line(line);
            if ((used = stack_of(NULL, call)) > most)
                most = used;
        }
    /* every table full, forward and backward; then one more of each */
    for (unsigned count = 512; count <= 1025; count += count == 512 || count == 1024 ? 1 : 511) {
        text_len = 0;
        for (unsigned i = 0; i < count; i++) {
            snprintf(line, sizeof line, "CALL l%u", i);
            add_line(line);
        }
        for (unsigned i = 0; i < count; i++) {
            snprintf(line, sizeof line, "l%u:", i);
            add_line(line);
        }
        if ((used = stack_of(NULL, call)) > most)
            most = used;
        text_len = 0;
        for (unsigned i = 0; i < count; i++) {
            snprintf(line, sizeof line, "l%u:\nJMP l%u", i, i);
            add_line(line);
        }
        if ((used = stack_of(NULL, call)) > most)
            most = used;
    }
    /* as many words and lines as there can be, the longest listing's among them, and a refusal at the end */
    static const char *const many[] = {"DBG", "MSL FLAGS, [#31 #7]", "EXPR FLAGS, FLAGS, FLAGS", "STR FLAGS, [FLAGS #31]", ""};
    for (unsigned i = 0; i < sizeof many / sizeof *many; i++) {
        for (text_len = 0; text_len + strlen(many[i]) + 8 < sizeof text && text_len < 4 * 65536;)
            add_line(many[i]);
        if ((used = stack_of(NULL, call)) > most)
            most = used;
        add_line("bad");
        if ((used = stack_of(NULL, call)) > most)
            most = used;
        for (text_len = 0; text_len + strlen(many[i]) + 1 < 65536;)
            add_line(many[i]);
        if ((used = stack_of(NULL, call)) > most)
            most = used;
    }
    return most;
}

int main(void)
{
    size_t base = stack_of(NULL, nothing);
    struct {
        const char *name;
        size_t used, most;
    } rows[] = {
        {"kettle_assemble", texts(assemble_once), KETTLE_STACK_TEXT},
        {"kettle_list", texts(list_once), KETTLE_STACK_TEXT},
        {"kettle_load", stack_of(NULL, loads), KETTLE_STACK_LOAD},
        {"kettle_step", stack_of(full, steps), KETTLE_STACK_OTHER},
        {"kettle_run", stack_of(full, runs), KETTLE_STACK_OTHER},
        {"kettle_step_back", stack_of(three_steps, steps_back), KETTLE_STACK_OTHER},
        {"kettle_set_register", stack_of(full, registers), KETTLE_STACK_OTHER},
        {"kettle_protect", stack_of(empty, regions), KETTLE_STACK_OTHER},
        {"kettle_device", stack_of(empty, new_devices), KETTLE_STACK_OTHER},
        {"kettle_forget", stack_of(full, forgets), KETTLE_STACK_OTHER},
        {"kettle_read", stack_of(full, reads), KETTLE_STACK_OTHER},
        {"kettle_print", stack_of(NULL, prints), KETTLE_STACK_OTHER},
        {"kettle_text", stack_of(NULL, sources), KETTLE_STACK_TEXT},
        {"kettle_version", stack_of(NULL, versions), KETTLE_STACK_OTHER},
    };
    int failed = 0;
    for (unsigned i = 0; i < sizeof rows / sizeof *rows; i++) {
        size_t used = rows[i].used - base;
        printf("%-20s %7zu of %7zu bytes\n", rows[i].name, used, rows[i].most);
        failed |= used > rows[i].most;
    }
    return failed;
}
