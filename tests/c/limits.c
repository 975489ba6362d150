/* Texts up to the limits: 32,767 words, 1,024 labels, 512 open references, and one more of each. */
#include <stdio.h>
#include <stdlib.h>
#include <string.h>

#include "check.h"

static uint64_t at_line(uint64_t number, uint64_t line)
{
    return number | line << 16;
}

/* count lines of this form, with their number in it where it has a %u, and then an end */
static struct bytes lines(const char *form, unsigned count, const char *end)
{
    char *whole = malloc((size_t)count * 32 + strlen(end) + 1);
    if (whole == NULL)
        abort();
    size_t n = 0;
    for (unsigned i = 0; i < count; i++)
        n += (size_t)snprintf(whole + n, 32, form, i);
    memcpy(whole + n, end, strlen(end) + 1);
    struct bytes text = lend_text(whole);
    free(whole);
    read_only(&text);
    return text;
}

static void words(void)
{
    struct bytes program = lend(70000);
    for (unsigned n = 32765; n <= 32770; n++) {
        struct bytes text = lines("MOV A, #1\n", n, "end:");
        for (int strict = 0; strict < 2; strict++) {
            during("words", (long)n, strict, 0);
            uint64_t answer = assemble(&text, strict, &program);
            if (n <= KETTLE_WORDS_MOST) {
                NUMBER(answer, (uint64_t)n << 16 | (uint64_t)1 << 48);
                for (unsigned i = 0; i < n; i += 97)
                    NUMBER(kettle_word(program.at + 2 * (size_t)i), 0x0101);
                NUMBER(kettle_word(program.at + 2 * (size_t)(n - 1)), 0x0101);
            } else {
                NUMBER(answer, at_line(KETTLE_PROGRAM_FULL, KETTLE_WORDS_MOST + 1));
            }
        }
        give_back(&text);
    }
    give_back(&program);

    /* room for fewer: the line that finds none */
    for (size_t len = 0; len <= 20; len += 2) {
        struct bytes text = lines("MOV A, #1\n", 12, ""), few = lend(len);
        NUMBER(assemble(&text, 1, &few), at_line(KETTLE_PROGRAM_FULL, len / 2 + 1));
        give_back(&text);
        give_back(&few);
    }
}

static void labels(void)
{
    struct bytes program = lend(64);
    for (unsigned n = 1023; n <= 1026; n++) {
        struct bytes text = lines("l%u:\n", n, "DBG\nl5:\nl1022:\n");
        during("labels", (long)n, 0, 0);
        /* a name that is known is no new one */
        NUMBER(assemble(&text, 1, &program),
               n <= 1024 ? (uint64_t)1 << 16 | (uint64_t)n << 48 : at_line(KETTLE_TOO_MANY_LABELS, 1025));
        give_back(&text);
    }
    give_back(&program);
}

static void open_references(void)
{
    struct bytes program = lend(2100);
    for (unsigned n = 511; n <= 514; n++) {
        struct bytes text = lines("JMP l%u\n", n, "");
        during("open references", (long)n, 0, 0);
        NUMBER(assemble(&text, 1, &program),
               n <= 512 ? (uint64_t)n << 16 | (uint64_t)n << 32 : at_line(KETTLE_TOO_MANY_FIXUPS, 513));
        give_back(&text);
    }
    /* one that is resolved makes room again */
    struct bytes text = lines("CJP x\n", 512, "x:\nJMP y\nJMP y\nx:\nJMP x\n");
    NUMBER(assemble(&text, 1, &program), (uint64_t)515 << 16 | (uint64_t)2 << 32 | (uint64_t)1 << 48);
    NUMBER(kettle_word(program.at), 1024 << 5 | 5);
    NUMBER(kettle_word(program.at + 2 * 511), 1024 << 5 | 5);
    NUMBER(kettle_word(program.at + 2 * 514), 1028 << 5 | 6);
    give_back(&text);
    give_back(&program);

    /* no room for a word comes before no room for a reference; a field too wide, or a CJP to a register, before both */
    program = lend(1024);
    text = lines("JMP x\n", 512, "JMP x\n");
    NUMBER(assemble(&text, 1, &program), at_line(KETTLE_PROGRAM_FULL, 513));
    give_back(&text);
    text = lines("JMP x\n", 512, "JMP #2048\n");
    NUMBER(assemble(&text, 1, &program), at_line(KETTLE_FIELD_TOO_WIDE, 513));
    NUMBER(assemble(&text, 0, &program), at_line(KETTLE_PROGRAM_FULL, 513));
    give_back(&text);
    text = lines("JMP x\n", 512, "CJP A\n");
    NUMBER(assemble(&text, 1, &program), at_line(KETTLE_NOT_DECODABLE, 513));
    NUMBER(assemble(&text, 0, &program), at_line(KETTLE_PROGRAM_FULL, 513));
    give_back(&text);
    give_back(&program);
}

static void many_lines(void)
{
    struct bytes text = lines("\n", 300000, "FOO"), program = lend(2);
    NUMBER(assemble(&text, 1, &program), at_line(KETTLE_INVALID_INSTRUCTION, 300001));
    give_back(&text);
    give_back(&program);
}

void test_limits(void)
{
    words();
    labels();
    open_references();
    many_lines();
}
