/* Texts: their words, plainly and strictly, and each refusal with its line. */
#include <stdio.h>
#include <string.h>

#include "check.h"

/* an answer of an accepted text */
static uint64_t counts(uint64_t words, uint64_t open, uint64_t labels)
{
    return words << 16 | open << 32 | labels << 48;
}

static uint64_t at_line(uint64_t number, uint64_t line)
{
    return number | line << 16;
}

/* a text, in 64 bytes of words */
static uint64_t assembled(const char *source, int strict, struct bytes *words)
{
    struct bytes text = lend_text(source);
    read_only(&text);
    during(source, strict, 0, 0);
    uint64_t answer = assemble(&text, strict, words);
    give_back(&text);
    return answer;
}

static void word(const char *line, unsigned want)
{
    struct bytes words = lend(64);
    for (int strict = 0; strict < 2; strict++) {
        NUMBER(assembled(line, strict, &words), counts(1, 0, 0));
        NUMBER(kettle_word(words.at), want);
    }
    give_back(&words);
}

static void words_of_lines(void)
{
    word("MOV A, #5", 0x0501);
    word("JMP #2047", 0xffe6);
    word("JMP A", 0x0016);
    word("CJP #0", 0x0005);
    word("SQRTR A, B, C", 0x470a);
    word("STR A, [B #31]", 0xfc84);
    word("LDB A, B", 0x0088);
    word("EQ A, #0", 0x0007);
    word("mov PC, C", 0x02d1); /* mnemonics in either case, registers exact */
    word("  DBG anything at all  ", 0x0000);
}

static void cut_or_refused(void)
{
    struct bytes words = lend(64);
    /* plain assembly cuts what does not fit, strict assembly refuses it, for each value that is not 0 */
    NUMBER(assembled("MOV C, #300", 0, &words), counts(1, 0, 0));
    NUMBER(kettle_word(words.at), 0x2c21);
    NUMBER(assembled("JMP #2048", 0, &words), counts(1, 0, 0));
    NUMBER(kettle_word(words.at), 0x0006);
    for (int strict = 1; strict < 256; strict++) {
        NUMBER(assembled("\n\nMOV C, #300", strict, &words), at_line(KETTLE_FIELD_TOO_WIDE, 3));
        NUMBER(assembled("JMP #2048", strict, &words), at_line(KETTLE_FIELD_TOO_WIDE, 1));
    }
    give_back(&words);
}

/* ---- CJP to a register --------------------------------------------------------------------------------------------------- */

static const char *const registers[] = {"A", "B", "C", "M", "SP", "PC", "BP", "FLAGS"};

/* Plain assembly makes the word that means JMP, strict assembly refuses it, for each value that is not 0. */
static void register_cjp(unsigned r)
{
    struct bytes words = lend(64);
    char line[16];
    snprintf(line, sizeof line, "CJP %s", registers[r]);
    NUMBER(assembled(line, 0, &words), counts(1, 0, 0));
    NUMBER(kettle_word(words.at), r << 5 | 0x15);
    for (int strict = 1; strict < 256; strict++)
        NUMBER(assembled(line, strict, &words), at_line(KETTLE_NOT_DECODABLE, 1));
    give_back(&words);
    snprintf(line, sizeof line, "JMP %s", registers[r]);
    word(line, r << 5 | 0x16);
}

/* a text plainly and strictly, in room for so many words */
static void both(const char *source, size_t room, uint64_t plainly, uint64_t strictly)
{
    struct bytes words = lend(2 * room);
    NUMBER(assembled(source, 0, &words), plainly);
    NUMBER(assembled(source, 1, &words), strictly);
    give_back(&words);
}

/* refused with 32 in this line; plainly it is accepted */
static void refused_cjp(const char *source, unsigned line, uint64_t plainly)
{
    both(source, 32, plainly, at_line(KETTLE_NOT_DECODABLE, line));
}

static void same_both_ways(const char *source, uint64_t answer)
{
    both(source, 32, answer, answer);
}

/* what is a CJP to a register, and in which line it is refused */
static void lines_of_cjp(void)
{
    refused_cjp("cjp FLAGS", 1, counts(1, 0, 0));
    refused_cjp("\t CjP\x0b BP \r\n", 1, counts(1, 0, 0));
    refused_cjp("; x\n\nl:\nDBG\r\n  CJP SP\nCJP A\n", 5, counts(3, 0, 1));
    refused_cjp("JMP x\nCJP y\nCJP PC\ny:", 3, counts(3, 1, 1));
    /* a label of that name does not count, wherever it stands */
    refused_cjp("A:\nCJP A\n", 2, counts(1, 0, 1));
    refused_cjp("CJP A\nA:\n", 1, counts(1, 0, 1));
    refused_cjp("A:\nCALL A\nJMP A\nCJP A\n", 4, counts(3, 0, 1));
    /* any other CJP is accepted, and never refused in the line of its label */
    same_both_ways("CJP a\na:\nCJP a", counts(2, 0, 1));
    same_both_ways("CJP A,\nCJP [A]\nCJP FLAGSX\nCJP S", counts(4, 4, 0));
    same_both_ways("CJP A:\n; CJP A", counts(0, 0, 1));
    same_both_ways("CJP #2047\nJMP A\nEQ A, B\n", counts(3, 0, 0));
}

/* 32 comes after the parser's numbers and after 30, and before 29; in the text the first line counts, but 26 and 31 come first */
static void order_of_cjp(void)
{
    same_both_ways("CJP", at_line(KETTLE_INVALID_INSTRUCTION, 1));
    same_both_ways("CJP A B", at_line(KETTLE_INVALID_INSTRUCTION, 1));
    same_both_ways("CJP A ; x", at_line(KETTLE_INVALID_INSTRUCTION, 1));
    same_both_ways("CJP #A", at_line(KETTLE_INVALID_IMMEDIATE, 1));
    same_both_ways("CJP #65536", at_line(KETTLE_INVALID_IMMEDIATE, 1));
    both("CJP #2048", 32, counts(1, 0, 0), at_line(KETTLE_FIELD_TOO_WIDE, 1));
    both("MOV A, #256\nCJP A", 32, counts(2, 0, 0), at_line(KETTLE_FIELD_TOO_WIDE, 1));
    both("CJP A\nMOV A, #256", 32, counts(2, 0, 0), at_line(KETTLE_NOT_DECODABLE, 1));
    both("CJP A\nMOV Q, #1", 32, at_line(KETTLE_INVALID_REGISTER, 2), at_line(KETTLE_NOT_DECODABLE, 1));
    same_both_ways("MOV Q, #1\nCJP A", at_line(KETTLE_INVALID_REGISTER, 1));
    both("CJP A", 0, at_line(KETTLE_PROGRAM_FULL, 1), at_line(KETTLE_NOT_DECODABLE, 1));
    both("DBG\n\nCJP A", 1, at_line(KETTLE_PROGRAM_FULL, 3), at_line(KETTLE_NOT_DECODABLE, 3));
    both("DBG\nDBG\nCJP A", 1, at_line(KETTLE_PROGRAM_FULL, 2), at_line(KETTLE_PROGRAM_FULL, 2));
    same_both_ways("CJP A\n\n\x80", at_line(KETTLE_NOT_ASCII, 3));
    struct bytes text = lend_text("CJP A"), odd = lend(3);
    NUMBER(assemble(&text, 1, &odd), KETTLE_BAD_BLOCK);
    give_back(&text);
    give_back(&odd);
}

static void labels(void)
{
    struct bytes words = lend(64);
    NUMBER(assembled("", 0, &words), counts(0, 0, 0));
    NUMBER(assembled("\n; nothing\n \t\n", 1, &words), counts(0, 0, 0));
    NUMBER(assembled("a:\nJMP b\nJMP a\nb:\nCALL b\n", 1, &words), counts(3, 0, 2));
    NUMBER(kettle_word(words.at), 0x0086);     /* JMP #4 */
    NUMBER(kettle_word(words.at + 2), 0x0006); /* JMP #0 */
    NUMBER(kettle_word(words.at + 4), 0x008b); /* CALL #4 */
    /* references that nothing defines are words 0, and are counted */
    NUMBER(assembled("JMP x\nCALL y\nMOV A, #5\nCJP x\nz:", 1, &words), counts(4, 3, 1));
    CHECK(memcmp(words.at, "\0\0\0\0\1\5\0\0", 8) == 0);
    /* a later definition counts from there on, and is no new label */
    NUMBER(assembled("DBG\na:\nJMP a\na:\nJMP a\n", 1, &words), counts(3, 0, 1));
    NUMBER(kettle_word(words.at + 2), 0x0046);
    NUMBER(kettle_word(words.at + 4), 0x0086);
    give_back(&words);
}

/* KETTLE_INVALID_FORMAT (23) and KETTLE_UNRESOLVED_LABEL (25) are those of a single line, which no function of the header reads. */
static void refused(const char *source, unsigned number, unsigned line)
{
    struct bytes words = lend(64);
    for (int strict = 0; strict < 2; strict++)
        NUMBER(assembled(source, strict, &words), at_line(number, line));
    give_back(&words);
}

static void refusals(void)
{
    refused("MOV Q, #1", KETTLE_INVALID_REGISTER, 1);
    refused("DBG\n\nMOV a, #1\n", KETTLE_INVALID_REGISTER, 3);
    refused("MOV X, #70000", KETTLE_INVALID_REGISTER, 1);
    refused("ADD A", KETTLE_INVALID_OPERANDS, 1);
    refused("; x\nLDR A, [B\n", KETTLE_INVALID_OPERANDS, 2);
    refused("FOO A, B", KETTLE_INVALID_INSTRUCTION, 1);
    refused("DBG\nDBG\nDBG\nMOV A", KETTLE_INVALID_INSTRUCTION, 4);
    refused("NOOP", KETTLE_INVALID_INSTRUCTION, 1);
    refused("MOV A, #5 ; x", KETTLE_INVALID_INSTRUCTION, 1);
    refused("MSL A, [#1 #256]", KETTLE_INVALID_INSTRUCTION, 1);
    refused("MOV A, #65536", KETTLE_INVALID_IMMEDIATE, 1);
    refused("l:\nMOV A, #x", KETTLE_INVALID_IMMEDIATE, 2);
    refused("JMP #", KETTLE_INVALID_IMMEDIATE, 1);
    refused("LDR A, [B #256]", KETTLE_INVALID_IMMEDIATE, 1);
    /* a byte over 127 comes before all else, with its own line */
    refused("FOO\nMOV Q\n; caf\xc3\xa9\n", KETTLE_NOT_ASCII, 3);
    refused("\x80", KETTLE_NOT_ASCII, 1);
    refused("\n\n\n\xff", KETTLE_NOT_ASCII, 4);
    struct bytes text = lend_text("DBG\n; x?\n"), words = lend(64);
    for (int value = 0; value < 256; value++) {
        during("a byte in a comment", value, 0, 0);
        text.at[7] = (uint8_t)value;
        /* a comment that ends in a colon is still one */
        NUMBER(assemble(&text, 1, &words), value > 127 ? at_line(KETTLE_NOT_ASCII, 2) : counts(1, 0, 0));
    }
    give_back(&text);
    give_back(&words);
}

/* The incident: a program grew until a label was too far for its jump. Plain assembly cuts the address, as it always did; strict
 * assembly refuses the text, at the line where the label stands. */
static void incident(void)
{
    for (unsigned fill = 1020; fill <= 1030; fill++) {
        size_t len = 8 + 4 * (size_t)fill + 5;
        struct bytes text = lend(len), words = lend(4096);
        char *p = (char *)text.at;
        memcpy(p, "JMP end\n", 8);
        for (unsigned i = 0; i < fill; i++)
            memcpy(p + 8 + 4 * i, "DBG\n", 4);
        memcpy(p + len - 5, "end:\n", 5);
        unsigned far = 2 * (fill + 1);
        during("the incident, words between", (long)fill, 0, 0);
        NUMBER(assemble(&text, 0, &words), counts(fill + 1, 0, 1));
        NUMBER(kettle_word(words.at), (far & 2047) << 5 | 6);
        NUMBER(assemble(&text, 1, &words), far <= 2047 ? counts(fill + 1, 0, 1) : at_line(KETTLE_FIELD_TOO_WIDE, fill + 2));
        /* the same of CJP to a label; to a register it is refused at its own line */
        memcpy(p, "CJP end\n", 8);
        NUMBER(assemble(&text, 1, &words), far <= 2047 ? counts(fill + 1, 0, 1) : at_line(KETTLE_FIELD_TOO_WIDE, fill + 2));
        memcpy(p, "CJP FLAGS\n\n\n", 12);
        NUMBER(assemble(&text, 1, &words), at_line(KETTLE_NOT_DECODABLE, 1));
        memcpy(p + 8, "DBG\n", 4);
        /* a reference to a label known to be too far is refused at its own line */
        memcpy(p, "DBG    \n", 8);
        struct bytes again = lend(len + 8);
        memcpy(again.at, text.at, len);
        memcpy(again.at + len, "CALL end", 8);
        NUMBER(assemble(&again, 1, &words), far <= 2047 ? counts(fill + 2, 0, 1) : at_line(KETTLE_FIELD_TOO_WIDE, fill + 3));
        give_back(&again);
        give_back(&text);
        give_back(&words);
    }
}

static void rooms(void)
{
    struct bytes one = lend_text("MOV A, #5\nMOV B, #6\n"), none = lend_text("x:\n"), odd_text = lend_text("\x80");
    for (size_t len = 0; len <= 9; len++) {
        struct bytes words = lend(len);
        during("words of length", (long)len, 0, 0);
        uint64_t full = at_line(KETTLE_PROGRAM_FULL, len / 2 + 1);
        NUMBER(assemble(&one, 1, &words), len % 2 == 1 ? KETTLE_BAD_BLOCK : len < 4 ? full : counts(2, 0, 0));
        NUMBER(assemble(&none, 1, &words), len % 2 == 1 ? KETTLE_BAD_BLOCK : counts(0, 0, 1));
        NUMBER(assemble(&odd_text, 1, &words), len % 2 == 1 ? KETTLE_BAD_BLOCK : at_line(KETTLE_NOT_ASCII, 1));
        give_back(&words);
    }
    static const size_t big[] = {65532, 65534, 65536, 65538, 100000, 1000000, 65535, 65537, 999999};
    for (size_t i = 0; i < sizeof big / sizeof *big; i++) {
        struct bytes words = lend(big[i]);
        NUMBER(assemble(&one, 1, &words), i < 6 ? counts(2, 0, 0) : KETTLE_BAD_BLOCK);
        if (i < 6)
            CHECK(memcmp(words.at, "\1\5\21\6", 4) == 0 && all_are(words.at + 4, big[i] - 4, 0));
        NUMBER(assemble(&odd_text, 1, &words), i < 6 ? at_line(KETTLE_NOT_ASCII, 1) : KETTLE_BAD_BLOCK);
        give_back(&words);
    }
    give_back(&one);
    give_back(&none);
    give_back(&odd_text);
}

void test_texts(void)
{
    words_of_lines();
    cut_or_refused();
    for (unsigned r = 0; r < 8; r++)
        register_cjp(r);
    lines_of_cjp();
    order_of_cjp();
    labels();
    refusals();
    incident();
    rooms();
}
