/* Source for words: the text reckoned a second time from the second printer's lines, and assembled back, plainly and strictly.
 * Which words have a text is reckoned twice: by the bits that an instruction uses, and by assembling every line that there is. */
#include <stdarg.h>
#include <stdio.h>
#include <stdlib.h>
#include <string.h>

#include "check.h"

enum { WORDS = 65536, WITH_TEXT = 28434, LABELS = 1024, WAIT_MOST = 512, ROOMS = KETTLE_PRINT_MOST + 5, PROGRAMS = 400 };

static uint64_t at_line(uint64_t number, uint64_t line)
{
    return number | line << 16;
}

/* ---- the second reckoning ------------------------------------------------------------------------------------------------ */

/* a program, and what is to come of it */
static struct {
    unsigned words[KETTLE_WORDS_MOST];
    size_t count;
    uint64_t answer; /* with room enough */
    char text[KETTLE_TEXT_MOST + SAID_MOST];
    size_t len;
    bool used[LABELS];
    unsigned waits[LABELS], waiting; /* references to a label that is still to come; all of them */
    uint64_t lines, labels;
    uint64_t full; /* the line that finds 512 references waiting, from 1; 0 for none */
    uint64_t cjp;  /* the first CJP to a register */
} p;

/* Does some line give this word? It says something, and has no bit that its instruction does not use; RET uses no address. */
static bool has_text(unsigned word)
{
    /* the bits with a number, the bit that says that it is a register, and the bits then; RET counts as a register here */
    static const struct {
        unsigned with_number, is_register, with_register;
    } used[12] = {{0, 0, 0},
                  {0xffff, 0x80, 0x7ff},
                  {0xffff, 0, 0},
                  {0xffff, 0x200, 0x1fff},
                  {0xffff, 0, 0},
                  {0xffff, 0x10, 0xff},
                  {0xffff, 0x10, 0xff},
                  {0xffff, 0x400, 0x3fff},
                  {0xffff, 0, 0},
                  {0x3ff, 0, 0},
                  {0xffff, 0, 0},
                  {0xffff, 0x10, 0x1f}};
    struct said s;
    unsigned op = word & 15;
    if (ref_print(&s, word) != 0)
        return false;
    return (word & ~(word & used[op].is_register ? used[op].with_register : used[op].with_number)) == 0;
}

/* the name of a jump or call to a number, which is *at; NULL for any other word */
static const char *aim(unsigned word, unsigned *at)
{
    *at = word >> 5;
    switch (word & 31) {
    case 5: return "CJP";
    case 6: return "JMP";
    case 11: return "CALL";
    default: return NULL;
    }
}

static bool inside(unsigned at)
{
    return at % 2 == 0 && at < 2 * p.count;
}

static void add(const char *form, ...)
{
    va_list rest;
    va_start(rest, form);
    p.len += (size_t)vsprintf(p.text + p.len, form, rest);
    va_end(rest);
    p.lines++;
}

/* a line that names a label: in line i, those up to i are defined */
static void add_reference(size_t i, const char *name, unsigned at)
{
    add("%s L%04X\n", name, at);
    if (at / 2 <= i)
        return;
    if (p.waiting == WAIT_MOST && p.full == 0)
        p.full = p.lines;
    p.waiting++;
    p.waits[at / 2]++;
}

static void add_word(size_t i)
{
    unsigned at;
    const char *name = aim(p.words[i], &at);
    struct said s;
    if (i < LABELS && p.used[i]) {
        add("L%04X:\n", (unsigned)(2 * i));
        p.labels++;
        p.waiting -= p.waits[i];
    }
    if (name != NULL && inside(at)) {
        add_reference(i, name, at);
        return;
    }
    ref_line(&s, p.words[i]);
    add("%s\n", s.text);
    if ((p.words[i] & 31) == 21 && p.cjp == 0)
        p.cjp = p.lines;
}

/* the text of the program in p.words, or the first word without one */
static void reckon(void)
{
    unsigned at;
    p.text[0] = 0;
    p.len = p.waiting = 0;
    p.lines = p.labels = p.full = p.cjp = 0;
    memset(p.used, 0, sizeof p.used);
    memset(p.waits, 0, sizeof p.waits);
    for (size_t i = 0; i < p.count; i++) {
        p.answer = at_line(KETTLE_NO_TEXT, i);
        if (!has_text(p.words[i]))
            return;
        if (aim(p.words[i], &at) != NULL && inside(at))
            p.used[at / 2] = true;
    }
    for (size_t i = 0; i < p.count; i++)
        add_word(i);
    p.answer = (uint64_t)p.len << 16;
}

static bool accepted(void)
{
    return kettle_code_of(p.answer) == KETTLE_ACCEPTED;
}

/* ---- beside the library -------------------------------------------------------------------------------------------------- */

/* programs with a text, their words; programs without one; texts that are refused with 28, and strictly with 32 */
static unsigned long long texts, text_words, without, too_many, not_strict;

/* what assembly makes of the text: all words, but for 28, and strictly 32, whichever line comes first */
static uint64_t back_answer(int strict)
{
    uint64_t cjp = strict ? p.cjp : 0;
    if (cjp != 0 && (p.full == 0 || cjp < p.full))
        return at_line(KETTLE_NOT_DECODABLE, cjp);
    if (p.full != 0)
        return at_line(KETTLE_TOO_MANY_FIXUPS, p.full);
    return (uint64_t)p.count << 16 | p.labels << 48;
}

static void assembles_back(const struct bytes *words, const struct bytes *text)
{
    struct bytes again = lend(words->len);
    for (int strict = 0; strict < 2; strict++) {
        uint64_t answer = assemble(text, strict, &again);
        NUMBER(answer, back_answer(strict));
        if (kettle_code_of(answer) == KETTLE_ACCEPTED && words->len > 0)
            CHECK(memcmp(again.at, words->at, words->len) == 0);
        too_many += !strict && kettle_code_of(answer) == KETTLE_TOO_MANY_FIXUPS;
        not_strict += kettle_code_of(answer) == KETTLE_NOT_DECODABLE;
    }
    give_back(&again);
}

/* in this room */
static void in_room(const struct bytes *words, size_t room)
{
    struct bytes out = lend(room);
    bool fits = accepted() && room >= p.len;
    NUMBER(text_of(words, &out), accepted() && !fits ? KETTLE_NO_ROOM : p.answer);
    if (fits && p.len > 0)
        CHECK(memcmp(out.at, p.text, p.len) == 0);
    give_back(&out);
}

/* the program in p.words: in exactly its room, in more, in one byte less and much less; and back again */
static void try_program(const char *what)
{
    struct bytes words = lend(2 * p.count);
    for (size_t i = 0; i < p.count; i++)
        put_word(words.at + 2 * i, p.words[i]);
    read_only(&words);
    reckon();
    during(what, (long)p.count, (long)p.len, (long)p.answer);
    CHECK(p.len <= KETTLE_TEXT_MOST);
    in_room(&words, 0);
    in_room(&words, p.len);
    in_room(&words, p.len + 1 + any_below(500));
    if (p.len > 0) {
        in_room(&words, p.len - 1);
        in_room(&words, any_below((uint32_t)p.len));
    }
    if (accepted()) {
        struct bytes text = lend_text(p.text);
        read_only(&text);
        assembles_back(&words, &text);
        give_back(&text);
        texts++;
        text_words += p.count;
    } else {
        NUMBER(kettle_index(p.answer), p.answer >> 16);
        without++;
    }
    give_back(&words);
}

/* ---- by hand ------------------------------------------------------------------------------------------------------------- */

/* these words, ended by -1, have this text, by the second reckoning too */
static void text_is(const char *want, const long *words)
{
    for (p.count = 0; words[p.count] >= 0; p.count++)
        p.words[p.count] = (unsigned)words[p.count];
    try_program(want);
    CHECK(strcmp(p.text, want) == 0 && p.answer == (uint64_t)strlen(want) << 16);
}

#define TEXT(want, ...) text_is(want, (const long[]){__VA_ARGS__, -1})
#define JMP(at) ((at) << 5 | 6)
#define CJP(at) ((at) << 5 | 5)
#define CALL(at) ((at) << 5 | 11)

static void by_hand(void)
{
    text_is("", (const long[]){-1});
    TEXT("L0000:\nMOV A, #5\nJMP L0000\n", 1281, 6);
    TEXT("DBG\n", 0);
    TEXT("RET\n", 0x001b);
    TEXT("CJP A\nJMP A\nCJP FLAGS\n", 0x0015, 0x0016, 0x00f5);
    TEXT("MSL A, [#31 #1]\nMSR FLAGS, [#0 #7]\n", 0xfc82, 0x03f2);
    TEXT("LDR A, B\nSTB A, [B #1]\n", 0x0084, 0x0c88);
    TEXT("SQRTR FLAGS, FLAGS, FLAGS\n", 0xff7a);
    /* a label stands before the very line that names it, once for all that do; its letters are upper case */
    TEXT("L0000:\nJMP L0000\n", JMP(0));
    TEXT("L0000:\nCALL L0000\nCJP L0000\n", CALL(0), CJP(0));
    TEXT("JMP L000A\nDBG\nDBG\nDBG\nDBG\nL000A:\nRET\n", JMP(10), 0, 0, 0, 0, 0x001b);
    TEXT("CALL L0004\nL0002:\nJMP L0002\nL0004:\nCJP L0002\n", CALL(4), JMP(2), CJP(2));
    /* odd addresses, the end and what is beyond are numbers: no label stands between two words, or at the end */
    TEXT("JMP #1\nCJP #3\n", JMP(1), CJP(3));
    TEXT("JMP #2\n", JMP(2));
    TEXT("JMP L0002\nL0002:\nJMP #4\n", JMP(2), JMP(4));
    TEXT("CALL #2046\nCJP #2047\n", CALL(2046), CJP(2047));
    /* numbers that are no addresses have no label */
    TEXT("MOV A, #0\nADD A, #0\nEQ A, #0\n", 0x0001, 0x0003, 0x0007);
}

/* ---- each line that there is --------------------------------------------------------------------------------------------- */

/* which words the lines gave */
static bool given[WORDS];

static const char *const registers[] = {"A", "B", "C", "M", "SP", "PC", "BP", "FLAGS"};
static char lines[1 << 21];
static size_t lines_len;

/* a line begun, and what comes after it, where %r stands for each register and %N for each number up to N */
static void expand(const char *begun, const char *rest)
{
    const char *mark = strchr(rest, '%');
    char more[64], *after;
    if (mark == NULL) {
        lines_len += (size_t)sprintf(lines + lines_len, "%s%s\n", begun, rest);
        return;
    }
    int n = (int)(mark - rest);
    unsigned long most = strtoul(mark + 1, &after, 10);
    for (unsigned r = 0; r < 8 && mark[1] == 'r'; r++) {
        snprintf(more, sizeof more, "%s%.*s%s", begun, n, rest, registers[r]);
        expand(more, mark + 2);
    }
    for (unsigned long number = 0; number <= most && mark[1] != 'r'; number++) {
        snprintf(more, sizeof more, "%s%.*s#%lu", begun, n, rest, number);
        expand(more, after);
    }
}

/* each of the names with each of the operands */
static void all_lines(const char *names, const char *operands)
{
    char name[8];
    for (int n; sscanf(names, "%7s%n", name, &n) == 1; names += n)
        expand(name, operands);
}

/* The lines so far are accepted plainly. Notes their words, and answers how many have been noted. */
static size_t note_given(void)
{
    struct bytes words = lend(2 * KETTLE_WORDS_MOST), text = lend_text(lines);
    size_t count = 0;
    uint64_t answer = assemble(&text, 0, &words);
    NUMBER(kettle_code_of(answer), KETTLE_ACCEPTED);
    NUMBER(kettle_open_references(answer), 0);
    for (size_t i = 0; i < kettle_words(answer); i++)
        given[kettle_word(words.at + 2 * i)] = true;
    for (unsigned word = 0; word < WORDS; word++)
        count += given[word];
    give_back(&words);
    give_back(&text);
    lines_len = 0;
    return count;
}

/* every mnemonic with every register, and every number that fits */
static void every_line(void)
{
    memset(given, 0, sizeof given);
    all_lines("DBG RET", "");
    all_lines("MOV", " %r, %255");
    all_lines("ADD SUB MUL DIV", " %r, %63");
    all_lines("EQ NEQ LT LTE GT GTE", " %r, %31");
    all_lines("MOV ADD SUB MUL DIV EQ NEQ LT LTE GT GTE LDR LDB STR STB CPY", " %r, %r");
    all_lines("MSL MSR", " %r, [%31 %7]");
    all_lines("JMP CJP", " %r");
    all_lines("JMP CJP CALL", " %2047");
    during("every line that there is", 0, 0, 0);
    CHECK(note_given() < WITH_TEXT);
    all_lines("LDR LDB STR STB", " %r, [%r %31]");
    all_lines("ADDR SUBR MULR DIVR MODR EXPR SQRTR", " %r, %r, %r");
    NUMBER(note_given(), WITH_TEXT);
}

/* numbers that are cut, and labels past 2,047, which are cut too, give no other words */
static void wide_lines(void)
{
    static const char *const one[] = {"MOV %s, #%u\n", "DIV %s, #%u\n", "GTE %s, #%u\n", "LTE %s, #%u\n"};
    static const char *const jumps[] = {"JMP #%u\n", "CJP #%u\n", "CALL #%u\n"};
    static const char *const two[] = {"MSL %s, [#%u #%u]\n", "MSR %s, [#%u #%u]\n"};
    for (unsigned i = 0; i < 30000; i++) {
        const char *r = registers[any_below(8)];
        unsigned number = any_below(65536), small = any_below(256);
        char *to = lines + lines_len;
        switch (i % 5) {
        case 0: lines_len += (size_t)sprintf(to, one[any_below(4)], r, number); break;
        case 1: lines_len += (size_t)sprintf(to, jumps[any_below(3)], number); break;
        case 2: lines_len += (size_t)sprintf(to, two[any_below(2)], r, number, small); break;
        case 3: lines_len += (size_t)sprintf(to, "STB %s, [%s #%u]\n", r, registers[any_below(8)], small); break;
        default: lines_len += i < 5000 ? (size_t)sprintf(to, "l%u:\n%s l%u\n", i, any_below(2) ? "CALL" : "CJP", i) : 0;
        }
    }
    during("lines with numbers that are cut", 0, 0, 0);
    NUMBER(note_given(), WITH_TEXT);
}

/* ---- each word alone ----------------------------------------------------------------------------------------------------- */

static void alone(const struct bytes *words, struct bytes *rooms)
{
    unsigned word = p.words[0];
    reckon();
    during("the word alone", (long)word, (long)p.answer, 0);
    CHECK(accepted() == given[word]);
    for (size_t len = 0; len < ROOMS; len++) {
        bool fits = accepted() && len >= p.len;
        NUMBER(text_of(words, &rooms[len]), accepted() && !fits ? KETTLE_NO_ROOM : p.answer);
        if (fits)
            CHECK(memcmp(rooms[len].at, p.text, p.len) == 0);
    }
    if (accepted())
        assembles_back(words, &rooms[p.len]);
}

static void every_word(void)
{
    struct bytes rooms[ROOMS], words = lend(2);
    size_t count = 0;
    for (size_t len = 0; len < ROOMS; len++)
        rooms[len] = lend(len);
    p.count = 1;
    for (unsigned word = 0; word < WORDS; word++) {
        p.words[0] = word;
        put_word(words.at, word);
        alone(&words, rooms);
        count += accepted();
    }
    NUMBER(count, WITH_TEXT);
    for (size_t len = 0; len < ROOMS; len++)
        give_back(&rooms[len]);
    give_back(&words);
}

/* ---- programs at random -------------------------------------------------------------------------------------------------- */

static unsigned any_with_text(void)
{
    static const unsigned rare[] = {0, 0x001b, 0x0015, 0x00f5, 0x0016}; /* DBG, RET, CJP and JMP to a register */
    unsigned word;
    if (any_below(60) == 0)
        return rare[any_below(5)];
    do
        word = any_below(WORDS);
    while (!has_text(word));
    return word;
}

/* any, or one that has a text but for a bit */
static unsigned any_without_text(void)
{
    unsigned word;
    do
        word = any_below(2) == 0 ? any_below(WORDS) : any_with_text() ^ 1u << any_below(16);
    while (has_text(word));
    return word;
}

/* where word i jumps to: forward, backward, itself, the next; about the end; odd; anywhere */
static unsigned any_aim(size_t i, unsigned forward)
{
    unsigned here = (unsigned)(2 * i), end = (unsigned)(2 * p.count), far = end < 2048 ? end : 2048, at;
    switch (any_below(100) < forward ? 0 : any_below(9)) {
    case 0: at = here < far ? far - 2 * (1 + any_below((far - here) / 2)) : here; break;
    case 1: at = 2 * any_below((unsigned)(i + 1)); break;
    case 2: at = here; break;
    case 3: at = here + 2; break;
    case 4: at = end - 2; break;
    case 5: at = end; break;
    case 6: at = end + 2; break;
    case 7: at = 2 * any_below(1024) + 1; break;
    default: at = any_below(2048);
    }
    return at & 2047;
}

static void any_program(void)
{
    static const unsigned jumps[] = {0, 10, 50, 95}, forwards[] = {0, 50, 100};
    unsigned jump = jumps[any_below(4)], forward = forwards[any_below(3)], bad = any_below(3) == 0 ? 1 + any_below(3) : 0;
    size_t most = any_below(80) == 0 ? KETTLE_WORDS_MOST : any_below(3) == 0 ? 1500 : 40;
    p.count = 1 + any_below((uint32_t)most);
    for (size_t i = 0; i < p.count; i++) {
        static const unsigned kinds[] = {5, 6, 11};
        p.words[i] = any_below(100) < jump ? any_aim(i, forward) << 5 | kinds[any_below(3)] : any_with_text();
    }
    while (bad-- > 0)
        p.words[any_below((uint32_t)p.count)] = any_without_text();
    try_program("a program at random");
}

/* ---- limits -------------------------------------------------------------------------------------------------------------- */

/* words from `from` on, so many, each `step` more than the one before */
static void put_words(size_t from, size_t count, unsigned word, unsigned step)
{
    for (size_t i = 0; i < count; i++)
        p.words[from + i] = (word + (unsigned)i * step) & 0xffff;
    p.count = from + count;
}

/* so many jumps wait at once for a label behind them, all for one or each for another one */
static void waiting(unsigned count, bool refused)
{
    for (unsigned step = 0; step <= 64; step += 64) {
        put_words(0, count, JMP(2 * count), step);
        put_words(count, step == 0 ? 1 : 1024 - count, 0x001b, 0);
        for (unsigned i = 0; i < count; i++) /* those that would go past 2,047 */
            if ((p.words[i] >> 5) < 2 * count)
                p.words[i] = CALL(2046);
        try_program("jumps that wait for a label");
        NUMBER(p.full, refused ? 513 : 0);
    }
}

static void many_waiting(void)
{
    waiting(511, false);
    waiting(512, false);
    waiting(513, true);
    /* backward jumps wait for nothing */
    put_words(0, 512, JMP(2 * 600), 0);
    put_words(512, 88, CJP(0), 0);
    put_words(600, 1, 0x001b, 0);
    try_program("512 that wait, and others that do not");
    NUMBER(p.full, 0);
    put_words(0, 20000, CALL(0), 0);
    try_program("jumps back alone");
    NUMBER(p.full, 0);
    /* a label makes room again; a label line before moves the line of 28 */
    put_words(0, 400, JMP(2 * 400), 0);
    put_words(400, 400, CALL(2 * 800), 0);
    put_words(800, 1, 0, 0);
    try_program("twice 400");
    NUMBER(p.full, 0);
    put_words(0, 1, JMP(0), 0);
    put_words(1, 600, JMP(2 * 601), 0);
    put_words(601, 1, 0, 0);
    try_program("513 after a label");
    NUMBER(p.full, 515);
    /* strictly the CJP comes first, or 28 does */
    p.words[100] = 0x0015;
    try_program("a CJP to a register before that");
    NUMBER(back_answer(1), at_line(KETTLE_NOT_DECODABLE, 102));
    p.words[100] = JMP(2 * 601);
    p.words[550] = 0x0015;
    try_program("and after it");
    NUMBER(back_answer(1), at_line(KETTLE_TOO_MANY_FIXUPS, 515));
}

/* each word of the first 1,024 has a label, and no other can */
static void many_labels(void)
{
    for (size_t count = 1023; count <= KETTLE_WORDS_MOST; count += count < 1026 ? 1 : KETTLE_WORDS_MOST - 1026) {
        put_words(0, count, 0x001b, 0);
        put_words(0, count < LABELS ? count : LABELS, JMP(0), 64);
        p.count = count;
        try_program("jumps to themselves");
        NUMBER(p.labels, count < LABELS ? count : LABELS);
    }
    put_words(0, 3000, JMP(0), 64);
    try_program("each address, and around again");
    NUMBER(p.labels, LABELS);
    put_words(0, 2048, JMP(0), 32);
    try_program("each address, odd ones too");
    NUMBER(p.labels, LABELS);
}

static void long_ones(void)
{
    static const unsigned forms[] = {0xff7a, 0xfff2, 0xfff4, 0x0000, CALL(2046), 0x00f5};
    for (size_t i = 0; i < sizeof forms / sizeof *forms; i++) {
        put_words(0, KETTLE_WORDS_MOST, forms[i], 0);
        try_program("32,767 words");
        if (i == 0)
            NUMBER(p.len, KETTLE_TEXT_MOST);
    }
    /* the last one alone has no text, or the first */
    put_words(0, KETTLE_WORDS_MOST, 0xff7a, 0);
    p.words[KETTLE_WORDS_MOST - 1] = 0x0010;
    try_program("the last has none");
    NUMBER(p.answer, at_line(KETTLE_NO_TEXT, 32766));
    p.words[0] = 0x003b;
    try_program("nor has the first");
    NUMBER(p.answer, at_line(KETTLE_NO_TEXT, 0));
}

/* 31 for an odd length, then 16, whatever the words and the room are */
static void refused_lengths(void)
{
    static const size_t lengths[] = {1, 3, 5, 65533, 65535, 65536, 65537, 65538, 65539, 131072, 131073};
    static const uint8_t values[] = {0, 0xff};
    for (size_t i = 0; i < sizeof lengths / sizeof *lengths; i++)
        for (size_t v = 0; v < 2; v++)
            for (size_t room = 0; room <= KETTLE_TEXT_MOST; room += KETTLE_TEXT_MOST) {
                struct bytes words = lend(lengths[i]), out = lend(room);
                memset(words.at, values[v], words.len);
                read_only(&words);
                during("words of so many bytes", (long)lengths[i], (long)room, values[v]);
                NUMBER(text_of(&words, &out), lengths[i] % 2 == 1 ? KETTLE_BAD_BLOCK : KETTLE_TOO_LONG);
                give_back(&words);
                give_back(&out);
            }
}

void test_sources(void)
{
    by_hand();
    every_line();
    wide_lines();
    every_word();
    for (int i = 0; i < PROGRAMS; i++)
        any_program();
    many_waiting();
    many_labels();
    long_ones();
    refused_lengths();
    during("texts, refused with 33, with 28, strictly with 32", (long)without, (long)too_many, (long)not_strict);
    CHECK(texts > 0 && without > 0 && too_many > 0 && not_strict > 0);
    if (edge == AT_END)
        printf("%llu words of %llu programs come back from their text; it is 28: %llu, strictly 32: %llu; without a text: %llu\n",
               text_words, texts, too_many, not_strict, without);
}
