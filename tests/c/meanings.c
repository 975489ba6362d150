/* What strict assembly accepts means what its lines say: texts made at random, their labels resolved a second time, and each word
 * printed. Some have lines that strict assembly refuses and plain assembly does not: a field too wide, or a CJP to a register. */
#include <stdio.h>
#include <string.h>

#include "check.h"

enum { TEXTS = 300, LINES_MOST = 1000, LINE_MOST = 48 };

struct line {
    char source[LINE_MOST];
    char said[LINE_MOST]; /* what its word says, but for the address of a reference; nothing where there is no word */
    const char *refers;   /* to the label of this name */
    const char *defines;  /* the label of this name */
    unsigned refused;     /* by strict assembly alone: 30, 32, else 0 */
};

static struct line lines[LINES_MOST];
static size_t count;
static bool refusing; /* may lines be refused in this text? */

/* ---- a line at random ---------------------------------------------------------------------------------------------------- */

#define ANY(names) names[any_below(sizeof names / sizeof *names)]

static const char *any_register(void)
{
    static const char *const registers[] = {"A", "B", "C", "M", "SP", "PC", "BP", "FLAGS"};
    return ANY(registers);
}

/* the last two are registers too, which JMP and CJP take before a label */
static const char *const names[] = {"a", "b", "loop", "end", "A", "FLAGS"};
enum { NAMES = 6, LABELS_ALONE = 4 };

/* one line in so many, where it may be */
static bool refuse(struct line *l, unsigned number, unsigned one_in)
{
    if (!refusing || any_below(one_in) != 0)
        return false;
    l->refused = number;
    return true;
}

struct number {
    char written[12];
    unsigned value;
};

/* one up to `most`, which fits, or else up to `limit`, which the parser still takes */
static struct number any_number(struct line *l, unsigned most, unsigned limit)
{
    struct number n;
    n.value = any_below(4) == 0 ? most : any_below(most + 1);
    if (refuse(l, KETTLE_FIELD_TOO_WIDE, 50))
        n.value = most + 1 + any_below(limit - most);
    switch (any_below(3)) {
    case 0: snprintf(n.written, sizeof n.written, "#%u", n.value); break;
    case 1: snprintf(n.written, sizeof n.written, "#0x%x", n.value); break;
    default: snprintf(n.written, sizeof n.written, "#+%u", n.value);
    }
    return n;
}

/* MOV, ADD to DIV, comparisons */
static void with_operand(struct line *l, const char *name, unsigned most)
{
    const char *r = any_register(), *o = any_register();
    struct number n = any_number(l, most, 65535);
    bool numbered = l->refused != 0 || any_below(2) == 0;
    snprintf(l->source, LINE_MOST, "%s %s, %s", name, r, numbered ? n.written : o);
    if (numbered)
        snprintf(l->said, LINE_MOST, "%s %s, #%u", name, r, n.value);
    else
        snprintf(l->said, LINE_MOST, "%s %s, %s", name, r, o);
}

/* MSL, MSR: where a word is printed the amount comes first */
static void shift(struct line *l, const char *name)
{
    const char *r = any_register();
    struct number bits = any_number(l, 31, 65535), amount = any_number(l, 7, 255);
    snprintf(l->source, LINE_MOST, "%s %s, [%s %s]", name, r, bits.written, amount.written);
    snprintf(l->said, LINE_MOST, "%s %s, [#%u #%u]", name, r, amount.value, bits.value);
}

/* LDR to STB: a shift of 0 is not printed */
static void transfer(struct line *l, const char *name)
{
    const char *r = any_register(), *a = any_register();
    struct number n = any_number(l, 31, 255);
    snprintf(l->source, LINE_MOST, "%s %s, [%s %s]", name, r, a, n.written);
    if (n.value == 0)
        snprintf(l->said, LINE_MOST, "%s %s, %s", name, r, a);
    else
        snprintf(l->said, LINE_MOST, "%s %s, [%s #%u]", name, r, a, n.value);
}

/* what its word says is what was written */
static void as_written(struct line *l, const char *name, const char *a, const char *b, const char *c)
{
    snprintf(l->source, LINE_MOST, "%s %s%s%s%s%s", name, a, b == NULL ? "" : ", ", b == NULL ? "" : b, c == NULL ? "" : ", ",
             c == NULL ? "" : c);
    strcpy(l->said, l->source);
}

/* JMP, CJP, CALL to a number */
static void jump(struct line *l, const char *name)
{
    struct number n = any_number(l, 2047, 65535);
    snprintf(l->source, LINE_MOST, "%s %s", name, n.written);
    snprintf(l->said, LINE_MOST, "%s #%u", name, n.value);
}

/* and to a name: CALL takes any for a label */
static void refer(struct line *l, const char *name)
{
    l->refers = names[any_below(strcmp(name, "CALL") == 0 ? NAMES : LABELS_ALONE)];
    snprintf(l->source, LINE_MOST, "%s %s", name, l->refers);
    strcpy(l->said, name);
}

/* JMP to a register, or the CJP that strict assembly refuses and whose word says the same */
static void to_register(struct line *l)
{
    const char *r = any_register();
    as_written(l, "JMP", r, NULL, NULL);
    if (refuse(l, KETTLE_NOT_DECODABLE, 8))
        snprintf(l->source, LINE_MOST, "CJP %s", r);
}

static void no_word(struct line *l)
{
    static const char *const without[] = {"", " \t", "; JMP a", "; CJP A", ";a:"};
    if (any_below(3) == 0) {
        strcpy(l->source, ANY(without));
        return;
    }
    l->defines = ANY(names);
    snprintf(l->source, LINE_MOST, "%s:", l->defines);
}

static void any_line(struct line *l)
{
    static const char *const ariths[] = {"ADD", "SUB", "MUL", "DIV"};
    static const char *const compares[] = {"EQ", "NEQ", "LT", "LTE", "GT", "GTE"};
    static const char *const shifts[] = {"MSL", "MSR"}, *const transfers[] = {"LDR", "LDB", "STR", "STB"};
    static const char *const threes[] = {"ADDR", "SUBR", "MULR", "DIVR", "MODR", "EXPR", "SQRTR"};
    static const char *const jumps[] = {"JMP", "CJP", "CALL"};
    memset(l, 0, sizeof *l);
    switch (any_below(14)) {
    case 0: with_operand(l, "MOV", 255); break;
    case 1: with_operand(l, ANY(ariths), 63); break;
    case 2: with_operand(l, ANY(compares), 31); break;
    case 3: shift(l, ANY(shifts)); break;
    case 4: transfer(l, ANY(transfers)); break;
    case 5: as_written(l, ANY(transfers), any_register(), any_register(), NULL); break;
    case 6: as_written(l, "CPY", any_register(), any_register(), NULL); break;
    case 7: as_written(l, ANY(threes), any_register(), any_register(), any_register()); break;
    case 8: jump(l, ANY(jumps)); break;
    case 9: to_register(l); break;
    case 10: strcpy(l->source, "RET"), strcpy(l->said, "RET"); break;
    case 11: strcpy(l->source, "DBG"), strcpy(l->said, "NOOP"); break;
    case 12: refer(l, ANY(jumps)); break;
    default: no_word(l);
    }
}

/* ---- the second reckoning ------------------------------------------------------------------------------------------------ */

static bool defined_at(size_t i, const char *name)
{
    return lines[i].defines != NULL && strcmp(lines[i].defines, name) == 0;
}

/* the line that a name stands for in line i: its latest definition before, else the first one after; `count` for none */
static size_t definition(const char *name, size_t i)
{
    size_t found = count;
    for (size_t k = count; k > i; k--)
        if (defined_at(k - 1, name))
            found = k - 1;
    for (size_t k = 0; k < i; k++)
        if (defined_at(k, name))
            found = k;
    return found;
}

static size_t words_before(size_t i)
{
    size_t n = 0;
    while (i > 0)
        n += lines[--i].said[0] != 0;
    return n;
}

/* the labels of all references into what their words say; how many references are open */
static uint64_t resolve(void)
{
    uint64_t open = 0;
    for (size_t i = 0; i < count; i++) {
        if (lines[i].refers == NULL)
            continue;
        size_t at = definition(lines[i].refers, i), n = strlen(lines[i].said);
        if (at < count)
            snprintf(lines[i].said + n, LINE_MOST - n, " #%zu", 2 * words_before(at));
        else
            strcpy(lines[i].said, "NOOP"), open++;
    }
    return open;
}

static uint64_t labels(void)
{
    uint64_t n = 0;
    for (size_t i = 0; i < NAMES; i++)
        n += definition(names[i], 0) < count;
    return n;
}

/* the first line that strict assembly refuses; `count` for none */
static size_t first_refused(void)
{
    size_t i = 0;
    while (i < count && lines[i].refused == 0)
        i++;
    return i;
}

/* ---- beside the library -------------------------------------------------------------------------------------------------- */

/* accepted texts and their words, texts refused with 30 and with 32 */
static unsigned long long accepted, said_words, too_wide, not_decodable;

static struct bytes joined(void)
{
    static char text[LINES_MOST * (LINE_MOST + 2)];
    size_t n = 0;
    text[0] = 0;
    for (size_t i = 0; i < count; i++)
        n += (size_t)snprintf(text + n, sizeof text - n, "%s%s", lines[i].source, any_below(8) == 0 ? "\r\n" : "\n");
    struct bytes b = lend_text(text);
    read_only(&b);
    return b;
}

/* each word, but of a number that was cut, says what its line says */
static void each_says(const struct bytes *words, struct bytes *out)
{
    const uint8_t *word = words->at;
    for (size_t i = 0; i < count; i++) {
        size_t n = strlen(lines[i].said);
        if (n == 0)
            continue;
        during(lines[i].source, (long)i + 1, (long)count, 0);
        if (lines[i].refused != KETTLE_FIELD_TOO_WIDE) {
            NUMBER(print(kettle_word(word), out), (uint64_t)n << 16);
            CHECK(memcmp(out->at, lines[i].said, n) == 0);
        }
        word += 2;
    }
}

static void one_text(struct bytes *words, struct bytes *out)
{
    static uint8_t kept[2 * LINES_MOST];
    count = 1 + any_below(any_below(4) == 0 ? LINES_MOST : 60);
    refusing = any_below(2) == 0;
    for (size_t i = 0; i < count; i++)
        any_line(&lines[i]);
    uint64_t open = resolve(), counted = words_before(count) << 16 | open << 32 | labels() << 48;
    size_t bad = first_refused();
    struct bytes text = joined();
    during("a text at random, of lines", (long)count, (long)bad, 0);
    NUMBER(assemble(&text, 0, words), counted);
    each_says(words, out);
    memcpy(kept, words->at, words->len);
    during("the same strictly", (long)count, (long)bad, 0);
    if (bad < count) {
        NUMBER(assemble(&text, 1, words), lines[bad].refused | (uint64_t)(bad + 1) << 16);
        too_wide += lines[bad].refused == KETTLE_FIELD_TOO_WIDE;
        not_decodable += lines[bad].refused == KETTLE_NOT_DECODABLE;
    } else {
        NUMBER(assemble(&text, 1, words), counted);
        CHECK(memcmp(words->at, kept, words->len) == 0);
        accepted++;
        said_words += words_before(count);
    }
    give_back(&text);
}

void test_meanings(void)
{
    struct bytes words = lend(2 * LINES_MOST), out = lend(KETTLE_PRINT_MOST);
    for (int i = 0; i < TEXTS; i++)
        one_text(&words, &out);
    give_back(&words);
    give_back(&out);
    during("texts accepted, refused with 30, with 32", (long)accepted, (long)too_wide, (long)not_decodable);
    CHECK(accepted > 0 && too_wide > 0 && not_decodable > 0);
    if (edge == AT_END)
        printf("%llu words of %llu texts say what their lines say; refused with 30: %llu, with 32: %llu\n", said_words, accepted,
               too_wide, not_decodable);
}
