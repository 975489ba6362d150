/* The second printer, written from the paper: what a word says, and the line that gives the word. */
#include <stdarg.h>
#include <stdio.h>

#include "check.h"

static void say(struct said *s, const char *form, ...)
{
    va_list rest;
    va_start(rest, form);
    int n = vsnprintf(s->text + s->len, sizeof s->text - s->len, form, rest);
    va_end(rest);
    s->len += (size_t)n;
}

static unsigned field(unsigned word, unsigned from, unsigned width)
{
    return word >> from & ((1u << width) - 1);
}

/* the register whose number is in three bits */
static const char *name(unsigned word, unsigned from)
{
    static const char *const names[] = {"A", "B", "C", "M", "SP", "PC", "BP", "FLAGS"};
    return names[field(word, from, 3)];
}

/* what is behind the bit that says whether it is a register: its name, else # and the number */
static void operand(struct said *s, unsigned word, unsigned bit, unsigned width)
{
    if (field(word, bit, 1))
        say(s, "%s", name(word, bit + 1));
    else
        say(s, "#%u", field(word, bit + 1, width));
}

/* an address register alone, or with its shift in brackets */
static void address(struct said *s, unsigned word, const char *loads, const char *stores)
{
    unsigned shift = field(word, 11, 5);
    say(s, "%s %s, ", field(word, 10, 1) ? stores : loads, name(word, 4));
    if (shift == 0)
        say(s, "%s", name(word, 7));
    else
        say(s, "[%s #%u]", name(word, 7), shift);
}

static unsigned compare(struct said *s, unsigned word)
{
    static const char *const compares[] = {"EQ", "NEQ", "LT", "LTE", "GT", "GTE"};
    unsigned op = field(word, 7, 3);
    if (op > 5)
        return 5;
    say(s, "%s %s, ", compares[op], name(word, 4));
    operand(s, word, 10, 5);
    return 0;
}

static unsigned three_registers(struct said *s, unsigned word)
{
    static const char *const ops[] = {"ADDR", "SUBR", "MULR", "DIVR", "MODR", "EXPR", "SQRTR"};
    unsigned op = field(word, 7, 3);
    if (op > 6)
        return 6;
    say(s, "%s %s, %s, %s", ops[op], name(word, 4), name(word, 10), name(word, 13));
    return 0;
}

unsigned ref_print(struct said *s, unsigned word)
{
    static const char *const ops[] = {"ADD", "SUB", "MUL", "DIV"};
    s->len = 0;
    switch (field(word, 0, 4)) {
    case 0: say(s, "NOOP"); return 0;
    case 1: say(s, "MOV %s, ", name(word, 4)); operand(s, word, 7, 8); return 0;
    case 2:
        say(s, "%s %s, [#%u #%u]", field(word, 10, 1) ? "MSL" : "MSR", name(word, 4), field(word, 7, 3), field(word, 11, 5));
        return 0;
    case 3: say(s, "%s %s, ", ops[field(word, 7, 2)], name(word, 4)); operand(s, word, 9, 6); return 0;
    case 4: address(s, word, "LDR", "STR"); return 0;
    case 8: address(s, word, "LDB", "STB"); return 0;
    case 5: /* with a register it is JMP */
    case 6: say(s, "%s ", field(word, 0, 5) == 5 ? "CJP" : "JMP"); operand(s, word, 4, 11); return 0;
    case 7: return compare(s, word);
    case 9: say(s, "CPY %s, %s", name(word, 4), name(word, 7)); return 0;
    case 10: return three_registers(s, word);
    case 11:
        if (field(word, 4, 1))
            say(s, "RET");
        else
            say(s, "CALL #%u", field(word, 5, 11));
        return 0;
    default: return 4;
    }
}

void ref_line(struct said *s, unsigned word)
{
    ref_print(s, word);
    if (field(word, 0, 5) != 21 && field(word, 0, 4) != 0 && field(word, 0, 4) != 2)
        return;
    s->len = 0;
    if (field(word, 0, 5) == 21)
        say(s, "CJP %s", name(word, 5));
    else if (field(word, 0, 4) == 0)
        say(s, "DBG");
    else
        say(s, "%s %s, [#%u #%u]", field(word, 10, 1) ? "MSL" : "MSR", name(word, 4), field(word, 11, 5), field(word, 7, 3));
}
