#include "fields.h"

#include <inttypes.h>
#include <stdio.h>
#include <stdlib.h>
#include <string.h>

int span_is(struct span s, const char *word)
{
    return s.len == strlen(word) && memcmp(s.at, word, s.len) == 0;
}

struct fields fields_of(struct span line)
{
    struct fields f = {line.at, line.at + line.len};
    return f;
}

int fields_more(const struct fields *f)
{
    return f->at != NULL;
}

int field(struct fields *f, struct span *found)
{
    const char *space;
    if (f->at == NULL)
        return 0;
    space = memchr(f->at, ' ', (size_t)(f->end - f->at));
    found->at = f->at;
    found->len = (size_t)((space != NULL ? space : f->end) - f->at);
    f->at = space != NULL ? space + 1 : NULL;
    return found->len != 0;
}

int number(struct fields *f, uint64_t most, uint64_t *value)
{
    struct span digits;
    size_t i;
    if (!field(f, &digits))
        return 0;
    *value = 0;
    for (i = 0; i < digits.len; i++) {
        if (digits.at[i] < '0' || digits.at[i] > '9')
            return 0;
        *value = *value * 10 + (uint64_t)(digits.at[i] - '0');
        if (*value > most)
            return 0;
    }
    return 1;
}

int word(struct fields *f, uint16_t *value)
{
    uint64_t n;
    if (!number(f, 65535, &n))
        return 0;
    *value = (uint16_t)n;
    return 1;
}

static int digit(char c)
{
    if (c >= '0' && c <= '9')
        return c - '0';
    return c >= 'a' && c <= 'f' ? c - 'a' + 10 : -1;
}

int text(struct fields *f, struct lent *bytes)
{
    struct span hex;
    size_t i;
    if (!field(f, &hex))
        return 0;
    if (span_is(hex, "-"))
        hex.len = 0;
    if (hex.len % 2 != 0)
        return 0;
    *bytes = lend(hex.len / 2, 0);
    for (i = 0; i < bytes->len; i++) {
        int high = digit(hex.at[2 * i]), low = digit(hex.at[2 * i + 1]);
        if (high < 0 || low < 0) {
            lent_return(bytes);
            return 0;
        }
        bytes->bytes[i] = (uint8_t)(16 * high + low);
    }
    return 1;
}

static char *grown(struct out *o, size_t by)
{
    if (o->len + by + 1 > o->room) {
        o->room = 2 * (o->len + by + 1);
        o->at = realloc(o->at, o->room);
        if (o->at == NULL) {
            fputs("through_c: no room\n", stderr);
            exit(1);
        }
    }
    o->len += by;
    o->at[o->len] = 0;
    return o->at + o->len - by;
}

void out_clear(struct out *o)
{
    o->len = 0;
    grown(o, 0);
}

void out_text(struct out *o, const char *text)
{
    memcpy(grown(o, strlen(text)), text, strlen(text));
}

void out_number(struct out *o, uint64_t n)
{
    char digits[24];
    snprintf(digits, sizeof digits, "%" PRIu64, n);
    out_text(o, digits);
}

void out_hex(struct out *o, const uint8_t *bytes, size_t len)
{
    char *to;
    size_t i;
    if (len == 0) {
        out_text(o, "-");
        return;
    }
    to = grown(o, 2 * len);
    for (i = 0; i < len; i++) {
        to[2 * i] = "0123456789abcdef"[bytes[i] / 16];
        to[2 * i + 1] = "0123456789abcdef"[bytes[i] % 16];
    }
}

void out_word(struct out *o, uint16_t w)
{
    char *to = grown(o, 4);
    int i;
    for (i = 0; i < 4; i++)
        to[i] = "0123456789ABCDEF"[w >> (12 - 4 * i) & 15];
}
