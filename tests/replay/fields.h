/* The fields of a line, parted by exactly one space, and an answer that grows. docs/REPLAY.md has the language. */
#ifndef FIELDS_H
#define FIELDS_H

#include "lent.h"

struct span {
    const char *at;
    size_t len;
};

int span_is(struct span s, const char *word);

struct fields {
    const char *at; /* NULL after the last field */
    const char *end;
};

struct fields fields_of(struct span line);
int fields_more(const struct fields *f);

/* The next field. Each of these answers 0 where there is no such field. */
int field(struct fields *f, struct span *found);
int number(struct fields *f, uint64_t most, uint64_t *value);
int word(struct fields *f, uint16_t *value);
/* lower-case hex pairs, `-` for none; the buffer is to be returned */
int text(struct fields *f, struct lent *bytes);

struct out {
    char *at;
    size_t len, room;
};

void out_clear(struct out *o);
void out_text(struct out *o, const char *text);
void out_number(struct out *o, uint64_t n);
void out_hex(struct out *o, const uint8_t *bytes, size_t len);
void out_word(struct out *o, uint16_t w); /* four upper-case hex digits */

#endif
