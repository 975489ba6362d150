/* Texts: assembled into words, and listed; and the text of one word. */
#include "host.h"

#include <stdlib.h>

enum { LABELS = 1024, WORDS_MOST = 32800, LABELS_MOST = 1100, COPIES_MOST = 131200, ROOM_MOST = 65600 };

struct rules {
    int strict;
    uint64_t words, labels;
};

static int rules_of(struct job *job, struct rules *r)
{
    struct span how;
    if (!field(&job->fields, &how))
        return 0;
    r->strict = span_is(how, "strict");
    if (!r->strict && !span_is(how, "plain"))
        return 0;
    return number(&job->fields, WORDS_MOST, &r->words) && number(&job->fields, LABELS_MOST, &r->labels);
}

/* where the next ` | ` begins; the end where there is none */
static size_t bar(struct span s, size_t from)
{
    size_t i;
    for (i = from; i + 3 <= s.len; i++)
        if (memcmp(s.at + i, " | ", 3) == 0)
            return i;
    return s.len;
}

static int begins(struct span s, const char *with)
{
    struct span start = {s.at, strlen(with)};
    return s.len >= start.len && span_is(start, with);
}

/* The entry's label table has 1,024 entries. An answer that hangs on a longer one is not its answer. */
static int hangs_on_labels(struct job *job, const struct rules *r, unsigned code)
{
    struct fields f = fields_of(job->expected);
    struct span said;
    uint64_t words, labels = 0;
    if (code != KETTLE_TOO_MANY_LABELS || r->labels <= LABELS)
        return 0;
    /* accepted with a longer table: only more labels than the entry has room for excuse it */
    if (field(&f, &said) && span_is(said, "ok") && number(&f, WORDS_MOST, &words) && number(&f, LABELS_MOST, &labels))
        return labels > LABELS;
    return 1;
}

/* A shorter label table: lines before the text define so many labels of other names that as many are left. Answers how many. */
static uint64_t shortened(const struct rules *r, struct lent *text)
{
    struct out lines = {NULL, 0, 0};
    struct lent whole;
    uint64_t i, count = LABELS - r->labels;
    for (i = 0; i < count; i++) {
        out_text(&lines, "<taken ");
        out_number(&lines, i);
        out_text(&lines, ">:\n");
    }
    whole = lend(lines.len + text->len, 0);
    memcpy(whole.bytes, lines.at, lines.len);
    if (text->len != 0)
        memcpy(whole.bytes + lines.len, text->bytes, text->len);
    free(lines.at);
    lent_return(text);
    *text = whole;
    return count;
}

/* so many lines were put before the text */
static void say_assembled(struct out *o, uint64_t answer, uint64_t before, const struct lent *words)
{
    size_t i;
    if (kettle_code_of(answer) == KETTLE_ACCEPTED) {
        out_text(o, "ok ");
        out_number(o, kettle_words(answer));
        out_text(o, " ");
        out_number(o, kettle_labels(answer));
        out_text(o, " ");
        out_number(o, kettle_open_references(answer));
    } else {
        out_text(o, "no ");
        out_number(o, kettle_code_of(answer));
        out_text(o, " line ");
        out_number(o, kettle_line(answer) - before);
    }
    out_text(o, " | ");
    for (i = 0; i < words->len; i += 2) {
        out_text(o, i == 0 ? "" : " ");
        out_word(o, kettle_word(words->bytes + i));
    }
}

/* the label entries, after the second bar, are not seen from C; takes the text back */
static enum outcome assembled(struct job *job, const struct rules *r, struct lent *text)
{
    struct lent words = lend((size_t)(2 * r->words), 0xEE);
    uint8_t strict = (uint8_t)(r->strict ? 1 + job->at % 255 : 0);
    enum outcome done = LABEL_ROOM;
    uint64_t answer, before = 0;
    if (begins(job->expected, "no 27 ") && r->labels < LABELS)
        before = shortened(r, text);
    lent_keep(text);
    answer = kettle_assemble(LENT(*text), strict, LENT(words));
    if (!hangs_on_labels(job, r, kettle_code_of(answer))) {
        job->expected.len = bar(job->expected, bar(job->expected, 0) + 3);
        say_assembled(&job->got, answer, before, &words);
        done = COMPARED;
    }
    lent_return(&words);
    lent_return(text);
    return done;
}

enum outcome do_asm(struct job *job)
{
    struct rules r;
    struct lent bytes;
    if (!rules_of(job, &r) || !text(&job->fields, &bytes))
        return UNREADABLE;
    return assembled(job, &r, &bytes);
}

/* so many copies of a text, then the rest */
static struct lent repeated(uint64_t count, const struct lent *part, const struct lent *rest)
{
    struct lent whole = lend((size_t)count * part->len + rest->len, 0);
    size_t at = 0;
    for (; part->len != 0 && count > 0; count--, at += part->len)
        memcpy(whole.bytes + at, part->bytes, part->len);
    if (rest->len != 0)
        memcpy(whole.bytes + at, rest->bytes, rest->len);
    return whole;
}

enum outcome do_asmn(struct job *job)
{
    struct rules r;
    uint64_t count;
    struct lent part, rest, whole;
    int fits;
    if (!rules_of(job, &r) || !number(&job->fields, WORDS_MOST, &count) || !text(&job->fields, &part))
        return UNREADABLE;
    if (!text(&job->fields, &rest)) {
        lent_return(&part);
        return UNREADABLE;
    }
    fits = count * part.len + rest.len <= COPIES_MOST;
    whole = fits ? repeated(count, &part, &rest) : lend(0, 0);
    lent_return(&part);
    lent_return(&rest);
    return fits ? assembled(job, &r, &whole) : UNREADABLE;
}

/* one byte too little: 19, and the buffer as it was */
static int refuses_less(const struct lent *text, size_t room)
{
    struct lent out = lend(room, 0xEE);
    int held = kettle_list(LENT(*text), LENT(out)) == KETTLE_NO_ROOM;
    size_t i;
    for (i = 0; i < room; i++)
        held = held && out.bytes[i] == 0xEE;
    lent_return(&out);
    return held;
}

/* The buffer is as long as the listing that is expected. */
enum outcome do_listing(struct job *job)
{
    struct lent bytes, out;
    uint64_t answer;
    if (job->expected.len < 2 || !text(&job->fields, &bytes))
        return UNREADABLE;
    out = lend(job->expected.len / 2, 0xEE);
    lent_keep(&bytes);
    answer = kettle_list(LENT(bytes), LENT(out));
    if (kettle_code_of(answer) == KETTLE_ACCEPTED && kettle_bytes(answer) <= out.len)
        out_hex(&job->got, out.bytes, kettle_bytes(answer));
    else
        say_answer(&job->got, answer);
    if (!refuses_less(&bytes, out.len - 1))
        out_text(&job->got, " and not 19 with one byte less");
    lent_return(&bytes);
    lent_return(&out);
    return COMPARED;
}

/* ---- one word ------------------------------------------------------------------------------------------------------------ */

/* A word that says no instruction is answered by its number alone, the buffer being as it was. */
static int says_nothing(unsigned code)
{
    return code >= KETTLE_BAD_OPCODE && code <= KETTLE_BAD_ARITH;
}

enum outcome do_print(struct job *job)
{
    struct lent out;
    uint64_t answer, room;
    uint16_t w;
    if (!word(&job->fields, &w) || !number(&job->fields, ROOM_MOST, &room))
        return UNREADABLE;
    out = lend((size_t)room, 0xEE);
    answer = kettle_print(w, LENT(out));
    if (kettle_code_of(answer) == KETTLE_ACCEPTED)
        out_number(&job->got, kettle_bytes(answer));
    else
        say_answer(&job->got, answer);
    if (!says_nothing(kettle_code_of(answer))) {
        out_text(&job->got, " ");
        out_hex(&job->got, LENT(out));
    }
    lent_return(&out);
    return COMPARED;
}

enum outcome do_decode(struct job *job)
{
    struct lent out;
    uint64_t answer;
    uint16_t w;
    if (!word(&job->fields, &w))
        return UNREADABLE;
    out = lend(KETTLE_PRINT_MOST + 1, 0);
    answer = kettle_print(w, out.bytes, KETTLE_PRINT_MOST);
    if (kettle_code_of(answer) == KETTLE_ACCEPTED)
        out_text(&job->got, (const char *)out.bytes);
    else
        say_answer(&job->got, answer);
    lent_return(&out);
    return COMPARED;
}
