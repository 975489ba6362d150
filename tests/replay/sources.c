/* Text from words, and the way back: plain assembly of it. */
#include "host.h"

enum { ROOM_MOST = 65600, OPEN_MOST = 512 };

static int is_untouched(const struct lent *buffer)
{
    size_t i = 0;
    while (i < buffer->len && buffer->bytes[i] == 0xEE)
        i++;
    return i == buffer->len;
}

/* half a word less is 31, whatever else there is */
static int refuses_half(const struct lent *words, size_t room)
{
    struct lent out = lend(room, 0xEE);
    int held = 1;
    if (words->len != 0)
        held = kettle_text(words->bytes, words->len - 1, LENT(out)) == KETTLE_BAD_BLOCK && is_untouched(&out);
    lent_return(&out);
    return held;
}

/* the same text where there is just room for it, and 19 with one byte less */
static int fits_exactly(const struct lent *words, const uint8_t *text, size_t len)
{
    struct lent exact = lend(len, 0xEE), less = lend(len == 0 ? 0 : len - 1, 0xEE);
    int held = kettle_text(LENT(*words), LENT(exact)) == (uint64_t)len << 16;
    held = held && (len == 0 || memcmp(exact.bytes, text, len) == 0);
    if (len != 0)
        held = held && kettle_text(LENT(*words), LENT(less)) == KETTLE_NO_ROOM && is_untouched(&less);
    lent_return(&exact);
    lent_return(&less);
    return held;
}

/* how many lines name a label: nothing else has a blank before an L */
static size_t references(const uint8_t *text, size_t len)
{
    size_t i, n = 0;
    for (i = 1; i < len; i++)
        n += text[i - 1] == ' ' && text[i] == 'L';
    return n;
}

/* the very same words with no reference left open, or 28 where there may be too many at once */
static int comes_back(const struct lent *words, const uint8_t *text, size_t len)
{
    struct lent again = lend(words->len, 0xEE);
    uint64_t answer = kettle_assemble(text, len, 0, LENT(again));
    int held;
    if (kettle_code_of(answer) == KETTLE_TOO_MANY_FIXUPS)
        held = references(text, len) > OPEN_MOST;
    else
        held = kettle_code_of(answer) == KETTLE_ACCEPTED && kettle_words_len(answer) == words->len &&
               kettle_open_references(answer) == 0 && (words->len == 0 || memcmp(again.bytes, words->bytes, words->len) == 0);
    lent_return(&again);
    return held;
}

static void say_written(struct job *job, const struct lent *words, const struct lent *out, uint64_t answer)
{
    size_t len = kettle_bytes(answer);
    unsigned code = kettle_code_of(answer);
    if (code == KETTLE_ACCEPTED) {
        out_number(&job->got, len);
    } else if (code == KETTLE_NO_TEXT) {
        out_text(&job->got, "no 33 ");
        out_number(&job->got, kettle_index(answer));
    } else {
        say_answer(&job->got, answer);
    }
    out_text(&job->got, " ");
    out_hex(&job->got, LENT(*out));
    if (code != KETTLE_ACCEPTED || len > out->len)
        return;
    if (!fits_exactly(words, out->bytes, len))
        out_text(&job->got, " and otherwise in just enough room, or in less");
    if (!comes_back(words, out->bytes, len))
        out_text(&job->got, " and not back");
}

/* takes the words back */
static enum outcome written(struct job *job, struct lent *words, uint64_t room)
{
    struct lent out = lend((size_t)room, 0xEE);
    lent_keep(words);
    say_written(job, words, &out, kettle_text(LENT(*words), LENT(out)));
    if (!refuses_half(words, out.len))
        out_text(&job->got, " and not 31 with half a word less");
    lent_return(&out);
    lent_return(words);
    return COMPARED;
}

enum outcome do_text(struct job *job)
{
    uint64_t room;
    struct lent words;
    if (!number(&job->fields, ROOM_MOST, &room) || !lend_list(&job->fields, &words))
        return UNREADABLE;
    return written(job, &words, room);
}

enum outcome do_textn(struct job *job)
{
    uint64_t room;
    struct lent words;
    if (!lend_copies(&job->fields, &words))
        return UNREADABLE;
    if (!number(&job->fields, ROOM_MOST, &room)) {
        lent_return(&words);
        return UNREADABLE;
    }
    return written(job, &words, room);
}
