/* The machine's commands, each by the entry of its name. */
#include "host.h"

enum { WORDS_MOST = 32800, ROOM_MOST = 65600 };

void say_answer(struct out *o, uint64_t answer)
{
    if (kettle_code_of(answer) == KETTLE_ACCEPTED) {
        out_text(o, "ok");
    } else {
        out_text(o, "no ");
        out_number(o, kettle_code_of(answer));
    }
    if (answer >> 16 != 0) {
        out_text(o, " above ");
        out_number(o, answer >> 16);
    }
}

static enum outcome answered(struct job *job, uint64_t answer)
{
    say_answer(&job->got, answer);
    return COMPARED;
}

enum outcome do_set(struct job *job)
{
    uint16_t r, v;
    if (!word(&job->fields, &r) || !word(&job->fields, &v))
        return UNREADABLE;
    if (job->host->wide)
        return WIDE_COUNT;
    return answered(job, kettle_set_register(NO_MEMORY(job->host), r, v));
}

enum outcome do_protect(struct job *job)
{
    uint16_t start, len;
    if (!word(&job->fields, &start) || !word(&job->fields, &len))
        return UNREADABLE;
    if (job->host->wide)
        return WIDE_COUNT;
    return answered(job, kettle_protect(NO_MEMORY(job->host), start, len));
}

enum outcome do_device(struct job *job)
{
    uint16_t start, size;
    if (!word(&job->fields, &start) || !word(&job->fields, &size))
        return UNREADABLE;
    if (job->host->wide)
        return WIDE_COUNT;
    return answered(job, kettle_device(NO_MEMORY(job->host), start, size));
}

enum outcome do_forget(struct job *job)
{
    if (job->host->wide)
        return WIDE_COUNT;
    return answered(job, kettle_forget(NO_MEMORY(job->host)));
}

enum outcome do_back(struct job *job)
{
    if (job->host->wide)
        return WIDE_COUNT;
    return answered(job, kettle_step_back(WHOLE(job->host)));
}

/* takes the words back */
static enum outcome loaded(struct job *job, struct lent *words)
{
    enum outcome done = WIDE_COUNT;
    if (!job->host->wide) {
        lent_keep(words);
        done = answered(job, kettle_load(WHOLE(job->host), LENT(*words)));
    }
    lent_return(words);
    return done;
}

static size_t fields_left(struct fields f)
{
    struct span found;
    size_t n = 0;
    while (field(&f, &found))
        n++;
    return n;
}

int lend_list(struct fields *f, struct lent *words)
{
    size_t i, count = fields_left(*f);
    if (count > WORDS_MOST)
        return 0;
    *words = lend(2 * count, 0);
    for (i = 0; i < count; i++) {
        uint16_t w;
        if (!word(f, &w)) {
            lent_return(words);
            return 0;
        }
        write_word(words->bytes + 2 * i, w);
    }
    return 1;
}

int lend_copies(struct fields *f, struct lent *words)
{
    uint64_t i, count;
    uint16_t w;
    if (!number(f, WORDS_MOST, &count) || !word(f, &w))
        return 0;
    *words = lend((size_t)(2 * count), 0);
    for (i = 0; i < count; i++)
        write_word(words->bytes + 2 * i, w);
    return 1;
}

enum outcome do_load(struct job *job)
{
    struct lent words;
    return lend_list(&job->fields, &words) ? loaded(job, &words) : UNREADABLE;
}

enum outcome do_loadn(struct job *job)
{
    struct lent words;
    return lend_copies(&job->fields, &words) ? loaded(job, &words) : UNREADABLE;
}

enum outcome do_read(struct job *job)
{
    uint16_t start;
    uint64_t size, room, answer;
    struct lent buffer;
    if (!word(&job->fields, &start) || !number(&job->fields, UINT32_MAX, &size) || !number(&job->fields, ROOM_MOST, &room))
        return UNREADABLE;
    if (job->host->wide)
        return WIDE_COUNT;
    buffer = lend((size_t)room, 0xEE);
    answer = kettle_read(WHOLE(job->host), start, (size_t)size, LENT(buffer));
    if (kettle_code_of(answer) == KETTLE_ACCEPTED)
        out_number(&job->got, kettle_bytes(answer));
    else
        say_answer(&job->got, answer);
    out_text(&job->got, " ");
    out_hex(&job->got, LENT(buffer));
    lent_return(&buffer);
    return COMPARED;
}

static void say_step(struct out *o, unsigned code)
{
    if (code == KETTLE_ACCEPTED)
        out_text(o, "continue");
    else if (code == KETTLE_DEBUG)
        out_text(o, "debug");
    else if (code == KETTLE_STOP)
        out_text(o, "stop");
    else
        say_answer(o, code);
}

enum outcome do_step(struct job *job)
{
    uint64_t answer;
    if (job->host->wide)
        return WIDE_COUNT;
    answer = kettle_step(WHOLE(job->host));
    say_step(&job->got, kettle_code_of(answer));
    if (answer >> 16 != 0)
        out_text(&job->got, " above");
    return COMPARED;
}

enum outcome do_run(struct job *job)
{
    uint64_t steps, answer;
    if (!number(&job->fields, UINT32_MAX, &steps))
        return UNREADABLE;
    if (job->host->wide)
        return WIDE_COUNT;
    answer = kettle_run(WHOLE(job->host), (uint32_t)steps);
    say_step(&job->got, kettle_code_of(answer));
    out_text(&job->got, " ");
    out_number(&job->got, kettle_steps(answer));
    return COMPARED;
}
