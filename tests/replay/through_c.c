/*
 * through_c SCRIPT ANSWERS [SCRIPT ANSWERS ..]: carries out scripts of the replay language (docs/REPLAY.md) as a C host does,
 * through the entries of seamkettle.h alone, and compares each answer with the given one. The `~` before an answer of the oracle
 * is taken off.
 *
 * Exit status: 0 no difference, and every entry was asked; 1 otherwise; 2 a file is missing or the answers are not those of the
 * script.
 */
#include "host.h"

#include <inttypes.h>
#include <stdio.h>
#include <stdlib.h>

/* A difference makes others behind it; so many are shown. */
enum { SHOWN = 40, CUT = 600 };

struct row {
    const char *name;
    command *run;      /* NULL: there is no entry for it, and it changes nothing */
    const char *entry; /* that the command stands for */
};

static const struct row rows[] = {
    {"new", do_new, NULL},
    {"poke", do_poke, NULL},
    {"regs", do_regs, NULL},
    {"cursor", do_cursor, NULL},
    {"tables", do_tables, NULL},
    {"state", do_state, NULL},
    {"set", do_set, "kettle_set_register"},
    {"protect", do_protect, "kettle_protect"},
    {"device", do_device, "kettle_device"},
    {"load", do_load, "kettle_load"},
    {"loadn", do_loadn, "kettle_load"},
    {"read", do_read, "kettle_read"},
    {"step", do_step, "kettle_step"},
    {"run", do_run, "kettle_run"},
    {"back", do_back, "kettle_step_back"},
    {"forget", do_forget, "kettle_forget"},
    {"asm", do_asm, "kettle_assemble"},
    {"asmn", do_asmn, "kettle_assemble"},
    {"listing", do_listing, "kettle_list"},
    {"text", do_text, "kettle_text"},
    {"textn", do_textn, "kettle_text"},
    {"print", do_print, "kettle_print"},
    {"decode", do_decode, "kettle_print"},
    {"byte", do_byte, NULL},
    {"word", do_word, NULL},
    {"put", do_put, NULL},
    {"putw", do_putw, NULL},
    {"encode", NULL, NULL},
    {"line", NULL, NULL},
    {"(no command)", NULL, NULL},
};

enum { ROWS = sizeof rows / sizeof rows[0] };

static const char *const entries[] = {
    "kettle_assemble", "kettle_load", "kettle_step", "kettle_run", "kettle_step_back", "kettle_set_register",
    "kettle_protect", "kettle_device", "kettle_forget", "kettle_read", "kettle_list", "kettle_print", "kettle_text",
};

static const char *const reasons[OUTCOMES] = {
    [NO_ENTRY] = "commands that no entry stands for",
    [NO_COMMAND] = "lines that are answered `?`",
    [BROKEN_TABLES] = "single bytes and words, on tables that are not valid",
    [WIDE_COUNT] = "a table's count over 255, which a block cannot hold",
    [TOP_ADDRESS] = "bytes and words that kettle_read does not reach",
    [LABEL_ROOM] = "texts whose answer hangs on a label table longer than 1,024",
};

static uint64_t tally[ROWS][OUTCOMES];
static uint64_t different, steps_of_runs;

/* ---- files --------------------------------------------------------------------------------------------------------------- */

static void broken(const char *name, const char *what)
{
    fprintf(stderr, "through_c: %s: %s\n", name, what);
    exit(2);
}

static struct span whole_file(const char *name)
{
    struct span s = {NULL, 0};
    FILE *file = fopen(name, "rb");
    size_t room = 1 << 20, got;
    char *bytes = malloc(room);
    if (file == NULL)
        broken(name, "cannot be read");
    while (bytes != NULL && (got = fread(bytes + s.len, 1, room - s.len, file)) != 0) {
        s.len += got;
        if (s.len == room)
            bytes = realloc(bytes, room *= 2);
    }
    if (bytes == NULL || ferror(file))
        broken(name, "cannot be read");
    fclose(file);
    s.at = bytes;
    return s;
}

/* The next line; the last one may have no line end. */
static int line_of(struct span *rest, struct span *line)
{
    const char *end;
    if (rest->len == 0)
        return 0;
    end = memchr(rest->at, '\n', rest->len);
    line->at = rest->at;
    line->len = end != NULL ? (size_t)(end - rest->at) : rest->len;
    rest->at += line->len + (end != NULL);
    rest->len -= line->len + (end != NULL);
    return 1;
}

/* ---- one line ------------------------------------------------------------------------------------------------------------ */

static size_t row_of(struct span name)
{
    size_t i = 0;
    while (i < ROWS - 1 && !span_is(name, rows[i].name))
        i++;
    return i;
}

static enum outcome carried_out(struct job *job, size_t row)
{
    enum outcome done;
    if (span_is(job->expected, "?"))
        return NO_COMMAND;
    if (rows[row].run == NULL)
        return row == ROWS - 1 ? UNREADABLE : NO_ENTRY;
    done = rows[row].run(job);
    if (done == BY_HOST)
        out_text(&job->got, "ok");
    return fields_more(&job->fields) ? UNREADABLE : done;
}

static void show(const char *what, struct span s)
{
    printf("  %s ", what);
    fwrite(s.at, 1, s.len < CUT ? s.len : CUT, stdout);
    if (s.len > CUT)
        printf(".. (%lu characters)", (unsigned long)s.len);
    putchar('\n');
}

static size_t same_start(struct span a, struct span b)
{
    size_t i = 0;
    while (i < a.len && i < b.len && a.at[i] == b.at[i])
        i++;
    return i;
}

static void differs(const struct job *job, const char *script, struct span line)
{
    struct span got = {job->got.at, job->got.len};
    if (different++ >= SHOWN)
        return;
    printf("DIFFERENCE in %s, line %" PRIu64 ", from character %lu of the answer on:\n", script, job->at,
           (unsigned long)same_start(job->expected, got) + 1);
    show("command: ", line);
    show("expected:", job->expected);
    show("got:     ", got);
}

static void note_where(const char *script, uint64_t at, struct span line)
{
    snprintf(lent_where, sizeof lent_where, "%.80s, line %" PRIu64 ": %.*s", script, at, (int)(line.len < 60 ? line.len : 60),
             line.at);
}

static void one_line(struct job *job, const char *script, struct span line, struct span answer)
{
    struct span name = {line.at, 0};
    enum outcome done;
    size_t row;
    if (answer.len != 0 && answer.at[0] == '~') {
        answer.at++;
        answer.len--;
    }
    note_where(script, job->at, line);
    job->fields = fields_of(line);
    row = field(&job->fields, &name) ? row_of(name) : ROWS - 1;
    job->expected = answer;
    out_clear(&job->got);
    done = carried_out(job, row);
    tally[row][done]++;
    if (done == UNREADABLE || (done <= BY_HOST && !span_is(job->expected, job->got.at)))
        differs(job, script, line);
    if (done == COMPARED && rows[row].run == do_run)
        steps_of_runs += strtoull(strrchr(job->got.at, ' ') + 1, NULL, 10);
}

/* ---- a script ------------------------------------------------------------------------------------------------------------ */

static void one_script(const char *script, const char *answers)
{
    struct span lines = whole_file(script), given = whole_file(answers), rest = lines, left = given, line, answer;
    struct host host = host_fresh();
    struct job job = {&host, {NULL, NULL}, {NULL, 0}, {NULL, 0, 0}, 0};
    while (line_of(&rest, &line)) {
        if (!line_of(&left, &answer))
            broken(answers, "fewer answers than the script has lines");
        job.at++;
        one_line(&job, script, line, answer);
    }
    if (left.len != 0)
        broken(answers, "more answers than the script has lines");
    host_return(&host);
    free(job.got.at);
    free((char *)(uintptr_t)lines.at);
    free((char *)(uintptr_t)given.at);
}

/* ---- the end ------------------------------------------------------------------------------------------------------------- */

static uint64_t skipped(size_t row)
{
    uint64_t n = 0;
    int why;
    for (why = BY_HOST + 1; why < OUTCOMES; why++)
        n += tally[row][why];
    return n;
}

static uint64_t of_all(int outcome)
{
    uint64_t n = 0;
    size_t i;
    for (i = 0; i < ROWS; i++)
        n += tally[i][outcome];
    return n;
}

static void show_table(void)
{
    size_t i;
    int why;
    printf("%-14s %10s %10s %10s  %s\n", "command", "compared", "skipped", "own bytes", "entry");
    for (i = 0; i < ROWS; i++)
        printf("%-14s %10" PRIu64 " %10" PRIu64 " %10" PRIu64 "  %s\n", rows[i].name, tally[i][COMPARED], skipped(i),
               tally[i][BY_HOST], rows[i].entry != NULL ? rows[i].entry : "");
    printf("accepted steps of runs: %" PRIu64 "\n", steps_of_runs);
    for (why = NO_ENTRY; why < OUTCOMES; why++)
        if (of_all(why) != 0)
            printf("skipped %" PRIu64 ": %s\n", of_all(why), reasons[why]);
}

/* how many entries no command was compared for */
static int never_asked(void)
{
    int missing = 0;
    size_t e, i;
    for (e = 0; e < sizeof entries / sizeof entries[0]; e++) {
        uint64_t n = 0;
        for (i = 0; i < ROWS; i++)
            if (rows[i].entry != NULL && strcmp(rows[i].entry, entries[e]) == 0)
                n += tally[i][COMPARED];
        if (n == 0) {
            printf("NOT ONE command was compared for %s\n", entries[e]);
            missing++;
        }
    }
    return missing;
}

int main(int argc, char **argv)
{
    uint64_t all = 0;
    int i, missing;
    size_t row;
    if (argc < 3 || argc % 2 == 0) {
        fputs("usage: through_c SCRIPT ANSWERS [SCRIPT ANSWERS ..]\n", stderr);
        return 2;
    }
    lent_watch();
    for (i = 1; i < argc; i += 2)
        one_script(argv[i], argv[i + 1]);
    for (row = 0; row < ROWS; row++)
        all += skipped(row);
    show_table();
    missing = never_asked();
    if (different > SHOWN)
        printf("%" PRIu64 " differences more are not shown\n", different - SHOWN);
    printf("%" PRIu64 " compared, %" PRIu64 " skipped, %" PRIu64 " different\n", of_all(COMPARED), all, different);
    return different != 0 || missing != 0 ? 1 : 0;
}
