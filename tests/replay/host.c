#include "host.h"

#include <stdio.h>

enum { MEMORY_MOST = 65792, JOURNAL_MOST = 94300 };

void write_word(uint8_t *bytes, uint16_t w)
{
    bytes[0] = (uint8_t)(w & 255);
    bytes[1] = (uint8_t)(w >> 8);
}

struct host host_fresh(void)
{
    struct host h = {lend(KETTLE_BLOCK_SIZE, 0), lend(0, 0), lend(0, 0), lend(0, 0), 0};
    kettle_fresh(h.block.bytes, 0);
    return h;
}

void host_return(struct host *h)
{
    lent_return(&h->block);
    lent_return(&h->memory);
    lent_return(&h->devices);
    lent_return(&h->journal);
}

static struct lent filled(uint64_t len, uint64_t seed)
{
    struct lent made = lend((size_t)len, 0);
    uint64_t i;
    for (i = 0; i < len; i++)
        made.bytes[i] = (uint8_t)(seed * (i + 1) * 40503 / 128);
    return made;
}

enum outcome do_new(struct job *job)
{
    uint64_t memory, devices, journal, debug, seed;
    struct host *h = job->host;
    struct fields *f = &job->fields;
    if (!number(f, MEMORY_MOST, &memory) || !number(f, MEMORY_MOST, &devices) || !number(f, JOURNAL_MOST, &journal)
        || !number(f, 1, &debug) || !number(f, 65535, &seed))
        return UNREADABLE;
    host_return(h);
    *h = host_fresh();
    kettle_fresh(h->block.bytes, debug == 1);
    h->memory = filled(memory, seed);
    h->devices = filled(devices, seed);
    h->journal = filled(journal, seed);
    return BY_HOST;
}

static struct lent *buffer_of(struct host *h, struct span name)
{
    if (span_is(name, "memory"))
        return &h->memory;
    if (span_is(name, "device"))
        return &h->devices;
    return span_is(name, "journal") ? &h->journal : NULL;
}

enum outcome do_poke(struct job *job)
{
    struct span name;
    uint64_t at;
    struct lent bytes, *to;
    int fits;
    if (!field(&job->fields, &name) || !number(&job->fields, JOURNAL_MOST, &at) || !text(&job->fields, &bytes))
        return UNREADABLE;
    to = buffer_of(job->host, name);
    fits = to != NULL && at + bytes.len <= to->len;
    if (fits && bytes.len != 0)
        memcpy(to->bytes + at, bytes.bytes, bytes.len);
    lent_return(&bytes);
    return fits ? BY_HOST : UNREADABLE;
}

/* so many words of the line into the block */
static int words_into(struct job *job, size_t at, size_t count)
{
    for (; count > 0; count--, at += 2) {
        uint16_t w;
        if (!word(&job->fields, &w))
            return 0;
        write_word(job->host->block.bytes + at, w);
    }
    return 1;
}

enum outcome do_regs(struct job *job)
{
    return words_into(job, KETTLE_BLOCK_REGISTERS, 8) ? BY_HOST : UNREADABLE;
}

enum outcome do_cursor(struct job *job)
{
    return words_into(job, KETTLE_BLOCK_NEXT, 2) ? BY_HOST : UNREADABLE;
}

static int table_into(struct job *job, size_t count_at, size_t at)
{
    uint16_t count;
    if (!word(&job->fields, &count) || !words_into(job, at, 16))
        return 0;
    job->host->wide |= count > 255;
    job->host->block.bytes[count_at] = (uint8_t)(count > 255 ? 255 : count);
    return 1;
}

enum outcome do_tables(struct job *job)
{
    job->host->wide = 0;
    if (!table_into(job, KETTLE_BLOCK_PROTECTED, KETTLE_BLOCK_REGIONS) ||
        !table_into(job, KETTLE_BLOCK_DEVICE_COUNT, KETTLE_BLOCK_DEVICES))
        return UNREADABLE;
    return BY_HOST;
}

/* ---- whether the tables are valid: 01's words, held apart from the library's own ------------------------------------------ */

/* entries of a table: two words each */
static uint32_t first(const uint8_t *table, size_t i)
{
    return kettle_word(table + 4 * i);
}

static uint32_t second(const uint8_t *table, size_t i)
{
    return kettle_word(table + 4 * i + 2);
}

static int unused_are_zero(const uint8_t *table, size_t count)
{
    size_t i;
    for (i = 4 * count; i < 32; i++)
        if (table[i] != 0)
            return 0;
    return 1;
}

static int holds(uint32_t start, uint32_t len, uint32_t a)
{
    return start <= a && a < start + len;
}

static int regions_valid(const uint8_t *table, size_t count)
{
    size_t i, j;
    if (count > 8 || !unused_are_zero(table, count))
        return 0;
    for (i = 0; i < count; i++) {
        uint32_t start = first(table, i), len = second(table, i);
        if (start + len > 65535)
            return 0;
        for (j = 0; j < i; j++)
            if (holds(start, len, first(table, j)) || holds(first(table, j), second(table, j), start))
                return 0;
    }
    return 1;
}

static int devices_valid(const uint8_t *table, size_t count, size_t room)
{
    size_t i, j, total = 0;
    if (count > 8 || !unused_are_zero(table, count))
        return 0;
    for (i = 0; i < count; i++) {
        uint32_t start = first(table, i), end = second(table, i);
        if (start > end)
            return 0;
        total += end - start;
        for (j = 0; j < i; j++)
            if (start <= second(table, j) && end >= first(table, j))
                return 0;
    }
    return total <= room;
}

int host_tables_valid(const struct host *h)
{
    const uint8_t *b = h->block.bytes;
    return !h->wide && regions_valid(b + KETTLE_BLOCK_REGIONS, b[KETTLE_BLOCK_PROTECTED])
           && devices_valid(b + KETTLE_BLOCK_DEVICES, b[KETTLE_BLOCK_DEVICE_COUNT], h->devices.len);
}

/* ---- the whole state, shown ---------------------------------------------------------------------------------------------- */

static void adler_text(struct out *o, const struct lent *bytes)
{
    uint32_t a = 1, b = 0;
    char digits[12];
    size_t i;
    for (i = 0; i < bytes->len; i++) {
        a += bytes->bytes[i];
        b += a;
        /* so many bytes cannot overflow 32 bits before the remainders are taken */
        if (i % 5552 == 5551 || i + 1 == bytes->len) {
            a %= 65521;
            b %= 65521;
        }
    }
    snprintf(digits, sizeof digits, " %04x%04x", (unsigned)b, (unsigned)a);
    out_text(o, digits);
}

static void table_text(struct out *o, unsigned count, const uint8_t *table)
{
    size_t i;
    out_text(o, " ");
    out_number(o, count);
    for (i = 0; i < 8; i++) {
        out_text(o, i == 0 ? " " : ";");
        out_number(o, first(table, i));
        out_text(o, ",");
        out_number(o, second(table, i));
    }
}

void host_state_text(const struct host *h, struct out *o)
{
    const uint8_t *b = h->block.bytes;
    int r;
    for (r = KETTLE_A; r <= KETTLE_FLAGS; r++) {
        out_text(o, r == KETTLE_A ? "" : ",");
        out_number(o, kettle_register_of(b, (enum kettle_register)r));
    }
    out_text(o, " ");
    out_number(o, b[KETTLE_BLOCK_DEBUG]);
    table_text(o, b[KETTLE_BLOCK_PROTECTED], b + KETTLE_BLOCK_REGIONS);
    table_text(o, b[KETTLE_BLOCK_DEVICE_COUNT], b + KETTLE_BLOCK_DEVICES);
    out_text(o, " ");
    out_number(o, kettle_word(b + KETTLE_BLOCK_NEXT));
    out_text(o, " ");
    out_number(o, kettle_held(b));
    adler_text(o, &h->memory);
    adler_text(o, &h->devices);
    adler_text(o, &h->journal);
}

enum outcome do_state(struct job *job)
{
    if (job->host->wide)
        return WIDE_COUNT;
    host_state_text(job->host, &job->got);
    return COMPARED;
}
