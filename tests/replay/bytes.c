/* Single bytes and words. No entry has the name of these commands, but two can be asked: kettle_read shows a byte, and
 * kettle_step_back over a record written by hand stores one, by the rule of every store. Neither looks at this block's own
 * journal. */
#include "host.h"

/* the block with another, empty cursor */
static void block_apart(const struct host *h, uint8_t block[KETTLE_BLOCK_SIZE])
{
    memcpy(block, h->block.bytes, KETTLE_BLOCK_SIZE);
    memset(block + KETTLE_BLOCK_NEXT, 0, 4);
}

static enum outcome why_not(const struct host *h)
{
    return h->wide ? WIDE_COUNT : BROKEN_TABLES;
}

/* so many bytes from an address on, as a number */
static enum outcome shown(struct job *job, size_t size)
{
    struct host *h = job->host;
    uint8_t block[KETTLE_BLOCK_SIZE], found[2] = {0, 0};
    uint64_t answer;
    uint16_t a;
    if (!word(&job->fields, &a))
        return UNREADABLE;
    if (!host_tables_valid(h))
        return why_not(h);
    if (a + size > 65535)
        return TOP_ADDRESS;
    block_apart(h, block);
    answer = kettle_read(block, sizeof block, LENT(h->memory), LENT(h->devices), NULL, 0, a, size, found, size);
    if (kettle_code_of(answer) != KETTLE_ACCEPTED)
        say_answer(&job->got, answer);
    else if (kettle_bytes(answer) < size)
        out_text(&job->got, "none");
    else
        out_number(&job->got, kettle_word(found));
    return COMPARED;
}

enum outcome do_byte(struct job *job)
{
    return shown(job, 1);
}

enum outcome do_word(struct job *job)
{
    return shown(job, 2);
}

/* ---- stores -------------------------------------------------------------------------------------------------------------- */

/* A step back over one record: it stored one byte at this address, where this byte was before. */
static uint64_t store_through_entry(struct host *h, uint16_t a, uint8_t v)
{
    uint8_t block[KETTLE_BLOCK_SIZE], journal[KETTLE_RECORD_SIZE] = {1};
    block_apart(h, block);
    write_word(block + KETTLE_BLOCK_HELD, 1);
    write_word(journal + 17, a);
    journal[19] = v;
    return kettle_step_back(block, sizeof block, LENT(h->memory), LENT(h->devices), journal, sizeof journal);
}

static size_t in_use(uint8_t count)
{
    return count > 8 ? 8 : count;
}

/* On tables that are not valid no entry stores. The host does it itself, as REPLAY says, to have the same bytes as the other. */
static uint8_t *target(struct host *h, uint16_t a)
{
    const uint8_t *b = h->block.bytes;
    size_t i, base = 0;
    for (i = 0; i < in_use(b[KETTLE_BLOCK_DEVICE_COUNT]); i++) {
        uint16_t start = kettle_word(b + KETTLE_BLOCK_DEVICES + 4 * i), end = kettle_word(b + KETTLE_BLOCK_DEVICES + 4 * i + 2);
        if (start <= a && a < end)
            return base + (size_t)(a - start) < h->devices.len ? h->devices.bytes + base + (a - start) : NULL;
        base += end > start ? (size_t)(end - start) : 0;
    }
    for (i = 0; i < in_use(b[KETTLE_BLOCK_PROTECTED]); i++) {
        uint16_t start = kettle_word(b + KETTLE_BLOCK_REGIONS + 4 * i), len = kettle_word(b + KETTLE_BLOCK_REGIONS + 4 * i + 2);
        if (start <= a && a - start < len)
            return NULL;
    }
    return a < h->memory.len ? h->memory.bytes + a : NULL;
}

/* the answer's code: accepted, KETTLE_BAD_JOURNAL where the address takes no store, or what should not be */
static uint64_t store(struct host *h, uint16_t a, uint8_t v)
{
    uint8_t *byte;
    if (host_tables_valid(h))
        return store_through_entry(h, a, v);
    byte = target(h, a);
    if (byte == NULL)
        return KETTLE_BAD_JOURNAL;
    *byte = v;
    return KETTLE_ACCEPTED;
}

static enum outcome stored(struct job *job, uint64_t answer)
{
    if (kettle_code_of(answer) == KETTLE_BAD_JOURNAL)
        out_text(&job->got, "failed");
    else
        say_answer(&job->got, answer);
    if (host_tables_valid(job->host) || !span_is(job->expected, job->got.at))
        return COMPARED;
    return why_not(job->host);
}

enum outcome do_put(struct job *job)
{
    uint16_t a;
    uint64_t v;
    if (!word(&job->fields, &a) || !number(&job->fields, 255, &v))
        return UNREADABLE;
    return stored(job, store(job->host, a, (uint8_t)v));
}

/* Whether 65,535 takes a store; the bytes are put back. */
static uint64_t top_store(struct host *h)
{
    struct lent memory = lend_copy(LENT(h->memory)), devices = lend_copy(LENT(h->devices));
    uint64_t answer = store(h, 65535, 0);
    if (memory.len != 0)
        memcpy(h->memory.bytes, memory.bytes, memory.len);
    if (devices.len != 0)
        memcpy(h->devices.bytes, devices.bytes, devices.len);
    lent_return(&memory);
    lent_return(&devices);
    return kettle_code_of(answer) == KETTLE_ACCEPTED ? KETTLE_ADDRESS_OVERFLOW : answer;
}

enum outcome do_putw(struct job *job)
{
    uint16_t a, w;
    uint64_t answer;
    if (!word(&job->fields, &a) || !word(&job->fields, &w))
        return UNREADABLE;
    if (a == 65535)
        return stored(job, top_store(job->host));
    answer = store(job->host, a, (uint8_t)(w & 255));
    if (kettle_code_of(answer) == KETTLE_ACCEPTED)
        answer = store(job->host, (uint16_t)(a + 1), (uint8_t)(w >> 8));
    return stored(job, answer);
}
