/* The machine's rules a second time, written from the paper's sentences: which states are valid, what a store goes to, and what each
 * entry does. interpreter.c has the instructions. */
#include <string.h>

#include "check.h"

struct pair {
    unsigned start, other; /* len of a region, end of a device */
};

static unsigned count_of(const struct machine *m, size_t at)
{
    return m->block.at[at];
}

static struct pair pair_at(const struct machine *m, size_t table, unsigned i)
{
    const uint8_t *p = m->block.at + table + 4 * (size_t)i;
    struct pair x = {kettle_word(p), kettle_word(p + 2)};
    return x;
}

static unsigned used(unsigned count)
{
    return count < 8 ? count : 8;
}

static unsigned room_for_records(const struct machine *m)
{
    size_t d = m->journal.len / KETTLE_RECORD_SIZE;
    return d < KETTLE_RECORD_MOST ? (unsigned)d : KETTLE_RECORD_MOST;
}

/* two regions overlap if either's start lies inside the other */
static bool inside(unsigned a, struct pair r)
{
    return r.start <= a && a < r.start + r.other;
}

static bool regions_overlap(struct pair x, struct pair y)
{
    return inside(x.start, y) || inside(y.start, x);
}

static bool devices_overlap(struct pair x, struct pair old)
{
    return x.start <= old.other && x.other >= old.start;
}

static size_t device_bytes(const struct machine *m)
{
    size_t sum = 0;
    for (unsigned i = 0; i < used(count_of(m, KETTLE_BLOCK_DEVICE_COUNT)); i++) {
        struct pair d = pair_at(m, KETTLE_BLOCK_DEVICES, i);
        sum += d.other - d.start;
    }
    return sum;
}

bool is_valid(const struct machine *m)
{
    unsigned regions = count_of(m, KETTLE_BLOCK_PROTECTED), devices = count_of(m, KETTLE_BLOCK_DEVICE_COUNT);
    if (regions > 8 || devices > 8)
        return false;
    for (unsigned i = 0; i < 8; i++) {
        struct pair r = pair_at(m, KETTLE_BLOCK_REGIONS, i), d = pair_at(m, KETTLE_BLOCK_DEVICES, i);
        if (i >= regions && (r.start != 0 || r.other != 0))
            return false;
        if (i >= devices && (d.start != 0 || d.other != 0))
            return false;
        if (r.start + r.other > 65535 || d.start > d.other)
            return false;
        for (unsigned k = 0; k < i; k++) {
            if (i < regions && regions_overlap(r, pair_at(m, KETTLE_BLOCK_REGIONS, k)))
                return false;
            if (i < devices && devices_overlap(d, pair_at(m, KETTLE_BLOCK_DEVICES, k)))
                return false;
        }
    }
    unsigned room = room_for_records(m);
    if (device_bytes(m) > m->devices.len || kettle_held(m->block.at) > room)
        return false;
    return room == 0 ? next(m) == 0 : next(m) < room;
}

/* 31, then 1, else 0 */
static uint64_t at_first(const struct machine *m)
{
    if (m->block.len != KETTLE_BLOCK_SIZE || m->block.at[KETTLE_BLOCK_DEBUG] > 1)
        return 31;
    return is_valid(m) ? 0 : 1;
}

/* the byte of an address, or NULL */
uint8_t *ref_byte(const struct machine *m, unsigned a, bool *of_device)
{
    size_t before = 0;
    *of_device = true;
    for (unsigned i = 0; i < used(count_of(m, KETTLE_BLOCK_DEVICE_COUNT)); i++) {
        struct pair d = pair_at(m, KETTLE_BLOCK_DEVICES, i);
        if (d.start <= a && a < d.other)
            return m->devices.at + before + (a - d.start);
        before += d.other - d.start;
    }
    *of_device = false;
    return a < m->memory.len && a < 65536 ? m->memory.at + a : NULL;
}

bool is_mapped(const struct machine *m, unsigned a)
{
    bool of_device;
    return ref_byte(m, a, &of_device) != NULL;
}

bool takes_store(const struct machine *m, unsigned a)
{
    bool of_device;
    if (ref_byte(m, a, &of_device) == NULL)
        return false;
    if (of_device)
        return true;
    for (unsigned i = 0; i < used(count_of(m, KETTLE_BLOCK_PROTECTED)); i++)
        if (inside(a, pair_at(m, KETTLE_BLOCK_REGIONS, i)))
            return false;
    return true;
}

static bool store(const struct machine *m, unsigned a, uint8_t value)
{
    bool of_device;
    if (!takes_store(m, a))
        return false;
    *ref_byte(m, a, &of_device) = value;
    return true;
}

/* ---- steps ------------------------------------------------------------------------------------------------------------------ */

uint64_t ref_step(struct machine *m)
{
    uint64_t first = at_first(m);
    return first != 0 ? first : ref_turn(m);
}

uint64_t ref_run(struct machine *m, uint32_t steps)
{
    uint64_t answer = at_first(m), count = 0;
    while (answer == 0 && count < steps) {
        answer = ref_turn(m);
        if (answer == 0 || answer == 256)
            count++;
    }
    return answer | count << 16;
}

/* an accepted step, from these registers: its stored bytes are still to be stored */
void ref_record(struct machine *m, unsigned stored, const unsigned *at)
{
    unsigned room = room_for_records(m), held = kettle_held(m->block.at);
    bool of_device;
    if (room == 0)
        return;
    uint8_t *record = m->journal.at + (size_t)KETTLE_RECORD_SIZE * next(m);
    memset(record, 0, KETTLE_RECORD_SIZE);
    record[0] = (uint8_t)stored;
    memcpy(record + 1, m->block.at, 16);
    for (unsigned i = 0; i < stored; i++) {
        put_word(record + 17 + 3 * i, at[i]);
        record[19 + 3 * i] = *ref_byte(m, at[i], &of_device);
    }
    put_word(m->block.at + KETTLE_BLOCK_NEXT, (next(m) + 1) % room);
    put_word(m->block.at + KETTLE_BLOCK_HELD, held < room ? held + 1 : room);
}

uint64_t ref_back(struct machine *m)
{
    uint64_t first = at_first(m);
    if (first != 0)
        return first;
    if (kettle_held(m->block.at) == 0)
        return 10;
    unsigned room = room_for_records(m), slot = (next(m) + room - 1) % room;
    const uint8_t *record = m->journal.at + (size_t)KETTLE_RECORD_SIZE * slot;
    const uint8_t *one = record + 17, *two = record + 20;
    unsigned kind = record[0];
    if (kind > 2 || (kind >= 1 && !takes_store(m, kettle_word(one))) || (kind == 2 && !takes_store(m, kettle_word(two))))
        return 11;
    if (kind == 2)
        store(m, kettle_word(two), two[2]);
    if (kind >= 1)
        store(m, kettle_word(one), one[2]);
    memcpy(m->block.at, record + 1, 16);
    put_word(m->block.at + KETTLE_BLOCK_NEXT, slot);
    put_word(m->block.at + KETTLE_BLOCK_HELD, kettle_held(m->block.at) - 1u);
    return 0;
}

/* ---- what a host sets --------------------------------------------------------------------------------------------------------- */

static uint64_t emptied(struct machine *m)
{
    put_word(m->block.at + KETTLE_BLOCK_NEXT, 0);
    put_word(m->block.at + KETTLE_BLOCK_HELD, 0);
    return 0;
}

uint64_t ref_forget(struct machine *m)
{
    uint64_t first = at_first(m);
    return first != 0 ? first : emptied(m);
}

uint64_t ref_set(struct machine *m, size_t number, uint16_t value)
{
    uint64_t first = at_first(m);
    if (first != 0)
        return first;
    if (number > 7)
        return 18;
    put_word(m->block.at + 2 * number, value);
    return emptied(m);
}

static bool ends_past(size_t start, size_t len)
{
    return start > 65535 || len > 65535 - start;
}

static uint64_t add(struct machine *m, size_t count, size_t table, struct pair x)
{
    uint8_t *p = m->block.at + table + 4 * (size_t)m->block.at[count];
    put_word(p, x.start);
    put_word(p + 2, x.other);
    m->block.at[count]++;
    return emptied(m);
}

uint64_t ref_protect(struct machine *m, size_t start, size_t len)
{
    uint64_t first = at_first(m);
    if (first != 0)
        return first;
    if (ends_past(start, len))
        return 12;
    struct pair x = {(unsigned)start, (unsigned)len};
    unsigned n = count_of(m, KETTLE_BLOCK_PROTECTED);
    for (unsigned i = 0; i < n; i++)
        if (regions_overlap(x, pair_at(m, KETTLE_BLOCK_REGIONS, i)))
            return 13;
    return n == 8 ? 14 : add(m, KETTLE_BLOCK_PROTECTED, KETTLE_BLOCK_REGIONS, x);
}

uint64_t ref_device(struct machine *m, size_t start, size_t size)
{
    uint64_t first = at_first(m);
    if (first != 0)
        return first;
    if (ends_past(start, size))
        return 12;
    struct pair x = {(unsigned)start, (unsigned)(start + size)};
    unsigned n = count_of(m, KETTLE_BLOCK_DEVICE_COUNT);
    for (unsigned i = 0; i < n; i++)
        if (devices_overlap(x, pair_at(m, KETTLE_BLOCK_DEVICES, i)))
            return 13;
    if (n == 8)
        return 14;
    if (device_bytes(m) + size > m->devices.len)
        return 17;
    return add(m, KETTLE_BLOCK_DEVICE_COUNT, KETTLE_BLOCK_DEVICES, x);
}

/* ---- programs ------------------------------------------------------------------------------------------------------------------- */

uint64_t ref_load(struct machine *m, const struct bytes *words)
{
    if (m->block.len != KETTLE_BLOCK_SIZE || m->block.at[KETTLE_BLOCK_DEBUG] > 1 || words->len % 2 != 0)
        return 31;
    if (!is_valid(m))
        return 1;
    if (words->len > 65536)
        return 16;
    unsigned n = count_of(m, KETTLE_BLOCK_PROTECTED);
    if (n == 8)
        return 14;
    emptied(m);
    for (size_t i = 0; i < words->len; i++)
        if (!store(m, (unsigned)i, words->at[i]))
            return 15;
    struct pair x = {0, (unsigned)(words->len / 2)};
    for (unsigned i = 0; i < n; i++)
        if (regions_overlap(x, pair_at(m, KETTLE_BLOCK_REGIONS, i)))
            return 13;
    return add(m, KETTLE_BLOCK_PROTECTED, KETTLE_BLOCK_REGIONS, x);
}

uint64_t ref_read(const struct machine *m, size_t start, size_t size, struct bytes *buffer)
{
    bool of_device;
    uint64_t first = at_first(m), count = 0;
    if (first != 0)
        return first;
    if (ends_past(start, size))
        return 12;
    if (buffer->len < size)
        return 19;
    while (count < size && is_mapped(m, (unsigned)(start + count))) {
        buffer->at[count] = *ref_byte(m, (unsigned)(start + count), &of_device);
        count++;
    }
    return count << 16;
}
