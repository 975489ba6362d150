/* A machine and what is lent to it, and each entry called with what holds of each of its calls. */
#include <string.h>

#include "check.h"

struct machine machine(size_t memory, size_t devices, size_t journal, int debug)
{
    struct machine m = {lend(KETTLE_BLOCK_SIZE), lend(memory), lend(devices), lend(journal)};
    kettle_fresh(m.block.at, debug);
    return m;
}

void discard(struct machine *m)
{
    give_back(&m->block);
    give_back(&m->memory);
    give_back(&m->devices);
    give_back(&m->journal);
}

void keep_all(struct machine *m)
{
    keep(&m->block);
    keep(&m->memory);
    keep(&m->devices);
    keep(&m->journal);
}

bool all_kept(const struct machine *m)
{
    return kept(&m->block) && kept(&m->memory) && kept(&m->devices) && kept(&m->journal);
}

void put_word(uint8_t *at, unsigned word)
{
    at[0] = (uint8_t)(word & 255);
    at[1] = (uint8_t)(word >> 8 & 255);
}

void put_register(struct machine *m, enum kettle_register r, unsigned value)
{
    put_word(m->block.at + KETTLE_BLOCK_REGISTERS + 2 * (size_t)r, value);
}

unsigned reg(const struct machine *m, enum kettle_register r)
{
    return kettle_register_of(m->block.at, r);
}

unsigned next(const struct machine *m)
{
    return kettle_word(m->block.at + KETTLE_BLOCK_NEXT);
}

static bool seen[258];

static bool is_refusal(uint64_t answer)
{
    CHECK(kettle_code_of(answer) < 258);
    if (kettle_code_of(answer) < 258)
        seen[kettle_code_of(answer)] = true;
    return kettle_code_of(answer) >= 1 && kettle_code_of(answer) <= 255;
}

/* all but the registers, next and held */
static bool tables_kept(const struct machine *m)
{
    size_t from = KETTLE_BLOCK_DEBUG, len = KETTLE_BLOCK_NEXT - KETTLE_BLOCK_DEBUG;
    return memcmp(m->block.copy + from, m->block.at + from, len) == 0;
}

uint64_t step(struct machine *m)
{
    keep_all(m);
    uint64_t answer = kettle_step(ALL(m));
    NUMBER(answer >> 16, 0);
    if (is_refusal(answer) || kettle_code_of(answer) == KETTLE_STOP)
        CHECK(all_kept(m));
    else
        CHECK(tables_kept(m));
    return answer;
}

uint64_t run(struct machine *m, uint32_t steps)
{
    keep_all(m);
    uint64_t answer = kettle_run(ALL(m), steps);
    CHECK(kettle_steps(answer) <= steps);
    if (kettle_steps(answer) == 0)
        CHECK(all_kept(m));
    else
        CHECK(tables_kept(m));
    if (!is_refusal(answer) && kettle_code_of(answer) == KETTLE_ACCEPTED)
        NUMBER(kettle_steps(answer), steps);
    return answer;
}

uint64_t back(struct machine *m)
{
    keep_all(m);
    uint64_t answer = kettle_step_back(ALL(m));
    NUMBER(answer >> 16, 0);
    CHECK(kept(&m->journal));
    if (is_refusal(answer))
        CHECK(all_kept(m));
    else
        CHECK(tables_kept(m));
    return answer;
}

/* what the four that write the block alone have in common */
static uint64_t changed(struct machine *m, uint64_t answer)
{
    NUMBER(answer >> 16, 0);
    CHECK(kept(&m->devices) && kept(&m->journal) && kept(&m->memory));
    if (is_refusal(answer)) {
        CHECK(kept(&m->block));
    } else {
        NUMBER(next(m), 0);
        NUMBER(kettle_held(m->block.at), 0);
    }
    return answer;
}

uint64_t set(struct machine *m, size_t number, uint16_t value)
{
    keep_all(m);
    return changed(m, kettle_set_register(TABLES(m), number, value));
}

uint64_t protect(struct machine *m, size_t start, size_t len)
{
    keep_all(m);
    return changed(m, kettle_protect(TABLES(m), start, len));
}

uint64_t protect_rest(struct machine *m, size_t words_len)
{
    keep_all(m);
    return changed(m, kettle_protect_rest(TABLES(m), words_len));
}

uint64_t device(struct machine *m, size_t start, size_t size)
{
    keep_all(m);
    return changed(m, kettle_device(TABLES(m), start, size));
}

uint64_t forget(struct machine *m)
{
    keep_all(m);
    uint64_t answer = changed(m, kettle_forget(TABLES(m)));
    if (m->block.len == KETTLE_BLOCK_SIZE)
        CHECK(memcmp(m->block.copy, m->block.at, KETTLE_BLOCK_NEXT) == 0);
    return answer;
}

uint64_t load(struct machine *m, const struct bytes *words)
{
    keep_all(m);
    uint64_t answer = kettle_load(ALL(m), words->at, words->len);
    NUMBER(answer >> 16, 0);
    CHECK(kept(&m->journal));
    if (is_refusal(answer) && answer != KETTLE_WRITE_FAILED && answer != KETTLE_OVERLAP) {
        CHECK(all_kept(m));
        return answer;
    }
    NUMBER(next(m), 0);
    NUMBER(kettle_held(m->block.at), 0);
    if (answer != KETTLE_ACCEPTED)
        CHECK(memcmp(m->block.copy, m->block.at, KETTLE_BLOCK_NEXT) == 0);
    return answer;
}

uint64_t load_words(struct machine *m, size_t count, const unsigned *words)
{
    struct bytes b = lend(2 * count);
    for (size_t i = 0; i < count; i++)
        put_word(b.at + 2 * i, words[i]);
    read_only(&b);
    uint64_t answer = load(m, &b);
    give_back(&b);
    return answer;
}

uint64_t read_out(struct machine *m, size_t start, size_t size, struct bytes *buffer)
{
    keep_all(m);
    keep(buffer);
    uint64_t answer = kettle_read(ALL(m), start, size, buffer->at, buffer->len);
    CHECK(all_kept(m));
    CHECK(kettle_bytes(answer) <= size && kettle_bytes(answer) <= buffer->len);
    if (is_refusal(answer)) {
        NUMBER(answer >> 16, 0);
        CHECK(kept(buffer));
    } else {
        size_t n = kettle_bytes(answer);
        CHECK(n == buffer->len || memcmp(buffer->copy + n, buffer->at + n, buffer->len - n) == 0);
    }
    return answer;
}

uint64_t assemble(const struct bytes *text, int strict, struct bytes *words)
{
    if (words->len > 0)
        memset(words->at, 0xcc, words->len);
    uint64_t answer = kettle_assemble(text->at, text->len, (uint8_t)strict, words->at, words->len);
    if (is_refusal(answer) && answer == KETTLE_BAD_BLOCK) {
        CHECK(all_are(words->at, words->len, 0xcc));
    } else if (is_refusal(answer)) {
        CHECK(kettle_line(answer) >= 1);
        CHECK(all_are(words->at, words->len, 0));
    } else {
        size_t used = kettle_words_len(answer);
        CHECK(used <= words->len);
        CHECK(used > words->len || all_are(words->at + used, words->len - used, 0));
    }
    return answer;
}

uint64_t list(const struct bytes *text, struct bytes *out)
{
    if (out->len > 0)
        memset(out->at, 0xcc, out->len);
    uint64_t answer = kettle_list(text->at, text->len, out->at, out->len);
    size_t n = kettle_bytes(answer);
    CHECK(n <= out->len && all_are(out->at + n, out->len - n, 0xcc));
    if (is_refusal(answer)) {
        NUMBER(answer, KETTLE_NO_ROOM);
        NUMBER(n, 0);
    } else {
        CHECK(n > 0 && out->at[n - 1] == 10);
    }
    return answer;
}

/* a refusal writes nothing, and what is written ends where the answer says */
uint64_t print(unsigned word, struct bytes *out)
{
    if (out->len > 0)
        memset(out->at, 0xcc, out->len);
    uint64_t answer = kettle_print((uint16_t)word, out->at, out->len);
    size_t n = kettle_bytes(answer);
    CHECK(n <= out->len && all_are(out->at + n, out->len - n, 0xcc));
    if (is_refusal(answer))
        NUMBER(n, 0);
    else
        CHECK(n > 0 && kettle_code_of(answer) == KETTLE_ACCEPTED);
    return answer;
}

/* as print; of 33 the index of a word that there is */
uint64_t text_of(const struct bytes *words, struct bytes *out)
{
    if (out->len > 0)
        memset(out->at, 0xcc, out->len);
    uint64_t answer = kettle_text(words->at, words->len, out->at, out->len);
    size_t n = kettle_bytes(answer);
    CHECK(n <= out->len && all_are(out->at + n, out->len - n, 0xcc));
    if (is_refusal(answer) && kettle_code_of(answer) == KETTLE_NO_TEXT)
        CHECK(n == 0 && kettle_index(answer) < words->len / 2);
    else if (kettle_code_of(answer) != KETTLE_ACCEPTED)
        NUMBER(answer >> 16, 0);
    else
        CHECK(n == 0 || out->at[n - 1] == 10);
    return answer;
}

void test_seen(void)
{
    for (unsigned code = 0; code < 258; code++) {
        during("the code", (long)code, 0, 0);
        bool reached = code <= KETTLE_NO_TEXT || code == KETTLE_DEBUG || code == KETTLE_STOP;
        if (code == KETTLE_INVALID_FORMAT || code == KETTLE_UNRESOLVED_LABEL)
            reached = false;
        CHECK(seen[code] == reached);
    }
}
