/*
 * entries.c: fuzzing of the library's entries, with libFuzzer. See docs/FUZZING.md.
 *
 * An input is a header of 10 bytes (three lengths, flags, a seed) and then calls, each a byte and its arguments; tests/fuzz/corpus
 * writes the same form from the stored scripts. Buffers are lent between pages that nothing may touch. After each call everything
 * is compared: with rules.h, and with the library itself (a run with single steps, a step with its step back, plain with strict
 * assembly, a listing with the words, words with the words of their text). Whatever differs aborts.
 *
 * KETTLE_BLOCKS names the file that tests/fuzz/blocks wrote; KETTLE_COVERED one for what was reached.
 */
#include "lent.h"
#include "rules.h"
#include "blocks.h"

enum {
    RUN_MOST = 5000,    /* steps of a run; a program that ends before is also run without end */
    CLOSELY = 40,       /* of these so many one by one, by their rule */
    STEPS_MOST = 10000, /* steps of an input */
    SOURCED_MOST = 70000, /* words of an input that source is made of */
    LINES_CLOSELY = 1100, /* of a source text so many lines one by one: more than can have a label */
    TEXT_MOST = 131200, /* of an input; that of words may be longer */
    WORDS_MOST = 65602,
    OUT_MOST = KETTLE_LISTING_MOST,
    BUFFER_MOST = 66047,
    STATES = 1 << 15
};

enum entry {
    ASSEMBLE, LOAD, STEP, RUN, STEP_BACK, SET_REGISTER, PROTECT, DEVICE, FORGET, READ, LIST, PRINT, TEXT, ENTRIES
};

static const char *const entry_names[ENTRIES] = {
    "kettle_assemble", "kettle_load", "kettle_step", "kettle_run", "kettle_step_back", "kettle_set_register",
    "kettle_protect", "kettle_device", "kettle_forget", "kettle_read", "kettle_list", "kettle_print", "kettle_text"
};

static struct lent block, memory, devices, journal, words, text, out, buffer;
static struct whole before, want;
static int low, null_for_none;

#define DEMAND(holds)                                                            \
    do {                                                                         \
        if (!(holds)) {                                                          \
            fprintf(stderr, "entries.c:%d: not so: %s\n", __LINE__, #holds);     \
            abort();                                                             \
        }                                                                        \
    } while (0)

/* ---- what was reached ------------------------------------------------------------------------------------------------------ */

__attribute__((used, section("__libfuzzer_extra_counters"))) static uint8_t state_counters[STATES];

static uint64_t inputs, calls[ENTRIES], seen[ENTRIES][258], stepped[16][258], longest_run, most_back, longest_text, most_words,
    most_labels, most_open, longest_listing, longest_source, kinds[3];

static void reached(unsigned a, unsigned b, unsigned c, unsigned d)
{
    uint32_t h = a * 0x9e3779b1u ^ b * 0x85ebca6bu ^ c * 0xc2b2ae35u ^ d * 0x27d4eb2fu;
    h ^= h >> 15;
    h *= 0x2c1b3c6du;
    h ^= h >> 13;
    uint8_t *counter = state_counters + h % STATES;
    if (*counter < 255)
        ++*counter;
}

static unsigned magnitude(uint64_t n)
{
    unsigned bits = 0;
    for (; n; n >>= 1)
        bits++;
    return bits;
}

static size_t at_most(size_t n, size_t most)
{
    return n < most ? n : most;
}

static void larger(uint64_t *most, uint64_t n)
{
    if (*most < n)
        *most = n;
}

/* every answer comes by here */
static uint64_t answered(enum entry e, uint64_t answer)
{
    unsigned code = kettle_code_of(answer);
    DEMAND(code <= KETTLE_NO_TEXT || code == KETTLE_DEBUG || code == KETTLE_STOP);
    DEMAND(fenced(&block) && fenced(&memory) && fenced(&devices) && fenced(&journal));
    DEMAND(fenced(&words) && fenced(&text) && fenced(&out) && fenced(&buffer));
    calls[e]++;
    seen[e][code]++;
    reached(e, code, 1, 0);
    return answer;
}

static void report(void)
{
    const char *path = getenv("KETTLE_COVERED");
    FILE *file = path ? fopen(path, "w") : NULL;
    if (!file)
        return;
    fprintf(file, "inputs %llu\n", (unsigned long long)inputs);
    for (int e = 0; e < ENTRIES; e++) {
        fprintf(file, "%s %llu:", entry_names[e], (unsigned long long)calls[e]);
        for (int c = 0; c < 258; c++)
            if (seen[e][c])
                fprintf(file, " %d (%llu)", c, (unsigned long long)seen[e][c]);
        fprintf(file, "\n");
    }
    for (int op = 0; op < 16; op++) {
        fprintf(file, "opcode %d:", op);
        for (int c = 0; c < 258; c++)
            if (stepped[op][c])
                fprintf(file, " %d (%llu)", c, (unsigned long long)stepped[op][c]);
        fprintf(file, "\n");
    }
    fprintf(file, "records of kind 0, 1, 2: %llu %llu %llu\n", (unsigned long long)kinds[0], (unsigned long long)kinds[1],
            (unsigned long long)kinds[2]);
    fprintf(file, "longest run %llu, most steps taken back at once %llu\n", (unsigned long long)longest_run,
            (unsigned long long)most_back);
    fprintf(file, "longest text %llu, most words %llu, labels %llu, open references %llu, longest listing %llu, source %llu\n",
            (unsigned long long)longest_text, (unsigned long long)most_words, (unsigned long long)most_labels,
            (unsigned long long)most_open, (unsigned long long)longest_listing, (unsigned long long)longest_source);
    fprintf(file, "blocks %zu of %zu\n", blocks_reached, block_count);
    for (size_t i = 0; i < block_count; i++)
        if (!blocks[i].reached)
            fprintf(file, "not reached: %lx %s\n", (unsigned long)blocks[i].at, blocks[i].name);
    fclose(file);
}

/* ---- machines -------------------------------------------------------------------------------------------------------------- */

static uint8_t *lent_bytes(const struct lent *b)
{
    return b->len || !null_for_none ? b->at : NULL;
}

#define BYTES(b) lent_bytes(&(b)), (b).len
#define MACHINE BYTES(block), BYTES(memory), BYTES(devices), BYTES(journal)
#define TABLES BYTES(block), BYTES(devices), BYTES(journal)

static void look(struct whole *w)
{
    w->block_len = block.len;
    w->memory_len = memory.len;
    w->devices_len = devices.len;
    w->journal_len = journal.len;
    memcpy(w->block, block.at, block.len);
    memcpy(w->memory, memory.at, memory.len);
    memcpy(w->devices, devices.at, devices.len);
    memcpy(w->journal, journal.at, journal.len);
}

static void put_back(const struct whole *w)
{
    memcpy(block.at, w->block, block.len);
    memcpy(memory.at, w->memory, memory.len);
    memcpy(devices.at, w->devices, devices.len);
    memcpy(journal.at, w->journal, journal.len);
}

static int bytes_are(const struct whole *w)
{
    return !memcmp(memory.at, w->memory, memory.len) && !memcmp(devices.at, w->devices, devices.len);
}

static int is_now(const struct whole *w)
{
    return bytes_are(w) && !memcmp(block.at, w->block, block.len) && !memcmp(journal.at, w->journal, journal.len);
}

/* One step, by its rule. Leaves what was before in `before`. */
static uint64_t one_step(void)
{
    unsigned word, kind;
    look(&before);
    copy_whole(&want, &before);
    uint64_t rule = step_rule(&want, &word, &kind);
    uint64_t answer = answered(STEP, kettle_step(MACHINE));
    DEMAND(answer == rule);
    DEMAND(is_now(&want));
    if (answer == 0 || answer == KETTLE_DEBUG) {
        DEMAND(is_valid(&want));
        if (slots(&want))
            kinds[kind]++;
    }
    /* how instructions were answered, where one was fetched */
    unsigned op = word & 15, flags = before.block_len > 15 ? reg(&before, KETTLE_FLAGS) & 15 : 0, code = kettle_code_of(answer);
    if (fetch_rule(&before, &word) == 0 || (code >= KETTLE_BAD_OPCODE && code <= KETTLE_BAD_ARITH))
        stepped[op][code]++;
    reached(100 + op, code, kind, flags);
    reached(200 + op, code, word >> 7 & 15, before.block_len > 16 && before.block[16]);
    return answer;
}

/* A step, and where it was accepted the step back. */
static void do_step(void)
{
    uint64_t answer = one_step();
    if (answer != 0 && answer != KETTLE_DEBUG)
        return;
    look(&want);
    uint64_t back = answered(STEP_BACK, kettle_step_back(MACHINE));
    if (slots(&before)) {
        unsigned held = kettle_held(before.block), most = slots(&before);
        DEMAND(back == 0 && bytes_are(&before));
        DEMAND(!memcmp(block.at, before.block, KETTLE_BLOCK_HELD));
        DEMAND(kettle_held(block.at) == (held < most ? held : most - 1));
        DEMAND(!memcmp(journal.at, want.journal, journal.len));
    } else {
        DEMAND(back == KETTLE_NOTHING_TO_UNDO && is_now(&want));
    }
    put_back(&want);
}

static struct whole run_before, run_after;
static uint32_t steps_left; /* of this input, so that none takes long */

/* One step of a long run. */
static uint64_t plain_step(void)
{
    uint64_t answer = answered(STEP, kettle_step(MACHINE));
    reached(310, kettle_code_of(answer), 0, 0);
    return answer;
}

/* A run: the same as single steps; and back again, as far as the journal goes. A program that ends is also run without end. */
static void do_run(uint32_t steps)
{
    int endless = steps > RUN_MOST;
    if (endless)
        steps = RUN_MOST;
    if (steps > steps_left)
        steps = steps_left;
    steps_left -= steps;
    look(&run_before);
    uint64_t single = unfit(&run_before);
    uint32_t count = 0;
    while (!single && count < steps) {
        single = count < CLOSELY ? one_step() : plain_step();
        count += single == 0 || single == KETTLE_DEBUG;
    }
    if (endless && single)
        steps = UINT32_MAX;
    look(&run_after);
    put_back(&run_before);
    uint64_t answer = answered(RUN, kettle_run(MACHINE, steps));
    DEMAND(answer == (single | (uint64_t)count << 16));
    DEMAND(is_now(&run_after));
    larger(&longest_run, count);
    reached(300, kettle_code_of(answer), magnitude(count), steps == UINT32_MAX);
    if (count && count <= slots(&run_before)) {
        for (uint32_t i = 0; i < count; i++)
            DEMAND(answered(STEP_BACK, kettle_step_back(MACHINE)) == 0);
        DEMAND(bytes_are(&run_before) && !memcmp(block.at, run_before.block, KETTLE_BLOCK_HELD));
        larger(&most_back, count);
    }
    put_back(&run_after);
}

/* The other entries have a rule of their own. `want` is the machine as it was, on which the rule has acted. */
static uint64_t by_rule(enum entry e, uint64_t rule, uint64_t answer)
{
    answered(e, answer);
    DEMAND(answer == rule);
    DEMAND(is_now(&want));
    if (want.block_len > KETTLE_BLOCK_DEVICE_COUNT)
        reached(400 + e, kettle_code_of(answer), want.block[KETTLE_BLOCK_PROTECTED], want.block[KETTLE_BLOCK_DEVICE_COUNT]);
    reached(500 + e, kettle_code_of(answer), magnitude(answer >> 16), 0);
    return answer;
}

static void do_step_back(void)
{
    unsigned kind = 4;
    look(&want);
    if (!unfit(&want) && kettle_held(want.block))
        kind = want.journal[(next_slot(&want) + slots(&want) - 1) % slots(&want) * KETTLE_RECORD_SIZE];
    /* the newest record, looked at, has the registers that stepping back restores */
    const uint8_t *newest = unfit(&want) ? NULL : kettle_record(want.block, want.journal, want.journal_len, 0);
    uint8_t registers[16] = { 0 };
    if (newest)
        memcpy(registers, newest + KETTLE_RECORD_REGISTERS, sizeof registers);
    DEMAND(unfit(&want) || !newest == !kettle_held(want.block));
    uint64_t answer = by_rule(STEP_BACK, step_back_rule(&want), kettle_step_back(MACHINE));
    DEMAND(answer || (newest && !memcmp(block.at + KETTLE_BLOCK_REGISTERS, registers, sizeof registers)));
    reached(600, kind < 4 ? kind : 4, kettle_code_of(answer), 0);
}

static void do_read(size_t start, size_t size, size_t room)
{
    static uint8_t expected[BUFFER_MOST + 1];
    lend(&buffer, room, low);
    memset(buffer.at, FRESH_BYTE, room);
    memset(expected, FRESH_BYTE, room);
    look(&want);
    by_rule(READ, read_rule(&want, start, size, expected, room), kettle_read(MACHINE, start, size, BYTES(buffer)));
    DEMAND(!memcmp(buffer.at, expected, room));
}

static void do_load(const uint8_t *bytes, size_t len)
{
    lend(&words, len, low);
    memcpy(words.at, bytes, len);
    look(&want);
    uint64_t answer = by_rule(LOAD, load_rule(&want, bytes, len), kettle_load(MACHINE, BYTES(words)));
    DEMAND(!memcmp(words.at, bytes, len));
    if (answer == 0 && len <= 65535) {
        /* what was loaded is what is read */
        do_read(0, len, len);
        DEMAND(!memcmp(buffer.at, bytes, len));
    }
}

/* ---- texts ----------------------------------------------------------------------------------------------------------------- */

static int all(const uint8_t *bytes, size_t len, uint8_t value)
{
    return !len || (bytes[0] == value && !memcmp(bytes, bytes + 1, len - 1));
}

static uint64_t lines_in(const uint8_t *bytes, size_t len)
{
    uint64_t n = 1;
    for (size_t i = 0; i < len; i++)
        n += bytes[i] == 10;
    return n;
}

/* A CJP to a register is refused with 32, strictly and in its own line, and nothing else is; unless an earlier line is refused,
 * or 26 or 31 came before every line. */
static void cjp_refused(uint8_t strict, uint64_t answer)
{
    uint64_t at = strict ? register_cjp_line(text.at, text.len) : 0;
    unsigned code = kettle_code_of(answer);
    if (code == KETTLE_NOT_DECODABLE)
        DEMAND(at && kettle_line(answer) == at);
    else if (at)
        DEMAND(code == KETTLE_NOT_ASCII || (code && kettle_line(answer) < at));
}

/* The text into words_len bytes, and what can be said of one answer alone. */
static uint64_t assembled(uint8_t strict, size_t words_len)
{
    lend(&words, words_len, low);
    memset(words.at, FRESH_BYTE, words_len);
    uint64_t answer = answered(ASSEMBLE, kettle_assemble(BYTES(text), strict, BYTES(words)));
    unsigned code = kettle_code_of(answer);
    cjp_refused(strict, answer);
    if (words_len % 2) {
        DEMAND(answer == KETTLE_BAD_BLOCK && all(words.at, words_len, FRESH_BYTE));
    } else if (code == 0) {
        DEMAND(kettle_words(answer) <= words_len / 2 && kettle_words(answer) <= KETTLE_WORDS_MOST);
        DEMAND(kettle_open_references(answer) <= 512 && kettle_labels(answer) <= 1024);
        DEMAND(all(words.at + 2 * kettle_words(answer), words_len - 2 * kettle_words(answer), 0));
        larger(&most_words, kettle_words(answer));
        larger(&most_open, kettle_open_references(answer));
        larger(&most_labels, kettle_labels(answer));
        reached(700, magnitude(kettle_words(answer)), magnitude(kettle_open_references(answer)), magnitude(kettle_labels(answer)));
    } else {
        DEMAND((code >= KETTLE_INVALID_REGISTER && code <= KETTLE_INVALID_INSTRUCTION) || code == KETTLE_INVALID_IMMEDIATE
               || (code >= KETTLE_NOT_ASCII && code <= KETTLE_FIELD_TOO_WIDE) || code == KETTLE_NOT_DECODABLE);
        DEMAND(strict || (code != KETTLE_FIELD_TOO_WIDE && code != KETTLE_NOT_DECODABLE));
        DEMAND(kettle_line(answer) >= 1 && kettle_line(answer) <= lines_in(text.at, text.len));
        DEMAND(all(words.at, words_len, 0));
        reached(701, code, magnitude(kettle_line(answer)), strict != 0);
    }
    return answer;
}

static unsigned hex_digits(const uint8_t *at)
{
    unsigned value = 0;
    for (int i = 0; i < 4; i++) {
        DEMAND((at[i] >= '0' && at[i] <= '9') || (at[i] >= 'A' && at[i] <= 'F'));
        value = value * 16 + (at[i] <= '9' ? at[i] - '0' : at[i] - 'A' + 10u);
    }
    return value;
}

/* `out` is large: it is FRESH_BYTE throughout before a call, and made so again after it */
static void lend_out(size_t len)
{
    memset(out.low ? out.at + out.len : out.at - FENCE, FRESH_BYTE, FENCE);
    lend(&out, len, low);
}

/* Which refusal a word has that says no instruction; 0 for one that says one. */
static uint64_t says(unsigned word)
{
    unsigned op = word & 15, which = word >> 7 & 7;
    if (op > 11)
        return KETTLE_BAD_OPCODE;
    if (op == 7 && which > 5)
        return KETTLE_BAD_COMPARE;
    return op == 10 && which == 7 ? KETTLE_BAD_ARITH : 0;
}

/* A word's text into so much room: all of it, or nothing and why. It is left in `buffer`. */
static uint64_t do_print(unsigned word, size_t room)
{
    lend(&buffer, room, low);
    memset(buffer.at, FRESH_BYTE, room);
    uint64_t answer = answered(PRINT, kettle_print((uint16_t)word, BYTES(buffer)));
    size_t len = kettle_bytes(answer);
    if (says(word))
        DEMAND(answer == says(word));
    else
        DEMAND(answer == KETTLE_NO_ROOM || (kettle_code_of(answer) == 0 && len >= 3 && len <= KETTLE_PRINT_MOST));
    DEMAND(room < KETTLE_PRINT_MOST || answer != KETTLE_NO_ROOM);
    DEMAND(len <= room && all(buffer.at + len, room - len, FRESH_BYTE));
    reached(703, word & 15, kettle_code_of(answer), (unsigned)at_most(room, 32));
    return answer;
}

/* A line of the listing ends with what its word says; one byte less has no room for it. */
static void line_says(unsigned word, const uint8_t *said, size_t len)
{
    DEMAND(do_print(word, len) == (uint64_t)len << 16 && !memcmp(buffer.at, said, len));
    DEMAND(do_print(word, len - 1) == KETTLE_NO_ROOM);
}

/* The listing beside the strictly assembled words. */
static void do_list(size_t room)
{
    uint64_t by_words = assembled(1, 2 * KETTLE_WORDS_MOST);
    lend_out(OUT_MOST);
    uint64_t answer = answered(LIST, kettle_list(BYTES(text), BYTES(out)));
    DEMAND(kettle_code_of(answer) == 0);
    size_t len = kettle_bytes(answer), at = 0;
    DEMAND(len <= OUT_MOST && all(out.at + len, at_most(OUT_MOST - len, 4096), FRESH_BYTE));
    char last[64];
    if (text.len > 65536) {
        snprintf(last, sizeof last, "refused 19 line 0\n");
    } else if (kettle_code_of(by_words)) {
        snprintf(last, sizeof last, "refused %u line %llu\n", kettle_code_of(by_words), (unsigned long long)kettle_line(by_words));
    } else {
        for (unsigned i = 0; i < kettle_words(by_words); i++) {
            DEMAND(len - at > 10 && hex_digits(out.at + at) == 2 * i && out.at[at + 4] == ' ' && out.at[at + 9] == ' ');
            DEMAND(hex_digits(out.at + at + 5) == kettle_word(words.at + 2 * i));
            uint8_t *end = (uint8_t *)memchr(out.at + at, '\n', len - at);
            DEMAND(end && end > out.at + at + 10);
            if (i < 64)
                line_says(kettle_word(words.at + 2 * i), out.at + at + 10, (size_t)(end - out.at) - at - 10);
            at = (size_t)(end - out.at) + 1;
        }
        snprintf(last, sizeof last, "words %u open %u\n", (unsigned)kettle_words(by_words), kettle_open_references(by_words));
    }
    DEMAND(len - at == strlen(last) && !memcmp(out.at + at, last, len - at));
    larger(&longest_listing, len);
    uint8_t *listing = (uint8_t *)malloc(len);
    memcpy(listing, out.at, len);
    memset(out.at, FRESH_BYTE, len);
    /* into as much room as is needed, into one byte less, and into what was asked for */
    size_t rooms[3] = {len, len - 1, room};
    for (int i = 0; i < 3; i++) {
        lend_out(rooms[i]);
        uint64_t again = answered(LIST, kettle_list(BYTES(text), BYTES(out)));
        if (rooms[i] < len) {
            DEMAND(again == KETTLE_NO_ROOM && all(out.at, rooms[i], FRESH_BYTE));
        } else {
            DEMAND(again == answer && !memcmp(out.at, listing, len));
            DEMAND(all(out.at + len, at_most(rooms[i] - len, 4096), FRESH_BYTE));
            memset(out.at, FRESH_BYTE, len);
        }
    }
    free(listing);
    reached(702, magnitude(len), 0, 0);
}

/* Strict by this number (1 for 0), strict by 1, and plain; the plain words are left in `words`. */
static uint64_t do_assemble(uint8_t strict, size_t words_len)
{
    static uint8_t kept[WORDS_MOST + 1];
    uint64_t strictly = assembled(strict ? strict : 1, words_len);
    memcpy(kept, words.at, words_len);
    if (strict > 1)
        DEMAND(assembled(1, words_len) == strictly && !memcmp(words.at, kept, words_len));
    uint64_t plainly = assembled(0, words_len);
    larger(&longest_text, text.len);
    if (kettle_code_of(strictly) != KETTLE_FIELD_TOO_WIDE && kettle_code_of(strictly) != KETTLE_NOT_DECODABLE) {
        DEMAND(plainly == strictly && !memcmp(words.at, kept, words_len));
    } else {
        /* plainly it is refused no earlier; and a CJP to a register, in its line, only where there is no room */
        DEMAND(kettle_code_of(plainly) == 0 || kettle_line(plainly) >= kettle_line(strictly));
        DEMAND(kettle_code_of(strictly) != KETTLE_NOT_DECODABLE || kettle_line(plainly) != kettle_line(strictly)
               || kettle_code_of(plainly) == KETTLE_PROGRAM_FULL);
    }
    return plainly;
}

/* ---- source for words ------------------------------------------------------------------------------------------------------ */

/* The line of a word that names no label: what is printed of it, but for three kinds. Answers its length. */
static size_t plain_line(unsigned word, char *line)
{
    size_t len = kettle_bytes(do_print(word, KETTLE_PRINT_MOST));
    unsigned first, second;
    memcpy(line, buffer.at, len);
    line[len] = 0;
    if (word == 0)
        strcpy(line, "DBG");
    if ((word & 31) == 21)
        line[0] = 'C', line[1] = 'J'; /* JMP, of which the last letter stays */
    char *numbers = strchr(line, '[');
    if ((word & 15) == 2 && numbers && sscanf(numbers, "[#%u #%u]", &first, &second) == 2)
        sprintf(numbers, "[#%u #%u]", second, first);
    return strlen(line);
}

/* The text in `out`, line by line; past LINES_CLOSELY only where lines end. */
static void each_line(const uint8_t *of, size_t count, size_t len, const uint8_t *used)
{
    size_t at = 0, n, to;
    char line[64];
    for (size_t i = 0; i < count; i++) {
        unsigned word = kettle_word(of + 2 * i), kind = word & 15;
        char *end = line;
        if (i >= LINES_CLOSELY) {
            uint8_t *close = (uint8_t *)memchr(out.at + at, '\n', len - at);
            DEMAND(close);
            at = (size_t)(close - out.at) + 1;
            continue;
        }
        if (i < SOURCE_LABELS && used[i])
            end += sprintf(end, "L%04X:\n", (unsigned)(2 * i));
        if (has_label(word, count, &to))
            end += sprintf(end, "%s L%04X", kind == 5 ? "CJP" : kind == 6 ? "JMP" : "CALL", (unsigned)(2 * to));
        else
            end += plain_line(word, end);
        *end++ = '\n';
        n = (size_t)(end - line);
        DEMAND(len - at >= n && !memcmp(out.at + at, line, n));
        at += n;
    }
    DEMAND(at == len);
}

/* The text in `out` assembles to these words, and strictly too but for 32; or it is 28, in the line that the rule says. */
static void comes_back(const uint8_t *of, size_t count, size_t len, const uint8_t *used, unsigned labels)
{
    uint64_t full = full_line(of, count, used);
    lend(&text, len, low);
    memcpy(text.at, out.at, len);
    uint64_t answer = do_assemble(1, 2 * count);
    if (full) {
        DEMAND(answer == (KETTLE_TOO_MANY_FIXUPS | full << 16));
    } else {
        DEMAND(answer == ((uint64_t)count << 16 | (uint64_t)labels << 48));
        DEMAND(!memcmp(words.at, of, 2 * count));
    }
    reached(704, magnitude(count), magnitude(labels), full != 0);
}

/* Into as much room as is needed, into one byte less, and into what was asked for. What the text is, `out` has before and after. */
static void in_rooms(const uint8_t *of, size_t of_len, uint64_t answer, size_t room)
{
    static uint8_t source[KETTLE_TEXT_MOST];
    size_t len = kettle_bytes(answer), rooms[3] = {len, len ? len - 1 : 0, room};
    memcpy(source, out.at, len);
    memset(out.at, FRESH_BYTE, len);
    for (int i = 0; i < 3; i++) {
        lend_out(rooms[i]);
        uint64_t again = answered(TEXT, kettle_text(of, of_len, BYTES(out)));
        size_t n = rooms[i] < len ? 0 : len;
        DEMAND(again == (rooms[i] < len ? KETTLE_NO_ROOM : answer) && !memcmp(out.at, source, n));
        DEMAND(all(out.at + n, at_most(rooms[i] - n, 4096), FRESH_BYTE));
        memset(out.at, FRESH_BYTE, n);
    }
}

static size_t words_left; /* of this input */

/* Source for words, by its rule; and the words of that source. */
static void do_text(const uint8_t *given, size_t len, size_t room)
{
    static uint8_t of[WORDS_MOST + 1];
    uint8_t used[SOURCE_LABELS];
    if (len / 2 > words_left)
        return;
    words_left -= len / 2;
    memcpy(of, given, len);
    uint64_t rule = source_unfit(of, len);
    lend(&words, len, low);
    memcpy(words.at, of, len);
    lend_out(rule ? room : OUT_MOST);
    uint64_t answer = answered(TEXT, kettle_text(BYTES(words), BYTES(out)));
    DEMAND(!memcmp(words.at, of, len));
    reached(705, kettle_code_of(answer), magnitude(answer >> 16), magnitude(len));
    if (rule) {
        DEMAND(answer == rule && all(out.at, at_most(room, 4096), FRESH_BYTE));
        return;
    }
    size_t made = kettle_bytes(answer);
    DEMAND(kettle_code_of(answer) == 0 && made <= KETTLE_TEXT_MOST);
    DEMAND(all(out.at + made, at_most(OUT_MOST - made, 4096), FRESH_BYTE));
    unsigned labels = labels_of(of, len / 2, used);
    each_line(of, len / 2, made, used);
    comes_back(of, len / 2, made, used, labels);
    in_rooms(of, len, answer, room);
    larger(&longest_source, made);
}

/* ---- an input -------------------------------------------------------------------------------------------------------------- */

static const uint8_t *input;
static size_t left;

static size_t take(unsigned bytes)
{
    size_t n = 0;
    for (unsigned i = 0; i < bytes && left; i++, left--)
        n |= (size_t)*input++ << 8 * i;
    return n;
}

/* a size_t in three bytes */
static size_t take_size(void)
{
    size_t tag = take(1), n = take(2);
    switch (tag & 7) {
    case 1: return 65536 + n;
    case 2: return (size_t)-1 - n;
    case 3: return ((size_t)1 << 32) + n;
    case 4: return ((size_t)1 << 16) * n;
    default: return n;
    }
}

static const uint8_t *take_bytes(size_t *len)
{
    const uint8_t *at = input;
    if (*len > left)
        *len = left;
    input += *len;
    left -= *len;
    return at;
}

static void take_text(int repeated)
{
    size_t count = repeated ? take(2) : 1, len = take(2);
    const uint8_t *at = take_bytes(&len);
    if (len && count > TEXT_MOST / len)
        count = TEXT_MOST / len;
    size_t rest_len = repeated ? take(2) : 0;
    const uint8_t *rest = take_bytes(&rest_len);
    if (rest_len > TEXT_MOST - count * len)
        rest_len = TEXT_MOST - count * len;
    lend(&text, count * len + rest_len, low);
    for (size_t i = 0; i < count && len; i++) {
        memcpy(text.at + i * len, at, len);
        /* the times are told apart where the text has room for a number, so that there can be many labels */
        uint8_t *number = repeated ? (uint8_t *)memchr(text.at + i * len, '%', len) : NULL;
        for (size_t n = i; number && number < text.at + (i + 1) * len && *number == '%'; n /= 26)
            *number++ = (uint8_t)('a' + n % 26);
    }
    memcpy(text.at + count * len, rest, rest_len);
}

static void fill(struct lent *b, size_t len, uint32_t seed)
{
    lend(b, len, low);
    for (size_t i = 0; i < len; i++)
        b->at[i] = (uint8_t)(seed * (uint64_t)(i + 1) * 40503 / 128);
}

static void poke(struct lent *b, size_t at)
{
    size_t len = take(1);
    const uint8_t *bytes = take_bytes(&len);
    if (at < b->len)
        memcpy(b->at + at, bytes, at_most(len, b->len - at));
}

/* what the input's last text gave */
static uint8_t bytes[WORDS_MOST + 1];
static uint64_t plainly;

static void call(unsigned which)
{
    const uint8_t *given;
    size_t a, b;
    switch (which) {
    case 0:
    case 1:
        a = take(1);
        b = at_most(take(3), WORDS_MOST);
        take_text(which == 1);
        do_list(b);
        plainly = do_assemble((uint8_t)a, b);
        memcpy(bytes, words.at, words.len);
        break;
    case 2:
        a = at_most(take(3), OUT_MOST);
        take_text(0);
        do_list(a);
        break;
    case 3:
        a = take(2);
        given = take_bytes(&a);
        do_load(given, a);
        break;
    case 4:
        a = at_most(take(3), WORDS_MOST / 2);
        b = take(2);
        for (size_t i = 0; i < a; i++)
            put_word(bytes + 2 * i, (unsigned)b);
        do_load(bytes, 2 * a);
        break;
    case 5:
        do_load(bytes, kettle_code_of(plainly) ? 0 : at_most(2 * kettle_words(plainly), WORDS_MOST));
        break;
    case 6: do_step(); break;
    case 7: do_run((uint32_t)take(2)); break;
    case 8: do_step_back(); break;
    case 9:
        a = take_size();
        b = take(2);
        look(&want);
        by_rule(SET_REGISTER, set_register_rule(&want, a, (uint16_t)b), kettle_set_register(TABLES, a, (uint16_t)b));
        break;
    case 10:
        a = take_size();
        b = take_size();
        look(&want);
        by_rule(PROTECT, protect_rule(&want, a, b), kettle_protect(TABLES, a, b));
        break;
    case 11:
        a = take_size();
        b = take_size();
        look(&want);
        by_rule(DEVICE, device_rule(&want, a, b), kettle_device(TABLES, a, b));
        break;
    case 12:
        look(&want);
        by_rule(FORGET, forget_rule(&want), kettle_forget(TABLES));
        break;
    case 13:
        a = take_size();
        b = take_size();
        do_read(a, b, at_most(take(3), BUFFER_MOST));
        break;
    case 14: poke(&memory, take(2)); break;
    case 15: poke(&devices, take(2)); break;
    case 16: poke(&journal, take(3)); break;
    case 17: poke(&block, take(1)); break;
    case 18:
        look(&before);
        lend(&block, take(1), low);
        memset(block.at, 0, block.len);
        memcpy(block.at, before.block, at_most(block.len, before.block_len));
        break;
    case 19:
        for (a = take(1); a; a--)
            do_step_back();
        break;
    case 20:
        a = take(2);
        do_print((unsigned)a, take(1));
        break;
    case 21:
        a = at_most(take(3), OUT_MOST);
        b = take(2);
        given = take_bytes(&b);
        do_text(given, b, a);
        break;
    case 22:
        a = at_most(take(3), OUT_MOST);
        b = at_most(take(3), WORDS_MOST);
        for (size_t i = 0, word = take(2), more = take(2); i < b; i += 2, word += more)
            put_word(bytes + i, (unsigned)word & 65535);
        do_text(bytes, b, a);
        break;
    case 23:
        a = at_most(take(3), OUT_MOST);
        do_text(bytes, kettle_code_of(plainly) ? 0 : at_most(2 * kettle_words(plainly), WORDS_MOST), a);
        break;
    default: break;
    }
}

int LLVMFuzzerInitialize(int *argc, char ***argv);
int LLVMFuzzerTestOneInput(const uint8_t *data, size_t size);

int LLVMFuzzerInitialize(int *argc, char ***argv)
{
    (void)argc, (void)argv;
    make_room(&block, BLOCK_MOST);
    make_room(&memory, MEMORY_MOST);
    make_room(&devices, DEVICES_MOST);
    make_room(&journal, JOURNAL_MOST);
    make_room(&words, WORDS_MOST);
    make_room(&text, KETTLE_TEXT_MOST);
    make_room(&out, OUT_MOST);
    make_room(&buffer, BUFFER_MOST);
    if (getenv("KETTLE_BLOCKS"))
        watch_blocks(getenv("KETTLE_BLOCKS"));
    atexit(report);
    return 0;
}

int LLVMFuzzerTestOneInput(const uint8_t *data, size_t size)
{
    input = data;
    left = size;
    inputs++;
    size_t memory_len = take(2), devices_len = take(2), journal_len = take(2), flags = take(2);
    uint32_t seed = (uint32_t)take(2);
    low = flags >> 4 & 1;
    null_for_none = flags >> 5 & 1;
    fill(&memory, memory_len + (flags & 2 ? 512 : 0), seed);
    fill(&devices, devices_len + (flags & 4 ? 512 : 0), seed);
    fill(&journal, journal_len + (flags & 8 ? 65536 : 0), seed);
    lend(&block, KETTLE_BLOCK_SIZE, low);
    kettle_fresh(block.at, flags & 1);
    lend(&words, 0, low);
    lend(&text, 0, low);
    lend(&buffer, 0, low);
    if (out.at)
        lend_out(0);
    else
        lend(&out, 0, low);
    plainly = 0;
    steps_left = STEPS_MOST;
    words_left = SOURCED_MOST;
    unsigned number = 0;
    while (left && number++ < 64)
        call((unsigned)take(1) & 31);
    return 0;
}
