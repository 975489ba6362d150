/*
 * What the tests share: checks that are counted, bytes in guarded pages, a machine with its four buffers, and a second reckoning of
 * some rules, written from the paper alone (reference.c).
 */
#ifndef CHECK_H
#define CHECK_H

#include <stdbool.h>
#include <stddef.h>
#include <stdint.h>

#include "seamkettle.h"

/* ---- checks: count.c ------------------------------------------------------------------------------------------------------ */

extern unsigned long long checks, failures;

/* what a failure is told with: what is being tried, and up to three numbers */
void during(const char *what, long a, long b, long c);

void check_that(bool good, const char *what, const char *file, int line);
void check_number(uint64_t got, uint64_t want, const char *what, const char *file, int line);

#define CHECK(x) check_that((x), #x, __FILE__, __LINE__)
#define NUMBER(got, want) check_number((got), (want), #got, __FILE__, __LINE__)

/* a number of 0 to below - 1; the same ones in each run */
uint32_t any_below(uint32_t below);

/* ---- bytes in guarded pages: guard.c --------------------------------------------------------------------------------------- */

/* A buffer starts just after a page that can't be touched, or ends just before one. Every test is run with both. */
enum edge { AT_START, AT_END };
extern enum edge edge;

struct bytes {
    uint8_t *at;
    size_t len;
    uint8_t *copy; /* what keep found */
    uint8_t *room; /* the pages that can be touched */
    size_t room_len;
    uint8_t *all; /* these, and what guards them */
    size_t all_len;
};

/* zeros. Of length 0: NULL for AT_END, an address that can't be touched for AT_START */
struct bytes lend(size_t len);
struct bytes lend_text(const char *text);
/* len bytes of address space, of which only the first `open` can be touched */
struct bytes lend_huge(size_t open, size_t len);
void give_back(struct bytes *b);

void keep(struct bytes *b);
bool kept(const struct bytes *b);
bool all_are(const uint8_t *at, size_t len, uint8_t value);
void read_only(const struct bytes *b);

void catch_traps(void);

/* ---- a machine and what is lent to it: machines.c ---------------------------------------------------------------------------- */

struct machine {
    struct bytes block, memory, devices, journal;
};

#define BLOCK(m) (m)->block.at, (m)->block.len
#define ALL(m) \
    (m)->block.at, (m)->block.len, (m)->memory.at, (m)->memory.len, (m)->devices.at, (m)->devices.len, (m)->journal.at, \
        (m)->journal.len
#define TABLES(m) (m)->block.at, (m)->block.len, (m)->devices.at, (m)->devices.len, (m)->journal.at, (m)->journal.len

struct machine machine(size_t memory, size_t devices, size_t journal, int debug);
void discard(struct machine *m);
void keep_all(struct machine *m);
bool all_kept(const struct machine *m);
void put_word(uint8_t *at, unsigned word);
void put_register(struct machine *m, enum kettle_register r, unsigned value);
unsigned reg(const struct machine *m, enum kettle_register r);
unsigned next(const struct machine *m);

/* Each calls its entry, and checks that a refusal, or Stop, has changed nothing (of a load, a run: but for what they keep), and
 * that no byte changed that the entry does not write. */
uint64_t step(struct machine *m);
uint64_t run(struct machine *m, uint32_t steps);
uint64_t back(struct machine *m);
uint64_t set(struct machine *m, size_t number, uint16_t value);
uint64_t protect(struct machine *m, size_t start, size_t len);
uint64_t protect_rest(struct machine *m, size_t words_len);
uint64_t device(struct machine *m, size_t start, size_t size);
uint64_t forget(struct machine *m);
uint64_t load(struct machine *m, const struct bytes *words);
uint64_t load_words(struct machine *m, size_t count, const unsigned *words);
uint64_t read_out(struct machine *m, size_t start, size_t size, struct bytes *buffer);
uint64_t assemble(const struct bytes *text, int strict, struct bytes *words);
uint64_t list(const struct bytes *text, struct bytes *out);
uint64_t print(unsigned word, struct bytes *out);
uint64_t text_of(const struct bytes *words, struct bytes *out);

/* ---- the second reckoning: reference.c, interpreter.c ---------------------------------------------------------------------------- */

bool is_valid(const struct machine *m);
bool is_mapped(const struct machine *m, unsigned a);
bool takes_store(const struct machine *m, unsigned a);
uint8_t *ref_byte(const struct machine *m, unsigned a, bool *of_device);
void ref_record(struct machine *m, unsigned stored, const unsigned *at);
/* a step of a valid state */
uint64_t ref_turn(struct machine *m);

/* Each does to a machine what the paper says, and answers the number. */
uint64_t ref_step(struct machine *m);
uint64_t ref_run(struct machine *m, uint32_t steps);
uint64_t ref_back(struct machine *m);
uint64_t ref_set(struct machine *m, size_t number, uint16_t value);
uint64_t ref_protect(struct machine *m, size_t start, size_t len);
uint64_t ref_device(struct machine *m, size_t start, size_t size);
uint64_t ref_forget(struct machine *m);
uint64_t ref_load(struct machine *m, const struct bytes *words);
uint64_t ref_read(const struct machine *m, size_t start, size_t size, struct bytes *buffer);

/* what is said of a word: printer.c */
enum { SAID_MOST = 40 };
struct said {
    char text[SAID_MOST];
    size_t len;
};

/* as the printer says it: 4, 5, 6, or 0 and the text */
unsigned ref_print(struct said *s, unsigned word);
/* of a word that says something: the same as the assembler reads it, MSL and MSR with the amount last, DBG for NOOP, and CJP for the
 * word of a CJP to a register */
void ref_line(struct said *s, unsigned word);

/* ---- the groups ---------------------------------------------------------------------------------------------------------------- */

void test_answers(void);
void test_tables(void);
void test_programs(void);
void test_steps(void);
void test_instructions(void);
void test_journals(void);
void test_walks(void);
void test_texts(void);
void test_limits(void);
void test_meanings(void);
void test_listings(void);
void test_prints(void);
void test_sources(void);
void test_helpers(void);
void test_records(void);
void test_wrappers(void);
void test_damage(void);
void test_lengths(void);

/* last: every code was seen, but for the two that no function of the header gives, and no other one was */
void test_seen(void);

#endif
