// The header from C++: it compiles without a warning by every standard (tests/c/headers), and each function links. A type's name
// is enough, with no enum or struct before it: no function has the same one.
#include "seamkettle.h"
#include "seamkettle.h"

#include <cstdio>
#include <cstring>
#include <vector>

static unsigned bad;

static void check(bool good, const char *what)
{
    if (!good)
        std::printf("not so: %s\n", what);
    bad += !good;
}

#define CHECK(x) check((x), #x)
#define ALL block, sizeof block, memory, sizeof memory, devices, sizeof devices, journal, sizeof journal
#define TABLES block, sizeof block, devices, sizeof devices, journal, sizeof journal
// what an entry does not write may be const
#define CONST_TABLES block, sizeof block, const_devices, sizeof devices, const_journal, sizeof journal

static const char source[] = "MOV A, #5\nMOV FLAGS, #1";
static uint8_t block[KETTLE_BLOCK_SIZE], memory[64], devices[4], journal[3 * KETTLE_RECORD_SIZE], words[16];
static const uint8_t *const const_devices = devices, *const const_journal = journal, *const const_block = block;

static kettle_code code_of(uint64_t answer)
{
    return static_cast<kettle_code>(kettle_code_of(answer));
}

static uint64_t texts()
{
    std::vector<uint8_t> text(source, source + sizeof source - 1), out(4096);
    const uint64_t made = kettle_assemble(text.data(), text.size(), 1, words, sizeof words);
    CHECK(code_of(made) == KETTLE_ACCEPTED && kettle_words(made) == 2 && kettle_words_len(made) == 4 && kettle_line(made) == 0);
    CHECK(kettle_open_references(made) == 0 && kettle_labels(made) == 0);
    CHECK(kettle_bytes(kettle_list(text.data(), text.size(), out.data(), out.size())) > 0 && out[0] == '0');
    CHECK(kettle_bytes(kettle_print(0x0501, out.data(), KETTLE_PRINT_MOST)) == 9 && !std::memcmp(out.data(), source, 9));
    const uint64_t text_of = kettle_text(words, kettle_words_len(made), out.data(), out.size());
    CHECK(code_of(text_of) == KETTLE_ACCEPTED && kettle_bytes(text_of) == text.size() + 1 && kettle_index(text_of) == 0);
    CHECK(!std::memcmp(out.data(), source, text.size()) && out[text.size()] == 10);
    CHECK(!std::strcmp(kettle_code_name(KETTLE_STOP), "KETTLE_STOP") && kettle_code_text(KETTLE_STOP)[0] != 0);
    CHECK(kettle_version() == KETTLE_VERSION);
    return made;
}

static void plainly(uint64_t made)
{
    kettle_code c = KETTLE_ACCEPTED;
    kettle_register r = KETTLE_A;
    uint8_t out[2];
    kettle_fresh(block, 0);
    CHECK(code_of(kettle_device(CONST_TABLES, 60, 4)) == c);
    CHECK(code_of(kettle_protect(CONST_TABLES, 50, 1)) == c);
    CHECK(code_of(kettle_set_register(CONST_TABLES, KETTLE_B, 7)) == c);
    CHECK(code_of(kettle_load(block, sizeof block, memory, sizeof memory, devices, sizeof devices, const_journal, sizeof journal,
                              words, kettle_words_len(made))) == c);
    CHECK(code_of(kettle_protect_rest(CONST_TABLES, kettle_words_len(made))) == c);
    CHECK(code_of(kettle_step(ALL)) == c && kettle_register_of(const_block, r) == 5);
    const uint8_t *newest = kettle_record(const_block, const_journal, sizeof journal, 0);
    CHECK(newest == journal && kettle_record_register(newest, r) == 0 && newest[KETTLE_RECORD_KIND] == 0);
    CHECK(code_of(kettle_step_back(block, sizeof block, memory, sizeof memory, devices, sizeof devices, const_journal,
                                   sizeof journal)) == c && kettle_register_of(const_block, r) == 0);
    const uint64_t ran = kettle_run(ALL, 10);
    CHECK(code_of(ran) == KETTLE_STOP && kettle_steps(ran) == 2 && kettle_held(const_block) == 2);
    CHECK(kettle_halted(const_block) && !kettle_failed(const_block));
    CHECK(code_of(kettle_forget(CONST_TABLES)) == c && kettle_held(const_block) == 0);
    CHECK(kettle_bytes(kettle_read(const_block, sizeof block, memory, sizeof memory, const_devices, sizeof devices, const_journal,
                                   sizeof journal, 0, 2, out, sizeof out)) == 2 && kettle_word(out) == 0x0501);
}

static void by_struct(uint64_t made)
{
    const kettle_machine m{block, memory, sizeof memory, devices, sizeof devices, journal, sizeof journal};
    uint8_t out[2];
    kettle_fresh(m.block, 0);
    CHECK(code_of(kettle_machine_device(&m, 60, 4)) == KETTLE_ACCEPTED);
    CHECK(code_of(kettle_machine_protect(&m, 50, 1)) == KETTLE_ACCEPTED);
    CHECK(code_of(kettle_machine_set_register(&m, KETTLE_B, 7)) == KETTLE_ACCEPTED);
    CHECK(code_of(kettle_machine_load(&m, words, kettle_words_len(made))) == KETTLE_ACCEPTED);
    CHECK(code_of(kettle_machine_protect_rest(&m, kettle_words_len(made))) == KETTLE_ACCEPTED);
    CHECK(code_of(kettle_machine_step(&m)) == KETTLE_ACCEPTED && kettle_register_of(m.block, KETTLE_A) == 5);
    CHECK(kettle_machine_record(&m, 0) == journal && kettle_machine_record(&m, 1) == nullptr);
    CHECK(code_of(kettle_machine_step_back(&m)) == KETTLE_ACCEPTED && kettle_register_of(m.block, KETTLE_A) == 0);
    CHECK(code_of(kettle_machine_run(&m, 10)) == KETTLE_STOP && kettle_halted(m.block));
    CHECK(code_of(kettle_machine_forget(&m)) == KETTLE_ACCEPTED && kettle_held(m.block) == 0);
    CHECK(kettle_bytes(kettle_machine_read(&m, 0, 2, out, sizeof out)) == 2 && kettle_word(out) == 0x0501);
}

int main()
{
    const uint64_t made = texts();
    plainly(made);
    by_struct(made);
    std::printf("linked from C++: %u failed\n", bad);
    return bad != 0;
}
