/* The header alone, included twice: tests/c/headers compiles this by every standard. */
#include "seamkettle.h"
#include "seamkettle.h"

#if KETTLE_VERSION != 10000 * KETTLE_VERSION_MAJOR + 100 * KETTLE_VERSION_MINOR + KETTLE_VERSION_PATCH
#error "the preprocessor can't reckon with the version"
#endif

/* each function has this type */
#define IN const uint8_t *, size_t
#define OUT uint8_t *, size_t
#define M const struct kettle_machine *
uint32_t (*const version)(void) = kettle_version;
uint64_t (*const assemble)(IN, uint8_t, OUT) = kettle_assemble;
uint64_t (*const list)(IN, OUT) = kettle_list;
uint64_t (*const print)(uint16_t, OUT) = kettle_print;
uint64_t (*const text)(IN, OUT) = kettle_text;
uint64_t (*const load)(OUT, OUT, OUT, IN, IN) = kettle_load;
uint64_t (*const protect)(OUT, IN, IN, size_t, size_t) = kettle_protect;
uint64_t (*const protect_rest)(OUT, IN, IN, size_t) = kettle_protect_rest;
uint64_t (*const device)(OUT, IN, IN, size_t, size_t) = kettle_device;
uint64_t (*const set_register)(OUT, IN, IN, size_t, uint16_t) = kettle_set_register;
uint64_t (*const step)(OUT, OUT, OUT, OUT) = kettle_step;
uint64_t (*const run)(OUT, OUT, OUT, OUT, uint32_t) = kettle_run;
uint64_t (*const step_back)(OUT, OUT, OUT, IN) = kettle_step_back;
uint64_t (*const forget)(OUT, IN, IN) = kettle_forget;
uint64_t (*const read_out)(IN, IN, IN, IN, size_t, size_t, OUT) = kettle_read;
uint64_t (*const machine_load)(M, IN) = kettle_machine_load;
uint64_t (*const machine_protect)(M, size_t, size_t) = kettle_machine_protect;
uint64_t (*const machine_protect_rest)(M, size_t) = kettle_machine_protect_rest;
uint64_t (*const machine_device)(M, size_t, size_t) = kettle_machine_device;
uint64_t (*const machine_set_register)(M, size_t, uint16_t) = kettle_machine_set_register;
uint64_t (*const machine_step)(M) = kettle_machine_step;
uint64_t (*const machine_run)(M, uint32_t) = kettle_machine_run;
uint64_t (*const machine_step_back)(M) = kettle_machine_step_back;
uint64_t (*const machine_forget)(M) = kettle_machine_forget;
uint64_t (*const machine_read)(M, size_t, size_t, OUT) = kettle_machine_read;
const uint8_t *(*const machine_record)(M, size_t) = kettle_machine_record;

/* and each of those that look at an answer, a block or a record can be called */
static int answers(uint64_t answer)
{
    unsigned code = kettle_code_of(answer);
    return code == KETTLE_FETCH_UNMAPPED && kettle_steps(answer) == 0 && kettle_bytes(answer) == 0 && kettle_index(answer) == 0 &&
           kettle_line(answer) == 0 && kettle_words(answer) == 0 && kettle_words_len(answer) == 0 && kettle_open_references(answer) == 0 &&
           kettle_labels(answer) == 0 && kettle_code_name(code)[0] == 'K' && kettle_code_text(code)[0] != 0;
}

static int blocks(const uint8_t *block)
{
    const uint8_t *record = kettle_record(block, NULL, 0, 0);
    enum kettle_register pc = KETTLE_PC;
    return kettle_register_of(block, pc) == 0 && kettle_held(block) == 0 && kettle_word(block) == 0 && !kettle_halted(block) &&
           !kettle_failed(block) && (record == NULL || kettle_record_register(record, pc) == 0);
}

int main(void)
{
    uint8_t block[KETTLE_BLOCK_SIZE];
    const struct kettle_machine m = {.block = block};
    enum kettle_code accepted = KETTLE_ACCEPTED;
    kettle_fresh(block, 1);
    return answers(step(block, sizeof block, NULL, 0, NULL, 0, NULL, 0)) && blocks(block) && kettle_machine_record(&m, 0) == NULL &&
                   kettle_machine_run(&m, 0) == accepted && kettle_version() == KETTLE_VERSION
               ? 0
               : 1;
}
