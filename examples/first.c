#include <stdio.h>
#include <seamkettle.h>

static int refused(uint64_t answer)
{
    unsigned code = kettle_code_of(answer);

    if (code != KETTLE_ACCEPTED)
        printf("%s: %s\n", kettle_code_name(code), kettle_code_text(code));
    return code != KETTLE_ACCEPTED;
}

int main(void)
{
    const char *text = "MOV A, #6\nMUL A, #7\nMOV FLAGS, #1\n";
    uint8_t block[KETTLE_BLOCK_SIZE], memory[256] = { 0 }, words[64];
    struct kettle_machine m = {
        .block = block, .memory = memory, .memory_len = sizeof memory
    };
    uint64_t made, ran;

    made = kettle_assemble((const uint8_t *)text, strlen(text), 1, words,
                           sizeof words);
    if (refused(made)) {
        printf("in line %llu\n", (unsigned long long)kettle_line(made));
        return 1;
    }
    /* JMP Loop where the text has loop: would be a NOOP, and never jump */
    if (kettle_open_references(made) != 0) {
        printf("a label is not defined\n");
        return 1;
    }
    kettle_fresh(block, 0);
    if (refused(kettle_machine_load(&m, words, kettle_words_len(made))) ||
        refused(kettle_machine_protect_rest(&m, kettle_words_len(made))))
        return 1;

    ran = kettle_machine_run(&m, 1000);
    if (!kettle_halted(block)) {
        printf("%s after %u steps\n",
               kettle_failed(block) ? "a store failed"
                                    : kettle_code_name(kettle_code_of(ran)),
               (unsigned)kettle_steps(ran));
        return 1;
    }
    printf("A is %u after %u steps\n",
           (unsigned)kettle_register_of(block, KETTLE_A),
           (unsigned)kettle_steps(ran));
    return 0;
}
