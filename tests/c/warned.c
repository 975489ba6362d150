/*
 * What the header lets a compiler warn of, from C and C++: an answer that nobody looks at, and a buffer that is shorter than the
 * length beside it, for each buffer of each function. Each line at fault names its warning at its end, and tests/c/headers holds
 * these against what the compiler says.
 */
#include "seamkettle.h"

uint64_t ignored(const struct kettle_machine *m);
uint64_t too_short(const struct kettle_machine *m);

static uint8_t block[KETTLE_BLOCK_SIZE], memory[64], devices[4], journal[KETTLE_RECORD_SIZE], words[4], out[4];
static const uint8_t text[4] = {'R', 'E', 'T', '\n'};

#define B block, sizeof block
#define M memory, sizeof memory
#define D devices, sizeof devices
#define J journal, sizeof journal
#define W words, sizeof words
#define T text, sizeof text

uint64_t ignored(const struct kettle_machine *m)
{
    kettle_assemble(T, 1, W);                      // unused-result
    kettle_list(T, out, sizeof out);               // unused-result
    kettle_print(0, out, sizeof out);              // unused-result
    kettle_text(W, out, sizeof out);               // unused-result
    kettle_load(B, M, D, J, W);                    // unused-result
    kettle_protect(B, D, J, 0, 1);                 // unused-result
    kettle_protect_rest(B, D, J, 4);               // unused-result
    kettle_device(B, D, J, 0, 1);                  // unused-result
    kettle_set_register(B, D, J, KETTLE_A, 1);     // unused-result
    kettle_step(B, M, D, J);                       // unused-result
    kettle_run(B, M, D, J, 1);                     // unused-result
    kettle_step_back(B, M, D, J);                  // unused-result
    kettle_forget(B, D, J);                        // unused-result
    kettle_read(B, M, D, J, 0, 4, out, sizeof out); // unused-result
    kettle_machine_load(m, W);                     // unused-result
    kettle_machine_protect(m, 0, 1);               // unused-result
    kettle_machine_protect_rest(m, 4);             // unused-result
    kettle_machine_device(m, 0, 1);                // unused-result
    kettle_machine_set_register(m, KETTLE_A, 1);   // unused-result
    kettle_machine_step(m);                        // unused-result
    kettle_machine_run(m, 1);                      // unused-result
    kettle_machine_step_back(m);                   // unused-result
    kettle_machine_forget(m);                      // unused-result
    kettle_machine_read(m, 0, 4, out, sizeof out); // unused-result
    return kettle_step(B, M, D, J);
}

static uint64_t short_texts(void)
{
    uint64_t sum = kettle_assemble(text, 5, 1, W); // stringop-overread
    sum += kettle_assemble(T, 1, words, 6);        // stringop-overflow
    sum += kettle_list(text, 5, out, sizeof out);  // stringop-overread
    sum += kettle_list(T, out, 5);                 // stringop-overflow
    sum += kettle_print(0, out, 5);                // stringop-overflow
    sum += kettle_text(words, 6, out, sizeof out); // stringop-overread
    sum += kettle_text(W, out, 5);                 // stringop-overflow
    return sum;
}

static uint64_t short_tables(void)
{
    uint64_t sum = kettle_protect(block, 100, D, J, 0, 1);           // stringop-overflow
    sum += kettle_protect(B, devices, 5, J, 0, 1);                   // stringop-overread
    sum += kettle_protect(B, D, journal, 24, 0, 1);                  // stringop-overread
    sum += kettle_protect_rest(block, 100, D, J, 4);                 // stringop-overflow
    sum += kettle_protect_rest(B, devices, 5, J, 4);                 // stringop-overread
    sum += kettle_protect_rest(B, D, journal, 24, 4);                // stringop-overread
    sum += kettle_device(block, 100, D, J, 0, 1);                    // stringop-overflow
    sum += kettle_device(B, devices, 5, J, 0, 1);                    // stringop-overread
    sum += kettle_device(B, D, journal, 24, 0, 1);                   // stringop-overread
    sum += kettle_set_register(block, 100, D, J, KETTLE_A, 1);       // stringop-overflow
    sum += kettle_set_register(B, devices, 5, J, KETTLE_A, 1);       // stringop-overread
    sum += kettle_set_register(B, D, journal, 24, KETTLE_A, 1);      // stringop-overread
    sum += kettle_forget(block, 100, D, J);                          // stringop-overflow
    sum += kettle_forget(B, devices, 5, J);                          // stringop-overread
    sum += kettle_forget(B, D, journal, 24);                         // stringop-overread
    return sum;
}

static uint64_t short_machines(void)
{
    uint64_t sum = kettle_load(block, 100, M, D, J, W);              // stringop-overflow
    sum += kettle_load(B, memory, 65, D, J, W);                      // stringop-overflow
    sum += kettle_load(B, M, devices, 5, J, W);                      // stringop-overflow
    sum += kettle_load(B, M, D, journal, 24, W);                     // stringop-overread
    sum += kettle_load(B, M, D, J, words, 6);                        // stringop-overread
    sum += kettle_step(block, 100, M, D, J);                         // stringop-overflow
    sum += kettle_step(B, memory, 65, D, J);                         // stringop-overflow
    sum += kettle_step(B, M, devices, 5, J);                         // stringop-overflow
    sum += kettle_step(B, M, D, journal, 24);                        // stringop-overflow
    sum += kettle_run(block, 100, M, D, J, 1);                       // stringop-overflow
    sum += kettle_run(B, memory, 65, D, J, 1);                       // stringop-overflow
    sum += kettle_run(B, M, devices, 5, J, 1);                       // stringop-overflow
    sum += kettle_run(B, M, D, journal, 24, 1);                      // stringop-overflow
    sum += kettle_step_back(block, 100, M, D, J);                    // stringop-overflow
    sum += kettle_step_back(B, memory, 65, D, J);                    // stringop-overflow
    sum += kettle_step_back(B, M, devices, 5, J);                    // stringop-overflow
    sum += kettle_step_back(B, M, D, journal, 24);                   // stringop-overread
    sum += kettle_read(block, 100, M, D, J, 0, 4, out, sizeof out);  // stringop-overread
    sum += kettle_read(B, memory, 65, D, J, 0, 4, out, sizeof out);  // stringop-overread
    sum += kettle_read(B, M, devices, 5, J, 0, 4, out, sizeof out);  // stringop-overread
    sum += kettle_read(B, M, D, journal, 24, 0, 4, out, sizeof out); // stringop-overread
    sum += kettle_read(B, M, D, J, 0, 4, out, 5);                    // stringop-overflow
    return sum;
}

static uint64_t short_wrapped(const struct kettle_machine *m)
{
    uint64_t sum = kettle_machine_load(m, words, 6);                 // stringop-overread
    sum += kettle_machine_read(m, 0, 4, out, 5);                     // stringop-overflow
    return sum;
}

uint64_t too_short(const struct kettle_machine *m)
{
    return short_texts() + short_tables() + short_machines() + short_wrapped(m);
}
