/*
 * blocks.h: which parts of the library were run. The library is machine code that no compiler of ours has instrumented, so each
 * of its basic blocks (listed by tests/fuzz/blocks from the linked harness) gets a breakpoint in its first byte. The first time
 * that the processor comes there the byte is put back and the block is counted, as a new feature of the input that led there.
 * x86-64 and Linux.
 */
#ifndef BLOCKS_H
#define BLOCKS_H

#include <signal.h>
#include <stdio.h>
#include <stdlib.h>
#include <sys/mman.h>
#include <ucontext.h>

enum { BLOCKS_MOST = 8192, BREAKPOINT = 0xcc };

__attribute__((used, section("__libfuzzer_extra_counters"))) static uint8_t block_counters[BLOCKS_MOST];

static struct block {
    uint8_t *at;
    uint8_t byte, reached;
    char name[64];
} blocks[BLOCKS_MOST];
static size_t block_count, blocks_reached;

static void at_breakpoint(int signal_number, siginfo_t *info, void *context)
{
    (void)signal_number, (void)info;
    greg_t *registers = ((ucontext_t *)context)->uc_mcontext.gregs;
    uint8_t *at = (uint8_t *)registers[REG_RIP] - 1;
    size_t low = 0, high = block_count;
    while (low < high) {
        size_t middle = (low + high) / 2;
        if (blocks[middle].at < at)
            low = middle + 1;
        else
            high = middle;
    }
    if (low == block_count || blocks[low].at != at)
        abort();
    *at = blocks[low].byte;
    registers[REG_RIP]--;
    blocks[low].reached = 1;
    blocks_reached++;
    block_counters[low] = 1;
}

/* The file has a line for each block: its address in hex, and the function that it is in; sorted. */
static void watch_blocks(const char *path)
{
    FILE *file = fopen(path, "r");
    if (!file) {
        perror(path);
        exit(2);
    }
    unsigned long at;
    char name[64];
    while (block_count < BLOCKS_MOST && fscanf(file, "%lx %63s", &at, name) == 2) {
        blocks[block_count].at = (uint8_t *)at;
        memcpy(blocks[block_count++].name, name, sizeof name);
    }
    fclose(file);
    if (!block_count)
        return;
    uintptr_t from = (uintptr_t)blocks[0].at & ~(uintptr_t)4095, to = (uintptr_t)blocks[block_count - 1].at + 1;
    if (mprotect((void *)from, to - from, PROT_READ | PROT_WRITE | PROT_EXEC) != 0) {
        perror("blocks.h");
        exit(2);
    }
    struct sigaction action;
    memset(&action, 0, sizeof action);
    action.sa_sigaction = at_breakpoint;
    action.sa_flags = SA_SIGINFO | SA_NODEFER;
    sigaction(SIGTRAP, &action, NULL);
    for (size_t i = 0; i < block_count; i++) {
        blocks[i].byte = *blocks[i].at;
        *blocks[i].at = BREAKPOINT;
    }
}

#endif
