/*
 * seamkettle.h: a sixteen-bit machine, its assembler and its journal, for a C host. Link with libseamkettle.a
 * (pkg-config --cflags --libs seamkettle). C99 and C++11. seamkettle(3) is this header as a man page; seamkettle-asm(7) is the
 * language of the programs.
 *
 * Each function takes bytes that the caller owns and answers one number: a code in its low 16 bits (kettle_code_of), and above it
 * what was counted (kettle_words, kettle_steps, kettle_bytes, kettle_line, kettle_index).
 *
 *   block     the machine's state, KETTLE_BLOCK_SIZE bytes, laid out below; kettle_fresh makes a new one
 *   memory    linear memory, any length; bytes past 65,535 are never touched
 *   devices   the bytes of the devices, in the order in which they were added
 *   journal   records of the last steps, KETTLE_RECORD_SIZE bytes each, at most KETTLE_RECORD_MOST; of length 0, none are kept
 *   words     instructions, two bytes each, the low byte first
 *   text      assembly text, bytes; it needs no byte 0 at its end
 *
 * Lengths are in bytes. A buffer of length 0 may be NULL. What a journal's bytes are at first does not matter (set them all the
 * same: gcc warns of a buffer that was never written). The buffers of one call must not overlap, unless the call writes to
 * neither of the two (both are const). Nothing is kept between two calls and nothing is allocated, so any thread may call any
 * function on buffers of its own. No function calls back, waits or fails to return. Stack: KETTLE_STACK_TEXT bytes are enough for
 * kettle_assemble, kettle_list and kettle_text, KETTLE_STACK_LOAD for kettle_load, KETTLE_STACK_OTHER for each of the others.
 *
 * A function with a block, memory, devices and journal can be called with these one by one, or through struct kettle_machine, which
 * says where they are (at the end of this header). Both do the same.
 *
 * A refusal changes nothing, with three exceptions: kettle_load with KETTLE_WRITE_FAILED or KETTLE_OVERLAP keeps the words that
 * were stored (with KETTLE_WRITE_FAILED perhaps one more low byte) and empties the journal; kettle_run keeps the steps that were
 * accepted before; kettle_assemble zeroes all words (but for KETTLE_BAD_BLOCK). A refused function leaves its block as it was, but
 * for such a load or run.
 *
 * Accepted kettle_set_register, kettle_protect, kettle_device and kettle_forget, and each kettle_load but one refused with
 * KETTLE_BAD_BLOCK, KETTLE_BAD_STATE, KETTLE_TOO_LONG or KETTLE_TABLE_FULL, empty the journal: what came before them can't be
 * stepped back.
 */
#ifndef SEAMKETTLE_H
#define SEAMKETTLE_H

#include <stddef.h>
#include <stdint.h>
#include <string.h>

#ifdef __cplusplus
extern "C" {
#endif

/* ---- the version ---------------------------------------------------------------------------------------------------------- */

/* The header's version; kettle_version is the archive's. Where the two differ, the block may have another size, and then each
 * function that takes one answers KETTLE_BAD_BLOCK: ask at the start whether they are equal. */
#define KETTLE_VERSION_MAJOR 0
#define KETTLE_VERSION_MINOR 4
#define KETTLE_VERSION_PATCH 0
#define KETTLE_VERSION (10000 * KETTLE_VERSION_MAJOR + 100 * KETTLE_VERSION_MINOR + KETTLE_VERSION_PATCH)

/* ---- for this header alone: undefined again at its end -------------------------------------------------------------------- */

/* a cast and a null pointer that neither C nor C++ warns of */
#ifdef __cplusplus
#define KETTLE_CAST(type, x) static_cast<type>(x)
#define KETTLE_NULL nullptr
#else
#define KETTLE_CAST(type, x) ((type)(x))
#define KETTLE_NULL NULL
#endif

/* an answer that must be looked at */
#ifdef __GNUC__
#define KETTLE_LOOK __attribute__((__warn_unused_result__))
#else
#define KETTLE_LOOK
#endif

/* parameter `at` points to as many bytes as the parameter after it says, which are read, written, or both */
#ifdef __has_attribute
#if __has_attribute(__access__)
#define KETTLE_IN(at) __attribute__((__access__(__read_only__, at, at + 1)))
#define KETTLE_OUT(at) __attribute__((__access__(__write_only__, at, at + 1)))
#define KETTLE_BOTH(at) __attribute__((__access__(__read_write__, at, at + 1)))
#endif
#endif
#ifndef KETTLE_IN
#define KETTLE_IN(at)
#define KETTLE_OUT(at)
#define KETTLE_BOTH(at)
#endif

/* ---- codes: the low 16 bits of every answer ------------------------------------------------------------------------------- */

/* CODE(name, number, text) for each. Of KETTLE_BAD_STATE: a state is valid if its tables hold at most 8 entries each, unused ones
 * are zero, their ends are at most 65,535, no device ends before its start, no two entries of a table overlap (as KETTLE_OVERLAP
 * has it), the devices' sizes fit into `devices`, no more records are held than `journal` has room for, and the next is one of its
 * slots (0 where it has none). So a journal that gets too short for its records makes a bad state. One that gets another length and
 * still has room for them is not told from another journal: call kettle_forget before you change its length. */
#define KETTLE_CODES(CODE) \
    CODE(KETTLE_ACCEPTED, 0, "done; of a step: go on") \
    /* any function with a block */ \
    CODE(KETTLE_BAD_STATE, 1, "the block is no valid state with these devices and this journal") \
    CODE(KETTLE_BAD_BLOCK, 31, "the block has not 87 bytes or a debug byte over 1, or the words have an odd length") \
    /* a step */ \
    CODE(KETTLE_FETCH_UNMAPPED, 2, "a byte of the instruction at PC is neither in memory nor in a device") \
    CODE(KETTLE_ADDRESS_OVERFLOW, 3, "an address plus shift is over 65,535, or a word at 65,535 whose low byte is there") \
    CODE(KETTLE_BAD_OPCODE, 4, "no instruction has this number") \
    CODE(KETTLE_BAD_COMPARE, 5, "no comparison has this number") \
    CODE(KETTLE_BAD_ARITH, 6, "no arithmetic has this number") \
    CODE(KETTLE_ARITH_OVERFLOW, 7, "the true result is not in 0 to 65,535") \
    CODE(KETTLE_DIVIDE_BY_ZERO, 8, "a division or remainder by 0") \
    CODE(KETTLE_PC_OVERFLOW, 9, "PC plus 2 is over 65,535") \
    CODE(KETTLE_DEBUG, 256, "accepted: a NOOP (DBG) of a machine in debug mode; a run stops after it") \
    CODE(KETTLE_STOP, 257, "the machine has halted, and nothing changes") \
    /* a step back */ \
    CODE(KETTLE_NOTHING_TO_UNDO, 10, "no record is held") \
    CODE(KETTLE_BAD_JOURNAL, 11, "the newest record is none: its kind is over 2, or an address that it names takes no store") \
    /* tables, loading, reading out */ \
    CODE(KETTLE_RANGE_OVERFLOW, 12, "start plus length is over 65,535") \
    CODE(KETTLE_OVERLAP, 13, "it overlaps an entry of its table (of devices: or touches one)") \
    CODE(KETTLE_TABLE_FULL, 14, "all 8 entries of the table are used") \
    CODE(KETTLE_WRITE_FAILED, 15, "a word of the program could not be stored: no memory there, or it is protected") \
    CODE(KETTLE_TOO_LONG, 16, "a program of over 32,768 words, or of over 32,767 to make a text of") \
    CODE(KETTLE_NO_DEVICE_ROOM, 17, "the devices' buffer is too short for one more of this size") \
    CODE(KETTLE_BAD_REGISTER, 18, "a register's number is over 7") \
    CODE(KETTLE_NO_ROOM, 19, "the buffer is shorter than the size asked for, or than the text") \
    /* a text; kettle_line has the line */ \
    CODE(KETTLE_INVALID_REGISTER, 20, "no register has this name") \
    CODE(KETTLE_INVALID_OPERANDS, 21, "an operand is missing") \
    CODE(KETTLE_INVALID_INSTRUCTION, 22, "no such mnemonic, the wrong number of operands, or an amount over 255 (MSL, MSR)") \
    CODE(KETTLE_INVALID_FORMAT, 23, "a blank line where a single line is read (no function here does: not given)") \
    CODE(KETTLE_INVALID_IMMEDIATE, 24, "not # and a number of 0 to 65,535, or a shift over 255 (LDR to STB)") \
    CODE(KETTLE_UNRESOLVED_LABEL, 25, "an unknown label where a single line is read (no function here does: not given)") \
    CODE(KETTLE_NOT_ASCII, 26, "a byte over 127") \
    CODE(KETTLE_TOO_MANY_LABELS, 27, "a new name, and there are 1,024 labels") \
    CODE(KETTLE_TOO_MANY_FIXUPS, 28, "a label that is not defined yet, and 512 references wait for one") \
    CODE(KETTLE_PROGRAM_FULL, 29, "all words of the buffer, or 32,767, are used") \
    CODE(KETTLE_FIELD_TOO_WIDE, 30, "strict: a number does not fit into its field, as a label past 2,047 in a jump") \
    CODE(KETTLE_NOT_DECODABLE, 32, "strict: a CJP to a register; its word would mean JMP") \
    /* words to make a text of; kettle_index tells the word */ \
    CODE(KETTLE_NO_TEXT, 33, "a word that no line of assembly gives")

#define KETTLE_NUMBER(name, number, text) name = number,
#define KETTLE_NAME(name, number, text) case name: return #name;
#define KETTLE_TEXT(name, number, text) case name: return text;

enum kettle_code { KETTLE_CODES(KETTLE_NUMBER) };

/* a code by its name, or "?" for a number that is none: for logs, so that a line can be looked up here */
static inline const char *kettle_code_name(unsigned code)
{
    switch (code) {
    KETTLE_CODES(KETTLE_NAME)
    default: return "?";
    }
}

/* what a code means, in a sentence */
static inline const char *kettle_code_text(unsigned code)
{
    switch (code) {
    KETTLE_CODES(KETTLE_TEXT)
    default: return "not a code of this library";
    }
}

/* ---- layouts and limits: a word is two bytes, the low one first ----------------------------------------------------------- */

enum {
    KETTLE_BLOCK_REGISTERS = 0,     /* eight words: A, B, C, M, SP, PC, BP, FLAGS */
    KETTLE_BLOCK_DEBUG = 16,        /* one byte: 0 or 1 */
    KETTLE_BLOCK_PROTECTED = 17,    /* one byte: how many regions are protected */
    KETTLE_BLOCK_REGIONS = 18,      /* eight times two words: start, len */
    KETTLE_BLOCK_DEVICE_COUNT = 50, /* one byte: how many devices there are */
    KETTLE_BLOCK_DEVICES = 51,      /* eight times two words: start, end (the first address after it) */
    KETTLE_BLOCK_NEXT = 83,         /* a word: the slot of the journal that the next record goes to */
    KETTLE_BLOCK_HELD = 85,         /* a word: how many records are held */
    KETTLE_BLOCK_SIZE = 87
};

/* a record of the journal: how to take one step back; what its kind does not use is zero */
enum {
    KETTLE_RECORD_KIND = 0,            /* one byte: 0, 1 or 2, how many bytes the step stored */
    KETTLE_RECORD_REGISTERS = 1,       /* eight words: the registers before the step, so PC is the address of its instruction */
    KETTLE_RECORD_FIRST_ADDRESS = 17,  /* a word: where the first byte was stored, */
    KETTLE_RECORD_FIRST_BYTE = 19,     /* and the byte that was there before */
    KETTLE_RECORD_SECOND_ADDRESS = 20, /* a word: the same of the second */
    KETTLE_RECORD_SECOND_BYTE = 22,
    KETTLE_RECORD_SIZE = 23,
    KETTLE_RECORD_MOST = 4096
};

enum kettle_register { KETTLE_A, KETTLE_B, KETTLE_C, KETTLE_M, KETTLE_SP, KETTLE_PC, KETTLE_BP, KETTLE_FLAGS };

/* bits of FLAGS */
enum {
    KETTLE_FLAG_HALT = 1,      /* the machine has halted */
    KETTLE_FLAG_REMAINDER = 2, /* DIV stores its remainder at SP */
    KETTLE_FLAG_FAILED = 4,    /* a store failed, and halted the machine */
    KETTLE_FLAG_TRUE = 8       /* the last comparison was true */
};

enum {
    KETTLE_WORDS_MOST = 32767,     /* that kettle_assemble makes, and kettle_text takes */
    KETTLE_PRINT_MOST = 26,        /* bytes: kettle_print writes no more */
    KETTLE_LISTING_MOST = 1212432, /* bytes: no listing is longer */
    KETTLE_TEXT_MOST = 851942,     /* bytes: kettle_text writes no more */
    KETTLE_STACK_TEXT = 131072,
    KETTLE_STACK_LOAD = 98304,
    KETTLE_STACK_OTHER = 4096
};

/* ---- an answer ------------------------------------------------------------------------------------------------------------ */

/* one of enum kettle_code */
static inline unsigned kettle_code_of(uint64_t answer)
{
    return KETTLE_CAST(unsigned, answer & 0xffff);
}

/* how many steps a kettle_run accepted, whatever came after them */
static inline uint32_t kettle_steps(uint64_t answer)
{
    return KETTLE_CAST(uint32_t, answer >> 16);
}

/* how many bytes a kettle_read, kettle_list, kettle_print or kettle_text wrote: 0 of a refused one */
static inline size_t kettle_bytes(uint64_t answer)
{
    return kettle_code_of(answer) == KETTLE_ACCEPTED ? KETTLE_CAST(size_t, answer >> 16) : 0;
}

/* which word a kettle_text with KETTLE_NO_TEXT was refused for, the first such one, from 0: its two bytes are at twice that. 0 of
 * every other answer, so look at the code first. */
static inline size_t kettle_index(uint64_t answer)
{
    return kettle_code_of(answer) == KETTLE_NO_TEXT ? KETTLE_CAST(size_t, answer >> 16) : 0;
}

/* the line of a refused kettle_assemble, from 1, at most 2^48 - 1: 0 of an accepted one, and of KETTLE_BAD_BLOCK */
static inline uint64_t kettle_line(uint64_t answer)
{
    return kettle_code_of(answer) == KETTLE_ACCEPTED ? 0 : answer >> 16;
}

/* how many words an accepted kettle_assemble made: 0 of a refused one */
static inline size_t kettle_words(uint64_t answer)
{
    return kettle_code_of(answer) == KETTLE_ACCEPTED ? KETTLE_CAST(size_t, answer >> 16 & 0xffff) : 0;
}

/* the length of these words in bytes, as kettle_load takes it */
static inline size_t kettle_words_len(uint64_t answer)
{
    return 2 * kettle_words(answer);
}

/* how many references an accepted kettle_assemble left open: to labels that the text never defines, as a mistyped one. The word of
 * each is 0, a NOOP, and the machine goes on behind it. Take a text with any for a refused one. 0 of a refused one. */
static inline unsigned kettle_open_references(uint64_t answer)
{
    return kettle_code_of(answer) == KETTLE_ACCEPTED ? KETTLE_CAST(unsigned, answer >> 32 & 0xffff) : 0;
}

/* how many labels an accepted kettle_assemble found: 0 of a refused one */
static inline unsigned kettle_labels(uint64_t answer)
{
    return kettle_code_of(answer) == KETTLE_ACCEPTED ? KETTLE_CAST(unsigned, answer >> 48) : 0;
}

/* ---- a block, a journal: these look, and change nothing but for kettle_fresh ---------------------------------------------- */

/* a new machine: registers are zero, nothing is protected, there is no device, no record is held */
static inline void kettle_fresh(uint8_t block[KETTLE_BLOCK_SIZE], int debug)
{
    memset(block, 0, KETTLE_BLOCK_SIZE);
    block[KETTLE_BLOCK_DEBUG] = debug ? 1 : 0;
}

/* the word in two bytes, the low one first */
static inline uint16_t kettle_word(const uint8_t *bytes)
{
    return KETTLE_CAST(uint16_t, bytes[0] + 256 * bytes[1]);
}

/* a register of the machine */
static inline uint16_t kettle_register_of(const uint8_t *block, enum kettle_register r)
{
    return kettle_word(block + KETTLE_BLOCK_REGISTERS + 2 * KETTLE_CAST(size_t, r));
}

/* Has the program halted, with no store failed? FLAGS bit 0 is set, and bit 2 is not. After KETTLE_STOP exactly one of this and
 * kettle_failed is so; a run whose last allowed step halts ends with KETTLE_ACCEPTED, so ask these and not the code. */
static inline int kettle_halted(const uint8_t *block)
{
    return (kettle_register_of(block, KETTLE_FLAGS) & (KETTLE_FLAG_HALT | KETTLE_FLAG_FAILED)) == KETTLE_FLAG_HALT;
}

/* Has a store (STR, STB, CPY) failed, and halted the machine? FLAGS bits 0 and 2 are set. (A program that sets both itself says
 * the same.) */
static inline int kettle_failed(const uint8_t *block)
{
    return (kettle_register_of(block, KETTLE_FLAGS) & (KETTLE_FLAG_HALT | KETTLE_FLAG_FAILED)) ==
           (KETTLE_FLAG_HALT | KETTLE_FLAG_FAILED);
}

/* how many records are held: so many times kettle_step_back can be called */
static inline uint16_t kettle_held(const uint8_t *block)
{
    return kettle_word(block + KETTLE_BLOCK_HELD);
}

/* The i-th newest record, KETTLE_RECORD_SIZE bytes in `journal`, from 0 for the newest; NULL where i or fewer are held, or where
 * the journal is too short for the block. What the last steps did can be read from it, without stepping back. */
static inline const uint8_t *kettle_record(const uint8_t *block, const uint8_t *journal, size_t journal_len, size_t i)
{
    const size_t next = kettle_word(block + KETTLE_BLOCK_NEXT);
    size_t room = journal_len / KETTLE_RECORD_SIZE;

    if (room > KETTLE_RECORD_MOST)
        room = KETTLE_RECORD_MOST;
    if (i >= kettle_held(block) || kettle_held(block) > room || next >= room)
        return KETTLE_NULL;
    return journal + KETTLE_RECORD_SIZE * ((next + room - 1 - i) % room);
}

/* a register as it was before a record's step */
static inline uint16_t kettle_record_register(const uint8_t *record, enum kettle_register r)
{
    return kettle_word(record + KETTLE_RECORD_REGISTERS + 2 * KETTLE_CAST(size_t, r));
}

/* ---- functions: texts ----------------------------------------------------------------------------------------------------- */

/* The archive's version, as KETTLE_VERSION is the header's. */
uint32_t kettle_version(void);

/* Assembles a text: plainly for strict = 0, where a number that does not fit into its field is cut as the field is wide, and the
 * word of a CJP to a register means JMP to the machine; strictly for any other value, where the number is refused with 30, the CJP
 * with 32, and nothing else that is accepted plainly. So each word of a text that is accepted strictly decodes to the instruction
 * that its line says, labels resolved, but for open references: their word is 0. These are accepted both ways: a mistyped label is
 * one, so look at kettle_open_references. Unused words are zero, and all of them on a refusal but KETTLE_BAD_BLOCK.
 * Counted: kettle_words, kettle_open_references, kettle_labels; of a refusal kettle_line.
 * KETTLE_BAD_BLOCK (odd words_len only), then 26 over the whole text, then line by line 20, 21, 22 or 24, then 30, 32, 29, 28; of
 * a label 27, 30. */
KETTLE_LOOK KETTLE_IN(1) KETTLE_OUT(4)
uint64_t kettle_assemble(const uint8_t *text, size_t text_len, uint8_t strict, uint8_t *words, size_t words_len);

/* The listing of a text that is assembled strictly: a line for each word, with its address, the word and what it says, then the
 * totals; or the one line `refused N line L`, which is an accepted listing too (of a text of over 65,536 bytes: `refused 19
 * line 0`). The buffer's bytes past it stay; no byte 0 is added; KETTLE_LISTING_MOST bytes are always enough.
 * Counted: kettle_bytes. 19. */
KETTLE_LOOK KETTLE_IN(1) KETTLE_OUT(3)
uint64_t kettle_list(const uint8_t *text, size_t text_len, uint8_t *out, size_t out_len);

/* What one word says, as the listing writes it, with no byte 10 or 0 at its end; the buffer's bytes past it stay.
 * KETTLE_PRINT_MOST bytes are always enough. Counted: kettle_bytes. 4 to 6, 19. */
KETTLE_LOOK KETTLE_OUT(2)
uint64_t kettle_print(uint16_t word, uint8_t *out, size_t out_len);

/* Source for words, to read and edit: plain assembly of this text, with room for as many words, gives the very same ones, or 28
 * where over 512 of its jumps and calls at once wait for labels further down. Each word has a line, ended by byte 10, with what
 * kettle_print says of it; but NOOP is DBG, MSL and MSR have the amount last, and the word of a CJP to a register is that CJP
 * (which strict assembly refuses with 32). Where a jump or call has the address of one of the words, a label stands for the
 * number: L and the address in four upper-case hexadecimal digits, as L0010, with a line of its own just before that word's. There
 * are no other labels: an odd address, and one past the last word, stay numbers. Of no words the text is empty. The buffer's bytes
 * past it stay; no byte 0 is added; KETTLE_TEXT_MOST bytes are always enough. Counted: kettle_bytes; of 33 kettle_index.
 * KETTLE_BAD_BLOCK (odd words_len only), 16, 33, 19. */
KETTLE_LOOK KETTLE_IN(1) KETTLE_OUT(3)
uint64_t kettle_text(const uint8_t *words, size_t words_len, uint8_t *out, size_t out_len);

/* ---- functions: setting a machine up -------------------------------------------------------------------------------------- */

/* Stores words from address 0 on and protects as many BYTES as there are words, as the machine always did: the second half of the
 * program is left open to its own stores; kettle_protect_rest protects it. A second program needs a fresh block: the region of the
 * first is in its way (15 or 13). KETTLE_BAD_BLOCK (odd words_len too), 1, 16, 14, 15, 13. */
KETTLE_LOOK KETTLE_BOTH(1) KETTLE_BOTH(3) KETTLE_BOTH(5) KETTLE_IN(7) KETTLE_IN(9)
uint64_t kettle_load(uint8_t *block, size_t block_len, uint8_t *memory, size_t memory_len, uint8_t *devices, size_t devices_len,
                     const uint8_t *journal, size_t journal_len, const uint8_t *words, size_t words_len);

/* Protects the addresses from start on, len of them, against stores; not where a device is. Address 65,535 can be neither protected
 * nor a device's nor read out, since start + len would be 65,536; LDB and STB reach it. KETTLE_BAD_BLOCK, 1, 12, 13, 14. */
KETTLE_LOOK KETTLE_BOTH(1) KETTLE_IN(3) KETTLE_IN(5)
uint64_t kettle_protect(uint8_t *block, size_t block_len, const uint8_t *devices, size_t devices_len, const uint8_t *journal,
                        size_t journal_len, size_t start, size_t len);

/* Protects what a load of these words left open, the second half of the program's bytes: one region more. Its answers are those of
 * kettle_protect (12 for 32,768 words, which kettle_assemble never makes). */
KETTLE_LOOK KETTLE_BOTH(1) KETTLE_IN(3) KETTLE_IN(5)
static inline uint64_t kettle_protect_rest(uint8_t *block, size_t block_len, const uint8_t *devices, size_t devices_len,
                                           const uint8_t *journal, size_t journal_len, size_t words_len)
{
    return kettle_protect(block, block_len, devices, devices_len, journal, journal_len, words_len / 2, words_len / 2);
}

/* A new device over the addresses from start on, size of them: the next size bytes of `devices`, which the host reads and writes
 * there as it likes between two calls. KETTLE_BAD_BLOCK, 1, 12, 13, 14, 17. */
KETTLE_LOOK KETTLE_BOTH(1) KETTLE_IN(3) KETTLE_IN(5)
uint64_t kettle_device(uint8_t *block, size_t block_len, const uint8_t *devices, size_t devices_len, const uint8_t *journal,
                       size_t journal_len, size_t start, size_t size);

/* Sets a register, by its number (enum kettle_register). KETTLE_BAD_BLOCK, 1, 18. */
KETTLE_LOOK KETTLE_BOTH(1) KETTLE_IN(3) KETTLE_IN(5)
uint64_t kettle_set_register(uint8_t *block, size_t block_len, const uint8_t *devices, size_t devices_len, const uint8_t *journal,
                             size_t journal_len, size_t number, uint16_t value);

/* ---- functions: running --------------------------------------------------------------------------------------------------- */

/* One step, recorded. A store that fails is an accepted step, which halts the machine (kettle_failed); a load that fails (LDR, LDB
 * from an address that is not mapped) is accepted too, leaves its register and sets no flag.
 * KETTLE_BAD_BLOCK, 1, KETTLE_STOP, 2 or 3, 4 to 6, then 3, 7, 8, then 9. */
KETTLE_LOOK KETTLE_BOTH(1) KETTLE_BOTH(3) KETTLE_BOTH(5) KETTLE_BOTH(7)
uint64_t kettle_step(uint8_t *block, size_t block_len, uint8_t *memory, size_t memory_len, uint8_t *devices, size_t devices_len,
                     uint8_t *journal, size_t journal_len);

/* Steps until `steps` are accepted, or one is KETTLE_DEBUG, KETTLE_STOP or refused: the last step's answer, KETTLE_ACCEPTED for 0
 * steps. Counted: kettle_steps. */
KETTLE_LOOK KETTLE_BOTH(1) KETTLE_BOTH(3) KETTLE_BOTH(5) KETTLE_BOTH(7)
uint64_t kettle_run(uint8_t *block, size_t block_len, uint8_t *memory, size_t memory_len, uint8_t *devices, size_t devices_len,
                    uint8_t *journal, size_t journal_len, uint32_t steps);

/* Takes the newest recorded step back: its registers and the bytes that it stored are as they were before it. A byte that the host
 * wrote there since is overwritten: call kettle_forget after you change memory or devices. KETTLE_BAD_BLOCK, 1, 10, 11. */
KETTLE_LOOK KETTLE_BOTH(1) KETTLE_BOTH(3) KETTLE_BOTH(5) KETTLE_IN(7)
uint64_t kettle_step_back(uint8_t *block, size_t block_len, uint8_t *memory, size_t memory_len, uint8_t *devices,
                          size_t devices_len, const uint8_t *journal, size_t journal_len);

/* Empties the journal; its bytes stay. KETTLE_BAD_BLOCK, 1. */
KETTLE_LOOK KETTLE_BOTH(1) KETTLE_IN(3) KETTLE_IN(5)
uint64_t kettle_forget(uint8_t *block, size_t block_len, const uint8_t *devices, size_t devices_len, const uint8_t *journal,
                       size_t journal_len);

/* Copies size bytes from address start on, as the machine reads them, into the buffer, up to the first that is neither in memory
 * nor in a device; the buffer's other bytes stay. Counted: kettle_bytes. KETTLE_BAD_BLOCK, 1, 12, 19. */
KETTLE_LOOK KETTLE_IN(1) KETTLE_IN(3) KETTLE_IN(5) KETTLE_IN(7) KETTLE_OUT(11)
uint64_t kettle_read(const uint8_t *block, size_t block_len, const uint8_t *memory, size_t memory_len, const uint8_t *devices,
                     size_t devices_len, const uint8_t *journal, size_t journal_len, size_t start, size_t size, uint8_t *buffer,
                     size_t buffer_len);

/* ---- the same through a struct: it says where a machine's bytes are, and holds none of them ------------------------------- */

/* Set the members by name, as in { .block = block, .memory = memory, .memory_len = sizeof memory }: what is not named is empty.
 * (C++ has such names from C++20 on.) */
struct kettle_machine {
    uint8_t *block; /* KETTLE_BLOCK_SIZE bytes */
    uint8_t *memory;
    size_t memory_len;
    uint8_t *devices;
    size_t devices_len;
    uint8_t *journal;
    size_t journal_len;
};

#define KETTLE_ALL(m) \
    (m)->block, KETTLE_BLOCK_SIZE, (m)->memory, (m)->memory_len, (m)->devices, (m)->devices_len, (m)->journal, (m)->journal_len
#define KETTLE_TABLES(m) (m)->block, KETTLE_BLOCK_SIZE, (m)->devices, (m)->devices_len, (m)->journal, (m)->journal_len

KETTLE_LOOK KETTLE_IN(2)
static inline uint64_t kettle_machine_load(const struct kettle_machine *m, const uint8_t *words, size_t words_len)
{
    return kettle_load(KETTLE_ALL(m), words, words_len);
}

KETTLE_LOOK static inline uint64_t kettle_machine_protect(const struct kettle_machine *m, size_t start, size_t len)
{
    return kettle_protect(KETTLE_TABLES(m), start, len);
}

KETTLE_LOOK static inline uint64_t kettle_machine_protect_rest(const struct kettle_machine *m, size_t words_len)
{
    return kettle_protect_rest(KETTLE_TABLES(m), words_len);
}

KETTLE_LOOK static inline uint64_t kettle_machine_device(const struct kettle_machine *m, size_t start, size_t size)
{
    return kettle_device(KETTLE_TABLES(m), start, size);
}

KETTLE_LOOK static inline uint64_t kettle_machine_set_register(const struct kettle_machine *m, size_t number, uint16_t value)
{
    return kettle_set_register(KETTLE_TABLES(m), number, value);
}

KETTLE_LOOK static inline uint64_t kettle_machine_step(const struct kettle_machine *m)
{
    return kettle_step(KETTLE_ALL(m));
}

KETTLE_LOOK static inline uint64_t kettle_machine_run(const struct kettle_machine *m, uint32_t steps)
{
    return kettle_run(KETTLE_ALL(m), steps);
}

KETTLE_LOOK static inline uint64_t kettle_machine_step_back(const struct kettle_machine *m)
{
    return kettle_step_back(KETTLE_ALL(m));
}

KETTLE_LOOK static inline uint64_t kettle_machine_forget(const struct kettle_machine *m)
{
    return kettle_forget(KETTLE_TABLES(m));
}

KETTLE_LOOK KETTLE_OUT(4)
static inline uint64_t kettle_machine_read(const struct kettle_machine *m, size_t start, size_t size, uint8_t *buffer,
                                           size_t buffer_len)
{
    return kettle_read(KETTLE_ALL(m), start, size, buffer, buffer_len);
}

static inline const uint8_t *kettle_machine_record(const struct kettle_machine *m, size_t i)
{
    return kettle_record(m->block, m->journal, m->journal_len, i);
}

#undef KETTLE_ALL
#undef KETTLE_TABLES
#undef KETTLE_NUMBER
#undef KETTLE_NAME
#undef KETTLE_TEXT
#undef KETTLE_IN
#undef KETTLE_OUT
#undef KETTLE_BOTH
#undef KETTLE_LOOK
#undef KETTLE_CAST
#undef KETTLE_NULL

#ifdef __cplusplus
}
#endif

#endif
