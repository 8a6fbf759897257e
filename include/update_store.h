/*
 * update_store.h: the C interface of the microcode update store.
 *
 * The store is a flash area of 1 to 32 blocks of 2,048 bytes. It holds microcode updates, each in
 * 1 to 16 consecutive blocks; a block whose bytes are all FFh is unused. A processor is a signature
 * and a platform number from 0 to 7. An update covers the processors that its header and its table
 * name; two updates share if some processor, on this board or not, is covered by both. No two
 * stored updates share. The library has six functions:
 *
 *     update_store_call            the four D042h calls: presence, write, control, read
 *     update_store_load            which stored update a processor gets at start-up
 *     update_store_index           the index of a store: what each of its blocks holds
 *     update_store_index_after     the index after an accepted write, from the one before it
 *     update_store_read_indexed    the read call, through the store's index
 *     update_store_load_indexed    the load choice, through the store's index
 *
 * All work on bytes and words that the caller lends. The library keeps no state and allocates
 * nothing. Of the C library it needs memmove and memset only, which the compiler calls for copies
 * and fills. Driving the flash chip and loading a processor are the caller's own work.
 *
 * THE ANSWER. `answer` points to 16 words. Every call, refused or not, writes all 16; a word
 * without a meaning is 0. Words 0 to 4 mean the same in every answer: AH, AL, carry, the loading
 * state and the case. The words behind them belong to the case. The result of the function is the
 * image of AX: AH * 256 + AL. Carry is 1 exactly when AH is not 0.
 *
 * A REFUSED CALL (AH not 0) changes no byte of the store or the destination, and the loading state
 * stays as it was. `answer` alone is written, and by update_store_index the index too, with zeros.
 *
 * THE LOADING STATE is kept by the caller, in a bool of its own. Pass it to each function that
 * takes it, and after each update_store_call take it back from word 3. Only a control call with
 * task 1 turns it on; nothing turns it off. A function that takes no loading state writes 0 to
 * word 3, which says nothing about it.
 *
 * THE INDEX is 128 words in four parts of 32: kinds, starts, revisions and sizes. Line b of it is
 * word b of each part, and is about block b: whether the block is unused, the first block of an
 * update or a later one, and in both of the latter cases that update's first block, revision and
 * size in blocks. The line of an unused block is four zeros, and so is each line behind the store's
 * last block. An index that differs from this in any of its 128 words isn't the store's own.
 *
 * The index is kept by the caller too. It is built from the store once, and carried over each
 * accepted write without a look at the store: the carried index equals the one that would be built
 * from the new store. Reading and loading through an index hold it to the store first, and refuse
 * one that isn't the store's own.
 *
 * WHAT THE CALLER GRANTS. The contents of every buffer, every number and every length are judged by
 * the library, and any of them gets a defined answer. These points it can't judge:
 *
 *   - each pointer is valid for its length, also in a call that doesn't use it; an index is valid
 *     for 128 words, `answer` for 16;
 *   - no pointer is null, also when its length is 0 (any valid address will do then);
 *   - `signatures`, `answer` and each index are aligned to 4 bytes;
 *   - no buffer overlaps another: `old` and `new_index` are two indexes as well;
 *   - a `bool` holds 0 or 1 only;
 *   - no other thread uses the same buffers during the call. Calls on different buffers may run at
 *     the same time.
 *
 * Lengths and counts are in elements: bytes for uint8_t, numbers for uint32_t. They are 64-bit
 * numbers on every target, whatever its size_t is.
 *
 * THE ARCHIVE `libboard.a` is built for two targets: for the board's IA-32 processors
 * (`make board32`, target/ia32), and for x86-64 hosts (`make board`, target/staticlib), of level
 * x86-64-v2 at least. Both come from the same proved code and give the same answers. On IA-32 it
 * follows the System V convention of C (arguments on the stack, the result in EAX), is content with
 * a stack aligned to 4 bytes, and uses no floating-point or vector register.
 *
 * EXAMPLE. Write a candidate; the board has one processor, signature 650h, platform 1:
 *
 *     const uint32_t signatures[1] = { 0x650 };
 *     const uint8_t platforms[1] = { 1 };
 *     uint8_t unused[1] = { 0 };                  // a valid address for a length of 0
 *     uint32_t answer[UPDATE_STORE_ANSWER_WORDS];
 *
 *     update_store_call(UPDATE_STORE_FUNCTION, UPDATE_STORE_SUB_WRITE, 0, 0, loading,
 *                       store, store_len, signatures, 1, platforms, 1,
 *                       candidate, candidate_len, read_back, unused, 0, answer);
 *     if (answer[UPDATE_STORE_WORD_AH] == UPDATE_STORE_SUCCESS)
 *         flash_blocks(store, store_len);         // the board's own driver
 *     loading = answer[UPDATE_STORE_WORD_LOADING] != 0;
 *
 * EXAMPLE. A panel keeps the index of the store, to draw a map of its blocks. It is built once:
 *
 *     uint32_t index[UPDATE_STORE_INDEX_WORDS], carried[UPDATE_STORE_INDEX_WORDS];
 *     uint32_t index_answer[UPDATE_STORE_ANSWER_WORDS];
 *
 *     update_store_index(store, store_len, index, index_answer);
 *
 * It is carried over each accepted write, with that write's answer. read_back is then the
 * candidate's revision; size is the candidate's size in blocks:
 *
 *     update_store_index_after(index, answer[UPDATE_STORE_WORD_EMPTIED_BLOCKS],
 *                              answer[UPDATE_STORE_WORD_START], read_back, size,
 *                              carried, index_answer);
 *     memcpy(index, carried, sizeof index);
 *
 * And the map is drawn from it alone:
 *
 *     for (uint32_t b = 0; b < store_len / UPDATE_STORE_BLOCK_SIZE; b++)
 *         draw_block(b, index[UPDATE_STORE_INDEX_KINDS + b]);     // the panel's own
 */
#ifndef UPDATE_STORE_H
#define UPDATE_STORE_H

#include <stdbool.h>
#include <stdint.h>

#ifdef __cplusplus
extern "C" {
#endif

/* Sizes and bounds. */
enum {
    UPDATE_STORE_BLOCK_SIZE = 2048,         /* bytes of a block */
    UPDATE_STORE_BLOCKS_MAX = 32,           /* most blocks of a store; the fewest are 1 */
    UPDATE_STORE_UPDATE_BLOCKS_MAX = 16,    /* most blocks of one update */
    UPDATE_STORE_PROCESSORS_MAX = 8,        /* most processors of a list; the fewest are 1 */
    UPDATE_STORE_PLATFORM_MAX = 7,          /* greatest platform number */
    UPDATE_STORE_ANSWER_WORDS = 16,         /* words of `answer` */
    UPDATE_STORE_INDEX_WORDS = 128          /* words of an index */
};

/* `function`. */
enum {
    UPDATE_STORE_FUNCTION = 0xD042      /* the only function there is */
};

/* `sub_function`. */
enum {
    UPDATE_STORE_SUB_PRESENCE = 0,
    UPDATE_STORE_SUB_WRITE = 1,
    UPDATE_STORE_SUB_CONTROL = 2,
    UPDATE_STORE_SUB_READ = 3
};

/* `task` of a control call. */
enum {
    UPDATE_STORE_TASK_ENABLE = 1,       /* turn loading on */
    UPDATE_STORE_TASK_QUERY = 2         /* change nothing, give the state */
};

/* AH, the code of the answer. */
enum {
    UPDATE_STORE_SUCCESS = 0x00,            /* done */
    UPDATE_STORE_NOT_IMPLEMENTED = 0x86,    /* unknown function, sub-function or control task */
    UPDATE_STORE_READ_FAILURE = 0x92,       /* AL 1, 2 or 3 */
    UPDATE_STORE_STORAGE_FULL = 0x93,       /* AL 4 or 5 */
    UPDATE_STORE_CPU_NOT_PRESENT = 0x94,    /* the candidate covers no listed processor */
    UPDATE_STORE_INVALID_HEADER = 0x95,     /* candidate: header version, loader version or sizes */
    UPDATE_STORE_INVALID_HEADER_CS = 0x96,  /* candidate: one of its sums is wrong */
    UPDATE_STORE_SECURITY_FAILURE = 0x97,   /* the read-back revision isn't the candidate's */
    UPDATE_STORE_INVALID_REVISION = 0x98,   /* a stored update that shares is as new or newer */
    UPDATE_STORE_UPDATE_NUM_INVALID = 0x99, /* the store has no block of that number */
    UPDATE_STORE_NOT_EMPTY = 0x9A           /* the block is a later block of an update */
};

/* AL, the reason within an AH code; 0 where none is named here. */
enum {
    UPDATE_STORE_AL_NONE = 0,
    UPDATE_STORE_AL_BAD_STORE = 1,          /* with READ_FAILURE: the store's length or contents,
                                               or an index that isn't the store's own */
    UPDATE_STORE_AL_BAD_PROCESSORS = 2,     /* with READ_FAILURE: the processor list, or
                                               the platform of a load */
    UPDATE_STORE_AL_SHORT_DESTINATION = 3,  /* with READ_FAILURE: the destination is too short */
    UPDATE_STORE_AL_STILL_NEEDED = 4,       /* with STORAGE_FULL: an update that must be emptied
                                               covers a listed processor the candidate doesn't */
    UPDATE_STORE_AL_NO_RUN = 5              /* with STORAGE_FULL: too few blocks in a row */
};

/* Words of every answer. */
enum {
    UPDATE_STORE_WORD_AH = 0,
    UPDATE_STORE_WORD_AL = 1,
    UPDATE_STORE_WORD_CARRY = 2,        /* 0 or 1 */
    UPDATE_STORE_WORD_LOADING = 3,      /* the loading state after the call, 0 or 1 */
    UPDATE_STORE_WORD_CASE = 4          /* UPDATE_STORE_CASE_.., UPDATE_STORE_LOAD_.., or
                                           UPDATE_STORE_INDEX_DONE or .._REFUSED */
};

/* The case in word 4 after update_store_call; READ or REFUSED after update_store_read_indexed. */
enum {
    UPDATE_STORE_CASE_PRESENCE = 0,
    UPDATE_STORE_CASE_WRITTEN = 1,
    UPDATE_STORE_CASE_CONTROL = 2,
    UPDATE_STORE_CASE_READ = 3,
    UPDATE_STORE_CASE_REFUSED = 4
};

/* Words of one case of update_store_call; COPIED of update_store_read_indexed too. */
enum {
    UPDATE_STORE_WORD_ASCII = 5,        /* presence: first of eight, "INTELPEP", a byte a word */
    UPDATE_STORE_WORD_LOADER = 13,      /* presence: loader version, 1 */
    UPDATE_STORE_WORD_BLOCKS = 14,      /* presence: number of blocks of the store */
    UPDATE_STORE_WORD_START = 5,        /* written: first block of the new update */
    UPDATE_STORE_WORD_EMPTIED = 6,      /* written: how many stored updates were emptied */
    UPDATE_STORE_WORD_EMPTIED_BLOCKS = 7, /* written: bit b for each block b of an emptied update,
                                             in the run or not */
    UPDATE_STORE_WORD_STATUS = 5,       /* control, refused: UPDATE_STORE_STATUS_.. */
    UPDATE_STORE_WORD_COPIED = 5        /* read: how many blocks were copied */
};

/* The status in word 5, for control and refused. */
enum {
    UPDATE_STORE_STATUS_OFF = 0,        /* control: loading is off. Refused: nothing to say */
    UPDATE_STORE_STATUS_ON = 1,         /* control: loading is on */
    UPDATE_STORE_STATUS_BAD_TASK = 0xFF /* refused: a control call with an unknown task */
};

/* The case in word 4 after update_store_load and update_store_load_indexed. */
enum {
    UPDATE_STORE_LOAD_NOTHING = 0,      /* loading is off, or no update covers the processor */
    UPDATE_STORE_LOAD_CHOSEN = 1,
    UPDATE_STORE_LOAD_REFUSED = 2
};

/* Words of update_store_load and update_store_load_indexed; all four are 0 unless an update was
   chosen. */
enum {
    UPDATE_STORE_WORD_LOAD_START = 5,       /* first block of the update */
    UPDATE_STORE_WORD_LOAD_REVISION = 6,
    UPDATE_STORE_WORD_LOAD_DATA_OFFSET = 7, /* of the data bytes, in bytes from `store` */
    UPDATE_STORE_WORD_LOAD_DATA_LENGTH = 8  /* number of data bytes */
};

/* The case in word 4 after update_store_index; after update_store_index_after always DONE. */
enum {
    UPDATE_STORE_INDEX_DONE = 0,
    UPDATE_STORE_INDEX_REFUSED = 1
};

/* Where the four parts of an index begin; add the block's number. */
enum {
    UPDATE_STORE_INDEX_KINDS = 0,       /* UPDATE_STORE_KIND_.. */
    UPDATE_STORE_INDEX_STARTS = 32,     /* first block of the update */
    UPDATE_STORE_INDEX_REVISIONS = 64,
    UPDATE_STORE_INDEX_SIZES = 96       /* blocks of the update */
};

/* The kind of a block. */
enum {
    UPDATE_STORE_KIND_UNUSED = 0,       /* the other three numbers are 0 */
    UPDATE_STORE_KIND_FIRST = 1,        /* the first block of an update */
    UPDATE_STORE_KIND_LATER = 2         /* a later block of an update */
};

/*
 * The four D042h calls. Each call ignores the arguments that aren't its own; their pointers must be
 * valid all the same. `function`, `sub_function`, `task` and `block` are judged as whole 32-bit
 * numbers: 1D042h is not D042h.
 *
 *   function         all: must be D042h
 *   sub_function     all: 0 presence, 1 write, 2 control, 3 read
 *   task             control: 1 turn loading on, 2 give the state
 *   block            read: number of the block, from 0
 *   loading          control: the loading state before the call; the others hand it on to word 3
 *   store            presence, write, read: the bytes of the store, changed by an accepted write
 *                    only. Control doesn't look at them, however bad they are
 *   store_len        1 to 32 times 2,048; any other length is a bad store
 *   signatures       write: the signatures of the board's processors
 *   signature_count  1 to 8; repeated processors are harmless
 *   platforms        write: the platform number of each processor, 0 to 7, in the same order
 *   platform_count   must equal signature_count, else the list is bad
 *   candidate        write: the update to store; bytes behind its total size are ignored
 *   candidate_len    any
 *   read_back        write: the revision that the processor reported after loading the candidate;
 *                    the host loads it and supplies that number
 *   destination      read: takes the blocks; bytes behind them stay as they were
 *   destination_len  any; 16 blocks are enough for every update
 *   answer           all: 16 words, all written
 *
 * The function is judged first, then the sub-function: NOT_IMPLEMENTED. Then each call has its own
 * checks, in the order below; the first that fails gives the answer.
 *
 * Presence: bad store (READ_FAILURE, AL 1).
 *
 * Control: unknown task (NOT_IMPLEMENTED, status FFh).
 *
 * Read:
 *   1. bad store                                                       READ_FAILURE, AL 1
 *   2. no such block                                                   UPDATE_NUM_INVALID
 *   3. a later block of an update                                      NOT_EMPTY
 *   4. destination shorter than the blocks to copy                     READ_FAILURE, AL 3
 * An unused block is copied alone, an update from its first block with all its blocks.
 *
 * Write:
 *   1. bad store                                                       READ_FAILURE, AL 1
 *      bad processor list                                              READ_FAILURE, AL 2
 *   2. candidate shorter than 48 bytes, or its header version or
 *      loader version isn't 1                                          INVALID_HEADER
 *   3. a size rule broken, or total size above candidate_len           INVALID_HEADER
 *      (data size D a multiple of 4; total size T at most 32,768, and
 *      T = 48 + D, a multiple of 1,024, or, with a table of 1 to 64
 *      entries, T = 48 + D + 20 + 12 per entry, a multiple of 4; D = 0
 *      stands for D = 2,000 and T = 2,048)
 *   4. a sum wrong                                                     INVALID_HEADER_CS
 *   5. covers no listed processor                                      CPU_NOT_PRESENT
 *   6. a stored update shares a covered processor, listed or not,
 *      and its revision is equal or greater                            INVALID_REVISION
 *   7. one that shares also covers a listed processor that the
 *      candidate doesn't                                               STORAGE_FULL, AL 4
 *   8. no run of enough consecutive blocks, each unused, or of a
 *      sharing update, or of one that covers no listed processor       STORAGE_FULL, AL 5
 *   9. read_back isn't the candidate's revision                        SECURITY_FAILURE
 * An accepted write fills every sharing update and every update that its run touches with FFh, puts
 * the candidate at the start of the run and FFh behind it to the end of the run. No run of check 8
 * empties fewer updates, and none that empties as many starts lower. All other bytes stay.
 */
uint32_t update_store_call(
    uint32_t function, uint32_t sub_function, uint32_t task, uint32_t block,
    bool loading,
    uint8_t *store, uint64_t store_len,
    const uint32_t *signatures, uint64_t signature_count,
    const uint8_t *platforms, uint64_t platform_count,
    const uint8_t *candidate, uint64_t candidate_len,
    uint32_t read_back,
    uint8_t *destination, uint64_t destination_len,
    uint32_t answer[16]);

/*
 * The load choice: which stored update a processor gets. Nothing is copied; the answer says where
 * the data bytes stand in the lent store.
 *
 *   loading     the loading state; word 3 hands it back
 *   store       the bytes of the store, only read
 *   store_len   as above
 *   signature   the processor's signature
 *   platform    the processor's platform number, 0 to 7
 *   answer      16 words, all written
 *
 * In this order:
 *   1. bad store                            refused, READ_FAILURE, AL 1
 *   2. platform above 7                     refused, READ_FAILURE, AL 2
 *   3. loading off                          nothing, SUCCESS
 *   4. no update covers the processor       nothing, SUCCESS
 *   5. else                                 chosen, SUCCESS
 */
uint32_t update_store_load(
    bool loading, const uint8_t *store, uint64_t store_len,
    uint32_t signature, uint32_t platform,
    uint32_t answer[16]);

/*
 * Builds the index of a store.
 *
 *   store       the bytes of the store, only read
 *   store_len   as above
 *   index       128 words, all written, on a refusal with zeros
 *   answer      16 words, all written
 *
 * In this order:
 *   1. bad store                            refused, READ_FAILURE, AL 1
 *   2. else                                 done, SUCCESS
 * Word 3 and the words behind word 4 are 0.
 */
uint32_t update_store_index(
    const uint8_t *store, uint64_t store_len,
    uint32_t index[128],
    uint32_t answer[16]);

/*
 * Carries an index over an accepted write: makes the index of the new store from the one before the
 * write, the write's answer, and the candidate's revision and size. It looks at no store.
 *
 *   old         the index before the write, 128 words, only read
 *   emptied     UPDATE_STORE_WORD_EMPTIED_BLOCKS of the write's answer
 *   start       UPDATE_STORE_WORD_START of the write's answer
 *   revision    the candidate's revision
 *   size        the candidate's size in blocks: 1 if its data size field is 0, else its total size
 *               divided by 2,048, rounded up
 *   new_index   128 words, all written
 *   answer      16 words, all 0
 *
 * Nothing is checked and nothing refused. Whatever the numbers are, line b of the new index is the
 * first of these that holds:
 *   1. start <= b < start + size, where the sum may pass 2^32 and doesn't wrap: the candidate's
 *      line, kind 1 if b is start, else 2, then start, revision, size
 *   2. bit b of emptied is set: four zeros
 *   3. else: the old line, whatever its words
 */
uint32_t update_store_index_after(
    const uint32_t old[128],
    uint32_t emptied, uint32_t start, uint32_t revision, uint32_t size,
    uint32_t new_index[128],
    uint32_t answer[16]);

/*
 * The read call through an index. With the store's own index it answers and copies as a read by
 * update_store_call does, but for word 3, which is 0.
 *
 *   index            the store's index, 128 words, only read
 *   block            number of the block, from 0
 *   store            the bytes of the store, only read
 *   store_len        as above
 *   destination      takes the blocks; bytes behind them stay as they were
 *   destination_len  any; 16 blocks are enough for every update
 *   answer           16 words, all written
 *
 * In this order:
 *   1. bad store                                                       READ_FAILURE, AL 1
 *   2. index that isn't the store's own, in any of its 128 words       READ_FAILURE, AL 1
 *   3. no such block                                                   UPDATE_NUM_INVALID
 *   4. a later block of an update                                      NOT_EMPTY
 *   5. destination shorter than the blocks to copy                     READ_FAILURE, AL 3
 * Word 4 is UPDATE_STORE_CASE_READ or UPDATE_STORE_CASE_REFUSED, word 5 how many blocks were
 * copied, 0 on a refusal.
 */
uint32_t update_store_read_indexed(
    const uint32_t index[128],
    uint32_t block,
    const uint8_t *store, uint64_t store_len,
    uint8_t *destination, uint64_t destination_len,
    uint32_t answer[16]);

/*
 * The load choice through an index. With the store's own index it answers as update_store_load
 * does, in all words.
 *
 *   loading     the loading state; word 3 hands it back
 *   index       the store's index, 128 words, only read
 *   store       the bytes of the store, only read
 *   store_len   as above
 *   signature   the processor's signature
 *   platform    the processor's platform number, 0 to 7
 *   answer      16 words, all written
 *
 * In this order:
 *   1. bad store                            refused, READ_FAILURE, AL 1
 *   2. index that isn't the store's own     refused, READ_FAILURE, AL 1
 *   3. platform above 7                     refused, READ_FAILURE, AL 2
 *   4. loading off                          nothing, SUCCESS
 *   5. no update covers the processor       nothing, SUCCESS
 *   6. else                                 chosen, SUCCESS
 */
uint32_t update_store_load_indexed(
    bool loading,
    const uint32_t index[128],
    const uint8_t *store, uint64_t store_len,
    uint32_t signature, uint32_t platform,
    uint32_t answer[16]);

#ifdef __cplusplus
}
#endif

#endif
