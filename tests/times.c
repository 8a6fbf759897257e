/*
 * times: writes a line for each kind of call, its name, a tab and nanoseconds a call.
 *
 * A time is the least of many rounds of many calls, with warm buffers. Where a write is accepted,
 * the store is put back by a copy before every call, and the time of that copy alone is taken off.
 */
#include <stdio.h>
#include <string.h>

#include "timed.h"

/* ---- Updates and stores ---- */

/* An update whose pairs have signatures in a row and platform 0. */
static void put_sized(uint8_t *at, uint32_t revision, uint32_t signature, uint32_t pairs,
                      uint32_t length)
{
    struct update update = { .pair_count = pairs };
    for (uint32_t i = 0; i < pairs; i++)
        update.pairs[i] = (struct pair){ signature + i, 1 };
    update_sized(&update, revision, length);
    update_build(&update, at);
}

/* The same of whole blocks. */
static uint32_t put_update(uint8_t *at, uint32_t revision, uint32_t signature, uint32_t pairs,
                           uint32_t blocks)
{
    put_sized(at, revision, signature, pairs, blocks * BLOCK);
    return blocks * BLOCK;
}

/* Document 01's P: platforms 1 and 2 of 650h, size fields 0. */
static void put_p(uint8_t *at, uint32_t revision)
{
    struct update update = { .pair_count = 1, .pairs = { { 0x650, 6 } } };
    update_sized(&update, revision, BLOCK);
    update.data_size = 0;
    update.total_size = 0;
    update_build(&update, at);
}

static void unused(uint32_t blocks)
{
    memset(store, 0xFF, sizeof store);
    work.blocks = blocks;
}

/* One-block updates that don't share, each with so many pairs. */
static void one_block_updates(uint32_t blocks, uint32_t pairs)
{
    unused(blocks);
    for (uint32_t block = 0; block < blocks; block++)
        put_update(store + block * BLOCK, 1, 0x1000 * (block + 1), pairs, 1);
}

/* A call on four blocks, P in block 1, with (650h, 1) listed and a newer P as the candidate. */
static void begin(uint32_t sub_function)
{
    work = (struct work){
        .turn = call,
        .function = UPDATE_STORE_FUNCTION,
        .sub_function = sub_function,
        .signature = 0x650,
        .platform = 1,
        .candidate_length = BLOCK,
        .destination_length = BLOCK,
    };
    unused(4);
    put_p(store + BLOCK, 7);
    put_p(candidate, 8);
}

/* ---- The rows ---- */

static void presence_rows(void)
{
    begin(UPDATE_STORE_SUB_PRESENCE);
    unused(1);
    put_p(store, 7);
    tell("presence, one update of 2 KB", 0);
    unused(8);
    put_update(store, 1, 0x700, 1, 8);
    tell("presence, one update of 16 KB", 0);
    unused(16);
    put_update(store, 1, 0x700, 1, 16);
    tell("presence, one update of 32 KB", 0);
    one_block_updates(1, 65);
    tell("presence, 2 KB with 64 entries", 0);
    unused(1);
    put_sized(store, 1, 0x1000, 2, 2044);
    tell("presence, 2,044 bytes with one entry", 0);
    one_block_updates(1, 1);
    tell("presence, one-block updates, N = 1", 0);
    one_block_updates(8, 1);
    tell("presence, one-block updates, N = 8", 0);
    one_block_updates(32, 1);
    tell("presence, one-block updates, N = 32", 0);
    unused(32);
    tell("presence, 32 unused blocks", 0);
    one_block_updates(32, 61);
    tell("presence, 32 updates with 60 entries", 0);
    unused(32);
    put_update(store, 1, 0x1000, 65, 16);
    put_update(store + 16 * BLOCK, 1, 0x2000, 65, 16);
    tell("presence, two of 32 KB with 64 entries", 0);
}

/* The loop of the presence calls of one update, by the C compiler. */
static void plain_rows(void)
{
    begin(UPDATE_STORE_SUB_PRESENCE);
    work.turn = sum_store;
    unused(1);
    put_p(store, 7);
    tell("the sum of 2 KB in plain C", 0);
    unused(8);
    put_update(store, 1, 0x700, 1, 8);
    tell("the sum of 16 KB in plain C", 0);
    unused(16);
    put_update(store, 1, 0x700, 1, 16);
    tell("the sum of 32 KB in plain C", 0);
}

static void tell_how(const char *name, const char *how)
{
    char whole[64];
    snprintf(whole, sizeof whole, "%s%s", name, how);
    tell(whole, 0);
}

/* Both without the index, or both through it. */
static void read_and_load_rows(uint32_t (*read)(void), uint32_t (*choose)(void), const char *how)
{
    begin(UPDATE_STORE_SUB_READ);
    work.turn = read;
    unused(1);
    put_p(store, 7);
    tell_how("read of one block", how);
    unused(16);
    put_update(store, 1, 0x700, 1, 16);
    work.destination_length = 16 * BLOCK;
    tell_how("read of 16 blocks", how);
    one_block_updates(32, 1);
    work.turn = choose;
    work.loading = true;
    work.signature = 0x20000;
    work.platform = 0;
    tell_how("load choice, the last of 32 updates", how);
}

static void index_rows(void)
{
    begin(UPDATE_STORE_SUB_PRESENCE);
    work.turn = build_index;
    unused(1);
    put_p(store, 7);
    tell("index, one update of 2 KB", 0);
    unused(32);
    tell("index, 32 unused blocks", 0);
    one_block_updates(32, 1);
    tell("index, one-block updates, N = 32", 0);
    work.turn = carry_index;
    tell("index after a write of 16 blocks", 0);
}

static void write_rows(uint32_t blocks)
{
    char name[64];
    begin(UPDATE_STORE_SUB_WRITE);
    one_block_updates(blocks, 1);
    work.signature = 0x1000 * blocks;
    work.platform = 0;
    work.read_back = 1;
    put_update(candidate, 1, work.signature, 1, 1);
    snprintf(name, sizeof name, "write refused (98), N = %u", (unsigned)blocks);
    tell(name, 0x9800);
    work.read_back = 2;
    work.stores = true;
    put_update(candidate, 2, work.signature, 1, 1);
    snprintf(name, sizeof name, "write accepted, empties one, N = %u", (unsigned)blocks);
    tell(name, 0);
}

static void last_rows(void)
{
    begin(UPDATE_STORE_SUB_WRITE);
    one_block_updates(32, 1);
    work.signature = 0x700;
    work.platform = 0;
    work.read_back = 1;
    work.stores = true;
    work.candidate_length = put_update(candidate, 1, 0x700, 1, 16);
    tell("write of 16 blocks over 16 of 32 stale updates", 0);
    begin(UPDATE_STORE_SUB_CONTROL);
    work.task = UPDATE_STORE_TASK_QUERY;
    tell("control", 0);
    begin(UPDATE_STORE_SUB_PRESENCE);
    work.function = 0x1D042;
    tell("unknown function", 0x8600);
}

int main(void)
{
    presence_rows();
    plain_rows();
    read_and_load_rows(call, load, "");
    index_rows();
    read_and_load_rows(read_indexed, load_indexed, ", indexed");
    write_rows(1);
    write_rows(8);
    write_rows(32);
    last_rows();
    return 0;
}
