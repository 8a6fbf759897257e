#include "draw_call.h"

#include <string.h>

#include "draw_candidate.h"
#include "draw_index.h"
#include "draw_store.h"
#include "random.h"
#include "update_store.h"

/* Calls left on this store. */
static uint32_t left;

/* What is taken back behind the call: a changed bit and the store's own length. */
static uint32_t damaged_at;
static uint8_t damaged_bit;
static uint32_t own_length;

/* Each length of a store has its turn. */
static uint32_t next_length;

static uint32_t draw_task(void)
{
    static const uint32_t edges[] = { 0, 3, 4, 0x101, 0x102, 0xFFFFFFFF };
    switch (below(10)) {
    case 0: return PICK(edges);
    case 1: return 1u << below(32);
    case 2: return random_word();
    default: return between(UPDATE_STORE_TASK_ENABLE, UPDATE_STORE_TASK_QUERY);
    }
}

static uint32_t draw_block(const struct scene *scene)
{
    static const uint32_t edges[] = { 0xFFFFFFFF, 0x80000000, 32, 33, 0x100 };
    uint32_t blocks = scene->store.length / BLOCK;
    switch (below(20)) {
    case 0: return blocks;
    case 1: return PICK(edges);
    case 2: return random_word();
    default: return below(blocks + 1);
    }
}

/* A D042h call whose numbers that don't matter to it are drawn too. */
static void draw_numbers(const struct scene *scene, struct call *call, uint32_t sub_function)
{
    call->entry = ENTRY_CALL;
    call->function = UPDATE_STORE_FUNCTION;
    call->sub_function = sub_function;
    call->task = draw_task();
    call->block = draw_block(scene);
    call->read_back = below(20);
}

static void draw_write(struct scene *scene, struct call *call)
{
    draw_numbers(scene, call, UPDATE_STORE_SUB_WRITE);
    if (chance(85))
        draw_candidate(scene);
    if (scene->candidate.length >= 8)
        call->read_back = dword(scene->candidate.bytes, 4);
    if (chance(8))
        call->read_back ^= 1u << below(32);
}

/* A destination as long as the update, or not quite. */
static void draw_read(struct scene *scene, struct call *call)
{
    static const uint32_t lengths[] = { 0, 1, BLOCK - 1, BLOCK, BLOCK, 3 * BLOCK + 5, 16 * BLOCK };
    uint32_t length = PICK(lengths);
    draw_numbers(scene, call, UPDATE_STORE_SUB_READ);
    if (held.count > 0 && chance(60)) {
        const uint8_t *update = held.updates[below(held.count)];
        uint32_t blocks = blocks_of(update);
        call->block = (uint32_t)(update - scene->store.bytes) / BLOCK;
        call->block += chance(35) ? below(blocks) : 0;
        length = blocks * BLOCK - (chance(15) ? between(1, BLOCK) : 0);
        length += chance(15) ? below(BLOCK) : 0;
    }
    if (chance(80)) {
        scene->destination.length = length;
        memset(scene->destination.bytes, (int)below(256), length);
    }
}

static void draw_load(struct scene *scene, struct call *call)
{
    static const uint32_t platforms[] = { 8, 9, 255, 256, 257, 0x80000000, 0xFFFFFFFF };
    struct pair processor = some_processor();
    call->entry = ENTRY_LOAD;
    call->signature = processor.signature;
    call->platform = 0;
    while (processor.flags >> call->platform > 1)
        call->platform++;
    if (chance(10))
        call->signature ^= 1u << below(32);
    if (chance(15))
        call->platform = PICK(platforms);
    if (chance(60))
        scene->loading = true;
}

/* A call of one of the functions that have to do with an index. */
static void draw_indexed(struct scene *scene, struct call *call)
{
    static const enum entry entries[] = {
        ENTRY_INDEX, ENTRY_INDEX_AFTER, ENTRY_READ_INDEXED, ENTRY_READ_INDEXED,
        ENTRY_LOAD_INDEXED, ENTRY_LOAD_INDEXED,
    };
    enum entry entry = PICK(entries);
    if (entry == ENTRY_READ_INDEXED)
        draw_read(scene, call);
    else if (entry == ENTRY_LOAD_INDEXED)
        draw_load(scene, call);
    draw_carry(scene, call);
    draw_index(scene);
    call->entry = entry;
}

static void draw_unknown(const struct scene *scene, struct call *call)
{
    static const uint32_t functions[] = { 0x1D042, 0xD043, 0, 0xD0, 0x42, 0x42D0 };
    static const uint32_t sub_functions[] = { 4, 5, 0x100, 0x10001, 0xFFFFFFFF };
    draw_numbers(scene, call, below(4));
    switch (below(4)) {
    case 0:
        call->function = PICK(functions);
        break;
    case 1:
        call->function ^= 1u << below(32);
        break;
    case 2:
        call->sub_function = PICK(sub_functions);
        break;
    default:
        call->sub_function ^= 1u << between(2, 31);
        break;
    }
}

static void fill_random(uint8_t *bytes, uint32_t length)
{
    for (uint32_t at = 0; at < length; at++)
        bytes[at] = (uint8_t)random_word();
}

/* A call with nothing right about it, save by chance. The store ends with it. */
static void draw_anything(struct scene *scene, struct call *call)
{
    static const uint32_t lengths[] = { 0, BLOCK, 3 * BLOCK, 32 * BLOCK, STORE_ROOM };
    draw_numbers(scene, call, below(5));
    draw_carry(scene, call);
    call->entry = below(ENTRY_LOAD_INDEXED + 1);
    call->signature = random_word();
    call->platform = random_word();
    call->platform >>= below(32);
    scene->store.length = PICK(lengths);
    scene->candidate.length = below(CANDIDATE_ROOM + 1);
    scene->destination.length = below(DESTINATION_ROOM + 1);
    fill_random(scene->store.bytes, chance(50) ? below(scene->store.length + 1) : 0);
    fill_random(scene->candidate.bytes, chance(50) ? scene->candidate.length : 0);
    draw_index(scene);
    held.count = 0;
    left = 0;
}

static void draw_any(struct scene *scene, struct call *call)
{
    uint32_t kind = below(100);
    if (kind < 40)
        draw_write(scene, call);
    else if (kind < 44)
        draw_numbers(scene, call, UPDATE_STORE_SUB_PRESENCE);
    else if (kind < 54)
        draw_read(scene, call);
    else if (kind < 58)
        draw_numbers(scene, call, UPDATE_STORE_SUB_CONTROL);
    else if (kind < 66)
        draw_load(scene, call);
    else if (kind < 96)
        draw_indexed(scene, call);
    else
        draw_unknown(scene, call);
}

/* Changes a bit of the store, or its length, for one call. */
static void damage_store(struct lent *store)
{
    if (chance(20) && store->length > 0) {
        damaged_at = below(store->length);
        damaged_bit = (uint8_t)(1u << below(8));
        store->bytes[damaged_at] ^= damaged_bit;
    } else {
        store->length = next_length;
        next_length = (next_length + 1) % (STORE_ROOM + 1);
    }
}

static void new_scene(struct scene *scene)
{
    scene->store.bytes = scene->store.room + below(SHIFTS);
    scene->candidate.bytes = scene->candidate.room + below(SHIFTS);
    scene->destination.bytes = scene->destination.room + below(SHIFTS);
    scene->index.bytes = scene->index.room + 4 * below(SHIFTS / 4);
    scene->new_index.bytes = scene->new_index.room + 4 * below(SHIFTS / 4);
    draw_store(&scene->store);
    scene->destination.length = below(4) * BLOCK;
    memset(scene->destination.bytes, (int)below(256), DESTINATION_ROOM);
    draw_candidate(scene);
    left = between(3, 16);
}

void draw_call(struct scene *scene, struct call *call)
{
    if (left == 0)
        new_scene(scene);
    left--;
    own_length = scene->store.length;
    damaged_bit = 0;
    if (chance(15))
        scene->loading = !scene->loading;
    draw_any(scene, call);
    if (chance(10))
        damage_store(&scene->store);
    else if (chance(1))
        draw_anything(scene, call);
}

void call_answered(struct scene *scene, bool stored)
{
    scene->store.length = own_length;
    if (damaged_bit != 0 && !stored)
        scene->store.bytes[damaged_at] ^= damaged_bit;
    if (stored)
        find_held(&scene->store);
}
