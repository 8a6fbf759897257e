#include "draw_store.h"

#include <string.h>

#include "draw_update.h"
#include "random.h"

enum { USUAL = 6, TAKEN_ROOM = 32 * PAIRS_ROOM };

struct held held;

static bool good;

/* The signatures that a store's updates mostly have. */
static uint32_t usual[USUAL];
static uint32_t usual_count;

/* The pairs of the updates that a store got so far. */
static struct pair taken[TAKEN_ROOM];
static uint32_t taken_count;

struct pair processor_of(struct pair pair)
{
    uint32_t platform = below(8);
    for (uint32_t i = 0; i < 8 && (pair.flags >> platform & 1) == 0; i++)
        platform = (platform + 1) % 8;
    return (struct pair){ pair.signature, 1u << platform };
}

struct pair usual_processor(void)
{
    uint32_t signature = usual[below(usual_count)];
    return (struct pair){ signature, 1u << below(8) };
}

struct pair some_processor(void)
{
    if (held.count == 0 || chance(30))
        return usual_processor();
    const uint8_t *update = held.updates[below(held.count)];
    return processor_of(pair_of(update, below(pair_count_of(update))));
}

void find_held(const struct lent *store)
{
    uint32_t blocks = store->length / BLOCK;
    uint32_t block = 0;
    held.count = 0;
    while (good && block < blocks && block < 32) {
        const uint8_t *at = store->bytes + block * BLOCK;
        uint32_t width = dword(at, 0) == 1 ? blocks_of(at) : 0;
        if (width > blocks - block)
            break;
        if (width > 0)
            held.updates[held.count++] = at;
        block += width > 0 ? width : 1;
    }
}

static uint32_t draw_flags(void)
{
    switch (below(10)) {
    case 0: return 0;
    case 1: return 0xFF;
    case 2: return below(256);
    case 3: return 1u << below(8) | 1u << below(8);
    default: return 1u << below(8);
    }
}

static uint32_t draw_pair_count(void)
{
    uint32_t kind = below(40);
    if (kind < 20)
        return 1;
    if (kind < 35)
        return between(2, 4);
    if (kind < 38)
        return between(5, 9);
    return kind == 38 ? between(10, 65) : 65;
}

/* Pairs that name no processor that another update of the store has. */
static void draw_free_pairs(struct update *update)
{
    update->pair_count = draw_pair_count();
    for (uint32_t i = 0; i < update->pair_count; i++) {
        struct pair *pair = &update->pairs[i];
        pair->signature = chance(70) ? usual[below(usual_count)] : 0x700 + below(64);
        pair->flags = draw_flags();
        for (uint32_t j = 0; j < taken_count; j++)
            if (taken[j].signature == pair->signature)
                pair->flags &= ~taken[j].flags;
        if (chance(10))
            pair->flags |= random_word() & 0xFFFFFF00;
    }
    memcpy(taken + taken_count, update->pairs, update->pair_count * sizeof taken[0]);
    taken_count += update->pair_count;
}

static void fill_store(uint8_t *store, uint32_t blocks)
{
    static const uint32_t crowds[] = { 0, 30, 60, 85, 95, 100 };
    static const uint32_t widths[] = { 1, 1, 1, 2, 2, 3, 4, 16 };
    struct update update;
    uint32_t crowd = PICK(crowds);
    uint32_t widest = PICK(widths);
    taken_count = 0;
    for (uint32_t block = 0; block < blocks; ) {
        uint32_t rest = blocks - block;
        uint32_t width = between(1, widest < rest ? widest : rest);
        if (chance(crowd)) {
            draw_free_pairs(&update);
            draw_update(&update, width);
            update_build(&update, store + block * BLOCK);
            block += width;
        } else {
            block++;
        }
    }
}

/* Puts an update into whole blocks, over what is there, cut off at the store's end. */
static void put_over(struct lent *store, uint32_t block, const struct update *update)
{
    static uint8_t bytes[LONGEST_UPDATE + BLOCK];
    uint32_t room = store->length - block * BLOCK;
    uint32_t whole = (update->length + BLOCK - 1) / BLOCK * BLOCK;
    memset(bytes, 0xFF, sizeof bytes);
    update_build(update, bytes);
    memcpy(store->bytes + block * BLOCK, bytes, whole < room ? whole : room);
}

/*
 * One update at two places, one that doesn't fit any more, a damaged one, or one whose rest begins
 * late, if it leaves a rest.
 */
static void spoil_contents(struct lent *store, uint32_t blocks)
{
    struct update update = { .pair_count = 2 };
    uint32_t width = between(1, blocks < 16 ? blocks : 16);
    uint32_t kind = below(5);
    update.pairs[0] = usual_processor();
    update.pairs[1] = usual_processor();
    if (kind == 0)
        width = 1;
    draw_update(&update, kind == 1 ? 2 : width);
    if (kind == 2 || kind == 3)
        damage_update(&update);
    if (chance(50))
        memset(store->bytes, 0xFF, store->length);
    put_over(store, kind == 1 ? blocks - 1 : 0, &update);
    if (kind == 0)
        put_over(store, blocks - 1, &update);
    if (kind == 4 && update.length % BLOCK != 0)
        store->bytes[update.length] = (uint8_t)below(255);
}

static void spoil_store(struct lent *store, uint32_t blocks)
{
    switch (below(8)) {
    case 0:
        store->length = 0;
        break;
    case 1:
        store->length -= between(1, BLOCK);
        break;
    case 2:
        store->length += between(1, BLOCK - 1);
        break;
    case 3:
        store->length = between(33, 34) * BLOCK;
        break;
    default:
        spoil_contents(store, blocks);
        break;
    }
}

static uint32_t draw_block_count(void)
{
    uint32_t kind = below(100);
    if (kind < 50)
        return between(1, 4);
    if (kind < 80)
        return between(5, 10);
    return kind < 95 ? between(11, 31) : 32;
}

void draw_store(struct lent *store)
{
    static const uint32_t signatures[] = {
        0x650, 0x651, 0x652, 0x6B1, 0x665, 0, 1, 0xFFFFFFFF, 0x10650,
    };
    uint32_t blocks = draw_block_count();
    usual_count = between(1, USUAL);
    for (uint32_t i = 0; i < usual_count; i++)
        usual[i] = PICK(signatures);
    memset(store->bytes, 0xFF, STORE_ROOM);
    store->length = blocks * BLOCK;
    fill_store(store->bytes, blocks);
    good = !chance(7);
    if (!good)
        spoil_store(store, blocks);
    find_held(store);
}
