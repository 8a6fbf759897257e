#include "draw_update.h"

#include "random.h"

uint32_t draw_revision(void)
{
    static const uint32_t edges[] = { 0, 0x7FFFFFFF, 0x80000000, 0xFFFFFFFF };
    uint32_t kind = below(40);
    if (kind == 0)
        return random_word();
    return kind == 1 ? PICK(edges) : below(20);
}

/* A length of so many blocks: with a table one in three is any multiple of 4. */
static uint32_t draw_length(uint32_t pair_count, uint32_t blocks)
{
    uint32_t most = blocks * BLOCK;
    if (pair_count == 1 || below(3) > 0)
        return most - (chance(30) ? 1024 : 0);
    uint32_t least = most - BLOCK + 4;
    uint32_t smallest = HEADER + 4 + table_length(pair_count);
    if (least < smallest)
        least = smallest;
    switch (below(8)) {
    case 0: return least;
    case 1: return most - 4;
    default: return 4 * between(least / 4, most / 4);
    }
}

void draw_update(struct update *update, uint32_t blocks)
{
    static const enum data data[] = {
        DATA_ZERO, DATA_ZERO, DATA_ZERO, DATA_UNUSED, DATA_RANDOM, DATA_LIKE_UPDATES,
    };
    static const uint32_t total_sizes[] = { 0, 0, BLOCK, 1, 0xFFFFFFFF };
    uint32_t length = draw_length(update->pair_count, blocks);
    update_sized(update, draw_revision(), length);
    update->data = PICK(data);
    if (chance(10)) {
        update->date = random_word();
        update->reserved = random_word();
    }
    if (update->length == BLOCK && update->pair_count == 1 && chance(50)) {
        update->data_size = 0;
        update->total_size = PICK(total_sizes);
    }
}

/* A number that a sum or a field can be off by. */
static uint32_t draw_off(void)
{
    static const uint32_t off[] = { 1, 2, 4, 12, 20, 32, 1024, 2048, 0x80000000 };
    uint32_t number = PICK(off);
    return chance(50) ? number : 0 - number;
}

static void damage_sizes(struct update *update)
{
    uint32_t off = draw_off();
    switch (below(5)) {
    case 0:
        update->data_size += off;
        break;
    case 1:
        update->total_size += off;
        break;
    case 2:
        update->data_size += off;
        update->total_size += off;
        break;
    case 3: /* 48 + D comes to little in 32 bits */
        update->data_size = 0 - (uint32_t)HEADER - below(1024);
        update->total_size = 1024 * below(3);
        break;
    default:
        update->entry_count += off;
        break;
    }
}

/* Adds pairs until there are so many. */
static void fill_pairs(struct update *update, uint32_t count)
{
    for (; update->pair_count < count; update->pair_count++)
        update->pairs[update->pair_count] = update->pairs[0];
}

/* A length that breaks a size rule. */
static void damage_length(struct update *update)
{
    uint32_t whole = (update->length + BLOCK - 1) / BLOCK * BLOCK;
    uint32_t length;
    switch (below(5)) {
    case 0: /* one entry more than a table may have */
        fill_pairs(update, PAIRS_ROOM);
        length = BLOCK;
        break;
    case 1: /* 4 bytes more than an update may have */
        fill_pairs(update, 2);
        length = 16 * BLOCK + 4;
        break;
    case 2: /* off the kilobyte, and no table */
        update->pair_count = 1;
        length = whole - 4 * between(1, 255);
        break;
    case 3: /* a table behind a D that is no multiple of 4 */
        fill_pairs(update, 2);
        length = whole - between(1, 3);
        break;
    default:
        length = LONGEST_UPDATE;
        break;
    }
    update_sized(update, update->revision, length);
}

void damage_update(struct update *update)
{
    static const uint32_t versions[] = { 0, 2, 0x101, 0xFFFFFFFF };
    switch (below(12)) {
    case 0:
        update->header_version = PICK(versions);
        break;
    case 1:
        update->loader_version = PICK(versions);
        break;
    case 2:
        update->sum_off = draw_off();
        break;
    case 3:
        update->table_off = draw_off();
        break;
    case 4:
        update->entry_off = draw_off();
        break;
    case 5:
    case 6:
    case 7:
        damage_length(update);
        break;
    default:
        damage_sizes(update);
        break;
    }
}
