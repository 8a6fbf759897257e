#include "draw_index.h"

#include <string.h>

#include "random.h"

enum { WORDS = UPDATE_STORE_INDEX_WORDS };

/* The index of another store, or of this one before a write. */
static uint32_t earlier[WORDS];

/* Each place of an index has its turn. */
static uint32_t next_place;

static void change_one(uint32_t *index)
{
    static const uint32_t changes[] = { 1, 2, 3, 0x100, 0x80000000, 0xFFFFFFFF };
    index[next_place] ^= chance(80) ? PICK(changes) : 1u << below(32);
    next_place = (next_place + 1) % WORDS;
}

static void random_index(uint32_t *index)
{
    static const uint32_t masks[] = { 0, 1, 3, 31, 0xFFFFFFFF };
    uint32_t mask = PICK(masks);
    for (uint32_t i = 0; i < WORDS; i++)
        index[i] = random_word() & mask;
}

void draw_index(struct scene *scene)
{
    uint32_t own[WORDS];
    uint32_t answer[UPDATE_STORE_ANSWER_WORDS];
    uint32_t *index = words_of(&scene->index);
    uint32_t kind = below(20);
    update_store_index(scene->store.bytes, scene->store.length, own, answer);
    memcpy(index, kind < 2 ? earlier : own, sizeof own);
    if (kind == 2)
        random_index(index);
    else if (kind > 15)
        change_one(index);
    if (chance(30))
        memcpy(earlier, own, sizeof own);
}

static uint32_t draw_emptied(void)
{
    static const uint32_t edges[] = { 0, 1, 0x80000000, 0xFFFFFFFF };
    switch (below(4)) {
    case 0: return PICK(edges);
    case 1: return 1u << below(32);
    case 2: return random_word() & random_word();
    default: return random_word();
    }
}

static uint32_t draw_start(void)
{
    static const uint32_t edges[] = { 31, 32, 33, 0x80000000, 0xFFFFFFE0, 0xFFFFFFFF };
    switch (below(6)) {
    case 0: return PICK(edges);
    case 1: return random_word();
    default: return below(32);
    }
}

/* Also one with which start + size is a small number, or 2^32 and a small number. */
static uint32_t draw_size(uint32_t start)
{
    static const uint32_t edges[] = { 0, 31, 32, 33, 0x80000000, 0xFFFFFFFF };
    switch (below(6)) {
    case 0: return PICK(edges);
    case 1: return random_word();
    case 2: return below(64) - start;
    default: return between(1, 16);
    }
}

void draw_carry(struct scene *scene, struct call *call)
{
    call->emptied = draw_emptied();
    call->start = draw_start();
    call->revision = random_word();
    call->size = draw_size(call->start);
    memset(scene->new_index.bytes, (int)below(256), scene->new_index.length);
}
