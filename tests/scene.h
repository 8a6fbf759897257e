/* All that a call is lent, which lasts for some calls, and a call's own numbers. */
#ifndef SCENE_H
#define SCENE_H

#include <stdbool.h>
#include <stdint.h>

#include "update.h"
#include "update_store.h"

enum {
    STORE_ROOM = 34 * BLOCK,
    CANDIDATE_ROOM = 18 * BLOCK,
    DESTINATION_ROOM = 34 * BLOCK,
    INDEX_ROOM = 4 * UPDATE_STORE_INDEX_WORDS,
    SHIFTS = 16,
    LIST_ROOM = 12
};

/* `room` has the bytes above and SHIFTS more: the lent bytes begin at any of the first. */
struct lent {
    uint8_t *room;
    uint8_t *bytes;
    uint32_t length;
};

/* The words of a lent index. Its room is an array of words, and it begins at one of them. */
static inline uint32_t *words_of(const struct lent *index)
{
    return (uint32_t *)(void *)index->bytes;
}

struct scene {
    struct lent store;
    struct lent candidate;
    struct lent destination;
    struct lent index;          /* the index that a call reads */
    struct lent new_index;      /* the index that a call writes */
    uint32_t signatures[LIST_ROOM];
    uint32_t signature_count;
    uint8_t platforms[LIST_ROOM];
    uint32_t platform_count;
    bool loading;
};

/* The functions of the library. */
enum entry {
    ENTRY_CALL,
    ENTRY_LOAD,
    ENTRY_INDEX,
    ENTRY_INDEX_AFTER,
    ENTRY_READ_INDEXED,
    ENTRY_LOAD_INDEXED
};

struct call {
    enum entry entry;
    uint32_t function;
    uint32_t sub_function;
    uint32_t task;
    uint32_t block;
    uint32_t read_back;
    uint32_t signature;
    uint32_t platform;
    uint32_t emptied;
    uint32_t start;
    uint32_t revision;
    uint32_t size;
    bool own_index;             /* the index that it reads is the store's own */
};

static inline bool is_write(const struct call *call)
{
    return call->entry == ENTRY_CALL && call->function == UPDATE_STORE_FUNCTION
        && call->sub_function == UPDATE_STORE_SUB_WRITE;
}

#endif
