/* One kind of call at a time: what it is lent, and how long it takes. */
#ifndef TIMED_H
#define TIMED_H

#include "update.h"
#include "update_store.h"

enum { LARGEST_STORE = 32 * BLOCK, LARGEST_UPDATE = 16 * BLOCK };

extern uint8_t store[LARGEST_STORE];
extern uint8_t candidate[LARGEST_UPDATE];

extern struct work {
    uint32_t (*turn)(void);     /* one of the calls below */
    uint32_t function;
    uint32_t sub_function;
    uint32_t task;
    bool loading;
    uint32_t signature;
    uint8_t platform;
    uint32_t blocks;
    uint32_t candidate_length;
    uint32_t read_back;
    uint32_t destination_length;
    bool stores;                /* the write is accepted */
} work;

/* The calls, of block 0 where they read. The index is the store's own. */
uint32_t call(void);
uint32_t load(void);
uint32_t build_index(void);
uint32_t carry_index(void);     /* over a write of 16 blocks that empties 16 */
uint32_t read_indexed(void);
uint32_t load_indexed(void);

/* No call: the sum of the store in plain C, 0 for one update without a table. */
uint32_t sum_store(void);

/* Writes the line of the work, whose result has to be `ax`. */
void tell(const char *name, uint32_t ax);

#endif
