#define _POSIX_C_SOURCE 199309L /* clock_gettime */

#include "timed.h"

#include <stdio.h>
#include <string.h>
#include <time.h>

#include "plain_sum.h"

enum { ROUNDS = 40 };

static const double ROUND = 200000; /* nanoseconds that a round is to take */

/* ---- The calls ---- */

uint8_t store[LARGEST_STORE];
uint8_t candidate[LARGEST_UPDATE];
struct work work;

static uint8_t saved[LARGEST_STORE], destination[LARGEST_UPDATE];
static uint32_t own_index[UPDATE_STORE_INDEX_WORDS], new_index[UPDATE_STORE_INDEX_WORDS];

uint32_t call(void)
{
    uint32_t answer[UPDATE_STORE_ANSWER_WORDS];
    return update_store_call(
        work.function, work.sub_function, work.task, 0, work.loading, store, work.blocks * BLOCK,
        &work.signature, 1, &work.platform, 1, candidate, work.candidate_length, work.read_back,
        destination, work.destination_length, answer);
}

uint32_t load(void)
{
    uint32_t answer[UPDATE_STORE_ANSWER_WORDS];
    return update_store_load(work.loading, store, work.blocks * BLOCK, work.signature,
                             work.platform, answer);
}

uint32_t build_index(void)
{
    uint32_t answer[UPDATE_STORE_ANSWER_WORDS];
    return update_store_index(store, work.blocks * BLOCK, new_index, answer);
}

uint32_t carry_index(void)
{
    uint32_t answer[UPDATE_STORE_ANSWER_WORDS];
    return update_store_index_after(own_index, 0xFFFF, 0, 2, 16, new_index, answer);
}

uint32_t read_indexed(void)
{
    uint32_t answer[UPDATE_STORE_ANSWER_WORDS];
    return update_store_read_indexed(own_index, 0, store, work.blocks * BLOCK, destination,
                                     work.destination_length, answer);
}

uint32_t load_indexed(void)
{
    uint32_t answer[UPDATE_STORE_ANSWER_WORDS];
    return update_store_load_indexed(work.loading, own_index, store, work.blocks * BLOCK,
                                     work.signature, work.platform, answer);
}

uint32_t sum_store(void)
{
    return plain_sum(store, work.blocks * BLOCK);
}

/* ---- The time ---- */

static double now(void)
{
    struct timespec time;
    clock_gettime(CLOCK_MONOTONIC, &time);
    return 1e9 * (double)time.tv_sec + (double)time.tv_nsec;
}

static uint32_t no_call(void)
{
    return 0;
}

/* The time of one turn, over a round of turns. */
static double round_of(uint32_t (*turn)(void), uint32_t turns)
{
    uint32_t (*volatile one)(void) = turn;
    uint32_t length = work.blocks * BLOCK;
    double begin = now();
    for (uint32_t i = 0; i < turns; i++) {
        if (work.stores)
            memcpy(store, saved, length);
        one();
    }
    return (now() - begin) / turns;
}

static double least_of(uint32_t (*turn)(void))
{
    double least = round_of(turn, 20);
    uint32_t turns = 1 + (uint32_t)(ROUND / (least < 1 ? 1 : least));
    for (int i = 0; i < ROUNDS; i++) {
        double time = round_of(turn, turns);
        least = time < least ? time : least;
    }
    return least;
}

void tell(const char *name, uint32_t ax)
{
    uint32_t answer[UPDATE_STORE_ANSWER_WORDS];
    memcpy(saved, store, sizeof saved);
    update_store_index(store, work.blocks * BLOCK, own_index, answer);
    if (work.turn() != ax) {
        printf("%s\tanother answer\n", name);
        return;
    }
    memcpy(store, saved, sizeof store);
    double time = least_of(work.turn);
    if (work.stores)
        time -= least_of(no_call);
    printf("%s\t%.1f\n", name, time);
}
