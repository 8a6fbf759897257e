/*
 * calls CALLS SEED: makes random calls of every kind, and writes how many got each code and a
 * digest of all that the calls left behind. Two builds of the library that agree write the same.
 *
 * Each buffer has guard bytes on both sides, and the stack has every alignment that the target
 * allows.
 */
#include <string.h>

#include "digest.h"
#include "draw_call.h"
#include "index_check.h"
#include "lines.h"
#include "random.h"
#include "tally.h"

enum { GUARD = 64, BUFFERS = 5, WORDS = UPDATE_STORE_ANSWER_WORDS };

/* ---- The buffers ---- */

static uint8_t store_area[GUARD + STORE_ROOM + SHIFTS + GUARD];
static uint8_t candidate_area[GUARD + CANDIDATE_ROOM + SHIFTS + GUARD];
static uint8_t destination_area[GUARD + DESTINATION_ROOM + SHIFTS + GUARD];
static uint32_t index_area[(GUARD + INDEX_ROOM + SHIFTS + GUARD) / 4];
static uint32_t new_index_area[(GUARD + INDEX_ROOM + SHIFTS + GUARD) / 4];

static struct scene scene = {
    .store.room = store_area + GUARD,
    .candidate.room = candidate_area + GUARD,
    .destination.room = destination_area + GUARD,
    .index = { .room = (uint8_t *)index_area + GUARD, .length = INDEX_ROOM },
    .new_index = { .room = (uint8_t *)new_index_area + GUARD, .length = INDEX_ROOM },
};

static const struct lent *const buffers[BUFFERS] = {
    &scene.store, &scene.candidate, &scene.destination, &scene.index, &scene.new_index,
};

struct guard {
    uint8_t before[GUARD];
    uint8_t behind[GUARD];
};

static void keep_guard(struct guard *guard, const struct lent *lent)
{
    memcpy(guard->before, lent->bytes - GUARD, GUARD);
    memcpy(guard->behind, lent->bytes + lent->length, GUARD);
}

static bool guard_stands(const struct guard *guard, const struct lent *lent)
{
    return memcmp(guard->before, lent->bytes - GUARD, GUARD) == 0
        && memcmp(guard->behind, lent->bytes + lent->length, GUARD) == 0;
}

/* ---- The calls ---- */

static uint32_t make_call(const struct call *call, uint32_t *answer)
{
    uint8_t *store = scene.store.bytes;
    uint32_t store_length = scene.store.length;
    const uint32_t *index = words_of(&scene.index);
    switch (call->entry) {
    case ENTRY_LOAD:
        return update_store_load(scene.loading, store, store_length, call->signature,
                                 call->platform, answer);
    case ENTRY_INDEX:
        return update_store_index(store, store_length, words_of(&scene.new_index), answer);
    case ENTRY_INDEX_AFTER:
        return update_store_index_after(index, call->emptied, call->start, call->revision,
                                        call->size, words_of(&scene.new_index), answer);
    case ENTRY_READ_INDEXED:
        return update_store_read_indexed(index, call->block, store, store_length,
                                         scene.destination.bytes, scene.destination.length,
                                         answer);
    case ENTRY_LOAD_INDEXED:
        return update_store_load_indexed(scene.loading, index, store, store_length,
                                         call->signature, call->platform, answer);
    default:
        return update_store_call(
            call->function, call->sub_function, call->task, call->block, scene.loading, store,
            store_length, scene.signatures, scene.signature_count, scene.platforms,
            scene.platform_count, scene.candidate.bytes, scene.candidate.length, call->read_back,
            scene.destination.bytes, scene.destination.length, answer);
    }
}

static void digest_all(uint32_t ax, const uint32_t *answer)
{
    digest(&ax, sizeof ax);
    digest(answer, (WORDS + 2) * sizeof answer[0]);
    for (int i = 0; i < BUFFERS; i++)
        digest(buffers[i]->bytes, buffers[i]->length);
    digest(scene.signatures, sizeof scene.signatures);
    digest(scene.platforms, sizeof scene.platforms);
}

/* Draws a call, makes it and takes its answer; null, or what is wrong with it. */
static const char *one_call(void)
{
    struct call call;
    struct guard guards[BUFFERS];
    uint32_t words[WORDS + 2];
    uint32_t *answer = words + 1;
    draw_call(&scene, &call);
    index_before(&scene, &call);
    memset(words, 0xA5, sizeof words);
    for (int i = 0; i < BUFFERS; i++)
        keep_guard(&guards[i], buffers[i]);
    uint32_t ax = make_call(&call, answer);
    for (int i = 0; i < BUFFERS; i++)
        if (!guard_stands(&guards[i], buffers[i]))
            return "bytes beside a buffer were written";
    if (ax != answer[UPDATE_STORE_WORD_AH] * 256 + answer[UPDATE_STORE_WORD_AL])
        return "the result is not AH * 256 + AL";
    if (!tally_add(&call, answer))
        return "a code that the call may not give";
    digest_all(ax, words);
    const char *wrong = index_check(&scene, &call, answer);
    if (call.entry == ENTRY_CALL)
        scene.loading = answer[UPDATE_STORE_WORD_LOADING] != 0;
    call_answered(&scene, is_write(&call) && ax == 0);
    return wrong;
}

/* Makes a call from another depth of the stack: one with each alignment that the target allows. */
static const char *one_call_from(uint32_t depth)
{
    volatile char above[4 * depth + 1];
    above[0] = 0;
    const char *wrong = one_call();
    return above[0] == 0 ? wrong : "the caller's stack was written";
}

static uint32_t number(const char *text)
{
    uint32_t sum = 0;
    for (; *text >= '0' && *text <= '9'; text++)
        sum = 10 * sum + (uint32_t)(*text - '0');
    return sum;
}

int main(int count, char **words)
{
    if (count != 3) {
        say("usage: calls CALLS SEED\n");
        said();
        return 2;
    }
    seed(number(words[2]));
    const char *wrong = NULL;
    for (uint32_t calls = number(words[1]); calls > 0 && wrong == NULL; calls--)
        wrong = one_call_from(calls % 4);
    if (!tally_say() && wrong == NULL)
        wrong = "a code that no call got";
    digest_say();
    if (wrong != NULL) {
        say(wrong);
        say("\n");
    }
    said();
    return wrong == NULL ? 0 : 1;
}
