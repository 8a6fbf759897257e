#include "index_check.h"

#include <string.h>

#include "digest.h"

enum { WORDS = UPDATE_STORE_INDEX_WORDS, ANSWER = UPDATE_STORE_ANSWER_WORDS };

/* The index of the store before the call. */
static uint32_t before[WORDS];

static bool reads_index(const struct call *call)
{
    return call->entry == ENTRY_READ_INDEXED || call->entry == ENTRY_LOAD_INDEXED;
}

void index_before(const struct scene *scene, struct call *call)
{
    uint32_t answer[ANSWER];
    if (!is_write(call) && !reads_index(call))
        return;
    update_store_index(scene->store.bytes, scene->store.length, before, answer);
    call->own_index = memcmp(before, words_of(&scene->index), sizeof before) == 0;
}

/* Whether the bits are those of whole updates that stood before, and of so many. */
static bool emptied_whole(uint32_t bits, uint32_t updates)
{
    for (uint32_t block = 0; block < UPDATE_STORE_BLOCKS_MAX; block++) {
        uint32_t kind = before[UPDATE_STORE_INDEX_KINDS + block];
        uint32_t start = before[UPDATE_STORE_INDEX_STARTS + block];
        bool emptied = (bits >> block & 1) != 0;
        if (emptied != (kind != UPDATE_STORE_KIND_UNUSED && (bits >> start & 1) != 0))
            return false;
        updates -= emptied && kind == UPDATE_STORE_KIND_FIRST;
    }
    return updates == 0;
}

/* After an accepted write: the emptied blocks, and the index carried over it. */
static const char *check_written(const struct scene *scene, const uint32_t *answer)
{
    const uint8_t *candidate = scene->candidate.bytes;
    uint32_t emptied = answer[UPDATE_STORE_WORD_EMPTIED_BLOCKS];
    uint32_t carried[WORDS], built[WORDS], words[2][ANSWER];
    update_store_index_after(before, emptied, answer[UPDATE_STORE_WORD_START],
                             dword(candidate, 4), blocks_of(candidate), carried, words[0]);
    update_store_index(scene->store.bytes, scene->store.length, built, words[1]);
    digest(carried, sizeof carried);
    digest(words, sizeof words);
    if (memcmp(carried, built, sizeof built) != 0)
        return "the carried index is not the built one";
    if (!emptied_whole(emptied, answer[UPDATE_STORE_WORD_EMPTIED]))
        return "the emptied blocks are not those of the emptied updates";
    return NULL;
}

/* Makes a read once more without the index; it may copy nothing else. */
static bool read_again(const struct scene *scene, const struct call *call, uint32_t *answer)
{
    static uint8_t copied[DESTINATION_ROOM];
    const struct lent *destination = &scene->destination;
    memcpy(copied, destination->bytes, destination->length);
    update_store_call(
        UPDATE_STORE_FUNCTION, UPDATE_STORE_SUB_READ, 0, call->block, false, scene->store.bytes,
        scene->store.length, scene->signatures, scene->signature_count, scene->platforms,
        scene->platform_count, scene->candidate.bytes, scene->candidate.length, 0,
        destination->bytes, destination->length, answer);
    return memcmp(copied, destination->bytes, destination->length) == 0;
}

/* After a read or a load through the store's own index: it is as the one without an index. */
static const char *check_own(const struct scene *scene, const struct call *call,
                             const uint32_t *answer)
{
    uint32_t plain[ANSWER];
    if (call->entry == ENTRY_LOAD_INDEXED)
        update_store_load(scene->loading, scene->store.bytes, scene->store.length,
                          call->signature, call->platform, plain);
    else if (!read_again(scene, call, plain))
        return "a read through the store's own index copied other bytes";
    if (memcmp(plain, answer, sizeof plain) != 0)
        return "another answer through the store's own index";
    return NULL;
}

const char *index_check(const struct scene *scene, const struct call *call,
                        const uint32_t *answer)
{
    if (is_write(call) && answer[UPDATE_STORE_WORD_AH] == UPDATE_STORE_SUCCESS)
        return check_written(scene, answer);
    return reads_index(call) && call->own_index ? check_own(scene, call, answer) : NULL;
}
