#include "draw_candidate.h"

#include <string.h>

#include "draw_store.h"
#include "draw_update.h"
#include "random.h"

/* The most pairs that are drawn one by one, so that idle ones find room. */
enum { DRAWN = 60, MOST_PAIRS = 65 };

static void add_pair(struct update *update, struct pair pair)
{
    if (update->pair_count < DRAWN)
        update->pairs[update->pair_count++] = pair;
}

/* The pairs of a stored update, or one of its processors. */
static void add_held(struct update *update)
{
    const uint8_t *stored = held.updates[below(held.count)];
    uint32_t count = pair_count_of(stored);
    if (chance(35)) {
        add_pair(update, processor_of(pair_of(stored, below(count))));
    } else {
        for (uint32_t i = 0; i < count; i++)
            add_pair(update, pair_of(stored, i));
    }
}

static void draw_pairs(struct update *update)
{
    static const uint32_t counts[] = { 1, 1, 1, 1, 2, 2, 3, 5 };
    update->pair_count = 0;
    if (chance(10)) /* a header that names nobody */
        add_pair(update, (struct pair){ usual_processor().signature, 0 });
    if (held.count > 0 && chance(60))
        for (uint32_t i = PICK(counts); i > 0; i--)
            add_held(update);
    while (update->pair_count == 0 || chance(25))
        add_pair(update, usual_processor());
    uint32_t idle = chance(10) ? between(1, MOST_PAIRS - update->pair_count) : 0;
    for (; idle > 0; idle--)
        update->pairs[update->pair_count++] = (struct pair){ usual_processor().signature, 0 };
    if (chance(20))
        for (uint32_t i = 0; i < update->pair_count; i++)
            update->pairs[i].flags |= random_word() & 0xFFFFFF00;
}

static bool shares(const struct update *update, const uint8_t *stored)
{
    uint32_t count = pair_count_of(stored);
    for (uint32_t i = 0; i < update->pair_count; i++)
        for (uint32_t j = 0; j < count; j++)
            if (pairs_share(update->pairs[i], pair_of(stored, j)))
                return true;
    return false;
}

/* A revision that is mostly greater than those of the updates that share. */
static uint32_t draw_newer(const struct update *update)
{
    uint32_t greatest = 0;
    for (uint32_t i = 0; i < held.count; i++) {
        uint32_t revision = dword(held.updates[i], 4);
        if (revision > greatest && shares(update, held.updates[i]))
            greatest = revision;
    }
    switch (below(20)) {
    case 0: return greatest;
    case 1: return greatest - 1;
    case 2: return draw_revision();
    default: return greatest == 0xFFFFFFFF ? greatest : greatest + 1;
    }
}

static uint32_t draw_width(uint32_t store_blocks)
{
    uint32_t most = store_blocks < 1 ? 1 : store_blocks > 16 ? 16 : store_blocks;
    switch (below(8)) {
    case 0:
    case 1:
    case 2: return 1;
    case 3: return 2;
    case 4: return most;
    case 5: return between(1, 16);
    default: return between(1, most);
    }
}

/* Cuts the candidate, changes a bit of it, or lends more bytes than it has. */
static void damage_bytes(struct lent *candidate)
{
    uint32_t length = candidate->length;
    uint8_t bit = (uint8_t)(1u << below(8));
    switch (below(5)) {
    case 0:
        candidate->length = length - 1;
        break;
    case 1:
        candidate->length = below(HEADER + 1);
        break;
    case 2:
        candidate->length = below(length);
        break;
    case 3:
        candidate->bytes[below(HEADER)] ^= bit;
        break;
    default:
        candidate->bytes[below(length)] ^= bit;
        break;
    }
}

static void lend_more(struct lent *candidate)
{
    uint32_t more = below(CANDIDATE_ROOM - candidate->length + 1);
    memset(candidate->bytes + candidate->length, 0x33, more);
    candidate->length += more;
}

static void damage_list(struct scene *scene)
{
    static const uint8_t platforms[] = { 8, 9, 16, 128, 255 };
    uint8_t platform = PICK(platforms);
    switch (below(5)) {
    case 0:
        scene->signature_count = scene->platform_count = 0;
        break;
    case 1:
        scene->signature_count = scene->platform_count = between(9, LIST_ROOM);
        break;
    case 2:
        scene->signature_count = below(LIST_ROOM + 1);
        break;
    case 3:
        scene->platform_count = below(LIST_ROOM + 1);
        break;
    default:
        scene->platforms[below(scene->platform_count)] = platform;
        break;
    }
}

static uint8_t platform_of(struct pair processor)
{
    uint8_t platform = 0;
    while (processor.flags >> platform > 1)
        platform++;
    return platform;
}

static void draw_list(struct scene *scene, const struct update *update)
{
    static const uint32_t counts[] = { 1, 1, 2, 2, 3, 4, 5, 6, 7, 8 };
    uint32_t count = PICK(counts);
    bool all_covered = chance(25);
    uint32_t covered = below(count);
    for (uint32_t i = 0; i < LIST_ROOM; i++) {
        bool own = (i == covered && chance(97)) || all_covered || chance(20);
        struct pair one = own ? processor_of(update->pairs[below(update->pair_count)])
                              : some_processor();
        scene->signatures[i] = one.signature;
        scene->platforms[i] = platform_of(one);
    }
    scene->signature_count = scene->platform_count = count;
    if (chance(4))
        damage_list(scene);
}

void draw_candidate(struct scene *scene)
{
    struct update update;
    struct lent *candidate = &scene->candidate;
    bool damaged = chance(15);
    draw_pairs(&update);
    draw_update(&update, draw_width(scene->store.length / BLOCK));
    update.revision = draw_newer(&update);
    if (chance(80))
        draw_list(scene, &update);
    if (damaged && chance(70)) {
        damage_update(&update);
        damaged = false;
    }
    candidate->length = update.length;
    update_build(&update, candidate->bytes);
    if (damaged)
        damage_bytes(candidate);
    else if (chance(20))
        lend_more(candidate);
}
