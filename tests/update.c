#include "update.h"

#include <string.h>

#include "random.h"

/* Offsets of the header's fields. */
enum {
    AT_REVISION = 4,
    AT_DATE = 8,
    AT_SIGNATURE = 12,
    AT_CHECKSUM = 16,
    AT_LOADER_VERSION = 20,
    AT_FLAGS = 24,
    AT_DATA_SIZE = 28,
    AT_TOTAL_SIZE = 32,
    AT_RESERVED = 36
};

enum { TABLE = 20, ENTRY = 12 };

uint32_t dword(const uint8_t *bytes, uint32_t at)
{
    uint32_t number;
    memcpy(&number, bytes + at, 4);
    return number;
}

static void put(uint8_t *bytes, uint32_t at, uint32_t number)
{
    memcpy(bytes + at, &number, 4);
}

/* Of the whole dwords. */
static uint32_t sum(const uint8_t *bytes, uint32_t length)
{
    uint32_t total = 0;
    for (uint32_t at = 0; at + 4 <= length; at += 4)
        total += dword(bytes, at);
    return total;
}

uint32_t table_length(uint32_t pair_count)
{
    return pair_count > 1 ? TABLE + ENTRY * (pair_count - 1) : 0;
}

void update_sized(struct update *update, uint32_t revision, uint32_t length)
{
    update->header_version = 1;
    update->revision = revision;
    update->date = 0x07181998;
    update->loader_version = 1;
    update->data_size = length - HEADER - table_length(update->pair_count);
    update->total_size = length;
    update->length = length;
    update->data = DATA_ZERO;
    update->reserved = 0;
    update->entry_count = update->pair_count - 1;
    update->sum_off = 0;
    update->table_off = 0;
    update->entry_off = 0;
}

static void build_header(const struct update *update, uint8_t *bytes)
{
    put(bytes, 0, update->header_version);
    put(bytes, AT_REVISION, update->revision);
    put(bytes, AT_DATE, update->date);
    put(bytes, AT_SIGNATURE, update->pairs[0].signature);
    put(bytes, AT_CHECKSUM, 0);
    put(bytes, AT_LOADER_VERSION, update->loader_version);
    put(bytes, AT_FLAGS, update->pairs[0].flags);
    put(bytes, AT_DATA_SIZE, update->data_size);
    put(bytes, AT_TOTAL_SIZE, update->total_size);
    for (uint32_t at = AT_RESERVED; at < HEADER; at += 4)
        put(bytes, at, update->reserved);
}

/* Data like updates: unused bytes, and at each boundary of blocks the beginning of this update. */
static void build_data(const struct update *update, uint8_t *bytes, uint32_t end)
{
    memset(bytes + HEADER, update->data == DATA_ZERO ? 0 : 0xFF, end - HEADER);
    if (update->data == DATA_RANDOM) {
        for (uint32_t at = HEADER; at + 4 <= end; at += 4)
            put(bytes, at, random_word());
    } else if (update->data == DATA_LIKE_UPDATES) {
        for (uint32_t at = BLOCK; at + HEADER <= end; at += BLOCK)
            memcpy(bytes + at, bytes, HEADER);
    }
}

static void build_table(const struct update *update, uint8_t *bytes, uint32_t checksum)
{
    const struct pair *header = &update->pairs[0];
    uint32_t line = header->signature + header->flags + checksum;
    uint32_t length = table_length(update->pair_count);
    put(bytes, 0, update->entry_count);
    put(bytes, 4, 0);
    for (uint32_t at = 8; at < TABLE; at += 4)
        put(bytes, at, update->reserved);
    for (uint32_t entry = 1; entry < update->pair_count; entry++) {
        const struct pair *pair = &update->pairs[entry];
        uint32_t at = TABLE + ENTRY * (entry - 1);
        put(bytes, at, pair->signature);
        put(bytes, at + 4, pair->flags);
        put(bytes, at + 8, line - pair->signature - pair->flags);
    }
    put(bytes, length - 4, dword(bytes, length - 4) + update->entry_off);
    put(bytes, 4, update->table_off - sum(bytes, length));
}

void update_build(const struct update *update, uint8_t *bytes)
{
    bool table = update->pair_count > 1;
    uint32_t end = update->length - table_length(update->pair_count);
    build_header(update, bytes);
    build_data(update, bytes, end);
    uint32_t rest = table ? update->table_off : 0;
    uint32_t checksum = update->sum_off - rest - sum(bytes, end);
    put(bytes, AT_CHECKSUM, checksum);
    if (table)
        build_table(update, bytes + end, checksum);
}

static uint32_t total_size_of(const uint8_t *update)
{
    return dword(update, AT_DATA_SIZE) == 0 ? BLOCK : dword(update, AT_TOTAL_SIZE);
}

uint32_t blocks_of(const uint8_t *update)
{
    return (total_size_of(update) + BLOCK - 1) / BLOCK;
}

uint32_t pair_count_of(const uint8_t *update)
{
    uint32_t data_size = dword(update, AT_DATA_SIZE);
    bool table = data_size != 0 && HEADER + data_size != total_size_of(update);
    return table ? 1 + dword(update, HEADER + data_size) : 1;
}

struct pair pair_of(const uint8_t *update, uint32_t number)
{
    uint32_t entry = HEADER + dword(update, AT_DATA_SIZE) + TABLE + ENTRY * (number - 1);
    uint32_t at = number == 0 ? AT_SIGNATURE : entry;
    uint32_t flags = number == 0 ? AT_FLAGS : entry + 4;
    return (struct pair){ dword(update, at), dword(update, flags) };
}

bool pairs_share(struct pair one, struct pair other)
{
    return one.signature == other.signature && (one.flags & other.flags & 0xFF) != 0;
}
