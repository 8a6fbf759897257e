/* Updates made from their parts, good ones and ones with a fault; and the parts of a good one. */
#ifndef UPDATE_H
#define UPDATE_H

#include <stdbool.h>
#include <stdint.h>

enum {
    BLOCK = 2048,
    HEADER = 48,
    PAIRS_ROOM = 66,            /* one more than an update may have */
    LONGEST_UPDATE = 33 * 1024  /* 1,024 bytes more than one may have */
};

struct pair {
    uint32_t signature;
    uint32_t flags;
};

/* The bytes of the data. */
enum data { DATA_ZERO, DATA_UNUSED, DATA_RANDOM, DATA_LIKE_UPDATES };

/* What an update is made of. Its sums come out right, but for the last three numbers. */
struct update {
    uint32_t header_version;
    uint32_t revision;
    uint32_t date;
    uint32_t loader_version;
    uint32_t data_size;                 /* the field */
    uint32_t total_size;                /* the field */
    uint32_t length;                    /* how many bytes there are */
    enum data data;
    uint32_t reserved;                  /* each reserved dword */
    uint32_t entry_count;               /* the field; the entries are all pairs but the first */
    uint32_t pair_count;
    struct pair pairs[PAIRS_ROOM];
    uint32_t sum_off;                   /* what all dwords sum to */
    uint32_t table_off;                 /* what the table's dwords sum to */
    uint32_t entry_off;                 /* what the last entry's checksum has too much */
};

/* The table of so many pairs; one pair needs none. */
uint32_t table_length(uint32_t pair_count);

/* Sets all but the pairs: an update of this length, a good one if that is right. */
void update_sized(struct update *update, uint32_t revision, uint32_t length);

/* Writes the bytes, `length` of them. */
void update_build(const struct update *update, uint8_t *bytes);

/* The dword at an offset. Both targets keep the low byte first. */
uint32_t dword(const uint8_t *bytes, uint32_t at);

/* Of a good update's bytes. */
uint32_t blocks_of(const uint8_t *update);
uint32_t pair_count_of(const uint8_t *update);
struct pair pair_of(const uint8_t *update, uint32_t number);

/* Whether some processor is named by both. */
bool pairs_share(struct pair one, struct pair other);

#endif
