/*
 * replay: reads the published vectors from standard input, makes their calls, and writes a line
 * for each, which has to be the published one.
 *
 * The input is steps on three buffers (0 the store, 1 the candidate, 2 the destination), on the
 * list and on an index, which is all zeros at first. Numbers have the low byte first.
 */
#define _POSIX_C_SOURCE 200809L /* read */

#include <string.h>
#include <unistd.h>

#include "lines.h"
#include "update_store.h"

enum step {
    END, LENGTH, FILL, PUT, LIST, CALL, LOAD, INDEX, INDEX_AFTER, INDEX_PUT, READ_INDEXED,
    LOAD_INDEXED
};

enum {
    BUFFERS = 3,
    BUFFER_ROOM = 34 * UPDATE_STORE_BLOCK_SIZE,
    LIST_ROOM = 16,
    INPUT_ROOM = 4096
};

static struct buffer {
    uint32_t length;
    uint8_t bytes[BUFFER_ROOM];
} buffers[BUFFERS];

static uint32_t signatures[LIST_ROOM];
static uint32_t signature_count;
static uint8_t platforms[LIST_ROOM];
static uint32_t platform_count;

static uint32_t held[UPDATE_STORE_INDEX_WORDS];     /* the index */

/* ---- The input ---- */

static uint8_t input[INPUT_ROOM];
static uint32_t input_at, input_end;
static bool broken;     /* a step that doesn't fit, or input that ends inside one */

/* Whether there is a byte to read. */
static bool more(void)
{
    if (input_at == input_end) {
        ssize_t count = read(0, input, sizeof input);
        input_at = 0;
        input_end = count > 0 ? (uint32_t)count : 0;
    }
    return input_at < input_end;
}

static uint8_t byte(void)
{
    if (!more()) {
        broken = true;
        return 0;
    }
    return input[input_at++];
}

/* A number of so many bytes. */
static uint32_t number(uint32_t bytes)
{
    uint32_t sum = 0;
    for (uint32_t i = 0; i < bytes; i++)
        sum |= (uint32_t)byte() << (8 * i);
    return sum;
}

/* A number that is at most `most`. */
static uint32_t bounded(uint32_t bytes, uint32_t most)
{
    uint32_t sum = number(bytes);
    broken = broken || sum > most;
    return sum > most ? 0 : sum;
}

/* ---- The steps ---- */

static struct buffer *which(void)
{
    return &buffers[bounded(1, BUFFERS - 1)];
}

static void length(void)
{
    struct buffer *buffer = which();
    buffer->length = bounded(4, BUFFER_ROOM);
}

static void fill(void)
{
    struct buffer *buffer = which();
    uint32_t offset = bounded(4, BUFFER_ROOM);
    uint32_t count = bounded(4, BUFFER_ROOM - offset);
    memset(buffer->bytes + offset, byte(), count);
}

static void put(void)
{
    struct buffer *buffer = which();
    uint32_t offset = bounded(4, BUFFER_ROOM);
    uint32_t count = bounded(2, BUFFER_ROOM - offset);
    for (uint32_t i = 0; i < count; i++)
        buffer->bytes[offset + i] = byte();
}

static void list(void)
{
    signature_count = bounded(1, LIST_ROOM);
    for (uint32_t i = 0; i < signature_count; i++)
        signatures[i] = number(4);
    platform_count = bounded(1, LIST_ROOM);
    for (uint32_t i = 0; i < platform_count; i++)
        platforms[i] = byte();
}

static uint32_t call(uint32_t *answer)
{
    uint32_t words[5];
    for (int i = 0; i < 5; i++)
        words[i] = number(4);
    bool loading = bounded(1, 1) == 1;
    return update_store_call(
        words[0], words[1], words[2], words[3], loading, buffers[0].bytes, buffers[0].length,
        signatures, signature_count, platforms, platform_count, buffers[1].bytes,
        buffers[1].length, words[4], buffers[2].bytes, buffers[2].length, answer);
}

static uint32_t load(uint32_t *answer)
{
    uint32_t signature = number(4);
    uint32_t platform = number(4);
    bool loading = bounded(1, 1) == 1;
    return update_store_load(loading, buffers[0].bytes, buffers[0].length, signature, platform,
                             answer);
}

static uint32_t index_after(uint32_t *answer)
{
    uint32_t words[4];
    uint32_t carried[UPDATE_STORE_INDEX_WORDS];
    for (int i = 0; i < 4; i++)
        words[i] = number(4);
    uint32_t ax = update_store_index_after(held, words[0], words[1], words[2], words[3], carried,
                                           answer);
    memcpy(held, carried, sizeof held);
    return ax;
}

static void index_put(void)
{
    uint32_t place = bounded(1, UPDATE_STORE_INDEX_WORDS - 1);
    held[place] = number(4);
}

static uint32_t read_indexed(uint32_t *answer)
{
    uint32_t block = number(4);
    return update_store_read_indexed(held, block, buffers[0].bytes, buffers[0].length,
                                     buffers[2].bytes, buffers[2].length, answer);
}

static uint32_t load_indexed(uint32_t *answer)
{
    uint32_t signature = number(4);
    uint32_t platform = number(4);
    bool loading = bounded(1, 1) == 1;
    return update_store_load_indexed(loading, held, buffers[0].bytes, buffers[0].length, signature,
                                     platform, answer);
}

/* ---- The lines ---- */

/* (31 h + number) modulo 2^32 - 5, to which 2^32 is the same as 5. */
static uint32_t digest_step(uint32_t h, uint32_t number)
{
    uint64_t sum = 31 * (uint64_t)h + number;
    sum = 5 * (sum >> 32) + (uint32_t)sum;
    return (uint32_t)(sum >= 0xFFFFFFFB ? sum - 0xFFFFFFFB : sum);
}

static uint32_t digest(const struct buffer *buffer)
{
    uint32_t h = 1;
    for (uint32_t i = 0; i < buffer->length; i++)
        h = digest_step(h, buffer->bytes[i]);
    return h;
}

static uint32_t index_digest(void)
{
    uint32_t h = 1;
    for (uint32_t i = 0; i < UPDATE_STORE_INDEX_WORDS; i++)
        h = digest_step(h, held[i]);
    return h;
}

static void say_digest(uint32_t h)
{
    say(" ");
    say_hex(h, 8);
}

static void say_answer(uint32_t ax, const uint32_t *answer)
{
    say_hex(ax, 8);
    for (int i = 0; i < UPDATE_STORE_ANSWER_WORDS; i++) {
        say(" ");
        say_number(answer[i], 0);
    }
    say_digest(digest(&buffers[0]));
    say_digest(digest(&buffers[2]));
}

/* Takes a step that makes a call. */
static uint32_t make_call(enum step step, uint32_t *answer)
{
    switch (step) {
    case CALL: return call(answer);
    case LOAD: return load(answer);
    case INDEX: return update_store_index(buffers[0].bytes, buffers[0].length, held, answer);
    case INDEX_AFTER: return index_after(answer);
    case READ_INDEXED: return read_indexed(answer);
    case LOAD_INDEXED: return load_indexed(answer);
    default: broken = true; return 0;
    }
}

/* Takes one step; true if it was a call, which has a line. */
static bool take_step(void)
{
    uint32_t answer[UPDATE_STORE_ANSWER_WORDS];
    enum step step = byte();
    switch (step) {
    case LENGTH: length(); return false;
    case FILL: fill(); return false;
    case PUT: put(); return false;
    case LIST: list(); return false;
    case INDEX_PUT: index_put(); return false;
    default: break;
    }
    memset(answer, 0xA5, sizeof answer);
    uint32_t ax = make_call(step, answer);
    if (broken)
        return false;
    say_answer(ax, answer);
    if (step == INDEX || step == INDEX_AFTER)
        say_digest(index_digest());
    say("\n");
    return true;
}

int main(void)
{
    uint32_t calls = 0;
    while (more() && !broken)
        calls += take_step();
    say_number(calls, 0);
    say(broken ? " calls, then a step that is none\n" : " calls\n");
    said();
    return broken ? 1 : 0;
}
