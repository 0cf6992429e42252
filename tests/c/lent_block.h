/* Blocks that a driver lends to a call, between fences and with a copy from before the call, and the driver's input and
 * output. All numbers are little-endian.
 *
 * A fill n stands for this sequence: s(0) = n, s(i+1) = 1664525 s(i) + 1013904223 modulo 2^32; byte i is the highest
 * byte of s(i+1) with its top bit set, for i below 251; then the same 251 bytes again and again. An answer list is
 * filled with it 8 bytes a place. The top bit makes a byte of an ASCII stream stand out wherever it is laid, and makes
 * an answer place that nobody wrote too big for any answer. 251 is prime, so bytes moved by a round distance show.
 */
#ifndef LENT_BLOCK_H
#define LENT_BLOCK_H

#include <stddef.h>
#include <stdint.h>
#include <stdio.h>
#include <stdlib.h>
#include <string.h>

enum { FILL_PERIOD = 251, FENCE = 512 };

/* A block to lend, between two fences, with a copy of it and its fences from before the call. */
struct block {
    uint8_t *bytes;
    uint8_t *copy;
    size_t begin;  /* where the lent part begins, after the first fence */
    size_t length; /* of the lent part */
    size_t fence;  /* bytes after the lent part that are watched */
};

static inline void stop(const char *why)
{
    fprintf(stderr, "driver: %s\n", why);
    exit(2);
}

static inline void read_bytes(uint8_t *to, size_t count)
{
    if (fread(to, 1, count, stdin) != count)
        stop("the input ends within a request");
}

static inline uint32_t read_u8(void)
{
    uint8_t byte;
    read_bytes(&byte, 1);
    return byte;
}

static inline uint32_t read_u32(void)
{
    uint8_t b[4];
    read_bytes(b, sizeof b);
    return b[0] | (uint32_t)b[1] << 8 | (uint32_t)b[2] << 16 | (uint32_t)b[3] << 24;
}

static inline void write_bytes(const uint8_t *from, size_t count)
{
    if (fwrite(from, 1, count, stdout) != count)
        stop("cannot write");
}

static inline void write_number(uint64_t number, size_t bytes)
{
    uint8_t b[8];
    for (size_t i = 0; i < bytes; i++)
        b[i] = (uint8_t)(number >> (8 * i));
    write_bytes(b, bytes);
}

static inline void fill(uint8_t *to, size_t length, uint32_t state)
{
    uint8_t period[FILL_PERIOD];
    for (size_t i = 0; i < FILL_PERIOD; i++) {
        state = state * 1664525u + 1013904223u;
        period[i] = (uint8_t)(0x80 | state >> 24);
    }
    for (size_t at = 0; at < length; at += FILL_PERIOD)
        memcpy(to + at, period, length - at < FILL_PERIOD ? length - at : FILL_PERIOD);
}

static inline struct block new_block(size_t most, size_t fence)
{
    struct block made = {malloc(FENCE + most + fence), malloc(FENCE + most + fence), FENCE, 0, fence};
    if (!made.bytes || !made.copy)
        stop("no memory");
    return made;
}

static inline void free_block(struct block *block)
{
    free(block->bytes);
    free(block->copy);
}

static inline uint8_t *lent(const struct block *block)
{
    return block->bytes + block->begin;
}

static inline size_t watched(const struct block *block)
{
    return block->begin + block->length + block->fence;
}

static inline void remember(struct block *block)
{
    memcpy(block->copy, block->bytes, watched(block));
}

static inline int fence_changed(const struct block *block)
{
    size_t end = block->begin + block->length;
    return memcmp(block->bytes, block->copy, block->begin) != 0
           || memcmp(block->bytes + end, block->copy + end, block->fence) != 0;
}

static inline int anything_changed(const struct block *block)
{
    return memcmp(block->bytes, block->copy, watched(block)) != 0;
}

static inline void lend_filled(struct block *block, size_t length, uint32_t seed)
{
    block->length = length;
    fill(block->bytes, watched(block), ~seed);
    fill(lent(block), length, seed);
    remember(block);
}

/* Lends so many bytes of the input. The bait stands around them again and again, so that a call that reads too far
 * finds something that it could go on with. */
static inline void lend_input(struct block *block, size_t length, const uint8_t *bait, size_t bait_length)
{
    block->length = length;
    for (size_t i = 0; i < FENCE; i++) {
        block->bytes[i] = bait_length ? bait[i % bait_length] : 0;
        block->bytes[block->begin + length + i] = block->bytes[i];
    }
    read_bytes(lent(block), length);
    remember(block);
}

/* The first places of an answer list, as they are now. */
static inline void write_places(const struct block *answer, size_t count)
{
    for (size_t i = 0; i < count; i++) {
        uint64_t place;
        memcpy(&place, lent(answer) + i * sizeof place, sizeof place);
        write_number(place, sizeof place);
    }
}

#endif
