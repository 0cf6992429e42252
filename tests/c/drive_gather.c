/* Calls ali_gather as standard input says and writes to standard output everything that a call did.
 *
 * All numbers are little-endian. Requests, each beginning with one letter:
 *
 *   'N'  u32 store length (0 to 70,000), u32 fill
 *        A new store, filled from `fill`. It is kept over all calls until the next 'N'. No reply.
 *   'G'  u8 boundary length (0 to 64), u32 piece length (0 to 140,000), u32 gathered, u32 matched,
 *        u8 answer places (0 to 64), u32 fill of the answer list, the boundary, the piece
 *        One call over the store as it stands. Reply:
 *          u32 value returned
 *          u8  alarms, a sum: 1 bytes around the store changed, 2 bytes around the answer list changed,
 *              4 the boundary or bytes around it changed, 8 the piece or bytes around it changed
 *          u64 for each place of the answer list
 *          u32 offset, u32 length, bytes: the part of the store from the first changed byte to the last,
 *              as it is now; length 0 if no byte changed
 *   'W'  The store whole. Reply: u32 length, bytes.
 *
 * lent_block.h says what a fill stands for.
 *
 * Ends with 0 at the end of the input between two requests, with 2 on a request that is none.
 */
#include "ali_link.h"
#include "lent_block.h"

enum {
    LONGEST_STORE = 70000,
    LONGEST_PIECE = 140000,
    LONGEST_BOUNDARY = 64,
    MOST_PLACES = 64,
    /* Beyond the longest piece, so that a call that overlooks the end of the store is reported and not a crash. */
    STORE_FENCE = LONGEST_PIECE + 4096
};

enum { ALARM_STORE = 1, ALARM_ANSWER = 2, ALARM_BOUNDARY = 4, ALARM_PIECE = 8 };

struct range {
    size_t from;
    size_t to;
};

/* The narrowest range that holds every changed byte; empty if none changed. */
static struct range changed(const struct block *block)
{
    enum { STRIDE = 4096 };
    struct range found = {0, watched(block)};
    if (memcmp(block->bytes, block->copy, found.to) == 0)
        return (struct range){0, 0};
    while (found.to - found.from > STRIDE && memcmp(block->bytes + found.from, block->copy + found.from, STRIDE) == 0)
        found.from += STRIDE;
    while (block->bytes[found.from] == block->copy[found.from])
        found.from++;
    while (found.to - found.from > STRIDE
           && memcmp(block->bytes + found.to - STRIDE, block->copy + found.to - STRIDE, STRIDE) == 0)
        found.to -= STRIDE;
    while (block->bytes[found.to - 1] == block->copy[found.to - 1])
        found.to--;
    return found;
}

static void report_store(struct block *store)
{
    struct range range = changed(store);
    size_t end = store->begin + store->length;
    size_t from = range.from < store->begin ? store->begin : range.from;
    size_t to = range.to > end ? end : range.to;
    if (to <= from)
        from = to = store->begin;
    write_number(from - store->begin, 4);
    write_number(to - from, 4);
    write_bytes(store->bytes + from, to - from);
    /* The fences are mended, lest one bad call be blamed on all that follow. */
    memcpy(store->copy + from, store->bytes + from, to - from);
    if (fence_changed(store))
        memcpy(store->bytes, store->copy, watched(store));
}

static void call(struct block *boundary, struct block *store, struct block *piece, struct block *answer)
{
    size_t boundary_length = read_u8();
    size_t piece_length = read_u32();
    uint32_t gathered = read_u32();
    uint32_t matched = read_u32();
    size_t places = read_u8();
    uint32_t answer_fill = read_u32();
    if (boundary_length > LONGEST_BOUNDARY || piece_length > LONGEST_PIECE || places > MOST_PLACES)
        stop("a length is too big");

    lend_input(boundary, boundary_length, NULL, 0);
    /* Around the piece stands more boundary: something to match. */
    lend_input(piece, piece_length, lent(boundary), boundary_length);
    lend_filled(answer, places * sizeof(uint64_t), answer_fill);

    uint32_t returned = ali_gather(lent(boundary), boundary_length, lent(store), store->length,
                                   lent(piece), piece_length, gathered, matched,
                                   (uint64_t *)(void *)lent(answer), places);

    write_number(returned, 4);
    write_number((fence_changed(store) ? ALARM_STORE : 0) | (fence_changed(answer) ? ALARM_ANSWER : 0)
                     | (anything_changed(boundary) ? ALARM_BOUNDARY : 0) | (anything_changed(piece) ? ALARM_PIECE : 0),
                 1);
    write_places(answer, places);
    report_store(store);
}

int main(void)
{
    struct block boundary = new_block(LONGEST_BOUNDARY, FENCE);
    struct block store = new_block(LONGEST_STORE, STORE_FENCE);
    struct block piece = new_block(LONGEST_PIECE, FENCE);
    struct block answer = new_block(MOST_PLACES * sizeof(uint64_t), FENCE);
    lend_filled(&store, 0, 0);

    for (int letter = getchar(); letter != EOF; letter = getchar()) {
        if (letter == 'N') {
            size_t length = read_u32();
            if (length > LONGEST_STORE)
                stop("a store is too long");
            lend_filled(&store, length, read_u32());
        } else if (letter == 'G') {
            call(&boundary, &store, &piece, &answer);
            fflush(stdout);
        } else if (letter == 'W') {
            write_number(store.length, 4);
            write_bytes(lent(&store), store.length);
            fflush(stdout);
        } else {
            stop("a request is none of N, G, W");
        }
    }
    free_block(&boundary);
    free_block(&store);
    free_block(&piece);
    free_block(&answer);
    return 0;
}
