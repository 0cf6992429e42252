/* What the tests of ali_gather stand on: the ground that a call is lent, and what a call must answer and leave behind.
 *
 * Everything lent to a call stands on a ground, between guard zones. A second ground is brought to what the call must
 * leave behind, and the two are compared. What a call must answer is found by searching in the plainest way there is.
 */
#ifndef GATHER_GROUND_H
#define GATHER_GROUND_H

#include "ali_link.h"
#include "counting.h"

enum {
    GUARD = 64,
    MOST_BOUNDARY = 300, /* so that a length held in 8 bits would pass for a good one */
    MOST_STORE = ALI_STORE_LENGTH + 500,
    MOST_PIECE = 140000,
    MOST_PLACES = ALI_ANSWER_PLACES + 24,
    LONGEST_MESSAGE = 65520,
    ANSWERED = 5, /* places that an accepted call writes */
    UNTOUCHED = 0xC3
};

struct ground {
    uint8_t boundary[GUARD + MOST_BOUNDARY + GUARD];
    uint8_t store[GUARD + MOST_STORE + GUARD];
    uint8_t piece[GUARD + MOST_PIECE + GUARD];
    uint64_t answer[GUARD + MOST_PLACES + GUARD];
};

static struct ground lent, due;

struct room { /* what the host lends for writing */
    size_t store_length, places;
};
static const struct room tight = {ALI_STORE_LENGTH, ALI_ANSWER_PLACES}, ample = {MOST_STORE, MOST_PLACES};

struct call {
    struct room room;
    size_t boundary_length, from, piece_length; /* the piece is lent from `from` on, as after an item */
    uint32_t gathered, matched;
};

/* ---- verdicts ---- */

/* Many calls make one check of each kind, so that the count speaks of cases and not of bytes. */
struct verdict {
    int returned, answer, other_places, store, kept;
};
static const struct verdict all_right = {1, 1, 1, 1, 1};

static void check_verdict(const struct verdict *v, int line, const char *of)
{
    check(v->returned, line, of, "the number returned");
    check(v->answer, line, of, "the five places of the answer");
    check(v->other_places, line, of, "the answer list beyond the five, and what lies around it");
    check(v->store, line, of, "the store, and what lies around it");
    check(v->kept, line, of, "boundary and piece unchanged");
}

/* ---- the ground ---- */

static void lay_piece(const void *piece, size_t length)
{
    memset(lent.piece, UNTOUCHED, GUARD + length + GUARD);
    memcpy(lent.piece + GUARD, piece, length);
    memcpy(due.piece, lent.piece, GUARD + length + GUARD);
}

static void lay_ground(const void *boundary, size_t boundary_length)
{
    memset(&lent, UNTOUCHED, sizeof lent);
    memcpy(lent.boundary + GUARD, boundary, boundary_length);
    memcpy(&due, &lent, sizeof due);
}

static uint32_t gather(const struct call *c)
{
    return ali_gather(lent.boundary + GUARD, c->boundary_length, lent.store + GUARD, c->room.store_length,
                      lent.piece + GUARD + c->from, c->piece_length, c->gathered, c->matched,
                      lent.answer + GUARD, c->room.places);
}

static int same_store(size_t from, size_t length)
{
    return memcmp(lent.store + from, due.store + from, length) == 0;
}

/* Comparing 66,000 bytes after each of 66,000 calls with one byte would take minutes on an emulator: such a call is
 * compared around the place that it may write, and the whole store at items and every so often. */
static int store_as_due(const struct call *c)
{
    static unsigned calls;
    int whole = c->piece_length != 1 || due.answer[GUARD + ALI_ITEM] != ALI_ITEM_NONE || ++calls % 256 == 0;
    if (whole || c->gathered > MOST_STORE)
        return same_store(0, sizeof lent.store);
    return same_store(c->gathered, 2 * GUARD);
}

static void compare(const struct call *c, struct verdict *v)
{
    size_t piece_end = GUARD + c->from + c->piece_length + GUARD;
    size_t beyond = GUARD + ANSWERED, five = ANSWERED * sizeof *lent.answer;

    v->answer &= memcmp(lent.answer + GUARD, due.answer + GUARD, five) == 0;
    v->other_places &= memcmp(lent.answer, due.answer, GUARD * sizeof *lent.answer) == 0 &&
                       memcmp(lent.answer + beyond, due.answer + beyond,
                              sizeof lent.answer - beyond * sizeof *lent.answer) == 0;
    v->store &= store_as_due(c);
    v->kept &= memcmp(lent.boundary, due.boundary, sizeof lent.boundary) == 0 &&
               memcmp(lent.piece, due.piece, piece_end) == 0;
}

/* ---- what a call must do, by plain search ---- */

/* Matching goes on over the boundary's first `matched` bytes followed by the piece, whatever the store holds. */
static uint8_t searched(const struct call *c, size_t i)
{
    return i < c->matched ? due.boundary[GUARD + i] : due.piece[GUARD + c->from + i - c->matched];
}

static int begins_boundary(const struct call *c, size_t end, size_t length)
{
    for (size_t i = 0; i < length; i++)
        if (searched(c, end - length + i) != due.boundary[GUARD + i])
            return 0;
    return 1;
}

static void answer_item(uint64_t *answer, uint64_t bytes_before)
{
    int message = bytes_before > 0 && bytes_before <= LONGEST_MESSAGE;
    answer[ALI_ITEM] = message ? ALI_ITEM_MESSAGE : bytes_before == 0 ? ALI_ITEM_EMPTY : ALI_ITEM_TOO_LONG;
    answer[ALI_LENGTH] = message ? bytes_before : 0;
    answer[ALI_GATHERED] = 0;
    answer[ALI_MATCHED] = 0;
}

static void answer_none(const struct call *c, uint64_t *answer, size_t all)
{
    uint64_t count = (uint64_t)c->gathered + c->piece_length;
    size_t tail = all < c->boundary_length ? all : c->boundary_length - 1;
    while (!begins_boundary(c, all, tail))
        tail--;
    answer[ALI_ITEM] = ALI_ITEM_NONE;
    answer[ALI_LENGTH] = 0;
    answer[ALI_GATHERED] = count < UINT32_MAX ? count : UINT32_MAX;
    answer[ALI_MATCHED] = tail;
}

static void answer_due(const struct call *c, uint64_t *answer)
{
    size_t all = c->matched + c->piece_length, end = c->boundary_length;
    while (end <= all && !begins_boundary(c, end, c->boundary_length))
        end++;
    if (end > all) {
        answer[ALI_TAKEN] = c->piece_length;
        answer_none(c, answer, all);
    } else {
        answer[ALI_TAKEN] = end - c->matched;
        answer_item(answer, c->gathered + answer[ALI_TAKEN] - c->boundary_length);
    }
}

static void store_due(const struct call *c, size_t taken)
{
    for (size_t i = 0; i < taken && c->gathered + i < LONGEST_MESSAGE + c->boundary_length; i++)
        due.store[GUARD + c->gathered + i] = due.piece[GUARD + c->from + i];
}

/* An accepted call, held against the plain search in all that it answers, writes and leaves alone. */
static void try_call(const struct call *c, struct verdict *v)
{
    answer_due(c, due.answer + GUARD);
    store_due(c, due.answer[GUARD + ALI_TAKEN]);
    v->returned &= gather(c) == 0;
    compare(c, v);
}

#endif
