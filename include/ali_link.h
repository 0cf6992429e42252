/* The line side of the ALI link box: what `rt lib` in crates/line puts into libline.a.
 *
 * Every function here answers every call whose pointers are sound; the caller tests nothing beforehand. What no
 * contract can test, and the caller therefore owes at each call:
 *   - no pointer is null, also where its length is 0;
 *   - each is aligned for its type and valid for as many elements as the length behind it says;
 *   - what is lent to be written (store, answer) overlaps nothing else that is lent to the same call.
 * Nothing is kept after a call returns, and nothing is allocated. The archive calls nothing outside it, so that it
 * needs no C library.
 *
 * To build a program over it, at the top of the repository:
 *   (cd crates/line && rt lib)
 *   cc -std=c11 -Iinclude prog.c crates/line/out/libline.a
 */
#ifndef ALI_LINK_H
#define ALI_LINK_H

#include <stddef.h>
#include <stdint.h>

#ifdef __cplusplus
extern "C" {
#endif

/* Numbers of refusal (document 01, "Numbers of refusal"). 0 is no refusal. */
enum {
    ALI_BOUNDARY_LENGTH = 1, /* boundary not 1 to 16 bytes */
    ALI_STORE_SHORT = 2,     /* store shorter than 65,536 bytes */
    ALI_ANSWER_SHORT = 3,    /* answer list shorter than 40 places */
    ALI_HELD_NUMBERS = 26    /* matched is not below the boundary's length, or is above gathered */
};

/* The reader's refusals. They are answers: ali_read returns 0 and gives them at place ALI_REFUSAL. */
enum {
    ALI_MESSAGE_TOO_LONG = 8,     /* message longer than 65,520 bytes */
    ALI_NOT_WELL_FORMED = 9,      /* the place is the first byte after which nothing can mend it, or the length */
    ALI_TOO_DEEP = 10,            /* an element at level 33; the place is its '<' */
    ALI_TOO_MANY_ATTRIBUTES = 11, /* a 17th attribute on one element; the place is its first byte */
    ALI_LEFT_OUT = 12,            /* DOCTYPE, CDATA section or processing instruction; the place is its '<' */
    ALI_NO_MESSAGE = 13,          /* well formed, but none of the seven messages; the place is 0 */
    ALI_NAME_TOO_LONG = 14        /* a part of a name over 64 bytes; the place is its first byte */
};

/* What stands at place ALI_ITEM of an answer of ali_gather. */
enum {
    ALI_ITEM_NONE = 0,    /* the piece was used up first */
    ALI_ITEM_EMPTY = 1,   /* no byte before the boundary */
    ALI_ITEM_MESSAGE = 2, /* 1 to 65,520 bytes before the boundary: the first ones of the store */
    ALI_ITEM_TOO_LONG = 8 /* more than that */
};

/* The places of an answer of ali_gather. */
enum {
    ALI_TAKEN = 0,    /* bytes taken of the piece */
    ALI_ITEM = 1,     /* which item, if any, was completed */
    ALI_LENGTH = 2,   /* length of the message, 0 where the item is no message */
    ALI_GATHERED = 3, /* the count to hand in with the next call */
    ALI_MATCHED = 4   /* the match to hand in with the next call */
};

/* The places of an answer of ali_read. Behind the first three stand five values, in the order ALI_STATUS to ALI_TYPE;
 * place ALI_MEANING of value ALI_ID, say, is ALI_PLACE_OF(ALI_ID, ALI_MEANING). */
enum {
    ALI_REFUSAL = 0,       /* 0, or the reader's refusal */
    ALI_REFUSAL_PLACE = 1, /* where in the message, counted from 0; 0 where it was read */
    ALI_KIND = 2,          /* which message it is; 0 on a refusal */
    ALI_READ_PLACES = 28   /* so many places are written */
};
#define ALI_PLACE_OF(value, what) (3 + 5 * (value) + (what))

/* The values, each with the messages that have it. */
enum {
    ALI_STATUS = 0,         /* SessionOpenResponse: attribute status */
    ALI_ID = 1,             /* SessionOk: attribute ID; Request: attribute ID of the QueryRequest */
    ALI_IN_RESPONSE_TO = 2, /* Ok: attribute inResponseTo; Response: attribute inResponseTo of the QueryResponse */
    ALI_IN_RELATION_TO = 3, /* Advisory: attribute inRelationTo of the inner Advisory */
    ALI_TYPE = 4            /* Advisory: content of the first AdvisoryType of the inner Advisory */
};

/* What is told of each value. All five are 0 for a value that is not there. */
enum {
    ALI_THERE = 0,   /* 1 it is there */
    ALI_PLACE = 1,   /* where in the message its bytes begin; 0 for an empty-element tag */
    ALI_BYTES = 2,   /* how many they are, as they stand, references and all */
    ALI_MEANING = 3, /* one of the ALI_MEANS_ numbers */
    ALI_NUMBER = 4   /* the number it names; 0 where it names none, but 0 is a number too: ALI_MEANING tells */
};

/* Meanings. 0 is "names no number" for ALI_ID, ALI_IN_RESPONSE_TO and ALI_IN_RELATION_TO, "other" for the rest. */
enum {
    ALI_MEANS_NUMBER = 1,     /* ALI_ID, ALI_IN_RESPONSE_TO, ALI_IN_RELATION_TO */
    ALI_MEANS_OK = 1,         /* ALI_STATUS */
    ALI_MEANS_REDUNDANT = 2,  /* ALI_STATUS: RedundantSession */
    ALI_MEANS_UNREADABLE = 1  /* ALI_TYPE: UnreadableMessage */
};

/* Kinds of message. */
enum {
    ALI_SESSION_OPEN_REQUEST = 1,
    ALI_SESSION_OPEN_RESPONSE = 2,
    ALI_SESSION_OK = 3,
    ALI_OK = 4,
    ALI_ADVISORY = 5,
    ALI_REQUEST = 6,
    ALI_RESPONSE = 7
};

enum {
    ALI_STORE_LENGTH = 65536, /* bytes a store needs */
    ALI_ANSWER_PLACES = 40    /* places an answer list needs, for each of the functions */
};

/* Takes bytes of `piece` until one item is complete or the piece is used up. They belong at the places of `store` from
 * `gathered` on, and those are laid there whose place lies below 65,520 + boundary_length; no other place is written.
 * `gathered` and `matched` are both 0 at first; from then on they are what the call before answered, and the boundary
 * stays the same. After an item the rest of the piece is handed in again, from the first byte that was not taken. A
 * message is the first ALI_LENGTH bytes of the store, until the next call.
 *
 * Returns 0, or the number of the refusal, tried in the order 3, 1, 2, 26. A refused call writes nothing anywhere.
 * Otherwise exactly the first five places of `answer` are written. */
uint32_t ali_gather(const uint8_t *boundary, size_t boundary_length,
                    uint8_t *store, size_t store_length,
                    const uint8_t *piece, size_t piece_length,
                    uint32_t gathered, uint32_t matched,
                    uint64_t *answer, size_t answer_places);

/* Reads one message: the bytes of an item, without its boundary. The message is only looked at.
 *
 * Returns 0, or 3 if the answer list is too short; then nothing is written. Otherwise exactly the first 28 places of
 * `answer` are written, those without a meaning as 0:
 *
 *   place            number
 *   0                ALI_REFUSAL: 0, it was read, or 8 to 14
 *   1                ALI_REFUSAL_PLACE
 *   2                ALI_KIND: 1 to 7, 0 on a refusal
 *   3 to 7           ALI_STATUS: there, place, bytes, meaning, number (always 0)
 *   8 to 12          ALI_ID: likewise, with the number it names
 *   13 to 17         ALI_IN_RESPONSE_TO: likewise
 *   18 to 22         ALI_IN_RELATION_TO: likewise
 *   23 to 27         ALI_TYPE: likewise, number always 0
 *
 * On a refusal, places 2 to 27 are 0. A value's place and bytes lie within the message, so the caller can look at it
 * there. */
uint32_t ali_read(const uint8_t *message, size_t message_length,
                  uint64_t *answer, size_t answer_places);

#ifdef __cplusplus
}
#endif

#endif
