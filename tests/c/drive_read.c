/* Calls ali_read as standard input says and writes to standard output what each call did.
 *
 * All numbers are little-endian. A request:
 *   u32 message length (0 to 140,000), u8 answer places (0 to 64), u32 fill of the answer list, the message
 * Its reply:
 *   u32 value returned
 *   u8  alarms, a sum: 1 the answer list from place 28 on, or bytes around it, changed,
 *       2 the message or bytes around it changed
 *   u64 for each of the first 28 places of the answer list, as they are now
 *
 * lent_block.h says what a fill stands for. The list always has 64 places, all of them filled beforehand, however few
 * of them the call is told of.
 *
 * Ends with 0 at the end of the input between two requests, with 2 on a request that is none.
 */
#include "ali_link.h"
#include "lent_block.h"

enum {
    LONGEST_MESSAGE = 140000,
    MOST_PLACES = 64,
    PLACES_WRITTEN = 28
};

enum { ALARM_ANSWER = 1, ALARM_MESSAGE = 2 };

/* What stands around a message: a call that reads too far finds more of a name, the end of a tag, the end of a value
 * or a comment, or white space. */
static const char *const baits[] = {"n", "/>", "\"/>'/>", "-->", " "};

static void lend_message(struct block *message, size_t length, uint32_t choice)
{
    const char *bait = baits[choice % (sizeof baits / sizeof *baits)];
    lend_input(message, length, (const uint8_t *)bait, strlen(bait));
}

static int changed_beyond_written(const struct block *answer)
{
    size_t from = answer->begin + PLACES_WRITTEN * sizeof(uint64_t);
    return memcmp(answer->bytes, answer->copy, answer->begin) != 0
           || memcmp(answer->bytes + from, answer->copy + from, watched(answer) - from) != 0;
}

static void call(struct block *message, struct block *answer, size_t message_length)
{
    size_t places = read_u8();
    uint32_t answer_fill = read_u32();
    if (message_length > LONGEST_MESSAGE || places > MOST_PLACES)
        stop("a length is too big");
    lend_message(message, message_length, answer_fill);
    lend_filled(answer, MOST_PLACES * sizeof(uint64_t), answer_fill);

    uint32_t returned = ali_read(lent(message), message_length, (uint64_t *)(void *)lent(answer), places);

    write_number(returned, 4);
    write_number((changed_beyond_written(answer) ? ALARM_ANSWER : 0)
                     | (anything_changed(message) ? ALARM_MESSAGE : 0),
                 1);
    write_places(answer, PLACES_WRITTEN);
}

int main(void)
{
    struct block message = new_block(LONGEST_MESSAGE, FENCE);
    struct block answer = new_block(MOST_PLACES * sizeof(uint64_t), FENCE);

    for (int first = getchar(); first != EOF; first = getchar()) {
        ungetc(first, stdin);
        call(&message, &answer, read_u32());
        fflush(stdout);
    }
    free_block(&message);
    free_block(&answer);
    return 0;
}
