/* line_side < input
 *
 * The line side of the box: takes a stream in pieces as they come, has ali_gather cut it and ali_read read each message,
 * and prints what `items` prints (document 01, "The listing"). The input's first line is the boundary, the rest the
 * stream. A model of how the archive is called: all that is lent stands in one struct, every answer is looked at, and
 * nothing here looks at the stream itself.
 *
 * The lines of a piece are written before the next one is waited for, so that they show while the link is quiet.
 *
 * Exit status: 0 when the input was read to its end or its boundary was refused, which the listing says; 1 when reading
 * or writing failed, or a call of the archive was refused, which standard error says; 2 when called with arguments.
 */
#include "ali_link.h"

#include <errno.h>
#include <inttypes.h>
#include <stdarg.h>
#include <stdbool.h>
#include <stdio.h>
#include <string.h>
#include <unistd.h>

enum {
    LONGEST_START = 17, /* the longest boundary and its LF, or the first byte too many */
    LONGEST_LINE = 128  /* four numbers of 64 bits and the longest name, with what stands between them */
};

struct line_side {
    uint8_t boundary[LONGEST_START];
    size_t boundary_length;
    bool boundary_ended;
    uint32_t gathered, matched; /* both 0 at first, then always what the call before answered */
    uint64_t lines;
    int write_error; /* 0, or the errno of the write that failed; nothing is written after it */
    uint64_t cut[ALI_ANSWER_PLACES], message[ALI_ANSWER_PLACES];
    uint8_t store[ALI_STORE_LENGTH];
    uint8_t piece[65536];
    size_t said_length;
    char said[64 * LONGEST_LINE];
};

static const char *const kind_names[] = {
    [0] = "-",
    [ALI_SESSION_OPEN_REQUEST] = "SessionOpenRequest",
    [ALI_SESSION_OPEN_RESPONSE] = "SessionOpenResponse",
    [ALI_SESSION_OK] = "SessionOk",
    [ALI_OK] = "Ok",
    [ALI_ADVISORY] = "Advisory",
    [ALI_REQUEST] = "Request",
    [ALI_RESPONSE] = "Response",
};

/* ---- standard input and output ---- */

static ssize_t read_piece(struct line_side *side)
{
    ssize_t length;
    do
        length = read(STDIN_FILENO, side->piece, sizeof side->piece);
    while (length < 0 && errno == EINTR);
    return length;
}

static void write_said(struct line_side *side)
{
    size_t written = 0;
    while (written < side->said_length && side->write_error == 0) {
        ssize_t length = write(STDOUT_FILENO, side->said + written, side->said_length - written);
        if (length > 0)
            written += (size_t)length;
        else if (length == 0)
            side->write_error = EIO; /* a device that takes nothing and gives no reason would be asked for ever */
        else if (errno != EINTR)
            side->write_error = errno;
    }
    side->said_length = 0;
}

__attribute__((format(printf, 2, 3)))
static void say(struct line_side *side, const char *format, ...)
{
    va_list values;
    int length;
    if (sizeof side->said - side->said_length < LONGEST_LINE)
        write_said(side);
    va_start(values, format);
    length = vsnprintf(side->said + side->said_length, LONGEST_LINE, format, values);
    va_end(values);
    if (length >= 0 && length < LONGEST_LINE)
        side->said_length += (size_t)length;
    else
        side->write_error = EOVERFLOW;
}

/* Answers with the exit status, which tells it also where standard error cannot. */
static int failed(const char *doing, int error)
{
    (void)fprintf(stderr, "line_side: %s: %s\n", doing, strerror(error));
    return 1;
}

/* ---- the calls of the archive, and the line that each gives; all answer with the number of refusal, or 0 ---- */

static uint32_t gather(struct line_side *side, const uint8_t *piece, size_t length)
{
    uint32_t refusal = ali_gather(side->boundary, side->boundary_length, side->store, sizeof side->store, piece, length,
                                  side->gathered, side->matched, side->cut, ALI_ANSWER_PLACES);
    if (refusal == 0) {
        side->gathered = (uint32_t)side->cut[ALI_GATHERED];
        side->matched = (uint32_t)side->cut[ALI_MATCHED];
    }
    return refusal;
}

/* The message is the first bytes of the store, until the next call of ali_gather. */
static uint32_t list_message(struct line_side *side, uint64_t length)
{
    const uint64_t *message = side->message;
    uint32_t refusal = ali_read(side->store, (size_t)length, side->message, ALI_ANSWER_PLACES);
    if (refusal == 0)
        say(side, "%" PRIu64 " %" PRIu64 " %s %" PRIu64 " %" PRIu64 "\n", ++side->lines, length,
            kind_names[message[ALI_KIND]], message[ALI_REFUSAL], message[ALI_REFUSAL_PLACE]);
    return refusal;
}

static uint32_t list_item(struct line_side *side)
{
    if (side->cut[ALI_ITEM] == ALI_ITEM_MESSAGE)
        return list_message(side, side->cut[ALI_LENGTH]);
    if (side->cut[ALI_ITEM] == ALI_ITEM_TOO_LONG)
        say(side, "%" PRIu64 " - - %d 0\n", ++side->lines, ALI_MESSAGE_TOO_LONG);
    return 0;
}

/* One piece may hold the ends of many items: what a call did not take goes to the next one. */
static uint32_t take_stream(struct line_side *side, const uint8_t *piece, size_t length)
{
    while (length > 0) {
        uint32_t refusal = gather(side, piece, length);
        if (refusal == 0)
            refusal = list_item(side);
        if (refusal != 0)
            return refusal;
        piece += side->cut[ALI_TAKEN];
        length -= side->cut[ALI_TAKEN];
    }
    return 0;
}

/* ---- the input ---- */

/* Takes the bytes before the first LF, and that LF; 17 bytes without one are too many. Answers how many it took. */
static size_t take_boundary(struct line_side *side, const uint8_t *piece, size_t length)
{
    size_t taken = 0;
    while (taken < length && !side->boundary_ended) {
        uint8_t byte = piece[taken++];
        if (byte != '\n')
            side->boundary[side->boundary_length++] = byte;
        side->boundary_ended = byte == '\n' || side->boundary_length == LONGEST_START;
    }
    return taken;
}

static uint32_t take_piece(struct line_side *side, size_t length)
{
    size_t taken = 0;
    if (!side->boundary_ended) {
        uint32_t refusal = 0;
        taken = take_boundary(side, side->piece, length);
        if (side->boundary_ended) /* an empty piece changes nothing: this only asks whether the boundary will do */
            refusal = gather(side, side->piece, 0);
        if (refusal != 0)
            return refusal;
    }
    return take_stream(side, side->piece + taken, length - taken);
}

static int list_end(struct line_side *side, uint32_t refusal)
{
    if (refusal == 0 && side->boundary_ended)
        say(side, "end %" PRIu32 "\n", side->gathered);
    else
        say(side, "stop %d\n", ALI_BOUNDARY_LENGTH); /* refused, or the input ended before its first LF */
    write_said(side);
    return side->write_error != 0 ? failed("writing", side->write_error) : 0;
}

static int list_input(struct line_side *side)
{
    uint32_t refusal = 0;
    ssize_t length = 0;

    say(side, "item bytes kind refusal place\n");
    write_said(side);
    while (refusal == 0 && side->write_error == 0 && (length = read_piece(side)) > 0) {
        refusal = take_piece(side, (size_t)length);
        write_said(side);
    }
    if (length < 0)
        return failed("reading", errno);
    if (refusal != 0 && refusal != ALI_BOUNDARY_LENGTH) {
        (void)fprintf(stderr, "line_side: a call of the archive was refused with %" PRIu32 "\n", refusal);
        return 1;
    }
    return list_end(side, refusal);
}

int main(int argc, char **argv)
{
    static struct line_side side;
    (void)argv;
    if (argc != 1) {
        (void)fputs("usage: line_side < input\n", stderr);
        return 2;
    }
    return list_input(&side);
}
