/* Times ali_gather beside a cutter made of memmem and memcpy that does the same job, on the machine's own processor.
 *
 * All cutters get the same stream in the same pieces and cut it into the same items; that they do is tested before
 * anything is timed. `bench/run` builds and runs this; with WITH_BEFORE, as bench/beside.py builds it, the ali_gather of
 * an older archive is timed too. bench/README.md says how to read what is printed.
 */
#include "ali_link.h"

#include <stdint.h>
#include <stdio.h>
#include <stdlib.h>
#include <string.h>
#include <time.h>

enum {
    FRAME = 1460, /* what one Ethernet frame carries of a TCP stream */
    STREAM = 16 << 20,
    REPETITIONS = 7,
    LONGEST_MESSAGE = 65520,
    LONGEST_BOUNDARY = 16
};
static const double run_seconds = 0.1; /* a run goes over the stream until it has used this much */

enum filler { LINES, ONLY_A };
static const char *const fillers[] = {[LINES] = "lines", [ONLY_A] = "only `a`"};

struct row {
    enum filler filler; /* what a record is made of */
    size_t record_length;
    const char *boundary;
    size_t piece_length;
};

static const struct row rows[] = {
    {LINES, 3000, "##", FRAME},
    {LINES, 3000, "#-ALI-#\n", FRAME},
    {LINES, 3000, "#-ALI-RECORD-#\r\n", FRAME},
    {LINES, 60000, "##", FRAME},
    {LINES, 60000, "#-ALI-#\n", FRAME},
    {LINES, 60000, "#-ALI-RECORD-#\r\n", FRAME},
    {LINES, 3000, "#", FRAME},
    {LINES, 3000, "</a>", FRAME}, /* this and the next begin as every tag of a line does */
    {LINES, 3000, "<EndOfRecord/>", FRAME},
    {LINES, 3000, "</Locatiox>", FRAME}, /* but for one byte it is a tag that every line has */
    {LINES, 3000, "################", FRAME},
    {LINES, 3000, "##", 40},
    {LINES, 3000, "#-ALI-RECORD-#\r\n", 40},
    {ONLY_A, 3000, "aaaaaaaaaaaaaaab", FRAME}, /* each byte keeps all but the last matched */
    {ONLY_A, 3000, "aaaaaaaaaaaaaaba", FRAME}, /* first and last byte stand everywhere */
    {ONLY_A, 3000, "aaaaaaaaabaaaaaa", FRAME}, /* as these, and the byte in the middle too */
    {ONLY_A, 3000, "aaaaaba", FRAME},          /* shorter than eight bytes */
};

struct stream {
    const struct row *row;
    size_t boundary_length, length, records;
    uint8_t *bytes;
};

struct item {
    size_t taken, length;
    unsigned kind; /* as at ALI_ITEM */
};

/* ---- the stream ---- */

static uint32_t random_below(uint32_t *state, uint32_t limit)
{
    *state = *state * 1664525u + 1013904223u;
    return (*state >> 8) % limit;
}

/* An XML-like line. One in four has a false start of the boundary; a boundary of one byte can have none. */
static size_t make_line(char *line, size_t room, const struct stream *s, uint32_t *state)
{
    static const char *const streets[] = {"Linden Ave", "Mill Pond Rd", "Harbor St", "County Road 12"};
    uint32_t most = (uint32_t)s->boundary_length - 1;
    int false_start = most > 0 && random_below(state, 4) == 0 ? 1 + (int)random_below(state, most) : 0;
    unsigned house = random_below(state, 9000);
    const char *street = streets[random_below(state, 4)];
    return (size_t)snprintf(line, room, "<Location><HouseNum>%u</HouseNum><Street>%s</Street><Unit>%.*s.</Unit></Location>\n",
                            house, street, false_start, s->row->boundary);
}

static void fill_with_lines(uint8_t *record, const struct stream *s, uint32_t *state)
{
    char line[200];
    size_t filled = 0, wanted = s->row->record_length;
    while (filled < wanted) {
        size_t length = make_line(line, sizeof line, s, state);
        if (length > wanted - filled)
            length = wanted - filled;
        memcpy(record + filled, line, length);
        filled += length;
    }
}

/* A record's last byte is one that its boundary does not have, so that a false start which the record's end cuts off
 * neither becomes a boundary nor runs into the real one. */
static void make_record(uint8_t *record, const struct stream *s, uint32_t *state)
{
    const struct row *row = s->row;
    if (row->filler == LINES)
        fill_with_lines(record, s, state);
    else
        memset(record, 'a', row->record_length);
    record[row->record_length - 1] = strchr(row->boundary, '>') == NULL ? '>' : '.';
    memcpy(record + row->record_length, row->boundary, s->boundary_length);
}

static void make_stream(struct stream *s, const struct row *row)
{
    uint32_t state = 911;
    size_t step = row->record_length + strlen(row->boundary);
    *s = (struct stream){.row = row, .boundary_length = strlen(row->boundary)};
    s->records = STREAM / step;
    s->length = s->records * step;
    s->bytes = malloc(s->length);
    if (s->bytes == NULL) {
        perror("gather");
        exit(1);
    }
    for (size_t i = 0; i < s->records; i++)
        make_record(s->bytes + i * step, s, &state);
}

/* ---- the cutters: each takes bytes of a piece until an item is complete or the piece is used up ---- */

struct cutter {
    const struct stream *stream;
    uint64_t gathered;
    uint32_t matched;               /* ali_gather's */
    uint8_t tail[LONGEST_BOUNDARY]; /* memmem's: the last bytes before the piece, fewer than the boundary has */
    size_t tail_length;
    uint64_t answer[ALI_ANSWER_PLACES];
    uint8_t store[ALI_STORE_LENGTH];
};
typedef struct item take(struct cutter *, const uint8_t *piece, size_t length);
typedef uint32_t gather(const uint8_t *, size_t, uint8_t *, size_t, const uint8_t *, size_t, uint32_t, uint32_t, uint64_t *, size_t);

static inline struct item take_by(gather *gather, struct cutter *c, const uint8_t *piece, size_t length)
{
    uint32_t refusal = gather((const uint8_t *)c->stream->row->boundary, c->stream->boundary_length, c->store, sizeof c->store,
                              piece, length, (uint32_t)c->gathered, c->matched, c->answer, ALI_ANSWER_PLACES);
    if (refusal != 0) {
        fprintf(stderr, "gather: refused with %u\n", (unsigned)refusal);
        exit(1);
    }
    c->gathered = c->answer[ALI_GATHERED];
    c->matched = (uint32_t)c->answer[ALI_MATCHED];
    return (struct item){(size_t)c->answer[ALI_TAKEN], (size_t)c->answer[ALI_LENGTH], (unsigned)c->answer[ALI_ITEM]};
}

static struct item take_proved(struct cutter *c, const uint8_t *piece, size_t length)
{
    return take_by(ali_gather, c, piece, length);
}

#ifdef WITH_BEFORE
gather ali_gather_before;

static struct item take_before(struct cutter *c, const uint8_t *piece, size_t length)
{
    return take_by(ali_gather_before, c, piece, length);
}
#endif

/* A boundary that began before this piece: the tail and as many bytes of the piece as could complete it. Returns how
 * many bytes of the piece it ends behind, 0 for none. */
static size_t end_across(const struct cutter *c, const uint8_t *piece, size_t length)
{
    uint8_t seam[2 * LONGEST_BOUNDARY];
    size_t k = c->stream->boundary_length, ahead = length < k - 1 ? length : k - 1;
    const uint8_t *found;
    if (c->tail_length == 0)
        return 0;
    memcpy(seam, c->tail, c->tail_length);
    memcpy(seam + c->tail_length, piece, ahead);
    found = memmem(seam, c->tail_length + ahead, c->stream->row->boundary, k);
    return found == NULL ? 0 : (size_t)(found - seam) + k - c->tail_length;
}

static void keep_tail(struct cutter *c, const uint8_t *piece, size_t length)
{
    size_t most = c->stream->boundary_length - 1, kept;
    if (length >= most) {
        memcpy(c->tail, piece + length - most, most);
        c->tail_length = most;
        return;
    }
    kept = c->tail_length + length > most ? most - length : c->tail_length;
    memmove(c->tail, c->tail + c->tail_length - kept, kept);
    memcpy(c->tail + kept, piece, length);
    c->tail_length = kept + length;
}

static void store_bytes(struct cutter *c, const uint8_t *piece, size_t length)
{
    size_t limit = LONGEST_MESSAGE + c->stream->boundary_length;
    if (c->gathered < limit)
        memcpy(c->store + c->gathered, piece, length < limit - c->gathered ? length : limit - c->gathered);
    c->gathered += length;
}

static struct item take_memmem(struct cutter *c, const uint8_t *piece, size_t length)
{
    size_t k = c->stream->boundary_length, end = end_across(c, piece, length), before;
    if (end == 0) {
        const uint8_t *found = memmem(piece, length, c->stream->row->boundary, k);
        end = found == NULL ? 0 : (size_t)(found - piece) + k;
    }
    store_bytes(c, piece, end == 0 ? length : end);
    if (end == 0) {
        keep_tail(c, piece, length);
        return (struct item){length, 0, ALI_ITEM_NONE};
    }
    before = c->gathered - k;
    c->gathered = 0;
    c->tail_length = 0;
    if (before == 0 || before > LONGEST_MESSAGE)
        return (struct item){end, 0, before == 0 ? ALI_ITEM_EMPTY : ALI_ITEM_TOO_LONG};
    return (struct item){end, before, ALI_ITEM_MESSAGE};
}

static const struct {
    const char *name;
    take *take;
} cutters[] = {
    {"ali_gather", take_proved},
#ifdef WITH_BEFORE
    {"before", take_before},
#endif
    {"memmem + memcpy", take_memmem},
};
enum { CUTTERS = sizeof cutters / sizeof *cutters };

/* ---- the same items? ---- */

static void differ(const struct stream *s, int cutter, size_t place)
{
    fprintf(stderr, "gather: items differ, seen at %s: %s, records of %zu, boundary of %zu, byte %zu\n", cutters[cutter].name,
            fillers[s->row->filler], s->row->record_length, s->boundary_length, place);
    exit(1);
}

/* The first cutter's item, if every other takes the same; at the end of an item their whole stores are the same too. */
static struct item take_same(struct cutter held[CUTTERS], const struct stream *s, size_t place, size_t length)
{
    struct item a = cutters[0].take(&held[0], s->bytes + place, length);
    for (int i = 1; i < CUTTERS; i++) {
        struct item b = cutters[i].take(&held[i], s->bytes + place, length);
        if (a.taken != b.taken || a.kind != b.kind || a.length != b.length || held[0].gathered != held[i].gathered)
            differ(s, i, place);
        if (a.kind != ALI_ITEM_NONE && memcmp(held[0].store, held[i].store, sizeof held[i].store) != 0)
            differ(s, i, place);
    }
    return a;
}

static void check_same_items(const struct stream *s, size_t piece_length)
{
    static struct cutter held[CUTTERS];
    size_t place = 0, messages = 0;
    memset(held, 0, sizeof held);
    for (int i = 0; i < CUTTERS; i++)
        held[i].stream = s;
    while (place < s->length) {
        size_t left = piece_length - place % piece_length, length = left < s->length - place ? left : s->length - place;
        struct item item = take_same(held, s, place, length);
        messages += item.kind == ALI_ITEM_MESSAGE && item.length == s->row->record_length;
        place += item.taken;
    }
    if (messages != s->records)
        differ(s, 0, place);
}

/* ---- time ---- */

/* Of the processor and not of the clock on the wall: a machine that others use too would otherwise measure them. */
static double seconds_used(void)
{
    struct timespec t;
    clock_gettime(CLOCK_PROCESS_CPUTIME_ID, &t);
    return (double)t.tv_sec + 1e-9 * (double)t.tv_nsec;
}

static size_t pass_over(struct cutter *c, take *take)
{
    const struct stream *s = c->stream;
    size_t messages = 0, step = s->row->piece_length;
    for (size_t place = 0; place < s->length; place += step) {
        const uint8_t *piece = s->bytes + place;
        size_t left = s->length - place < step ? s->length - place : step;
        while (left > 0) {
            struct item item = take(c, piece, left);
            messages += item.kind == ALI_ITEM_MESSAGE;
            piece += item.taken;
            left -= item.taken;
        }
    }
    return messages;
}

static double megabytes_per_second(const struct stream *s, int cutter)
{
    static struct cutter c;
    size_t bytes = 0;
    double begun, took;
    memset(&c, 0, sizeof c);
    c.stream = s;
    begun = seconds_used();
    do {
        if (pass_over(&c, cutters[cutter].take) != s->records)
            differ(s, cutter, s->length);
        bytes += s->length;
        took = seconds_used() - begun;
    } while (took < run_seconds);
    return 1e-6 * (double)bytes / took;
}

static int by_size(const void *a, const void *b)
{
    double x = *(const double *)a, y = *(const double *)b;
    return (x > y) - (x < y);
}

/* The cutters take turns, so that whatever else the machine does falls on all. */
static void time_all(const struct stream *s, double speeds[CUTTERS][REPETITIONS])
{
    for (int k = 0; k < REPETITIONS; k++)
        for (int i = 0; i < CUTTERS; i++)
            speeds[i][k] = megabytes_per_second(s, i);
    for (int i = 0; i < CUTTERS; i++)
        qsort(speeds[i], REPETITIONS, sizeof speeds[i][0], by_size);
}

/* ---- the table ---- */

static void print_head(void)
{
    printf("| stream | record | boundary | piece |");
    for (int i = 0; i < CUTTERS; i++)
        printf(" %s best | median |", cutters[i].name);
    for (int i = 1; i < CUTTERS; i++)
        printf(" ratio to %s |", cutters[i].name);
    printf("\n|---|---|---|---|");
    for (int i = 1; i < 3 * CUTTERS; i++)
        printf("---|");
    puts("");
}

/* As C writes it, and its length. */
static void print_boundary(const char *boundary)
{
    printf(" `");
    for (const char *byte = boundary; *byte != '\0'; byte++)
        if (*byte == '\r' || *byte == '\n')
            printf("\\%c", *byte == '\r' ? 'r' : 'n');
        else
            putchar(*byte);
    printf("` (%zu) |", strlen(boundary));
}

static void print_row(const struct row *row, double speeds[CUTTERS][REPETITIONS])
{
    int last = REPETITIONS - 1, middle = REPETITIONS / 2;
    printf("| %s | %zu |", fillers[row->filler], row->record_length);
    print_boundary(row->boundary);
    printf(" %zu |", row->piece_length);
    for (int i = 0; i < CUTTERS; i++)
        printf(" %.0f | %.0f |", speeds[i][last], speeds[i][middle]);
    for (int i = 1; i < CUTTERS; i++)
        printf(" %.2f |", speeds[0][middle] / speeds[i][middle]);
    puts("");
    fflush(stdout);
}

int main(void)
{
    double speeds[CUTTERS][REPETITIONS];
    struct stream s;
    print_head();
    for (size_t i = 0; i < sizeof rows / sizeof *rows; i++) {
        make_stream(&s, &rows[i]);
        check_same_items(&s, rows[i].piece_length);
        check_same_items(&s, 7); /* shorter than the longest boundary: it then spans three pieces and more */
        time_all(&s, speeds);
        print_row(&rows[i], speeds);
        free(s.bytes);
    }
    return 0;
}
