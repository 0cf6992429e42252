/* Tests of ali_gather through the archive (document 01, "Numbers of refusal" and "Cutting the stream").
 *
 * What a call must answer comes from two sides: the tables here, written by hand, and `answer_due` of the ground, which
 * searches plainly.
 */
#include "gather_ground.h"

/* ---- whole streams, cut into pieces ---- */

/* The items of a stream as text: "(bytes)" for a message, "()" for an empty item, "!" for a too long one, and at the
 * end a blank and the number of bytes waiting. */
struct transcript {
    char text[MOST_PIECE + 100];
    size_t length;
};

static void say(struct transcript *t, const void *bytes, size_t length)
{
    if (length > sizeof t->text - t->length)
        length = sizeof t->text - t->length;
    memcpy(t->text + t->length, bytes, length);
    t->length += length;
}

static void say_waiting(struct transcript *t, uint64_t waiting)
{
    char number[24];
    int length = snprintf(number, sizeof number, " %llu", (unsigned long long)waiting);
    say(t, number, (size_t)length);
}

static void say_item(struct transcript *t)
{
    uint64_t item = lent.answer[GUARD + ALI_ITEM], length = lent.answer[GUARD + ALI_LENGTH];
    if (item == ALI_ITEM_NONE)
        return;
    if (item == ALI_ITEM_TOO_LONG) {
        say(t, "!", 1);
        return;
    }
    say(t, "(", 1);
    say(t, lent.store + GUARD, length < MOST_STORE ? (size_t)length : MOST_STORE);
    say(t, ")", 1);
}

static int said(const struct transcript *t, const char *text, size_t length)
{
    return t->length == length && memcmp(t->text, text, length) == 0;
}

/* Where the pieces end: every `size` bytes, or with size 0 after byte i for each bit i of `after`. */
struct cutting {
    size_t size;
    unsigned after;
};

static size_t next_piece(struct cutting cut, size_t place, size_t end)
{
    size_t length = 1;
    if (cut.size != 0)
        return cut.size < end - place ? cut.size : end - place;
    while (place + length < end && !(cut.after >> (place + length - 1) & 1))
        length++;
    return length;
}

/* Goes on by what is due and not by what was answered, so that a wrong count cannot lead out of the piece. */
static void walk_piece(struct call *c, size_t piece_length, struct verdict *v, struct transcript *t)
{
    for (c->from = 0; c->from < piece_length; c->from += due.answer[GUARD + ALI_TAKEN]) {
        c->piece_length = piece_length - c->from;
        try_call(c, v);
        say_item(t);
        c->gathered = (uint32_t)due.answer[GUARD + ALI_GATHERED];
        c->matched = (uint32_t)due.answer[GUARD + ALI_MATCHED];
    }
}

static void walk(struct bytes boundary, struct bytes stream, struct cutting cut, struct room room, struct verdict *v,
                 struct transcript *t)
{
    struct call c = {.room = room, .boundary_length = boundary.length};
    size_t place = 0;
    t->length = 0;
    lay_ground(boundary.at, boundary.length);
    while (place < stream.length) {
        size_t length = next_piece(cut, place, stream.length);
        lay_piece(stream.at + place, length);
        walk_piece(&c, length, v, t);
        place += length;
    }
    say_waiting(t, lent.answer[GUARD + ALI_GATHERED]);
}

/* ---- short streams, cut at every place ---- */

static const struct short_stream {
    int line;
    const char *name;
    struct bytes boundary, stream, items;
} short_streams[] = {
    {__LINE__, "document 01: aab in aaab", TEXT("aab"), TEXT("aaab"), TEXT("(a) 0")},
    {__LINE__, "document 01: aa in baaa", TEXT("aa"), TEXT("baaa"), TEXT("(b) 1")},
    {__LINE__, "an empty item between two messages", TEXT("##"), TEXT("<a/>####<b>"), TEXT("(<a/>)() 3")},
    {__LINE__, "only boundaries", TEXT("##"), TEXT("######"), TEXT("()()() 0")},
    {__LINE__, "a begun boundary waits", TEXT("##"), TEXT("ab##c#"), TEXT("(ab) 2")},
    {__LINE__, "boundary of one byte", TEXT("#"), TEXT("a#b##c"), TEXT("(a)(b)() 1")},
    {__LINE__, "an occurrence that overlaps the one before", TEXT("aba"), TEXT("ababa"), TEXT("() 2")},
    {__LINE__, "fails late, half of it counts again", TEXT("abcabd"), TEXT("abcabcabd"), TEXT("(abc) 0")},
    {__LINE__, "fails twice in one byte", TEXT("aabaaa"), TEXT("aabaabaaa"), TEXT("(aab) 0")},
    {__LINE__, "falls back through two tails", TEXT("abaabc"), TEXT("abaababaabc"), TEXT("(abaab) 0")},
    {__LINE__, "a boundary's own bytes as a message", TEXT("ab"), TEXT("aabbab"), TEXT("(a)(b) 0")},
    {__LINE__, "bytes 0 and 255", TEXT("\0\377"), TEXT("\0\0\377\377\0\377\0"), TEXT("(\0)(\377) 1")},
    {__LINE__, "boundary of 16 bytes after a false start", TEXT("aaaaaaaaaaaaaaab"), TEXT("aaaaaaaaaaaaaaaaaba"), TEXT("(aa) 1")},
    {__LINE__, "boundary of 16 bytes, one short", TEXT("0123456789abcdef"), TEXT("0123456789abcde0123456789abcdef"),
     TEXT("(0123456789abcde) 0")},
};

static int walk_short(const struct short_stream *s, struct cutting cut, struct verdict *v)
{
    static struct transcript t;
    int right;
    walk(s->boundary, s->stream, cut, tight, v, &t);
    right = said(&t, s->items.at, s->items.length);
    walk(s->boundary, s->stream, cut, ample, v, &t);
    return right && said(&t, s->items.at, s->items.length);
}

static void test_short_streams(void)
{
    enum { EVERY_CUTTING_UP_TO = 11 };
    for (size_t i = 0; i < sizeof short_streams / sizeof *short_streams; i++) {
        const struct short_stream *s = &short_streams[i];
        struct verdict v = all_right;
        int items_right = 1;
        for (size_t size = 1; size <= s->stream.length; size++)
            items_right &= walk_short(s, (struct cutting){size, 0}, &v);
        if (s->stream.length <= EVERY_CUTTING_UP_TO)
            for (unsigned after = 0; after < 1u << (s->stream.length - 1); after++)
                items_right &= walk_short(s, (struct cutting){0, after}, &v);
        check(items_right, s->line, s->name, "the items, their bytes and the bytes waiting");
        check_verdict(&v, s->line, s->name);
    }
}

/* ---- long records, each with a good one behind it in the same stream ---- */

static const struct long_record {
    int line;
    const char *name;
    size_t length;
    int message;
} long_records[] = {
    {__LINE__, "65,519 bytes", 65519, 1},
    {__LINE__, "65,520 bytes, the longest message", 65520, 1},
    {__LINE__, "65,521 bytes", 65521, 0},
    {__LINE__, "65,536 bytes, 0 in 16 bits", 65536, 0},
    {__LINE__, "65,936 bytes, 400 in 16 bits", 65936, 0},
    {__LINE__, "131,472 bytes, 400 in 16 bits again", 131472, 0},
};
static const char good_record[] = "<Ok inResponseTo=\"7\"/>";

/* Letters, and in them single first bytes of the boundary, as long as it has a second one that is not there. */
static size_t make_stream(char *stream, size_t length, struct bytes boundary)
{
    char *end = stream + length;
    for (size_t i = 0; i < length; i++)
        stream[i] = boundary.length > 1 && i % 97 == 5 && i + 1 < length ? boundary.at[0] : (char)('a' + i % 26);
    memcpy(end, boundary.at, boundary.length);
    end += boundary.length;
    memcpy(end, good_record, sizeof good_record - 1);
    end += sizeof good_record - 1;
    memcpy(end, boundary.at, boundary.length);
    end += boundary.length;
    return (size_t)(end - stream);
}

static void say_expected(struct transcript *t, const char *stream, const struct long_record *r)
{
    t->length = 0;
    if (r->message) {
        say(t, "(", 1);
        say(t, stream, r->length);
        say(t, ")", 1);
    } else {
        say(t, "!", 1);
    }
    say(t, "(", 1);
    say(t, good_record, sizeof good_record - 1);
    say(t, ") 0", 3);
}

static void test_long_record(const struct long_record *r, struct bytes boundary)
{
    static const struct {
        size_t size;
        const struct room *room;
    } cuts[] = {{MOST_PIECE, &tight}, {MOST_PIECE, &ample}, {1460, &tight}, {1460, &ample}, {65535, &ample}, {1, &ample}};
    static char stream[MOST_PIECE];
    static struct transcript t, expected;
    struct bytes whole = {stream, make_stream(stream, r->length, boundary)};
    char name[120];

    say_expected(&expected, stream, r);
    for (size_t i = 0; i < sizeof cuts / sizeof *cuts; i++) {
        struct verdict v = all_right;
        snprintf(name, sizeof name, "%s, boundary of %zu, pieces of at most %zu, store of %zu", r->name, boundary.length,
                 cuts[i].size, cuts[i].room->store_length);
        walk(boundary, whole, (struct cutting){cuts[i].size, 0}, *cuts[i].room, &v, &t);
        check(said(&t, expected.text, expected.length), r->line, name, "the items, the good record's bytes in the store");
        check_verdict(&v, r->line, name);
    }
}

static void test_long_records(void)
{
    static const struct bytes boundaries[] = {TEXT("#"), TEXT("##"), TEXT("#-ALI-RECORD-#\r\n")};
    for (size_t i = 0; i < sizeof long_records / sizeof *long_records; i++)
        for (size_t j = 0; j < sizeof boundaries / sizeof *boundaries; j++)
            test_long_record(&long_records[i], boundaries[j]);
}

/* ---- single calls with numbers held from before, over a store that never saw those bytes ---- */

static const struct held {
    int line;
    const char *name;
    struct bytes boundary, piece;
    uint32_t gathered, matched;
    uint64_t answer[ANSWERED]; /* taken, item, length, gathered, matched */
} held_numbers[] = {
    {__LINE__, "empty piece at first", TEXT("##"), TEXT(""), 0, 0, {0, 0, 0, 0, 0}},
    {__LINE__, "empty piece, numbers held", TEXT("##"), TEXT(""), 7, 1, {0, 0, 0, 7, 1}},
    {__LINE__, "empty piece at the cap", TEXT("##"), TEXT(""), 4294967295u, 1, {0, 0, 0, 4294967295u, 1}},
    {__LINE__, "match completed, nothing before it", TEXT("##"), TEXT("#a"), 1, 1, {1, 1, 0, 0, 0}},
    {__LINE__, "match completed, one byte before it", TEXT("##"), TEXT("#a"), 2, 1, {1, 2, 1, 0, 0}},
    {__LINE__, "match given up", TEXT("##"), TEXT("a"), 1, 1, {1, 0, 0, 2, 0}},
    {__LINE__, "a tail of the match counts again", TEXT("aab"), TEXT("ab"), 5, 2, {2, 2, 4, 0, 0}},
    {__LINE__, "15 of 16 held", TEXT("0123456789abcdef"), TEXT("f"), 15, 15, {1, 1, 0, 0, 0}},
    {__LINE__, "message of 65,520", TEXT("##"), TEXT("#"), 65521, 1, {1, 2, 65520, 0, 0}},
    {__LINE__, "one byte too long", TEXT("##"), TEXT("#"), 65522, 1, {1, 8, 0, 0, 0}},
    {__LINE__, "the last place written", TEXT("##"), TEXT("ab"), 65521, 0, {2, 0, 0, 65523, 0}},
    {__LINE__, "from the first place not written", TEXT("##"), TEXT("ab"), 65522, 0, {2, 0, 0, 65524, 0}},
    {__LINE__, "the last place for 16 bytes", TEXT("0123456789abcdef"), TEXT("xyz"), 65535, 0, {3, 0, 0, 65538, 0}},
    {__LINE__, "to the cap", TEXT("##"), TEXT("a"), 4294967294u, 0, {1, 0, 0, 4294967295u, 0}},
    {__LINE__, "at the cap", TEXT("##"), TEXT("a"), 4294967295u, 0, {1, 0, 0, 4294967295u, 0}},
    {__LINE__, "over the cap, a match begun", TEXT("##"), TEXT("01234567#"), 4294967290u, 0, {9, 0, 0, 4294967295u, 1}},
    {__LINE__, "over the cap, too long", TEXT("##"), TEXT("0123456789##ab"), 4294967290u, 0, {12, 8, 0, 0, 0}},
    {__LINE__, "at the cap, match completed", TEXT("##"), TEXT("#ab"), 4294967295u, 1, {1, 8, 0, 0, 0}},
    {__LINE__, "two bytes to 2^32, match completed", TEXT("##"), TEXT("##"), 4294967294u, 0, {2, 8, 0, 0, 0}},
};

static void test_held_numbers(void)
{
    for (size_t i = 0; i < sizeof held_numbers / sizeof *held_numbers; i++) {
        const struct held *h = &held_numbers[i];
        struct call c = {.boundary_length = h->boundary.length, .piece_length = h->piece.length,
                         .gathered = h->gathered, .matched = h->matched};
        struct verdict v = all_right;
        int as_listed = 1;
        for (int tightly = 0; tightly < 2; tightly++) {
            c.room = tightly ? tight : ample;
            lay_ground(h->boundary.at, h->boundary.length);
            lay_piece(h->piece.at, h->piece.length);
            try_call(&c, &v);
            as_listed &= memcmp(lent.answer + GUARD, h->answer, sizeof h->answer) == 0;
        }
        check(as_listed, h->line, h->name, "the answer as listed");
        check_verdict(&v, h->line, h->name);
    }
}

/* Every call over two letters: boundaries of 1 to 4 bytes, every match held, pieces of up to 6 bytes. */
static void spell(char *word, size_t length, unsigned bits)
{
    for (size_t i = 0; i < length; i++)
        word[i] = bits >> i & 1 ? 'b' : 'a';
}

static void try_every_piece(struct call *c, struct verdict *v)
{
    char piece[6];
    for (c->piece_length = 0; c->piece_length <= sizeof piece; c->piece_length++)
        for (unsigned bits = 0; bits < 1u << c->piece_length; bits++) {
            spell(piece, c->piece_length, bits);
            lay_piece(piece, c->piece_length);
            try_call(c, v);
        }
}

static void test_every_small_call(void)
{
    char boundary[4], name[60];
    for (size_t length = 1; length <= sizeof boundary; length++)
        for (unsigned bits = 0; bits < 1u << length; bits++) {
            struct call c = {.room = ample, .boundary_length = length};
            struct verdict v = all_right;
            spell(boundary, length, bits);
            lay_ground(boundary, length);
            for (c.matched = 0; c.matched < length; c.matched++) {
                c.gathered = c.matched + (c.matched % 2 ? 0 : 9);
                try_every_piece(&c, &v);
            }
            snprintf(name, sizeof name, "every small call, boundary %.*s", (int)length, boundary);
            check_verdict(&v, __LINE__, name);
        }
}

/* ---- refusals ---- */

static const struct refusal {
    int line;
    const char *name;
    uint32_t number;
    struct room room;
    size_t boundary_length;
    uint32_t gathered, matched;
} refusals[] = {
    {__LINE__, "all at its least", 0, {65536, 40}, 1, 0, 0},
    {__LINE__, "all at its most", 0, {65536, 40}, 16, 15, 15},
    {__LINE__, "answer of 39", 3, {65536, 39}, 2, 0, 0},
    {__LINE__, "answer of 0", 3, {65536, 0}, 2, 0, 0},
    {__LINE__, "3 before 1", 3, {65536, 39}, 0, 0, 0},
    {__LINE__, "3 before 1 again", 3, {65536, 39}, 17, 0, 0},
    {__LINE__, "3 before 2", 3, {65535, 39}, 2, 0, 0},
    {__LINE__, "3 before 26", 3, {65536, 39}, 2, 9, 2},
    {__LINE__, "3 before all the others", 3, {0, 39}, 0, 0, 1},
    {__LINE__, "boundary of 0", 1, {65536, 40}, 0, 0, 0},
    {__LINE__, "boundary of 17", 1, {65536, 40}, 17, 0, 0},
    {__LINE__, "boundary of 258, 2 in 8 bits", 1, {65536, 40}, 258, 0, 0},
    {__LINE__, "1 before 2", 1, {65535, 40}, 0, 0, 0},
    {__LINE__, "1 before 2 again", 1, {65535, 40}, 17, 0, 0},
    {__LINE__, "1 before 26", 1, {65536, 40}, 17, 40, 17},
    {__LINE__, "1 before 2 and 26", 1, {0, 64}, 0, 0, 1},
    {__LINE__, "store of 65,535", 2, {65535, 40}, 2, 0, 0},
    {__LINE__, "store of 65,535, boundary of 1", 2, {65535, 64}, 1, 0, 0},
    {__LINE__, "store of 0", 2, {0, 40}, 2, 0, 0},
    {__LINE__, "2 before 26, m = k", 2, {65535, 40}, 2, 9, 2},
    {__LINE__, "2 before 26, m > g", 2, {65535, 40}, 2, 0, 1},
    {__LINE__, "m = k", 26, {65536, 40}, 2, 9, 2},
    {__LINE__, "m = k = 1", 26, {65536, 40}, 1, 1, 1},
    {__LINE__, "m = k = g = 16", 26, {65536, 40}, 16, 16, 16},
    {__LINE__, "m > k", 26, {66036, 64}, 2, 9, 3},
    {__LINE__, "m of 257, 1 in 8 bits", 26, {65536, 40}, 2, 300, 257},
    {__LINE__, "m of 65,537, 1 in 16 bits", 26, {65536, 40}, 2, 70000, 65537},
    {__LINE__, "m at its most", 26, {65536, 40}, 2, 4294967295u, 4294967295u},
    {__LINE__, "m > g = 0", 26, {65536, 40}, 2, 0, 1},
    {__LINE__, "m = g + 1", 26, {66036, 64}, 16, 14, 15},
    {__LINE__, "m = k and m > g", 26, {65536, 40}, 2, 1, 2},
};

static struct verdict try_refusal(const struct refusal *r, struct bytes piece)
{
    char boundary[MOST_BOUNDARY];
    struct call c = {.room = r->room, .boundary_length = r->boundary_length, .piece_length = piece.length,
                     .gathered = r->gathered, .matched = r->matched};
    struct verdict v = all_right;

    memset(boundary, '#', sizeof boundary);
    lay_ground(boundary, r->boundary_length);
    lay_piece(piece.at, piece.length);
    if (r->number == 0) {
        try_call(&c, &v);
    } else {
        v.returned = gather(&c) == r->number;
        compare(&c, &v);
    }
    return v;
}

static void test_refusals(void)
{
    static const struct bytes pieces[] = {TEXT(""), TEXT("#"), TEXT("<Ok/>##################<a/>")};
    char name[100];
    for (size_t i = 0; i < sizeof refusals / sizeof *refusals; i++)
        for (size_t j = 0; j < sizeof pieces / sizeof *pieces; j++) {
            struct verdict v = try_refusal(&refusals[i], pieces[j]);
            snprintf(name, sizeof name, "%s, piece of %zu", refusals[i].name, pieces[j].length);
            check_verdict(&v, refusals[i].line, name);
        }
}

int main(void)
{
    test_short_streams();
    test_long_records();
    test_held_numbers();
    test_every_small_call();
    test_refusals();
    printf("%lu passed, %lu failed\n", passed, failed);
    return failed != 0;
}
