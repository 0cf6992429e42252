/* Tests of ali_read through the archive (document 01, "The restricted XML" and "The seven messages"), by hand.
 *
 * A message lies in pages that can only be read, once right before and once right behind a page that cannot be touched
 * at all: a call that writes to its message, or reads past it, is caught in the act. The answer list stands between
 * guards and is filled with a pattern before each call.
 */
#include "ali_link.h"
#include "counting.h"

#include <signal.h>
#include <sys/mman.h>
#include <unistd.h>

enum {
    GUARD = 64,
    MOST_PLACES = 100,
    MOST_MESSAGE = 70000,
    LONGEST_MESSAGE = 65520
};
static const uint64_t untouched = 0xC3C3C3C3C3C3C3C3u;

static uint64_t answer[GUARD + MOST_PLACES + GUARD];
static uint8_t *pages; /* one page that cannot be touched, room for a message, one page more */
static size_t page, room;
static const char *running = "nothing yet";
static int running_line;

/* ---- the ground ---- */

static void caught(int signal_number)
{
    (void)signal_number;
    check(0, running_line, running, "the message was written to, or memory beside it was touched");
    printf("%lu passed, %lu failed\n", passed, failed);
    fflush(stdout);
    _exit(1);
}

static int make_pages(void)
{
    page = (size_t)sysconf(_SC_PAGESIZE);
    room = (MOST_MESSAGE / page + 1) * page;
    pages = mmap(NULL, page + room + page, PROT_NONE, MAP_PRIVATE | MAP_ANONYMOUS, -1, 0);
    signal(SIGSEGV, caught);
    signal(SIGBUS, caught);
    return pages != MAP_FAILED;
}

/* The message as it is lent: at the end of its pages, or at their start. */
static const uint8_t *lay_message(struct bytes message, int at_end)
{
    uint8_t *to = pages + page + (at_end ? room - message.length : 0);
    if (mprotect(pages + page, room, PROT_READ | PROT_WRITE) != 0)
        return NULL;
    memset(pages + page, '>', room);
    memcpy(to, message.at, message.length);
    return mprotect(pages + page, room, PROT_READ) == 0 ? to : NULL;
}

static void lay_answer(void)
{
    for (size_t i = 0; i < sizeof answer / sizeof *answer; i++)
        answer[i] = untouched;
}

/* Are all places of the list and its guards as before, but for so many at its start? */
static int others_untouched(size_t written)
{
    for (size_t i = 0; i < sizeof answer / sizeof *answer; i++)
        if ((i < GUARD || i >= GUARD + written) && answer[i] != untouched)
            return 0;
    return 1;
}

struct verdict {
    int returned, places, others, kept;
};

static void check_verdict(const struct verdict *v, int line, const char *name)
{
    check(v->returned, line, name, "the number returned");
    check(v->places, line, name, "the 28 places");
    check(v->others, line, name, "the places beyond, and what lies around the list");
    check(v->kept, line, name, "the message unchanged");
}

/* Four calls: both placings of the message, a list just long enough and a longer one. */
static void test_message(int line, const char *name, struct bytes message, const uint64_t *due)
{
    struct verdict v = {1, 1, 1, 1};
    running = name;
    running_line = line;
    for (int way = 0; way < 4; way++) {
        const uint8_t *lent = lay_message(message, way & 1);
        size_t places = way & 2 ? MOST_PLACES : ALI_ANSWER_PLACES;
        lay_answer();
        v.returned &= lent && ali_read(lent, message.length, answer + GUARD, places) == 0;
        v.places &= memcmp(answer + GUARD, due, ALI_READ_PLACES * sizeof *due) == 0;
        v.others &= others_untouched(ALI_READ_PLACES);
        v.kept &= lent && memcmp(lent, message.at, message.length) == 0;
    }
    check_verdict(&v, line, name);
}

/* ---- one message after another ---- */

#define VALUE(value, place, bytes, meaning, number) \
    [ALI_PLACE_OF(value, ALI_THERE)] = 1, [ALI_PLACE_OF(value, ALI_PLACE)] = place, \
    [ALI_PLACE_OF(value, ALI_BYTES)] = bytes, [ALI_PLACE_OF(value, ALI_MEANING)] = meaning, \
    [ALI_PLACE_OF(value, ALI_NUMBER)] = number
#define STATUS "urn:nena-org:dtc:aqstcp:status:"
#define UNREADABLE "urn:nena-org:dtc:aqs:notif:advisory:appl-x:UnreadableMessage"
#define TIMES_4(x) x x x x
#define TIMES_32(x) TIMES_4(TIMES_4(x x))
#define TIMES_64(x) TIMES_32(x) TIMES_32(x)
#define ATTRIBUTES_16 \
    " a='' b='' c='' d='' e='' f='' g='' h='' i='' j='' k='' l='' m='' n='' o='' p=''"

static const struct example {
    int line;
    const char *name;
    struct bytes message;
    uint64_t answer[ALI_READ_PLACES];
} examples[] = {
    {__LINE__, "SessionOpenRequest", TEXT("<SessionOpenRequest version='1.4' ID='3'/>"),
     {0, 0, ALI_SESSION_OPEN_REQUEST}},
    {__LINE__, "SessionOpenResponse, Ok", TEXT("<SessionOpenResponse status='" STATUS "Ok'/>"),
     {0, 0, ALI_SESSION_OPEN_RESPONSE, VALUE(ALI_STATUS, 29, 33, ALI_MEANS_OK, 0)}},
    {__LINE__, "SessionOpenResponse, redundant", TEXT("<SessionOpenResponse status='" STATUS "RedundantSession'/>"),
     {0, 0, ALI_SESSION_OPEN_RESPONSE, VALUE(ALI_STATUS, 29, 47, ALI_MEANS_REDUNDANT, 0)}},
    {__LINE__, "SessionOpenResponse, other", TEXT("<SessionOpenResponse status=''/>"),
     {0, 0, ALI_SESSION_OPEN_RESPONSE, VALUE(ALI_STATUS, 29, 0, 0, 0)}},
    {__LINE__, "SessionOk", TEXT("<SessionOk ID=\"4294967295\"/>"),
     {0, 0, ALI_SESSION_OK, VALUE(ALI_ID, 15, 10, ALI_MEANS_NUMBER, 4294967295u)}},
    {__LINE__, "SessionOk, no number", TEXT("<SessionOk ID=\"4294967296\"/>"),
     {0, 0, ALI_SESSION_OK, VALUE(ALI_ID, 15, 10, 0, 0)}},
    {__LINE__, "Ok", TEXT("<Ok inResponseTo=\"7\"/>"),
     {0, 0, ALI_OK, VALUE(ALI_IN_RESPONSE_TO, 18, 1, ALI_MEANS_NUMBER, 7)}},
    {__LINE__, "Ok, 007", TEXT("<Ok inResponseTo=\"007\"/>"), {0, 0, ALI_OK, VALUE(ALI_IN_RESPONSE_TO, 18, 3, 0, 0)}},
    {__LINE__, "Ok, a reference", TEXT("<Ok inResponseTo=\"&#55;\"/>"),
     {0, 0, ALI_OK, VALUE(ALI_IN_RESPONSE_TO, 18, 5, ALI_MEANS_NUMBER, 7)}},
    {__LINE__, "Ok, 0", TEXT("<?xml version='1.0'?> <t:Ok inResponseTo='0'></t:Ok>"),
     {0, 0, ALI_OK, VALUE(ALI_IN_RESPONSE_TO, 42, 1, ALI_MEANS_NUMBER, 0)}},
    {__LINE__, "Advisory", TEXT("<Advisory><q:Advisory inRelationTo='9'><q:AdvisoryType>" UNREADABLE
                                "</q:AdvisoryType></q:Advisory></Advisory>"),
     {0, 0, ALI_ADVISORY, VALUE(ALI_IN_RELATION_TO, 36, 1, ALI_MEANS_NUMBER, 9),
      VALUE(ALI_TYPE, 55, 60, ALI_MEANS_UNREADABLE, 0)}},
    {__LINE__, "Advisory of another type", TEXT("<Advisory><Advisory><AdvisoryType> " UNREADABLE
                                                " </AdvisoryType></Advisory></Advisory>"),
     {0, 0, ALI_ADVISORY, VALUE(ALI_TYPE, 34, 62, 0, 0)}},
    {__LINE__, "Advisory, empty-element tag",
     TEXT("<Advisory><Advisory inRelationTo='x'><AdvisoryType/></Advisory></Advisory>"),
     {0, 0, ALI_ADVISORY, VALUE(ALI_IN_RELATION_TO, 34, 1, 0, 0), VALUE(ALI_TYPE, 0, 0, 0, 0)}},
    {__LINE__, "Request", TEXT("<Request ID='3'><QueryRequest ID='12'/></Request>"),
     {0, 0, ALI_REQUEST, VALUE(ALI_ID, 34, 2, ALI_MEANS_NUMBER, 12)}},
    {__LINE__, "Response", TEXT("<Response><QueryResponse inResponseTo='12'>x</QueryResponse></Response>"),
     {0, 0, ALI_RESPONSE, VALUE(ALI_IN_RESPONSE_TO, 39, 2, ALI_MEANS_NUMBER, 12)}},
    {__LINE__, "Response pushed", TEXT("<Response inResponseTo='1'><QueryResponse/></Response>"), {0, 0, ALI_RESPONSE}},

    {__LINE__, "empty message", TEXT(""), {ALI_NOT_WELL_FORMED, 0}},
    {__LINE__, "ends too soon", TEXT("<Ok>"), {ALI_NOT_WELL_FORMED, 4}},
    {__LINE__, "dead byte", TEXT("<ab></a>"), {ALI_NOT_WELL_FORMED, 7}},
    {__LINE__, "a NUL", TEXT("<Ok inResponseTo='1'/>\0"), {ALI_NOT_WELL_FORMED, 22}},
    {__LINE__, "level 32", TEXT(TIMES_32("<a>")), {ALI_NOT_WELL_FORMED, 96}},
    {__LINE__, "level 33", TEXT(TIMES_32("<a>") "<b/>"), {ALI_TOO_DEEP, 96}},
    {__LINE__, "16 attributes", TEXT("<a" ATTRIBUTES_16 "/>"), {ALI_NO_MESSAGE, 0}},
    {__LINE__, "17 attributes", TEXT("<a" ATTRIBUTES_16 " q=''/>"), {ALI_TOO_MANY_ATTRIBUTES, 83}},
    {__LINE__, "DOCTYPE", TEXT(" <!DOCTYPE"), {ALI_LEFT_OUT, 1}},
    {__LINE__, "CDATA section", TEXT("<a><![CDATA["), {ALI_LEFT_OUT, 3}},
    {__LINE__, "processing instruction", TEXT("<?"), {ALI_LEFT_OUT, 0}},
    {__LINE__, "no message", TEXT("<SessionOK ID='1'/>"), {ALI_NO_MESSAGE, 0}},
    {__LINE__, "needed value missing", TEXT("<Ok/>"), {ALI_NO_MESSAGE, 0}},
    {__LINE__, "part of 64", TEXT("<" TIMES_64("n") "/>"), {ALI_NO_MESSAGE, 0}},
    {__LINE__, "part of 65", TEXT("<p:" TIMES_64("n") "n"), {ALI_NAME_TOO_LONG, 3}},
    {__LINE__, "part of 65 in an end tag", TEXT("<n></" TIMES_64("n") "n"), {ALI_NAME_TOO_LONG, 5}},
};

static void test_examples(void)
{
    for (size_t i = 0; i < sizeof examples / sizeof *examples; i++)
        test_message(examples[i].line, examples[i].name, examples[i].message, examples[i].answer);
}

/* ---- lengths ---- */

static void test_length(size_t length, const char *name, const uint64_t *due)
{
    static const char head[] = "<SessionOk ID='1'/>";
    static char message[MOST_MESSAGE];
    memset(message, ' ', sizeof message);
    memcpy(message, head, sizeof head - 1);
    test_message(__LINE__, name, (struct bytes){message, length}, due);
}

static void test_lengths(void)
{
    static const uint64_t read[ALI_READ_PLACES] = {0, 0, ALI_SESSION_OK, VALUE(ALI_ID, 15, 1, ALI_MEANS_NUMBER, 1)};
    static const uint64_t too_long[ALI_READ_PLACES] = {ALI_MESSAGE_TOO_LONG, 0};
    test_length(LONGEST_MESSAGE - 1, "65,519 bytes", read);
    test_length(LONGEST_MESSAGE, "65,520 bytes", read);
    test_length(LONGEST_MESSAGE + 1, "65,521 bytes", too_long);
    test_length(65936, "65,936 bytes, 400 in 16 bits", too_long);
}

/* ---- lists too short ---- */

static void test_short_lists(void)
{
    static const size_t too_few[] = {0, 1, 27, 28, 29, 39};
    static const struct bytes messages[] = {TEXT(""), TEXT("<Ok inResponseTo=\"7\"/>"), TEXT("<Ok>")};
    static char name[60];
    running = name;
    running_line = __LINE__;
    for (size_t i = 0; i < sizeof too_few / sizeof *too_few; i++)
        for (size_t j = 0; j < sizeof messages / sizeof *messages; j++) {
            const uint8_t *lent = lay_message(messages[j], 1);
            snprintf(name, sizeof name, "list of %zu places, message of %zu", too_few[i], messages[j].length);
            lay_answer();
            uint32_t returned = lent ? ali_read(lent, messages[j].length, answer + GUARD, too_few[i]) : 0;
            check(returned == ALI_ANSWER_SHORT, __LINE__, name, "3 is returned");
            check(others_untouched(0), __LINE__, name, "nothing is written");
            check(lent && !memcmp(lent, messages[j].at, messages[j].length), __LINE__, name, "the message unchanged");
        }
}

int main(void)
{
    if (!make_pages()) {
        puts("no memory");
        return 2;
    }
    test_examples();
    test_lengths();
    test_short_lists();
    printf("%lu passed, %lu failed\n", passed, failed);
    return failed != 0;
}
