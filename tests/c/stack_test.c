/* Measures how far down ali_read writes to its stack; it calls itself once for each level of a message.
 *
 * The call goes on a stack that was painted before, and needed what lies between its top and the lowest byte without the
 * paint, its return address included. There are two paints, since a byte that is written may happen to be like one of
 * them. What the last call sets aside without writing to it is not seen; of every call above it all is.
 *
 * Not among the tests with sanitizers: the stack that is measured is the archive's alone, which has none.
 */
#include "ali_link.h"
#include "counting.h"

#include <stdint.h>
#include <stdlib.h>

enum {
    MOST_TAKEN = 18312, /* what was measured when the short ways of the reader came; before them it was 21,104 */
    ROOM = 1 << 18,
    MOST_LEVELS = 32,
    MOST_ATTRIBUTES = 16,
    LONGEST_MESSAGE = 65520
};

struct message {
    uint8_t bytes[LONGEST_MESSAGE];
    size_t length;
};

static _Alignas(16) uint8_t stack[ROOM];
static size_t most_taken;

/* ---- the call on another stack ---- */

/* ali_read(message, length, answer, places) with `top` as the end of its stack. Its arguments are in place already. */
uint32_t read_on_stack(const uint8_t *message, size_t length, uint64_t *answer, size_t places, void *top);
__asm__(".pushsection .text\n"
        "read_on_stack:\n"
        "    pushq %rbp\n"
        "    movq %rsp, %rbp\n"
        "    movq %r8, %rsp\n"
        "    callq ali_read\n"
        "    movq %rbp, %rsp\n"
        "    popq %rbp\n"
        "    retq\n"
        ".popsection\n");

static size_t taken_from(uint8_t paint, const struct message *m, uint64_t *answer)
{
    size_t painted = 0;
    memset(stack, paint, sizeof stack);
    read_on_stack(m->bytes, m->length, answer, ALI_ANSWER_PLACES, stack + sizeof stack);
    while (painted < sizeof stack && stack[painted] == paint)
        painted++;
    return sizeof stack - painted;
}

static void test_message(const char *name, const struct message *m, uint64_t due)
{
    uint64_t answer[ALI_ANSWER_PLACES];
    size_t once = taken_from(0xA5, m, answer), again = taken_from(0x5A, m, answer), taken = once > again ? once : again;
    printf("%5zu bytes: %s\n", taken, name);
    check(answer[ALI_REFUSAL] == due, __LINE__, name, "the refusal that is due");
    check(taken >= sizeof(void *), __LINE__, name, "the return address at least is seen");
    check(taken <= MOST_TAKEN, __LINE__, name, "no more than the most");
    if (taken > most_taken)
        most_taken = taken;
}

/* ---- messages ---- */

static void append(struct message *m, const char *text)
{
    size_t length = strlen(text);
    if (length > sizeof m->bytes - m->length) {
        puts("a message is too long");
        exit(2);
    }
    memcpy(m->bytes + m->length, text, length);
    m->length += length;
}

static void append_attributes(struct message *m, const char *value)
{
    char opening[] = " a=\"";
    for (int i = 0; i < MOST_ATTRIBUTES; i++, opening[1]++) {
        append(m, opening);
        append(m, value);
        append(m, "\"");
    }
}

static void append_tag(struct message *m, const char *opening, int level, const char *value)
{
    append(m, opening);
    append(m, level <= 2 ? "Advisory" : "any:Element");
    if (value != NULL)
        append_attributes(m, value);
    append(m, ">");
}

/* An Advisory of so many levels, each with the same attributes and the same content before the next, and something more
 * in the deepest. Its type stands behind the third level, which the reader goes over a second time to find it. */
static void make_tower(struct message *m, int levels, const char *value, const char *content, const char *deepest)
{
    m->length = 0;
    for (int level = 1; level <= levels; level++) {
        append_tag(m, "<", level, value);
        append(m, content);
    }
    append(m, deepest);
    for (int level = levels; level >= 1; level--) {
        append(m, level == 2 ? "<AdvisoryType/>" : "");
        append_tag(m, "</", level, NULL);
    }
}

/* ---- the tests ---- */

#define REFERENCES "&amp;&#x41;&#65;"
#define ABOVE_127 "\xC3\xA9\xE2\x82\xAC\xF0\x9F\x98\x80" /* characters of two, three and four bytes */
#define COMMENT "<!-- e-mail: " ABOVE_127 " -->"
#define EIGHT_ATTRIBUTES(x) \
    " " x "1=\"\" " x "2=\"\" " x "3=\"\" " x "4=\"\" " x "5=\"\" " x "6=\"\" " x "7=\"\" " x "8=\"\""
#define SIXTEEN_LETTERS "abcdefghijklmnop"

static const struct part {
    const char *name, *text;
} values[] = {{"no attributes", NULL},
              {"16 empty values", ""},
              {"16 values of references", REFERENCES},
              {"16 values above 127", ABOVE_127}},
  contents[] = {{"nothing else", ""},
                {"references", REFERENCES},
                {"text above 127", ABOVE_127},
                {"comments", COMMENT},
                {"references, text above 127 and comments", REFERENCES ABOVE_127 COMMENT}};

static void test_towers(int levels, uint64_t due)
{
    static struct message tower;
    char name[120];
    for (size_t i = 0; i < sizeof values / sizeof *values; i++)
        for (size_t j = 0; j < sizeof contents / sizeof *contents; j++) {
            make_tower(&tower, levels, values[i].text, contents[j].text, "");
            snprintf(name, sizeof name, "%d levels: %s; %s", levels, values[i].name, contents[j].name);
            test_message(name, &tower, due);
        }
}

/* What is refused in the deepest element, or as the deepest. */
static const struct refused {
    const char *name, *text;
    int levels;
    uint64_t due;
} refusals[] = {{"a DOCTYPE", "<!DOCTYPE", MOST_LEVELS, ALI_LEFT_OUT},
                {"a CDATA section", "<![CDATA[", MOST_LEVELS, ALI_LEFT_OUT},
                {"a processing instruction", "<?x", MOST_LEVELS, ALI_LEFT_OUT},
                {"a reference to nothing", "&none;", MOST_LEVELS, ALI_NOT_WELL_FORMED},
                {"half a character", "\xF0\x9F", MOST_LEVELS, ALI_NOT_WELL_FORMED},
                {"an end tag of another name", "</any:other>", MOST_LEVELS, ALI_NOT_WELL_FORMED},
                {"17 attributes", "<x" EIGHT_ATTRIBUTES("a") EIGHT_ATTRIBUTES("b") " c=\"\"/>", MOST_LEVELS - 1, ALI_TOO_MANY_ATTRIBUTES},
                {"a name of 65 bytes", "<" SIXTEEN_LETTERS SIXTEEN_LETTERS SIXTEEN_LETTERS SIXTEEN_LETTERS "x/>", MOST_LEVELS - 1, ALI_NAME_TOO_LONG}};

static void test_refusals(void)
{
    static struct message tower;
    for (size_t i = 0; i < sizeof refusals / sizeof *refusals; i++) {
        make_tower(&tower, refusals[i].levels, REFERENCES, COMMENT, refusals[i].text);
        test_message(refusals[i].name, &tower, refusals[i].due);
    }
}

static void test_one_element(void)
{
    static struct message one;
    append(&one, "<Ok inResponseTo=\"7\"/>");
    test_message("one element", &one, 0);
}

int main(void)
{
    test_one_element();
    test_towers(MOST_LEVELS, 0);
    test_towers(MOST_LEVELS + 1, ALI_TOO_DEEP);
    test_refusals();
    printf("%zu bytes at most; the limit is %d\n", most_taken, MOST_TAKEN);
    printf("%lu passed, %lu failed\n", passed, failed);
    return failed != 0;
}
