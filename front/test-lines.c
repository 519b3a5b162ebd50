/*
 * Unit tests of beanmorrow_is_journal_line. What is expected comes from the
 * rules of the form alone: no other reader of lines is asked.
 */
#include "beanmorrow.h"
#include "test.h"

#include <inttypes.h>
#include <stdio.h>
#include <stdlib.h>
#include <string.h>

/* Every number has the full width of its field: the header's longest line. */
#define LONGEST                                                                \
    "now=4294967295 line=255 kind=S id=4294967295 time=4294967295 meter=255 "  \
    "value=-2147483648\n"
_Static_assert(sizeof LONGEST - 1 == BEANMORROW_LONGEST_JOURNAL_LINE,
               "the longest line of the form");

/* A line whose numbers have one digit each. */
#define PLAIN "now=0 line=1 kind=S id=1 time=9 meter=3 value=7\n"

/* Asks about these bytes at every place, and that they stay as they are. */
static void expect(struct report *report, const char *what, size_t which,
                   const char *text, size_t length, bool form)
{
    for (enum place place = ON_HEAP; place < report->places; place++) {
        struct block line = input_of(text, length, place);
        if (beanmorrow_is_journal_line(line.bytes, length) != form ||
            memcmp(line.bytes, text, length) != 0) {
            wrong(report, what, which);
        }
        give_back(line);
    }
}

/* ---- Numbers: which spellings have the form, by the width of the field. */

enum { U8 = 1, U32 = 2, I32 = 4, EVERY = U8 | U32 | I32, NONE = 0 };

static const struct {
    const char *spelled;
    int widths; /* those in which it has the form */
} numbers[] = {
    {"0", EVERY}, {"9", EVERY}, {"10", EVERY}, {"99", EVERY},
    {"100", EVERY}, {"199", EVERY}, {"249", EVERY}, {"255", EVERY},
    {"256", U32 | I32}, {"260", U32 | I32}, {"300", U32 | I32},
    {"512", U32 | I32}, {"1000", U32 | I32}, {"65536", U32 | I32},
    {"2147483647", U32 | I32}, {"2147483648", U32}, {"4294967295", U32},
    {"-1", I32}, {"-10", I32}, {"-255", I32}, {"-2147483648", I32},
    /* past every width, also where 8, 32 or 64 bits would come round */
    {"4294967296", NONE}, {"4294967297", NONE}, {"4294967300", NONE},
    {"5000000000", NONE}, {"9999999999", NONE}, {"10000000000", NONE},
    {"18446744073709551615", NONE}, {"18446744073709551616", NONE},
    {"18446744073709551617", NONE}, {"184467440737095516160", NONE},
    {"340282366920938463463374607431768211457", NONE},
    {"-2147483649", NONE}, {"-2147483650", NONE}, {"-4294967295", NONE},
    {"-4294967296", NONE}, {"-9223372036854775808", NONE},
    {"-18446744073709551615", NONE}, {"-18446744073709551616", NONE},
    /* not spelled as the form spells a decimal */
    {"", NONE}, {"-", NONE}, {"--1", NONE}, {"-0", NONE}, {"-00", NONE},
    {"+0", NONE}, {"+1", NONE}, {"-+1", NONE}, {"00", NONE}, {"01", NONE},
    {"007", NONE}, {"-01", NONE}, {"0000000000000000000001", NONE},
    {"1-", NONE}, {"1.0", NONE}, {"1e1", NONE}, {"1,000", NONE},
    {"1_000", NONE}, {"0x1", NONE}, {"1a", NONE}, {"a", NONE}, {" 1", NONE},
    {"1 ", NONE}, {"- 1", NONE}, {"1\r", NONE}, {"1\n", NONE},
    {"\xe2\x88\x92" "1", NONE}, /* U+2212, a minus that is not ASCII */
    {"\xd9\xa3", NONE},         /* U+0663, a digit that is not ASCII */
};

static const int field_widths[] = {U32, U8, U32, U32, U8, I32};

/* Every spelling in every field, the other fields being as in PLAIN. */
static void each_number_in_each_field(struct report *report)
{
    for (size_t i = 0; i < COUNT(numbers); i++) {
        for (size_t field = 0; field < COUNT(field_widths); field++) {
            const char *with[] = {"0", "1", "1", "9", "3", "7"};
            char text[160];
            with[field] = numbers[i].spelled;
            int length = snprintf(text, sizeof text,
                                  "now=%s line=%s kind=S id=%s time=%s "
                                  "meter=%s value=%s\n",
                                  with[0], with[1], with[2], with[3], with[4],
                                  with[5]);
            expect(report, text, field, text, (size_t)length,
                   (numbers[i].widths & field_widths[field]) != 0);
        }
    }
}

/* ---- Whole lines. */

#define ROW(why, text, form) {why, text, sizeof(text) - 1, form}
#define HAS(why, text) ROW(why, text, true)
#define LACKS(why, text) ROW(why, text, false)
#define ZEROS "meter=0 value=0\n"

static const struct {
    const char *why;
    const char *text;
    size_t length;
    bool form;
} lines[] = {
    HAS("the plain line of these tests", PLAIN),
    HAS("the longest line", LONGEST),
    HAS("the shortest line", "now=0 line=0 kind=P id=0 time=0 " ZEROS),
    HAS("a boundary", "now=0 line=1 kind=B id=0 time=100 " ZEROS),
    HAS("an undo", "now=5 line=8 kind=U id=4 time=0 " ZEROS),
    HAS("corrections done", "now=5 line=8 kind=R id=0 time=0 " ZEROS),
    HAS("a tentative reading",
        "now=5 line=1 kind=T id=2 time=10 meter=63 value=-1\n"),
    HAS("unused fields not 0: another refusal",
        "now=1 line=1 kind=P id=1 time=1 meter=1 value=1\n"),
    LACKS("no byte", ""),
    LACKS("only 0A", "\n"),
    LACKS("only NUL", "\0"),
    LACKS("a settings line",
          "lines=2 bucket=100 window=1 hold=50 low=-1000 high=1000 "
          "displays=1\n"),
    LACKS("no 0A", "now=0 line=1 kind=S id=1 time=9 meter=3 value=7"),
    LACKS("longest, no 0A",
          "now=4294967295 line=255 kind=S id=4294967295 time=4294967295 "
          "meter=255 value=-2147483648"),
    LACKS("longest and a digit",
          "now=4294967295 line=255 kind=S id=4294967295 time=4294967295 "
          "meter=255 value=-21474836480\n"),
    LACKS("CR before 0A",
          "now=0 line=1 kind=S id=1 time=9 meter=3 value=7\r\n"),
    LACKS("CR for 0A", "now=0 line=1 kind=S id=1 time=9 meter=3 value=7\r"),
    LACKS("NUL before 0A",
          "now=0 line=1 kind=S id=1 time=9 meter=3 value=7\0\n"),
    LACKS("NUL for 0A", "now=0 line=1 kind=S id=1 time=9 meter=3 value=7\0"),
    LACKS("NUL behind 0A", PLAIN "\0"),
    LACKS("NUL in a key", "no\0w=0 line=1 kind=S id=1 time=9 " ZEROS),
    LACKS("NUL in a number", "now=1\0 line=1 kind=S id=1 time=9 " ZEROS),
    LACKS("NUL for a space", "now=0\0line=1 kind=S id=1 time=9 " ZEROS),
    LACKS("NUL for the kind", "now=0 line=1 kind=\0 id=1 time=9 " ZEROS),
    LACKS("0A twice", PLAIN "\n"),
    LACKS("0A first", "\n" PLAIN),
    LACKS("0A within", "now=0 line=1 kind=S\nid=1 time=9 " ZEROS),
    LACKS("two lines", PLAIN PLAIN),
    LACKS("space behind 0A", PLAIN " "),
    LACKS("space first", " " PLAIN),
    LACKS("space before 0A",
          "now=0 line=1 kind=S id=1 time=9 meter=3 value=7 \n"),
    LACKS("two spaces", "now=0  line=1 kind=S id=1 time=9 " ZEROS),
    LACKS("no space", "now=0line=1 kind=S id=1 time=9 " ZEROS),
    LACKS("tab", "now=0 line=1 kind=S\tid=1 time=9 " ZEROS),
    LACKS("comma", "now=0,line=1 kind=S id=1 time=9 " ZEROS),
    LACKS("no-break space", "now=0\xc2\xa0line=1 kind=S id=1 time=9 " ZEROS),
    LACKS("byte order mark", "\xef\xbb\xbf" PLAIN),
    LACKS("space before =", "now =0 line=1 kind=S id=1 time=9 " ZEROS),
    LACKS("space behind =", "now= 0 line=1 kind=S id=1 time=9 " ZEROS),
    LACKS("no =", "now0 line=1 kind=S id=1 time=9 " ZEROS),
    LACKS("= twice", "now==0 line=1 kind=S id=1 time=9 " ZEROS),
    LACKS("colon for =", "now:0 line=1 kind=S id=1 time=9 " ZEROS),
    LACKS("no now", "line=1 kind=S id=1 time=9 " ZEROS),
    LACKS("no line", "now=0 kind=S id=1 time=9 " ZEROS),
    LACKS("no kind", "now=0 line=1 id=1 time=9 " ZEROS),
    LACKS("no id", "now=0 line=1 kind=S time=9 " ZEROS),
    LACKS("no time", "now=0 line=1 kind=S id=1 " ZEROS),
    LACKS("no meter", "now=0 line=1 kind=S id=1 time=9 value=0\n"),
    LACKS("no value", "now=0 line=1 kind=S id=1 time=9 meter=0\n"),
    LACKS("a key twice", "now=0 now=0 line=1 kind=S id=1 time=9 " ZEROS),
    LACKS("a key more, first", "box=1 now=0 line=1 kind=S id=1 time=9 " ZEROS),
    LACKS("a key more, within", "now=0 line=1 kind=S id=1 time=9 a=0 " ZEROS),
    LACKS("a key more, last",
          "now=0 line=1 kind=S id=1 time=9 meter=3 value=7 a=0\n"),
    LACKS("other key order", "line=1 now=0 kind=S id=1 time=9 " ZEROS),
    LACKS("a key in capitals", "NOW=0 line=1 kind=S id=1 time=9 " ZEROS),
    LACKS("another key", "now=0 line=1 kind=S nr=1 time=9 " ZEROS),
    LACKS("a key cut short", "now=0 line=1 kind=S id=1 tim=9 " ZEROS),
    LACKS("a key and a letter", "now=0 line=1 kind=S id=1 times=9 " ZEROS),
    LACKS("a kind in lower case", "now=0 line=1 kind=s id=1 time=9 " ZEROS),
    LACKS("no kind letter", "now=0 line=1 kind= id=1 time=9 " ZEROS),
    LACKS("two kind letters", "now=0 line=1 kind=SS id=1 time=9 " ZEROS),
    LACKS("the kind as a number", "now=0 line=1 kind=83 id=1 time=9 " ZEROS),
    LACKS("a record's text",
          "kind=S id=1 time=0 meter=3 count=2 sum=5 mean=2 last=-2\n"),
};

static void each_line(struct report *report)
{
    for (size_t i = 0; i < COUNT(lines); i++) {
        expect(report, lines[i].why, i, lines[i].text, lines[i].length,
               lines[i].form);
    }
}

/* ---- Lines made from one line. */

/* Of PLAIN, a digit may become any digit, the kind any kind, no byte else. */
static bool may_become(char was, uint8_t byte)
{
    if (was >= '0' && was <= '9') {
        return byte >= '0' && byte <= '9';
    }
    if (was == 'S') {
        return byte != 0 && strchr("STBURP", byte) != NULL;
    }
    return byte == (uint8_t)was;
}

static void each_byte_replaced_by_each(struct report *report)
{
    char text[] = PLAIN;
    for (size_t i = 0; i < sizeof text - 1; i++) {
        for (unsigned byte = 0; byte <= UINT8_MAX; byte++) {
            char was = text[i];
            text[i] = (char)byte;
            expect(report, "byte replaced at", i, text, sizeof text - 1,
                   may_become(was, (uint8_t)byte));
            text[i] = was;
        }
    }
}

static void cut_anywhere(struct report *report)
{
    for (size_t length = 0; length < sizeof LONGEST - 1; length++) {
        expect(report, "cut off at", length, LONGEST, length, false);
        expect(report, "starts at", length + 1, &LONGEST[length + 1],
               sizeof LONGEST - 2 - length, false);
    }
}

static void each_byte_behind(struct report *report)
{
    char text[] = PLAIN "?";
    for (unsigned byte = 0; byte <= UINT8_MAX; byte++) {
        text[sizeof text - 2] = (char)byte;
        expect(report, "behind 0A the byte", byte, text, sizeof text - 1,
               false);
    }
}

/* A line of 1 MB in which one byte is repeated, between a head and a tail. */
static void megabyte(struct report *report, const char *head, char repeated,
                     const char *tail)
{
    size_t length = 1000000;
    struct block text = block_of(length, ON_HEAP);
    memset(text.bytes, repeated, length);
    memcpy(text.bytes, head, strlen(head));
    memcpy(text.bytes + length - strlen(tail), tail, strlen(tail));
    expect(report, head, (uint8_t)repeated, (const char *)text.bytes, length,
           false);
    give_back(text);
}

static void lines_of_a_megabyte(struct report *report)
{
    static const char rest[] = " line=1 kind=S id=1 time=9 meter=3 value=7\n";
    static const char start[] =
        "now=0 line=1 kind=S id=1 time=9 meter=3 value=";
    megabyte(report, "now=", '0', rest);
    megabyte(report, "now=", '9', rest);
    megabyte(report, "now=0", ' ', rest);
    megabyte(report, start, '7', "\n");
    megabyte(report, start, '0', "\n");
    megabyte(report, start, '-', "7\n");
    megabyte(report, PLAIN, '\n', "\n");
    megabyte(report, PLAIN, '\0', PLAIN);
}

static void any_alignment(struct report *report)
{
    _Alignas(64) char memory[64 + sizeof LONGEST];
    for (size_t offset = 0; offset < 64; offset++) {
        memcpy(memory + offset, LONGEST, sizeof LONGEST - 1);
        const uint8_t *line = (const uint8_t *)memory + offset;
        if (!beanmorrow_is_journal_line(line, sizeof LONGEST - 1) ||
            beanmorrow_is_journal_line(line, sizeof LONGEST - 2)) {
            wrong(report, "at an offset of", offset);
        }
    }
}

/* Calls with any numbers, as printf spells them, have the form. */
static void lines_by_printf(struct report *report)
{
    uint64_t state = 1;
    for (size_t i = 0; i < 2000; i++) {
        uint64_t a = next_number(&state);
        uint64_t b = next_number(&state);
        uint64_t c = next_number(&state);
        char text[BEANMORROW_LONGEST_JOURNAL_LINE + 1];
        /* Shifted, so that numbers of every length come. */
        int length = snprintf(
            text, sizeof text,
            "now=%" PRIu32 " line=%u kind=%c id=%" PRIu32 " time=%" PRIu32
            " meter=%u value=%" PRId32 "\n",
            (uint32_t)a >> (c & 31), (unsigned)(c >> 8 & 255),
            "STBURP"[(c >> 16) % 6], (uint32_t)(a >> 32),
            (uint32_t)b >> (c >> 40 & 31), (unsigned)(c >> 48 & 255),
            (int32_t)(uint32_t)(b >> 32) >> (c >> 56 & 31));
        expect(report, text, i, text, (size_t)length, true);
    }
}

const struct test line_tests[] = {
    {"unit/each-number-in-each-field", each_number_in_each_field},
    {"unit/each-line", each_line},
    {"unit/each-byte-replaced-by-each", each_byte_replaced_by_each},
    {"unit/cut-anywhere", cut_anywhere},
    {"unit/each-byte-behind", each_byte_behind},
    {"unit/lines-of-a-megabyte", lines_of_a_megabyte},
    {"unit/lines-at-any-alignment", any_alignment},
    {"unit/lines-by-printf", lines_by_printf},
};
const size_t line_test_count = COUNT(line_tests);
