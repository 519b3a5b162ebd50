/*
 * Holds the two calls of the verified library to the answers of the reference.
 *
 * Standard input is what the program c-cases writes. Every argument of a call
 * ends right before a page that nobody may touch. Prints 'ok NAME' or 'FAILED
 * NAME' for each answer that the calls can give, with the number of cases, and
 * last 'c-calls: N passed, M failed'. Exit status 0 only if M is 0.
 */
#include "room.h"

#include "beanmorrow.h"

#include <stdio.h>
#include <stdlib.h>
#include <string.h>

enum { FAILURES_SHOWN = 10 };
enum { HAS_FORM, LACKS_FORM, TEXT, SHORT_AREA, MALFORMED, ANSWERS };

static const char *const names[ANSWERS] = {
    "lines of the form", "texts not of the form", "records with a text",
    "areas too short", "bytes that are no record",
};

/* How many cases were due each answer, and in how many of them it came. */
static unsigned long due[ANSWERS], right[ANSWERS];

_Noreturn static void give_up(const char *what)
{
    fprintf(stderr, "c-calls: %s\n", what);
    exit(2);
}

static void read_bytes(uint8_t *bytes, size_t length)
{
    if (fread(bytes, 1, length, stdin) != length) {
        give_up("the input ends within a case");
    }
}

static uint32_t read_number(void)
{
    uint8_t bytes[4];
    read_bytes(bytes, sizeof bytes);
    return bytes[0] | (uint32_t)bytes[1] << 8 | (uint32_t)bytes[2] << 16 |
           (uint32_t)bytes[3] << 24;
}

static size_t read_length(void)
{
    size_t length = read_number();
    if (length > ROOM_BYTES) {
        give_up("a case is too long");
    }
    return length;
}

/* Counts a case, and names it if it went wrong. */
static void count(int answer, bool as_due, unsigned long number)
{
    static int shown;
    due[answer]++;
    right[answer] += as_due;
    if (!as_due && shown++ < FAILURES_SHOWN) {
        printf("  wrong: case %lu, one of the %s\n", number, names[answer]);
    }
}

static void line_case(unsigned long number, uint8_t *end)
{
    bool form = read_number() != 0;
    size_t length = read_length();
    uint8_t *line = end - length;
    read_bytes(line, length);
    count(form ? HAS_FORM : LACKS_FORM,
          beanmorrow_is_journal_line(line, length) == form, number);
}

static void record_case(unsigned long number, uint8_t *record_end,
                        uint8_t *area_end)
{
    static uint8_t left[ROOM_BYTES];
    uint32_t answer = read_number();
    size_t length = read_length();
    size_t record_length = read_length();
    size_t area_length = read_length();
    uint32_t fill = read_number();
    uint8_t *record = record_end - record_length;
    uint8_t *area = area_end - area_length;
    read_bytes(record, record_length);
    read_bytes(left, area_length);
    memset(area, (int)fill, area_length);
    size_t written = SIZE_MAX;
    bool as_due = beanmorrow_record_text(record, record_length, area,
                                         area_length, &written) == answer &&
                  written == length && memcmp(area, left, area_length) == 0;
    count(answer == 0                       ? TEXT
          : answer == BEANMORROW_SHORT_AREA ? SHORT_AREA
                                            : MALFORMED,
          as_due, number);
}

int main(void)
{
    uint8_t *first_end = end_of_room(), *second_end = end_of_room();
    int kind;
    for (unsigned long number = 0; (kind = getchar()) != EOF; number++) {
        if (kind == 'L') {
            line_case(number, first_end);
        } else if (kind == 'R') {
            record_case(number, first_end, second_end);
        } else {
            give_up("a case of no kind");
        }
    }
    int passed = 0;
    for (int answer = 0; answer < ANSWERS; answer++) {
        bool as_due = due[answer] > 0 && right[answer] == due[answer];
        printf("%s %s: %lu of %lu\n", as_due ? "ok" : "FAILED", names[answer],
               right[answer], due[answer]);
        passed += as_due;
    }
    printf("c-calls: %d passed, %d failed\n", passed, ANSWERS - passed);
    return passed == ANSWERS ? 0 : 1;
}
