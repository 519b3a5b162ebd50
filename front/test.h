/* What the unit tests of the two calls share. */
#ifndef BEANMORROW_TEST_H
#define BEANMORROW_TEST_H

#include <stddef.h>
#include <stdint.h>

#define COUNT(table) (sizeof(table) / sizeof((table)[0]))

/*
 * Memory of an exact size, and where it stands: in a heap block of its own, or
 * on pages of its own, right before or right behind a page that nobody may
 * touch. AddressSanitizer watches the heap, but only in code that is compiled
 * with it, which the verified library is not; a guard page stops any code.
 */
enum place { ON_HEAP, BEFORE_GUARD, BEHIND_GUARD, PLACES };

/* One run of one test: where its arguments stand, and what went wrong. */
struct report {
    enum place places; /* those before this one are used */
    unsigned failures;
};

/* Notes a failure: what was looked at, and which one of its kind. */
void wrong(struct report *report, const char *what, size_t which);

struct test {
    const char *name;
    void (*run)(struct report *report);
};

/* The tests of beanmorrow_is_journal_line and of beanmorrow_record_text. */
extern const struct test line_tests[];
extern const size_t line_test_count;
extern const struct test text_tests[];
extern const size_t text_test_count;

struct block {
    uint8_t *bytes;
    uint8_t *memory; /* what is to be given back */
    size_t inner;    /* bytes between the guard pages; 0 on the heap */
};

/* A block that may be written, its content unspecified. */
struct block block_of(size_t length, enum place place);

/* A block with this content; on pages of its own it cannot be written. */
struct block input_of(const void *content, size_t length, enum place place);

void give_back(struct block block);

/* The next of a fixed sequence that looks random; *state is never 0. */
uint64_t next_number(uint64_t *state);

#endif
