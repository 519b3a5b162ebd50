/*
 * Unit tests of the two calls that the verified library offers to C.
 *
 * Prints 'ok NAME' or 'FAILED NAME' for each test, what was wrong before it,
 * and last 'unit: N tests'. Exit status 0 only if all passed.
 */
#define _DEFAULT_SOURCE /* for MAP_ANONYMOUS */

#include "test.h"

#include <errno.h>
#include <pthread.h>
#include <stdio.h>
#include <stdlib.h>
#include <string.h>
#include <sys/mman.h>
#include <unistd.h>

enum { FAILURES_SHOWN = 10, THREADS = 4 };

void wrong(struct report *report, const char *what, size_t which)
{
    if (report->failures++ < FAILURES_SHOWN) {
        printf("  wrong: %s (%zu)\n", what, which);
    }
}

/* Ends the run where the system refuses what a test needs. */
_Noreturn static void give_up(const char *what)
{
    perror(what);
    exit(2);
}

static size_t page_bytes(void)
{
    return (size_t)sysconf(_SC_PAGESIZE);
}

struct block block_of(size_t length, enum place place)
{
    if (place == ON_HEAP) {
        /* malloc(0) may be NULL, which the library is never handed. */
        uint8_t *memory = malloc(length > 0 ? length : 1);
        if (memory == NULL) {
            give_up("malloc");
        }
        return (struct block){memory, memory, 0};
    }
    size_t page = page_bytes();
    size_t inner = (length / page + 1) * page;
    uint8_t *memory = mmap(NULL, page + inner + page, PROT_NONE,
                           MAP_PRIVATE | MAP_ANONYMOUS, -1, 0);
    if (memory == MAP_FAILED ||
        mprotect(memory + page, inner, PROT_READ | PROT_WRITE) != 0) {
        give_up("mmap");
    }
    size_t start = place == BEHIND_GUARD ? page : page + inner - length;
    return (struct block){memory + start, memory, inner};
}

struct block input_of(const void *content, size_t length, enum place place)
{
    struct block block = block_of(length, place);
    memcpy(block.bytes, content, length);
    if (block.inner > 0 &&
        mprotect(block.memory + page_bytes(), block.inner, PROT_READ) != 0) {
        give_up("mprotect");
    }
    return block;
}

void give_back(struct block block)
{
    size_t page = page_bytes();
    if (block.inner == 0) {
        free(block.memory);
    } else if (munmap(block.memory, page + block.inner + page) != 0) {
        give_up("munmap");
    }
}

/* xorshift64: the same numbers in every run, so that a failure comes again. */
uint64_t next_number(uint64_t *state)
{
    uint64_t x = *state;
    x ^= x << 13;
    x ^= x >> 7;
    x ^= x << 17;
    return *state = x;
}

/* Runs and names each test; gives how many failed. */
static unsigned run_all(const struct test *tests, size_t count)
{
    unsigned failed = 0;
    for (size_t i = 0; i < count; i++) {
        struct report report = {.places = PLACES};
        tests[i].run(&report);
        failed += report.failures > 0;
        printf("%s %s\n", report.failures > 0 ? "FAILED" : "ok", tests[i].name);
    }
    return failed;
}

/* Heap blocks only: threads that map pages wait for each other. */
static void *run_in_thread(void *argument)
{
    struct report *report = argument;
    report->places = BEFORE_GUARD;
    for (size_t i = 0; i < line_test_count; i++) {
        line_tests[i].run(report);
    }
    for (size_t i = 0; i < text_test_count; i++) {
        text_tests[i].run(report);
    }
    return NULL;
}

/* All tests in several threads at once: each must find what it finds alone. */
static void threads_at_once(struct report *report)
{
    pthread_t threads[THREADS];
    struct report reports[THREADS] = {{.failures = 0}};
    for (size_t i = 0; i < THREADS; i++) {
        errno = pthread_create(&threads[i], NULL, run_in_thread, &reports[i]);
        if (errno != 0) {
            give_up("pthread_create");
        }
    }
    for (size_t i = 0; i < THREADS; i++) {
        if (pthread_join(threads[i], NULL) != 0 ||
            reports[i].failures > 0) {
            wrong(report, "tests in thread", i);
        }
    }
}

int main(void)
{
    static const struct test in_threads[] = {
        {"unit/threads-at-once", threads_at_once},
    };
    /* A line at a time: what was printed before a crash is not lost. */
    setvbuf(stdout, NULL, _IOLBF, 0);
    unsigned failed = run_all(line_tests, line_test_count) +
                      run_all(text_tests, text_test_count) +
                      run_all(in_threads, COUNT(in_threads));
    printf("unit: %zu tests\n",
           line_test_count + text_test_count + COUNT(in_threads));
    return failed > 0 ? 1 : 0;
}
