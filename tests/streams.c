/*
 * A library to preload (LD_PRELOAD): does on purpose, to a program's reads of
 * standard input and writes to standard output, what the system may do to them
 * at any time. Which of it comes, and when, is said by words in the variable
 * STREAMS, so that a run comes again as it was. END is in or out:
 *
 *   END.most=N     a call moves at most N bytes
 *   END.EINTR=N    before every Nth call come three that fail with EINTR
 *   END.EAGAIN=N   the same with EAGAIN, behind those with EINTR
 *   END.EIO=N      the Nth call fails with EIO, and moves nothing; the calls
 *                  behind it go through, so that what a program goes on to
 *                  write can be seen. Likewise END.ENOSPC and END.EPIPE
 *   seed=N         at both ends calls of any size, and up to 16 with EINTR or
 *                  EAGAIN before any of them, by numbers that start from N
 *   ticks=N        a signal every N microseconds, which interrupts a call
 *   nonblocking    both ends are made non-blocking
 *   closed=kills   SIGPIPE ends the program, until it sets another action: the
 *                  default, but a program may have been started with another;
 *                  closed=fails: it is ignored
 *
 * 'Nth call' counts those that fail by none of the words but EIO and the like.
 * A program that has not ended after 20 seconds is ended.
 *
 * To the file that STREAMS_LOG names goes, at the program's end, what was done:
 * for each end its calls and bytes moved, how many calls were cut, how many
 * ended with EINTR, with EAGAIN and with another error, by a word or by the
 * system itself; and 'after', the calls that the program made though a write
 * had failed, and its reads after a failed one. The first call that the system
 * itself ends with EINTR or EAGAIN makes a file of that name with .in or .out
 * behind it, so that whoever holds the other end can wait for it.
 */
#define _GNU_SOURCE

#include <errno.h>
#include <fcntl.h>
#include <inttypes.h>
#include <signal.h>
#include <stdbool.h>
#include <stdint.h>
#include <stdio.h>
#include <stdlib.h>
#include <string.h>
#include <sys/syscall.h>
#include <sys/time.h>
#include <unistd.h>

enum {
    PATIENCE_SECONDS = 20,
    IN_A_ROW = 3,
    MOST_IN_A_ROW = 16,
    BAD_WORD = 125
};

/* A refusal that comes before every nth call; never where n is 0. */
struct refusal {
    const char *name;
    int error;
    uint64_t every;
    uint64_t left; /* before the next call */
    uint64_t came;
};

struct end {
    const char *name;
    uint64_t most; /* 0: no limit */
    struct refusal refusals[2];
    bool drawn;       /* whether the refusals before the next call are set */
    uint64_t failing; /* which call fails; 0: none */
    int error;
    uint64_t calls, bytes, cut, failed;
};

#define END(as)                                                                \
    {                                                                          \
        .name = (as),                                                          \
        .refusals = {                                                          \
            {.name = "EINTR", .error = EINTR},                                 \
            {.name = "EAGAIN", .error = EAGAIN},                               \
        },                                                                     \
    }

static struct end ends[] = {END("in"), END("out")};
static const size_t refusal_count = 2;
static uint64_t after;
static uint64_t random_state; /* 0: nothing is random */
static uint64_t ticks_left;

static const struct {
    const char *name;
    int error;
} failures[] = {{"EIO", EIO}, {"ENOSPC", ENOSPC}, {"EPIPE", EPIPE}};

/* ---- What is to be done. */

/* xorshift64, below a bound. */
static uint64_t random_below(uint64_t bound)
{
    random_state ^= random_state << 13;
    random_state ^= random_state >> 7;
    random_state ^= random_state << 17;
    return (random_state >> 11) % bound;
}

_Noreturn static void bad(const char *word)
{
    fprintf(stderr, "tests/streams.c: not a word of STREAMS: %s\n", word);
    _exit(BAD_WORD);
}

/* The number behind this key and '=', if the word has that key. */
static bool reads(const char *word, const char *key, uint64_t *number)
{
    size_t length = strlen(key);
    char *rest = NULL;
    if (strncmp(word, key, length) != 0 || word[length] != '=') {
        return false;
    }
    *number = strtoumax(word + length + 1, &rest, 10);
    if (rest == word + length + 1 || *rest != '\0') {
        bad(word);
    }
    return true;
}

/* Takes a word of one end, without the end's name. */
static bool take_of_end(struct end *end, const char *word)
{
    for (size_t i = 0; i < refusal_count; i++) {
        if (reads(word, end->refusals[i].name, &end->refusals[i].every)) {
            return true;
        }
    }
    for (size_t i = 0; i < sizeof failures / sizeof failures[0]; i++) {
        if (reads(word, failures[i].name, &end->failing)) {
            end->error = failures[i].error;
            return true;
        }
    }
    return reads(word, "most", &end->most);
}

static void tick(int number)
{
    (void)number;
    if (ticks_left-- == 0) {
        signal(SIGALRM, SIG_DFL);
        raise(SIGALRM);
    }
}

/* The timer that ends a program that hangs, or ticks until then. */
static void start_timer(uint64_t microseconds)
{
    struct itimerval timer = {.it_value = {.tv_sec = PATIENCE_SECONDS}};
    struct sigaction action = {.sa_handler = SIG_DFL};
    if (microseconds > 0) {
        timer.it_value.tv_sec = 0;
        timer.it_value.tv_usec = (suseconds_t)microseconds;
        timer.it_interval = timer.it_value;
        ticks_left = PATIENCE_SECONDS * UINT64_C(1000000) / microseconds;
        action.sa_handler = tick; /* without SA_RESTART: calls end with EINTR */
    }
    sigaction(SIGALRM, &action, NULL);
    setitimer(ITIMER_REAL, &timer, NULL);
}

static void take_word(const char *word)
{
    uint64_t number = 0;
    if (strncmp(word, "in.", 3) == 0 && take_of_end(&ends[0], word + 3)) {
        return;
    }
    if (strncmp(word, "out.", 4) == 0 && take_of_end(&ends[1], word + 4)) {
        return;
    }
    if (reads(word, "seed", &number)) {
        random_state = number * UINT64_C(0x9e3779b97f4a7c15) | 1;
    } else if (reads(word, "ticks", &number)) {
        start_timer(number);
    } else if (strcmp(word, "nonblocking") == 0) {
        fcntl(STDIN_FILENO, F_SETFL, fcntl(STDIN_FILENO, F_GETFL) | O_NONBLOCK);
        fcntl(STDOUT_FILENO, F_SETFL,
              fcntl(STDOUT_FILENO, F_GETFL) | O_NONBLOCK);
    } else if (strcmp(word, "closed=kills") == 0) {
        signal(SIGPIPE, SIG_DFL);
    } else if (strcmp(word, "closed=fails") == 0) {
        signal(SIGPIPE, SIG_IGN);
    } else {
        bad(word);
    }
}

__attribute__((constructor)) static void begin(void)
{
    const char *given = getenv("STREAMS");
    char words[256] = "";
    start_timer(0);
    if (given == NULL) {
        return;
    }
    if (strlen(given) >= sizeof words) {
        bad(given);
    }
    strcpy(words, given);
    for (char *word = strtok(words, " "); word != NULL;
         word = strtok(NULL, " ")) {
        take_word(word);
    }
}

/* ---- The calls. */

/* How often this refusal comes in a row before the next call. */
static uint64_t in_a_row(const struct end *end, const struct refusal *refusal)
{
    if (random_state != 0) {
        return random_below(3) > 0 ? 0 : 1 + random_below(MOST_IN_A_ROW);
    }
    bool comes = refusal->every > 0 && (end->calls + 1) % refusal->every == 0;
    return comes ? IN_A_ROW : 0;
}

/* Whether the call is refused, and then by which error. */
static bool is_refused(struct end *end)
{
    for (size_t i = 0; i < refusal_count && !end->drawn; i++) {
        end->refusals[i].left = in_a_row(end, &end->refusals[i]);
    }
    end->drawn = true;
    for (size_t i = 0; i < refusal_count; i++) {
        struct refusal *refusal = &end->refusals[i];
        if (refusal->left > 0) {
            refusal->left--;
            refusal->came++;
            errno = refusal->error;
            return true;
        }
    }
    end->drawn = false;
    return false;
}

static size_t cut(struct end *end, size_t length)
{
    static const uint64_t sizes[] = {1, 2, 8, 90, 1000, 5000, 20000};
    uint64_t most = end->most > 0 ? end->most : length;
    if (random_state != 0 && end->most == 0) {
        most = 1 + random_below(sizes[random_below(7)]);
    }
    if (most >= length) {
        return length;
    }
    end->cut++;
    return most;
}

/* Makes the file that says that the system has held up a call of this end. */
static void tell(const struct end *end)
{
    const char *log = getenv("STREAMS_LOG");
    char name[4096];
    if (log != NULL && strlen(log) < sizeof name - sizeof ".out") {
        sprintf(name, "%s.%s", log, end->name);
        close(open(name, O_WRONLY | O_CREAT, 0666));
    }
}

/* Notes how the system itself ended a call, and leaves errno as it is. */
static ssize_t noted(struct end *end, ssize_t moved)
{
    if (moved >= 0) {
        end->bytes += (uint64_t)moved;
        return moved;
    }
    for (size_t i = 0; i < refusal_count; i++) {
        if (errno == end->refusals[i].error) {
            int error = errno;
            if (end->refusals[i].came++ == 0) {
                tell(end);
            }
            errno = error;
            return moved;
        }
    }
    end->failed++;
    return moved;
}

static ssize_t make(struct end *end, long call, int file, intptr_t bytes,
                    size_t length)
{
    after += ends[1].failed > 0 || end->failed > 0;
    if (is_refused(end)) {
        return -1;
    }
    end->calls++;
    if (end->calls == end->failing) {
        end->failed++;
        errno = end->error;
        return -1;
    }
    return noted(end, syscall(call, file, bytes, cut(end, length)));
}

ssize_t read(int file, void *bytes, size_t length)
{
    return file == STDIN_FILENO
               ? make(&ends[0], SYS_read, file, (intptr_t)bytes, length)
               : syscall(SYS_read, file, bytes, length);
}

ssize_t write(int file, const void *bytes, size_t length)
{
    return file == STDOUT_FILENO
               ? make(&ends[1], SYS_write, file, (intptr_t)bytes, length)
               : syscall(SYS_write, file, bytes, length);
}

/* ---- What was done. */

__attribute__((destructor)) static void report(void)
{
    const char *name = getenv("STREAMS_LOG");
    FILE *log = name == NULL ? NULL : fopen(name, "w");
    if (log == NULL) {
        return;
    }
    for (size_t i = 0; i < sizeof ends / sizeof ends[0]; i++) {
        const struct end *end = &ends[i];
        fprintf(log, "%s.calls=%" PRIu64 "\n%s.bytes=%" PRIu64 "\n", end->name,
                end->calls, end->name, end->bytes);
        fprintf(log, "%s.cut=%" PRIu64 "\n%s.failed=%" PRIu64 "\n", end->name,
                end->cut, end->name, end->failed);
        for (size_t j = 0; j < refusal_count; j++) {
            fprintf(log, "%s.%s=%" PRIu64 "\n", end->name,
                    end->refusals[j].name, end->refusals[j].came);
        }
    }
    fprintf(log, "after=%" PRIu64 "\n", after);
    fclose(log);
}
