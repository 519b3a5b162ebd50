/*
 * records: the text of the records that the box puts out.
 *
 * Standard input is records of 32 bytes, one behind the other; standard output
 * gets a line for each. Bytes that are no record are named on standard error
 * and passed over, so that one damaged record does not hide those behind it.
 * The texts come from the verified library.
 *
 * Exit status: 0 all were records, 1 some were not, 2 the input could not be
 * read or the output not be written, or the arguments are not known.
 */
#include "beanmorrow.h"

#include <errno.h>
#include <inttypes.h>
#include <stdio.h>
#include <string.h>

enum { ALL_RECORDS = 0, SOME_MALFORMED = 1, CANNOT = 2 };

static const char usage[] = "usage: records [-h] <RECORDS\n";
static const char help[] =
    "\n"
    "Prints each record of 32 bytes as a line of text. What is no record is "
    "named on\n"
    "standard error and passed over.\n"
    "\n"
    "  -h  prints this\n"
    "\n"
    "Exit status: 0 all were records, 1 some were not, 2 reading or writing "
    "fails.\n";

/* Places in a record that its refusal may be due to. */
enum { KIND = 0, FIRST_ZERO = 2, SECOND_ZERO = 3 };

static const char kinds[] = {'S', 'T', 'U', 'B', 'R'};

/* Names bytes that the library refused, with the first fault found in them. */
static void name_fault(uintmax_t number, const uint8_t *record, size_t length,
                       uint32_t answer)
{
    fprintf(stderr, "records: record %" PRIuMAX ": not a record (", number);
    if (length != BEANMORROW_RECORD_BYTES) {
        fprintf(stderr, "cut off, %zu of %d bytes", length,
                BEANMORROW_RECORD_BYTES);
    } else if (memchr(kinds, record[KIND], sizeof kinds) == NULL) {
        fprintf(stderr, "kind byte %02X", (unsigned)record[KIND]);
    } else if (record[FIRST_ZERO] != 0 || record[SECOND_ZERO] != 0) {
        fprintf(stderr, "zero bytes %02X %02X", (unsigned)record[FIRST_ZERO],
                (unsigned)record[SECOND_ZERO]);
    } else {
        /* The header rules this out; say it rather than hide it. */
        fprintf(stderr, "answer %" PRIu32, answer);
    }
    fputs(")\n", stderr);
}

/* Ends the program over the system's refusal that errno tells of. */
static int give_up(const char *deed)
{
    fprintf(stderr, "records: cannot %s: %s\n", deed, strerror(errno));
    return CANNOT;
}

/* Prints the text of every record on standard input. */
static int print_records(void)
{
    uint8_t record[BEANMORROW_RECORD_BYTES] = {0};
    uint8_t text[BEANMORROW_LONGEST_RECORD_TEXT];
    int status = ALL_RECORDS;

    for (uintmax_t number = 1;; number++) {
        size_t length = fread(record, 1, sizeof record, stdin);
        /* A failed read does not tell where the record would have ended. */
        if (ferror(stdin)) {
            return give_up("read standard input");
        }
        if (length == 0) {
            break;
        }
        size_t written = 0;
        uint32_t answer = beanmorrow_record_text(record, length, text,
                                                 sizeof text, &written);
        if (answer != 0) {
            name_fault(number, record, length, answer);
            status = SOME_MALFORMED;
        } else if (fwrite(text, 1, written, stdout) != written) {
            return give_up("write standard output");
        }
    }
    /* A full disk may show only now. */
    if (fflush(stdout) != 0) {
        return give_up("write standard output");
    }
    return status;
}

static int say_help(void)
{
    if (printf("%s%s", usage, help) < 0 || fflush(stdout) != 0) {
        return give_up("write standard output");
    }
    return ALL_RECORDS;
}

int main(int count, char **arguments)
{
    if (count == 1) {
        return print_records();
    }
    if (strcmp(arguments[1], "-h") == 0 ||
        strcmp(arguments[1], "--help") == 0) {
        return say_help();
    }
    fputs(usage, stderr);
    return CANNOT;
}
