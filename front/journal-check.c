/*
 * journal-check: names the lines of a journal that lack the form.
 *
 * Standard input is journal lines, of any number and any length; with -s a
 * settings line stands before them. Each line without the form is named on
 * standard error, with the column where it stops having it. Whether it has the
 * form is for the verified library to say, not for this program.
 *
 * Exit status: 0 nothing is named, 1 something is, 2 the input could not be
 * read, or the arguments are not known.
 */
#include "beanmorrow.h"

#include <errno.h>
#include <inttypes.h>
#include <stdio.h>
#include <string.h>
#include <unistd.h>

enum { PIECE_BYTES = 65536 };
enum { ALL_OF_THE_FORM = 0, SOME_MALFORMED = 1, CANNOT = 2 };

static const char usage[] = "usage: journal-check [-s] [-h] <JOURNAL\n";
static const char help[] =
    "\n"
    "Names on standard error each line that is no journal line, and the column "
    "of\n"
    "the first byte at which it cannot become one any more, counted from 1.\n"
    "\n"
    "  -s  a settings line stands first. Of it is checked only that it is "
    "there,\n"
    "      with its 0A, and that it is no journal line\n"
    "  -h  prints this\n"
    "\n"
    "Exit status: 0 nothing is named, 1 something is, 2 the input cannot be "
    "read.\n";

/*
 * The line that is being read. Where it outgrows every line of the form, only
 * its start is held: its form is lost there at the latest.
 */
struct line {
    uint8_t bytes[BEANMORROW_LONGEST_JOURNAL_LINE];
    size_t held;
    bool longer; /* than the bytes held */
    bool ended;  /* by a 0A */
};

struct check {
    struct line line;
    bool settings;   /* the first line is a settings line */
    uintmax_t lines; /* judged so far */
    uintmax_t malformed;
};

static bool has_form(const struct line *line)
{
    return !line->longer && beanmorrow_is_journal_line(line->bytes, line->held);
}

/*
 * Whether something behind these first bytes of the line makes a journal line
 * of them. Whatever they are, one of the ends of a single line does it then: a
 * key that has begun goes on with its rest, a number, which can end at any
 * digit, with what stands behind it, and a minus with the digit that it has
 * here.
 */
static bool can_go_on(const struct line *line, size_t length)
{
    static const char complete[] =
        "now=0 line=0 kind=S id=0 time=0 meter=0 value=-1\n";
    uint8_t text[sizeof line->bytes + sizeof complete];
    memcpy(text, line->bytes, length);
    for (const char *end = complete; *end != '\0'; end++) {
        size_t rest = strlen(end);
        memcpy(text + length, end, rest);
        if (beanmorrow_is_journal_line(text, length + rest)) {
            return true;
        }
    }
    return false;
}

/*
 * How many bytes of a line that lacks the form could still have become one. Of
 * a text that can go on, so can every start: the place is found by halves.
 */
static size_t sound_bytes(const struct line *line)
{
    size_t sound = 0;
    size_t lost = line->held + 1;
    while (lost - sound > 1) {
        size_t middle = sound + (lost - sound) / 2;
        if (can_go_on(line, middle)) {
            sound = middle;
        } else {
            lost = middle;
        }
    }
    return sound;
}

/* Adds bytes to the line, as far as they are still of use. */
static void extend(struct line *line, const uint8_t *part, size_t length)
{
    size_t room = sizeof line->bytes - line->held;
    if (length > room) {
        line->longer = true;
        length = room;
    }
    memcpy(line->bytes + line->held, part, length);
    line->held += length;
}

/* Names a line that lacks the form, and where. */
static void name_line(const struct check *check)
{
    const struct line *line = &check->line;
    size_t sound = sound_bytes(line);
    bool unended = !line->ended && sound == line->held;
    fprintf(stderr,
            "journal-check: line %" PRIuMAX
            ", column %zu: not a journal line%s\n",
            check->lines, sound + 1, unended ? " (no 0A at the end)" : "");
}

/* Names the settings line if it is none for certain. */
static bool is_settings(const struct check *check)
{
    const char *fault = has_form(&check->line) ? "a journal line"
                        : !check->line.ended   ? "no 0A at the end"
                                               : NULL;
    if (fault != NULL) {
        fprintf(stderr, "journal-check: line 1: not a settings line (%s)\n",
                fault);
    }
    return fault == NULL;
}

/* Names the line if it is not as it should be, and makes way for the next. */
static void judge(struct check *check)
{
    check->lines++;
    if (check->settings && check->lines == 1) {
        check->malformed += !is_settings(check);
    } else if (!has_form(&check->line)) {
        check->malformed++;
        name_line(check);
    }
    check->line = (struct line){.held = 0};
}

/* Goes through a piece of the input; a line may start or end in another. */
static void take(struct check *check, const uint8_t *piece, size_t length)
{
    while (length > 0) {
        const uint8_t *end = memchr(piece, '\n', length);
        size_t part = end == NULL ? length : (size_t)(end - piece) + 1;
        extend(&check->line, piece, part);
        if (end != NULL) {
            check->line.ended = true;
            judge(check);
        }
        piece += part;
        length -= part;
    }
}

/* Ends the program over the system's refusal that errno tells of. */
static int give_up(const char *deed)
{
    fprintf(stderr, "journal-check: cannot %s: %s\n", deed, strerror(errno));
    return CANNOT;
}

/* Judges all of standard input. */
static int check_input(bool settings)
{
    static uint8_t piece[PIECE_BYTES];
    struct check check = {.settings = settings};
    ssize_t length = 0;

    /* read, not fread: on a live pipe each line is judged when it comes in. */
    while ((length = read(STDIN_FILENO, piece, sizeof piece)) > 0) {
        take(&check, piece, (size_t)length);
    }
    if (length < 0) {
        return give_up("read standard input");
    }
    /* Bytes behind the last 0A are a line too; nothing behind it is none, but
     * for a settings line that should be there. */
    if (check.line.held > 0 || (settings && check.lines == 0)) {
        judge(&check);
    }
    return check.malformed > 0 ? SOME_MALFORMED : ALL_OF_THE_FORM;
}

static int say_help(void)
{
    if (printf("%s%s", usage, help) < 0 || fflush(stdout) != 0) {
        return give_up("write standard output");
    }
    return ALL_OF_THE_FORM;
}

int main(int count, char **arguments)
{
    bool settings = false;
    for (int i = 1; i < count; i++) {
        if (strcmp(arguments[i], "-s") == 0) {
            settings = true;
        } else if (strcmp(arguments[i], "-h") == 0 ||
                   strcmp(arguments[i], "--help") == 0) {
            return say_help();
        } else {
            fputs(usage, stderr);
            return CANNOT;
        }
    }
    return check_input(settings);
}
