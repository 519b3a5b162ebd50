/*
 * beanmorrow.h: what the verified library libcapi.a (x86-64 Linux) offers to C
 * and C++.
 *
 * Two calls on bytes: has a journal line the form, and what is the text of a
 * record. Their contracts are proved of the code in the library; that this
 * header declares the same functions is checked by tests only.
 *
 * Both calls are pure. They keep no state, allocate nothing, always return,
 * and may run in several threads at once. A NUL is a byte like any other: no
 * argument is a C string.
 *
 * What the caller owes to both:
 *   - each pointer is valid for as many bytes as its length says, and is never
 *     NULL, not even at length 0;
 *   - what a call writes overlaps nothing else that it is handed, and no other
 *     thread touches it meanwhile; nobody writes its inputs meanwhile.
 * Pointers to bytes need no alignment.
 */
#ifndef BEANMORROW_H
#define BEANMORROW_H

#include <stdbool.h>
#include <stddef.h>
#include <stdint.h>

#ifdef __cplusplus
extern "C" {
#endif

/* Every record has this many bytes. */
#define BEANMORROW_RECORD_BYTES 32

/* No journal line of the form is longer than this, its 0A counted. */
#define BEANMORROW_LONGEST_JOURNAL_LINE 89

/* No record's text is longer than this, its 0A counted: an area of this size
 * never gets BEANMORROW_SHORT_AREA. */
#define BEANMORROW_LONGEST_RECORD_TEXT 123

/* Answers other than 0, numbered as the box numbers its refusals. */
#define BEANMORROW_SHORT_AREA 5 /* the area is shorter than this very text */
#define BEANMORROW_MALFORMED 6  /* the bytes are no record */

/*
 * Whether the bytes line[0] to line[line_length - 1] are a journal line of the
 * form: all of them, with one 0A, as the last. Numbers past the range of their
 * field lack the form. Any length may be asked about, 0 too.
 */
bool beanmorrow_is_journal_line(const uint8_t *line, size_t line_length);

/*
 * Puts the text of one record, a line with its 0A, at the start of an area of
 * text_length bytes. Answers
 *   0                      the text is there, and *written is its length;
 *   BEANMORROW_MALFORMED   record_length is not BEANMORROW_RECORD_BYTES, the
 *                          kind is none of S, T, U, B and R, or byte 2 or 3 is
 *                          not zero;
 *   BEANMORROW_SHORT_AREA  a record, but its text does not fit into the area.
 * The first of the two that applies is answered. At both *written is 0 and no
 * byte of the area changes; at 0 the bytes behind the text stay as they were.
 * No NUL is put behind the text. written is aligned as a size_t.
 */
uint32_t beanmorrow_record_text(const uint8_t *record, size_t record_length,
                                uint8_t *text, size_t text_length,
                                size_t *written);

#ifdef __cplusplus
}
#endif

#endif
