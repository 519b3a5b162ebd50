/*
 * Fuzz target for the two calls that the verified library offers to C.
 *
 * Every input is asked about as a journal line and put into text as a record.
 * The answers are held to what the header promises and to a second opinion:
 * scanf and printf of the C library.
 */
#include "room.h"

#include "beanmorrow.h"

#include <inttypes.h>
#include <string.h>

enum { UNTOUCHED = 0xA5, AREA_BYTES = BEANMORROW_LONGEST_RECORD_TEXT + 8 };

size_t LLVMFuzzerMutate(uint8_t *data, size_t length, size_t most);
size_t LLVMFuzzerCustomMutator(uint8_t *data, size_t length, size_t most,
                               unsigned seed);
int LLVMFuzzerTestOneInput(const uint8_t *data, size_t length);

/* Ends the run; libFuzzer then keeps the input. */
static void must(bool holds, const char *what)
{
    if (!holds) {
        fprintf(stderr, "does not hold: %s\n", what);
        abort();
    }
}

/* Whether printf spells the fields that scanf finds in a text as this text. */
static bool reads_back(const uint8_t *bytes, size_t length)
{
    char text[BEANMORROW_LONGEST_JOURNAL_LINE + 1] = {0};
    char again[2 * sizeof text];
    uint64_t now = 0, line = 0, id = 0, time = 0, meter = 0;
    int64_t value = 0;
    char kind = 0;
    if (length >= sizeof text) {
        return false;
    }
    memcpy(text, bytes, length);
    /* No number of 18 digits outgrows 64 bits. */
    int fields = sscanf(text,
                        "now=%18" SCNu64 " line=%18" SCNu64
                        " kind=%c id=%18" SCNu64 " time=%18" SCNu64
                        " meter=%18" SCNu64 " value=%18" SCNd64,
                        &now, &line, &kind, &id, &time, &meter, &value);
    if (fields != 7 || kind == 0 || strchr("STBURP", kind) == NULL) {
        return false;
    }
    /* A number past its width is cut, and so comes out as another. */
    int spelled = snprintf(again, sizeof again,
                           "now=%" PRIu32 " line=%u kind=%c id=%" PRIu32
                           " time=%" PRIu32 " meter=%u value=%" PRId32 "\n",
                           (uint32_t)now, (unsigned)(uint8_t)line, kind,
                           (uint32_t)id, (uint32_t)time,
                           (unsigned)(uint8_t)meter, (int32_t)value);
    return (size_t)spelled == length && memcmp(again, bytes, length) == 0;
}

static void ask_about_line(const uint8_t *bytes, size_t length)
{
    bool form = beanmorrow_is_journal_line(bytes, length);
    if (form) {
        must(length <= BEANMORROW_LONGEST_JOURNAL_LINE, "a line is short");
        must(length > 0 && bytes[length - 1] == 0x0A, "0A ends a line");
    }
    must(form == reads_back(bytes, length), "a line reads back");
}

/* The length of the text that printf gives a record; 0 for other bytes. */
static size_t spell(const uint8_t *bytes, size_t length, char *text, size_t room)
{
    uint32_t id, time, count;
    int64_t sum;
    int32_t mean, last;
    if (length != BEANMORROW_RECORD_BYTES || bytes[0] == 0 ||
        strchr("STUBR", bytes[0]) == NULL || bytes[2] != 0 || bytes[3] != 0) {
        return 0;
    }
    /* The library is for x86-64 only, which has the record's byte order. */
    memcpy(&id, bytes + 4, sizeof id);
    memcpy(&time, bytes + 8, sizeof time);
    memcpy(&count, bytes + 12, sizeof count);
    memcpy(&sum, bytes + 16, sizeof sum);
    memcpy(&mean, bytes + 24, sizeof mean);
    memcpy(&last, bytes + 28, sizeof last);
    return (size_t)snprintf(text, room,
                            "kind=%c id=%" PRIu32 " time=%" PRIu32
                            " meter=%u count=%" PRIu32 " sum=%" PRId64
                            " mean=%" PRId32 " last=%" PRId32 "\n",
                            bytes[0], id, time, (unsigned)bytes[1], count, sum,
                            mean, last);
}

/* Puts the bytes into text, in an area of this length. */
static void put_into_text(const uint8_t *bytes, size_t length, uint8_t *area,
                          size_t area_length)
{
    char due[2 * BEANMORROW_LONGEST_RECORD_TEXT];
    size_t due_length = spell(bytes, length, due, sizeof due);
    size_t written = SIZE_MAX;
    memset(area, UNTOUCHED, area_length);
    uint32_t answer =
        beanmorrow_record_text(bytes, length, area, area_length, &written);
    must(answer == 0 || answer == BEANMORROW_SHORT_AREA ||
             answer == BEANMORROW_MALFORMED,
         "the answer is one of three");
    must((answer == BEANMORROW_MALFORMED) == (due_length == 0),
         "other bytes than a record's are malformed");
    must((answer == BEANMORROW_SHORT_AREA) == (area_length < due_length),
         "an area is short only for a longer text");
    must(written == (answer == 0 ? due_length : 0), "the length written");
    must(written <= BEANMORROW_LONGEST_RECORD_TEXT, "a text is short");
    must(memcmp(area, due, written) == 0, "the text");
    for (size_t i = written; i < area_length; i++) {
        must(area[i] == UNTOUCHED, "bytes behind the text stay");
    }
}

/* The next of a sequence that looks random (splitmix64). */
static uint64_t next_number(uint64_t *state)
{
    uint64_t mixed = *state += 0x9E3779B97F4A7C15;
    mixed = (mixed ^ mixed >> 30) * 0xBF58476D1CE4E5B9;
    mixed = (mixed ^ mixed >> 27) * 0x94D049BB133111EB;
    return mixed ^ mixed >> 31;
}

/* A number of any length up to 32 bits. */
static uint32_t any_number(uint64_t *state)
{
    uint64_t number = next_number(state);
    return (uint32_t)number >> (number >> 32) % 32;
}

/* Puts a journal line with any numbers at the start of the data. */
static size_t any_line(uint8_t *data, uint64_t state)
{
    char text[BEANMORROW_LONGEST_JOURNAL_LINE + 1];
    uint32_t now = any_number(&state), line = any_number(&state) & 255;
    uint32_t id = any_number(&state), time = any_number(&state);
    uint32_t meter = any_number(&state) & 255, value = any_number(&state);
    int length = snprintf(text, sizeof text,
                          "now=%" PRIu32 " line=%" PRIu32 " kind=%c id=%" PRIu32
                          " time=%" PRIu32 " meter=%" PRIu32 " value=%" PRId32
                          "\n",
                          now, line, "STBURP"[next_number(&state) % 6], id,
                          time, meter, (int32_t)value);
    memcpy(data, text, (size_t)length);
    return (size_t)length;
}

/* Puts a record with any numbers at the start of the data. */
static size_t any_record(uint8_t *data, uint64_t state)
{
    for (size_t i = 0; i < BEANMORROW_RECORD_BYTES; i += sizeof(uint64_t)) {
        uint64_t number = next_number(&state);
        memcpy(data + i, &number, sizeof number);
    }
    data[0] = (uint8_t)"STUBR"[next_number(&state) % 5];
    data[2] = data[3] = 0;
    return BEANMORROW_RECORD_BYTES;
}

/*
 * libFuzzer does not see into the library, so that it would seldom come upon
 * sound inputs: they are made here, and its own changes then go from them.
 */
size_t LLVMFuzzerCustomMutator(uint8_t *data, size_t length, size_t most,
                               unsigned seed)
{
    if (most >= BEANMORROW_LONGEST_JOURNAL_LINE && seed % 4 < 2) {
        length = seed % 4 == 0 ? any_line(data, seed) : any_record(data, seed);
    }
    return seed % 8 < 2 ? length : LLVMFuzzerMutate(data, length, most);
}

int LLVMFuzzerTestOneInput(const uint8_t *data, size_t length)
{
    static uint8_t *input_end, *area_end;
    if (input_end == NULL) {
        input_end = end_of_room();
        area_end = end_of_room();
    }
    if (length > ROOM_BYTES) {
        return 0;
    }
    uint8_t *bytes = input_end - length;
    memcpy(bytes, data, length);
    ask_about_line(bytes, length);
    /* What is no record gets no text, whatever the area's length is. */
    size_t step = length == BEANMORROW_RECORD_BYTES ? 1 : AREA_BYTES;
    for (size_t room = 0; room <= AREA_BYTES; room += step) {
        put_into_text(bytes, length, area_end - room, room);
    }
    must(memcmp(bytes, data, length) == 0, "the input stays");
    return 0;
}
