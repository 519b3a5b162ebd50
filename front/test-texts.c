/*
 * Unit tests of beanmorrow_record_text. What is expected comes from the record
 * layout and the form of a record's text alone; printf spells the numbers.
 */
#include "beanmorrow.h"
#include "test.h"

#include <inttypes.h>
#include <stdio.h>
#include <stdlib.h>
#include <string.h>

enum { UNTOUCHED = 0xA5, NOT_WRITTEN = 999 };

/* The fields of a record, the two zero bytes included. */
struct record {
    uint8_t kind, meter, zero_2, zero_3;
    uint32_t id, time, count;
    int64_t sum;
    int32_t mean, last;
};

/* Lays a number down, its lowest byte first. */
static void lay(uint8_t *bytes, uint64_t number, size_t width)
{
    for (size_t i = 0; i < width; i++) {
        bytes[i] = (uint8_t)(number >> (8 * i));
    }
}

static void lay_record(uint8_t bytes[BEANMORROW_RECORD_BYTES],
                       const struct record *record)
{
    bytes[0] = record->kind;
    bytes[1] = record->meter;
    bytes[2] = record->zero_2;
    bytes[3] = record->zero_3;
    lay(bytes + 4, record->id, 4);
    lay(bytes + 8, record->time, 4);
    lay(bytes + 12, record->count, 4);
    lay(bytes + 16, (uint64_t)record->sum, 8);
    lay(bytes + 24, (uint64_t)record->mean, 4);
    lay(bytes + 28, (uint64_t)record->last, 4);
}

static bool all_untouched(const uint8_t *bytes, size_t length)
{
    for (size_t i = 0; i < length; i++) {
        if (bytes[i] != UNTOUCHED) {
            return false;
        }
    }
    return true;
}

/* One call at one place. text: what is due, or NULL where 6 is. */
static bool right_at(enum place place, const uint8_t *bytes, size_t length,
                     size_t area_length, const char *text)
{
    uint32_t answer = text == NULL                 ? BEANMORROW_MALFORMED
                      : area_length < strlen(text) ? BEANMORROW_SHORT_AREA
                                                   : 0;
    size_t text_length = answer == 0 ? strlen(text) : 0;
    struct block record = input_of(bytes, length, place);
    struct block area = block_of(area_length, place);
    struct block written = block_of(sizeof(size_t), place);
    size_t *count = (size_t *)(void *)written.bytes;

    memset(area.bytes, UNTOUCHED, area_length);
    *count = NOT_WRITTEN;
    bool right =
        beanmorrow_record_text(record.bytes, length, area.bytes, area_length,
                               count) == answer &&
        *count == text_length &&
        (answer != 0 || memcmp(area.bytes, text, text_length) == 0) &&
        all_untouched(area.bytes + text_length, area_length - text_length) &&
        memcmp(record.bytes, bytes, length) == 0;
    give_back(written);
    give_back(area);
    give_back(record);
    return right;
}

static void expect(struct report *report, const char *what, size_t which,
                   const uint8_t *bytes, size_t length, size_t area_length,
                   const char *text)
{
    for (enum place place = ON_HEAP; place < report->places; place++) {
        if (!right_at(place, bytes, length, area_length, text)) {
            wrong(report, what, which);
        }
    }
}

/* ---- Records and their texts. */

#define REFUSED NULL

/* Every number has the full width of its field: the header's longest text. */
#define LONGEST                                                                \
    "kind=S id=4294967295 time=4294967295 meter=255 count=4294967295 "         \
    "sum=-9223372036854775808 mean=-2147483648 last=-2147483648\n"
_Static_assert(sizeof LONGEST - 1 == BEANMORROW_LONGEST_RECORD_TEXT,
               "the longest text of a record");

static const struct {
    struct record record;
    const char *text;
} rows[] = {
    {{'T', 3, 0, 0, 1, 0, 1, 7, 7, 7},
     "kind=T id=1 time=0 meter=3 count=1 sum=7 mean=7 last=7\n"},
    {{'U', 0, 0, 0, 0, 0, 0, 0, 0, 0},
     "kind=U id=0 time=0 meter=0 count=0 sum=0 mean=0 last=0\n"},
    {{'S', 3, 0, 0, 1, 0, 2, 5, 2, -2},
     "kind=S id=1 time=0 meter=3 count=2 sum=5 mean=2 last=-2\n"},
    {{'B', 0, 0, 0, 0, 100, 0, 0, 0, 0},
     "kind=B id=0 time=100 meter=0 count=0 sum=0 mean=0 last=0\n"},
    {{'R', 0, 0, 0, 0, 0, 0, 0, 0, 0},
     "kind=R id=0 time=0 meter=0 count=0 sum=0 mean=0 last=0\n"},
    {{'S', 255, 0, 0, UINT32_MAX, UINT32_MAX, UINT32_MAX, INT64_MIN, INT32_MIN,
      INT32_MIN},
     LONGEST},
    {{'T', 64, 0, 0, 10, 99, 100, INT64_MAX, INT32_MAX, INT32_MAX},
     "kind=T id=10 time=99 meter=64 count=100 sum=9223372036854775807 "
     "mean=2147483647 last=2147483647\n"},
    {{'S', 9, 0, 0, 9, 9, 9, -1, -1, -1},
     "kind=S id=9 time=9 meter=9 count=9 sum=-1 mean=-1 last=-1\n"},
    {{'S', 10, 0, 0, 1000000000, 999999999, 0, -10, -9, 10},
     "kind=S id=1000000000 time=999999999 meter=10 count=0 sum=-10 mean=-9 "
     "last=10\n"},
    {{'S', 1, 0, 0, 1, 1, 1, -2147483648, 0, 0},
     "kind=S id=1 time=1 meter=1 count=1 sum=-2147483648 mean=0 last=0\n"},
    {{'S', 1, 0, 0, 1, 1, 1, 4294967296, 0, 0},
     "kind=S id=1 time=1 meter=1 count=1 sum=4294967296 mean=0 last=0\n"},
    /* fields that the box itself leaves 0 in such records */
    {{'U', 7, 0, 0, 1, 2, 3, 4, 5, 6},
     "kind=U id=1 time=2 meter=7 count=3 sum=4 mean=5 last=6\n"},
    {{'R', 200, 0, 0, 1, 2, 3, -4, -5, -6},
     "kind=R id=1 time=2 meter=200 count=3 sum=-4 mean=-5 last=-6\n"},
    {{'P', 0, 0, 0, 0, 0, 0, 0, 0, 0}, REFUSED},
    {{0, 0, 0, 0, 0, 0, 0, 0, 0, 0}, REFUSED},
    {{'s', 3, 0, 0, 1, 0, 1, 7, 7, 7}, REFUSED},
    {{'S', 3, 1, 0, 1, 0, 1, 7, 7, 7}, REFUSED},
    {{'S', 3, 0, 1, 1, 0, 1, 7, 7, 7}, REFUSED},
    {{'R', 0, 128, 128, 0, 0, 0, 0, 0, 0}, REFUSED},
};

/* Each row with areas of every length, past the longest text too. */
static void each_record_in_each_area(struct report *report)
{
    for (size_t i = 0; i < COUNT(rows); i++) {
        uint8_t bytes[BEANMORROW_RECORD_BYTES];
        lay_record(bytes, &rows[i].record);
        for (size_t area = 0; area <= 128; area++) {
            expect(report, "row", i, bytes, sizeof bytes, area, rows[i].text);
        }
        expect(report, "row", i, bytes, sizeof bytes, 10000, rows[i].text);
    }
}

static void each_kind_byte(struct report *report)
{
    char text[] = "kind=? id=0 time=0 meter=0 count=0 sum=0 mean=0 last=0\n";
    uint8_t bytes[BEANMORROW_RECORD_BYTES] = {0};
    for (unsigned byte = 0; byte <= UINT8_MAX; byte++) {
        bool kind = byte != 0 && strchr("STUBR", (int)byte) != NULL;
        bytes[0] = (uint8_t)byte;
        text[strlen("kind=")] = (char)byte;
        expect(report, "kind byte", byte, bytes, sizeof bytes, 123,
               kind ? text : REFUSED);
    }
}

/* Both zero bytes through every value; the other stays zero. */
static void each_zero_byte(struct report *report)
{
    for (size_t at = 2; at <= 3; at++) {
        uint8_t bytes[BEANMORROW_RECORD_BYTES] = {'S'};
        for (unsigned byte = 1; byte <= UINT8_MAX; byte++) {
            bytes[at] = (uint8_t)byte;
            expect(report, "zero byte", byte, bytes, sizeof bytes, 123,
                   REFUSED);
        }
    }
}

/* Only 32 bytes are a record, whatever the area: 6 comes before 5. */
static void each_length(struct report *report)
{
    static const char text[] =
        "kind=R id=0 time=0 meter=0 count=0 sum=0 mean=0 last=0\n";
    uint8_t bytes[4 * BEANMORROW_RECORD_BYTES] = {'R'};
    for (size_t length = 0; length <= sizeof bytes; length++) {
        bool whole = length == BEANMORROW_RECORD_BYTES;
        for (size_t area = 0; area <= 123; area += 41) {
            expect(report, "length", length, bytes, length, area,
                   whole ? text : REFUSED);
        }
    }
}

static void any_alignment(struct report *report)
{
    _Alignas(64) uint8_t record[64 + BEANMORROW_RECORD_BYTES];
    _Alignas(64) uint8_t area[64 + BEANMORROW_LONGEST_RECORD_TEXT];
    for (size_t offset = 0; offset < 64; offset++) {
        size_t other = (offset * 7 + 3) % 64;
        size_t written = NOT_WRITTEN;
        lay_record(record + other, &rows[5].record);
        memset(area, UNTOUCHED, sizeof area);
        if (beanmorrow_record_text(record + other, BEANMORROW_RECORD_BYTES,
                                   area + offset,
                                   BEANMORROW_LONGEST_RECORD_TEXT,
                                   &written) != 0 ||
            written != sizeof LONGEST - 1 ||
            memcmp(area + offset, LONGEST, written) != 0 ||
            !all_untouched(area, offset)) {
            wrong(report, "area at an offset of", offset);
        }
    }
}

/* Any fields, each of any length in digits, against printf. */
static void texts_by_printf(struct report *report)
{
    uint64_t state = 2;
    for (size_t i = 0; i < 2000; i++) {
        uint64_t a = next_number(&state);
        uint64_t b = next_number(&state);
        uint64_t c = next_number(&state);
        uint64_t sum = next_number(&state);
        struct record r = {
            .kind = (uint8_t) "STUBR"[c % 5],
            .meter = (uint8_t)(c >> 8),
            .id = (uint32_t)a >> (c >> 16 & 31),
            .time = (uint32_t)(a >> 32) >> (c >> 24 & 31),
            .count = (uint32_t)b,
            .sum = (int64_t)sum >> (c >> 32 & 63),
            .mean = (int32_t)(b >> 32) >> (c >> 40 & 31),
            .last = (int32_t)(a ^ b) >> (c >> 48 & 31),
        };
        uint8_t bytes[BEANMORROW_RECORD_BYTES];
        char text[BEANMORROW_LONGEST_RECORD_TEXT + 1];
        lay_record(bytes, &r);
        int length = snprintf(
            text, sizeof text,
            "kind=%c id=%" PRIu32 " time=%" PRIu32 " meter=%u count=%" PRIu32
            " sum=%" PRId64 " mean=%" PRId32 " last=%" PRId32 "\n",
            r.kind, r.id, r.time, r.meter, r.count, r.sum, r.mean, r.last);
        expect(report, text, i, bytes, sizeof bytes, (size_t)length, text);
        expect(report, text, i, bytes, sizeof bytes, (size_t)length - 1, text);
    }
}

const struct test text_tests[] = {
    {"unit/each-record-in-each-area", each_record_in_each_area},
    {"unit/each-kind-byte", each_kind_byte},
    {"unit/each-zero-byte", each_zero_byte},
    {"unit/each-length", each_length},
    {"unit/records-at-any-alignment", any_alignment},
    {"unit/texts-by-printf", texts_by_printf},
};
const size_t text_test_count = COUNT(text_tests);
