/*
 * plain: the program `replay` once more, in plain C; a yardstick for bench/run.
 *
 * Standard input is a settings line and a journal, standard output what
 * `replay` prints for them; with --hold, where no display acknowledges, what
 * `merge` prints.
 *
 * It is C as one writes it for speed, with the means that everybody has:
 * numbers in columns, worked in place, loops that the compiler can make vectors
 * of, and the C library. Like the verified programs it makes every refusal on
 * every call, on all that the call is handed: what an earlier call has found is
 * not relied on.
 *
 * Nothing of it is proved, and no box is to run it: that it prints the same is
 * only tested, by bench/run on the journals that it measures.
 */
#include <errno.h>
#include <stdbool.h>
#include <stddef.h>
#include <stdint.h>
#include <stdio.h>
#include <stdlib.h>
#include <string.h>
#include <unistd.h>

/* Places: SHARE for a line's readings, HELD for results to be sent back. */
enum { LINES = 8, SHARE = 256, METERS = 64, DISPLAYS = 4, HELD = 512 };
enum { GREATEST_BUCKET = 42949673, GREATEST_COUNT = 32768 };
enum { RECORD_BYTES = 32, AREA_BYTES = (METERS + 1) * RECORD_BYTES };
enum { LONGEST_REPLY = 8049, BUFFER_BYTES = 65536 };
enum { BLOCK = 16, TIMES = 32 }; /* kinds and times looked at in one go */

/* The kinds of calls and records. */
enum { STABLE = 'S', TENTATIVE = 'T', BOUNDARY = 'B', UNDO = 'U', DONE = 'R' };
enum { STEP = 'P' };

enum answer {
    ACCEPTED, SETTINGS_FORM, SETTINGS_LIMITS, STORE_SHORT, OUT_OF_SHAPE,
    AREA_SHORT, JOURNAL_FORM, CLOCK_BACK, WRONG_LINE, UNUSED_FIELD,
    METER_TOO_HIGH, WRONG_ID, BELOW_BOUNDARY, TENTATIVE_KEPT, LINE_FULL,
    PLACES_TAKEN, WRONG_DISPLAY, WRONG_RESULT
};

enum phase { PHASE_STABLE, PHASE_FAILURE, PHASE_CORRECTING, PHASE_NONE };

struct settings {
    uint32_t lines, bucket, window, hold, displays;
    int32_t low, high;
};

struct call {
    uint32_t now, line, id, time, meter;
    int32_t value;
    uint8_t kind;
};

struct head {
    uint32_t boundary, last_id, last_stable_id, kept;
};

/* The kept readings of a line stand in front in its share. */
struct readings {
    uint8_t kind[LINES * SHARE], meter[LINES * SHARE];
    uint32_t id[LINES * SHARE], time[LINES * SHARE], arrival[LINES * SHARE];
    int32_t value[LINES * SHARE];
};

struct meters {
    int64_t sum[METERS];
    uint32_t count[METERS];
    int32_t last[METERS];
};

struct record {
    uint8_t kind, meter, zeros[2];
    uint32_t id, time, count;
    int64_t sum;
    int32_t mean, last;
};

_Static_assert(sizeof(struct record) == RECORD_BYTES &&
                   __BYTE_ORDER__ == __ORDER_LITTLE_ENDIAN__,
               "the struct has the record's bytes");

/* All that a call is handed, with the lengths of what is lent. */
struct box {
    struct settings settings;
    uint32_t clock;
    uint32_t c; /* the first bucket not yet worked as stable */
    uint32_t p; /* the next bucket to work */
    enum phase phase;
    uint64_t newest, newest_stable; /* results: so far, at the checkpoint */
    uint64_t acknowledged[DISPLAYS];
    struct head heads[LINES];
    struct meters operator, checkpoint;
    struct readings store;
    uint8_t sent[HELD * RECORD_BYTES], area[AREA_BYTES];
    size_t store_places, sent_bytes, area_bytes;
};

static uint64_t smaller(uint64_t a, uint64_t b)
{
    return a < b ? a : b;
}

/* The unread part of a line; its last byte, 0A, is where numbers end. */
struct text {
    const uint8_t *at, *end;
    bool form; /* of what has been read; at first, whether there is a 0A */
};

/* A key as an argument, with its length. */
#define KEY(word) word, sizeof word - 1

/* Passes over a key; one of four to eight bytes is two words, overlapping. */
static inline void pass(struct text *text, const char *key, size_t length)
{
    size_t word = length > 8 ? length : 4, rest = length - word;
    if ((size_t)(text->end - text->at) >= length &&
        memcmp(text->at, key, word) == 0 &&
        memcmp(text->at + rest, key + rest, word) == 0) {
        text->at += length;
    } else {
        text->form = false;
    }
}

/* A key and a decimal: no leading zero, at most ten digits. */
static inline int64_t read_number(struct text *text, const char *key,
                                  size_t length, int64_t low, int64_t high)
{
    pass(text, key, length);
    bool negative = low < 0 && *text->at == '-';
    const uint8_t *first = text->at + negative, *at = first + 1;
    uint32_t digit = *first - (uint32_t)'0';
    uint64_t value = digit;
    if (digit > 9 || (negative && digit == 0)) {
        text->form = false;
        return 0;
    }
    if (digit > 0) {
        for (; (digit = *at - (uint32_t)'0') <= 9; at++) {
            value = value * 10 + digit;
        }
    }
    if (at - first > 10 || value > (uint64_t)(negative ? -low : high)) {
        text->form = false;
    }
    text->at = at;
    return negative ? -(int64_t)value : (int64_t)value;
}

static bool read_call(struct text text, struct call *call)
{
    call->now = read_number(&text, KEY("now="), 0, UINT32_MAX);
    call->line = read_number(&text, KEY(" line="), 0, UINT8_MAX);
    pass(&text, KEY(" kind="));
    call->kind = *text.at;
    text.form &= call->kind == STABLE || call->kind == TENTATIVE ||
                 call->kind == BOUNDARY || call->kind == UNDO ||
                 call->kind == DONE || call->kind == STEP;
    text.at += text.form;
    call->id = read_number(&text, KEY(" id="), 0, UINT32_MAX);
    call->time = read_number(&text, KEY(" time="), 0, UINT32_MAX);
    call->meter = read_number(&text, KEY(" meter="), 0, UINT8_MAX);
    call->value = read_number(&text, KEY(" value="), INT32_MIN, INT32_MAX);
    return text.form && text.at + 1 == text.end;
}

static bool read_settings(struct text text, struct settings *settings)
{
    settings->lines = read_number(&text, KEY("lines="), 0, UINT32_MAX);
    settings->bucket = read_number(&text, KEY(" bucket="), 0, UINT32_MAX);
    settings->window = read_number(&text, KEY(" window="), 0, UINT32_MAX);
    settings->hold = read_number(&text, KEY(" hold="), 0, UINT32_MAX);
    settings->low = read_number(&text, KEY(" low="), INT32_MIN, INT32_MAX);
    settings->high = read_number(&text, KEY(" high="), INT32_MIN, INT32_MAX);
    settings->displays = read_number(&text, KEY(" displays="), 0, UINT32_MAX);
    return text.form && text.at + 1 == text.end;
}

/* Refusals 3 to 5. */

static bool within_limits(const struct settings *settings)
{
    return 1 <= settings->lines && settings->lines <= LINES &&
           100 <= settings->bucket && settings->bucket <= 36000 &&
           1 <= settings->window && settings->window <= 16 &&
           settings->hold <= 864000 && settings->low <= settings->high &&
           1 <= settings->displays && settings->displays <= DISPLAYS;
}

/*
 * Whether each id is above the one before it. Where all steps are of 1 to 2^23,
 * 255 of them do not go round, and the ends decide.
 */
static bool ids_rise(const uint32_t *id, size_t kept)
{
    uint32_t back = UINT32_MAX;
    for (size_t i = 1; i < kept; i++) {
        back &= id[i - 1] - id[i];
    }
    if (back >= -(UINT32_C(1) << 23)) {
        return kept < 2 || id[0] < id[kept - 1];
    }
    size_t i = 1;
    while (i < kept && id[i - 1] < id[i]) {
        i++;
    }
    return i == kept;
}

/*
 * Whether kept readings are S or T and of meters that there are, block by
 * block; the last one reaches back, and of a short share's a part counts.
 */
static bool readings_in_shape(const uint8_t *kind, const uint8_t *meter,
                              size_t kept)
{
    static const uint8_t none[BLOCK];
    uint8_t wrong[BLOCK] = {0};
    size_t size = smaller(kept, BLOCK);
    for (size_t start = 0; start < kept; start += BLOCK) {
        size_t first = smaller(start, kept - size);
        for (size_t i = 0; i < BLOCK; i++) {
            wrong[i] |= ((uint8_t)(kind[first + i] - STABLE) & 0xFE) |
                        (meter[first + i] & -METERS);
        }
    }
    return memcmp(wrong, none, BLOCK) == 0 || memcmp(wrong, none, size) == 0;
}

static bool lines_in_shape(const struct box *box)
{
    for (size_t line = 0; line < box->settings.lines; line++) {
        const struct head *head = &box->heads[line];
        size_t share = line * SHARE;
        if (head->kept > SHARE || head->last_stable_id > head->last_id ||
            !ids_rise(box->store.id + share, head->kept) ||
            !readings_in_shape(box->store.kind + share,
                               box->store.meter + share, head->kept)) {
            return false;
        }
    }
    return true;
}

/*
 * Whether counts are within their limit and each sum is one of so many values
 * of 32 bits. What is not makes a difference negative; top bits are gathered.
 */
static bool meters_in_shape(const struct meters *meters)
{
    static const struct meters none;
    if (memcmp(meters, &none, offsetof(struct meters, last)) == 0) {
        return true;
    }
    uint32_t counts = 0;
    uint64_t sums = 0;
    for (size_t i = 0; i < METERS; i++) {
        uint64_t count = meters->count[i], sum = (uint64_t)meters->sum[i];
        counts |= meters->count[i] | (GREATEST_COUNT - meters->count[i]);
        sums |= ((count << 31) + sum) | ((count << 31) - count - sum);
    }
    return counts >> 31 == 0 && sums >> 63 == 0;
}

static uint64_t least_acknowledged(const struct box *box)
{
    uint64_t id = box->acknowledged[0];
    for (size_t i = 1; i < box->settings.displays; i++) {
        id = smaller(id, box->acknowledged[i]);
    }
    return id;
}

/* Whether places have kind S and their own ids, from this one on. */
static bool results_in_shape(const uint8_t *place, size_t count, uint64_t id)
{
    uint64_t due = STABLE | id << 32, found, wrong = 0;
    for (size_t i = 0; i < count; i++) {
        memcpy(&found, place + i * RECORD_BYTES, sizeof found);
        wrong |= found ^ (due + ((uint64_t)i << 32));
    }
    return (wrong & UINT64_C(0xFFFFFFFF000000FF)) == 0;
}

static bool sent_in_shape(const struct box *box)
{
    uint64_t newest = box->newest_stable, given_up = least_acknowledged(box);
    for (size_t i = 0; i < box->settings.displays; i++) {
        if (box->acknowledged[i] > newest) {
            return false;
        }
    }
    uint64_t held = newest - given_up, first = given_up % HELD;
    uint64_t run = smaller(held, HELD - first);
    const uint8_t *place = box->sent + first * RECORD_BYTES;
    return held <= HELD && results_in_shape(place, run, given_up + 1) &&
           results_in_shape(box->sent, held - run, given_up + run + 1);
}

static bool in_shape(const struct box *box)
{
    uint64_t c = box->c, p = box->p;
    uint64_t stable = box->newest_stable, newest = box->newest;
    const struct meters *operator = &box->operator, *held = &box->checkpoint;
    return within_limits(&box->settings) && lines_in_shape(box) && c <= p &&
           p <= GREATEST_BUCKET && (p > c) == (box->phase == PHASE_FAILURE) &&
           stable <= METERS * c && newest <= METERS * p && stable <= newest &&
           (p > c || newest == stable) && meters_in_shape(operator) &&
           (memcmp(held, operator, offsetof(struct meters, last)) == 0 ||
            meters_in_shape(held)) &&
           sent_in_shape(box);
}

static bool is_short(const struct box *box, const struct settings *settings)
{
    return box->store_places < (uint64_t)settings->lines * SHARE ||
           box->sent_bytes < HELD * RECORD_BYTES;
}

static enum answer host_refusal(const struct box *box)
{
    return is_short(box, &box->settings)  ? STORE_SHORT
           : !in_shape(box)               ? OUT_OF_SHAPE
           : box->area_bytes < AREA_BYTES ? AREA_SHORT
                                          : ACCEPTED;
}

/* A bucket's first time, and how far from it the last one is. */
struct bucket {
    uint32_t start, reach;
};

/* For a bucket that some time of 32 bits is in. */
static struct bucket bucket_at(const struct box *box, uint32_t number)
{
    uint32_t length = box->settings.bucket, start = number * length;
    return (struct bucket){start, smaller(length - 1, UINT32_MAX - start)};
}

static inline bool is_in(struct bucket bucket, uint32_t time)
{
    return time - bucket.start <= bucket.reach;
}

/* Whether every line has finished bucket c. */
static bool is_stable(const struct box *box)
{
    uint64_t end = (box->c + UINT64_C(1)) * box->settings.bucket;
    bool stable = true;
    for (size_t line = 0; line < box->settings.lines; line++) {
        stable &= box->heads[line].boundary >= end;
    }
    return stable;
}

static bool closes_window(const struct box *box, uint32_t bucket)
{
    return (bucket + 1) % box->settings.window == 0;
}

/* The work of a bucket. */

/* Moves readings forward, and zeroes so many places behind them. */
static void close_up(struct readings *store, size_t to, size_t from,
                     size_t count, size_t zeros)
{
    uint32_t *const wide[] = {store->id, store->time, store->arrival,
                              (uint32_t *)store->value};
    uint8_t *const narrow[] = {store->kind, store->meter};
    for (size_t i = 0; i < sizeof wide / sizeof *wide; i++) {
        memmove(wide[i] + to, wide[i] + from, count * sizeof **wide);
        memset(wide[i] + to + count, 0, zeros * sizeof **wide);
    }
    for (size_t i = 0; i < sizeof narrow / sizeof *narrow; i++) {
        memmove(narrow[i] + to, narrow[i] + from, count);
        memset(narrow[i] + to + count, 0, zeros);
    }
}

/* Whether one of so many times is in a bucket. */
static bool any_in(struct bucket bucket, const uint32_t *time)
{
    uint32_t out = UINT32_MAX;
    for (size_t i = 0; i < TIMES; i++) {
        out &= -(uint32_t)!is_in(bucket, time[i]);
    }
    return out == 0;
}

/* Adds a reading; newest is each meter's latest time so far in the bucket. */
static inline void add(struct meters *meters, const struct box *box,
                       size_t place, uint32_t *newest)
{
    size_t meter = box->store.meter[place];
    int32_t value = box->store.value[place];
    if (value < box->settings.low || value > box->settings.high) {
        return;
    }
    meters->count[meter]++;
    meters->sum[meter] += value;
    if (box->store.time[place] >= newest[meter]) {
        newest[meter] = box->store.time[place];
        meters->last[meter] = value;
    }
}

/* Adds a line's readings of a bucket; if they leave, the others close up. */
static void add_share(struct meters *meters, struct box *box, size_t line,
                      struct bucket bucket, uint32_t *newest, bool leave)
{
    size_t place = line * SHARE, end = place + box->heads[line].kept;
    size_t run = place; /* the first that stays behind the last that leaves */
    size_t to = place;  /* where it goes */
    while (place < end) {
        size_t stop = smaller(place + TIMES, end);
        if (stop - place == TIMES && !any_in(bucket, box->store.time + place)) {
            place = stop;
        }
        for (; place < stop; place++) {
            if (is_in(bucket, box->store.time[place])) {
                add(meters, box, place, newest);
                if (leave && run < place) {
                    close_up(&box->store, to, run, place - run, 0);
                }
                to += place - run;
                run = place + 1;
            }
        }
    }
    if (leave && to < run) {
        close_up(&box->store, to, run, end - run, run - to);
        box->heads[line].kept -= run - to;
    }
}

static void add_bucket(struct meters *meters, struct box *box, uint32_t number,
                       bool leave)
{
    struct bucket bucket = bucket_at(box, number);
    uint32_t newest[METERS] = {0};
    for (size_t line = 0; line < box->settings.lines; line++) {
        add_share(meters, box, line, bucket, newest, leave);
    }
}

/* Refusals 7 to 15. */

/* The number of results with which bucket c closes its window. */
static uint64_t results_ahead(struct box *box)
{
    struct meters ahead = box->operator;
    uint64_t results = 0;
    add_bucket(&ahead, box, box->c, false);
    for (size_t meter = 0; meter < METERS; meter++) {
        results += ahead.count[meter] > 0;
    }
    return results;
}

/* Whether a step lacks places; with one free for each meter none does. */
static bool lacks_places(struct box *box)
{
    uint64_t held = box->newest_stable - least_acknowledged(box);
    return held > HELD - METERS && box->p == box->c && is_stable(box) &&
           closes_window(box, box->c) && results_ahead(box) > HELD - held;
}

static bool has_unused(const struct call *call)
{
    return (call->id != 0 && call->kind != UNDO) ||
           (call->time != 0 && call->kind != BOUNDARY) || call->meter != 0 ||
           call->value != 0;
}

static enum answer line_refusal(const struct box *box, const struct call *call)
{
    if (call->line == 0 || call->line > box->settings.lines) {
        return WRONG_LINE;
    }
    const struct head *head = &box->heads[call->line - 1];
    const uint8_t *kinds = box->store.kind + (call->line - 1) * SHARE;
    bool reading = call->kind == STABLE || call->kind == TENTATIVE;
    bool undo = call->kind == UNDO, timed = reading || call->kind == BOUNDARY;
    bool fits = reading ? call->id == head->last_id + UINT64_C(1)
                        : !undo || (head->last_stable_id <= call->id &&
                                    call->id <= head->last_id);
    return !reading && has_unused(call)           ? UNUSED_FIELD
           : reading && call->meter >= METERS     ? METER_TOO_HIGH
           : !fits                                ? WRONG_ID
           : timed && call->time < head->boundary ? BELOW_BOUNDARY
           : call->kind != TENTATIVE && !undo &&
                   memchr(kinds, TENTATIVE, head->kept) != NULL
               ? TENTATIVE_KEPT
           : reading && head->kept == SHARE ? LINE_FULL
                                            : ACCEPTED;
}

static enum answer sender_refusal(struct box *box, const struct call *call)
{
    return call->now < box->clock ? CLOCK_BACK
           : call->kind != STEP   ? line_refusal(box, call)
           : call->line != 0      ? WRONG_LINE
           : has_unused(call)     ? UNUSED_FIELD
           : lacks_places(box)    ? PLACES_TAKEN
                                  : ACCEPTED;
}

/* What accepted calls do. */

static void keep(struct box *box, const struct call *call)
{
    struct head *head = &box->heads[call->line - 1];
    size_t place = (call->line - 1) * SHARE + head->kept++;
    box->store.kind[place] = call->kind;
    box->store.meter[place] = call->meter;
    box->store.id[place] = call->id;
    box->store.time[place] = call->time;
    box->store.arrival[place] = call->now;
    box->store.value[place] = call->value;
    head->last_id = call->id;
    if (call->kind == STABLE) {
        head->last_stable_id = call->id;
    }
}

/* Strikes a line's readings above an id; they are the last, since ids rise. */
static void undo(struct box *box, const struct call *call)
{
    struct head *head = &box->heads[call->line - 1];
    size_t share = (call->line - 1) * SHARE;
    uint32_t kept = head->kept;
    while (kept > 0 && box->store.id[share + kept - 1] > call->id) {
        kept--;
    }
    close_up(&box->store, share + kept, share + kept, 0, head->kept - kept);
    head->kept = kept;
    head->last_id = call->id;
}

static void lay_down(struct box *box, size_t number, struct record record)
{
    memcpy(box->area + number * RECORD_BYTES, &record, RECORD_BYTES);
}

/* The nearest whole number, of two that are as near the even one. */
static int32_t mean_of(int64_t sum, uint32_t count)
{
    int64_t magnitude = sum < 0 ? -sum : sum;
    int64_t whole = magnitude / count, twice = magnitude % count * 2;
    whole += twice > count || (twice == count && whole % 2 == 1);
    return sum < 0 ? -whole : whole;
}

/* Closes the window that ends with a bucket: the number of its results. */
static size_t close_window(struct box *box, uint32_t bucket, uint8_t kind)
{
    struct meters *operator = &box->operator;
    struct record result = {.kind = kind};
    size_t results = 0;
    result.time = (bucket + 1 - box->settings.window) * box->settings.bucket;
    for (size_t meter = 0; meter < METERS; meter++) {
        if (operator->count[meter] > 0) {
            result.meter = meter;
            result.id = ++box->newest;
            result.count = operator->count[meter];
            result.sum = operator->sum[meter];
            result.mean = mean_of(result.sum, result.count);
            result.last = operator->last[meter];
            lay_down(box, results++, result);
        }
    }
    memset(operator, 0, sizeof *operator);
    return results;
}

/* Works a bucket, as stable or as tentative: the number of results. */
static size_t work(struct box *box, uint32_t bucket, uint8_t kind)
{
    add_bucket(&box->operator, box, bucket, kind == STABLE);
    return closes_window(box, bucket) ? close_window(box, bucket, kind) : 0;
}

static size_t work_stable(struct box *box)
{
    size_t records = work(box, box->c, STABLE);
    for (size_t i = 0; i < records; i++) {
        size_t place = (box->newest_stable + i) % HELD;
        memcpy(box->sent + place * RECORD_BYTES, box->area + i * RECORD_BYTES,
               RECORD_BYTES);
    }
    if (closes_window(box, box->c)) {
        lay_down(box, records++,
                 (struct record){.kind = BOUNDARY,
                                 .time = (box->c + 1) * box->settings.bucket});
    }
    box->p = ++box->c;
    box->newest_stable = box->newest;
    box->checkpoint = box->operator;
    return records;
}

/* Whether a reading of bucket p or later has waited as long as the hold. */
static bool is_due(const struct box *box)
{
    uint64_t start = (uint64_t)box->p * box->settings.bucket;
    uint32_t latest = box->clock - box->settings.hold, waits = UINT32_MAX;
    if (start > UINT32_MAX || box->clock < box->settings.hold) {
        return false;
    }
    for (size_t line = 0; line < box->settings.lines; line++) {
        const uint32_t *time = box->store.time + line * SHARE;
        const uint32_t *arrival = box->store.arrival + line * SHARE;
        size_t kept = box->heads[line].kept;
        for (size_t i = 0; i < kept; i++) {
            waits &= -(uint32_t)((time[i] < (uint32_t)start) |
                                 (arrival[i] > latest));
        }
    }
    return waits == 0;
}

/* Does what the first rule that applies says: the number of records. */
static size_t step(struct box *box)
{
    bool stable = is_stable(box);
    if (stable && box->p == box->c) {
        return work_stable(box);
    }
    if (stable) {
        lay_down(box, 0,
                 (struct record){.kind = UNDO, .id = box->newest_stable});
        box->operator = box->checkpoint;
        box->newest = box->newest_stable;
        box->p = box->c;
        box->phase = PHASE_CORRECTING;
        return 1;
    }
    if (box->phase == PHASE_CORRECTING) {
        lay_down(box, 0, (struct record){.kind = DONE});
        box->phase = PHASE_STABLE;
        return 1;
    }
    if (is_due(box)) {
        box->phase = PHASE_FAILURE;
        return work(box, box->p++, TENTATIVE);
    }
    return 0;
}

/* Calls. */

/* Opens a box that is all zero. */
static enum answer open_box(struct box *box, struct text line)
{
    struct settings settings;
    if (!line.form || !read_settings(line, &settings)) {
        return SETTINGS_FORM;
    }
    if (!within_limits(&settings)) {
        return SETTINGS_LIMITS;
    }
    if (is_short(box, &settings)) {
        return STORE_SHORT;
    }
    box->settings = settings;
    box->phase = PHASE_STABLE;
    return ACCEPTED;
}

static enum answer make_call(struct box *box, struct text line, size_t *records)
{
    struct call call;
    enum answer answer = host_refusal(box);
    if (answer == ACCEPTED) {
        bool form = line.form && read_call(line, &call);
        answer = form ? sender_refusal(box, &call) : JOURNAL_FORM;
    }
    if (answer != ACCEPTED) {
        return answer;
    }
    box->clock = call.now;
    if (call.kind == STEP) {
        *records = step(box);
    } else if (call.kind == BOUNDARY) {
        box->heads[call.line - 1].boundary = call.time;
    } else if (call.kind == UNDO) {
        undo(box, &call);
    } else if (call.kind != DONE) {
        keep(box, &call);
    }
    return ACCEPTED;
}

static enum answer acknowledge(struct box *box, uint32_t display, uint64_t id)
{
    enum answer answer = host_refusal(box);
    if (answer != ACCEPTED) {
        return answer;
    }
    if (display == 0 || display > box->settings.displays) {
        return WRONG_DISPLAY;
    }
    if (id < box->acknowledged[display - 1] || id > box->newest_stable) {
        return WRONG_RESULT;
    }
    uint64_t first = least_acknowledged(box);
    box->acknowledged[display - 1] = id;
    uint64_t count = least_acknowledged(box) - first;
    uint64_t run = smaller(count, HELD - first % HELD);
    memset(box->sent + first % HELD * RECORD_BYTES, 0, run * RECORD_BYTES);
    memset(box->sent, 0, (count - run) * RECORD_BYTES);
    return ACCEPTED;
}

/* Every display that has not acknowledged all stable results does so. */
static void acknowledge_all(struct box *box)
{
    for (uint32_t display = 1; display <= box->settings.displays; display++) {
        if (box->acknowledged[display - 1] < box->newest_stable) {
            acknowledge(box, display, box->newest_stable);
        }
    }
}

/* Texts. */

static inline uint8_t *put(uint8_t *at, const char *key, size_t length)
{
    memcpy(at, key, length);
    return at + length;
}

static uint8_t *put_number(uint8_t *at, uint64_t number)
{
    static const char pairs[] =
        "0001020304050607080910111213141516171819202122232425262728293031323334"
        "3536373839404142434445464748495051525354555657585960616263646566676869"
        "707172737475767778798081828384858687888990919293949596979899";
    if (number < 10) {
        *at = '0' + number;
        return at + 1;
    }
    if (number >= 100) {
        at = put_number(at, number / 100);
    }
    return put(at, pairs + number % 100 * 2, 2);
}

static uint8_t *put_integer(uint8_t *at, int64_t number)
{
    *at = '-';
    return number < 0 ? put_number(at + 1, -(uint64_t)number)
                      : put_number(at, (uint64_t)number);
}

static uint8_t *put_record(uint8_t *at, const uint8_t *bytes)
{
    struct record record;
    memcpy(&record, bytes, sizeof record);
    at = put(at, KEY("kind="));
    *at++ = record.kind;
    at = put_number(put(at, KEY(" id=")), record.id);
    at = put_number(put(at, KEY(" time=")), record.time);
    at = put_number(put(at, KEY(" meter=")), record.meter);
    at = put_number(put(at, KEY(" count=")), record.count);
    at = put_integer(put(at, KEY(" sum=")), record.sum);
    at = put_integer(put(at, KEY(" mean=")), record.mean);
    at = put_integer(put(at, KEY(" last=")), record.last);
    *at++ = '\n';
    return at;
}

/* Input and output. */

static uint8_t input[BUFFER_BYTES], output[BUFFER_BYTES];
static size_t input_start, input_end, output_end;

static void flush(void)
{
    for (size_t done = 0; done < output_end;) {
        ssize_t length = write(STDOUT_FILENO, output + done, output_end - done);
        if (length < 0 && errno != EINTR) {
            perror("plain: cannot write standard output");
            exit(EXIT_FAILURE);
        }
        done += length < 0 ? 0 : length;
    }
    output_end = 0;
}

static void reply(enum answer answer, const struct box *box, size_t records)
{
    static const char words[][12] = {"stable\n", "failure\n", "correcting\n",
                                     "none\n"};
    static const size_t lengths[] = {7, 8, 11, 5};
    if (sizeof output - output_end < LONGEST_REPLY) {
        flush();
    }
    uint8_t *at = output + output_end;
    at = put_number(put(at, KEY("answer=")), answer);
    at = put_number(put(at, KEY(" records=")), records);
    at = put(at, KEY(" state="));
    put(at, words[box->phase], sizeof *words);
    at += lengths[box->phase];
    for (size_t i = 0; i < records; i++) {
        at = put_record(at, box->area + i * RECORD_BYTES);
    }
    output_end = at - output;
}

/* Reads on, when all replies are out; false where the input ends. */
static bool read_on(void)
{
    ssize_t length;
    flush();
    memmove(input, input + input_start, input_end - input_start);
    input_end -= input_start;
    input_start = 0;
    if (input_end == BUFFER_BYTES) {
        input_end /= 2; /* what is left is still too long for any form */
    }
    do {
        size_t room = BUFFER_BYTES - input_end;
        length = read(STDIN_FILENO, input + input_end, room);
    } while (length < 0 && errno == EINTR);
    if (length < 0) {
        perror("plain: cannot read standard input");
        exit(EXIT_FAILURE);
    }
    input_end += length;
    return length > 0;
}

/* The next line; what is left where no 0A comes. */
static struct text next_line(void)
{
    const uint8_t *end;
    do {
        end = memchr(input + input_start, '\n', input_end - input_start);
    } while (end == NULL && read_on());
    struct text line = {input + input_start,
                        end != NULL ? end + 1 : input + input_end, end != NULL};
    input_start = line.end - input;
    return line;
}

int main(int count, char **arguments)
{
    static struct box box = {.store_places = LINES * SHARE,
                             .sent_bytes = HELD * RECORD_BYTES,
                             .area_bytes = AREA_BYTES,
                             .phase = PHASE_NONE};
    bool holds = count == 2 && strcmp(arguments[1], "--hold") == 0;
    if (count > 1 && !holds) {
        fputs("usage: plain [--hold] <JOURNAL\n", stderr);
        return EXIT_FAILURE;
    }
    struct text line = next_line();
    reply(open_box(&box, line), &box, 0);
    while (box.phase != PHASE_NONE && line.form) {
        line = next_line();
        if (line.at == line.end) {
            break;
        }
        size_t records = 0;
        enum answer answer = make_call(&box, line, &records);
        reply(answer, &box, records);
        if (!holds) {
            acknowledge_all(&box);
        }
    }
    flush();
    return EXIT_SUCCESS;
}
