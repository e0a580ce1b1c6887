/* Calls the exports of the crate `host` as a C transport does, and holds them to their header.
 *
 *   transport NAME-high.trace NAME-low.trace COUNTS CURVE ...
 *
 * Each pair is one good trace in both orders, COUNTS its six counts with spaces between, and CURVE
 * the 128 numbers of its curve, or 17 where it has a pin or an unpin. The first is the printed
 * example; it is also damaged, cut and given too little room. The first expectation that fails ends
 * the program. */
#define _POSIX_C_SOURCE 200112L

#include "hitchyawl.h"
#include "trace_bytes.h"

#include <pthread.h>
#include <stdarg.h>
#include <stdio.h>
#include <stdlib.h>
#include <string.h>

/* Bytes of a buffer beyond what a call may store to. */
enum { BEYOND = 24 };

/* Hits, misses, evictions, batches, written, refused: 4 bytes each. */
enum { COUNTS = 6, COUNTS_BYTES = 24 };

/* The misses with 1 to 128 frames: 4 bytes each. */
enum { CURVE = 128, CURVE_BYTES = 512 };

/* What the header says that a call may need: hitchyawl_counts so much, and the others hardly any, which is taken to be
 * no more than this, of which starting the thread takes a part. */
enum { STACK_BYTES = 256 * 1024, LITTLE_STACK_BYTES = 32 * 1024 };

/* What a good trace gives: its counts, and its curve or the refusal in its place. */
struct expected {
    uint32_t counts[COUNTS];
    uint32_t curve_answer;
    uint32_t curve[CURVE];
};

struct buffer {
    uint8_t *memory; /* as it was allocated */
    uint8_t *at;     /* where the bytes start */
    size_t length;
};

static unsigned long held;
static char case_name[256];

static void name_case(const char *format, ...)
{
    va_list words;
    va_start(words, format);
    vsnprintf(case_name, sizeof case_name, format, words);
    va_end(words);
}

static void fail(const char *format, ...)
{
    va_list words;
    fprintf(stderr, "transport: %s: ", case_name);
    va_start(words, format);
    vfprintf(stderr, format, words);
    va_end(words);
    fputc('\n', stderr);
    exit(1);
}

static void expect_answer(const char *call, uint32_t expected, uint32_t got)
{
    if (got != expected)
        fail("%s: expected %lu, got %lu", call, (unsigned long)expected, (unsigned long)got);
    held++;
}

static void expect_bytes(const char *what, const uint8_t *expected, const uint8_t *got, size_t length)
{
    for (size_t i = 0; i < length; i++)
        if (got[i] != expected[i])
            fail("%s: expected %02x at byte %zu, got %02x", what, expected[i], i, got[i]);
    held++;
}

/* ---- buffers */

/* `length` bytes, `shift` bytes into an allocation that ends where they end. A shift of 1 makes the address odd. */
static struct buffer new_buffer(size_t length, size_t shift)
{
    struct buffer made;
    made.memory = malloc(shift + length > 0 ? shift + length : 1);
    if (made.memory == NULL)
        fail("no memory for %zu bytes", length);
    made.at = made.memory + shift;
    made.length = length;
    return made;
}

static struct buffer copy_of(const uint8_t *bytes, size_t length, size_t shift)
{
    struct buffer made = new_buffer(length, shift);
    memcpy(made.at, bytes, length);
    return made;
}

/* What an untouched place holds: another byte than its neighbours, so that a moved byte shows. */
static uint8_t untouched(size_t place)
{
    return (uint8_t)(0xa5 + 7 * place);
}

static struct buffer untouched_buffer(size_t length, size_t shift)
{
    struct buffer made = new_buffer(length, shift);
    for (size_t i = 0; i < length; i++)
        made.at[i] = untouched(i);
    return made;
}

static void expect_untouched(struct buffer out, size_t from)
{
    for (size_t i = from; i < out.length; i++)
        if (out.at[i] != untouched(i))
            fail("expected byte %zu untouched at %02x, got %02x", i, untouched(i), out.at[i]);
    held++;
}

static void release(struct buffer buffer)
{
    free(buffer.memory);
}

static struct buffer read_file(const char *path)
{
    name_case("%s", path);
    struct buffer read = new_buffer(record_at(MOST_RECORDS) + 1, 0);
    FILE *file = fopen(path, "rb");
    if (file == NULL)
        fail("expected a file that opens, got none");
    read.length = fread(read.at, 1, read.length, file);
    if (ferror(file))
        fail("expected bytes, got an error in reading");
    fclose(file);
    return read;
}

/* ---- what the calls owe */

/* A curve is refused by this number whatever the room, and nothing is stored. */
static void expect_curve_refused(const uint8_t *bytes, size_t length, uint32_t refusal)
{
    static const size_t rooms[] = {CURVE_BYTES + BEYOND, CURVE_BYTES, CURVE_BYTES - 1, 1, 0};
    struct buffer out = untouched_buffer(CURVE_BYTES + BEYOND, 1);
    for (size_t i = 0; i < sizeof rooms / sizeof rooms[0]; i++) {
        expect_answer("curve", refusal, hitchyawl_curve(bytes, length, out.at, rooms[i]));
        expect_untouched(out, 0);
    }
    expect_answer("curve to nothing", refusal, hitchyawl_curve(bytes, length, NULL, 0));
    release(out);
}

/* Every call refuses the bytes by this number, whatever the room, and nothing is stored. */
static void expect_refused(const uint8_t *bytes, size_t length, uint32_t refusal)
{
    struct buffer out = untouched_buffer(length + BEYOND, 0);
    expect_answer("check", refusal, hitchyawl_check(bytes, length));
    expect_answer("convert", refusal, hitchyawl_convert(bytes, length, out.at, out.length));
    expect_untouched(out, 0);
    expect_answer("convert without room", refusal, hitchyawl_convert(bytes, length, out.at, 0));
    expect_untouched(out, 0);
    expect_answer("counts", refusal, hitchyawl_counts(bytes, length, out.at, out.length));
    expect_untouched(out, 0);
    expect_answer("counts without room", refusal, hitchyawl_counts(bytes, length, out.at, 0));
    expect_untouched(out, 0);
    release(out);
    expect_curve_refused(bytes, length, refusal);
}

/* The bytes `from` are accepted, and become the bytes `to` at the front of a buffer with `beyond` more. */
static void expect_converted(struct buffer from, struct buffer to, size_t beyond, size_t shift)
{
    struct buffer out = untouched_buffer(from.length + beyond, shift);
    struct buffer before = copy_of(from.at, from.length, shift);
    expect_answer("check", HITCHYAWL_ACCEPTED, hitchyawl_check(before.at, before.length));
    expect_answer("convert", HITCHYAWL_ACCEPTED, hitchyawl_convert(before.at, before.length, out.at, out.length));
    expect_bytes("convert's out", to.at, out.at, to.length);
    expect_untouched(out, to.length);
    expect_bytes("convert's input afterwards", from.at, before.at, from.length);
    release(before);
    release(out);
}

/* The trace's counts are these bytes, at the front of a buffer with `beyond` more. */
static void expect_count_bytes(struct buffer trace, const uint8_t *expected, size_t beyond, size_t shift)
{
    struct buffer out = untouched_buffer(COUNTS_BYTES + beyond, shift);
    struct buffer before = copy_of(trace.at, trace.length, shift);
    expect_answer("counts", HITCHYAWL_ACCEPTED, hitchyawl_counts(before.at, before.length, out.at, out.length));
    expect_bytes("counts", expected, out.at, COUNTS_BYTES);
    expect_untouched(out, COUNTS_BYTES);
    expect_bytes("counts' input afterwards", trace.at, before.at, trace.length);
    release(before);
    release(out);
}

static void expect_counts(struct buffer trace, enum order order, const uint32_t *counts, size_t beyond, size_t shift)
{
    uint8_t expected[COUNTS_BYTES];
    for (size_t i = 0; i < COUNTS; i++)
        put32(expected + 4 * i, counts[i], order);
    expect_count_bytes(trace, expected, beyond, shift);
}

/* The trace's curve is these bytes, at the front of a buffer with `beyond` more. */
static void expect_curve_bytes(struct buffer trace, const uint8_t *expected, size_t beyond, size_t shift)
{
    struct buffer out = untouched_buffer(CURVE_BYTES + beyond, shift);
    struct buffer before = copy_of(trace.at, trace.length, shift);
    expect_answer("curve", HITCHYAWL_ACCEPTED, hitchyawl_curve(before.at, before.length, out.at, out.length));
    expect_bytes("curve", expected, out.at, CURVE_BYTES);
    expect_untouched(out, CURVE_BYTES);
    expect_bytes("curve's input afterwards", trace.at, before.at, trace.length);
    release(before);
    release(out);
}

static void expect_curve(struct buffer trace, enum order order, const struct expected *expected, size_t beyond,
                         size_t shift)
{
    uint8_t bytes[CURVE_BYTES];
    if (expected->curve_answer != HITCHYAWL_ACCEPTED) {
        expect_curve_refused(trace.at, trace.length, expected->curve_answer);
        return;
    }
    for (size_t i = 0; i < CURVE; i++)
        put32(bytes + 4 * i, expected->curve[i], order);
    expect_curve_bytes(trace, bytes, beyond, shift);
}

static enum order order_of(struct buffer trace)
{
    return get32(trace.at, HIGH_FIRST) == MARK ? HIGH_FIRST : LOW_FIRST;
}

static int has_pins(struct buffer trace)
{
    enum order order = order_of(trace);
    for (size_t at = HEADER_BYTES; at < trace.length; at += RECORD_BYTES)
        if (get16(trace.at + at + IN_KIND, order) > 1)
            return 1;
    return 0;
}

/* The second trace, in the other order, has the curve of the first, or neither has one. */
static void expect_same_curve(struct buffer trace, struct buffer there)
{
    struct expected expected = {.curve_answer = has_pins(trace) ? HITCHYAWL_HAS_PINS : HITCHYAWL_ACCEPTED};
    enum order order = order_of(trace);
    uint8_t out[CURVE_BYTES];
    expect_answer("curve", expected.curve_answer, hitchyawl_curve(trace.at, trace.length, out, sizeof out));
    if (expected.curve_answer == HITCHYAWL_ACCEPTED)
        for (size_t i = 0; i < CURVE; i++)
            expected.curve[i] = get32(out + 4 * i, order);
    expect_curve(there, order == HIGH_FIRST ? LOW_FIRST : HIGH_FIRST, &expected, 0, 0);
}

/* The second trace, in the other order, has the counts of the first. */
static void expect_same_counts(struct buffer trace, struct buffer there)
{
    enum order order = order_of(trace);
    uint8_t out[COUNTS_BYTES];
    uint32_t counts[COUNTS];
    expect_answer("counts", HITCHYAWL_ACCEPTED, hitchyawl_counts(trace.at, trace.length, out, sizeof out));
    for (size_t i = 0; i < COUNTS; i++)
        counts[i] = get32(out + 4 * i, order);
    expect_counts(there, order == HIGH_FIRST ? LOW_FIRST : HIGH_FIRST, counts, 0, 0);
}

/* The bytes are accepted, converting them twice gives them again, and neither their counts nor their curve depend on
 * the order. */
static void expect_there_and_back(struct buffer trace)
{
    struct buffer there = untouched_buffer(trace.length, 0);
    struct buffer back = untouched_buffer(trace.length, 0);
    expect_answer("check", HITCHYAWL_ACCEPTED, hitchyawl_check(trace.at, trace.length));
    expect_answer("convert there", HITCHYAWL_ACCEPTED,
                  hitchyawl_convert(trace.at, trace.length, there.at, there.length));
    expect_answer("check there", HITCHYAWL_ACCEPTED, hitchyawl_check(there.at, there.length));
    expect_answer("convert back", HITCHYAWL_ACCEPTED,
                  hitchyawl_convert(there.at, there.length, back.at, back.length));
    expect_bytes("there and back", trace.at, back.at, trace.length);
    expect_same_counts(trace, there);
    expect_same_curve(trace, there);
    release(there);
    release(back);
}

/* ---- the stack of a call */

static uint8_t stack[4 * STACK_BYTES];

static void *count_in_thread(void *argument)
{
    struct buffer *trace = argument;
    uint8_t out[COUNTS_BYTES];
    expect_answer("counts", HITCHYAWL_ACCEPTED, hitchyawl_counts(trace->at, trace->length, out, sizeof out));
    return NULL;
}

static void *curve_in_thread(void *argument)
{
    struct buffer *trace = argument;
    uint8_t out[CURVE_BYTES];
    uint32_t answer = has_pins(*trace) ? HITCHYAWL_HAS_PINS : HITCHYAWL_ACCEPTED;
    expect_answer("curve", answer, hitchyawl_curve(trace->at, trace->length, out, sizeof out));
    return NULL;
}

/* The call runs in a thread on `stack`, which is used from its end, and leaves what lies below so many bytes alone. */
static void expect_stack_enough(struct buffer trace, void *(*call)(void *), size_t enough)
{
    struct buffer below = {stack, stack, sizeof stack - enough};
    pthread_attr_t attributes;
    pthread_t thread;
    for (size_t i = 0; i < below.length; i++)
        stack[i] = untouched(i);
    if (pthread_attr_init(&attributes) != 0 || pthread_attr_setstack(&attributes, stack, sizeof stack) != 0
        || pthread_create(&thread, &attributes, call, &trace) != 0 || pthread_join(thread, NULL) != 0)
        fail("expected a thread, got none");
    pthread_attr_destroy(&attributes);
    expect_untouched(below, 0);
}

/* ---- a good trace */

static void try_pair(struct buffer high, struct buffer low, const struct expected *expected, const char *name)
{
    static const char *const addresses[] = {"even", "odd"};
    static const size_t beyonds[] = {0, 1, BEYOND};
    for (size_t shift = 0; shift <= 1; shift++)
        for (size_t i = 0; i < sizeof beyonds / sizeof beyonds[0]; i++) {
            name_case("%s, high first, %zu bytes beyond, at an %s address", name, beyonds[i], addresses[shift]);
            expect_converted(high, low, beyonds[i], shift);
            expect_counts(high, HIGH_FIRST, expected->counts, beyonds[i], shift);
            expect_curve(high, HIGH_FIRST, expected, beyonds[i], shift);
            name_case("%s, low first, %zu bytes beyond, at an %s address", name, beyonds[i], addresses[shift]);
            expect_converted(low, high, beyonds[i], shift);
            expect_counts(low, LOW_FIRST, expected->counts, beyonds[i], shift);
            expect_curve(low, LOW_FIRST, expected, beyonds[i], shift);
        }
    name_case("%s there and back", name);
    expect_there_and_back(high);
    expect_there_and_back(low);
    name_case("%s on a stack of 256 KiB", name);
    expect_stack_enough(high, count_in_thread, STACK_BYTES);
    name_case("%s on a stack of 32 KiB", name);
    expect_stack_enough(high, curve_in_thread, LITTLE_STACK_BYTES);
}

static void read_numbers(char *words, uint32_t *numbers, size_t count)
{
    char *rest = words, *end;
    for (size_t i = 0; i < count; i++, rest = end) {
        numbers[i] = (uint32_t)strtoul(rest, &end, 10);
        if (end == rest)
            fail("expected %zu numbers, got \"%s\"", count, words);
    }
    if (*rest != '\0')
        fail("expected %zu numbers and no more, got \"%s\"", count, words);
}

static struct expected read_expected(char *counts, char *curve)
{
    struct expected expected = {.curve_answer = HITCHYAWL_ACCEPTED};
    read_numbers(counts, expected.counts, COUNTS);
    if (strcmp(curve, "17") == 0)
        expected.curve_answer = HITCHYAWL_HAS_PINS;
    else
        read_numbers(curve, expected.curve, CURVE);
    return expected;
}

static void try_files(const char *high_path, const char *low_path, char *counts, char *curve)
{
    struct buffer high = read_file(high_path);
    struct buffer low = read_file(low_path);
    struct expected expected = read_expected(counts, curve);
    if (low.length != high.length)
        fail("expected %zu bytes as in the other order, got %zu", high.length, low.length);
    try_pair(high, low, &expected, high_path);
    release(high);
    release(low);
}

/* Five misses with 1 frame, four with 2 and three with more, in the trace's own order. */
static void try_example_curve(struct buffer trace, enum order order)
{
    uint8_t curve[CURVE_BYTES] = {0};
    for (size_t i = 0; i < CURVE; i++)
        curve[4 * i + (order == HIGH_FIRST ? 3 : 0)] = i == 0 ? 5 : i == 1 ? 4 : 3;
    expect_curve_bytes(trace, curve, BEYOND, 1);
}

/* Hits 1, misses 4, evictions 2, batches 1, written 1, refused 0, in the trace's own order. */
static void try_example(const char *path, enum order order)
{
    static const uint8_t counts[][COUNTS_BYTES] = {
        {0, 0, 0, 1, 0, 0, 0, 4, 0, 0, 0, 2, 0, 0, 0, 1, 0, 0, 0, 1, 0, 0, 0, 0},
        {1, 0, 0, 0, 4, 0, 0, 0, 2, 0, 0, 0, 1, 0, 0, 0, 1, 0, 0, 0, 0, 0, 0, 0},
    };
    struct buffer trace = read_file(path);
    expect_count_bytes(trace, counts[order], BEYOND, 1);
    try_example_curve(trace, order);
    release(trace);
}

/* ---- a damaged trace */

struct damage {
    const char *name;
    size_t at;
    int width;
    uint32_t number;
    uint32_t answer;
};

/* Numbers at fixed places of the header. An answer of 0 is a number that is still good. */
static const struct damage header_damages[] = {
    {"mark ending in 05", AT_MARK, 4, 0x01020305u, 2},
    {"mark with 02 twice", AT_MARK, 4, 0x01020204u, 2},
    {"mark with 03 twice", AT_MARK, 4, 0x01030304u, 2},
    {"mark starting with 00", AT_MARK, 4, 0x00020304u, 2},
    {"mark of swapped pairs", AT_MARK, 4, 0x02010403u, 2},
    {"mark of zeros", AT_MARK, 4, 0, 2},
    {"edition 0", AT_EDITION, 2, 0, 3},
    {"edition 2", AT_EDITION, 2, 2, 3},
    {"edition 1 in the other order", AT_EDITION, 2, 256, 3},
    {"8001 records", AT_COUNT, 4, 8001, 4},
    {"most records in a number", AT_COUNT, 4, 0xffffffffu, 4},
    {"8000 records that are not there", AT_COUNT, 4, 8000, 5},
    {"offset 0", AT_OFFSET, 4, 0, 5},
    {"offset 56", AT_OFFSET, 4, 56, 5},
    {"length field 0", AT_LENGTH, 4, 0, 5},
    {"length field with a high bit", AT_LENGTH, 4, 0x80000000u, 5},
    {"first zero field 1", AT_FIRST_ZERO, 2, 1, 6},
    {"first zero field 256", AT_FIRST_ZERO, 2, 256, 6},
    {"last zero field 1", AT_LAST_ZERO, 4, 1, 6},
    {"last zero field with a high bit", AT_LAST_ZERO, 4, 0x80000000u, 6},
    {"most writes in a number", AT_WRITES, 4, 0xffffffffu, 7},
    {"rule 0", AT_RULE, 2, 0, 0},
    {"rule 2", AT_RULE, 2, 2, 0},
    {"rule 3", AT_RULE, 2, 3, 8},
    {"frames 0", AT_FRAMES, 2, 0, 8},
    {"frames 1", AT_FRAMES, 2, 1, 0},
    {"frames 128", AT_FRAMES, 2, 128, 0},
    {"frames 129", AT_FRAMES, 2, 129, 8},
    {"batch 0", AT_BATCH, 2, 0, 8},
    {"batch 1", AT_BATCH, 2, 1, 0},
    {"batch 16", AT_BATCH, 2, 16, 0},
    {"batch 17", AT_BATCH, 2, 17, 8},
    {"cap 0", AT_CAP, 2, 0, 8},
    {"cap 1", AT_CAP, 2, 1, 0},
    {"cap 7", AT_CAP, 2, 7, 0},
    {"cap 8", AT_CAP, 2, 8, 8},
    {"sample 0", AT_SAMPLE, 2, 0, 8},
    {"sample 1", AT_SAMPLE, 2, 1, 0},
    {"sample 16", AT_SAMPLE, 2, 16, 0},
    {"sample 17", AT_SAMPLE, 2, 17, 8},
    {"weight 0", AT_WEIGHT, 2, 0, 0},
    {"weight 16", AT_WEIGHT, 2, 16, 0},
    {"weight 17", AT_WEIGHT, 2, 17, 8},
    {"epoch 0", AT_EPOCH, 4, 0, 8},
    {"epoch 1", AT_EPOCH, 4, 1, 0},
    {"epoch 50000", AT_EPOCH, 4, 50000, 0},
    {"epoch 50001", AT_EPOCH, 4, 50001, 8},
    {"seed 0", AT_SEED, 4, 0, 0},
    {"most seed", AT_SEED, 4, 0xffffffffu, 0},
};

static const char *name_of(enum order order)
{
    return order == HIGH_FIRST ? "high" : "low";
}

static void put_damage(uint8_t *bytes, const struct damage *damage, enum order order)
{
    if (damage->width == 2)
        put16(bytes + damage->at, damage->number, order);
    else
        put32(bytes + damage->at, damage->number, order);
}

static void try_damage(struct buffer trace, enum order order, const struct damage *damage)
{
    struct buffer damaged = copy_of(trace.at, trace.length, 1);
    put_damage(damaged.at, damage, order);
    name_case("%s, %s first", damage->name, name_of(order));
    if (damage->answer == HITCHYAWL_ACCEPTED)
        expect_there_and_back(damaged);
    else
        expect_refused(damaged.at, damaged.length, damage->answer);
    release(damaged);
}

static void try_header_damages(struct buffer trace, enum order order)
{
    for (size_t i = 0; i < sizeof header_damages / sizeof header_damages[0]; i++)
        try_damage(trace, order, &header_damages[i]);
}

/* Counts of the header that are off by one from what this trace holds. */
static void try_count_damages(struct buffer trace, enum order order)
{
    uint32_t count = get32(trace.at + AT_COUNT, order);
    uint32_t writes = get32(trace.at + AT_WRITES, order);
    uint32_t length = get32(trace.at + AT_LENGTH, order);
    const struct damage damages[] = {
        {"a record too few", AT_COUNT, 4, count - 1, 5},
        {"a record too many", AT_COUNT, 4, count + 1, 5},
        {"length field a byte less", AT_LENGTH, 4, length - 1, 5},
        {"length field a byte more", AT_LENGTH, 4, length + 1, 5},
        {"a write more", AT_WRITES, 4, writes + 1, 7},
        {"a write less", AT_WRITES, 4, writes - 1, 7},
    };
    for (size_t i = 0; i < sizeof damages / sizeof damages[0]; i++)
        try_damage(trace, order, &damages[i]);
}

static void try_record_damages(struct buffer trace, enum order order, size_t record)
{
    size_t at = record_at(record);
    uint32_t kind = get16(trace.at + at + IN_KIND, order);
    const struct damage damages[] = {
        {"kind 4", at + IN_KIND, 2, 4, 6},
        {"kind 1 in the other order", at + IN_KIND, 2, 256, 6},
        {"kind 65535", at + IN_KIND, 2, 65535, 6},
        {"record's zero field 1", at + IN_ZERO, 2, 1, 6},
        {"record's zero field 256", at + IN_ZERO, 2, 256, 6},
        {"write for another kind, or the other way", at + IN_KIND, 2, kind == 1 ? 0 : 1, 7},
        {"page 0", at + IN_PAGE, 4, 0, 0},
        {"most page", at + IN_PAGE, 4, 0xffffffffu, 0},
    };
    for (size_t i = 0; i < sizeof damages / sizeof damages[0]; i++)
        try_damage(trace, order, &damages[i]);
}

/* The example's rule and frames are no matter to its curve. */
static void try_other_settings(struct buffer trace, enum order order)
{
    struct buffer other = copy_of(trace.at, trace.length, 1);
    for (uint32_t rule = 0; rule < 3; rule++)
        for (uint32_t frames = 1; frames <= CURVE; frames++) {
            put16(other.at + AT_RULE, rule, order);
            put16(other.at + AT_FRAMES, frames, order);
            name_case("rule %lu, frames %lu, %s first", (unsigned long)rule, (unsigned long)frames, name_of(order));
            try_example_curve(other, order);
        }
    release(other);
}

/* A pin or an unpin in the place of each read leaves a good trace, which has no curve. In the place of a write it makes
 * the number of writes wrong, which is told first. */
static void try_pins(struct buffer trace, enum order order)
{
    for (size_t at = HEADER_BYTES; at < trace.length; at += RECORD_BYTES)
        for (uint32_t kind = 2; kind <= 3; kind++) {
            struct buffer pinned = copy_of(trace.at, trace.length, 1);
            int was_write = get16(trace.at + at + IN_KIND, order) == 1;
            put16(pinned.at + at + IN_KIND, kind, order);
            name_case("kind %lu at byte %zu, %s first", (unsigned long)kind, at, name_of(order));
            expect_curve_refused(pinned.at, pinned.length, was_write ? HITCHYAWL_WRONG_WRITES : HITCHYAWL_HAS_PINS);
            if (!was_write)
                expect_there_and_back(pinned);
            release(pinned);
        }
}

/* Damages added one by one to a trace with a pin, the last check's first: the refusal is always that of the newest. */
static void try_order_of_checks(struct buffer trace, enum order order)
{
    uint32_t writes = get32(trace.at + AT_WRITES, order);
    const struct damage damages[] = {
        {"setting", AT_RULE, 2, 3, 8},
        {"setting and writes", AT_WRITES, 4, writes + 1, 7},
        {"setting to zero field", AT_FIRST_ZERO, 2, 1, 6},
        {"setting to offset", AT_OFFSET, 4, 0, 5},
        {"setting to count", AT_COUNT, 4, 8001, 4},
        {"setting to edition", AT_EDITION, 2, 2, 3},
        {"setting to mark", AT_MARK, 4, 0, 2},
    };
    struct buffer damaged = copy_of(trace.at, trace.length, 0);
    if (get16(trace.at + record_at(0) + IN_KIND, order) != 0)
        fail("expected a read first, got another record");
    put16(damaged.at + record_at(0) + IN_KIND, 2, order);
    name_case("a pin alone, %s first", name_of(order));
    expect_curve_refused(damaged.at, damaged.length, HITCHYAWL_HAS_PINS);
    for (size_t i = 0; i < sizeof damages / sizeof damages[0]; i++) {
        put_damage(damaged.at, &damages[i], order);
        name_case("damages from %s together, %s first", damages[i].name, name_of(order));
        expect_refused(damaged.at, damaged.length, damages[i].answer);
    }
    name_case("all damages in 47 bytes, %s first", name_of(order));
    expect_refused(damaged.at, HEADER_BYTES - 1, HITCHYAWL_TOO_SHORT);
    release(damaged);
}

/* ---- a trace cut short or too long, and too little room */

static void try_other_lengths(struct buffer trace, enum order order)
{
    for (size_t length = 0; length <= trace.length + 1; length++) {
        if (length == trace.length)
            continue;
        struct buffer other = untouched_buffer(length, length % 2);
        memcpy(other.at, trace.at, length < trace.length ? length : trace.length);
        name_case("%zu bytes of %zu, %s first", length, trace.length, name_of(order));
        expect_refused(other.at, length, length < HEADER_BYTES ? HITCHYAWL_TOO_SHORT : HITCHYAWL_WRONG_LENGTH);
        release(other);
    }
}

static void try_short_rooms(struct buffer trace, enum order order)
{
    struct buffer out = untouched_buffer(trace.length + BEYOND, 1);
    for (size_t room = 0; room < trace.length; room++) {
        name_case("room for %zu bytes of %zu, %s first", room, trace.length, name_of(order));
        expect_answer("convert", HITCHYAWL_NO_ROOM, hitchyawl_convert(trace.at, trace.length, out.at, room));
        expect_untouched(out, 0);
    }
    release(out);
}

static void try_short_count_rooms(struct buffer trace, enum order order)
{
    struct buffer out = untouched_buffer(COUNTS_BYTES + BEYOND, 1);
    for (size_t room = 0; room < COUNTS_BYTES; room++) {
        name_case("room for %zu bytes of counts, %s first", room, name_of(order));
        expect_answer("counts", HITCHYAWL_NO_ROOM, hitchyawl_counts(trace.at, trace.length, out.at, room));
        expect_untouched(out, 0);
    }
    release(out);
}

static void try_short_curve_rooms(struct buffer trace, enum order order)
{
    struct buffer out = untouched_buffer(CURVE_BYTES + BEYOND, 1);
    for (size_t room = 0; room < CURVE_BYTES; room++) {
        name_case("room for %zu bytes of a curve, %s first", room, name_of(order));
        expect_answer("curve", HITCHYAWL_NO_ROOM, hitchyawl_curve(trace.at, trace.length, out.at, room));
        expect_untouched(out, 0);
    }
    release(out);
}

static void try_null_pointers(struct buffer trace)
{
    uint8_t out[CURVE_BYTES] = {0};
    name_case("null pointers of length 0");
    expect_answer("check", HITCHYAWL_TOO_SHORT, hitchyawl_check(NULL, 0));
    expect_answer("convert of nothing to nothing", HITCHYAWL_TOO_SHORT, hitchyawl_convert(NULL, 0, NULL, 0));
    expect_answer("convert of nothing", HITCHYAWL_TOO_SHORT, hitchyawl_convert(NULL, 0, out, sizeof out));
    expect_answer("convert to nothing", HITCHYAWL_NO_ROOM, hitchyawl_convert(trace.at, trace.length, NULL, 0));
    expect_answer("counts of nothing to nothing", HITCHYAWL_TOO_SHORT, hitchyawl_counts(NULL, 0, NULL, 0));
    expect_answer("counts of nothing", HITCHYAWL_TOO_SHORT, hitchyawl_counts(NULL, 0, out, sizeof out));
    expect_answer("counts to nothing", HITCHYAWL_NO_ROOM, hitchyawl_counts(trace.at, trace.length, NULL, 0));
    expect_answer("curve of nothing to nothing", HITCHYAWL_TOO_SHORT, hitchyawl_curve(NULL, 0, NULL, 0));
    expect_answer("curve of nothing", HITCHYAWL_TOO_SHORT, hitchyawl_curve(NULL, 0, out, sizeof out));
    expect_answer("curve to nothing", HITCHYAWL_NO_ROOM, hitchyawl_curve(trace.at, trace.length, NULL, 0));
}

static void try_faults(const char *path, enum order order)
{
    struct buffer trace = read_file(path);
    if (trace.length < record_at(1) || trace.length >= record_at(MOST_RECORDS) || get32(trace.at, order) != MARK)
        fail("expected 1 to 7,999 records, %s first, got another trace", name_of(order));
    try_header_damages(trace, order);
    try_count_damages(trace, order);
    try_record_damages(trace, order, 0);
    try_record_damages(trace, order, (trace.length - HEADER_BYTES) / RECORD_BYTES - 1);
    try_other_settings(trace, order);
    try_pins(trace, order);
    try_order_of_checks(trace, order);
    try_other_lengths(trace, order);
    try_short_rooms(trace, order);
    try_short_count_rooms(trace, order);
    try_short_curve_rooms(trace, order);
    try_null_pointers(trace);
    release(trace);
}

/* ---- the longest trace, and one record more */

static struct buffer built_trace(uint32_t count, enum order order)
{
    struct buffer trace = new_buffer(record_at(count), 1);
    build_trace(trace.at, count, order);
    return trace;
}

static void try_built(uint32_t count, const struct expected *expected, const char *name)
{
    struct buffer high = built_trace(count, HIGH_FIRST);
    struct buffer low = built_trace(count, LOW_FIRST);
    if (count <= MOST_RECORDS) {
        try_pair(high, low, expected, name);
    } else {
        name_case("%s", name);
        expect_refused(high.at, high.length, HITCHYAWL_TOO_MANY);
        expect_refused(low.at, low.length, HITCHYAWL_TOO_MANY);
    }
    release(high);
    release(low);
}

/* No page comes twice, so there is no hit and each unpin is refused. The 100th pin, the 300th reference, takes the last
 * of the 100 frames; the 100 pages written have left by then, and all that follows is refused. Only the number of
 * batches is the independent replay's. */
static const struct expected of_longest = {
    .counts = {0, 300, 200, 30, 100, 7700},
    .curve_answer = HITCHYAWL_HAS_PINS,
};
static const struct expected of_no_records = {.curve_answer = HITCHYAWL_ACCEPTED};

int main(int count, char **words)
{
    if (count < 5 || count % 4 != 1) {
        fprintf(stderr, "transport NAME-high.trace NAME-low.trace COUNTS CURVE ...\n");
        return 2;
    }
    for (int i = 1; i < count; i += 4)
        try_files(words[i], words[i + 1], words[i + 2], words[i + 3]);
    try_example(words[1], HIGH_FIRST);
    try_example(words[2], LOW_FIRST);
    try_faults(words[1], HIGH_FIRST);
    try_faults(words[2], LOW_FIRST);
    try_built(0, &of_no_records, "no records");
    try_built(MOST_RECORDS, &of_longest, "8000 records");
    try_built(MOST_RECORDS + 1, NULL, "8001 records");
    printf("transport: %lu expectations held\n", held);
    return 0;
}
