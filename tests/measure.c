/* Times the exports of the crate `host` on the longest trace, in each order, beside plain C in the same run:
 * a check and a convert written by hand, which no proof covers, and a memcpy of the same bytes. */
#define _POSIX_C_SOURCE 199309L

#include "hitchyawl.h"
#include "trace_bytes.h"

#include <stdio.h>
#include <stdlib.h>
#include <string.h>
#include <time.h>

enum { LENGTH = HEADER_BYTES + RECORD_BYTES * MOST_RECORDS, WARM_UPS = 50, RUNS = 201 };

typedef uint32_t job(const uint8_t *bytes, size_t length, uint8_t *out, size_t room);

/* ---- plain C */

static int within(uint32_t number, uint32_t least, uint32_t most)
{
    return least <= number && number <= most;
}

static int settings_in_range(const uint8_t *bytes, enum order order)
{
    return within(get16(bytes + AT_RULE, order), 0, 2) && within(get16(bytes + AT_FRAMES, order), 1, 128)
        && within(get16(bytes + AT_BATCH, order), 1, 16) && within(get16(bytes + AT_CAP, order), 1, 7)
        && within(get16(bytes + AT_SAMPLE, order), 1, 16) && within(get16(bytes + AT_WEIGHT, order), 0, 16)
        && within(get32(bytes + AT_EPOCH, order), 1, 50000);
}

/* Refusals 6 and 7 of the records, or 0. */
static uint32_t refusal_of_records(const uint8_t *bytes, uint32_t count, enum order order)
{
    uint32_t writes = 0;
    for (uint32_t record = 0; record < count; record++) {
        const uint8_t *at = bytes + record_at(record);
        uint32_t kind = get16(at + IN_KIND, order);
        if (kind > 3 || get16(at + IN_ZERO, order) != 0)
            return 6;
        writes += kind == 1;
    }
    return writes == get32(bytes + AT_WRITES, order) ? 0 : 7;
}

static uint32_t plain_refusal(const uint8_t *bytes, size_t length)
{
    if (length < HEADER_BYTES)
        return 1;
    enum order order = get32(bytes, HIGH_FIRST) == MARK ? HIGH_FIRST : LOW_FIRST;
    if (get32(bytes, order) != MARK)
        return 2;
    if (get16(bytes + AT_EDITION, order) != 1)
        return 3;
    uint32_t count = get32(bytes + AT_COUNT, order);
    if (count > MOST_RECORDS)
        return 4;
    if (get32(bytes + AT_OFFSET, order) != HEADER_BYTES || get32(bytes + AT_LENGTH, order) != record_at(count)
        || length != record_at(count))
        return 5;
    if (get16(bytes + AT_FIRST_ZERO, order) != 0 || get32(bytes + AT_LAST_ZERO, order) != 0)
        return 6;
    uint32_t refusal = refusal_of_records(bytes, count, order);
    if (refusal != 0)
        return refusal;
    return settings_in_range(bytes, order) ? 0 : 8;
}

/* A number in the other order is its bytes from the back, whichever order that is. */
static void swap2(uint8_t *to, const uint8_t *from)
{
    put16(to, get16(from, HIGH_FIRST), LOW_FIRST);
}

static void swap4(uint8_t *to, const uint8_t *from)
{
    put32(to, get32(from, HIGH_FIRST), LOW_FIRST);
}

static void swap_header(uint8_t *to, const uint8_t *from)
{
    swap4(to + AT_MARK, from + AT_MARK);
    swap2(to + AT_EDITION, from + AT_EDITION);
    swap2(to + AT_FIRST_ZERO, from + AT_FIRST_ZERO);
    for (size_t at = AT_COUNT; at < AT_RULE; at += 4)
        swap4(to + at, from + at);
    for (size_t at = AT_RULE; at < AT_EPOCH; at += 2)
        swap2(to + at, from + at);
    for (size_t at = AT_EPOCH; at < HEADER_BYTES; at += 4)
        swap4(to + at, from + at);
}

static uint32_t plain_convert(const uint8_t *bytes, size_t length, uint8_t *out, size_t room)
{
    uint32_t refusal = plain_refusal(bytes, length);
    if (refusal != 0)
        return refusal;
    if (room < length)
        return 13;
    swap_header(out, bytes);
    for (size_t at = HEADER_BYTES; at < length; at += RECORD_BYTES) {
        swap4(out + at + IN_PAGE, bytes + at + IN_PAGE);
        swap2(out + at + IN_KIND, bytes + at + IN_KIND);
        swap2(out + at + IN_ZERO, bytes + at + IN_ZERO);
    }
    return 0;
}

/* ---- the jobs, all called alike */

static uint32_t proved_check(const uint8_t *bytes, size_t length, uint8_t *out, size_t room)
{
    (void)out, (void)room;
    return hitchyawl_check(bytes, length);
}

static uint32_t plain_check(const uint8_t *bytes, size_t length, uint8_t *out, size_t room)
{
    (void)out, (void)room;
    return plain_refusal(bytes, length);
}

static uint32_t copy(const uint8_t *bytes, size_t length, uint8_t *out, size_t room)
{
    memcpy(out, bytes, length < room ? length : room);
    return 0;
}

enum { CHECK, CONVERT, CALLS };
enum { PROVED, PLAIN, COPY, WAYS };
static const char *const call_names[CALLS] = {"check", "convert"};
static job *const jobs[CALLS][WAYS] = {{proved_check, plain_check, copy}, {hitchyawl_convert, plain_convert, copy}};

/* ---- the same answers */

static uint8_t trace[LENGTH], proved_out[LENGTH], plain_out[LENGTH];

static void compare_once(size_t length, size_t room)
{
    for (int call = 0; call < CALLS; call++) {
        uint32_t proved = jobs[call][PROVED](trace, length, proved_out, room);
        uint32_t plain = jobs[call][PLAIN](trace, length, plain_out, room);
        if (proved == plain && memcmp(proved_out, plain_out, LENGTH) == 0)
            continue;
        fprintf(stderr, "measure: %s: proved %lu, plain C %lu, or the bytes stored differ\n", call_names[call],
                (unsigned long)proved, (unsigned long)plain);
        exit(1);
    }
}

/* On the trace as it stands, with any byte of its header and first record changed, cut, and without room. */
static void compare_answers(void)
{
    static const uint8_t changes[] = {0x01, 0x80, 0xff};
    memset(proved_out, 0, LENGTH);
    memset(plain_out, 0, LENGTH);
    compare_once(LENGTH, LENGTH);
    for (size_t at = 0; at < record_at(1); at++)
        for (size_t i = 0; i < sizeof changes; i++) {
            trace[at] ^= changes[i];
            compare_once(LENGTH, LENGTH);
            trace[at] ^= changes[i];
        }
    compare_once(HEADER_BYTES - 1, LENGTH);
    compare_once(LENGTH - 1, LENGTH);
    compare_once(LENGTH, LENGTH - 1);
}

/* ---- the times */

static volatile uint32_t seen; /* keeps what a job gives from being left out */

static double microseconds_of(job *run)
{
    struct timespec from, to;
    clock_gettime(CLOCK_MONOTONIC, &from);
    seen = run(trace, LENGTH, proved_out, LENGTH);
    clock_gettime(CLOCK_MONOTONIC, &to);
    seen = proved_out[LENGTH - 1];
    return (double)(to.tv_sec - from.tv_sec) * 1e6 + (double)(to.tv_nsec - from.tv_nsec) / 1e3;
}

static int by_size(const void *one, const void *other)
{
    double a = *(const double *)one, b = *(const double *)other;
    return (a > b) - (a < b);
}

/* The ways take turns, so that a slow moment of the machine meets them all. */
static void measure_call(int call, const char *order)
{
    static double times[WAYS][RUNS];
    for (int run = -WARM_UPS; run < RUNS; run++)
        for (int way = 0; way < WAYS; way++) {
            double time = microseconds_of(jobs[call][way]);
            if (run >= 0)
                times[way][run] = time;
        }
    printf("%-6s %-8s", order, call_names[call]);
    for (int way = 0; way < WAYS; way++) {
        qsort(times[way], RUNS, sizeof times[way][0], by_size);
        printf(" %9.2f %8.2f", times[way][RUNS / 2], times[way][0]);
    }
    double proved = times[PROVED][RUNS / 2];
    printf(" %10.2f %9.2f\n", proved / times[PLAIN][RUNS / 2], proved / times[COPY][RUNS / 2]);
}

int main(void)
{
    static const char *const names[] = {"high", "low"};
    printf("%d records, %d bytes; microseconds, median and least of %d runs\n", MOST_RECORDS, LENGTH, RUNS);
    printf("%-6s %-8s %9s %8s %9s %8s %9s %8s %10s %9s\n", "order", "call", "proved", "least", "plain C", "least",
           "memcpy", "least", "to plain C", "to memcpy");
    for (enum order order = HIGH_FIRST; order <= LOW_FIRST; order++) {
        build_trace(trace, MOST_RECORDS, order);
        compare_answers();
        for (int call = 0; call < CALLS; call++)
            measure_call(call, names[order]);
    }
    return 0;
}
