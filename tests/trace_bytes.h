/* Traces of edition 1 as bytes, for the C tests: numbers in either order, and a trace built in memory. */
#ifndef TRACE_BYTES_H
#define TRACE_BYTES_H

#include <stddef.h>
#include <stdint.h>

enum { HEADER_BYTES = 48, RECORD_BYTES = 8, MOST_RECORDS = 8000 };

enum order { HIGH_FIRST, LOW_FIRST };

/* Where the header and a record hold what. */
enum {
    AT_MARK = 0, AT_EDITION = 4, AT_FIRST_ZERO = 6, AT_COUNT = 8, AT_OFFSET = 12, AT_WRITES = 16,
    AT_LENGTH = 20, AT_RULE = 24, AT_FRAMES = 26, AT_BATCH = 28, AT_CAP = 30, AT_SAMPLE = 32,
    AT_WEIGHT = 34, AT_EPOCH = 36, AT_SEED = 40, AT_LAST_ZERO = 44
};
enum { IN_PAGE = 0, IN_KIND = 4, IN_ZERO = 6 };

/* The mark's four bytes are this number in the trace's own order. */
static const uint32_t MARK = 0x01020304u;

static inline size_t record_at(size_t record)
{
    return HEADER_BYTES + RECORD_BYTES * record;
}

static inline uint32_t get16(const uint8_t *at, enum order order)
{
    return order == HIGH_FIRST ? (uint32_t)at[0] << 8 | at[1] : (uint32_t)at[1] << 8 | at[0];
}

static inline uint32_t get32(const uint8_t *at, enum order order)
{
    return order == HIGH_FIRST ? get16(at, order) << 16 | get16(at + 2, order)
                               : get16(at + 2, order) << 16 | get16(at, order);
}

static inline void put16(uint8_t *at, uint32_t number, enum order order)
{
    at[order == HIGH_FIRST ? 0 : 1] = (uint8_t)(number >> 8);
    at[order == HIGH_FIRST ? 1 : 0] = (uint8_t)number;
}

static inline void put32(uint8_t *at, uint32_t number, enum order order)
{
    put16(at + (order == HIGH_FIRST ? 0 : 2), number >> 16, order);
    put16(at + (order == HIGH_FIRST ? 2 : 0), number, order);
}

static inline void put_settings(uint8_t *bytes, enum order order)
{
    put16(bytes + AT_RULE, 2, order);
    put16(bytes + AT_FRAMES, 100, order);
    put16(bytes + AT_BATCH, 8, order);
    put16(bytes + AT_CAP, 5, order);
    put16(bytes + AT_SAMPLE, 10, order);
    put16(bytes + AT_WEIGHT, 2, order);
    put32(bytes + AT_EPOCH, 1000, order);
    put32(bytes + AT_SEED, 0xdecade01u, order);
}

/* A good trace of `count` records but for its count, which may be too high: each kind in turn, with
 * pages that differ in all four bytes. It takes record_at(count) bytes. */
static inline void build_trace(uint8_t *bytes, uint32_t count, enum order order)
{
    put32(bytes + AT_MARK, MARK, order);
    put16(bytes + AT_EDITION, 1, order);
    put16(bytes + AT_FIRST_ZERO, 0, order);
    put32(bytes + AT_COUNT, count, order);
    put32(bytes + AT_OFFSET, HEADER_BYTES, order);
    put32(bytes + AT_WRITES, (count + 2) / 4, order);
    put32(bytes + AT_LENGTH, (uint32_t)record_at(count), order);
    put_settings(bytes, order);
    put32(bytes + AT_LAST_ZERO, 0, order);
    for (uint32_t record = 0; record < count; record++) {
        uint8_t *at = bytes + record_at(record);
        put32(at + IN_PAGE, 0x12345678u + record * 2654435761u, order);
        put16(at + IN_KIND, record % 4, order);
        put16(at + IN_ZERO, 0, order);
    }
}

#endif
