/* Hitchyawl for a C transport: check a trace of edition 1, put it into the other byte order, replay it
 * to counts, and find LRU's misses at every pool size.
 *
 * The calls are exported by the archive of the crate `host_c`; "For C" in the README says how to build
 * and link it. It needs memcpy, memmove and memset. The calls keep no state, allocate nothing, and may
 * run in several threads at once. hitchyawl_counts may need 256 KiB of stack, the others hardly any.
 * While a call runs, nothing else may write to its buffers, neither another thread nor another process
 * that maps the same memory, and nothing may read `out`.
 *
 * A buffer is a pointer and its length in bytes. The memory has to be there in full, and may stand at
 * any address (nothing is asked of its alignment). The two buffers of a call must not overlap, so a
 * trace cannot be converted in place. Where the length is 0 the pointer may be anything, a null pointer
 * too: it is not followed.
 *
 * Byte 0 of an accepted trace is 1 for high byte first, 4 for low.
 */
#ifndef HITCHYAWL_H
#define HITCHYAWL_H

#include <stddef.h>
#include <stdint.h>

#define HITCHYAWL_COUNTS_BYTES 24       /* what hitchyawl_counts stores */
#define HITCHYAWL_CURVE_BYTES 512       /* what hitchyawl_curve stores */
#define HITCHYAWL_TRACE_BYTES_MAX 64048 /* the longest trace, 8,000 records */

#ifdef __cplusplus
extern "C" {
#endif

/* The numbered refusals. hitchyawl_check returns 0 to 8; the others return 13 as well, and
 * hitchyawl_curve 17. 9 to 12 are given to single records, 14 and 15 by calls that take a pool. */
enum hitchyawl_refusal {
    HITCHYAWL_ACCEPTED = 0,
    HITCHYAWL_TOO_SHORT = 1,         /* under 48 bytes */
    HITCHYAWL_UNKNOWN_MARK = 2,      /* unknown mark */
    HITCHYAWL_OTHER_EDITION = 3,     /* edition not 1 */
    HITCHYAWL_TOO_MANY = 4,          /* n above 8,000 */
    HITCHYAWL_WRONG_LENGTH = 5,      /* offset, length field or actual length wrong;
                                        writer's lists of unequal length */
    HITCHYAWL_BAD_FIELD = 6,         /* a zero field not zero, or a bad kind */
    HITCHYAWL_WRONG_WRITES = 7,      /* write count differs from the records */
    HITCHYAWL_OUT_OF_RANGE = 8,      /* a setting out of range */
    HITCHYAWL_NO_REFERENCE_LEFT = 9, /* k is 50,000 at a reference */
    HITCHYAWL_NO_FRAME = 10,         /* a miss with all f frames in use and pinned */
    HITCHYAWL_NOT_PINNED = 11,       /* unpin of a page not resident or with pin count 0 */
    HITCHYAWL_PINS_FULL = 12,        /* pin of a resident page with pin count 255 */
    HITCHYAWL_NO_ROOM = 13,          /* a lent buffer is too short */
    HITCHYAWL_NOT_SOUND = 14,        /* pool not sound, or a count of the tally handed in
                                        above 4,000,000,000 */
    HITCHYAWL_OTHER_SETTINGS = 15,   /* trace settings differ from the pool's */
    HITCHYAWL_HAS_PINS = 17          /* a pin or unpin in a trace that is to give a curve */
};

/* Whether the `length` bytes are a trace, in either byte order.
 *
 * Returns 0, or the first of the refusals 1 to 8 that fits. Stores nothing. */
uint32_t hitchyawl_check(const uint8_t *bytes, size_t length);

/* The same trace in the other byte order.
 *
 * Returns 0 with the converted trace, again `length` bytes, at the front of `out`; the bytes beyond
 * it keep their contents. Else returns the first of the refusals 1 to 8 that fits, then 13 where
 * `room`, the length of `out`, is less than `length`; a refused call stores nothing. */
uint32_t hitchyawl_convert(const uint8_t *bytes, size_t length, uint8_t *out, size_t room);

/* The counts of a replay of the trace from a fresh pool.
 *
 * Returns 0 with six counts in the first 24 bytes of `out`, 4 bytes each and in the trace's own byte
 * order: hits, misses, evictions, batches, pages written, refused records; the bytes beyond them
 * keep their contents. A refused record (10 to 12) is counted in the sixth count only, and replay goes
 * on. Else returns the first of the refusals 1 to 8 that fits, then 13 where `room`, the length of
 * `out`, is less than 24; a refused call stores nothing. */
uint32_t hitchyawl_counts(const uint8_t *bytes, size_t length, uint8_t *out, size_t room);

/* The misses that LRU has with each number of frames, from a fresh pool, whatever rule and frames the
 * trace names.
 *
 * Returns 0 with 128 numbers in the first 512 bytes of `out`, 4 bytes each and in the trace's own byte
 * order: the misses with 1 frame, with 2, .. with 128, none of them above the one before it; the bytes
 * beyond them keep their contents. Else returns the first of the refusals 1 to 8 that fits, then 17
 * where a record is a pin or an unpin, then 13 where `room`, the length of `out`, is less than 512; a
 * refused call stores nothing. */
uint32_t hitchyawl_curve(const uint8_t *bytes, size_t length, uint8_t *out, size_t room);

#ifdef __cplusplus
}
#endif

#endif
