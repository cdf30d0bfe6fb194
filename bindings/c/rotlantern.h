/* Rotlantern: an append-only index of 64-bit values in five tables that the caller owns. Every function is proved
 * to answer as the rules of crates/rules/specs say, whatever numbers it is handed.
 *
 * The state is five numbers. The tables come in one order, each as a pointer and a count of elements:
 * starts, bases, offsets (uint64_t), widths, data (uint8_t). A count of the state never looks past its table.
 *
 * Every function answers 0 where it is answered, or a refusal's number (enum rotlantern_refusal). A refusal changes
 * nothing: no state, no table, nothing behind a pointer.
 *
 * The caller ensures, and nothing tests:
 * - what a function may change (a pointer without const) overlaps no other argument;
 * - pointers are aligned for their type and point to as many readable elements as the count says (a count of 0 may
 *   come with any pointer, NULL too); a pointer to a state, a cursor or a result is never NULL;
 * - no other thread writes to an argument during the call.
 */
#ifndef ROTLANTERN_H
#define ROTLANTERN_H

#include <stddef.h>
#include <stdint.h>

#ifdef __cplusplus
extern "C" {
#endif

enum rotlantern_refusal {
    ROTLANTERN_BELOW = 1,        /* the value is below the current base */
    ROTLANTERN_SEGMENT_ROOM = 2, /* a new segment is due, and there is no room for one */
    ROTLANTERN_WIDTH_ROOM = 3,   /* a width is due, and its table is full */
    ROTLANTERN_DATA_ROOM = 4,    /* the bytes due do not fit the data */
    ROTLANTERN_POSITION = 5,     /* the position is at or past the length */
    ROTLANTERN_RANGE_END = 6,    /* the range ends past the length */
    ROTLANTERN_REVERSED = 7,     /* the range ends before it starts */
    ROTLANTERN_OUTPUT_ROOM = 8,  /* the output is shorter than the range */
    ROTLANTERN_COUNTS = 9,       /* the state's counts cannot be true of these tables */
    ROTLANTERN_DAMAGED = 10,     /* the tables contradict themselves where the call reads them */
    ROTLANTERN_MINIMUM = 11      /* the minimum width is outside 1 to 8 */
};

/* The five numbers of an index. */
typedef struct {
    uint64_t minimum;  /* the least width of a delta, 1 to 8 */
    uint64_t length;   /* how many values */
    uint64_t segments; /* how many entries of starts, bases and offsets are in use */
    uint64_t widths;   /* how many entries of widths are in use */
    uint64_t used;     /* how many data bytes are in use */
} rotlantern_state;

/* A walk: the position to read next, and the one to stop at. */
typedef struct {
    uint64_t next;
    uint64_t end;
} rotlantern_cursor;

/* The five tables of a call that only reads, and of one that writes. */
#define ROTLANTERN_TABLES                                                                              \
    const uint64_t *starts, size_t starts_len, const uint64_t *bases, size_t bases_len,                \
        const uint64_t *offsets, size_t offsets_len, const uint8_t *widths, size_t widths_len,         \
        const uint8_t *data, size_t data_len
#define ROTLANTERN_TABLES_MUT                                                                          \
    uint64_t *starts, size_t starts_len, uint64_t *bases, size_t bases_len, uint64_t *offsets,         \
        size_t offsets_len, uint8_t *widths, size_t widths_len, uint8_t *data, size_t data_len

/* A fresh state with this minimum width. Refuses 11. */
uint64_t rotlantern_open(uint64_t minimum, rotlantern_state *state);

/* A fresh state with the default minimum width, 1. Never refuses. */
uint64_t rotlantern_open_default(rotlantern_state *state);

/* Adds a value at the end; its position is the old length. Changes the state, and the tables' first unused entries.
 * Refuses 9, 10, 1, 2, 3, 4, the first in this order. */
uint64_t rotlantern_push(rotlantern_state *state, ROTLANTERN_TABLES_MUT, uint64_t value, uint64_t *position);

/* How many values there are. Refuses 9. */
uint64_t rotlantern_length(const rotlantern_state *state, ROTLANTERN_TABLES, uint64_t *value);

/* How many bytes the index takes: 24 for each segment, 1 for each width, and the data bytes used. Refuses 9. */
uint64_t rotlantern_size(const rotlantern_state *state, ROTLANTERN_TABLES, uint64_t *value);

/* The value at a position. Refuses 9, 5, 10. */
uint64_t rotlantern_get(const rotlantern_state *state, ROTLANTERN_TABLES, uint64_t position, uint64_t *value);

/* The values at a..b, into out from its first entry; count is b - a. Nothing is written where it refuses: 9, 6, 7, 8, 10. */
uint64_t rotlantern_get_range(const rotlantern_state *state, ROTLANTERN_TABLES, uint64_t a, uint64_t b, uint64_t *out,
                              size_t out_len, uint64_t *count);

/* Opens a walk over a..b. Reads no entry. Refuses 9, 6, 7. */
uint64_t rotlantern_iter(const rotlantern_state *state, ROTLANTERN_TABLES, uint64_t a, uint64_t b,
                         rotlantern_cursor *cursor);

/* One step of a walk. Where nothing is left: 0, and done is set to 1. Otherwise done is set to 0, the value is given and the
 * cursor moves by one; or it refuses 9, 5, 10 as get does, and the cursor stays. */
uint64_t rotlantern_next(rotlantern_cursor *cursor, const rotlantern_state *state, ROTLANTERN_TABLES, uint64_t *value,
                         uint64_t *done);

/* The range of values from the one at a position to the next one, or to the target length. Refuses 9, 5, 10. */
uint64_t rotlantern_target_range(const rotlantern_state *state, ROTLANTERN_TABLES, uint64_t position,
                                 uint64_t target_length, uint64_t *start, uint64_t *end);

/* The leftmost position where a value would be ordered. Refuses 9, 10. */
uint64_t rotlantern_bisect_left(const rotlantern_state *state, ROTLANTERN_TABLES, uint64_t value, uint64_t *position);

/* The same, raised to at least a and lowered to at most b. Refuses 9, 6, 7, 10. */
uint64_t rotlantern_bisect_range_left(const rotlantern_state *state, ROTLANTERN_TABLES, uint64_t a, uint64_t b,
                                      uint64_t value, uint64_t *position);

/* A delta run is one segment's packed bytes with its base and width. How many deltas it holds. Refuses 10 (the width). */
uint64_t rotlantern_run_count(const uint8_t *bytes, size_t bytes_len, uint64_t width, uint64_t *count);

/* Its i-th value, base + delta. Refuses 10 (the width), 5, 10 (the sum). */
uint64_t rotlantern_run_value(const uint8_t *bytes, size_t bytes_len, uint64_t base, uint64_t width, uint64_t i,
                              uint64_t *value);

/* Audits the tables: letter is 0 where they are well formed, else 1 to 6 for the first rule A to F that fails, and segment
 * is where. Never refuses. */
uint64_t rotlantern_audit(const rotlantern_state *state, ROTLANTERN_TABLES, uint64_t *letter, uint64_t *segment);

#ifdef __cplusplus
}
#endif

#endif
