/* Mimosahoist: a host program's own bytes as a grid. Link with libhost.a, which `rt lib` in crates/host makes.
 *
 * Each call takes the cells and what they mean: `rows`, `cols` and an order. The cell at row r and column c, counted from 0,
 * is cells[r * cols + c] in row-major order and cells[c * rows + r] in column-major order. With no rows or no columns the
 * grid is 0 x 0. `cells_len` is how many bytes there are, which may be more than rows * cols: a line that comes needs room.
 *
 * A call answers MH_ACCEPTED, or the first of its refusals that holds, in the order of their numbers but with those of the
 * grid itself first. Any numbers may be handed over. A refused call changes no byte.
 *
 * The caller keeps the size, and gives the new one with the next call: rows + 1 by line_len after a row has come, line_len by
 * cols + 1 after a column, one row or column less after one has gone, and 0 x 0 after the last one. After an accepted call
 * the bytes of `cells` beyond rows * cols of the new size are free: they may have changed.
 *
 * What a caller owes, and no call can test: no pointer is null, not even with length 0; each points to as many bytes as its
 * length says, which may be written except where they are const; `line` and `memory` share no byte with `cells`; and no other
 * thread uses them meanwhile. */
#ifndef MIMOSAHOIST_H
#define MIMOSAHOIST_H

#include <stddef.h>
#include <stdint.h>

#ifdef __cplusplus
extern "C" {
#endif

/* Orders. Every number other than 0 is column-major. */
enum {
    MH_ROW_MAJOR = 0,
    MH_COLUMN_MAJOR = 1
};

/* Answers. 1, 7 and 8 are asked of the grid first, by every call: with no rows or no columns only 1. */
enum {
    MH_ACCEPTED = 0,
    MH_MEMORY = 1, /* cells_len is above 65536 */
    MH_EMPTY = 4,  /* line_len is 0 */
    MH_LENGTH = 5, /* the grid has lines, and line_len is not their length */
    MH_PLACE = 6,  /* to insert: `at` is above the count of lines; to remove: `at` is not below it */
    MH_SIDE = 7,   /* a side is above 256, or would be */
    MH_FULL = 8,   /* rows * cols is above cells_len, or would be */
    MH_SHORT = 9   /* memory_len is less than the line's length */
};

/* The line becomes row `at`, or column `at`; later ones move by one. Refuses with 1, 7, 8 of the grid, then 4, 5, 6, 7, 8.
 * Into a grid of 0 x 0 goes a line of any length from 1 to 256. */
uint32_t mh_insert_row(uint8_t *cells, size_t cells_len, size_t rows, size_t cols, uint8_t order, size_t at,
                       const uint8_t *line, size_t line_len);
uint32_t mh_insert_col(uint8_t *cells, size_t cells_len, size_t rows, size_t cols, uint8_t order, size_t at,
                       const uint8_t *line, size_t line_len);

/* Row `at`, or column `at`, goes. Its cells lie in the first bytes of `memory`, from first to last, and the rest of `memory`
 * stays. Refuses with 1, 7, 8 of the grid, then 6, 9. */
uint32_t mh_remove_row(uint8_t *cells, size_t cells_len, size_t rows, size_t cols, uint8_t order, size_t at,
                       uint8_t *memory, size_t memory_len);
uint32_t mh_remove_col(uint8_t *cells, size_t cells_len, size_t rows, size_t cols, uint8_t order, size_t at,
                       uint8_t *memory, size_t memory_len);

/* The last row, or column, comes first. Refuses with 1, 7, 8 of the grid. */
uint32_t mh_flip_rows(uint8_t *cells, size_t cells_len, size_t rows, size_t cols, uint8_t order);
uint32_t mh_flip_cols(uint8_t *cells, size_t cells_len, size_t rows, size_t cols, uint8_t order);

#ifdef __cplusplus
}
#endif

#endif
