/* Document 01 in plain C, beside the archive: the same questions under the prefix `ref_`. */
#ifndef REFERENCE_H
#define REFERENCE_H
#include "vumbarete.h"

/* document 01's limits, for the plain C and for what is made up to try both */
#define MOST_TEXT 32767
#define MOST_COLUMNS 128
#define MOST_ROWS 1000000

/* the ten columns of a tile, each with its own length */
typedef struct {
    const uint32_t *at;
    size_t n;
} column32;

typedef struct {
    column32 start_node, end_node, right_face, left_face, right_edge, left_edge, ring_ptr, fac_id, start_edge, first_edge;
} tile32;

vumbarete_height_answer ref_height(const uint8_t *text, size_t n);
vumbarete_passes_answer ref_passes(const uint8_t *measured, size_t m, const uint8_t *limit, size_t n);
vumbarete_triplet_answer ref_triplet(const uint8_t *s, size_t n, bool most);
vumbarete_written_answer ref_write_triplet(uint8_t *row, size_t n, size_t at, uint32_t id, uint32_t tile, uint32_t other, bool most);
vumbarete_verdict ref_check(const tile32 *t, uint32_t *marks, size_t space);
vumbarete_steps ref_walk(const tile32 *t, size_t row, uint32_t *out, size_t space);

/* edg, fac, rng, cnd, each with its index */
typedef struct {
    const uint8_t *file, *index;
    size_t size, index_size;
} table_files;

vumbarete_loaded ref_load(const table_files files[4], size_t most, uint32_t *const column[10], const size_t space[10]);
vumbarete_header_answer ref_header(const uint8_t *file, size_t n);
size_t ref_find_column(const uint8_t *file, size_t n, const uint8_t *name, size_t m);
size_t ref_first_place(const uint8_t *file, size_t n);
vumbarete_column_answer ref_column_step(const uint8_t *file, size_t n, size_t place);
vumbarete_table_answer ref_open(const uint8_t *file, size_t n, const uint8_t *index, size_t m);
vumbarete_table_answer ref_judge_rows(const uint8_t *file, size_t n, const uint8_t *index, size_t m);
vumbarete_row_answer ref_row(const uint8_t *file, size_t n, const uint8_t *index, size_t m, size_t row);
vumbarete_value_answer ref_value(const uint8_t *file, size_t n, const uint8_t *index, size_t m, size_t row, size_t column);
vumbarete_rectangle_answer ref_rectangle(const uint8_t *file, size_t n, const uint8_t *index, size_t m, size_t row, size_t column);
#endif
