/* The operations of the Vumbarete archive (libabi.a) for C.
 *
 * Every function takes any bytes and any numbers, is proved to answer as its comment says, to end, and to touch nothing outside its
 * buffers. A slice is a pointer and, after it, its length in elements. Asked of the caller is only what no function can test of one:
 *   - The memory is there, may be read (and written, where the pointer is not const), and nothing else writes it during the call.
 *   - An array of uint32_t is aligned as C aligns one. Bytes may stand anywhere.
 *   - No two lent buffers overlap, unless both are only read.
 *   - No pointer is null, not even that of a slice of length 0, for which any other aligned pointer will do: that the compiled code takes
 *     a null one is promised nowhere. A caller whose empty slices may be null lends them by `vumbarete_lend_bytes`,
 *     `vumbarete_lend_row`, `vumbarete_lend_numbers` and `vumbarete_lend_column` below, which never hand one on.
 *   - A bool is true or false.
 *
 * Every answer but two is a struct that begins with a refusal: `number` 0 says that nothing is refused, and `place` is 0 then; else `number`
 * and `place` are those of document 01's table, and every other member is 0, save `table` of a refused load, which says of which of the
 * four tables it speaks. A refusal changes no lent element, save that refusals 20 to 31 of `vumbarete_check` set the first 2E marks to zero.
 * The two other answers are `vumbarete_find_column`'s and `vumbarete_first_place`'s: a number alone, 0 for none. They refuse nothing. */
#ifndef VUMBARETE_H
#define VUMBARETE_H

#include <stdbool.h>
#include <stddef.h>
#include <stdint.h>

/* ---- empty slices: the pointer of a slice of this length, and of a slice of length 0 one that is not null */

static inline const uint8_t *vumbarete_lend_bytes(const uint8_t *bytes, size_t length) {
    static const uint8_t none = 0;
    return length ? bytes : &none;
}

/* to be written */
static inline uint8_t *vumbarete_lend_row(uint8_t *row, size_t length) {
    static uint8_t none;
    return length ? row : &none;
}

static inline const uint32_t *vumbarete_lend_numbers(const uint32_t *numbers, size_t length) {
    static const uint32_t none = 0;
    return length ? numbers : &none;
}

/* to be written */
static inline uint32_t *vumbarete_lend_column(uint32_t *column, size_t length) {
    static uint32_t none;
    return length ? column : &none;
}

/* ---- wave heights */

typedef struct {
    uint32_t number;
    size_t place;
    uint32_t thousandths;
} vumbarete_height_answer;

typedef struct {
    uint32_t number;
    size_t place;
    uint32_t passes; /* 1: not above the limit; 0: above it */
} vumbarete_passes_answer;

/* A wave height (1 to 6 digits, optionally a point and 1 to 3 digits, then only spaces) in whole thousandths.
 * 16 at the first bad byte, or at the text's length. */
vumbarete_height_answer vumbarete_height(const uint8_t *text, size_t text_length);

/* Whether a measured height is not above the limit. Of two bad texts the limit's is refused (16). */
vumbarete_passes_answer vumbarete_passes(const uint8_t *measured, size_t measured_length, const uint8_t *limit, size_t limit_length);

/* ---- triplet ids */

typedef struct {
    uint32_t number;
    size_t place;
    uint32_t id;
    uint32_t tile;
    uint32_t other; /* the external id */
    size_t bytes;   /* how many bytes the triplet has */
} vumbarete_triplet_answer;

typedef struct {
    uint32_t number;
    size_t place;
    size_t bytes; /* how many bytes were written */
} vumbarete_written_answer;

/* The triplet id that the bytes begin with; those after it are not looked at. An absent part reads as 0.
 * 11 at the first byte of the bad part, the type byte being 0. */
vumbarete_triplet_answer vumbarete_triplet(const uint8_t *bytes, size_t bytes_length, bool most_first);

/* Writes a triplet id in its shortest form into the row at the place `at`, and changes no other byte.
 * 11 with the lowest part (1 to 3) over 2,147,483,647; 13 with `at` where it is beyond the row; 14 with the length that is needed. */
vumbarete_written_answer vumbarete_write_triplet(uint8_t *row, size_t row_length, size_t at, uint32_t id, uint32_t tile, uint32_t other,
                                                 bool most_first);

/* ---- headers and tables. A table is a file and its index (empty where all rows have one width). Every question about rows opens the
 * table first, so that a refusal of the opening is its answer too; `vumbarete_judge_rows` opens it once for all rows. */

typedef struct {
    uint32_t number;
    size_t place;
    uint32_t order; /* 'L' or 'M' */
    uint32_t start; /* L + 4: where row 1 starts */
    size_t columns;
    size_t id;      /* the column named id, from 1 */
    uint32_t width; /* the one width of all rows, or 0 where a column has `*` or type K */
} vumbarete_header_answer;

typedef struct {
    uint32_t number;
    size_t place;
    uint32_t given;    /* 1: a column stands there; 0: the last has been passed, or the step is refused, and all below is 0 */
    size_t name_start; /* each field: its first byte in the file, and the byte after its last */
    size_t name_end;
    uint32_t kind;  /* the letter of its type */
    uint32_t star;  /* 1: its count is `*` */
    uint32_t count; /* 0 for a `*` */
    uint32_t key;   /* 'P', 'U' or 'N' */
    size_t description_start;
    size_t description_end;
    size_t value_start; /* the value table, the thematic index and the narrative name */
    size_t value_end;
    size_t thematic_start;
    size_t thematic_end;
    size_t narrative_start;
    size_t narrative_end;
    uint32_t comma; /* 1: a comma stands before the column's colon; 0: it is missing */
    size_t after;   /* the place past the column: that of the next one */
} vumbarete_column_answer;

typedef struct {
    uint32_t number;
    size_t place;
    uint32_t order;
    uint32_t start;
    size_t columns;
    size_t id;
    uint32_t width;
    size_t rows;
} vumbarete_table_answer;

typedef struct {
    uint32_t number;
    size_t place;
    size_t start; /* the row's first byte in the file, and the byte after its last */
    size_t end;
} vumbarete_row_answer;

/* what a value is */
enum {
    VUMBARETE_SHORT = 1,
    VUMBARETE_SHORT_NULL = 2,
    VUMBARETE_INTEGER = 3,
    VUMBARETE_INTEGER_NULL = 4,
    VUMBARETE_FLOAT = 5,
    VUMBARETE_FLOAT_NULL = 6,
    VUMBARETE_DOUBLE = 7,
    VUMBARETE_DOUBLE_NULL = 8,
    VUMBARETE_TRIPLET = 9,
    VUMBARETE_TEXT = 10,
    VUMBARETE_DATE = 11,
    VUMBARETE_COORDINATES = 12,
    VUMBARETE_NULL_FIELD = 13
};

typedef struct {
    uint32_t number;
    size_t place;
    uint32_t kind;   /* one of the above; the members below that it does not speak of are 0 */
    int16_t short_;  /* SHORT */
    int32_t integer; /* INTEGER */
    uint64_t bits;   /* FLOAT and DOUBLE, also the nulls, which are NaN: the pattern of 4 or 8 bytes */
    uint32_t id;     /* TRIPLET */
    uint32_t tile;
    uint32_t other;
    size_t start; /* TEXT, DATE, COORDINATES: a part of the file, past the count of a `*` field */
    size_t bytes;
} vumbarete_value_answer;

typedef struct {
    uint32_t number;
    size_t place;
    uint32_t width; /* 4: the four floats below (columns of type C and Z); 8: the four doubles (B and Y). The other four are 0.0 */
    float short_least_x;
    float short_least_y;
    float short_greatest_x;
    float short_greatest_y;
    double least_x;
    double least_y;
    double greatest_x;
    double greatest_y;
} vumbarete_rectangle_answer;

/* Judges the header of a table file: 1, 2, 1, 15, 3, 4, 5, 6 in document 01's order. */
vumbarete_header_answer vumbarete_header(const uint8_t *file, size_t file_length);

/* The column of a name, letters of either case, from 1; 0 where there is none or the header is refused (`vumbarete_header` says which). */
size_t vumbarete_find_column(const uint8_t *file, size_t file_length, const uint8_t *name, size_t name_length);

/* Where the first column of a header stands in the file; 0 where the header is refused. */
size_t vumbarete_first_place(const uint8_t *file, size_t file_length);

/* The column of a header that starts at the place. The header's refusals come first; past the last column none is given; 13 with the place
 * where no column starts. From `vumbarete_first_place` on, each column's `after` is the place of the next. */
vumbarete_column_answer vumbarete_column_step(const uint8_t *file, size_t file_length, size_t place);

/* Opens a table: the header's refusals, then 8 at 0 for a needed index under 8 bytes, 15, 7 or 8. */
vumbarete_table_answer vumbarete_open(const uint8_t *file, size_t file_length, const uint8_t *index, size_t index_length);

/* Opens a table and judges every row: the refusal of the lowest row that has one (10, 11, 9). */
vumbarete_table_answer vumbarete_judge_rows(const uint8_t *file, size_t file_length, const uint8_t *index, size_t index_length);

/* Where row i lies, from 1: 13 for no such row, then the row's own refusals. */
vumbarete_row_answer vumbarete_row(const uint8_t *file, size_t file_length, const uint8_t *index, size_t index_length, size_t row);

/* The value of a column in a row: 13 for no such row, 13 for no such column, then the row's own refusals. */
vumbarete_value_answer vumbarete_value(const uint8_t *file, size_t file_length, const uint8_t *index, size_t index_length, size_t row,
                                       size_t column);

/* The least and greatest x and y of the coordinates in a column of a row: 13 for no such row, no such column, or a column of another type
 * than C, Z, B, Y; the row's own refusals; 12 at the first coordinate, from 1, with x or y not finite, or at 0 for no coordinates. */
vumbarete_rectangle_answer vumbarete_rectangle(const uint8_t *file, size_t file_length, const uint8_t *index, size_t index_length,
                                               size_t row, size_t column);

/* ---- the tile: ten columns of numbers */

typedef struct {
    uint32_t number;
    size_t place;
} vumbarete_verdict;

typedef struct {
    uint32_t number;
    size_t place;
    size_t steps; /* the successor moves until the start side returns: how many sides were written */
} vumbarete_steps;

typedef struct {
    uint32_t number;
    size_t place;
    uint32_t table; /* the table that a refusal speaks of: 1 edg, 2 fac, 3 rng, 4 cnd; 0 where nothing is refused */
    size_t edges;   /* the rows of the four tables: how many elements of its columns were written; 0, all four, on a refusal */
    size_t faces;
    size_t rings;
    size_t nodes;
} vumbarete_loaded;

/* Loads a tile from four tables and their indexes, of which the caller takes at most `most` rows each (and never over 1,000,000): opens
 * them in turn; then 17 by place (start_node 1 to first_edge 10); 15 for no face, for no ring; 14 by place with the length that is needed;
 * then the rows, table by table; and only then writes each column's numbers from its first element on. From a triplet the id is taken;
 * absent, null and negative numbers are 0. Elements past the rows are unchanged. On a refusal number, place and table are set, the four
 * counts are 0, and no element of any column is changed. */
vumbarete_loaded vumbarete_load(const uint8_t *edg, size_t edg_length, const uint8_t *edx, size_t edx_length, const uint8_t *fac,
                                size_t fac_length, const uint8_t *fax, size_t fax_length, const uint8_t *rng, size_t rng_length,
                                const uint8_t *rnx, size_t rnx_length, const uint8_t *cnd, size_t cnd_length, const uint8_t *cnx,
                                size_t cnx_length, size_t most, uint32_t *start_node, size_t start_nodes, uint32_t *end_node,
                                size_t end_nodes, uint32_t *right_face, size_t right_faces, uint32_t *left_face, size_t left_faces,
                                uint32_t *right_edge, size_t right_edges, uint32_t *left_edge, size_t left_edges, uint32_t *ring_ptr,
                                size_t ring_ptrs, uint32_t *fac_id, size_t fac_ids, uint32_t *start_edge, size_t start_edges,
                                uint32_t *first_edge, size_t first_edges);

/* Checks a tile: accepted, or the first of document 01's tests that fails, at its lowest row or side. On acceptance the first 2E marks
 * hold the ring row of each side, side 1 first; refusals 20 to 31 set them to zero; every other refusal changes none. Marks beyond
 * 2E are never changed. */
vumbarete_verdict vumbarete_check(const uint32_t *start_node, size_t start_nodes, const uint32_t *end_node, size_t end_nodes,
                                  const uint32_t *right_face, size_t right_faces, const uint32_t *left_face, size_t left_faces,
                                  const uint32_t *right_edge, size_t right_edges, const uint32_t *left_edge, size_t left_edges,
                                  const uint32_t *ring_ptr, size_t ring_ptrs, const uint32_t *fac_id, size_t fac_ids,
                                  const uint32_t *start_edge, size_t start_edges, const uint32_t *first_edge, size_t first_edges,
                                  uint32_t *marks, size_t marks_length);

/* Walks from a ring row and writes the side numbers of its cycle, start side first; `out` beyond the steps is unchanged. The tests are
 * 15, 13, 29, at each move 22 (place: edge row) to 25 (place: side), 32, and 14 with the steps as the needed length last. Ring row 1 may
 * have start edge 0 when its face is 1: it has 0 steps, and owns no side. */
vumbarete_steps vumbarete_walk(const uint32_t *start_node, size_t start_nodes, const uint32_t *end_node, size_t end_nodes,
                               const uint32_t *right_face, size_t right_faces, const uint32_t *left_face, size_t left_faces,
                               const uint32_t *right_edge, size_t right_edges, const uint32_t *left_edge, size_t left_edges,
                               const uint32_t *ring_ptr, size_t ring_ptrs, const uint32_t *fac_id, size_t fac_ids,
                               const uint32_t *start_edge, size_t start_edges, const uint32_t *first_edge, size_t first_edges,
                               size_t row, uint32_t *out, size_t out_length);

#endif
