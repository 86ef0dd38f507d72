/* Tiles made for tests and benchmarks: a side (half-edge) has a node that it leaves and a next side; all ten columns follow. */
#ifndef TILES_H
#define TILES_H
#include "reference.h"
#include <stdlib.h>
#include <string.h>

/* a tile that owns its columns */
typedef struct {
    uint32_t *column[10];
    size_t length[10];
} made_tile;

enum { START_NODE, END_NODE, RIGHT_FACE, LEFT_FACE, RIGHT_EDGE, LEFT_EDGE, RING_PTR, FAC_ID, START_EDGE, FIRST_EDGE };

static inline tile32 lent(const made_tile *m) {
    tile32 t;
    column32 *c = &t.start_node;
    for (int i = 0; i < 10; i++) c[i] = (column32){m->column[i], m->length[i]};
    return t;
}

static inline void drop_tile(made_tile *m) {
    for (int i = 0; i < 10; i++) free(m->column[i]);
}

static inline void new_tile(made_tile *m, size_t edges, size_t faces, size_t rings, size_t nodes) {
    for (int i = 0; i < 10; i++) {
        m->length[i] = i < RING_PTR ? edges : i == RING_PTR ? faces : i < FIRST_EDGE ? rings : nodes;
        m->column[i] = malloc((m->length[i] + 2) * sizeof(uint32_t));
    }
}

/* sides are numbered from 0 here: 2e is the right side of edge e (from 0), 2e + 1 the left one; next[] is a permutation; ring[] gives the
 * cycle of each side, from 0; face[] the face of each cycle, from 1, every one of 1..faces occurring */
static inline void fill_tile(made_tile *m, size_t edges, size_t nodes, size_t faces, size_t rings, const uint32_t *start, const uint32_t *end,
                             const uint32_t *next, const uint32_t *ring, const uint32_t *face, const uint32_t *first_of_ring) {
    new_tile(m, edges, faces, rings, nodes);
    for (size_t n = 0; n < nodes; n++) m->column[FIRST_EDGE][n] = 0;
    for (size_t e = 0; e < edges; e++) {
        m->column[START_NODE][e] = start[e];
        m->column[END_NODE][e] = end[e];
        m->column[RIGHT_FACE][e] = face[ring[2 * e]];
        m->column[LEFT_FACE][e] = face[ring[2 * e + 1]];
        m->column[RIGHT_EDGE][e] = next[2 * e] / 2 + 1;
        m->column[LEFT_EDGE][e] = next[2 * e + 1] / 2 + 1;
        m->column[FIRST_EDGE][start[e] - 1] = (uint32_t)e + 1;
        m->column[FIRST_EDGE][end[e] - 1] = (uint32_t)e + 1;
    }
    /* rings by face: counted, then placed */
    uint32_t *at = calloc(faces + 2, sizeof *at);
    for (size_t r = 0; r < rings; r++) at[face[r] + 1]++;
    for (size_t f = 1; f <= faces; f++) at[f + 1] += at[f];
    for (size_t f = 1; f <= faces; f++) m->column[RING_PTR][f - 1] = at[f] + 1;
    for (size_t r = 0; r < rings; r++) {
        uint32_t row = at[face[r]]++;
        m->column[FAC_ID][row] = face[r];
        m->column[START_EDGE][row] = first_of_ring[r] / 2 + 1;
    }
    free(at);
}

/* the cycles of next[]: the number of them, ring[] and first_of_ring[] filled */
static inline size_t cycles(size_t sides, const uint32_t *next, uint32_t *ring, uint32_t *first_of_ring) {
    size_t rings = 0;
    for (size_t s = 0; s < sides; s++) ring[s] = UINT32_MAX;
    for (size_t s = 0; s < sides; s++) {
        if (ring[s] != UINT32_MAX) continue;
        for (size_t u = s; ring[u] == UINT32_MAX; u = next[u]) ring[u] = (uint32_t)rings;
        first_of_ring[rings++] = (uint32_t)s;
    }
    return rings;
}

/* a grid of w by h cells: every cell a face, and the face around them all */
static inline void grid_tile(made_tile *m, size_t w, size_t h) {
    size_t across = w * (h + 1), edges = across + h * (w + 1), nodes = (w + 1) * (h + 1);
    uint32_t *start = malloc(edges * 4), *end = malloc(edges * 4), *next = malloc(edges * 8), *ring = malloc(edges * 8),
             *first = malloc(edges * 8);
    /* headings: 0 east, 1 south, 2 west, 3 north; the side that leaves the node (x, y) so, or -1 */
#define LEAVES(x, y, d)                                                                                                                     \
    ((d) == 0   ? ((x) < w ? (long)(2 * ((y) * w + (x))) : -1L)                                                                             \
     : (d) == 2 ? ((x) > 0 ? (long)(2 * ((y) * w + (x) - 1) + 1) : -1L)                                                                     \
     : (d) == 1 ? ((y) < h ? (long)(2 * (across + (y) * (w + 1) + (x))) : -1L)                                                              \
                : ((y) > 0 ? (long)(2 * (across + ((y) - 1) * (w + 1) + (x)) + 1) : -1L))
    for (size_t y = 0; y <= h; y++)
        for (size_t x = 0; x <= w; x++)
            for (int d = 0; d < 4; d++) {
                long s = LEAVES(x, y, d);
                if (s < 0) continue;
                size_t tx = d == 0 ? x + 1 : d == 2 ? x - 1 : x, ty = d == 1 ? y + 1 : d == 3 ? y - 1 : y;
                if (s % 2 == 0) {
                    start[s / 2] = (uint32_t)(y * (w + 1) + x + 1);
                    end[s / 2] = (uint32_t)(ty * (w + 1) + tx + 1);
                }
                /* the face is on the right hand: turn right as sharply as can be */
                for (int turn = 1; turn >= -2; turn--) {
                    long u = LEAVES(tx, ty, (d + turn + 4) % 4);
                    if (u >= 0) {
                        next[s] = (uint32_t)u;
                        break;
                    }
                }
            }
#undef LEAVES
    size_t rings = cycles(2 * edges, next, ring, first);
    uint32_t *face = malloc(rings * 4);
    for (size_t r = 0; r < rings; r++) face[r] = (uint32_t)r + 1;
    fill_tile(m, edges, nodes, rings, rings, start, end, next, ring, face, first);
    free(start), free(end), free(next), free(ring), free(first), free(face);
}
#endif
