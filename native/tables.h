/* Tables made for tests: header text, rows and index, right as they are made; the tests damage them. */
#ifndef TABLES_H
#define TABLES_H
#include "reference.h"
#include <string.h>

#ifndef MOST_FILE
#define MOST_FILE 200000
#endif

typedef struct {
    uint8_t file[MOST_FILE];
    size_t size;
    uint8_t index[MOST_FILE];
    size_t index_size;
    bool most, varies;
    const char *names; /* the value table, thematic index and narrative names of the columns to come */
    bool bare;         /* these lack their last comma */
    size_t start, columns, rows;
    uint8_t type[MOST_COLUMNS + 16];
    uint32_t count[MOST_COLUMNS + 16]; /* 0 for a star */
} made_table;

static inline void put_number(uint8_t *p, uint64_t v, int n, bool most) {
    for (int i = 0; i < n; i++) p[most ? n - 1 - i : i] = (uint8_t)(v >> 8 * i);
}

static inline void add_bytes(made_table *t, const void *s, size_t n) {
    memcpy(t->file + t->size, s, n);
    t->size += n;
}

static inline void add_text(made_table *t, const char *s) { add_bytes(t, s, strlen(s)); }

static inline void add_number(made_table *t, uint64_t v, int n) {
    put_number(t->file + t->size, v, n, t->most);
    t->size += (size_t)n;
}

static inline void begin_table(made_table *t, char order, const char *title, const char *narrative) {
    t->size = 4, t->index_size = 0, t->columns = t->rows = 0, t->varies = false;
    t->most = order == 'M', t->names = "-,-,-", t->bare = false;
    if (order) add_bytes(t, &order, 1);
    add_text(t, ";");
    add_text(t, title);
    add_text(t, ";");
    add_text(t, narrative);
    add_text(t, ";");
}

/* count: a number or a star */
static inline void add_column(made_table *t, const char *name, char type, const char *count, char key, const char *description) {
    char part[4] = {'=', type, ',', 0};
    t->type[t->columns] = (uint8_t)type;
    t->count[t->columns] = 0;
    if (*count == '*') {
        t->varies = true;
    } else {
        for (const char *c = count; *c; c++) t->count[t->columns] = t->count[t->columns] * 10 + (uint32_t)(*c - '0');
    }
    if (type == 'K') t->varies = true;
    t->columns++;
    add_text(t, name);
    add_text(t, part);
    add_text(t, count);
    part[0] = ',', part[1] = key, part[2] = ',';
    add_text(t, part);
    add_text(t, description);
    add_text(t, ",");
    add_text(t, t->names);
    add_text(t, t->bare ? ":" : ",:");
}

static inline void end_header(made_table *t) {
    add_text(t, ";");
    t->start = t->size;
    put_number(t->file, t->size - 4, 4, t->most);
    t->index_size = t->varies ? 8 : 0;
}

static inline void add_triplet(made_table *t, uint32_t id, uint32_t tile, uint32_t other) {
    t->size += ref_write_triplet(t->file, MOST_FILE, t->size, id, tile, other, t->most).bytes;
}

/* a row ends here that began at `begin` */
static inline void end_row(made_table *t, size_t begin) {
    t->rows++;
    if (!t->varies) return;
    put_number(t->index + t->index_size, begin, 4, t->most);
    put_number(t->index + t->index_size + 4, t->size - begin, 4, t->most);
    t->index_size += 8;
}

static inline void end_table(made_table *t, bool whole_head) {
    if (!t->varies) return;
    put_number(t->index, t->rows, 4, t->most);
    put_number(t->index + 4, t->start - (whole_head ? 0 : 4), 4, t->most);
}
#endif
