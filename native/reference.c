/* Document 01 in plain C: what the archive is compared with. It follows the paper's text and, where that is open, the readings of
 * docs/DECISIONS.md; it is not a translation of the Rattle code. A reading that both share is not tested by comparing them. */
#include "reference.h"
#include <string.h>

/* ---- wave heights: "1 to 6 digits, optionally a point and 1 to 3 digits, then only spaces" */

static bool digit(uint8_t b) { return b >= '0' && b <= '9'; }

vumbarete_height_answer ref_height(const uint8_t *text, size_t n) {
    size_t i = 0, digits = 0;
    uint32_t v = 0;
    for (; i < n && digits < 6 && digit(text[i]); i++, digits++) v = v * 10 + (text[i] - '0');
    if (digits == 0) return (vumbarete_height_answer){16, i, 0};
    v *= 1000;
    if (i < n && text[i] == '.') {
        uint32_t worth = 100;
        i++;
        if (i == n || !digit(text[i])) return (vumbarete_height_answer){16, i, 0};
        for (; i < n && worth > 0 && digit(text[i]); i++, worth /= 10) v += worth * (text[i] - '0');
    }
    for (; i < n; i++)
        if (text[i] != ' ') return (vumbarete_height_answer){16, i, 0};
    return (vumbarete_height_answer){0, 0, v};
}

vumbarete_passes_answer ref_passes(const uint8_t *measured, size_t m, const uint8_t *limit, size_t n) {
    vumbarete_height_answer l = ref_height(limit, n), h = ref_height(measured, m);
    if (l.number) return (vumbarete_passes_answer){l.number, l.place, 0};
    if (h.number) return (vumbarete_passes_answer){h.number, h.place, 0};
    return (vumbarete_passes_answer){0, 0, h.thousandths <= l.thousandths};
}

/* ---- numbers and triplets */

static uint64_t number(const uint8_t *p, int n, bool most) {
    uint64_t v = 0;
    for (int i = 0; i < n; i++) v = v << 8 | p[most ? i : n - 1 - i];
    return v;
}

#define LARGEST 2147483647u

vumbarete_triplet_answer ref_triplet(const uint8_t *s, size_t n, bool most) {
    static const int bytes_of[4] = {0, 1, 2, 4};
    uint32_t part[3];
    size_t at = 1;
    if (n == 0 || (s[0] & 3)) return (vumbarete_triplet_answer){11, 0, 0, 0, 0, 0};
    for (int k = 0; k < 3; k++) {
        int w = bytes_of[s[0] >> (6 - 2 * k) & 3];
        if (n - at < (size_t)w) return (vumbarete_triplet_answer){11, at, 0, 0, 0, 0};
        part[k] = (uint32_t)number(s + at, w, most);
        if (part[k] > LARGEST) return (vumbarete_triplet_answer){11, at, 0, 0, 0, 0};
        at += (size_t)w;
    }
    return (vumbarete_triplet_answer){0, 0, part[0], part[1], part[2], at};
}

vumbarete_written_answer ref_write_triplet(uint8_t *row, size_t n, size_t at, uint32_t id, uint32_t tile, uint32_t other, bool most) {
    uint32_t part[3] = {id, tile, other};
    uint8_t made[13];
    size_t size = 1;
    made[0] = 0;
    for (size_t k = 0; k < 3; k++)
        if (part[k] > LARGEST) return (vumbarete_written_answer){11, k + 1, 0};
    for (int k = 0; k < 3; k++) {
        int code = part[k] == 0 ? 0 : part[k] <= 0xff ? 1 : part[k] <= 0xffff ? 2 : 3;
        int w = code == 3 ? 4 : code;
        made[0] |= (uint8_t)(code << (6 - 2 * k));
        for (int i = 0; i < w; i++) made[size++] = (uint8_t)(part[k] >> 8 * (most ? w - 1 - i : i));
    }
    if (at > n) return (vumbarete_written_answer){13, at, 0};
    if (n - at < size) return (vumbarete_written_answer){14, at + size, 0};
    memcpy(row + at, made, size);
    return (vumbarete_written_answer){0, 0, size};
}

/* ---- headers */

typedef struct {
    uint32_t number;
    size_t place;
} refusal;

static const refusal fine = {0, 0};

typedef struct {
    size_t name, name_length;
    uint8_t type, key;
    uint32_t count; /* 0 for a star */
} ref_column;

typedef struct {
    bool most;
    size_t start;
    size_t columns, id;
    bool varies;
    size_t width;
    ref_column column[MOST_COLUMNS];
} ref_layout;

/* "Bytes are 32 to 126. The first two fields may hold anything but `;`; column fields hold none of `; : , =`." */
static bool in_title(uint8_t b) { return b >= 32 && b <= 126 && b != ';'; }
static bool in_column(uint8_t b) { return b >= 32 && b <= 126 && b != ';' && b != ':' && b != ',' && b != '='; }

/* The text from `at` up to `end`, taken piece by piece; the first byte that cannot continue stops it for good. */
typedef struct {
    const uint8_t *file;
    size_t at, end;
    bool bad;
} reader;

static void expect(reader *r, uint8_t b) {
    if (r->bad) return;
    if (r->at < r->end && r->file[r->at] == b) r->at++;
    else r->bad = true;
}

/* least to most bytes of a class; returns how many */
static size_t some(reader *r, bool (*class)(uint8_t), size_t least, size_t most) {
    size_t n = 0;
    if (r->bad) return 0;
    while (n < most && r->at < r->end && class(r->file[r->at])) n++, r->at++;
    if (n < least) r->bad = true;
    return n;
}

static uint32_t count_in(reader *r) {
    uint32_t v = 0;
    if (r->bad) return 0;
    if (r->at < r->end && r->file[r->at] == '*') {
        r->at++;
        return 0;
    }
    if (r->at >= r->end || r->file[r->at] == '0' || !digit(r->file[r->at])) {
        r->bad = true;
        return 0;
    }
    for (int i = 0; i < 5 && r->at < r->end && digit(r->file[r->at]); i++) v = v * 10 + (r->file[r->at++] - '0');
    return v;
}

/* the bytes of one element of a type; -1 for a letter that is not listed */
static int element(uint8_t type) {
    switch (type) {
    case 'T': case 'L': return 1;
    case 'F': return 4;
    case 'R': return 8;
    case 'S': return 2;
    case 'I': return 4;
    case 'C': return 8;
    case 'Z': return 12;
    case 'B': return 16;
    case 'Y': return 24;
    case 'D': return 20;
    case 'X': return 0;
    case 'K': return 13;
    default: return -1;
    }
}

static bool many(uint8_t type) { return type == 'T' || type == 'L' || type == 'C' || type == 'Z' || type == 'B' || type == 'Y'; }

static bool right(const ref_column *c) {
    if (element(c->type) < 0) return false;
    if (c->key != 'P' && c->key != 'U' && c->key != 'N') return false;
    return many(c->type) ? c->count <= 65535 : c->count == 1;
}

static uint8_t small(uint8_t b) { return b >= 'A' && b <= 'Z' ? b + 32 : b; }

static bool same_name(const uint8_t *a, size_t n, const uint8_t *b, size_t m) {
    if (n != m) return false;
    for (size_t i = 0; i < n; i++)
        if (small(a[i]) != small(b[i])) return false;
    return true;
}

static refusal header_of(const uint8_t *file, size_t n, ref_layout *l) {
    if (n < 5) return (refusal){1, n};
    if (file[4] != 'L' && file[4] != 'M' && file[4] != ';') return (refusal){2, 4};
    l->most = file[4] == 'M';
    uint64_t length = number(file, 4, l->most);
    if (length + 4 > n) return (refusal){1, n};
    if (length > MOST_TEXT) return (refusal){15, 0};
    reader r = {file, 4, 4 + length, false};
    if (r.at < r.end && file[4] != ';') r.at++;
    expect(&r, ';');
    some(&r, in_title, 0, 80);
    expect(&r, ';');
    some(&r, in_title, 1, 12);
    expect(&r, ';');
    size_t columns = 0, wrong = 0;
    do {
        ref_column c;
        c.name = r.at;
        c.name_length = some(&r, in_column, 1, 24);
        expect(&r, '=');
        c.type = r.at < r.end ? file[r.at] : 0;
        some(&r, in_column, 1, 1);
        expect(&r, ',');
        c.count = count_in(&r);
        expect(&r, ',');
        c.key = r.at < r.end ? file[r.at] : 0;
        some(&r, in_column, 1, 1);
        expect(&r, ',');
        some(&r, in_column, 0, 80);
        expect(&r, ',');
        for (int i = 0; i < 3; i++) {
            some(&r, in_column, 1, 12);
            if (i == 2 && r.at < r.end && file[r.at] == ':') break; /* the last comma may be missing */
            expect(&r, ',');
        }
        expect(&r, ':');
        columns++;
        if (columns <= MOST_COLUMNS) l->column[columns - 1] = c;
        if (!wrong && !r.bad && !right(&c)) wrong = columns;
    } while (!r.bad && !(r.at < r.end && file[r.at] == ';'));
    expect(&r, ';');
    if (r.bad || r.at != r.end) return (refusal){3, r.at};
    if (wrong) return (refusal){4, wrong};
    if (columns > MOST_COLUMNS) return (refusal){5, MOST_COLUMNS + 1};
    for (size_t k = 1; k < columns; k++)
        for (size_t j = 0; j < k; j++)
            if (same_name(file + l->column[j].name, l->column[j].name_length, file + l->column[k].name, l->column[k].name_length))
                return (refusal){5, k + 1};
    l->start = 4 + length, l->columns = columns, l->id = 0, l->varies = false, l->width = 0;
    for (size_t k = 0; k < columns; k++) {
        ref_column *c = &l->column[k];
        bool id = same_name(file + c->name, c->name_length, (const uint8_t *)"id", 2);
        if (id) {
            if (c->type != 'I' || c->key != 'P') return (refusal){6, 0};
            l->id = k + 1;
        } else if (c->key == 'P') {
            return (refusal){6, 0};
        }
        if (c->count == 0 || c->type == 'K') l->varies = true;
        l->width += (size_t)c->count * (size_t)element(c->type);
    }
    if (l->id == 0) return (refusal){6, 0};
    if (l->varies) l->width = 0;
    return fine;
}

vumbarete_header_answer ref_header(const uint8_t *file, size_t n) {
    ref_layout l;
    refusal q = header_of(file, n, &l);
    if (q.number) return (vumbarete_header_answer){.number = q.number, .place = q.place};
    return (vumbarete_header_answer){0, 0, l.most ? 'M' : 'L', (uint32_t)l.start, l.columns, l.id, (uint32_t)l.width};
}

size_t ref_find_column(const uint8_t *file, size_t n, const uint8_t *name, size_t m) {
    ref_layout l;
    if (header_of(file, n, &l).number) return 0;
    for (size_t k = 0; k < l.columns; k++)
        if (same_name(file + l.column[k].name, l.column[k].name_length, name, m)) return k + 1;
    return 0;
}

/* where the byte stands next, which it does in an accepted header */
static size_t next_of(const uint8_t *file, size_t p, uint8_t b) {
    while (file[p] != b) p++;
    return p;
}

/* a column of an accepted header, its text cut at the bytes that separate */
static vumbarete_column_answer shown_column(const uint8_t *file, const ref_column *c) {
    vumbarete_column_answer a = {.given = 1, .kind = c->type, .count = c->count, .key = c->key};
    a.name_start = c->name;
    a.name_end = c->name + c->name_length;
    size_t count = a.name_end + 3; /* past `=`, the type and `,` */
    a.star = file[count] == '*';
    a.description_start = next_of(file, count, ',') + 3; /* past `,`, the key and `,` */
    a.description_end = next_of(file, a.description_start, ',');
    a.value_start = a.description_end + 1;
    a.value_end = next_of(file, a.value_start, ',');
    a.thematic_start = a.value_end + 1;
    a.thematic_end = next_of(file, a.thematic_start, ',');
    a.narrative_start = a.narrative_end = a.thematic_end + 1;
    while (in_column(file[a.narrative_end])) a.narrative_end++;
    a.comma = file[a.narrative_end] == ',';
    a.after = a.narrative_end + (a.comma ? 2 : 1);
    return a;
}

size_t ref_first_place(const uint8_t *file, size_t n) {
    ref_layout l;
    return header_of(file, n, &l).number ? 0 : l.column[0].name;
}

vumbarete_column_answer ref_column_step(const uint8_t *file, size_t n, size_t place) {
    ref_layout l;
    refusal q = header_of(file, n, &l);
    if (q.number) return (vumbarete_column_answer){.number = q.number, .place = q.place};
    for (size_t k = 0; k < l.columns; k++)
        if (l.column[k].name == place) return shown_column(file, &l.column[k]);
    if (shown_column(file, &l.column[l.columns - 1]).after == place) return (vumbarete_column_answer){0};
    return (vumbarete_column_answer){.number = 13, .place = place};
}

/* ---- tables */

typedef struct {
    const uint8_t *file, *index;
    size_t size;
    ref_layout layout;
    size_t rows;
} ref_table;

/* entry i of the index, from 1 */
static uint64_t offset_of(const ref_table *t, size_t i) { return number(t->index + 8 * i, 4, t->layout.most); }
static uint64_t length_of(const ref_table *t, size_t i) { return number(t->index + 8 * i + 4, 4, t->layout.most); }

static refusal open_of(const uint8_t *file, size_t n, const uint8_t *index, size_t m, size_t most, ref_table *t) {
    ref_layout *l = &t->layout;
    refusal q = header_of(file, n, l);
    if (q.number) return q;
    t->file = file, t->index = index, t->size = n;
    if (!l->varies) {
        size_t body = n - l->start;
        t->rows = body / l->width;
        if (t->rows > most || t->rows > MOST_ROWS) return (refusal){15, 0};
        if (m != 0 || body % l->width) return (refusal){7, n};
        return fine;
    }
    if (m < 8) return (refusal){8, 0};
    uint64_t said = number(index, 4, l->most), head = number(index + 4, 4, l->most);
    if (said > most || said > MOST_ROWS) return (refusal){15, 0};
    if (m != 8 + 8 * said || (head != l->start && head + 4 != l->start)) return (refusal){8, 0};
    t->rows = said;
    uint64_t at = l->start;
    for (size_t i = 1; i <= said; i++) {
        if (offset_of(t, i) != at) return (refusal){8, i};
        at += length_of(t, i);
    }
    if (at != n) return (refusal){8, said};
    return fine;
}

static vumbarete_table_answer shown_table(refusal q, const ref_table *t) {
    const ref_layout *l = &t->layout;
    if (q.number) return (vumbarete_table_answer){.number = q.number, .place = q.place};
    return (vumbarete_table_answer){0, 0, l->most ? 'M' : 'L', (uint32_t)l->start, l->columns, l->id, (uint32_t)l->width, t->rows};
}

vumbarete_table_answer ref_open(const uint8_t *file, size_t n, const uint8_t *index, size_t m) {
    ref_table t;
    return shown_table(open_of(file, n, index, m, MOST_ROWS, &t), &t);
}

/* Row i, from 1, of 1..rows: its bytes, where each column's field starts (place[k] of column k + 1), and its judgement. */
typedef struct {
    size_t start, end;
    size_t place[MOST_COLUMNS];
} ref_fields;

static refusal fields_of(const ref_table *t, size_t i, ref_fields *r) {
    const ref_layout *l = &t->layout;
    if (l->varies) {
        r->start = offset_of(t, i);
        r->end = r->start + length_of(t, i);
    } else {
        r->start = l->start + (i - 1) * l->width;
        r->end = r->start + l->width;
    }
    size_t at = r->start;
    for (size_t k = 0; k < l->columns; k++) {
        const ref_column *c = &l->column[k];
        r->place[k] = at;
        if (c->type == 'K') {
            vumbarete_triplet_answer a = ref_triplet(t->file + at, r->end - at, l->most);
            if (a.number) return (refusal){11, a.place};
            at += a.bytes;
        } else {
            uint64_t count = c->count;
            if (count == 0) {
                if (r->end - at < 4) return (refusal){10, i};
                count = number(t->file + at, 4, l->most);
                at += 4;
            }
            uint64_t bytes = count * (uint64_t)element(c->type);
            if (bytes > r->end - at) return (refusal){10, i};
            at += bytes;
        }
    }
    if (at != r->end) return (refusal){10, i};
    if (number(t->file + r->place[l->id - 1], 4, l->most) != i) return (refusal){9, i};
    return fine;
}

vumbarete_table_answer ref_judge_rows(const uint8_t *file, size_t n, const uint8_t *index, size_t m) {
    ref_table t;
    ref_fields r;
    refusal q = open_of(file, n, index, m, MOST_ROWS, &t);
    for (size_t i = 1; !q.number && i <= t.rows; i++) q = fields_of(&t, i, &r);
    return shown_table(q, &t);
}

vumbarete_row_answer ref_row(const uint8_t *file, size_t n, const uint8_t *index, size_t m, size_t row) {
    ref_table t;
    ref_fields r;
    refusal q = open_of(file, n, index, m, MOST_ROWS, &t);
    if (!q.number && (row < 1 || row > t.rows)) q = (refusal){13, row};
    if (!q.number) q = fields_of(&t, row, &r);
    if (q.number) return (vumbarete_row_answer){q.number, q.place, 0, 0};
    return (vumbarete_row_answer){0, 0, r.start, r.end};
}

vumbarete_value_answer ref_value(const uint8_t *file, size_t n, const uint8_t *index, size_t m, size_t row, size_t column) {
    ref_table t;
    ref_fields r;
    vumbarete_value_answer v = {0};
    refusal q = open_of(file, n, index, m, MOST_ROWS, &t);
    if (!q.number && (row < 1 || row > t.rows)) q = (refusal){13, row};
    if (!q.number && (column < 1 || column > t.layout.columns)) q = (refusal){13, column};
    if (!q.number) q = fields_of(&t, row, &r);
    if (q.number) {
        v.number = q.number, v.place = q.place;
        return v;
    }
    const ref_column *c = &t.layout.column[column - 1];
    const uint8_t *p = file + r.place[column - 1];
    bool most = t.layout.most;
    switch (c->type) {
    case 'S':
        v.short_ = (int16_t)(uint16_t)number(p, 2, most);
        v.kind = v.short_ == INT16_MIN ? VUMBARETE_SHORT_NULL : VUMBARETE_SHORT;
        if (v.kind == VUMBARETE_SHORT_NULL) v.short_ = 0;
        break;
    case 'I':
        v.integer = (int32_t)(uint32_t)number(p, 4, most);
        v.kind = v.integer == INT32_MIN ? VUMBARETE_INTEGER_NULL : VUMBARETE_INTEGER;
        if (v.kind == VUMBARETE_INTEGER_NULL) v.integer = 0;
        break;
    case 'F': {
        float f;
        uint32_t b = (uint32_t)number(p, 4, most);
        memcpy(&f, &b, 4);
        v.bits = b;
        v.kind = f != f ? VUMBARETE_FLOAT_NULL : VUMBARETE_FLOAT;
        break;
    }
    case 'R': {
        double d;
        v.bits = number(p, 8, most);
        memcpy(&d, &v.bits, 8);
        v.kind = d != d ? VUMBARETE_DOUBLE_NULL : VUMBARETE_DOUBLE;
        break;
    }
    case 'K': {
        vumbarete_triplet_answer a = ref_triplet(p, r.end - r.place[column - 1], most);
        v.kind = VUMBARETE_TRIPLET, v.id = a.id, v.tile = a.tile, v.other = a.other;
        break;
    }
    case 'X': v.kind = VUMBARETE_NULL_FIELD; break;
    case 'D': v.kind = VUMBARETE_DATE, v.start = r.place[column - 1], v.bytes = 20; break;
    default: /* text and coordinates */
        v.kind = c->type == 'T' || c->type == 'L' ? VUMBARETE_TEXT : VUMBARETE_COORDINATES;
        v.start = r.place[column - 1] + (c->count ? 0 : 4);
        v.bytes = (size_t)((c->count ? c->count : number(p, 4, most)) * (uint64_t)element(c->type));
    }
    return v;
}

/* ---- rectangles */

static float float_at(const uint8_t *p, bool most) {
    uint32_t b = (uint32_t)number(p, 4, most);
    float f;
    memcpy(&f, &b, 4);
    return f;
}

static double double_at(const uint8_t *p, bool most) {
    uint64_t b = number(p, 8, most);
    double d;
    memcpy(&d, &b, 8);
    return d;
}

#define FINITE(x) ((x) - (x) == 0)

vumbarete_rectangle_answer ref_rectangle(const uint8_t *file, size_t n, const uint8_t *index, size_t m, size_t row, size_t column) {
    ref_table t;
    vumbarete_rectangle_answer a = {0};
    refusal q = open_of(file, n, index, m, MOST_ROWS, &t);
    uint8_t type = 0;
    if (!q.number && (row < 1 || row > t.rows)) q = (refusal){13, row};
    if (!q.number && (column < 1 || column > t.layout.columns)) q = (refusal){13, column};
    if (!q.number) {
        type = t.layout.column[column - 1].type;
        if (type != 'C' && type != 'Z' && type != 'B' && type != 'Y') q = (refusal){13, column};
    }
    if (q.number) {
        a.number = q.number, a.place = q.place;
        return a;
    }
    vumbarete_value_answer v = ref_value(file, n, index, m, row, column);
    size_t each = (size_t)element(type), count = v.number ? 0 : v.bytes / each;
    if (v.number) {
        a.number = v.number, a.place = v.place;
        return a;
    }
    if (count == 0) {
        a.number = 12;
        return a;
    }
    bool shorts = type == 'C' || type == 'Z';
    a.width = shorts ? 4 : 8;
    for (size_t i = 0; i < count; i++) {
        const uint8_t *p = file + v.start + i * each;
        if (shorts) {
            float x = float_at(p, t.layout.most), y = float_at(p + 4, t.layout.most);
            if (!FINITE(x) || !FINITE(y)) return (vumbarete_rectangle_answer){.number = 12, .place = i + 1};
            if (i == 0 || x < a.short_least_x) a.short_least_x = x;
            if (i == 0 || y < a.short_least_y) a.short_least_y = y;
            if (i == 0 || x > a.short_greatest_x) a.short_greatest_x = x;
            if (i == 0 || y > a.short_greatest_y) a.short_greatest_y = y;
        } else {
            double x = double_at(p, t.layout.most), y = double_at(p + 8, t.layout.most);
            if (!FINITE(x) || !FINITE(y)) return (vumbarete_rectangle_answer){.number = 12, .place = i + 1};
            if (i == 0 || x < a.least_x) a.least_x = x;
            if (i == 0 || y < a.least_y) a.least_y = y;
            if (i == 0 || x > a.greatest_x) a.greatest_x = x;
            if (i == 0 || y > a.greatest_y) a.greatest_y = y;
        }
    }
    return a;
}

/* ---- loading */

static const struct {
    const char *name;
    int table; /* 0 edg, 1 fac, 2 rng, 3 cnd */
    bool triplet_too;
} place[10] = {{"start_node", 0, false}, {"end_node", 0, false}, {"right_face", 0, true}, {"left_face", 0, true}, {"right_edge", 0, true},
               {"left_edge", 0, true},   {"ring_ptr", 1, false}, {"fac_id", 2, false},    {"start_edge", 2, false}, {"first_edge", 3, true}};

static vumbarete_loaded not_loaded(refusal q, int table) {
    return (vumbarete_loaded){.number = q.number, .place = q.place, .table = (uint32_t)table + 1};
}

vumbarete_loaded ref_load(const table_files files[4], size_t most, uint32_t *const column[10], const size_t space[10]) {
    ref_table t[4];
    ref_fields r;
    size_t at[10];
    for (int k = 0; k < 4; k++) {
        refusal q = open_of(files[k].file, files[k].size, files[k].index, files[k].index_size, most, &t[k]);
        if (q.number) return not_loaded(q, k);
    }
    for (size_t p = 0; p < 10; p++) {
        const ref_table *x = &t[place[p].table];
        at[p] = ref_find_column(x->file, x->size, (const uint8_t *)place[p].name, strlen(place[p].name));
        uint8_t type = at[p] ? x->layout.column[at[p] - 1].type : 0;
        if (type != 'I' && !(type == 'K' && place[p].triplet_too)) return not_loaded((refusal){17, p + 1}, place[p].table);
    }
    for (int k = 1; k <= 2; k++)
        if (t[k].rows == 0) return not_loaded((refusal){15, 0}, k);
    for (size_t p = 0; p < 10; p++)
        if (space[p] < t[place[p].table].rows) return not_loaded((refusal){14, t[place[p].table].rows}, place[p].table);
    for (int k = 0; k < 4; k++)
        for (size_t i = 1; i <= t[k].rows; i++) {
            refusal q = fields_of(&t[k], i, &r);
            if (q.number) return not_loaded(q, k);
        }
    for (int k = 0; k < 4; k++)
        for (size_t i = 1; i <= t[k].rows; i++) {
            fields_of(&t[k], i, &r);
            for (size_t p = 0; p < 10; p++) {
                if (place[p].table != k) continue;
                size_t from = r.place[at[p] - 1];
                if (t[k].layout.column[at[p] - 1].type == 'K') {
                    column[p][i - 1] = ref_triplet(t[k].file + from, r.end - from, t[k].layout.most).id;
                } else {
                    int32_t v = (int32_t)(uint32_t)number(t[k].file + from, 4, t[k].layout.most);
                    column[p][i - 1] = v < 0 ? 0 : (uint32_t)v;
                }
            }
        }
    return (vumbarete_loaded){0, 0, 0, t[0].rows, t[1].rows, t[2].rows, t[3].rows};
}

/* ---- the tile. Rows and sides count from 1: right of edge e is 2e-1, left is 2e. */

static inline bool in(uint32_t v, size_t n) { return v >= 1 && v <= n; }

/* "sizes (15)" */
static bool sizes_wrong(const tile32 *t) {
    size_t e = t->start_node.n;
    return t->end_node.n != e || t->right_face.n != e || t->left_face.n != e || t->right_edge.n != e || t->left_edge.n != e ||
           t->fac_id.n != t->start_edge.n || e > MOST_ROWS || t->ring_ptr.n > MOST_ROWS || t->fac_id.n > MOST_ROWS ||
           t->first_edge.n > MOST_ROWS || t->ring_ptr.n == 0 || t->fac_id.n == 0;
}

/* The successor of side s, or 0 with *wrong set to 22 to 25. "The successor is the side of the linked edge that leaves from that node:
 * right if it is the linked edge's start, left if its end. If the linked edge is a loop there, it is the one side with the present
 * face; any successor must have that face." */
static inline size_t successor(const tile32 *t, size_t s, uint32_t *wrong) {
    size_t e = (s - 1) / 2;
    bool right = s & 1;
    uint32_t face = right ? t->right_face.at[e] : t->left_face.at[e];
    uint32_t node = right ? t->end_node.at[e] : t->start_node.at[e];
    uint32_t link = right ? t->right_edge.at[e] : t->left_edge.at[e];
    if (!in(link, t->start_node.n)) return *wrong = 22, 0;
    size_t k = link - 1;
    bool starts = t->start_node.at[k] == node, ends = t->end_node.at[k] == node;
    bool on_right = t->right_face.at[k] == face, on_left = t->left_face.at[k] == face;
    if (!starts && !ends) return *wrong = 23, 0;
    if (starts && ends) {
        if (on_right && on_left) return *wrong = 25, 0;
        if (on_right) return 2 * (size_t)link - 1;
        if (on_left) return 2 * (size_t)link;
        return *wrong = 24, 0;
    }
    if (starts) return on_right ? 2 * (size_t)link - 1 : (*wrong = 24, 0);
    return on_left ? 2 * (size_t)link : (*wrong = 24, 0);
}

/* The start side of ring row r (from 1); 0 for the empty ring, "start 0 in ring row 1 when its face is 1"; SIZE_MAX where there is none (29). */
static size_t start_side(const tile32 *t, size_t r) {
    uint32_t e = t->start_edge.at[r - 1], f = t->fac_id.at[r - 1];
    if (e == 0 && r == 1 && f == 1) return 0;
    if (!in(e, t->start_node.n)) return SIZE_MAX;
    if (t->right_face.at[e - 1] == f) return 2 * (size_t)e - 1;
    if (t->left_face.at[e - 1] == f) return 2 * (size_t)e;
    return SIZE_MAX;
}

static vumbarete_verdict judged(const tile32 *t, uint32_t *marks) {
    size_t E = t->start_node.n, F = t->ring_ptr.n, R = t->fac_id.n, N = t->first_edge.n;
    for (size_t e = 0; e < E; e++)
        if (!in(t->start_node.at[e], N) || !in(t->end_node.at[e], N)) return (vumbarete_verdict){20, e + 1};
    for (size_t e = 0; e < E; e++)
        if (!in(t->right_face.at[e], F) || !in(t->left_face.at[e], F)) return (vumbarete_verdict){21, e + 1};
    for (size_t e = 0; e < E; e++)
        if (!in(t->right_edge.at[e], E) || !in(t->left_edge.at[e], E)) return (vumbarete_verdict){22, e + 1};
    /* 23 to 25, and the predecessors counted as they are found */
    memset(marks, 0, 2 * E * sizeof *marks);
    for (size_t s = 1; s <= 2 * E; s++) {
        uint32_t wrong = 0;
        size_t u = successor(t, s, &wrong);
        if (u == 0) return (vumbarete_verdict){wrong, s};
        marks[u - 1]++;
    }
    for (size_t s = 0; s < 2 * E; s++)
        if (marks[s] > 1) return (vumbarete_verdict){26, s + 1};
    for (size_t n = 1; n <= N; n++) {
        uint32_t e = t->first_edge.at[n - 1];
        if (!in(e, E) || (t->start_node.at[e - 1] != n && t->end_node.at[e - 1] != n)) return (vumbarete_verdict){27, n};
    }
    for (size_t r = 0; r < R; r++)
        if (!in(t->fac_id.at[r], F)) return (vumbarete_verdict){28, r + 1};
    /* a face is wrong where its pointer names no row of it, and where a run of it starts anywhere else */
    size_t bad = F + 1;
    for (size_t f = 1; f < bad; f++) {
        uint32_t p = t->ring_ptr.at[f - 1];
        if (!in(p, R) || t->fac_id.at[p - 1] != f) bad = f;
    }
    for (size_t r = 1; r <= R; r++) {
        uint32_t f = t->fac_id.at[r - 1];
        bool starts = r == 1 || t->fac_id.at[r - 2] != f;
        if (starts && t->ring_ptr.at[f - 1] != r && f < bad) bad = f;
    }
    if (bad <= F) return (vumbarete_verdict){28, bad};
    for (size_t r = 1; r <= R; r++)
        if (start_side(t, r) == SIZE_MAX) return (vumbarete_verdict){29, r};
    memset(marks, 0, 2 * E * sizeof *marks);
    for (size_t r = 1; r <= R; r++) {
        size_t first = start_side(t, r), s = first;
        if (first == 0) continue;
        if (marks[first - 1]) return (vumbarete_verdict){30, r};
        do {
            uint32_t wrong;
            marks[s - 1] = (uint32_t)r;
            s = successor(t, s, &wrong);
        } while (s != first);
    }
    for (size_t s = 0; s < 2 * E; s++)
        if (marks[s] == 0) return (vumbarete_verdict){31, s + 1};
    return (vumbarete_verdict){0, 0};
}

vumbarete_verdict ref_check(const tile32 *t, uint32_t *marks, size_t space) {
    size_t E = t->start_node.n;
    if (sizes_wrong(t)) return (vumbarete_verdict){15, 0};
    if (space < 2 * E) return (vumbarete_verdict){14, 2 * E};
    vumbarete_verdict v = judged(t, marks);
    if (v.number) memset(marks, 0, 2 * E * sizeof *marks);
    return v;
}

vumbarete_steps ref_walk(const tile32 *t, size_t row, uint32_t *out, size_t space) {
    if (sizes_wrong(t)) return (vumbarete_steps){15, 0, 0};
    size_t E = t->start_node.n;
    if (row < 1 || row > t->fac_id.n) return (vumbarete_steps){13, row, 0};
    size_t first = start_side(t, row);
    if (first == SIZE_MAX) return (vumbarete_steps){29, row, 0};
    if (first == 0) return (vumbarete_steps){0, 0, 0};
    size_t s = first, steps = 0;
    do {
        uint32_t wrong = 0;
        if (steps == 2 * E) return (vumbarete_steps){32, row, 0};
        size_t u = successor(t, s, &wrong);
        if (u == 0) return (vumbarete_steps){wrong, wrong == 22 ? (s + 1) / 2 : s, 0};
        s = u;
        steps++;
    } while (s != first);
    if (space < steps) return (vumbarete_steps){14, steps, 0};
    for (size_t i = 0; i < steps; i++) {
        uint32_t wrong;
        out[i] = (uint32_t)s;
        s = successor(t, s, &wrong);
    }
    return (vumbarete_steps){0, 0, steps};
}
