/* The archive against reference.c: random valid, damaged and arbitrary input, long and short. Answers and every lent buffer must be equal,
 * and so must some bytes past each buffer's end. `compare [CASES [SEED]]`: so many cases of each entry point, by default 100,000. */
#include "tables.h"
#include "tiles.h"
#include <inttypes.h>
#include <stdio.h>

static uint64_t state;

static uint64_t draw(void) {
    uint64_t z = state += 0x9e3779b97f4a7c15u;
    z = (z ^ z >> 30) * 0xbf58476d1ce4e5b9u;
    z = (z ^ z >> 27) * 0x94d049bb133111ebu;
    return z ^ z >> 31;
}

/* one of 0..n-1 */
static size_t below(size_t n) { return n ? draw() % n : 0; }
static bool chance(size_t one_in) { return below(one_in) == 0; }

static unsigned long passed, failed;
static const char *entry;
static uint64_t case_seed;

static void judge(bool same) {
    if (same) {
        passed++;
        return;
    }
    if (failed++ < 10) printf("DIFFERENCE %s: seed %" PRIu64 "\n", entry, case_seed);
}

#define SAME(a, b, member) ((a).member == (b).member)
#define SAME_REFUSAL(a, b) (SAME(a, b, number) && SAME(a, b, place))

/* what happened, so that a run shows that it saw every answer */
static unsigned long seen[33];
static void note(uint32_t number) { seen[number < 33 ? number : 0]++; }

/* ---- wave heights */

static size_t height_text(uint8_t *s) {
    static const uint8_t some[] = "0123456789. .0 5x-+,";
    size_t n = 0;
    if (chance(3)) {
        n = below(14);
        for (size_t i = 0; i < n; i++) s[i] = chance(20) ? (uint8_t)draw() : some[below(sizeof some - 1)];
        return n;
    }
    size_t whole = 1 + below(6), part = below(4), spaces = chance(2) ? below(5) : 0;
    for (size_t i = 0; i < whole; i++) s[n++] = (uint8_t)('0' + below(10));
    if (part) {
        s[n++] = '.';
        for (size_t i = 0; i < part; i++) s[n++] = (uint8_t)('0' + below(10));
    }
    for (size_t i = 0; i < spaces; i++) s[n++] = ' ';
    if (chance(300))
        while (n < 4000) s[n++] = ' ';
    if (chance(4)) s[below(n)] = some[below(sizeof some - 1)];
    if (chance(8)) n = below(n + 1);
    return n;
}

static void height_case(void) {
    static uint8_t s[4096];
    size_t n = height_text(s);
    vumbarete_height_answer a = vumbarete_height(s, n), b = ref_height(s, n);
    note(a.number);
    judge(SAME_REFUSAL(a, b) && SAME(a, b, thousandths));
}

static void passes_case(void) {
    static uint8_t s[4096], t[4096];
    size_t n = height_text(s), m = height_text(t);
    if (chance(4)) memcpy(t, s, m = n);
    vumbarete_passes_answer a = vumbarete_passes(s, n, t, m), b = ref_passes(s, n, t, m);
    note(a.number);
    judge(SAME_REFUSAL(a, b) && SAME(a, b, passes));
}

/* ---- triplets */

static uint32_t id_number(void) {
    switch (below(8)) {
    case 0: return 0;
    case 1: return (uint32_t)below(256);
    case 2: return (uint32_t)(254 + below(4));
    case 3: return (uint32_t)below(65536);
    case 4: return (uint32_t)(65534 + below(4));
    case 5: return (uint32_t)(2147483645u + below(5));
    case 6: return (uint32_t)below(2147483648u);
    default: return (uint32_t)draw();
    }
}

static void triplet_case(void) {
    uint8_t s[24];
    bool most = chance(2);
    for (size_t i = 0; i < sizeof s; i++) s[i] = (uint8_t)(chance(3) ? below(2) : draw());
    if (!chance(8)) s[0] &= 0xfc;
    if (chance(2)) /* parts that are not too large */
        for (size_t i = 1; i < sizeof s; i++) s[i] &= 0x7f;
    if (chance(3)) ref_write_triplet(s, sizeof s, 0, id_number(), id_number(), id_number(), most);
    size_t n = chance(2) ? below(15) : sizeof s;
    vumbarete_triplet_answer a = vumbarete_triplet(s, n, most), b = ref_triplet(s, n, most);
    note(a.number);
    judge(SAME_REFUSAL(a, b) && SAME(a, b, id) && SAME(a, b, tile) && SAME(a, b, other) && SAME(a, b, bytes));
}

static void write_triplet_case(void) {
    uint8_t s[80], t[80];
    bool most = chance(2);
    for (size_t i = 0; i < sizeof s; i++) s[i] = t[i] = (uint8_t)draw();
    size_t n = below(60), at = chance(20) ? (size_t)draw() : below(n + 4);
    uint32_t id = id_number(), tile = id_number(), other = id_number();
    vumbarete_written_answer a = vumbarete_write_triplet(s, n, at, id, tile, other, most), b = ref_write_triplet(t, n, at, id, tile, other, most);
    note(a.number);
    judge(SAME_REFUSAL(a, b) && SAME(a, b, bytes) && memcmp(s, t, sizeof s) == 0);
}

/* ---- headers and tables */

static made_table made;

static const char *printable(char *s, size_t least, size_t most, const char *except) {
    size_t n = chance(6) ? most : chance(6) ? least : least + below(most - least + 1);
    if (n > 12 && !chance(20)) n = least + below(12);
    for (size_t i = 0; i < n; i++) do
            s[i] = (char)(chance(2) ? 'a' + below(26) : 32 + below(95));
        while (strchr(except, s[i]));
    s[n] = 0;
    return s;
}

static void random_fields(made_table *t, size_t row) {
    for (size_t k = 0; k < t->columns; k++) {
        uint32_t count = t->count[k];
        if (t->type[k] == 'K') {
            uint32_t part[3];
            for (int i = 0; i < 3; i++) part[i] = id_number() & 0x7fffffff;
            add_triplet(t, part[0], part[1], part[2]);
            continue;
        }
        if (count == 0) {
            count = chance(4) ? 0 : (uint32_t)below(5);
            add_number(t, count, 4);
        }
        switch (t->type[k]) {
        case 'T': case 'L': for (uint32_t i = 0; i < count; i++) t->file[t->size++] = (uint8_t)draw(); break;
        case 'F': add_number(t, chance(4) ? 0x7fc00000 : chance(4) ? 0x7f800000 : draw(), 4); break;
        case 'R': add_number(t, chance(4) ? 0x7ff0000000000000 + below(2) : draw(), 8); break;
        case 'S': add_number(t, chance(4) ? 0x8000 : draw(), 2); break;
        case 'I': add_number(t, t->columns && k + 1 == row >> 40 ? row & 0xffffffff : chance(4) ? 0x80000000 : draw(), 4); break;
        case 'D': for (int i = 0; i < 20; i++) t->file[t->size++] = (uint8_t)draw(); break;
        case 'C': case 'Z':
            for (uint32_t i = 0; i < count * (t->type[k] == 'C' ? 2 : 3); i++) {
                uint32_t b;
                float f = (float)((double)below(2001) - 1000) * 0.5f * (chance(4) ? 0.0f : 1.0f);
                if (chance(8)) f = -f;
                memcpy(&b, &f, 4);
                add_number(t, chance(60) ? 0x7f800000 | draw() : chance(20) ? draw() : b, 4);
            }
            break;
        case 'B': case 'Y':
            for (uint32_t i = 0; i < count * (t->type[k] == 'B' ? 2 : 3); i++) {
                uint64_t b;
                double f = ((double)below(2001) - 1000) * 0.25 * (chance(4) ? 0.0 : 1.0);
                if (chance(8)) f = -f;
                memcpy(&b, &f, 8);
                add_number(t, chance(60) ? 0x7ff0000000000000 | draw() : chance(20) ? draw() : b, 8);
            }
            break;
        default: break;
        }
    }
}

/* the last three names of a column, and whether its last comma stands */
static void some_names(made_table *t, char *names, bool mixed) {
    size_t n = 0;
    for (int i = 0; i < 3; i++) {
        if (i) names[n++] = ',';
        n += strlen(chance(2) ? strcpy(names + n, "-") : printable(names + n, 1, 12, ";:,="));
    }
    t->names = names, t->bare = mixed && chance(2);
}

/* a right table: any columns, any rows */
static void right_table(made_table *t) {
    static const char types[] = "TLFRSICZBYDXK";
    static char names[48]; /* the table keeps it */
    char title[96], narrative[16], name[32], about[96], count[8];
    size_t columns = chance(60) ? MOST_COLUMNS - 4 + below(6) : 1 + below(7), id = below(columns);
    bool fixed = chance(2), faulty = chance(12), alike = chance(5), mixed = chance(3);
    begin_table(t, "LM\0"[below(3)], printable(title, 0, 80, ";"), printable(narrative, 1, 12, ";"));
    for (size_t k = 0; k < columns; k++) {
        some_names(t, names, mixed);
        if (k == id) {
            static const char *ids[] = {"id", "ID", "Id", "iD"};
            add_column(t, ids[below(4)], 'I', "1", 'P', printable(about, 0, 80, ";:,="));
            continue;
        }
        char type = types[below(fixed ? 12 : 13)];
        bool several = strchr("TLCZBY", type) != NULL;
        if (several && !fixed && chance(2)) strcpy(count, "*");
        else snprintf(count, sizeof count, "%u", several ? (unsigned)(1 + below(3)) : 1u);
        size_t part = chance(40) ? below(k + 1) : k;
        if (alike) { /* names that differ in the middle alone; 0 to 9 and p to y have the same five bits */
            snprintf(name, sizeof name, "%s%02zu%s", chance(2) ? "ab" : "aB", part, chance(2) ? "xyz" : "Xyz");
            for (size_t i = 2; name[i] >= '0' && name[i] <= '9'; i++)
                if (chance(2)) name[i] = (char)(name[i] - '0' + "pP"[below(2)]);
        } else {
            snprintf(name, sizeof name, "%c%zu", (char)('a' + below(26)), part);
            if (chance(3)) printable(name + strlen(name), 0, 24 - strlen(name), ";:,=");
        }
        if (chance(80 + 4 * columns)) strcpy(name, "iD");
        char key = "UN"[below(2)];
        if (faulty && chance(6)) { /* what the grammar takes and the rules do not */
            if (chance(3)) key = "PXpu "[below(5)];
            else if (chance(2)) type = "NMtGi *0"[below(8)];
            else strcpy(count, chance(2) ? "*" : chance(2) ? "65536" : "2");
        }
        add_column(t, name, type, count, key, printable(about, 0, 80, ";:,="));
    }
    end_header(t);
    size_t rows = chance(8) ? 0 : 1 + below(4);
    if (faulty) rows = 0;
    if (chance(400) && columns < 8 && !faulty) rows = 300;
    for (size_t i = 1; i <= rows; i++) {
        size_t begin = t->size;
        random_fields(t, (id + 1) << 40 | (chance(25) ? below(6) : i));
        end_row(t, begin);
    }
    end_table(t, chance(2));
}

static void spoil_byte(uint8_t *s, size_t n, bool text) {
    static const uint8_t some[] = ";:,=*0129LMPUNIKXid- ";
    if (n == 0) return;
    s[below(n)] = text && !chance(6) ? some[below(sizeof some - 1)] : (uint8_t)(chance(2) ? below(3) : draw());
}

static uint64_t number_at(const uint8_t *p, bool most) {
    uint64_t v = 0;
    for (int i = 0; i < 4; i++) v = v << 8 | p[most ? i : 3 - i];
    return v;
}

static void spoil_table(made_table *t) {
    if (t->size < t->start || t->start < 5) return;
    switch (below(17)) {
    case 12: case 13: case 14: case 15: /* a row's end is moved, and the next row's start with it */
        if (t->varies && t->rows > 1) {
            size_t i = 1 + below(t->rows - 1), by = chance(2) ? 1 + below(4) : (size_t)0 - 1 - below(4);
            uint8_t *entry_ = t->index + 8 * i;
            put_number(entry_ + 4, number_at(entry_ + 4, t->most) + by, 4, t->most);
            put_number(entry_ + 8, number_at(entry_ + 8, t->most) + by, 4, t->most);
            put_number(entry_ + 12, number_at(entry_ + 12, t->most) - by, 4, t->most);
        } else {
            spoil_byte(t->file + t->start, t->size - t->start, false);
        }
        break;
    case 0: t->size = below(t->size + 1); break;
    case 1: for (size_t k = 1 + below(6); k > 0; k--) t->file[t->size++] = (uint8_t)draw(); break;
    case 2: case 3: case 4: spoil_byte(t->file + 4, t->start - 4, true); break;
    case 5: put_number(t->file, chance(3) ? draw() : t->start - 4 + below(5) - 2, 4, t->most); break;
    case 6: case 7: case 8:
        for (size_t k = 1 + below(2); k > 0; k--) spoil_byte(t->file + t->start, t->size - t->start, false);
        break;
    case 9: spoil_byte(t->index, t->index_size, false); break;
    case 10:
        if (chance(2)) t->index_size = below(t->index_size + 1);
        else t->index[t->index_size++] = (uint8_t)draw();
        break;
    case 16: { /* a comma goes or comes before a colon, and L with it */
        size_t at = 4 + below(t->start - 4);
        while (at < t->start && t->file[at] != ':') at++;
        if (at == t->start) break;
        if (t->file[at - 1] == ',') memmove(t->file + at - 1, t->file + at, t->size-- - at), t->start--;
        else memmove(t->file + at + 1, t->file + at, t->size++ - at), t->file[at] = ',', t->start++;
        put_number(t->file, t->start - 4, 4, t->most);
        break;
    }
    case 11: { /* a byte goes or comes in the text */
        size_t at = 4 + below(t->start - 4);
        if (chance(2)) memmove(t->file + at, t->file + at + 1, t->size-- - at - 1);
        else memmove(t->file + at + 1, t->file + at, t->size++ - at), spoil_byte(t->file + at, 1, true);
        if (chance(2)) put_number(t->file, t->size < 4 ? 0 : t->start - 4 + below(3) - 1, 4, t->most);
        break;
    }
    }
}

static void some_table(made_table *t) {
    if (chance(30)) { /* arbitrary */
        t->size = below(chance(4) ? 300 : 12), t->index_size = below(30), t->rows = below(3), t->columns = 3;
        for (size_t i = 0; i < t->size; i++) t->file[i] = (uint8_t)draw();
        for (size_t i = 0; i < t->index_size; i++) t->index[i] = (uint8_t)draw();
        if (chance(2)) {
            memset(t->file, 0, 4);
            t->file[0] = (uint8_t)below(t->size + 4), t->file[4] = "LM;"[below(3)];
        }
        return;
    }
    if (chance(2000)) { /* L of about 32,767 */
        begin_table(t, 'L', "", "-");
        add_column(t, "id", 'I', "1", 'P', "");
        while (t->size < MOST_TEXT - 60) {
            char name[16];
            snprintf(name, sizeof name, "c%zu", t->columns % (MOST_COLUMNS + 6));
            t->columns %= MOST_COLUMNS + 6;
            add_column(t, name, 'I', "1", 'N', "");
        }
        end_header(t);
        while (t->size < MOST_TEXT + 4 + below(3)) t->file[t->size++] = ';';
        put_number(t->file, t->size - 4, 4, false);
        t->rows = 0;
        return;
    }
    right_table(t);
    if (chance(3)) return;
    for (size_t k = chance(4) ? 2 : 1; k > 0; k--) spoil_table(t);
}

static bool same_header(vumbarete_header_answer a, vumbarete_header_answer b) {
    return SAME_REFUSAL(a, b) && SAME(a, b, order) && SAME(a, b, start) && SAME(a, b, columns) && SAME(a, b, id) && SAME(a, b, width);
}

static void header_case(void) {
    some_table(&made);
    vumbarete_header_answer a = vumbarete_header(made.file, made.size), b = ref_header(made.file, made.size);
    note(a.number);
    judge(same_header(a, b));
}

static void find_column_case(void) {
    char name[32];
    some_table(&made);
    if (chance(3)) strcpy(name, chance(2) ? "id" : "ID");
    else snprintf(name, sizeof name, "%c%zu", (char)((chance(2) ? 'a' : 'A') + below(26)), below(5));
    size_t a = vumbarete_find_column(made.file, made.size, (uint8_t *)name, strlen(name));
    size_t b = ref_find_column(made.file, made.size, (uint8_t *)name, strlen(name));
    judge(a == b);
}

static void first_place_case(void) {
    some_table(&made);
    judge(vumbarete_first_place(made.file, made.size) == ref_first_place(made.file, made.size));
}

static bool same_column(vumbarete_column_answer a, vumbarete_column_answer b) {
    return SAME_REFUSAL(a, b) && SAME(a, b, given) && SAME(a, b, name_start) && SAME(a, b, name_end) && SAME(a, b, kind) && SAME(a, b, star) &&
           SAME(a, b, count) && SAME(a, b, key) && SAME(a, b, description_start) && SAME(a, b, description_end) && SAME(a, b, value_start) &&
           SAME(a, b, value_end) && SAME(a, b, thematic_start) && SAME(a, b, thematic_end) && SAME(a, b, narrative_start) &&
           SAME(a, b, narrative_end) && SAME(a, b, comma) && SAME(a, b, after);
}

/* headers with columns of both forms that were stepped through */
static unsigned long mixed_forms;

/* every step from the first place on, and one anywhere */
static void column_step_case(void) {
    some_table(&made);
    bool same = true, form[2] = {false, false};
    size_t place = vumbarete_first_place(made.file, made.size);
    vumbarete_column_answer a, b;
    do {
        a = vumbarete_column_step(made.file, made.size, place), b = ref_column_step(made.file, made.size, place);
        same = same && same_column(a, b);
        if (a.given) form[a.comma ? 1 : 0] = true, place = a.after;
    } while (same && a.given);
    mixed_forms += form[0] && form[1];
    note(a.number);
    place = chance(20) ? (size_t)draw() : below(made.size + 3);
    a = vumbarete_column_step(made.file, made.size, place), b = ref_column_step(made.file, made.size, place);
    note(a.number);
    judge(same && same_column(a, b));
}

static bool same_table(vumbarete_table_answer a, vumbarete_table_answer b) {
    return SAME_REFUSAL(a, b) && SAME(a, b, order) && SAME(a, b, start) && SAME(a, b, columns) && SAME(a, b, id) && SAME(a, b, width) &&
           SAME(a, b, rows);
}

#define MADE made.file, made.size, made.index, made.index_size

static void open_case(void) {
    some_table(&made);
    vumbarete_table_answer a = vumbarete_open(MADE), b = ref_open(MADE);
    note(a.number);
    judge(same_table(a, b));
}

static void judge_rows_case(void) {
    some_table(&made);
    vumbarete_table_answer a = vumbarete_judge_rows(MADE), b = ref_judge_rows(MADE);
    note(a.number);
    judge(same_table(a, b));
}

static size_t some_row(void) { return chance(30) ? (size_t)draw() : chance(4) ? below(made.rows + 2) : 1 + below(made.rows); }
static size_t some_column(void) { return chance(30) ? (size_t)draw() : chance(8) ? below(made.columns + 3) : 1 + below(made.columns); }

static void row_case(void) {
    some_table(&made);
    size_t row = some_row();
    vumbarete_row_answer a = vumbarete_row(MADE, row), b = ref_row(MADE, row);
    note(a.number);
    judge(SAME_REFUSAL(a, b) && SAME(a, b, start) && SAME(a, b, end));
}

static bool same_value(vumbarete_value_answer a, vumbarete_value_answer b) {
    return SAME_REFUSAL(a, b) && SAME(a, b, kind) && SAME(a, b, short_) && SAME(a, b, integer) && SAME(a, b, bits) && SAME(a, b, id) &&
           SAME(a, b, tile) && SAME(a, b, other) && SAME(a, b, start) && SAME(a, b, bytes);
}

static void value_case(void) {
    some_table(&made);
    size_t row = some_row(), column = some_column();
    vumbarete_value_answer a = vumbarete_value(MADE, row, column), b = ref_value(MADE, row, column);
    note(a.number);
    judge(same_value(a, b));
}

/* the same bits, so that 0.0 and -0.0 differ */
#define SAME_BITS(a, b, member) (memcmp(&(a).member, &(b).member, sizeof(a).member) == 0)

static bool same_rectangle(vumbarete_rectangle_answer a, vumbarete_rectangle_answer b) {
    return SAME_REFUSAL(a, b) && SAME(a, b, width) && SAME_BITS(a, b, short_least_x) && SAME_BITS(a, b, short_least_y) &&
           SAME_BITS(a, b, short_greatest_x) && SAME_BITS(a, b, short_greatest_y) && SAME_BITS(a, b, least_x) && SAME_BITS(a, b, least_y) &&
           SAME_BITS(a, b, greatest_x) && SAME_BITS(a, b, greatest_y);
}

static void rectangle_case(void) {
    some_table(&made);
    size_t row = some_row(), column = some_column();
    for (size_t k = 0; k < made.columns && !chance(6); k++) {
        column = 1 + below(made.columns);
        if (strchr("CZBY", made.type[column - 1])) break;
    }
    vumbarete_rectangle_answer a = vumbarete_rectangle(MADE, row, column), b = ref_rectangle(MADE, row, column);
    note(a.number);
    judge(same_rectangle(a, b));
}

/* ---- tiles */

/* any edges over any nodes, in any rotation around each node: its cycles are rings, and faces are given to them at will */
static void rotation_tile(made_tile *m, size_t edges) {
    size_t sides = 2 * edges, most_nodes = chance(6) ? 1 + below(2) : 2 + below(edges + 1);
    uint32_t *start = malloc(edges * 4), *end = malloc(edges * 4), *next = malloc(sides * 4), *ring = malloc(sides * 4),
             *first = malloc(sides * 4), *number = calloc(most_nodes + 1, 4), *order = malloc(sides * 4), *head = malloc((most_nodes + 1) * 4),
             *turn = malloc(sides * 4), *last = malloc((most_nodes + 1) * 4);
    uint32_t nodes = 0;
    for (size_t e = 0; e < edges; e++) {
        size_t a = below(most_nodes), b = chance(15) || most_nodes == 1 ? a : (a + 1 + below(most_nodes - 1)) % most_nodes;
        if (!number[a]) number[a] = ++nodes;
        if (!number[b]) number[b] = ++nodes;
        start[e] = number[a], end[e] = number[b];
    }
    /* the sides in any order; those that leave a node follow each other around it in that order */
    for (size_t i = 0; i < sides; i++) {
        size_t j = below(i + 1);
        order[i] = order[j];
        order[j] = (uint32_t)i;
    }
    for (size_t n = 0; n <= nodes && n <= most_nodes; n++) head[n] = last[n] = UINT32_MAX;
    for (size_t i = 0; i < sides; i++) {
        uint32_t s = order[i], n = s % 2 ? end[s / 2] : start[s / 2];
        if (head[n] == UINT32_MAX)
            head[n] = s;
        else
            turn[last[n]] = s;
        last[n] = s;
    }
    for (uint32_t n = 1; n <= nodes; n++) turn[last[n]] = head[n];
    for (size_t s = 0; s < sides; s++) next[s] = turn[s ^ 1];
    size_t rings = cycles(sides, next, ring, first);
    size_t faces = chance(3) ? rings : 1 + below(rings);
    uint32_t *face = malloc(rings * 4);
    for (size_t r = 0; r < rings; r++) face[r] = (uint32_t)(r < faces ? r + 1 : 1 + below(faces));
    fill_tile(m, edges, nodes, faces, rings, start, end, next, ring, face, first);
    free(start), free(end), free(next), free(ring), free(first), free(number), free(order), free(head), free(turn), free(last), free(face);
}

static uint32_t odd_number(size_t n) {
    return chance(4) ? 0 : chance(4) ? (uint32_t)n + 1 : chance(8) ? (uint32_t)draw() : (uint32_t)(1 + below(n + 1));
}

/* a ring row less, and the pointers of later faces moved up */
static void lose_ring(made_tile *m) {
    size_t rings = m->length[FAC_ID];
    if (rings < 2 || rings != m->length[START_EDGE]) return;
    size_t r = below(rings);
    for (int c = FAC_ID; c <= START_EDGE; c++) {
        memmove(m->column[c] + r, m->column[c] + r + 1, (rings - r - 1) * 4);
        m->length[c]--;
    }
    for (size_t f = 0; f < m->length[RING_PTR]; f++)
        if (m->column[RING_PTR][f] > r + 1) m->column[RING_PTR][f]--;
}

/* a face 1 of no side before the others */
static void gain_face(made_tile *m) {
    size_t faces = m->length[RING_PTR]++;
    memmove(m->column[RING_PTR] + 1, m->column[RING_PTR], faces * 4);
    m->column[RING_PTR][0] = 1;
    for (int c = RIGHT_FACE; c <= FAC_ID; c++)
        if (c <= LEFT_FACE || c == FAC_ID)
            for (size_t i = 0; i < m->length[c]; i++) m->column[c][i]++;
}

/* a ring row without a start edge: row 1, for face 1, or now and then another row or face; the pointers of later runs moved down */
static void gain_null_ring(made_tile *m) {
    if (chance(3)) gain_face(m);
    size_t rings = m->length[FAC_ID], r = chance(8) ? below(rings + 1) : 0;
    uint32_t face = chance(8) ? 1 + (uint32_t)below(m->length[RING_PTR]) : 1;
    for (int c = FAC_ID; c <= START_EDGE; c++) {
        memmove(m->column[c] + r + 1, m->column[c] + r, (rings - r) * 4);
        m->column[c][r] = c == FAC_ID ? face : 0;
        m->length[c]++;
    }
    for (size_t f = 0; f < m->length[RING_PTR]; f++)
        if (m->column[RING_PTR][f] > r && f + 1 != face) m->column[RING_PTR][f]++;
}

static void some_tile(made_tile *m) {
    if (chance(12)) { /* arbitrary */
        size_t e = below(5), f = below(4), r = below(5), n = below(4);
        new_tile(m, e, f, r, n);
        for (int c = 0; c < 10; c++)
            for (size_t i = 0; i < m->length[c]; i++) m->column[c][i] = (uint32_t)below(4);
    } else if (chance(10)) { /* no edges */
        size_t f = 1 + below(2), r = 1 + below(2);
        new_tile(m, 0, f, r, chance(4));
        for (int c = 0; c < 10; c++)
            for (size_t i = 0; i < m->length[c]; i++) m->column[c][i] = (uint32_t)(c == FAC_ID || c == RING_PTR ? 1 + below(2) : below(2) * below(2));
        if (chance(2)) m->column[RING_PTR][0] = 1, m->column[FAC_ID][0] = 1, m->column[START_EDGE][0] = 0;
    } else if (chance(40)) {
        grid_tile(m, 1 + below(9), 1 + below(9));
    } else {
        rotation_tile(m, chance(60) ? 1 + below(300) : 1 + below(8));
    }
    if (m->length[0] && m->length[RING_PTR] && m->length[FAC_ID] && chance(4)) gain_null_ring(m);
    if (chance(3)) return;
    if (chance(12)) {
        lose_ring(m);
        return;
    }
    for (size_t k = 1 + (chance(3) ? below(3) : 0); k > 0; k--) {
        int c = (int)below(10);
        if (chance(25)) { /* a slice a little shorter or longer */
            if (chance(2) && m->length[c]) {
                m->length[c]--;
            } else {
                m->column[c][m->length[c]] = odd_number(m->length[c]);
                m->length[c]++;
            }
            return;
        }
        if (!m->length[c]) continue;
        size_t i = below(m->length[c]);
        if (chance(2)) m->column[c][i] = odd_number(m->length[0]);
        else m->column[c][i] = m->column[c][below(m->length[c])]; /* an equal of another */
        if (chance(3)) { /* or two exchanged */
            size_t j = below(m->length[c]);
            uint32_t v = m->column[c][i];
            m->column[c][i] = m->column[c][j];
            m->column[c][j] = v;
        }
    }
}

#define COLUMNS(m)                                                                                                                          \
    (m).column[0], (m).length[0], (m).column[1], (m).length[1], (m).column[2], (m).length[2], (m).column[3], (m).length[3], (m).column[4],   \
        (m).length[4], (m).column[5], (m).length[5], (m).column[6], (m).length[6], (m).column[7], (m).length[7], (m).column[8],              \
        (m).length[8], (m).column[9], (m).length[9]

static void two_buffers(uint32_t **a, uint32_t **b, size_t n) {
    *a = malloc(n * 4), *b = malloc(n * 4);
    for (size_t i = 0; i < n; i++) (*a)[i] = (*b)[i] = (uint32_t)draw();
}

/* the tiles with edges that were accepted with a ring without a start, and the walks of such rings */
static unsigned long null_rings, null_walks;

static void check_case(void) {
    made_tile m;
    uint32_t *ours, *theirs;
    some_tile(&m);
    size_t need = 2 * m.length[0], space = chance(12) ? below(need + 1) : need + below(4);
    two_buffers(&ours, &theirs, need + 8);
    tile32 t = lent(&m);
    vumbarete_verdict a = vumbarete_check(COLUMNS(m), ours, space), b = ref_check(&t, theirs, space);
    note(a.number);
    null_rings += need && !a.number && m.column[START_EDGE][0] == 0;
    judge(SAME_REFUSAL(a, b) && memcmp(ours, theirs, (need + 8) * 4) == 0);
    free(ours), free(theirs), drop_tile(&m);
}

static void walk_case(void) {
    made_tile m;
    uint32_t *ours, *theirs;
    some_tile(&m);
    size_t need = 2 * m.length[0], space = chance(4) ? below(need + 1) : need + below(4);
    size_t row = chance(20) ? (size_t)draw() : chance(8) ? below(m.length[FAC_ID] + 2) : 1 + below(m.length[FAC_ID]);
    two_buffers(&ours, &theirs, need + 8);
    tile32 t = lent(&m);
    vumbarete_steps a = vumbarete_walk(COLUMNS(m), row, ours, space), b = ref_walk(&t, row, theirs, space);
    note(a.number);
    null_walks += need && !a.number && a.steps == 0;
    judge(SAME_REFUSAL(a, b) && SAME(a, b, steps) && memcmp(ours, theirs, (need + 8) * 4) == 0);
    free(ours), free(theirs), drop_tile(&m);
}

/* "over 1,000,000 rows" is 15: each table once at the limit and once past it. No program of the gate can hold so many. */
static void limit_case(size_t edges, size_t faces, size_t rings, size_t nodes) {
    made_tile m;
    uint32_t *ours, *theirs;
    new_tile(&m, edges, faces, rings, nodes);
    for (int i = 0; i < 10; i++)
        for (size_t k = 0; k < m.length[i]; k++) m.column[i][k] = 1;
    size_t need = 2 * edges;
    two_buffers(&ours, &theirs, need + 8);
    tile32 t = lent(&m);
    bool past = edges > MOST_ROWS || faces > MOST_ROWS || rings > MOST_ROWS || nodes > MOST_ROWS;
    vumbarete_verdict a = vumbarete_check(COLUMNS(m), ours, need), b = ref_check(&t, theirs, need);
    note(a.number);
    judge(SAME_REFUSAL(a, b) && (a.number == 15) == past && memcmp(ours, theirs, (need + 8) * 4) == 0);
    vumbarete_steps w = vumbarete_walk(COLUMNS(m), 1, ours, need), v = ref_walk(&t, 1, theirs, need);
    note(w.number);
    judge(SAME_REFUSAL(w, v) && SAME(w, v, steps) && (w.number == 15) == past && memcmp(ours, theirs, (need + 8) * 4) == 0);
    free(ours), free(theirs), drop_tile(&m);
}

static void limits(void) {
    static const size_t at[2] = {MOST_ROWS, MOST_ROWS + 1};
    unsigned long before = failed;
    entry = "limits";
    memset(seen, 0, sizeof seen);
    for (int k = 0; k < 2; k++) {
        limit_case(at[k], 1, 1, 1), limit_case(1, at[k], 1, 1);
        limit_case(1, 1, at[k], 1), limit_case(1, 1, 1, at[k]);
    }
    printf("%-16s 16 cases, %lu differences; 15 given %lu times\n", entry, failed - before, seen[15]);
}

/* ---- loading */

static made_table four[4];

/* the tables of a tile, their columns in any order among others */
static void tile_tables(const made_tile *m) {
    static const char *names[10] = {"start_node", "end_node", "right_face", "left_face", "right_edge", "left_edge", "ring_ptr", "fac_id", "start_edge", "first_edge"};
    static const int first[5] = {START_NODE, RING_PTR, FAC_ID, FIRST_EDGE, 10};
    static const char types[] = "TLFRSICZBYDX";
    for (int k = 0; k < 4; k++) {
        made_table *t = &four[k];
        int source[24], n = 0; /* of each column: 10 the id, a place from 0, or 11 for any other */
        source[n++] = 10;
        for (int p = first[k]; p < first[k + 1]; p++) source[n++] = p;
        for (size_t other = chance(2) ? 0 : below(4); other > 0; other--) source[n++] = 11;
        for (int i = n - 1; i > 0; i--) {
            int j = (int)below((size_t)i + 1), v = source[i];
            source[i] = source[j], source[j] = v;
        }
        begin_table(t, "LM\0"[below(3)], "", "-");
        for (int i = 0; i < n; i++) {
            char name[32];
            t->bare = chance(6);
            if (source[i] == 10) {
                add_column(t, "id", 'I', "1", 'P', "");
            } else if (source[i] == 11) {
                char type = types[below(12)];
                bool several = strchr("TLCZBY", type) != NULL;
                snprintf(name, sizeof name, "other%d", i);
                add_column(t, name, type, several && chance(4) ? "*" : "1", 'N', "");
            } else {
                bool triplet = (source[i] >= RIGHT_FACE && source[i] <= LEFT_EDGE) || source[i] == FIRST_EDGE ? chance(3) : chance(100);
                strcpy(name, names[source[i]]);
                if (chance(3)) name[0] = (char)(name[0] - 32);
                if (chance(80)) name[below(strlen(name))] ^= 1;
                add_column(t, name, triplet ? 'K' : chance(120) ? 'S' : 'I', "1", 'N', "");
            }
        }
        end_header(t);
        size_t rows = m->length[first[k]];
        if (chance(30)) rows = 0;
        for (size_t row = 1; row <= rows; row++) {
            size_t begin = t->size, columns = t->columns;
            for (size_t i = 0; i < columns; i++) {
                if (source[i] == 10) {
                    add_number(t, row, 4);
                } else if (source[i] == 11 || t->type[i] == 'S') { /* one column of any kind, by the other maker */
                    made_table *one = &made;
                    one->size = 0, one->most = t->most, one->columns = 1, one->type[0] = t->type[i], one->count[0] = t->count[i];
                    random_fields(one, 0);
                    add_bytes(t, one->file, one->size);
                } else {
                    uint32_t v = row <= m->length[source[i]] ? m->column[source[i]][row - 1] : 0;
                    if (t->type[i] == 'K') add_triplet(t, v & 0x7fffffff, id_number() & 0x7fffffff, id_number() & 0x7fffffff);
                    else add_number(t, v ? v : chance(2) ? 0 : 0x80000000 | draw(), 4);
                }
            }
            end_row(t, begin);
        }
        end_table(t, chance(2));
    }
}

#define FOUR(k) four[k].file, four[k].size, four[k].index, four[k].index_size

static void load_case(void) {
    made_tile m;
    uint32_t *ours[10], *theirs[10];
    size_t space[10];
    table_files files[4];
    if (chance(20)) some_tile(&m);
    else rotation_tile(&m, chance(100) ? 1 + below(200) : 1 + below(5));
    tile_tables(&m);
    for (size_t k = chance(2) ? 0 : 1 + (chance(4) ? 1 : 0); k > 0; k--) spoil_table(&four[below(4)]);
    for (int k = 0; k < 4; k++) files[k] = (table_files){four[k].file, four[k].index, four[k].size, four[k].index_size};
    for (int p = 0; p < 10; p++) {
        space[p] = m.length[p] + below(3);
        if (chance(60)) space[p] = below(space[p] + 1);
        two_buffers(&ours[p], &theirs[p], space[p] + 4);
    }
    size_t most = chance(10) ? below(8) : MOST_ROWS + below(2);
    vumbarete_loaded a = vumbarete_load(FOUR(0), FOUR(1), FOUR(2), FOUR(3), most, ours[0], space[0], ours[1], space[1], ours[2], space[2], ours[3],
                                        space[3], ours[4], space[4], ours[5], space[5], ours[6], space[6], ours[7], space[7], ours[8], space[8],
                                        ours[9], space[9]);
    vumbarete_loaded b = ref_load(files, most, theirs, space);
    note(a.number);
    bool same = SAME_REFUSAL(a, b) && SAME(a, b, table) && SAME(a, b, edges) && SAME(a, b, faces) && SAME(a, b, rings) && SAME(a, b, nodes);
    for (int p = 0; p < 10; p++) {
        same = same && memcmp(ours[p], theirs[p], (space[p] + 4) * 4) == 0;
        free(ours[p]), free(theirs[p]);
    }
    judge(same);
    drop_tile(&m);
}

/* every slice empty, and lent by a null pointer through the header file's `vumbarete_lend_..`: each entry point once, and those over tables
 * once more with a table of fixed width, whose index is empty */

#define NO_BYTES vumbarete_lend_bytes(NULL, 0), 0
#define NO_NUMBERS vumbarete_lend_numbers(NULL, 0), 0
#define NO_COLUMN vumbarete_lend_column(NULL, 0), 0
#define NO_TILE NO_NUMBERS, NO_NUMBERS, NO_NUMBERS, NO_NUMBERS, NO_NUMBERS, NO_NUMBERS, NO_NUMBERS, NO_NUMBERS, NO_NUMBERS, NO_NUMBERS
#define NO_COLUMNS NO_COLUMN, NO_COLUMN, NO_COLUMN, NO_COLUMN, NO_COLUMN, NO_COLUMN, NO_COLUMN, NO_COLUMN, NO_COLUMN, NO_COLUMN

static void empty_over(const uint8_t *file, size_t size) {
    static const uint8_t none[1];
    judge(same_header(vumbarete_header(vumbarete_lend_bytes(file, size), size), ref_header(file, size)));
    judge(vumbarete_find_column(vumbarete_lend_bytes(file, size), size, NO_BYTES) == ref_find_column(file, size, none, 0));
    judge(vumbarete_first_place(vumbarete_lend_bytes(file, size), size) == ref_first_place(file, size));
    judge(same_column(vumbarete_column_step(vumbarete_lend_bytes(file, size), size, 0), ref_column_step(file, size, 0)));
    judge(same_table(vumbarete_open(vumbarete_lend_bytes(file, size), size, NO_BYTES), ref_open(file, size, none, 0)));
    judge(same_table(vumbarete_judge_rows(vumbarete_lend_bytes(file, size), size, NO_BYTES), ref_judge_rows(file, size, none, 0)));
    vumbarete_row_answer a = vumbarete_row(vumbarete_lend_bytes(file, size), size, NO_BYTES, 1), b = ref_row(file, size, none, 0, 1);
    judge(SAME_REFUSAL(a, b) && SAME(a, b, start) && SAME(a, b, end));
    judge(same_value(vumbarete_value(vumbarete_lend_bytes(file, size), size, NO_BYTES, 1, 1), ref_value(file, size, none, 0, 1, 1)));
    judge(same_rectangle(vumbarete_rectangle(vumbarete_lend_bytes(file, size), size, NO_BYTES, 1, 1), ref_rectangle(file, size, none, 0, 1, 1)));
}

static void empty(void) {
    static uint8_t none[1];
    static uint32_t no_numbers[1];
    unsigned long before = failed, so_far = passed + failed;
    entry = "empty";
    case_seed = 0;

    vumbarete_height_answer h = vumbarete_height(NO_BYTES), rh = ref_height(none, 0);
    judge(SAME_REFUSAL(h, rh) && SAME(h, rh, thousandths));
    vumbarete_passes_answer p = vumbarete_passes(NO_BYTES, NO_BYTES), rp = ref_passes(none, 0, none, 0);
    judge(SAME_REFUSAL(p, rp) && SAME(p, rp, passes));
    vumbarete_triplet_answer t = vumbarete_triplet(NO_BYTES, false), rt = ref_triplet(none, 0, false);
    judge(SAME_REFUSAL(t, rt) && SAME(t, rt, id) && SAME(t, rt, tile) && SAME(t, rt, other) && SAME(t, rt, bytes));
    vumbarete_written_answer w = vumbarete_write_triplet(vumbarete_lend_row(NULL, 0), 0, 0, 1, 2, 3, true), rw = ref_write_triplet(none, 0, 0, 1, 2, 3, true);
    judge(SAME_REFUSAL(w, rw) && SAME(w, rw, bytes));

    empty_over(NULL, 0);
    begin_table(&made, 'L', "", "-");
    add_column(&made, "id", 'I', "1", 'P', "");
    end_header(&made);
    size_t begin = made.size;
    add_number(&made, 1, 4);
    end_row(&made, begin);
    end_table(&made, true);
    empty_over(made.file, made.size);

    table_files files[4] = {{none, none, 0, 0}, {none, none, 0, 0}, {none, none, 0, 0}, {none, none, 0, 0}};
    uint32_t *columns[10];
    size_t space[10] = {0};
    for (int i = 0; i < 10; i++) columns[i] = no_numbers;
    vumbarete_loaded l = vumbarete_load(NO_BYTES, NO_BYTES, NO_BYTES, NO_BYTES, NO_BYTES, NO_BYTES, NO_BYTES, NO_BYTES, 1000, NO_COLUMNS);
    vumbarete_loaded rl = ref_load(files, 1000, columns, space);
    judge(SAME_REFUSAL(l, rl) && SAME(l, rl, table) && SAME(l, rl, edges) && SAME(l, rl, faces) && SAME(l, rl, rings) && SAME(l, rl, nodes));

    made_tile m;
    new_tile(&m, 0, 0, 0, 0);
    tile32 tile = lent(&m);
    vumbarete_verdict v = vumbarete_check(NO_TILE, NO_COLUMN), rv = ref_check(&tile, no_numbers, 0);
    judge(SAME_REFUSAL(v, rv));
    vumbarete_steps s = vumbarete_walk(NO_TILE, 1, NO_COLUMN), rs = ref_walk(&tile, 1, no_numbers, 0);
    judge(SAME_REFUSAL(s, rs) && SAME(s, rs, steps));
    drop_tile(&m);
    printf("%-16s %lu cases, %lu differences\n", entry, passed + failed - so_far, failed - before);
}

static void run(const char *name, void (*one)(void), unsigned long cases, uint64_t seed) {
    unsigned long before = failed;
    entry = name;
    for (const char *c = name; *c; c++) seed = seed * 31 + (uint64_t)*c * 1000003; /* other cases for each entry point */
    memset(seen, 0, sizeof seen);
    for (unsigned long i = 0; i < cases; i++) {
        case_seed = state = seed + i;
        one();
    }
    printf("%-16s %lu cases, %lu differences; answers seen:", name, cases, failed - before);
    for (int n = 0; n < 33; n++)
        if (seen[n]) printf(" %d:%lu", n, seen[n]);
    printf("\n");
}

int main(int argc, char **argv) {
    unsigned long cases = argc > 1 ? strtoul(argv[1], NULL, 10) : 100000;
    uint64_t seed = argc > 2 ? strtoull(argv[2], NULL, 10) : 1;
    run("height", height_case, cases, seed);
    run("passes", passes_case, cases, seed);
    run("triplet", triplet_case, cases, seed);
    run("write_triplet", write_triplet_case, cases, seed);
    run("header", header_case, cases, seed);
    run("find_column", find_column_case, cases, seed);
    run("first_place", first_place_case, cases, seed);
    run("column_step", column_step_case, cases, seed);
    printf("%-16s stepped through in %lu headers\n", "mixed forms", mixed_forms);
    judge(cases < 1000 || mixed_forms > 0);
    run("open", open_case, cases, seed);
    run("judge_rows", judge_rows_case, cases, seed);
    run("row", row_case, cases, seed);
    run("value", value_case, cases, seed);
    run("rectangle", rectangle_case, cases, seed);
    run("load", load_case, cases, seed);
    run("check", check_case, cases, seed);
    run("walk", walk_case, cases, seed);
    printf("%-16s accepted in %lu tiles with edges, walked in %lu\n", "no start edge", null_rings, null_walks);
    judge(cases < 1000 || (null_rings > 0 && null_walks > 0));
    limits();
    empty();
    printf("%lu passed, %lu failed\n", passed, failed);
    return failed != 0;
}
