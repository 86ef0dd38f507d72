/* Benchmarks: the archive beside the plain C of reference.c, same input, same run. */
#define MOST_FILE 80000000
#include "tables.h"
#include "tiles.h"
#include <dlfcn.h>
#include <stdio.h>
#include <time.h>

static double now(void) {
    struct timespec t;
    clock_gettime(CLOCK_MONOTONIC, &t);
    return t.tv_sec + t.tv_nsec * 1e-9;
}

#define COLUMNS(m)                                                                                                                          \
    (m).column[0], (m).length[0], (m).column[1], (m).length[1], (m).column[2], (m).length[2], (m).column[3], (m).length[3], (m).column[4],   \
        (m).length[4], (m).column[5], (m).length[5], (m).column[6], (m).length[6], (m).column[7], (m).length[7], (m).column[8],              \
        (m).length[8], (m).column[9], (m).length[9]

static size_t walks_ours(const made_tile *m, uint32_t *out, size_t space) {
    size_t sum = 0;
    for (size_t r = 1; r <= m->length[FAC_ID]; r++) {
        vumbarete_steps a = vumbarete_walk(COLUMNS(*m), r, out, space);
        if (a.number) fprintf(stderr, "walk refused\n"), exit(1);
        sum += a.steps;
    }
    return sum;
}

static size_t walks_ref(const made_tile *m, uint32_t *out, size_t space) {
    size_t sum = 0;
    tile32 t = lent(m);
    for (size_t r = 1; r <= m->length[FAC_ID]; r++) sum += ref_walk(&t, r, out, space).steps;
    return sum;
}

/* the shortest of several turns, the two taken in turn */
#define BEST(turns, ours, theirs, a, b)                                                                                                     \
    double a = 1e9, b = 1e9;                                                                                                                \
    for (int turn_ = 0; turn_ < (turns); turn_++) {                                                                                         \
        double t0_ = now();                                                                                                                 \
        ours;                                                                                                                               \
        double t1_ = now();                                                                                                                 \
        theirs;                                                                                                                             \
        double t2_ = now();                                                                                                                 \
        if (t1_ - t0_ < a) a = t1_ - t0_;                                                                                                   \
        if (t2_ - t1_ < b) b = t2_ - t1_;                                                                                                   \
    }

static made_table big;
static volatile size_t sink;

/* the four tables of a tile: edg with triplets, coordinates and an index, the others of one width */
static made_table *four[4];

static void tile_tables(const made_tile *m) {
    static const char *names[10] = {"start_node", "end_node", "right_face", "left_face", "right_edge", "left_edge", "ring_ptr", "fac_id", "start_edge", "first_edge"};
    static const int first[5] = {START_NODE, RING_PTR, FAC_ID, FIRST_EDGE, 10};
    for (int k = 0; k < 4; k++) {
        if (!four[k]) four[k] = malloc(sizeof *four[k]);
        made_table *t = four[k];
        begin_table(t, 'L', "A table of a tile", "-");
        add_column(t, "id", 'I', "1", 'P', "Row Identifier");
        for (int p = first[k]; p < first[k + 1]; p++) add_column(t, names[p], p >= RIGHT_FACE && p <= LEFT_EDGE ? 'K' : 'I', "1", 'N', "A column");
        if (k == 0) add_column(t, "coordinates", 'C', "*", 'N', "Coordinates of Edge");
        end_header(t);
        for (size_t i = 1; i <= m->length[first[k]]; i++) {
            size_t begin = t->size;
            add_number(t, i, 4);
            for (int p = first[k]; p < first[k + 1]; p++) {
                uint32_t v = m->column[p][i - 1];
                if (p >= RIGHT_FACE && p <= LEFT_EDGE) add_triplet(t, v, 0, 0);
                else add_number(t, v, 4);
            }
            if (k == 0) {
                add_number(t, 2, 4);
                for (int c = 0; c < 4; c++) add_number(t, 0x3f800000 + i, 4);
            }
            end_row(t, begin);
        }
        end_table(t, true);
    }
}

static void loads(void) {
    static const size_t side[][2] = {{22, 22}, {70, 70}, {223, 223}, {707, 706}};
    double last = 0;
    printf("\nLoading a tile from its four tables, times per edge\n%-10s %10s %10s %7s %8s\n", "edges", "ours ns", "C ns", "ratio", "growth");
    for (int i = 0; i < 4; i++) {
        made_tile m;
        uint32_t *c[10];
        table_files files[4];
        grid_tile(&m, side[i][0], side[i][1]);
        tile_tables(&m);
        for (int p = 0; p < 10; p++) c[p] = malloc(m.length[p] * 4);
        for (int k = 0; k < 4; k++) files[k] = (table_files){four[k]->file, four[k]->index, four[k]->size, four[k]->index_size};
#define FOUR(k) four[k]->file, four[k]->size, four[k]->index, four[k]->index_size
#define LOAD                                                                                                                                \
    vumbarete_load(FOUR(0), FOUR(1), FOUR(2), FOUR(3), MOST_ROWS, c[0], m.length[0], c[1], m.length[1], c[2], m.length[2], c[3], m.length[3], \
                   c[4], m.length[4], c[5], m.length[5], c[6], m.length[6], c[7], m.length[7], c[8], m.length[8], c[9], m.length[9])
        vumbarete_loaded v = LOAD;
        size_t E = m.length[0], sum = 0;
        if (v.number || v.edges != E) fprintf(stderr, "load refused %u %zu\n", v.number, v.place), exit(1);
        for (int p = 0; p < 10; p++)
            if (memcmp(c[p], m.column[p], m.length[p] * 4)) fprintf(stderr, "load differs\n"), exit(1);
        int turns = E < 50000 ? 100 : E < 500000 ? 20 : 7;
        BEST(turns, sum += LOAD.edges, sum += ref_load(files, MOST_ROWS, c, m.length).edges, a, b)
        sink = sum;
        printf("%-10zu %10.2f %10.2f %7.3f %8.3f\n", E, a / E * 1e9, b / E * 1e9, a / b, last ? a / E / last : 1.0);
        last = a / E;
        for (int p = 0; p < 10; p++) free(c[p]);
        drop_tile(&m);
    }
}

static void tiles(void) {
    static const size_t side[][2] = {{22, 22}, {70, 70}, {223, 223}, {707, 706}};
    double last = 0, last_c = 0;
    printf("%-10s %10s %10s %7s   %10s %10s %7s   %7s %8s %8s\n", "edges", "check ns", "C ns", "ratio", "walks ns", "C ns", "ratio", "both", "growth", "of C");
    for (int i = 0; i < 4; i++) {
        made_tile m;
        grid_tile(&m, side[i][0], side[i][1]);
        size_t E = m.length[0];
        uint32_t *marks = malloc(E * 8), *out = malloc(E * 8);
        tile32 t = lent(&m);
        vumbarete_verdict v = vumbarete_check(COLUMNS(m), marks, 2 * E);
        if (v.number) fprintf(stderr, "check refused %u %zu\n", v.number, v.place), exit(1);
        if (walks_ours(&m, out, 2 * E) != 2 * E) fprintf(stderr, "walks do not add up\n"), exit(1);
        int turns = E < 50000 ? 200 : E < 500000 ? 40 : 25;
        BEST(turns, vumbarete_check(COLUMNS(m), marks, 2 * E), ref_check(&t, marks, 2 * E), co, cc)
        BEST(turns, walks_ours(&m, out, 2 * E), walks_ref(&m, out, 2 * E), wo, wc)
        double per = (co + wo) / E, per_c = (cc + wc) / E;
        printf("%-10zu %10.2f %10.2f %7.3f   %10.2f %10.2f %7.3f   %7.3f %8.3f %8.3f\n", E, co / E * 1e9, cc / E * 1e9, co / cc, wo / E * 1e9,
               wc / E * 1e9, wo / wc, (co + wo) / (cc + wc), last ? per / last : 1.0, last_c ? per_c / last_c : 1.0);
        last = per, last_c = per_c;
        free(marks), free(out), drop_tile(&m);
    }
}



/* the edge table of a tile, with triplets and coordinates or without */
static void edge_table(size_t rows, bool varies) {
    static const char *links[] = {"right_face", "left_face", "right_edge", "left_edge"};
    begin_table(&big, 'L', "Edge Primitive Table", "-");
    add_column(&big, "id", 'I', "1", 'P', "Row Identifier");
    add_column(&big, "start_node", 'I', "1", 'N', "Start Node");
    add_column(&big, "end_node", 'I', "1", 'N', "End Node");
    for (int i = 0; i < 4; i++) add_column(&big, links[i], varies ? 'K' : 'I', "1", 'N', "Link");
    if (varies) add_column(&big, "coordinates", 'C', "*", 'N', "Coordinates of Edge");
    end_header(&big);
    for (size_t i = 1; i <= rows; i++) {
        size_t begin = big.size;
        for (int k = 0; k < 3; k++) add_number(&big, k ? i + (size_t)k : i, 4);
        for (int k = 0; k < 4; k++) {
            if (varies) add_triplet(&big, (uint32_t)(i * 7 + (size_t)k) % 1000000, k == 1 ? 5 : 0, k == 1 ? (uint32_t)i : 0);
            else add_number(&big, i + (size_t)k, 4);
        }
        if (varies) {
            size_t points = 2 + i % 5;
            add_number(&big, points, 4);
            for (size_t p = 0; p < 2 * points; p++) {
                float f = (float)(i % 1000) + (float)p;
                uint32_t b;
                memcpy(&b, &f, 4);
                add_number(&big, b, 4);
            }
        }
        end_row(&big, begin);
    }
    end_table(&big, false);
}

#define BIG big.file, big.size, big.index, big.index_size


/* a header of so many columns */
static void many_columns(size_t columns) {
    begin_table(&big, 'L', "Edge Primitive Table", "-");
    add_column(&big, "id", 'I', "1", 'P', "Row Identifier");
    for (size_t k = 2; k <= columns; k++) {
        char name[32];
        snprintf(name, sizeof name, "column_%zu", k);
        add_column(&big, name, 'I', "1", 'N', "A column");
    }
    end_header(&big);
}

/* a header text of L = 32,767, of more columns than are taken */
static void longest_text(void) {
    begin_table(&big, 'L', "", "-");
    add_column(&big, "id", 'I', "1", 'P', "");
    while (big.size < MOST_TEXT + 4 - 60) {
        big.columns = 1;
        add_column(&big, "a_column", 'I', "1", 'N', "");
    }
    size_t rest = MOST_TEXT + 4 - big.size - 1 - strlen("z=I,1,N,,-,-,-,:");
    char about[80];
    memset(about, 'x', rest);
    about[rest] = 0;
    add_column(&big, "z", 'I', "1", 'N', about);
    end_header(&big);
}

/* the headers that are timed, by number: what it is, and how often to call for one time */
#define SHAPES 4
static int header_shape(int i, char what[80]) {
    if (i == 0) edge_table(1, true);
    else if (i < 3) many_columns(i == 1 ? 64 : 128);
    else longest_text();
    uint32_t number = vumbarete_header(big.file, big.size).number;
    bool text = i == 0 || i == 3;
    snprintf(what, 80, text ? "L = %zu, refused with %u" : "%zu columns, refused with %u", text ? big.start - 4 : big.columns, number);
    return i == 0 ? 2000 : i < 3 ? 200 : 20;
}

static void headers(void) {
    printf("\nHeaders\n%-34s %12s %12s %7s\n", "", "ours ns", "C ns", "ratio");
    for (int i = 0; i < SHAPES; i++) {
        char what[80];
        int many = header_shape(i, what);
        size_t sum = 0;
        BEST(50, for (int k = 0; k < many; k++) sum += vumbarete_header(big.file, big.size).number,
             for (int k = 0; k < many; k++) sum += ref_header(big.file, big.size).number, a, b)
        sink = sum;
        printf("%-34s %12.0f %12.0f %7.3f   ours %.0f per second\n", what, a / many * 1e9, b / many * 1e9, a / b, many / a);
    }
}

/* ---- the name check: headers of names that are unlike in one way */

static const char *ways[] = {"unequal lengths", "one length, first letters", "one length, last letters", "one length, middle alone", "one length, one number"};
#define WAYS (int)(sizeof ways / sizeof *ways)

/* the name of column k, 0 to 127: of 1 to 24 bytes, of 24 that differ in two neighbouring ones, or of 24 with seven that are 1 or q: these have the
 * same five bits, so that all such names have one number */
static void some_name(char name[25], int way, size_t k) {
    static const char letters[] = "abcdefghijklmnopqrstuvwxyz0123456789";
    size_t length = way == 0 ? 1 + k % 24 : 24;
    memset(name, 'n', length);
    name[length] = 0;
    if (way == 0) {
        name[0] = letters[k / 24];
        return;
    }
    if (way == 4) {
        for (int bit = 0; bit < 7; bit++) name[8 + bit] = k >> bit & 1 ? '1' : 'q';
        return;
    }
    size_t at = way == 1 ? 0 : way == 2 ? 23 : 11;
    name[at] = letters[k % 36];
    name[way == 1 ? 1 : at - 1] = letters[k / 36];
}

/* `stops`: the second column has the name of the first, so that the search ends where it begins */
static void named_columns(int way, size_t columns, bool stops) {
    begin_table(&big, 'L', "Edge Primitive Table", "-");
    add_column(&big, "id", 'I', "1", 'P', "");
    for (size_t k = 1; k < columns; k++) {
        char name[25];
        some_name(name, way, k);
        if (stops && k == 1) strcpy(name, "ID");
        add_column(&big, name, 'I', "1", 'N', "");
    }
    end_header(&big);
}

typedef vumbarete_header_answer (*header_call)(const uint8_t *file, size_t size);

static double seconds(header_call header, const uint8_t *file, size_t size, int many) {
    size_t sum = 0;
    double start = now();
    for (int k = 0; k < many; k++) sum += header(file, size).number;
    double end = now();
    sink = sum;
    return end - start;
}

/* The headers by two builds, each loaded at eight places of a page, the shortest of all: where the linker lays a loop moves its time. */
#define PLACES 8

static header_call loaded(const char *folder, const char *build, int place) {
    char path[512];
    snprintf(path, sizeof path, "%s/%s.%d.so", folder, build, place);
    void *library = dlopen(path, RTLD_NOW | RTLD_LOCAL);
    header_call call = library ? (header_call)dlsym(library, "vumbarete_header") : NULL;
    if (!call) fprintf(stderr, "%s: %s\n", path, dlerror()), exit(1);
    return call;
}

static void placed(const char *folder) {
    header_call calls[2 * PLACES + 1];
    for (int p = 0; p < PLACES; p++) calls[2 * p] = loaded(folder, "ours", p), calls[2 * p + 1] = loaded(folder, "before", p);
    calls[2 * PLACES] = ref_header;
    printf("\nHeaders, the shortest at eight places of a page\n%-34s %12s %12s %12s %7s %12s %12s\n", "", "ours ns", "before ns", "C ns", "ratio", "before to C", "before/ours");
    for (int i = 0; i < SHAPES; i++) {
        char what[80];
        int many = header_shape(i, what) / 2;
        double best[3] = {1e9, 1e9, 1e9};
        for (int turn = 0; turn < 25; turn++)
            for (int c = 0; c <= 2 * PLACES; c++) {
                double t = seconds(calls[c], big.file, big.size, many) * 1e9 / many, *least = &best[c == 2 * PLACES ? 2 : c % 2];
                if (t < *least) *least = t;
            }
        printf("%-34s %12.0f %12.0f %12.0f %7.3f %12.3f %12.3f\n", what, best[0], best[1], best[2], best[0] / best[2], best[1] / best[2], best[1] / best[0]);
    }
}

/* Whole headers, and how much longer each takes than the same header whose search ends where it begins: that is the name check and what comes
 * after it. `before`: the same call of another build, or NULL. */
static void names(header_call before) {
    static const size_t some[] = {2, 16, 64, 128};
    static uint8_t stopping[MOST_TEXT + 4];
    header_call calls[3] = {vumbarete_header, ref_header, before};
    printf("\nHeaders by what their names differ in; check: longer than where the search ends at once\n%-28s %8s %10s %10s %7s %10s %10s", "", "columns", "ours ns",
           "C ns", "ratio", "check", "of C");
    printf(before ? " %10s %11s %10s %11s\n" : "\n", "before ns", "before/ours", "its check", "before/ours");
    for (int way = 0; way < WAYS; way++)
        for (int i = 0; i < 4; i++) {
            double best[3] = {1e9, 1e9, 1e9}, least[3] = {1e9, 1e9, 1e9};
            int many = (int)(4000 / some[i]);
            named_columns(way, some[i], true);
            size_t size = big.size;
            memcpy(stopping, big.file, size);
            named_columns(way, some[i], false);
            if (vumbarete_header(stopping, size).place != 2 || vumbarete_header(big.file, big.size).number) fprintf(stderr, "header judged otherwise\n"), exit(1);
            for (int turn = 0; turn < 40; turn++)
                for (int c = 0; c < 3 && calls[c]; c++) {
                    double t = seconds(calls[c], big.file, big.size, many), u = seconds(calls[c], stopping, size, many);
                    if (t < best[c]) best[c] = t;
                    if (u < least[c]) least[c] = u;
                }
            double check[3];
            for (int c = 0; c < 3; c++) best[c] *= 1e9 / many, check[c] = best[c] - least[c] * 1e9 / many;
            printf("%-28s %8zu %10.0f %10.0f %7.3f %10.0f %10.0f", ways[way], some[i], best[0], best[1], best[0] / best[1], check[0], check[1]);
            if (before) printf(" %10.0f %11.2f %10.0f %11.2f", best[2], best[2] / best[0], check[2], check[2] / check[0]);
            printf("\n");
        }
}

/* one value of the last row and column: the table is opened for it */
static void values(void) {
    printf("\nOne value of a table of 20 rows, opening and all\n%-34s %12s %12s %7s\n", "", "ours ns", "C ns", "ratio");
    for (int varies = 0; varies < 2; varies++) {
        size_t n = 20, sum = 0, last = varies ? 8 : 7;
        edge_table(n, varies);
        if (vumbarete_value(BIG, n, last).number) fprintf(stderr, "value refused\n"), exit(1);
        BEST(50, for (int k = 0; k < 1000; k++) sum += vumbarete_value(BIG, n, last).number, for (int k = 0; k < 1000; k++) sum += ref_value(BIG, n, last).number, a, b)
        sink = sum;
        printf("%-34s %12.0f %12.0f %7.3f\n", varies ? "I, K and C* columns, with index" : "I columns, one width", a * 1e6, b * 1e6, a / b);
    }
}

static void rows(void) {
    printf("\nRows of an edge table, opened once and each judged\n%-34s %12s %12s %7s\n", "", "ours ns", "C ns", "ratio");
    for (int varies = 0; varies < 2; varies++) {
        size_t n = 200000, sum = 0;
        edge_table(n, varies);
        vumbarete_table_answer v = vumbarete_judge_rows(BIG);
        if (v.number || v.rows != n) fprintf(stderr, "rows refused %u %zu\n", v.number, v.place), exit(1);
        BEST(25, sum += vumbarete_judge_rows(BIG).rows, sum += ref_judge_rows(BIG).rows, a, b)
        sink = sum;
        printf("%-34s %12.2f %12.2f %7.3f\n", varies ? "I, K and C* columns, with index" : "I columns, one width", a / n * 1e9, b / n * 1e9, a / b);
    }
}

#ifdef OGDI
/* OGDI's table reader on the same table, from files as it wants them. Debian ships the library without its header: a table is passed by value, last of
 * the arguments, so that a block no smaller than the library's own serves. */
typedef struct {
    unsigned char held[512];
} ogdi_table;
extern ogdi_table vpf_open_table(const char *name, int storage, const char *mode, char *definition);
extern void *read_row(int32_t row, ogdi_table table);
extern void free_row(void *row, ogdi_table table);
extern void *get_table_element(int32_t field, void *row, ogdi_table table, void *value, int32_t *count);

static void put_file(const char *name, const uint8_t *bytes, size_t n) {
    FILE *f = fopen(name, "wb");
    if (!f || fwrite(bytes, 1, n, f) != n || fclose(f)) fprintf(stderr, "%s cannot be written\n", name), exit(1);
}

static size_t ogdi_rows(ogdi_table t, size_t n) {
    size_t sum = 0;
    for (size_t i = 1; i <= n; i++) {
        void *row = read_row((int32_t)i, t);
        int32_t id = 0, count;
        get_table_element(0, row, t, &id, &count);
        sum += (size_t)id;
        free_row(row, t);
    }
    return sum;
}

static void beside_ogdi(const char *folder) {
    size_t n = 20000, sum = 0;
    char name[512];
    edge_table(n, true);
    snprintf(name, sizeof name, "%s/edx", folder), put_file(name, big.index, big.index_size);
    snprintf(name, sizeof name, "%s/edg", folder), put_file(name, big.file, big.size);
    ogdi_table t = vpf_open_table(name, 1, "rb", NULL);
    if (ogdi_rows(t, n) != n * (n + 1) / 2) fprintf(stderr, "OGDI reads other ids\n"), exit(1);
    BEST(15, sum += vumbarete_judge_rows(BIG).rows, sum += ogdi_rows(t, n), a, b)
    sink = sum;
    printf("\nRows with index beside OGDI's read_row\n%-34s %12s %12s %7s\n%-34s %12.2f %12.2f %7.4f\n", "", "ours ns", "OGDI ns", "ratio", "I, K and C* columns, with index",
           a / n * 1e9, b / n * 1e9, a / b);
}
#endif

/* bench [before FOLDER | ogdi FOLDER]: before, where both builds stand as libraries at eight places */
int main(int argc, char **argv) {
    bool before = argc > 2 && !strcmp(argv[1], "before");
    headers();
    if (before) placed(argv[2]);
    names(before ? loaded(argv[2], "before", 0) : NULL);
    if (before) return 0;
    values();
    rows();
#ifdef OGDI
    beside_ogdi(argc > 2 ? argv[2] : ".");
#endif
    loads();
    printf("\nChecking and walking, times per edge; both: check and all walks\n");
    tiles();
    return 0;
}
