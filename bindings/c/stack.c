/* How much stack each call takes: `stack` prints the bytes, `stack LIMIT [CALL LIMIT]..` fails where a call takes more. Each is made on a stack that was painted, and the
 * lowest byte that has changed tells. No frame depends on the model, and on a whole trial stone each call goes its deepest way. The arguments that
 * fit into no register and what is left of this program's own frame count with it, some hundred bytes. */
#define _POSIX_C_SOURCE 200809L
#include <pthread.h>
#include <string.h>

#include "stone.h"

enum { SIZE = 1 << 20, PAINT = 0xa5, ABOVE = 128 };
static _Alignas(4096) unsigned char stack[SIZE];

static uint32_t ids[16], code;
static uint64_t sheet[5], areas[16], profile[3];
static size_t counts[3], length[1];
static double floats[6];

/* The trial stone's image, written before each call. */
static uint8_t image[4096];
static size_t kept[1];

/* The trial stone as binary STL. */
static uint8_t file[1024];

#define SLOTS(k) (uint32_t(*)[k]) ids
#define REALS(k) (double(*)[k]) floats
#define CALL(name, ...) static void name(void) { brunskerl_##name(LENT, __VA_ARGS__); }

CALL(make, 0.001, 2)
CALL(precision, REALS(1))
CALL(version, SLOTS(1))
CALL(body, office, 0, SLOTS(2))
CALL(region, 0, SLOTS(3))
CALL(shell, 0, SLOTS(4))
CALL(face, 0, SLOTS(8))
CALL(loop, 0, SLOTS(2))
CALL(fin, 0, SLOTS(4))
CALL(edge, 0, SLOTS(8), REALS(1))
CALL(vertex, 0, SLOTS(1), REALS(4))
CALL(curve, 0, SLOTS(1), REALS(6))
CALL(surface, 0, SLOTS(1), REALS(6))
CALL(insert_body, office, WORDS(1, 3), SLOTS(1))
CALL(insert_region, WORDS(2, 0, 0), SLOTS(1))
CALL(insert_shell, WORDS(1, 0), SLOTS(1))
CALL(insert_face, WORDS(7, 0, 0, 0, 0, 0, 0, 0), SLOTS(1))
CALL(insert_loop, WORDS(1, 0), SLOTS(1))
CALL(insert_fin, WORDS(4, 0, 0, 0, 0), SLOTS(1))
CALL(insert_edge, WORDS(7, 0, 0, 0, 0, 0, 0, 0), FLOATS(1, 0), SLOTS(1))
CALL(insert_vertex, WORDS(1, 0), FLOATS(4, 0, 0, 0, 0), SLOTS(1))
CALL(insert_curve, WORDS(1, 0), FLOATS(6, 0, 0, 0, 1, 0, 0), SLOTS(1))
CALL(insert_surface, WORDS(1, 1), FLOATS(6, 0, 0, 0, 1, 0, 0), SLOTS(1))
CALL(set_body, office, 0, WORDS(1, 3))
CALL(set_region, 0, WORDS(2, 0, 0))
CALL(set_shell, 0, WORDS(1, 0))
CALL(set_face, 0, WORDS(7, 1, 0, 1, 1, 1, 0, 0))
CALL(set_loop, 0, WORDS(1, 0))
CALL(set_fin, 0, WORDS(4, 0, 4, 0, 0))
CALL(set_edge, 0, WORDS(7, 1, 0, 1, 1, 1, 0, 0), FLOATS(1, 0))
CALL(set_vertex, 0, WORDS(1, 0), FLOATS(4, 0, 0, 0, 0))
CALL(set_curve, 0, WORDS(1, 0), FLOATS(6, 0, 0, 0, 1, 0, 0))
CALL(set_surface, 0, WORDS(1, 1), FLOATS(6, 0, 0, 0, 0, 0, -1))
CALL(set_fin_geometry, 23)
CALL(contains, office, 7, 0, SLOTS(1))
CALL(list_entry, office, 6, 0, 3, SLOTS(1))
CALL(put_entry, office, 6, 0, 3, 3)
CALL(append_entry, office, 4, 0, 0)
CALL(strike_entry, office, 6, 0, 3)
CALL(body_faces, office, 0, FACES, ids, 16, &code)
CALL(body_edges, office, 0, EDGES, ids, 16, &code)
CALL(body_vertices, office, 0, VERTICES, ids, 16, &code)
CALL(fin_vertices, 0, SLOTS(4))
CALL(body_bounding_box, office, 0, VERTICES, REALS(6))
CALL(body_volume, office, 0, FACES, REALS(1))
CALL(sheet_take, office, 0, FACES, &sheet)
/* A table of four courses within each other. */
enum { TABLE = 1 + 5 * 17 };
static uint32_t courses[TABLE];
static uint64_t sum[3];
static void table(void)
{
    memset(courses, 0, sizeof courses);
    courses[0] = 4;
    for (uint32_t c = 0; c < 4; c++) {
        courses[1 + 17 * c] = 2;
        courses[2 + 17 * c] = courses[3 + 17 * c] = c > 0 ? 65536 + c - 1 : 0;
    }
}
#define COURSED(name, ...) static void name(void) { table(); brunskerl_##name(courses, TABLE, __VA_ARGS__); }
static void make_courses(void) { brunskerl_make_courses(courses, TABLE); }
COURSED(insert_course, SLOTS(1))
COURSED(append_course_entry, 3, 1, 0)
COURSED(put_course_entry, 3, 0, 1, 0)
COURSED(strike_course_entry, 3, 0)
COURSED(course_count, SLOTS(1))
COURSED(course_length, 3, SLOTS(1))
COURSED(course_entry, 3, 0, SLOTS(2))
static void course_total(void) { table(); brunskerl_course_total(LENT, office, courses, TABLE, 3, FACES, &sum); }
CALL(stl_length, office, 0, FACES, &length)
CALL(write_stl, office, 0, FACES, file, sizeof file, &length)
/* One triangle, read into empty tables, which have room for it. */
static void read_stl(void)
{
    static const uint8_t triangle[134] = {[80] = 1, [110] = 0x80, [111] = 0x3f, [126] = 0x80, [127] = 0x3f};
    brunskerl_make(LENT, 0.001, 2);
    code = brunskerl_read_stl(LENT, office, triangle, sizeof triangle, SLOTS(1));
}
CALL(slab_profile, office, 0, EDGES, areas, 16, &profile)
CALL(edge_parameter_bounds, 0, REALS(2))
/* By the other office, which walks the body and is refused, and by its own. */
static void split_line_edge(void)
{
    brunskerl_split_line_edge(LENT, 1 - office, 0, 0.25, SLOTS(3));
    brunskerl_split_line_edge(LENT, office, 0, 0.25, SLOTS(3));
}
CALL(check_body, office, 0, 1, 3, EDGES, ids, 16, &counts)
CALL(first_fault, office, 0, 1, 3, EDGES, SLOTS(5))
CALL(fit_to_saw, office, 0, EDGES, SLOTS(1))
/* A pointer that is wrong and a fin that its edge does not list are made before, so that there are changes to write. */
static void harm(void)
{
    brunskerl_set_loop(LENT, 0, WORDS(1, 1));
    brunskerl_strike_entry(LENT, office, 7, 0, 0);
}
static void mend_changes(void)
{
    harm();
    brunskerl_mend_changes(LENT, office, 0, MARKS, ids, 16, &length);
}
static void mend(void)
{
    harm();
    brunskerl_mend(LENT, office, 0, MARKS, ids, 16, &length);
}
CALL(image_length, &length)
CALL(write_image, image, sizeof image, &length)
CALL(read_image, image, kept[0])

static const struct {
    const char *name;
    void (*call)(void);
} calls[] = {
#define ROW(name) {#name, name}
    ROW(precision), ROW(version), ROW(body), ROW(region), ROW(shell), ROW(face), ROW(loop), ROW(fin), ROW(edge), ROW(vertex), ROW(curve), ROW(surface),
    ROW(insert_body), ROW(insert_region), ROW(insert_shell), ROW(insert_face), ROW(insert_loop), ROW(insert_fin), ROW(insert_edge),
    ROW(insert_vertex), ROW(insert_curve), ROW(insert_surface), ROW(set_body), ROW(set_region), ROW(set_shell), ROW(set_face),
    ROW(set_loop), ROW(set_fin), ROW(set_edge), ROW(set_vertex), ROW(set_curve), ROW(set_surface), ROW(set_fin_geometry), ROW(contains),
    ROW(list_entry), ROW(put_entry), ROW(append_entry), ROW(strike_entry), ROW(body_faces), ROW(body_edges), ROW(body_vertices),
    ROW(fin_vertices), ROW(body_bounding_box), ROW(body_volume), ROW(sheet_take), ROW(make_courses), ROW(insert_course), ROW(append_course_entry), ROW(put_course_entry), ROW(strike_course_entry),
    ROW(course_count), ROW(course_length), ROW(course_entry), ROW(course_total), ROW(stl_length), ROW(write_stl), ROW(read_stl), ROW(slab_profile), ROW(edge_parameter_bounds), ROW(split_line_edge), ROW(check_body),
    ROW(first_fault), ROW(fit_to_saw), ROW(mend_changes), ROW(mend), ROW(image_length), ROW(write_image), ROW(read_image), ROW(make),
};

/* Makes the call, and gives how far below this frame it went. */
static void *taken(void *arg)
{
    size_t *k = arg;
    unsigned char *volatile here = (unsigned char *)&k;
    for (unsigned char *p = stack; p < here - ABOVE; p++)
        *(volatile unsigned char *)p = PAINT;
    calls[*k].call();
    unsigned char *p = stack;
    while (p < here && *(volatile unsigned char *)p == PAINT)
        p++;
    *k = (size_t)(here - p);
    return NULL;
}

/* The limit of a call: its own where one is named, else that of all. */
static size_t limit_of(const char *name, int argc, char **argv)
{
    for (int i = 2; i + 1 < argc; i += 2)
        if (strcmp(argv[i], name) == 0)
            return strtoul(argv[i + 1], NULL, 10);
    return argc > 1 ? strtoul(argv[1], NULL, 10) : SIZE;
}

int main(int argc, char **argv)
{
    int failed = 0;
    for (size_t i = 0; i < sizeof calls / sizeof *calls; i++) {
        lay_out(2);
        done(brunskerl_write_image(LENT, image, sizeof image, &kept), "image");
        size_t k = i;
        pthread_t thread;
        pthread_attr_t attributes;
        if (pthread_attr_init(&attributes) != 0 || pthread_attr_setstack(&attributes, stack, SIZE) != 0)
            return 2;
        if (pthread_create(&thread, &attributes, taken, &k) != 0 || pthread_join(thread, NULL) != 0)
            return 2;
        clear();
        size_t limit = limit_of(calls[i].name, argc, argv);
        if (argc == 1)
            printf("%7zu %s\n", k, calls[i].name);
        if (k > limit) {
            printf("%s takes %zu bytes of stack, more than %zu\n", calls[i].name, k, limit);
            failed = 1;
        }
    }
    return failed;
}
