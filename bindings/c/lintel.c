/* Lays out the trial stone, asks all that the header has, takes it in on a sheet, lays it in courses, mends its pointers, splits an edge, keeps it as bytes, is refused, also as the other office, and does so by both versions. What it must print is the file `stdout` beside it. */
#include <inttypes.h>
#include <string.h>

#include "stone.h"

static void told(const char *what, uint32_t number)
{
    if (number == 0)
        printf("%s\n", what);
    else
        printf("%s: refused with %u\n", what, (unsigned)number);
}

static void walks(void)
{
    uint32_t out[13], code[3];
    size_t f = brunskerl_body_faces(ASKED, 0, FACES, out, 13, &code[0]);
    size_t e = brunskerl_body_edges(ASKED, 0, EDGES, out, 13, &code[1]);
    size_t v = brunskerl_body_vertices(ASKED, 0, VERTICES, out, 13, &code[2]);
    for (unsigned k = 0; k < 3; k++)
        done(code[k], "walk");
    printf("%zu faces, %zu edges, %zu vertices; the last vertex is %u\n", f, e, v, (unsigned)out[v - 1]);
    size_t none = brunskerl_body_faces(ASKED, 1, FACES, out, 13, &code[0]);
    printf("faces of body 1: %zu, refused with %u\n", none, (unsigned)code[0]);
    none = brunskerl_body_vertices(ASKED, 0, VERTICES, out, 3, &code[0]);
    printf("vertices on a list of three: %zu, refused with %u\n", none, (unsigned)code[0]);
}

static void measured(void)
{
    double volume[1], box[6];
    done(brunskerl_body_volume(ASKED, 0, FACES, &volume), "volume");
    done(brunskerl_body_bounding_box(ASKED, 0, VERTICES, &box), "box");
    printf("volume %g, box (%g, %g, %g) to (%g, %g, %g)\n", volume[0], box[0], box[1], box[2], box[3], box[4], box[5]);
}

/* The stone taken in on a sheet, and the sheet, as it stands behind a refusal too. */
static void taken(const char *what, uint64_t (*sheet)[5])
{
    told(what, brunskerl_sheet_take(ASKED, 0, FACES, sheet));
    uint64_t *word = *sheet;
    printf("  %" PRIu64 " stones, total (%" PRIu64 ", %" PRIu64 "), the largest is body %" PRIu64 " with %" PRIu64 "\n", word[0], word[1], word[2], word[3], word[4]);
}

/* One running sheet, and sheets at their ends. */
static void stones(void)
{
    uint64_t sheet[5] = {0}, last[5] = {65535, 0, 0, 7, 8}, over[5] = {65537, 0, 0, 7, 8}, most[5] = {6, UINT64_MAX, 0, 7, 600000};
    taken("the stone on a new sheet", &sheet);
    taken("the stone once more", &sheet);
    done(brunskerl_set_vertex(LENT, 7, WORDS(1, 0), FLOATS(4, 4, 3, 2.03125, 0)), "a corner moved");
    taken("the stone with a corner half a sixteenth off the grid", &sheet);
    done(brunskerl_set_vertex(LENT, 7, WORDS(1, 0), FLOATS(4, 4, 3, 2, 0)), "the corner moved back");
    taken("the last stone of a sheet", &last);
    taken("one more", &last);
    taken("on a sheet of 65537 stones", &over);
    taken("on a sheet whose low word is full", &most);
    office = 1;
    taken("as office 1", &sheet);
    office = 0;
}

/* The stones of a course, as they stand behind a refusal too. */
static void coursed(const char *what, const uint32_t *table, size_t k, size_t course)
{
    static uint64_t sum[3];
    told(what, brunskerl_course_total(ASKED, table, k, course, FACES, &sum));
    printf("  %" PRIu64 " stones, total (%" PRIu64 ", %" PRIu64 ")\n", sum[0], sum[1], sum[2]);
}

/* Five courses of 16 entries, each of the course before it, the first of the stone; edited, and read. */
static void courses(void)
{
    enum { K = 1 + 6 * 17 };
    static uint32_t table[K];
    uint32_t one[1], entry[2];
    told("courses without a word", brunskerl_make_courses(table, 0));
    done(brunskerl_make_courses(table, K), "a course table");
    for (uint32_t c = 0; c < 5; c++) {
        done(brunskerl_insert_course(table, K, &one), "a course");
        for (unsigned i = 0; i < 16; i++)
            done(brunskerl_append_course_entry(table, K, c, c > 0, c > 0 ? c - 1 : 0), "an entry");
    }
    told("a seventeenth entry", brunskerl_append_course_entry(table, K, 0, 0, 0));
    coursed("a course of 16 stones", table, K, 0);
    coursed("a course of four levels", table, K, 3);
    coursed("a course of five levels", table, K, 4);
    done(brunskerl_put_course_entry(table, K, 2, 15, 0, 7), "another entry");
    coursed("a course with a missing body", table, K, 4);
    done(brunskerl_strike_course_entry(table, K, 2, 15), "an entry struck");
    told("an entry of a tag that is none", brunskerl_append_course_entry(table, K, 2, 2, 0));
    done(brunskerl_insert_course(table, K, &one), "an empty course");
    coursed("an empty course", table, K, one[0]);
    told("a course too many", brunskerl_insert_course(table, K, &one));
    done(brunskerl_course_count(table, K, &one), "the count");
    printf("%u courses", (unsigned)one[0]);
    done(brunskerl_course_length(table, K, 2, &one), "the length");
    done(brunskerl_course_entry(table, K, 2, 14, &entry), "an entry");
    printf(", %u entries of course 2, the last of tag %u and id %u\n", (unsigned)one[0], (unsigned)entry[0], (unsigned)entry[1]);
    told("the entry behind it", brunskerl_course_entry(table, K, 2, 15, &entry));
    coursed("courses that cannot be read", table, K - 1, 0);
}

/* Binary STL of the stone, which its own tables have no room for, read into other memory with room for that and no more. */
static void read_back(uint8_t *file, size_t length)
{
    static const size_t other[10] = {1, 2, 2, 12, 12, 36, 18, 8, 0, 0};
    static uint8_t of_faces[12], of_edges[18];
    uint32_t id[1], list[64], *w = calloc(BRUNSKERL_WORDS(other), sizeof *w);
    double *x = calloc(BRUNSKERL_REALS(other), sizeof *x);
    size_t counts[3];
    if (w == NULL || x == NULL)
        exit(2);
    told("the STL read where the stone stands", brunskerl_read_stl(ASKED, file, length, &id));
    told("the STL read without its last byte", brunskerl_read_stl(ASKED, file, length - 1, &id));
    told("the STL read as office 2", brunskerl_read_stl(LENT, 2, file, length, &id));
#define OTHER &other, w, BRUNSKERL_WORDS(other), x, BRUNSKERL_REALS(other)
    done(brunskerl_make(OTHER, 0.001, 1), "make");
    done(brunskerl_read_stl(OTHER, 1, file, length, &id), "the STL read");
    printf("the STL read: body %u, %u faces, %u edges, %u vertices\n", (unsigned)id[0], (unsigned)w[3], (unsigned)w[6], (unsigned)w[7]);
    done(brunskerl_check_body(OTHER, 1, id[0], 0, 0, of_faces, sizeof of_faces, of_edges, sizeof of_edges, list, 64, &counts), "check");
    printf("  %zu faults, the first is reason %u of face %u\n", counts[0], (unsigned)list[3], (unsigned)list[2]);
    told("  the STL read once more", brunskerl_read_stl(OTHER, 1, file, length, &id));
    file[99] = 0x7f;
    file[98] = 0x80;
    told("  the STL read with an infinite coordinate", brunskerl_read_stl(OTHER, 1, file, length, &id));
#undef OTHER
    free(w);
    free(x);
}

/* The stone as binary STL: too few bytes, enough, and a corner that binary32 does not hold. */
static void drawn(void)
{
    static uint8_t file[1024];
    size_t length[1], written[1];
    done(brunskerl_stl_length(ASKED, 0, FACES, &length), "the length of the STL");
    told("an STL one byte too short", brunskerl_write_stl(ASKED, 0, FACES, file, length[0] - 1, &written));
    done(brunskerl_write_stl(ASKED, 0, FACES, file, sizeof file, &written), "the STL");
    printf("an STL of %zu bytes: %u triangles\n", written[0], (unsigned)file[80]);
    done(brunskerl_set_vertex(LENT, 7, WORDS(1, 0), FLOATS(4, 4, 3, 2.1, 0)), "a corner moved");
    told("the STL with a corner at 2.1", brunskerl_write_stl(ASKED, 0, FACES, file, sizeof file, &written));
    done(brunskerl_set_vertex(LENT, 7, WORDS(1, 0), FLOATS(4, 4, 3, 2, 0)), "the corner moved back");
    office = 1;
    told("the STL, as office 1", brunskerl_write_stl(ASKED, 0, FACES, file, sizeof file, &written));
    office = 0;
    read_back(file, written[0]);
}

/* The slab profile, the areas of faces and their list behind it. */
static void profiled(const char *what, size_t entries)
{
    uint64_t areas[7] = {7, 7, 7, 7, 7, 7, 7}, profile[3] = {0};
    told(what, brunskerl_slab_profile(ASKED, 0, EDGES, areas, entries, &profile));
    printf("  rule %" PRIu64 ", entity %" PRIu64 ", area %" PRIu64 "; faces", profile[0], profile[1], profile[2]);
    for (unsigned k = 0; k < 7; k++)
        printf(" %" PRIu64, areas[k]);
    printf("\n");
}

/* The stone as a slab: accepted, on a list too short, with rules broken, and as another office. */
static void slabs(void)
{
    profiled("the slab profile", 7);
    profiled("the slab profile on a list of five", 5);
    done(brunskerl_set_vertex(LENT, 7, WORDS(1, 0), FLOATS(4, 4, 3, 2.03125, 0)), "a corner moved");
    profiled("the slab profile with a corner moved", 7);
    done(brunskerl_set_vertex(LENT, 7, WORDS(1, 0), FLOATS(4, 4, 3, 2, 0)), "the corner moved back");
    done(brunskerl_set_surface(LENT, 1, WORDS(1, 1), FLOATS(6, 0, 0, 2, 0.6, 0, 0.8)), "a plane tilted");
    profiled("the slab profile with a plane tilted", 7);
    done(brunskerl_set_surface(LENT, 1, WORDS(1, 1), FLOATS(6, 0, 0, 2, 0, 0, 1)), "the plane tilted back");
    office = 1;
    profiled("the slab profile, as office 1", 7);
    office = 0;
}

static void report(void)
{
    uint32_t list[16], fit[1], first[5];
    size_t counts[3];
    done(brunskerl_check_body(ASKED, 0, 1, 3, EDGES, list, 16, &counts), "check");
    done(brunskerl_fit_to_saw(ASKED, 0, EDGES, &fit), "fit to saw");
    printf("%zu faults, %zu kept, %zu unchecked, fit to saw: %u\n", counts[0], counts[1], counts[2], (unsigned)fit[0]);
    for (size_t i = 0; i < counts[1]; i++) {
        const uint32_t *fault = list + 4 * i;
        printf("  kind %u, class %u, id %u, reason %u\n", (unsigned)fault[0], (unsigned)fault[1], (unsigned)fault[2], (unsigned)fault[3]);
    }
    done(brunskerl_first_fault(ASKED, 0, 1, 3, EDGES, &first), "the first fault");
    if (first[0] == 0)
        printf("the first fault: none\n");
    else
        printf("the first fault: kind %u, class %u, id %u, reason %u\n", (unsigned)first[1], (unsigned)first[2], (unsigned)first[3], (unsigned)first[4]);
}

/* The changes of a mending, told or made. */
static void mended(const char *what, int makes)
{
    uint32_t list[18];
    size_t count[1];
    uint32_t number = makes ? brunskerl_mend(ASKED, 0, MARKS, list, 18, &count) : brunskerl_mend_changes(ASKED, 0, MARKS, list, 18, &count);
    told(what, number);
    if (number != 0)
        return;
    printf("  %zu changes\n", count[0]);
    for (size_t i = 0; i < count[0]; i++) {
        const uint32_t *change = list + 6 * i;
        printf("  class %u, id %u, field %u, place %u, old %u, new %u\n", (unsigned)change[0], (unsigned)change[1], (unsigned)change[2], (unsigned)change[3], (unsigned)change[4], (unsigned)change[5]);
    }
}

/* Pointers made wrong and mended from the lists; then what is refused. The stone is as it was in the end. */
static void pointers(void)
{
    uint32_t list[12];
    size_t count[1];
    mended("a sound stone mended", 1);
    done(brunskerl_set_shell(LENT, 0, WORDS(1, 1)), "a shell of another region");
    done(brunskerl_set_loop(LENT, 5, WORDS(1, 7)), "a loop of a face that is missing");
    done(brunskerl_strike_entry(ASKED, 7, 4, 1), "a fin struck from its edge");
    told("the changes on a list of two", brunskerl_mend_changes(ASKED, 0, MARKS, list, 12, &count));
    told("the changes with a mark too few", brunskerl_mend_changes(ASKED, 0, marks, sizeof marks - 1, list, 12, &count));
    mended("the changes told", 0);
    office = 1;
    mended("mended as office 1", 1);
    office = 2;
    mended("mended as office 2", 1);
    office = 0;
    mended("mended", 1);
    mended("mended once more", 1);
    done(brunskerl_append_entry(ASKED, 6, 1, 3), "a fin in a second loop");
    mended("with a fin in two loops", 1);
    done(brunskerl_append_entry(ASKED, 6, 1, 24), "a fin that is missing");
    mended("with a fin that is missing too", 1);
    for (unsigned k = 0; k < 2; k++)
        done(brunskerl_strike_entry(ASKED, 6, 1, 4), "the fins struck");
}

static void split(size_t edge, double fraction)
{
    uint32_t ids[3];
    uint32_t number = brunskerl_split_line_edge(ASKED, edge, fraction, &ids);
    printf("split of edge %zu at %g: ", edge, fraction);
    if (number != 0) {
        printf("refused with %u\n", (unsigned)number);
        return;
    }
    uint32_t own[1];
    double at[4], bounds[2];
    done(brunskerl_vertex(LENT, ids[2], &own, &at), "new vertex");
    done(brunskerl_edge_parameter_bounds(LENT, ids[1], &bounds), "bounds of the new edge");
    printf("edge %u from %g to %g, vertex %u at (%g, %g, %g)\n", (unsigned)ids[1], bounds[0], bounds[1], (unsigned)ids[2], at[0], at[1], at[2]);
}

/* Each record is read and set to what it is; that must leave all memory as it was. */
static void again(void)
{
    uint32_t *before = malloc(n * sizeof *words);
    double *floats = malloc(m * sizeof *reals);
    if (before == NULL || floats == NULL)
        exit(2);
    memcpy(before, words, n * sizeof *words);
    memcpy(floats, reals, m * sizeof *reals);
    uint32_t body[2], region[3], shell[4], face[8], loop[2], fin[4], edge[8], vertex[1], carrier[1];
    double own[1], at[4], six[6];
    unsigned records = 0;
    for (size_t i = 0; brunskerl_body(ASKED, i, &body) == 0; i++, records++)
        done(brunskerl_set_body(ASKED, i, WORDS(1, body[0])), "set body");
    for (size_t i = 0; brunskerl_region(LENT, i, &region) == 0; i++, records++)
        done(brunskerl_set_region(LENT, i, WORDS(2, region[0], region[1])), "set region");
    for (size_t i = 0; brunskerl_shell(LENT, i, &shell) == 0; i++, records++)
        done(brunskerl_set_shell(LENT, i, WORDS(1, shell[0])), "set shell");
    for (size_t i = 0; brunskerl_face(LENT, i, &face) == 0; i++, records++)
        done(brunskerl_set_face(LENT, i, WORDS(7, face[0], face[1], face[2], face[3], face[4], face[5], face[6])), "set face");
    for (size_t i = 0; brunskerl_loop(LENT, i, &loop) == 0; i++, records++)
        done(brunskerl_set_loop(LENT, i, WORDS(1, loop[0])), "set loop");
    for (size_t i = 0; brunskerl_fin(LENT, i, &fin) == 0; i++, records++)
        done(brunskerl_set_fin(LENT, i, WORDS(4, fin[0], fin[1], fin[2], fin[3])), "set fin");
    for (size_t i = 0; brunskerl_edge(LENT, i, &edge, &own) == 0; i++, records++)
        done(brunskerl_set_edge(LENT, i, WORDS(7, edge[0], edge[1], edge[2], edge[3], edge[4], edge[5], edge[6]), FLOATS(1, own[0])), "set edge");
    for (size_t i = 0; brunskerl_vertex(LENT, i, &vertex, &at) == 0; i++, records++)
        done(brunskerl_set_vertex(LENT, i, WORDS(1, vertex[0]), FLOATS(4, at[0], at[1], at[2], at[3])), "set vertex");
    for (size_t i = 0; brunskerl_curve(LENT, i, &carrier, &six) == 0; i++, records++)
        done(brunskerl_set_curve(LENT, i, WORDS(1, carrier[0]), FLOATS(6, six[0], six[1], six[2], six[3], six[4], six[5])), "set curve");
    for (size_t i = 0; brunskerl_surface(LENT, i, &carrier, &six) == 0; i++, records++)
        done(brunskerl_set_surface(LENT, i, WORDS(1, carrier[0]), FLOATS(6, six[0], six[1], six[2], six[3], six[4], six[5])), "set surface");
    int same = memcmp(before, words, n * sizeof *words) == 0 && memcmp(floats, reals, m * sizeof *reals) == 0;
    printf("%u records set to what they are: %s\n", records, same ? "the memory is as it was" : "the memory has changed");
    free(before);
    free(floats);
}

/* The model as bytes: written, emptied as a model of the other version, read back, and written again, which must give the same bytes. */
static void kept(void)
{
    size_t length[1], again[1];
    uint32_t version[1];
    done(brunskerl_version(LENT, &version), "version");
    done(brunskerl_image_length(LENT, &length), "the length of the image");
    uint8_t *image = malloc(length[0]), *other = malloc(length[0]);
    if (image == NULL || other == NULL)
        exit(2);
    told("a list one byte too short", brunskerl_write_image(LENT, image, length[0] - 1, &again));
    done(brunskerl_write_image(LENT, image, length[0], &again), "the image");
    done(brunskerl_make(LENT, 1, 3 - version[0]), "make");
    told("an image without its last byte", brunskerl_read_image(LENT, image, length[0] - 1));
    done(brunskerl_read_image(LENT, image, length[0]), "the model read back");
    done(brunskerl_write_image(LENT, other, length[0], &again), "the image of what was read");
    int same = again[0] == length[0] && memcmp(image, other, length[0]) == 0;
    printf("an image of %zu bytes, read back and written again: %s\n", length[0], same ? "the same bytes" : "other bytes");
    free(image);
    free(other);
}

/* The lists, entry by entry, and single records. */
static void entries(void)
{
    uint32_t entry[1], is[1], ends_of[4], fin[4];
    double precision[1];
    done(brunskerl_precision(LENT, &precision), "precision");
    done(brunskerl_version(LENT, &is), "version");
    printf("precision %g, version %u\n", precision[0], (unsigned)is[0]);
    done(brunskerl_list_entry(ASKED, 6, 0, 3, &entry), "fin 3 of loop 0");
    done(brunskerl_fin_vertices(LENT, entry[0], &ends_of), "its ends");
    printf("loop 0 ends with fin %u, from vertex %u to vertex %u\n", (unsigned)entry[0], (unsigned)ends_of[1], (unsigned)ends_of[3]);
    done(brunskerl_put_entry(ASKED, 6, 0, 3, entry[0]), "the same entry put");
    told("an entry at place 4", brunskerl_put_entry(ASKED, 6, 0, 4, entry[0]));
    told("an entry of list 8", brunskerl_list_entry(ASKED, 8, 0, 0, &entry));
    for (size_t id = 7; id < 9; id++) {
        done(brunskerl_contains(ASKED, 7, id, &is), "contains");
        printf("vertex %zu: %s\n", id, is[0] ? "there" : "not there");
    }
    told("a record of table 8", brunskerl_contains(ASKED, 8, 0, &is));
    done(brunskerl_set_fin_geometry(LENT, 0), "a pcurve");
    done(brunskerl_fin(LENT, 0, &fin), "fin 0");
    printf("fin 0 with a pcurve: %u\n", (unsigned)fin[3]);
    split(uses[0][0], 0.5);
    done(brunskerl_set_fin(LENT, 0, WORDS(4, fin[0], fin[1], fin[2], 0)), "fin 0 without");
}

/* The stone as the other office is told of it, and an office that is none. A region, and where an edge runs, is told to both. */
static void others(void)
{
    uint32_t is[1], body[2], first[5], code;
    double volume[1], bounds[2];
    office = 1;
    told("the body, as office 1", brunskerl_body(ASKED, 0, &body));
    done(brunskerl_contains(ASKED, 0, 0, &is), "contains");
    printf("body 0, as office 1: %s\n", is[0] ? "there" : "not there");
    done(brunskerl_contains(ASKED, 1, 0, &is), "contains");
    printf("region 0, as office 1: %s\n", is[0] ? "there" : "not there");
    size_t none = brunskerl_body_faces(ASKED, 0, FACES, is, 1, &code);
    printf("its faces, as office 1: %zu, refused with %u\n", none, (unsigned)code);
    told("its volume, as office 1", brunskerl_body_volume(ASKED, 0, FACES, &volume));
    told("its first fault, as office 1", brunskerl_first_fault(ASKED, 0, 1, 3, EDGES, &first));
    told("a region of it struck, as office 1", brunskerl_strike_entry(ASKED, 0, 0, 1));
    told("another kind of it, as office 1", brunskerl_set_body(ASKED, 0, WORDS(1, 0)));
    told("a kind of it that is none, as office 1", brunskerl_set_body(ASKED, 0, WORDS(1, 5)));
    told("a body of its own, as office 1", brunskerl_insert_body(ASKED, WORDS(1, 3), &is));
    done(brunskerl_edge_parameter_bounds(LENT, 0, &bounds), "bounds of edge 0");
    printf("as office 1, ");
    split(0, 0.25);
    office = 2;
    printf("as office 2, ");
    split(0, 0.25);
    told("a body, as office 2", brunskerl_insert_body(ASKED, WORDS(1, 3), &is));
    told("its volume, as office 2, with no marks", brunskerl_body_volume(ASKED, 0, faces, 0, &volume));
    office = 0;
    told("its volume, with no marks", brunskerl_body_volume(ASKED, 0, faces, 0, &volume));
    told("its first fault, with 256 samples", brunskerl_first_fault(ASKED, 0, 1, 256, EDGES, &first));
}

/* Edge 0 has a tolerance of its own below the session's, and lies off the plane of face 0 by more than the one and less than the other. */
static void between(uint32_t version)
{
    uint32_t is[1];
    clear();
    lay_out(version);
    done(brunskerl_set_edge(LENT, 0, WORDS(7, 1, 0, 1, 1, 1, 0, 1), FLOATS(1, 0.0001)), "an own tolerance");
    done(brunskerl_set_surface(LENT, 0, WORDS(1, 1), FLOATS(6, 0, 0, 0.0003, 0, 0, -1)), "the plane of face 0");
    report();
    split(0, 0.25);
    kept();
    done(brunskerl_version(LENT, &is), "version");
    printf("it is of version %u\n", (unsigned)is[0]);
}

int main(void)
{
    uint32_t id[1];
    lay_out(1);
    walks();
    measured();
    stones();
    courses();
    drawn();
    slabs();
    report();
    pointers();
    entries();
    others();
    again();
    split(0, 0);
    split(0, 1.0 / 4096);
    split(12, 0.5);
    split(0, 0.25);
    kept();
    walks();
    measured();
    uint64_t sheet[5] = {0};
    taken("the split stone on a new sheet", &sheet);
    report();
    /* Every table of the split is full now, and so is that of the bodies. */
    split(1, 0.5);
    told("a second body", brunskerl_insert_body(ASKED, WORDS(1, 3), &id));
    told("a body of a kind that is none", brunskerl_insert_body(ASKED, WORDS(1, 5), &id));
    again();
    done(brunskerl_strike_entry(ASKED, 6, 0, 4), "the last fin of loop 0 struck");
    report();
    told("a word too few", brunskerl_contains(&room, words, n - 1, reals, m, office, 0, 0, &id));
    told("an empty model of precision 0", brunskerl_make(LENT, 0, 1));
    told("an empty model of version 3", brunskerl_make(LENT, 0.001, 3));
    /* Nothing is wrong with an empty body, a solid with its void region alone, and it is not fit to saw. */
    done(brunskerl_make(LENT, 0.001, 1), "make");
    done(brunskerl_insert_body(ASKED, WORDS(1, 3), &id), "body");
    done(brunskerl_insert_region(LENT, WORDS(2, 0, 0), &id), "region");
    done(brunskerl_append_entry(ASKED, 0, 0, 0), "region of the body");
    report();
    double volume[1];
    told("the volume of the empty body", brunskerl_body_volume(ASKED, 0, FACES, &volume));
    between(1);
    between(2);
    clear();
    return 0;
}
