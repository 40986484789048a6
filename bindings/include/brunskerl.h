/* Brunskerl: the station's calls, for C. Link with libstation.a (tools/staticlib station).
 *
 * A model lies in memory that the caller lends: the ten capacities (room), words and floats. BRUNSKERL_WORDS and
 * BRUNSKERL_REALS say how long they must be. Tables, in the order of the capacities: bodies, regions, shells, faces, loops, fins,
 * edges, vertices, curves, surfaces. Ids are slot numbers from 0; nothing is removed.
 *
 * A model names the version of the drawing practice that it goes by, 1 or 2, and keeps it; only to make and to read an image can put another in its
 * place. The version says which tolerance of an edge or a vertex is in effect in the split, the report and fit to saw: in version 1 its own, else the
 * session's, which is half the precision; in version 2 the larger of its own and the session's, and the session's where it has none of its own.
 *
 * Two drawing offices share the tables. Each body is one office's, 0 or 1, from its insert on, and every call that names or makes a body names the office
 * that asks, right behind the lent memory. A body of the other office is answered as one that does not exist: refused with 2 where a missing one is, and not
 * contained. So is an edge, to a split, that is in the walk of a body of the other office; a body whose walk of edges fails has none. All else is both offices':
 * a region, an edge, a fin have no office, and to hold the id of a body, as a region does, is not to name it. What an office is told of its bodies by walks, box,
 * volume, report and fit to saw is the same whatever stands in the other's records, where no record is reached from bodies of both, and each id met from its
 * own names a record, or none, as before. Slots and ids are common: an 8 and a new id may depend on the other. An office above 1 is a 1, right after 9, in each
 * call that takes one.
 *
 * What a caller owes. Each pointer is valid, aligned for its type and not null, also where its length is 0, and the length that follows it is the
 * true one. No part that a call writes to overlaps another part of that call. While it runs, nothing else writes to its parts, nor reads those that it
 * writes to. Floats are as a program finds them at its start: rounded to the nearest, no flush to zero (which -ffast-math would set), no traps. The
 * station keeps nothing between calls, no address either, so that calls on other memory may run beside each other. A call takes less than 128 KB of
 * stack, and no memory but that and what is lent. From the C library the station needs memcpy and memset.
 *
 * The answers about a model of version 1 and of one office, asked by it, are those of the Rust that the station is ported from where coordinates are
 * finite and at most 2^40 in size, the precision and tolerances at least 2^-100, and each direction and normal is a vector divided by its length. That
 * is the caller's part: the station takes a direction as it is given. On a line whose direction is not of length 1 an edge has other parameters, and a
 * split can put its vertex beyond the edge's end; from a plane whose normal is not, distances are as many times too long or too short. Divide by
 * hypot(hypot(x, y), z), as the Rust does; the Rust crate beside this header has makers of lines and planes from points.
 *
 * Each call returns 0 or the refusal's number, unless it says otherwise. A refusal is the number alone: no call says which record it was refused for. It
 * leaves every table, list and slot as it was, but for a walk's `code`, which gets the number; marks are left zero, refused or not. The refusals
 * stand beside the calls in the order of their tests, and the first that applies is given.
 *   1 bad argument   2 no such record   4 degenerate   5 off the grid   6 not a solid   7 not carried, or a sign in doubt   8 no room   9 unreadable
 *
 * A record's fields, as `value` and `floats` hold them. An optional id is a tag, 0 for none or 1, and the id. A lookup gives the lengths
 * of the record's lists behind its fields; an insert and a set take the fields alone, and the lists are filled entry by entry.
 *   body     kind (0 acorn, 1 wire, 2 sheet, 3 solid, 4 general)              | regions; its office is the one that the call names
 *   region   body, solid (0 or 1)                                             | shells
 *   shell    region                                                           | faces, wire edges, acorn vertices
 *   face     front shell (optional), back shell (optional), surface (optional), sense (0 positive, 1 negative) | loops
 *   loop     face                                                             | fins
 *   fin      loop, edge, sense, pcurve mark (0 or 1)
 *   edge     start (optional), end (optional), curve (optional), 1 if it has a tolerance of its own | fins; floats: that tolerance
 *   vertex   1 if it has a tolerance of its own; floats: x, y, z, that tolerance
 *   curve, surface  0 line, 1 plane, 2 other; floats: origin x, y, z, direction or normal x, y, z
 *
 * The lists by number: 0 regions of a body, 1 shells of a region, 2 faces, 3 wire edges and 4 acorn vertices of a shell, 5 loops of a
 * face, 6 fins of a loop, 7 fins of an edge.
 */
#ifndef BRUNSKERL_H
#define BRUNSKERL_H

#include <stddef.h>
#include <stdint.h>

/* The lent memory, as each call takes it: to read, to write, and to write to the lists alone. */
#define BRUNSKERL_MEMORY const size_t (*room)[10], const uint32_t *words, size_t n, const double *reals, size_t m
#define BRUNSKERL_MEMORY_OUT const size_t (*room)[10], uint32_t *words, size_t n, double *reals, size_t m
#define BRUNSKERL_LISTS_OUT const size_t (*room)[10], uint32_t *words, size_t n, const double *reals, size_t m

/* How many words and floats a model of these capacities takes. */
#define BRUNSKERL_WORDS(r) (11 + 19 * (r)[0] + 19 * (r)[1] + 836 * (r)[2] + 24 * (r)[3] + 1026 * (r)[4] + 4 * (r)[5] + 16 * (r)[6] + (r)[7] + (r)[8] + (r)[9])
#define BRUNSKERL_REALS(r) (1 + (r)[6] + 4 * (r)[7] + 6 * (r)[8] + 6 * (r)[9])

#ifdef __cplusplus
extern "C" {
#endif

/* An empty model with a session precision, of a version: 9 where the capacities or lengths are wrong, 1 for a precision that is none, 1 for a version
 * other than 1 and 2. */
uint32_t brunskerl_make(BRUNSKERL_MEMORY_OUT, double precision, uint32_t version);
/* The session precision, and the version: 9. */
uint32_t brunskerl_precision(BRUNSKERL_MEMORY, double (*value)[1]);
uint32_t brunskerl_version(BRUNSKERL_MEMORY, uint32_t (*value)[1]);

/* Lookups: 9, of a body 1 for the office, 2. */
uint32_t brunskerl_body(BRUNSKERL_MEMORY, uint32_t office, size_t id, uint32_t (*value)[2]);
uint32_t brunskerl_region(BRUNSKERL_MEMORY, size_t id, uint32_t (*value)[3]);
uint32_t brunskerl_shell(BRUNSKERL_MEMORY, size_t id, uint32_t (*value)[4]);
uint32_t brunskerl_face(BRUNSKERL_MEMORY, size_t id, uint32_t (*value)[8]);
uint32_t brunskerl_loop(BRUNSKERL_MEMORY, size_t id, uint32_t (*value)[2]);
uint32_t brunskerl_fin(BRUNSKERL_MEMORY, size_t id, uint32_t (*value)[4]);
uint32_t brunskerl_edge(BRUNSKERL_MEMORY, size_t id, uint32_t (*value)[8], double (*floats)[1]);
uint32_t brunskerl_vertex(BRUNSKERL_MEMORY, size_t id, uint32_t (*value)[1], double (*floats)[4]);
uint32_t brunskerl_curve(BRUNSKERL_MEMORY, size_t id, uint32_t (*value)[1], double (*floats)[6]);
uint32_t brunskerl_surface(BRUNSKERL_MEMORY, size_t id, uint32_t (*value)[1], double (*floats)[6]);

/* Inserts: 9, of a body 1 for the office, 1, 8. The new record's id is put in its slot. A new body is the office's. */
uint32_t brunskerl_insert_body(BRUNSKERL_MEMORY_OUT, uint32_t office, const uint32_t (*value)[1], uint32_t (*id)[1]);
uint32_t brunskerl_insert_region(BRUNSKERL_MEMORY_OUT, const uint32_t (*value)[2], uint32_t (*id)[1]);
uint32_t brunskerl_insert_shell(BRUNSKERL_MEMORY_OUT, const uint32_t (*value)[1], uint32_t (*id)[1]);
uint32_t brunskerl_insert_face(BRUNSKERL_MEMORY_OUT, const uint32_t (*value)[7], uint32_t (*id)[1]);
uint32_t brunskerl_insert_loop(BRUNSKERL_MEMORY_OUT, const uint32_t (*value)[1], uint32_t (*id)[1]);
uint32_t brunskerl_insert_fin(BRUNSKERL_MEMORY_OUT, const uint32_t (*value)[4], uint32_t (*id)[1]);
uint32_t brunskerl_insert_edge(BRUNSKERL_MEMORY_OUT, const uint32_t (*value)[7], const double (*floats)[1], uint32_t (*id)[1]);
uint32_t brunskerl_insert_vertex(BRUNSKERL_MEMORY_OUT, const uint32_t (*value)[1], const double (*floats)[4], uint32_t (*id)[1]);
uint32_t brunskerl_insert_curve(BRUNSKERL_MEMORY_OUT, const uint32_t (*value)[1], const double (*floats)[6], uint32_t (*id)[1]);
uint32_t brunskerl_insert_surface(BRUNSKERL_MEMORY_OUT, const uint32_t (*value)[1], const double (*floats)[6], uint32_t (*id)[1]);

/* Edits of a record's fields; its lists stay, and a body's office: 9, of a body 1 for the office, 1, 2. set_fin_geometry marks a fin as one with a pcurve. */
uint32_t brunskerl_set_body(BRUNSKERL_MEMORY_OUT, uint32_t office, size_t id, const uint32_t (*value)[1]);
uint32_t brunskerl_set_region(BRUNSKERL_MEMORY_OUT, size_t id, const uint32_t (*value)[2]);
uint32_t brunskerl_set_shell(BRUNSKERL_MEMORY_OUT, size_t id, const uint32_t (*value)[1]);
uint32_t brunskerl_set_face(BRUNSKERL_MEMORY_OUT, size_t id, const uint32_t (*value)[7]);
uint32_t brunskerl_set_loop(BRUNSKERL_MEMORY_OUT, size_t id, const uint32_t (*value)[1]);
uint32_t brunskerl_set_fin(BRUNSKERL_MEMORY_OUT, size_t id, const uint32_t (*value)[4]);
uint32_t brunskerl_set_edge(BRUNSKERL_MEMORY_OUT, size_t id, const uint32_t (*value)[7], const double (*floats)[1]);
uint32_t brunskerl_set_vertex(BRUNSKERL_MEMORY_OUT, size_t id, const uint32_t (*value)[1], const double (*floats)[4]);
uint32_t brunskerl_set_curve(BRUNSKERL_MEMORY_OUT, size_t id, const uint32_t (*value)[1], const double (*floats)[6]);
uint32_t brunskerl_set_surface(BRUNSKERL_MEMORY_OUT, size_t id, const uint32_t (*value)[1], const double (*floats)[6]);
uint32_t brunskerl_set_fin_geometry(BRUNSKERL_MEMORY_OUT, size_t id);

/* Whether a record exists for the office, by its table, 0 to 7: 9, 1 for the office, 1 for another table. */
uint32_t brunskerl_contains(BRUNSKERL_MEMORY, uint32_t office, uint32_t table, size_t id, uint32_t (*value)[1]);

/* Entries of the lists, by the list's number: 9, 1 for the office, whatever the list is, 1 for another number, 2, 1 for a place that is not there, 8 for a full list. */
uint32_t brunskerl_list_entry(BRUNSKERL_MEMORY, uint32_t office, size_t list, size_t id, size_t place, uint32_t (*entry)[1]);
uint32_t brunskerl_put_entry(BRUNSKERL_LISTS_OUT, uint32_t office, size_t list, size_t id, size_t place, uint32_t entry);
uint32_t brunskerl_append_entry(BRUNSKERL_LISTS_OUT, uint32_t office, size_t list, size_t id, uint32_t entry);
uint32_t brunskerl_strike_entry(BRUNSKERL_LISTS_OUT, uint32_t office, size_t list, size_t id, size_t place);

/* Walks: 9, 1 for the office, 8 for short marks, 2, 8 for a short list. The number is put in `code`; what is returned is how many ids stand in the front of
 * `out`. Marks are bytes, one for each record of the capacity; they may hold anything, and are left zero. */
size_t brunskerl_body_faces(BRUNSKERL_MEMORY, uint32_t office, size_t body, uint8_t *faces, size_t f, uint32_t *out, size_t o, uint32_t *code);
size_t brunskerl_body_edges(BRUNSKERL_MEMORY, uint32_t office, size_t body, uint8_t *faces, size_t f, uint8_t *edges, size_t e, uint32_t *out, size_t o, uint32_t *code);
size_t brunskerl_body_vertices(BRUNSKERL_MEMORY, uint32_t office, size_t body, uint8_t *faces, size_t f, uint8_t *edges, size_t e, uint8_t *vertices, size_t v, uint32_t *out, size_t o, uint32_t *code);

/* The ends of a fin in its direction, each a tag and an id: 9, 2. */
uint32_t brunskerl_fin_vertices(BRUNSKERL_MEMORY, size_t fin, uint32_t (*ends)[4]);

/* The box's two corners, and the volume. Both: 9, 1 for the office, 8 for short marks, 2 for a missing body, region or shell; for each face of the walk 2 where it is
 * missing, 1 for no surface, 2 for a missing one, 7 for one that is no plane; 2 for a missing loop or fin; for each edge of the walk 2 where it is
 * missing, 1 for no curve, 2 for a missing one, 7 for one that is no line.
 * The box then: 2 for a missing vertex, 4 for no vertex, 4 for a coordinate that is not finite.
 * The volume then: 6 for a body that is no solid; for each face that a shell of a solid region lists, in list order, 1 where that shell is neither its
 * front nor its back or is both, 7 unless it has one loop, 4 for fewer than three fins, and for each fin 7 for a start that is none, 2 for a missing
 * one; 4 where there is no such face. */
uint32_t brunskerl_body_bounding_box(BRUNSKERL_MEMORY, uint32_t office, size_t body, uint8_t *faces, size_t f, uint8_t *edges, size_t e, uint8_t *vertices, size_t v, double (*corners)[6]);
uint32_t brunskerl_body_volume(BRUNSKERL_MEMORY, uint32_t office, size_t body, uint8_t *faces, size_t f, double (*volume)[1]);

/* The stone sheet in whole numbers: takes the body in on one running sheet, which is handed from body to body. Its number is six times the volume in cubic
 * sixteenths of a millimetre, exactly, over the same faces and fans as the float volume; that of a stone inside out is negative. The sheet's five words:
 *   0     how many stones it has
 *   1, 2  their exact total in two's complement, the low word first
 *   3, 4  the largest stone so far, its body's id and its number in two's complement; among equals the first met
 * Five zeros are a new sheet. Where there is no stone there is no largest, whatever words 3 and 4 hold. They are not tested, and which stones were taken in is
 * not kept: a body that is taken in twice counts twice. Where the sheet has room for all of them, the total is the same in any order.
 * Refusals: 9, also for a sheet of over 65,536 stones or with a total above 3 * 2^60 in size per stone, 1 for the office, 8 for short marks, all of the volume's, 5
 * where a coordinate of the fans' points is no whole sixteenth of a millimetre or above 2,048 mm in size, 8 for more than 4,096 triangles, which are the fins less two
 * of each face, 8 where the sheet has 65,536 stones. A refusal leaves all five words. */
uint32_t brunskerl_sheet_take(BRUNSKERL_MEMORY, uint32_t office, size_t body, uint8_t *faces, size_t f, uint64_t (*sheet)[5]);

/* The masons' courses, courses within courses. A course table stands in words of its own, `courses`, k of them: how many courses it has, then 17 words for each, how many
 * entries it has and room for 16. So k words hold (k - 1) / 17 courses, and never more than 256. An entry is a tag, 0 for a body or 1 for a course, and an id below 65536;
 * in the table it is one word, the id and 65536 more for a course. Tables are made and edited by the calls here, or laid out by hand. An id may name no record.
 * Refusal 9 is for no word at all, a count of courses above 256 or above what k words hold, a course of more than 16 entries, and a word from 131072 on for an entry; it
 * comes first. A refusal leaves every word and every slot. No image has the courses.
 *
 * An empty table: 9 for no word alone; the other words stay. A course more, which is empty, and its id: 8 for no room. */
uint32_t brunskerl_make_courses(uint32_t *courses, size_t k);
uint32_t brunskerl_insert_course(uint32_t *courses, size_t k, uint32_t (*id)[1]);
/* An entry more at the end: 1 for a tag above 1 or an id above 65535, 2 for a missing course, 8 for 16 entries. Another entry at a place, from 0: 1, 2, 1 for a place that is
 * not there. Without the entry at a place, those behind it moved one down: 2, 1. */
uint32_t brunskerl_append_course_entry(uint32_t *courses, size_t k, size_t course, uint32_t tag, uint32_t id);
uint32_t brunskerl_put_course_entry(uint32_t *courses, size_t k, size_t course, size_t place, uint32_t tag, uint32_t id);
uint32_t brunskerl_strike_course_entry(uint32_t *courses, size_t k, size_t course, size_t place);
/* How many courses there are; how many entries a course has: 2; the entry at a place, its tag and its id: 2, 1. */
uint32_t brunskerl_course_count(const uint32_t *courses, size_t k, uint32_t (*count)[1]);
uint32_t brunskerl_course_length(const uint32_t *courses, size_t k, size_t course, uint32_t (*length)[1]);
uint32_t brunskerl_course_entry(const uint32_t *courses, size_t k, size_t course, size_t place, uint32_t (*entry)[2]);
/* The stones of a course and of the courses in it, each as often as it is listed: how many there are, and the exact total of their numbers, in two words as the sheet has it.
 * There are four levels, the course asked for being the first. A course without entries has no stones and total 0.
 * Refusals: 9, of the tables or the course table, 1 for the office, 8 for short marks, 2 for a course or a body missing within the four levels, also a body of the other
 * office, 1 where a course on the fourth level lists a course, there or not, then those of the sheet for a body, by the first stone in order that has one. */
uint32_t brunskerl_course_total(BRUNSKERL_MEMORY, uint32_t office, const uint32_t *courses, size_t k, size_t course, uint8_t *faces, size_t f, uint64_t (*sum)[3]);

/* The body as binary STL, for the viewer: an 80-byte header of zeros, the number of triangles in 32 bits, then 50 bytes for each triangle, a normal of zeros, its three
 * corners and an attribute of zeros; all numbers little-endian, coordinates in binary32. The triangles are the fans that the volume uses, in its order and outward, the
 * fins less two of each face that it takes: a fan of a face that is not convex can reach beyond it, and a triangle is flat where an edge was split. The file is what the
 * volume measures.
 * The length in bytes, which is 84 and 50 for each triangle: 9, 1 for the office, 8 for short marks, all of the volume's, 5 where a coordinate of the fans' points is not
 * finite or no binary32 value; both zeros and subnormals are. The file, put in the front of `bytes`, and its length: these, then 8 where b is less than that. A refusal
 * leaves every byte and the length; the bytes behind the file's end always stay. */
uint32_t brunskerl_stl_length(BRUNSKERL_MEMORY, uint32_t office, size_t body, uint8_t *faces, size_t f, size_t (*length)[1]);
uint32_t brunskerl_write_stl(BRUNSKERL_MEMORY, uint32_t office, size_t body, uint8_t *faces, size_t f, uint8_t *bytes, size_t b, size_t (*length)[1]);

/* A new solid body of the office's from binary STL, whatever its header, normals and attributes hold; its id is put in the slot. A void and a solid region, in that order,
 * with a shell each; a face for each triangle, the void's shell in front and the solid's at the back; a loop from the first corner. Equal coordinates are one vertex, both
 * zeros equal, the first met stored; nothing near is joined, and no vertex of before is used. One edge for each pair of vertices, from the lower id to the higher. Records
 * stand in the order met, and have the session's tolerance; there are no surfaces and no curves: set them before box and volume, and before a check is empty. What an edge
 * that is used once or thrice is, the check tells (reason 19).
 * Refusals: 9, also where b is not 84 and 50 for each triangle that is counted, 1 for the office, 5 for a coordinate that is not finite, 1 for a triangle with two equal
 * corners, 8 where a table or a list has no room, an edge's ninth fin included. A refusal leaves all memory and the slot. */
uint32_t brunskerl_read_stl(BRUNSKERL_MEMORY_OUT, uint32_t office, const uint8_t *bytes, size_t b, uint32_t (*id)[1]);

/* The slab profile: is the body one of slabs along the axes? It is accepted where all rules hold:
 *   1  the normal of each face's plane is 1 or -1 in one place and a zero of either sign in the two others
 *   2  each face has one loop
 *   3  each fin of a loop ends where the next starts, the last where the first does; an end that is none breaks it
 *   4  the ends of each edge differ in exactly one coordinate; an end that is none and a missing vertex break it
 *   5  each vertex is there, and its coordinates are whole sixteenths of a millimetre, at most 2,048 mm in size
 *   6  the corners of each face, where its fins start, have one value on the axis of its normal
 * `profile` has the first rule that is broken and the first in walk order that breaks it, a face for the rules 1, 2 and 6, a fin for 3, an edge for 4, a vertex for 5; or two
 * zeros, and then the area of all faces in square sixteenths of a millimetre, exactly. Of an accepted body the front of `areas` has the area of each face in the order of the
 * walk, the size of the signed area of its loop. Wire edges and acorn vertices count for the rules 4 and 5 and have no area; a body without a face is accepted with area 0.
 * Refusals: 9, 1 for the office, 8 for short marks, then those that the box and the volume begin with, 6 for a body that is no solid, then 8 where the body is accepted and
 * has more than a faces. A refusal leaves `profile`; a refusal and a broken rule leave every area, and those behind the body's always stay. */
uint32_t brunskerl_slab_profile(BRUNSKERL_MEMORY, uint32_t office, size_t body, uint8_t *faces, size_t f, uint8_t *edges, size_t e, uint64_t *areas, size_t a, uint64_t (*profile)[3]);

/* The parameters of an edge's ends on its line, and the split at a fraction between them: that edge, the new edge, the new
 * vertex. The line's direction must have the length 1, or the new vertex can lie beyond the edge's end.
 * The parameters: 9, then tests 2 and 4 to 8 of these, whosever edge it is. The split: 9, 1 for the office, then
 *    1  1 for a fraction that is not finite, at most 0, or at least 1
 *    2  2 for a missing edge, and for one that is in the walk of a body of the other office; a body whose walk fails has none
 *    3  for each fin that the edge lists, 2 where it is missing, 7 where it has a pcurve
 *    4  7 for an end that is none
 *    5  1 for no curve, 2 for a missing one, 7 for one that is no line
 *    6  2 for a missing start or end
 *    7  4 unless direction . (end - start) is surely above 0
 *    8  7 for a parameter that is not finite, or unless the end's is surely above the start's
 *    9  4 for a split point that is not finite
 *   10  4 unless it is surely farther than the precision from the start and from the end
 *   11  for each fin that the edge lists, 1 where it was listed before, 1 where it names another edge, 2 for a missing loop, 1 unless the loop lists it
 *       exactly once, 2 for a missing face, 1 for no surface, 2 for a missing one, 7 for one that is no plane; then at the parameters of start, end and
 *       split, each in turn, 1 where the line is surely farther from the plane than the edge's tolerance in effect, 7 where that is in doubt
 *   12  1 where a shell lists the edge among its wire edges more than once
 *   13  8 where a table or a list has no room for what the split adds */
uint32_t brunskerl_edge_parameter_bounds(BRUNSKERL_MEMORY, size_t edge, double (*bounds)[2]);
uint32_t brunskerl_split_line_edge(BRUNSKERL_MEMORY_OUT, uint32_t office, size_t edge, double fraction, uint32_t (*ids)[3]);

/* The report: geometry is checked where that number is not 0; 9, 1 for the office, 8 for short marks, 1 for more than 255 samples, 2. The counts are all faults,
 * those kept in `list`, and the checks that could not be made: how many, not which. A fault is four words: kind, class (the entity's table), id,
 * reason. */
uint32_t brunskerl_check_body(BRUNSKERL_MEMORY, uint32_t office, size_t body, uint32_t geometry, size_t samples, uint8_t *faces, size_t f, uint8_t *edges, size_t e, uint32_t *list, size_t l, size_t (*counts)[3]);

/* The first fault alone, for the operator's lamp: the first entry of the report's full list for the same options, and none exactly where that list has no entry. The
 * check stops there. fault[0] is 1 where there is a fault, then kind, class, id and reason follow as the report has them; where there is none all five are 0. None is not
 * fit to saw: what could not be checked is not told. Refusals: those of the report, in its order. */
uint32_t brunskerl_first_fault(BRUNSKERL_MEMORY, uint32_t office, size_t body, uint32_t geometry, size_t samples, uint8_t *faces, size_t f, uint8_t *edges, size_t e, uint32_t (*fault)[5]);

/* 1 where the body is fit to saw: geometry checked with three samples, no fault, nothing unchecked; the body is solid, a solid region of it has a face,
 * and every shell that a face of it names is one of the body's and lists the face. No more than that: it is 1 for a stone inside out (whose volume is
 * negative), for a flat one (whose volume is 0), and for one whose own tolerances swallow its errors. Ask for the volume and the box too. Refusals: 9,
 * 1 for the office, 8 for short marks, 2. */
uint32_t brunskerl_fit_to_saw(BRUNSKERL_MEMORY, uint32_t office, size_t body, uint8_t *faces, size_t f, uint8_t *edges, size_t e, uint32_t (*fit)[1]);

/* Mends back pointers, for a body whose lists are right and whose records name wrong parents. From the body's lists each region, shell, loop and fin that it reaches is
 * made to name the record that lists it, and a fin that its edge does not list is added at the end of the edge's list; a face's front and back stay. mend_changes tells
 * the changes alone, mend makes them too. A change is six words of `list`:
 *   0  class, the record's table: 1 region, 2 shell, 4 loop, 5 fin, 6 edge
 *   1  id
 *   2  field: 0 the parent, 1 an edge's fins
 *   3  place: 0 for a parent; that of an added fin in the edge's list
 *   4  old value: the old parent; 0 for an added fin
 *   5  new value: the new parent; the added fin
 * They stand in the order of the walk: regions, shells, faces, loops and fins in list order, of a fin its parent and then its edge's list. A record that is met again, by
 * a face that two shells list, has nothing more to change. `count` gets how many there are, at most two for each fin and one for each region, shell and loop. The words
 * behind them stay, and so do words that make no whole entry. Behind mend the tables are the old ones with these changes made, and a second call finds none.
 * Refusals: 9, 1 for the office, 8 for short marks, which are BRUNSKERL_MEND_MARKS bytes whatever the capacities are, 2 for a missing body, region, shell, face, loop, fin
 * or fin's edge, 1 where a region, shell, loop or fin that the body reaches has two parents: where it stands twice in the lists of bodies, regions, faces or loops anywhere
 * in the tables, also twice in one list; 8 for an edge that would list a ninth fin, or for more changes than `list` has room for. */
#define BRUNSKERL_MEND_MARKS 6912
uint32_t brunskerl_mend_changes(BRUNSKERL_MEMORY, uint32_t office, size_t body, uint8_t *marks, size_t k, uint32_t *list, size_t l, size_t (*count)[1]);
uint32_t brunskerl_mend(BRUNSKERL_MEMORY_OUT, uint32_t office, size_t body, uint8_t *marks, size_t k, uint32_t *list, size_t l, size_t (*count)[1]);

/* The model as bytes, to be kept: docs/IMAGE.md has the format. One model has one image, whatever the capacities are and whatever lies where it says
 * nothing. The length in bytes: 9. The image, put in the front of `bytes`, and its length: 9, 8 where b is less than that; the bytes behind it stay.
 * Reading replaces the model in the lent memory. What the memory held is not tested, so that none need be made there before: 9 where the capacities
 * or lengths are wrong, 9 for bytes that are not exactly one image, 8 where a table has fewer slots than the image has records. The counts, the version,
 * the precision and the image's records are written; the slots behind them and the places behind each list's end stay. The image of a model of version
 * 2 begins with a record that says so; one without that record is of version 1, and one where it names anything but 2 is none. An image has the bodies of both
 * offices, and office 1's have a mark of their own: every body of an image from before there were offices is office 0's. Ids are not tested, as
 * everywhere. An image does not say what the capacities were, and holds no check sum: a byte that has changed can make it another model's image. */
uint32_t brunskerl_image_length(BRUNSKERL_MEMORY, size_t (*length)[1]);
uint32_t brunskerl_write_image(BRUNSKERL_MEMORY, uint8_t *bytes, size_t b, size_t (*length)[1]);
uint32_t brunskerl_read_image(BRUNSKERL_MEMORY_OUT, const uint8_t *bytes, size_t b);

#ifdef __cplusplus
}
#endif

#endif
