/* The trial stone, laid out by the calls of the header: a box from the origin to (4, 3, 2) at precision 0.001. */
#ifndef STONE_H
#define STONE_H

#include <stdint.h>
#include <stdio.h>
#include <stdlib.h>

#include "brunskerl.h"

/* Room for the stone, for one split of an edge with two fins, and for no more. */
static const size_t room[10] = {1, 2, 2, 6, 6, 26, 13, 9, 12, 6};
static uint32_t *words;
static double *reals;
static size_t n, m;

/* Seen marks, one for each record that there is room for. */
static uint8_t faces[6], edges[13], vertices[9];

/* Marks for the mending. */
static uint8_t marks[BRUNSKERL_MEND_MARKS];

/* The office that asks: the stone is office 0's. */
static uint32_t office = 0;

/* The lent memory, as the calls take it, and with the office behind it. */
#define LENT &room, words, n, reals, m
#define ASKED LENT, office
#define FACES faces, sizeof faces
#define EDGES FACES, edges, sizeof edges
#define VERTICES EDGES, vertices, sizeof vertices
#define MARKS marks, sizeof marks

/* An array of these values, of which a call takes the address. */
#define WORDS(k, ...) &(const uint32_t[k]){__VA_ARGS__}
#define FLOATS(k, ...) &(const double[k]){__VA_ARGS__}

/* What must not be refused. */
static void done(uint32_t number, const char *what)
{
    if (number != 0) {
        printf("%s: refused with %u\n", what, (unsigned)number);
        exit(1);
    }
}

/* Corner i has the greater x where i has bit 0, the greater y for bit 1, the greater z for bit 2. */
static void corner(unsigned i, double p[3])
{
    p[0] = i & 1 ? 4 : 0;
    p[1] = i & 2 ? 3 : 0;
    p[2] = i & 4 ? 2 : 0;
}

/* The start and the end of each edge, by corners; four run along each axis. */
static const uint32_t ends[12][2] = {
    {0, 1}, {2, 3}, {4, 5}, {6, 7}, {0, 2}, {1, 3}, {4, 6}, {5, 7}, {0, 4}, {1, 5}, {2, 6}, {3, 7},
};

/* The edges of each face's loop: the first two are used in their direction, the others against it. */
static const uint32_t uses[6][4] = {{4, 1, 5, 0}, {2, 7, 3, 6}, {0, 9, 2, 8}, {10, 3, 11, 1}, {8, 6, 10, 4}, {5, 11, 7, 9}};

/* A corner of each face; its normal is along an axis, one of length 1, as every normal and direction must be. */
static const unsigned bases[6] = {0, 4, 0, 2, 0, 1};

/* The stone as a model of a version. The ids are slot numbers from 0, so that what was put in at place i is record i. */
static void lay_out(uint32_t version)
{
    uint32_t id[1];
    double p[3], way[3];
    n = BRUNSKERL_WORDS(room);
    m = BRUNSKERL_REALS(room);
    words = calloc(n, sizeof *words);
    reals = calloc(m, sizeof *reals);
    if (words == NULL || reals == NULL)
        exit(2);
    done(brunskerl_make(LENT, 0.001, version), "make");
    done(brunskerl_insert_body(ASKED, WORDS(1, 3), &id), "body");
    for (uint32_t i = 0; i < 2; i++) {
        done(brunskerl_insert_region(LENT, WORDS(2, 0, i), &id), "region");
        done(brunskerl_insert_shell(LENT, WORDS(1, i), &id), "shell");
        done(brunskerl_append_entry(ASKED, 0, 0, i), "region of the body");
        done(brunskerl_append_entry(ASKED, 1, i, i), "shell of a region");
    }
    for (unsigned i = 0; i < 8; i++) {
        corner(i, p);
        done(brunskerl_insert_vertex(LENT, WORDS(1, 0), FLOATS(4, p[0], p[1], p[2], 0), &id), "vertex");
    }
    for (uint32_t i = 0; i < 12; i++) {
        corner(ends[i][0], p);
        for (unsigned k = 0; k < 3; k++)
            way[k] = k == i / 4;
        done(brunskerl_insert_curve(LENT, WORDS(1, 0), FLOATS(6, p[0], p[1], p[2], way[0], way[1], way[2]), &id), "curve");
        done(brunskerl_insert_edge(LENT, WORDS(7, 1, ends[i][0], 1, ends[i][1], 1, i, 0), FLOATS(1, 0), &id), "edge");
    }
    for (uint32_t i = 0; i < 6; i++) {
        corner(bases[i], p);
        for (unsigned k = 0; k < 3; k++)
            way[k] = k != 2 - i / 2 ? 0 : i % 2 ? 1 : -1;
        done(brunskerl_insert_surface(LENT, WORDS(1, 1), FLOATS(6, p[0], p[1], p[2], way[0], way[1], way[2]), &id), "surface");
        done(brunskerl_insert_face(LENT, WORDS(7, 1, 0, 1, 1, 1, i, 0), &id), "face");
        done(brunskerl_insert_loop(LENT, WORDS(1, i), &id), "loop");
        for (uint32_t shell = 0; shell < 2; shell++)
            done(brunskerl_append_entry(ASKED, 2, shell, i), "face of a shell");
        done(brunskerl_append_entry(ASKED, 5, i, i), "loop of a face");
        for (uint32_t k = 0; k < 4; k++) {
            uint32_t edge = uses[i][k];
            done(brunskerl_insert_fin(LENT, WORDS(4, i, edge, k > 1, 0), &id), "fin");
            done(brunskerl_append_entry(ASKED, 6, i, id[0]), "fin of a loop");
            done(brunskerl_append_entry(ASKED, 7, edge, id[0]), "fin of an edge");
        }
    }
}

static void clear(void)
{
    free(words);
    free(reals);
}

#endif
