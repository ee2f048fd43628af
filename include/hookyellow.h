/* Hookyellow: lines and plane sections of the air flow in a room, and the cells that each was made
 * from; a writer of case files and a converter between their editions.
 *
 * `tools/staticlib capi` writes target/staticlib/libcapi.a. docs/FORMAT.md has the case, request and answer formats. A case is of
 * edition 1, or of edition 2, which has a zone for each cell: in it a line ends before its first point in another zone than its
 * seed's. Everything else is alike in both.
 *
 * Every pointer comes with its length, which counts elements. Any length and any contents may be given.
 * - Where the length is 0 nothing is read or written there, and the pointer may be NULL.
 * - Else it points to so many elements and is aligned for one: uint8_t at any address, uint32_t at a multiple of 4, double,
 *   uint64_t and size_t at a multiple of 8.
 * - What is written (the words and floats of a work area, marks, answers, needs, out) overlaps
 *   nothing else that is given; what is only read, behind a pointer to const, may overlap.
 * No function keeps a pointer, allocates, waits or holds anything between two calls: calls in several threads do not meet as
 * long as what they write is each thread's own. No call takes more than HOOKYELLOW_STACK bytes of stack, however large the
 * case (docs/PERFORMANCE.md, "Stack"). */
#ifndef HOOKYELLOW_H
#define HOOKYELLOW_H

#include <stdbool.h>
#include <stddef.h>
#include <stdint.h>

/* More than any call takes of the stack, in bytes. */
#define HOOKYELLOW_STACK 32768

#ifdef __cplusplus
extern "C" {
#endif

/* A point or a vector. */
typedef struct hookyellow_vector {
    double x, y, z;
} hookyellow_vector;

/* The plane of a section, with its axes. */
typedef struct hookyellow_plane {
    hookyellow_vector origin, u, v;
} hookyellow_plane;

/* How a line is followed. all_cells says among which cells its points are located: false, those of
 * the point's bin (codes 3, 4 and 13); true, all cells (codes 11, 12 and 14). */
typedef struct hookyellow_line_options {
    double step_size;
    size_t max_steps;
    double max_length;
    double stagnation_speed;
    bool all_cells;
} hookyellow_line_options;

/* What a case file says of itself: its edition (1 or 2), its dimension (2 or 3) and its counts. */
typedef struct hookyellow_counts {
    size_t edition, dimension, points, words, cells;
} hookyellow_counts;

/* refusal 0 and the file's length; or the refusal, with length 0. */
typedef struct hookyellow_written {
    uint64_t refusal;
    size_t length;
} hookyellow_written;

/* The least lengths of the buffers of a job on a case: needs[0] words, needs[1] floats and needs[2] marks.
 *
 * Answers 0. Or, with needs as it was, the refusal of the case (1, 2, 3 or 45), or 21 where needs_length is below 3; 21 has no
 * other meaning. */
uint64_t hookyellow_needs(const uint8_t *case_bytes, size_t case_length,
                          size_t *needs, size_t needs_length);

/* Runs a job: builds the mesh of the case and serves the requests in order.
 *
 * Answers 0, or the refusal (1 to 19, or 45 between 3 and 4), under which answers and marks are as they were. The work area
 * (words and floats) needs nothing in it and holds nothing of use afterwards. */
uint64_t hookyellow_job(const uint8_t *case_bytes, size_t case_length,
                        const uint8_t *requests, size_t requests_length,
                        uint32_t *words, size_t words_length,
                        double *floats, size_t floats_length,
                        uint8_t *marks, size_t marks_length,
                        uint64_t *answers, size_t answers_length);

/* Each request alone: a job of that one request. Result, buffers and answer are as in hookyellow_job; 2 answer words at least.
 *
 * A point locates in the lowest cell whose polygon contains it: with all_cells of all cells, else
 * of those that are listed in the point's bin, where some cells at the far border are listed in none
 * (docs/DIFFERENCES.md, "Bins lose the far border"). */

/* 1, with all_cells 9: the cell that a point locates in, UINT64_MAX for none, and a second word: 0
 * for none, 1 where the point is on an edge of that cell, by the polygon test's tolerance of 1e-12,
 * and 2 where it is inside. */
uint64_t hookyellow_locate(const uint8_t *case_bytes, size_t case_length,
                           hookyellow_vector point, bool all_cells,
                           uint32_t *words, size_t words_length,
                           double *floats, size_t floats_length,
                           uint8_t *marks, size_t marks_length,
                           uint64_t *answers, size_t answers_length);

/* 2, with all_cells 10: the velocity at a point. */
uint64_t hookyellow_velocity(const uint8_t *case_bytes, size_t case_length,
                             hookyellow_vector point, bool all_cells,
                             uint32_t *words, size_t words_length,
                             double *floats, size_t floats_length,
                             uint8_t *marks, size_t marks_length,
                             uint64_t *answers, size_t answers_length);

/* 3, with all_cells 11: the line from a seed. In a case of edition 2 it ends before its first point in another zone; the zone of
 * a point is that of the cell that it locates in. */
uint64_t hookyellow_streamline(const uint8_t *case_bytes, size_t case_length,
                               hookyellow_vector seed, bool backward, hookyellow_line_options options,
                               uint32_t *words, size_t words_length,
                               double *floats, size_t floats_length,
                               uint8_t *marks, size_t marks_length,
                               uint64_t *answers, size_t answers_length);

/* 4, with all_cells 12: the lines from count seeds, spread from start to end. In a case of edition 2 each goes by the zone of its
 * own seed. */
uint64_t hookyellow_rake(const uint8_t *case_bytes, size_t case_length,
                         hookyellow_vector start, hookyellow_vector end, size_t count, bool backward, hookyellow_line_options options,
                         uint32_t *words, size_t words_length,
                         double *floats, size_t floats_length,
                         uint8_t *marks, size_t marks_length,
                         uint64_t *answers, size_t answers_length);

/* 5: the polygons that a plane cuts. */
uint64_t hookyellow_section(const uint8_t *case_bytes, size_t case_length,
                            hookyellow_plane plane,
                            uint32_t *words, size_t words_length,
                            double *floats, size_t floats_length,
                            uint8_t *marks, size_t marks_length,
                            uint64_t *answers, size_t answers_length);

/* 6: the statistics of a field over a section. */
uint64_t hookyellow_statistics(const uint8_t *case_bytes, size_t case_length,
                               hookyellow_plane plane, uint64_t field,
                               uint32_t *words, size_t words_length,
                               double *floats, size_t floats_length,
                               uint8_t *marks, size_t marks_length,
                               uint64_t *answers, size_t answers_length);

/* 7: the integrals over a section. */
uint64_t hookyellow_integrals(const uint8_t *case_bytes, size_t case_length,
                              hookyellow_plane plane,
                              uint32_t *words, size_t words_length,
                              double *floats, size_t floats_length,
                              uint8_t *marks, size_t marks_length,
                              uint64_t *answers, size_t answers_length);

/* 8: the sample at a point of a section. */
uint64_t hookyellow_probe(const uint8_t *case_bytes, size_t case_length,
                          hookyellow_plane plane, hookyellow_vector point,
                          uint32_t *words, size_t words_length,
                          double *floats, size_t floats_length,
                          uint8_t *marks, size_t marks_length,
                          uint64_t *answers, size_t answers_length);

/* 13, with all_cells 14: the line from a seed in whole millimetres: a point count, then x and y of
 * each point, int64_t in the words. */
uint64_t hookyellow_sheet(const uint8_t *case_bytes, size_t case_length,
                          hookyellow_vector seed, bool backward, hookyellow_line_options options,
                          uint32_t *words, size_t words_length,
                          double *floats, size_t floats_length,
                          uint8_t *marks, size_t marks_length,
                          uint64_t *answers, size_t answers_length);

/* Writes a case file to the front of out, from what it says of itself and its parts. A float is given
 * by its 64 bits, so that every NaN comes back by them. points has 3 for each point, velocities 3 and
 * pressures 1 for each cell; words are the definition words, one record for each cell; zones has 1
 * for each cell in either edition, in edition 1 all 0.
 *
 * Answers 0 and the length in bytes, 24P+4W+32C+32, in edition 2 24P+4W+36C+36; bytes of out after
 * the file are as they were. Or, with all of out as it was, the first of these that is due:
 *    1  an edition not 1 or 2, a dimension not 2 or 3, or a part not as long as its count says
 *    2  more than 65,536 points, 16,384 cells or 1,048,576 words
 *    3  words that are not exactly as many records as cells
 *   45  a zone above 255, in either edition
 *   46  edition 1 with a zone that is not 0
 *   47  out is shorter than the file
 * The mesh is not looked at: a case that a job refuses with 8 to 19 can be written, one without cells
 * too. */
hookyellow_written hookyellow_write_case(hookyellow_counts counts,
                                         const uint64_t *points, size_t points_length,
                                         const uint32_t *words, size_t words_length,
                                         const uint64_t *velocities, size_t velocities_length,
                                         const uint64_t *pressures, size_t pressures_length,
                                         const uint32_t *zones, size_t zones_length,
                                         uint8_t *out, size_t out_length);

/* Writes a case file of the other edition as one of this edition to the front of out: to edition 2
 * with zones 0, to edition 1 without its zones; all else is kept.
 *
 * Answers 0 and the length in bytes, as hookyellow_write_case does; bytes of out after the file are as
 * they were. Or, with all of out as it was, the first of these that is due:
 *    1  an edition not 1 or 2, a file of that edition already, or what a job refuses with 1
 *    2, 3, 45  as of a job
 *   46  to edition 1 with a zone that is not 0
 *   47  out is shorter than the file that is to be written */
hookyellow_written hookyellow_convert(const uint8_t *case_bytes, size_t case_length, size_t edition,
                                      uint8_t *out, size_t out_length);

#ifdef __cplusplus
}
#endif

#endif
