/* 01's known rooms through include/hookyellow.h. The same text is C11 and C++. `.ci/run` compiles it as both and runs it:
 *
 *     tools/staticlib capi
 *     cc -std=c11 -Wall -Wextra -pedantic -Werror -I include bindings/c/pair.c target/staticlib/libcapi.a -o pair && ./pair
 *
 * Everything that is expected stands in docs/01-scope.md: in "Known rooms", or under the number of a refusal. The sheet is
 * 01's 0.5 line in millimetres (docs/FORMAT.md). Among all cells the points of the right square are
 * found too: it is the lowest cell whose polygon contains them (docs/02-change-requests.md, Q-2).
 * Behind the cell stands whether the point is on an edge of it or inside. With a zone for each
 * square a line ends at the border of its seed's zone. The bytes that are run are those that
 * the writer makes, and the converter takes them from edition to edition. Ends with 1 where a
 * check fails. */
#include "hookyellow.h"
#include <stdio.h>
#include <string.h>

#define NONE UINT64_MAX
#define EDGE 1
#define INSIDE 2
#define CASE case_bytes, case_length
#define BUFFERS words, 320, floats, 224, marks, 3, answers, 24
#define OUT 400
#define FILL 0xa5

static uint8_t case_bytes[1024], requests[3 * 128], out[OUT];
static size_t case_length, requests_length;
static uint32_t words[320];
static double floats[224];
static uint8_t marks[3];
static uint64_t answers[24];
static int checks, failed;

static void check(int holds, const char *what) {
    checks++;
    if (!holds) {
        failed++;
        printf("pair: %s\n", what);
    }
}

/* "Numbers in files are little-endian; a float is its 64 bits." */
static void put(uint8_t *bytes, size_t *at, uint64_t number, int width) {
    for (int i = 0; i < width; i++) bytes[(*at)++] = (uint8_t)(number >> (8 * i));
}

static uint64_t bits(double x) {
    uint64_t b;
    memcpy(&b, &x, sizeof b);
    return b;
}

static void put_floats(uint8_t *bytes, size_t *at, const double *list, size_t n) {
    for (size_t i = 0; i < n; i++) put(bytes, at, bits(list[i]), 8);
}

/* "Case file: points, definition words, velocities, pressures, then a 32-byte trailer that points back". With zones it is
 * one of edition 2: "dimension word 102 or 103, a u32 zone per cell after the pressures, and the zone part's offset,
 * 24P+4W+32C, in the four bytes before the trailer" */
static void build(uint32_t dimension, const double *points, uint32_t p, const uint32_t *definitions, uint32_t w,
                  const double *velocities, const double *pressures, const uint32_t *zones, uint32_t c) {
    uint32_t trailer[8] = {dimension + (zones ? 100 : 0), p, w, c, 0, 24 * p, 24 * p + 4 * w, 24 * p + 4 * w + 24 * c};
    case_length = 0;
    put_floats(case_bytes, &case_length, points, 3 * p);
    for (uint32_t i = 0; i < w; i++) put(case_bytes, &case_length, definitions[i], 4);
    put_floats(case_bytes, &case_length, velocities, 3 * c);
    put_floats(case_bytes, &case_length, pressures, c);
    for (uint32_t i = 0; zones && i < c; i++) put(case_bytes, &case_length, zones[i], 4);
    if (zones) put(case_bytes, &case_length, 24 * p + 4 * w + 32 * c, 4);
    for (int i = 0; i < 8; i++) put(case_bytes, &case_length, trailer[i], 4);
}

/* "Pair: points (0,0) (1,0) (2,0) (0,1) (1,1) (2,1), heights 0; polygons 0 1 4 3 and 1 2 5 4; velocities (1,0,0), (3,0,0),
 * pressures 0." */
static const double pair_points[18] = {0, 0, 0, 1, 0, 0, 2, 0, 0, 0, 1, 0, 1, 1, 0, 2, 1, 0};
static const uint32_t pair_polygons[12] = {0, 4, 0, 1, 4, 3, 0, 4, 1, 2, 5, 4};
static const double pair_velocities[6] = {1, 0, 0, 3, 0, 0}, pair_pressures[2] = {0, 0};

static void build_pair(const uint32_t *zones) {
    build(2, pair_points, 6, pair_polygons, 12, pair_velocities, pair_pressures, zones, 2);
}

/* "Unit cube, velocity (0,0,2), pressure 3" */
static void build_cube(void) {
    const double points[24] = {0, 0, 0, 1, 0, 0, 1, 1, 0, 0, 1, 0, 0, 0, 1, 1, 0, 1, 1, 1, 1, 0, 1, 1};
    const uint32_t hexahedron[9] = {2, 0, 1, 2, 3, 4, 5, 6, 7};
    const double velocity[3] = {0, 0, 2}, pressure[1] = {3};
    build(3, points, 8, hexahedron, 9, velocity, pressure, NULL, 1);
}

/* "Request: 16 words of 8 bytes, the code first, then the arguments; words not used are zero." */
static void request(const uint64_t *list, size_t n) {
    for (size_t i = 0; i < 16; i++) put(requests, &requests_length, i < n ? list[i] : 0, 8);
}

static void fill(void) {
    for (int i = 0; i < 24; i++) answers[i] = 5;
    for (int i = 0; i < 3; i++) marks[i] = 7;
}

/* The answer buffer holds these words and then zeros; the marks are 0 or 1 for the cells of Pair, and byte 2 is kept. */
static int leaves(const uint64_t *list, size_t n, int first, int second) {
    for (size_t i = 0; i < 24; i++)
        if (answers[i] != (i < n ? list[i] : 0)) return 0;
    return marks[0] == first && marks[1] == second && marks[2] == 7;
}

/* "Refused jobs (1 to 19) give only the number and leave answers and marks untouched"; so does 45. */
static int untouched(void) {
    for (int i = 0; i < 24; i++)
        if (answers[i] != 5) return 0;
    return marks[0] == 7 && marks[1] == 7 && marks[2] == 7;
}

/* "Pair with locate (1.5,0.5,0), velocity (0.75,0.5,0), the 0.5 line", and the lines that are
 * printed for it; by Q-3 the first is `0 2 ffffffffffffffff 0000000000000000`. */
static void check_job(void) {
    const uint64_t due[22] = {0, 2, NONE, 0,
                              0, 4, 1, 0x3ff8000000000000, 0, 0,
                              0, 10, 3, 0x3fd0000000000000, 0x3fe0000000000000, 0,
                              0x3fe0000000000000, 0x3fe0000000000000, 0, 0x3fe8000000000000, 0x3fe0000000000000, 0};
    const uint64_t locate[4] = {1, bits(1.5), bits(0.5), 0}, velocity[4] = {2, bits(0.75), bits(0.5), 0};
    const uint64_t line[9] = {3, bits(0.25), bits(0.5), 0, 0, bits(0.25), 10, bits(0.5), 0};
    requests_length = 0;
    request(locate, 4), request(velocity, 4), request(line, 9);
    fill();
    check(hookyellow_job(CASE, requests, requests_length, BUFFERS) == 0, "the job is refused");
    check(leaves(due, 22, 1, 1), "the job leaves other answers or marks");
}

/* The starred rooms of Pair, each request alone */
static void check_alone(void) {
    const hookyellow_vector inside = {0.5, 0.5, 0}, shared = {1, 0.5, 0}, end = {2, 0.5, 0}, quarter = {0.25, 0.5, 0};
    const hookyellow_line_options still = {0.25, 10, 0.5, 1, false}, half = {0.25, 10, 0.5, 0, false};
    const uint64_t sheet[9] = {0, 7, 3, 250, 500, 500, 500, 750, 500};
    const uint64_t cell[4] = {0, 2, 0, INSIDE}, side[4] = {0, 2, 0, EDGE}, none[4] = {0, 2, NONE, 0};
    const uint64_t one[6] = {0, 4, 1, 0x3ff0000000000000, 0, 0};
    const uint64_t seed[6] = {0, 4, 1, 0x3fd0000000000000, 0x3fe0000000000000, 0};
    fill();
    check(hookyellow_locate(CASE, inside, false, BUFFERS) == 0 && leaves(cell, 4, 0, 0), "locate (0.5,0.5): 0, inside");
    check(hookyellow_locate(CASE, shared, false, BUFFERS) == 0 && leaves(side, 4, 0, 0), "locate (1,0.5): 0, edge");
    check(hookyellow_locate(CASE, end, false, BUFFERS) == 0 && leaves(none, 4, 0, 0), "locate (2,0.5): none");
    check(hookyellow_velocity(CASE, quarter, false, BUFFERS) == 0 && leaves(one, 6, 1, 1), "velocity at (0.25,0.5): (1,0,0)");
    check(hookyellow_streamline(CASE, quarter, false, still, BUFFERS) == 0 && leaves(seed, 6, 1, 1),
          "line with stagnation 1: the seed alone");
    check(hookyellow_sheet(CASE, quarter, false, half, BUFFERS) == 0 && leaves(sheet, 9, 1, 1), "the 0.5 line in millimetres");
}

/* Points of Pair at y = 0.5 among all cells. The tolerance of the polygon test is 1e-12: of two
 * cells that take a point for one of theirs the lower one says whether it is on an edge. */
static void check_positions(void) {
    const struct { double x; uint64_t cell, position; } due[] = {
        {-1e-9, NONE, 0}, {-5e-13, 0, EDGE}, {0, 0, EDGE}, {1e-9, 0, INSIDE}, {0.5, 0, INSIDE}, {1, 0, EDGE},
        {1 + 5e-13, 0, EDGE}, {1 + 1e-9, 1, INSIDE}, {1.5, 1, INSIDE}, {2, 1, EDGE}, {2 + 1e-9, NONE, 0}};
    fill();
    for (size_t i = 0; i < sizeof due / sizeof *due; i++) {
        const hookyellow_vector point = {due[i].x, 0.5, 0};
        const uint64_t located[4] = {0, 2, due[i].cell, due[i].position};
        char what[48];
        snprintf(what, sizeof what, "all cells, position of (%.13f,0.5)", due[i].x);
        check(hookyellow_locate(CASE, point, true, BUFFERS) == 0 && leaves(located, 4, 0, 0), what);
    }
}

/* The right square, whose points locate by no bin, among all cells: a line from its centre
 * (1.5, 0.5) in steps of 0.25 ends on the far side, x = 2 */
static void check_all_cells(void) {
    const hookyellow_vector centre = {1.5, 0.5, 0};
    const hookyellow_vector low = {1.5, 0.25, 0}, high = {1.5, 0.75, 0};
    const hookyellow_line_options all = {0.25, 10, 9, 0, true}, bins = {0.25, 10, 9, 0, false};
    const uint64_t three[6] = {0, 4, 1, bits(3), 0, 0}, no_seed[2] = {35, 0};
    const uint64_t line[12] = {0, 10, 3, bits(1.5), bits(0.5), 0, bits(1.75), bits(0.5), 0, bits(2), bits(0.5), 0};
    const uint64_t rake[23] = {0, 21, 2, 3, bits(1.5), bits(0.25), 0, bits(1.75), bits(0.25), 0, bits(2), bits(0.25), 0,
                               3, bits(1.5), bits(0.75), 0, bits(1.75), bits(0.75), 0, bits(2), bits(0.75), 0};
    const uint64_t sheet[9] = {0, 7, 3, 1500, 500, 1750, 500, 2000, 500};
    fill();
    check(hookyellow_velocity(CASE, centre, true, BUFFERS) == 0 && leaves(three, 6, 1, 1), "all cells, velocity: 3");
    check(hookyellow_streamline(CASE, centre, false, bins, BUFFERS) == 0 && leaves(no_seed, 2, 0, 0), "by bins: 35");
    check(hookyellow_streamline(CASE, centre, false, all, BUFFERS) == 0 && leaves(line, 12, 1, 1), "all cells, line");
    check(hookyellow_rake(CASE, low, high, 2, false, all, BUFFERS) == 0 && leaves(rake, 23, 1, 1), "all cells, rake");
    check(hookyellow_sheet(CASE, centre, false, all, BUFFERS) == 0 && leaves(sheet, 9, 1, 1), "all cells, sheet");
}

/* Refusals 1, 4 and 32, with NULL for what has length 0; how much Pair needs: "16F+96C words or 12F+64C floats" */
static void check_limits(void) {
    const hookyellow_vector start = {0.25, 0.25, 0}, end = {0.25, 0.75, 0};
    const hookyellow_line_options options = {0.25, 10, 0.5, 0, false};
    const uint64_t refused[2] = {32, 0};
    size_t needs[3] = {9, 9, 9};
    check(hookyellow_needs(CASE, needs, 2) == 21 && needs[0] == 9 && needs[1] == 9, "two places for three needs");
    check(hookyellow_needs(NULL, 0, needs, 3) == 1 && needs[0] == 9, "the needs of no bytes");
    check(hookyellow_needs(CASE, needs, 3) == 0 && needs[0] == 320 && needs[1] == 224 && needs[2] == 2, "the needs of Pair");
    fill();
    check(hookyellow_job(NULL, 0, NULL, 0, NULL, 0, NULL, 0, NULL, 0, NULL, 0) == 1, "no bytes: 1");
    check(hookyellow_job(CASE, requests, requests_length, words, 319, floats, 224, marks, 3, answers, 24) == 4 && untouched(),
          "a work area that is one word short: 4");
    check(hookyellow_job(CASE, NULL, 0, words, 320, floats, 224, marks, 3, NULL, 0) == 0 && marks[0] == 0 && marks[1] == 0,
          "no requests");
    check(hookyellow_rake(CASE, start, end, 1, false, options, BUFFERS) == 0 && leaves(refused, 2, 0, 0), "a rake of one seed: 32");
}

/* Pair in edition 2. The squares in two zones: a line from the left one ends on the side that both share, which is of the
 * left one, the lower; in one zone it goes on to the far side. "45: a zone above 255, after 3" */
static void check_zones(void) {
    const uint32_t two[2] = {0, 1}, one[2] = {255, 255}, above[2] = {0, 256};
    const hookyellow_vector seed = {0.75, 0.5, 0};
    const hookyellow_line_options all = {0.25, 10, 9, 0, true};
    const uint64_t ends[9] = {0, 7, 2, bits(0.75), bits(0.5), 0, bits(1), bits(0.5), 0};
    const uint64_t goes_on[15] = {0, 13, 6, 750, 500, 1000, 500, 1250, 500, 1500, 500, 1750, 500, 2000, 500};
    size_t needs[3] = {9, 9, 9};
    fill();
    build_pair(two);
    check(case_length == 288 + 2 * 4 + 4, "the length of edition 2");
    check(hookyellow_streamline(CASE, seed, false, all, BUFFERS) == 0 && leaves(ends, 9, 1, 1), "two zones: up to the border");
    build_pair(one);
    check(hookyellow_sheet(CASE, seed, false, all, BUFFERS) == 0 && leaves(goes_on, 15, 1, 1), "one zone: to the far side");
    fill();
    build_pair(above);
    check(hookyellow_job(CASE, NULL, 0, BUFFERS) == 45 && untouched(), "a zone above 255: 45");
    check(hookyellow_job(CASE, NULL, 0, NULL, 0, NULL, 0, NULL, 0, NULL, 0) == 45, "45 before 4");
    check(hookyellow_needs(CASE, needs, 3) == 45 && needs[0] == 9, "the needs of a zone above 255");
}

/* Pair by the writer into so many bytes of out, which is filled before */
static hookyellow_written write_pair(size_t edition, const uint32_t *zones, size_t room) {
    const hookyellow_counts counts = {edition, 2, 6, 12, 2};
    uint64_t points[18], velocities[6], pressures[2];
    for (int i = 0; i < 18; i++) points[i] = bits(pair_points[i]);
    for (int i = 0; i < 6; i++) velocities[i] = bits(pair_velocities[i]);
    for (int i = 0; i < 2; i++) pressures[i] = bits(pair_pressures[i]);
    memset(out, FILL, OUT);
    return hookyellow_write_case(counts, points, 18, pair_polygons, 12, velocities, 6, pressures, 2, zones, 2, out, room);
}

/* The case by the converter in the same way */
static hookyellow_written convert(size_t edition, size_t room) {
    memset(out, FILL, OUT);
    return hookyellow_convert(CASE, edition, out, room);
}

/* out holds the case and "output bytes after the file keep theirs"; or "a refusal changes nothing in
 * the output buffer" */
static int gives(hookyellow_written written, uint64_t refusal) {
    size_t length = refusal ? 0 : case_length;
    for (size_t i = length; i < OUT; i++)
        if (out[i] != FILL) return 0;
    return written.refusal == refusal && written.length == length && memcmp(out, case_bytes, length) == 0;
}

/* Pair written in both editions, taken to edition 2 and back, and refusals 1, 45, 46 and 47 */
static void check_writing(void) {
    const uint32_t none[2] = {0, 0}, two[2] = {0, 1}, above[2] = {1, 256};
    hookyellow_written written;
    build_pair(two);
    check(gives(write_pair(2, two, OUT), 0) && gives(write_pair(2, two, 300), 0), "Pair with zones by the writer");
    check(gives(write_pair(1, two, 0), 46) && gives(convert(1, 0), 46), "46 before 47");
    check(gives(write_pair(1, above, OUT), 45) && gives(write_pair(2, above, OUT), 45), "a zone above 255: 45");
    build_pair(NULL);
    check(gives(write_pair(1, none, OUT), 0) && gives(write_pair(1, none, 288), 0), "Pair by the writer");
    check(gives(write_pair(1, none, 287), 47) && gives(convert(2, 299), 47), "one byte too few: 47");
    check(gives(write_pair(3, none, OUT), 1) && gives(convert(1, OUT), 1), "no such edition, and edition 1 already: 1");
    written = convert(2, OUT);
    build_pair(none);
    check(gives(written, 0), "Pair taken to edition 2");
    written = convert(1, OUT);
    build_pair(NULL);
    check(gives(written, 0), "Pair taken back to edition 1");
}

/* "plane z = 0.5, u along X, v along Y: area 1, flux 2" */
static void check_cube(void) {
    const hookyellow_plane plane = {{0, 0, 0.5}, {1, 0, 0}, {0, 1, 0}};
    uint64_t result = hookyellow_integrals(CASE, plane, BUFFERS);
    check(result == 0 && answers[0] == 0 && answers[1] == 4, "the integrals of the cube are refused");
    check(answers[2] == bits(1) && answers[5] == bits(2) && marks[0] == 1, "area 1, flux 2");
}

int main(void) {
    build_pair(NULL);
    check_job();
    check_alone();
    check_positions();
    check_all_cells();
    check_limits();
    check_zones();
    check_writing();
    build_cube();
    check_cube();
    printf("pair: %d checks, %d failed\n", checks, failed);
    return failed != 0;
}
