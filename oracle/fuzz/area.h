/* Buffers with guard pages and canaries, the input of one execution, and what a case is found to be without the library. */
#ifndef AREA_H
#define AREA_H

#include <stdint.h>
#include <stdio.h>
#include <stdlib.h>
#include <string.h>

enum { HEADER = 32, REQUEST = 128, MOST_STEPS = 65536 };
/* Functions of the library by the first byte of the header, and the bytes of the numbers for the writer. */
enum { NEEDS = 15, CONVERTER = 16, WRITER = 17, NUMBERS = 80 };

/* One lent buffer between two pages that cannot be touched. What it and the bytes around it hold before a call is a run of `garbage`. */
typedef struct area {
    uint8_t *low, *high; /* all that may be touched */
    uint8_t *start;      /* the buffer */
    size_t bytes;
    size_t before, after; /* canary bytes on either side */
    const uint8_t *held;  /* what start - before .. start + bytes + after held */
} area;

void make_areas(void);
area map_area(size_t most);
void lay(area *a, size_t bytes, size_t after, int front, uint32_t seed);
void violated(const char *what);
void check_canaries(const area *a, const char *name);
int untouched(const area *a, size_t from);

static inline uint32_t word_at(const uint8_t *p) {
    uint32_t w;
    memcpy(&w, p, 4);
    return w;
}
static inline uint64_t long_at(const uint8_t *p) {
    uint64_t w;
    memcpy(&w, p, 8);
    return w;
}

/* The code that asks the same by the bins: 1 to 4 for 9 to 12, 13 for 14; any other is its own. */
static inline uint64_t by_bins(uint64_t code) {
    return code >= 9 && code <= 12 ? code - 8 : code == 14 ? 13 : code;
}

/* The counts of a case: refusal 1, 2, 3 or 45, or 0 and the rest. */
typedef struct survey {
    unsigned refusal;
    uint64_t dimension, edition, points, words, cells, faces;
} survey;

survey survey_case(const uint8_t *bytes, size_t length);
unsigned early_refusal(const survey *s, const uint8_t *bytes, size_t words, size_t floats, size_t marks, size_t requests, size_t answers);
void check_answers(const survey *s, const uint8_t *requests, size_t count, const uint64_t *answers, size_t length);

#endif
