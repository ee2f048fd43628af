/* What docs/01-scope.md, docs/02-change-requests.md and docs/FORMAT.md say of a case, of answers and of files to be made, written
 * without the library: refusals 1 to 10 and 45 to 47 and the shape of each answer. */
#include "files.h"
#include <math.h>

/* The faces of one record and, in *at, the word after it; -1 where it is no record. */
static int64_t record(const uint8_t *words, uint64_t count, uint64_t *at) {
    static const uint8_t numbers[] = {0, 4, 8, 6, 5}, faces[] = {0, 4, 6, 5, 5};
    if (*at >= count) return -1;
    uint32_t kind = word_at(words + 4 * (*at)++);
    if (kind > 5) return -1;
    if (kind >= 1 && kind <= 4) {
        *at += numbers[kind];
        return *at <= count ? faces[kind] : -1;
    }
    if (*at >= count) return -1;
    uint32_t n = word_at(words + 4 * (*at)++);
    if (n > 24) return -1;
    if (kind == 0) {
        *at += n;
        return *at <= count ? (int64_t)n : -1;
    }
    for (uint32_t i = 0; i < n; i++) {
        if (*at >= count) return -1;
        uint32_t corners = word_at(words + 4 * (*at)++);
        if (corners > 8) return -1;
        *at += corners;
        if (*at > count) return -1;
    }
    return n;
}

/* Are the words exactly as many records as cells? Adds up their faces. */
static int records(const uint8_t *words, uint64_t count, uint64_t cells, uint64_t *sum) {
    uint64_t at = 0;
    for (uint64_t i = 0; i < cells; i++) {
        int64_t faces = record(words, count, &at);
        if (faces < 0) return 0;
        *sum += (uint64_t)faces;
    }
    return at == count;
}

static int zones_at_most(const uint8_t *zones, uint64_t cells, uint32_t most) {
    for (uint64_t i = 0; i < cells; i++)
        if (word_at(zones + 4 * i) > most) return 0;
    return 1;
}

survey survey_case(const uint8_t *bytes, size_t length) {
    survey s = {1, 0, 1, 0, 0, 0, 0};
    if (length < 32) return s;
    const uint8_t *t = bytes + length - 32;
    s.dimension = word_at(t);
    if (s.dimension == 102 || s.dimension == 103) {
        s.dimension -= 100;
        s.edition = 2;
    }
    s.points = word_at(t + 4);
    s.words = word_at(t + 8);
    s.cells = word_at(t + 12);
    uint64_t a = 24 * s.points, b = a + 4 * s.words, c = b + 24 * s.cells, end = c + 8 * s.cells;
    if (s.dimension != 2 && s.dimension != 3) return s;
    if (word_at(t + 16) != 0 || word_at(t + 20) != a || word_at(t + 24) != b || word_at(t + 28) != c) return s;
    if (end + (s.edition == 2 ? 4 * s.cells + 4 : 0) + 32 != length || (s.edition == 2 && word_at(t - 4) != end)) return s;
    s.refusal = 2;
    if (s.points > 65536 || s.cells > 16384 || s.words > 1048576) return s;
    s.refusal = 3;
    if (!records(bytes + a, s.words, s.cells, &s.faces)) return s;
    s.refusal = 45;
    if (s.edition == 2 && !zones_at_most(bytes + end, s.cells, 255)) return s;
    s.refusal = 0;
    return s;
}

unsigned due_conversion(const survey *s, const uint8_t *bytes, uint64_t edition, int fits) {
    if ((edition != 1 && edition != 2) || s->edition == edition) return 1;
    if (s->refusal) return s->refusal;
    if (edition == 1 && !zones_at_most(bytes + 24 * s->points + 4 * s->words + 32 * s->cells, s->cells, 0)) return 46;
    return fits ? 0 : 47;
}

/* The counts are edition, dimension, points, words and cells; the lengths those of points, words, velocities, pressures and zones. */
unsigned due_writing(const uint64_t *counts, const size_t *lengths, const uint8_t *words, const uint8_t *zones, int fits) {
    uint64_t edition = counts[0], p = counts[2], w = counts[3], c = counts[4], faces = 0;
    if ((edition != 1 && edition != 2) || (counts[1] != 2 && counts[1] != 3)) return 1;
    if ((unsigned __int128)3 * p != lengths[0] || w != lengths[1] || (unsigned __int128)3 * c != lengths[2]) return 1;
    if (c != lengths[3] || c != lengths[4]) return 1;
    if (p > 65536 || c > 16384 || w > 1048576) return 2;
    if (!records(words, w, c, &faces)) return 3;
    if (!zones_at_most(zones, c, 255)) return 45;
    if (edition == 1 && !zones_at_most(zones, c, 0)) return 46;
    return fits ? 0 : 47;
}

static double float_at(const uint8_t *p) {
    double x;
    memcpy(&x, p, 8);
    return x;
}

/* Refusal 1 to 10 or 45 of a job, or 0 where none of them is due. Lengths are in elements, of the requests in bytes. */
unsigned early_refusal(const survey *s, const uint8_t *bytes, size_t words, size_t floats, size_t marks, size_t requests, size_t answers) {
    if (s->refusal) return s->refusal;
    if (words < 16 * s->faces + 96 * s->cells || floats < 12 * s->faces + 64 * s->cells) return 4;
    if (marks < s->cells) return 5;
    if (requests % REQUEST || requests / REQUEST > 4096) return 6;
    if (answers < 2 * (requests / REQUEST)) return 7;
    if (s->cells == 0) return 8;
    for (uint64_t i = 0; i < 3 * s->points; i++)
        if (!isfinite(float_at(bytes + 8 * i))) return 9;
    for (uint64_t i = 0; i < 3 * s->points; i++)
        if (fabs(float_at(bytes + 8 * i)) > 1048576) return 10;
    return 0;
}

/* Lines or polygons one after another: are the n words exactly as many as the count at the front says? */
static int runs(const survey *s, uint64_t code, const uint64_t *w, uint64_t n) {
    uint64_t at = 1, head = code == 4 ? 1 : 2, fixed = code == 4 ? 0 : 7;
    for (uint64_t i = 0; i < w[0]; i++) {
        if (n - at < head || (code == 5 && w[at] >= s->cells)) return 0;
        uint64_t points = w[at + head - 1];
        if (points > n || n - at < head + fixed + 3 * points) return 0;
        at += head + fixed + 3 * points;
    }
    return at == n;
}

/* A sheet: its count, x and y within the farthest coordinate in millimetres, no point equal to the one before it. */
static int sheet(const uint64_t *w, uint64_t n) {
    const int64_t far = 1048576000;
    if (w[0] < 1 || w[0] > MOST_STEPS + 1 || n != 1 + 2 * w[0]) return 0;
    for (uint64_t i = 1; i < n; i++)
        if ((int64_t)w[i] > far || (int64_t)w[i] < -far) return 0;
    for (uint64_t i = 3; i < n; i += 2)
        if (w[i] == w[i - 2] && w[i + 1] == w[i - 1]) return 0;
    return 1;
}

static int shaped(const survey *s, uint64_t code, const uint64_t *w, uint64_t n) {
    static const uint8_t length[] = {0, 2, 4, 0, 0, 0, 13, 4, 5};
    code = by_bins(code);
    if (code == 13) return n > 0 && s->dimension == 2 && sheet(w, n);
    if (code < 1 || code > 8 || n == 0 || (code <= 4) != (s->dimension == 2)) return 0;
    if (length[code] && n != length[code]) return 0;
    if (code == 1 && w[0] == UINT64_MAX) return w[1] == 0;
    if (code == 1) return w[0] < s->cells && (w[1] == 1 || w[1] == 2);
    if (code == 8) return w[0] < s->cells || w[0] == UINT64_MAX;
    if (code == 2) return w[0] <= 1;
    if (code == 3) return w[0] >= 1 && w[0] <= MOST_STEPS + 1 && n == 1 + 3 * w[0];
    if (code == 4) return w[0] >= 2 && w[0] <= 64 && runs(s, code, w, n);
    return code != 5 || runs(s, code, w, n);
}

/* A NaN is given back as one pattern. The word for no cell, all ones, is not a float, and a sheet has none. */
static int plain_nans(uint64_t code, const uint64_t *w, uint64_t n) {
    code = by_bins(code);
    if (code == 13) return 1;
    for (uint64_t i = code == 1 || code == 8; i < n; i++)
        if ((w[i] & INT64_MAX) > 0x7ff0000000000000 && w[i] != 0x7ff8000000000000) return 0;
    return 1;
}

/* The answers of an accepted job: one for each request, each fits, and zeros after the last. */
void check_answers(const survey *s, const uint8_t *requests, size_t count, const uint64_t *answers, size_t length) {
    size_t at = 0;
    for (size_t i = 0; i < count; i++) {
        uint64_t code = long_at(requests + REQUEST * i), refusal = answers[at], n = answers[at + 1], left = length - at - 2 * (count - i);
        if (n > left) violated("an answer takes the room of a later one");
        if (refusal && (refusal < 30 || refusal > 44 || n)) violated("an answer's refusal is not one, or has words");
        if (!refusal && !shaped(s, code, answers + at + 2, n)) violated("an answer has another shape than its code's");
        if (!plain_nans(code, answers + at + 2, n)) violated("an answer has another NaN than 7ff8000000000000");
        at += 2 + n;
    }
    for (; at < length; at++)
        if (answers[at]) violated("a word after the last answer is not zero");
}
