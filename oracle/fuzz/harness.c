/* One execution of the fuzz run: cuts the input into a case, requests and buffer lengths, calls one function of the static library
 * and ends the process by abort() where anything differs from what include/hookyellow.h and docs/01-scope.md say.
 *
 * Input: 32 bytes of header, then the case and the requests.
 *   0 function, modulo 32: 1 to 14 the single requests, 15 hookyellow_needs, 16 the converter, 17 the writer, else hookyellow_job
 *   1 form: bit 0 the case bytes are taken as they are; else P, W, C below give the trailer, bit 1 the dimension and bit 4
 *           edition 2, whose zones stand behind the pressures.
 *           bit 2 request bytes that are no multiple of 128 stay. bit 3 buffers start at a guard page; else they end near one
 *   2 lengths of words, floats, marks, answers, a byte each (see length_of)
 *   6 canary bytes behind case and requests, 7 canary elements behind words, floats, marks and answers
 *   8 P, W, C; 20 the length of the case bytes taken as they are; 24 seed of what the buffers hold; 28 least number of requests
 * Bytes 2 to 4 are lengths of outputs for the writer and the converter; behind the case stand changes for the writer (see files.c). */
#include "../../include/hookyellow.h"
#include "files.h"

enum { MOST_CASE = 5 << 20, MOST_REQUESTS = 5000 };
enum { MOST_WORDS = 3 << 20, MOST_FLOATS = 2 << 20, MOST_MARKS = 1 << 16, MOST_ANSWERS = 1 << 16 };

static area case_area, request_area, word_area, float_area, mark_area, answer_area;
static uint8_t case_bytes[MOST_CASE], request_bytes[MOST_REQUESTS * REQUEST];
static size_t case_length, request_length;

typedef struct lengths {
    size_t words, floats, marks, answers;
} lengths;

int LLVMFuzzerInitialize(int *argc, char ***argv) {
    (void)argc, (void)argv;
    make_areas();
    make_file_areas();
    case_area = map_area(MOST_CASE);
    request_area = map_area(MOST_REQUESTS * REQUEST);
    word_area = map_area(4 * MOST_WORDS);
    float_area = map_area(8 * MOST_FLOATS);
    mark_area = map_area(MOST_MARKS);
    answer_area = map_area(8 * MOST_ANSWERS);
    return 0;
}

/* The case: bytes as they are, or parts of the stated sizes (zero where the input ends) with the trailer that fits. */
static size_t cut_case(const uint8_t *header, const uint8_t *body, size_t size) {
    if (header[1] & 1) {
        case_length = word_at(header + 20) < size ? word_at(header + 20) : size;
        memcpy(case_bytes, body, case_length);
        return case_length;
    }
    uint64_t p = word_at(header + 8), w = word_at(header + 12), c = word_at(header + 16);
    uint32_t second = header[1] >> 4 & 1;
    uint64_t fields = 24 * p + 4 * w + 32 * c, parts = fields + (second ? 4 * c : 0);
    if (parts + 36 > MOST_CASE) return SIZE_MAX;
    size_t taken = parts < size ? parts : size;
    memcpy(case_bytes, body, taken);
    memset(case_bytes + taken, 0, parts - taken);
    uint32_t word = 2 + (header[1] >> 1 & 1) + 100 * second, offset = (uint32_t)fields;
    uint32_t trailer[8] = {word, p, w, c, 0, 24 * p, 24 * p + 4 * w, 24 * p + 4 * w + 24 * c};
    case_length = parts;
    if (second) {
        memcpy(case_bytes + case_length, &offset, 4);
        case_length += 4;
    }
    memcpy(case_bytes + case_length, trailer, 32);
    case_length += 32;
    return taken;
}

/* Keeps an execution short: all lines of an input together get MOST_STEPS steps; a count that is refused stays. */
static void bound_steps(void) {
    uint64_t left = MOST_STEPS;
    for (size_t at = 0; at + REQUEST <= request_length; at += REQUEST) {
        uint64_t code = by_bins(long_at(request_bytes + at)), lines = 1;
        if (code != 3 && code != 4 && code != 13) continue;
        uint8_t *place = request_bytes + at + (code == 4 ? 80 : 48);
        uint64_t steps = long_at(place);
        if (code == 4) lines = long_at(request_bytes + at + 56);
        if (steps > MOST_STEPS || lines == 0 || lines > 64) continue;
        if (steps > left / lines) {
            steps = left / lines ? left / lines : 1;
            memcpy(place, &steps, 8);
        }
        left = steps * lines < left ? left - steps * lines : 0;
    }
}

static void cut_requests(const uint8_t *header, const uint8_t *rest, size_t size) {
    size_t least = (header[28] | header[29] << 8) % MOST_REQUESTS * REQUEST;
    if (size > sizeof request_bytes) size = sizeof request_bytes;
    if (!(header[1] & 4)) size -= size % REQUEST;
    memcpy(request_bytes, rest, size);
    request_length = size;
    if (least > size) {
        memset(request_bytes + size, 0, least - size);
        request_length = least;
    }
    bound_steps();
}

/* Near the exact need, or up to 128 * 64 more, or a length on its own. */
static size_t length_of(uint8_t b, uint64_t need, size_t most) {
    uint64_t n = b < 32 ? need + b : b < 64 ? need - (uint64_t)(b - 31) : b < 192 ? need + 64 * (uint64_t)(b - 63) : b - 192u;
    if (b >= 32 && b < 64 && need < (uint64_t)(b - 31)) n = 0;
    return n < most ? n : most;
}

static void lay_all(const uint8_t *header, lengths n, uint32_t seed) {
    int front = header[1] & 8;
    lay(&case_area, case_length, header[6] & 15, front, seed);
    lay(&request_area, request_length, header[6] >> 4, front, seed + 1);
    lay(&word_area, 4 * n.words, 4 * (header[7] & 3), front, seed + 2);
    lay(&float_area, 8 * n.floats, 8 * (header[7] >> 2 & 3), front, seed + 3);
    lay(&mark_area, n.marks, header[7] >> 4 & 3, front, seed + 4);
    lay(&answer_area, 8 * n.answers, 8 * (header[7] >> 6), front, seed + 5);
    memcpy(case_area.start, case_bytes, case_length);
    memcpy(request_area.start, request_bytes, request_length);
}

static void check_inputs(void) {
    check_canaries(&case_area, "case");
    check_canaries(&request_area, "requests");
    check_canaries(&word_area, "words");
    check_canaries(&float_area, "floats");
    check_canaries(&mark_area, "marks");
    check_canaries(&answer_area, "answers");
    if (memcmp(case_area.start, case_bytes, case_length)) violated("the case changed");
    if (memcmp(request_area.start, request_bytes, request_length)) violated("the requests changed");
}

/* What holds after every job, whatever the result. */
static void check_job(uint64_t result, const survey *s, lengths n) {
    check_inputs();
    unsigned early = early_refusal(s, case_bytes, n.words, n.floats, n.marks, request_length, n.answers);
    if (early ? result != early : result != 0 && (result < 11 || result > (s->dimension == 2 ? 19 : 17))) {
        fprintf(stderr, "result %llu, refusal due %u: ", (unsigned long long)result, early);
        violated("the result is not the refusal that is due");
    }
    if (result) {
        if (!untouched(&mark_area, 0)) violated("marks changed under a refusal");
        if (!untouched(&answer_area, 0)) violated("answers changed under a refusal");
        return;
    }
    for (uint64_t i = 0; i < s->cells; i++)
        if (mark_area.start[i] > 1) violated("a mark is neither 0 nor 1");
    if (!untouched(&mark_area, s->cells)) violated("a mark beyond the cells changed");
    check_answers(s, request_bytes, request_length / REQUEST, (const uint64_t *)answer_area.start, n.answers);
}

#define CASE case_area.start, case_length
#define LENT \
    (uint32_t *)word_area.start, n.words, (double *)float_area.start, n.floats, mark_area.start, n.marks, \
        (uint64_t *)answer_area.start, n.answers

static uint64_t run_job(lengths n) {
    return hookyellow_job(CASE, request_area.start, request_length, LENT);
}

static hookyellow_vector vector(const uint64_t *w) {
    hookyellow_vector v;
    memcpy(&v, w, sizeof v);
    return v;
}

static hookyellow_line_options options(const uint64_t *w, bool all_cells) {
    double x[4];
    memcpy(x, w, sizeof x);
    hookyellow_line_options o = {x[0], w[1], x[2], x[3], all_cells};
    return o;
}

static uint64_t run_single(const uint64_t *w, lengths n) {
    hookyellow_plane plane = {vector(w + 1), vector(w + 4), vector(w + 7)};
    bool all = by_bins(w[0]) != w[0];
    switch (by_bins(w[0])) {
    case 1: return hookyellow_locate(CASE, vector(w + 1), all, LENT);
    case 2: return hookyellow_velocity(CASE, vector(w + 1), all, LENT);
    case 3: return hookyellow_streamline(CASE, vector(w + 1), w[4] != 0, options(w + 5, all), LENT);
    case 4: return hookyellow_rake(CASE, vector(w + 1), vector(w + 4), w[7], w[8] != 0, options(w + 9, all), LENT);
    case 5: return hookyellow_section(CASE, plane, LENT);
    case 6: return hookyellow_statistics(CASE, plane, w[10], LENT);
    case 7: return hookyellow_integrals(CASE, plane, LENT);
    case 8: return hookyellow_probe(CASE, plane, vector(w + 10), LENT);
    default: return hookyellow_sheet(CASE, vector(w + 1), w[4] != 0, options(w + 5, all), LENT);
    }
}

/* Makes the first request one of the given code: what a single request is a job of. */
static void one_request(uint64_t code, uint64_t *w) {
    static const uint8_t used[] = {0, 4, 4, 9, 13, 10, 11, 10, 13, 4, 4, 9, 13, 9, 9};
    memset(w, 0, REQUEST);
    memcpy(w, request_bytes, request_length < REQUEST ? request_length : REQUEST);
    w[0] = code;
    for (int i = used[code]; i < 16; i++) w[i] = 0;
    if (by_bins(code) == 3 || by_bins(code) == 13) w[4] &= 1;
    if (by_bins(code) == 4) w[8] &= 1;
    memcpy(request_bytes, w, REQUEST);
    request_length = REQUEST;
    bound_steps();
    memcpy(w, request_bytes, REQUEST);
}

/* The answer of code 1 is at hand: among all cells its point locates in that cell, at the same
 * position, or in a lower one. */
static void try_all_cells(const uint8_t *header, lengths n, uint32_t seed) {
    uint64_t bin = ((uint64_t *)answer_area.start)[2], position = ((uint64_t *)answer_area.start)[3], code = 9;
    memcpy(request_bytes, &code, 8);
    lay_all(header, n, seed);
    if (run_job(n)) violated("a point is refused among all cells");
    uint64_t all = ((uint64_t *)answer_area.start)[2];
    if (all > bin) violated("a point locates by its bin, and not among all cells in that cell or a lower one");
    if (all == bin && ((uint64_t *)answer_area.start)[3] != position) violated("another position among all cells");
}

/* Takes the zones out of an edition 2 case; true where they were all equal. */
static int without_zones(const survey *s) {
    uint8_t *zones = case_bytes + case_length - 36 - 4 * s->cells, *trailer = case_bytes + case_length - 32;
    int one = s->cells == 0 || !memcmp(zones, zones + 4, 4 * (s->cells - 1));
    memmove(zones, trailer, 32);
    zones[0] -= 100;
    case_length -= 4 * s->cells + 4;
    return one;
}

/* The answer of a request on an edition 2 case is at hand: in edition 1 it is the same where all zones are equal and where it is
 * no line, and else its line begins so. */
static void try_first_edition(const uint8_t *header, const survey *s, lengths n, uint32_t seed) {
    static uint64_t second[MOST_ANSWERS];
    const uint64_t *first = (const uint64_t *)answer_area.start;
    uint64_t code = by_bins(long_at(request_bytes));
    memcpy(second, first, 8 * n.answers);
    int one = without_zones(s);
    lay_all(header, n, seed);
    if (run_job(n)) violated("edition 1 of a served case is refused");
    if (!one && (second[0] == 44 || first[0] == 44)) return;
    uint64_t words = second[1] ? second[1] - 1 : 0;
    int begins = first[0] == second[0] && (!words || (first[2] >= second[2] && !memcmp(first + 3, second + 3, 8 * words)));
    int line = !one && (code == 3 || code == 13);
    if (!one && code == 4) return;
    if (line ? !begins : memcmp(first, second, 8 * n.answers)) violated("edition 1 has another answer, or a line that begins otherwise");
}

/* A single request, then the job of that request over other garbage: result, marks and answers are alike. */
static void try_single(const uint8_t *header, const survey *s, lengths n, uint32_t seed) {
    static uint8_t marks[MOST_MARKS], answers[8 * MOST_ANSWERS];
    uint64_t w[16];
    one_request(header[0] & 31, w);
    n.answers = length_of(header[5], 2, MOST_ANSWERS);
    lay_all(header, n, seed);
    uint64_t result = run_single(w, n);
    check_job(result, s, n);
    memcpy(marks, mark_area.start, n.marks);
    memcpy(answers, answer_area.start, 8 * n.answers);
    lay_all(header, n, seed + 7);
    uint64_t again = run_job(n);
    check_job(again, s, n);
    if (again != result) violated("a request alone has another result than its job");
    if (result) return;
    if (memcmp(marks, mark_area.start, s->cells)) violated("a request alone has other marks than its job");
    if (memcmp(answers, answer_area.start, 8 * n.answers)) violated("a request alone has other answers than its job");
    if (s->edition == 2) try_first_edition(header, s, n, seed + 13);
    if (w[0] == 1 && n.answers >= 4) try_all_cells(header, n, seed + 11);
}

static void try_needs(const uint8_t *header, const survey *s, lengths n, uint32_t seed) {
    n.answers = header[5];
    lay_all(header, n, seed);
    uint64_t *needs = (uint64_t *)answer_area.start;
    uint64_t result = hookyellow_needs(CASE, (size_t *)needs, n.answers);
    check_inputs();
    if (result != (s->refusal || n.answers >= 3 ? s->refusal : 21)) violated("hookyellow_needs has another refusal than is due");
    int stores = !result;
    uint64_t due[3] = {16 * s->faces + 96 * s->cells, 12 * s->faces + 64 * s->cells, s->cells};
    if (stores && memcmp(needs, due, sizeof due)) violated("the needs are wrong");
    if (!untouched(&answer_area, stores ? 24 : 0)) violated("hookyellow_needs stores more than three needs, or under a refusal");
}

static void try_requests(const uint8_t *header, const survey *s) {
    uint64_t floats = s->refusal ? 0 : 12 * s->faces + 64 * s->cells, words = s->refusal ? 0 : 16 * s->faces + 96 * s->cells;
    uint64_t marks = s->refusal ? 0 : s->cells, answers = 2 * (request_length / REQUEST);
    lengths n = {length_of(header[2], words, MOST_WORDS), length_of(header[3], floats, MOST_FLOATS),
                 length_of(header[4], marks, MOST_MARKS), length_of(header[5], answers, MOST_ANSWERS)};
    uint32_t seed = word_at(header + 24);
    unsigned function = header[0] & 31;
    if (function >= 1 && function <= 14) {
        try_single(header, s, n, seed);
    } else if (function == NEEDS) {
        try_needs(header, s, n, seed);
    } else {
        lay_all(header, n, seed);
        check_job(run_job(n), s, n);
    }
}

int LLVMFuzzerTestOneInput(const uint8_t *data, size_t size) {
    if (size < HEADER) return 0;
    const uint8_t *header = data, *body = data + HEADER;
    size -= HEADER;
    size_t taken = cut_case(header, body, size);
    if (taken == SIZE_MAX) return 0;
    survey s = survey_case(case_bytes, case_length);
    switch (header[0] & 31) {
    case CONVERTER: try_convert(header, case_bytes, case_length, &s); break;
    case WRITER: try_write(header, case_bytes, case_length, &s, body + taken, size - taken); break;
    default:
        cut_requests(header, body + taken, size - taken);
        try_requests(header, &s);
    }
    return 0;
}
