/* A library with a fault, for `run --self-test`: the job, the converter or the writer with one thing wrong afterwards. FAULT says
 * which: 1 to 20 for the job, 21 to 32 for the converter, 33 to 44 for the writer, then some for one of these two alone. */
#include "../../include/hookyellow.h"
#include <string.h>

#define GIVEN \
    const uint8_t *case_bytes, size_t case_length, const uint8_t *requests, size_t requests_length, uint32_t *words, \
        size_t words_length, double *floats, size_t floats_length, uint8_t *marks, size_t marks_length, uint64_t *answers, \
        size_t answers_length

uint64_t __real_hookyellow_job(GIVEN);

/* The request of the last job that had one alone, and whether its case was of edition 2. */
static uint8_t last[128];
static int second;

/* Is the first answer one of code 1 or 9, with its words? */
static int locates(uint64_t result, const uint8_t *requests, size_t requests_length, const uint64_t *answers) {
    return !result && requests_length && (requests[0] == 1 || requests[0] == 9) && answers[1] == 2;
}

/* Does the job ask among all cells what the one before it asked by the bins? */
static int again(uint64_t result, const uint8_t *requests, size_t requests_length) {
    if (result || requests_length != 128) return 0;
    return requests[0] == 9 && last[0] == 1 && !memcmp(requests + 8, last + 8, 120);
}

/* Is the job one on edition 1 after the same request on edition 2? */
static int first_after_second(uint64_t result, const uint8_t *case_bytes, size_t case_length, const uint8_t *requests,
                              size_t requests_length) {
    if (result || !second || requests_length != 128 || memcmp(requests, last, 128)) return 0;
    return case_bytes[case_length - 32] < 100;
}

uint64_t __wrap_hookyellow_job(GIVEN) {
    uint64_t result = __real_hookyellow_job(case_bytes, case_length, requests, requests_length, words, words_length, floats,
                                            floats_length, marks, marks_length, answers, answers_length);
    switch (FAULT) {
    case 1: words[words_length] = 0; break;                                        /* one word past the end */
    case 2: if (result && marks_length) marks[0] ^= 1; break;                      /* marks under a refusal */
    case 3: if (result && answers_length) answers[0] = 0; break;                   /* answers under a refusal */
    case 4: if (!result) marks[0] = 2; break;                                      /* a mark that is none */
    case 5: if (!result && answers_length) answers[answers_length - 1] = 1; break; /* a word after the last answer */
    case 6: if (case_length) ((uint8_t *)case_bytes)[0] ^= 1; break;               /* the case */
    case 7: *(volatile const uint8_t *)(requests + requests_length); break;        /* a read past the end */
    case 8: ((uint8_t *)floats)[-1] ^= 1; break;                                   /* the byte before the floats */
    case 9: if (result == 10) result = 9; break;                                   /* another refusal */
    case 10: if (!result && requests_length == 128) marks[0] ^= 1; break;          /* other marks than the request alone */
    case 11: if (!result && answers_length > 4 && answers[1] > 2) answers[3] = 0x7ff8000000000001; break; /* another NaN */
    case 12: for (volatile int on = 1; on;) {} break;                              /* no end */
    case 13: case 14:                                                              /* a sheet (13 or 14) with a point twice */
        if (!result && requests_length && requests[0] == FAULT && answers[1] > 4)
            answers[5] = answers[3], answers[6] = answers[4];
        break;
    case 15:                                                                       /* nowhere among all cells, after code 1 */
        if (again(result, requests, requests_length)) answers[2] = UINT64_MAX, answers[3] = 0;
        break;
    case 16: case 17:                                                              /* a cell and 0 or 3 */
        if (locates(result, requests, requests_length, answers)) answers[3] = FAULT == 16 ? 0 : 3;
        break;
    case 18:                                                                       /* inside where code 1 has an edge */
        if (again(result, requests, requests_length) && answers[3] == 1) answers[3] = 2;
        break;
    case 19: if (result == 45) result = 3; break;                                  /* another refusal for a zone */
    case 20:                                                                       /* a line that begins otherwise in edition 1 */
        if (first_after_second(result, case_bytes, case_length, requests, requests_length) && answers[1] > 3) answers[3] ^= 1;
        break;
    }
    if (requests_length == 128) {
        memcpy(last, requests, 128);
        second = case_length >= 32 && case_bytes[case_length - 32] > 100;
    }
    return result;
}

static uint32_t word_at(const uint8_t *p) {
    uint32_t w;
    memcpy(&w, p, 4);
    return w;
}

/* What can go wrong with a file that is made, one thing for each of 12 kinds. */
static void spoil(int kind, hookyellow_written *r, uint8_t *out, size_t out_length) {
    static int made;
    int file = !r->refusal;
    switch (kind) {
    case 0: out[out_length] ^= 1; break;                               /* one byte past the end */
    case 1: out[-1] ^= 1; break;                                       /* the byte before the output */
    case 2: if (!file && out_length) out[0] ^= 1; break;               /* the output under a refusal */
    case 3: if (file && r->length < out_length) out[r->length] ^= 1; break; /* a byte after the file */
    case 4: if (r->refusal == 47) r->refusal = 46; break;              /* another refusal */
    case 5: if (r->refusal == 45) r->refusal = 3; break;               /* another one */
    case 6: if (r->refusal == 1) r->refusal = 48; break;               /* one that is none */
    case 7: if (file) out[r->length - 8] ^= 1; break;                  /* a file that cannot be read */
    case 8: if (file && r->length > 100) out[0] ^= 1; break;           /* another float */
    case 9: r->length++; break;                                        /* another length */
    case 10: if (file && out[7] == 0x7f && out[6] == 0xf0) out[6] ^= 8; break; /* another NaN */
    case 11: if (file && ++made % 2 == 0 && r->length > 100) out[8] ^= 1; break; /* another float in every second file */
    }
}

hookyellow_written __real_hookyellow_convert(const uint8_t *case_bytes, size_t case_length, size_t edition, uint8_t *out,
                                             size_t out_length);

hookyellow_written __wrap_hookyellow_convert(const uint8_t *case_bytes, size_t case_length, size_t edition, uint8_t *out,
                                             size_t out_length) {
    hookyellow_written r = __real_hookyellow_convert(case_bytes, case_length, edition, out, out_length);
    spoil(FAULT - 21, &r, out, out_length);
    size_t cells = r.refusal ? 0 : word_at(out + r.length - 20);
    if (FAULT == 45 && edition == 2 && cells) out[r.length - 36 - 4 * cells] = 1;                   /* a zone that is not 0 */
    if (FAULT == 46 && case_length) ((uint8_t *)case_bytes)[0] ^= 1;                                /* the case */
    if (FAULT == 47 && r.refusal == 46) r.refusal = 47;                                             /* another refusal for a zone */
    return r;
}

#define PARTS \
    hookyellow_counts counts, const uint64_t *points, size_t points_length, const uint32_t *words, size_t words_length, \
        const uint64_t *velocities, size_t velocities_length, const uint64_t *pressures, size_t pressures_length, \
        const uint32_t *zones, size_t zones_length, uint8_t *out, size_t out_length

hookyellow_written __real_hookyellow_write_case(PARTS);

hookyellow_written __wrap_hookyellow_write_case(PARTS) {
    hookyellow_written r = __real_hookyellow_write_case(counts, points, points_length, words, words_length, velocities,
                                                        velocities_length, pressures, pressures_length, zones, zones_length, out,
                                                        out_length);
    int long_edition = counts.edition == 1 || counts.edition == 2, rest = words_length == counts.words && zones_length == counts.cells;
    spoil(FAULT - 33, &r, out, out_length);
    if (FAULT == 48 && zones_length) ((uint32_t *)zones)[0] ^= 1;                                   /* a part */
    if (FAULT == 49) *(volatile const uint32_t *)(zones + zones_length);                            /* a read past the end */
    if (FAULT == 50 && r.refusal == 1 && long_edition && rest && 3 * counts.points == points_length) r.refusal = 2; /* modulo 2^64 */
    return r;
}
