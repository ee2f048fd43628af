/* Changes of an input that keep its layout: half of them go to one header byte, one word of the
 * definitions, one float, one zone, one request or the point of one, or one number for the writer. */
#include "area.h"

size_t LLVMFuzzerMutate(uint8_t *data, size_t size, size_t most);

static uint64_t state;
static uint64_t below(uint64_t n) {
    state ^= state >> 12;
    state ^= state << 25;
    state ^= state >> 27;
    return (state * 2685821657736338717u >> 33) % (n ? n : 1);
}

static void change_float(uint8_t *place, const uint8_t *run, size_t floats) {
    static const double odd[] = {0.0,        -0.0,  1.0,    -1.0,  0.5,  0.25,      2.0,        1048576.0,
                                 -1048577.0, 1e-12, 5e-324, 1e308, 1e18, 1.0 / 0.0, -1.0 / 0.0, 0.0 / 0.0};
    uint64_t bits = long_at(place);
    switch (below(5)) {
    case 0: memcpy(&bits, &odd[below(16)], 8); break;
    case 1: bits = long_at(run + 8 * below(floats)); break;
    case 2: bits += below(2) ? 1 : -1; break;
    case 3: bits ^= 1ull << 63; break;
    default: bits ^= 1ull << below(64);
    }
    memcpy(place, &bits, 8);
}

static void change_word(uint8_t *place, const uint8_t *run, size_t words, uint32_t points) {
    uint32_t w = word_at(place);
    switch (below(4)) {
    case 0: w = (uint32_t)below(points + 1); break;
    case 1: w = (uint32_t)below(26); break;
    case 2: w = word_at(run + 4 * below(words)); break;
    default: w += below(2) ? 1 : -1;
    }
    memcpy(place, &w, 4);
}

static void change_request(uint8_t *run, size_t count) {
    uint8_t *request = run + REQUEST * below(count), *place = request + 8 * below(16);
    uint64_t small = below(4) ? below(9) : below(65538);
    switch (below(6)) {
    case 0: small = 1 + below(14); memcpy(request, &small, 8); break;
    case 1: memmove(request, run + REQUEST * below(count), REQUEST); break;
    case 2: memcpy(place, &small, 8); break;
    case 3: memset(place, 0, request + REQUEST - place); break;
    default: change_float(place, run, 16 * count);
    }
}

static void change_zone(uint8_t *place, const uint8_t *run, size_t cells) {
    static const uint32_t odd[] = {0, 1, 2, 254, 255, 256, 0x80000000, 0xffffffff};
    uint32_t zone = below(2) ? odd[below(8)] : word_at(run + 4 * below(cells));
    memcpy(place, &zone, 4);
}

/* One of the ten numbers that change what the writer is given; three times the last two are 1 and 2 modulo 2^64. */
static void change_number(uint8_t *run) {
    static const uint64_t odd[] = {0, 0, 1, 2, UINT64_MAX, 100, 1ull << 32, 1ull << 63, 0xaaaaaaaaaaaaaaab, 0x5555555555555556};
    memcpy(run + 8 * below(10), &odd[below(10)], 8);
}

/* Puts the point of a request at a point of the case, in the middle between two of them, or beside
 * one of these: at a vertex, on a side. */
static void change_point(uint8_t *request, const uint8_t *points, uint64_t count) {
    const uint8_t *a = points + 24 * below(count), *b = below(2) ? a : points + 24 * below(count);
    static const double by[] = {0.0, 0.0, 1e-12, -1e-12, 5e-13, -5e-13};
    for (int k = 0; k < 2; k++) {
        double x, y;
        memcpy(&x, a + 8 * k, 8);
        memcpy(&y, b + 8 * k, 8);
        x = x + (y - x) / 2 + by[below(6)];
        memcpy(request + 8 + 8 * k, &x, 8);
    }
}

/* Only for a case of stated parts, all of which the input holds. */
static int change_part(uint8_t *data, size_t size) {
    uint64_t p = word_at(data + 8), w = word_at(data + 12), c = word_at(data + 16);
    uint64_t words = HEADER + 24 * p, fields = words + 4 * w, zones = fields + 32 * c;
    uint64_t requests = zones + (data[1] & 16 ? 4 * c : 0);
    if (data[1] & 1 || requests > size) return 0;
    size_t count = (size - requests) / REQUEST;
    int writer = (data[0] & 31) == WRITER && size - requests >= NUMBERS;
    switch (below(10)) {
    case 0: data[below(8)] = (uint8_t)below(256); return 1;
    case 1: if (p) change_float(data + HEADER + 8 * below(3 * p), data + HEADER, 3 * p); return 1;
    case 2: case 3: if (w) change_word(data + words + 4 * below(w), data + words, w, p); return 1;
    case 4: if (c) change_float(data + fields + 8 * below(4 * c), data + fields, 4 * c); return 1;
    case 9: if (c && requests > zones) change_zone(data + zones + 4 * below(c), data + zones, c); return 1;
    case 5: if (p && count) change_point(data + requests + REQUEST * below(count), data + HEADER, p); return 1;
    default:
        if (writer) change_number(data + requests);
        else if (count) change_request(data + requests, count);
        return 1;
    }
}

size_t LLVMFuzzerCustomMutator(uint8_t *data, size_t size, size_t most, unsigned seed) {
    state = seed * 2654435761u + 88172645463325252u;
    int turns = 1 + (int)below(4), changed = 0;
    if (size >= HEADER && below(2))
        while (turns--) changed |= change_part(data, size);
    return changed ? size : LLVMFuzzerMutate(data, size, most);
}
