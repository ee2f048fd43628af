/* How much stack a call takes: jobs of every code on meshes of up to 16,384 cells, and their files
 * written and converted, each in a thread whose stack was painted before. Prints the deepest place
 * that was written, and ends with 1 where it is beyond what include/hookyellow.h says.
 *
 *     tools/staticlib capi
 *     cc -std=c11 -O2 -Wall -Wextra -Werror -I include bindings/c/stack.c target/staticlib/libcapi.a -lpthread -o stack && ./stack
 */
#define _GNU_SOURCE
#include "hookyellow.h"
#include <pthread.h>
#include <stdio.h>
#include <stdlib.h>
#include <string.h>
#include <sys/mman.h>

enum { STACK = 1 << 20, PAINT = 0xa5, MOST = 1 << 22, ANSWERS = 1 << 20, BYTES = 8 << 20 };

typedef struct task {
    uint8_t *bytes;
    size_t length;
    uint8_t request[128];
    uint32_t *words;
    double *floats;
    uint8_t *marks;
    uint64_t *answers;
    uint64_t result;
    uint32_t edition, dimension, points, definitions, cells;
    uint8_t *out;
} task;

static void put(uint8_t *bytes, size_t *at, uint64_t number, int width) {
    for (int i = 0; i < width; i++) bytes[(*at)++] = (uint8_t)(number >> (8 * i));
}

static uint64_t bits(double x) {
    uint64_t b;
    memcpy(&b, &x, sizeof b);
    return b;
}

/* n by n squares, or n by n by n cubes; every cell has another velocity, and along the walls it leads inward. In edition 2
 * all cells are of one zone, so that lines are as long. */
static void build(task *t, int dimension, uint32_t n, uint32_t edition) {
    uint32_t layers = dimension == 3 ? n : 0, row = n + 1, p = row * row * (layers + 1);
    uint32_t c = dimension == 3 ? n * n * n : n * n, w = c * (dimension == 3 ? 9 : 6);
    t->edition = edition, t->dimension = (uint32_t)dimension, t->points = p, t->definitions = w, t->cells = c;
    t->length = 0;
    for (uint32_t i = 0; i < p; i++) {
        put(t->bytes, &t->length, bits(i % row), 8);
        put(t->bytes, &t->length, bits(i / row % row), 8);
        put(t->bytes, &t->length, bits(i / (row * row)), 8);
    }
    for (uint32_t i = 0; i < c; i++) {
        uint32_t a = i % n + i / n % n * row + i / (n * n) * row * row, up = row * row;
        uint32_t square[6] = {0, 4, a, a + 1, a + 1 + row, a + row};
        uint32_t cube[9] = {2, a, a + 1, a + 1 + row, a + row, a + up, a + 1 + up, a + 1 + row + up, a + row + up};
        for (int k = 0; k < (dimension == 3 ? 9 : 6); k++) put(t->bytes, &t->length, dimension == 3 ? cube[k] : square[k], 4);
    }
    for (uint32_t i = 0; i < c; i++) {
        double x = i % n + 0.5 - n / 2.0, y = i / n % n + 0.5 - n / 2.0;
        put(t->bytes, &t->length, bits(-y - x / 8), 8);
        put(t->bytes, &t->length, bits(x - y / 8), 8);
        put(t->bytes, &t->length, bits(dimension == 3 ? 1 + i % 7 : 0), 8);
    }
    for (uint32_t i = 0; i < c; i++) put(t->bytes, &t->length, bits(i), 8);
    uint32_t offset = (uint32_t)t->length, first = (uint32_t)dimension + (edition == 2 ? 100 : 0);
    uint32_t trailer[8] = {first, p, w, c, 0, 24 * p, 24 * p + 4 * w, 24 * p + 4 * w + 24 * c};
    if (edition == 2) {
        for (uint32_t i = 0; i < c; i++) put(t->bytes, &t->length, 7, 4);
        put(t->bytes, &t->length, offset, 4);
    }
    for (int i = 0; i < 8; i++) put(t->bytes, &t->length, trailer[i], 4);
}

/* The code's request, with points and planes near the middle of n cells */
static void ask(task *t, uint64_t code, uint32_t n) {
    double m = n / 2.0;
    uint64_t line[5] = {0, bits(0.125), 4096, bits(1e6), 0};
    uint64_t plane[9] = {bits(m), bits(m), bits(m + 0.25), bits(0.6), 0, bits(0.8), 0, bits(1), 0};
    uint64_t words[16] = {code, bits(m + 0.75), bits(m + 0.25), 0};
    if (code == 3 || code == 11 || code >= 13) memcpy(words + 4, line, sizeof line);
    if (code == 4 || code == 12) {
        words[4] = bits(m - 0.75), words[5] = bits(m - 0.25), words[7] = 8;
        memcpy(words + 8, line, sizeof line);
    }
    if (code >= 5 && code <= 8) memcpy(words + 1, plane, sizeof plane);
    if (code == 8) memcpy(words + 10, plane, 3 * sizeof *plane);
    size_t at = 0;
    for (int i = 0; i < 16; i++) put(t->request, &at, words[i], 8);
}

static void *run(void *data) {
    task *t = (task *)data;
    t->result = hookyellow_job(t->bytes, t->length, t->request, 128, t->words, MOST, t->floats, MOST, t->marks, 16384,
                               t->answers, ANSWERS);
    return NULL;
}

/* The file to the other edition. Edition 2 has zones that are not 0, which are refused after all else
 * was read. */
static void *take_over(void *data) {
    task *t = (task *)data;
    hookyellow_written written = hookyellow_convert(t->bytes, t->length, 3 - t->edition, t->out, BYTES);
    t->result = written.refusal != (t->edition == 1 ? 0 : 46);
    return NULL;
}

/* A file of as many points and cells, with any values */
static void *write_file(void *data) {
    static const uint32_t zones[16384];
    task *t = (task *)data;
    size_t p = t->points, w = t->definitions, c = t->cells;
    hookyellow_counts counts = {t->edition, t->dimension, p, w, c};
    hookyellow_written written =
        hookyellow_write_case(counts, t->answers, 3 * p, (const uint32_t *)(t->bytes + 24 * p), w, t->answers, 3 * c,
                              t->answers, c, zones, c, t->out, BYTES);
    t->result = written.refusal;
    return NULL;
}

static void *nothing(void *data) {
    return data;
}

/* How much of a painted stack a thread writes */
static size_t used(void *(*work)(void *), task *t) {
    uint8_t *stack = (uint8_t *)mmap(NULL, STACK, PROT_READ | PROT_WRITE, MAP_PRIVATE | MAP_ANONYMOUS, -1, 0);
    pthread_attr_t attributes;
    pthread_t thread;
    memset(stack, PAINT, STACK);
    pthread_attr_init(&attributes);
    if (pthread_attr_setstack(&attributes, stack, STACK) || pthread_create(&thread, &attributes, work, t)) exit(2);
    pthread_join(thread, NULL);
    size_t low = 0;
    while (low < STACK && stack[low] == PAINT) low++;
    munmap(stack, STACK);
    return STACK - low;
}

/* A case's file taken to the other edition, and written */
static size_t files(task *t, size_t thread) {
    size_t converted = used(take_over, t) - thread;
    if (t->result) exit(2);
    size_t written = used(write_file, t) - thread;
    if (t->result) exit(2);
    printf("%dD, edition %d, %6d cells: converter %zu bytes, writer %zu bytes\n", (int)t->dimension, (int)t->edition,
           (int)t->cells, converted, written);
    return converted > written ? converted : written;
}

int main(void) {
    task t = {.bytes = malloc(BYTES), .words = calloc(MOST, 4), .floats = calloc(MOST, 8), .marks = calloc(16384, 1),
              .answers = calloc(ANSWERS, 8), .out = malloc(BYTES)};
    if (!t.bytes || !t.words || !t.floats || !t.marks || !t.answers || !t.out) return 2;
    size_t most = 0, thread = used(nothing, &t);
    for (uint64_t code = 1; code <= 14; code++) {
        int flat = code < 5 || code > 8;
        uint32_t small = 4, large = flat ? 128 : 25;
        for (uint32_t n = small; n <= large; n += large - small) {
            for (uint32_t edition = 1; edition <= 2; edition++) {
                build(&t, flat ? 2 : 3, n, edition);
                ask(&t, code, n);
                size_t deep = used(run, &t) - thread;
                printf("code %d, edition %d, %6d cells, %7d answer words: %zu bytes\n", (int)code, (int)edition,
                       (int)(flat ? n * n : n * n * n), (int)t.answers[1], deep);
                if (t.result || t.answers[0]) return 2;
                most = deep > most ? deep : most;
                deep = code == 1 || code == 5 ? files(&t, thread) : 0;
                most = deep > most ? deep : most;
            }
        }
    }
    printf("stack: at most %zu bytes of %d\n", most, HOOKYELLOW_STACK);
    return most > HOOKYELLOW_STACK;
}
