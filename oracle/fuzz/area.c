/* The lent buffers: guard pages and canaries around each. */
#include "area.h"
#include <sys/mman.h>

enum { CANARY = 64, PAGE = 4096, GARBAGE = 20 << 20 };
static uint8_t *garbage;

void violated(const char *what) {
    fprintf(stderr, "violation: %s\n", what);
    abort();
}

static void *map(size_t bytes) {
    void *p = mmap(NULL, bytes, PROT_READ | PROT_WRITE, MAP_PRIVATE | MAP_ANONYMOUS | MAP_NORESERVE, -1, 0);
    if (p == MAP_FAILED) {
        perror("mmap");
        exit(2);
    }
    return p;
}

void make_areas(void) {
    uint64_t x = 88172645463325252u;
    garbage = map(GARBAGE);
    for (size_t i = 0; i < GARBAGE; i += 8) {
        x ^= x << 13;
        x ^= x >> 7;
        x ^= x << 17;
        memcpy(garbage + i, &x, 8);
    }
}

/* Room for `most` bytes and a canary on either side, between two pages that end the process when touched. */
area map_area(size_t most) {
    area a = {0};
    size_t room = (most + 2 * CANARY + PAGE - 1) / PAGE * PAGE;
    uint8_t *p = map(room + 2 * PAGE);
    if (mprotect(p, PAGE, PROT_NONE) || mprotect(p + PAGE + room, PAGE, PROT_NONE)) {
        perror("mprotect");
        exit(2);
    }
    a.low = p + PAGE;
    a.high = a.low + room;
    return a;
}

/* Places a buffer directly after the lower guard page, or `after` bytes before the upper one, and fills it with garbage. */
void lay(area *a, size_t bytes, size_t after, int front, uint32_t seed) {
    a->bytes = bytes;
    a->before = front ? 0 : CANARY;
    a->after = front ? CANARY : after;
    a->start = front ? a->low : a->high - after - bytes;
    a->held = garbage + seed % 65536 * 8;
    memcpy(a->start - a->before, a->held, a->before + bytes + a->after);
}

void check_canaries(const area *a, const char *name) {
    if (memcmp(a->start - a->before, a->held, a->before) || memcmp(a->start + a->bytes, a->held + a->before + a->bytes, a->after)) {
        fprintf(stderr, "%s: ", name);
        violated("a byte beside the buffer changed");
    }
}

/* Are the bytes of the buffer from `from` on as they were? */
int untouched(const area *a, size_t from) {
    return !memcmp(a->start + from, a->held + a->before + from, a->bytes - from);
}
