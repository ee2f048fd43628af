/* The writer and the converter of case files in one execution of the fuzz run: the case of the input converted to editions 0 to 3 and
 * back, and its parts written, as they are and changed, each into outputs that are too short, exact and longer. */
#include "files.h"
#include "../../include/hookyellow.h"

enum { PARTS = 5, MOST_FILE = 6 << 20, SPARE = 8 };

/* Points, words, velocities, pressures and zones: what is lent, and the bytes that it has to hold before and after a call. */
static const size_t element[PARTS] = {8, 4, 8, 8, 4};
static area part_areas[PARTS], in_area, out_area;
static uint8_t part_bytes[PARTS][MOST_FILE], kept[MOST_FILE];
static hookyellow_counts own;
static size_t own_lengths[PARTS];

void make_file_areas(void) {
    for (int k = 0; k < PARTS; k++) part_areas[k] = map_area(MOST_FILE);
    in_area = map_area(MOST_FILE);
    out_area = map_area(MOST_FILE);
}

static uint64_t file_length(uint64_t edition, uint64_t p, uint64_t w, uint64_t c) {
    return 24 * p + 4 * w + 32 * c + 32 + (edition == 2 ? 4 * c + 4 : 0);
}

/* What holds after every call: the refusal that is due, its length, and nothing stored but the file. */
static void check_written(hookyellow_written r, unsigned due, uint64_t length) {
    check_canaries(&out_area, "output");
    if (r.refusal != due) {
        fprintf(stderr, "refusal %llu, due %u: ", (unsigned long long)r.refusal, due);
        violated("a file has another refusal than is due");
    }
    if (r.length != (due ? 0 : length)) violated("a file has another length than is due");
    if (due && !untouched(&out_area, 0)) violated("the output changed under a refusal");
    if (!untouched(&out_area, r.length)) violated("a byte after the file changed");
}

/* A file that was made is read without a refusal, and is of this edition. */
static survey check_readable(const uint8_t *file, size_t length, uint64_t edition) {
    size_t needs[3];
    if (hookyellow_needs(file, length, needs, 3)) violated("a file that was made is refused");
    survey s = survey_case(file, length);
    if (s.refusal || s.edition != edition) violated("a file that was made is none of its edition");
    return s;
}

static hookyellow_written run_converter(const uint8_t *header, const uint8_t *file, size_t length, size_t edition, size_t room) {
    uint32_t seed = word_at(header + 24) + 5 * (uint32_t)edition;
    lay(&in_area, length, header[6] & 15, header[1] & 8, seed);
    lay(&out_area, room, header[6] >> 4, header[1] & 8, seed + 1);
    memcpy(in_area.start, file, length);
    hookyellow_written r = hookyellow_convert(in_area.start, length, edition, out_area.start, room);
    check_canaries(&in_area, "case");
    if (memcmp(in_area.start, file, length)) violated("the case changed");
    return r;
}

/* The other edition has the same parts and no zone but 0, and comes back as the very case. */
static void check_conversion(const uint8_t *header, const uint8_t *file, size_t length, const survey *s, size_t made) {
    uint64_t front = file_length(1, s->points, s->words, s->cells) - 32;
    memcpy(kept, out_area.start, made);
    survey other = check_readable(kept, made, 3 - s->edition);
    if (memcmp(kept, file, front) || other.dimension != s->dimension) violated("a converted file has other contents");
    for (uint64_t i = 0; other.edition == 2 && i < s->cells; i++)
        if (word_at(kept + front + 4 * i)) violated("a converted file has a zone");
    hookyellow_written r = run_converter(header, kept, made, s->edition, length);
    check_written(r, 0, length);
    if (memcmp(out_area.start, file, length)) violated("a converted file does not come back");
}

void try_convert(const uint8_t *header, const uint8_t *file, size_t length, const survey *s) {
    for (size_t edition = 0; edition <= 3; edition++) {
        uint64_t need = s->refusal ? length : file_length(edition, s->points, s->words, s->cells);
        uint64_t rooms[3] = {need ? need - 1 - word_at(header + 2) % need : 0, need, need + 1 + header[3]};
        for (int i = 0; i < 3; i++) {
            hookyellow_written r = run_converter(header, file, length, edition, rooms[i]);
            check_written(r, due_conversion(s, file, edition, rooms[i] >= need), need);
            if (!r.refusal) check_conversion(header, file, length, s, r.length);
        }
    }
}

/* Takes one part from the case bytes, with zeros where they end and behind them. */
static size_t cut_part(int k, size_t count, const uint8_t *file, size_t length, size_t at) {
    size_t bytes = count * element[k], there = at < length ? length - at : 0;
    if (there > bytes) there = bytes;
    memcpy(part_bytes[k], file + (there ? at : 0), there);
    memset(part_bytes[k] + there, 0, bytes - there + SPARE * element[k]);
    own_lengths[k] = count;
    return at + bytes;
}

/* The parts of a case with a right trailer; of other bytes parts of small counts. In edition 1 the zones are 0. */
static void cut_parts(const uint8_t *header, const uint8_t *file, size_t length, const survey *s) {
    int right = s->refusal != 1;
    own.edition = right ? s->edition : 1 + (header[1] >> 4 & 1);
    own.dimension = right ? s->dimension : 2u + (header[1] >> 1 & 1);
    own.points = right ? s->points : word_at(header + 8) % 64;
    own.words = right ? s->words : word_at(header + 12) % 256;
    own.cells = right ? s->cells : word_at(header + 16) % 64;
    size_t at = cut_part(0, 3 * own.points, file, length, 0);
    at = cut_part(1, own.words, file, length, at);
    at = cut_part(2, 3 * own.cells, file, length, at);
    at = cut_part(3, own.cells, file, length, at);
    cut_part(4, own.cells, file, own.edition == 2 ? length : 0, at);
}

static hookyellow_written run_writer(const uint8_t *header, hookyellow_counts n, const size_t *lengths, size_t room) {
    static const uint8_t shift[PARTS] = {0, 2, 4, 6, 1};
    uint32_t seed = word_at(header + 24) + 7 * (uint32_t)n.edition;
    area *a = part_areas;
    for (int k = 0; k < PARTS; k++) {
        lay(&a[k], lengths[k] * element[k], element[k] * (header[7] >> shift[k] & 3), header[1] & 8, seed + (uint32_t)k);
        memcpy(a[k].start, part_bytes[k], a[k].bytes);
    }
    lay(&out_area, room, header[6] >> 4, header[1] & 8, seed + PARTS);
    hookyellow_written r = hookyellow_write_case(n, (uint64_t *)a[0].start, lengths[0], (uint32_t *)a[1].start, lengths[1],
                                                 (uint64_t *)a[2].start, lengths[2], (uint64_t *)a[3].start, lengths[3],
                                                 (uint32_t *)a[4].start, lengths[4], out_area.start, room);
    for (int k = 0; k < PARTS; k++) {
        check_canaries(&a[k], "part");
        if (memcmp(a[k].start, part_bytes[k], a[k].bytes)) violated("a part changed");
    }
    return r;
}

/* The file says of itself what was given, and holds the parts bit for bit. */
static void check_contents(hookyellow_counts n, const size_t *lengths, size_t made) {
    survey s = check_readable(out_area.start, made, n.edition);
    int same = s.dimension == n.dimension && s.points == n.points && s.words == n.words && s.cells == n.cells;
    if (!same) violated("a written file has other counts");
    size_t at = 0;
    for (int k = 0; k < (n.edition == 2 ? PARTS : PARTS - 1); k++) {
        size_t bytes = lengths[k] * element[k];
        if (memcmp(out_area.start + at, part_bytes[k], bytes)) violated("a written file has other contents");
        at += bytes;
    }
}

static hookyellow_written write_once(const uint8_t *header, hookyellow_counts n, const size_t *lengths, uint64_t need, size_t room) {
    hookyellow_written r = run_writer(header, n, lengths, room);
    uint64_t counts[PARTS] = {n.edition, n.dimension, n.points, n.words, n.cells};
    check_written(r, due_writing(counts, lengths, part_bytes[1], part_bytes[4], room >= need), need);
    if (!r.refusal) check_contents(n, lengths, r.length);
    return r;
}

/* Ten numbers behind the case: five are added to edition, dimension and counts, five change the lengths of the parts by up to 3. */
static void write_changed(const uint8_t *header, const uint8_t *rest, size_t size) {
    uint64_t change[2 * PARTS] = {0};
    size_t lengths[PARTS];
    memcpy(change, rest, size < sizeof change ? size : sizeof change);
    hookyellow_counts n = {own.edition + change[0], own.dimension + change[1], own.points + change[2], own.words + change[3],
                           own.cells + change[4]};
    for (int k = 0; k < PARTS; k++) {
        uint64_t by = change[PARTS + k] % 7;
        lengths[k] = by <= 3 ? own_lengths[k] + by : own_lengths[k] < 7 - by ? 0 : own_lengths[k] - (7 - by);
    }
    uint64_t need = file_length(n.edition, n.points, n.words, n.cells), room = file_length(2, own.points, own.words, own.cells);
    write_once(header, n, lengths, need, room + 64 - header[4] % 128 % room);
}

void try_write(const uint8_t *header, const uint8_t *file, size_t length, const survey *s, const uint8_t *rest, size_t size) {
    cut_parts(header, file, length, s);
    for (size_t edition = 1; edition <= 2; edition++) {
        hookyellow_counts n = own;
        n.edition = edition;
        uint64_t need = file_length(edition, n.points, n.words, n.cells);
        uint64_t rooms[3] = {need - 1 - word_at(header + 2) % need, need, need + 1 + header[3]};
        for (int i = 0; i < 3; i++) {
            hookyellow_written r = write_once(header, n, own_lengths, need, rooms[i]);
            int again = !r.refusal && !s->refusal && edition == s->edition;
            if (again && (r.length != length || memcmp(out_area.start, file, length))) violated("the parts of a case do not give the case");
        }
    }
    write_changed(header, rest, size);
}
