/* The writer and the converter of case files. */
#ifndef FILES_H
#define FILES_H

#include "area.h"

void make_file_areas(void);
void try_convert(const uint8_t *header, const uint8_t *file, size_t length, const survey *s);
void try_write(const uint8_t *header, const uint8_t *file, size_t length, const survey *s, const uint8_t *rest, size_t size);

/* The refusal that is due, 47 where the output is too short, or 0. */
unsigned due_conversion(const survey *s, const uint8_t *bytes, uint64_t edition, int fits);
unsigned due_writing(const uint64_t *counts, const size_t *lengths, const uint8_t *words, const uint8_t *zones, int fits);

#endif
