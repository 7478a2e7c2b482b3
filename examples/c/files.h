/* Whole files in memory, for the example programs. */
#ifndef FILES_H
#define FILES_H

#include "flac_proved.h"

struct bytes {
    uint8_t *bytes;
    size_t len;
};

/* Prints `program: path: text` to standard error, and ends the program with status 1. */
void fail(const char *program, const char *path, const char *text);

/* The same with the text of a reason. */
void fail_with(const char *program, const char *path, uint32_t number);

/* malloc, which ends the program if there is no memory. A block has at least one byte, so that it is never null. */
void *room_for(const char *program, size_t count, size_t size);

/* All bytes of a file. */
struct bytes read_file(const char *program, const char *path);

/* Writes a file of two pieces. If that fails, the file is removed. */
void write_file(const char *program, const char *path, struct bytes first, struct bytes second);

#endif
