/* Whole files in memory, for the example programs. */
#include "files.h"

#include <stdio.h>
#include <stdlib.h>

void fail(const char *program, const char *path, const char *text) {
    fprintf(stderr, "%s: %s: %s\n", program, path, text);
    exit(1);
}

void fail_with(const char *program, const char *path, uint32_t number) {
    uint8_t text[64] = {0};
    flac_proved_strerror(number, text, sizeof text - 1);
    fail(program, path, (const char *)text);
}

void *room_for(const char *program, size_t count, size_t size) {
    void *block = count > SIZE_MAX / 2 / size ? NULL : malloc(count > 0 ? count * size : 1);
    if (block == NULL) {
        fail(program, "memory", "there is not enough");
    }
    return block;
}

struct bytes read_file(const char *program, const char *path) {
    struct bytes file = {NULL, 0};
    FILE *in = fopen(path, "rb");
    long end = -1;
    if (in == NULL || fseek(in, 0, SEEK_END) != 0 || (end = ftell(in)) < 0 || fseek(in, 0, SEEK_SET) != 0) {
        fail(program, path, "cannot be read");
    }
    file.len = (size_t)end;
    file.bytes = room_for(program, file.len, 1);
    if (fread(file.bytes, 1, file.len, in) != file.len) {
        fail(program, path, "cannot be read");
    }
    fclose(in);
    return file;
}

void write_file(const char *program, const char *path, struct bytes first, struct bytes second) {
    FILE *out = fopen(path, "wb");
    int bad = out == NULL || fwrite(first.bytes, 1, first.len, out) != first.len || fwrite(second.bytes, 1, second.len, out) != second.len;
    if (out != NULL && fclose(out) != 0) {
        bad = 1;
    }
    if (bad) {
        if (out != NULL) {
            remove(path);
        }
        fail(program, path, "cannot be written");
    }
}
