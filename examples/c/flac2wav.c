/* Decodes a stream, native or Ogg, to a WAV file. The samples, and all bytes of the file but the zero at its end, are those of proved code.
 *
 * usage: flac2wav IN.flac OUT.wav */
#include "files.h"

#include <stdio.h>
#include <stdlib.h>

#define PROGRAM "flac2wav"

/* The longest head of a plain WAV file. */
#define MOST_HEAD 104

/* How many samples a stream has in all, if its info does not say it. */
static size_t count_samples(const char *path, struct bytes file) {
    struct flac_proved_fault fault;
    int32_t none;
    size_t count;
    uint32_t reason = flac_proved_samples(file.bytes, file.len, &none, 0, &count, &fault);
    if (reason != 0) {
        fail_with(PROGRAM, path, reason);
    }
    return count;
}

int main(int words, char **word) {
    if (words != 3) {
        fputs("usage: flac2wav IN.flac OUT.wav\n", stderr);
        return 2;
    }
    struct bytes file = read_file(PROGRAM, word[1]);
    struct flac_proved_stream_info info;
    struct flac_proved_fault fault;
    uint32_t reason = flac_proved_info(file.bytes, file.len, &info, &fault);
    if (reason != 0) {
        fail_with(PROGRAM, word[1], reason);
    }
    /* a stream has no more samples than it says, which may be far more than it has */
    size_t room = info.total == 0 || info.total > 8 * (uint64_t)file.len ? count_samples(word[1], file) : (size_t)info.total * info.channels;
    int32_t *samples = room_for(PROGRAM, room, sizeof *samples);
    size_t count;
    reason = flac_proved_samples(file.bytes, file.len, samples, room, &count, &fault);
    if (reason != 0) {
        fail_with(PROGRAM, word[1], reason);
    }
    uint32_t width = (info.bits + 7) / 8;
    uint8_t bytes[MOST_HEAD];
    struct bytes head = {bytes, 0}, data = {room_for(PROGRAM, count * width + 1, 1), 0};
    reason = flac_proved_wave_head(info.rate, info.channels, info.bits, count / info.channels, head.bytes, MOST_HEAD, &head.len);
    if (reason == 0) {
        reason = flac_proved_wave_bytes(samples, count, width, info.bits, data.bytes, count * width, &data.len);
    }
    if (reason != 0) {
        fail_with(PROGRAM, word[1], reason);
    }
    data.bytes[data.len] = 0;
    data.len += data.len % 2;
    write_file(PROGRAM, word[2], head, data);
    free(data.bytes);
    free(samples);
    free(file.bytes);
    return 0;
}
