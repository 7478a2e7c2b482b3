/* Encodes a WAV file. Proved code takes it apart, and writes the stream, which it decodes again.
 *
 * usage: wav2flac [--ogg] IN.wav OUT.flac [NAME=VALUE ..] */
#include "files.h"

#include <stdio.h>
#include <stdlib.h>
#include <string.h>

#define PROGRAM "wav2flac"

/* The samples of a WAV file as numbers. */
static int32_t *read_samples(const char *path, struct bytes file, struct flac_proved_wave *wave, size_t *count) {
    int32_t *samples = NULL;
    uint32_t reason = flac_proved_wave(file.bytes, file.len, wave);
    if (reason == 0) {
        *count = (size_t)wave->len / wave->width;
        samples = room_for(PROGRAM, *count, sizeof *samples);
        reason = flac_proved_wave_samples(file.bytes + wave->offset, (size_t)wave->len, wave->width, wave->bits, samples, *count, count);
    }
    if (reason != 0) {
        fail_with(PROGRAM, path, reason);
    }
    return samples;
}

int main(int count, char **words) {
    int ogg = count > 1 && strcmp(words[1], "--ogg") == 0, first = ogg ? 2 : 1, i;
    if (count < first + 2) {
        fputs("usage: wav2flac [--ogg] IN.wav OUT.flac [NAME=VALUE ..]\n", stderr);
        return 2;
    }
    const char *in = words[first], *path = words[first + 1];
    struct bytes file = read_file(PROGRAM, in);
    struct flac_proved_wave wave;
    size_t samples;
    int32_t *list = read_samples(in, file, &wave, &samples);
    struct flac_proved_settings settings = {wave.rate, wave.channels, wave.bits, 4096, 0, (uint32_t)ogg, 1};
    struct flac_proved_text *texts = room_for(PROGRAM, (size_t)count, sizeof *texts);
    struct flac_proved_tags tags = {{(const uint8_t *)PROGRAM, strlen(PROGRAM)}, texts, 0};
    for (i = first + 2; i < count; i++) {
        texts[tags.count].bytes = (const uint8_t *)words[i];
        texts[tags.count++].len = strlen(words[i]);
    }
    /* The stream is mostly shorter than its samples. If it is not, its length is known now. */
    struct bytes stream = {NULL, (size_t)wave.len + 65536};
    size_t room;
    do {
        free(stream.bytes);
        room = stream.len;
        stream.bytes = room_for(PROGRAM, room, 1);
        uint32_t reason = flac_proved_encode(&settings, list, samples, &tags, stream.bytes, room, &stream.len);
        if (reason != 0) {
            fail_with(PROGRAM, in, reason);
        }
    } while (stream.len > room);
    struct bytes none = {stream.bytes, 0};
    write_file(PROGRAM, path, stream, none);
    free(stream.bytes);
    free(texts);
    free(list);
    free(file.bytes);
    return 0;
}
