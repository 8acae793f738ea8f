/* take RATE <FRAMES >FILE: frames as hda_pull gives them, 16-bit stereo, become a WAV file. Build: cc -I include rust/play/examples/take.c target/staticlib/libport.a */
#include "hda.h"
#include <inttypes.h>
#include <stdio.h>
#include <stdlib.h>

/* All bytes of a stream, in memory that grows with them; NULL where there is none left. */
static uint8_t *all_of(FILE *from, size_t *length)
{
    uint8_t *bytes = NULL;
    for (size_t space = 1 << 20;; space *= 2) {
        uint8_t *larger = realloc(bytes, space);
        if (!larger)
            return NULL;
        bytes = larger;
        *length += fread(bytes + *length, 1, space - *length, from);
        if (*length < space)
            return bytes;
    }
}

int main(int count, char **words)
{
    if (count != 2) {
        fputs("usage: take RATE <FRAMES >FILE\n", stderr);
        return 2;
    }
    uint32_t rate = (uint32_t)strtoul(words[1], NULL, 10);
    size_t length = 0;
    uint8_t *frames = all_of(stdin, &length);
    uint8_t *file = frames ? malloc(HDA_WAV_HEADER_BYTES + length) : NULL;
    if (!file) {
        fputs("take: too little memory\n", stderr);
        return 1;
    }
    uint64_t reply = hda_wav_write(rate, frames, length, file, HDA_WAV_HEADER_BYTES + length);
    if (hda_number(reply) != HDA_DONE) {
        fprintf(stderr, "take: %zu bytes at %" PRIu32 " frames a second are no take: whole frames of 4 bytes, at most %" PRIu64 " bytes, at 44100, 48000, 88200 or 96000\n", length, rate,
                (uint64_t)HDA_WAV_FRAMES_BYTES_MAX);
        return 1;
    }
    /* The length may be more than 32 bits say: hda_wav_bytes has all of it. */
    if (fwrite(file, 1, hda_wav_bytes(reply), stdout) != hda_wav_bytes(reply) || fflush(stdout) != 0) {
        fputs("take: the file could not be written\n", stderr);
        return 1;
    }
    return 0;
}
