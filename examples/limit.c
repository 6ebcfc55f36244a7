/* Limits a second of a loud stereo tone through the C functions, interleaved as a file would hold it, and prints the
 * highest sample, in and out, and where the peak of the last block sat: of f64 samples, or of f32 where the first word
 * is `float`. */
#include "daggeryuzu.h"

#include <math.h>
#include <stdio.h>
#include <stdlib.h>
#include <string.h>

enum { RATE = 48000, CHANNELS = 2, BLOCK = 480 };
static const double PI = 3.14159265358979323846;

typedef union { double f64[CHANNELS * BLOCK]; float f32[CHANNELS * BLOCK]; } block;

static uint64_t bits(double x) {
    uint64_t w;
    memcpy(&w, &x, sizeof w);
    return w;
}

/* the tone from frame `at` on: left and right of a frame side by side, the right one at half the level */
static void fill(block *audio, int is_float, uint64_t at) {
    for (int i = 0; i < CHANNELS * BLOCK; i++) {
        const double level = i % CHANNELS == 0 ? 2.0 : 1.0;
        const double x = level * sin(2 * PI * 997 * (double)(at + i / CHANNELS) / RATE);
        if (is_float) audio->f32[i] = (float)x;
        else audio->f64[i] = x;
    }
}

static double highest(const block *audio, int is_float) {
    double top = 0;
    for (int i = 0; i < CHANNELS * BLOCK; i++) top = fmax(top, fabs(is_float ? audio->f32[i] : audio->f64[i]));
    return top;
}

/* where a block's highest peak sat, by what it told */
static void print_place(const uint64_t *answer) {
    const double frame = (double)answer[1];
    const unsigned channel = (unsigned)answer[2];
    if (answer[0] == DAGGERYUZU_PEAK_ON_SAMPLE)
        printf("peak of the last block on a sample, frame %.3f, channel %u\n", frame, channel);
    else if (answer[0] == DAGGERYUZU_PEAK_BETWEEN)
        printf("peak of the last block between samples, frame %.3f, channel %u\n",
            frame - 5.875 + (double)answer[3] / 4, channel);
}

int main(int argc, char **argv) {
    const int is_float = argc > 1 && strcmp(argv[1], "float") == 0;
    uint8_t state[DAGGERYUZU_STATE];
    uint64_t answer[DAGGERYUZU_ANSWER];

    /* the stores, for the look of 1.5 ms */
    const size_t look = daggeryuzu_look(bits(1.5), RATE), l = look > 12 ? look - 11 : 1;
    double *delay = calloc(CHANNELS * look, 8), *minima = calloc(look + 1, 8), *weights = calloc(l, 8);
    double *row = calloc(l, 8), *detector = calloc(CHANNELS * 12, 8);
    uint64_t *marks = calloc(look + 1, 8);

    /* -1 dB, 0.1 dB margin, 1.5 ms, release 50 ms; both channels count (with 5.1, 1 << 3 would leave the bass out); no
     * cap; the house weights, since this rate and look have some: setup fills them in (for others daggeryuzu.h has a
     * formula) */
    const uint32_t left_out = 0, capped = 0, house = 1;
    uint32_t number = daggeryuzu_setup(state, sizeof state, answer, DAGGERYUZU_ANSWER, bits(-1.0), bits(0.1), bits(1.5),
        bits(50.0), left_out, RATE, CHANNELS, BLOCK, capped, 0, house, delay, CHANNELS * look, marks, look + 1, minima,
        look + 1, weights, l, row, l, detector, CHANNELS * 12);
    block audio;
    uint8_t *bytes = (uint8_t *)&audio;
    const size_t len = is_float ? sizeof audio.f32 : sizeof audio.f64;
    double in = 0, out = 0;
    for (uint64_t at = 0; number == 0 && at < RATE; at += BLOCK) {
        fill(&audio, is_float, at);
        in = fmax(in, highest(&audio, is_float));
        number = (is_float ? daggeryuzu_deinterleave_float : daggeryuzu_deinterleave)(CHANNELS, bytes, len);
        if (number == 0) number = (is_float ? daggeryuzu_process_float : daggeryuzu_process)(state, sizeof state, answer,
            DAGGERYUZU_ANSWER, at, BLOCK, NULL, 0, bytes, len, delay, CHANNELS * look, marks, look + 1, minima, look + 1,
            weights, l, row, l, detector, CHANNELS * 12);
        if (number == 0) number = (is_float ? daggeryuzu_interleave_float : daggeryuzu_interleave)(CHANNELS, bytes, len);
        out = fmax(out, highest(&audio, is_float));
    }
    if (number != 0) {
        fprintf(stderr, "refused: %u\n", number);
        return 1;
    }
    printf("highest %s sample in %.10f, out %.10f\n", is_float ? "f32" : "f64", in, out);
    print_place(answer);
    return 0;
}
