/* The limiter's C functions (crate host, libhost.a, x86-64, System V).
 *
 * Every function that can refuse answers document 01's number: 0 where the work is finished, else the refusal. `answer` tells
 * the values that go with it, in DAGGERYUZU_ANSWER words: the values in order (a count as itself, a float as
 * its 64 bits), then 0. As many of these words are written as fit; what a longer buffer has behind them stays,
 * and a host that wants none lends an empty one. No call is refused for it.
 *
 * The state is DAGGERYUZU_STATE bytes that the caller owns. A refused call leaves it as it was, but for
 * setup, which leaves a limiter that is not set up. Bytes that are no state are refusal 18.
 *
 * The stores are the caller's too, exact lengths, in numbers (look is daggeryuzu_look's answer; L is
 * look - 11, at least 1): delay channels * look; marks look + 1; minima look + 1; weights L; row L;
 * detector channels * 12. Each call gets them as the last one left them. No two slices may overlap.
 *
 * The weights for 1.5 ms at four rates are built in, as house tables. These are the rates with their looks:
 *   44100, 66   48000, 72   96000, 144   192000, 288
 * A host that asks setup for the house table of its rate and look computes nothing: setup fills the weights from it and
 * does not read what they held. To ask where there is none is refusal 29, just before 16; daggeryuzu_has_house_weights
 * tells where there is one. For any other rate or look the weights are the caller's to compute, for example as the
 * inside of a Hann window. So are the house tables, but for the last digits of some weights, since one cos differs from
 * another. With
 *   h(i) = 0.5 - 0.5 * cos(2 * pi * (i + 1) / (L + 1)), i from 0 to L - 1
 * the weight at place i is h(i) divided by the sum of them all.
 *
 * Where no house table is asked for, setup reads the weights, changes none, and judges them, by 17. Each is above 0
 * and at most 1. Of the whole parts of weight * 2^60, the sum is at most 512 * L from 2^60, and no two at mirrored places
 * (i and L - 1 - i, from 0) are more than 4096 apart. The weights themselves rise strictly from place 0 to (L - 1) / 2,
 * rounded down. A refused setup leaves them as they were, and every other call only reads them.
 *
 * Every channel counts in the peaks that the gain is made from, unless setup is told to leave it out: left_out is 0, or
 * has the bit 2^c for each channel c that is left out. Such a channel is held back and scaled by the gain that the others
 * ask for, in blocks and drains, and its detector's store goes on; its own peaks ask for nothing. IT IS NOT KEPT BELOW
 * THE TARGET: a host that leaves one out tells whoever encodes or plays it. Where no channel counts nothing is limited.
 * This is part of what is set up: the state carries it, and a reset keeps it. Bits at and past the number of channels
 * mean nothing, and those from 2^8 on are not kept.
 *
 * Audio is planar: channel c holds frames c * frames onward; a sample is 8 bytes, or 4 in the functions that end
 * in _float, low byte first. audio_len is channels * frames * 8 bytes, * 4 in _float; any other is refusal 20 of a block
 * or drain.
 *
 * Files hold audio interleaved: the sample of frame i and channel c at i * channels + c, where planar audio has it at
 * c * frames + i. The last four functions rearrange one into the other within the slice, for 1 to 8 channels. They need
 * no state; their refusals, 27 and 28, have no values, hence no answer, and change nothing.
 *
 * An output below 1e-30 in magnitude becomes 0.0. An f32 is widened exactly, and its output is after that rounded to
 * the nearest, ties to even; from 2^128 - 2^103 on it becomes an infinity. State and stores know no sample type: a
 * block or a drain of one may follow either of the other.
 *
 * The functions expect the floating-point environment that C and Rust code start with: round to nearest, no
 * flush-to-zero, no denormals-are-zero.
 *
 * Events are three words each: offset into the block, parameter id, bits of the value.
 *
 * A finished block tells where its highest peak sat. A frame's peak is the largest, over the channels that count, of the
 * sample's magnitude, 0.0 where it is not finite, and the detector's answer. The frame told, counted from 0 in the block,
 * is the first whose peak is the block's highest; a channel that is left out is never told, however high it is:
 *   DAGGERYUZU_PEAK_NONE                             no frames, no channel that counts, or no peak above 0.0
 *   DAGGERYUZU_PEAK_ON_SAMPLE, frame, channel        a sample is that high; the lowest channel that has one
 *   DAGGERYUZU_PEAK_BETWEEN, frame, channel, phase   no sample is; the lowest channel whose detector is, and the first
 *                                                    of its phases, 0 to 3, that is
 * A phase is the signal between two samples, at frame - 5.875 + phase / 4, since the detector hears it that late; below 0
 * it lies in what came before the block. A drain tells no place. A block that is lent an empty answer computes no sum
 * for its sake, which takes less time, most of all in quiet audio and short blocks; audio, state and stores are the same.
 * Where such a block is refused by 21, the same call with a whole answer tells the index: a refused block or drain leaves
 * audio and stores, like the state, as they were. */
#ifndef DAGGERYUZU_H
#define DAGGERYUZU_H

#include <stddef.h>
#include <stdint.h>

#ifdef __cplusplus
extern "C" {
#endif

#define DAGGERYUZU_STATE 512
#define DAGGERYUZU_ANSWER 8

#define DAGGERYUZU_PEAK_NONE 0
#define DAGGERYUZU_PEAK_ON_SAMPLE 1
#define DAGGERYUZU_PEAK_BETWEEN 2

/* look, the frames by which the audio is held back, of a lookahead in ms (its bits) at a rate */
uint64_t daggeryuzu_look(uint64_t lookahead_ms_bits, uint32_t rate);

/* the bytes that a cap must allow: the stores' and 80 of the bank; the largest number outside 1 to 8
 * channels and a look of 11 to 4096 */
uint64_t daggeryuzu_bytes_needed(size_t channels, size_t look);

/* 1 where there is a house table of weights for this rate and look, else 0 */
uint32_t daggeryuzu_has_house_weights(uint32_t rate, size_t look);

/* refusals 1 to 15, 29, 16, 17, in this order; 16 for the state's length too; settings as bits of f64, and left_out as
 * above, which is never refused; capped 0: no limit; house 0: the weights are read, any other: they are filled from the
 * house table of the rate and look, and there is no 17 */
uint32_t daggeryuzu_setup(
    uint8_t *state, size_t state_len, uint64_t *answer, size_t answer_len,
    uint64_t threshold_db_bits, uint64_t true_peak_margin_db_bits, uint64_t lookahead_ms_bits, uint64_t release_ms_bits,
    uint32_t left_out, uint32_t rate, size_t channels, size_t max_block, uint32_t capped, uint64_t cap, uint32_t house,
    double *delay, size_t delay_len, uint64_t *marks, size_t marks_len, double *minima, size_t minima_len,
    double *weights, size_t weights_len, double *row, size_t row_len, double *detector, size_t detector_len);

/* refusals 18, 16, 19, 20, 21 (index), 22; answer: where the highest peak sat (above) */
uint32_t daggeryuzu_process(
    uint8_t *state, size_t state_len, uint64_t *answer, size_t answer_len,
    uint64_t position, size_t frames, const uint64_t *events, size_t events_len, uint8_t *audio, size_t audio_len,
    double *delay, size_t delay_len, uint64_t *marks, size_t marks_len, double *minima, size_t minima_len,
    const double *weights, size_t weights_len, double *row, size_t row_len, double *detector, size_t detector_len);

/* the same of f32 samples */
uint32_t daggeryuzu_process_float(
    uint8_t *state, size_t state_len, uint64_t *answer, size_t answer_len,
    uint64_t position, size_t frames, const uint64_t *events, size_t events_len, uint8_t *audio, size_t audio_len,
    double *delay, size_t delay_len, uint64_t *marks, size_t marks_len, double *minima, size_t minima_len,
    const double *weights, size_t weights_len, double *row, size_t row_len, double *detector, size_t detector_len);

/* refusals 18, 16, 19, 20, 22; answer: frames written, whether the tail is done (0 or 1) */
uint32_t daggeryuzu_flush(
    uint8_t *state, size_t state_len, uint64_t *answer, size_t answer_len,
    size_t frames, uint8_t *audio, size_t audio_len,
    double *delay, size_t delay_len, uint64_t *marks, size_t marks_len, double *minima, size_t minima_len,
    const double *weights, size_t weights_len, double *row, size_t row_len, double *detector, size_t detector_len);

/* the same of f32 samples */
uint32_t daggeryuzu_flush_float(
    uint8_t *state, size_t state_len, uint64_t *answer, size_t answer_len,
    size_t frames, uint8_t *audio, size_t audio_len,
    double *delay, size_t delay_len, uint64_t *marks, size_t marks_len, double *minima, size_t minima_len,
    const double *weights, size_t weights_len, double *row, size_t row_len, double *detector, size_t detector_len);

/* refusals 18, 23 (id, the offending value's bits), 24 */
uint32_t daggeryuzu_set_parameter(
    uint8_t *state, size_t state_len, uint64_t *answer, size_t answer_len, uint32_t id, uint64_t value_bits);

/* refusals 18, 24; answer: the value's bits */
uint32_t daggeryuzu_parameter(const uint8_t *state, size_t state_len, uint64_t *answer, size_t answer_len, uint32_t id);

/* refusals 18, 16; marks, minima and weights are only looked at for their lengths */
uint32_t daggeryuzu_reset(
    uint8_t *state, size_t state_len, uint64_t *answer, size_t answer_len,
    double *delay, size_t delay_len, const uint64_t *marks, size_t marks_len, const double *minima, size_t minima_len,
    const double *weights, size_t weights_len, double *row, size_t row_len, double *detector, size_t detector_len);

/* one gain step alone: refusals 18, 16, 19, 22; answer: floor, entries dropped, entries kept, tally, mean, gain */
uint32_t daggeryuzu_gain_step(
    uint8_t *state, size_t state_len, uint64_t *answer, size_t answer_len, uint64_t gain_bits,
    uint64_t *marks, size_t marks_len, double *minima, size_t minima_len, const double *weights, size_t weights_len,
    double *row, size_t row_len);

/* interleaved audio to planar, in place, every sample's bytes kept; audio_len in bytes: refusals 27 (channels not 1 to 8),
 * 28 (over 524,288 samples, or not a whole number of frames) */
uint32_t daggeryuzu_deinterleave(size_t channels, uint8_t *audio, size_t audio_len);

/* the same of f32 samples */
uint32_t daggeryuzu_deinterleave_float(size_t channels, uint8_t *audio, size_t audio_len);

/* its inverse, planar audio to interleaved, in place: refusals 27, 28 as there */
uint32_t daggeryuzu_interleave(size_t channels, uint8_t *audio, size_t audio_len);

/* the same of f32 samples */
uint32_t daggeryuzu_interleave_float(size_t channels, uint8_t *audio, size_t audio_len);

#ifdef __cplusplus
}
#endif

#endif
