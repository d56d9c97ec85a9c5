/*
 * tashvelun.h: EVC's inverse transform and distortion, as proved functions.
 *
 * Link with libcapi.a, which `rt lib --cpu x86-64` in crates/capi proves and writes to
 * crates/capi/out, for any x86-64 processor:
 *
 *     cc program.c -Iinclude -Lcrates/capi/out -lcapi
 *
 * The promise. Every function ends and answers a number at every input; where a struct tv_report comes back, its
 * `answer` is that number. 0 says that the call is accepted and done. Any other number is a refusal, and then no buffer
 * has changed. A comment below says what an accepted call leaves; the same in full, with every refusal, stands as the
 * function's contract in crates/capi/src, and is proved.
 *
 * The one assumption. Each pointer is valid for the length behind it, aligned for its type, and not null even where the
 * length is 0; `value` and `component` point to one number. What a call writes overlaps nothing else that the call is
 * given. Inputs that are only read may overlap each other. No other thread writes to them during the call.
 *
 * Refusals. The lowest number that applies is answered. All tests are made before anything is written, in whole
 * numbers that don't wrap: a start near SIZE_MAX is TV_AREA.
 */
#ifndef TASHVELUN_H
#define TASHVELUN_H

#include <stddef.h>
#include <stdint.h>

#ifdef __cplusplus
extern "C" {
#endif

/* The answers. */
enum tv_answer {
    TV_ACCEPTED = 0,
    TV_SIZE = 1,    /* a side or its logarithm is not allowed for that call */
    TV_QP = 2,      /* qp is above 63 */
    TV_SHIFT = 3,   /* a shift is above 31 */
    TV_DEPTH = 4,   /* the depth is not in 8..14 */
    TV_AREA = 5,    /* something to be read or written isn't wholly inside its buffer or plane */
    TV_OVERLAP = 6, /* two flagged components of one sub-block share a sample */
    TV_SAMPLE = 7   /* a sample read is 2^depth or more, or a bi-prediction value read is below -16384 */
};

/* The components that a refused sub-block call names. */
enum tv_component { TV_Y = 0, TV_U = 1, TV_V = 2 };

/* ---- the inverse transform; `len` counts numbers, not bytes ---- */

/*
 * The dequantizer on the first 2^(log2_w + log2_h) coefficients, logs 0..6: each v becomes
 * floor((v * scale + offset) / 2^shift), clipped to -32768..32767. The rest of the buffer is unchanged.
 * Refuses SIZE, SHIFT, AREA.
 */
uint8_t tv_dquant(int16_t *coef, size_t coef_len, size_t log2_w, size_t log2_h, int32_t scale, int32_t offset,
                  uint8_t shift);

/*
 * Stage one: size N = 2^log2_size, 1..6, over L = 2^log2_line lines, 0..6. dst[j*N + n] becomes the sum over k of
 * table[k][n] * src[k*L + j], clipped to 32 bits: the output is transposed. Only the first N*L numbers of dst are
 * written. Refuses SIZE, AREA.
 */
uint8_t tv_itxb0(const int16_t *src, size_t src_len, int32_t *dst, size_t dst_len, size_t log2_size, size_t log2_line);

/*
 * Stage two: the same sum plus 2^(shift-1) (0 for shift 0), divided by 2^shift toward minus infinity, clipped to 16
 * bits. Only the first N*L numbers of dst are written. Refuses SIZE, SHIFT, AREA.
 */
uint8_t tv_itxb1(const int32_t *src, size_t src_len, int16_t *dst, size_t dst_len, size_t log2_size, size_t log2_line,
                 uint8_t shift);

/*
 * A block job, logs 1..6, on the 2^(log2_w + log2_h) coefficients from `start` on, row after row: dequantized with
 * qp's scale, `offset` and `dq_shift`, through stage one and stage two (shift `it_shift`), back into the same place.
 * The rest of the buffer is unchanged. Refuses SIZE, QP, SHIFT, AREA.
 */
uint8_t tv_job(int16_t *coef, size_t coef_len, size_t start, size_t log2_w, size_t log2_h, uint8_t qp, int32_t offset,
               uint8_t dq_shift, uint8_t it_shift);

/*
 * A sub-block: one such job for each component whose flag is not 0. The logs are luma's; chroma's are one less. A
 * component without a flag is neither tested nor touched; with no flag the call is accepted and does nothing. Refuses
 * SIZE, QP, SHIFT, AREA for each flagged component in the order Y, U, V, then OVERLAP. `component` is written exactly
 * on a refusal: the component that broke the test, for OVERLAP the later one of the first pair of YU, YV, UV.
 */
uint8_t tv_sub_block(int16_t *coef, size_t coef_len, size_t log2_w, size_t log2_h, int32_t offset, uint8_t dq_shift,
                     uint8_t it_shift, uint8_t flag_y, uint8_t flag_u, uint8_t flag_v, size_t start_y, size_t start_u,
                     size_t start_v, uint8_t qp_y, uint8_t qp_u, uint8_t qp_v, uint8_t *component);

/*
 * ---- the same with a report ----
 *
 * These two do and answer the same as tv_job and tv_sub_block, and a refused call also tells which number broke which
 * limit. `component` is the one that tv_sub_block names, TV_Y for a job.
 *
 *     answer        given                                          limit
 *     TV_ACCEPTED   0, and `component` 0                           0
 *     TV_SIZE       log2_w if it is not allowed, else log2_h       the end that it is beyond: 1 or 6; of U and V 2 or 7
 *     TV_QP         the component's qp                             63
 *     TV_SHIFT      dq_shift if it is above 31, else it_shift      31
 *     TV_AREA       the component's start                          coef_len
 *     TV_OVERLAP    the component's start                          the lowest position that is in both areas
 *
 * Logs are told as handed in, so those of U and V are luma's. `given` is log2_w exactly where the width is at fault: a
 * height is told only where the width is allowed, and then the two differ. In the same way `given` is dq_shift exactly
 * where that shift is at fault. A log is below the lower end exactly where `given` is less than `limit`.
 */
struct tv_report {
    uint64_t given;
    uint64_t limit;
    uint8_t answer;
    uint8_t component;
};
typedef struct tv_report tv_report;

struct tv_report tv_job_reported(int16_t *coef, size_t coef_len, size_t start, size_t log2_w, size_t log2_h, uint8_t qp,
                                 int32_t offset, uint8_t dq_shift, uint8_t it_shift);

struct tv_report tv_sub_block_reported(int16_t *coef, size_t coef_len, size_t log2_w, size_t log2_h, int32_t offset,
                                       uint8_t dq_shift, uint8_t it_shift, uint8_t flag_y, uint8_t flag_u,
                                       uint8_t flag_v, size_t start_y, size_t start_u, size_t start_v, uint8_t qp_y,
                                       uint8_t qp_u, uint8_t qp_v);

/*
 * ---- distortion ----
 *
 * A plane has width and height 1..16384, a stride of at least the width, and at least (height-1) * stride + width
 * samples; any other is AREA. `cur`, `pred` and `bi` are packed: a block of w by h, row after row, no gap. They may be
 * longer than needed. Depth is 8..14. `value` is written exactly where the answer is 0.
 */

/*
 * DIFF: diff[j*w + i] becomes org(y+j, x+i) - cur[j*w + i], for sides w = 2^log2_w and h = 2^log2_h, logs 0..6. The
 * rest of `diff` is unchanged. Refuses SIZE, DEPTH, AREA, SAMPLE.
 */
uint8_t tv_diff(const uint16_t *org, size_t org_len, size_t width, size_t height, size_t stride, size_t x, size_t y,
                size_t log2_w, size_t log2_h, const uint16_t *cur, size_t cur_len, uint8_t depth, int16_t *diff,
                size_t diff_len);

/*
 * SATD of w by h samples, both even, 2..64: in tiles of 8 by 8 if both are multiples of 8, else 4 by 4 if both are
 * multiples of 4, else 2 by 2; the total divided by 2^(depth-8), rounded down. Refuses SIZE, DEPTH, AREA, SAMPLE.
 */
uint8_t tv_satd(const uint16_t *org, size_t org_len, size_t width, size_t height, size_t stride, size_t x, size_t y,
                size_t w, size_t h, const uint16_t *cur, size_t cur_len, uint8_t depth, uint32_t *value);

/*
 * SSD, logs 0..6: each squared difference is divided by 2^(2*(depth-8)), rounded down, then added.
 * Refuses SIZE, DEPTH, AREA, SAMPLE.
 */
uint8_t tv_ssd_16b(const uint16_t *org, size_t org_len, size_t width, size_t height, size_t stride, size_t x, size_t y,
                   size_t log2_w, size_t log2_h, const uint16_t *cur, size_t cur_len, uint8_t depth, int64_t *value);

/* SSD of two planes at one position, which may be negative: each negative row or column reads as row or column 0. */
uint8_t tv_ssd_16i(const uint16_t *one, size_t one_len, size_t width1, size_t height1, size_t stride1,
                   const uint16_t *two, size_t two_len, size_t width2, size_t height2, size_t stride2, int16_t x,
                   int16_t y, size_t log2_w, size_t log2_h, uint8_t depth, int64_t *value);

/*
 * SAD of w by h samples, 1..64: the absolute differences added, the total divided by 2^(depth-8), rounded down.
 * Refuses SIZE, DEPTH, AREA, SAMPLE. The reference is read at (mv_x, mv_y), which may be negative as in tv_ssd_16i.
 */
uint8_t tv_sad_16b(const uint16_t *org, size_t org_len, size_t width, size_t height, size_t stride, size_t x, size_t y,
                   const uint16_t *reference, size_t reference_len, size_t ref_width, size_t ref_height,
                   size_t ref_stride, int16_t mv_x, int16_t mv_y, size_t w, size_t h, uint8_t depth, uint32_t *value);

/* SAD of packed bi-prediction values and a reference. */
uint8_t tv_sad_bi_16b(const int16_t *bi, size_t bi_len, const uint16_t *reference, size_t reference_len,
                      size_t ref_width, size_t ref_height, size_t ref_stride, int16_t mv_x, int16_t mv_y, size_t w,
                      size_t h, uint8_t depth, uint32_t *value);

/* SAD of a plane's block and a packed prediction. */
uint8_t tv_sad_16i(const uint16_t *org, size_t org_len, size_t width, size_t height, size_t stride, size_t x, size_t y,
                   size_t w, size_t h, const uint16_t *pred, size_t pred_len, uint8_t depth, uint32_t *value);

/* SAD of packed bi-prediction values and a packed prediction. */
uint8_t tv_sad_bi_16i(const int16_t *bi, size_t bi_len, const uint16_t *pred, size_t pred_len, size_t w, size_t h,
                      uint8_t depth, uint32_t *value);

#ifdef __cplusplus
}
#endif

#endif
