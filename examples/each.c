/*
 * Calls every function of the header once with an input that is accepted and once with one that is refused, and holds the answers, the values and
 * the buffers to what they must be. examples/run builds and runs this.
 */
#include "tashvelun.h"
#include <stdio.h>
#include <string.h>

static int wrong;

#define IS(it, must)                                                         \
    do {                                                                     \
        long long is_ = (it), must_ = (must);                                \
        if (is_ != must_) {                                                  \
            printf("line %d: %lld, not %lld\n", __LINE__, is_, must_);       \
            wrong = 1;                                                       \
        }                                                                    \
    } while (0)

#define ARE(l, ...)                                                          \
    do {                                                                     \
        const long all_[] = {__VA_ARGS__};                                   \
        for (size_t i_ = 0; i_ < sizeof all_ / sizeof *all_; i_++)           \
            IS((l)[i_], all_[i_]);                                           \
    } while (0)

static void transform(void)
{
    int16_t d[3] = {-1, 32767, 9};
    IS(tv_dquant(d, 3, 1, 0, 45, 0, 1), TV_ACCEPTED);
    ARE(d, -23, 32767, 9);
    IS(tv_dquant(d, 3, 1, 0, 45, 0, 32), TV_SHIFT);
    IS(tv_dquant(d, 3, 1, 1, 45, 0, 1), TV_AREA);
    ARE(d, -23, 32767, 9);

    const int16_t in[4] = {1, 2, 3, 4};
    int32_t mid[5] = {0, 0, 0, 0, 7};
    IS(tv_itxb0(in, 4, mid, 5, 1, 1), TV_ACCEPTED);
    ARE(mid, 256, -128, 384, -128, 7);
    IS(tv_itxb0(in, 4, mid, 5, 0, 1), TV_SIZE);
    ARE(mid, 256, -128, 384, -128, 7);

    const int32_t two[2] = {-3, 0};
    int16_t res[3] = {5, 5, 5};
    IS(tv_itxb1(two, 2, res, 3, 1, 0, 7), TV_ACCEPTED);
    ARE(res, -1, -1, 5);
    IS(tv_itxb1(two, 2, res, 3, 1, 1, 7), TV_AREA);
    ARE(res, -1, -1, 5);

    int16_t job[6] = {9, 4, 0, 0, 0, 9};
    IS(tv_job(job, 6, 1, 1, 1, 4, 32, 6, 12), TV_ACCEPTED);
    ARE(job, 9, 4, 4, 4, 4, 9);
    IS(tv_job(job, 6, 1, 1, 1, 64, 32, 6, 12), TV_QP);
    IS(tv_job(job, 6, SIZE_MAX, 1, 1, 4, 32, 6, 12), TV_AREA);
    ARE(job, 9, 4, 4, 4, 4, 9);

    int16_t sub[8] = {4, 0, 0, 0, 8, 0, 0, 0};
    uint8_t component = 99;
    IS(tv_sub_block(sub, 8, 2, 2, 32, 6, 12, 0, 1, 1, 0, 0, 4, 4, 4, 4, &component), TV_ACCEPTED);
    ARE(sub, 4, 4, 4, 4, 8, 8, 8, 8);
    IS(component, 99);
    IS(tv_sub_block(sub, 8, 2, 2, 32, 6, 12, 0, 1, 1, 0, 0, 3, 4, 4, 4, &component), TV_OVERLAP);
    IS(component, TV_V);
    IS(tv_sub_block(sub, 8, 2, 2, 32, 6, 12, 1, 1, 1, 0, 0, 4, 4, 4, 4, &component), TV_AREA);
    IS(component, TV_Y);
    ARE(sub, 4, 4, 4, 4, 8, 8, 8, 8);
}

#define TELLS(it, a, c, g, l)                                                \
    do {                                                                     \
        const struct tv_report told_ = (it);                                 \
        IS(told_.answer, a);                                                 \
        IS(told_.component, c);                                              \
        IS(told_.given, g);                                                  \
        IS(told_.limit, l);                                                  \
    } while (0)

static void reports(void)
{
    int16_t job[6] = {9, 4, 0, 0, 0, 9};
    TELLS(tv_job_reported(job, 6, 1, 1, 1, 4, 32, 6, 12), TV_ACCEPTED, 0, 0, 0);
    ARE(job, 9, 4, 4, 4, 4, 9);
    TELLS(tv_job_reported(job, 6, 3, 0, 7, 64, 32, 6, 40), TV_SIZE, TV_Y, 0, 1);
    TELLS(tv_job_reported(job, 6, 3, 1, 7, 64, 32, 6, 40), TV_SIZE, TV_Y, 7, 6);
    TELLS(tv_job_reported(job, 6, 3, 1, 1, 64, 32, 6, 40), TV_QP, TV_Y, 64, 63);
    TELLS(tv_job_reported(job, 6, 3, 1, 1, 63, 32, 6, 40), TV_SHIFT, TV_Y, 40, 31);
    TELLS(tv_job_reported(job, 6, 3, 1, 1, 63, 32, 6, 12), TV_AREA, TV_Y, 3, 6);
    ARE(job, 9, 4, 4, 4, 4, 9);

    int16_t sub[8] = {4, 0, 0, 0, 8, 0, 0, 0};
    TELLS(tv_sub_block_reported(sub, 8, 2, 2, 32, 6, 12, 0, 1, 1, 0, 0, 4, 4, 4, 4), TV_ACCEPTED, 0, 0, 0);
    ARE(sub, 4, 4, 4, 4, 8, 8, 8, 8);
    TELLS(tv_sub_block_reported(sub, 8, 2, 8, 32, 6, 12, 0, 1, 1, 0, 0, 4, 4, 4, 4), TV_SIZE, TV_U, 8, 7);
    TELLS(tv_sub_block_reported(sub, 8, 2, 2, 32, 6, 12, 0, 1, 1, 0, 3, 1, 4, 4, 4), TV_OVERLAP, TV_V, 1, 3);
    ARE(sub, 4, 4, 4, 4, 8, 8, 8, 8);
}

static void distortion(void)
{
    const uint16_t org[6] = {1, 2, 3, 4, 5, 6}, cur[4] = {7, 7, 7, 7}, large[4] = {7, 256, 7, 7};
    int16_t diff[5] = {9, 9, 9, 9, 9};
    IS(tv_diff(org, 6, 3, 2, 3, 1, 0, 1, 1, cur, 4, 8, diff, 5), TV_ACCEPTED);
    ARE(diff, -5, -4, -2, -1, 9);
    IS(tv_diff(org, 6, 3, 2, 3, 1, 0, 1, 1, large, 4, 8, diff, 5), TV_SAMPLE);
    ARE(diff, -5, -4, -2, -1, 9);

    uint16_t ones[64], none[64] = {0};
    for (int i = 0; i < 64; i++)
        ones[i] = 1;
    uint32_t value = 77;
    IS(tv_satd(ones, 64, 8, 8, 8, 0, 0, 8, 8, none, 64, 8, &value), TV_ACCEPTED);
    IS(value, 4);
    value = 77;
    IS(tv_satd(ones, 64, 8, 8, 8, 0, 0, 8, 7, none, 64, 8, &value), TV_SIZE);
    IS(value, 77);

    const uint16_t fours[4] = {4, 4, 4, 4}, line[2] = {1, 2};
    int64_t squares = 77;
    IS(tv_ssd_16b(fours, 4, 2, 2, 2, 0, 0, 1, 1, none, 4, 10, &squares), TV_ACCEPTED);
    IS(squares, 4);
    squares = -77;
    IS(tv_ssd_16b(fours, 4, 2, 2, 2, 0, 0, 1, 1, none, 4, 15, &squares), TV_DEPTH);
    IS(squares, -77);

    IS(tv_ssd_16i(line, 2, 2, 1, 2, none, 2, 2, 1, 2, -1, 0, 1, 0, 8, &squares), TV_ACCEPTED);
    IS(squares, 2);
    IS(tv_ssd_16i(line, 2, 2, 1, 2, none, 2, 2, 1, 2, 1, 0, 1, 0, 8, &squares), TV_AREA);
    IS(squares, 2);

    const uint16_t five[2] = {5, 5}, ref[3] = {1, 2, 3};
    IS(tv_sad_16b(five, 2, 2, 1, 2, 0, 0, ref, 3, 3, 1, 3, -1, 0, 2, 1, 8, &value), TV_ACCEPTED);
    IS(value, 8);
    IS(tv_sad_16b(five, 2, 2, 1, 2, 0, 0, ref, 3, 3, 1, 3, 2, 0, 2, 1, 8, &value), TV_AREA);
    IS(value, 8);

    int16_t bi[2] = {-16384, 0};
    IS(tv_sad_bi_16b(bi, 2, line, 2, 2, 1, 2, 0, 0, 2, 1, 8, &value), TV_ACCEPTED);
    IS(value, 16387);
    bi[0] = -16385;
    IS(tv_sad_bi_16b(bi, 2, line, 2, 2, 1, 2, 0, 0, 2, 1, 8, &value), TV_SAMPLE);
    IS(value, 16387);

    IS(tv_sad_16i(fours, 4, 2, 2, 2, 0, 0, 2, 2, none, 4, 10, &value), TV_ACCEPTED);
    IS(value, 4);
    IS(tv_sad_16i(fours, 4, 2, 2, 2, 0, 0, 0, 2, none, 4, 10, &value), TV_SIZE);
    IS(value, 4);

    bi[0] = -1;
    bi[1] = 4;
    IS(tv_sad_bi_16i(bi, 2, ones, 2, 2, 1, 8, &value), TV_ACCEPTED);
    IS(value, 5);
    IS(tv_sad_bi_16i(bi, 2, ones, 2, 2, 1, 7, &value), TV_DEPTH);
    IS(value, 5);
}

int main(void)
{
    transform();
    reports();
    distortion();
    printf(wrong ? "each: WRONG\n" : "each: every function answers as it must\n");
    return wrong;
}
