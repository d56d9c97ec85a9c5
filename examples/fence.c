/*
 * A job, a refusal, and the smear of docs/FENCE.md with what prevents it: a question asked of the list, or a slice for each theatre.
 * examples/run builds and runs this; fence.rs is the same in Rust and prints the same.
 */
#include "tashvelun.h"
#include <stdio.h>
#include <string.h>

struct job {
    char theatre;
    size_t start, log2_w, log2_h;
};

static uint8_t run(int16_t *coef, size_t len, struct job j)
{
    return tv_job(coef, len, j.start, j.log2_w, j.log2_h, 4, 32, 6, 12);
}

/* Whether a job would be accepted on a buffer of len samples; all else that it is given here is allowed. No sum can wrap. */
static int accepted(size_t len, struct job j)
{
    if (j.log2_w < 1 || 6 < j.log2_w || j.log2_h < 1 || 6 < j.log2_h || len < j.start)
        return 0;
    return (size_t)1 << (j.log2_w + j.log2_h) <= len - j.start;
}

/* The two jobs share a sample: they are accepted, and their positions meet. It is a question about positions. */
static int share(size_t len, struct job a, struct job b)
{
    if (!accepted(len, a) || !accepted(len, b))
        return 0;
    return a.start < b.start ? b.start - a.start < (size_t)1 << (a.log2_w + a.log2_h) : a.start - b.start < (size_t)1 << (b.log2_w + b.log2_h);
}

/* Whether two jobs of the list share a sample: of any two, or of two that different theatres have handed in. */
static int shared(size_t len, const struct job *list, size_t n, int any_two)
{
    for (size_t i = 0; i < n; i++)
        for (size_t k = i + 1; k < n; k++)
            if ((any_two || list[i].theatre != list[k].theatre) && share(len, list[i], list[k]))
                return 1;
    return 0;
}

static const char *yes(int it)
{
    return it ? "yes" : "no";
}

/* Does two jobs, one after the other. */
static void both(const char *who, int16_t *coef, struct job one, struct job two)
{
    int answer = run(coef, 8, one);
    printf("%s answer %d and %d\n", who, answer, run(coef, 8, two));
}

static void print(const char *what, const int16_t *coef, size_t len)
{
    printf("%s:", what);
    for (size_t i = 0; i < len; i++)
        printf(" %d", coef[i]);
    printf("\n");
}

int main(void)
{
    const struct job a = {'A', 0, 1, 1}, b = {'B', 4, 1, 1};
    const struct job retry = {'A', 0, 2, 1}; /* kept its old size, 4 by 2 */
    const struct job past = {'B', 6, 2, 1};  /* of no account: it is refused */
    const int16_t first[8] = {400, 0, 0, 0, 400, 0, 0, 0}, only[8] = {400, 0, 0, 0, 0, 0, 0, 0};
    int16_t coef[8], small[4] = {4, 0, 0, 0};

    printf("a job answers %d\n", run(small, 4, a));
    print("its samples", small, 4);

    printf("one place later it answers %d\n", run(small, 4, (struct job){'A', 1, 1, 1}));
    print("nothing has changed", small, 4);

    const struct job good[3] = {a, b, past}, bad[2] = {b, retry}, own[2] = {a, retry};
    memcpy(coef, first, sizeof coef);
    printf("two of A's and B's accepted jobs share a sample: %s\n", yes(shared(8, good, 3, 1)));
    both("they", coef, a, b);
    print("in this order", coef, 8);
    memcpy(coef, first, sizeof coef);
    both("they", coef, b, a);
    print("in the other", coef, 8);

    /* what happens when nobody asks: every job is accepted, and B's picture is lost */
    memcpy(coef, first, sizeof coef);
    both("unasked, B and A's retry", coef, b, retry);
    print("the smear", coef, 8);

    /* the question, asked before the list is run */
    memcpy(coef, first, sizeof coef);
    printf("B and A's retry share a sample: %s\n", yes(shared(8, bad, 2, 0)));
    for (size_t i = 0; i < 2 && !shared(8, bad, 2, 0); i++)
        run(coef, 8, bad[i]);
    print("so the list is not run", coef, 8);

    /* the slice: theatre A is lent its own four samples, and its retry can reach no others */
    printf("A's retry on its own slice answers %d\n", run(coef, 4, retry));
    print("nothing has changed", coef, 8);

    /* jobs of one theatre may share samples; then its own order has to be kept */
    printf("jobs of different theatres share a sample: %s, any two jobs: %s\n", yes(shared(8, own, 2, 0)), yes(shared(8, own, 2, 1)));
    memcpy(coef, only, sizeof coef);
    both("they", coef, a, retry);
    print("in A's order", coef, 8);
    memcpy(coef, only, sizeof coef);
    both("they", coef, retry, a);
    print("in the other", coef, 8);
    return 0;
}
