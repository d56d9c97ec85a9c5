/* Instructions executed by each export, counted exactly by the processor's trap flag: x86-64, without a C library, so that
   nothing but the archive and these cases is linked. One line for each case: its name and the count, from the call to its return. With STACK it is the bytes of stack that the
   call takes, by the lowest stack pointer of all its instructions, and a last line for the deepest. bench/count builds and runs it. */
#include "tashvelun.h"

/* an archive from before these has none of them, and then their cases are left out */
#pragma weak tv_job_reported
#pragma weak tv_sub_block_reported

static long call(long n, long a, long b, long c, long d)
{
    long r;
    register long r10 __asm__("r10") = d;
    __asm__ volatile("syscall" : "=a"(r) : "a"(n), "D"(a), "S"(b), "d"(c), "r"(r10) : "rcx", "r11", "memory");
    return r;
}

/* what compilers call where no C library is: 64 bytes a turn, as a C library does it */
typedef long long pair __attribute__((vector_size(16), aligned(1)));
void *memcpy(void *to, const void *from, size_t n)
{
    char *t = to;
    const char *f = from;
    for (; n >= 64; n -= 64, t += 64, f += 64) {
        pair a = *(const pair *)f, b = *(const pair *)(f + 16), c = *(const pair *)(f + 32), d = *(const pair *)(f + 48);
        *(pair *)t = a, *(pair *)(t + 16) = b, *(pair *)(t + 32) = c, *(pair *)(t + 48) = d;
    }
    for (; n >= 16; n -= 16, t += 16, f += 16) *(pair *)t = *(const pair *)f;
    while (n--) *(volatile char *)t++ = *f++;
    return to;
}
void *memset(void *to, int c, size_t n)
{
    char *t = to;
    unsigned long one = 0x0101010101010101ul * (unsigned char)c;
    pair all = {(long long)one, (long long)one};
    for (; n >= 64; n -= 64, t += 64) *(pair *)t = all, *(pair *)(t + 16) = all, *(pair *)(t + 32) = all, *(pair *)(t + 48) = all;
    for (; n >= 16; n -= 16, t += 16) *(pair *)t = all;
    while (n--) *(volatile char *)t++ = (char)c;
    return to;
}
void *memmove(void *to, const void *from, size_t n) { return memcpy(to, from, n); }

/* ---- the count */
static volatile long steps;
static volatile uint64_t lowest;
/* the stack pointer stands at this place of what Linux hands to a signal's handler */
enum { STACK_POINTER = 160 };
static void trapped(int signal, void *info, void *context)
{
    (void)signal, (void)info;
    steps++;
    uint64_t now = *(uint64_t *)((char *)context + STACK_POINTER);
    if (now < lowest) lowest = now;
}
__asm__(".globl back\nback: mov $15, %eax\nsyscall");
void back(void);
struct action {
    void (*handler)(int, void *, void *);
    unsigned long flags;
    void (*restorer)(void);
    unsigned long mask;
};
static __attribute__((noinline)) long counted(void (*f)(void))
{
    uint64_t start;
    __asm__ volatile("mov %%rsp, %0" : "=r"(start));
    steps = 0;
    lowest = start;
    __asm__ volatile("pushfq; orq $0x100,(%%rsp); popfq" ::: "memory", "cc");
    f();
    __asm__ volatile("pushfq; andq $~0x100,(%%rsp); popfq" ::: "memory", "cc");
#ifdef STACK
    return (long)(start - lowest);
#else
    return steps;
#endif
}

/* ---- what is told */
static void out(const char *s)
{
    size_t n = 0;
    while (s[n]) n++;
    call(1, 1, (long)s, (long)n, 0);
}
static void number(long v)
{
    char b[24];
    int i = 24;
    b[--i] = 0;
    do b[--i] = (char)('0' + v % 10);
    while (v /= 10);
    out(b + i);
}

/* ---- the cases: every export at every size, on random numbers of depth 10 */
static uint64_t seed = 1;
static uint64_t random64(void)
{
    seed ^= seed << 13;
    seed ^= seed >> 7;
    seed ^= seed << 17;
    return seed;
}
enum { SIDE = 160 };
static int16_t first[12288], coef[12288], bi[4096], diff[4096];
static int32_t words[4096], sums[4096];
static uint16_t one[SIDE * SIDE], two[SIDE * SIDE], packed[4096];
static uint32_t value;
static int64_t square;
static uint8_t component, answer;
static size_t w, h;
static int16_t at;

static void nothing(void) {}
static void refill(void) { for (int i = 0; i < 12288; i++) coef[i] = first[i]; }
static void dquant(void) { answer = tv_dquant(coef, 4096, w, h, 58368, 32, 6); }
static void stage_one(void) { answer = tv_itxb0(first, 4096, sums, 4096, w, h); }
static void stage_two(void) { answer = tv_itxb1(words, 4096, diff, 4096, w, h, 12); }
static void job(void) { answer = tv_job(coef, 12288, 0, w, h, 22, 32, 6, 12); }
static void sub_block(void) { answer = tv_sub_block(coef, 12288, w, h, 32, 6, 12, 1, 1, 1, 0, 4096, 8192, 22, 22, 22, &component); }
static void sub_block_luma(void) { answer = tv_sub_block(coef, 12288, w, h, 32, 6, 12, 1, 0, 0, 0, 4096, 8192, 22, 22, 22, &component); }
static void sub_block_none(void) { answer = tv_sub_block(coef, 12288, w, h, 32, 6, 12, 0, 0, 0, 0, 4096, 8192, 22, 22, 22, &component); }
static void sub_block_overlap(void) { answer = tv_sub_block(coef, 12288, w, h, 32, 6, 12, 1, 1, 1, 0, 4096, 4096, 22, 22, 22, &component); }
static void job_reported(void) { answer = tv_job_reported(coef, 12288, 0, w, h, 22, 32, 6, 12).answer; }
static void job_reported_qp(void) { answer = tv_job_reported(coef, 12288, 0, w, h, 64, 32, 6, 12).answer; }
static void job_reported_shift(void) { answer = tv_job_reported(coef, 12288, 0, w, h, 22, 32, 6, 32).answer; }
static void job_reported_area(void) { answer = tv_job_reported(coef, 12288, 12288, w, h, 22, 32, 6, 12).answer; }
static void sub_reported(uint8_t y, uint8_t u, uint8_t v, size_t start) { answer = tv_sub_block_reported(coef, 12288, w, h, 32, 6, 12, y, u, v, 0, 4096, start, 22, 22, 22).answer; }
static void sub_block_reported(void) { sub_reported(1, 1, 1, 8192); }
static void sub_block_reported_luma(void) { sub_reported(1, 0, 0, 8192); }
static void sub_block_reported_none(void) { sub_reported(0, 0, 0, 8192); }
static void sub_block_reported_overlap(void) { sub_reported(1, 1, 1, 4096); }
static void difference(void) { answer = tv_diff(one, SIDE * SIDE, SIDE, SIDE, SIDE, 3, 5, w, h, packed, 4096, 10, diff, 4096); }
static void satd(void) { answer = tv_satd(one, SIDE * SIDE, SIDE, SIDE, SIDE, 3, 5, w, h, packed, 4096, 10, &value); }
static void ssd_16b(void) { answer = tv_ssd_16b(one, SIDE * SIDE, SIDE, SIDE, SIDE, 3, 5, w, h, packed, 4096, 10, &square); }
static void ssd_16i(void) { answer = tv_ssd_16i(one, SIDE * SIDE, SIDE, SIDE, SIDE, two, SIDE * SIDE, SIDE, SIDE, SIDE, at, at, w, h, 10, &square); }
static void sad_16b(void) { answer = tv_sad_16b(one, SIDE * SIDE, SIDE, SIDE, SIDE, 3, 5, two, SIDE * SIDE, SIDE, SIDE, SIDE, at, at, w, h, 10, &value); }
static void sad_16i(void) { answer = tv_sad_16i(one, SIDE * SIDE, SIDE, SIDE, SIDE, 3, 5, w, h, packed, 4096, 10, &value); }
static void sad_bi_16b(void) { answer = tv_sad_bi_16b(bi, 4096, two, SIDE * SIDE, SIDE, SIDE, SIDE, at, at, w, h, 10, &value); }
static void sad_bi_16i(void) { answer = tv_sad_bi_16i(bi, 4096, packed, 4096, w, h, 10, &value); }

static long none, deepest;
static const char *deepest_name;
static size_t deepest_w, deepest_h;
static void tell(const char *name, void (*f)(void), size_t a, size_t b)
{
    w = a;
    h = b;
    refill();
    long n = counted(f) - none;
    if (n > deepest) deepest = n, deepest_name = name, deepest_w = a, deepest_h = b;
    out(name);
    out(" ");
    number((long)a);
    out(" ");
    number((long)b);
    out(answer ? " refused " : " ");
    number(n);
    out("\n");
}
static void squares(const char *name, void (*f)(void), size_t from, size_t to)
{
    for (size_t n = from; n <= to; n++) tell(name, f, n, n);
}
static void sides(const char *name, void (*f)(void), size_t from)
{
    for (size_t n = from; n <= 64; n *= 2) tell(name, f, n, n);
}

__attribute__((force_align_arg_pointer)) void _start(void)
{
    static struct action a = {trapped, 0x04000004, back, 0};
    call(13, 5, (long)&a, 0, 8);
    for (int i = 0; i < 12288; i++) first[i] = (int16_t)random64();
    for (int i = 0; i < 4096; i++) words[i] = (int32_t)random64(), bi[i] = (int16_t)(random64() & 16383), packed[i] = random64() & 1023;
    for (int i = 0; i < SIDE * SIDE; i++) one[i] = random64() & 1023, two[i] = random64() & 1023;
    none = counted(nothing);
    squares("dquant", dquant, 0, 7);
    squares("itxb0", stage_one, 1, 7);
    squares("itxb1", stage_two, 1, 7);
    for (size_t n = 1; n <= 6; n++) {
        tell("itxb0", stage_one, n, 0);
        tell("itxb1", stage_two, n, 0);
        tell("itxb0", stage_one, n, 3);
        tell("itxb1", stage_two, n, 3);
        tell("itxb0", stage_one, n, 5 - (n == 5));
        tell("itxb1", stage_two, n, 5 - (n == 5));
    }
    squares("job", job, 1, 7);
    tell("job", job, 1, 6);
    tell("job", job, 6, 1);
    tell("job", job, 2, 5);
    tell("job", job, 3, 4);
    squares("sub_block", sub_block, 1, 7);
    tell("sub_block_luma", sub_block_luma, 2, 2);
    tell("sub_block_none", sub_block_none, 2, 2);
    tell("sub_block_overlap", sub_block_overlap, 2, 2);
    if (tv_job_reported) {
        squares("job_reported", job_reported, 1, 7);
        tell("job_reported", job_reported, 1, 6);
        tell("job_reported", job_reported, 6, 1);
        tell("job_reported", job_reported, 2, 5);
        tell("job_reported", job_reported, 3, 4);
        tell("job_reported_qp", job_reported_qp, 2, 2);
        tell("job_reported_shift", job_reported_shift, 2, 2);
        tell("job_reported_area", job_reported_area, 2, 2);
    }
    if (tv_sub_block_reported) {
        squares("sub_block_reported", sub_block_reported, 1, 7);
        tell("sub_block_reported_luma", sub_block_reported_luma, 2, 2);
        tell("sub_block_reported_none", sub_block_reported_none, 2, 2);
        tell("sub_block_reported_overlap", sub_block_reported_overlap, 2, 2);
    }
    squares("diff", difference, 0, 7);
    tell("diff", difference, 5, 0);
    tell("diff", difference, 0, 5);
    sides("satd", satd, 2);
    tell("satd", satd, 64, 2);
    tell("satd", satd, 2, 64);
    tell("satd", satd, 6, 64);
    tell("satd", satd, 64, 4);
    tell("satd", satd, 3, 3);
    squares("ssd_16b", ssd_16b, 0, 7);
    sides("sad_16i", sad_16i, 1);
    sides("sad_bi_16i", sad_bi_16i, 1);
    for (int i = 0; i < 2; i++) {
        at = (int16_t)(i ? -3 : 7);
        squares(i ? "ssd_16i_negative" : "ssd_16i", ssd_16i, 0, 6);
        sides(i ? "sad_16b_negative" : "sad_16b", sad_16b, 1);
        sides(i ? "sad_bi_16b_negative" : "sad_bi_16b", sad_bi_16b, 1);
    }
#ifdef STACK
    out("deepest: ");
    out(deepest_name);
    out(" ");
    number((long)deepest_w);
    out(" ");
    number((long)deepest_h);
    out(", ");
    number(deepest);
    out(" bytes\n");
#endif
    call(60, 0, 0, 0, 0);
}
