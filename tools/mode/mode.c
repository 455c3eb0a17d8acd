/*
 * The modes of arithmetic: j1850_intervals answers the same in every one of them, and leaves the thread's as it was.
 *
 *   mode            every rounding, with and without flushing to zero; fails at the first difference
 *   mode proved     the proved call without what stands around it, which has to differ in some mode
 */
#include "j1850.h"

#include <stdio.h>
#include <string.h>

j1850_count_answer j1850_intervals_proved(j1850_gate gate, const float *samples, size_t samples_length, uint32_t *words,
                                          size_t words_length);

typedef j1850_count_answer call(j1850_gate, const float *, size_t, uint32_t *, size_t);

enum { SAMPLES = 64, WORDS = SAMPLES + 1, DEFAULT = 0x1F80, FLUSH = 0x8000, ZEROS = 0x0040, ROUNDING = 13 };

static unsigned mode(void) {
    unsigned now;
    __asm__ volatile("stmxcsr %0" : "=m"(now));
    return now;
}

static void set_mode(unsigned next) { __asm__ volatile("ldmxcsr %0" : : "m"(next)); }

/* Gates and samples at which a mode can matter: differences that are rounded, and numbers so small that they are flushed. */
static const j1850_gate gates[] = {
    {0.0f, 6.25f, 1.5f},           {0x1p-30f, 6.25f, 1.5f},       {-0x1p-30f, 6.25f, 1.5f},
    {0x1p-149f, 0x1p-148f, 0.0f},  {0.0f, 0x1p-140f, 0x1p-149f},  {0x1p-126f, 0x1p-149f, -0x1p-149f},
    {0.1f, 0.3f, 0.2f},            {-0x1.fffffep127f, 1.0f, 0.0f}};
static const float points[] = {0.0f,       6.25f,     1.5f,       0x1p-149f,      0x1p-148f, 0x1p-140f,  0x1p-126f,
                               -0x1p-149f, -0x1p-126f, 0x1.8p-126f, 0.1f,          0.3f,      0.4f,       0x1.fffffep126f,
                               7.0f,       3.0f,      0x1.fffffep-127f, 0x1.333334p-2f};

/* The answers to all gates, each with its words. */
struct answers {
    j1850_count_answer count[sizeof gates / sizeof *gates];
    uint32_t words[sizeof gates / sizeof *gates][WORDS];
};

static struct answers all(call *intervals) {
    struct answers a;
    float samples[SAMPLES];
    memset(&a, 0, sizeof a);
    for (size_t i = 0; i < SAMPLES; i++)
        memcpy(&samples[i], &points[i * 7 % (sizeof points / sizeof *points)], sizeof *samples);
    for (size_t g = 0; g < sizeof gates / sizeof *gates; g++) {
        j1850_count_answer answer = intervals(gates[g], samples, SAMPLES, a.words[g], WORDS);
        a.count[g].number = answer.number;
        a.count[g].count = answer.count;
    }
    return a;
}

int main(int argc, char **argv) {
    call *tried = argc > 1 && strcmp(argv[1], "proved") == 0 ? j1850_intervals_proved : j1850_intervals;
    set_mode(DEFAULT);
    struct answers right = all(j1850_intervals);
    int modes = 0;
    for (unsigned rounding = 0; rounding < 4; rounding++)
        for (unsigned flush = 0; flush < 4; flush++) {
            unsigned set = DEFAULT | rounding << ROUNDING | (flush & 1 ? FLUSH : 0) | (flush & 2 ? ZEROS : 0);
            set_mode(set);
            struct answers answers = all(tried);
            unsigned left = mode();
            set_mode(DEFAULT);
            if (memcmp(&answers, &right, sizeof right) != 0) {
                printf("mode: rounding %u, flushing %u gives other intervals\n", rounding, flush);
                return 1;
            }
            if (tried == j1850_intervals && left != set) {
                printf("mode: rounding %u, flushing %u is not left as it was\n", rounding, flush);
                return 1;
            }
            modes++;
        }
    printf("mode: the same intervals in all %d modes of arithmetic, each left as it was\n", modes);
    return 0;
}
