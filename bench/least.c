/* The least time of a call over many rounds, through C: of the pose operations, and of lookups in a store of 8 rows of
 * 16 samples. Other work on the machine can only make a round longer, so the least tells small differences that the
 * quartiles of bench/run do not. It takes the header and the library of any version:
 *
 *     gcc -O2 -I TREE/include bench/least.c TREE/crates/transforms_c/out/libtransforms_c.a -lm -o target/least && target/least
 */
#include "transforms.h"
#include <math.h>
#include <stdio.h>
#include <stdlib.h>
#include <time.h>

enum { ROWS = 8, SAMPLES = 16, INPUTS = 256 };

static const uint64_t FIRST = 1000000000, STEP = 10000000;

static uint64_t head[TRANSFORMS_HEAD_LEN(ROWS)], instants[TRANSFORMS_INSTANTS_LEN(ROWS, SAMPLES)];
static double poses[TRANSFORMS_POSES_LEN(ROWS, SAMPLES)];
static transforms_isometry inputs[INPUTS + 1];

#define STORE head, sizeof head / 8, instants, sizeof instants / 8, poses, sizeof poses / 8

static double now(void)
{
    struct timespec t;
    clock_gettime(CLOCK_MONOTONIC, &t);
    return t.tv_sec * 1e9 + t.tv_nsec;
}

static double in_one(void)
{
    return 2.0 * rand() / RAND_MAX - 1.0;
}

static transforms_isometry any_pose(void)
{
    double w = in_one(), x = in_one(), y = in_one(), z = in_one(), n = sqrt(w * w + x * x + y * y + z * z);
    return (transforms_isometry){{in_one(), in_one(), in_one()}, {w / n, x / n, y / n, z / n}};
}

/* The answer is kept in memory, as a caller would keep it. */
#define LEAST(NAME, ROUNDS, CALLS, CALL)                                                                               \
    do {                                                                                                               \
        double least = INFINITY;                                                                                       \
        for (int round = 0; round < ROUNDS; round++) {                                                                 \
            double start = now();                                                                                      \
            for (int k = 0; k < CALLS; k++) {                                                                          \
                const transforms_isometry *a = &inputs[k % INPUTS], *b = a + 1;                                        \
                (void)a, (void)b;                                                                                      \
                __typeof__(CALL) answer = CALL;                                                                        \
                __asm__ volatile("" : : "r"(&answer) : "memory");                                                      \
            }                                                                                                          \
            least = fmin(least, (now() - start) / CALLS);                                                              \
        }                                                                                                              \
        printf("| %s | %.1f |\n", NAME, least);                                                                        \
    } while (0)

#define LOOKUP(NAME, TARGET, SOURCE, INSTANT)                                                                          \
    LEAST("lookup, " NAME, 4000, 100, transforms_get_transform(STORE, TARGET, SOURCE, INSTANT))

int main(void)
{
    for (int k = 0; k <= INPUTS; k++)
        inputs[k] = any_pose();
    /* two chains under frame 0: the odd frames and the even ones */
    transforms_open(STORE, ROWS, SAMPLES, 0, 0);
    for (uint32_t frame = 1; frame <= ROWS; frame++)
        for (int k = 0; k < SAMPLES; k++)
            if (transforms_add_transform(STORE, frame, frame < 3 ? 0 : frame - 2, 0, FIRST + k * STEP, any_pose()).number)
                return 1;

    printf("| call | least, ns |\n|---|---:|\n");
    LEAST("mul", 500, 20000, transforms_mul(*a, *b));
    LEAST("inverse", 500, 5000, transforms_inverse(*a));
    LEAST("interpolate", 500, 2000, transforms_interpolate(*a, *b, FIRST, FIRST + STEP, FIRST + STEP / 3));
    LOOKUP("a frame from itself", 1, 1, FIRST);
    LOOKUP("1 hop, exact sample", 0, 1, FIRST);
    LOOKUP("1 hop, between samples", 0, 1, FIRST + STEP / 2);
    LOOKUP("4 hops, between samples", 0, 7, FIRST + STEP / 2);
    LOOKUP("8 hops, exact samples", 7, 8, FIRST + STEP);
    LOOKUP("8 hops, between samples", 7, 8, FIRST + STEP / 2);
    return 0;
}
