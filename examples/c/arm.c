/* An arm of three joints, of which one encoder is a sample behind. */
#include <inttypes.h>
#include <stdio.h>

#include "transforms.h"

/* Frames; BASE is the root. */
enum { BASE, SHOULDER, ELBOW, WRIST };

/* The store: a row for each frame that has a parent, and 16 samples a row. */
enum { ROWS = 3, SAMPLES = 16 };
enum {
    HEAD_LEN = TRANSFORMS_HEAD_LEN(ROWS),
    INSTANTS_LEN = TRANSFORMS_INSTANTS_LEN(ROWS, SAMPLES),
    POSES_LEN = TRANSFORMS_POSES_LEN(ROWS, SAMPLES)
};
static uint64_t head[HEAD_LEN];
static uint64_t instants[INSTANTS_LEN];
static double poses[POSES_LEN];

/* The three slices as arguments. */
#define STORE head, HEAD_LEN, instants, INSTANTS_LEN, poses, POSES_LEN

#define MS UINT64_C(1000000)

static const transforms_quaternion NO_TURN = {1, 0, 0, 0};
static const transforms_quaternion QUARTER_TURN = {0.7071067811865476, 0, 0, 0.7071067811865476};
static const transforms_quaternion HALF_TURN = {0, 0, 0, 1};

/* The number and the words of a refusal, and the samples that there are. */
static void print_refusal(transforms_answer a)
{
    printf("refused with %" PRIu32 ": %s", a.number, transforms_refusal_words(a.number));
    if (a.has_range) {
        printf("; frame %" PRIu32 " has samples from %" PRIu64 " to %" PRIu64 " ns", a.frame, a.start, a.end);
    }
    puts("");
}

/* A sample of the child's pose seen from its parent. Answers whether it was refused. */
static int sample(uint32_t child, uint64_t instant, double x, double y, double z, transforms_quaternion rotation)
{
    transforms_isometry pose = {{x, y, z}, rotation};
    transforms_answer added = transforms_add_transform(STORE, child, child - 1, 0, instant, pose);
    if (added.number != TRANSFORMS_DONE) {
        print_refusal(added);
    }
    return added.number != TRANSFORMS_DONE;
}

/* What the encoders gave: the shoulder turns, the elbow slides out, and the wrist has no sample at 20 ms. */
static int encoders(void)
{
    return sample(SHOULDER, 0 * MS, 0, 0, 400, NO_TURN)
        || sample(SHOULDER, 10 * MS, 0, 0, 400, QUARTER_TURN)
        || sample(SHOULDER, 20 * MS, 0, 0, 400, HALF_TURN)
        || sample(ELBOW, 0 * MS, 300, 20, 0, NO_TURN)
        || sample(ELBOW, 20 * MS, 340, 20, 0, NO_TURN)
        || sample(WRIST, 0 * MS, 100, 10, -40, NO_TURN)
        || sample(WRIST, 10 * MS, 120, 10, -50, NO_TURN);
}

/* Prints the wrist's pose seen from the base, or why there is none. */
static void look_up(uint64_t instant)
{
    transforms_answer a = transforms_get_transform(STORE, BASE, WRIST, instant);
    printf("at %" PRIu64 " ms: ", instant / MS);
    if (a.number != TRANSFORMS_DONE) {
        print_refusal(a);
    } else {
        transforms_vector3 t = a.pose.translation;
        transforms_quaternion r = a.pose.rotation;
        printf("translation %.3f %.3f %.3f, rotation %.3f %.3f %.3f %.3f\n", t.x, t.y, t.z, r.w, r.x, r.y, r.z);
    }
}

int main(void)
{
    if (transforms_open(STORE, ROWS, SAMPLES, 0, 0).number != TRANSFORMS_DONE || encoders()) {
        return 1;
    }
    look_up(20 * MS);
    transforms_answer common = transforms_latest_common_time(STORE, BASE, WRIST);
    if (common.number != TRANSFORMS_DONE) {
        print_refusal(common);
        return 1;
    }
    printf("latest common time: %" PRIu64 " ms\n", common.instant / MS);
    look_up(common.instant);
    return 0;
}
