/*
 * The boundary between C and the library: calls of every function. (layout.c has the sizes and the types.)
 *
 * Proved, for every input: what each function of the library answers (the contracts of crates/transforms_c/src).
 * Tested here, because no contract can say it: that a caller's parameters and fields are those of the library, in its
 * order. Each function is called with a distinct value for each parameter, and each field of each answer is looked at.
 * Instants and ages have more than 32 bits, so that a narrowed one shows. What the header says of its macros, of its
 * words and of some answers is tested at the end.
 *
 * Prints nothing and ends with 0; else prints where and what failed, and ends with 1.
 */
#include <math.h>
#include <stdio.h>
#include <stdlib.h>
#include <string.h>

#include "transforms.h"

/* ---- what fails is told */

static void check(int holds, int line, const char *what)
{
    if (!holds) {
        printf("%s:%d: %s\n", __FILE__, line, what);
        exit(1);
    }
}
#define CHECK(expression) check(expression, __LINE__, #expression)

/* Each field of an answer in turn. A field that is not named in CHECK_ANSWER must be 0. */
static void check_pose(transforms_isometry a, transforms_isometry b, double error, int line)
{
    const double found[7] = {a.translation.x, a.translation.y, a.translation.z,
                             a.rotation.w, a.rotation.x, a.rotation.y, a.rotation.z};
    const double wanted[7] = {b.translation.x, b.translation.y, b.translation.z,
                              b.rotation.w, b.rotation.x, b.rotation.y, b.rotation.z};
    static const char *const names[7] = {"translation.x", "translation.y", "translation.z",
                                         "rotation.w", "rotation.x", "rotation.y", "rotation.z"};
    for (int i = 0; i < 7; i++) {
        check(found[i] >= wanted[i] - error && found[i] <= wanted[i] + error, line, names[i]);
    }
}

static void check_answer(transforms_answer a, transforms_answer wanted, double error, int line)
{
    check(a.number == wanted.number, line, "number");
    check(a.frame == wanted.frame, line, "frame");
    check(a.has_range == wanted.has_range, line, "has_range");
    check(a.is_static == wanted.is_static, line, "is_static");
    check(a.is_record == wanted.is_record, line, "is_record");
    check(a.reserved == wanted.reserved, line, "reserved");
    check(a.start == wanted.start, line, "start");
    check(a.end == wanted.end, line, "end");
    check(a.norm == wanted.norm, line, "norm");
    check(a.instant == wanted.instant, line, "instant");
    check(a.index == wanted.index, line, "index");
    check_pose(a.pose, wanted.pose, error, line);
}
#define CHECK_ANSWER(answer, ...) check_answer(answer, (transforms_answer){__VA_ARGS__}, 0, __LINE__)
#define CHECK_DONE(answer) CHECK_ANSWER(answer, .number = 0)

/* Of operations whose last digits are not what is tested. */
#define NEAR 1e-12

/* ---- the store: 3 rows of 5 samples, with more memory behind each slice than is lent */

enum { ROWS = 3, SAMPLES = 5, HEAD_LEN = 17, INSTANTS_LEN = 15, POSES_LEN = 105, MEMORY = 256 };
static uint64_t head[MEMORY];
static uint64_t instants[MEMORY];
static double poses[MEMORY];
#define STORE head, HEAD_LEN, instants, INSTANTS_LEN, poses, POSES_LEN

/* Instants and an age beyond 32 bits. */
#define T(n) ((UINT64_C(1) << 40) + (n))
#define AGE T(7)

/* Frames; ROOT has no parent, ARM moves, TOOL is fixed. Their rows stand by rising number: TOOL's, then ARM's. */
enum { ROOT = 35, ARM = 33, TOOL = 31 };

/* Seven distinct floats, the last four of them a unit. */
static const transforms_isometry POSE = {{1.5, -2.5, 3.5}, {0.1, -0.3, 0.5, 0.806225774829855}};
static const transforms_isometry LATER = {{-4.5, 5.5, 6.5}, {-0.2, 0.4, 0.6, 0.66332495807108}};
static const transforms_isometry FIXED = {{7.25, 8.25, -9.25}, {0.7, -0.1, 0.3, 0.640312423743285}};

/* The head from `at` on. */
#define CHECK_HEAD(at, ...) \
    CHECK(memcmp(head + (at), (const uint64_t[]){__VA_ARGS__}, sizeof((const uint64_t[]){__VA_ARGS__})) == 0)

/* The seven floats of a row's sample. */
#define CHECK_HELD(row, sample, pose) check_held(7 * (SAMPLES * (row) + (sample)), pose, __LINE__)
static void check_held(int at, transforms_isometry pose, int line)
{
    const double *p = poses + at;
    check_pose((transforms_isometry){{p[0], p[1], p[2]}, {p[3], p[4], p[5], p[6]}}, pose, 0, line);
}

/* An open store with ARM at two instants and TOOL. */
static void fill(void)
{
    transforms_open(STORE, ROWS, SAMPLES, 1, AGE);
    transforms_add_transform(STORE, ARM, ROOT, 0, T(13), POSE);
    transforms_add_transform(STORE, ARM, ROOT, 0, T(17), LATER);
    transforms_add_transform(STORE, TOOL, ARM, 2, T(19), FIXED);
}

/* ---- a map of four records, the last of which has another parent for its child */

static uint8_t map[2 * MEMORY];
static size_t map_len;
static uint8_t name[2 * MEMORY];

static void append(const void *bytes, size_t count)
{
    memcpy(map + map_len, bytes, count);
    map_len += count;
}

static void append_name(const char *letters)
{
    uint8_t count = (uint8_t)strlen(letters);
    append(&count, 1);
    append(letters, count);
}

static void append_record(const char *child, const char *parent, transforms_isometry pose)
{
    append_name(child);
    append_name(parent);
    append(&pose, sizeof pose);
}

/* The numbers: "hand" 0, "base" 1, "wrist" 2, "tip" 3. */
static void write_map(uint8_t records)
{
    const uint8_t start[7] = {'F', 'R', 'M', 1, 0, records, 0};
    map_len = 0;
    append(start, sizeof start);
    append_record("hand", "base", POSE);
    append_record("wrist", "base", LATER);
    append_record("tip", "wrist", FIXED);
    if (records == 4) {
        append_record("tip", "base", POSE);
    }
}

/* ---- each function */

static void lengths(void)
{
    CHECK(transforms_head_len(255) == 1025);
    CHECK(transforms_instants_len(2, 1000) == 2000);
    CHECK(transforms_instants_len(1000, 2) == 0);
    CHECK(transforms_poses_len(2, 1000) == 14000);
    CHECK(transforms_poses_len(1000, 2) == 0);
}

static void open(void)
{
    memset(head, 1, sizeof head);
    memset(instants, 1, sizeof instants);
    memset(poses, 1, sizeof poses);
    CHECK_DONE(transforms_open(STORE, ROWS, SAMPLES, 2, AGE));
    CHECK_HEAD(0, ROWS, SAMPLES, 0, 1, AGE);
    for (int i = 5; i < HEAD_LEN; i++) {
        CHECK(head[i] == 0);
    }
    for (int i = 0; i < INSTANTS_LEN; i++) {
        CHECK(instants[i] == 0);
    }
    for (int i = 0; i < POSES_LEN; i++) {
        CHECK(poses[i] == 0);
    }
    CHECK(head[HEAD_LEN] != 0 && instants[INSTANTS_LEN] != 0 && poses[POSES_LEN] != 0);
    CHECK_DONE(transforms_open(STORE, ROWS, SAMPLES, 0, AGE));
    CHECK_HEAD(0, ROWS, SAMPLES, 0, 0, 0);
    CHECK_ANSWER(transforms_open(STORE, SAMPLES, ROWS, 2, AGE), .number = TRANSFORMS_SIZES);
    CHECK_ANSWER(transforms_open(NULL, 0, NULL, 0, NULL, 0, ROWS, SAMPLES, 2, AGE), .number = TRANSFORMS_SIZES);
}

static void add_transform(void)
{
    transforms_open(STORE, ROWS, SAMPLES, 1, AGE);
    CHECK_DONE(transforms_add_transform(STORE, ARM, ROOT, 0, T(13), POSE));
    CHECK_HEAD(0, ROWS, SAMPLES, 1, 1, AGE, ARM, ROOT, 1, 1, 0);
    CHECK(instants[0] == T(13) && instants[1] == 0);
    CHECK_HELD(0, 0, POSE);
    CHECK_DONE(transforms_add_transform(STORE, ARM, ROOT, 0, T(17), LATER));
    CHECK_DONE(transforms_add_transform(STORE, TOOL, ARM, 2, T(19), FIXED));
    CHECK_HEAD(0, ROWS, SAMPLES, 2, 1, AGE, TOOL, ARM, 0, 1, ARM, ROOT, 1, 2, 0);
    CHECK(instants[0] == 0 && instants[5] == T(13) && instants[6] == T(17) && instants[7] == 0);
    CHECK_HELD(0, 0, FIXED);
    CHECK_HELD(1, 0, POSE);
    CHECK_HELD(1, 1, LATER);

    transforms_isometry bad = POSE;
    bad.rotation = (transforms_quaternion){0, 0, 3, 4};
    CHECK_ANSWER(transforms_add_transform(STORE, 91, 92, 0, T(13), bad),
                 .number = TRANSFORMS_NON_UNIT_ROTATION, .norm = 5);
    CHECK_ANSWER(transforms_add_transform(STORE, ARM, 92, 0, T(13), POSE),
                 .number = TRANSFORMS_REPARENTING_NOT_SUPPORTED, .frame = ROOT);
    CHECK_ANSWER(transforms_add_transform(STORE, ROOT, TOOL, 0, T(13), POSE), .number = TRANSFORMS_CYCLE_DETECTED);
    CHECK_ANSWER(transforms_add_transform(STORE, ARM, ROOT, 2, T(13), POSE),
                 .number = TRANSFORMS_STATIC_DYNAMIC_CONFLICT);
}

static void get_transform(void)
{
    fill();
    CHECK_ANSWER(transforms_get_transform(STORE, ROOT, ARM, T(13)), .pose = POSE);
    CHECK_ANSWER(transforms_get_transform(STORE, ROOT, ARM, T(17)), .pose = LATER);
    CHECK_ANSWER(transforms_get_transform(STORE, ARM, TOOL, T(99)), .pose = FIXED);
    CHECK_ANSWER(transforms_get_transform(STORE, ROOT, TOOL, T(13)), .pose = transforms_mul(POSE, FIXED).pose);
    CHECK_ANSWER(transforms_get_transform(STORE, ARM, ROOT, T(13)), .pose = transforms_inverse(POSE).pose);
    CHECK_ANSWER(transforms_get_transform(STORE, ROOT, TOOL, T(19)), .number = TRANSFORMS_NOT_FOUND_AT, .frame = ARM,
                 .has_range = 1, .start = T(13), .end = T(17));
    CHECK_ANSWER(transforms_get_transform(STORE, 91, 92, T(13)), .number = TRANSFORMS_UNKNOWN_FRAME, .frame = 91);
}

static void latest_common_time(void)
{
    fill();
    CHECK_ANSWER(transforms_latest_common_time(STORE, ROOT, TOOL), .instant = T(17));
    CHECK_ANSWER(transforms_latest_common_time(STORE, TOOL, ARM), .is_static = 1);
    CHECK_ANSWER(transforms_latest_common_time(STORE, 91, 92), .number = TRANSFORMS_UNKNOWN_FRAME, .frame = 91);
    CHECK_DONE(transforms_add_transform(STORE, 37, TOOL, 0, T(21), POSE));
    CHECK_DONE(transforms_add_transform(STORE, 37, TOOL, 0, T(23), POSE));
    CHECK_ANSWER(transforms_latest_common_time(STORE, ROOT, 37), .number = TRANSFORMS_NO_COMMON_TIME, .frame = 37,
                 .has_range = 1, .start = T(21), .end = T(23));
    CHECK_DONE(transforms_remove_before(STORE, 37, T(24)));
    CHECK_ANSWER(transforms_latest_common_time(STORE, ROOT, 37), .number = TRANSFORMS_NO_COMMON_TIME, .frame = 37);
}

static void remove_before(void)
{
    fill();
    CHECK_DONE(transforms_remove_before(STORE, ARM, T(15)));
    CHECK_HEAD(5, TOOL, ARM, 0, 1, ARM, ROOT, 1, 1);
    CHECK(instants[5] == T(17) && instants[6] == 0);
    CHECK_HELD(1, 0, LATER);
    CHECK_ANSWER(transforms_remove_before(STORE, ROOT, T(15)), .number = TRANSFORMS_UNKNOWN_FRAME, .frame = ROOT);
}

static void load_map(void)
{
    write_map(3);
    transforms_open(STORE, ROWS, SAMPLES, 1, AGE);
    CHECK_DONE(transforms_load_map(STORE, map, map_len));
    CHECK_HEAD(0, ROWS, SAMPLES, 3, 1, AGE, 0, 1, 0, 1, 2, 1, 0, 1, 3, 2, 0, 1);
    CHECK_HELD(0, 0, POSE);
    CHECK_HELD(1, 0, LATER);
    CHECK_HELD(2, 0, FIXED);
    CHECK_ANSWER(transforms_load_map(STORE, map, map_len), .number = TRANSFORMS_STORE_IN_USE);

    write_map(4);
    transforms_open(STORE, ROWS, SAMPLES, 1, AGE);
    CHECK_ANSWER(transforms_load_map(STORE, map, map_len), .number = TRANSFORMS_REPARENTING_NOT_SUPPORTED, .frame = 2,
                 .is_record = 1, .index = 3);
    CHECK_ANSWER(transforms_load_map(STORE, map, map_len - 1), .number = TRANSFORMS_MAP_FORM);
}

static void map_frame(void)
{
    write_map(3);
    memcpy(name, "tipsy", 5);
    transforms_frame_answer a = transforms_map_frame(map, map_len, name, 3);
    CHECK(a.number == 0 && a.is_known == 1 && a.frame == 3);
    a = transforms_map_frame(map, map_len, name, 5);
    CHECK(a.number == 0 && a.is_known == 0 && a.frame == 0);
    a = transforms_map_frame(map, map_len - 1, name, 3);
    CHECK(a.number == TRANSFORMS_MAP_FORM && a.is_known == 0 && a.frame == 0);
    CHECK(transforms_map_frame(NULL, 0, NULL, 0).number == TRANSFORMS_MAP_FORM);
}

static void map_name(void)
{
    write_map(3);
    transforms_name_answer a = transforms_map_name(map, map_len, 2);
    CHECK(a.number == 0 && a.is_known == 1 && a.start == 7 + 5 + 5 + 56 + 1 && a.count == 5);
    CHECK(memcmp(map + a.start, "wrist", 5) == 0);
    a = transforms_map_name(map, map_len, 4);
    CHECK(a.number == 0 && a.is_known == 0 && a.start == 0 && a.count == 0);
    a = transforms_map_name(map, map_len - 1, 2);
    CHECK(a.number == TRANSFORMS_MAP_FORM && a.is_known == 0 && a.start == 0 && a.count == 0);
}

/* The product of two rotations, in the test's own words, and the vector turned by a rotation. */
static transforms_quaternion product(transforms_quaternion a, transforms_quaternion b)
{
    return (transforms_quaternion){
        a.w * b.w - a.x * b.x - a.y * b.y - a.z * b.z, a.w * b.x + a.x * b.w + a.y * b.z - a.z * b.y,
        a.w * b.y - a.x * b.z + a.y * b.w + a.z * b.x, a.w * b.z + a.x * b.y - a.y * b.x + a.z * b.w};
}

static transforms_quaternion conjugate(transforms_quaternion q)
{
    return (transforms_quaternion){q.w, -q.x, -q.y, -q.z};
}

static transforms_vector3 turned(transforms_quaternion q, transforms_vector3 v)
{
    transforms_quaternion r = product(product(q, (transforms_quaternion){0, v.x, v.y, v.z}), conjugate(q));
    return (transforms_vector3){r.x, r.y, r.z};
}

static void mul(void)
{
    transforms_vector3 t = turned(POSE.rotation, LATER.translation);
    t.x += POSE.translation.x;
    t.y += POSE.translation.y;
    t.z += POSE.translation.z;
    transforms_answer wanted = {.pose = {t, product(POSE.rotation, LATER.rotation)}};
    check_answer(transforms_mul(POSE, LATER), wanted, NEAR, __LINE__);
}

static void inverse(void)
{
    transforms_quaternion back = conjugate(POSE.rotation);
    transforms_vector3 t = turned(back, POSE.translation);
    transforms_answer wanted = {.pose = {{-t.x, -t.y, -t.z}, back}};
    check_answer(transforms_inverse(POSE), wanted, NEAR, __LINE__);

    transforms_isometry none = {POSE.translation, {0, 0, 0, 0}};
    CHECK_ANSWER(transforms_inverse(none), .number = TRANSFORMS_ZERO_LENGTH_NORMALIZATION);
}

/* Half a turn's angle of 0.3 about an axis becomes one of 0.7; after a quarter of the time it is 0.4. */
static void interpolate(void)
{
    const transforms_vector3 axis = {0.48, 0.6, 0.64};
    const double sine[3] = {0.2955202066613396, 0.644217687237691, 0.3894183423086505};
    const double cosine[3] = {0.955336489125606, 0.7648421872844885, 0.9210609940028851};
    transforms_isometry p[3];
    for (int i = 0; i < 3; i++) {
        p[i].rotation = (transforms_quaternion){cosine[i], sine[i] * axis.x, sine[i] * axis.y, sine[i] * axis.z};
    }
    p[0].translation = (transforms_vector3){1, 20, 300};
    p[1].translation = (transforms_vector3){5, 60, 700};
    p[2].translation = (transforms_vector3){2, 30, 400};
    transforms_answer wanted = {.pose = p[2]};
    check_answer(transforms_interpolate(p[0], p[1], T(100), T(500), T(200)), wanted, NEAR, __LINE__);
    CHECK_ANSWER(transforms_interpolate(p[0], p[1], T(500), T(100), T(200)), .number = TRANSFORMS_DURATION_UNDERFLOW);
}

static void validate(void)
{
    CHECK_ANSWER(transforms_validate(POSE), .pose = POSE);
    transforms_isometry twice = {POSE.translation, {0, 0, 3, 4}};
    CHECK_ANSWER(transforms_validate(twice), .number = TRANSFORMS_NON_UNIT_ROTATION, .norm = 5);
}

/* ---- what the header says beside */

static void macros(void)
{
    static const uint64_t sizes[][2] = {{1, 1}, {256, 1}, {1, 1024}, {3, 16}, {256, 1024}};
    for (size_t i = 0; i < sizeof sizes / sizeof *sizes; i++) {
        const uint64_t rows = sizes[i][0], samples = sizes[i][1];
        CHECK(TRANSFORMS_HEAD_LEN(rows) == transforms_head_len(rows));
        CHECK(TRANSFORMS_INSTANTS_LEN(rows, samples) == transforms_instants_len(rows, samples));
        CHECK(TRANSFORMS_POSES_LEN(rows, samples) == transforms_poses_len(rows, samples));
    }
    _Static_assert(TRANSFORMS_HEAD_LEN(1 + 1) == 13, "the arguments of a macro may be sums");
    _Static_assert(TRANSFORMS_INSTANTS_LEN(1 + 1, 1 + 2) == 6, "the arguments of a macro may be sums");
    _Static_assert(TRANSFORMS_POSES_LEN(1 + 1, 1 + 2) == 42, "the arguments of a macro may be sums");
}

/* Each number has words of its own; 20 and beyond are unknown. */
static void words(void)
{
    for (uint32_t i = 0; i <= 20; i++) {
        CHECK(transforms_refusal_words(i)[0] != 0);
        for (uint32_t j = 0; j < i; j++) {
            CHECK(strcmp(transforms_refusal_words(i), transforms_refusal_words(j)) != 0);
        }
    }
    CHECK(strcmp(transforms_refusal_words(TRANSFORMS_DONE), "done") == 0);
    CHECK(strcmp(transforms_refusal_words(TRANSFORMS_STORE_IN_USE), "the store already holds a frame") == 0);
    CHECK(strcmp(transforms_refusal_words(UINT32_MAX), transforms_refusal_words(20)) == 0);
}

/* A pose at a held instant replaces it; a sample that is already too old is accepted and not held. */
static void replaced_and_too_old(void)
{
    transforms_open(STORE, ROWS, SAMPLES, 1, 5);
    CHECK_DONE(transforms_add_transform(STORE, ARM, ROOT, 0, T(10), POSE));
    CHECK_DONE(transforms_add_transform(STORE, ARM, ROOT, 0, T(10), LATER));
    CHECK_DONE(transforms_add_transform(STORE, ARM, ROOT, 0, T(4), POSE));
    CHECK(head[8] == 1 && instants[0] == T(10) && instants[1] == 0);
    CHECK_HELD(0, 0, LATER);
}

/* One frame twice is answered where it is known, a root, too; an unknown one is refused with 9, after 1 and 2. */
static void one_frame_twice(void)
{
    static const uint32_t known[] = {ROOT, ARM, TOOL};
    const transforms_isometry identity = {{0, 0, 0}, {1, 0, 0, 0}};
    fill();
    for (size_t i = 0; i < sizeof known / sizeof *known; i++) {
        CHECK_ANSWER(transforms_get_transform(STORE, known[i], known[i], T(99)), .pose = identity);
        CHECK_ANSWER(transforms_latest_common_time(STORE, known[i], known[i]), .is_static = 1);
    }
    CHECK_ANSWER(transforms_get_transform(STORE, 91, 91, T(13)), .number = TRANSFORMS_UNKNOWN_FRAME, .frame = 91);
    CHECK_ANSWER(transforms_latest_common_time(STORE, 91, 91), .number = TRANSFORMS_UNKNOWN_FRAME, .frame = 91);
    head[2] = ROWS + 1;
    CHECK_ANSWER(transforms_get_transform(STORE, 91, 91, T(13)), .number = TRANSFORMS_UNSOUND_STORE);
    CHECK_ANSWER(transforms_latest_common_time(STORE, 91, 91), .number = TRANSFORMS_UNSOUND_STORE);
    head[1] = SAMPLES + 1;
    CHECK_ANSWER(transforms_get_transform(STORE, 91, 91, T(13)), .number = TRANSFORMS_SIZES);
    CHECK_ANSWER(transforms_latest_common_time(STORE, 91, 91), .number = TRANSFORMS_SIZES);
}

/* ---- no pose that is not finite comes out: 3, after every other refusal, and all other fields 0 */

/* Twice as far is infinite. */
static const transforms_isometry FAR = {{-1e308, 0, 0}, {1, 0, 0, 0}};
#define CHECK_NOT_FINITE(answer) CHECK_ANSWER(answer, .number = TRANSFORMS_NON_FINITE_VALUES)

static transforms_isometry with(transforms_isometry pose, int component, double value)
{
    double *const components[7] = {&pose.translation.x, &pose.translation.y, &pose.translation.z,
                                   &pose.rotation.w, &pose.rotation.x, &pose.rotation.y, &pose.rotation.z};
    *components[component] = value;
    return pose;
}

/* Products that overflow, and operands of which one component is not finite; 15 goes first. */
static void not_finite(void)
{
    static const double bad[3] = {INFINITY, -INFINITY, NAN};
    const transforms_isometry long_rotation = {{0, 0, 0}, {1e200, 0, 0, 0}};
    CHECK_NOT_FINITE(transforms_mul(FAR, FAR));
    CHECK_NOT_FINITE(transforms_mul(long_rotation, long_rotation));
    for (int i = 0; i < 7; i++) {
        for (int k = 0; k < 3; k++) {
            const transforms_isometry broken = with(POSE, i, bad[k]);
            CHECK_NOT_FINITE(transforms_mul(broken, LATER));
            CHECK_NOT_FINITE(transforms_mul(LATER, broken));
            CHECK_NOT_FINITE(transforms_interpolate(broken, LATER, T(100), T(500), T(200)));
            CHECK_NOT_FINITE(transforms_interpolate(LATER, broken, T(100), T(500), T(200)));
            /* at one instant the first pose would be handed back, and the second does not matter */
            CHECK_NOT_FINITE(transforms_interpolate(broken, LATER, T(100), T(100), T(200)));
            CHECK_ANSWER(transforms_interpolate(LATER, broken, T(100), T(100), T(200)), .pose = LATER);
            CHECK_ANSWER(transforms_interpolate(broken, LATER, T(500), T(100), T(200)),
                         .number = TRANSFORMS_DURATION_UNDERFLOW);
            CHECK_ANSWER(transforms_interpolate(broken, LATER, T(300), T(500), T(200)),
                         .number = TRANSFORMS_DURATION_UNDERFLOW);
        }
    }
}

/* Hops whose product overflows, looked up from above, from below and across; 11 and 10 go first. */
static void lookup_not_finite(void)
{
    const transforms_isometry opposite = {{1e308, 0, 0}, {1, 0, 0, 0}};
    transforms_open(STORE, ROWS, SAMPLES, 0, 0);
    CHECK_DONE(transforms_add_transform(STORE, 41, 42, 1, 0, FAR));
    CHECK_DONE(transforms_add_transform(STORE, 42, 43, 1, 0, FAR));
    CHECK_DONE(transforms_add_transform(STORE, 43, 44, 0, T(13), POSE));
    CHECK_ANSWER(transforms_get_transform(STORE, 42, 41, T(13)), .pose = FAR);
    CHECK_NOT_FINITE(transforms_get_transform(STORE, 43, 41, T(13)));
    CHECK_NOT_FINITE(transforms_get_transform(STORE, 41, 43, T(13)));
    CHECK_NOT_FINITE(transforms_get_transform(STORE, 44, 41, T(13)));
    CHECK_ANSWER(transforms_get_transform(STORE, 44, 41, T(17)), .number = TRANSFORMS_NOT_FOUND_AT, .frame = 43,
                 .has_range = 1, .start = T(13), .end = T(13));

    transforms_open(STORE, ROWS, SAMPLES, 0, 0);
    CHECK_DONE(transforms_add_transform(STORE, 41, 42, 1, 0, FAR));
    CHECK_DONE(transforms_add_transform(STORE, 42, 43, 1, 0, FAR));
    CHECK_DONE(transforms_add_transform(STORE, 45, 46, 1, 0, POSE));
    CHECK_ANSWER(transforms_get_transform(STORE, 46, 41, T(13)), .number = TRANSFORMS_DISCONNECTED);

    transforms_open(STORE, ROWS, SAMPLES, 0, 0);
    CHECK_DONE(transforms_add_transform(STORE, 41, 43, 1, 0, FAR));
    CHECK_DONE(transforms_add_transform(STORE, 42, 43, 1, 0, opposite));
    CHECK_NOT_FINITE(transforms_get_transform(STORE, 42, 41, T(13)));
}

int main(void)
{
    lengths();
    open();
    add_transform();
    get_transform();
    latest_common_time();
    remove_before();
    load_map();
    map_frame();
    map_name();
    mul();
    inverse();
    interpolate();
    validate();
    macros();
    words();
    replaced_and_too_old();
    one_frame_twice();
    not_finite();
    lookup_not_finite();
    return 0;
}
