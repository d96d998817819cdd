/* map FILE TARGET SOURCE: loads a map and prints the source's pose seen from the target, both by name. */
#include <inttypes.h>
#include <stdio.h>
#include <string.h>

#include "transforms.h"

/* The store: as many rows as there can be, and one sample a row, since a map's frames do not move. */
enum { ROWS = 256, SAMPLES = 1 };
enum {
    HEAD_LEN = TRANSFORMS_HEAD_LEN(ROWS),
    INSTANTS_LEN = TRANSFORMS_INSTANTS_LEN(ROWS, SAMPLES),
    POSES_LEN = TRANSFORMS_POSES_LEN(ROWS, SAMPLES)
};
static uint64_t head[HEAD_LEN];
static uint64_t instants[INSTANTS_LEN];
static double poses[POSES_LEN];

/* The three slices as arguments. */
#define STORE head, HEAD_LEN, instants, INSTANTS_LEN, poses, POSES_LEN

static uint8_t map[1 << 20];

/* How many bytes of the file were read; 0 if it cannot be read. */
static size_t read_map(const char *path)
{
    FILE *file = fopen(path, "rb");
    if (file == NULL) {
        return 0;
    }
    size_t count = fread(map, 1, sizeof map, file);
    fclose(file);
    return count;
}

/* The number of a name, or -1, said on the output, if the map does not give it. */
static int64_t frame_of(size_t count, const char *name)
{
    transforms_frame_answer a = transforms_map_frame(map, count, (const uint8_t *)name, strlen(name));
    if (!a.is_known) {
        printf("the map has no frame %s\n", name);
        return -1;
    }
    return a.frame;
}

/* Prints the name of a number as the bytes of the file. */
static void print_name(size_t count, uint32_t frame)
{
    transforms_name_answer a = transforms_map_name(map, count, frame);
    printf("%.*s", (int)a.count, (const char *)map + a.start);
}

/* The number and the words of a refusal. A record's has the record; 6 has the parent that the child is held under. */
static void print_refusal(transforms_answer a)
{
    if (a.is_record) {
        printf("record %" PRIu64 ": ", a.index);
    }
    printf("refused with %" PRIu32 ": %s", a.number, transforms_refusal_words(a.number));
    if (a.number == TRANSFORMS_REPARENTING_NOT_SUPPORTED) {
        printf("; the child is under frame %" PRIu32, a.frame);
    }
    puts("");
}

/* Answers whether the lookup was refused. */
static int look_up(size_t count, uint32_t target, uint32_t source)
{
    transforms_answer a = transforms_get_transform(STORE, target, source, 0);
    if (a.number != TRANSFORMS_DONE) {
        print_refusal(a);
        return 1;
    }
    transforms_vector3 t = a.pose.translation;
    transforms_quaternion r = a.pose.rotation;
    print_name(count, source);
    printf(" (%" PRIu32 ") seen from ", source);
    print_name(count, target);
    printf(" (%" PRIu32 "): translation %.3f %.3f %.3f, rotation %.3f %.3f %.3f %.3f\n", target,
           t.x, t.y, t.z, r.w, r.x, r.y, r.z);
    return 0;
}

int main(int arguments, char **argument)
{
    if (arguments != 4) {
        puts("usage: map FILE TARGET SOURCE");
        return 1;
    }
    size_t count = read_map(argument[1]);
    transforms_open(STORE, ROWS, SAMPLES, 0, 0);
    transforms_answer loaded = transforms_load_map(STORE, map, count);
    if (loaded.number != TRANSFORMS_DONE) {
        print_refusal(loaded);
        return 1;
    }
    int64_t target = frame_of(count, argument[2]);
    int64_t source = frame_of(count, argument[3]);
    return target < 0 || source < 0 || look_up(count, (uint32_t)target, (uint32_t)source);
}
