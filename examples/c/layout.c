/*
 * The boundary between C and the library: every offset, size and alignment of the structs, and the functions' types.
 * They are those of `#[repr(C)]` and `extern "C"` in crates/transforms_c/src on x86-64; boundary.c sees that the
 * library does put its answers there. It compiles or it does not: there is nothing to run.
 */
#include <stdalign.h>

#include "transforms.h"

/* A field's offset and size; a type's size and alignment. */
#define FIELD(type, field, offset, size) \
    _Static_assert(offsetof(type, field) == (offset) && sizeof(((type *)0)->field) == (size), #type "." #field)
#define STRUCT(type, size, alignment) \
    _Static_assert(sizeof(type) == (size) && alignof(type) == (alignment), #type)

STRUCT(uint64_t, 8, 8);
STRUCT(double, 8, 8);
STRUCT(size_t, 8, 8);
STRUCT(void *, 8, 8);

STRUCT(transforms_vector3, 24, 8);
FIELD(transforms_vector3, x, 0, 8);
FIELD(transforms_vector3, y, 8, 8);
FIELD(transforms_vector3, z, 16, 8);

STRUCT(transforms_quaternion, 32, 8);
FIELD(transforms_quaternion, w, 0, 8);
FIELD(transforms_quaternion, x, 8, 8);
FIELD(transforms_quaternion, y, 16, 8);
FIELD(transforms_quaternion, z, 24, 8);

STRUCT(transforms_isometry, 56, 8);
FIELD(transforms_isometry, translation, 0, 24);
FIELD(transforms_isometry, rotation, 24, 32);

STRUCT(transforms_answer, 120, 8);
FIELD(transforms_answer, number, 0, 4);
FIELD(transforms_answer, frame, 4, 4);
FIELD(transforms_answer, has_range, 8, 4);
FIELD(transforms_answer, is_static, 12, 4);
FIELD(transforms_answer, is_record, 16, 4);
FIELD(transforms_answer, reserved, 20, 4);
FIELD(transforms_answer, start, 24, 8);
FIELD(transforms_answer, end, 32, 8);
FIELD(transforms_answer, norm, 40, 8);
FIELD(transforms_answer, instant, 48, 8);
FIELD(transforms_answer, index, 56, 8);
FIELD(transforms_answer, pose, 64, 56);

STRUCT(transforms_frame_answer, 12, 4);
FIELD(transforms_frame_answer, number, 0, 4);
FIELD(transforms_frame_answer, is_known, 4, 4);
FIELD(transforms_frame_answer, frame, 8, 4);

STRUCT(transforms_name_answer, 24, 8);
FIELD(transforms_name_answer, number, 0, 4);
FIELD(transforms_name_answer, is_known, 4, 4);
FIELD(transforms_name_answer, start, 8, 8);
FIELD(transforms_name_answer, count, 16, 8);

/* The three slices as types; the functions' types are those of the header. */
#define WRITTEN uint64_t *, size_t, uint64_t *, size_t, double *, size_t
#define READ const uint64_t *, size_t, const uint64_t *, size_t, const double *, size_t
#define TYPE(name, result, ...) _Static_assert(_Generic(&name, result (*)(__VA_ARGS__): 1, default: 0), #name)

TYPE(transforms_head_len, size_t, uint64_t);
TYPE(transforms_instants_len, size_t, uint64_t, uint64_t);
TYPE(transforms_poses_len, size_t, uint64_t, uint64_t);
TYPE(transforms_open, transforms_answer, WRITTEN, uint64_t, uint64_t, uint32_t, uint64_t);
TYPE(transforms_add_transform, transforms_answer, WRITTEN, uint32_t, uint32_t, uint32_t, uint64_t, transforms_isometry);
TYPE(transforms_get_transform, transforms_answer, READ, uint32_t, uint32_t, uint64_t);
TYPE(transforms_latest_common_time, transforms_answer, READ, uint32_t, uint32_t);
TYPE(transforms_remove_before, transforms_answer, WRITTEN, uint32_t, uint64_t);
TYPE(transforms_load_map, transforms_answer, WRITTEN, const uint8_t *, size_t);
TYPE(transforms_map_frame, transforms_frame_answer, const uint8_t *, size_t, const uint8_t *, size_t);
TYPE(transforms_map_name, transforms_name_answer, const uint8_t *, size_t, uint32_t);
TYPE(transforms_mul, transforms_answer, transforms_isometry, transforms_isometry);
TYPE(transforms_inverse, transforms_answer, transforms_isometry);
TYPE(transforms_interpolate, transforms_answer, transforms_isometry, transforms_isometry, uint64_t, uint64_t, uint64_t);
TYPE(transforms_validate, transforms_answer, transforms_isometry);
