/*
 * Tinhvok: a tree of frames with timed poses, over memory that the caller lends.
 *
 * Every function of the library is proved, for every input, to answer as its definition says (crates/transforms_c/specs
 * over crates/registry/specs and crates/geometry/specs). Each call ends. A call that refuses leaves all lent
 * memory as it was. Nothing is kept between calls: no heap, no global state, no locks. Two threads may
 * read one store at once; a call that writes needs the store to itself.
 *
 * No contract can say that this header has the fields and the parameters in the library's order. That part is tested
 * and not proved: examples/c/layout.c asserts every offset, size and alignment, and examples/c/boundary.c calls every
 * function with a distinct value for each parameter and looks at each field of the answer. The macros and the inline
 * function of this file are tested there, too.
 *
 * Link with libtransforms_c.a; no other library and no flag is needed (x86-64, System V calls). The library wants no
 * symbol from outside other than memset and memmove, as `nm -u libtransforms_c.a` shows (memset alone, as it is built
 * today); a program without a C library has to bring these two.
 *
 * Units and order
 *   instants, ages   nanoseconds, 64 bits unsigned, from any origin that the caller keeps to
 *   translations     any unit, the same for all poses: x, y, z
 *   rotations        unit quaternions: w, x, y, z
 *   frames           numbers of 32 bits
 *
 * A store is three arrays of the caller's. With E rows (a row for each frame that has a parent) and S
 * samples a row, E from 1 to 256 and S from 1 to 1,024, they have
 *   head       5 + 4*E       words of 64 bits
 *   instants   E*S           words of 64 bits
 *   poses      7*E*S         doubles
 * exactly, and transforms_head_len, transforms_instants_len and transforms_poses_len give these lengths; so do the
 * macros TRANSFORMS_HEAD_LEN, TRANSFORMS_INSTANTS_LEN and TRANSFORMS_POSES_LEN, as constants. The three arrays are
 * aligned to 8 bytes, as arrays of uint64_t and double are, and so are the structs, other than transforms_frame_answer,
 * whose fields have 4. The bytes of maps and names may stand anywhere.
 * The words may be copied, saved and restored as bytes; they hold no pointer. Do not write into them:
 * a store that breaks a rule of its layout is refused with 2 and never read beyond its ends.
 *
 * A map file lists frames, their parents and their mountings. All numbers are little-endian.
 *   bytes                    what
 *   0 to 2                   70, 82, 77 ("FRM")
 *   3, 4                     the version, 1
 *   5, 6                     the count of records, 0 to 65,535
 *   then, for each record:
 *   1                        the length of the child's name, 1 to 32
 *   as many                  the child's name, bytes of any value
 *   1                        the length of the parent's name, 1 to 32
 *   as many                  the parent's name
 *   7 * 8                    seven doubles: translation x, y, z, rotation w, x, y, z
 * and nothing behind the last record. The names get the numbers of frames: from 0 by first appearance in the
 * file, a record's child before its parent. A file is only read.
 *
 * What a call costs
 * Each call on a store, other than transforms_open, begins with the pass: every lent word is read, 64 bytes for each of
 * the E*S samples that there is room for, and the store is tested for 2. So a call costs the pass, which goes with E*S,
 * and then what stands at its function, where n is the number of rows used. The pass takes 0.34 us over a full store of
 * 8 rows of 16 samples, 9.4 us at 64*64, 0.94 ms at 256*1,024, with warm caches. The figures are those of
 * docs/PERFORMANCE.md, on an Intel(R) Xeon(R) Processor; those of maps on an AMD EPYC.
 *
 * What the caller must not do
 *   - lend slices that overlap each other, in one call, or that are not aligned as said above
 *   - pass a null pointer with a length above 0, or a length beyond the memory that is there
 *   - let another thread write a store while a call reads or writes it
 * All else is answered or refused.
 */
#ifndef TRANSFORMS_H
#define TRANSFORMS_H

#include <stddef.h>
#include <stdint.h>

#ifdef __cplusplus
extern "C" {
#endif

typedef struct {
    double x, y, z;
} transforms_vector3;

typedef struct {
    double w, x, y, z;
} transforms_quaternion;

/* A pose: where a frame lies, seen from another. */
typedef struct {
    transforms_vector3 translation;
    transforms_quaternion rotation;
} transforms_isometry;

/* The numbers of the refusals. */
enum {
    TRANSFORMS_DONE = 0,                        /* answered */
    TRANSFORMS_SIZES = 1,                       /* E, S or a slice's length is wrong */
    TRANSFORMS_UNSOUND_STORE = 2,               /* the lent words break a rule of the store */
    TRANSFORMS_NON_FINITE_VALUES = 3,           /* a component of an added pose, or of the pose that comes out */
    TRANSFORMS_NON_UNIT_ROTATION = 4,           /* the rotation's norm differs from 1 by more than 1e-6: `norm` */
    TRANSFORMS_SELF_REFERENTIAL_FRAME = 5,      /* parent equals child */
    TRANSFORMS_REPARENTING_NOT_SUPPORTED = 6,   /* the child is held under another parent: `frame` */
    TRANSFORMS_CYCLE_DETECTED = 7,              /* the new child is already above its parent */
    TRANSFORMS_STATIC_DYNAMIC_CONFLICT = 8,     /* static for a moving child, or the reverse */
    TRANSFORMS_UNKNOWN_FRAME = 9,               /* neither child nor parent (remove_before: not a child): `frame` */
    TRANSFORMS_DISCONNECTED = 10,               /* both frames are known, but no path joins them */
    TRANSFORMS_NOT_FOUND_AT = 11,               /* a hop has no pose at the instant: its child `frame`, its range */
    TRANSFORMS_NO_COMMON_TIME = 12,             /* no instant is served by every hop: the `frame` to blame, its range */
    TRANSFORMS_NON_FINITE = 13,                 /* inverse */
    TRANSFORMS_ZERO_LENGTH_NORMALIZATION = 14,  /* inverse, norm below 2^-52 */
    TRANSFORMS_DURATION_UNDERFLOW = 15,         /* interpolation: end, else query, before start */
    TRANSFORMS_TREE_FULL = 16,                  /* a new child, and all E rows are used */
    TRANSFORMS_ROW_FULL = 17,                   /* more than S samples would remain after expiry */
    TRANSFORMS_MAP_FORM = 18,                   /* a map's mark, version or length byte, a short file, bytes left over */
    TRANSFORMS_STORE_IN_USE = 19                /* a map is loaded into a store that holds a frame */
};

/* The words of a number. (`inline` alone in C++, so that inline functions of several files may call it.) */
#ifndef __cplusplus
static
#endif
inline const char *transforms_refusal_words(uint32_t number)
{
    switch (number) {
    case TRANSFORMS_DONE: return "done";
    case TRANSFORMS_SIZES: return "the sizes or the lengths of the slices are wrong";
    case TRANSFORMS_UNSOUND_STORE: return "the store is unsound: its words break a rule";
    case TRANSFORMS_NON_FINITE_VALUES: return "a component is not finite";
    case TRANSFORMS_NON_UNIT_ROTATION: return "the rotation is not a unit";
    case TRANSFORMS_SELF_REFERENTIAL_FRAME: return "a frame cannot be its own parent";
    case TRANSFORMS_REPARENTING_NOT_SUPPORTED: return "the child is held under another parent";
    case TRANSFORMS_CYCLE_DETECTED: return "the child is already above its parent: a circle";
    case TRANSFORMS_STATIC_DYNAMIC_CONFLICT: return "static and moving samples do not mix in one frame";
    case TRANSFORMS_UNKNOWN_FRAME: return "the frame is unknown";
    case TRANSFORMS_DISCONNECTED: return "no path connects the frames";
    case TRANSFORMS_NOT_FOUND_AT: return "a frame on the way is not served at this instant";
    case TRANSFORMS_NO_COMMON_TIME: return "the frames have no common time";
    case TRANSFORMS_NON_FINITE: return "the norm of the rotation is not finite";
    case TRANSFORMS_ZERO_LENGTH_NORMALIZATION: return "the rotation is zero";
    case TRANSFORMS_DURATION_UNDERFLOW: return "time runs backwards";
    case TRANSFORMS_TREE_FULL: return "the tree is full";
    case TRANSFORMS_ROW_FULL: return "the row is full";
    case TRANSFORMS_MAP_FORM: return "this is no map file, or it is damaged";
    case TRANSFORMS_STORE_IN_USE: return "the store already holds a frame";
    default: return "a refusal of a newer library";
    }
}

/* An answer, by value. A field that the call's answer or refusal does not carry is 0. */
typedef struct {
    uint32_t number;          /* 0, or the number of the refusal */
    uint32_t frame;           /* with 6, 9, 11 and 12 */
    uint32_t has_range;       /* with 11 and 12: 1 if the frame named holds a sample */
    uint32_t is_static;       /* latest_common_time: 1 if every hop is static, so any instant will do */
    uint32_t is_record;       /* load_map: 1 if a record is refused, and `number` is why */
    uint32_t reserved;        /* 0 */
    uint64_t start;           /* with has_range: its first instant */
    uint64_t end;             /* with has_range: its last instant */
    double norm;              /* with 4 */
    uint64_t instant;         /* latest_common_time: the instant, unless is_static */
    uint64_t index;           /* with is_record: the record's number, counted from 0 */
    transforms_isometry pose; /* get_transform, mul, inverse, interpolate, validate */
} transforms_answer;

/* What the book of a map's names answers for a name. */
typedef struct {
    uint32_t number;          /* 0, or 18 */
    uint32_t is_known;        /* 1 if the file gives the name */
    uint32_t frame;           /* with is_known: the name's number */
} transforms_frame_answer;

/* What it answers for a number. */
typedef struct {
    uint32_t number;          /* 0, or 18 */
    uint32_t is_known;        /* 1 if the file gives the number */
    size_t start;             /* with is_known: where in the file the name's first byte is */
    size_t count;             /* with is_known: how many bytes it has */
} transforms_name_answer;

/* The three lengths for E rows of S samples as constants, for arrays; E and S must be within bounds. */
#define TRANSFORMS_HEAD_LEN(rows) (5 + 4 * (size_t)(rows))
#define TRANSFORMS_INSTANTS_LEN(rows, samples) ((size_t)(rows) * (size_t)(samples))
#define TRANSFORMS_POSES_LEN(rows, samples) (7 * (size_t)(rows) * (size_t)(samples))

/* The three lengths for E rows of S samples; 0 where E or S is out of bounds. Each costs the same for all sizes. */
size_t transforms_head_len(uint64_t rows);
size_t transforms_instants_len(uint64_t rows, uint64_t samples);
size_t transforms_poses_len(uint64_t rows, uint64_t samples);

/* Overwrites the three slices with an empty store of these sizes. With has_max_age not 0, a moving frame
 * keeps only samples that are at most max_age older than its newest. Refuses: 1.
 * Cost: no pass; every word is written, so it goes with E*S. */
transforms_answer transforms_open(
    uint64_t *head, size_t head_len, uint64_t *instants, size_t instants_len, double *poses, size_t poses_len,
    uint64_t rows, uint64_t samples, uint32_t has_max_age, uint64_t max_age);

/* Adds the child's pose seen from its parent: for ever where is_static is not 0 (a second addition
 * replaces it), else at the instant, in any order of instants. A pose at an instant that is held replaces the one held.
 * A late sample that is already older than max_age allows is accepted, with 0, and not held. Refuses: 1, 2, 7, 3, 4, 5,
 * 6, 8, 16, 17, the first that is due.
 * Cost: the pass; the child's row is found in log n steps, or at once where the children's numbers are consecutive, and
 * the place in it in log S; the samples behind that place are moved, and where samples expire all that stay, at most S.
 * A new child's row moves the rows of greater children, at most E*S samples, and the frames above its parent are
 * climbed. Beyond the pass, at 256*1,024: 53 ns in order, 0.5 us late, 1.5 us where one expires, 0.8 ms for a new child
 * before all others; at 8*16: 23, 32, 42 and 159 ns. */
transforms_answer transforms_add_transform(
    uint64_t *head, size_t head_len, uint64_t *instants, size_t instants_len, double *poses, size_t poses_len,
    uint32_t child, uint32_t parent, uint32_t is_static, uint64_t instant, transforms_isometry pose);

/* The source's pose seen from the target at the instant; between two samples it is interpolated. A frame seen from
 * itself is the identity, at any instant, if it is known; an unknown one is refused with 9 there, too.
 * Refuses: 1, 2, 9 (the target first), 11, 10, 13, 14 and, last, 3, where a component of the pose that comes out is not
 * finite. Where a pose is answered, every pose on the way to it was finite, too.
 * Cost: the pass; then the hops up from both frames, at most to their roots, each found in log n steps or at once, and
 * in a moving hop's row log S; for a frame that is no child, all n rows at most. Beyond the pass, at 256*1,024 with 8
 * to 255 hops: 26 to 33 ns a static hop, 35 to 57 ns one that has a sample at the instant, 219 to 280 ns one that is
 * interpolated. */
transforms_answer transforms_get_transform(
    const uint64_t *head, size_t head_len, const uint64_t *instants, size_t instants_len,
    const double *poses, size_t poses_len, uint32_t target, uint32_t source, uint64_t instant);

/* The latest instant at which every moving hop between the two frames has a pose. Where no hop moves, and for a known
 * frame and itself, the answer is is_static. Refuses: 1, 2, 9 (the target first), 10, 12.
 * Cost: the pass; then as get_transform, without samples and poses. Beyond the pass, at 256*1,024: 24 ns for 1 hop,
 * 2.2 us for 255. */
transforms_answer transforms_latest_common_time(
    const uint64_t *head, size_t head_len, const uint64_t *instants, size_t instants_len,
    const double *poses, size_t poses_len, uint32_t target, uint32_t source);

/* Drops a moving child's samples before the instant, be it all of them; a static child's pose stays. Refuses: 1, 2, 9.
 * Cost: the pass; the child's row is found as in add_transform, the place in it in log S, and what stays is moved, at
 * most S samples. Beyond the pass, for a quarter of a full row: 1.1 us at 256*1,024, 23 ns at 8*16. */
transforms_answer transforms_remove_before(
    uint64_t *head, size_t head_len, uint64_t *instants, size_t instants_len, double *poses, size_t poses_len,
    uint32_t child, uint64_t instant);

/* Adds each record of the map as a static frame to a store that holds none; S may be 1. Refuses: 1, 2, 19, 18, then
 * the first record whose addition is refused, with 7, 3, 4, 5, 6 or 16: is_record is 1, `index` is the record, and
 * the other fields are as from add_transform. A refused load leaves the store as it was.
 * Cost: the pass, once; the file is read through; then for each record its names are looked for among those before, at
 * most 514, and it is added as by add_transform without the pass. 0.4 ms for 256 records into a store of 256*1. */
transforms_answer transforms_load_map(
    uint64_t *head, size_t head_len, uint64_t *instants, size_t instants_len, double *poses, size_t poses_len,
    const uint8_t *map, size_t map_len);

/* The number of a name, read from the file itself. A name that the file does not give is no refusal: number is 0
 * and is_known 0. Refuses: 18. Nothing is kept between calls, so each time the file is read through, and each name up
 * to the one asked for is held against those before it. Measured, in docs/PERFORMANCE.md: 0.4 ms for the last of 512
 * names, which is as many as a store can have frames; 22 s for the last of the 131,070 names of the largest file. */
transforms_frame_answer transforms_map_frame(const uint8_t *map, size_t map_len, const uint8_t *name, size_t name_len);

/* The name of a number, as the place of its bytes in the file. Refuses: 18. It costs as much as map_frame. */
transforms_name_answer transforms_map_name(const uint8_t *map, size_t map_len, uint32_t frame);

/* The product: b, given in a's frame, seen from a's parent. Refuses: 3, where a component of the product is not finite.
 * Before version 0.2.0 it returned the pose itself, finite or not. Cost: 20 to 30 ns. */
transforms_answer transforms_mul(transforms_isometry a, transforms_isometry b);

/* The inverse: the parent's frame, seen from the pose's own. Refuses: 13, 14, 3. Cost: 52 ns. */
transforms_answer transforms_inverse(transforms_isometry pose);

/* The pose at `query` between `a` at `start` and `b` at `end`. Where start equals end it is `a`. Refuses: 15, 3, the
 * latter where a component of that pose is not finite. Cost: 0.2 us. */
transforms_answer transforms_interpolate(
    transforms_isometry a, transforms_isometry b, uint64_t start, uint64_t end, uint64_t query);

/* The pose itself, if its components are finite and its rotation is a unit within 1e-6. Refuses: 3, 4.
 * Cost: some multiplications, and for 4 a square root. */
transforms_answer transforms_validate(transforms_isometry pose);

#ifdef __cplusplus
}
#endif

#endif
