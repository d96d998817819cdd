// Holds each call of transforms.hpp to the call of transforms.h that it wraps: the same memory afterwards and the same
// answer. Parameters are distinct, so that two that are swapped show. Prints nothing and ends with 0; else prints what
// fails and ends with 1.
#include <array>
#include <cstdio>
#include <cstring>
#include <limits>
#include <vector>

#include "transforms.hpp"

using namespace transforms;

namespace {

int failures = 0;

void check(bool holds, int line, const char *what)
{
    if (!holds) {
        std::printf("%s:%d: %s\n", __FILE__, line, what);
        failures++;
    }
}
#define CHECK(expression) check(expression, __LINE__, #expression)

constexpr std::size_t ROWS = 3;
constexpr std::size_t SAMPLES = 5;

// Memory for the calls of C, and as much for the wrapper.
struct Memory {
    std::array<std::uint64_t, Store::head_len(ROWS)> head;
    std::array<std::uint64_t, Store::instants_len(ROWS, SAMPLES)> instants;
    std::array<double, Store::poses_len(ROWS, SAMPLES)> poses;
};
Memory ours, wrapped;
#define OURS ours.head.data(), ours.head.size(), ours.instants.data(), ours.instants.size(), ours.poses.data(), \
    ours.poses.size()

bool same_memory()
{
    return ours.head == wrapped.head && ours.instants == wrapped.instants && ours.poses == wrapped.poses;
}

bool same(const Isometry &a, const transforms_isometry &b)
{
    const transforms_isometry c = a.c();
    return std::memcmp(&c, &b, sizeof b) == 0;
}

// A value where the call of C has one; else each thing that its refusal carries.
template <class T>
bool same_refusal(const Result<T> &result, const transforms_answer &a)
{
    const Refusal &r = result.refusal();
    const bool framed = a.number == 6 || a.number == 9 || a.number == 11 || a.number == 12;
    return result.has_value() == (a.number == 0) && r.number() == a.number
        && std::strcmp(r.words(), transforms_refusal_words(a.number)) == 0
        && r.frame() == (framed ? std::optional(a.frame) : std::nullopt) && r.range().has_value() == (a.has_range != 0)
        && (!r.range() || (r.range()->start == a.start && r.range()->end == a.end))
        && r.norm() == (a.number == 4 ? std::optional(a.norm) : std::nullopt)
        && r.record() == (a.is_record != 0 ? std::optional(a.index) : std::nullopt);
}

bool same_pose(const Result<Isometry> &result, const transforms_answer &a)
{
    return same_refusal(result, a) && (!result || same(*result, a.pose));
}

bool same_stamp(const Result<Stamp> &result, const transforms_answer &a)
{
    return same_refusal(result, a)
        && (!result || (a.is_static != 0 ? result->is_static() : result->instant() == std::optional(a.instant)));
}

constexpr Isometry POSE{{1.5, -2.5, 3.5}, {0.1, -0.3, 0.5, 0.806225774829855}};
constexpr Isometry LATER{{-4.5, 5.5, 6.5}, {-0.2, 0.4, 0.6, 0.66332495807108}};
constexpr Isometry LONG{{1, 2, 3}, {0, 0, 3, 4}};
constexpr Isometry FAR{{1e308, 0, 0}, {1, 0, 0, 0}}; // twice as far is infinite

void writing(Store &store)
{
    CHECK(same_refusal(store.open(SAMPLES, ROWS, 7), transforms_open(OURS, SAMPLES, ROWS, 1, 7)));
    CHECK(same_refusal(store.open(ROWS, SAMPLES, 7), transforms_open(OURS, ROWS, SAMPLES, 1, 7)) && same_memory());
    CHECK(same_refusal(store.open(ROWS, SAMPLES, std::nullopt), transforms_open(OURS, ROWS, SAMPLES, 0, 0))
          && same_memory());
    CHECK(same_refusal(store.add_transform(33, 35, Stamp::At(13), POSE),
                       transforms_add_transform(OURS, 33, 35, 0, 13, POSE.c())) && same_memory());
    CHECK(same_refusal(store.add_transform(33, 35, Stamp::At(17), LATER),
                       transforms_add_transform(OURS, 33, 35, 0, 17, LATER.c())) && same_memory());
    CHECK(same_refusal(store.add_transform(31, 33, Stamp::Static, LATER),
                       transforms_add_transform(OURS, 31, 33, 1, 0, LATER.c())) && same_memory());
    CHECK(same_refusal(store.add_transform(33, 36, Stamp::At(13), POSE),
                       transforms_add_transform(OURS, 33, 36, 0, 13, POSE.c())));
    CHECK(same_refusal(store.add_transform(33, 35, Stamp::At(13), LONG),
                       transforms_add_transform(OURS, 33, 35, 0, 13, LONG.c())));
}

void reading(const Store &store)
{
    for (const std::uint32_t target : {31u, 33u, 35u, 91u}) {
        for (const std::uint32_t source : {31u, 33u, 35u, 92u}) {
            CHECK(same_stamp(store.latest_common_time(target, source),
                             transforms_latest_common_time(OURS, target, source)));
            for (const std::uint64_t instant : {13u, 15u, 19u}) {
                CHECK(same_pose(store.get_transform(target, source, instant),
                                transforms_get_transform(OURS, target, source, instant)));
            }
        }
    }
}

void wiping(Store &store)
{
    CHECK(same_refusal(store.remove_before(33, 15), transforms_remove_before(OURS, 33, 15)) && same_memory());
    CHECK(same_refusal(store.remove_before(35, 15), transforms_remove_before(OURS, 35, 15)) && same_memory());
    CHECK(same_refusal(store.remove_before(33, 18), transforms_remove_before(OURS, 33, 18)) && same_memory());
    reading(store);
}

// The file's four records go into three rows, but not its fourth, which has another parent for its child.
void maps(Store &store)
{
    std::vector<std::uint8_t> file{'F', 'R', 'M', 1, 0, 4, 0};
    const auto append = [&file](std::string_view child, std::string_view parent) {
        for (const auto name : {child, parent}) {
            file.push_back(static_cast<std::uint8_t>(name.size()));
            file.insert(file.end(), name.begin(), name.end());
        }
        const auto *pose = reinterpret_cast<const std::uint8_t *>(&POSE);
        file.insert(file.end(), pose, pose + sizeof POSE);
    };
    append("hand", "base");
    append("wrist", "base");
    append("tip", "wrist");
    const std::size_t three = file.size();
    append("tip", "base");

    const Map map(file);
    CHECK(**map.frame_of("tip") == 3 && !*map.frame_of("tipsy"));
    CHECK(**map.name_of(2) == "wrist" && !*map.name_of(4));
    const Map damaged(Slice<const std::uint8_t>(file.data(), three));
    CHECK(damaged.frame_of("tip").refusal().number() == TRANSFORMS_MAP_FORM);
    CHECK(damaged.name_of(2).refusal().number() == TRANSFORMS_MAP_FORM);

    CHECK(same_refusal(store.load_map(map), transforms_load_map(OURS, file.data(), file.size())));
    CHECK(same_refusal(store.open(ROWS, SAMPLES, 7), transforms_open(OURS, ROWS, SAMPLES, 1, 7)));
    CHECK(same_refusal(store.load_map(map), transforms_load_map(OURS, file.data(), file.size())) && same_memory());
    CHECK(store.load_map(map).refusal().record() == std::optional<std::uint64_t>(3));
    file[5] = 3;
    const Map good(Slice<const std::uint8_t>(file.data(), three));
    CHECK(same_refusal(store.load_map(good), transforms_load_map(OURS, file.data(), three)) && same_memory());
    CHECK(same_pose(store.get_transform(1, 3, 0), transforms_get_transform(OURS, 1, 3, 0)));
}

// A path whose poses overflow.
void overflowing(Store &store)
{
    CHECK(same_refusal(store.open(ROWS, SAMPLES, 7), transforms_open(OURS, ROWS, SAMPLES, 1, 7)));
    CHECK(same_refusal(store.add_transform(41, 42, Stamp::Static, FAR),
                       transforms_add_transform(OURS, 41, 42, 1, 0, FAR.c())));
    CHECK(same_refusal(store.add_transform(42, 43, Stamp::Static, FAR),
                       transforms_add_transform(OURS, 42, 43, 1, 0, FAR.c())) && same_memory());
    CHECK(same_pose(store.get_transform(42, 41, 0), transforms_get_transform(OURS, 42, 41, 0)));
    CHECK(same_pose(store.get_transform(43, 41, 0), transforms_get_transform(OURS, 43, 41, 0)));
    CHECK(store.get_transform(43, 41, 0).refusal().number() == TRANSFORMS_NON_FINITE_VALUES);
}

void poses()
{
    const transforms_isometry a = POSE.c(), b = LATER.c();
    CHECK(same_pose(POSE.mul(LATER), transforms_mul(a, b)));
    CHECK(same_pose(FAR.mul(FAR), transforms_mul(FAR.c(), FAR.c())));
    CHECK(FAR.mul(FAR).refusal().number() == TRANSFORMS_NON_FINITE_VALUES);
    CHECK(same_pose(POSE.inverse(), transforms_inverse(a)));
    CHECK(same_pose(POSE.interpolate(LATER, 100, 500, 200), transforms_interpolate(a, b, 100, 500, 200)));
    CHECK(same_pose(POSE.interpolate(LATER, 500, 100, 200), transforms_interpolate(a, b, 500, 100, 200)));
    const Isometry broken{{std::numeric_limits<double>::quiet_NaN(), 2, 3}, POSE.rotation};
    CHECK(broken.mul(POSE).refusal().number() == TRANSFORMS_NON_FINITE_VALUES);
    CHECK(broken.interpolate(POSE, 500, 500, 200).refusal().number() == TRANSFORMS_NON_FINITE_VALUES);
    CHECK(broken.interpolate(POSE, 500, 100, 200).refusal().number() == TRANSFORMS_DURATION_UNDERFLOW);
    CHECK(same_pose(POSE.validate(), transforms_validate(a)));
    CHECK(same_pose(LONG.validate(), transforms_validate(LONG.c())));
    CHECK(same(*Isometry::IDENTITY.mul(POSE), a));
}

} // namespace

int main()
{
    Store store(wrapped.head, wrapped.instants, wrapped.poses);
    writing(store);
    reading(store);
    wiping(store);
    maps(store);
    overflowing(store);
    poses();
    return failures == 0 ? 0 : 1;
}
