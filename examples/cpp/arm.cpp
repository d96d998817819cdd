// An arm of three joints, of which one encoder is a sample behind.
#include <array>
#include <cinttypes>
#include <cstdio>

#include "transforms.hpp"

using namespace transforms;

namespace {

// Frames; BASE is the root.
enum : std::uint32_t { BASE, SHOULDER, ELBOW, WRIST };

// A row for each frame that has a parent, and 16 samples a row.
constexpr std::size_t ROWS = 3;
constexpr std::size_t SAMPLES = 16;

constexpr std::uint64_t MS = 1'000'000;

constexpr Quaternion NO_TURN{1, 0, 0, 0};
constexpr Quaternion QUARTER_TURN{0.7071067811865476, 0, 0, 0.7071067811865476};
constexpr Quaternion HALF_TURN{0, 0, 0, 1};

struct Sample {
    std::uint32_t child;
    std::uint64_t instant;
    Isometry pose;
};

// What the encoders gave: the shoulder turns, the elbow slides out, and the wrist has no sample at 20 ms.
constexpr Sample ENCODERS[] = {
    {SHOULDER, 0 * MS, {{0, 0, 400}, NO_TURN}},
    {SHOULDER, 10 * MS, {{0, 0, 400}, QUARTER_TURN}},
    {SHOULDER, 20 * MS, {{0, 0, 400}, HALF_TURN}},
    {ELBOW, 0 * MS, {{300, 20, 0}, NO_TURN}},
    {ELBOW, 20 * MS, {{340, 20, 0}, NO_TURN}},
    {WRIST, 0 * MS, {{100, 10, -40}, NO_TURN}},
    {WRIST, 10 * MS, {{120, 10, -50}, NO_TURN}},
};

// The number and the words of a refusal, and the samples that there are.
void print(const Refusal &refusal)
{
    std::printf("refused with %" PRIu32 ": %s", refusal.number(), refusal.words());
    if (const auto range = refusal.range()) {
        std::printf("; frame %" PRIu32 " has samples from %" PRIu64 " to %" PRIu64 " ns", *refusal.frame(),
                    range->start, range->end);
    }
    std::puts("");
}

// Prints the wrist's pose seen from the base, or why there is none.
void look_up(const Store &store, std::uint64_t instant)
{
    std::printf("at %" PRIu64 " ms: ", instant / MS);
    const auto pose = store.get_transform(BASE, WRIST, instant);
    if (!pose) {
        print(pose.refusal());
        return;
    }
    const auto &[t, r] = *pose;
    std::printf("translation %.3f %.3f %.3f, rotation %.3f %.3f %.3f %.3f\n", t.x, t.y, t.z, r.w, r.x, r.y, r.z);
}

// Whether all samples were taken; the first refusal is printed.
bool add(Store &store)
{
    for (const auto &[child, instant, pose] : ENCODERS) {
        const auto added = store.add_transform(child, child - 1, Stamp::At(instant), pose);
        if (!added) {
            print(added.refusal());
            return false;
        }
    }
    return true;
}

} // namespace

int main()
{
    std::array<std::uint64_t, Store::head_len(ROWS)> head;
    std::array<std::uint64_t, Store::instants_len(ROWS, SAMPLES)> instants;
    std::array<double, Store::poses_len(ROWS, SAMPLES)> poses;
    Store store(head, instants, poses);
    if (!store.open(ROWS, SAMPLES, std::nullopt) || !add(store)) {
        return 1;
    }
    look_up(store, 20 * MS);
    const auto common = store.latest_common_time(BASE, WRIST);
    if (!common) {
        print(common.refusal());
        return 1;
    }
    if (const auto instant = common->instant()) {
        std::printf("latest common time: %" PRIu64 " ms\n", *instant / MS);
        look_up(store, *instant);
    }
    return 0;
}
