// map FILE TARGET SOURCE: loads a map and prints the source's pose seen from the target, both by name.
#include <array>
#include <fstream>
#include <iomanip>
#include <iostream>

#include "transforms.hpp"

using namespace transforms;

namespace {

// As many rows as there can be, and one sample a row, since a map's frames do not move.
constexpr std::size_t ROWS = 256;
std::array<std::uint64_t, Store::head_len(ROWS)> head;
std::array<std::uint64_t, Store::instants_len(ROWS, 1)> instants;
std::array<double, Store::poses_len(ROWS, 1)> poses;

std::array<std::uint8_t, 1 << 20> bytes;

// The bytes of the file; none if it cannot be read.
Map read_map(const char *path)
{
    std::ifstream file(path, std::ios::binary);
    file.read(reinterpret_cast<char *>(bytes.data()), bytes.size());
    return Map(Slice<const std::uint8_t>(bytes.data(), static_cast<std::size_t>(file.gcount())));
}

// The number and the words of a refusal. A record's has the record; 6 has the parent that the child is held under.
int refused(const Refusal &refusal)
{
    if (const auto record = refusal.record()) {
        std::cout << "record " << *record << ": ";
    }
    std::cout << "refused with " << refusal.number() << ": " << refusal.words();
    if (refusal.number() == TRANSFORMS_REPARENTING_NOT_SUPPORTED) {
        std::cout << "; the child is under frame " << *refusal.frame();
    }
    std::cout << "\n";
    return 1;
}

// The number of a name, if the map gives it; else that is said.
std::optional<std::uint32_t> frame_of(const Map &map, const char *name)
{
    const auto frame = map.frame_of(name);
    if (!frame || !*frame) {
        std::cout << "the map has no frame " << name << "\n";
        return std::nullopt;
    }
    return *frame;
}

std::string_view name_of(const Map &map, std::uint32_t frame)
{
    const auto name = map.name_of(frame);
    return name ? name->value_or("") : "";
}

int look_up(const Store &store, const Map &map, std::uint32_t target, std::uint32_t source)
{
    const auto pose = store.get_transform(target, source, 0);
    if (!pose) {
        return refused(pose.refusal());
    }
    const auto &[t, r] = *pose;
    std::cout << std::fixed << std::setprecision(3) << name_of(map, source) << " (" << source << ") seen from "
              << name_of(map, target) << " (" << target << "): translation " << t.x << " " << t.y << " " << t.z
              << ", rotation " << r.w << " " << r.x << " " << r.y << " " << r.z << "\n";
    return 0;
}

} // namespace

int main(int arguments, char **argument)
{
    if (arguments != 4) {
        std::cout << "usage: map FILE TARGET SOURCE\n";
        return 1;
    }
    const Map map = read_map(argument[1]);
    Store store(head, instants, poses);
    if (const auto opened = store.open(ROWS, 1, std::nullopt); !opened) {
        return refused(opened.refusal());
    }
    if (const auto loaded = store.load_map(map); !loaded) {
        return refused(loaded.refusal());
    }
    const auto target = frame_of(map, argument[2]);
    const auto source = frame_of(map, argument[3]);
    return target && source ? look_up(store, map, *target, *source) : 1;
}
