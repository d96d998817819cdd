// Tinhvok for C++17: a wrapper of transforms.h, of header lines only, with the names of examples/rust/transforms.rs.
// A store borrows its memory. A call answers with a value or with a refusal that has its words; nothing is thrown, and
// nothing is taken from the heap. Units, limits, costs and what a caller must not do stand in transforms.h.
#ifndef TRANSFORMS_HPP
#define TRANSFORMS_HPP

#include <cstddef>
#include <cstdint>
#include <cstdlib>
#include <optional>
#include <string_view>
#include <type_traits>
#include <utility>

#include "transforms.h"

namespace transforms {

// Borrowed memory: of an array, of anything that has data() and size() as std::array has, or by pointer and length.
template <class T>
class Slice {
    template <class C>
    using Element = std::remove_pointer_t<decltype(std::declval<C &>().data())>;

public:
    constexpr Slice(T *data, std::size_t size) noexcept : data_(data), size_(size) {}

    template <std::size_t N>
    constexpr Slice(T (&array)[N]) noexcept : data_(array), size_(N) {}

    template <class C, class = std::enable_if_t<std::is_convertible_v<Element<C> (*)[], T (*)[]>>>
    constexpr Slice(C &container) noexcept : data_(container.data()), size_(container.size()) {}

    constexpr T *data() const noexcept { return data_; }
    constexpr std::size_t size() const noexcept { return size_; }

private:
    T *data_;
    std::size_t size_;
};

// First and last instant that a frame holds.
struct Range {
    std::uint64_t start;
    std::uint64_t end;
};

// A refusal: its number (the TRANSFORMS_ names), its words and what it carries.
class Refusal {
public:
    constexpr explicit Refusal(const transforms_answer &answer) noexcept
        : number_(answer.number), frame_(answer.frame), has_range_(answer.has_range != 0),
          is_record_(answer.is_record != 0), range_{answer.start, answer.end}, norm_(answer.norm), record_(answer.index)
    {
    }

    // One that carries nothing.
    constexpr explicit Refusal(std::uint32_t number) noexcept : number_(number) {}

    constexpr std::uint32_t number() const noexcept { return number_; }
    const char *words() const noexcept { return transforms_refusal_words(number_); }

    // With 6 the parent that the child is held under, with 9 the unknown frame, with 11 and 12 the frame to blame.
    constexpr std::optional<std::uint32_t> frame() const noexcept
    {
        const bool carried = number_ == TRANSFORMS_REPARENTING_NOT_SUPPORTED || number_ == TRANSFORMS_UNKNOWN_FRAME
            || number_ == TRANSFORMS_NOT_FOUND_AT || number_ == TRANSFORMS_NO_COMMON_TIME;
        return carried ? std::optional(frame_) : std::nullopt;
    }

    // With 11 and 12, if that frame holds a sample.
    constexpr std::optional<Range> range() const noexcept { return has_range_ ? std::optional(range_) : std::nullopt; }

    // With 4.
    constexpr std::optional<double> norm() const noexcept
    {
        return number_ == TRANSFORMS_NON_UNIT_ROTATION ? std::optional(norm_) : std::nullopt;
    }

    // Of a load that a record was refused in: the record's number, counted from 0.
    constexpr std::optional<std::uint64_t> record() const noexcept
    {
        return is_record_ ? std::optional(record_) : std::nullopt;
    }

private:
    std::uint32_t number_;
    std::uint32_t frame_ = 0;
    bool has_range_ = false;
    bool is_record_ = false;
    Range range_{};
    double norm_ = 0;
    std::uint64_t record_ = 0;
};

// The value of a call that has none.
struct Done {};

// A value or a refusal.
template <class T>
class [[nodiscard]] Result {
public:
    constexpr Result(T value) noexcept : value_(value), refusal_(TRANSFORMS_DONE) {}
    constexpr Result(Refusal refusal) noexcept : value_(), refusal_(refusal) {}

    constexpr bool has_value() const noexcept { return refusal_.number() == TRANSFORMS_DONE; }
    constexpr explicit operator bool() const noexcept { return has_value(); }

    // The value. Ask has_value first: where the call was refused, this ends the program.
    constexpr const T &value() const noexcept
    {
        if (!has_value()) {
            std::abort();
        }
        return value_;
    }
    constexpr const T &operator*() const noexcept { return value(); }
    constexpr const T *operator->() const noexcept { return &value(); }

    // The refusal; its number is 0 where there is a value.
    constexpr const Refusal &refusal() const noexcept { return refusal_; }

private:
    T value_;
    Refusal refusal_;
};

using Vector3 = transforms_vector3;
using Quaternion = transforms_quaternion;

// A pose: where a frame lies, seen from another.
struct Isometry {
    Vector3 translation;
    Quaternion rotation;

    static const Isometry IDENTITY;

    // The product: `other`, given in this frame, seen from this one's parent.
    Result<Isometry> mul(const Isometry &other) const noexcept { return taken(transforms_mul(c(), other.c())); }

    Result<Isometry> inverse() const noexcept { return taken(transforms_inverse(c())); }

    // The pose at `query` between this one at `start` and `other` at `end`.
    Result<Isometry> interpolate(
        const Isometry &other, std::uint64_t start, std::uint64_t end, std::uint64_t query) const noexcept
    {
        return taken(transforms_interpolate(c(), other.c(), start, end, query));
    }

    // The pose itself, if its components are finite and its rotation is a unit within 1e-6.
    Result<Isometry> validate() const noexcept { return taken(transforms_validate(c())); }

    // To C and back.
    constexpr transforms_isometry c() const noexcept { return {translation, rotation}; }
    static constexpr Isometry of(const transforms_isometry &pose) noexcept { return {pose.translation, pose.rotation}; }

    // The pose of an answer, unless it is a refusal.
    static constexpr Result<Isometry> taken(const transforms_answer &answer) noexcept;
};

inline constexpr Isometry Isometry::IDENTITY{{0, 0, 0}, {1, 0, 0, 0}};

constexpr Result<Isometry> Isometry::taken(const transforms_answer &answer) noexcept
{
    if (answer.number != TRANSFORMS_DONE) {
        return Refusal(answer);
    }
    return of(answer.pose);
}

// For ever, or at an instant in nanoseconds.
class Stamp {
public:
    constexpr Stamp() noexcept = default; // static
    static const Stamp Static;
    static constexpr Stamp At(std::uint64_t instant) noexcept { return Stamp(instant); }

    constexpr bool is_static() const noexcept { return !instant_.has_value(); }
    // None where it is static.
    constexpr std::optional<std::uint64_t> instant() const noexcept { return instant_; }

private:
    constexpr explicit Stamp(std::uint64_t instant) noexcept : instant_(instant) {}
    std::optional<std::uint64_t> instant_;
};

inline constexpr Stamp Stamp::Static{};

// The bytes of a map file, borrowed: the book of its names.
class Map {
public:
    constexpr explicit Map(Slice<const std::uint8_t> bytes) noexcept : bytes_(bytes) {}

    // The number of a name, if the file gives it.
    Result<std::optional<std::uint32_t>> frame_of(std::string_view name) const noexcept
    {
        const auto *letters = reinterpret_cast<const std::uint8_t *>(name.data());
        const auto answer = transforms_map_frame(bytes_.data(), bytes_.size(), letters, name.size());
        if (answer.number != TRANSFORMS_DONE) {
            return Refusal(answer.number);
        }
        return answer.is_known != 0 ? std::optional(answer.frame) : std::nullopt;
    }

    // The name of a number, as a part of the file, if the file gives it.
    Result<std::optional<std::string_view>> name_of(std::uint32_t frame) const noexcept
    {
        const auto answer = transforms_map_name(bytes_.data(), bytes_.size(), frame);
        if (answer.number != TRANSFORMS_DONE) {
            return Refusal(answer.number);
        }
        if (answer.is_known == 0) {
            return std::optional<std::string_view>();
        }
        const auto *letters = reinterpret_cast<const char *>(bytes_.data() + answer.start);
        return std::optional(std::string_view(letters, answer.count));
    }

    constexpr Slice<const std::uint8_t> bytes() const noexcept { return bytes_; }

private:
    Slice<const std::uint8_t> bytes_;
};

// A tree of frames in three borrowed slices, which must outlive it. A const store can be read.
class Store {
public:
    // How many words, instants and floats the slices have for so many rows and samples a row.
    static constexpr std::size_t head_len(std::size_t rows) noexcept { return TRANSFORMS_HEAD_LEN(rows); }
    static constexpr std::size_t instants_len(std::size_t rows, std::size_t samples) noexcept
    {
        return TRANSFORMS_INSTANTS_LEN(rows, samples);
    }
    static constexpr std::size_t poses_len(std::size_t rows, std::size_t samples) noexcept
    {
        return TRANSFORMS_POSES_LEN(rows, samples);
    }

    constexpr Store(Slice<std::uint64_t> head, Slice<std::uint64_t> instants, Slice<double> poses) noexcept
        : head_(head), instants_(instants), poses_(poses)
    {
    }

    // One store of this memory: a copy could write what a const store only reads.
    Store(const Store &) = delete;
    Store &operator=(const Store &) = delete;

    // Empties the store, for so many rows and samples a row.
    Result<Done> open(std::uint64_t rows, std::uint64_t samples, std::optional<std::uint64_t> max_age) noexcept
    {
        return done(transforms_open(
            head_.data(), head_.size(), instants_.data(), instants_.size(), poses_.data(), poses_.size(), rows, samples,
            max_age ? 1u : 0u, max_age.value_or(0)));
    }

    // Adds the child's pose seen from its parent.
    Result<Done> add_transform(std::uint32_t child, std::uint32_t parent, Stamp stamp, const Isometry &pose) noexcept
    {
        return done(transforms_add_transform(
            head_.data(), head_.size(), instants_.data(), instants_.size(), poses_.data(), poses_.size(), child, parent,
            stamp.is_static() ? 1u : 0u, stamp.instant().value_or(0), pose.c()));
    }

    // The source's pose seen from the target at the instant.
    Result<Isometry> get_transform(std::uint32_t target, std::uint32_t source, std::uint64_t instant) const noexcept
    {
        return Isometry::taken(transforms_get_transform(
            head_.data(), head_.size(), instants_.data(), instants_.size(), poses_.data(), poses_.size(), target,
            source, instant));
    }

    // The latest instant at which every moving hop between the two frames has a pose.
    Result<Stamp> latest_common_time(std::uint32_t target, std::uint32_t source) const noexcept
    {
        const auto answer = transforms_latest_common_time(
            head_.data(), head_.size(), instants_.data(), instants_.size(), poses_.data(), poses_.size(), target,
            source);
        if (answer.number != TRANSFORMS_DONE) {
            return Refusal(answer);
        }
        return answer.is_static != 0 ? Stamp::Static : Stamp::At(answer.instant);
    }

    // Adds each record of the map as a static frame to a store that holds none.
    Result<Done> load_map(const Map &map) noexcept
    {
        return done(transforms_load_map(
            head_.data(), head_.size(), instants_.data(), instants_.size(), poses_.data(), poses_.size(),
            map.bytes().data(), map.bytes().size()));
    }

    // Drops a moving child's samples before the instant.
    Result<Done> remove_before(std::uint32_t child, std::uint64_t instant) noexcept
    {
        return done(transforms_remove_before(
            head_.data(), head_.size(), instants_.data(), instants_.size(), poses_.data(), poses_.size(), child,
            instant));
    }

private:
    static constexpr Result<Done> done(const transforms_answer &answer) noexcept
    {
        if (answer.number != TRANSFORMS_DONE) {
            return Refusal(answer);
        }
        return Done{};
    }

    Slice<std::uint64_t> head_;
    Slice<std::uint64_t> instants_;
    Slice<double> poses_;
};

} // namespace transforms

#endif
