/*
 * Magbelu from C++17: graphs and streams that free themselves, and exceptions, over the calls of magbelu.h, which says
 * what each of them does. docs/user/C.md says how to build and link. The kernels, and runs between raw items, are those
 * of magbelu.h.
 */
#ifndef MAGBELU_HPP
#define MAGBELU_HPP

#include <algorithm>
#include <cerrno>
#include <cstddef>
#include <cstdint>
#include <cstdlib>
#include <fstream>
#include <initializer_list>
#include <iterator>
#include <optional>
#include <stdexcept>
#include <string>
#include <string_view>
#include <system_error>
#include <type_traits>
#include <utility>
#include <vector>

#include "magbelu.h"

namespace magbelu {

/*
 * A call was not done. The text is the number and the name of the refusal, as docs/user/REFUSALS.md lists them, what it
 * concerns, and the reason; where a graph file is refused, lines that show the place in it stand for the reason.
 */
class error : public std::runtime_error {
public:
    error(std::uint32_t number, std::string detail, const std::string &text, std::string output = {},
          std::optional<std::uint64_t> floor = {})
        : std::runtime_error(text), number_(number), detail_(std::move(detail)), output_(std::move(output)),
          floor_(floor) {}

    std::uint32_t number() const noexcept { return number_; }

    /* The name of the refusal, as `Late`. */
    const char *name() const noexcept { return magbelu_name(number_); }

    /* What it concerns: a block by its name, or what stands behind the name in the line of a refusal, as `block 0
     * name`. */
    const std::string &detail() const noexcept { return detail_; }

    /* What a script wrote before. */
    const std::string &output() const noexcept { return output_; }

    /* If a setting comes too late (27), the first item from which it could be in force. */
    std::optional<std::uint64_t> floor() const noexcept { return floor_; }

private:
    std::uint32_t number_;
    std::string detail_;
    std::string output_;
    std::optional<std::uint64_t> floor_;
};

/* The graph file, a feed, a setting, a line or a name is refused, and nothing changed. */
class refused : public error {
    using error::error;
};

/* Memory ran out in the library. */
class out_of_memory : public error {
    using error::error;
};

/* What `run` tells: the items and tags of each sink as text, and whether all blocks came to be done. */
struct report {
    std::string text;
    bool is_done;
};

/*
 * The place at which a graph file is refused: the line and the column of a word, from 1, how many characters it has on
 * that line, and why. A column counts characters.
 */
struct fault_place {
    std::size_t line;
    std::size_t column;
    std::size_t length;
    std::string why;
};

/* A tag to feed: the place of its item on the tape, its key, its value. */
struct mark {
    std::uint64_t offset;
    std::string key;
    std::int64_t value;
};

/* A tag that a sink took, with the number of the source block that was fed with it. */
struct tag {
    std::uint64_t offset;
    std::string key;
    std::int64_t value;
    std::uint32_t source;
};

/* What a sink gives: items, their tags, and how many items it has taken in all. */
template <class Item>
struct piece {
    std::vector<Item> items;
    std::vector<tag> tags;
    std::uint64_t held;
};

/* What a block waits for: it may act or is done, it waits for items at an input or for room at an output, or it is a
 * source that waits to be fed or closed. */
enum class wait : std::uint32_t {
    ready = MAGBELU_READY,
    done = MAGBELU_DONE,
    items = MAGBELU_WAITS_ITEMS,
    room = MAGBELU_WAITS_ROOM,
    feed = MAGBELU_WAITS_FEED
};

/* What a block does with streams. A sink keeps its items, and a null sink drops them. */
enum class role : std::uint32_t {
    work = MAGBELU_WORK,
    source = MAGBELU_SOURCE,
    sink = MAGBELU_SINK,
    null_sink = MAGBELU_NULL_SINK
};

/* The type of items: `std::uint8_t`, `std::int16_t` or `std::int32_t`. */
enum class item_type : std::uint32_t { bytes = MAGBELU_BYTE, shorts = MAGBELU_SHORT, ints = MAGBELU_INT };

/* What a drawing is written in. */
enum class drawing : std::uint32_t { dot = MAGBELU_DOT, mermaid = MAGBELU_MERMAID };

/* A block of a graph, with how many of its inputs and outputs are connected. On a side without a port its type says
 * nothing. */
struct block {
    std::string name;
    std::string kind;
    magbelu::role role;
    std::size_t inputs;
    item_type input_type;
    std::size_t outputs;
    item_type output_type;
};

/*
 * How far a block of a stream is: how many items it has taken of its first input or its tape, has given on each output
 * (a sink: has taken), and has not taken though they have come.
 */
struct block_levels {
    std::uint64_t taken;
    std::uint64_t given;
    std::uint64_t waiting;
};

/* A number of a block that may be set, from the least to the greatest, and the block's own. */
struct number_setting {
    std::int64_t least;
    std::int64_t most;
    std::int64_t value;
};

/* What of a block may be set: nothing, a number, or as many taps as its own, which these are. */
struct block_setting {
    std::optional<number_setting> number;
    std::optional<std::vector<std::int16_t>> taps;
};

/* How a block shifts its stream: its first firings give nothing (`skips`), or take nothing (`delays`), or all are
 * alike. */
enum class shift : std::uint32_t { alike = MAGBELU_ALIKE, skips = MAGBELU_SKIPS, delays = MAGBELU_DELAYS };

/* What a firing of a block takes of each connected input and gives on each output, and how many firings are the first
 * in a shift. */
struct block_rates {
    std::vector<std::uint64_t> takes;
    std::uint64_t gives;
    magbelu::shift shift;
    std::uint64_t shifted;
};

/* How the runs of a graph are cut into slices of time: how many iterations before its own a slice reads, each
 * source, each sink that keeps its items, and the first block whose items rest on how many came before, or
 * MAGBELU_NO_BLOCK. */
struct slice_plan {
    std::uint64_t overlap;
    std::vector<magbelu_cut_source> sources;
    std::vector<magbelu_cut_sink> sinks;
    std::uint32_t counts;
};

/* Where a slice begins: how many iterations it leaves out of each tape, and what it gives each sink that keeps its
 * items. */
struct slice_start {
    std::uint64_t leaves_out;
    std::vector<magbelu_cut_part> parts;
};

/* (not for callers) */
namespace detail {

[[noreturn]] inline void fail(std::uint32_t status, std::uint32_t number, std::string detail, const std::string &text,
                              std::string output = {}, std::optional<std::uint64_t> floor = {}) {
    if (status == 4) {
        throw out_of_memory(number, std::move(detail), text, std::move(output), floor);
    }
    throw refused(number, std::move(detail), text, std::move(output), floor);
}

/* A refusal with its reason, if one is known. */
inline std::string with_reason(std::string text, std::uint32_t number) {
    const std::string reason = magbelu_reason(number);
    return reason.empty() ? text : text + ": " + reason;
}

inline std::optional<std::uint64_t> floor_of(const magbelu_reply &reply) {
    return reply.number == MAGBELU_LATE ? std::optional<std::uint64_t>(reply.value) : std::nullopt;
}

template <class Other>
std::optional<std::uint64_t> floor_of(const Other &) {
    return std::nullopt;
}

/* The answer of a call of a plant, which is refused for the block of this name. */
template <class Reply>
const Reply &tested(const Reply &reply, std::string_view block) {
    if (reply.number != 0) {
        const std::string concerns = block.empty() ? "" : " " + std::string(block);
        const auto floor = floor_of(reply);
        const std::string text = with_reason(std::to_string(reply.number) + " " + magbelu_name(reply.number) + concerns,
                                             reply.number);
        fail(reply.status, reply.number, std::string(block),
             floor ? text + ", which is " + std::to_string(*floor) : text, {}, floor);
    }
    return reply;
}

/* Makes a call with more room until its output and its line fit, and cuts them to their lengths. */
template <class Call>
magbelu_answer with_room(Call call, std::string &output, std::string &line) {
    output.resize(4096);
    line.resize(256);
    for (;;) {
        const magbelu_answer answer = call(output, line);
        const bool fits = answer.output_len <= output.size() && answer.error_len <= line.size();
        output.resize(fits ? answer.output_len : std::max(output.size(), answer.output_len));
        line.resize(fits ? answer.error_len : std::max(line.size(), answer.error_len));
        if (fits) {
            return answer;
        }
    }
}

/* The line of a refusal from its number on, without the end of the line. */
inline std::string refusal_in(const std::string &line) {
    static constexpr std::string_view before = " refused ";
    const auto at = line.find(before);
    const auto refusal = at == std::string::npos ? line : line.substr(at + before.size());
    return refusal.substr(0, refusal.find_last_not_of('\n') + 1);
}

/* What stands behind the number and the name of a refusal. */
inline std::string detail_of(const std::string &refusal) {
    const auto name = std::min(refusal.find(' '), refusal.size());
    const auto detail = refusal.find(' ', std::min(name + 1, refusal.size()));
    return detail == std::string::npos ? "" : refusal.substr(detail + 1);
}

/* What is said of a refusal of a call that the file of this path goes into: the refusal, and its place in the file, or
 * the reason. */
inline std::string text_of(std::uint32_t number, const std::string &refusal, std::string_view file,
                           std::string_view path) {
    std::string place, own;
    with_room(
        [&](std::string &output, std::string &room) {
            return magbelu_explain(path.data(), path.size(), file.data(), file.size(), output.data(), output.size(),
                                   room.data(), room.size());
        },
        place, own);
    return place.empty() ? with_reason(refusal, number) : refusal + "\n" + place.substr(0,
        place.find_last_not_of('\n') + 1);
}

/* Fails with the refusal of a call that the file of this path goes into. */
[[noreturn]] inline void fail_in(const magbelu_answer &answer, const std::string &line, std::string_view file,
                                 std::string_view path, std::string output) {
    const std::string refusal = refusal_in(line);
    fail(answer.status, answer.number, detail_of(refusal), text_of(answer.number, refusal, file, path),
         std::move(output));
}

/* The output of a call that a file goes into, which writes a line where it is refused. */
template <class Call>
report texts(Call call, std::string_view file) {
    std::string output, line;
    const magbelu_answer answer = with_room(call, output, line);
    if (answer.number != 0) {
        fail_in(answer, line, file, "<graph>", std::move(output));
    }
    return {std::move(output), answer.status == 0};
}

/* The tags of lines `@OFFSET:KEY=VALUE/SOURCE`. */
inline std::vector<tag> tags_of(const std::string &lines) {
    std::vector<tag> tags;
    for (std::size_t at = 0, next; at < lines.size(); at = next + 1) {
        next = std::min(lines.find('\n', at), lines.size());
        const std::size_t key = lines.find(':', at) + 1, value = lines.find('=', key) + 1,
                          source = lines.find('/', value) + 1;
        tags.push_back({std::strtoull(&lines[at + 1], nullptr, 10), lines.substr(key, value - key - 1),
                        std::strtoll(&lines[value], nullptr, 10),
                        static_cast<std::uint32_t>(std::strtoul(&lines[source], nullptr, 10))});
    }
    return tags;
}

template <class Item>
inline constexpr bool is_item =
    std::is_same_v<Item, std::uint8_t> || std::is_same_v<Item, std::int16_t> || std::is_same_v<Item, std::int32_t>;

/* The text of a file. One that cannot be read is a `std::system_error`. */
inline std::string text_in(const std::string &path) {
    std::ifstream file(path, std::ios::binary);
    std::string text((std::istreambuf_iterator<char>(file)), std::istreambuf_iterator<char>());
    if (!file.is_open() || file.bad()) {
        throw std::system_error(errno, std::generic_category(), path);
    }
    return text;
}

inline void same_size(std::size_t wanted, std::size_t size, std::string_view block) {
    if (wanted != size) {
        throw std::invalid_argument("the items of " + std::string(block) + " have " + std::to_string(wanted) +
                                    " bytes, and not " + std::to_string(size));
    }
}

} // namespace detail

/* Reports the graph of a graph file's text, as `flow check` does. */
inline std::string check(std::string_view file) {
    return detail::texts(
               [&](std::string &output, std::string &line) {
                   return magbelu_check(file.data(), file.size(), output.data(), output.size(), line.data(),
                                        line.size());
               },
               file)
        .text;
}

/* Runs it on this thread to its end, as `flow run --one-thread` does. */
inline report run(std::string_view file) {
    return detail::texts(
        [&](std::string &output, std::string &line) {
            return magbelu_run(file.data(), file.size(), output.data(), output.size(), line.data(), line.size());
        },
        file);
}

/* Makes the calls of a script's lines, as `flow script` does, and gives the replies. */
inline std::string script(std::string_view file, std::string_view lines) {
    return detail::texts(
               [&](std::string &output, std::string &line) {
                   return magbelu_script(file.data(), file.size(), lines.data(), lines.size(), output.data(),
                                         output.size(), line.data(), line.size());
               },
               file)
        .text;
}

/* The place at which a graph file's text is refused, or nothing if it is not. */
inline std::optional<fault_place> place(std::string_view file) {
    std::string why(256, '\0');
    for (;;) {
        const auto got = magbelu_place(file.data(), file.size(), why.data(), why.size());
        if (got.number == 0) {
            return std::nullopt;
        }
        if (got.line == 0) {
            detail::fail(4, MAGBELU_MEMORY, "", detail::with_reason("32 Memory", MAGBELU_MEMORY));
        }
        const bool fits = got.why_len <= why.size();
        why.resize(got.why_len);
        if (fits) {
            return fault_place{got.line, got.column, got.length, std::move(why)};
        }
    }
}

/* (not for callers) */
namespace detail {

/* What is held, which frees itself: the calls that a graph and a stream have in common. */
class held {
public:
    /* Appends items to a source's tape, with tags on them, and gives how many it was fed then. */
    template <class Item>
    std::uint64_t feed(std::string_view source, const Item *items, std::size_t count,
                       const std::vector<mark> &marks = {}) {
        static_assert(is_item<Item>, "items are std::uint8_t, std::int16_t or std::int32_t");
        same_size(item_size(source), sizeof(Item), source);
        const auto tags = tags_of(marks);
        return reply(magbelu_feed(plant(), source.data(), source.size(), 0, items, count * sizeof(Item), tags.data(),
                                  tags.size()), source);
    }

    /* The same of a container that has its items one behind the other: a vector, an array. */
    template <class Items>
    auto feed(std::string_view source, const Items &items,
              const std::vector<mark> &marks = {}) -> decltype(std::data(items), std::uint64_t()) {
        return feed(source, std::data(items), std::size(items), marks);
    }

    /* The same of numbers. Each must be an item of the source. */
    std::uint64_t feed(std::string_view source, std::initializer_list<std::int64_t> numbers,
                       const std::vector<mark> &marks = {}) {
        const auto tags = tags_of(marks);
        return reply(magbelu_feed_numbers(plant(), source.data(), source.size(), numbers.begin(), numbers.size(),
                                          tags.data(), tags.size()), source);
    }

    /* Closes a source's tape, and gives how many items it was fed. */
    std::uint64_t close(std::string_view source) {
        return reply(magbelu_close(plant(), source.data(), source.size()), source);
    }

    /* Sets a block's number, from this item of its first input on or from the first that it has not taken, and gives
     * that item. */
    std::uint64_t set(std::string_view block, std::int64_t number, std::uint64_t at = MAGBELU_NOW) {
        return reply(magbelu_set(plant(), block.data(), block.size(), at, number), block);
    }

    /* The same of a filter's taps. */
    std::uint64_t set(std::string_view block, const std::vector<std::int16_t> &taps, std::uint64_t at = MAGBELU_NOW) {
        return reply(magbelu_set_taps(plant(), block.data(), block.size(), at, taps.data(), taps.size()), block);
    }

    /* The same of taps in braces. (One number in braces would be no list.) */
    std::uint64_t set(std::string_view block, std::initializer_list<std::int16_t> taps,
                      std::uint64_t at = MAGBELU_NOW) {
        return set(block, std::vector<std::int16_t>(taps), at);
    }

    /* Does at most `max` firings of a block, and gives how many were done. */
    std::uint64_t step(std::string_view block, std::uint32_t max = UINT32_MAX) {
        const auto got = tested(magbelu_step(plant(), block.data(), block.size(), max), block);
        return got.what == MAGBELU_DID ? got.value : 0;
    }

    /* Runs the graph until it comes to rest, and gives whether all blocks are done. A source that is open is not done
     * while a block reads it. */
    bool settle() { return tested(magbelu_settle(plant()), "").status == 0; }

    /* What a block waits for. */
    wait need(std::string_view block) {
        return static_cast<wait>(tested(magbelu_need(plant(), block.data(), block.size()), block).what);
    }

    /* Whether a graph is held. After it was moved away there is none, and each call is refused. */
    bool is_open() const noexcept { return stream_.plant.is_open; }

    /* The blocks, in the order of the file. */
    std::vector<block> blocks() {
        std::vector<block> all(static_cast<std::size_t>(reply(magbelu_block_count(plant()), "")));
        for (std::size_t number = 0; number < all.size(); number++) {
            all[number] = block_at(static_cast<std::uint32_t>(number));
        }
        return all;
    }

    /* The connections, in the order of the file. They have the numbers of their blocks. */
    std::vector<magbelu_connection> connections() {
        return table<magbelu_connection>([&](magbelu_connection *at, std::size_t room) {
            return reply(magbelu_connections(plant(), at, room), "");
        });
    }

    /* How many items the buffer behind each connection has room for. */
    std::vector<std::uint64_t> rooms() {
        return table<std::uint64_t>([&](std::uint64_t *at, std::size_t room) {
            return reply(magbelu_rooms(plant(), at, room), "");
        });
    }

    /* What of the block of a number may be set. */
    block_setting setting(std::uint32_t number) {
        std::vector<std::int16_t> taps(64);
        for (;;) {
            const auto got = tested(magbelu_setting(plant(), number, taps.data(), taps.size()), "");
            const bool fits = got.count <= taps.size();
            taps.resize(got.count);
            if (got.what == MAGBELU_NUMBER) {
                return {number_setting{got.least, got.most, got.value}, std::nullopt};
            }
            if (got.what == MAGBELU_FIXED || fits) {
                return {std::nullopt, got.what == MAGBELU_FIXED ? std::nullopt : std::make_optional(std::move(taps))};
            }
        }
    }

    /* What a firing of the block of a number takes and gives. */
    block_rates rates(std::uint32_t number) {
        block_rates all{};
        for (;;) {
            const auto got = tested(magbelu_rates(plant(), number, all.takes.data(), all.takes.size()), "");
            const bool fits = got.input_count == all.takes.size();
            all.takes.resize(got.input_count);
            all.gives = got.gives;
            all.shift = static_cast<shift>(got.shift);
            all.shifted = got.shifted;
            if (fits) {
                return all;
            }
        }
    }

    /* How often each block fires in an iteration, or nothing where the rates have no balance. */
    std::optional<std::vector<std::uint32_t>> firings() {
        bool is_balanced = true;
        auto all = table<std::uint32_t>([&](std::uint32_t *at, std::size_t room) {
            const auto got = tested(magbelu_firings(plant(), at, room), "");
            is_balanced = got.what == MAGBELU_BALANCED;
            return got.value;
        });
        return is_balanced ? std::make_optional(std::move(all)) : std::nullopt;
    }

    /* The graph as text from which Graphviz's `dot` or Mermaid draws it, as `flow draw` writes it. */
    std::string draw(drawing format = drawing::dot) {
        std::string text(4096, '\0');
        for (;;) {
            const auto got = tested(magbelu_draw(plant(), static_cast<std::uint32_t>(format), text.data(), text.size()),
                                    "");
            const bool fits = got.output_len <= text.size();
            text.resize(got.output_len);
            if (fits) {
                return text;
            }
        }
    }

    /* How the runs of the graph are cut into slices that give the items of the whole run, and its tags too where these
     * are asked for. */
    slice_plan slices(bool tags = false) {
        slice_plan plan{};
        for (;;) {
            const magbelu_slicing got =
                tested_slicing(magbelu_slices(plant(), tags, plan.sources.data(), plan.sources.size(),
                                              plan.sinks.data(), plan.sinks.size()));
            const bool fits = got.source_count == plan.sources.size() && got.sink_count == plan.sinks.size();
            plan.overlap = got.iterations;
            plan.counts = got.block;
            plan.sources.resize(got.source_count);
            plan.sinks.resize(got.sink_count);
            if (fits) {
                return plan;
            }
        }
    }

    /* The slice that begins at an iteration, which is the first, or none within the first overlap. */
    slice_start slice(std::uint64_t begins, bool tags = false) {
        slice_start start{};
        for (;;) {
            const magbelu_slicing got = tested_slicing(magbelu_slice(plant(), tags, begins, start.parts.data(),
                                                                     start.parts.size()));
            const bool fits = got.sink_count == start.parts.size();
            start.leaves_out = got.iterations;
            start.parts.resize(got.sink_count);
            if (fits) {
                return start;
            }
        }
    }

    /* How many bytes an item of a source has. */
    std::size_t item_size(std::string_view source) {
        return static_cast<std::size_t>(reply(magbelu_item_size(plant(), source.data(), source.size()), source));
    }

protected:
    magbelu_stream stream_ = MAGBELU_NO_STREAM;

    held() = default;

    held(held &&other) noexcept : stream_(std::exchange(other.stream_, magbelu_stream MAGBELU_NO_STREAM)) {}

    held &operator=(held &&other) noexcept {
        std::swap(stream_, other.stream_);
        return *this;
    }

    ~held() { magbelu_free(plant()); }

    magbelu_plant *plant() noexcept { return &stream_.plant; }

    /* Opens a graph file's text, which is called `path` where it is refused. */
    template <class Open>
    void open(Open open, std::string_view file, std::string_view path) {
        std::string output, line;
        const magbelu_answer answer = with_room(
            [&](std::string &, std::string &room) { return open(room.data(), room.size()); }, output, line);
        if (line.empty()) {
            /* (of a graph that is not cut there is no line) */
            tested(answer, "");
        }
        if (answer.number != 0) {
            fail_in(answer, line, file, path, {});
        }
    }

    static std::uint64_t reply(const magbelu_reply &got, std::string_view block) { return tested(got, block).value; }

private:
    block block_at(std::uint32_t number) {
        std::string name(64, '\0'), kind(64, '\0');
        for (;;) {
            const auto got = tested(magbelu_block(plant(), number, name.data(), name.size(), kind.data(), kind.size()),
                                    "");
            const bool fits = got.name_len <= name.size() && got.kind_len <= kind.size();
            name.resize(got.name_len);
            kind.resize(got.kind_len);
            if (fits) {
                return {std::move(name), std::move(kind), static_cast<role>(got.role), got.input_count,
                        static_cast<item_type>(got.input_type), got.output_count,
                        static_cast<item_type>(got.output_type)};
            }
        }
    }

    /* The rows that a call writes, which tells how many there are. */
    template <class Row, class Call>
    static std::vector<Row> table(Call call) {
        std::vector<Row> all;
        for (;;) {
            const auto count = static_cast<std::size_t>(call(all.data(), all.size()));
            const bool fits = count == all.size();
            all.resize(count);
            if (fits) {
                return all;
            }
        }
    }

    static const magbelu_slicing &tested_slicing(const magbelu_slicing &got) {
        return tested(got, got.block == MAGBELU_NO_BLOCK ? std::string() : "block " + std::to_string(got.block));
    }

    /* (a tag has the place of its mark's key) */
    static std::vector<magbelu_tag> tags_of(const std::vector<mark> &marks) {
        std::vector<magbelu_tag> tags;
        for (const mark &it : marks) {
            tags.push_back({it.offset, it.value, reinterpret_cast<const std::uint8_t *>(it.key.data()), it.key.size()});
        }
        return tags;
    }
};

} // namespace detail

/*
 * A graph with its tapes, its buffers and how far it is. It may be moved, and not copied; it is called by one thread at
 * a time. Items are `std::uint8_t`, `std::int16_t` or `std::int32_t`, as the source or the sink has them: those of
 * another size are a `std::invalid_argument`.
 */
class graph : public detail::held {
public:
    /* The graph of a graph file's text, which is called `path` where it is refused. */
    explicit graph(std::string_view file, std::string_view path = "<graph>") {
        open([&](char *line, std::size_t room) { return magbelu_open(plant(), file.data(), file.size(), line, room); },
             file, path);
    }

    /* The graph of a graph file. One that cannot be read is a `std::system_error`. */
    static graph from_file(const std::string &path) { return graph(detail::text_in(path), path); }

    /* What a sink holds from item `from` on, at most `max` items. */
    template <class Item>
    piece<Item> read(std::string_view sink, std::uint64_t from = 0, std::uint64_t max = UINT64_MAX) {
        static_assert(detail::is_item<Item>, "items are std::uint8_t, std::int16_t or std::int32_t");
        const magbelu_piece all = read_into(sink, from, 0, nullptr, 0, nullptr, 0);
        detail::same_size(all.item_size, sizeof(Item), sink);
        piece<Item> got{std::vector<Item>(static_cast<std::size_t>(std::min(max, all.held - from))), {}, all.held};
        const std::size_t len = got.items.size() * sizeof(Item);
        std::string lines(1024, '\0');
        magbelu_piece shown = read_into(sink, from, got.items.size(), got.items.data(), len, lines.data(),
                                        lines.size());
        if (shown.tags_len > lines.size()) {
            lines.resize(shown.tags_len);
            shown = read_into(sink, from, got.items.size(), got.items.data(), len, lines.data(), lines.size());
        }
        lines.resize(shown.tags_len);
        got.tags = detail::tags_of(lines);
        return got;
    }

private:
    magbelu_piece read_into(std::string_view sink, std::uint64_t from, std::uint64_t max, void *bytes,
                            std::size_t bytes_room, char *tags, std::size_t tags_room) {
        return detail::tested(magbelu_read(plant(), sink.data(), sink.size(), from, max, 0, bytes, bytes_room, tags,
                                           tags_room), sink);
    }
};

/* A graph that streams: it forgets what its sources have taken and what was drained, and so runs in constant memory for
 * as long as it is fed. The rules of `graph` apply. */
class stream : public detail::held {
public:
    /* The graph of a graph file's text, which is called `path` where it is refused. */
    explicit stream(std::string_view file, std::string_view path = "<graph>") {
        open(
            [&](char *line, std::size_t room) {
                return magbelu_stream_open(&stream_, file.data(), file.size(), line, room);
            },
            file, path);
    }

    /* The graph of a graph file. One that cannot be read is a `std::system_error`. */
    static stream from_file(const std::string &path) { return stream(detail::text_in(path), path); }

    /* The graph for a slice that leaves out so many iterations of each tape: each block goes on where it stands after
     * these, and nothing is fed. */
    static stream at(std::uint64_t leaves_out, std::string_view file, std::string_view path = "<graph>") {
        return stream(leaves_out, file, path);
    }

    /* How far a block is. */
    block_levels levels(std::string_view block) {
        const auto got = detail::tested(magbelu_stream_levels(&stream_, block.data(), block.size()), block);
        return {got.taken, got.given, got.waiting};
    }

    /* Takes at most `max` items away of those that a sink has taken and that were not drained yet. Its tags have the
     * numbers of all that the sink ever took. */
    template <class Item>
    piece<Item> drain(std::string_view sink, std::uint64_t max = UINT64_MAX) {
        static_assert(detail::is_item<Item>, "items are std::uint8_t, std::int16_t or std::int32_t");
        detail::same_size(drain_into(sink, 0, nullptr, 0, nullptr, 0).item_size, sizeof(Item), sink);
        piece<Item> got{std::vector<Item>(static_cast<std::size_t>(std::min<std::uint64_t>(max, 4096))), {}, 0};
        std::string lines(1024, '\0');
        magbelu_piece shown;
        for (;;) {
            const std::size_t len = got.items.size() * sizeof(Item);
            shown = drain_into(sink, max, got.items.data(), len, lines.data(), lines.size());
            if (shown.bytes_len <= len && shown.tags_len <= lines.size()) {
                break;
            }
            got.items.resize(std::max(got.items.size(), shown.bytes_len / sizeof(Item)));
            lines.resize(std::max(lines.size(), shown.tags_len));
        }
        got.items.resize(shown.bytes_len / sizeof(Item));
        lines.resize(shown.tags_len);
        got.tags = detail::tags_of(lines);
        got.held = shown.held;
        return got;
    }

private:
    stream(std::uint64_t leaves_out, std::string_view file, std::string_view path) {
        open(
            [&](char *line, std::size_t room) {
                return magbelu_stream_open_at(&stream_, file.data(), file.size(), leaves_out, line, room);
            },
            file, path);
    }

    magbelu_piece drain_into(std::string_view sink, std::uint64_t max, void *bytes, std::size_t bytes_room, char *tags,
                             std::size_t tags_room) {
        return detail::tested(magbelu_stream_drain(&stream_, sink.data(), sink.size(), max, 0, bytes, bytes_room, tags,
                                                   tags_room), sink);
    }
};

} // namespace magbelu

#endif
