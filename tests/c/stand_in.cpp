/*
 * Stands for the library under tests/c/held.cpp: the calls that it makes, of one graph, a source `src`, a block `add`
 * that adds ten, and a sink `out`. It keeps no buffers: a settle takes what the tape has, a step counts.
 */
#include <algorithm>
#include <cstring>
#include <iterator>
#include <map>
#include <string>
#include <vector>

#include "magbelu.h"

namespace {

struct mark {
    std::uint64_t offset;
    std::string text;
};

struct plant {
    explicit plant(std::size_t item_size) : size(item_size) {}

    std::size_t size;
    std::vector<std::int64_t> tape, sink;
    std::vector<mark> marks;
    std::map<std::uint64_t, std::int64_t> added{{0, 10}};
    std::map<std::string, std::uint64_t> fired;
    bool is_closed = false, keeps_all = false, has_taps = false, is_uneven = false;
    std::uint64_t drained = 0;
};

const std::string names[] = {"src", "add", "out"};

magbelu_reply refuse(std::uint32_t number) { return {1, number, 0, 0}; }

/* The number by which a call of a block is refused that only `wanted` takes, or 0. */
std::uint32_t wrong(const magbelu_plant *held, const std::string &name, const char *wanted, std::uint32_t number) {
    if (!held->is_open) {
        return MAGBELU_NOT_OPEN;
    }
    for (const std::string &it : names) {
        if (it == name) {
            return name == wanted ? 0 : number;
        }
    }
    return 20;
}

plant &in(const magbelu_plant *held) { return *static_cast<plant *>(held->at); }

std::string text_of(const std::uint8_t *at, std::size_t len) {
    return std::string(reinterpret_cast<const char *>(at), len);
}

/* Writes a text where it fits. */
std::size_t put(const std::string &text, void *at, std::size_t room) {
    if (text.size() <= room) {
        std::memcpy(at, text.data(), text.size());
    }
    return text.size();
}

/* A number as an item of so many bytes has it, which is without a sign where it is one. */
std::int64_t wrapped(std::int64_t number, std::size_t size) {
    switch (size) {
    case 1:
        return static_cast<std::uint8_t>(number);
    case 2:
        return static_cast<std::int16_t>(number);
    default:
        return static_cast<std::int32_t>(number);
    }
}

magbelu_reply feed(plant &own, const std::vector<std::int64_t> &items, const magbelu_tag *tags, std::size_t count) {
    if (own.is_closed) {
        return refuse(23);
    }
    std::vector<mark> marks;
    for (std::size_t i = 0; i < count; i++) {
        const std::string key = text_of(tags[i].key, tags[i].key_len);
        if (key.find(' ') != std::string::npos) {
            return refuse(MAGBELU_BAD_KEY);
        }
        if (tags[i].offset < own.tape.size() || tags[i].offset >= own.tape.size() + items.size()) {
            return refuse(25);
        }
        const std::string place = "@" + std::to_string(tags[i].offset) + ":" + key;
        marks.push_back({tags[i].offset, place + "=" + std::to_string(tags[i].value) + "/0\n"});
    }
    for (std::int64_t it : items) {
        if (wrapped(it, own.size) != it) {
            return refuse(24);
        }
    }
    own.tape.insert(own.tape.end(), items.begin(), items.end());
    own.marks.insert(own.marks.end(), marks.begin(), marks.end());
    return {0, 0, 0, own.tape.size()};
}

/* How many items have come to a block for which it has not fired. */
std::uint64_t waiting(plant &own, const std::string &name) {
    const std::uint64_t come = name == "src" ? own.tape.size() : own.fired[name == "add" ? "src" : "add"];
    return come - own.fired[name];
}

/* Writes at most so many of the items that the sink took from one on, and their tags. */
magbelu_piece show(plant &own, std::uint64_t from, std::uint64_t max, std::uint8_t *bytes, std::size_t bytes_room,
                   std::uint8_t *tags, std::size_t tags_room) {
    const std::uint64_t end = from + std::min<std::uint64_t>(max, own.sink.size() - from);
    std::string items, lines;
    for (std::uint64_t at = from; at < end; at++) {
        items.append(reinterpret_cast<const char *>(&own.sink[at]), own.size);
    }
    std::stable_sort(own.marks.begin(), own.marks.end(),
                     [](const mark &a, const mark &b) { return a.offset < b.offset; });
    for (const mark &it : own.marks) {
        lines += it.offset >= from && it.offset < end ? it.text : "";
    }
    return {0, 0, own.sink.size(), own.size, put(items, bytes, bytes_room), put(lines, tags, tags_room)};
}

} // namespace

extern "C" {

magbelu_answer magbelu_bytes_explain(const std::uint8_t *name, std::size_t name_len, const std::uint8_t *, std::size_t,
                                     std::uint8_t *output, std::size_t room, std::uint8_t *error,
                                     std::size_t error_room) {
    const std::string why = ":1:1\n  |\n1 | [[block]]\n  | ^ a block needs the key `name`: a text\n";
    const std::string place = " --> " + text_of(name, name_len) + why;
    return {1, 42, put(place, output, room), put("flow: refused 42 MissingKey block 0 name\n", error, error_room)};
}

magbelu_fault_place magbelu_bytes_place(const std::uint8_t *file, std::size_t file_len, std::uint8_t *why,
                                        std::size_t room) {
    const std::string text = text_of(file, file_len);
    if (text == "[[block]]") {
        return {1, 42, 1, 1, 1, put("a block needs the key `name`: a text", why, room)};
    }
    if (text.find("qqqqqq") != std::string::npos) {
        return {1, 44, 3, 8, 8, put("there is no kind `qqqqqq`; there are: " + std::string(700, '-'), why, room)};
    }
    return {0, 0, 0, 0, 0, 0};
}

magbelu_answer magbelu_bytes_open(magbelu_plant *held, const std::uint8_t *file, std::size_t file_len,
                                  std::uint8_t *error, std::size_t error_room) {
    const std::string text = text_of(file, file_len);
    if (text == "[[block]]") {
        return {1, 42, 0, put("flow: refused 42 MissingKey block 0 name\n", error, error_room)};
    }
    const bool has_shorts = text.find("\"short\"") != std::string::npos;
    const bool has_ints = text.find("\"int\"") != std::string::npos;
    held->at = new plant(has_shorts ? 2 : has_ints ? 4 : 1);
    in(held).keeps_all = text.find("diff_encoder") != std::string::npos;
    in(held).has_taps = text.find("fir") != std::string::npos;
    in(held).is_uneven = text.find("keep_one_in_n") != std::string::npos;
    held->is_open = true;
    return {0, 0, 0, 0};
}

magbelu_reply magbelu_bytes_free(magbelu_plant *held) {
    if (!held->is_open) {
        return refuse(MAGBELU_NOT_OPEN);
    }
    delete &in(held);
    *held = MAGBELU_NO_PLANT;
    return {0, 0, 0, 0};
}

magbelu_reply magbelu_bytes_item_size(magbelu_plant *held, const std::uint8_t *name, std::size_t len) {
    const std::uint32_t number = wrong(held, text_of(name, len), "src", 21);
    return number != 0 ? refuse(number) : magbelu_reply{0, 0, 0, in(held).size};
}

magbelu_reply magbelu_bytes_feed(magbelu_plant *held, const std::uint8_t *name, std::size_t name_len, std::uint32_t,
                                 const std::uint8_t *bytes, std::size_t len, const magbelu_tag *tags,
                                 std::size_t count) {
    const std::uint32_t number = wrong(held, text_of(name, name_len), "src", 21);
    if (number != 0) {
        return refuse(number);
    }
    std::vector<std::int64_t> items;
    for (std::size_t at = 0; at < len; at += in(held).size) {
        std::int64_t item = 0;
        std::memcpy(&item, bytes + at, in(held).size);
        items.push_back(wrapped(item, in(held).size));
    }
    return feed(in(held), items, tags, count);
}

magbelu_reply magbelu_bytes_feed_numbers(magbelu_plant *held, const std::uint8_t *name, std::size_t name_len,
                                         const std::int64_t *numbers, std::size_t count, const magbelu_tag *tags,
                                         std::size_t tag_count) {
    const std::uint32_t number = wrong(held, text_of(name, name_len), "src", 21);
    return number != 0 ? refuse(number) : feed(in(held), std::vector<std::int64_t>(numbers, numbers + count), tags,
                                               tag_count);
}

magbelu_reply magbelu_bytes_close(magbelu_plant *held, const std::uint8_t *name, std::size_t len) {
    const std::uint32_t number = wrong(held, text_of(name, len), "src", 21);
    if (number != 0 || in(held).is_closed) {
        return refuse(number != 0 ? number : 23);
    }
    in(held).is_closed = true;
    return {0, 0, 0, in(held).tape.size()};
}

magbelu_reply magbelu_bytes_set(magbelu_plant *held, const std::uint8_t *name, std::size_t len, std::uint64_t at,
                                std::int64_t value) {
    const std::uint32_t number = wrong(held, text_of(name, len), "add", 28);
    if (number != 0) {
        return refuse(number);
    }
    at = at == MAGBELU_NOW ? in(held).sink.size() : at;
    if (at < in(held).sink.size()) {
        return {1, MAGBELU_LATE, 0, in(held).sink.size()};
    }
    in(held).added[at] = value;
    return {0, 0, 0, at};
}

magbelu_reply magbelu_bytes_set_taps(magbelu_plant *, const std::uint8_t *, std::size_t, std::uint64_t,
                                     const std::int16_t *, std::size_t) {
    return refuse(29);
}

magbelu_reply magbelu_bytes_step(magbelu_plant *held, const std::uint8_t *name, std::size_t len, std::uint32_t max) {
    const std::string own = text_of(name, len);
    const std::uint64_t count = std::min<std::uint64_t>(max, waiting(in(held), own));
    in(held).fired[own] += count;
    return count != 0 ? magbelu_reply{0, 0, MAGBELU_DID, count} : magbelu_reply{0, 0, MAGBELU_WAITS_ITEMS, 7};
}

magbelu_reply magbelu_bytes_settle(magbelu_plant *held) {
    plant &own = in(held);
    for (std::size_t at = own.sink.size(); at < own.tape.size(); at++) {
        own.sink.push_back(wrapped(own.tape[at] + std::prev(own.added.upper_bound(at))->second, own.size));
    }
    return {own.is_closed ? 0u : 3u, 0, 0, 0};
}

magbelu_answer magbelu_bytes_open_stream(magbelu_plant *held, const std::uint8_t *file, std::size_t file_len,
                                         std::uint8_t *error, std::size_t error_room) {
    return magbelu_bytes_open(held, file, file_len, error, error_room);
}

magbelu_answer magbelu_bytes_open_stream_at(magbelu_plant *held, const std::uint8_t *file, std::size_t file_len,
                                            std::uint64_t iterations, std::uint8_t *error, std::size_t error_room) {
    return iterations > std::uint64_t(1) << 46 ? magbelu_answer{1, MAGBELU_NO_CUT, 0, 0}
                                               : magbelu_bytes_open(held, file, file_len, error, error_room);
}

magbelu_reply magbelu_bytes_need(magbelu_plant *held, const std::uint8_t *name, std::size_t len) {
    const std::uint32_t number = wrong(held, text_of(name, len), "src", 0);
    if (number != 0 || text_of(name, len) != "src") {
        return number != 0 ? refuse(number) : magbelu_reply{0, 0, MAGBELU_WAITS_ITEMS, 0};
    }
    const plant &own = in(held);
    const std::uint32_t what =
        own.sink.size() < own.tape.size() ? MAGBELU_READY : own.is_closed ? MAGBELU_DONE : MAGBELU_WAITS_FEED;
    return {0, 0, what, 0};
}

magbelu_levels magbelu_bytes_levels(magbelu_plant *held, const std::uint8_t *name, std::size_t len) {
    const std::string own = text_of(name, len);
    const std::uint32_t number = wrong(held, own, "src", 0);
    if (number != 0) {
        return {1, number, 0, 0, 0};
    }
    return {0, 0, in(held).fired[own], in(held).fired[own], waiting(in(held), own)};
}

magbelu_piece magbelu_bytes_read(magbelu_plant *held, const std::uint8_t *name, std::size_t len, std::uint64_t from,
                                 std::uint64_t max, std::uint32_t, std::uint8_t *bytes, std::size_t bytes_room,
                                 std::uint8_t *tags, std::size_t tags_room) {
    const std::uint32_t number = wrong(held, text_of(name, len), "out", 22);
    if (number != 0 || from > in(held).sink.size()) {
        return {1, number != 0 ? number : 31, 0, 0, 0, 0};
    }
    return show(in(held), from, max, bytes, bytes_room, tags, tags_room);
}

magbelu_piece magbelu_bytes_drain(magbelu_plant *held, const std::uint8_t *name, std::size_t len, std::uint64_t max,
                                  std::uint32_t, std::uint8_t *bytes, std::size_t bytes_room, std::uint8_t *tags,
                                  std::size_t tags_room) {
    const std::uint32_t number = wrong(held, text_of(name, len), "out", 22);
    if (number != 0) {
        return {1, number, 0, 0, 0, 0};
    }
    plant &own = in(held);
    const magbelu_piece shown = show(own, own.drained, max, bytes, bytes_room, tags, tags_room);
    if (shown.bytes_len <= bytes_room && shown.tags_len <= tags_room) {
        own.drained += shown.bytes_len / own.size;
    }
    return shown;
}

magbelu_reply magbelu_bytes_block_count(magbelu_plant *held) {
    return held->is_open ? magbelu_reply{0, 0, 0, std::size(names)} : refuse(MAGBELU_NOT_OPEN);
}

magbelu_listed magbelu_bytes_block(magbelu_plant *held, std::uint32_t number, std::uint8_t *name, std::size_t name_room,
                                   std::uint8_t *kind, std::size_t kind_room) {
    static const char *const kinds[] = {"vector_source", "add_const", "vector_sink"};
    static const std::uint32_t roles[] = {MAGBELU_SOURCE, MAGBELU_WORK, MAGBELU_SINK};
    const std::uint32_t type = in(held).size == 1 ? MAGBELU_BYTE : in(held).size == 2 ? MAGBELU_SHORT : MAGBELU_INT;
    return {0, 0, roles[number], type, type, number != 0, number != 2, put(names[number], name,
        name_room), put(kinds[number], kind, kind_room)};
}

magbelu_reply magbelu_bytes_connections(magbelu_plant *, magbelu_connection *connections, std::size_t room) {
    if (room >= 2) {
        connections[0] = {0, 1, 0, 0};
        connections[1] = {1, 2, 0, 0};
    }
    return {0, 0, 0, 2};
}

magbelu_reply magbelu_bytes_rooms(magbelu_plant *, std::uint64_t *rooms, std::size_t room) {
    if (room >= 2) {
        rooms[0] = rooms[1] = 4096;
    }
    return {0, 0, 0, 2};
}

/* (taps are 0, 1, .., 99) */
magbelu_block_setting magbelu_bytes_setting(magbelu_plant *held, std::uint32_t number, std::int16_t *taps,
                                            std::size_t room) {
    if (number >= std::size(names)) {
        return {1, 20, 0, 0, 0, 0, 0};
    }
    if (number != 1) {
        return {0, 0, MAGBELU_FIXED, 0, 0, 0, 0};
    }
    if (in(held).has_taps) {
        for (std::size_t at = 0; at < 100 && room >= 100; at++) {
            taps[at] = static_cast<std::int16_t>(at);
        }
        return {0, 0, MAGBELU_TAPS, 0, 0, 0, 100};
    }
    const std::int64_t half = std::int64_t(1) << (8 * in(held).size - 1), least = in(held).size == 1 ? 0 : -half;
    return {0, 0, MAGBELU_NUMBER, least, least + 2 * half - 1, 10, 0};
}

magbelu_block_rates magbelu_bytes_rates(magbelu_plant *held, std::uint32_t number, std::uint64_t *takes,
                                        std::size_t room) {
    if (!held->is_open || number >= std::size(names)) {
        return {1, held->is_open ? 20u : 55u, 0, 0, 0, 0};
    }
    if (number != 0 && room >= 1) {
        takes[0] = 1;
    }
    return {0, 0, MAGBELU_ALIKE, 0, 1, number != 0};
}

magbelu_reply magbelu_bytes_firings(magbelu_plant *held, std::uint32_t *firings, std::size_t room) {
    if (in(held).is_uneven) {
        return {0, 0, MAGBELU_UNEVEN, 0};
    }
    for (std::size_t at = 0; at < std::size(names) && room >= std::size(names); at++) {
        firings[at] = 1;
    }
    return {0, 0, MAGBELU_BALANCED, std::size(names)};
}

magbelu_answer magbelu_bytes_draw(magbelu_plant *, std::uint32_t format, std::uint8_t *output, std::size_t room) {
    return {0, 0, put(format == MAGBELU_DOT ? "digraph {\n}\n" : "flowchart LR\n", output, room), 0};
}

/* (an item comes of the item of the same number alone) */
magbelu_slicing magbelu_bytes_slices(magbelu_plant *held, std::uint32_t, magbelu_cut_source *sources,
                                     std::size_t source_room, magbelu_cut_sink *sinks, std::size_t sink_room) {
    if (in(held).keeps_all) {
        return {1, MAGBELU_NO_SLICES, 1, 0, 0, 0};
    }
    if (source_room != 0) {
        sources[0] = {0, 1, 0};
    }
    if (sink_room != 0) {
        sinks[0] = {2, 1, 0};
    }
    return {0, 0, MAGBELU_NO_BLOCK, 0, 1, 1};
}

magbelu_slicing magbelu_bytes_slice(magbelu_plant *held, std::uint32_t, std::uint64_t begins, magbelu_cut_part *parts,
                                    std::size_t room) {
    if (in(held).keeps_all || begins > std::uint64_t(1) << 46) {
        return {1, in(held).keeps_all ? 63u : 64u, in(held).keeps_all ? 1 : MAGBELU_NO_BLOCK, 0, 0, 0};
    }
    if (room != 0) {
        parts[0] = {2, 0, begins};
    }
    return {0, 0, MAGBELU_NO_BLOCK, begins, 0, 1};
}

} // extern "C"
