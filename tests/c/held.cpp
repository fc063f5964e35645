/*
 * Graphs of c/magbelu.hpp that are held: right calls and wrong ones, over the library, or over tests/c/stand_in.cpp,
 * which has the one graph of these.
 */
#include <array>
#include <cstdlib>
#include <fstream>
#include <functional>
#include <iostream>

#include "magbelu.hpp"

using numbers = std::vector<std::int64_t>;

static void must(bool holds, const std::string &saying) {
    if (!holds) {
        std::cerr << "held: " << saying << '\n';
        std::exit(99);
    }
}

/* A source, a block that adds ten, and a sink. */
static std::string chain_file(const std::string &type) {
    const std::string own = "type = \"" + type + "\"";
    return "block = [{ name = \"src\", kind = \"vector_source\", " + own +
        " }, { name = \"add\", kind = \"add_const\", " + own +
           ", value = 10 },\n    { name = \"out\", kind = \"vector_sink\", " + own +
           " }]\nconnect = [{ from = \"src\", to = \"add\" }, { from = \"add\", to = \"out\" }]\n";
}

static magbelu::graph chain(const std::string &type) { return magbelu::graph(chain_file(type)); }

template <class Item>
static numbers items_of(magbelu::graph &graph, std::uint64_t from = 0, std::uint64_t max = UINT64_MAX) {
    const auto items = graph.read<Item>("out", from, max).items;
    return numbers(items.begin(), items.end());
}

/* A call is refused with this text, behind which the reason stands where no place in a file is shown. */
static void refuses(std::uint32_t number, const std::string &line, const std::function<void()> &call) {
    const std::string text = line.find('\n') == std::string::npos ? line + ": " + magbelu_reason(number) : line;
    try {
        call();
    } catch (const magbelu::refused &error) {
        must(error.number() == number && error.what() == text,
             "wanted '" + text + "', and it is '" + error.what() + "'");
        must(!error.floor(), "a first item that is open");
        const std::string head = std::to_string(number) + " " + error.name() +
            (error.detail().empty() ? "" : " " + error.detail());
        must(head == line.substr(0, line.find('\n')),
             "wanted the name and the detail of '" + line + "', and they are '" + head + "'");
        return;
    }
    must(false, "not refused: " + text);
}

static void reasons_are_told() {
    must(std::string(magbelu_name(27)) == "Late" && std::string(magbelu_reason(28)) == "the block has no setting",
         "a name and a reason");
    must(std::string(magbelu_name(7)) == "Loop" && std::string(magbelu_reason(7)) == "the block reaches itself",
         "those of a file");
    must(*magbelu_name(0) == 0 && *magbelu_reason(30) == 0 && *magbelu_name(UINT32_MAX) == 0,
         "of numbers that no call gives");
    auto graph = chain("byte");
    graph.feed("src", {1, 2, 3});
    graph.settle();
    try {
        graph.set("add", 5, 2);
    } catch (const magbelu::refused &error) {
        must(error.what() == std::string("27 Late add: the setting begins before the first item that is open, which is 3"), error.what());
        must(error.number() == MAGBELU_LATE && error.floor() == 3, "the first item that is open");
        return;
    }
    must(false, "a late setting is taken");
}

template <class Error>
static void throws(const std::function<void()> &call) {
    try {
        call();
    } catch (const Error &) {
        return;
    }
    must(false, "nothing is thrown");
}

static void items_come_out() {
    auto bytes = chain("byte");
    must(bytes.feed("src", {250, 1}) == 2, "the length of a tape");
    must(!bytes.settle(), "an open source is done");
    must(bytes.feed("src", std::vector<std::uint8_t>{2, 3}) == 4, "the length of a tape");
    must(bytes.close("src") == 4, "the length of a closed tape");
    must(bytes.settle(), "a closed source is not done");
    must(items_of<std::uint8_t>(bytes) == numbers{4, 11, 12, 13}, "bytes");
    must(items_of<std::uint8_t>(bytes, 1, 2) == numbers{11, 12}, "a part of them");
    must(bytes.read<std::uint8_t>("out", 4).items.empty() && bytes.read<std::uint8_t>("out", 4).held == 4, "the end");
    auto shorts = chain("short");
    shorts.feed("src", std::array<std::int16_t, 3>{-32768, 32767, -11});
    shorts.settle();
    must(items_of<std::int16_t>(shorts) == numbers{-32758, -32759, -1}, "shorts");
    auto ints = chain("int");
    const std::int32_t fed[] = {2147483647, -10};
    ints.feed("src", fed);
    ints.feed("src", fed, 1);
    ints.settle();
    must(items_of<std::int32_t>(ints) == numbers{-2147483639, 0, -2147483639}, "ints");
}

static void settings_and_tags_come_out() {
    auto graph = chain("byte");
    graph.feed("src", {250, 1, 2, 3}, {{3, "burst", -7}, {0, "a", INT64_MIN}});
    must(graph.set("add", 100, 2) == 2, "the place of a setting");
    must(graph.step("src", 3) == 3 && graph.step("add", 1) == 1 && graph.step("out") == 1 && graph.step("out") == 0,
         "counts of firings");
    graph.settle();
    must(items_of<std::uint8_t>(graph) == numbers{4, 11, 102, 103}, "a setting in the midst");
    const auto tags = graph.read<std::uint8_t>("out").tags;
    must(tags.size() == 2 && tags[0].offset == 0 && tags[0].key == "a" && tags[0].value == INT64_MIN, "the first tag");
    must(tags[1].offset == 3 && tags[1].key == "burst" && tags[1].value == -7 && tags[1].source == 0, "the second tag");
    must(graph.read<std::uint8_t>("out", 1, 2).tags.empty(), "tags of items that are not shown");
    must(graph.set("add", 0) == 4, "the place of a setting that is in force at once");
    // More tags than a first room takes.
    std::vector<magbelu::mark> many(1000, {4, "k", 1});
    graph.feed("src", {5}, many);
    graph.settle();
    must(graph.read<std::uint8_t>("out", 4).tags.size() == 1000 && items_of<std::uint8_t>(graph, 4) == numbers{5},
         "many tags");
}

static void wrong_calls_are_refused() {
    auto graph = chain("byte");
    refuses(20, "20 NoSuchBlock none", [&] { graph.feed("none", {1}); });
    refuses(21, "21 NotSource out", [&] { graph.close("out"); });
    refuses(22, "22 NotSink add", [&] { graph.read<std::uint8_t>("add"); });
    refuses(24, "24 ItemRange src", [&] { graph.feed("src", {256}); });
    refuses(25, "25 TagPlace src", [&] { graph.feed("src", {1}, {{1, "a", 1}}); });
    // What is in braces is taps, which the block has not, were it a single one.
    const std::vector<std::int16_t> taps{5};
    refuses(29, "29 WrongSetting add", [&] { graph.set("add", taps); });
    refuses(29, "29 WrongSetting add", [&] { graph.set("add", taps, 1); });
    refuses(29, "29 WrongSetting add", [&] { graph.set("add", {5}); });
    refuses(29, "29 WrongSetting add", [&] { graph.set("add", {5}, 1); });
    refuses(29, "29 WrongSetting add", [&] { graph.set("add", {5, 6}); });
    must(graph.set("add", 5) == 0 && graph.set("add", 5, 1) == 1, "the places of numbers");
    refuses(31, "31 BeyondEnd out", [&] { graph.read<std::uint8_t>("out", 1); });
    refuses(58, "58 BadKey src", [&] { graph.feed("src", {1}, {{0, "a b", 1}}); });
    throws<std::invalid_argument>([&] { graph.feed("src", std::vector<std::int16_t>{1}); });
    throws<std::invalid_argument>([&] { graph.read<std::int32_t>("out"); });
    graph.settle();
    must(items_of<std::uint8_t>(graph).empty(), "a refused call changes something");
    graph.close("src");
    refuses(23, "23 Closed src", [&] { graph.close("src"); });
}

static void places_of_faults_are_shown() {
    const std::string before = "42 MissingKey block 0 name\n --> ",
        behind = ":1:1\n  |\n1 | [[block]]\n  | ^ a block needs the key `name`: a text";
    refuses(42, before + "<graph>" + behind, [] { magbelu::graph("[[block]]"); });
    // A path so long that a first room does not take the place.
    const std::string path(10000, 'p');
    refuses(42, before + path + behind, [&] { magbelu::graph("[[block]]", path); });
}

static void places_of_faults_are_told() {
    const auto got = magbelu::place("[[block]]");
    must(got && got->line == 1 && got->column == 1 && got->length == 1, "where a file is refused");
    must(got->why == "a block needs the key `name`: a text", "why a file is refused");
    // A reason that does not fit a first room.
    const auto far = magbelu::place("[[block]]\nname = \"a\"\nkind = \"qqqqqq\"\n");
    must(far && far->line == 3 && far->column == 8 && far->length == 8, "where a kind is refused");
    must(far->why.size() > 600 && far->why.find("there is no kind `qqqqqq`; there are: ") == 0, "a long reason");
    must(!magbelu::place(chain_file("byte")), "a place in a file that is not refused");
}

static void graphs_are_moved_and_freed() {
    auto first = chain("byte");
    first.feed("src", {1});
    auto second = std::move(first);
    must(second.feed("src", {2}) == 2, "a graph that was moved");
    must(second.is_open() && !first.is_open(), "which of two is open");
    refuses(55, "55 NotOpen src", [&] { first.feed("src", {1}); });
    first = chain("short");
    second = std::move(first);
    must(second.item_size("src") == 2, "a graph that another was moved to");
}

static bool are(const magbelu::block_levels &levels, std::uint64_t taken, std::uint64_t given, std::uint64_t waiting) {
    return levels.taken == taken && levels.given == given && levels.waiting == waiting;
}

static void streams_tell_how_far_blocks_are() {
    magbelu::stream stream(chain_file("short"));
    stream.feed("src", {1, 2, 3});
    must(stream.step("src", 2) == 2 && stream.step("add") == 2 && stream.step("add") == 0, "how many firings are done");
    must(are(stream.levels("src"), 2, 2, 1) && are(stream.levels("add"), 2, 2, 0) && are(stream.levels("out"), 0, 0, 2),
         "how far blocks are");
    refuses(20, "20 NoSuchBlock none", [&] { stream.levels("none"); });
    auto other = std::move(stream);
    refuses(55, "55 NotOpen src", [&] { stream.levels("src"); });
    must(are(other.levels("src"), 2, 2, 1), "a stream that was moved");
}

static void streams_go_on() {
    magbelu::stream stream(chain_file("short"));
    must(stream.need("src") == magbelu::wait::feed && stream.need("out") == magbelu::wait::items,
         "what blocks wait for");
    for (std::int16_t at = 0; at < 300; at++) {
        const std::vector<std::int16_t> items(1000, at);
        must(stream.feed("src", items, {{at * 1000u, "k", at}}) == (at + 1) * 1000u, "how many items were fed");
        must(stream.need("src") == magbelu::wait::ready && !stream.settle(), "an open source is done");
        const auto some = stream.drain<std::int16_t>("out", 1);
        must(some.items == std::vector<std::int16_t>{static_cast<std::int16_t>(at + 10)} &&
            some.held == (at + 1) * 1000u, "the first item of a piece");
        must(some.tags.size() == 1 && some.tags[0].offset == at * 1000u && some.tags[0].value == at,
             "the tag of a piece");
        must(stream.drain<std::int16_t>("out").items.size() == 999 && stream.drain<std::int16_t>("out").items.empty(),
             "the others");
    }
    // More items and tags than a first room takes.
    stream.feed("src", std::vector<std::int16_t>(100000, 1), std::vector<magbelu::mark>(1000, {300000, "k", 1}));
    stream.close("src");
    must(stream.settle() && stream.need("src") == magbelu::wait::done, "a closed source is not done");
    const auto rest = stream.drain<std::int16_t>("out");
    must(rest.items == std::vector<std::int16_t>(100000, 11) && rest.tags.size() == 1000, "a large piece");
    refuses(22, "22 NotSink add", [&] { stream.drain<std::int16_t>("add"); });
    refuses(23, "23 Closed src", [&] { stream.feed("src", {1}); });
    throws<std::invalid_argument>([&] { stream.drain<std::uint8_t>("out"); });
    auto other = std::move(stream);
    must(other.drain<std::int16_t>("out").items.empty(), "a stream that was moved");
    refuses(55, "55 NotOpen out", [&] { stream.drain<std::int16_t>("out"); });
    refuses(42, "42 MissingKey block 0 name\n --> <graph>:1:1\n  |\n1 | [[block]]\n  | ^ a block needs the key `name`: a text", [] { magbelu::stream("[[block]]"); });
}

static void slices_are_told() {
    auto graph = chain("short");
    const auto plan = graph.slices();
    must(plan.overlap == 0 && plan.sources.size() == 1 && plan.sinks.size() == 1, "a plan");
    must(plan.sources[0].block == 0 && plan.sources[0].period == 1 && plan.sources[0].overlap == 0,
         "how a source is cut");
    must(plan.sinks[0].block == 2 && plan.sinks[0].period == 1 && plan.sinks[0].drop == 0, "how a sink is cut");
    const auto start = magbelu::stream(chain_file("short")).slice(5, true);
    must(start.leaves_out == 5 && start.parts.size() == 1 && start.parts[0].block == 2 && start.parts[0].drop == 0 &&
        start.parts[0].stands == 5, "a slice");
    must(plan.counts == MAGBELU_NO_BLOCK, "which block counts");
    refuses(64, "64 NoCut", [&] { graph.slice((std::uint64_t(1) << 46) + 1); });
    auto later = magbelu::stream::at(5, chain_file("short"));
    must(later.feed("src", {6, 7}) == 2 && !later.settle() &&
        later.drain<std::int16_t>("out").items == std::vector<std::int16_t>{16, 17}, "a stream for a slice");
    refuses(64, "64 NoCut", [] { magbelu::stream::at((std::uint64_t(1) << 46) + 1, chain_file("short")); });
    refuses(42, "42 MissingKey block 0 name\n --> a.toml:1:1\n  |\n1 | [[block]]\n  | ^ a block needs the key `name`: a text",
            [] { magbelu::stream::at(5, "[[block]]", "a.toml"); });
    magbelu::graph coded("block = [{ name = \"src\", kind = \"vector_source\", type = \"byte\" }, { name = \"code\", kind = \"diff_encoder\", modulus = 2 },\n"
                         "    { name = \"out\", kind = \"vector_sink\", type = \"byte\" }]\n"
                         "connect = [{ from = \"src\", to = \"code\" }, { from = \"code\", to = \"out\" }]\n");
    refuses(63, "63 NoSlices block 1", [&] { coded.slices(); });
    refuses(63, "63 NoSlices block 1", [&] { coded.slice(0); });
}

static void graphs_are_listed() {
    auto graph = chain("short");
    const auto blocks = graph.blocks();
    must(blocks.size() == 3 && blocks[0].name == "src" && blocks[0].kind == "vector_source" &&
        blocks[0].role == magbelu::role::source, "a source");
    must(blocks[0].inputs == 0 && blocks[0].outputs == 1 && blocks[0].output_type == magbelu::item_type::shorts,
         "its ports");
    must(blocks[1].role == magbelu::role::work && blocks[1].inputs == 1 &&
        blocks[1].input_type == magbelu::item_type::shorts, "a block that works");
    must(blocks[2].name == "out" && blocks[2].role == magbelu::role::sink && blocks[2].outputs == 0, "a sink");
    const auto connections = magbelu::stream(chain_file("int")).connections();
    must(connections.size() == 2 && connections[0].from == 0 && connections[0].to == 1 && connections[1].from == 1 &&
        connections[1].to == 2, "connections");
    must(connections[1].out_port == 0 && connections[1].in_port == 0, "their ports");
    must(graph.draw().rfind("digraph {\n", 0) == 0 && graph.draw(magbelu::drawing::mermaid).rfind("flowchart LR\n",
        0) == 0, "drawings");
    auto other = std::move(graph);
    refuses(55, "55 NotOpen", [&] { graph.blocks(); });
}

/* A source, a block with this kind and these parameters, and a sink, of shorts. */
static std::string with_block(const std::string &words) {
    return "block = [{ name = \"src\", kind = \"vector_source\", type = \"short\" }, { name = \"own\", " + words +
           " },\n    { name = \"out\", kind = \"vector_sink\", type = \"short\" }]\n"
           "connect = [{ from = \"src\", to = \"own\" }, { from = \"own\", to = \"out\" }]\n";
}

static void settings_and_rates_are_told() {
    auto graph = chain("short");
    must(graph.rooms() == std::vector<std::uint64_t>{4096, 4096}, "rooms");
    const auto setting = graph.setting(1);
    must(setting.number && setting.number->least == -32768 && setting.number->most == 32767 &&
        setting.number->value == 10 && !setting.taps, "a number");
    must(!graph.setting(0).number && !graph.setting(2).taps, "nothing that may be set");
    refuses(20, "20 NoSuchBlock", [&] { graph.setting(3); });
    const auto rates = graph.rates(1);
    must(rates.takes == std::vector<std::uint64_t>{1} && rates.gives == 1 && rates.shift == magbelu::shift::alike &&
        rates.shifted == 0, "rates");
    must(graph.rates(0).takes.empty() && graph.rates(2).takes.size() == 1, "those of a source and a sink");
    refuses(20, "20 NoSuchBlock", [&] { graph.rates(3); });
    must(graph.firings() == std::vector<std::uint32_t>{1, 1, 1}, "firings");
    std::string taps = "0";
    for (int at = 1; at < 100; at++) {
        taps += ", " + std::to_string(at);
    }
    const auto file = with_block("kind = \"fir\", type = \"short\", taps = [" + taps + "]");
    const auto own = magbelu::stream(file).setting(1).taps;
    must(own && own->size() == 100 && own->at(0) == 0 && own->at(99) == 99, "taps");
    const std::string halved =
        "kind = \"keep_one_in_n\", type = \"short\", n = 2 }, { name = \"sum\", kind = \"add\", type = \"short\"";
    auto uneven = magbelu::graph("block = [{ name = \"src\", kind = \"vector_source\", type = \"short\" }, { name = \"half\", " + halved +
                                 " },\n    { name = \"out\", kind = \"null_sink\", type = \"short\" }]\n"
                                 "connect = [{ from = \"src\", to = \"half\" }, { from = \"src\", to = \"sum\" },\n"
                                 "    { from = \"half\", to = \"sum\", to_port = 1 }, { from = \"sum\", to = \"out\" }]\n");
    must(!uneven.firings(), "rates without a balance");
    auto other = std::move(graph);
    refuses(55, "55 NotOpen", [&] { graph.rates(1); });
}

/* files PATH: what is opened of a file that is written there */
static void files_are_opened(const std::string &path) {
    std::ofstream(path) << chain_file("byte");
    must(magbelu::graph::from_file(path).item_size("src") == 1 && magbelu::stream::from_file(path).is_open(),
         "what a file opens");
    std::ofstream(path) << "[[block]]";
    const std::string place = "\n --> " + path + ":1:1\n  |\n1 | [[block]]\n  | ^ a block needs the key `name`: a text";
    refuses(42, "42 MissingKey block 0 name" + place, [&] { magbelu::stream::from_file(path); });
    throws<std::system_error>([&] { magbelu::graph::from_file(path + "/none"); });
}

int main(int, char **words) {
    files_are_opened(std::string(words[0]) + ".toml");
    graphs_are_listed();
    settings_and_rates_are_told();
    slices_are_told();
    reasons_are_told();
    streams_tell_how_far_blocks_are();
    streams_go_on();
    items_come_out();
    settings_and_tags_come_out();
    wrong_calls_are_refused();
    places_of_faults_are_shown();
    places_of_faults_are_told();
    graphs_are_moved_and_freed();
}
