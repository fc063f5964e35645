"""python/magbelu over the examples, raw items, tags, settings, and what is wrong. tests/parts/c.sh calls it, with the
top of the checkout."""

import array
import copy
import pathlib
import pickle
import random
import re
import sys
import tempfile
import threading

import magbelu
from magbelu._ports import ports
from shared import CHAIN, chain, generated, raises, refuses, tomllib

top = pathlib.Path(sys.argv[1])


def examples():
    for folder in sorted((top / "examples").iterdir()):
        if not (folder / "graph.toml").exists():
            continue
        file = (folder / "graph.toml").read_bytes()
        if (folder / "script").exists():
            assert magbelu.script(file, (folder / "script").read_bytes()) == (folder / "expected").read_text(), folder
        if (folder / "expected_check").exists():
            assert magbelu.check(file) == (folder / "expected_check").read_text(), folder
        if (folder / "expected_run").exists():
            wanted = (folder / "expected_run").read_text()
            assert magbelu.run(file) == (wanted, not wanted.endswith("stalled\n")), folder


def numbers_come_out():
    for item_type, numbers, wanted in [
        ("byte", [250, 1, 2, 3], [4, 11, 12, 13]),
        ("short", [-32768, 32767, -11], [-32758, -32759, -1]),
        ("int", [2147483647, -10], [-2147483639, 0]),
    ]:
        graph = chain(item_type)
        assert graph.feed("src", numbers[:1]) == 1
        assert graph.settle() is False
        assert list(graph.read("out")[0]) == wanted[:1]
        assert graph.feed("src", numbers[1:]) == len(numbers)
        assert graph.close("src") == len(numbers)
        assert graph.settle() is True
        items, tags = graph.read("out")
        assert list(items) == wanted and tags == [], (item_type, items, tags)
        assert list(graph.read("out", 1, 1)[0]) == wanted[1:2]


def settings_and_tags_come_out():
    for by_numbers in (True, False):
        graph = chain("byte")
        graph.feed("src", [250, 1] if by_numbers else bytes([250, 1]))
        graph.feed("src", [2, 3], tags=[(3, "burst", -7)])
        assert graph.set("add", 100, at=2) == 2
        assert graph.settle() is False
        items, tags = graph.read("out")
        assert list(items) == [4, 11, 102, 103]
        assert tags == [(3, "burst", -7, 0)] and tags[0].key == "burst" and tags[0].source == 0
        assert graph.read("out", 0, 3)[1] == []
        assert graph.set("add", 0) == 4
        graph.feed("src", b"\5", tags=[(4, "end", 1)])
        graph.settle()
        assert list(graph.read("out", 4)[0]) == [5] and graph.read("out", 4)[1] == [(4, "end", 1, 0)]


def taps_are_set():
    graph = magbelu.Graph.from_text("""
block = [{ name = "src", kind = "vector_source", type = "short" }, { name = "fir", kind = "fir", type = "short", taps = [1, 0], shift = 0 },
    { name = "out", kind = "vector_sink", type = "short" }]
connect = [{ from = "src", to = "fir" }, { from = "fir", to = "out" }]
""")
    graph.feed("src", [1, 2, 3, 4])
    assert graph.set("fir", [0, 1], at=2) == 2
    refuses(29, "WrongSetting", lambda: graph.set("fir", [1]))
    refuses(29, "WrongSetting", lambda: graph.set("fir", [1, 2**20]))
    graph.settle()
    assert list(graph.read("out")[0]) == [1, 2, 2, 3]


def steps_are_made():
    graph = chain("int")
    graph.feed("src", [1, 2, 3])
    assert graph.step("src", 2) == 2 and graph.step("add") == 2 and graph.step("out", 1) == 1
    assert list(graph.read("out")[0]) == [11]
    assert graph.step("add") == 0


def long_streams_go_through_each_way():
    numbers = array.array("h", [at % 30000 for at in range(20000)])
    wanted = [at % 30000 + 10 for at in range(20000)]
    for items, tags in [(numbers, []), (numbers, [(19999, "end", 1)]), (list(numbers), []), (numbers.tobytes(), [])]:
        graph = chain("short")
        graph.feed("src", items, tags)
        graph.settle()
        items, shown = graph.read("out")
        assert list(items) == wanted and len(shown) == len(tags)


def feeds_of_the_file_come_first():
    graph = magbelu.Graph.from_file(top / "examples/echo/graph.toml")
    assert graph.feed("src", [50]) == 5
    graph.settle()
    items, tags = graph.read("dry")
    assert list(items) == [10, 20, 30, 40, 50] and tags == [(1, "mark", 7, 0)]
    graph.feed("src", [60], tags=[(5, "more", 1)])
    graph.settle()
    items, tags = graph.read("dry")
    assert list(items) == [10, 20, 30, 40, 50, 60] and tags == [(1, "mark", 7, 0), (5, "more", 1, 0)]


def stalls_are_told():
    graph = magbelu.Graph.from_file(top / "examples/stall/graph.toml")
    assert graph.settle() is False
    assert magbelu.run((top / "examples/stall/graph.toml").read_text())[1] is False


def sink_line(name, graph):
    items, tags = graph.read(name)
    return " ".join(["sink", name, str(len(items)), *map(str, items), *("@%d:%s=%d/%d" % it for it in tags)])


def held_as_run(text, feeds=()):
    """A graph that is held, fed these pieces with a rest after each, comes to what a run reports of it."""
    blocks = tomllib.loads(text)["block"]
    graph = magbelu.Graph.from_text(text)
    for source, items in feeds:
        graph.feed(source, items)
        graph.settle()
    for block in blocks:
        if block["kind"] == "vector_source":
            graph.close(block["name"])
    end = "done" if graph.settle() else "stalled"
    return [sink_line(it["name"], graph) for it in blocks if it["kind"] == "vector_sink"] + [end]


def held_graphs_come_to_what_runs_tell():
    if tomllib is None:
        print("c: files are left out, for want of tomllib")
        return
    for file in sorted([*top.glob("examples/*/graph.toml"), *top.glob("tests/graphs/*.toml")]):
        text = file.read_text()
        try:
            wanted = magbelu.run(text)[0]
        except magbelu.Refused as error:
            assert refuses(error.number, error.name, lambda: magbelu.Graph.from_text(text)).detail == error.detail
            continue
        if tomllib.loads(text).get("block"):
            assert held_as_run(text) == wanted.splitlines(), file


def generated_graphs_come_to_what_runs_tell():
    if tomllib is None:
        return
    rng, done = random.Random(32), 0
    while done < 100:
        text, fed, pieces = generated(rng)
        try:
            wanted = magbelu.run(fed)[0]
        except magbelu.Refused as error:
            refuses(error.number, error.name, lambda: magbelu.Graph.from_text(fed))
            continue
        assert held_as_run(text, [("src", piece) for piece in pieces]) == wanted.splitlines(), fed
        done += 1


def freed_graphs_are_refused():
    with chain("byte") as graph:
        graph.feed("src", [1])
    for call in [
        lambda: graph.feed("src", [1]), lambda: graph.settle(), lambda: graph.read("out"), lambda: graph.set("add", 1),
        lambda: graph.close("src"),
    ]:
        refuses(55, "NotOpen", call)
    graph.free()
    graph.free()


def threads_call_one_graph():
    """Each call of one graph is made as a whole, whichever thread makes it."""
    with chain("byte") as graph:
        def work(value):
            for _ in range(200):
                graph.feed("src", [value] * 10)
                graph.settle()

        threads = [threading.Thread(target=work, args=(value,)) for value in range(8)]
        for thread in threads:
            thread.start()
        for thread in threads:
            thread.join()
        items = list(graph.read("out")[0])
    assert sorted(items) == [value + 10 for value in range(8) for _ in range(2000)]
    assert all(items[at : at + 10] == items[at : at + 1] * 10 for at in range(0, len(items), 10))


def raw_items_in_and_out():
    file = CHAIN % ("short", "short", "short")
    assert magbelu.run_items(file, [("src", b"\1\0\2\0")], ["out", ("out", "tags")]) == ([b"\x0b\0\x0c\0", b""], True)
    assert magbelu.run_items(
        file, [("src", bytearray(b"\0\1")), ("src", memoryview(b"\0\2"))], ["out"], big_endian=True, room=0
    ) == ([b"\0\x0b\0\x0c"], True)
    assert magbelu.run_items(file, [], []) == ([], True)


def what_is_wrong_is_refused():
    graph = chain("byte")
    refuses(40, "Syntax", lambda: magbelu.Graph.from_text("x"))
    refuses(40, "Syntax", lambda: magbelu.check(b"\xff"))
    assert (
        refuses(
            8,
            "TooFewPorts",
            lambda: magbelu.run(
                (CHAIN % (3 * ("byte",))).replace('from = "src", to = "add"', 'from = "add", to = "add"')
            ),
        ).detail
        == "src"
    )
    refuses(20, "NoSuchBlock", lambda: graph.feed("none", [1]))
    refuses(21, "NotSource", lambda: graph.feed("out", [1]))
    refuses(22, "NotSink", lambda: graph.read("add"))
    refuses(24, "ItemRange", lambda: graph.feed("src", [256]))
    refuses(24, "ItemRange", lambda: graph.feed("src", [2**70]))
    refuses(24, "ItemRange", lambda: graph.feed("src", [-(2**70)]))
    refuses(25, "TagPlace", lambda: graph.feed("src", [1], tags=[(1, "a", 1)]))
    refuses(25, "TagPlace", lambda: graph.feed("src", [1], tags=[(-1, "a", 1)]))
    refuses(25, "TagPlace", lambda: graph.feed("src", [1], tags=[(2**64, "a", 1)]))
    refuses(28, "NoSetting", lambda: graph.set("src", 1))
    refuses(29, "WrongSetting", lambda: graph.set("add", 256))
    refuses(29, "WrongSetting", lambda: graph.set("add", 2**70))
    refuses(31, "BeyondEnd", lambda: graph.read("out", 1))
    refuses(31, "BeyondEnd", lambda: graph.read("out", 2**64))
    # What is no item, and no place of one, is refused behind what is no block.
    refuses(20, "NoSuchBlock", lambda: graph.feed("none", [2**70]))
    refuses(20, "NoSuchBlock", lambda: graph.set("none", [2**70]))
    refuses(22, "NotSink", lambda: graph.read("add", 2**64))
    assert refuses(20, "NoSuchBlock", lambda: graph.close(b" a\xff")).detail == " a\\xff"
    graph.settle()
    assert len(graph.read("out")[0]) == 0
    refuses(23, "Closed", lambda: [graph.close("src"), graph.close("src")])
    refuses(58, "BadKey", lambda: graph.feed("src", [1], tags=[(0, "a b", 1)]))
    refuses(53, "CutItem", lambda: chain("int").feed("src", b"\0"))
    refuses(53, "CutItem", lambda: magbelu.run_items(CHAIN % (3 * ("int",)), [("src", b"\0")], []))
    assert refuses(22, "NotSink", lambda: magbelu.run_items(CHAIN % (3 * ("int",)), [], ["src"])).detail == "output 0"
    error = refuses(50, "BadLine", lambda: magbelu.script(CHAIN % (3 * ("byte",)), "feed src 1 2\nno line\n"))
    assert error.detail == "2" and error.output == "fed 2\n"


def nothing_is_cut():
    """What is no integer goes nowhere: the graph is as it was."""
    graph = chain("byte")
    for call in [
        lambda: graph.feed("src", [0.9]),
        lambda: graph.feed("src", "12"),
        lambda: graph.feed("src", [1 + 2j]),
        lambda: graph.feed("src", [True]),
        lambda: graph.set("add", 2.9),
        lambda: graph.step("src", 1.5),
        lambda: magbelu.run_items(CHAIN % (3 * ("int",)), [("src", array.array("h", [1]))], ["out"]),
    ]:
        raises(TypeError, call)
    for call in [
        lambda: graph.feed("src", [1], tags=[(0, "k", 2**63)]),
        lambda: graph.step("src", -1),
        lambda: graph.set("add", 1, at=2**64 - 1),
        lambda: magbelu.run_items(CHAIN % (3 * ("int",)), [], [("out", "tag")]),
    ]:
        raises(ValueError, call)
    graph.feed("src", [1], tags=[(0, "least", -(2**63)), (0, "greatest", 2**63 - 1)])
    assert graph.settle() is False
    items, tags = graph.read("out", 0, 2**64)
    # (the tags of an item are in the order of their keys)
    assert list(items) == [11] and tags == [(0, "greatest", 2**63 - 1, 0), (0, "least", -(2**63), 0)]


def places_of_faults_are_shown():
    """As `flow --explain` shows them."""
    text, shown = "[[block]]", " --> %s:1:1\n  |\n1 | [[block]]\n  | ^ a block needs the key `name`: a text\n"
    for call in [
        lambda: magbelu.Graph.from_text(text),
        lambda: magbelu.check(text),
        lambda: magbelu.run(text),
        lambda: magbelu.script(text, ""),
        lambda: magbelu.run_items(text, [], []),
    ]:
        error = refuses(42, "MissingKey", call)
        assert error.detail == "block 0 name" and error.place == shown % "<graph>", error.place
        assert str(error) == "42 MissingKey block 0 name\n" + (shown % "<graph>").rstrip("\n"), error
    with tempfile.TemporaryDirectory() as folder:
        path = pathlib.Path(folder) / "graph.toml"
        path.write_text(text)
        assert refuses(42, "MissingKey", lambda: magbelu.Graph.from_file(path)).place == shown % path
    # A path so long that a first buffer does not take the place.
    path = 10000 * "p"
    assert refuses(42, "MissingKey", lambda: magbelu.Graph(text, path)).place == shown % path
    # What is refused behind the file has no place in it.
    for number, name, call in [
        (20, "NoSuchBlock", lambda: chain("byte").close("none")),
        (50, "BadLine", lambda: magbelu.script(CHAIN % (3 * ("byte",)), "no line\n")),
        (22, "NotSink", lambda: magbelu.run_items(CHAIN % (3 * ("byte",)), [], ["src"])),
    ]:
        error = refuses(number, name, call)
        assert (
            error.place == "" and "\n" not in str(error) and error.reason and str(error).endswith(": " + error.reason)
        ), error


def places_of_faults_are_told():
    """Lines and columns count from 1, in characters."""
    assert magbelu.place("[[block]]") == (1, 1, 1, "a block needs the key `name`: a text")
    for text, place in [
        ('[[block]]\nname = "a"\nkind = "nüll"\n', (3, 8, 6)),
        ('block = [{ name = "a", kind = "add_const", type = "byte", value = 1.5 }]', (1, 67, 3)),
        ('[[block]]\nname = """a\nb"""\nkind = "abs"\ntype = "byte"\n', (2, 8, 4)),
        ("a b", (1, 3, 1)),
        (b"a = 1\n\xff", (2, 1, 1)),
    ]:
        found = magbelu.place(text)
        assert found[:3] == place and found.why, (text, found)
    assert magbelu.place(magbelu.EXAMPLE) is None and magbelu.place("") is None


def places_are_those_that_flow_shows():
    """Of each file of `tests/cases/explained` whose fault `flow --explain` shows: line, column and reason."""
    count = 0
    for said in sorted((top / "tests/cases/explained").glob("*/stderr")):
        shown = re.search(r"^ +--> graph\.toml:(\d+):(\d+)\n.*\n.*\n *\|\s+\^ (.*)$", said.read_text(), re.MULTILINE)
        if shown:
            found = magbelu.place((said.parent / "graph.toml").read_bytes())
            assert (found.line, found.column, found.why) == (int(shown[1]), int(shown[2]), shown[3]), (said, found)
            count += 1
    assert count > 50, count


def late_settings_tell_what_is_open():
    graph = chain("byte")
    graph.feed("src", [1, 2, 3, 4])
    graph.settle()
    error = refuses(27, "Late", lambda: graph.set("add", 1, at=2))
    assert (error.floor, error.detail) == (4, "add") and str(error).endswith(
        "the first item that is open, which is 4"
    ), error
    assert graph.set("add", 1, at=error.floor) == 4
    assert refuses(28, "NoSetting", lambda: graph.set("src", 1)).floor is None


def paths_are_told_from_texts():
    """Who gives a path in place of a text is told what opens one."""
    with tempfile.TemporaryDirectory() as folder:
        path = pathlib.Path(folder) / "graph"
        path.write_text(CHAIN % (3 * ("byte",)))
        for text in ["no/such/graph.toml", "graph.toml", str(path)]:
            for call in [magbelu.Graph, magbelu.Stream, magbelu.check, magbelu.run]:
                assert "Graph.from_file" in str(refuses(40, "Syntax", lambda: call(text))), text
        for text in ["graph", "x\ny.toml", "[[block]]"]:
            try:
                magbelu.Graph(text)
            except magbelu.Refused as error:
                assert "from_file" not in str(error), error
        path.write_text("x.toml")
        for call in [magbelu.Graph.from_file, magbelu.Stream.from_file, ports]:
            assert refuses(40, "Syntax", lambda: call(path)).place.startswith(" --> %s:1:" % path)
        assert "from_file" not in str(refuses(40, "Syntax", lambda: magbelu.Graph.from_file(path)))


def graphs_are_drawn_as_by_flow():
    page = (top / "docs/user/COMMANDS.md").read_text()
    wanted = page[page.index("digraph {") :].partition("}\n$")[0] + "}\n"
    assert magbelu.Graph.from_file(top / "examples/frames/graph.toml").draw() == wanted
    for file in sorted(top.glob("tests/graphs/*.toml")):
        try:
            graph = magbelu.Graph.from_file(file)
        except magbelu.Refused:
            continue
        assert graph.draw().count(" -> ") == int(magbelu.check(file.read_bytes()).split()[3]), file


def graphs_tell_what_they_are():
    graph = magbelu.Graph.from_file(top / "examples/echo/graph.toml")
    assert graph.blocks[0] == ("src", "vector_source", "source", 0, None, 1, "byte"), graph.blocks
    assert graph.blocks[2] == ("sum", "add", "work", 2, "byte", 1, "byte") and graph.blocks[4] == (
        "dry", "vector_sink", "sink", 1, "byte", 0, None,
    )
    assert [it.name for it in graph.sources] == ["src"] and [(it.name, it.size) for it in graph.sinks] == [
        ("out", 1),
        ("dry", 1),
    ]
    assert graph.connections[2] == ("late", 0, "sum", 1) and len(graph.connections) == 5, graph.connections
    assert "5 blocks, 5 connections, sources src (byte), sinks out (byte), dry (byte)>" in repr(graph), graph
    # One that changes its type, drops, and has two outputs.
    text = """block = [{ name = "a", kind = "vector_source", type = "byte" }, { name = "b", kind = "convert", type = "byte", to = "int" },
    { name = "c", kind = "deinterleave", type = "int", ports = 2 }, { name = "d", kind = "null_sink", type = "int" }, { name = "e", kind = "null_sink", type = "int" }]
connect = [{ from = "a", to = "b" }, { from = "b", to = "c" }, { from = "c", from_port = 1, to = "e" }, { from = "c", to = "d" }]"""
    for held in [magbelu.Graph(text), magbelu.Stream(text)]:
        assert held.blocks[1:4] == [
            ("b", "convert", "work", 1, "byte", 1, "int"), ("c", "deinterleave", "work", 1, "int", 2, "int"),
            ("d", "null_sink", "null_sink", 1, "int", 0, None),
        ]
        assert held.connections[2:] == [("c", 1, "e", 0), ("c", 0, "d", 0)] and held.sinks == []
        held.free()
        assert "freed" in repr(held) and not held.is_open
        refuses(55, "NotOpen", held.draw)
    empty = magbelu.Graph("")
    assert (
        empty.blocks == [] and empty.connections == [] and repr(empty) == "<Graph of <graph>: 0 blocks, 0 connections>"
    )
    # As many blocks as a graph may have, with the longest names.
    ends = [("s%031d" % at, "n%031d" % at) for at in range(128)]
    rows = [
        '{ name = "%s", kind = "vector_source", type = "int" }, { name = "%s", kind = "null_sink", type = "int" }' % it
        for it in ends
    ]
    wide = magbelu.Stream(
        "block = [%s]\nconnect = [%s]" % (", ".join(rows), ", ".join('{ from = "%s", to = "%s" }' % it for it in ends))
    )
    assert (
        len(wide.blocks) == 256
        and wide.blocks[255].name == ends[127][1]
        and wide.connections[127] == (ends[127][0], 0, ends[127][1], 0)
    )


def graphs_tell_how_blocks_move():
    """Of `slow` a firing takes six items and gives two, so that those before it fire six times for it, and its sink
    twice."""
    text = """block = [{ name = "src", kind = "vector_source", type = "short" }, { name = "skip", kind = "skiphead", type = "short", n = 5 },
    { name = "zeros", kind = "delay", type = "short", n = 4 }, { name = "slow", kind = "fir", type = "short", taps = [1, -2, 3], decimation = 3, multiple = 2 },
    { name = "gain", kind = "scale", type = "short", factor = -3, capacity = 9000 }, { name = "out", kind = "vector_sink", type = "short" }]
connect = [{ from = "src", to = "skip" }, { from = "skip", to = "zeros" }, { from = "zeros", to = "slow" }, { from = "slow", to = "gain" }, { from = "gain", to = "out" }]"""
    for held in [magbelu.Graph(text), magbelu.Stream(text)]:
        assert held.rooms == [4096, 4096, 4096, 4096, 9000], held.rooms
        assert held.firings == {"src": 6, "skip": 6, "zeros": 6, "slow": 1, "gain": 2, "out": 2}, held.firings
        assert (
            held.rates("skip") == ([1], 1, "skips", 5)
            and held.rates("zeros") == ([1], 1, "delays", 4)
            and held.rates("slow") == ([6], 2, None, 0)
        )
        assert held.rates("src").takes == [] and held.rates("out").takes == [1]
        assert (
            held.setting("slow") == (-32768, 32767, [1, -2, 3])
            and held.setting("gain") == (-32768, 32767, -3)
            and held.setting("zeros") is None
        )
        # What is told may be set, and no more.
        for value in held.setting("gain")[:2]:
            held.set("gain", value)
        refuses(29, "WrongSetting", lambda: held.set("gain", 32768))
        refuses(29, "WrongSetting", lambda: held.set("slow", [1, 2]))
        refuses(20, "NoSuchBlock", lambda: held.setting("none"))
        refuses(20, "NoSuchBlock", lambda: held.rates("none"))
        held.free()
        refuses(55, "NotOpen", lambda: held.rates("slow"))
        refuses(55, "NotOpen", lambda: held.setting("slow"))
    # Ends that fire otherwise often have no balance.
    uneven = """block = [{ name = "src", kind = "vector_source", type = "byte" }, { name = "half", kind = "keep_one_in_n", type = "byte", n = 2 },
    { name = "sum", kind = "add", type = "byte" }, { name = "out", kind = "vector_sink", type = "byte" }]
connect = [{ from = "src", to = "half" }, { from = "src", to = "sum" }, { from = "half", to = "sum", to_port = 1 }, { from = "sum", to = "out" }]"""
    assert magbelu.Graph(uneven).firings is None and magbelu.Graph("").firings == {}


def copies_begin_anew():
    graph = chain("byte")
    graph.feed("src", [1, 2])
    for other in [copy.copy(graph), copy.deepcopy(graph), pickle.loads(pickle.dumps(graph))]:
        assert other.feed("src", [5]) == 1 and other.settle() is False and list(other.read("out")[0]) == [15]
    assert graph.feed("src", [3]) == 3


def builders_build():
    """What is built gives what the file gives that says the same, and each wrong call is refused as that file is."""
    builder = magbelu.Builder()
    builder.block("src", "vector_source", type="byte", capacity=16)
    builder.block("late", "delay", type="byte", n=2)
    builder.block("sum", "add", type="byte", tags="all")
    builder.block("code", "map_bb", map=bytes([3, 2, 1]))
    for name in ("out", "dry"):
        builder.block(name, "vector_sink", type="byte")
    for writer, reader in [
        ("src", "late"), ("src", "sum"), (("late", 0), ("sum", 1)), ("sum", "code"), ("code", "out"), ("src", "dry"),
    ]:
        builder.connect(writer, reader)
    graph = builder.graph()
    graph.feed("src", [1, 1, 0])
    graph.settle()
    # (1 1 0 and 0 0 1 are 1 1 1, which the map turns)
    assert list(graph.read("out")[0]) == [2, 2, 2] and list(graph.read("dry")[0]) == [1, 1, 0]
    assert builder.stream().blocks == graph.blocks and magbelu.Graph(builder.to_toml()).connections == graph.connections
    before = builder.to_toml()
    assert (
        refuses(41, "UnknownKey", lambda: builder.block("fir", "fir", type="short", taps=[1], decim=2)).detail
        == "block 6"
    )
    for number, name, call in [
        (1, "DuplicateName", lambda: builder.block("src", "abs", type="int")),
        (42, "MissingKey", lambda: builder.block("fir", "fir", type="short")),
        (43, "WrongType", lambda: builder.block("fir", "fir", type="short", taps=1)),
        (44, "UnknownKind", lambda: builder.block("fir", "firr", type="short")),
        (10, "BadParameter", lambda: builder.block("fir", "fir", type="short", taps=[1], decimation=0)),
        (10, "BadParameter", lambda: builder.block("fir", "fir", type="byte", taps=[1])),
        (10, "BadParameter", lambda: builder.block("a b", "abs", type="int")),
        (2, "UnknownBlock", lambda: builder.connect("src", "none")),
        (2, "UnknownBlock", lambda: builder.connect("none", "src")),
        (3, "PortRange", lambda: builder.connect("src", ("late", 1))),
        (3, "PortRange", lambda: builder.connect(("src", -1), "sum")),
        (4, "InputTaken", lambda: builder.connect("src", "out")),
    ]:
        refuses(number, name, call)
    assert "--> the block fir:1:" in str(refuses(44, "UnknownKind", lambda: builder.block("fir", "firr", type="short")))
    assert "there are: src, late, sum" in str(refuses(2, "UnknownBlock", lambda: builder.connect("src", "none")))
    builder.block("ints", "abs", type="int")
    refuses(6, "TypeMismatch", lambda: builder.connect("src", "ints"))
    for call in [
        lambda: builder.block("x", "add_const", type="byte", value=1.0),
        lambda: builder.block("x", "add_const", type="byte", value=True),
        lambda: builder.block("x", "fir", type="short", taps=[1, 2.5]),
        lambda: builder.block(5, "abs", type="int"),
        lambda: builder.block("x", None),
        lambda: builder.connect("src", ("sum", "1")),
        lambda: builder.connect("src", 5),
    ]:
        raises(TypeError, call)
    assert builder.to_toml().replace('    { name = "ints", kind = "abs", type = "int" },\n', "") == before
    # What only the whole graph can be refused for.
    assert refuses(8, "TooFewPorts", builder.graph).detail == "ints"


def each_kind_is_built():
    """The keywords of each kind are the keys that its page has."""
    for name, page in magbelu.KINDS.items():
        assert page.startswith(name + ": "), name
        error = refuses(41, "UnknownKey", lambda: magbelu.Builder().block("x", name, no_such_key=1))
        keys = [line.strip().partition(":")[0] for line in page.splitlines()[1:]]
        told = error.place.strip().rpartition("it has: ")[2].split(", ")
        assert [it for it in told if it not in ("name", "kind", "tags", "multiple", "capacity")] == [
            it for it in keys if it not in ("rate", "example")
        ], (told, keys)


def threads_call_side_by_side():
    found = []

    def work(value):
        graph = chain("byte")
        graph.feed("src", bytes([value]) * 100000)
        graph.settle()
        items, _ = graph.read("out")
        found.append((value, len(items), set(bytes(items))))

    threads = [threading.Thread(target=work, args=(value,)) for value in range(8)]
    for thread in threads:
        thread.start()
    for thread in threads:
        thread.join()
    assert sorted(found) == [(value, 100000, {value + 10}) for value in range(8)]


assert magbelu.version() == 1
tests = [
    examples,
    numbers_come_out,
    settings_and_tags_come_out,
    taps_are_set,
    steps_are_made,
    long_streams_go_through_each_way,
    feeds_of_the_file_come_first,
    stalls_are_told,
    held_graphs_come_to_what_runs_tell,
    generated_graphs_come_to_what_runs_tell,
    freed_graphs_are_refused,
    raw_items_in_and_out,
    what_is_wrong_is_refused,
    nothing_is_cut,
    places_of_faults_are_shown,
    places_of_faults_are_told,
    places_are_those_that_flow_shows,
    late_settings_tell_what_is_open,
    paths_are_told_from_texts,
    graphs_are_drawn_as_by_flow,
    graphs_tell_what_they_are,
    graphs_tell_how_blocks_move,
    copies_begin_anew,
    builders_build,
    each_kind_is_built,
    threads_call_side_by_side,
    threads_call_one_graph,
]
for test in tests:
    test()
print("c: %d tests of python/magbelu passed" % len(tests))
