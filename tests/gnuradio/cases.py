"""A graph file as a block of GNU Radio: `cases.py NAME [WORD..]` tries a case, which is the function of this name."""

from __future__ import annotations

import contextlib
import io
import os
import pathlib
import re
import resource
import shutil
import subprocess
import sys
import tempfile
import time
import traceback
from typing import Any, Callable

import numpy
import pmt
from gnuradio import blocks, gr

import magbelu
from drawn import draw
from joining import chain, equal, joined, ran, source, tag, tags_of, waited
from magbelu.gnuradio import Flowgraph

TOP = pathlib.Path(__file__).resolve().parents[2]
ADD_TEN = chain("byte", '"add", kind = "add_const", value = 10')


def refuses(number: int, name: str, call: Callable[[], object]) -> magbelu.Refused:
    try:
        call()
    except magbelu.Refused as refused:
        equal((refused.number, refused.name), (number, name))
        return refused
    raise AssertionError("%d %s is not refused" % (number, name))


def until(is_so: Callable[[], bool], what: str) -> None:
    """Waits until something is so."""
    for _ in range(6000):
        if is_so():
            return
        time.sleep(0.01)
    raise AssertionError("%s does not come" % what)


def beside_flow(*flow: str) -> None:
    """Graphs that are drawn by chance give what `flow run` gives, items and tags, and end as it ends."""
    outcomes = set()
    for seed in range(50, 100):
        drawn, graph, wanted = draw(seed), None, ""
        with tempfile.NamedTemporaryFile("w", suffix=".toml") as file:
            file.write(drawn.fed_text())
            file.flush()
            wanted = subprocess.run([*flow, "run", file.name], stdout=subprocess.PIPE, text=True).stdout
        graph = Flowgraph(text=drawn.text)
        sinks = ran(graph, [source(fed.type, fed.items, [tag(*it) for it in fed.tags]) for fed in drawn.feeds.values()])
        lines = []
        for name, sink in zip(drawn.sinks, sinks):
            tags = ["@%d:%s=%d" % it for it in tags_of(sink)]
            lines.append(" ".join(map(str, ["sink", name, len(sink.data()), *sink.data(), *sorted(tags)])))
        equal(lines + [graph.outcome], [without_sources(it) for it in wanted.splitlines()], "graph %d" % seed)
        outcomes.add(graph.outcome)
    equal(outcomes, {"done", "stalled"}, "the ends of all")


def without_sources(line: str) -> str:
    """A line of a report without the sources of its tags, which are in another order."""
    words = line.split()
    tags = sorted(it.rpartition("/")[0] for it in words if it.startswith("@"))
    return " ".join([it for it in words if not it.startswith("@")] + tags)


def beside_blocks() -> None:
    """Kinds give what GNU Radio's own blocks give, items and tags."""
    text = chain(
        "short", '"sum", kind = "add_const", value = 12345', '"product", kind = "multiply_const", value = -3',
        '"few", kind = "keep_one_in_n", n = 4', '"many", kind = "repeat", n = 3', '"total", kind = "integrate", n = 2',
    )
    items = [(it * 7919 + 31) % 65536 - 32768 for it in range(50000)]
    tags = [(at, "mark", at * at - 10**9) for at in range(0, 50000, 320)]
    own = [
        blocks.add_const_ss(12345), blocks.multiply_const_ss(-3), blocks.keep_one_in_n(2, 4), blocks.repeat(2, 3),
        blocks.integrate_ss(2),
    ]
    top, wanted = gr.top_block(), blocks.vector_sink_s()
    top.connect(source("short", items, [tag(*it) for it in tags]), *own, wanted)
    top.run()
    (sink,) = ran(Flowgraph(text=text), [source("short", items, [tag(*it) for it in tags])])
    equal((len(wanted.data()), len(wanted.tags())), (18750, 157), "what GNU Radio gives")
    equal(list(sink.data()), list(wanted.data()), "items")
    equal(tags_of(sink), tags_of(wanted), "tags")


def inputs_end() -> None:
    """Where the blocks before the ports are done, the rest of the graph's stream still comes: here that of a delay, and
    of two inputs that end apart."""
    (sink,) = ran(Flowgraph(text=chain("int", '"late", kind = "delay", n = 20000')), [source("int", range(1, 30001))])
    equal(list(sink.data()), [0] * 20000 + list(range(1, 30001)))
    rows = ['{ name = "%s", kind = "vector_source", type = "byte" }' % it for it in ("a", "b", "c")]
    rows += ['{ name = "%s", kind = "vector_sink", type = "byte" }' % it for it in ("x", "y", "z")]
    connects = ['{ from = "%s", to = "%s" }' % it for it in zip("abc", "xyz")]
    graph = Flowgraph(text="block = [%s]\nconnect = [%s]" % (", ".join(rows), ", ".join(connects)))
    sinks = ran(graph, [source("byte", []), source("byte", [7] * 100000), source("byte", [8])])
    equal([bytes(it.data()) for it in sinks], [b"", b"\7" * 100000, b"\10"])
    equal(graph.outcome, "done")


def graph_ends() -> None:
    """Where the graph is done, so is the block, and the endless one before it."""
    graph = Flowgraph(text=chain("byte", '"first", kind = "head", n = 100000'))
    (sink,) = ran(graph, [source("byte", range(256), repeat=True)])
    equal((bytes(sink.data()), graph.outcome), ((bytes(range(256)) * 400)[:100000], "done"))


def output_ends() -> None:
    """Where the block behind it is done, so is the block, and its graph has not ended."""
    graph, sink, top = Flowgraph(text=ADD_TEN), blocks.vector_sink_b(), gr.top_block()
    top.connect(source("byte", range(256), repeat=True), graph, blocks.head(1, 100000), sink)
    top.start()
    waited(top)
    equal((bytes(sink.data()), graph.outcome), (bytes((it + 10) % 256 for it in range(100000)), None))


def stopped() -> None:
    """A run that is stopped ends, the next one goes on where it was, and one behind the end begins anew."""
    graph = Flowgraph(text=chain("int", '"first", kind = "head", n = 1000000', '"add", kind = "add_const", value = 1'))
    top, (sink,) = joined(graph, [source("int", [1, 2, 3], repeat=True)])
    top.start()
    until(lambda: len(sink.data()) > 1000, "an item")
    top.stop()
    waited(top)
    before = len(sink.data())
    equal((graph.outcome, before < 1000000), (None, True))
    equal(list(sink.data()[:6]), [2, 3, 4, 2, 3, 4])
    top.start()
    waited(top)
    equal((graph.outcome, before < len(sink.data()) <= 1000000), ("done", True))
    sink.reset()
    top.start()
    waited(top)
    equal((graph.outcome, len(sink.data())), ("done", 1000000))


def tags_after_a_stop() -> None:
    """GNU Radio counts items from 0 after each start: the tags of a run lie on its items."""
    graph = Flowgraph(text=ADD_TEN)
    top, (sink,) = joined(graph, [source("byte", range(100), [tag(30, "thirty", 30)], repeat=True)])
    for _ in range(2):
        sink.reset()
        top.start()
        until(lambda: len(sink.tags()) > 100, "a tag")
        top.stop()
        waited(top)
        items, places = sink.data(), [it.offset for it in sink.tags()]
        equal({items[it] for it in places if it < len(items)}, {40})


def stalls() -> None:
    """A graph that comes to rest before its end ends the block, behind all that it gave: out[n] = in[n] + in[2n + 1],
    where `src` holds four items."""
    text = (TOP / "examples" / "stall" / "graph.toml").read_text().partition("feed = ")[0]
    graph = Flowgraph(text=text)
    (sink,) = ran(graph, [source("byte", range(1, 21), repeat=True)])
    equal((list(sink.data()), graph.outcome), ([3, 6, 9], "stalled"))
    equal((graph.need("src").what, graph.need("half").what), ("room", "items"))
    equal(graph.levels("half"), (6, 3, 1))


def refused() -> None:
    """What is refused is an exception with a number, a name and a text."""
    fault = refuses(
        44, "UnknownKind",
        lambda: Flowgraph(text=chain("byte", '"add", kind = "add_comst", value = 10'), path="here.toml"),
    )
    equal("here.toml:1:" in str(fault) and "`add_const`" in str(fault), True, str(fault))
    try:
        Flowgraph("no/such/graph.toml")
        raise AssertionError("a file that is not there is opened")
    except FileNotFoundError:
        pass
    graph = Flowgraph(text=ADD_TEN)
    equal(refuses(20, "NoSuchBlock", lambda: graph.set("sum", 1)).detail, "sum")
    refuses(28, "NoSetting", lambda: graph.set("out", 1))
    refuses(29, "WrongSetting", lambda: graph.set("add", 256))
    (sink,) = ran(graph, [source("byte", [1, 2, 3])])
    refuses(27, "Late", lambda: graph.set("add", 1, at=2))
    equal(list(sink.data()), [11, 12, 13])


def inputs_lack() -> None:
    """Where nothing is connected to an input, GNU Radio says which, and goes on naming its own blocks where one of
    these lacks an input."""
    rows = ['{ name = "%s", kind = "vector_source", type = "byte" }' % it for it in ("left", "right")] + [
        '{ name = "sum", kind = "add", type = "byte" }'
    ]
    rows += ['{ name = "out", kind = "vector_sink", type = "byte" }']
    ends = '{ from = "left", to = "sum" }, { from = "right", to = "sum", to_port = 1 }, { from = "sum", to = "out" }'
    graph, top, sink = (
        Flowgraph(text="block = [%s]\nconnect = [%s]" % (", ".join(rows), ends), path="here.toml"), gr.top_block(),
        blocks.vector_sink_b(),
    )
    top.connect(source("byte", [1, 2]), (graph, 0))
    top.connect(graph, sink)
    for call in (top.start, top.run):
        said = said_by(call, RuntimeError)
        equal(all(it in said for it in ("here.toml", "input 1", "`right`")) and "copy(" not in said, True, said)
    top.connect(source("byte", [10, 20]), (graph, 1))
    top.run()
    equal((list(sink.data()), graph.outcome), ([11, 22], "done"))
    other = gr.top_block()
    other.connect(blocks.copy(1), blocks.null_sink(1))
    equal(said_by(other.run, RuntimeError).startswith("copy("), True)


def said_by(call: Callable[[], object], kind: type[Exception]) -> str:
    """What is said where a call fails so."""
    try:
        call()
    except kind as error:
        return str(error)
    raise AssertionError("%s is not raised" % kind.__name__)


def tags() -> None:
    """Tags come in and go out, at the offsets that the graph gives them and with the name of their source; those that
    it cannot have are counted."""
    text = (TOP / "examples" / "echo" / "graph.toml").read_text().partition("feed = ")[0]
    others = [
        tag(0, "mark", pmt.from_double(1.5)), tag(0, "two words", 1), tag(0, "seventeen_letters", 1),
        tag(3, "mark", pmt.PMT_T),
    ]
    kept = [tag(1, "mark", 7), tag(1, "a.b-c", -(2**63)), tag(3, "sixteen__letters", 2**63 - 1)]
    graph = Flowgraph(text=text)
    wet, dry = ran(graph, [source("byte", [10, 20, 30, 40], kept + others)])
    equal(tags_of(dry), [(1, "a.b-c", -(2**63)), (1, "mark", 7), (3, "sixteen__letters", 2**63 - 1)])
    equal(
        tags_of(wet),
        [
            (1, "a.b-c", -(2**63)), (1, "mark", 7), (3, "a.b-c", -(2**63)), (3, "mark", 7),
            (3, "sixteen__letters", 2**63 - 1),
        ],
    )
    equal({pmt.symbol_to_string(it.srcid) for it in dry.tags()}, {"src"})
    equal((list(wet.data()), graph.tags_left_out), ([10, 20, 40, 60], 4))


def tag_refused() -> None:
    """Where others are refused, one of them ends the block with a fault."""
    graph = Flowgraph(text=ADD_TEN, other_tags="refuse")
    (sink,) = ran(
        graph,
        [source("byte", [1] * 200000, [tag(5, "mark", 1), tag(150000, "mark", pmt.from_double(1.5))], repeat=True)],
    )
    fault = graph.fault
    assert isinstance(fault, magbelu.Refused)
    equal(
        (graph.outcome, fault.number, fault.name, fault.detail),
        ("failed", 58, "BadKey", "src: the tag mark=1.5 at item 150000"),
    )
    equal((set(sink.data()), tags_of(sink)), ({11}, [(5, "mark", 1)]))


def settings() -> None:
    """Values are set at an item before a run and in the midst of it, and now, which tells the item."""
    graph = Flowgraph(text=ADD_TEN)
    equal(graph.set("add", 100, at=numpy.int64(3000)), 3000)
    top, (sink,) = joined(graph, [source("byte", [1], repeat=True)])
    top.start()
    until(lambda: len(sink.data()) > 5000, "an item")
    now = graph.set("add", 50)
    far = graph.set("add", 60, at=now + 1000000)
    until(lambda: len(sink.data()) > far + 1000, "the last setting")
    top.stop()
    waited(top)
    items = numpy.array(sink.data())
    equal(
        [set(it.tolist()) for it in numpy.split(items, [3000, now, far])], [{11}, {101}, {51}, {61}],
        "the pieces between %s" % [3000, now, far],
    )


def taps() -> None:
    """New taps are in force from an item on, and several values are set at once: 1 + 2 before item 4, and then 1 + 4;
    and 5 more."""
    rows = ['"fir", kind = "fir", taps = [1, 2]', '"add", kind = "add_const", value = 0']
    graph = Flowgraph(text=chain("short", *rows))
    graph.set_all({"add": 5})
    graph.set("fir", [1, 4], at=4)
    (sink,) = ran(graph, [source("short", [1] * 6)])
    equal(list(sink.data()), [6, 8, 8, 8, 10, 10])


def fed_by_file() -> None:
    """What the file feeds comes before what the port brings, and tags lie behind it."""
    feed = 'feed = [{ source = "src", items = [250, 1], tags = [{ at = 1, key = "fed", value = 2 }] }]'
    (sink,) = ran(Flowgraph(text=ADD_TEN + feed), [source("byte", [5, 6], [tag(1, "came", 3)])])
    equal((list(sink.data()), tags_of(sink)), ([4, 11, 15, 16], [(1, "fed", 2), (3, "came", 3)]))


def memory() -> None:
    """More items need no more memory, and those that come at once are not all fed where each gives a thousand."""
    for text, few, many in (
        (ADD_TEN, 3000000, 30000000),
        (chain("byte", '"many", kind = "repeat", n = 1000'), 100, 50000),
    ):
        held = []
        for count in (few, many):
            graph, top = Flowgraph(text=text), gr.top_block()
            top.connect(blocks.null_source(1), blocks.head(1, count), graph, blocks.null_sink(1))
            top.start()
            waited(top)
            equal(graph.outcome, "done")
            held.append(resource.getrusage(resource.RUSAGE_SELF).ru_maxrss)
        assert held[1] - held[0] < 4096, "KiB that were held: %s" % held


def companion() -> None:
    """A drawing with the block of Companion is built by grcc and runs: the ports are those of the file, and a variable
    sets a value."""
    here = TOP / "tests" / "gnuradio"
    with tempfile.TemporaryDirectory() as room:
        for name in ("drawing.grc", "graph.toml"):
            shutil.copy(here / name, room)
        env = {**os.environ, "HOME": room, "GRC_BLOCKS_PATH": str(TOP / "share" / "gnuradio" / "grc" / "blocks")}
        built = subprocess.run(
            ["grcc", "-o", room, "drawing.grc"], env=env, cwd=room, text=True, stdout=subprocess.PIPE,
            stderr=subprocess.STDOUT,
        )
        os.chdir(room)
        sys.path.insert(0, room)
        assert pathlib.Path("drawing.py").exists(), built.stdout
        for amount in (100, 7):
            top: Any = __import__("drawing").drawing()
            top.set_amount(amount)
            top.start()
            waited(top)
            equal((list(top.summed.data()), list(top.kept.data())), ([1 + amount, 2 + amount, 3 + amount], [-2, -4]))


def pages() -> None:
    """The program that docs/user/FOR_GNU_RADIO_USERS.md begins with prints what stands behind it."""
    page = (TOP / "docs" / "user" / "FOR_GNU_RADIO_USERS.md").read_text()
    found = re.search(r"^```python\n(from gnuradio .*?)^```\n\n.*?^```\n(.*?)^```", page, re.DOTALL | re.MULTILINE)
    assert found is not None
    os.chdir(TOP)
    printed = io.StringIO()
    with contextlib.redirect_stdout(printed):
        exec(found[1], {})
    equal(printed.getvalue(), found[2])


if __name__ == "__main__":
    try:
        globals()[sys.argv[1]](*sys.argv[2:])
    except BaseException:
        traceback.print_exc()
        # (a run that did not end would hold it, or end it in its own way)
        os._exit(1)
