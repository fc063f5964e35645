"""Runs of python/magbelu in slices of time beside whole runs: generated graphs, files and arrays, faults, and what is
refused. tests/parts/c.sh calls it."""

import array
import os
import pathlib
import random
import tempfile
import threading

import magbelu
from magbelu import _slice_runs
from shared import CHAIN, generated, raises, refuses

CODES = {"byte": "B", "short": "h", "int": "i"}

# Each item is the sum of four, of which every other is kept, and to each of these an item of another source is added.
PAIR = """
block = [{ name = "a", kind = "vector_source", type = "short" }, { name = "b", kind = "vector_source", type = "short" },
    { name = "sum", kind = "moving_sum", type = "short", length = 4 }, { name = "keep", kind = "keep_one_in_n", type = "short", n = 2 },
    { name = "add", kind = "add", type = "short" }, { name = "out", kind = "vector_sink", type = "short" }, { name = "side", kind = "vector_sink", type = "short" }]
connect = [{ from = "a", to = "sum" }, { from = "sum", to = "keep" }, { from = "keep", to = "add" }, { from = "b", to = "add", to_port = 1 },
    { from = "add", to = "out" }, { from = "sum", to = "side" }]
"""


# The first items of a source, and bits that are scrambled.
COUNTED = """
block = [{ name = "src", kind = "vector_source", type = "byte" }, { name = "first", kind = "head", type = "byte", n = %d }, { name = "some", kind = "vector_sink", type = "byte" },
    { name = "noise", kind = "additive_scrambler", bits = %d, mask = %d, init = %d }, { name = "out", kind = "vector_sink", type = "byte" }]
connect = [{ from = "src", to = "first" }, { from = "first", to = "some" }, { from = "src", to = "noise" }, { from = "noise", to = "out" }]
"""

# A block that keeps all that it was given.
CODED = """
block = [{ name = "src", kind = "vector_source", type = "byte" }, { name = "code", kind = "diff_encoder", modulus = 2 }, { name = "out", kind = "vector_sink", type = "byte" }]
connect = [{ from = "src", to = "code" }, { from = "code", to = "out" }]
"""


def in_small_pieces(call):
    """Calls with pieces of some bytes."""
    usual = _slice_runs.USUAL
    _slice_runs.USUAL = 16
    try:
        return call()
    finally:
        _slice_runs.USUAL = usual


def joined(text, inputs, jobs):
    """What each sink gives in slices, as bytes."""
    given = in_small_pieces(lambda: magbelu.run_slices(text, inputs, jobs=jobs))
    return {sink: items.tobytes() for sink, items in given.items()}


def whole(text, inputs):
    """What each sink gives in one run."""
    sinks = [it.name for it in magbelu.Stream(text).sinks]
    return dict(zip(sinks, magbelu.run_items(text, list(inputs.items()), sinks)[0]))


def slices_give_what_runs_give():
    """Generated graphs, with and without a head, give the bytes of one run."""
    rng, done, headed = random.Random(64), 0, 0
    while done < 60:
        text, _, pieces = generated(rng)
        times = rng.randint(1, 9)
        try:
            graph = magbelu.Graph(text)
        except magbelu.Refused:
            continue
        data = array.array(CODES[graph.sources[0].type], sum(pieces, []) * times).tobytes()
        heads = [it.name for it in graph.blocks if it.kind == "head"]
        assert graph.slices().counts == (heads[0] if heads else None), text
        assert joined(text, {"src": data}, rng.randint(2, 4)) == whole(text, {"src": data}), text
        done, headed = done + 1, headed + bool(heads)
    assert headed > 10, headed


def blocks_that_count_go_on():
    """A head that ends before the items, at their end or behind it, and a scrambler with registers of any length, in
    pieces of ten iterations."""
    rng = random.Random(66)
    for _ in range(40):
        bits, length = rng.choice([2, 3, 17, 31, 32]), rng.choice([0, 1, 50, 600])
        count = rng.choice([0, 1, length // 3, length, length + 1, 2**32])
        text = COUNTED % (count, bits, rng.randint(1, 2**bits - 1), rng.randint(0, 2**bits - 1))
        data = {"src": bytes(rng.randint(0, 1) for _ in range(length))}
        assert joined(text, data, rng.randint(2, 4)) == whole(text, data), text


def a_slice_is_a_stream():
    """The scrambler of the example in KINDS.md, of which four zeros are 1, 1, 0, 1."""
    text = COUNTED % (2, 3, 5, 1)
    stream = magbelu.Stream(text)
    assert stream.slices().counts == "first" and stream.slice(3).leaves_out == 3
    for later in (stream.anew(3), magbelu.Stream(text, leaves_out=3)):
        later.feed("src", [0])
        later.settle()
        assert later.drain("out")[0].tolist() == [1] and later.drain("some")[0].tolist() == []
    later = magbelu.Stream(text, leaves_out=1).anew(1)
    later.feed("src", [0, 0, 0])
    assert not later.settle() and later.drain("out")[0].tolist() == [1, 0, 1] and later.drain("some")[0].tolist() == [0]
    refuses(63, "NoSlices", lambda: magbelu.Stream(CODED, leaves_out=3))
    assert refuses(63, "NoSlices", lambda: magbelu.run_slices(CODED, {"src": b""})).detail == "code"
    refuses(64, "NoCut", lambda: stream.anew(2**46 + 1))
    assert "block 0 name" in str(refuses(42, "MissingKey", lambda: magbelu.Stream("[[block]]", leaves_out=3)))
    raises(ValueError, lambda: stream.anew(-1))
    raises(TypeError, lambda: stream.anew(1.5))


def sources_of_two_rates_are_cut():
    """Whichever of the two ends first."""
    rng = random.Random(65)
    for lengths in [(0, 0), (400, 200), (401, 200), (400, 199), (1000, 50), (30, 900), (0, 90), (399, 1)]:
        data = {
            name: array.array("h", [rng.randint(-(2**15), 2**15 - 1) for _ in range(count)]).tobytes()
            for name, count in zip("ab", lengths)
        }
        assert joined(PAIR, data, 3) == whole(PAIR, data), lengths


def pieces_are_run_side_by_side():
    """What is compared above came from more threads than one, in pieces."""
    seen, run_piece = [], _slice_runs.Team.run_piece

    def watched(team, pieces, count):
        seen.append((threading.get_ident(), [len(it) for it in pieces], count))
        return run_piece(team, pieces, count)

    _slice_runs.Team.run_piece = watched
    try:
        joined(PAIR, {"a": bytes(8000), "b": bytes(4000)}, 1)
        assert not seen
        joined(PAIR, {"a": bytes(8000), "b": bytes(4000)}, 2)
    finally:
        _slice_runs.Team.run_piece = run_piece
    # A piece has ten times the overlap, which is two iterations of four bytes of `a` and two of `b`.
    assert [it[1:] for it in sorted(seen, key=lambda it: it[2])] == [([80, 40], 0)] + [
        ([88, 44], at) for at in range(1, 100)
    ], seen[:3]
    assert threading.get_ident() not in {it[0] for it in seen}


def files_and_arrays(folder):
    a, b = array.array("h", range(1000)), array.array("h", range(500))
    wanted = whole(PAIR, {"a": a.tobytes(), "b": b.tobytes()})
    (folder / "a").write_bytes(a.tobytes())
    given = in_small_pieces(
        lambda: magbelu.run_slices(PAIR, {"a": str(folder / "a"), "b": b}, {"out": folder / "out", "side": None}, 2)
    )
    assert (
        (folder / "out").read_bytes() == wanted["out"]
        and list(given) == ["side"]
        and given["side"].tobytes() == wanted["side"]
    )
    # From and to pipes, whose length nobody knows.
    os.mkfifo(folder / "pipe")
    writer = threading.Thread(target=lambda: (folder / "pipe").write_bytes(a.tobytes()))
    writer.start()
    magbelu.run_slices(
        PAIR, {"a": folder / "pipe", "b": memoryview(b.tobytes())}, {"out": folder / "out", "side": "/dev/null"}, 2
    )
    writer.join()
    assert (folder / "out").read_bytes() == wanted["out"]


def a_head_ends_what_has_no_end():
    text = CHAIN.replace('kind = "add_const"', 'kind = "head"').replace("value = 10", "n = 3") % (3 * ("byte",))
    assert magbelu.run_slices(text, {"src": "/dev/zero"}, jobs=2)["out"].tobytes() == bytes(3)


def faults_leave_a_beginning(folder):
    """Where the third slice fails, the outputs have what the first two gave, and the fault is told."""
    data, done, run_piece = {"a": bytes(range(256)) * 32, "b": bytes(range(256)) * 16}, [], _slice_runs.Team.run_piece

    def failing(team, pieces, count):
        done.append(1)
        if len(done) == 3:
            raise MemoryError("the third")
        return run_piece(team, pieces, count)

    _slice_runs.Team.run_piece = failing
    try:
        raises(
            MemoryError,
            lambda: in_small_pieces(
                lambda: magbelu.run_slices(PAIR, data, {"out": folder / "out", "side": folder / "side"}, 2)
            ),
        )
    finally:
        _slice_runs.Team.run_piece = run_piece
    wanted = whole(PAIR, data)
    assert (folder / "out").read_bytes() == wanted["out"][: 2 * 40] and (folder / "side").read_bytes() == wanted[
        "side"
    ][: 2 * 80]


def wrong_ends_are_refused(folder):
    chain = CHAIN % (3 * ("short",))
    # What ends within an item is refused when all before it is written.
    (folder / "cut").write_bytes(b"\1\0\2\0\3")
    assert (
        refuses(
            53, "CutItem", lambda: magbelu.run_slices(chain, {"src": folder / "cut"}, {"out": folder / "out"})
        ).detail
        == "src"
    )
    assert (folder / "out").read_bytes() == b"\13\0\14\0"
    fed = chain + 'feed = [{ source = "src", items = [1] }]\n'
    assert refuses(64, "NoCut", lambda: magbelu.run_slices(fed, {})).detail == "src"
    assert refuses(64, "NoCut", lambda: magbelu.run_slices(PAIR, {}, {"out": None})).detail == "side"
    refuses(20, "NoSuchBlock", lambda: magbelu.run_slices(chain, {"none": b""}))
    refuses(20, "NoSuchBlock", lambda: magbelu.run_slices(chain, {}, {"out": None, "none": None}))
    refuses(21, "NotSource", lambda: magbelu.run_slices(chain, {"out": b""}))
    refuses(22, "NotSink", lambda: magbelu.run_slices(chain, {}, {"out": None, "add": None}))
    refuses(40, "Syntax", lambda: magbelu.run_slices("x", {}))
    uneven = PAIR.replace(
        '{ from = "add", to = "out" }',
        '{ from = "add", to = "out" }, { from = "a", to = "two" }, { from = "b", to = "two", to_port = 1 }, { from = '
        '"two", to = "rest" }',
    )
    uneven = uneven.replace(
        '{ name = "out",',
        '{ name = "two", kind = "add", type = "short" }, { name = "rest", kind = "vector_sink", type = "short" }, { '
        'name = "out",',
    )
    assert refuses(63, "NoSlices", lambda: magbelu.run_slices(uneven, {})).detail == "rates"
    for wrong in [0, -1]:
        raises(ValueError, lambda: magbelu.run_slices(chain, {}, jobs=wrong))
    for wrong in [True, 1.5, "2"]:
        raises(TypeError, lambda: magbelu.run_slices(chain, {}, jobs=wrong))
    for wrong in [[1, 2], array.array("i", [1]), array.array("d", [1]), 5, None]:
        raises(TypeError, lambda: magbelu.run_slices(chain, {"src": wrong}))
    raises(FileNotFoundError, lambda: magbelu.run_slices(chain, {"src": folder / "none"}, {"out": folder / "out"}))
    # A file that is read is not written, nor one by two sinks.
    os.link(folder / "cut", folder / "same")
    raises(ValueError, lambda: magbelu.run_slices(chain, {"src": folder / "cut"}, {"out": folder / "same"}))
    raises(ValueError, lambda: magbelu.run_slices(PAIR, {}, {"out": folder / "new", "side": str(folder / "new")}))
    assert (folder / "cut").read_bytes() == b"\1\0\2\0\3" and not (folder / "new").exists()


def plans_have_names():
    # The sum holds three items before its own, which are in two iterations; for its tags there are none.
    graph = magbelu.Graph(PAIR)
    wanted = (2, [("a", 2, 4), ("b", 1, 2)], [("out", 1, 2), ("side", 2, 4)], None)
    assert graph.slices() == wanted and graph.slices(tags=True) == wanted and magbelu.Stream(PAIR).slices() == wanted
    assert graph.slice(0) == (0, [("out", 0, 0), ("side", 0, 0)]) and graph.slice(7) == (
        5,
        [("out", 2, 7), ("side", 4, 14)],
    )
    for begins in [1, 2**46 + 1, 2**64]:
        refuses(64, "NoCut", lambda: graph.slice(begins))
    raises(ValueError, lambda: graph.slice(-1))
    raises(TypeError, lambda: graph.slice(2.0))
    raises(TypeError, lambda: graph.slices(tags=1))
    graph.free()
    refuses(55, "NotOpen", graph.slices)
    refuses(55, "NotOpen", lambda: graph.slice(0))


tests = [
    slices_give_what_runs_give, blocks_that_count_go_on, a_slice_is_a_stream, a_head_ends_what_has_no_end,
    sources_of_two_rates_are_cut, pieces_are_run_side_by_side, plans_have_names,
]
for test in tests:
    test()
tests_in_a_folder = [files_and_arrays, faults_leave_a_beginning, wrong_ends_are_refused]
for test in tests_in_a_folder:
    with tempfile.TemporaryDirectory() as folder:
        test(pathlib.Path(folder))
print("c: %d tests of the slices of python/magbelu passed" % len(tests + tests_in_a_folder))
