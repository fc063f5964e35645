"""Streams of python/magbelu beside whole runs: pieces in and out, needs, tags, settings, and what is wrong.
tests/parts/c.sh calls it."""

import array
import asyncio
import random

import magbelu
from shared import CHAIN, generated, raises, refuses, tomllib


def streams_give_what_runs_give():
    """Generated graphs, which are fed in pieces, give what a run of the whole feed gives, and what was given is
    forgotten."""
    if tomllib is None:
        return
    rng, done = random.Random(33), 0
    while done < 100:
        text, fed, pieces = generated(rng)
        try:
            wanted = magbelu.run(fed)[0]
        except magbelu.Refused:
            continue
        sinks = [it["name"] for it in tomllib.loads(text)["block"] if it["kind"] == "vector_sink"]
        given = {sink: [] for sink in sinks}
        with magbelu.Stream(text) as stream:
            for piece in stream.through(src=pieces):
                given[piece.sink] += list(piece.items)
            assert all(len(stream.drain(sink)[0]) == 0 for sink in sinks)
        lines = [" ".join(["sink", sink, str(len(given[sink]))] + [str(it) for it in given[sink]]) for sink in sinks]
        assert lines == [it for it in wanted.splitlines() if it.startswith("sink ")], fed
        done += 1


def streams_are_stepped():
    """Where the blocks of a stream are stepped by themselves, in any order and by any count of firings, it gives what a
    run of the whole feed gives."""
    if tomllib is None:
        return
    rng, done = random.Random(34), 0
    while done < 50:
        text, fed, pieces = generated(rng)
        try:
            wanted = magbelu.run(fed)[0].splitlines()
        except magbelu.Refused:
            continue
        names = [it["name"] for it in tomllib.loads(text)["block"]]
        with magbelu.Stream(text) as stream:
            given = {it.name: [] for it in stream.sinks}
            for piece in [*pieces, None]:
                if piece is None:
                    stream.close("src")
                else:
                    stream.feed("src", piece)
                rng.shuffle(names)
                while any([stream.step(it, rng.choice((1, 7, 2**32 - 1))) for it in names]):
                    for sink, items in given.items():
                        items += list(stream.drain(sink)[0])
                stream.settle()
            for sink, items in given.items():
                assert not len(stream.drain(sink)[0]), "settling found more to do"
                words = next(it for it in wanted if it.startswith("sink %s " % sink)).split()
                assert [str(it) for it in items] == [it for it in words[3:] if it[0] != "@"], fed
        done += 1
    stream = magbelu.Stream(magbelu.EXAMPLE)
    refuses(20, "NoSuchBlock", lambda: stream.step("none"))
    raises(ValueError, lambda: stream.step("src", -1))


def streams_take_what_they_lack():
    """Of two sources that are added, one comes in large pieces and the other in small ones: no more is taken of either
    than the other needs."""
    taken = {"a": 0, "b": 0}

    def numbers(name, size):
        while taken[name] < 100000:
            taken[name] += size
            yield range(taken[name] - size, taken[name])
            assert abs(taken["a"] - taken["b"]) < 40000, taken

    kinds = [("a", "vector_source"), ("b", "vector_source"), ("sum", "add"), ("out", "vector_sink")]
    blocks = ", ".join('{ name = "%s", kind = "%s", type = "int" }' % it for it in kinds)
    ends = '{ from = "a", to = "sum" }, { from = "b", to = "sum", to_port = 1 }, { from = "sum", to = "out" }'
    with magbelu.Stream("block = [%s]\nconnect = [%s]\n" % (blocks, ends)) as stream:
        items = [item for piece in stream.through(a=numbers("a", 10000), b=numbers("b", 500)) for item in piece.items]
    assert items == [2 * at for at in range(100000)]


TWO_CHAINS = """
block = [
    { name = "a", kind = "vector_source", type = "byte" },
    { name = "b", kind = "vector_source", type = "byte" },
    { name = "x", kind = "add_const", type = "byte", value = 1 },
    { name = "oa", kind = "vector_sink", type = "byte" },
    { name = "ob", kind = "vector_sink", type = "byte" },
]
connect = [{ from = "a", to = "oa" }, { from = "b", to = "x" }, { from = "x", to = "ob" }]
"""


async def soon(pieces):
    for piece in pieces:
        await asyncio.sleep(0)
        yield piece


def streams_go_on_beside_a_silent_source():
    """A source that gives nothing until the other's items are out holds them up for nobody; meanwhile blocks are set
    from another thread."""
    stream = magbelu.Stream(TWO_CHAINS)

    async def silent(seen):
        await seen.wait()
        yield [7]

    async def collect():
        seen, given = asyncio.Event(), {"oa": [], "ob": []}
        async for piece in stream.through_async(a=silent(seen), b=soon([[1, 2], [3]])):
            given[piece.sink] += piece.items.tolist()
            if len(given["ob"]) == 2:
                assert await asyncio.to_thread(stream.set, "x", 10) == 2
            if len(given["ob"]) == 3:
                seen.set()
        return given

    assert asyncio.run(asyncio.wait_for(collect(), 60)) == {"oa": [7], "ob": [2, 3, 13]}


def streams_end_as_their_pieces_do():
    """What a source's pieces fail with comes out of the loop, one that is left ends what is waited for, and a source
    without pieces ends the stream."""

    async def failing():
        yield [1]
        raise KeyError("pieces")

    async def collect(**pieces):
        return [piece.items.tolist() async for piece in magbelu.Stream(TWO_CHAINS).through_async(**pieces)]

    raises(KeyError, lambda: asyncio.run(collect(a=failing(), b=[])))
    raises(TypeError, lambda: asyncio.run(collect(a=[1, 2], b=[])))
    raises(TypeError, lambda: asyncio.run(collect(a=soon([None]), b=[])))
    refuses(20, "NoSuchBlock", lambda: asyncio.run(collect(none=[])))
    assert asyncio.run(collect(a=soon([[1], [2]]))) == [[1], [2]]

    async def leave():
        is_left = asyncio.Event()

        async def endless():
            try:
                yield [1]
                await asyncio.Event().wait()
            finally:
                is_left.set()

        pieces = magbelu.Stream(TWO_CHAINS).through_async(a=endless(), b=[])
        first = await pieces.__anext__()
        waits = asyncio.ensure_future(pieces.__anext__())
        await asyncio.sleep(0.1)
        waits.cancel()
        await asyncio.wait([waits])
        await is_left.wait()
        return first.items.tolist()

    assert asyncio.run(asyncio.wait_for(leave(), 60)) == [1]


def streams_are_tagged_set_and_refused():
    stream = magbelu.Stream(CHAIN % (3 * ("short",)))
    assert stream.need("src") == ("feed", None) and stream.need("out") == ("items", 0)
    for turn in range(100):
        assert stream.feed("src", [turn] * 1000, tags=[(1000 * turn, "k", turn)]) == 1000 * (turn + 1)
        assert stream.set("add", turn) == 1000 * turn and stream.need("src").what == "ready" and not stream.settle()
        items, tags = stream.drain("out", 1)
        assert list(items) == [2 * turn] and [it[:3] for it in tags] == [(1000 * turn, "k", turn)]
        assert list(stream.drain("out")[0]) == [2 * turn] * 999 and not len(stream.drain("out")[0])
    refuses(20, "NoSuchBlock", lambda: stream.need("none"))
    refuses(21, "NotSource", lambda: stream.through(out=[]))
    refuses(22, "NotSink", lambda: stream.drain("add"))
    refuses(24, "ItemRange", lambda: stream.feed("src", [2**15]))
    assert stream.close("src") == 100000 and stream.settle() and stream.need("out").what == "done"
    stream.free()
    for call in [
        lambda: stream.feed("src", [1]), lambda: stream.settle(), lambda: stream.drain("out"),
        lambda: stream.need("src"), lambda: stream.through(src=[]),
    ]:
        refuses(55, "NotOpen", call)
    refuses(40, "Syntax", lambda: magbelu.Stream("x"))


def streams_tell_how_far_blocks_are():
    text = CHAIN % (3 * ("short",))
    stream = magbelu.Stream(text.replace("add_const", "keep_one_in_n").replace("value", "n"))
    assert stream.feed("src", range(25)) == 25 and stream.levels("src") == (0, 0, 25)
    assert stream.step("src", 23) == 23 and stream.step("add") == 2
    assert stream.levels("src") == magbelu.Levels(taken=23, given=23, waiting=2)
    assert stream.levels("add") == (20, 2, 3) and stream.levels("out") == (0, 0, 2)
    assert not stream.settle() and stream.levels("out") == (2, 2, 0)
    stream.drain("out")
    assert stream.levels("out") == (2, 2, 0) and stream.levels(b"src") == (25, 25, 0)
    refuses(20, "NoSuchBlock", lambda: stream.levels("none"))
    stream.free()
    refuses(55, "NotOpen", lambda: stream.levels("src"))


def streams_drain_into_arrays():
    """Items are written where the caller says, with their tags, however many lines these are; and nothing else is
    written."""
    stream, room = magbelu.Stream(CHAIN % (3 * ("short",))), array.array("h", [-1] * 3000)
    stream.feed("src", range(2000), tags=[(at, "a_key_of_16_bytes"[:16], at) for at in range(2000)])
    stream.settle()
    count, tags = stream.drain_into("out", memoryview(room)[1:1001])
    assert count == 1000 and room.tolist() == [-1] + list(range(10, 1010)) + [-1] * 1999
    assert [it[:3] for it in tags] == [(at, "a_key_of_16_bytes"[:16], at) for at in range(1000)]
    for wrong in [
        array.array("i", [0]), array.array("B", [0]), bytes(2), memoryview(room)[::2], memoryview(room).toreadonly(),
        [0, 0],
    ]:
        raises(TypeError, lambda: stream.drain_into("out", wrong))
    assert stream.drain_into("out", room[:0]) == (0, [])
    count, tags = stream.drain_into("out", room)
    assert (count, len(tags)) == (1000, 1000) and room.tolist() == [*range(1010, 2010), 1009] + [-1] * 1999
    assert stream.anew().drain_into("out", room) == (0, [])
    refuses(22, "NotSink", lambda: stream.drain_into("add", room))


tests = [
    streams_give_what_runs_give,
    streams_are_stepped,
    streams_take_what_they_lack,
    streams_go_on_beside_a_silent_source,
    streams_end_as_their_pieces_do,
    streams_are_tagged_set_and_refused,
    streams_tell_how_far_blocks_are,
    streams_drain_into_arrays,
]
for test in tests:
    test()
print("c: %d tests of the streams of python/magbelu passed" % len(tests))
