"""Threads that have one stream of python/magbelu: one goes through its pieces, one sets its block, and one asks how far
it is. Each item is what the settings make of it. tests/parts/c.sh calls it, over the library, and with the thread
sanitizer over what stands for it, which tells where two of its calls are not one behind the other."""

import asyncio
import threading

import magbelu
from shared import CHAIN

PIECE, PIECES = 40, 100
TAPE = [at % 1000 for at in range(PIECE * PIECES)]
PARTS = [TAPE[at : at + PIECE] for at in range(0, len(TAPE), PIECE)]


def with_others(stream, run):
    """What `run` gives while two threads have the stream too, and what it is set to from which items on, in their
    order."""
    is_over, settings, faults = threading.Event(), [(0, 10)], []

    def again(call):
        try:
            number = 0
            while not is_over.is_set():
                call(number % 100)
                number += 1
        except BaseException as fault:  # noqa: B902 (whatever ends a thread fails the test)
            faults.append(fault)

    calls = [lambda value: settings.append((stream.set("add", value), value)),
        lambda _: (stream.levels("add"), stream.need("src"))]
    others = [threading.Thread(target=again, args=(call,)) for call in calls]
    for other in others:
        other.start()
    try:
        items = run()
    finally:
        is_over.set()
        for other in others:
            other.join()
    assert not faults, faults
    return items, settings


def each_is_as_it_was_set(items, settings):
    """Each item is that of the tape and what was set last from it on."""
    assert len(items) == len(TAPE), len(items)
    begins = [at for at, _ in settings]
    assert begins == sorted(begins), "a setting begins before the one that was made first"
    turn = 0
    for at, item in enumerate(items):
        while turn + 1 < len(settings) and settings[turn + 1][0] <= at:
            turn += 1
        assert item == TAPE[at] + settings[turn][1], (at, item, settings[turn])


def pieces_are_gone_through():
    stream = magbelu.Stream(CHAIN % ("short", "short", "short"))
    each_is_as_it_was_set(*with_others(stream, lambda: [item for piece in stream.through(src=PARTS)
        for item in piece.items.tolist()]))


def pieces_are_waited_for():
    stream = magbelu.Stream(CHAIN % ("short", "short", "short"))

    async def collect():
        return [item async for piece in stream.through_async(src=PARTS) for item in piece.items.tolist()]

    each_is_as_it_was_set(*with_others(stream, lambda: asyncio.run(collect())))


def calls_come_in_any_order():
    """Feeds, settles and drains of a thread of its own beside these."""
    stream, items = magbelu.Stream(CHAIN % ("short", "short", "short")), []

    def run():
        for piece in PARTS:
            stream.feed("src", piece)
            stream.settle()
            items.extend(stream.drain("out")[0].tolist())
        return items

    each_is_as_it_was_set(*with_others(stream, run))


for test in (pieces_are_gone_through, pieces_are_waited_for, calls_come_in_any_order):
    test()
