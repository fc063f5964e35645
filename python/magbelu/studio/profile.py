"""How much each block of a run works, takes and gives, and how full its inputs get. A run is looked at now and then:
over one piece of its inputs its blocks are stepped one by one, which comes to the same items, and each step is timed by
the processor that it takes."""

from __future__ import annotations

import time
from typing import Any, Iterable, NamedTuple, Optional

from .._stream import Stream

# How much of what was measured before still counts, so that a change shows within some looks.
KEEPS = 0.8


class Counts(NamedTuple):
    """How many items a block has taken of each input, and given on each output."""

    taken: list[int]
    given: list[int]


class Profile:
    """What was measured of a stream, whose inputs are the sources that something feeds. One thread measures, others
    read what is `shown`."""

    def __init__(self, stream: Stream, inputs: Iterable[str]) -> None:
        self._stream, self._inputs = stream, list(inputs)
        self._outputs = {it.name: it.outputs for it in stream.blocks}
        self._takes = {it: stream.rates(it).takes for it in self._outputs}
        # The connections behind each block, with their numbers.
        edges = list(enumerate(stream.connections))
        self._behind = {name: [it for it in edges if it[1].writer == name] for name in self._outputs}
        self._rooms = stream.rooms
        self._seconds = dict.fromkeys(self._outputs, 0.0)
        # How many items each block took and gave while it was measured.
        self._taken = {name: [0.0] * len(it) for name, it in self._takes.items()}
        self._given = {name: [0.0] * it for name, it in self._outputs.items()}
        self.shown: dict[str, Any] = {"blocks": {}, "fills": []}

    def counts(self, name: str) -> Counts:
        """How far a block is. (The library tells it of the first input: of the others a firing takes as many times more
        as its rates say.)"""
        levels = self._stream.levels(name)
        takes = self._takes[name]
        return Counts([levels.taken * it // takes[0] for it in takes], [levels.given] * self._outputs[name])

    def measure(self) -> None:
        """Steps the blocks until none can act, and notes what that took."""
        seconds, before = dict.fromkeys(self._outputs, 0.0), {it: self.counts(it) for it in self._outputs}
        counts, fills = dict(before), [0] * len(self._rooms)
        rounds, call, acted = 0, 1.0, True
        while acted:
            rounds, acted = rounds + 1, False
            for name in self._outputs:
                began = time.thread_time()
                is_moved = self._stream.step(name) > 0
                taken = time.thread_time() - began
                seconds[name] += taken
                if is_moved:
                    acted = True
                    counts[name] = self.counts(name)
                    self._fill(name, counts, fills)
                else:
                    call = min(call, taken)
        if counts != before:
            # (a call that does nothing tells what a call costs: the last round has some)
            self._take({name: max(it - rounds * call, 0.0) for name, it in seconds.items()}, before, counts)
            self._show(fills)

    def _fill(self, name: str, counts: dict[str, Counts], fills: list[int]) -> None:
        """Notes how full the buffers behind a block are."""
        for number, it in self._behind[name]:
            held = counts[name].given[it.out_port] - counts[it.reader].taken[it.in_port]
            # (for a reader that is done nothing is kept)
            fills[number] = max(fills[number], held if held <= self._rooms[number] else 0)

    def _take(self, seconds: dict[str, float], before: dict[str, Counts], after: dict[str, Counts]) -> None:
        for name, it in seconds.items():
            self._seconds[name] = KEEPS * self._seconds[name] + it
            for sums, starts, ends in zip((self._taken[name], self._given[name]), before[name], after[name]):
                sums[:] = [KEEPS * of + end - start for of, start, end in zip(sums, starts, ends)]

    def _show(self, fills: list[int]) -> None:
        self.shown = {"blocks": {name: self._block(name) for name in self._outputs},
            "fills": [list(it) for it in zip(fills, self._rooms)]}

    def _block(self, name: str) -> dict[str, Any]:
        """The share of a block in the work of all, and how many items it takes and gives for each item that comes
        through an input of the run."""
        fed = sum(self._given[it][0] for it in self._inputs)
        taken, given = ([count / fed if fed else 0.0 for count in it[name]] for it in (self._taken, self._given))
        return {"share": self._seconds[name] / (sum(self._seconds.values()) or 1.0), "takes": taken, "gives": given}

    @property
    def limits(self) -> Optional[str]:
        """The block that works most, if one was seen at work."""
        name = max(self._seconds, key=lambda it: self._seconds[it], default=None)
        return name if name is not None and self._seconds[name] > 0 else None
