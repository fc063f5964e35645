"""A graph that runs in a thread of its own, from its inputs to the traces of its sinks and to its outputs."""

from __future__ import annotations

import concurrent.futures
import queue
import threading
import time
from typing import Any, Callable, NamedTuple, Optional, Union

from .._errors import Error
from .._stream import PIECE, Stream
from .graphs import GraphFile
from .inputs import CutItem, Input
from .outputs import Output
from .profile import Profile
from .trace import Trace, room_of

#: The states of a run. The last three are ends.
RUNNING, PAUSED, DONE, STALLED, FAILED = "running", "paused", "done", "stalled", "failed"
# How long is waited for items or a command, and how often is looked what each block waits for, and measured how it
# works, in seconds.
SHORT, LONG, LOOK = 0.005, 0.1, 0.25
# How many items of each input a turn takes: as many as a processor works for about so long at, in seconds, since what
# is asked for waits for the turn's end.
FEWEST, MOST, TURN = 1 << 10, 1 << 18, 0.01


class Made(NamedTuple):
    """A setting that was made, and the item from which it is in force."""

    block: str
    value: Union[int, list[int]]
    at: int


class Ways(NamedTuple):
    """The paths of inputs by their sources and of outputs by their sinks."""

    inputs: dict[str, str]
    outputs: dict[str, str]


class Run(threading.Thread):
    """A run, from its first item on. All attributes may be read by other threads, and are written by its own, which
    does what `call` asks for between two pieces."""

    def __init__(self, graph: GraphFile, path: str, ways: Ways, number: int = 1) -> None:
        super().__init__(name="magbelu-run", daemon=True)
        self.graph, self.number = graph, number
        self.state, self.fault = PAUSED, ""
        self.rate: Optional[int] = None
        self.log: list[Made] = []
        self.needs: dict[str, list[Any]] = {}
        self._stream = Stream(graph.text, path)
        self._asked: queue.SimpleQueue[tuple[Callable[[], Any], concurrent.futures.Future[Any]]] = queue.SimpleQueue()
        # Whether the thread is to end, and whether it takes nothing more; and when it looked last.
        self._is_ended, self._is_over, self._looked = False, False, 0.0
        # How long was waited for items since then, and when the blocks are measured next.
        self._waited, self._measures_at = 0.0, 0.0
        #: Which part of the time the run waits for its inputs.
        self.waits = 0.0
        # Where a paused run goes on to, and from when on and from which items of the inputs its pace counts.
        self._goals: dict[str, int] = {}
        self._paced_from, self._paced_counts = 0.0, dict.fromkeys(ways.inputs, 0)
        # How many items of each input a turn takes at most.
        self._piece = PIECE
        sinks = self._stream.sinks
        self.traces = {it.name: Trace(it.size, room_of(len(sinks), it.size)) for it in sinks}
        self._profile = Profile(self._stream, ways.inputs)
        self._open(ways)

    def _open(self, ways: Ways) -> None:
        """Opens the inputs and outputs. Sources that have no input are closed behind what the file feeds them."""
        for sink in ways.outputs:
            self._stream.drain(sink, 0)
        sizes = {it: self._stream._size(it) for it in ways.inputs}
        self.inputs = {it: Input(it, path, sizes[it]) for it, path in ways.inputs.items()}
        for source in self._stream.sources:
            if source.name not in self.inputs:
                self._stream.close(source.name)
        self.outputs = {it: Output(it, path, self.number) for it, path in ways.outputs.items()}
        self._look()

    def call(self, asked: Callable[[], Any]) -> concurrent.futures.Future[Any]:
        """Has the run's thread do something, and gives what comes of it."""
        future: concurrent.futures.Future[Any] = concurrent.futures.Future()
        self._asked.put((asked, future))
        if self._is_over:
            self._refuse()
        return future

    def _refuse(self) -> None:
        """Refuses all that was asked for too late."""
        while True:
            try:
                _, future = self._asked.get_nowait()
            except queue.Empty:
                return
            future.set_exception(ValueError("the run has ended"))

    def go_on(self, items: Optional[int] = None, to: Optional[int] = None) -> None:
        """Goes on to the end, or until each input has given so many items more, or has given all up to one."""
        if self.state not in (PAUSED, RUNNING):
            return
        self._goals = {}
        if items is not None or to is not None:
            self._goals = {name: it.count + items if items is not None else to or 0 for name, it in self.inputs.items()}
        self._pace_anew()
        self.state = RUNNING

    def pause(self) -> None:
        """Pauses once the graph has run over what it has been fed."""
        self._goals = {name: it.count for name, it in self.inputs.items()}

    def set_rate(self, rate: Optional[int]) -> None:
        """Takes so many items of each input a second at most, or as many as go."""
        self.rate = rate
        self._pace_anew()

    def set(self, block: str, value: Union[int, list[int]], at: Optional[int]) -> int:
        """Sets a block, and gives the item from which that is in force."""
        made = Made(block, value, self._stream.set(block, value, at))
        self.log.append(made)
        return made.at

    def fire(self, block: str, count: int) -> dict[str, Any]:
        """Has a block of a paused run fire so often at most, a source over what comes next; and gives how often it did,
        and of each input and output the first item that this took or gave, and how many."""
        if self.state != PAUSED:
            raise ValueError("a block fires by itself only while the run is paused")
        it = self.inputs.get(block)
        if it is not None and self._stream.need(block).what == "feed":
            self._give(it, min(PIECE, count))
        before, done, after = self._profile.counts(block), self._stream.step(block, count), self._profile.counts(block)
        for sink in self.traces:
            self._drain(sink)
        self._look()
        took, gave = ([[start, end - start] for start, end in zip(*both)] for both in zip(before, after))
        return {"firings": done, "took": took, "gave": gave, "needs": self.needs[block]}

    def end(self) -> None:
        """Ends the thread, and with it the run where it is."""
        self._is_ended = True
        # (it may wait for something to be asked)
        self.call(lambda: None)

    def run(self) -> None:
        while not self._is_ended:
            self._obey()
            if self.state == RUNNING:
                try:
                    self._timed_turn()
                except (OSError, Error, CutItem, ValueError) as error:
                    self._come_to(FAILED, str(error))
        self._close()
        self._is_over = True
        self._refuse()

    def _obey(self) -> None:
        """Does all that is asked for; while nothing runs, it waits for that."""
        try:
            asked, future = self._asked.get(self.state != RUNNING, LONG)
        except queue.Empty:
            return
        try:
            future.set_result(asked())
        except Exception as error:  # (it belongs to the one who asked)
            future.set_exception(error)

    def _timed_turn(self) -> None:
        """A turn, from which the next one learns how many items it is to take."""
        fed, began = sum(it.count for it in self.inputs.values()), time.thread_time()
        self._turn()
        taken, is_full = time.thread_time() - began, sum(it.count for it in self.inputs.values()) - fed >= self._piece
        if taken > 2 * TURN:
            self._piece = max(self._piece // 2, FEWEST)
        elif taken < TURN / 2 and is_full:
            self._piece = min(self._piece * 2, MOST)

    def _turn(self) -> None:
        """Runs the graph over what it has been fed, gives on what its sinks took, and feeds it the next piece."""
        self._measure_at_times()
        is_done = self._stream.settle()
        for sink in self.traces:
            self._drain(sink)
        self._look_at_times()
        if is_done:
            self._come_to(DONE)
            return
        lacking = [self.inputs[it] for it in self.inputs if self._stream.need(it).what == "feed"]
        if not lacking:
            self._come_to(STALLED)
        elif self._goals and all(it.count >= self._goals[it.source] for it in lacking):
            self._pause()
        elif not any([self._feed(it) for it in lacking]):
            self._wait(lacking)

    def _drain(self, sink: str) -> None:
        trace, output = self.traces[sink], self.outputs.get(sink)
        while True:
            room = trace.next_piece()
            count, tags = self._stream.drain_into(sink, room)
            if count and output is not None:
                output.write(room[:count])
            trace.take(count, tags)
            if count < len(room):
                return

    def _feed(self, it: Input) -> bool:
        """Feeds a source what has come, as the pace and the goal allow; whether anything was done."""
        return self._give(
            it, min(self._piece, self._goals.get(it.source, it.count + MOST) - it.count, self._allowed(it))
        )

    def _give(self, it: Input, most: int) -> bool:
        """Feeds a source so many items at most, or closes it at the end; whether anything was done."""
        data = it.read(most) if most > 0 else None
        if data is None:
            return False
        if data:
            self._stream.feed(it.source, data)
        else:
            self._stream.close(it.source)
        return True

    def _allowed(self, it: Input) -> int:
        """How many items of an input the pace allows now. (They come together, so that the run sleeps between them.)"""
        if self.rate is None:
            return MOST
        moments = (time.monotonic() - self._paced_from) // SHORT
        return int(moments * SHORT * self.rate) + self._paced_counts[it.source] - it.count

    def _pace_anew(self) -> None:
        self._paced_from, self._paced_counts = time.monotonic(), {name: it.count for name, it in self.inputs.items()}

    def _wait(self, lacking: list[Input]) -> None:
        """Waits a moment for the pace, or for what comes through a pipe."""
        began = time.monotonic()
        pipes = [it for it in lacking if not it.is_file and self._allowed(it) > 0]
        if pipes:
            pipes[0].wait(SHORT)
        else:
            time.sleep(SHORT)
        self._waited += time.monotonic() - began

    def _measure_at_times(self) -> None:
        """Measures how the blocks work, which is to take a tenth of the time at most."""
        began = time.monotonic()
        if began > self._measures_at:
            self._profile.measure()
            ended = time.monotonic()
            # (a run may be over soon: so its first items are measured, whenever they come)
            self._measures_at = ended + max(LOOK, 9 * (ended - began)) if self._profile.shown["blocks"] else 0.0

    def _look_at_times(self) -> None:
        if time.monotonic() - self._looked > LOOK:
            self._look()

    def _look(self) -> None:
        """Looks what each block waits for."""
        now = time.monotonic()
        self.waits, self._waited, self._looked = min(self._waited / max(now - self._looked, LOOK), 1.0), 0.0, now
        self.needs = {it["name"]: list(self._stream.need(it["name"])) for it in self.graph.blocks}

    def _pause(self) -> None:
        self._goals = {}
        self._come_to(PAUSED)

    def _come_to(self, state: str, fault: str = "") -> None:
        self.state, self.fault = state, fault
        self._look()

    def _close(self) -> None:
        for close in [it.close for it in self.inputs.values()] + [it.close for it in self.outputs.values()]:
            try:
                close()
            except OSError as error:
                self.state, self.fault = FAILED, str(error)
        self._stream.free()

    def shown(self) -> dict[str, Any]:
        """How far the run is."""
        return {
            "number": self.number,
            "state": self.state,
            "fault": self.fault,
            "rate": self.rate,
            "fed": {name: it.count for name, it in self.inputs.items()},
            "held": {name: it.end for name, it in self.traces.items()},
            "needs": self.needs,
            "works": self._profile.shown,
            "limits": self._profile.limits,
            "waits": round(self.waits, 2),
            "outputs": {name: it.path for name, it in self.outputs.items()},
            "settings": len(self.log),
        }
