"""The block that GNU Radio's scheduler calls: it moves items and tags into a stream and out of it."""

from __future__ import annotations

import ctypes
import functools
import importlib
import threading
import weakref
from typing import Any, Optional

from ._gr_tags import Tags
from ._stream import Stream

NO_GNU_RADIO: Optional[ImportError] = None
BasicBlock: Any = object
HierBlock: Any = object
blocks: Any = None
gr: Any = None
pmt: Any = None
try:
    gr, blocks, pmt = map(importlib.import_module, ("gnuradio.gr", "gnuradio.blocks", "pmt"))
    BasicBlock, HierBlock = gr.basic_block, gr.hier_block2
except ImportError as error:
    NO_GNU_RADIO = error


class Input:
    """An input port as it is told to people."""

    def __init__(self, path: str, port: int, source: str) -> None:
        self.text = "%s: nothing is connected to input %d of this Magbelu block, its source `%s`" % (path, port, source)


# Of the blocks before input ports: by what GNU Radio calls each the port.
INPUTS: weakref.WeakValueDictionary[str, Input] = weakref.WeakValueDictionary()


def telling(call: Any) -> Any:
    """A call of GNU Radio's top block that tells which input of a graph lacks a connection: it names the block before
    the port, as `copy(9)`, of which nobody knows."""

    @functools.wraps(call)
    def told(*words: Any, **named: Any) -> Any:
        try:
            return call(*words, **named)
        except RuntimeError as error:
            port = INPUTS.get(str(error).partition(":")[0])
            if port is None:
                raise
            raise RuntimeError(port.text) from error

    return told


if NO_GNU_RADIO is None:
    gr.top_block.start, gr.top_block.unlock = telling(gr.top_block.start), telling(gr.top_block.unlock)

# The most items that a source is fed at a time.
MOST_FED = 65536


class ThreadState:
    """Has Python keep what it holds of the calling thread, from `keep` to `drop`. Of a thread that it has not started,
    as GNU Radio's are, it makes that anew in each call, which is a third of what a call takes."""

    def __init__(self) -> None:
        self._thread: Optional[int] = None

    def keep(self) -> None:
        ctypes.pythonapi.PyGILState_Ensure()
        self._thread = threading.get_ident()

    def drop(self) -> None:
        # (what was kept of another thread is not this one's to drop)
        if self._thread == threading.get_ident():
            # (0 is the state before `keep`, in which this thread held the lock too)
            ctypes.pythonapi.PyGILState_Release(0)
        self._thread = None


class Block(BasicBlock):  # type: ignore[misc]
    """Feeds the sources of a graph from the input ports, each where it lacks items, and drains the sinks into the
    output ports.

    Where it has nothing to do it asks for an item at each port whose source lacks one, so that GNU Radio wakes it once
    one comes. But where the block before such a port is done, GNU Radio would end this one for that, and tells it
    nothing before. So there is a block of GNU Radio's before each port, which copies: where that is done, all it wrote
    was taken, and the source lacks more, the source is closed.
    """

    def __init__(self, stream: Stream, names: list[str], ports: Any, ends: list[Any], tags: Tags) -> None:
        self._names, self._ends, self.tags = names, ends, tags
        self._inputs, self._outputs = ([port.name for port in side] for side in ports)
        self._ports_told = [Input(stream.path, port, name) for port, name in enumerate(self._inputs)]
        # Of the blocks before the ports what this run has of them.
        self._details: list[Any] = []
        self._thread_state = ThreadState()
        self._begin(stream)
        super().__init__("magbelu_flowgraph", *([port.dtype for port in side] for side in ports))
        self.set_tag_propagation_policy(gr.TPP_DONT)

    def names_end(self, port: int) -> None:
        """Has GNU Radio name this port where it would name the block before it."""
        INPUTS[self._ends[port].identifier()] = self._ports_told[port]

    def _begin(self, stream: Stream) -> None:
        self.stream = stream
        self.outcome: Optional[str] = None
        self.fault: Optional[Exception] = None
        # Of each port how many items went through it since the stream was opened, with those that the file feeds.
        self._fed = [self.stream.feed(name, b"") for name in self._inputs]
        self._drained = [0] * len(self._outputs)
        # Which sinks may have more than there was room for, and which sources lack items, if the stream has settled.
        self._has_more = [False] * len(self._outputs)
        self._lacking: Optional[list[int]] = None
        self._is_over = False
        # How many items a source is fed at a time: twice as many each time, and half where the sinks took more of them
        # than there was room for.
        self._most = 1

    def start(self) -> bool:
        if self.outcome is not None:
            self._begin(self.stream.anew())
        # (to ask the blocks themselves takes a hundred times as long)
        self._details = [it.detail() for it in self._ends]
        self._thread_state.keep()
        return True

    def stop(self) -> bool:
        # (the next run has others, and these hold buffers)
        self._details = []
        self._thread_state.drop()
        return True

    def forecast(self, noutput_items: int, ninputs: int) -> list[int]:
        if (
            self._lacking is None
            or self.outcome is not None
            or any(self._has_more)
            or any(map(self._has_news, self._lacking))
        ):
            return [0] * ninputs
        return [int(port in self._lacking) for port in range(ninputs)]

    def _has_news(self, port: int) -> bool:
        """Whether items have come, or come no longer."""
        end = self._details[port]
        return bool(end.done() or end.nitems_written(0) > self.nitems_read(port))

    def _is_at_end(self, port: int, taken: int) -> bool:
        end = self._details[port]
        return bool(end.done() and end.nitems_written(0) == self.nitems_read(port) + taken)

    def general_work(self, input_items: list[Any], output_items: list[Any]) -> int:
        if self.outcome is not None:
            return int(gr.WORK_DONE)
        taken, given = [0] * len(input_items), [0] * len(output_items)
        try:
            self._move(input_items, taken, output_items, given)
        except Exception as fault:
            self.outcome, self.fault = "failed", fault
            self.logger.error("%s: %s" % (self.stream.path, fault))
        for port, count in enumerate(taken):
            self.consume(port, count)
        for port, count in enumerate(given):
            self.produce(port, count)
        return int(gr.WORK_CALLED_PRODUCE)

    def _move(self, inputs: list[Any], taken: list[int], outputs: list[Any], given: list[int]) -> None:
        if any(self._has_more):
            self._drain(outputs, given)
        if any(given):
            self._most = max(self._most // 2, 1)
        if self._lacking is None:
            self._settle()
            self._drain(outputs, given)
        while not any(self._has_more) and self._feed(inputs, taken):
            self._settle()
            self._drain(outputs, given)
        if not self._lacking and not any(self._has_more):
            self._end()

    def _settle(self) -> None:
        self._is_over = self.stream.settle()
        self._lacking = [port for port, name in enumerate(self._inputs) if self.stream.need(name).what == "feed"]

    def _feed(self, inputs: list[Any], taken: list[int]) -> bool:
        """Feeds the sources that lack items what has come for them, or closes them. It gives whether there was any
        such."""
        is_fed = False
        for port in self._lacking or []:
            name, first = self._inputs[port], self.nitems_read(port) + taken[port]
            items = inputs[port][taken[port] : taken[port] + self._most]
            if len(items):
                tags = self.tags.fed(
                    self.get_tags_in_range(port, first, first + len(items)), name, self._fed[port] - first
                )
                self._fed[port] = self.stream.feed(name, memoryview(items).cast("B"), tags)
                taken[port] += len(items)
            elif self._is_at_end(port, taken[port]):
                self.stream.close(name)
            else:
                continue
            is_fed = True
        self._most = min(2 * self._most, MOST_FED)
        return is_fed

    def _drain(self, outputs: list[Any], given: list[int]) -> None:
        for port, name in enumerate(self._outputs):
            room = outputs[port][given[port] :]
            count, tags = self.stream.drain_into(name, room)
            for tag in tags:
                offset = self.nitems_written(port) + given[port] + tag.offset - self._drained[port]
                self.add_item_tag(port, offset, *self.tags.given(tag, self._names))
            given[port] += count
            self._drained[port] += count
            self._has_more[port] = count == len(room)

    def _end(self) -> None:
        self.outcome = "done" if self._is_over else "stalled"
        if not self._is_over:
            waits = [(name, self.stream.need(name)) for name in self._names]
            self.logger.warn(
                "%s has stalled: %s"
                % (
                    self.stream.path,
                    ", ".join("%s waits for %s" % (name, it.what) for name, it in waits if it.what != "done"),
                )
            )
