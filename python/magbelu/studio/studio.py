"""The graph file, its run, and what pages ask for of both."""

from __future__ import annotations

import asyncio
import os
import pathlib
import re
import tempfile
from typing import Any, AsyncIterable, Callable, Optional, Sequence, Union

from .._errors import Refused
from .._kinds import KIND_ROWS
from .._runs import place, read_file
from .._stream import Stream
from . import companion, edit
from .graphs import GraphFile
from .run import FAILED, PAUSED, Run, Ways

#: The greatest number that a page names an item or a rate with: all below are whole numbers in JavaScript.
MOST = 2**53
# How often a block fires at most where a page has it fire.
MOST_FIRINGS = 1 << 20


class Wrong(ValueError):
    """What a page asked for is not done; the text says why."""


def whole(asked: dict[str, Any], key: str, low: int = 0) -> Optional[int]:
    """A whole number that a page may have asked for."""
    value = asked.get(key)
    if value is not None and (isinstance(value, bool) or not isinstance(value, int) or not low <= value <= MOST):
        raise Wrong("%s is a whole number from %d on" % (key, low))
    return value


def text_in(asked: dict[str, Any], key: str) -> str:
    """A text that a page has to give."""
    value = asked.get(key)
    if not isinstance(value, str):
        raise Wrong("%s is a text" % key)
    return value


def fault_of(text: str, refused: Refused) -> dict[str, Any]:
    """What is wrong with a text, and the word that the page marks."""
    at = place(text)
    if at is None:
        return {"line": 1, "column": 1, "length": 1, "says": str(refused)}
    says = "%s\nline %d, column %d: %s" % (Exception.__str__(refused), at.line, at.column, at.why)
    return {"line": at.line, "column": at.column, "length": at.length, "says": says}


def looked(text: str) -> dict[str, Any]:
    """The graph of a text as the page draws it, and what is wrong with it."""
    graph, refused = GraphFile.draft(text)
    return {"graph": graph and graph.shown(), "fault": refused and fault_of(text, refused)}


class Studio:
    """A graph file and its run."""

    def __init__(
        self,
        path: Union[str, os.PathLike[str]],
        ways: Ways,
        rate: Optional[int] = None,
        watched: Sequence[tuple[str, str]] = (),
    ) -> None:
        self.path, self.ways = pathlib.Path(path), ways
        self._saved = read_file(path)
        # Where inputs are kept that were dropped on a page.
        self._dropped = tempfile.TemporaryDirectory(prefix="magbelu-studio-")
        text, self.views = self._watched(watched)
        self.run = self._new(text, 1, rate)
        self._does = {
            "watch": self._watch, "fire": self._fire, "run": self._go_on, "pause": self._pause, "rate": self._set_rate,
            "again": self._again, "set": self._set, "look": self._look, "add": self._add, "connect": self._connect,
            "apply": self._apply, "save": self._save, "companion": self._companion,
        }

    @property
    def saved(self) -> str:
        """The text of the file, as it was read or written last."""
        return self._saved.decode()

    def _watched(self, watched: Sequence[tuple[str, str]]) -> tuple[str, list[tuple[str, str]]]:
        """The text of the file with a sink behind each block that is to be watched, and of these sinks how each is
        shown."""
        text, views = self.saved, []
        for name, view in watched:
            block, _, port = name.partition(":")
            text, sink = edit.watched(GraphFile.of(text), block, int(port or 0))
            views.append((sink, view))
        return text, views

    def _new(self, text: str, number: int, rate: Optional[int]) -> Run:
        run = Run(GraphFile.of(text), str(self.path), self.ways, number)
        run.set_rate(rate)
        run.start()
        return run

    async def ask(self, asked: dict[str, Any]) -> Any:
        """Does what a page asks for, and gives what is told to that page alone."""
        does = self._does.get(str(asked.get("do")))
        if does is None:
            raise Wrong("there is no %r to be done" % asked.get("do"))
        return await does(asked)

    async def _in_run(self, asked: Callable[[], Any]) -> Any:
        """What the thread of the run does, between two pieces."""
        return await asyncio.wrap_future(self.run.call(asked))

    async def _go_on(self, asked: dict[str, Any]) -> None:
        items, to = whole(asked, "items", 1), whole(asked, "to")
        await self._in_run(lambda: self.run.go_on(items, to))

    async def _pause(self, asked: dict[str, Any]) -> None:
        await self._in_run(self.run.pause)

    async def _set_rate(self, asked: dict[str, Any]) -> None:
        rate = whole(asked, "rate", 1)
        await self._in_run(lambda: self.run.set_rate(rate))

    async def _set(self, asked: dict[str, Any]) -> int:
        """Sets a block, and gives the item from which that is in force."""
        block, value, at = text_in(asked, "block"), asked.get("value", ()), whole(asked, "at")
        if not all(type(it) is int for it in (value if isinstance(value, list) else [value])):
            raise Wrong("a block is set to a whole number or to a list of them")
        return int(await self._in_run(lambda: self.run.set(block, value, at)))

    async def _fire(self, asked: dict[str, Any]) -> dict[str, Any]:
        """Has a block of a paused run fire, and tells what came of it."""
        block, count = text_in(asked, "block"), whole(asked, "count", 1) or 1
        return dict(await self._in_run(lambda: self.run.fire(block, min(count, MOST_FIRINGS))))

    async def take_input(self, source: str, pieces: AsyncIterable[bytes]) -> None:
        """Begins a run in which a source is fed what a page gives."""
        with Stream(self.run.graph.text) as stream:
            stream.close(source)
        path, before = await self._stored(pieces), self.ways
        self.ways = before._replace(inputs={**before.inputs, source: path})
        try:
            await self._replace(self.run.graph.text)
        except BaseException:
            self.ways = before
            os.unlink(path)
            raise
        old = before.inputs.get(source, "")
        if os.path.dirname(old) == self._dropped.name:
            os.unlink(old)

    async def _stored(self, pieces: AsyncIterable[bytes]) -> str:
        """A file with what a page gives."""
        with tempfile.NamedTemporaryFile(dir=self._dropped.name, delete=False) as file:
            try:
                async for it in pieces:
                    file.write(it)
            except BaseException:
                os.unlink(file.name)
                raise
        return file.name

    async def _again(self, asked: dict[str, Any]) -> None:
        """Begins anew, which a pipe cannot."""
        await self._replace(self.run.graph.text)

    async def _replace(self, text: str) -> None:
        """Ends the run, and begins one of a text, which is paused if the one before was. A text that is refused leaves
        the run as it is."""
        if any(not it.is_file for it in self.run.inputs.values()):
            raise Wrong("a run that is fed by a pipe cannot begin anew")
        with Stream(text, str(self.path)) as stream:
            for source in self.ways.inputs:
                stream.close(source)
            for sink in self.ways.outputs:
                stream.drain(sink, 0)
        old = self.run
        goes_on = old.state != PAUSED
        old.end()
        await asyncio.get_running_loop().run_in_executor(None, old.join)
        try:
            self.run = self._new(text, old.number + 1, old.rate)
        except OSError as error:
            old.state, old.fault = FAILED, str(error)
            raise
        if goes_on:
            await self._in_run(self.run.go_on)

    async def _apply(self, asked: dict[str, Any]) -> None:
        """Begins a run of another text."""
        await self._replace(text_in(asked, "text"))

    async def _look(self, asked: dict[str, Any]) -> dict[str, Any]:
        """Looks at a text as it is typed."""
        return await asyncio.get_running_loop().run_in_executor(None, looked, text_in(asked, "text"))

    async def _add(self, asked: dict[str, Any]) -> str:
        """The text with a block of a kind more."""
        text, kind = text_in(asked, "text"), KIND_ROWS.get(text_in(asked, "kind"))
        if kind is None:
            raise Wrong("there is no kind %r" % asked["kind"])
        graph, refused = GraphFile.draft(text)
        if graph is None:
            raise Wrong("the text has a fault that has to be mended first: %s" % refused)
        names = [it["name"] for it in graph.blocks]
        return edit.with_table(
            text, "block", edit.table_of(edit.free_name(kind.name, names), kind, text_in(asked, "type"))
        )

    async def _watch(self, asked: dict[str, Any]) -> dict[str, str]:
        """The text with a sink behind an output of a block, and the name of that sink."""
        graph, refused = GraphFile.draft(text_in(asked, "text"))
        if graph is None:
            raise Wrong("the text has a fault that has to be mended first: %s" % refused)
        text, sink = edit.watched(graph, text_in(asked, "block"), whole(asked, "port") or 0)
        return {"text": text, "sink": sink}

    async def _connect(self, asked: dict[str, Any]) -> str:
        """The text with a connection more."""
        names, ports = [text_in(asked, it) for it in ("from", "to")], [
            whole(asked, it) or 0 for it in ("from_port", "to_port")
        ]
        if not all(re.fullmatch(r"[\w.-]+", it, re.ASCII) for it in names):
            raise Wrong("a connection is from a block to a block")
        return edit.with_table(
            text_in(asked, "text"), "connect", edit.connect_of(names[0], ports[0], names[1], ports[1])
        )

    async def _companion(self, asked: dict[str, Any]) -> dict[str, str]:
        """The text that a drawing becomes."""
        text, said = await asyncio.get_running_loop().run_in_executor(None, companion.graph_of, text_in(asked, "text"))
        return {"text": text, "said": said}

    async def _save(self, asked: dict[str, Any]) -> None:
        """Writes a text to the file, unless another program has written there since."""
        data = text_in(asked, "text").encode()
        if self.path.exists() and self.path.read_bytes() not in (self._saved, data):
            raise Wrong("%s was written by another program meanwhile: it is not replaced" % self.path)
        # (a file that is half written is never seen; a link stays one)
        at = self.path.resolve()
        with tempfile.NamedTemporaryFile(dir=at.parent, prefix=at.name, delete=False) as file:
            file.write(data)
        if at.exists():
            os.chmod(file.name, at.stat().st_mode & 0o7777)
        os.replace(file.name, at)
        self._saved = data

    def end(self) -> None:
        """Ends the run where it is; what its sinks have taken is written."""
        self.run.end()
        self.run.join(5)
        self._dropped.cleanup()
