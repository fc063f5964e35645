"""Where the items of sinks go."""

from __future__ import annotations

import os
import sys


class Output:
    """A file, a pipe, or standard output, which is `-`. Each item that the sink took is written there at once, out of
    the memory into which it was drained."""

    def __init__(self, sink: str, path: str, number: int) -> None:
        self.sink = sink
        #: A run that is begun anew writes beside the files of those before.
        self.path = path if number == 1 or path == "-" or not os.path.isfile(path) else "%s.%d" % (path, number)
        self._file = (
            sys.stdout.fileno() if path == "-" else os.open(self.path, os.O_WRONLY | os.O_CREAT | os.O_TRUNC, 0o666)
        )

    def write(self, items: memoryview) -> None:
        data = items.cast("B")
        while data:
            data = data[os.write(self._file, data) :]

    def close(self) -> None:
        if self.path != "-":
            os.close(self._file)
