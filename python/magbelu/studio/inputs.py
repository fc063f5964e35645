"""Where the items of sources come from."""

from __future__ import annotations

import os
import select
import stat
import sys
from typing import Optional

# How much is read at a time, at most: a whole number of items of each type.
MOST_BYTES = 1 << 20


class CutItem(Exception):
    """An input ended within an item."""


class Input:
    """The raw items of a file, of a pipe, or of standard input, which is `-`. A read never waits."""

    def __init__(self, source: str, path: str, item_size: int) -> None:
        self.source, self.path, self.item_size = source, path, item_size
        # (without that flag, to open a pipe waits for its writer)
        self._file = sys.stdin.fileno() if path == "-" else os.open(path, os.O_RDONLY | os.O_NONBLOCK)
        self._room = memoryview(bytearray(MOST_BYTES))
        # The part of an item that was read behind the last whole one.
        self._rest = b""
        #: How many items were read.
        self.count = 0
        self.is_file = stat.S_ISREG(os.fstat(self._file).st_mode)

    def read(self, most: int) -> Optional[memoryview]:
        """The next items, at most so many, nothing at the end, and None where none have come yet. They stand there
        until the next read."""
        want, held = min(most * self.item_size, MOST_BYTES), len(self._rest)
        if not self.is_file and not select.select([self._file], [], [], 0)[0]:
            return None
        self._room[:held] = self._rest
        count = os.readv(self._file, [self._room[held:want]])
        if not count and held:
            raise CutItem("%s ends within an item of %s, which has %d bytes" % (self.path, self.source, self.item_size))
        end = held + count
        whole = end // self.item_size * self.item_size
        self._rest = bytes(self._room[whole:end])
        self.count += whole // self.item_size
        return self._room[:whole] if whole or not count else None

    def wait(self, seconds: float) -> None:
        """Waits for items to come, so long at most."""
        select.select([self._file], [], [], seconds)

    def close(self) -> None:
        if self.path != "-":
            os.close(self._file)
