"""Tags as GNU Radio has them, and as they are fed and drained."""

from __future__ import annotations

import re
from typing import Any, Iterable, Optional

from ._errors import refused
from ._held import Tag

KEY = re.compile(r"[A-Za-z0-9_.-]{1,16}")
REASON = "the key is not 1 to 16 letters, digits, `_`, `.` or `-`, or the value is no long"


class Tags:
    """What becomes of the tags that come in: those that a source cannot be fed are counted, or refused."""

    def __init__(self, pmt: Any, refuses: bool) -> None:
        self._pmt = pmt
        self._refuses = refuses
        self.left_out = 0

    def _word(self, tag: Any) -> Optional[tuple[str, int]]:
        """The key and the value of a tag that can be fed."""
        pmt = self._pmt
        # (GNU Radio takes no key that is no symbol)
        key = pmt.symbol_to_string(tag.key)
        return (key, pmt.to_long(tag.value)) if KEY.fullmatch(key) and pmt.is_integer(tag.value) else None

    def fed(self, tags: Iterable[Any], source: str, moved: int) -> list[tuple[int, str, int]]:
        """Those of these tags that a source is fed with, where offsets move by so many items."""
        taken = []
        for tag in tags:
            word = self._word(tag)
            if word is not None:
                taken.append((tag.offset + moved, *word))
            elif self._refuses:
                raise refused(
                    58, "%s: the tag %s=%s at item %d" % (source, tag.key, tag.value, tag.offset), reason=REASON
                )
            else:
                self.left_out += 1
        return taken

    def given(self, tag: Tag, names: list[str]) -> tuple[Any, Any, Any]:
        """Key, value and source id of a tag that was drained."""
        return self._pmt.intern(tag.key), self._pmt.from_long(tag.value), self._pmt.intern(names[tag.source])
