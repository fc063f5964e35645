"""The files of a checkout, some of which may be other texts than stand there, and what is written into them."""

from __future__ import annotations

from dataclasses import dataclass
from functools import lru_cache
from pathlib import Path
from typing import Dict, List, Mapping, Optional


class Tree:
    """Reads files below a folder, each once. `changed` has texts in their stead."""

    def __init__(self, top: Path, changed: Optional[Mapping[str, str]] = None) -> None:
        self.top = top
        self._texts: Dict[str, str] = dict(changed or {})

    def text(self, file: str) -> str:
        """The text of a file, which is empty where there is none."""
        if file not in self._texts:
            path = self.top / file
            self._texts[file] = path.read_text(encoding="utf-8") if path.is_file() else ""
        return self._texts[file]

    def files(self, pattern: str) -> List[str]:
        """The files whose path has this form."""
        return _files(self.top, pattern)

    def with_change(self, file: str, text: str) -> Tree:
        """The same tree, in which this file has another text."""
        return Tree(self.top, {**self._texts, file: text})


@lru_cache(maxsize=None)
def _files(top: Path, pattern: str) -> List[str]:
    return sorted(path.relative_to(top).as_posix() for path in top.glob(pattern))


@dataclass(frozen=True)
class Written:
    """A text that stands in a file between two others, each of which stands there once; or is the whole file, where
    these are empty."""

    file: str
    text: str
    before: str = ""
    behind: str = ""

    def in_file(self, whole: str) -> Optional[str]:
        """The file with this text; nothing where what it stands between is not there once."""
        if not self.before:
            return self.text
        head, before, rest = whole.partition(self.before)
        _, behind, tail = rest.partition(self.behind)
        if not before or not behind or self.before in rest or self.behind in tail:
            return None
        return head + before + self.text + behind + tail


# What a comment in a line of its own begins and ends with.
_COMMENTS = {".rs": ("// ", ""), ".py": ("# ", ""), ".h": ("/* ", " */"), ".md": ("<!-- ", " -->")}


def marked(file: str, table: str, name: str, text: str, indent: str = "") -> Written:
    """Lines between two that say what they are, and begin with an indent."""
    opening, closing = _COMMENTS[Path(file).suffix]
    before = f"{indent}{opening}scripts/generate writes these lines from {table}: {name}{closing}\n"
    return Written(file, text, before, f"{indent}{opening}end of these lines: {name}{closing}\n")


def headed(file: str, table: str, doc: str, text: str) -> Written:
    """A module of Python that says at its head by what it is written."""
    head = f'"""{doc}\n\n`scripts/generate` writes this file from {table}: change that, and call it."""\n\n'
    return Written(file, head + text)
