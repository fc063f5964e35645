"""What is wrong with a drawing, and what changes on the way: lines for standard error."""

from __future__ import annotations

import enum
from dataclasses import dataclass, field
from typing import List, Set, Tuple

_MOST_SHOWN = 60


class Code(enum.Enum):
    """Causes, with the numbers and names that `flow` has for them."""

    # scripts/generate writes these lines from refusals.toml: causes
    DUPLICATE_NAME = (1, "DuplicateName")
    UNKNOWN_BLOCK = (2, "UnknownBlock")
    PORT_RANGE = (3, "PortRange")
    INPUT_TAKEN = (4, "InputTaken")
    TYPE_MISMATCH = (6, "TypeMismatch")
    LOOP = (7, "Loop")
    TOO_FEW_PORTS = (8, "TooFewPorts")
    TOO_LARGE = (9, "TooLarge")
    BAD_PARAMETER = (10, "BadParameter")
    ITEM_RANGE = (24, "ItemRange")
    TAG_PLACE = (25, "TagPlace")
    SYNTAX = (40, "Syntax")
    UNKNOWN_KEY = (41, "UnknownKey")
    MISSING_KEY = (42, "MissingKey")
    WRONG_TYPE = (43, "WrongType")
    UNKNOWN_KIND = (44, "UnknownKind")
    READ = (51, "Read")
    WRITE = (52, "Write")
    # end of these lines: causes

    def __str__(self) -> str:
        return "%d %s" % self.value


class Refused(Exception):
    """A cause at a line of the drawing."""

    def __init__(self, line: int, code: Code, text: str) -> None:
        super().__init__(text)
        self.line, self.code, self.text = line, code, text


class AlreadyReported(Exception):
    """What was asked for depends on something that has been refused already."""


def shown(text: str) -> str:
    """Text of a drawing as it may stand in one line of a report: in part where it is long, control characters as their
    numbers."""
    if len(text) > _MOST_SHOWN:
        text = text[:_MOST_SHOWN] + "..."
    return "".join(it if it.isprintable() else "\\u{%x}" % ord(it) for it in text)


@dataclass
class Report:
    """The faults of one drawing, and notes on what differs from GNU Radio. Each stands once."""

    faults: Set[Tuple[int, str, str]] = field(default_factory=set)
    notes: Set[Tuple[int, str]] = field(default_factory=set)

    def refuse(self, fault: Refused) -> None:
        """Adds a fault."""
        self.faults.add((fault.line, str(fault.code), fault.text))

    def note(self, line: int, text: str) -> None:
        """Adds a difference that a user has to know."""
        self.notes.add((line, text))

    def fault_lines(self, path: str) -> List[str]:
        """The faults in the order of the drawing's lines."""
        return ["refused %s %s:%d: %s" % (code, path, line, text) for line, code, text in sorted(self.faults)]

    def note_lines(self, path: str) -> List[str]:
        """The notes in the order of the drawing's lines."""
        return ["note: %s:%d: %s" % (path, line, text) for line, text in sorted(self.notes)]
