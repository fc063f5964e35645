"""The parameters of one block of a drawing, each tested against what its kind takes."""

from __future__ import annotations

import string
from typing import Any, List, Mapping, Optional, Sequence, Tuple

from .drawing import DrawnBlock, Text
from .faults import Code, Refused, Report, shown
from .graph import ItemType
from .variables import TagObject, Variables

# The parameters of every block that say nothing of its items.
_COMMON = frozenset(("affinity", "alias", "comment", "id", "maxoutbuf", "minoutbuf"))
_MOST_CAPACITY = 65536
_KEY_LETTERS = frozenset(string.ascii_letters + string.digits + "_.-")
_MOST_KEY = 16
_LONG = 1 << 63


class Settings:
    """The parameters of one block. `defaults` has each one that blocks of its id have, with the text that stands for it
    where it is not given: an empty one where it has to be."""

    def __init__(self, block: DrawnBlock, defaults: Mapping[str, str], variables: Variables, report: Report) -> None:
        self.block = block
        self._defaults, self._variables, self._report = defaults, variables, report
        for key, text in block.parameters.items():
            if key not in defaults and key not in _COMMON:
                known = ", ".join(sorted(defaults)) or "none"
                raise Refused(
                    text.line, Code.UNKNOWN_KEY,
                    "%s has the parameter %s, and a %s has: %s" % (self.name, shown(key), block.id, known),
                )

    @property
    def name(self) -> str:
        """The block's name, as reports show it."""
        return shown(self.block.name)

    def note(self, text: str) -> None:
        """Tells how the block differs from GNU Radio's, if the text says something."""
        if text:
            self._report.note(self.block.line, "%s: %s" % (self.name, text))

    def refused(self, key: str, code: Code, text: str) -> Refused:
        """A fault at the line of a parameter, or of the block where that is not given."""
        return Refused(self._text(key).line, code, "%s: %s" % (self.name, text))

    def _text(self, key: str) -> Text:
        return self.block.parameters.get(key, Text(self._defaults.get(key, ""), self.block.line))

    def value(self, key: str) -> Any:
        """What a parameter comes to."""
        text = self._text(key)
        if not text.value.strip():
            raise Refused(text.line, Code.MISSING_KEY, "%s: %s has no value" % (self.name, key))
        return self._variables.evaluated(text, "%s: %s" % (self.name, key))

    def choice(self, key: str) -> str:
        """A parameter that is one of the words of a list, which Companion does not evaluate."""
        return self._text(key).value

    def word(self, key: str, words: Mapping[str, str]) -> str:
        """What stands here for a choice that is one of these words."""
        found = self.choice(key)
        if found not in words:
            raise self.refused(
                key, Code.BAD_PARAMETER, "%s is %s; it is %s" % (key, shown(found or "empty"), " or ".join(words))
            )
        return words[found]

    def needs(self, key: str, wanted: str, why: str) -> None:
        """Refuses a choice that is not the one that has a kind."""
        if self.choice(key) != wanted:
            raise self.refused(key, Code.BAD_PARAMETER, "%s is %s; %s" % (key, shown(self.choice(key)), why))

    def whole(self, key: str, least: int, most: int) -> int:
        """A whole number in a range."""
        return self._in_range(key, self.value(key), least, most)

    def ones(self, *keys: str) -> None:
        """Refuses parameters that count what a kind has one of."""
        for key in keys:
            if self.value(key) != 1:
                raise self.refused(
                    key, Code.BAD_PARAMETER, "%s is %s; a kind has 1" % (key, shown(self._text(key).value))
                )

    def number(self, key: str) -> float:
        """A number, whole or not."""
        value = self.value(key)
        if isinstance(value, bool) or not isinstance(value, (int, float)):
            raise self.refused(key, Code.WRONG_TYPE, "%s is %s, and no number" % (key, shown(self._text(key).value)))
        return value

    def truth(self, key: str) -> bool:
        """A truth value, or a number that stands for one."""
        value = self.value(key)
        if not isinstance(value, (int, float)):
            raise self.refused(
                key, Code.WRONG_TYPE, "%s is %s, and no truth value" % (key, shown(self._text(key).value))
            )
        return bool(value)

    def wholes(self, key: str, least: int, most: int, most_count: int) -> List[int]:
        """A list of whole numbers in a range, or of one that stands alone."""
        return [self._in_range(key, it, least, most) for it in self.listed(key, most_count)]

    def listed(self, key: str, most_count: int) -> Sequence[Any]:
        """A list, or what stands alone for a list of one; an empty text is an empty list, as in Companion."""
        if not self._text(key).value.strip():
            return []
        value = self.value(key)
        listed: Sequence[Any] = value if isinstance(value, (list, tuple, range)) else [value]
        try:
            count = len(listed)
        except OverflowError:
            count = most_count + 1
        if count > most_count:
            raise self.refused(
                key, Code.BAD_PARAMETER,
                "%s has %d values or more; a list here has at most %d" % (key, count, most_count),
            )
        return listed

    def item_type(self, types: Sequence[ItemType], key: str = "type") -> ItemType:
        """The type of the block's items."""
        text = self.choice(key)
        for it in types:
            if text == str(it):
                return it
        names = ", ".join(map(str, types))
        raise self.refused(
            key, Code.WRONG_TYPE, "its items are %s; a kind for it takes %s" % (shown(text or "of no type"), names)
        )

    def string(self, key: str) -> str:
        """A text."""
        return self._variables.string(self._text(key), "%s: %s" % (self.name, key))

    def path(self, key: str) -> str:
        """The path of a file."""
        path = self.string(key)
        if not path:
            raise self.refused(key, Code.MISSING_KEY, "it names no file")
        if not path.isprintable():
            raise self.refused(key, Code.BAD_PARAMETER, "the path %s has a character that is not printed" % shown(path))
        return path

    def capacity(self) -> Optional[int]:
        """How many items an output holds at least, where the drawing says that."""
        text = self.block.parameters.get("minoutbuf")
        if text is None or not text.value.strip():
            return None
        return self.whole("minoutbuf", 0, _MOST_CAPACITY) or None

    def tags(self, count: int) -> List[Tuple[int, str, int]]:
        """The tags on the items of a source of so many."""
        tags: List[Tuple[int, str, int]] = []
        for it in self.listed("tags", count + 1024):
            if not isinstance(it, TagObject):
                raise self.refused("tags", Code.WRONG_TYPE, "tags has what is no Tag Object")
            if not 0 <= it.offset < count:
                raise self.refused(
                    "tags", Code.TAG_PLACE, "a tag lies at %d, and the items go from 0 to %d" % (it.offset, count - 1)
                )
            if not 1 <= len(it.key) <= _MOST_KEY or not set(it.key) <= _KEY_LETTERS:
                raise self.refused(
                    "tags", Code.TAG_PLACE,
                    "the key %s of a tag is not 1 to %d letters, digits, _ . -" % (shown(it.key), _MOST_KEY),
                )
            if not -_LONG <= it.value < _LONG:
                raise self.refused("tags", Code.TAG_PLACE, "the value of a tag has more than 64 bits")
            tags.append((it.offset, it.key, it.value))
        return tags

    def _in_range(self, key: str, value: Any, least: int, most: int) -> int:
        if type(value) is not int:
            raise self.refused(
                key, Code.WRONG_TYPE, "%s is %s, and no whole number" % (key, shown(self._text(key).value))
            )
        if not least <= value <= most:
            raise self.refused(
                key, Code.BAD_PARAMETER, "%s is %s; it is %d to %d" % (key, shown(str(value)), least, most)
            )
        return value
