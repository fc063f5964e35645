"""Why a call was not done."""

from __future__ import annotations

from typing import Optional

# The names of refusals, and the reasons.
# scripts/generate writes these lines from refusals.toml: ROWS
ROWS = {
    1: ("DuplicateName", "two blocks have the name"),
    2: ("UnknownBlock", "the connection names no block"),
    3: ("PortRange", "the block's kind has no such port, or it is negative"),
    4: ("InputTaken", "the input has a connection already"),
    5: ("PortGap", "the port is not used and a higher one is"),
    6: ("TypeMismatch", "the ends of the connection to this input have different types"),
    7: ("Loop", "the block reaches itself"),
    8: ("TooFewPorts", "the block uses fewer ports than its kind needs"),
    9: ("TooLarge", "there are too many"),
    10: ("BadParameter", "its value is outside its range"),
    11: ("OneToOne", "`tags = \"one\"`, with different numbers of inputs and outputs"),
    12: ("Gain", "at this block the product of the gains along a path exceeds 2^24"),
    20: ("NoSuchBlock", "no block of the graph has this name"),
    21: ("NotSource", "the block is no vector_source"),
    22: ("NotSink", "the block is no vector_sink"),
    23: ("Closed", "the source is closed"),
    24: ("ItemRange", "an item is outside the range of the source's type"),
    25: ("TagPlace", "a tag lies on none of the items that it is fed with"),
    26: ("TapeFull", "the source would be fed more items than it takes"),
    27: ("Late", "the setting begins before the first item that is open"),
    28: ("NoSetting", "the block has no setting"),
    29: ("WrongSetting", "the numbers are outside the setting's range, or of another count"),
    31: ("BeyondEnd", "the read begins behind what the sink holds"),
    32: ("Memory", "memory ran out"),
    40: ("Syntax", "the text is not TOML in UTF-8"),
    41: ("UnknownKey", "the table has a key that such a table does not have"),
    42: ("MissingKey", "the key is missing"),
    43: ("WrongType", "the value at the key has another type"),
    44: ("UnknownKind", "there is no such kind"),
    50: ("BadLine", "the line of this number is no command"),
    52: ("Write", "memory for the output ran out"),
    53: ("CutItem", "the bytes end in the midst of an item"),
    54: ("Null", "a pointer is NULL, and its length is not 0"),
    55: ("NotOpen", "no plant is held, or it was freed"),
    56: ("IsOpen", "a plant is held already"),
    57: ("Lengths", "the slices of a kernel differ in length"),
    58: ("BadKey", "the key of a tag is not 1 to 16 letters, digits, `_`, `.` or `-`"),
    63: ("NoSlices", "a block keeps all that it was given, the rates have no balance, or slices would overlap too far"),
    64: ("NoCut", "a slice begins at the first iteration, or from the overlap on"),
}
# end of these lines: ROWS


class Error(Exception):
    """A call was not done. `number`, `name` and `detail` are those of its refusal, as docs/user/REFUSALS.md lists them;
    `output` is what was written before. Where the graph file is refused, `place` shows where and why, as `flow
    --explain` does, and the text of the exception has it; else `reason` is a sentence. Of a setting that comes too late
    (27), `floor` is the first item from which it could be in force.

    >>> magbelu.check("[[block]]")
    Traceback (most recent call last):
    magbelu._errors.Refused: 42 MissingKey block 0 name
     --> <graph>:1:1
      |
    1 | [[block]]
      | ^ a block needs the key `name`: a text
    """

    def __init__(
        self,
        text: str,
        output: str = "",
        place: str = "",
        reason: str = "",
        floor: Optional[int] = None,
        hint: str = "",
    ) -> None:
        super().__init__(text)
        words = text.split(" ", 2) + ["", "", ""]
        self.number = int(words[0]) if words[0].isdigit() else 0
        self.name, self.detail = words[1], words[2]
        self.output = output
        self.place, self.floor, self.hint = place, floor, hint
        self.reason = reason or ("" if place else ROWS.get(self.number, ("", ""))[1])
        if floor is not None:
            self.reason += ", which is %d" % floor

    def __str__(self) -> str:
        line = ": ".join(filter(None, [super().__str__(), self.reason]))
        return "\n".join(filter(None, [line, self.place.rstrip("\n"), self.hint]))


class Refused(Error):
    """The graph file, a feed, a setting, a line or a name is refused."""


class OutOfMemory(Error, MemoryError):
    """Memory ran out."""


def refused(number: int, detail: str, is_memory: bool = False, reason: str = "", floor: Optional[int] = None) -> Error:
    """The exception of a refusal that has no line."""
    text = ("%d %s %s" % (number, ROWS.get(number, ("", ""))[0], detail)).rstrip(" ")
    return (OutOfMemory if is_memory else Refused)(text, reason=reason, floor=floor)
