"""The kinds of blocks: what is said of each, and the types of its parameters.

`scripts/generate` writes this file from kinds.toml: change that, and call it."""

from __future__ import annotations

from typing import Iterable, Literal, Mapping, NamedTuple, Optional, Sequence, SupportsIndex, Union, overload

#: A type of items, the order of bits in an item, and which tags a block passes on.
Type = Literal["byte", "short", "int"]
Order = Literal["msb_first", "lsb_first"]
Policy = Literal["all", "one", "none"]
#: A number or several, as `feed` takes them.
Number = SupportsIndex
Numbers = Iterable[SupportsIndex]


class Kind(NamedTuple):
    """A kind of blocks: what it gives, the types that a block may have, what each parameter may be, how many items it
    gives for how many, an example, the parameter that may be set while it runs, and values for those that a block
    needs, whatever its type."""

    name: str
    equation: str
    types: Sequence[str]
    parameters: Mapping[str, str]
    rate: str
    example: str
    setting: Optional[str]
    least: Mapping[str, Union[int, str, list[int]]]

    @property
    def page(self) -> str:
        """What `flow kinds` prints of it."""
        rows = [*self.parameters.items(), ("rate", self.rate), ("example", self.example)]
        said = ("    %s: %s\n" % row for row in rows if row[1])
        return "".join(["%s: %s\n" % (self.name, self.equation), *said])


#: The kinds by their names, in the order of `flow kinds`.
KIND_ROWS: Mapping[str, Kind] = {
    "vector_source": Kind(
        "vector_source", "the items that it is fed", ("byte", "short", "int"),
        {
            "type": "\"byte\", \"short\" or \"int\"",
        },
        "", "", None, {},
    ),
    "vector_sink": Kind(
        "vector_sink", "keeps its input", ("byte", "short", "int"),
        {
            "type": "\"byte\", \"short\" or \"int\"",
        },
        "", "", None, {},
    ),
    "null_sink": Kind(
        "null_sink", "drops its input", ("byte", "short", "int"),
        {
            "type": "\"byte\", \"short\" or \"int\"",
        },
        "", "", None, {},
    ),
    "add_const": Kind(
        "add_const", "x[n] + c(n), wrapped", ("byte", "short", "int"),
        {
            "type": "\"byte\", \"short\" or \"int\"",
            "value": "a number of the type, may be set",
        },
        "1 for 1", "bytes, 10: 250 1 gives 4 11", "value", {"value": 1},
    ),
    "multiply_const": Kind(
        "multiply_const", "x[n] * c(n), wrapped", ("byte", "short", "int"),
        {
            "type": "\"byte\", \"short\" or \"int\"",
            "value": "a number of the type, may be set",
        },
        "1 for 1", "bytes, 3: 100 gives 44", "value", {"value": 1},
    ),
    "divide_const": Kind(
        "divide_const",
        "x[n] / c(n) without what is behind the point, wrapped, and 0 where c(n) is 0",
        ("byte", "short", "int"),
        {
            "type": "\"byte\", \"short\" or \"int\"",
            "value": "a number of the type, may be set",
        },
        "1 for 1", "shorts, -2: 7 -7 -32768 gives -3 3 16384", "value", {"value": 1},
    ),
    "and_const": Kind(
        "and_const", "the bits that x[n] and c(n) both have", ("byte", "short", "int"),
        {
            "type": "\"byte\", \"short\" or \"int\"",
            "value": "a number of the type, may be set",
        },
        "1 for 1", "bytes, 12: 10 gives 8", "value", {"value": 1},
    ),
    "or_const": Kind(
        "or_const", "the bits that x[n] or c(n) has", ("byte", "short", "int"),
        {
            "type": "\"byte\", \"short\" or \"int\"",
            "value": "a number of the type, may be set",
        },
        "1 for 1", "bytes, 12: 10 gives 14", "value", {"value": 1},
    ),
    "xor_const": Kind(
        "xor_const", "the bits that one of x[n] and c(n) has", ("byte", "short", "int"),
        {
            "type": "\"byte\", \"short\" or \"int\"",
            "value": "a number of the type, may be set",
        },
        "1 for 1", "bytes, 12: 10 gives 6", "value", {"value": 1},
    ),
    "scale": Kind(
        "scale",
        "x[n] * c(n) / 2^shift, to the nearest whole number (ties round up), then to the nearest in the type's range",
        ("byte", "short", "int"),
        {
            "type": "\"byte\", \"short\" or \"int\"",
            "factor": "-32768 to 32767, may be set",
            "shift": "0 to 31, 0 where it is missing",
        },
        "1 for 1", "shorts, 3, 1: 1 -1 30000 gives 2 -1 32767", "factor", {"factor": 1},
    ),
    "clip": Kind(
        "clip", "the number from low to high that is nearest to x[n]", ("byte", "short", "int"),
        {
            "type": "\"byte\", \"short\" or \"int\"",
            "low": "a number of the type",
            "high": "a number of the type, at least `low`",
        },
        "1 for 1", "shorts, -5, 9: -30 7 30 gives -5 7 9", None, {"low": 0, "high": 1},
    ),
    "abs": Kind(
        "abs", "x[n] without its sign, wrapped", ("byte", "short", "int"),
        {
            "type": "\"byte\", \"short\" or \"int\"",
        },
        "1 for 1", "shorts: -5 7 -32768 gives 5 7 -32768", None, {},
    ),
    "not": Kind(
        "not", "x[n] with all bits inverted", ("byte", "short", "int"),
        {
            "type": "\"byte\", \"short\" or \"int\"",
        },
        "1 for 1", "bytes: 0 gives 255", None, {},
    ),
    "mute": Kind(
        "mute", "0 while c(n) is 1, and x[n] while it is 0", ("byte", "short", "int"),
        {
            "type": "\"byte\", \"short\" or \"int\"",
            "on": "0 or 1, may be set",
        },
        "1 for 1", "1: 7 8 gives 0 0", "on", {"on": 1},
    ),
    "add": Kind(
        "add", "the sum of the items of its 1 to 16 inputs, wrapped", ("byte", "short", "int"),
        {
            "type": "\"byte\", \"short\" or \"int\"",
        },
        "1 for 1 of each input", "bytes: 1 2 and 10 20 give 11 22", None, {},
    ),
    "sub": Kind(
        "sub",
        "the items of the first of its 1 to 16 inputs less those of the others, wrapped, and of one input their "
        "negative",
        ("byte", "short", "int"),
        {
            "type": "\"byte\", \"short\" or \"int\"",
        },
        "1 for 1 of each input", "bytes: 10 1 and 3 2 give 7 255", None, {},
    ),
    "multiply": Kind(
        "multiply", "the product of the items of its 1 to 16 inputs, wrapped", ("byte", "short", "int"),
        {
            "type": "\"byte\", \"short\" or \"int\"",
        },
        "1 for 1 of each input", "bytes: 3 100 and 2 3 give 6 44", None, {},
    ),
    "divide": Kind(
        "divide",
        "the items of the first of its 1 to 16 inputs over those of the others in turn, each without what is behind "
        "the point, wrapped, and 0 over 0",
        ("byte", "short", "int"),
        {
            "type": "\"byte\", \"short\" or \"int\"",
        },
        "1 for 1 of each input", "shorts: 7 -7 5 and 2 2 0 give 3 -3 0", None, {},
    ),
    "minimum": Kind(
        "minimum", "the least of the items of its 1 to 16 inputs", ("byte", "short", "int"),
        {
            "type": "\"byte\", \"short\" or \"int\"",
        },
        "1 for 1 of each input", "shorts: 3 -9 and 2 5 give 2 -9", None, {},
    ),
    "maximum": Kind(
        "maximum", "the greatest of the items of its 1 to 16 inputs", ("byte", "short", "int"),
        {
            "type": "\"byte\", \"short\" or \"int\"",
        },
        "1 for 1 of each input", "shorts: 3 -9 and 2 5 give 3 5", None, {},
    ),
    "and": Kind(
        "and", "the bits that all items of its 1 to 16 inputs have", ("byte", "short", "int"),
        {
            "type": "\"byte\", \"short\" or \"int\"",
        },
        "1 for 1 of each input", "bytes: 12 and 10 give 8", None, {},
    ),
    "or": Kind(
        "or", "the bits that any item of its 1 to 16 inputs has", ("byte", "short", "int"),
        {
            "type": "\"byte\", \"short\" or \"int\"",
        },
        "1 for 1 of each input", "bytes: 12 and 10 give 14", None, {},
    ),
    "xor": Kind(
        "xor", "the bits that an odd number of the items of its 1 to 16 inputs have", ("byte", "short", "int"),
        {
            "type": "\"byte\", \"short\" or \"int\"",
        },
        "1 for 1 of each input", "bytes: 12 and 10 give 6", None, {},
    ),
    "sample_and_hold": Kind(
        "sample_and_hold",
        "the item of its first input at the last place where the second is not 0, and 0 before there is one",
        ("byte", "short", "int"),
        {
            "type": "\"byte\", \"short\" or \"int\"",
        },
        "1 for 1 of each input", "bytes: 7 8 9 10 and 0 1 0 255 give 0 8 8 10", None, {},
    ),
    "map_bb": Kind(
        "map_bb", "map[x[n]], and x[n] itself behind the end of the map", (),
        {
            "map": "at most 256 numbers, each 0 to 255",
        },
        "1 for 1", "5 6: 0 1 2 255 gives 5 6 2 255", None, {"map": [1]},
    ),
    "table": Kind(
        "table", "values[x[n]], and the last of them behind their end", (),
        {
            "to": "\"byte\", \"short\" or \"int\"",
            "values": "1 to 256 numbers of the type `to`",
        },
        "1 for 1", "shorts, -7 9: 0 1 5 gives -7 9 9", None, {"to": "short", "values": [1]},
    ),
    "convert": Kind(
        "convert", "the number of the type `to` with the lowest bits of x[n]", ("byte", "short", "int"),
        {
            "type": "\"byte\", \"short\" or \"int\"",
            "to": "\"byte\", \"short\" or \"int\"",
        },
        "1 for 1", "shorts to bytes: -1 256 300 gives 255 0 44", None, {"to": "short"},
    ),
    "binary_slicer": Kind(
        "binary_slicer", "the byte 1 where x[n] is at least `threshold`, and 0 elsewhere", ("byte", "short", "int"),
        {
            "type": "\"byte\", \"short\" or \"int\"",
            "threshold": "a number of the type",
        },
        "1 for 1", "shorts, 0: -5 0 7 gives 0 1 1", None, {"threshold": 0},
    ),
    "ulaw_encode": Kind(
        "ulaw_encode", "the byte of x[n] by the mu-law of ITU-T G.711", ("byte", "short", "int"),
        {
            "type": "\"byte\", \"short\" or \"int\"",
        },
        "1 for 1", "shorts: 0 -1 32767 gives 255 127 128", None, {},
    ),
    "alaw_encode": Kind(
        "alaw_encode", "the byte of x[n] by the A-law of ITU-T G.711", ("byte", "short", "int"),
        {
            "type": "\"byte\", \"short\" or \"int\"",
        },
        "1 for 1", "shorts: 0 -8 32767 gives 213 85 170", None, {},
    ),
    "moving_sum": Kind(
        "moving_sum", "the sum of the last `length` items, wrapped", ("byte", "short", "int"),
        {
            "type": "\"byte\", \"short\" or \"int\"",
            "length": "1 to 1024",
        },
        "1 for 1", "bytes, 3: 1 2 3 4 200 100 gives 1 3 6 9 207 48", None, {"length": 1},
    ),
    "fir": Kind(
        "fir", "the sum of h(n)[j] * x[n * decimation - j] over the taps h, over 2^shift as `scale`", ("short", "int"),
        {
            "type": "\"short\" or \"int\"",
            "taps": "1 to 256 numbers, each -32768 to 32767, may be set",
            "decimation": "1 to 1024, 1 where it is missing",
            "shift": "0 to 31, 0 where it is missing",
        },
        "1 for `decimation`", "shorts, 1 2 3: 1 0 0 4 gives 1 2 3 4", "taps", {"taps": [1]},
    ),
    "interp_fir": Kind(
        "interp_fir",
        "item m * interpolation + p is the sum of h(m)[p + j * interpolation] * x[m - j], over 2^shift as `scale`",
        ("short", "int"),
        {
            "type": "\"short\" or \"int\"",
            "taps": "1 to 256 numbers, each -32768 to 32767, may be set",
            "interpolation": "1 to 1024, 1 where it is missing",
            "shift": "0 to 31, 0 where it is missing",
        },
        "`interpolation` for 1", "shorts, 1 2 3, 2: 10 20 gives 10 20 50 40", "taps", {"taps": [1]},
    ),
    "keep_one_in_n": Kind(
        "keep_one_in_n", "the last of each n items", ("byte", "short", "int"),
        {
            "type": "\"byte\", \"short\" or \"int\"",
            "n": "1 to 1024",
        },
        "1 for n", "3: 1 2 3 4 5 6 7 gives 3 6", None, {"n": 1},
    ),
    "keep_m_in_n": Kind(
        "keep_m_in_n", "the m items from `offset` on of each n", ("byte", "short", "int"),
        {
            "type": "\"byte\", \"short\" or \"int\"",
            "m": "1 to 1024",
            "n": "m to 1024",
            "offset": "0 to n - m, 0 where it is missing",
        },
        "m for n", "2, 4, 1: 1 2 3 4 5 6 7 8 gives 2 3 6 7", None, {"m": 1, "n": 1},
    ),
    "integrate": Kind(
        "integrate", "the sum of each n items, wrapped", ("byte", "short", "int"),
        {
            "type": "\"byte\", \"short\" or \"int\"",
            "n": "1 to 1024",
        },
        "1 for n", "bytes, 2: 200 100 5 6 7 gives 44 11", None, {"n": 1},
    ),
    "frame_minimum": Kind(
        "frame_minimum", "the least of each n items", ("byte", "short", "int"),
        {
            "type": "\"byte\", \"short\" or \"int\"",
            "n": "1 to 1024",
        },
        "1 for n", "shorts, 3: 4 -2 9 5 6 7 gives -2 5", None, {"n": 1},
    ),
    "frame_maximum": Kind(
        "frame_maximum", "the greatest of each n items", ("byte", "short", "int"),
        {
            "type": "\"byte\", \"short\" or \"int\"",
            "n": "1 to 1024",
        },
        "1 for n", "shorts, 3: 4 -2 9 5 6 7 gives 9 7", None, {"n": 1},
    ),
    "argmax": Kind(
        "argmax",
        "the place of the first of the greatest of each n items, from 0 on, wrapped",
        ("byte", "short", "int"),
        {
            "type": "\"byte\", \"short\" or \"int\"",
            "n": "1 to 1024",
        },
        "1 for n", "shorts, 3: 4 -2 9 5 8 8 gives 2 1", None, {"n": 1},
    ),
    "repeat": Kind(
        "repeat", "each item n times", ("byte", "short", "int"),
        {
            "type": "\"byte\", \"short\" or \"int\"",
            "n": "1 to 1024",
        },
        "n for 1", "2: 1 2 gives 1 1 2 2", None, {"n": 1},
    ),
    "insert": Kind(
        "insert",
        "the list `values` once in each `period` items, from item `offset` of these on, and x in all other places",
        ("byte", "short", "int"),
        {
            "type": "\"byte\", \"short\" or \"int\"",
            "values": "1 to 256 numbers of the type",
            "period": "more than there are values, and at most 1024",
            "offset": "0 to as much as `period` is more than there are values, 0 where it is missing",
        },
        "`period` for as many less than that as there are values",
        "9 8, 4, 1: 1 2 3 4 gives 1 9 8 2 3 9 8 4",
        None,
        {"values": [1], "period": 2},
    ),
    "pattern": Kind(
        "pattern",
        "the list `values` again and again: its item n modulo its length, whatever x[n] is",
        ("byte", "short", "int"),
        {
            "type": "\"byte\", \"short\" or \"int\"",
            "values": "1 to 256 numbers of the type",
        },
        "1 for 1", "7 8 9: 0 0 0 0 0 gives 7 8 9 7 8", None, {"values": [1]},
    ),
    "counter": Kind(
        "counter", "n modulo the parameter `n`, wrapped, whatever x[n] is", ("byte", "short", "int"),
        {
            "type": "\"byte\", \"short\" or \"int\"",
            "n": "1 to 2147483648",
        },
        "1 for 1", "3: 0 0 0 0 0 gives 0 1 2 0 1", None, {"n": 1},
    ),
    "permute": Kind(
        "permute",
        "item order[j] of each frame at its place j, where a frame has as many items as the order",
        ("byte", "short", "int"),
        {
            "type": "\"byte\", \"short\" or \"int\"",
            "order": "the numbers 0 to n - 1 in any order, n from 1 to 256",
        },
        "as many as the order has for as many", "2 0 1: 1 2 3 4 5 6 gives 3 1 2 6 4 5", None, {"order": [0]},
    ),
    "interleave": Kind(
        "interleave", "an item of each input in turn", ("byte", "short", "int"),
        {
            "type": "\"byte\", \"short\" or \"int\"",
            "ports": "1 to 16",
        },
        "`ports` for 1 of each input", "2: 1 2 3 and 10 20 give 1 10 2 20", None, {"ports": 1},
    ),
    "deinterleave": Kind(
        "deinterleave", "an item to each output in turn", ("byte", "short", "int"),
        {
            "type": "\"byte\", \"short\" or \"int\"",
            "ports": "1 to 16",
        },
        "1 to each output for `ports`", "3: 1 2 3 4 5 6 7 gives 1 4, 2 5 and 3 6", None, {"ports": 1},
    ),
    "stream_mux": Kind(
        "stream_mux", "so many items of each input in turn as `lengths` says", ("byte", "short", "int"),
        {
            "type": "\"byte\", \"short\" or \"int\"",
            "lengths": "1 to 16 numbers, each 1 to 1024, at most 1024 together",
        },
        "whole rounds", "2 1: 1 2 3 4 5 and 10 20 30 give 1 2 10 3 4 20", None, {"lengths": [1]},
    ),
    "head": Kind(
        "head", "the first n items, and then it is done", ("byte", "short", "int"),
        {
            "type": "\"byte\", \"short\" or \"int\"",
            "n": "0 to 4294967296",
        },
        "1 for 1", "3: 1 2 3 4 gives 1 2 3", None, {"n": 1},
    ),
    "skiphead": Kind(
        "skiphead", "all items but the first n", ("byte", "short", "int"),
        {
            "type": "\"byte\", \"short\" or \"int\"",
            "n": "0 to 4294967296",
        },
        "1 for 1", "2: 7 8 9 gives 9", None, {"n": 1},
    ),
    "delay": Kind(
        "delay", "n zeros, and then the input", ("byte", "short", "int"),
        {
            "type": "\"byte\", \"short\" or \"int\"",
            "n": "0 to 65536",
        },
        "1 for 1", "2: 7 8 gives 0 0 7 8", None, {"n": 1},
    ),
    "pack_k_bits": Kind(
        "pack_k_bits", "the lowest bits of k bytes as one byte, the first the highest", (),
        {
            "k": "1 to 8",
        },
        "1 for k", "4: 0 1 0 1 129 0 0 0 gives 5 8", None, {"k": 1},
    ),
    "unpack_k_bits": Kind(
        "unpack_k_bits", "the k lowest bits of each byte, a byte each, the highest first", (),
        {
            "k": "1 to 8",
        },
        "k for 1", "4: 245 8 gives 0 1 0 1 1 0 0 0", None, {"k": 1},
    ),
    "repack_bits": Kind(
        "repack_bits", "the k lowest bits of each byte, one after the other, in bytes of l bits", (),
        {
            "order": "\"msb_first\" or \"lsb_first\", \"msb_first\" where it is missing",
            "k": "1 to 8",
            "l": "1 to 8",
        },
        "whole rounds", "msb_first, 4, 8: 5 8 gives 88", None, {"k": 1, "l": 1},
    ),
    "packed_to_unpacked": Kind(
        "packed_to_unpacked",
        "all bits of each item, one after the other, in items of `bits` bits",
        ("byte", "short", "int"),
        {
            "type": "\"byte\", \"short\" or \"int\"",
            "order": "\"msb_first\" or \"lsb_first\", \"msb_first\" where it is missing",
            "bits": "1 to the bits of an item: 8, 16 or 32",
        },
        "whole rounds", "bytes, msb_first, 4: 88 gives 5 8", None, {"bits": 1},
    ),
    "unpacked_to_packed": Kind(
        "unpacked_to_packed",
        "the `bits` lowest bits of each item, one after the other, in whole items",
        ("byte", "short", "int"),
        {
            "type": "\"byte\", \"short\" or \"int\"",
            "order": "\"msb_first\" or \"lsb_first\", \"msb_first\" where it is missing",
            "bits": "1 to the bits of an item: 8, 16 or 32",
        },
        "whole rounds", "bytes, msb_first, 4: 5 8 gives 88", None, {"bits": 1},
    ),
    "diff_encoder": Kind(
        "diff_encoder", "the sum of all items so far, modulo `modulus`", (),
        {
            "modulus": "2 to 256",
        },
        "1 for 1", "4: 1 2 3 1 gives 1 3 2 3", None, {"modulus": 2},
    ),
    "diff_decoder": Kind(
        "diff_decoder", "x[n] - x[n-1], modulo `modulus`", (),
        {
            "modulus": "2 to 256",
        },
        "1 for 1", "4: 1 3 2 3 gives 1 2 3 1", None, {"modulus": 2},
    ),
    "scrambler": Kind(
        "scrambler", "y[n] = x[n] + the sum of m(j) * y[n-j], modulo 2", (),
        {
            "bits": "2 to 32",
            "mask": "1 to 2^bits - 1",
            "init": "0 to 2^bits - 1",
        },
        "1 for 1", "3, 5, 1: 1 0 0 1 gives 0 0 1 0", None, {"bits": 2, "mask": 1, "init": 1},
    ),
    "descrambler": Kind(
        "descrambler", "x[n] + the sum of m(j) * x[n-j], modulo 2", (),
        {
            "bits": "2 to 32",
            "mask": "1 to 2^bits - 1",
            "init": "0 to 2^bits - 1",
        },
        "1 for 1", "3, 5, 1: 0 0 1 0 gives 1 0 0 1", None, {"bits": 2, "mask": 1, "init": 1},
    ),
    "additive_scrambler": Kind(
        "additive_scrambler", "x[n] + s[n], where s[n] is the sum of m(j) * s[n-j], modulo 2", (),
        {
            "bits": "2 to 32",
            "mask": "1 to 2^bits - 1",
            "init": "0 to 2^bits - 1",
        },
        "1 for 1", "3, 5, 1: 0 0 0 0 gives 1 1 0 1", None, {"bits": 2, "mask": 1, "init": 1},
    ),
    "correlate_access_code": Kind(
        "correlate_access_code",
        "bit 0 of x[n-64], and 2 more at the first item behind a `code`, where at most `threshold` bits differ",
        (),
        {
            "code": "a text of 1 to 64 digits 0 and 1",
            "threshold": "0 to as many as `code` has digits",
        },
        "1 for 1", "", None, {"code": "1", "threshold": 0},
    ),
    "crc_append": Kind(
        "crc_append", "each `n` items, and then their checksum", (),
        {
            "order": "\"msb_first\" or \"lsb_first\", \"msb_first\" where it is missing",
            "bits": "8 to 32",
            "polynomial": "0 to 2^bits - 1",
            "init": "0 to 2^bits - 1",
            "final_xor": "0 to 2^bits - 1",
            "n": "1 to 1020",
        },
        "n + its bytes for n",
        "msb_first, 8, 7, 0, 0, 1: 1 2 gives 1 7 2 14",
        None,
        {"bits": 8, "polynomial": 7, "init": 0, "final_xor": 0, "n": 1},
    ),
    "crc_check": Kind(
        "crc_check", "1 for each `n` items with their checksum behind them, and 0 for each with another", (),
        {
            "order": "\"msb_first\" or \"lsb_first\", \"msb_first\" where it is missing",
            "bits": "8 to 32",
            "polynomial": "0 to 2^bits - 1",
            "init": "0 to 2^bits - 1",
            "final_xor": "0 to 2^bits - 1",
            "n": "1 to 1020",
        },
        "1 for n + its bytes",
        "msb_first, 8, 7, 0, 0, 1: 1 7 2 7 gives 1 0",
        None,
        {"bits": 8, "polynomial": 7, "init": 0, "final_xor": 0, "n": 1},
    ),
    "state_machine": Kind(
        "state_machine",
        "output[r], where r is s * symbols + x[n] modulo symbols, and the state s, `init` at first, is next[r] from "
        "then on",
        (),
        {
            "symbols": "1 to 4096",
            "next": "1 to 4096 numbers of states, `symbols` of them for each state",
            "output": "as many numbers as `next`, each 0 to 255",
            "init": "the number of a state, of which `next` has `symbols` for each",
        },
        "1 for 1",
        "2, 0 2 0 2 1 3 1 3, 0 3 3 0 1 2 2 1, 0: 1 0 1 1 0 0 gives 3 1 0 2 2 3",
        None,
        {"symbols": 1, "next": [0], "output": [0], "init": 0},
    ),
    "viterbi": Kind(
        "viterbi",
        "of each block, the symbols r modulo symbols of the path of rows r that lead by next[r] from state r / "
        "symbols on, for which the sum of x[outputs * i + output[r]] over steps i is the least",
        ("byte", "short", "int"),
        {
            "type": "\"byte\", \"short\" or \"int\"",
            "symbols": "1 to 256",
            "next": "1 to 4096 numbers of states, `symbols` of them for each of at most 1024 states",
            "outputs": "1 to 1024",
            "output": "as many numbers as `next`, each 0 to less than `outputs`",
            "steps": "1 to as many that steps * outputs is at most 1024, and steps times the number of states at most"
            " 16384",
            "start": "the number of a state, of which `next` has `symbols` for each, or less than 0 where none is "
            "known, -1 where it is missing",
            "end": "the number of a state, of which `next` has `symbols` for each, or less than 0 where none is "
            "known, -1 where it is missing",
        },
        "steps for steps * outputs",
        "byte, 2, 0 2 0 2 1 3 1 3, 4, 0 3 3 0 1 2 2 1, 3, 0, -1: 2 1 1 0 1 0 2 1 0 1 1 2 gives 1 0 1",
        None,
        {"symbols": 1, "next": [0], "outputs": 1, "output": [0], "steps": 1},
    ),
}

#: What `flow kinds` prints of each kind, by its name.
KINDS: Mapping[str, str] = {name: it.page for name, it in KIND_ROWS.items()}


class KindBlocks:
    """The keywords of each kind's parameters, for those who look at types. A parameter that may be left out has the
    value `...` here."""

    @overload
    def block(self, name: str, kind: Literal["vector_source"], *, type: Type, capacity: Number = ...) -> str: ...

    @overload
    def block(self, name: str, kind: Literal["vector_sink"], *, type: Type) -> str: ...

    @overload
    def block(self, name: str, kind: Literal["null_sink"], *, type: Type) -> str: ...

    @overload
    def block(
        self,
        name: str,
        kind: Literal["add_const"],
        *,
        type: Type,
        value: Number,
        tags: Policy = ...,
        multiple: Number = ...,
        capacity: Number = ...,
    ) -> str: ...

    @overload
    def block(
        self,
        name: str,
        kind: Literal["multiply_const"],
        *,
        type: Type,
        value: Number,
        tags: Policy = ...,
        multiple: Number = ...,
        capacity: Number = ...,
    ) -> str: ...

    @overload
    def block(
        self,
        name: str,
        kind: Literal["divide_const"],
        *,
        type: Type,
        value: Number,
        tags: Policy = ...,
        multiple: Number = ...,
        capacity: Number = ...,
    ) -> str: ...

    @overload
    def block(
        self,
        name: str,
        kind: Literal["and_const"],
        *,
        type: Type,
        value: Number,
        tags: Policy = ...,
        multiple: Number = ...,
        capacity: Number = ...,
    ) -> str: ...

    @overload
    def block(
        self,
        name: str,
        kind: Literal["or_const"],
        *,
        type: Type,
        value: Number,
        tags: Policy = ...,
        multiple: Number = ...,
        capacity: Number = ...,
    ) -> str: ...

    @overload
    def block(
        self,
        name: str,
        kind: Literal["xor_const"],
        *,
        type: Type,
        value: Number,
        tags: Policy = ...,
        multiple: Number = ...,
        capacity: Number = ...,
    ) -> str: ...

    @overload
    def block(
        self,
        name: str,
        kind: Literal["scale"],
        *,
        type: Type,
        factor: Number,
        shift: Number = ...,
        tags: Policy = ...,
        multiple: Number = ...,
        capacity: Number = ...,
    ) -> str: ...

    @overload
    def block(
        self,
        name: str,
        kind: Literal["clip"],
        *,
        type: Type,
        low: Number,
        high: Number,
        tags: Policy = ...,
        multiple: Number = ...,
        capacity: Number = ...,
    ) -> str: ...

    @overload
    def block(
        self,
        name: str,
        kind: Literal["abs"],
        *,
        type: Type,
        tags: Policy = ...,
        multiple: Number = ...,
        capacity: Number = ...,
    ) -> str: ...

    @overload
    def block(
        self,
        name: str,
        kind: Literal["not"],
        *,
        type: Type,
        tags: Policy = ...,
        multiple: Number = ...,
        capacity: Number = ...,
    ) -> str: ...

    @overload
    def block(
        self,
        name: str,
        kind: Literal["mute"],
        *,
        type: Type,
        on: Number,
        tags: Policy = ...,
        multiple: Number = ...,
        capacity: Number = ...,
    ) -> str: ...

    @overload
    def block(
        self,
        name: str,
        kind: Literal["add"],
        *,
        type: Type,
        tags: Policy = ...,
        multiple: Number = ...,
        capacity: Number = ...,
    ) -> str: ...

    @overload
    def block(
        self,
        name: str,
        kind: Literal["sub"],
        *,
        type: Type,
        tags: Policy = ...,
        multiple: Number = ...,
        capacity: Number = ...,
    ) -> str: ...

    @overload
    def block(
        self,
        name: str,
        kind: Literal["multiply"],
        *,
        type: Type,
        tags: Policy = ...,
        multiple: Number = ...,
        capacity: Number = ...,
    ) -> str: ...

    @overload
    def block(
        self,
        name: str,
        kind: Literal["divide"],
        *,
        type: Type,
        tags: Policy = ...,
        multiple: Number = ...,
        capacity: Number = ...,
    ) -> str: ...

    @overload
    def block(
        self,
        name: str,
        kind: Literal["minimum"],
        *,
        type: Type,
        tags: Policy = ...,
        multiple: Number = ...,
        capacity: Number = ...,
    ) -> str: ...

    @overload
    def block(
        self,
        name: str,
        kind: Literal["maximum"],
        *,
        type: Type,
        tags: Policy = ...,
        multiple: Number = ...,
        capacity: Number = ...,
    ) -> str: ...

    @overload
    def block(
        self,
        name: str,
        kind: Literal["and"],
        *,
        type: Type,
        tags: Policy = ...,
        multiple: Number = ...,
        capacity: Number = ...,
    ) -> str: ...

    @overload
    def block(
        self,
        name: str,
        kind: Literal["or"],
        *,
        type: Type,
        tags: Policy = ...,
        multiple: Number = ...,
        capacity: Number = ...,
    ) -> str: ...

    @overload
    def block(
        self,
        name: str,
        kind: Literal["xor"],
        *,
        type: Type,
        tags: Policy = ...,
        multiple: Number = ...,
        capacity: Number = ...,
    ) -> str: ...

    @overload
    def block(
        self,
        name: str,
        kind: Literal["sample_and_hold"],
        *,
        type: Type,
        tags: Policy = ...,
        multiple: Number = ...,
        capacity: Number = ...,
    ) -> str: ...

    @overload
    def block(
        self,
        name: str,
        kind: Literal["map_bb"],
        *,
        map: Numbers,
        tags: Policy = ...,
        multiple: Number = ...,
        capacity: Number = ...,
    ) -> str: ...

    @overload
    def block(
        self,
        name: str,
        kind: Literal["table"],
        *,
        to: Type,
        values: Numbers,
        tags: Policy = ...,
        multiple: Number = ...,
        capacity: Number = ...,
    ) -> str: ...

    @overload
    def block(
        self,
        name: str,
        kind: Literal["convert"],
        *,
        type: Type,
        to: Type,
        tags: Policy = ...,
        multiple: Number = ...,
        capacity: Number = ...,
    ) -> str: ...

    @overload
    def block(
        self,
        name: str,
        kind: Literal["binary_slicer"],
        *,
        type: Type,
        threshold: Number,
        tags: Policy = ...,
        multiple: Number = ...,
        capacity: Number = ...,
    ) -> str: ...

    @overload
    def block(
        self,
        name: str,
        kind: Literal["ulaw_encode"],
        *,
        type: Type,
        tags: Policy = ...,
        multiple: Number = ...,
        capacity: Number = ...,
    ) -> str: ...

    @overload
    def block(
        self,
        name: str,
        kind: Literal["alaw_encode"],
        *,
        type: Type,
        tags: Policy = ...,
        multiple: Number = ...,
        capacity: Number = ...,
    ) -> str: ...

    @overload
    def block(
        self,
        name: str,
        kind: Literal["moving_sum"],
        *,
        type: Type,
        length: Number,
        tags: Policy = ...,
        multiple: Number = ...,
        capacity: Number = ...,
    ) -> str: ...

    @overload
    def block(
        self,
        name: str,
        kind: Literal["fir"],
        *,
        type: Literal["short", "int"],
        taps: Numbers,
        decimation: Number = ...,
        shift: Number = ...,
        tags: Policy = ...,
        multiple: Number = ...,
        capacity: Number = ...,
    ) -> str: ...

    @overload
    def block(
        self,
        name: str,
        kind: Literal["interp_fir"],
        *,
        type: Literal["short", "int"],
        taps: Numbers,
        interpolation: Number = ...,
        shift: Number = ...,
        tags: Policy = ...,
        multiple: Number = ...,
        capacity: Number = ...,
    ) -> str: ...

    @overload
    def block(
        self,
        name: str,
        kind: Literal["keep_one_in_n"],
        *,
        type: Type,
        n: Number,
        tags: Policy = ...,
        multiple: Number = ...,
        capacity: Number = ...,
    ) -> str: ...

    @overload
    def block(
        self,
        name: str,
        kind: Literal["keep_m_in_n"],
        *,
        type: Type,
        m: Number,
        n: Number,
        offset: Number = ...,
        tags: Policy = ...,
        multiple: Number = ...,
        capacity: Number = ...,
    ) -> str: ...

    @overload
    def block(
        self,
        name: str,
        kind: Literal["integrate"],
        *,
        type: Type,
        n: Number,
        tags: Policy = ...,
        multiple: Number = ...,
        capacity: Number = ...,
    ) -> str: ...

    @overload
    def block(
        self,
        name: str,
        kind: Literal["frame_minimum"],
        *,
        type: Type,
        n: Number,
        tags: Policy = ...,
        multiple: Number = ...,
        capacity: Number = ...,
    ) -> str: ...

    @overload
    def block(
        self,
        name: str,
        kind: Literal["frame_maximum"],
        *,
        type: Type,
        n: Number,
        tags: Policy = ...,
        multiple: Number = ...,
        capacity: Number = ...,
    ) -> str: ...

    @overload
    def block(
        self,
        name: str,
        kind: Literal["argmax"],
        *,
        type: Type,
        n: Number,
        tags: Policy = ...,
        multiple: Number = ...,
        capacity: Number = ...,
    ) -> str: ...

    @overload
    def block(
        self,
        name: str,
        kind: Literal["repeat"],
        *,
        type: Type,
        n: Number,
        tags: Policy = ...,
        multiple: Number = ...,
        capacity: Number = ...,
    ) -> str: ...

    @overload
    def block(
        self,
        name: str,
        kind: Literal["insert"],
        *,
        type: Type,
        values: Numbers,
        period: Number,
        offset: Number = ...,
        tags: Policy = ...,
        multiple: Number = ...,
        capacity: Number = ...,
    ) -> str: ...

    @overload
    def block(
        self,
        name: str,
        kind: Literal["pattern"],
        *,
        type: Type,
        values: Numbers,
        tags: Policy = ...,
        multiple: Number = ...,
        capacity: Number = ...,
    ) -> str: ...

    @overload
    def block(
        self,
        name: str,
        kind: Literal["counter"],
        *,
        type: Type,
        n: Number,
        tags: Policy = ...,
        multiple: Number = ...,
        capacity: Number = ...,
    ) -> str: ...

    @overload
    def block(
        self,
        name: str,
        kind: Literal["permute"],
        *,
        type: Type,
        order: Numbers,
        tags: Policy = ...,
        multiple: Number = ...,
        capacity: Number = ...,
    ) -> str: ...

    @overload
    def block(
        self,
        name: str,
        kind: Literal["interleave"],
        *,
        type: Type,
        ports: Number,
        tags: Policy = ...,
        multiple: Number = ...,
        capacity: Number = ...,
    ) -> str: ...

    @overload
    def block(
        self,
        name: str,
        kind: Literal["deinterleave"],
        *,
        type: Type,
        ports: Number,
        tags: Policy = ...,
        multiple: Number = ...,
        capacity: Number = ...,
    ) -> str: ...

    @overload
    def block(
        self,
        name: str,
        kind: Literal["stream_mux"],
        *,
        type: Type,
        lengths: Numbers,
        tags: Policy = ...,
        multiple: Number = ...,
        capacity: Number = ...,
    ) -> str: ...

    @overload
    def block(
        self,
        name: str,
        kind: Literal["head"],
        *,
        type: Type,
        n: Number,
        tags: Policy = ...,
        multiple: Number = ...,
        capacity: Number = ...,
    ) -> str: ...

    @overload
    def block(
        self,
        name: str,
        kind: Literal["skiphead"],
        *,
        type: Type,
        n: Number,
        tags: Policy = ...,
        multiple: Number = ...,
        capacity: Number = ...,
    ) -> str: ...

    @overload
    def block(
        self,
        name: str,
        kind: Literal["delay"],
        *,
        type: Type,
        n: Number,
        tags: Policy = ...,
        multiple: Number = ...,
        capacity: Number = ...,
    ) -> str: ...

    @overload
    def block(
        self,
        name: str,
        kind: Literal["pack_k_bits"],
        *,
        k: Number,
        tags: Policy = ...,
        multiple: Number = ...,
        capacity: Number = ...,
    ) -> str: ...

    @overload
    def block(
        self,
        name: str,
        kind: Literal["unpack_k_bits"],
        *,
        k: Number,
        tags: Policy = ...,
        multiple: Number = ...,
        capacity: Number = ...,
    ) -> str: ...

    @overload
    def block(
        self,
        name: str,
        kind: Literal["repack_bits"],
        *,
        order: Order = ...,
        k: Number,
        l: Number,
        tags: Policy = ...,
        multiple: Number = ...,
        capacity: Number = ...,
    ) -> str: ...

    @overload
    def block(
        self,
        name: str,
        kind: Literal["packed_to_unpacked"],
        *,
        type: Type,
        order: Order = ...,
        bits: Number,
        tags: Policy = ...,
        multiple: Number = ...,
        capacity: Number = ...,
    ) -> str: ...

    @overload
    def block(
        self,
        name: str,
        kind: Literal["unpacked_to_packed"],
        *,
        type: Type,
        order: Order = ...,
        bits: Number,
        tags: Policy = ...,
        multiple: Number = ...,
        capacity: Number = ...,
    ) -> str: ...

    @overload
    def block(
        self,
        name: str,
        kind: Literal["diff_encoder"],
        *,
        modulus: Number,
        tags: Policy = ...,
        multiple: Number = ...,
        capacity: Number = ...,
    ) -> str: ...

    @overload
    def block(
        self,
        name: str,
        kind: Literal["diff_decoder"],
        *,
        modulus: Number,
        tags: Policy = ...,
        multiple: Number = ...,
        capacity: Number = ...,
    ) -> str: ...

    @overload
    def block(
        self,
        name: str,
        kind: Literal["scrambler"],
        *,
        bits: Number,
        mask: Number,
        init: Number,
        tags: Policy = ...,
        multiple: Number = ...,
        capacity: Number = ...,
    ) -> str: ...

    @overload
    def block(
        self,
        name: str,
        kind: Literal["descrambler"],
        *,
        bits: Number,
        mask: Number,
        init: Number,
        tags: Policy = ...,
        multiple: Number = ...,
        capacity: Number = ...,
    ) -> str: ...

    @overload
    def block(
        self,
        name: str,
        kind: Literal["additive_scrambler"],
        *,
        bits: Number,
        mask: Number,
        init: Number,
        tags: Policy = ...,
        multiple: Number = ...,
        capacity: Number = ...,
    ) -> str: ...

    @overload
    def block(
        self,
        name: str,
        kind: Literal["correlate_access_code"],
        *,
        code: str,
        threshold: Number,
        tags: Policy = ...,
        multiple: Number = ...,
        capacity: Number = ...,
    ) -> str: ...

    @overload
    def block(
        self,
        name: str,
        kind: Literal["crc_append"],
        *,
        order: Order = ...,
        bits: Number,
        polynomial: Number,
        init: Number,
        final_xor: Number,
        n: Number,
        tags: Policy = ...,
        multiple: Number = ...,
        capacity: Number = ...,
    ) -> str: ...

    @overload
    def block(
        self,
        name: str,
        kind: Literal["crc_check"],
        *,
        order: Order = ...,
        bits: Number,
        polynomial: Number,
        init: Number,
        final_xor: Number,
        n: Number,
        tags: Policy = ...,
        multiple: Number = ...,
        capacity: Number = ...,
    ) -> str: ...

    @overload
    def block(
        self,
        name: str,
        kind: Literal["state_machine"],
        *,
        symbols: Number,
        next: Numbers,
        output: Numbers,
        init: Number,
        tags: Policy = ...,
        multiple: Number = ...,
        capacity: Number = ...,
    ) -> str: ...

    @overload
    def block(
        self,
        name: str,
        kind: Literal["viterbi"],
        *,
        type: Type,
        symbols: Number,
        next: Numbers,
        outputs: Number,
        output: Numbers,
        steps: Number,
        start: Number = ...,
        end: Number = ...,
        tags: Policy = ...,
        multiple: Number = ...,
        capacity: Number = ...,
    ) -> str: ...

    def block(self, name: str, kind: str, **keys: object) -> str:
        """Adds a block of this kind, with its parameters by their keys in a graph file, and gives its name."""
        return self._add(name, kind, keys)

    def _add(self, name: str, kind: str, keys: Mapping[str, object]) -> str:
        raise NotImplementedError
