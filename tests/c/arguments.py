"""What python/magbelu makes of its arguments before it calls the library, over a library that only notes its calls.
tests/parts/c.sh calls it."""

import array
import copy
import ctypes
import decimal
import fractions
import pathlib
import pickle
import sys

import magbelu
from magbelu import _library

try:
    import numpy
except ImportError:
    numpy = None


class Number:
    """An integer of a type of its own."""

    def __init__(self, number):
        self.number = number

    def __index__(self):
        return self.number


class Noting:
    """Stands for the library: each call is noted with its numbers, as C gets them, and does nothing."""

    def __init__(self):
        self.noted = []

    def magbelu_bytes_open(self, plant, *words):
        return _library.Answer(0, 0, 0, 0)

    def magbelu_bytes_free(self, plant):
        return _library.Reply(0, 0, 0, 0)

    def magbelu_bytes_block_count(self, plant):
        return _library.Reply(0, 0, 0, 0)

    def magbelu_bytes_item_size(self, plant, *words):
        return _library.Reply(0, 0, 0, 2)

    def magbelu_bytes_feed(self, plant, name, name_len, big_endian, data, data_len, tags, tag_count):
        marks = ctypes.cast(tags, ctypes.POINTER(_library.Mark))[:tag_count]
        tags = [(it.offset, ctypes.string_at(it.key, it.key_len), it.value) for it in marks]
        return self.note("feed", ctypes.string_at(name, name_len), big_endian, ctypes.string_at(data, data_len), tags)

    def magbelu_bytes_feed_numbers(self, plant, name, name_len, data, count, tags, tag_count):
        return self.note(
            "numbers", ctypes.string_at(name, name_len), ctypes.cast(data, ctypes.POINTER(ctypes.c_int64))[:count]
        )

    def magbelu_bytes_close(self, plant, name, name_len):
        return self.note("close", ctypes.string_at(name, name_len))

    def magbelu_bytes_set(self, plant, name, name_len, at, number):
        return self.note("set", at, number)

    def magbelu_bytes_set_taps(self, plant, name, name_len, at, taps, count):
        return self.note("taps", at, ctypes.cast(taps, ctypes.POINTER(ctypes.c_int16))[:count])

    def magbelu_bytes_step(self, plant, name, name_len, count):
        return self.note("step", count)

    def magbelu_bytes_read(self, plant, name, name_len, start, most, *words):
        self.note("read", start, most)
        return _library.Piece(0, 0, 0, 2, 0, 0)

    magbelu_bytes_open_stream = magbelu_bytes_open

    def magbelu_bytes_need(self, plant, name, name_len):
        return self.note("need", ctypes.string_at(name, name_len))

    def magbelu_bytes_drain(self, plant, name, name_len, most, *words):
        self.note("drain", most)
        return _library.Piece(0, 0, 0, 2, 0, 0)

    def magbelu_bytes_run_items(self, file, file_len, big_endian, inputs, input_count, outputs, output_count, *words):
        fed = ctypes.cast(inputs, ctypes.POINTER(_library.Input))[:input_count]
        asked = ctypes.cast(outputs, ctypes.POINTER(_library.Output))[:output_count]
        self.note("items", big_endian, [ctypes.string_at(it.bytes, it.len) for it in fed], [it.tags for it in asked])
        return _library.Answer(0, 0, 0, 0)

    def note(self, *words):
        self.noted.append(words)
        return _library.Reply(0, 0, 0, 0)


class Lacking(Noting):
    """The same of a stream, of which each source lacks items until one is closed."""

    is_closed = False

    def magbelu_bytes_close(self, *words):
        self.is_closed = True
        return super().magbelu_bytes_close(*words)

    def magbelu_bytes_need(self, *words):
        return _library.Reply(0, 0, 1 if self.is_closed else 5, 0)

    def magbelu_bytes_settle(self, plant):
        return _library.Reply(0 if self.is_closed else 3, 0, 0, 0)


class Telling(Noting):
    """The same of a graph of three blocks: `a` has 300 taps, `b` a number that may be set, `c` nothing. Its rates have
    a balance, or not."""

    is_balanced = True

    def magbelu_bytes_block_count(self, plant):
        return _library.Reply(0, 0, 0, 3)

    def magbelu_bytes_block(self, plant, number, name, name_room, kind, kind_room):
        ctypes.memmove(name, b"abc"[number : number + 1], 1)
        return _library.Listed(0, 0, 0, 1, 1, 2, 1, 1, 0)

    def magbelu_bytes_connections(self, plant, rows, room):
        return _library.Reply(0, 0, 0, 2)

    def magbelu_bytes_rooms(self, plant, rooms, room):
        ctypes.memmove(rooms, (ctypes.c_uint64 * 2)(4096, 2**32), 8 * room)
        return _library.Reply(0, 0, 0, 2)

    def magbelu_bytes_setting(self, plant, number, taps, room):
        if number == 0:
            if room >= 300:
                ctypes.memmove(taps, (ctypes.c_int16 * 300)(*range(0, -300, -1)), 600)
            return _library.SettingReply(0, 0, 2, 0, 0, 0, 300)
        if number == 1:
            return _library.SettingReply(0, 0, 1, low, high, -3, 0)
        return (
            _library.SettingReply(0, 0, 0, 0, 0, 0, 0) if number == 2 else _library.SettingReply(1, 20, 0, 0, 0, 0, 0)
        )

    def magbelu_bytes_rates(self, plant, number, takes, room):
        if number > 2:
            return _library.RatesReply(1, 20, 0, 0, 0, 0)
        ctypes.memmove(takes, (ctypes.c_uint64 * 2)(5, 6), 8 * room)
        return _library.RatesReply(0, 0, number, 9 * number, 7, 2)

    def magbelu_bytes_place(self, file, file_len, why, room):
        if file_len == 2:
            return _library.PlaceReply(1, 40, 0, 0, 0, 0)
        if room >= 2000:
            ctypes.memmove(why, 2000 * b"-", 2000)
        return _library.PlaceReply(1, 44, 3, 8, 6, 2000) if file_len else _library.PlaceReply(0, 0, 0, 0, 0, 0)

    def magbelu_bytes_firings(self, plant, firings, room):
        if self.is_balanced:
            ctypes.memmove(firings, (ctypes.c_uint32 * 3)(1, 2, 3), 4 * room)
        return _library.Reply(0, 0, 0, 3) if self.is_balanced else _library.Reply(0, 0, 1, 0)


class Showing(Noting):
    """The same of a graph whose sinks hold the shorts 1 and 2."""

    def magbelu_bytes_read(self, plant, name, name_len, start, most, big_endian, data, *words):
        ctypes.memmove(data, b"\1\0\2\0", 4)
        return _library.Piece(0, 0, 2, 2, 4, 0)

    def magbelu_bytes_drain(self, plant, name, name_len, most, big_endian, data, size, *words):
        if size >= 4:
            ctypes.memmove(data, b"\1\0\2\0", 4)
        return _library.Piece(0, 0, 2, 2, 4, 0)


library = Noting()
_library._loaded = library
graph = magbelu.Graph("")
stream = magbelu.Stream("")
high, low = 2**63 - 1, -(2**63)


def makes(call, *noted):
    """The call comes to the library so."""
    del library.noted[:]
    call()
    assert library.noted == [noted], library.noted


def raises(kind, call):
    """The call is refused, and does not come to the library."""
    del library.noted[:]
    try:
        call()
    except kind as error:
        assert type(error) is kind or kind is magbelu.Refused, repr(error)
    else:
        raise AssertionError("%s is not raised, and the library got %s" % (kind.__name__, library.noted))
    assert library.noted == [], library.noted


def items_are_integers():
    for item in [
        0.9, 1.0, 1j, "1", b"1", None, True, False, fractions.Fraction(1), decimal.Decimal("1.5"), decimal.Decimal(1),
        [1],
    ]:
        assert said_by(lambda: graph.feed("src", [1, item]), TypeError).startswith(
            "an item is an integer, and no "
        ), item
    for items in [
        "12", "", 5, None, {1: 2}, {1}, frozenset(), array.array("f", [1]), array.array("d", [0.9]),
        array.array("u", "1"),
    ]:
        raises(TypeError, lambda: graph.feed("src", items))
    for items in [
        [1, 2], (1, 2), range(1, 3), iter([1, 2]), [Number(1), Number(2)], array.array("q", [1, 2]),
        array.array("B", [1, 2]), memoryview(array.array("h", [1, 2])),
    ]:
        makes(lambda: graph.feed("src", items), "numbers", b"src", [1, 2])
    # What no 64 bits hold is no item: the library gets the nearest number, and refuses that.
    makes(
        lambda: graph.feed("src", [2**70, -(2**70), high + 1, low - 1, Number(2**64)]), "numbers", b"src",
        [high, low, high, low, high],
    )


def bytes_are_items():
    for items in [
        b"\1\2", bytearray(b"\1\2"), memoryview(b"\1\2"), memoryview(b"\1-\2")[::2], memoryview(bytearray(b"\1\2")),
    ]:
        makes(lambda: graph.feed("src", items, big_endian=True), "feed", b"src", True, b"\1\2", [])
    makes(
        lambda: graph.feed("src", array.array("h", [1, -2]), big_endian=True), "feed", b"src", False, b"\1\0\xfe\xff",
        [],
    )
    for items in [
        memoryview(b"\1\2\3\4").cast("f"), memoryview(b"\1\2\3\4").cast("B", (2, 2)), memoryview(b"\1").cast("?"),
    ]:
        raises(TypeError, lambda: graph.feed("src", items))
    for order in [1, 0, "little", "big", None, 1.0]:
        raises(TypeError, lambda: graph.feed("src", b"\1\2", big_endian=order))
        raises(TypeError, lambda: magbelu.run_items("", [], [], big_endian=order))


def tags_are_whole():
    makes(lambda: graph.feed("src", b"", [(Number(3), "k", Number(-7)), (0, b"k", high), (1, "k", low)]),
          "feed", b"src", False, b"", [(3, b"k", -7), (0, b"k", high), (1, b"k", low)])
    # The item of such an offset is on no tape, nor is that of the greatest offset, which the library refuses.
    for offset in [2**64 - 1, 2**64, 2**64 + 3, -1, 2**70]:
        makes(lambda: graph.feed("src", b"", [(offset, "k", 1)]), "feed", b"src", False, b"", [(2**64 - 1, b"k", 1)])
    for value in [2**63, low - 1, 2**64, 2**70]:
        raises(ValueError, lambda: graph.feed("src", b"", [(0, "k", value)]))
    for offset, key, value in [
        (0.0, "k", 1), (0, "k", 1.5), (True, "k", 1), (0, "k", False), ("0", "k", 1), (0, 5, 1), (0, None, 1),
        (0, "k", None),
    ]:
        raises(TypeError, lambda: graph.feed("src", b"", [(offset, key, value)]))
    for tags in [[(0, "k")], [(0, "k", 1, 0)]]:
        assert said_by(
            lambda: graph.feed("src", b"", tags), ValueError
        ) == "a tag is (offset, key, value), and not %r" % (tags[0],)
    assert said_by(lambda: graph.feed("src", b"", (0, "k", 1)), TypeError) == "a tag is (offset, key, value), and not 0"


def settings_are_whole():
    makes(lambda: graph.set("a", Number(5)), "set", 2**64 - 1, 5)
    makes(lambda: graph.set("a", -5, at=Number(7)), "set", 7, -5)
    makes(lambda: graph.set("a", -5, at=2**64 - 2), "set", 2**64 - 2, -5)
    makes(lambda: graph.set("a", 2**63), "set", 2**64 - 1, high)
    makes(lambda: graph.set("a", -(2**70)), "set", 2**64 - 1, low)
    makes(lambda: graph.set("a", (Number(1), -32768)), "taps", 2**64 - 1, [1, -32768])
    makes(lambda: graph.set("a", array.array("b", [1, -2])), "taps", 2**64 - 1, [1, -2])
    # Taps that are no shorts come as none, which no filter takes.
    for taps in [[1, 2**15], [-(2**15) - 1], [2**70]]:
        makes(lambda: graph.set("a", taps), "taps", 2**64 - 1, [])
    for value in [2.9, 2.0, 1j, "2", "", b"\1\0", None, True, [1.0], [True], ["1"], {1: 2}, {1}, memoryview(b"\1")]:
        raises(TypeError, lambda: graph.set("a", value))
    for at in [-1, 2**64 - 1, 2**64, 2**70]:
        raises(ValueError, lambda: graph.set("a", 1, at=at))
    for at in [0.0, "0", True]:
        raises(TypeError, lambda: graph.set("a", 1, at=at))


def counts_are_whole():
    makes(lambda: graph.step("s", Number(2)), "step", 2)
    makes(lambda: graph.step("s", 2**32), "step", 2**32 - 1)
    makes(lambda: graph.step("s", 0), "step", 0)
    makes(lambda: graph.read("o", Number(1), Number(2)), "read", 1, 2)
    makes(lambda: graph.read("o", 2**64, 2**64), "read", 2**64 - 1, 2**64 - 1)
    makes(lambda: graph.read("o"), "read", 0, 2**64 - 1)
    makes(lambda: stream.drain("o", Number(2)), "drain", 2)
    makes(lambda: stream.drain("o"), "drain", 2**64 - 1)
    for call in [
        lambda: graph.step("s", -1), lambda: graph.read("o", -1), lambda: graph.read("o", 0, -1),
        lambda: stream.drain("o", -1), lambda: magbelu.run_items("", [], [], room=-1),
    ]:
        raises(ValueError, call)
    for count in [1.0, "1", True]:
        for call in [
            lambda: graph.step("s", count), lambda: graph.read("o", count), lambda: graph.read("o", 0, count),
            lambda: stream.drain("o", count), lambda: magbelu.run_items("", [], [], room=count),
        ]:
            raises(TypeError, call)
    raises(TypeError, lambda: graph.step("s", None))
    raises(TypeError, lambda: graph.read("o", None))


def names_are_text():
    makes(lambda: graph.close(b"src"), "close", b"src")
    makes(lambda: graph.close("a\0\u00e4"), "close", b"a\0\xc3\xa4")
    makes(lambda: stream.need(b"src"), "need", b"src")
    for name in [5, None, 1.0, ["src"], memoryview(b"src")]:
        for call in [
            lambda: graph.close(name), lambda: graph.feed(name, []), lambda: graph.set(name, 1),
            lambda: graph.step(name), lambda: graph.read(name), lambda: stream.drain(name), lambda: stream.need(name),
        ]:
            raises(TypeError, call)
        for call in [
            lambda: magbelu.Graph(name), lambda: magbelu.Stream(name), lambda: magbelu.check(name),
            lambda: magbelu.run(name), lambda: magbelu.script("", name),
        ]:
            raises(TypeError, call)
        raises(TypeError, lambda: magbelu.run_items("", [(name, b"")], []))
    # (what is no text in UTF-8 cannot be a name)
    raises(UnicodeEncodeError, lambda: graph.close("\udc80"))


def raw_inputs_are_bytes():
    for data in [b"\1\2", bytearray(b"\1\2"), memoryview(b"\1\2"), array.array("B", [1, 2]), array.array("b", [1, 2])]:
        makes(
            lambda: magbelu.run_items("", [("src", data)], ["out", ("out", "tags")], big_endian=True), "items", True,
            [b"\1\2"], [0, 1],
        )
    for data in [
        array.array("h", [1]), array.array("f", [1]), array.array("i"), memoryview(b"\1\2").cast("h"),
        memoryview(b"\1\2\3\4").cast("B", (2, 2)), "12", [1, 2], 5, None,
    ]:
        raises(TypeError, lambda: magbelu.run_items("", [("src", data)], []))
    for what in ["tag", "Tags", "", "items", None, True, b"tags"]:
        raises(ValueError, lambda: magbelu.run_items("", [], [("o", what)]))
    for outputs in ["out", b"out", bytearray(b"out")]:
        raises(TypeError, lambda: magbelu.run_items("", [], outputs))
    makes(
        lambda: magbelu.run_items("", [], [b"out", bytearray(b"ab"), (bytearray(b"out"), "tags")]), "items", False, [],
        [0, 0, 1],
    )
    makes(lambda: magbelu.run_items("", iter([("src", b"")]), iter(["out"])), "items", False, [b""], [0])


def pieces_are_items():
    """A source may have any name, and is closed behind its last piece: None is no end of them."""
    _library._loaded = own = Lacking()
    assert list(magbelu.Stream("").through(**{"self": [[1, 2], b"", [3]]})) == []
    assert own.noted == [
        ("numbers", b"self", [1, 2]), ("feed", b"self", False, b"", []), ("numbers", b"self", [3]), ("close", b"self"),
    ], own.noted
    _library._loaded = own = Lacking()
    pieces = magbelu.Stream("").through(src=[[1], None, [2]])
    try:
        list(pieces)
    except TypeError:
        assert own.noted == [("numbers", b"src", [1])], own.noted
    else:
        raise AssertionError("None is a piece: %s" % own.noted)
    _library._loaded = library


def pieces_are_no_items():
    """What is one piece is no iterable of pieces, and nothing of it is fed."""
    lone = [array.array("h", [1, 2]), b"\1\2", bytearray(2), memoryview(b"\1\2"), "12", [1, 2], (1, 2), range(3)]
    lone += [] if numpy is None else [numpy.zeros(2, "i2"), numpy.zeros(0, "i2"), numpy.array(1), [numpy.int16(1)]]
    for pieces in lone + [5, None]:
        raises(TypeError, lambda: stream.through(src=pieces))
    for call in [lambda: graph.feed("src", 5), lambda: graph.feed("src", None)]:
        assert said_by(call, TypeError).startswith("items are integers in a row, or bytes, and no "), said_by(
            call, TypeError
        )
    for pieces in [[1, 2], 5, None]:
        assert "through(src=[items])" in said_by(lambda: stream.through(src=pieces), TypeError)


def said_by(call, kind):
    """What is said where a call is refused so."""
    try:
        call()
    except kind as error:
        return str(error)
    raise AssertionError("%s is not raised" % kind.__name__)


class Refusing(Noting):
    """The same of a graph whose calls are refused with this number and value."""

    def __init__(self, number, value=0):
        self.number, self.value = number, value

    def note(self, *words):
        return _library.Reply(1, self.number, 0, self.value)


def refusals_have_reasons():
    """And a setting that comes too late tells from which item it could be in force."""
    for number, value, said, floor in [
        (27, 0, "27 Late a: the setting begins before the first item that is open, which is 0", 0),
        (27, 2**40, "27 Late a: the setting begins before the first item that is open, which is 1099511627776", 2**40),
        (28, 5, "28 NoSetting a: the block has no setting", None),
        (99, 5, "99  a", None),
    ]:
        _library._loaded = Refusing(number, value)
        for held in [magbelu.Graph(""), magbelu.Stream("")]:
            for setting in [1, [1, 2]]:
                try:
                    held.set("a", setting)
                except magbelu.Refused as error:
                    assert (str(error), error.floor, error.number, error.detail) == (said, floor, number, "a"), error
                    assert error.name == said.split(" ")[1].rstrip(":"), error.name
                else:
                    raise AssertionError("%d is not raised" % number)
    _library._loaded = library


def paths_are_no_texts():
    for call in [magbelu.Graph, magbelu.Stream, magbelu.check, magbelu.run]:
        assert "from_file" in said_by(lambda: call(pathlib.Path("graph.toml")), TypeError)


def texts_are_no_paths():
    """Who gives a text in place of a path is told what takes it."""
    for call in [magbelu.Graph.from_file, magbelu.Stream.from_file]:
        for text in [magbelu.EXAMPLE, "block = [\n]"]:
            assert "Graph(..)" in said_by(lambda: call(text), ValueError)
        raises(FileNotFoundError, lambda: call("no/such/graph.toml"))


def copies_have_plants_of_their_own():
    for held in [graph, stream]:
        for call in [
            copy.copy, copy.deepcopy,
            *(lambda it, n=n: pickle.loads(pickle.dumps(it, n)) for n in range(pickle.HIGHEST_PROTOCOL + 1)),
        ]:
            own = call(held)
            assert (
                type(own) is type(held)
                and own._plant is not held._plant
                and (own._text, own.path) == (held._text, held.path)
            )
    assert graph.close("src") == 0


def numpy_items_are_integers():
    """An array whose items stand as those of the source, which has shorts, goes in as it is; the others as numbers, or
    not."""
    for items in [
        numpy.array([1, -2], "i2"), numpy.array([0, 1, -2], "i2")[1:], numpy.array([[1, -2], [3, 4]], "i2")[0],
    ]:
        makes(lambda: graph.feed("src", items, big_endian=True), "feed", b"src", False, b"\1\0\xfe\xff", [])
    for items in [
        numpy.array([1, 7, -2], "i2")[::2], numpy.array([1, -2], ">i2"), numpy.array([1, -2], "i8"),
        numpy.array([1, -2], "i1"), numpy.array([1, -2], object),
    ]:
        makes(lambda: graph.feed("src", items), "numbers", b"src", [1, -2])
    makes(
        lambda: graph.feed("src", numpy.array([1, 2**63 - 1, 2**63, 2**64 - 1], "u8")), "numbers", b"src",
        [1, high, high, high],
    )
    makes(lambda: graph.feed("src", [numpy.uint8(255), numpy.int64(-1)]), "numbers", b"src", [255, -1])
    for kind in ["f8", "f4", "c16", "?", "S1", "U1", "M8[s]"]:
        raises(TypeError, lambda: graph.feed("src", numpy.zeros(2, kind)))
    for items in [
        numpy.array([1.0], object), [numpy.float64(1)], [numpy.float32(1)], [numpy.bool_(True)],
        numpy.array([True], object),
    ]:
        raises(TypeError, lambda: graph.feed("src", items))
    raises(ValueError, lambda: graph.feed("src", numpy.zeros((2, 2), "i2")))


def numpy_numbers_are_whole():
    makes(
        lambda: graph.feed("src", b"", [(numpy.uint64(3), "k", numpy.int8(-7))]), "feed", b"src", False, b"",
        [(3, b"k", -7)],
    )
    makes(lambda: graph.set("a", numpy.int16(-5), at=numpy.uint8(7)), "set", 7, -5)
    makes(lambda: graph.set("a", numpy.array([1, -2], "i4")), "taps", 2**64 - 1, [1, -2])
    makes(lambda: graph.step("s", numpy.int64(2)), "step", 2)
    for value in [numpy.float64(1), numpy.bool_(True), numpy.zeros(1, "f4"), numpy.zeros(1, "?")]:
        raises(TypeError, lambda: graph.set("a", value))
    raises(TypeError, lambda: graph.feed("src", b"", [(numpy.float32(0), "k", 1)]))
    makes(lambda: magbelu.run_items("", [("src", numpy.array([1, 2], "u1"))], []), "items", False, [b"\1\2"], [])
    raises(TypeError, lambda: magbelu.run_items("", [("src", numpy.array([1], "i2"))], []))


def masked_items_are_none():
    """A masked item has no value: the whole array is refused, also where no item of it is masked."""
    for masked in [
        numpy.ma.array([1, 2], dtype="i2", mask=[False, True]), numpy.ma.array([1, 2], dtype="i8"),
        numpy.ma.array([1, 2], dtype="u1", mask=True),
    ]:
        for call in [
            lambda: graph.feed("src", masked),
            lambda: stream.feed("src", masked),
            lambda: graph.set("a", masked),
            lambda: stream.drain_into("o", masked),
            lambda: magbelu.run_items("", [("src", masked)], []),
        ]:
            raises(TypeError, call)
    for item in [numpy.ma.masked, numpy.ma.array(1, mask=True)]:
        raises(TypeError, lambda: graph.feed("src", [1, item]))
        raises(TypeError, lambda: graph.set("a", [1, item]))
        raises(TypeError, lambda: graph.set("a", item))
        raises(TypeError, lambda: graph.feed("src", b"", [(0, "k", item)]))


def numpy_is_read():
    items = graph.read("o")[0]
    assert isinstance(items, numpy.ndarray) and items.dtype == numpy.dtype("i2"), items


def arrays_are_read():
    items = graph.read("o")[0]
    assert isinstance(items, array.array) and items.typecode == "h", items


def what_is_told_of_blocks_is_read():
    _library._loaded = Telling()
    told = magbelu.Graph("")
    assert (
        told.setting("a") == (-32768, 32767, [-at for at in range(300)])
        and told.setting("b") == (low, high, -3)
        and told.setting(b"c") is None
    )
    assert [told.rates(it) for it in "abc"] == [
        ([5, 6], 7, None, 0), ([5, 6], 7, "skips", 9), ([5, 6], 7, "delays", 18),
    ]
    assert told.firings == {"a": 1, "b": 2, "c": 3}
    assert len(told.connections) == 2 and told.rooms == [4096, 2**32]
    for call in [lambda: told.setting("d"), lambda: told.rates("d")]:
        try:
            call()
            raise AssertionError("no block is told of")
        except magbelu.Refused as refused:
            assert refused.number == 20 and refused.detail == "d"
    _library._loaded.is_balanced = False
    assert magbelu.Graph("").firings is None
    _library._loaded = library


def places_of_faults_are_read():
    """A reason that does not fit a first room; no fault; and a place for which memory ran out."""
    _library._loaded = Telling()
    assert magbelu.place("x") == (3, 8, 6, 2000 * "-") and magbelu.place("") is None
    try:
        magbelu.place(b"xx")
        raise AssertionError("there is no place")
    except magbelu.OutOfMemory as fault:
        assert fault.number == 32
    _library._loaded = library


def arrays_may_be_written():
    """What is read and drained is the caller's own: a second read gives what the sink holds."""
    _library._loaded = Showing()
    graph, stream = magbelu.Graph(""), magbelu.Stream("")
    for read in (lambda: graph.read("out")[0], lambda: stream.drain("out")[0]):
        items = read()
        items[0] = 7
        assert items.tolist() == [7, 2] and read().tolist() == [1, 2]
    _library._loaded = library


tests = [
    items_are_integers,
    bytes_are_items,
    tags_are_whole,
    settings_are_whole,
    counts_are_whole,
    names_are_text,
    raw_inputs_are_bytes,
    pieces_are_items,
    pieces_are_no_items,
    refusals_have_reasons,
    paths_are_no_texts,
    texts_are_no_paths,
    copies_have_plants_of_their_own,
    what_is_told_of_blocks_is_read,
    places_of_faults_are_read,
    arrays_may_be_written,
    *(
        [arrays_are_read]
        if numpy is None
        else [numpy_items_are_integers, numpy_numbers_are_whole, masked_items_are_none, numpy_is_read]
    ),
]
for test in tests:
    test()
print("c: %d tests of the arguments of python/magbelu passed" % len(tests))
