"""The library, as ctypes calls it, and memory that it reads and writes."""

from __future__ import annotations

import ctypes
import functools
import mmap
import os
import pathlib
from typing import Any, Optional

from ._errors import OutOfMemory

_VERSION = 1


class Answer(ctypes.Structure):
    _fields_ = [
        ("status", ctypes.c_uint32), ("number", ctypes.c_uint32), ("output_len", ctypes.c_size_t),
        ("error_len", ctypes.c_size_t),
    ]


class PlaceReply(ctypes.Structure):
    _fields_ = [
        ("status", ctypes.c_uint32), ("number", ctypes.c_uint32), ("line", ctypes.c_size_t),
        ("column", ctypes.c_size_t), ("length", ctypes.c_size_t), ("why_len", ctypes.c_size_t),
    ]


class Input(ctypes.Structure):
    _fields_ = [
        ("name", ctypes.c_void_p), ("name_len", ctypes.c_size_t), ("bytes", ctypes.c_void_p), ("len", ctypes.c_size_t),
    ]


class Output(ctypes.Structure):
    _fields_ = [("name", ctypes.c_void_p), ("name_len", ctypes.c_size_t), ("tags", ctypes.c_uint32)]


class Plant(ctypes.Structure):
    _fields_ = [("at", ctypes.c_void_p), ("is_open", ctypes.c_bool)]


class Reply(ctypes.Structure):
    _fields_ = [
        ("status", ctypes.c_uint32), ("number", ctypes.c_uint32), ("what", ctypes.c_uint32), ("value", ctypes.c_uint64),
    ]


class Piece(ctypes.Structure):
    _fields_ = [
        ("status", ctypes.c_uint32), ("number", ctypes.c_uint32), ("held", ctypes.c_uint64),
        ("item_size", ctypes.c_size_t), ("bytes_len", ctypes.c_size_t), ("tags_len", ctypes.c_size_t),
    ]


class Mark(ctypes.Structure):
    _fields_ = [
        ("offset", ctypes.c_uint64), ("value", ctypes.c_int64), ("key", ctypes.c_void_p), ("key_len", ctypes.c_size_t),
    ]


class Listed(ctypes.Structure):
    _fields_ = [
        ("status", ctypes.c_uint32), ("number", ctypes.c_uint32), ("role", ctypes.c_uint32),
        ("input_type", ctypes.c_uint32), ("output_type", ctypes.c_uint32), ("input_count", ctypes.c_size_t),
        ("output_count", ctypes.c_size_t), ("name_len", ctypes.c_size_t), ("kind_len", ctypes.c_size_t),
    ]


class Link(ctypes.Structure):
    _fields_ = [
        ("writer", ctypes.c_uint32), ("reader", ctypes.c_uint32), ("out_port", ctypes.c_size_t),
        ("in_port", ctypes.c_size_t),
    ]


class SettingReply(ctypes.Structure):
    _fields_ = [
        ("status", ctypes.c_uint32), ("number", ctypes.c_uint32), ("what", ctypes.c_uint32),
        ("least", ctypes.c_int64), ("most", ctypes.c_int64), ("value", ctypes.c_int64), ("count", ctypes.c_size_t),
    ]


class RatesReply(ctypes.Structure):
    _fields_ = [
        ("status", ctypes.c_uint32), ("number", ctypes.c_uint32), ("shift", ctypes.c_uint32),
        ("shifted", ctypes.c_uint64), ("gives", ctypes.c_uint64), ("input_count", ctypes.c_size_t),
    ]


class LevelsReply(ctypes.Structure):
    _fields_ = [
        ("status", ctypes.c_uint32), ("number", ctypes.c_uint32), ("taken", ctypes.c_uint64),
        ("given", ctypes.c_uint64), ("waiting", ctypes.c_uint64),
    ]


class Slicing(ctypes.Structure):
    _fields_ = [
        ("status", ctypes.c_uint32), ("number", ctypes.c_uint32), ("block", ctypes.c_uint32),
        ("iterations", ctypes.c_uint64), ("source_count", ctypes.c_size_t), ("sink_count", ctypes.c_size_t),
    ]


class CutSource(ctypes.Structure):
    _fields_ = [("block", ctypes.c_uint32), ("period", ctypes.c_uint64), ("overlap", ctypes.c_uint64)]


class CutSink(ctypes.Structure):
    _fields_ = [("block", ctypes.c_uint32), ("period", ctypes.c_uint64), ("drop", ctypes.c_uint64)]


class CutPart(ctypes.Structure):
    _fields_ = [("block", ctypes.c_uint32), ("drop", ctypes.c_uint64), ("stands", ctypes.c_uint64)]


# What a processor of the level x86-64-v3 has beside what the library needs, by the names that Linux gives.
_FEATURES_OF_V3 = {"avx", "avx2", "bmi1", "bmi2", "f16c", "fma", "abm", "movbe"}


def _levels() -> list[str]:
    """The folders below the library's where one for this processor may stand, the best first. (Of a path glibc makes no
    such choice.)"""
    try:
        with open("/proc/cpuinfo") as lines:
            flags: list[str] = next((line.split() for line in lines if line.startswith("flags")), [])
    except OSError:
        flags = []
    return ["glibc-hwcaps/x86-64-v3/", ""] if _FEATURES_OF_V3.issubset(flags) else [""]


def _places() -> list[str]:
    if os.environ.get("MAGBELU_LIBRARY"):
        return [os.environ["MAGBELU_LIBRARY"]]
    here = pathlib.Path(__file__).resolve().parent
    name = "libmagbelu.so.%d" % _VERSION
    # (in a checkout, and where ./build --install puts it, which is beside Python's own folder)
    own = [("", "libmagbelu.so"), ("../../crates/magbelu_c/out/built/", "libmagbelu.so"), ("../../../", name)]
    return [str(here / (folder + level + file)) for folder, file in own for level in _levels()] + [name]


def _load() -> ctypes.CDLL:
    faults = []
    for place in _places():
        if os.sep in place and not os.path.exists(place):
            faults.append("%s is not there" % place)
            continue
        try:
            library = ctypes.CDLL(place)
        except OSError as error:
            faults.append(str(error))
            continue
        try:
            library.magbelu_version.restype = ctypes.c_uint32
            if library.magbelu_version() != _VERSION:
                raise ImportError("%s has another version of the calls" % place)
            return _with_types(library)
        except AttributeError as error:
            raise ImportError("%s is older than these files, or another library: %s" % (place, error)) from None
    raise ImportError("libmagbelu.so is not found: ./build --c makes it (%s)" % "; ".join(faults))


def _with_types(library: ctypes.CDLL) -> ctypes.CDLL:
    """The library, whose calls take and give what c/magbelu.h says."""
    pair: list[Any] = [ctypes.c_void_p, ctypes.c_size_t]
    for name, types in {
        "check": 3 * pair,
        "run": 3 * pair,
        "script": 4 * pair,
        "explain": 4 * pair,
        "run_items": pair + [ctypes.c_uint32] + 5 * pair,
    }.items():
        call = getattr(library, "magbelu_bytes_" + name)
        call.restype, call.argtypes = Answer, types
    plant, u32, u64 = pair[:1], [ctypes.c_uint32], [ctypes.c_uint64]
    for name, types in {
        "free": plant,
        "item_size": plant + pair,
        "feed": plant + pair + u32 + 2 * pair,
        "feed_numbers": plant + 3 * pair,
        "close": plant + pair,
        "set": plant + pair + u64 + [ctypes.c_int64],
        "set_taps": plant + pair + u64 + pair,
        "step": plant + pair + u32,
        "settle": plant,
        "need": plant + pair,
        "block_count": plant,
        "connections": plant + pair,
        "rooms": plant + pair,
        "firings": plant + pair,
    }.items():
        call = getattr(library, "magbelu_bytes_" + name)
        call.restype, call.argtypes = Reply, types
    for name, answer, types in (
        ("place", PlaceReply, 2 * pair),
        ("open", Answer, plant + 2 * pair),
        ("open_stream", Answer, plant + 2 * pair),
        ("open_stream_at", Answer, plant + pair + u64 + pair),
        ("drain", Piece, plant + pair + u64 + u32 + 2 * pair),
        ("read", Piece, plant + pair + 2 * u64 + u32 + 2 * pair),
        ("block", Listed, plant + u32 + 2 * pair),
        ("setting", SettingReply, plant + u32 + pair),
        ("rates", RatesReply, plant + u32 + pair),
        ("levels", LevelsReply, plant + pair),
        ("draw", Answer, plant + u32 + pair),
        ("slices", Slicing, plant + u32 + 2 * pair),
        ("slice", Slicing, plant + u32 + u64 + pair),
    ):
        call = getattr(library, "magbelu_bytes_" + name)
        call.restype, call.argtypes = answer, types
    return library


_loaded: Optional[ctypes.CDLL] = None


def calls() -> ctypes.CDLL:
    """The library, which is loaded at the first call."""
    global _loaded
    if _loaded is None:
        _loaded = _load()
    return _loaded


class Lent:
    """The place of an object's bytes, which are not copied where the object has them one behind the other."""

    kept: Any

    def __init__(self, data: Any) -> None:
        view = memoryview(data)
        self.len = view.nbytes
        view = view.cast("B") if view.c_contiguous and view.nbytes else memoryview(view.tobytes() or b"\0")
        if view.readonly:
            # (a pointer to bytes is to be had of `bytes` alone)
            self.kept = view.obj if isinstance(view.obj, bytes) and len(view.obj) == len(view) else bytes(view)
            self.at = ctypes.cast(ctypes.c_char_p(self.kept), ctypes.c_void_p).value
        else:
            self.kept = ctypes.c_char.from_buffer(view)
            self.at = ctypes.addressof(self.kept)


@functools.lru_cache(maxsize=1024)
def lent_name(name: bytes) -> Lent:
    """The place of a name, which is kept: calls of a plant name its few blocks again and again."""
    return Lent(name)


class Room:
    """Memory for an answer. Only what is written takes place."""

    def __init__(self, size: int) -> None:
        self.size = size
        try:
            # (shared memory, which is what it makes else, would stay that of both after a fork)
            self.map = mmap.mmap(-1, max(size, 1), mmap.MAP_PRIVATE)
        except (OSError, OverflowError):
            raise OutOfMemory("32 Memory") from None
        self.kept = (ctypes.c_char * max(size, 1)).from_buffer(self.map)
        self.at = ctypes.addressof(self.kept)

    def part(self, start: int, end: int) -> bytes:
        return self.map[start:end]

    def items(self, end: int) -> bytearray:
        """The bytes up to there, in memory of their own that may be written."""
        return bytearray(memoryview(self.map)[:end])
