"""What python/magbelu makes of what it finds around it: of a library, of paths that may be no graph file, of a fork.
tests/parts/c.sh calls it."""

import ctypes
import os
import pathlib
import signal
import tempfile

import magbelu
from magbelu import _library
from magbelu.gnuradio import has_port, has_ports, type_of

GRAPH = """
block = [{ name = "src", kind = "vector_source", type = "short" }, { name = "out", kind = "%s", type = "short" }]
connect = [{ from = "src", to = "out" }]
"""


class Accepting:
    """Stands for the library: each file has a source of shorts and a sink, which keeps its items where the file has a
    `vector_sink`."""

    def magbelu_bytes_open_stream(self, plant, file, file_len, *words):
        self.keeps = b"vector_sink" in ctypes.string_at(file, file_len)
        return _library.Answer(0, 0, 0, 0)

    def magbelu_bytes_free(self, plant):
        return _library.Reply(0, 0, 0, 0)

    def magbelu_bytes_block_count(self, plant):
        return _library.Reply(0, 0, 0, 2)

    def magbelu_bytes_block(self, plant, number, *words):
        return _library.Listed(0, 0, 1 if number == 0 else 2 if self.keeps else 3, 1, 1, number, 1 - number, 0, 0)


def refused_by_import(place):
    """Looks for the library there, and gives what is said of it."""
    os.environ["MAGBELU_LIBRARY"] = place
    try:
        magbelu.version()
    except ImportError as error:
        return str(error)
    finally:
        del os.environ["MAGBELU_LIBRARY"]
    raise AssertionError("%s is taken for the library" % place)


def libraries_are_named():
    os.environ.pop("MAGBELU_LIBRARY", None)
    places = _library._places()
    os.environ["MAGBELU_LIBRARY"] = "here.so"
    assert _library._places() == ["here.so"]
    # As for other programs, a variable that is empty says nothing.
    os.environ["MAGBELU_LIBRARY"] = ""
    assert _library._places() == places and len(places) > 1, _library._places()


def other_libraries_are_told():
    """By the exception of a module that is not there, which callers may expect."""
    assert "no/such.so is not there" in refused_by_import("no/such.so")
    # (it has none of the calls)
    said = refused_by_import("libc.so.6")
    assert said.startswith("libc.so.6 is ") and "magbelu_version" in said, said


def memory_is_a_process_own():
    """What a child writes after a fork is not in what its parent reads."""
    room = _library.Room(4)
    ctypes.memmove(room.at, b"own.", 4)
    child = os.fork()
    if child == 0:
        ctypes.memmove(room.at, b"else", 4)
        os._exit(room.part(0, 4) != b"else")
    assert os.waitpid(child, 0)[1] == 0
    assert room.part(0, 4) == b"own.", room.part(0, 4)


def ports_are_those_of_a_file():
    """What is no file that can be read has none, as a path that is being typed."""
    _library._loaded = Accepting()
    # (what reads a pipe to which nobody writes would wait)
    signal.alarm(60)
    with tempfile.TemporaryDirectory() as folder:
        here = pathlib.Path(folder)
        file, ends, pipe = here / "graph.toml", here / "ends.toml", here / "pipe"
        file.write_text(GRAPH % "vector_sink")
        ends.write_text(GRAPH % "null_sink")
        os.mkfifo(pipe)
        assert (
            has_ports(file)
            and has_port(str(file), "inputs", 0)
            and not has_port(file, "inputs", 1)
            and type_of(file, "outputs", 0) == "short"
        )
        # A block of GNU Radio has an output.
        assert not has_ports(ends) and has_port(ends, "inputs", 0)
        # (the last but one is a file that not even root can read)
        for path in [
            "", here, here / "none.toml", file / "none.toml", pipe, "/dev/null", str(file) + "\0", "\ud800",
            "/proc/self/mem", 1000 * "long",
        ]:
            assert (
                not has_ports(path) and not has_port(path, "inputs", 0) and type_of(path, "outputs", 0) == "byte"
            ), path
    signal.alarm(0)


tests = [libraries_are_named, other_libraries_are_told, memory_is_a_process_own, ports_are_those_of_a_file]
for test in tests:
    test()
print("c: %d tests of what python/magbelu finds around it passed" % len(tests))
