"""Who is let in."""

from __future__ import annotations

import http.client
import pathlib
import socket
from typing import Optional

from browser import Server, TOP

ECHO = str(TOP / "examples/echo/graph.toml")
UPGRADE = {
    "Connection": "Upgrade", "Upgrade": "websocket", "Sec-WebSocket-Version": "13",
    "Sec-WebSocket-Key": "AAAAAAAAAAAAAAAAAAAAAA==",
}


def status(server: Server, path: str, headers: Optional[dict[str, str]] = None, method: str = "GET") -> int:
    connection = http.client.HTTPConnection("127.0.0.1", server.port, timeout=20)
    connection.request(method, path, headers=headers or {})
    found = connection.getresponse().status
    connection.close()
    return found


def own_path(server: Server) -> str:
    return "/" + "/".join(server.address.split("/")[3:])


def wrong_token() -> None:
    with Server(ECHO) as server:
        own = own_path(server)
        assert len(own) > 30, "a token that can be guessed: %r" % own
        for path in (
            "/", "/link", "/script", "//", "//link", "/wrong/", "/wrong/main.js", "/wrong/link", "/wrong/script",
            own[:-2] + "/", own[:-1] + "x/",
        ):
            assert status(server, path) == 403, path
        assert status(server, own) == 200 and status(server, own + "main.js") == 200
        for path in ("nothing.js", "../server.py", "%2e%2e/server.py", "..%2fserver.py"):
            assert status(server, own + path) in (403, 404), path
        assert status(server, own, method="POST") == 405


def other_origin() -> None:
    with Server(ECHO) as server:
        own, host = own_path(server), "127.0.0.1:%d" % server.port
        here = {"Origin": "http://" + host}
        assert status(server, own + "link", {**UPGRADE, **here}) == 101
        for headers in (
            {"Origin": "http://magbelu.example"},
            {"Origin": "null"},
            {"Origin": "http://127.0.0.1:%d" % (server.port ^ 1)},
            {"Origin": "https://" + host},
            {**here, "Host": "magbelu.example:%d" % server.port},
            {**here, "Host": "127.0.0.1"},
            {**here, "Sec-Fetch-Site": "cross-site"},
        ):
            assert status(server, own, headers) == 403, headers
            assert status(server, own + "link", {**UPGRADE, **headers}) == 403, headers
        assert status(server, own + "link", UPGRADE) == 403


def this_machine_alone() -> None:
    with Server(ECHO) as server:
        own = [line.split() for line in pathlib.Path("/proc/net/tcp").read_text().splitlines()[1:]]
        at = [it[1] for it in own if it[3] == "0A" and int(it[1].split(":")[1], 16) == server.port]
        assert at == ["0100007F:%04X" % server.port], at
        with socket.create_connection(("127.0.0.1", server.port)):
            pass


def refused_graphs() -> None:
    for words, line, wanted in (
        (
            ["-i", "none=/dev/null", ECHO],
            "magbelu-studio: refused 20 NoSuchBlock none: no block of the graph has this name", 1,
        ),
        (["-o", "late=/dev/null", ECHO], "magbelu-studio: refused 22 NotSink late: the block is no vector_sink", 1),
        (["-i", "src=/nowhere", ECHO], "magbelu-studio: [Errno 2] No such file or directory: '/nowhere'", 4),
        (["/nowhere.toml"], "magbelu-studio: [Errno 2] No such file or directory: '/nowhere.toml'", 4),
        (
            ["-i", "src=a", "-i", "src=b", ECHO],
            "magbelu-studio: refused a block, and `-`, stand once among the inputs and once among the outputs", 1,
        ),
    ):
        with Server(*words) as server:
            assert (server.line, server.process.wait(20)) == (line, wanted), (server.line, server.process.poll())


CASES = [wrong_token, other_origin, this_machine_alone, refused_graphs]
