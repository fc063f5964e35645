"""Drawings of GNU Radio Companion, which the command flow-from-grc makes graph files of."""

from __future__ import annotations

import os
import pathlib
import shutil
import subprocess
import sys
import tempfile

#: How long it may take, in seconds.
PATIENCE = 30


def command() -> list[str]:
    """How flow-from-grc is called: that of the checkout, or the one in PATH."""
    own = pathlib.Path(__file__).resolve().parents[3] / "flow-from-grc"
    found = str(own) if own.is_file() else shutil.which("flow-from-grc")
    if found is None:
        raise OSError("there is no flow-from-grc in PATH, which reads drawings: the package magbelu has it")
    return [sys.executable, found]


def graph_of(drawing: str) -> tuple[str, str]:
    """The graph file that a drawing becomes, and what there is to say of it. One that is refused is a ValueError."""
    with tempfile.TemporaryDirectory() as folder:
        path = os.path.join(folder, "drawing.grc")
        pathlib.Path(path).write_text(drawing, encoding="utf-8")
        done = subprocess.run([*command(), path], capture_output=True, timeout=PATIENCE, check=False)
    said = done.stderr.decode(errors="replace").replace(path, "the drawing")
    if done.returncode:
        raise ValueError(said.strip())
    return done.stdout.decode(), said
