"""Makes a page with a heading for each option of each command of `flow`, which the search finds by its name, from the
texts of `--help` that tests hold against the program."""

import re
from typing import List

from spec_files import TOP

COMMANDS = ("check", "draw", "kinds", "new", "run", "live", "script")
HEAD = """# Options of flow

What `flow COMMAND --help` prints. [COMMANDS.md](COMMANDS.md#calls) has the rest.
"""
# An option with what stands behind it, and what it does.
OPTION = re.compile(r"(?m)^ +((?:-\w, )?(--[a-z-]+)\S*(?: <\S+>)?)  +(.*)$")


def sections(command: str) -> List[str]:
    """The part of a command: what it does, how it is called, its options but for `--help`."""
    text = (TOP / f"tests/cases/words/{command}_call_for_help/stdout").read_text()
    usage = re.search(r"(?m)^Usage: (.*)$", text)
    if not usage:
        raise ValueError(f"the help of {command} does not say how it is called")
    options = [
        f"### {name}\n\n`{words}` of `flow {command}`: {saying}\n"
        for words, name, saying in OPTION.findall(text)
        if name != "--help"
    ]
    return [f"## flow {command}\n\n{text.splitlines()[0]}.\n\n```\n{usage.group(1)}\n```\n", *options]


def options_page() -> str:
    """The page."""
    return "\n".join([HEAD, *(section for command in COMMANDS for section in sections(command))])
