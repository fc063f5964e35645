"""Makes the references of C and C++ from the headers of c/: what stands under a comment, up to the next one, is one
matter, and has the comment's text."""

import re
from dataclasses import dataclass, field
from pathlib import Path
from typing import Dict, Iterator, List, Tuple

from manual_pages import Stage, with_pages
from source_files import block_at
from spec_files import TOP

FOLDER = Path("reference")
HIDDEN = "(not for callers)"
# More declarations under one comment have one heading.
MANY = 8


@dataclass
class Declaration:
    """What a header declares: its name, how it is written without its body, and of a class the lines between its
    brackets."""

    name: str
    text: str
    body: List[str] = field(default_factory=list)
    # Whether the library has it, and the header no body.
    is_exported: bool = False


@dataclass
class Matter:
    """A comment, and what it is about."""

    comment: List[str]
    declarations: List[Declaration] = field(default_factory=list)
    # Whether it stands in a namespace that callers do not name.
    is_inner: bool = False


def comment_at(lines: List[str], at: int) -> Tuple[List[str], int]:
    """The text of the comment that begins at a line, and the line behind it."""
    end = next(i for i in range(at, len(lines)) if "*/" in lines[i])
    text = [re.sub(r"^\s*/?\*+ ?", "", re.sub(r"\s*\*/$", "", line)) for line in lines[at : end + 1]]
    while text and not text[0]:
        text.pop(0)
    while text and not text[-1]:
        text.pop()
    return text, end + 1


def declared(block: List[str], indent: str) -> Declaration:
    """A declaration: a struct or an enum whole, a class as its head and its body, a function as its head."""
    text = "\n".join(line[len(indent) :] for line in block)
    named = re.match(r"(?:template <.*?>\n)?(struct|class|enum) (\w+)[^;(]*\{", text)
    if named and named.group(1) == "class":
        return Declaration(named.group(2), text.split(" {")[0], block[1:-1])
    if named:
        return Declaration(named.group(2), text)
    if text.startswith("#define"):
        return Declaration(text.split()[1], text)
    head = re.split(r"(?<![=)]) \{|(?<=\)) \{|(?<=noexcept) \{", text, maxsplit=1)[0]
    # (a constructor says behind its head what its fields are made of)
    head = re.split(r"\n\s+: ", head)[0]
    called = re.search(r"(~?\w+)\s*\(", head)
    name = called.group(1) if called else ""
    return Declaration(name, re.sub(r"^(static )?inline ", "", head.rstrip(";")) + ";", is_exported=text.endswith(");"))


def matters(lines: List[str], indent: str = "") -> Iterator[Matter]:
    """What a header, or a class, has at this indent, in its order."""
    matter, at, is_inner, is_public = Matter([]), 0, False, True
    while at < len(lines):
        line = lines[at]
        own = line[len(indent) :] if line.startswith(indent) else ""
        if re.match(r"\s*(public|protected|private):", line):
            is_public = "public" in line
        elif re.match(r"(\} // )?namespace detail", line):
            yield matter
            is_inner = line.startswith("namespace")
            matter = Matter([])
        elif own.startswith("/*"):
            yield matter
            comment, at = comment_at(lines, at)
            matter = Matter(comment, is_inner=is_inner)
            continue
        elif re.match(r"#define \w+ \S", own):
            matter.declarations.append(declared([line], indent))
        elif is_public and re.match(r"[\w~\[]", own) and not re.match(r"(namespace|using|extern|friend)\b", own):
            block = [line] if line.endswith((";", "}")) and line.count("{") == line.count("}") else block_at(lines, at)
            matter.declarations.append(declared(block, indent))
            at += len(block)
            continue
        elif not is_public and re.match(r"\w", own):
            at += len(block_at(lines, at))
            continue
        at += 1
    yield matter


def markdown(comment: List[str]) -> str:
    """A comment as a page has it: lines that are set in are shown as they are, and one that begins with a name and two
    spaces is one of a list."""
    shown: List[str] = []
    for part in "\n".join(comment).split("\n\n"):
        lines = part.splitlines()
        if all(line.startswith("   ") for line in lines):
            shown.append(f"```\n{part}\n```")
        else:
            rows = [re.sub(r"^(\w+) {2,}(?=\S)", r"- `\1`: ", line) for line in lines]
            shown.append("\n".join(rows))
    return with_pages("\n\n".join(shown)) + "\n"


def code(text: str, language: str) -> str:
    """A block of code."""
    return f"```{language}\n{text}\n```\n"


def sections(matter: Matter, owner: str, language: str) -> Iterator[str]:
    """What the page says of a matter: each declaration under a heading, the comment under the first. Macros stand with
    what is above them."""
    level = "###" if owner else "##"
    heads = [it for it in matter.declarations if not it.text.startswith("#define")] or matter.declarations[:1]
    if len(heads) > MANY and heads[0].is_exported:
        yield f"{level} {heads[0].name} and others\n"
        yield markdown(matter.comment)
        yield code("\n".join(it.text for it in matter.declarations), language)
        return
    for number, it in enumerate(heads):
        yield f"{level} {owner}{it.name}\n"
        yield markdown(matter.comment) if not number else f"See `{owner}{heads[0].name}`.\n"
        shown = (
            [
                it.text,
                *(other.text for other in matter.declarations if other.text.startswith("#define") and other is not it),
            ]
            if not number
            else [it.text]
        )
        yield code("\n".join(shown), language)


def is_for_callers(matter: Matter) -> bool:
    """Whether there is something to say of a matter."""
    return bool(matter.declarations) and bool(matter.comment) and matter.comment[0] != HIDDEN


def c_page(lines: List[str]) -> str:
    """The page of the C header, whose first comment is about all."""
    first, behind = comment_at(lines, 0)
    shown = [part for matter in matters(lines[behind:]) if is_for_callers(matter) for part in sections(matter, "", "c")]
    return "\n".join(["# C: magbelu.h\n", markdown(first), *shown])


def cpp_page(lines: List[str]) -> str:
    """The page of the C++ header. The members of an inner class stand with each class that is made of it."""
    first, behind = comment_at(lines, 0)
    all_matters = [matter for matter in matters(lines[behind:]) if is_for_callers(matter)]
    inner: Dict[str, Declaration] = {
        it.name: it for matter in all_matters if matter.is_inner for it in matter.declarations if it.body
    }
    shown: List[str] = []
    for matter in (it for it in all_matters if not it.is_inner):
        shown += sections(matter, "", "cpp")
        for it in matter.declarations:
            above = [inner[name] for name in re.findall(r"detail::(\w+)", it.text) if name in inner]
            for member in (
                member for body in [it.body, *(base.body for base in above)] for member in matters(body, "    ")
            ):
                if member.declarations:
                    shown += sections(member, f"{it.name}::", "cpp")
    return "\n".join(["# C++: magbelu.hpp\n", markdown(first), *shown])


def write(stage: Stage) -> List[str]:
    """Writes both pages, and gives their places."""
    for name, made in (
        ("c", c_page((TOP / "c/magbelu.h").read_text().splitlines())),
        ("cpp", cpp_page((TOP / "c/magbelu.hpp").read_text().splitlines())),
    ):
        stage.write(FOLDER / name / "index.md", made)
    return [str(FOLDER / name / "index.md") for name in ("c", "cpp")]
