"""Reads the definitions of specs/: where each stands, with its comment, and which words of it may name another."""

import re
from dataclasses import dataclass
from pathlib import Path
from typing import Dict, Iterator, List, Optional, Set, Tuple, Union

TOP = Path(__file__).resolve().parent.parent
CRATES = TOP / "crates"

# Variants of the library that begin with a small letter; any other small name in a pattern is a variable.
SMALL_VARIANTS = {
    "suc", "zero", "true", "false", "pos", "negsuc", "inl", "inr", "∷", "item", "no_items", "member", "no_members",
}
# What a token is: `[]`, a projection behind a bracket, a name with what it is asked for, or one character.
TOKEN = re.compile(r"\[\]|\.[^\s(){}\[\];,.]+|[^\s(){}\[\];,.]+(?:\.[^\s(){}\[\];,.]+)*|\S")
# A line that begins a definition: one with a keyword, or a name before its type.
STARTS = re.compile(r"(?:(?:pub|abbrev|unfoldable|record|data)\s|[^\s:]+ :(?:\s|$))")
WORDS = {
    "abbrev", "pub", "unfoldable", "record", "data", "where", "let", "in", "elim", "else", "Type", "module", "infixl",
    "infixr",
}
SIGNS = set("(){}[];,.:=→×λ_|↦⊥?") | {"[]"}


@dataclass(frozen=True)
class Library:
    """A name that the toolchain defines, or that a proof does."""

    module: str
    name: str


@dataclass(frozen=True)
class Entry:
    """A definition of specs/, or a type or a member of a trait of src/, as it stands there."""

    path: str
    name: str
    comment: Tuple[str, ...]
    text: Tuple[str, ...]
    language: str = "agda"


Found = Union[Entry, Library, None]


def tokens_of(lines: Tuple[str, ...]) -> List[str]:
    """The tokens of some lines, without what comments say."""
    texts = (re.sub(r"(^|\s)(--|//).*", "", re.sub(r'"(?:\\.|[^"\\])*"', "", line)) for line in lines)
    return TOKEN.findall(" ".join(texts).replace("λ", " λ "))


def key_of(name: str) -> str:
    """How a name stands in a text: of an operator its first word."""
    return next((part for part in name.split("◌") if part), name)


class Scope:
    """What names mean in a file, and what stands before the dot of a name: paths as lists of words."""

    def __init__(self, outer: Optional["Scope"] = None) -> None:
        self.names: Dict[str, List[str]] = dict(outer.names) if outer else {}
        self.files: Dict[str, List[str]] = dict(outer.files) if outer else {}

    def add_use(self, text: str) -> None:
        """Adds what a line `use PATH`, `use PATH as NAME` or `use PATH.{NAME, NAME as NAME}` brings."""
        text = " ".join(text.split()).rstrip(";")
        listed = re.fullmatch(r"([^{]*)\.\{(.*)\}", text)
        if listed:
            for item in listed.group(2).split(","):
                name, _, other = item.strip().partition(" as ")
                if name:
                    self.names[key_of(other or name)] = listed.group(1).split(".") + [name]
            return
        path, _, other = text.partition(" as ")
        self.files[other or path.split(".")[-1]] = path.split(".")


def uses_in(lines: List[str], word: str) -> Iterator[str]:
    """What follows the word `use` in some lines, of which one may go over several."""
    begun = ""
    for line in lines:
        line = line.strip()
        if not begun and not re.match(word + r"\s", line):
            continue
        begun = f"{begun} {line}" if begun else re.sub(f"^{word} ", "", line)
        if begun.count("{") == begun.count("}"):
            yield begun
            begun = ""


class SpecFile:
    """The definitions of one file of specs/."""

    def __init__(self, path: Path) -> None:
        self.path = str(path.relative_to(TOP))
        self.lines = path.read_text().splitlines()
        self.scope = Scope()
        self.reexports = Scope()
        self.entries: Dict[str, Entry] = {}
        for use in uses_in(self.lines, r"(?:pub )?use"):
            self.scope.add_use(use)
        for use in uses_in(self.lines, "pub use"):
            self.reexports.add_use(use)
        self.read()

    def read(self) -> None:
        """Cuts the lines into definitions. That at the head of the file has the file's comment where it has none of its
        own."""
        comment: List[str] = []
        module: List[str] = []
        start = 0
        while start < len(self.lines):
            line = self.lines[start]
            own = line[2:] if module and line.startswith("  ") else line
            module = module if not line or line.startswith(" ") else []
            if line.startswith("module "):
                module, comment = [line], []
            elif own.startswith("--") or own.startswith("infix"):
                above = self.lines[start - 1].strip() if start else ""
                comment = comment + [own] if above.startswith("--") else [own]
            elif not line and self.entries:
                comment = []
            elif STARTS.match(own) and not re.match(r"(?:pub )?use |pub mod ", own):
                end = self.end_of(start, "  " if module else "")
                self.add(module, comment, [text[2 if module else 0 :] for text in self.lines[start:end]])
                start, comment = end, []
                continue
            start += 1

    def end_of(self, start: int, indent: str) -> int:
        """The line behind the definition that begins at this one."""
        end = start + 1
        while end < len(self.lines):
            line = self.lines[end]
            own = line[len(indent) :]
            if line and not line.startswith(indent + " "):
                if (
                    not line.startswith(indent)
                    or own.startswith("--")
                    or STARTS.match(own)
                    or re.match(r"module |infix|use ", own)
                ):
                    break
            end += 1
        while not self.lines[end - 1]:
            end -= 1
        return end

    def add(self, module: List[str], comment: List[str], text: List[str]) -> None:
        """Adds a definition under its name, and where it is of `data` under those of its variants."""
        name = re.sub(r"^(?:(?:abbrev|unfoldable|pub|record|data)\s+)*", "", text[0]).split()[0]
        if module:
            text = module + ["  " + line if line else line for line in comment + text]
        entry = Entry(self.path, name, () if module else tuple(comment), tuple(text))
        self.entries[name] = entry
        if re.match(r"(?:pub )?data ", text[0]):
            for line in text[1:]:
                variant = re.match(r"  (\S+) : ", line)
                if variant and variant.group(1) != "--":
                    self.entries[variant.group(1)] = entry


def is_name(token: str) -> bool:
    """Whether a token may be a variable."""
    return token not in WORDS and token not in SIGNS and "." not in token and not token[0].isdigit()


def is_variant(token: str, scope: Scope) -> bool:
    """Whether a name in a pattern is one in scope and no variable: it begins with a capital, or the library has it
    so."""
    path = scope.names.get(token, [])
    return bool(path) and (token[0].isupper() or (token in SMALL_VARIANTS and not (CRATES / path[1]).is_dir()))


def pattern_names(tokens: List[str], scope: Scope) -> Set[str]:
    """The variables of a pattern."""
    return {token for token in tokens if is_name(token) and not is_variant(token, scope)}


def names_before_colon(tokens: List[str], at: int) -> Set[str]:
    """The names of a bracket that opens at this place, `(a b : T)`; none where it is none of that form."""
    names: Set[str] = set()
    for token in tokens[at + 1 :]:
        if token == ":":
            return names
        if not is_name(token):
            return set()
        names.add(token)
    return set()


def after_lambda(tokens: List[str], at: int) -> Set[str]:
    """The variables of the function that begins at this place."""
    names: Set[str] = set()
    depth = typed = 0
    for token in tokens[at + 1 :]:
        if token == "." and not depth:
            break
        depth += (token in "({[") - (token in ")}]")
        typed = depth if token == ":" else typed if depth >= typed else 0
        if not typed and is_name(token):
            names.add(token)
    return names


def bound_in(lines: Tuple[str, ...], scope: Scope) -> Set[str]:
    """The variables, the fields and the local functions of a definition."""
    if len(lines) > 1 and lines[0].startswith("module "):
        return bound_in(lines[:1], scope) | bound_in(tuple(line[2:] for line in lines[1:]), scope)
    bound: Set[str] = set()
    tokens = tokens_of(lines)
    for at, token in enumerate(tokens):
        if token in ("(", "{"):
            bound |= names_before_colon(tokens, at)
        elif token == "λ":
            bound |= after_lambda(tokens, at)
        elif token == "let":
            bound.add(tokens[at + 1])
        elif token == "↦":
            begin = max(i for i in range(at) if tokens[i] in ("|", "["))
            bound |= pattern_names(tokens[begin + 1 : at], scope)
    for line in lines[1:]:
        field_name = re.match(r"\s+(?:pub )?([^\s:()]+) :(?:\s|$)", line)
        if field_name:
            bound.add(field_name.group(1))
        equation = re.match(r"((?:    )?[^\s(].*?|\(.*?) =(?: |$)", re.sub(r"\s--.*", "", line))
        if equation and not (line.startswith(" ") and re.search(r"\blet\b|[{;]", line)):
            bound |= pattern_names(tokens_of((equation.group(1),))[0 if line[0] in " (" else 1 :], scope)
        step = re.match(r"\s+(\S+) ←", line)
        if step:
            bound.add(step.group(1))
    return bound


def mentioned(tokens: List[str]) -> Iterator[str]:
    """The tokens that may name something: no fields of records, no projections, no signs, and `then` only where it is
    none of an `if`."""
    conditions: List[int] = []
    depth = 0
    for at, token in enumerate(tokens):
        depth += (token in "({[") - (token in ")}]")
        following = tokens[at + 1] if at + 1 < len(tokens) else ""
        is_field = following == "=" and at > 0 and tokens[at - 1] in ("{", ";")
        if token == "if":
            conditions.append(depth)
        if token == "then" and conditions and conditions[-1] == depth:
            conditions.pop()
        elif token[0] != "." and token not in SIGNS and token not in WORDS and not is_field:
            yield token
