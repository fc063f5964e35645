"""Reads the types, the traits and the contracts of src/: where each stands, and what the names in it mean there."""

import re
from dataclasses import dataclass
from pathlib import Path
from typing import Dict, Iterator, List, Optional, Tuple

from spec_files import CRATES, TOP, Entry, Scope

DECLARED = re.compile(r"(?:pub(?:\([a-z]+\))? )?(?:struct|enum|trait|type) (\w+)")
MODEL = re.compile(r"impl.* Model for (\w+)")
MEMBER = re.compile(r"    (?:ghost|const) (\w+): ")


@dataclass(frozen=True)
class Contract:
    """A function with its doc comment and its clauses, as it stands in its file."""

    path: str
    docs: Tuple[str, ...]
    signature: Tuple[str, ...]
    clauses: Tuple[str, ...]
    # The head of the `impl` that it stands in, if it does, and what names mean there.
    owner: str
    scope: Scope

    @property
    def text(self) -> Tuple[str, ...]:
        return self.docs + self.signature + self.clauses


@dataclass(frozen=True)
class Model:
    """What contracts see of a type: the `ghost Value`, and the `ghost view` that makes it up."""

    head: str
    value: Tuple[str, ...]
    view: Tuple[str, ...]
    scope: Scope


def block_at(lines: List[str], start: int, ends: str = "};") -> List[str]:
    """The lines from this one to the one where its brackets are closed and it ends in one of these signs."""
    depth = 0
    for end in range(start, len(lines)):
        text = re.sub(r"//.*", "", lines[end])
        depth += sum(text.count(sign) for sign in "({[") - sum(text.count(sign) for sign in ")}]")
        if depth == 0 and text.rstrip()[-1:] in tuple(ends):
            return lines[start : end + 1]
    raise ValueError(f"nothing ends what begins with {lines[start]}")


def docs_above(lines: List[str], start: int) -> List[str]:
    """The doc comment above a line, over attributes."""
    docs: List[str] = []
    for line in reversed(lines[:start]):
        text = line.strip()
        if text.startswith("///"):
            docs.insert(0, line)
        elif not text.startswith("#["):
            break
    return docs


def type_of(head: str) -> str:
    """The name of the type that an `impl` is of."""
    text, count = head.replace("->", ""), 1
    while count:
        text, count = re.subn(r"<[^<>]*>", "", text)
    found = re.match(r"impl (?:.* for )?(?:\w+::)*(\w+)", text)
    return found.group(1) if found else ""


def dedented(lines: List[str]) -> List[str]:
    """The lines without the spaces that the first begins with."""
    indent = len(lines[0]) - len(lines[0].lstrip())
    return [line[indent:] for line in lines]


def ghost_uses(lines: List[str], indent: str = "") -> List[str]:
    """What follows `ghost use` in lines with this indent."""
    found: List[str] = re.findall(rf"(?m)^{indent}ghost use ([^;]*);", "\n".join(lines))
    return found


def rust_uses(lines: List[str]) -> Iterator[List[str]]:
    """What `use` brings into a file: each name with its path."""
    for use in re.findall(r"(?m)^(?:pub )?use ([^;]*);", "\n".join(lines)):
        listed = re.fullmatch(r"([^{]*)::\{([^{]*)\}", use)
        if ("{" in use and not listed) or (use.endswith("*") and not use.startswith("std::")):
            raise ValueError(f"neither a list in a list of names is read, nor all names of a file: {use}")
        for item in listed.group(2).split(",") if listed else [use]:
            path, _, other = item.strip().partition(" as ")
            full = f"{listed.group(1)}::{path}" if listed else path
            if path and not full.endswith("*"):
                yield [other or full.split("::")[-1]] + full.split("::")


class SourceFile:
    """What stands in one file of src/."""

    def __init__(self, path: Path) -> None:
        self.path = str(path.relative_to(TOP))
        self.crate = path.relative_to(CRATES).parts[0]
        self.text = path.read_text()
        self.lines = self.text.splitlines()
        self.scope = Scope()
        for use in ghost_uses(self.lines):
            self.scope.add_use(use)
        self.uses: Dict[str, List[str]] = {use[0]: use[1:] for use in rust_uses(self.lines)}
        self.types: Dict[str, int] = {}
        self.models: Dict[str, Model] = {}
        for at, line in enumerate(self.lines):
            declared = DECLARED.match(line)
            if declared:
                self.types[declared.group(1)] = at
            model = MODEL.match(line)
            if model:
                self.read_model(model.group(1), at)

    def scope_with(self, block: List[str]) -> Scope:
        """What names mean in a block that has `ghost use` lines of its own."""
        scope = Scope(self.scope)
        for use in ghost_uses(block, "    "):
            scope.add_use(use)
        return scope

    def read_model(self, name: str, at: int) -> None:
        """Keeps the model of a type, where it has a value of its own."""
        block = block_at(self.lines, at)
        parts: Dict[str, Tuple[str, ...]] = {}
        for line, text in enumerate(block):
            part = re.match(r"    ghost (Value|view) = ", text)
            if part:
                parts[part.group(1)] = tuple(block_at(block, line))
        if "Value" in parts:
            self.models[name] = Model(block[0], parts["Value"], parts.get("view", ()), self.scope_with(block))

    def named_type(self, name: str, sources: "Sources") -> Optional[Tuple["SourceFile", str]]:
        """The file that declares the type that a name means here, and what it is called there."""
        if name in self.types:
            return self, name
        path = self.uses.get(name)
        if not path:
            return None
        crate = self.crate if path[0] in ("crate", "super", "self") else path[0]
        found = sources.find(crate, path[-1], path[-2] if len(path) > 1 else "")
        return (found, path[-1]) if found else None

    def is_trait(self, name: str) -> bool:
        """Whether a type of this file is a trait."""
        return " trait " in f" {self.lines[self.types[name]]}"

    def declaration(self, name: str) -> Entry:
        """A type, and what contracts see of it. Where that is a value of its own, private fields are left out."""
        at = self.types[name]
        text = [line for line in block_at(self.lines, at) if not line.strip().startswith("#[")]
        model = self.models.get(name)
        if model:
            shown = self.without_private(text)
            text = shown + ["", model.head, *model.value, *model.view, "}"]
        return Entry(self.path, name, tuple(docs_above(self.lines, at)), tuple(text), "rust")

    @staticmethod
    def without_private(text: List[str]) -> List[str]:
        """A struct without its private fields; one of a line has no others."""
        if len(text) == 1 or not re.match(r"pub struct", text[0]):
            return [re.sub(r"\((?!pub ).*\);", "(..);", text[0])] if len(text) == 1 else text
        shown: List[str] = []
        docs: List[str] = []
        for line in text[1:-1]:
            if re.match(r"\s*//", line):
                docs.append(line)
                continue
            if re.match(r"    pub \w+:", line):
                shown += docs + [line]
            docs = []
        hidden = len(shown) < len(text) - 2
        return [text[0], *shown, *(["    .."] if hidden else []), text[-1]]

    def member(self, trait: str, name: str) -> Optional[Entry]:
        """A ghost member of a trait, with the head of that."""
        at = self.types[trait]
        block = block_at(self.lines, at)
        for line, text in enumerate(block):
            found = MEMBER.match(text)
            if found and found.group(1) == name:
                shown = [block[0], *docs_above(block, line), *block_at(block, line), "}"]
                return Entry(self.path, f"{trait}.{name}", tuple(docs_above(self.lines, at)), tuple(shown), "rust")
        return None

    def head_at(self, at: int) -> List[str]:
        """The signature and the clauses of the function that begins at this line, without what opens its body or ends
        it."""
        indent = self.lines[at][: -len(self.lines[at].lstrip())]
        for end in range(at, len(self.lines)):
            line = self.lines[end]
            if line in (indent + "{", indent + "{}"):
                return self.lines[at:end]
            if line.endswith(";") or (line.endswith(" {") and (end == at or line.startswith(indent + ")"))):
                return [*self.lines[at:end], re.sub(r"(;| \{)$", "", line)]
        raise ValueError(f"{self.path} ends within {self.lines[at]}")

    def contract_at(self, at: int, owner: str, scope: Scope) -> Contract:
        """The function that begins at this line."""
        docs, head = docs_above(self.lines, at), self.head_at(at)
        clauses = next((i for i, line in enumerate(head) if re.match(r"\s+(requires|ensures)\b", line)), len(head))
        text = tuple(dedented(docs + head))
        signature, behind = len(docs), len(docs) + clauses
        return Contract(self.path, text[:signature], text[signature:behind], text[behind:], owner, scope)

    def impls(self) -> Iterator[Tuple[str, int, List[str]]]:
        """Each `impl`: its head on one line, and the number of its first line with all of them."""
        for at, line in enumerate(self.lines):
            if re.match(r"impl\b", line):
                block = self.lines[at : self.lines.index("}", at)] if not line.endswith("}") else [line]
                head = block[: next(i for i, text in enumerate(block, 1) if "{" in text)]
                yield " ".join(text.strip() for text in head), at, block

    def traits_of(self, name: str) -> Iterator[str]:
        """The traits that this file implements for a type, or has derived of it."""
        if name in self.types:
            for line in reversed(self.lines[: self.types[name]]):
                if not re.match(r"\s*(#\[|///)", line):
                    break
                derived = re.match(r"#\[derive\((.*)\)\]", line)
                yield from derived.group(1).split(", ") if derived else []
        for head, _, _ in self.impls():
            trait = re.match(r"impl(?:<.*?>)? ([\w:]+(?:<.*>)?) for ", head)
            if trait and type_of(head) == name:
                yield trait.group(1)

    def members(self, trait: str) -> Iterator[Tuple[str, Contract]]:
        """The functions, the types and the ghost members of a trait, by their names."""
        at = self.types[trait]
        for line in range(at, self.lines.index("}", at)):
            found = re.match(r"    (?:final )?(?:fn|type|const|ghost) (\w+)", self.lines[line])
            if found and not self.lines[line].startswith("    ghost use"):
                yield found.group(1), self.contract_at(line, self.lines[at], self.scope)

    def contracts(self, owner: str) -> Iterator[Tuple[str, Contract]]:
        """The public functions in the `impl`s of this type, or without one those in none, by their names."""
        blocks = [it for it in self.impls() if type_of(it[0]) == owner] if owner else [("", 0, self.lines)]
        for head, at, block in blocks:
            scope = self.scope_with(block) if owner else self.scope
            for line, text in enumerate(block, at):
                found = re.match(r"( *)pub fn (\w+)", text)
                if found and bool(owner) == bool(found.group(1)):
                    yield found.group(2), self.contract_at(line, head, scope)

    def contract(self, owner: str, name: str) -> Contract:
        """The function of this name in an `impl` of this type or in none."""
        for found, contract in self.contracts(owner):
            if found == name:
                return contract
        raise ValueError(f"{self.path} has no function {owner}::{name}")


class Sources:
    """All files of src/."""

    def __init__(self) -> None:
        self.files: Dict[str, List[SourceFile]] = {}
        for path in sorted(CRATES.glob("*/src/**/*.rt")):
            file = SourceFile(path)
            self.files.setdefault(file.crate, []).append(file)

    def at(self, path: str) -> SourceFile:
        """The file of a path from the top."""
        return next(file for file in self.files[path.split("/")[1]] if file.path == path)

    def find(self, crate: str, name: str, module: str = "") -> Optional[SourceFile]:
        """The file of a crate that declares this type, that of its module first, or the one that a `pub use` of the
        crate leads to."""
        files = self.files.get(crate, [])
        own = [file for file in files if name in file.types]
        own.sort(key=lambda file: Path(file.path).stem != module)
        if own:
            return own[0]
        for file in files:
            path = file.uses.get(name)
            if path and path[0] not in ("crate", "super", "self", crate) and path[0] in self.files:
                return self.find(path[0], path[-1])
        return None
