#!/usr/bin/env python3
"""Makes the pages out/promised/*.md and the counts of docs/proof/BELIEVED.md from the sources; with --check it only
says whether the counts are what it makes."""

import re
import sys
from dataclasses import dataclass, field
from pathlib import Path
from typing import Dict, Iterable, Iterator, List, Set, Tuple

from source_files import Contract, SourceFile, Sources, block_at
from spec_files import CRATES, TOP, Entry, Found, Library, Scope, SpecFile, bound_in, key_of, mentioned, tokens_of

CALLS = TOP / "scripts" / "promised.txt"
PAGES = TOP / "out" / "promised"
BELIEVED = TOP / "docs" / "proof" / "BELIEVED.md"
# Words of the language, and tactics of proofs that stand in specs/.
OWN = {
    "self", "result", "Self", "Unit", "tt", "¬", "do", "←", "as", "omega", "grind", "rw", "cc", "absurd", "unfolding",
    "if",
}


@dataclass
class Call:
    """A page: its name, the functions whose contracts it shows, and what these do not promise."""

    page: str
    title: str
    functions: List[Tuple[str, str, str]] = field(default_factory=list)
    unpromised: List[str] = field(default_factory=list)

    @property
    def names(self) -> str:
        """The title with its names as code."""
        return " and ".join(f"`{name}`" for name in self.title.split(" and "))


def read_calls() -> List[Call]:
    """The calls that have a page."""
    calls: List[Call] = []
    for line in CALLS.read_text().splitlines():
        word, _, rest = line.partition(" ")
        if word == "page":
            page, _, title = rest.partition(" ")
            calls.append(Call(page, title))
        elif word == "function":
            path, name = rest.split()
            owner, _, function = name.rpartition("::")
            calls[-1].functions.append((path, owner, function))
        elif word == "not":
            calls[-1].unpromised.append(rest)
    return calls


def bounds_in(heads: str) -> Dict[str, List[str]]:
    """The traits of each type parameter of some heads."""
    bounds: Dict[str, List[str]] = {name: [] for name in re.findall(r"\b([A-Z])\b", heads)}
    for name, traits in re.findall(r"\b([A-Z]): ([^,>{]*)", heads):
        bounds[name] += re.findall(r"\w+", traits)
    return bounds


def is_own(token: str, bound: Set[str]) -> bool:
    """Whether a token is a number, a variable or a word of the language."""
    return token[0].isdigit() or token.split(".")[0] in bound | OWN


def ghost_and_plain(lines: List[str]) -> Tuple[List[str], List[str]]:
    """Of the lines of a type those of ghost members, and the others."""
    ghost: List[str] = []
    plain: List[str] = []
    at = 0
    while at < len(lines):
        block = block_at(lines, at, ",;") if re.match(r"\s+ghost ", lines[at]) else []
        ghost += block
        plain += [] if block else [lines[at]]
        at += len(block) or 1
    return ghost, plain


def without_heads(lines: List[str]) -> Tuple[str, ...]:
    """What stands in ghost members, without their names."""
    return tuple(re.sub(r"^\s+ghost \w+(?: =|:) ", "    ", line) for line in lines)


class Names:
    """Finds what the names in definitions, types and contracts mean."""

    def __init__(self) -> None:
        self.sources = Sources()
        self.specs: Dict[Path, SpecFile] = {}

    def spec(self, path: Path) -> SpecFile:
        """A file of specs/, which is read once."""
        if path not in self.specs:
            self.specs[path] = SpecFile(path)
        return self.specs[path]

    def resolve(self, path: List[str]) -> Found:
        """What stands under a path `Rattle.CRATE.specs.FILE.NAME`."""
        if path[0] != "Rattle" or not (CRATES / path[1]).is_dir() or path[2] != "specs" or path[3] == "contracts":
            return Library(".".join(path[:-1]), path[-1])
        if path[3] == "declared":
            at = next(i for i in range(4, len(path)) if path[i][0].isupper())
            file = self.sources.find(path[1], path[at], path[at - 1])
            return file.declaration(path[at]) if file else None
        for end in range(len(path) - 1, 3, -1):
            spec = CRATES.joinpath(path[1], "specs", *path[3:end]).with_suffix(".antt")
            if spec.is_file():
                return self.in_spec(self.spec(spec), path[end])
        return None

    def in_spec(self, spec: SpecFile, name: str) -> Found:
        """What a name means to those who import it from a file."""
        if name in spec.entries:
            return spec.entries[name]
        path = spec.reexports.names.get(key_of(name))
        return self.resolve(path) if path else None

    def of_token(self, token: str, scope: Scope, bound: Set[str]) -> Found:
        """What a token names: what a file has under the name behind the dot, or what is in scope."""
        head, *members = token.split(".")
        if members and head in scope.files and (head not in bound or members[0][0].isupper()):
            return self.resolve(scope.files[head] + members[:1])
        path = scope.names.get(key_of(head))
        return self.resolve(path) if path and head not in bound else None

    def of_spec(self, entry: Entry) -> Iterator[Found]:
        """What a definition names."""
        spec = self.spec(TOP / entry.path)
        scope = Scope(spec.scope)
        for name in spec.entries:
            scope.names[key_of(name)] = ["Rattle", *Path(entry.path).with_suffix("").parts[1:], name]
        bound = bound_in(entry.text, scope)
        for token in mentioned(tokens_of(entry.text)):
            found = self.of_token(token, scope, bound)
            if not found and not is_own(token, bound):
                raise ValueError(f"{entry.path}: {entry.name} names {token}, which is not in scope")
            yield found

    def of_words(self, file: SourceFile, lines: Iterable[str]) -> Iterator[Found]:
        """The types of the repository that lines of Rust name; of a trait the contracts name what they need."""
        for line in lines:
            for word in re.findall(r"\b[A-Z]\w*", re.sub(r"//.*", "", line)):
                found = file.named_type(word, self.sources)
                if found and not found[0].is_trait(found[1]):
                    yield found[0].declaration(found[1])

    def of_clause(
        self, file: SourceFile, lines: Tuple[str, ...], scope: Scope, bounds: Dict[str, List[str]], own: Set[str]
    ) -> Iterator[Found]:
        """What clauses name, or what is written in a ghost member. `own` has the parameters and fields that they may
        speak of."""
        bound = bound_in(lines, scope) | own
        for token in mentioned(tokens_of(lines)):
            head, *members = token.split(".")
            found = self.of_token(token, scope, bound)
            declared = file.named_type(head, self.sources)
            if not found and members and head in bounds:
                found = self.of_member(file, bounds[head], head, members[0])
            elif not found and declared:
                found = declared[0].declaration(declared[1])
            if not found and not is_own(token, bound | set(bounds)):
                raise ValueError(f"{file.path} names {token}, which is not in scope")
            yield found

    def of_member(self, file: SourceFile, traits: List[str], parameter: str, name: str) -> Found:
        """A ghost member of a type parameter."""
        for trait in traits:
            found = file.named_type(trait, self.sources)
            member = found[0].member(found[1], name) if found else None
            if member:
                return member
        return Library("of types", f"{parameter}.{name}")

    def in_clauses(self, contract: Contract, members: Iterable[str] = ()) -> Iterator[Tuple[str, Found]]:
        """The names in the clauses of a contract, each with what it means; of a trait's function with the members of
        the trait."""
        file = self.sources.at(contract.path)
        heads = "\n".join([contract.owner, *contract.signature])
        clauses = tuple(re.sub(r"^\s+(requires|ensures)( \w+)? ", "    ", line) for line in contract.clauses)
        own = {*re.findall(r"\b([a-z_]+):", heads), *members}
        yield from zip(
            mentioned(tokens_of(clauses)), self.of_clause(file, clauses, contract.scope, bounds_in(heads), own)
        )

    def of_contract(self, contract: Contract) -> Iterator[Found]:
        """What a signature and its clauses name."""
        yield from self.of_words(self.sources.at(contract.path), [contract.owner, *contract.signature])
        yield from (found for _, found in self.in_clauses(contract))

    def of_type(self, entry: Entry) -> Iterator[Found]:
        """What a type of src/, or a member of a trait, names."""
        file = self.sources.at(entry.path)
        model = file.models.get(entry.name)
        begin = next((i for i, line in enumerate(entry.text) if model and line == model.head), len(entry.text))
        ghost, plain = ghost_and_plain(list(entry.text[:begin]))
        yield from self.of_words(file, plain)
        generic = bounds_in(entry.text[0])
        fields = set(re.findall(r"\b([a-z_]+):", " ".join(plain)))
        yield from self.of_clause(file, without_heads(ghost), file.scope, generic, fields)
        if model:
            seen = model.value if "    .." in entry.text else model.value + model.view
            yield from self.of_clause(file, without_heads(list(seen)), model.scope, generic, set())


@dataclass
class Closure:
    """The definitions and types that contracts rest on, by how many steps lead to them, and the names of the
    library."""

    steps: List[List[Entry]]
    library: List[Library]

    @property
    def entries(self) -> List[Entry]:
        return [entry for step in self.steps for entry in step]


def closure_of(names: Names, contracts: List[Contract]) -> Closure:
    """All that contracts name, and what that names in turn, in the order in which a reader meets it."""
    seen: Set[Entry] = set()
    library: Dict[Library, None] = {}
    steps: List[List[Entry]] = []
    found: List[Found] = [it for contract in contracts for it in names.of_contract(contract)]
    while found:
        library.update((it, None) for it in found if isinstance(it, Library))
        step = [it for it in dict.fromkeys(found) if isinstance(it, Entry) and it not in seen]
        seen.update(step)
        steps += [step] if step else []
        found = [
            it for entry in step for it in (names.of_spec(entry) if entry.language == "agda" else names.of_type(entry))
        ]
    return Closure(steps, list(library))


def linked(path: str) -> str:
    """A link from a page to a file of the repository."""
    crate, folder, *rest = Path(path).with_suffix("").parts[1:]
    name = "/".join([crate, *rest]) if folder == "specs" else "/".join([crate, "src", *rest]) + ".rt"
    return f"[`{name}`](../../{path})"


def shown(entries: List[Entry]) -> Iterator[str]:
    """Definitions that stand in one file, each behind the comment above it."""
    yield f"{linked(entries[0].path)}:"
    yield ""
    yield f"```{entries[0].language}"
    for at, entry in enumerate(entries):
        if at:
            yield ""
        yield from entry.comment
        yield from entry.text
    yield "```"
    yield ""


def runs_of(entries: List[Entry]) -> List[List[Entry]]:
    """The entries in their order, in runs from one file each."""
    runs: List[List[Entry]] = []
    for entry in entries:
        if runs and runs[-1][0].path == entry.path:
            runs[-1].append(entry)
        else:
            runs.append([entry])
    return runs


def page_of(call: Call, contracts: List[Contract], closure: Closure) -> str:
    """The page of a call."""
    lines = [f"# What is promised of {call.names}", ""]
    lines += [
        "`scripts/promised.py` makes this page of the sources, and [BELIEVED.md](../../docs/proof/BELIEVED.md) says "
        "how to read it."
    ]
    lines += ["[What is not promised](#what-is-not-promised) stands at the end.", ""]
    for contract in contracts:
        lines += [f"{linked(contract.path)}:", "", "```rust", *contract.text, "```", ""]
    for number, step in enumerate(closure.steps, 1):
        heading = "What the contract names" if number == 1 else f"What these name, step {number}"
        lines += [f"## {heading}", ""]
        for run in runs_of(step):
            lines += shown(run)
    lines += ["## Names of the toolchain's library", ""]
    modules: Dict[str, List[str]] = {}
    for it in closure.library:
        modules.setdefault(it.module, []).append(it.name)
    lines += [f"- `{module}`: {', '.join(f'`{name}`' for name in names)}" for module, names in modules.items()]
    lines += ["", "## What is not promised", "", *[f"- {text}" for text in call.unpromised]]
    return "\n".join(lines) + "\n"


def row_of(call: Call, closure: Closure) -> str:
    """The row of a call in the table of all: how much there is to read."""
    entries = closure.entries
    specs = sum(entry.language == "agda" for entry in entries)
    lines = sum(len(entry.comment) + len(entry.text) for entry in entries)
    files = len({entry.path for entry in entries})
    return f"| {call.names} | `{call.page}.md` | {specs} | {len(entries) - specs} | {lines:,} | {files} |"


def with_rows(text: str, rows: List[str]) -> str:
    """BELIEVED.md with these rows in the table of the calls."""
    return re.sub(r"(\| call \|.*\n\|.*\n)(?:\|.*\n)*", lambda head: head.group(1) + "\n".join(rows) + "\n", text)


def lines_of(name: str) -> int:
    """How many lines a file of specs/ has, `CRATE/FILE`."""
    crate, _, rest = name.partition("/")
    return (CRATES / crate / "specs" / f"{rest}.antt").read_text().count("\n")


def counted(text: str) -> str:
    """BELIEVED.md with the lines of the files in each row, and with their sums below the tables."""
    total = 0
    made: List[str] = []
    for line in text.splitlines():
        row = re.match(r"\| (`[^|]*`) \| ([^|`]*) \|(.*)", line)
        if row:
            count = sum(lines_of(name) for name in re.findall(r"`([^`]*)`", row.group(1)))
            total += count
            line = f"| {row.group(1)} | {count:,} |{row.group(3)}"
        elif line.startswith("#"):
            total = 0
        line = re.sub(r"^Together [\d,]+ lines", f"Together {total:,} lines", line)
        made.append(line)
    return "\n".join(made) + "\n"


def unlisted(entries: Iterable[Entry], text: str) -> List[str]:
    """The files of specs/ that pages have definitions of, and that no table of BELIEVED.md has."""
    files = {linked(entry.path).split("]")[0][1:] for entry in entries if entry.language == "agda"}
    return sorted(name for name in files if name not in text)


def wanted() -> Iterator[Tuple[Path, str]]:
    """Each page with its text; a file that no table has is a fault of BELIEVED.md."""
    names = Names()
    rows: List[str] = []
    entries: Dict[Entry, None] = {}
    for call in read_calls():
        contracts = [names.sources.at(path).contract(owner, name) for path, owner, name in call.functions]
        closure = closure_of(names, contracts)
        rows.append(row_of(call, closure))
        entries.update((entry, None) for entry in closure.entries)
        yield PAGES / f"{call.page}.md", page_of(call, contracts, closure)
    text = BELIEVED.read_text()
    for name in unlisted(entries, text):
        raise ValueError(f"{BELIEVED.relative_to(TOP)} has no row of {name}")
    yield BELIEVED, counted(with_rows(text, rows))


def main(words: List[str]) -> int:
    """Writes the pages and the counts; with --check it writes nothing, and tells whether the counts would change."""
    if words not in ([], ["--check"]):
        print("promised.py: its words are: [--check]", file=sys.stderr)
        return 2
    stale = 0
    try:
        for path, text in wanted():
            if path.is_file() and path.read_text() == text or words and path != BELIEVED:
                continue
            stale += 1
            if words:
                print(
                    f"{path.relative_to(TOP)} has not the counts that scripts/promised.py makes of the sources: call it"
                )
            else:
                path.parent.mkdir(parents=True, exist_ok=True)
                path.write_text(text)
                print(f"wrote {path.relative_to(TOP)}")
    except ValueError as fault:
        print(f"promised.py: {fault}", file=sys.stderr)
        return 2
    return 1 if words and stale else 0


if __name__ == "__main__":
    sys.exit(main(sys.argv[1:]))
