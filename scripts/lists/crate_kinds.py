"""The lists of kinds in the crates of blocks and of kinds: names, types, parameters and ranges."""

from __future__ import annotations

import re
from typing import Dict, Iterator, List, Mapping, Sequence, Tuple

from .kind_table import FILE, Kind, KindTable, Range
from .listings import Entries, Listing, named
from .sources import arms_of, behind, inside, last, named_there, rows, said
from .tables import camel
from .trees import Tree

KIND, KIND_SPEC = "crates/kinds/src/kind.rt", "crates/kinds/specs/Kind.antt"
NAME, NAME_SPEC = "crates/kinds/src/kind_name.rt", "crates/kinds/specs/KindNames.antt"
WORD_ANSWERS = "crates/kinds/proofs/kind/KindBlock/work/Answers.antt"
PARAMETERS, PARAMETERS_SPEC = (
    "crates/kind_schema/src/kind_parameters.rt",
    "crates/kind_schema/specs/KindParameters.antt",
)
KEYS_SPEC = "crates/kind_schema/specs/Kinds.antt"
FACADE = "crates/magbelu/src/blocks.rt"
_SLICES = (("Kinds", "look_back_of"), ("Forgetting", "look_back_of-holds"), ("Placing", "look_back_of-places"))


def listings(tree: Tree, table: KindTable) -> Iterator[Listing]:
    """All of them."""
    yield from _blocks(tree, table.kinds)
    yield from _names(tree, table.kinds)
    yield from _types(tree, table.kinds)
    yield from _parameters(tree, table.kinds)
    yield from _rows(tree, table.kinds)


def _blocks(tree: Tree, kinds: Sequence[Kind]) -> Iterator[Listing]:
    """`Kind`, and where its types are from."""
    text = tree.text(KIND)
    variants = re.findall(r"(?m)^    /// (.*)\n    (\w+)\((\w+)\),$", inside(text, "pub enum Kind {"))
    found = [(variant, f"{doc} ({type})") for doc, variant, type in variants]
    yield Listing(KIND, "`Kind`", FILE, found, [(it.type, f"{it.doc} ({it.type})") for it in kinds])
    yield _listing(KIND, "`on_block!`", named(re.findall(r"Kind::(\w+)\(\$block\) => \$body,", text)), kinds)
    families = [(it.type, it.family) for it in kinds]
    own = [(name, "kinds" if crate == "crate" else crate) for name, crate in _uses(text)]
    yield Listing(KIND, "what it brings in", FILE, own, families, in_order=False, is_part=True)
    yield Listing(
        FACADE, "the types that it has", FILE, _uses(tree.text(FACADE)), families, in_order=False, is_part=True
    )
    for family in sorted({it.family for it in kinds}):
        file = f"crates/{family}/src/lib.rt"
        types = named([it.type for it in kinds if it.family == family])
        found = named([name for name, _ in _uses(tree.text(file))])
        yield Listing(file, "the types that it has", FILE, found, types, in_order=False, is_part=True)


def _uses(text: str) -> List[Tuple[str, str]]:
    """The names that a source brings in, each with the crate or the module that it is from."""
    found = []
    for path, listed in re.findall(r"(?m)^(?:pub )?use (\w+)::(\{[^}]*\}|\w+);", text):
        found += [(name, path) for name in re.findall(r"\w+", listed)]
    return found


def _names(tree: Tree, kinds: Sequence[Kind]) -> Iterator[Listing]:
    """`KindName`, and its definitions."""
    text, spec = tree.text(NAME), tree.text(NAME_SPEC)
    names = [(it.type, it.name) for it in kinds]
    own = [(it.type, it.type) for it in kinds]
    yield _listing(
        NAME, "`KindName`", named(re.findall(r"(?m)^    (\w+),$", inside(text, "pub enum KindName {"))), kinds
    )
    count = re.findall(r"const KINDS: \[KindName; (\d+)\]", text)
    yield Listing(
        NAME, "the type of `KINDS`", FILE, [("its length", it) for it in count], [("its length", str(len(kinds)))]
    )
    listed = inside(text, "const KINDS: [KindName; %s] = [" % "".join(count))
    yield _listing(NAME, "`KINDS`", named(re.findall(r"KindName::(\w+),", listed)), kinds)
    yield Listing(NAME, "`text`", FILE, said(arms_of(text, "text")), names)
    yield Listing(NAME, "`name`", FILE, named_there(arms_of(text, "name")), own)
    yield Listing(NAME_SPEC, "`kind_text`", FILE, said(rows(spec, "kind_text")), names)
    yield Listing(NAME_SPEC, "`name_of`", FILE, named_there(rows(spec, "name_of")), own)
    listed = behind(spec, "\nall_kinds =").partition("[]")[0]
    yield _listing(NAME_SPEC, "`all_kinds`", named(re.findall(r"kinds\.(\w+)", listed)), kinds)


def _types(tree: Tree, kinds: Sequence[Kind]) -> Iterator[Listing]:
    """The types of items, of which the last row has the others."""
    wanted = [(it.type, camel(it.items)) for it in kinds if it.items != "any"] + [("_", "Any")]
    found = named_there(arms_of(tree.text(PARAMETERS), "types_of"))
    yield Listing(PARAMETERS, "`types_of`", FILE, found, wanted, in_order=False)
    found = named_there(rows(tree.text(PARAMETERS_SPEC), "types_of"))
    yield Listing(PARAMETERS_SPEC, "`types_of`", FILE, found, wanted)


def _parameters(tree: Tree, kinds: Sequence[Kind]) -> Iterator[Listing]:
    """The parameters with their ranges; in the definition the last row has the kinds without any."""
    wanted = [(it.type, _shown(it.parameters)) for it in kinds]
    found = [(last(it), _of_rattle(value)) for it, value in arms_of(tree.text(PARAMETERS), "parameters_of")]
    yield Listing(PARAMETERS, "`parameters_of`", FILE, found, wanted, in_order=False)
    spec = tree.text(PARAMETERS_SPEC)
    found = [(last(it), _of_antt(_unfolded(spec, value))) for it, value in rows(spec, "parameters_of")]
    yield Listing(
        PARAMETERS_SPEC, "`parameters_of`", FILE, found, [(type, it) for type, it in wanted if it] + [("_", "")]
    )


def _shown(parameters: Mapping[str, Range]) -> str:
    return ", ".join(f"{camel(name)} {' '.join(it.rust)}" for name, it in parameters.items())


def _of_rattle(value: str) -> str:
    """`&[(Parameter::N, Range::Number(1, 8))]` as `N Number 1 8`."""
    pairs = re.findall(r"\(\s*Parameter::(\w+),\s*Range::(\w+)(?:\(([^()]*)\))?,?\s*\)", value)
    numbers = ([it.strip().replace("Parameter::", "") for it in words.split(",") if it] for _, _, words in pairs)
    return ", ".join(" ".join([name, range, *map(_number, it)]) for (name, range, _), it in zip(pairs, numbers))


def _of_antt(value: str) -> str:
    """`(N, ranges.Number 1 8) ∷ []` as `N Number 1 8`."""
    pairs = re.findall(r"\((\w+), ranges\.(\w+)((?: \w+| \([^()]*\))*)\)", value)
    numbers = (re.findall(r"\w+|\([^()]*\)", words) for _, _, words in pairs)
    return ", ".join(" ".join([name, range, *map(_number, it)]) for (name, range, _), it in zip(pairs, numbers))


def _number(text: str) -> str:
    """A number that is a power of two as its digits."""
    power = re.fullmatch(r"\(?(\d+) *(\^|<<) *(\d+)\)?", text)
    if not power:
        return text
    base, exponent = int(power[1]), int(power[3])
    return str(base**exponent if power[2] == "^" else base << exponent)


def _unfolded(spec: str, value: str) -> str:
    """A row in which a name stands for what several kinds have: `filter_parameters Decimation`."""
    names: Dict[str, str] = dict(re.findall(r"(?m)^(\w+_parameters)((?: \w+)* = .*)$", spec))
    head, *words = value.split()
    if head not in names:
        return value
    arguments, _, unfolded = names[head].partition(" = ")
    for argument, word in zip(arguments.split(), words):
        unfolded = re.sub(rf"\b{argument}\b", word, unfolded)
    return unfolded


def _rows(tree: Tree, kinds: Sequence[Kind]) -> Iterator[Listing]:
    """Definitions and proofs with a row for each kind, or for some: their order alone."""
    spec = tree.text(KIND_SPEC)
    for name in ("meaning_of", "meaning_of-lawful", "meaning_of-same"):
        yield _listing(KIND_SPEC, f"`{name}`", _of_rows(spec, name), kinds)
    keys = tree.text(KEYS_SPEC)
    yield _listing(KEYS_SPEC, "`meant`", _of_rows(keys, "meant"), kinds)
    kept = [it for it in kinds if it.kept or any(range.kept for range in it.parameters.values())]
    yield _listing(KEYS_SPEC, "`keeps_list`", _of_rows(keys, "keeps_list"), kept)
    for file, name in _SLICES:
        path = f"crates/slices/specs/{file}.antt"
        yield _listing(path, f"`{name}`", _of_rows(tree.text(path), name), kinds)
    answers = re.findall(r"(?m)^pub returns-in-(\w+)-clause-word ", tree.text(WORD_ANSWERS))
    yield _listing(WORD_ANSWERS, "its answers", named(answers), [it for it in kinds if it.type in answers])


def _of_rows(text: str, name: str) -> Entries:
    return [(last(it), "") for it, _ in rows(text, name) if it != "_"]


def _listing(file: str, what: str, found: Entries, kinds: Sequence[Kind]) -> Listing:
    return Listing(file, what, FILE, found, named([it.type for it in kinds]))
