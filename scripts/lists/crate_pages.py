"""The lists of parameters, ranges and texts in the crates kind_schema and diagnostics, which `flow kinds` and
`--explain` say, and what docs/user/FILES.md says may be set."""

from __future__ import annotations

import re
from typing import Dict, Iterator, List, Tuple

from .kind_table import FILE, GnuRadioBlock, KindTable, Parameter
from .listings import Entries, Listing, named
from .sources import arms_of, body, inside, last, named_there, rows, said, texts
from .tables import camel
from .trees import Tree

FAULT, FAULT_SPEC = "crates/block_parameters/src/fault.rt", "crates/block_parameters/specs/Fault.antt"
KEY, KEY_SPEC = "crates/kind_schema/src/key.rt", "crates/kind_schema/specs/Keys.antt"
KEYS, KEYS_SPEC = "crates/kind_schema/src/keys.rt", "crates/kind_schema/specs/Kinds.antt"
RANGE, RANGE_SPEC = "crates/kind_schema/src/range.rt", "crates/kind_schema/specs/Ranges.antt"
ABOUT, EXPECTED = "crates/diagnostics/src/about.rt", "crates/diagnostics/src/expected.rt"
GNU_RADIO, STARTING = "crates/diagnostics/src/gnu_radio.rt", "crates/diagnostics/src/starting.rt"
FILES = "docs/user/FILES.md"
# Ranges that a parameter of a kind has with numbers of its own.
_WITH_NUMBERS = ("Number", "Long", "Register", "AtLeast")


def listings(tree: Tree, table: KindTable) -> Iterator[Listing]:
    """All of them."""
    yield from _parameters(tree, table)
    yield from _defaults(tree, table)
    yield from _ranges(tree, table)
    yield from _pages(tree, table)
    yield from _options(tree, table)
    yield from _gnu_radio(tree, table)
    yield from _starting(tree, table)


def _parameters(tree: Tree, table: KindTable) -> Iterator[Listing]:
    """`Parameter`, and what a graph file calls each."""
    text = tree.text(FAULT)
    wanted = [(it.variant, it.key) for it in table.parameters.values()]
    found = re.findall(r"(?m)^    (\w+),$", inside(text, "pub enum Parameter {"))
    yield Listing(FAULT, "`Parameter`", FILE, named(found), named([variant for variant, _ in wanted]))
    found = said(arms_of(text, "text"))
    yield Listing(FAULT, "`text`", FILE, found, wanted, in_order=False)
    found = said(rows(tree.text(FAULT_SPEC), "parameter_text"))
    yield Listing(FAULT_SPEC, "`parameter_text`", FILE, found, wanted)


def _form(table: KindTable, parameter: Parameter) -> str:
    """What may stand at a parameter, as `ValueForm` has it."""
    ranges = [range for kind in table.kinds for name, range in kind.parameters.items() if name == parameter.name]
    return camel(ranges[0].form) if ranges else "Text"


def _defaults(tree: Tree, table: KindTable) -> Iterator[Listing]:
    """What may stand at each parameter, whether it may be missing, and what then stands for it."""
    text, spec = tree.text(KEY), tree.text(KEY_SPEC)
    forms = [(it.variant, _form(table, it)) for it in table.parameters.values()]
    forms = [it for it in forms if it[1] != "Number"] + [("_", "Number")]
    found = named_there(arms_of(text, "parameter_form"))
    yield Listing(KEY, "`parameter_form`", FILE, found, forms, in_order=False)
    found = named_there(rows(spec, "parameter_form"))
    yield Listing(KEY_SPEC, "`parameter_form`", FILE, found, forms, in_order=False)
    optional = [it for it in table.parameters.values() if it.default is not None]
    found = re.findall(r"Parameter::(\w+)", body(text, "is_needed_parameter"))
    yield Listing(
        KEY, "`is_needed_parameter`", FILE, named(found), named([it.variant for it in optional]), in_order=False
    )
    wanted = [(it.variant, "false") for it in optional] + [("_", "true")]
    yield Listing(KEY_SPEC, "`is_needed_parameter`", FILE, _plain(spec, "is_needed_parameter"), wanted, in_order=False)
    # (0 stands for a text)
    missing = [(it.variant, str(it.default)) for it in optional if isinstance(it.default, int) and it.default]
    found = [
        (name, value)
        for names, value in re.findall(r"Key::Parameter\(([^)]*)\)[^=]*=> (-?\d+)", body(text, "missing"))
        for name in re.findall(r"Parameter::(\w+)", names)
    ]
    yield Listing(KEY, "`missing`", FILE, found, missing, in_order=False)
    found = [(name, _whole(value)) for name, value in _plain(spec, "missing_parameter")]
    yield Listing(KEY_SPEC, "`missing_parameter`", FILE, found, missing + [("_", "0")], in_order=False)


def _plain(spec: str, name: str) -> List[Tuple[str, str]]:
    return [(last(it), value) for it, value in rows(spec, name)]


def _whole(value: str) -> str:
    """A whole number as the table has it: `negsuc n` is -1 - n."""
    sign, _, digits = value.partition(" ")
    return str(-1 - int(digits)) if sign == "negsuc" else digits or value


def _ranges(tree: Tree, table: KindTable) -> Iterator[Listing]:
    """`Range`, and the words for each."""
    own = [it.rust[0] for it in table.ranges.values()]
    found = re.findall(r"(?m)^    (\w+)(?:\([^)]*\))?,$", inside(tree.text(RANGE), "pub enum Range {"))
    yield Listing(RANGE, "`Range`", FILE, named(found), named([*own, *_WITH_NUMBERS]), in_order=False)
    found = [last(it.lstrip("(").replace("ranges.", "")) for it, _ in rows(tree.text(RANGE_SPEC), "lies_in")]
    yield Listing(RANGE_SPEC, "`lies_in`", FILE, named(found), named([*own, *_WITH_NUMBERS]), in_order=False)
    text = tree.text(EXPECTED)
    known: Dict[str, str] = dict(said(re.findall(r"const (\w+): &str = (.*);", text)))
    known.update({f"item_range(ItemType::{it})": value for it, value in said(arms_of(text, "item_range"))})
    words = [(last(it), known.get(value, "".join(texts(value)))) for it, value in arms_of(text, "fixed_words")]
    wanted = [(it.rust[0], it.words) for it in table.ranges.values()] + [(it, "") for it in _WITH_NUMBERS]
    yield Listing(EXPECTED, "`fixed_words`", FILE, words, wanted, in_order=False)
    optional = [it.default for it in table.parameters.values() if it.default is not None]
    defaults = {f", {_quoted(it)} where it is missing" for it in optional}
    found = [it for it in texts(body(text, "default_text")) if it]
    yield Listing(EXPECTED, "`default_text`", FILE, named(found), named(sorted(defaults)), in_order=False)


def _quoted(value: object) -> str:
    return f'"{value}"' if isinstance(value, str) else str(value)


def _pages(tree: Tree, table: KindTable) -> Iterator[Listing]:
    """What is said of each kind."""
    text = tree.text(ABOUT)
    settings = [(it.type, camel(it.setting)) for it in table.kinds if it.setting]
    found = [(last(it), last(value[5:-1])) for it, value in arms_of(text, "setting_of") if it != "_"]
    yield Listing(ABOUT, "`setting_of`", FILE, found, settings, in_order=False)
    parts = [(last(it), texts(value)) for it, value in arms_of(text, "text_of")]
    row = re.search(r"(?m)^\| `set NAME.*$", tree.text(FILES))
    names = [it.name for it in table.kinds]
    found = [it for it in re.findall(r"`(\w+)`", row[0] if row else "") if it in names]
    wanted = [it.name for it in table.kinds if it.setting]
    yield Listing(FILES, "the row of `set`", FILE, named(found), named(wanted), in_order=False)
    for at, (what, key) in enumerate((("the line", "line"), ("the rate", "rate"), ("the example", "example"))):
        found = [(kind, it[at] if at < len(it) else "") for kind, it in parts]
        yield Listing(ABOUT, what, FILE, found, [(it.type, getattr(it, key)) for it in table.kinds])


def _options(tree: Tree, table: KindTable) -> Iterator[Listing]:
    """Which keys the ends of a graph have beside their parameters."""
    keys = {"source": "Capacity", "sink": ""}
    wanted = [(it.type, keys[it.end]) for it in table.kinds if it.end] + [("_", "Tags Multiple Capacity")]
    arms = arms_of(tree.text(KEYS), "options_of")
    found = [(last(it), " ".join(re.findall(r"Key::(\w+)", value))) for it, value in arms]
    yield Listing(KEYS, "`options_of`", FILE, found, wanted)
    spec = rows(tree.text(KEYS_SPEC), "options_of")
    found = [(last(it), " ".join(re.findall(r"keys\.(\w+)", value))) for it, value in spec]
    yield Listing(KEYS_SPEC, "`options_of`", FILE, found, wanted)


def _stem(block: GnuRadioBlock) -> str:
    """The name of a block of Companion without its module and the types of its items."""
    return re.sub(r"_[bsifcvx]{1,3}$", "", block.id.partition("_")[2])


def _gnu_radio(tree: Tree, table: KindTable) -> Iterator[Listing]:
    """What GNU Radio calls kinds and parameters."""
    text = tree.text(GNU_RADIO)
    kinds = [
        (name, it.type) for it in table.kinds for name in (*it.called, *map(_stem, it.gnu_radio)) if name != it.name
    ]
    found = re.findall(r'\(b"(\w+)", KindName::(\w+)\)', text)
    yield Listing(GNU_RADIO, "`KINDS`", FILE, found, kinds, in_order=False)
    found = re.findall(r'\(\s*b"(\w+)",\s*Key::Parameter\(Parameter::(\w+)\),\s*"([^"]*)",?\s*\)', text)
    shown = [(f"{there} for {variant}", differs.removeprefix(", ")) for there, variant, differs in found]
    yield Listing(GNU_RADIO, "`KEYS`", FILE, shown, list(dict(_called(table)).items()), in_order=False)


def _starting(tree: Tree, table: KindTable) -> Iterator[Listing]:
    """What `flow new` has to know of kinds to put them into a chain."""
    for function, wanted in (
        ("is_link", [it.type for it in table.kinds if it.end]),
        ("gives_bytes", [it.type for it in table.kinds if it.gives == "byte"]),
        ("has_two_inputs", [it.type for it in table.kinds if it.inputs == 2]),
    ):
        found = re.findall(r"KindName::(\w+)", body(tree.text(STARTING), function))
        yield Listing(STARTING, f"`{function}`", FILE, named(found), named(wanted), in_order=False)


def _called(table: KindTable) -> Iterator[Tuple[str, str]]:
    """GNU Radio's names of parameters, each with how a value differs."""
    for it in table.parameters.values():
        names: Entries = [*((there, "") for there in it.called), *it.differs.items()]
        yield from ((f"{there} for {it.variant}", differs) for there, differs in names)
    for block in (it for kind in table.kinds for it in kind.gnu_radio):
        for name, (there, _) in block.parameters.items():
            if there != table.parameters[name].key:
                yield f"{there} for {table.parameters[name].variant}", ""
