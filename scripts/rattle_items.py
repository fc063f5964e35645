"""The public items of the crate `magbelu`, module by module: which there are, which file declares each, and what
belongs to it."""

import re
from dataclasses import dataclass, field
from typing import Dict, Iterable, Iterator, List, Optional, Tuple

from source_files import Contract, SourceFile, Sources, docs_above, rust_uses

CRATE = "magbelu"
# The page of the crate itself, and the modules that only bring items of others.
ROOT, BRINGING = "lib", {"lib", "prelude"}


@dataclass(frozen=True)
class Item:
    """A public item: the file that declares it, and its line and its name there."""

    name: str
    file: SourceFile
    line: int

    @property
    def key(self) -> Tuple[str, str]:
        return self.file.path, self.name

    @property
    def docs(self) -> List[str]:
        return plain(docs_above(self.file.lines, self.line))


@dataclass
class Module:
    """A module of the crate: its doc comment, and the items that it has by their names."""

    name: str
    docs: List[str]
    items: Dict[str, Item] = field(default_factory=dict)

    @property
    def title(self) -> str:
        return CRATE if self.name == ROOT else f"{CRATE}::{self.name}"

    @property
    def page(self) -> str:
        return "index" if self.name == ROOT else self.name


def plain(docs: Iterable[str]) -> List[str]:
    """The lines of a doc comment without their signs."""
    return [re.sub(r"^\s*//[/!] ?", "", line) for line in docs]


class Items:
    """The modules of the crate, and where each item stands: on the page of the first module that has it, and that does
    more than bring others' items."""

    def __init__(self, sources: Sources) -> None:
        self.sources = sources
        self.modules = [
            self.read_module(name) for name in (ROOT, *re.findall(r"(?m)^pub mod (\w+);", self.source(ROOT).text))
        ]
        self.homes: Dict[Tuple[str, str], str] = {}
        for module in sorted(self.modules, key=lambda it: it.name in BRINGING):
            for item in module.items.values():
                self.homes.setdefault(item.key, module.page)
        for module in self.modules:
            for item in self.of_page(module):
                base = self.base_of(item)
                if base and base.key not in self.homes:
                    self.homes[base.key] = module.page
                    module.items[base.name] = base

    def source(self, name: str) -> SourceFile:
        """A file of the crate."""
        return self.sources.at(f"crates/{CRATE}/src/{name}.rt")

    def of_page(self, module: Module) -> List[Item]:
        """The items that stand on the page of a module."""
        return [item for item in module.items.values() if self.homes[item.key] == module.page]

    def read_module(self, name: str) -> Module:
        """A module with the items that it declares, and those that it brings."""
        file = self.source(name)
        module = Module(name, plain(line for line in file.lines if line.startswith("//!")))
        for own, line in file.types.items():
            module.items[own] = Item(own, file, line)
        for use in rust_uses(re.findall(r"(?m)^pub use [^;]*;", file.text)):
            crate = CRATE if use[1] in ("crate", use[-2]) and use[1] not in self.sources.files else use[1]
            item = self.find(crate, use[-1], use[-2])
            if not item:
                raise ValueError(f"{file.path} brings {use[-1]}, which no source has")
            module.items[use[0]] = item
        return module

    def find(self, crate: str, name: str, module: str = "") -> Optional[Item]:
        """The item of this name that a crate has or brings."""
        declaring = self.sources.find(crate, name, module)
        if declaring:
            return Item(name, declaring, declaring.types[name])
        for file in self.sources.files.get(crate, []):
            for at, line in enumerate(file.lines):
                if re.match(rf"pub (?:const |fn |const fn ){name}\b", line):
                    return Item(name, file, at)
        brought = [file.uses[name] for file in self.sources.files.get(crate, []) if name in file.uses]
        return next(
            (self.find(path[0], name) for path in brought if path[0] not in ("crate", "super", "self", crate)), None
        )

    def base_of(self, item: Item) -> Optional[Item]:
        """The generic type that a `type` gives parameters."""
        named = re.match(r"pub type \w+(?:<.*?>)? = (\w+)", item.file.lines[item.line])
        found = item.file.named_type(named.group(1), self.sources) if named else None
        return Item(found[1], found[0], found[0].types[found[1]]) if found else None

    def parts(self, item: Item) -> Iterator[Tuple[str, Contract]]:
        """The public functions of a type, or the members of a trait, by their names."""
        if item.file.is_trait(item.name):
            yield from item.file.members(item.name)
        for file in self.sources.files[item.file.crate]:
            yield from file.contracts(item.name)

    def traits(self, item: Item) -> List[str]:
        """The traits of a type, but for what only contracts see."""
        found = [trait for file in self.sources.files[item.file.crate] for trait in file.traits_of(item.name)]
        return sorted({re.sub(r"^(?:\w+::)*", "", trait) for trait in found} - {"Model"})
