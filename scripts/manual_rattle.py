"""Makes the reference of the crate `magbelu`: a page for each of its modules, with each public item's doc comment,
signature and contract. Names in these lead to what they mean."""

import html
import os
import re
from pathlib import Path
from typing import Dict, Iterable, List

from manual_pages import Stage, place_of
from promised import Names
from rattle_items import Item, Items, Module, plain
from source_files import Contract, SourceFile, block_at
from spec_files import TOKEN, TOP, Entry

FOLDER = Path("reference/rattle")
# The name of a type, but for that of a ghost member.
TYPE = re.compile(r"(?<!ghost )\b[A-Z]\w*")

# A line that begins a clause, whose name is none of a definition.
CLAUSE = re.compile(r"(\s+)(requires|ensures)( \w+)?(.*)")


def anchor(title: str) -> str:
    """The name of a heading, as mkdocs makes it."""
    return re.sub(r"\W", "", title).lower()


def first_sentence(docs: List[str]) -> str:
    """What a list says of an item."""
    paragraph = docs[: docs.index("")] if "" in docs else docs
    return re.split(r"(?<=\.)\s", " ".join(paragraph), maxsplit=1)[0]


class Pages:
    """Makes the pages."""

    def __init__(self, stage: Stage) -> None:
        self.stage = stage
        self.names = Names()
        self.items = Items(self.names.sources)
        self.by_name: Dict[str, str] = {module.name: f"{module.page}.html" for module in self.items.modules}
        for (_, name), page in self.items.homes.items():
            self.by_name.setdefault(name, f"{page}.html#{anchor(name)}")

    def lead(self, path: str, name: str) -> str:
        """Where a definition stands: in the reference, or else in its file."""
        trait, _, member = name.partition(".")
        page = self.items.homes.get((path, trait))
        if page:
            return f"{page}.html#{anchor(trait + member)}"
        self.stage.want(Path(path))
        lines = self.names.spec(TOP / path).lines if path.endswith(".antt") else self.names.sources.at(path).lines
        declares = re.compile(
            rf"\s*(?:(?:pub|abbrev|unfoldable|record|data|struct|enum|trait|type)(?:\([a-z]+\))? "
            rf")*{re.escape(trait)}(?![\w-])"
        )
        line = next((at for at, text in enumerate(lines, 1) if declares.match(text)), 0)
        place = os.path.relpath(place_of(Path(path)), FOLDER)
        return f"{place}#L{line}" if line else place

    def of_types(self, file: SourceFile, lines: Iterable[str]) -> Dict[str, str]:
        """Where the types lead that lines of Rust name."""
        found = {word: file.named_type(word, self.names.sources) for word in TYPE.findall("\n".join(lines))}
        return {word: self.lead(it[0].path, it[1]) for word, it in found.items() if it}

    def of_clauses(self, contract: Contract, members: Dict[str, str]) -> Dict[str, str]:
        """Where the names of clauses lead, those of a trait's members as is said; those behind one that nothing in
        scope explains lead nowhere."""
        leads = dict(members)
        try:
            for token, found in self.names.in_clauses(contract, members):
                if isinstance(found, Entry):
                    leads[token] = self.lead(found.path, found.name)
        except ValueError:
            pass
        return leads

    @staticmethod
    def linked(lines: Iterable[str], words: "re.Pattern[str]", leads: Dict[str, str]) -> str:
        """Code whose words lead somewhere."""

        def led(text: str) -> str:
            return f'<a href="{leads[text]}">{html.escape(text)}</a>' if text in leads else html.escape(text)

        shown: List[str] = []
        for line in lines:
            clause = CLAUSE.fullmatch(line)
            head = f"{clause.group(1)}<b>{clause.group(2)}</b>{clause.group(3) or ''}" if clause else ""
            rest = clause.group(4) if clause else line
            shown.append(head + "".join(led(part) for part in re.split(f"({words.pattern})", rest)))
        return "\n".join(shown)

    def code(self, contract: Contract, members: Dict[str, str]) -> str:
        """The signature and the clauses, of a trait's function with where the members of the trait stand."""
        file = self.names.sources.at(contract.path)
        shown = [self.linked(contract.signature, TYPE, self.of_types(file, contract.signature))]
        if contract.clauses:
            shown.append(self.linked(contract.clauses, TOKEN, self.of_clauses(contract, members)))
        return "<pre><code>" + "\n".join(shown) + "</code></pre>\n"

    def text(self, docs: Iterable[str]) -> str:
        """A doc comment, in which names of items lead to them."""

        def led(found: "re.Match[str]") -> str:
            name = (found.group(2) or found.group(1)).split("::")[-1]
            target = self.by_name.get(name, "").replace(".html", ".md")
            return f"[`{found.group(1)}`]({target})" if target else f"`{found.group(1)}`"

        return re.sub(r"\[`([^`\]]+)`\](?:\(([\w:]+)\))?", led, "\n".join(docs)) + "\n"

    def declared(self, item: Item) -> str:
        """A type as it is declared; of a trait the head, since its members stand below, and of a constant or a name its
        line."""
        file, line = item.file, item.file.lines[item.line]
        if item.name not in file.types or line.startswith("pub type"):
            lines = block_at(file.lines, item.line)
        elif file.is_trait(item.name):
            lines = [line.rstrip(" {")]
        else:
            lines = list(file.declaration(item.name).text)
            lines = lines if item.name in file.models else file.without_private(lines)
        code = self.linked(
            lines, TYPE, {name: to for name, to in self.of_types(file, lines).items() if name != item.name}
        )
        return f"<pre><code>{code}</code></pre>\n"

    def section(self, item: Item) -> List[str]:
        """What the page says of an item."""
        line = item.file.lines[item.line]
        source = os.path.relpath(place_of(Path(item.file.path)), FOLDER)
        self.stage.want(Path(item.file.path))
        shown = [f"## {item.name}\n", self.text(item.docs)]
        if re.match(r"pub (const )?fn ", line):
            shown.append(self.code(item.file.contract_at(item.line, "", item.file.scope), {}))
        else:
            shown.append(self.declared(item))
        base = self.items.base_of(item)
        if base:
            shown.append(f"Its functions are those of {self.text([f'[`{base.name}`]'])}")
        traits = self.items.traits(item) if item.name in item.file.types else []
        said = f"Traits: {', '.join(f'`{trait}`' for trait in traits)}. " if traits else ""
        shown.append(f"{said}Source: [`{item.file.path}`]({source}#L{item.line + 1}).\n")
        if item.name in item.file.types:
            parts = list(self.items.parts(item))
            members = (
                {name: f"#{anchor(item.name + name)}" for name, _ in parts} if item.file.is_trait(item.name) else {}
            )
            for name, contract in parts:
                shown += [f"### {item.name}::{name}\n", self.text(plain(contract.docs)), self.code(contract, members)]
        return shown

    def page(self, module: Module) -> str:
        """The page of a module: its doc comment, a list of its items, and a section for each that has no other page."""
        rows = [
            f"- {self.text([f'[`{name}`]']).strip()}: {self.text([first_sentence(item.docs)]).strip()}"
            for name, item in module.items.items()
        ]
        sections = [part for item in self.items.of_page(module) for part in self.section(item)]
        return "\n".join([f"# {module.title}\n", self.text(module.docs), *rows, "", *sections])


def write(stage: Stage) -> List[str]:
    """Writes all pages, and gives their places."""
    pages = Pages(stage)
    for module in pages.items.modules:
        stage.write(FOLDER / f"{module.page}.md", pages.page(module))
    return [str(FOLDER / f"{module.page}.md") for module in pages.items.modules]
