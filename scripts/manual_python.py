"""Makes the reference of the package `magbelu` for Python: a page for each public module, with the docstring and the
signature of each name of its `__all__`. It reads the files and imports none."""

import ast
import inspect
import re
from pathlib import Path
from typing import Dict, Iterator, List, Optional, Tuple, Union

from manual_pages import Stage, with_pages
from spec_files import TOP

FOLDER = Path("reference/python")
PACKAGE = TOP / "python" / "magbelu"
# The public modules, and their files.
MODULES = {"magbelu": "__init__", "magbelu.gnuradio": "gnuradio"}

Function = Union[ast.FunctionDef, ast.AsyncFunctionDef]


class File:
    """A file of the package."""

    def __init__(self, name: str) -> None:
        text = (PACKAGE / f"{name}.py").read_text()
        self.lines = text.splitlines()
        self.tree = ast.parse(text)
        self.docs = ast.get_docstring(self.tree) or ""
        self.own: Dict[str, ast.stmt] = {}
        self.brought: Dict[str, str] = {}
        for node in self.tree.body:
            if isinstance(node, (ast.ClassDef, ast.FunctionDef)):
                self.own[node.name] = node
            elif isinstance(node, (ast.Assign, ast.AnnAssign)):
                target = node.targets[0] if isinstance(node, ast.Assign) else node.target
                self.own[ast.unparse(target)] = node
            elif isinstance(node, ast.ImportFrom) and node.level == 1 and node.module:
                self.brought.update({it.asname or it.name: node.module for it in node.names})

    def names(self) -> List[str]:
        """The public names, as `__all__` lists them."""
        listed = self.own["__all__"]
        assert isinstance(listed, ast.Assign)
        return list(ast.literal_eval(listed.value))

    def comment_at(self, node: ast.stmt) -> str:
        """The comment above a constant or a type."""
        at, said = node.lineno - 1, []
        while at and self.lines[at - 1].startswith("#:"):
            at -= 1
            said.insert(0, self.lines[at][2:].strip())
        return "\n".join(said)


def found(files: Dict[str, File], file: str, name: str) -> Optional[Tuple[str, ast.stmt]]:
    """The file that declares what a name means in a file, and the declaration; nothing for what is not of the
    package."""
    here = files.setdefault(file, File(file))
    if name in here.own:
        return file, here.own[name]
    return found(files, here.brought[name], name) if name in here.brought else None


def arguments(text: str) -> List[str]:
    """The arguments of a call, which commas part that stand in no bracket."""
    parts, depth = [""], 0
    for sign in text:
        depth += (sign in "([{") - (sign in ")]}")
        if sign == "," and depth == 0:
            parts.append("")
        else:
            parts[-1] += sign
    return [part.strip() for part in parts]


def signature(node: Function, name: str, is_method: bool) -> str:
    """How a function is called: on one line where it fits, else with an argument on each."""
    given = node.args
    if is_method:
        given = ast.parse(f"def f({ast.unparse(node.args)}): pass").body[0].args  # type: ignore[attr-defined]
        given.args = given.args[1:]
    gives = f" -> {ast.unparse(node.returns)}" if node.returns else ""
    line = f"{name}({ast.unparse(given)}){gives}"
    if len(line) <= 120:
        return line
    return "\n".join([f"{name}(", *(f"    {part}," for part in arguments(ast.unparse(given))), f"){gives}"])


def text_of(docs: Optional[str]) -> str:
    """A docstring as a page has it: its examples as code."""
    shown: List[str] = []
    for part in re.split(r"\n{2,}", inspect.cleandoc(docs or "")):
        shown.append(f"```python\n{part}\n```" if part.startswith(">>> ") else part)
    return with_pages("\n\n".join(shown)) + "\n"


def code(text: str) -> str:
    """A block of code."""
    return f"```python\n{text}\n```\n"


def is_property(node: Function) -> bool:
    """Whether a method is read as an attribute."""
    return any(isinstance(it, ast.Name) and it.id == "property" for it in node.decorator_list)


class Reference:
    """The pages."""

    def __init__(self) -> None:
        self.files: Dict[str, File] = {}

    def classes(self, file: str, node: ast.ClassDef) -> Iterator[ast.ClassDef]:
        """A class, and those of the package that it stands on."""
        yield node
        for base in node.bases:
            above = found(self.files, file, base.id) if isinstance(base, ast.Name) else None
            if above and isinstance(above[1], ast.ClassDef):
                yield from self.classes(above[0], above[1])

    def methods(self, file: str, node: ast.ClassDef) -> Dict[str, Function]:
        """The methods that an object has, each as the lowest class has it."""
        methods: Dict[str, Function] = {}
        for it in self.classes(file, node):
            for part in it.body:
                if isinstance(part, ast.FunctionDef):
                    methods.setdefault(part.name, part)
        return methods

    def of_class(self, file: str, node: ast.ClassDef) -> Iterator[str]:
        """What the page says of a class: how one is made, or its fields, and its public methods."""
        methods = self.methods(file, node)
        fields = [ast.unparse(part) for part in node.body if isinstance(part, ast.AnnAssign)]
        bases = ", ".join(ast.unparse(base) for base in node.bases)
        head = [f"class {node.name}({bases})" if bases else f"class {node.name}", *(f"    {field}" for field in fields)]
        yield code("\n".join(head))
        if "__init__" in methods and not fields:
            yield code(signature(methods["__init__"], node.name, True).replace(" -> None", ""))
        yield text_of(ast.get_docstring(node))
        for name, method in methods.items():
            if not name.startswith("_"):
                yield f"### {node.name}.{name}\n"
                yield code(
                    f"{name}: {ast.unparse(method.returns)}"
                    if is_property(method) and method.returns
                    else signature(method, name, True)
                )
                yield text_of(ast.get_docstring(method))

    def section(self, file: str, name: str) -> Iterator[str]:
        """What the page says of a name."""
        place = found(self.files, file, name)
        if not place:
            raise ValueError(f"python/magbelu/{file}.py has {name} in __all__, and declares or imports it nowhere")
        home, node = place
        yield f"## {name}\n"
        if isinstance(node, ast.ClassDef):
            yield from self.of_class(home, node)
        elif isinstance(node, ast.FunctionDef):
            yield code(signature(node, name, False))
            yield text_of(ast.get_docstring(node))
        else:
            yield code("\n".join(self.files[home].lines[node.lineno - 1 : node.end_lineno]))
            yield with_pages(self.files[home].comment_at(node)) + "\n"

    def page(self, module: str) -> str:
        """The page of a module."""
        file = self.files.setdefault(MODULES[module], File(MODULES[module]))
        sections = [part for name in file.names() for part in self.section(MODULES[module], name)]
        return "\n".join([f"# Python: {module}\n", text_of(file.docs), *sections])


def write(stage: Stage) -> List[str]:
    """Writes all pages, and gives their places."""
    reference = Reference()
    for module in MODULES:
        stage.write(FOLDER / f"{module}.md", reference.page(module))
    return [str(FOLDER / f"{module}.md") for module in MODULES]
