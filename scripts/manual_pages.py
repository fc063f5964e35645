"""Puts pages of the repository, and what they link to, where mkdocs reads them: each at its own path, so that links
between pages stay as they are."""

import html
import os
import re
import shutil
from pathlib import Path
from typing import List, Set

from spec_files import TOP

# A block of code, or code in a paragraph.
CODE = r"^```.*?^```$|`(?:[^`\n]|\n(?!\n))*`"
# Code, in which nothing is a link, or the target of a link.
CODE_OR_LINK = re.compile(rf"(?ms)({CODE})|(?<=\]\()([^)\s]+)(?=\))")
# Code, in which nothing is a page, or a page that is named.
PAGE_NAMED = re.compile(rf"(?ms)({CODE})|\b(docs/[\w/]+\.md)\b")
# What a browser shows as it is.
PICTURES = {".svg", ".png"}
# What is made, and stands in no listing.
MADE = {"out", "__pycache__"}


def place_of(path: Path) -> Path:
    """Where a file or a folder of the repository stands in the manual, as a path from the top of either."""
    if (TOP / path / "README.md").is_file():
        return path / "README.md"
    if (TOP / path).is_dir():
        return path / "index.html"
    if path.suffix in {".md", *PICTURES}:
        return path
    return path.with_name(path.name + ".html")


def bare_page(path: Path, body: str, page: Path) -> str:
    """A page outside of the navigation and the search, of a file or a folder."""
    style = os.path.relpath("manual.css", page.parent)
    head = f'<meta charset="utf-8"><title>{html.escape(str(path))}</title><link rel="stylesheet" href="{style}">'
    heading = f"<h1>{html.escape(str(path))}</h1>"
    return (
        f'<!DOCTYPE html>\n<html lang="en"><head>{head}</head><body class="bare">{heading}\n{body}\n</body></html>\n'
    )


def text_of(path: Path) -> str:
    """The text of a file, whose lines have names as `L12`."""
    lines = (TOP / path).read_text(errors="replace").splitlines()
    shown = "\n".join(f'<span id="L{number}">{html.escape(line)}</span>' for number, line in enumerate(lines, 1))
    return f"<pre>{shown}\n</pre>"


def files_in(folder: Path) -> List[Path]:
    """The files of a folder and of those in it, but for its own page."""
    files = [path.relative_to(TOP / folder) for path in sorted((TOP / folder).rglob("*")) if path.is_file()]
    return [file for file in files if file != Path("README.md") and not MADE & set(file.parts)]


def with_pages(text: str) -> str:
    """A text of a header or a docstring on a page of reference/X, with the pages that it names as links."""
    return PAGE_NAMED.sub(lambda found: found.group(1) or f"[{found.group(2)}](../../{found.group(2)})", text)


class Stage:
    """The folder that mkdocs reads."""

    def __init__(self, folder: Path) -> None:
        self.folder = folder
        self.wanted: List[Path] = []
        self.seen: Set[Path] = set()

    def want(self, path: Path) -> None:
        """Has a file or a folder of the repository put there."""
        if path not in self.seen:
            self.seen.add(path)
            self.wanted.append(path)

    def put_wanted(self) -> None:
        """Puts there what is wanted, and all that its links lead to."""
        while self.wanted:
            self.put(self.wanted.pop())

    def put(self, path: Path) -> None:
        """Puts it there; what it links to is wanted then. An example's page lists its files."""
        source, place = TOP / path, place_of(path)
        if place.suffix == ".md":
            is_example = path.parts[0] == "examples"
            rows = [f"- [`{file}`]({file})" for file in files_in(place.parent)] if is_example else []
            self.write(
                place,
                self.linked(
                    place, "\n".join([(TOP / place).read_text(), *(["## Files", "", *rows, ""] if rows else [])])
                ),
            )
        elif source.is_dir():
            files = files_in(path)
            for file in files:
                self.want(path / file)
            rows = [
                f'<li><a href="{os.path.relpath(place_of(path / file), path)}">{html.escape(str(file))}</a></li>'
                for file in files
            ]
            self.write(place, bare_page(path, "<ul>\n" + "\n".join(rows) + "\n</ul>", place))
        elif path.suffix in PICTURES:
            (self.folder / place).parent.mkdir(parents=True, exist_ok=True)
            shutil.copyfile(source, self.folder / place)
        else:
            self.write(place, bare_page(path, text_of(path), place))

    def write(self, place: Path, text: str) -> None:
        """Writes a page."""
        file = self.folder / place
        file.parent.mkdir(parents=True, exist_ok=True)
        file.write_text(text)

    def linked(self, page: Path, text: str) -> str:
        """The text of a page with its links to files and folders led to where these stand, and with lists in lists as
        mkdocs reads them, four spaces further in."""

        def led(found: "re.Match[str]") -> str:
            target = found.group(2)
            if not target or target.startswith("#") or re.match(r"[a-z]+:", target):
                return found.group(0)
            name, _, heading = target.partition("#")
            path = Path(os.path.normpath(page.parent / name))
            if not (TOP / path).exists():
                return target
            self.want(path)
            return os.path.relpath(place_of(path), page.parent) + ("#" + heading if heading else "")

        return CODE_OR_LINK.sub(led, re.sub(r"(?m)^   - ", "    - ", text))
