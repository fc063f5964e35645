#!/usr/bin/env python3
"""links.py FOLDER [SUFFIX..]: tells each relative link of the pages below a folder, those with these suffixes or `.md`,
that leads to no file, or to no heading of it; and what pages of a site load from elsewhere."""

import re
import sys
from functools import lru_cache
from html.parser import HTMLParser
from pathlib import Path
from typing import Iterator, List, Set
from urllib.parse import unquote


class Page:
    """The links of a page, what is shown or loaded with it, and the names in it that links lead to."""

    def __init__(self) -> None:
        self.links: List[str] = []
        self.loaded: List[str] = []
        self.names: Set[str] = set()


class HtmlReader(HTMLParser):
    """Fills a page from HTML."""

    def __init__(self, page: Page) -> None:
        super().__init__()
        self.page = page

    def handle_starttag(self, tag: str, attrs: list) -> None:
        for name, value in attrs:
            if name == "id":
                self.page.names.add(value)
            elif name == "href" and tag == "a":
                self.page.links.append(unquote(value))
            elif name in ("href", "src", "data"):
                self.page.loaded.append(unquote(value))


def of_markdown(text: str) -> Page:
    """A page in Markdown: code has no links, and a heading is the name of itself, as links write it."""
    page = Page()
    text = re.sub(r"(?ms)^```.*?^```$", "", text)
    page.links = re.findall(r"\]\(([^)\s]+)\)", re.sub(r"`[^`\n]*`", "", text))
    page.names = {
        re.sub(r"[^\w\- ]", "", title.lower()).strip().replace(" ", "-") for title in re.findall(r"(?m)^#+ (.*)$", text)
    }
    return page


@lru_cache(maxsize=None)
def read(file: Path) -> Page:
    """A page, or a style of a site; any other file has neither links nor names."""
    page = Page()
    if file.suffix == ".md":
        page = of_markdown(file.read_text())
    elif file.suffix == ".html":
        HtmlReader(page).feed(file.read_text())
    elif file.suffix == ".css":
        page.loaded = re.findall(r"url\(\s*['\"]?(?!data:)([^'\")?#]+)", file.read_text())
    return page


def faults(file: Path, top: Path) -> Iterator[str]:
    """What is wrong with the links of a page."""
    page, here = read(file), file.relative_to(top)
    yield from (f"{here} loads {target}" for target in page.loaded if re.match(r"([a-z]+:)?//", target))
    for target in page.links + page.loaded:
        if re.match(r"[a-z]+:|//", target):
            continue
        name, _, heading = target.partition("#")
        led = file.parent / name if name else file
        if not led.exists():
            yield f"{here} links to {target}, which does not exist"
        elif heading and heading not in read(led.resolve()).names:
            yield f"{here} links to {target}, and that page has no such heading"


def main() -> int:
    """Prints the faults of all pages."""
    top = Path(sys.argv[1]).resolve()
    suffixes = sys.argv[2:] or [".md"]
    pages = [
        page
        for page in sorted(top.rglob("*"))
        if page.suffix in suffixes and not {"out", ".git"} & set(page.relative_to(top).parts)
    ]
    found = [fault for page in pages for fault in faults(page, top)]
    print("\n".join(found), end="\n" if found else "")
    return 1 if found or not pages else 0


sys.exit(main())
