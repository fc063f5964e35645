#!/usr/bin/env python3
"""manual.py FOLDER: makes the manual in this folder, a site of the repository's pages and of its public items, by
mkdocs. Neither that nor who reads it needs a network."""

import json
import shutil
import subprocess
import sys
import tempfile
from pathlib import Path
from typing import Any, Dict, Iterable, List

import manual_c
import manual_python
import manual_rattle
from manual_crates import crates_page, laws_page
from manual_options import options_page
from manual_pages import Stage
from manual_refusals import refusals_page
from spec_files import TOP

# The style of the pages, and their search.
OWN = Path(__file__).resolve().parent / "manual"
ASSETS = ["manual.css", "files.js"]
# The first page, pages that are made of others for the search, and the shelves of all.
FIRST, REFUSALS, OPTIONS = "README.md", "docs/user/refusals_by_number.md", "docs/user/options.md"
CRATES, LAWS = "docs/contribute/crates.md", "docs/proof/laws.md"
SHELVES: Dict[str, List[str]] = {
    "Use": [
        "docs/user/TUTORIAL.md", "docs/user/COMMANDS.md", OPTIONS, "docs/user/FILES.md", "docs/user/REFUSALS.md",
        REFUSALS, "docs/user/KINDS.md", "docs/user/C.md", "docs/user/EMBED.md", "docs/user/STUDIO.md",
        "docs/user/FOR_GNU_RADIO_USERS.md", "docs/user/COVERAGE.md", "docs/user/SPEED.md", "CHANGELOG.md",
    ],
    "Contribute": [
        "CONTRIBUTING.md", "docs/contribute/ARCHITECTURE.md", CRATES, "docs/contribute/GLOSSARY.md",
        "docs/contribute/NEW_KIND.md", "docs/contribute/NEW_REFUSAL.md", "docs/contribute/GATE.md", "tests/README.md",
        "docs/contribute/DECISIONS.md",
    ],
    "Proof": ["docs/proof/MODEL.md", LAWS, "docs/proof/PROVED.md", "docs/proof/TESTED.md", "docs/proof/BELIEVED.md"],
}
# What the navigation and the search call a page, where that is not its heading.
TITLES = {
    FIRST: "Overview",
    "docs/contribute/ARCHITECTURE.md": "Architecture",
    "docs/contribute/NEW_KIND.md": "Add a kind of blocks",
    "docs/contribute/NEW_REFUSAL.md": "Add a refusal",
}


def titled(pages: Iterable[str]) -> List[Any]:
    """The lines of the navigation for these pages."""
    return [{TITLES[page]: page} if page in TITLES else page for page in pages]


def put_pages(stage: Stage) -> List[Any]:
    """Puts all pages there, and gives the navigation, shelf by shelf."""
    examples = [str(page.relative_to(TOP)) for page in sorted(TOP.glob("examples/*/README.md"))]
    made = {OPTIONS: options_page, REFUSALS: refusals_page, CRATES: crates_page, LAWS: laws_page}
    for place, page_of in made.items():
        stage.write(Path(place), page_of())
    for page in [FIRST, *examples, *(page for pages in SHELVES.values() for page in pages)]:
        if page not in made:
            stage.want(Path(page))
    rattle, others = manual_rattle.write(stage), [*manual_c.write(stage), *manual_python.write(stage)]
    stage.put_wanted()
    shelves = {name: titled(pages) for name, pages in SHELVES.items()}
    shelves["Use"].append({"Examples": examples})
    shelves["Reference"] = [{"Rattle": rattle}, *others]
    return [*titled([FIRST]), *({name: pages} for name, pages in shelves.items())]


def settings(pages: Path, folder: Path, navigation: List[Any]) -> Dict[str, Any]:
    """What mkdocs is told. Pages link to files, so that no server is needed, and load nothing from elsewhere."""
    return {
        "site_name": "Magbelu",
        "docs_dir": str(pages),
        "site_dir": str(folder),
        "use_directory_urls": False,
        "strict": True,
        "nav": navigation,
        "theme": {"name": "mkdocs", "custom_dir": str(OWN / "theme"), "highlightjs": False},
        "plugins": ["search"],
        "markdown_extensions": ["tables", "fenced_code"],
        "extra_css": ["manual.css"],
        "extra_javascript": ["files.js"],
    }


def make(folder: Path) -> int:
    """Makes the site, without what only a server needs, and gives the status of mkdocs."""
    with tempfile.TemporaryDirectory() as room:
        stage = Stage(Path(room) / "pages")
        navigation = put_pages(stage)
        for file in ASSETS:
            shutil.copyfile(OWN / file, stage.folder / file)
        told = Path(room) / "mkdocs.yml"
        # (what is JSON is YAML)
        told.write_text(json.dumps(settings(stage.folder, folder.resolve(), navigation)))
        status = subprocess.run(["mkdocs", "--quiet", "build", "--config-file", str(told)], check=False).returncode
    if status == 0:
        for name in ("404.html", "sitemap.xml", "sitemap.xml.gz"):
            (folder / name).unlink()
        index = folder / "search" / "search_index.json"
        index.with_suffix(".js").write_text(f"var manual_index = {index.read_text()};\n")
    return status


def main(words: List[str]) -> int:
    """Makes the manual where the words say."""
    if len(words) != 1:
        print("manual.py: its words are: FOLDER", file=sys.stderr)
        return 2
    return make(Path(words[0]))


if __name__ == "__main__":
    sys.exit(main(sys.argv[1:]))
