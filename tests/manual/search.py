#!/usr/bin/env python3
"""search.py SITE QUESTIONS: tells each question to which the search of the manual does not answer with the page wanted,
or a part of it, among the first three pages. It ranks by python3-lunr, which Debian's mkdocs needs, as search/worker.js
of the site does by lunr.js. A line of QUESTIONS has a page, and the question behind it."""

import json
import re
import sys
from pathlib import Path
from typing import Any, List

from lunr import lunr

# As many pages as a reader looks at before asking otherwise.
LOOKED_AT = 3


def words_of(text: str) -> str:
    """A text as the search takes it: its words alone, and behind the parts of a name, as of Plant::feed, the whole as
    one word."""
    named = re.sub(
        r"\w+(?:::|_)[\w:]+", lambda name: name.group() + " " + re.sub("[:_]", "", name.group()), text, flags=re.ASCII
    )
    return re.sub(r"[\W_]+", " ", named, flags=re.ASCII)


def index_of(folder: Path) -> Any:
    """The index of a site, as its worker makes it."""
    boosts = dict(re.findall(r"const (\w+)_BOOST = ([\d.]+);", (folder / "worker.js").read_text()))
    documents = []
    for it in json.loads((folder / "search_index.json").read_text())["docs"]:
        document = {"location": it["location"], "title": words_of(it["title"]), "text": words_of(it["text"])}
        boost = float(boosts["REFERENCE"]) if it["location"].startswith("reference/") else 1
        documents.append((document, {"boost": boost}))
    return lunr(
        ref="location", fields=({"field_name": "title", "boost": float(boosts["TITLE"])}, "text"), documents=documents
    )


def pages_for(index: Any, question: str) -> List[str]:
    """The pages that the search answers with, the best first, each once."""
    return list(dict.fromkeys(result["ref"].partition("#")[0] for result in index.search(words_of(question))))


def main(words: List[str]) -> int:
    """Prints the questions that are answered otherwise."""
    index = index_of(Path(words[0]) / "search")
    missed = 0
    for line in Path(words[1]).read_text().splitlines():
        wanted, question = line.split(maxsplit=1)
        found = pages_for(index, question)[:LOOKED_AT]
        if wanted not in found:
            missed += 1
            print(f"'{question}' wants {wanted}, and the first pages are: {', '.join(found)}")
    return 1 if missed else 0


if __name__ == "__main__":
    sys.exit(main(sys.argv[1:]))
