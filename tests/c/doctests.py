"""The examples in the docstrings of python/magbelu and on the pages of docs/, over the library. tests/parts/c.sh calls
it, with the top of the checkout."""

import doctest
import importlib
import os
import pathlib
import pkgutil
import re
import sys

import magbelu

try:
    import matplotlib  # noqa: F401 (the examples of plots need it)
except ImportError:
    matplotlib = None


def docstrings():
    for name in ["magbelu"] + ["magbelu." + it.name for it in pkgutil.iter_modules(magbelu.__path__)]:
        for test in doctest.DocTestFinder().find(importlib.import_module(name), extraglobs={"magbelu": magbelu}):
            if matplotlib is not None or not test.name.endswith(".plot"):
                yield test


def pages():
    for page in sorted(pathlib.Path("docs").glob("*/*.md")):
        for block in re.findall(r"^```python\n(.*?)^```$", page.read_text(), re.DOTALL | re.MULTILINE):
            yield doctest.DocTestParser().get_doctest(block, {}, page.name, str(page), 0)


os.chdir(sys.argv[1])
failed = 0
for tests, least in [(list(docstrings()), 10), (list(pages()), 2)]:
    assert len([it for it in tests if it.examples]) >= least, "examples are not found"
    failed += sum(doctest.DocTestRunner().run(it).failed for it in tests)
sys.exit(failed > 0)
