"""Makes a page with a heading for each refusal, which the search finds by its number and its name, from the table of
docs/user/REFUSALS.md."""

import re
from typing import Dict, List

from spec_files import TOP

PAGE = "docs/user/REFUSALS.md"
HEAD = """# Refusals by number

The rows of the table of [REFUSALS.md](REFUSALS.md), which also says what stands behind a name.
"""


def numbered(codes: str) -> List[str]:
    """The numbers that the first column of a row has, with their names; `54` to `58` are five."""
    span = re.fullmatch(r"`(\d+)` to `(\d+)`", codes)
    if span:
        return [str(number) for number in range(int(span.group(1)), int(span.group(2)) + 1)]
    return re.findall(r"`(\d+ \w+)", codes)


def refusals_page() -> str:
    """The page."""
    table = (TOP / PAGE).read_text()
    causes: Dict[str, str] = {}
    for codes, cause in re.findall(r"(?m)^\| (`\d.*?) \| (.*) \|$", table):
        for code in numbered(codes):
            causes[code] = f"{codes}: {cause}"
    if not causes:
        raise ValueError(f"{PAGE} has no table of refusals")
    return "\n".join([HEAD, *(f"## {code}\n\n{cause}.\n" for code, cause in causes.items())])
