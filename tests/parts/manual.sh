#!/usr/bin/env bash
# That the manual which `./build --docs` makes has each page of its shelves and each public name, that its links lead to
# a page and a heading of it, that it loads nothing from elsewhere, and that its search answers each question of
# tests/manual/questions.txt with the page that answers it. It needs Debian's package mkdocs.
set -euo pipefail
# shellcheck source=tests/part.sh
source "$(dirname -- "$(readlink -f -- "${BASH_SOURCE[0]}")")/../part.sh"
# (Debian's mkdocs is there for its own Python alone.)
python=$([[ -x /usr/bin/python3 ]] && echo /usr/bin/python3 || echo python3)
site=$room/site

list() { printf 'manual/%s\n' made links reference search; }

# made: mkdocs has nothing to say, and each page for readers is on a shelf
made() {
    local page
    "$python" "$top/scripts/manual.py" "$site"
    for page in "$top"/docs/*/*.md "$top"/{CONTRIBUTING,CHANGELOG}.md; do
        page=${page#"$top/"}
        grep -qF "href=\"${page%.md}.html\" class=\"dropdown-item\"" "$site/index.html" ||
            echo "the navigation lacks $page"
    done
}

links() { python3 "$top/tests/links.py" "$site" .html .css; }

reference() { python3 "$top/tests/manual/reference.py" "$top" "$site"; }

search() { "$python" "$top/tests/manual/search.py" "$site" "$top/tests/manual/questions.txt"; }

run() {
    local it
    if ! command -v mkdocs >/dev/null; then
        for it in $(<"$room/wanted"); do
            echo 'mkdocs is not in PATH' | left_out "$it"
        done
        return
    fi
    # (all cases look at the site)
    for it in made links reference search; do
        "$it" >"$room/said" 2>&1 || echo "$it ends with a status that is not 0" >>"$room/said"
        if ! is_wanted "manual/$it"; then
            continue
        elif [[ -s $room/said ]]; then
            failed "manual/$it" <"$room/said"
        else
            passed "manual/$it"
        fi
    done
}

"$1"
