"""A page in the browser in which a graph runs: `python3 -m magbelu.studio GRAPH`, or the command magbelu-studio.
docs/user/STUDIO.md says what it shows.

`command` takes the words, `run` moves the stream in a thread of its own, `inputs` and `outputs` join it to files and
pipes, a `profile` measures its blocks, a `trace` keeps the last items of a sink, `views` picks what of them a page
shows, of many the least and the greatest by `thinning`, and `server` is all that a browser reaches. The page itself
stands in `page/`.

What a page says of kinds, and the values that a new block begins with, are `KIND_ROWS` of `magbelu._kinds`, which
scripts/generate writes from kinds.toml. The library has no call for them: `./test layout` compares kinds.toml with that
file and with the ranges that the library tests. What may be set of a block of a graph, and in which range, the library
tells.
"""
