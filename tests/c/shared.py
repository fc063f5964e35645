"""What the tests of graphs.py and of streams.py share: a chain, graphs drawn by chance, and what is to be refused or
raised."""

try:
    import tomllib  # noqa: F401 (graphs.py and streams.py take it from here)
except ImportError:
    tomllib = None

import magbelu

CHAIN = """
block = [{ name = "src", kind = "vector_source", type = "%s" }, { name = "add", kind = "add_const", type = "%s", value = 10 },
    { name = "out", kind = "vector_sink", type = "%s" }]
connect = [{ from = "src", to = "add" }, { from = "add", to = "out" }]
"""


def chain(item_type):
    return magbelu.Graph.from_text(CHAIN % (item_type, item_type, item_type))


def refuses(number, name, call, kind=magbelu.Refused):
    try:
        call()
    except kind as error:
        assert (error.number, error.name) == (number, name), error
        return error
    raise AssertionError("%d %s is not refused" % (number, name))


def raises(kind, call):
    try:
        call()
    except kind:
        return
    raise AssertionError("%s is not raised" % kind.__name__)


def generated(rng):
    """A random chain with a branch, its text with its feed in it, its text without, and the feed in pieces."""
    item_type = rng.choice(["byte", "short", "int"])
    low, high = {"byte": (0, 255), "short": (-32768, 32767), "int": (-(2**31), 2**31 - 1)}[item_type]
    blocks, connects, last = ['{ name = "src", kind = "vector_source", type = "%s" }' % item_type], [], "src"
    for at in range(rng.randint(1, 5)):
        kind, words = rng.choice([
            ("add_const", ", value = %d" % rng.randint(0, 100)),
            ("multiply_const", ", value = %d" % rng.randint(0, 9)),
            ("not", ""),
            ("delay", ", n = %d" % rng.randint(0, 5)),
            ("head", ", n = %d" % rng.randint(0, 60)),
            ("skiphead", ", n = %d" % rng.randint(0, 9)),
            ("keep_one_in_n", ", n = %d" % rng.randint(1, 4)),
            ("repeat", ", n = %d" % rng.randint(1, 3)),
            ("integrate", ", n = %d" % rng.randint(1, 3)),
        ])
        name = "b%d" % at
        blocks.append('{ name = "%s", kind = "%s", type = "%s"%s }' % (name, kind, item_type, words))
        connects.append('{ from = "%s", to = "%s" }' % (last, name))
        if rng.random() < 0.4:
            blocks.append('{ name = "side%d", kind = "vector_sink", type = "%s" }' % (at, item_type))
            connects.append('{ from = "%s", to = "side%d" }' % (name, at))
        last = name
    blocks.append('{ name = "out", kind = "vector_sink", type = "%s" }' % item_type)
    connects.append('{ from = "%s", to = "out" }' % last)
    text = "block = [%s]\nconnect = [%s]\n" % (",\n".join(blocks), ",\n".join(connects))
    pieces = [[rng.randint(low, high) for _ in range(rng.randint(0, 40))] for _ in range(rng.randint(1, 4))]
    fed = "%sfeed = [{ source = \"src\", items = %s }]\n" % (text, sum(pieces, []))
    return text, fed, pieces
