#!/usr/bin/env python3
"""gnu_radio_names.py WORD..: that the program, which these words start, answers GNU Radio's names of blocks and
parameters with those by which flow-from-grc writes them into a graph file."""

import pathlib
import subprocess
import sys
import tempfile

sys.path.insert(0, str(pathlib.Path(__file__).resolve().parents[2] / "python"))
from flow_from_grc.drawing import DrawnBlock  # noqa: E402
from flow_from_grc.kinds import TABLE  # noqa: E402

# Those that stand beside a filter of floats alone, and one that is another block by what is set.
BESIDE_OTHERS = ("blocks_short_to_float", "blocks_float_to_short", "blocks_tag_gate")
# Those for which kinds in a row stand, or a table: the program answers with one kind, and has no name of them.
IN_A_ROW = (
    "blocks_blockinterleaver_xx",
    "blocks_endian_swap",
    "blocks_matrix_interleaver",
    "blocks_patterned_interleaver",
    "blocks_probe_signal_x",
    "blocks_selector",
    "blocks_short_to_char",
    "blocks_stream_demux",
    "blocks_tag_share",
    "fec_depuncture_bb",
    "fec_puncture_xx",
    "trellis_encoder_xx",
    "trellis_metrics_x",
    "trellis_permutation",
    "trellis_viterbi_combined_xx",
    "trellis_viterbi_x",
    "vocoder_alaw_decode_bs",
    "vocoder_ulaw_decode_bs",
)
# What is not just any number.
VALUES = {"enabled": True, "append": False, "num_inputs": 1}
# Numbers that choose which kinds stand for the block: those for which one kind alone does.
CHOSEN = {"blocksize": 1, "bits_per_byte": 1, "count": 0}


class AnySettings:
    """Settings that give what is asked for, each number another one, so that it tells by which name it was asked
    for."""

    def __init__(self) -> None:
        self.block = DrawnBlock("a", "", 0, "enabled", {})
        self.asked = {}

    def __getattr__(self, _):
        return lambda *_: None

    def whole(self, key, least, most):
        if key in CHOSEN:
            return CHOSEN[key]
        # (of a mask, which a register reads whole, all bits; 1 is for what is true)
        first = most if key == "mask" else max((least + most) // 2, 2)
        number = next(it for it in range(first, most + 1) if it not in self.asked)
        self.asked[number] = key
        return number

    def wholes(self, key, least, most, _):
        return [self.whole(key, least, most)]

    def item_type(self, types):
        return types[-1]

    def value(self, key):
        return VALUES.get(key, 0)

    def truth(self, key):
        self.asked[1] = key
        return True

    def number(self, _):
        return 1

    def choice(self, key):
        return "fsf" if key == "type" else "False"

    def word(self, key, words):
        word = list(words.values())[-1]
        self.asked[word] = key
        return word

    def string(self, _):
        return ""

    def listed(self, *_):
        return []

    def tags(self, _):
        return ()

    def path(self, key):
        return key


def answer(start, lines):
    """What the program says of a graph file whose block has these lines."""
    with tempfile.NamedTemporaryFile("w", suffix=".toml") as file:
        file.write("\n".join(["[[block]]", 'name = "a"', *lines, ""]))
        file.flush()
        ran = subprocess.run(
            [*start, "check", "--explain", file.name], capture_output=True, text=True, timeout=60, check=False
        )
    return ran.stderr


def main(start):
    """Tries all blocks, and says which are answered otherwise."""
    wrong, count = [], 0
    for name, entry in TABLE.items():
        if name in BESIDE_OTHERS or name in IN_A_ROW:
            continue
        settings = AnySettings()
        node = entry.make(settings)
        there = "`%s` here" % node.parts[0].kind if node.parts else "a connection here"
        asks = [(['kind = "%s"' % name], "GNU Radio's block is " + there)]
        for part in node.parts[:1]:
            for key, value in part.settings.items():
                asked = settings.asked.get(value[0] if isinstance(value, list) else value)
                if asked is not None and asked not in part.settings:
                    asks.append(
                        (['kind = "%s"' % part.kind, "%s = 1" % asked], "GNU Radio's `%s` is `%s` here" % (asked, key))
                    )
        for lines, wanted in asks:
            count += 1
            said = answer(start, lines)
            if wanted not in said:
                wrong.append("%s: wanted %s, and it says %s" % (" ".join(lines), wanted, said))
    if count < 70:
        wrong.append("only %d names were tried" % count)
    for it in wrong:
        print(it)
    return 1 if wrong else 0


if __name__ == "__main__":
    sys.exit(main(sys.argv[1:]))
