"""The sender and the receiver of examples/receiver give what GNU Radio's blocks give: `modem.py FLOW..` runs both, with
the words that start flow. The bits that are sent, those that are received with their marks, and the lines whose
checksum is right have to be the same.

Floats hold whole numbers of 24 bits. Where an item of the chain may have more, blocks for integers compute it, and its
lowest bits go before it is divided.
"""

from __future__ import annotations

import pathlib
import subprocess
import sys
import tempfile
from typing import Any, Sequence

from gnuradio import blocks, digital, filter, gr, trellis

EXAMPLE = pathlib.Path(__file__).resolve().parents[2] / "examples" / "receiver"
sys.path.insert(0, str(EXAMPLE))

from make import recording  # noqa: E402
from theory import blocks_of  # noqa: E402

GRAPH = blocks_of(EXAMPLE / "receiver.toml")
CODE = "1010110011011101101001001110001011110010100011000010000011111100"
ORDER = [16 * place % 255 for place in range(255)]
BYTE, INT = gr.sizeof_char, gr.sizeof_int
# Es/N0 in decibels, at which some frames stay wrong.
RATIO = 5


def chain(top: gr.top_block, first: Any, *others: Any) -> Any:
    """Connects these in a row, and gives the last."""
    for it in others:
        top.connect(first, it)
        first = it
    return first


def into(top: gr.top_block, block: Any, *sources: Any) -> Any:
    """Connects these to the inputs of a block, and gives the block."""
    for port, it in enumerate(sources):
        top.connect(it, (block, port))
    return block


def code() -> trellis.fsm:
    """The encoder of 64 states with the polynomials 171 and 133."""
    return trellis.fsm(1, 2, [0o171, 0o133])


def sequence() -> Any:
    """The scrambler of the CCSDS, as GNU Radio counts the bits of its register."""
    return digital.additive_scrambler_bb(0xA9, 0xFF, 7)


def sent(text: Sequence[int]) -> list[int]:
    """The bits of frames of these lines."""
    top, sink = gr.top_block(), blocks.vector_sink_b()
    lines = chain(
        top, blocks.vector_source_b(text), blocks.keep_m_in_n(BYTE, 27, 28, 0),
        blocks.stream_to_tagged_stream(BYTE, 1, 27, "line"),
    )
    bits = chain(top, lines, digital.crc32_bb(False, "line"), blocks.unpack_k_bits_bb(8))
    ended = into(top, blocks.stream_mux(BYTE, [248, 7]), bits, blocks.null_source(BYTE))
    coded = chain(
        top, ended, trellis.encoder_bb(code(), 0), blocks.unpack_k_bits_bb(2),
        blocks.blockinterleaver_bb(ORDER, True, False), sequence(),
    )
    top.connect(
        into(top, blocks.stream_mux(BYTE, [64, 510]), blocks.vector_source_b(list(map(int, CODE)), True), coded), sink
    )
    top.run()
    return list(sink.data())


def divided(top: gr.top_block, of: Any, shift: int) -> Any:
    """Integers over 2^shift, to the nearest, ties up."""
    whole = chain(top, of, blocks.add_const_ii(1 << shift >> 1), blocks.and_const_ii(-1 << shift))
    return chain(top, whole, blocks.int_to_float(), blocks.multiply_const_ff(2.0**-shift), blocks.float_to_int())


def filtered(top: gr.top_block, of: Any) -> Any:
    """I or Q behind its filter, whose sums have fewer than 24 bits. With 1/128 more, a tie goes up, and nothing else
    goes elsewhere."""
    taps = [float(it) for it in GRAPH["low_i"]["taps"]]
    scaled = (blocks.multiply_const_ff(1 / 64), blocks.add_const_ff(1 / 128), blocks.float_to_int())
    return chain(top, of, blocks.uchar_to_float(), blocks.add_const_ff(-128), filter.fir_filter_fff(4, taps), *scaled)


def levels(top: gr.top_block, iq: Sequence[int]) -> Any:
    """One level for each bit."""
    split = chain(top, blocks.vector_source_b(iq), blocks.deinterleave(BYTE))
    i, q = filtered(top, (split, 0)), filtered(top, (split, 1))
    ahead = into(top, blocks.multiply_ii(), q, chain(top, i, blocks.delay(INT, 1)))
    behind = into(top, blocks.multiply_ii(), i, chain(top, q, blocks.delay(INT, 1)))
    small = divided(top, into(top, blocks.sub_ii(), ahead, behind), 8)
    carrier = divided(top, chain(top, small, blocks.moving_average_ii(1024, 1)), 7)
    level = into(top, blocks.sub_ii(), chain(top, small, blocks.moving_average_ii(8, 1)), carrier)
    return chain(top, level, blocks.keep_m_in_n(INT, 1, 8, 4))


def right_lines(top: gr.top_block, soft: Any) -> Any:
    """The text of the frames whose checksum is right."""
    frames = chain(top, soft, blocks.skiphead(INT, 224), blocks.keep_m_in_n(INT, 510, 574, 0), blocks.int_to_float())
    signs = chain(
        top, blocks.null_source(BYTE), sequence(), blocks.char_to_float(), blocks.multiply_const_ff(-2),
        blocks.add_const_ff(1),
    )
    clear = into(top, blocks.multiply_ff(), frames, signs)
    pair = chain(top, clear, blocks.blockinterleaver_ff(ORDER, True), blocks.deinterleave(gr.sizeof_float))
    metrics = blocks.interleave(gr.sizeof_float)
    for port, (first, second) in enumerate(((1, 1), (1, -1), (-1, 1), (-1, -1))):
        levels_of_step = [
            chain(top, (pair, at), blocks.multiply_const_ff(sign)) for at, sign in enumerate((first, second))
        ]
        top.connect(into(top, blocks.add_ff(), *levels_of_step), (metrics, port))
    packed = (
        blocks.keep_m_in_n(BYTE, 248, 255, 0), blocks.pack_k_bits_bb(8),
        blocks.stream_to_tagged_stream(BYTE, 1, 31, "line"),
    )
    return chain(top, metrics, trellis.viterbi_b(code(), 255, 0, 0), *packed, digital.crc32_bb(True, "line"))


def received(iq: Sequence[int]) -> tuple[list[int], list[int]]:
    """The bits of a recording with their marks, and the text of its right lines."""
    top, bits, lines = gr.top_block(), blocks.vector_sink_b(), blocks.vector_sink_b()
    soft = levels(top, iq)
    chain(
        top, soft, blocks.int_to_float(), digital.binary_slicer_fb(), digital.correlate_access_code_bb(CODE, 12), bits
    )
    chain(top, right_lines(top, soft), lines)
    top.run()
    return list(bits.data()), list(lines.data())


def run(start: Sequence[str], graph: str, source: str, items: bytes, sinks: Sequence[str]) -> list[bytes]:
    """What the sinks of a graph of the example hold."""
    with tempfile.TemporaryDirectory() as room:
        folder = pathlib.Path(room)
        (folder / source).write_bytes(items)
        outputs = [word for sink in sinks for word in ("-o", "%s=%s/%s" % (sink, room, sink))]
        subprocess.run(
            [
                *start, "run", "--quiet", "--one-thread", "-i", "%s=%s/%s" % (source, room, source), *outputs,
                str(EXAMPLE / graph),
            ],
            check=True,
            stdout=subprocess.DEVNULL,
        )
        return [(folder / sink).read_bytes() for sink in sinks]


def main(start: Sequence[str]) -> None:
    """Compares them over the lines of the example."""
    text = (EXAMPLE / "text.txt").read_bytes()
    (own_sent,) = run(start, "sender.toml", "text", text, ["bits"])
    # (behind the last frame comes one more access code)
    assert sent(list(text)) == [*own_sent, *map(int, CODE)], "other bits are sent"
    iq = recording(own_sent, RATIO, 1).tobytes()
    own_bits, own_lines = run(start, "receiver.toml", "iq", iq, ["bits", "lines"])
    bits, lines = received(list(iq))
    assert bits == list(own_bits), "other bits are received: %d of %d" % (
        sum(one != other for one, other in zip(bits, own_bits)),
        len(own_bits),
    )
    frames = [own_lines[at : at + 29] for at in range(0, len(own_lines), 29)]
    right = b"".join(it[1:28] for it in frames if it[:1] == b"+")
    assert 0 < len(right) < len(text) and bytes(lines) == right, (own_lines, bytes(lines))


if __name__ == "__main__":
    main(sys.argv[1:])
