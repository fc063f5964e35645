"""The blocks of GNU Radio for which a kind stands alone.

`scripts/generate` writes this file from kinds.toml: change that, and call it."""

from __future__ import annotations

from typing import Mapping

from . import notes
from .entries import ANY, BYTES, WIDE, Choice, Entry, Number, Numbers, Truth, block

SINGLE_KINDS: Mapping[str, Entry] = {
    "blocks_vector_sink_x": block("vector_sink", ANY, outputs=0, ignored=("reserve_items",)),
    "blocks_null_sink": block(
        "null_sink",
        ANY,
        outputs=0,
        ones=("vlen", "num_inputs"),
        ignored=("bus_structure_sink",),
    ),
    "blocks_add_const_vxx": block("add_const", ANY, Number("value", "const", "0")),
    "blocks_multiply_const_vxx": block("multiply_const", WIDE, Number("value", "const", "1")),
    "blocks_multiply_const_xx": block("multiply_const", WIDE, Number("value", "const", "0")),
    "blocks_and_const_xx": block("and_const", ANY, Number("value", "const", "0"), ones=(), first_type="int"),
    "blocks_abs_xx": block("abs", WIDE, first_type="int"),
    "blocks_not_xx": block("not", ANY, ones=(), first_type="int"),
    "blocks_mute_xx": block("mute", WIDE, Truth("on", "mute", "False"), ones=()),
    "blocks_add_xx": block("add", WIDE, inputs="num_inputs"),
    "blocks_multiply_xx": block("multiply", WIDE, inputs="num_inputs"),
    "blocks_divide_xx": block("divide", WIDE, inputs="num_inputs"),
    "blocks_min_xx": block(
        "minimum",
        WIDE,
        inputs="num_inputs",
        ones=("vlen", "vlen_out"),
        first_type="float",
        first_count="1",
    ),
    "blocks_max_xx": block(
        "maximum",
        WIDE,
        inputs="num_inputs",
        ones=("vlen", "vlen_out"),
        first_type="float",
        first_count="1",
    ),
    "blocks_and_xx": block("and", ANY, inputs="num_inputs", ones=(), first_type="int"),
    "blocks_or_xx": block("or", ANY, inputs="num_inputs", ones=(), first_type="int"),
    "blocks_xor_xx": block("xor", ANY, inputs="num_inputs", ones=(), first_type="int"),
    "digital_map_bb": block("map_bb", BYTES, Numbers("map", "map", ""), ones=()),
    "blocks_keep_one_in_n": block("keep_one_in_n", ANY, Number("n", "n", "1")),
    "blocks_integrate_xx": block("integrate", WIDE, Number("n", "decim", "")),
    "blocks_repeat": block("repeat", ANY, Number("n", "interp", "")),
    "blocks_streams_to_stream": block("interleave", ANY, Number("ports", "num_streams", "2"), inputs="num_streams"),
    "blocks_stream_to_streams": block("deinterleave", ANY, Number("ports", "num_streams", "2"), outputs="num_streams"),
    "blocks_head": block("head", ANY, Number("n", "num_items", "1024")),
    "blocks_skiphead": block("skiphead", ANY, Number("n", "num_items", "1024")),
    "blocks_delay": block("delay", ANY, Number("n", "delay", "0"), ones=("vlen", "num_ports")),
    "blocks_pack_k_bits_bb": block("pack_k_bits", BYTES, Number("k", "k", ""), ones=()),
    "blocks_unpack_k_bits_bb": block("unpack_k_bits", BYTES, Number("k", "k", ""), ones=()),
    "digital_diff_encoder_bb": block(
        "diff_encoder",
        BYTES,
        Number("modulus", "modulus", ""),
        ones=(),
        choices=(Choice("coding", "digital.DIFF_DIFFERENTIAL", "only DIFF_DIFFERENTIAL has a kind"),),
    ),
    "digital_diff_decoder_bb": block(
        "diff_decoder",
        BYTES,
        Number("modulus", "modulus", ""),
        ones=(),
        choices=(Choice("coding", "digital.DIFF_DIFFERENTIAL", "only DIFF_DIFFERENTIAL has a kind"),),
        note=notes.decoder,
    ),
}
