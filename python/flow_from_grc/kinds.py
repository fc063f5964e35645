"""The table: what stands for each block of GNU Radio, by its id in a drawing."""

from __future__ import annotations

from typing import Mapping

from . import bits, chains, companding, endings, filters, frames, notes, periods, scramblers, trellises
from .entries import ANY, Entry, block, wire
from .faults import Code
from .settings import Settings
from .single_kinds import SINGLE_KINDS

# What a drawing has besides blocks of items: what it is called, how it is shown, and Python that only variables read.
PASSED_OVER = frozenset(
    (
        "options", "import", "note", "epy_module", "qtgui_appbackground", "qtgui_grbackground", "qtgui_graphicoverlay",
        "qtgui_tab_widget",
    )
)


def _is_on(settings: Settings) -> None:
    if settings.value("enabled") is not True:
        raise settings.refused(
            "enabled", Code.BAD_PARAMETER,
            "it is off and drops its items: draw a Null Sink, and disable what is behind it",
        )


def _keeps_no_time(settings: Settings) -> None:
    settings.note("is left out: a graph here runs as fast as it can")


_PACE = {"samples_per_second": "samp_rate", "ignoretag": "True"}
_REGISTER = {"mask": "0x8A", "seed": "0x7F", "len": "7"}
_PACKING = {"type": "int", "bits_per_chunk": "2", "endianness": "gr.GR_MSB_FIRST", "num_ports": "1"}
_IN_TURN = {"type": "complex", "num_streams": "2", "blocksize": "1", "vlen": "1"}
_PUNCTURE = {"puncsize": "", "puncpat": "", "delay": "0"}
_CHOICE = {"type": "complex", "enabled": "True", "input_index": "0", "output_index": "0"}
_ORDER = {"type": "byte", "interleaver_indices": "[1, 2, 0]", "interleaver_mode": "interleave", "is_packed": "False"}
_FILTER = {"type": "ccc", "taps": "", "samp_delay": "0"}
_POINTS = {"dim": "", "table": "", "metric_type": "digital.TRELLIS_EUCLIDEAN"}
_PATH = {"fsm_args": "", "block_size": "", "init_state": "0", "final_state": "-1"}

TABLE: Mapping[str, Entry] = {
    **SINGLE_KINDS,
    # Sources and sinks.
    "blocks_vector_source_x": Entry(
        {"type": "complex", "vector": "(0, 0, 0)", "tags": "[]", "repeat": "True", "vlen": "1"}, endings.vector_source
    ),
    "blocks_file_source": Entry(
        {
            "type": "complex", "file": "", "repeat": "True", "vlen": "1", "begin_tag": "pmt.PMT_NIL", "offset": "0",
            "length": "0",
        },
        endings.file_source,
    ),
    "blocks_file_sink": Entry(
        {"type": "complex", "file": "", "vlen": "1", "unbuffered": "False", "append": "False"}, endings.file_sink
    ),
    "blocks_probe_signal_x": block("vector_sink", ANY, outputs=0, ones=(), note=notes.probe),
    # An item for each item.
    "blocks_sub_xx": Entry({"type": "complex", "vlen": "1", "num_inputs": "2"}, chains.sub),
    "blocks_char_to_short": Entry({"vlen": "1"}, chains.char_to_short),
    "blocks_short_to_char": Entry({"vlen": "1"}, chains.short_to_char),
    "blocks_endian_swap": Entry({"type": "complex"}, chains.endian_swap),
    "vocoder_ulaw_decode_bs": companding.decoder(companding.ulaw_sample),
    "vocoder_alaw_decode_bs": companding.decoder(companding.alaw_sample),
    "vocoder_ulaw_encode_sb": companding.encoder("ulaw_encode"),
    "vocoder_alaw_encode_sb": companding.encoder("alaw_encode"),
    "blocks_sample_and_hold_xx": Entry({"type": "float"}, chains.sample_and_hold),
    "blocks_moving_average_xx": Entry(
        {"type": "complex", "length": "1000", "scale": "1", "max_iter": "4000", "vlen": "1"}, chains.moving_average
    ),
    # Filters.
    "fir_filter_xxx": Entry({**_FILTER, "decim": "1"}, filters.fir),
    "interp_fir_filter_xxx": Entry({**_FILTER, "interp": "1"}, filters.interp_fir),
    "blocks_short_to_float": Entry({"vlen": "1", "scale": "1"}, filters.short_to_float),
    "blocks_float_to_short": Entry({"vlen": "1", "scale": "1"}, filters.float_to_short),
    # Changes of rate and place.
    "blocks_keep_m_in_n": Entry({"type": "complex", "m": "1", "n": "2", "offset": "0"}, periods.keep_m_in_n),
    "blocks_vector_insert_x": Entry(
        {"type": "byte", "vector": "0, 0, 0", "period": "100", "offset": "0"}, periods.vector_insert
    ),
    # Several ports.
    "blocks_interleave": Entry(_IN_TURN, chains.interleave),
    "blocks_deinterleave": Entry(_IN_TURN, periods.deinterleave),
    "blocks_stream_mux": Entry(
        {"type": "complex", "lengths": "(1, 1)", "num_inputs": "2", "vlen": "1"}, chains.stream_mux
    ),
    "blocks_stream_demux": Entry(
        {"type": "complex", "lengths": "(1, 1)", "num_outputs": "2", "vlen": "1"}, periods.stream_demux
    ),
    "blocks_patterned_interleaver": Entry(
        {"type": "complex", "pattern": "[0,0,1,2]", "vlen": "1"}, frames.patterned_interleaver
    ),
    "blocks_selector": Entry(
        {**_CHOICE, "num_inputs": "2", "num_outputs": "2", "vlen": "1", "showports": "True"}, chains.selector
    ),
    "blocks_tag_share": Entry({"io_type": "complex", "share_type": "complex", "vlen": "1"}, chains.tag_share),
    # Orders of the items of a frame.
    "blocks_blockinterleaver_xx": Entry(_ORDER, frames.block_interleaver),
    "blocks_matrix_interleaver": Entry(
        {"type": "complex", "vlen": "1", "rows": "1", "cols": "1", "deint": "False"}, frames.matrix_interleaver
    ),
    "trellis_permutation": Entry(
        {"type": "complex", "interleaver_size": "", "table": "", "syms_per_block": "", "vlen": "1"}, frames.permutation
    ),
    "fec_puncture_xx": Entry({"type": "byte", **_PUNCTURE}, frames.puncture),
    "fec_depuncture_bb": Entry({**_PUNCTURE, "sym": "127"}, frames.depuncture),
    # Bits.
    "blocks_repack_bits_bb": Entry(
        {"k": "1", "l": "8", "len_tag_key": '""', "align_output": "False", "endianness": "gr.GR_LSB_FIRST"},
        bits.repack_bits,
    ),
    "blocks_packed_to_unpacked_xx": Entry(_PACKING, bits.packed_to_unpacked),
    "blocks_unpacked_to_packed_xx": Entry(_PACKING, bits.unpacked_to_packed),
    "digital_scrambler_bb": Entry(_REGISTER, scramblers.scrambler),
    "digital_descrambler_bb": Entry(_REGISTER, scramblers.descrambler),
    "digital_additive_scrambler_bb": Entry(
        {**_REGISTER, "count": "0", "bits_per_byte": "1", "reset_tag_key": '""'}, scramblers.additive_scrambler
    ),
    # Machines, and paths through them.
    "trellis_encoder_xx": Entry(
        {"type": "bb", "fsm_args": "", "init_state": "0", "blockwise": "False", "blocklength": "0"}, trellises.encoder
    ),
    "trellis_metrics_x": Entry({"type": "c", "card": "", **_POINTS}, trellises.metrics),
    "trellis_viterbi_x": Entry({"type": "i", **_PATH}, trellises.viterbi),
    "trellis_viterbi_combined_xx": Entry(
        {"type": "c", "out_type": "i", **_PATH, **_POINTS}, trellises.viterbi_combined
    ),
    # What passes items on.
    "blocks_copy": wire({"enabled": "True", "showports": "False"}, _is_on),
    "blocks_tag_gate": Entry(
        {"type": "complex", "vlen": "1", "propagate_tags": "False", "single_key": '""'}, chains.tag_gate
    ),
    "blocks_throttle": wire(_PACE, _keeps_no_time),
    "blocks_throttle2": wire({**_PACE, "maximum": "0", "limit": "auto"}, _keeps_no_time),
}
