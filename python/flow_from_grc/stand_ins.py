"""What could be drawn in place of blocks for which there is no kind."""

from __future__ import annotations

import fnmatch
from typing import Sequence, Tuple

_FLOATS = "there are no floats and no complex items: draw with byte, short and int"
_RADIO = "there is no hardware and no network: a File Source or a File Sink may be a pipe"
_MADE = "sources end: a Vector Source, or a File Source with items that were made before"
_MESSAGES = "there are no messages and no packets"
_SHOW = "a Vector Sink or a File Sink keeps the items for a program that shows them"
_TAGGED = "streams have no packets whose length a tag gives"
_PYTHON = "there is no Python in a graph"
_INNER = "there are no hierarchical blocks: draw what is in it"

# By the id of the block, or by how it begins where there is a star.
_STAND_INS: Sequence[Tuple[str, str]] = (
    ("blocks_null_source", _MADE),
    ("blocks_nop", "it gives items that nothing wrote; a Copy passes its input on"),
    ("blocks_tag_debug", "a Vector Sink shows its tags"),
    ("blocks_tags_strobe", "a Vector Source with Tag Objects"),
    ("blocks_stream_to_tagged_stream", _TAGGED),
    ("blocks_tagged_*", _TAGGED),
    ("blocks_message_*", _MESSAGES),
    ("blocks_float_to_*", _FLOATS + "; Float To Short may stand behind a filter"),
    ("blocks_probe_*", _SHOW),
    ("blocks_wavfile_*", "a File Source or a File Sink of shorts without a header"),
    ("blocks_*_to_float", _FLOATS + "; Short To Float may stand before a filter"),
    ("filter_*", _FLOATS),
    ("analog_rail_ff", _FLOATS + "; with the kind `clip`, which a graph file may have, whole numbers stay in a range"),
    (
        "digital_chunks_to_symbols_xx",
        _FLOATS + "; with the kind `table`, which a graph file may have, bytes become whole numbers",
    ),
    (
        "digital_correlate_access_code_*",
        "nothing puts tags: with the kind `correlate_access_code`, which a graph file may have, bit 1 marks what is "
        "behind it",
    ),
    ("*_pass_filter", _FLOATS + "; a Decimating FIR Filter of whole taps between Short To Float and Float To Short"),
    ("*_reject_filter", _FLOATS + "; a Decimating FIR Filter of whole taps between Short To Float and Float To Short"),
    ("rational_resampler_xxx", _FLOATS + "; an Interpolating FIR Filter and a Keep 1 in N"),
    ("analog_*_source_x", _MADE),
    ("digital_glfsr_source_x", _MADE),
    ("audio_*", _RADIO),
    ("uhd_*", _RADIO),
    ("soapy_*", _RADIO),
    ("iio_*", _RADIO),
    ("zeromq_*", _RADIO),
    ("network_*", _RADIO),
    ("osmosdr_*", _RADIO),
    ("rtlsdr_*", _RADIO),
    ("qtgui_*", _SHOW),
    ("pdu_*", _MESSAGES),
    ("pad_*", _INNER),
    ("epy_block", _PYTHON + ": a kind of your own"),
    ("snippet", _PYTHON + ": what it sets, a script of `flow script` may"),
    ("*complex*", _FLOATS),
    ("*_cc", _FLOATS),
    ("*_ff", _FLOATS),
)


def stand_in(kind: str) -> str:
    """What a user may draw in place of a block of this id, or why there is nothing."""
    for pattern, text in _STAND_INS:
        if fnmatch.fnmatchcase(kind, pattern):
            return text
    return "nothing here stands for it"
