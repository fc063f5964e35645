"""What stands for blocks of television gives what these give: `television.py NAME FLOW..` tries the function of this
name, as own.py does. The registers, codes and orders are those of EN 300 744 (DVB-T), EN 302 307 (DVB-S2) and ITU-T
J.83 B."""

from __future__ import annotations

import random
from typing import Any, Iterator, Sequence

from gnuradio import dtv

from own import TRIED, Given, Kind, Port, Stream, Trial, each, in_gnu_radio, try_named, written

# The bytes of a packet, and of the packets of which the first begins with an inverted byte.
PACKET, ROUND = 188, 8 * 188
# The most states of a machine.
MOST_STATES = 4096
BITS = {"MOD_QPSK": 2, "MOD_16QAM": 4, "MOD_64QAM": 6}


def any_items(chance: random.Random, count: int, most: int = 255) -> list[int]:
    """Items from 0 to a number."""
    return [chance.randint(0, most) for _ in range(count)]


def packets(chance: random.Random, count: int) -> list[int]:
    """So many packets, each behind the byte that begins all."""
    return [it for _ in range(count) for it in (0x47, *any_items(chance, PACKET - 1))]


def begins(
    own: Any,
    kinds: dict[str, Kind],
    connects: Sequence[str],
    fed: Stream,
    vector: int = 1,
    given: int = 1,
    taken: int = 1,
) -> None:
    """Has blocks give what the block of GNU Radio gives, so many items for so many. The rest that it leaves is not
    fed."""
    items = in_gnu_radio(own, [fed], [Port("byte", vector)])[0].items
    rounds = len(items) // given
    assert rounds > 0, "GNU Radio gives nothing"
    short = Stream("byte", fed.items[: rounds * taken])
    TRIED.append(
        Trial(written(kinds, connects, [short], [Port("byte")]), [short], [Given(items[: rounds * given], [])], False)
    )


def machine(again: Sequence[int]) -> Kind:
    """Bytes again and again, one for each that comes."""
    return Kind("state_machine", {"symbols": 1, "next": [*range(1, len(again)), 0], "output": again, "init": 0})


def scrambled(again: Sequence[int]) -> tuple[dict[str, Kind], list[str]]:
    """The exclusive or with bytes again and again, by as many machines as hold them."""
    ports = next(it for it in range(1, 17) if len(again) % it == 0 and len(again) // it <= MOST_STATES)
    kinds = {name: Kind(name, {"type": "byte", "ports": ports}) for name in ("deinterleave", "interleave")}
    connects = ["in0 deinterleave", "interleave out0"]
    for at in range(ports):
        kinds["m%d" % at], kinds["x%d" % at] = machine(again[at::ports]), Kind("xor", {"type": "byte"})
        connects += [
            it.format(at)
            for it in ("deinterleave.{0} m{0}", "deinterleave.{0} x{0}.0", "m{0} x{0}.1", "x{0} interleave.{0}")
        ]
    return kinds, connects


def register(bits: Sequence[int], places: Sequence[int]) -> Iterator[int]:
    """The bits of a register of these, the newest first, where each is the sum of those at some places."""
    held = list(bits)
    while True:
        held = [sum(held[it] for it in places) % 2, *held[:-1]]
        yield held[0]


def packed(bits: Iterator[int], count: int) -> int:
    """So many bits as a number, the first the highest."""
    return sum(next(bits) << at for at in reversed(range(count)))


def energy() -> None:
    """dvbt_energy_dispersal is xor with a machine of the 1,504 bytes of eight packets, and dvbt_energy_descramble the
    same."""
    bits = register([1, 0, 0, 1, 0, 1, 0, 1, 0, 0, 0, 0, 0, 0, 0], [13, 14])
    spread = [255, *(packed(bits, 8) for _ in range(ROUND - 1))]
    spread = [it if at % PACKET or not at else 0 for at, it in enumerate(spread)]

    def trial(chance: random.Random) -> None:
        plain = packets(chance, 8 * 60)
        begins(dtv.dvbt_energy_dispersal(1), *scrambled(spread), Stream("byte", plain), ROUND)
        sent = [it ^ spread[at % ROUND] for at, it in enumerate(plain)]
        begins(dtv.dvbt_energy_descramble(8), *scrambled(spread), Stream("byte", sent, [], ROUND))

    each(trial, 1)


def branches() -> None:
    """dvbt_convolutional_interleaver is a delay for each branch between deinterleave and interleave, and
    dvbt_convolutional_deinterleaver, of 12 branches that are 17 apart, the same with the delays in reverse order. What
    is still in the delays GNU Radio's blocks do not give."""

    def trial(chance: random.Random) -> None:
        count, step, frame = 12, 17, 12 * 136
        fed = any_items(chance, frame * chance.randint(2, 12))
        for own, taken, vector, turn in (
            (dtv.dvbt_convolutional_interleaver(136, count, step), frame, 1, 1),
            (dtv.dvbt_convolutional_deinterleaver(136, count, step), 1, frame, -1),
        ):
            kinds = {
                "it%d" % at: Kind("delay", {"type": "byte", "n": step * it})
                for at, it in enumerate(range(count)[::turn])
            }
            kinds.update(
                {name: Kind(name, {"type": "byte", "ports": count}) for name in ("deinterleave", "interleave")}
            )
            connects = ["in0 deinterleave", "interleave head", "head out0"]
            connects += [
                it.format(at) for at in range(count) for it in ("deinterleave.{0} it{0}", "it{0} interleave.{0}")
            ]
            wanted = in_gnu_radio(own, [Stream("byte", fed, [], taken)], [Port("byte", vector)])
            kinds["head"] = Kind("head", {"type": "byte", "n": len(wanted[0].items)})
            stream = Stream("byte", fed)
            TRIED.append(Trial(written(kinds, connects, [stream], [Port("byte")]), [stream], wanted, False))

    each(trial)


# Of each rate which of the bits X and Y of the code are sent.
RATES = {
    "C1_2": ["XY"], "C2_3": ["XY", "Y"], "C3_4": ["XY", "Y", "X"], "C5_6": ["XY", "Y", "X", "Y", "X"],
    "C7_8": ["XY", "Y", "Y", "Y", "X", "Y", "X"],
}


def inner_coder() -> None:
    """dvbt_inner_coder is unpack_k_bits, two descramblers, interleave, permute and keep_m_in_n for the bits that are
    sent, and pack_k_bits."""

    def trial(chance: random.Random) -> None:
        rate, name = chance.choice(list(RATES)), chance.choice(list(BITS))
        places = [2 * at + "XY".index(it) for at, both in enumerate(RATES[rate]) for it in both]
        order = places + [it for it in range(2 * len(RATES[rate])) if it not in places]
        kinds = {
            "bits": Kind("unpack_k_bits", {"k": 8}),
            "x": Kind("descrambler", {"bits": 6, "mask": 39, "init": 0}),
            "y": Kind("descrambler", {"bits": 6, "mask": 54, "init": 0}),
            "code": Kind("interleave", {"type": "byte", "ports": 2}),
            "order": Kind("permute", {"type": "byte", "order": order}),
            "sent": Kind("keep_m_in_n", {"type": "byte", "m": len(places), "n": len(order)}),
            "symbols": Kind("pack_k_bits", {"k": BITS[name]}),
        }
        connects = [
            "in0 bits", "bits x", "bits y", "x code.0", "y code.1", "code order", "order sent", "sent symbols",
            "symbols out0",
        ]
        own = dtv.dvbt_inner_coder(1, 1512, getattr(dtv, name), dtv.NH, getattr(dtv, rate))
        # (of 8 times as many bytes as bits go in, so many symbols are whole)
        taken, given = BITS[name] * len(RATES[rate]), 8 * len(places)
        begins(own, kinds, connects, Stream("byte", any_items(chance, 3024)), 1512, given, taken)

    each(trial, 8)


# How far the bits of each branch are moved, and of which branch each bit of a symbol is, the highest first.
MOVED = [0, 63, 105, 42, 21, 84]
BRANCHES = {2: [0, 1], 4: [0, 2, 1, 3], 6: [0, 2, 4, 1, 3, 5]}


def inner_interleaver() -> None:
    """dvbt_bit_inner_interleaver is a permute of 126 for each bit of a symbol, between unpack_k_bits and deinterleave
    and interleave and pack_k_bits; so is dvbt_bit_inner_deinterleaver."""

    def trial(chance: random.Random) -> None:
        name, mode = chance.choice(list(BITS)), chance.choice([dtv.T2k, dtv.T8k])
        bits, size = BITS[name], 1512 if mode == dtv.T2k else 6048
        for make, turn in ((dtv.dvbt_bit_inner_interleaver, 1), (dtv.dvbt_bit_inner_deinterleaver, -1)):
            kinds = {"unpack": Kind("unpack_k_bits", {"k": bits}), "pack": Kind("pack_k_bits", {"k": bits})}
            kinds.update({it: Kind(it, {"type": "byte", "ports": bits}) for it in ("deinterleave", "interleave")})
            connects = ["in0 unpack", "unpack deinterleave", "interleave pack", "pack out0"]
            for at, branch in enumerate(BRANCHES[bits]):
                kinds["it%d" % branch] = Kind(
                    "permute", {"type": "byte", "order": [(it + turn * MOVED[branch]) % 126 for it in range(126)]}
                )
                ports = (at, branch) if turn == 1 else (branch, at)
                connects += ["deinterleave.%d it%d" % (ports[0], branch), "it%d interleave.%d" % (branch, ports[1])]
            own = make(size, getattr(dtv, name), dtv.NH, mode)
            begins(own, kinds, connects, Stream("byte", any_items(chance, 2 * size, 2**bits - 1), [], size), size)

    each(trial)


def frames() -> None:
    """dvb_bbscrambler_bb and catv_randomizer_bb are xor with machines of a frame's bits or symbols, of which
    deinterleave and interleave make shorter ones."""
    bits = register([0, 0, 0, 0, 0, 0, 0, 1, 0, 1, 0, 1, 0, 0, 1][::-1], [13, 14])
    spread = [next(bits) for _ in range(58192)]
    symbols = [127, 127, 0]
    while len(symbols) < 88 * 128:
        # (8 times in the field of 128 elements, where x^7 is x^3 + 1)
        product = symbols[-3] << 3
        for at in (9, 8, 7):
            product ^= 137 << at - 7 if product >> at else 0
        symbols.append(symbols[-2] ^ product)

    def trial(chance: random.Random) -> None:
        for standard, size, rate, count in (
            ("DVBS2", "SHORT", "C1_4", 3072), ("DVBT2", "NORMAL", "C1_2", 32208), ("DVBS2", "NORMAL", "C9_10", 58192),
        ):
            own = dtv.dvb_bbscrambler_bb(
                getattr(dtv, "STANDARD_" + standard), getattr(dtv, "FECFRAME_" + size), getattr(dtv, rate)
            )
            begins(own, *scrambled(spread[:count]), Stream("byte", any_items(chance, 2 * count, 1)))
        for constellation, count in (("64QAM", 60 * 128), ("256QAM", 88 * 128)):
            own = dtv.catv_randomizer_bb(getattr(dtv, "CATV_MOD_" + constellation))
            begins(own, *scrambled(symbols[:count]), Stream("byte", any_items(chance, 2 * count, 127)))

    each(trial, 1)


def divided(byte: int) -> int:
    """The sum of 0x68 / 2^k for each bit k of a byte, the highest first, modulo 2."""
    number = 0
    for at in range(8):
        number ^= 0x68 >> at if byte >> 7 - at & 1 else 0
    return number


def packet_frames() -> None:
    """catv_transport_framing_enc_bb is keep_m_in_n and crc_append, whose checksum a table of the first byte turns;
    atsc_pad is insert, and atsc_depad a connection."""
    keys = {"order": "msb_first", "bits": 8, "polynomial": 0x8D, "init": 0, "final_xor": 0x67, "n": PACKET - 1}
    framed = {
        "rest": Kind("keep_m_in_n", {"type": "byte", "m": PACKET - 1, "n": PACKET, "offset": 1}),
        "summed": Kind("crc_append", keys),
        "sum": Kind("keep_m_in_n", {"type": "byte", "m": 1, "n": PACKET, "offset": PACKET - 1}),
        "first": Kind("keep_m_in_n", {"type": "byte", "m": 1, "n": PACKET, "offset": 1}),
        "turned": Kind("table", {"to": "byte", "values": [divided(it) for it in range(256)]}),
        "other": Kind("xor", {"type": "byte"}),
        "frame": Kind("stream_mux", {"type": "byte", "lengths": [PACKET - 1, 1]}),
    }
    connects = [
        "in0 rest", "rest summed", "summed sum", "in0 first", "first turned", "turned other.0", "sum other.1",
        "rest frame.0", "other frame.1", "frame out0",
    ]
    padded = {"it": Kind("insert", {"type": "byte", "values": [0] * 68, "period": 256, "offset": PACKET})}

    def trial(chance: random.Random) -> None:
        fed = packets(chance, chance.randint(20, 40))
        begins(dtv.catv_transport_framing_enc_bb(), framed, connects, Stream("byte", fed), 1, PACKET, PACKET)
        begins(dtv.atsc_pad(), padded, ["in0 it", "it out0"], Stream("byte", fed), 256, 256, PACKET)
        begins(dtv.atsc_depad(), {}, ["in0 out0"], Stream("byte", fed, [], PACKET))

    each(trial)


if __name__ == "__main__":
    try_named(globals())
