#!/usr/bin/env python3
"""make.py BITS FILE [DB]: makes a recording of these bits, a byte each, behind a preamble, as rtl_sdr writes one, with
this Es/N0 in decibels, or 6: what a bit that is sent has of energy, over N0.

An unsigned byte for I, one for Q, and so on; 128 is 0. It needs numpy. The same words make the same file.
"""

import sys
from pathlib import Path
from typing import List, Sequence

try:
    import numpy
except ImportError:
    sys.exit("make.py: it needs numpy, as Debian's python3-numpy has it for /usr/bin/python3")

# Samples a second, samples a bit, and in Hz how far a 1 is above the carrier, a 0 below it, and the carrier above the
# middle of the band.
RATE, SAMPLES, DEVIATION, OFFSET = 256_000, 32, 4_000, 1_000
# Alternating bits before the first frame, in which the receiver finds out how far off its frequency is.
PREAMBLE = [1, 0] * 64
# Samples of noise alone before the signal, and behind it.
BEFORE, BEHIND = 990, 4_096
# The root mean square of what I and Q have together, in steps of their bytes, which the gain of a receiver sets.
LEVEL = 40
# Es/N0 of the recording that docs/user/TUTORIAL.md shows, and what its noise is made of: one of twelve frames stays
# wrong, and of others fewer.
RATIO, SEED = 6, 4


def recording(bits: Sequence[int], ratio: float, seed: int) -> numpy.ndarray:
    """The bytes of a recording of these bits behind the preamble, with this Es/N0 in decibels."""
    frequency = OFFSET + DEVIATION * (2 * numpy.repeat([*PREAMBLE, *bits], SAMPLES) - 1.0)
    signal = numpy.exp(2j * numpy.pi * numpy.cumsum(frequency) / RATE)
    signal = numpy.concatenate([numpy.zeros(BEFORE), signal, numpy.zeros(BEHIND)])
    # a bit has the energy of its samples, and the noise of a sample is N0
    power = SAMPLES / 10 ** (ratio / 10)
    # (this generator gives the same numbers in each version of numpy)
    noise = numpy.random.RandomState(seed).standard_normal((len(signal), 2)) * numpy.sqrt(power / 2)
    pairs = numpy.stack([signal.real, signal.imag], axis=1) + noise
    counts = numpy.rint(pairs * LEVEL / numpy.sqrt(1 + power)) + 128
    return numpy.clip(counts, 0, 255).astype(numpy.uint8).ravel()


def main(words: List[str]) -> None:
    """Makes the recording where the words say."""
    if len(words) not in (2, 3):
        sys.exit(__doc__)
    ratio = float(words[2]) if len(words) == 3 else RATIO
    Path(words[1]).write_bytes(recording(Path(words[0]).read_bytes(), ratio, SEED).tobytes())


if __name__ == "__main__":
    main(sys.argv[1:])
