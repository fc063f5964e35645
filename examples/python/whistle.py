#!/usr/bin/env python3
"""A whistle that a filter takes out of a recording, seen in a notebook: each `# %%` begins a cell. It is called at the
top of the checkout, or with the package for Python installed, and writes whistle.png."""

# %% The graph: a recording through the filter of examples/signal, and as it came.
import pathlib
import subprocess
import sys

from matplotlib import pyplot

import magbelu

TAPS = [*range(1, 17), *range(16, 0, -1)]
graph = magbelu.Graph(f"""
block = [
    {{ name = "adc", kind = "vector_source", type = "short" }},
    {{ name = "low", kind = "fir", type = "short", decimation = 10, shift = 8, taps = {TAPS} }},
    {{ name = "out", kind = "vector_sink", type = "short" }},
    {{ name = "raw", kind = "vector_sink", type = "short" }},
]
connect = [{{ from = "adc", to = "low" }}, {{ from = "low", to = "out" }}, {{ from = "adc", to = "raw" }}]
""")
graph

# %% The recording: a slow sine, a whistle of a quarter of the sample rate that is half as strong, and noise.
maker = pathlib.Path(__file__).resolve().parents[1] / "signal" / "make.py"
recording = subprocess.run(
    [sys.executable, maker, "recording", "/dev/stdout"], stdout=subprocess.PIPE, check=True
).stdout
print(graph.feed("adc", recording, tags=[(2400, "half", 1), (4800, "whole", 1)]), "samples")

# %% What comes through.
graph.settle()
items, tags = graph.read("out")
print(len(items), "items,", tags)

# %% The first periods of the sine, and the whistle, which stands at a quarter of a cycle per item before the filter and
# nowhere behind it.
figure, places = pyplot.subplots(2, 2, figsize=(11, 5), layout="constrained")
graph.plot("raw", 0, 9600, axes=places[0, 0])
graph.plot("raw", spectrum=True, axes=places[1, 0])
graph.plot("out", 0, 960, axes=places[0, 1])
graph.plot("out", spectrum=True, axes=places[1, 1])
figure.savefig("whistle.png", dpi=80)
