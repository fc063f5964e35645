"""Graph files for `flow` from flowgraphs that were drawn in GNU Radio Companion 3.10.

    drawing  the .grc file, as names, texts and lines expressions, variables  what the texts of parameters and variables
    come to, without running Python settings  the parameters of one block, each tested against what its kind takes kinds
    the table: GNU Radio's blocks, and the kinds that stand for them; `single_kinds` has those for which one stands
    alone, and `kind_ranges` the ranges of
        parameters, which `scripts/generate` writes from kinds.toml
    wiring  connections, with what only passes items on left out
    graph  the graph file
    program  the command flow-from-grc
"""
