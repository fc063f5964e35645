//! Graph files as text from which they are drawn, worked out by hand.
use drawings::{Format, drawn};
use graph_file::read_graph;
use rates::balance;
use std::alloc::Global;
use std::test::Fail;

// A source for three blocks, two ways that join, and each side with one port or two.
const ECHO: &str = "block = [
    { name = \"src\", kind = \"vector_source\", type = \"byte\" },
    { name = \"late\", kind = \"delay\", type = \"byte\", n = 2 },
    { name = \"sum\", kind = \"add\", type = \"byte\" },
    { name = \"out\", kind = \"vector_sink\", type = \"byte\" },
    { name = \"dry\", kind = \"vector_sink\", type = \"byte\" },
]
connect = [
    { from = \"src\", to = \"sum\" },
    { from = \"src\", to = \"late\" },
    { from = \"late\", to = \"sum\", to_port = 1 },
    { from = \"sum\", to = \"out\" },
    { from = \"src\", to = \"dry\" },
]
";

const ECHO_DOT: &str = "digraph {
  rankdir=LR;
  node [shape=record];
  \"src\" [label=\"{src\\nvector_source\\nq 1|{<o0> 0}}\"];
  \"late\" [label=\"{{<i0> 0}|late\\ndelay\\nn 2\\nq 1|{<o0> 0}}\"];
  \"sum\" [label=\"{{<i0> 0|<i1> 1}|sum\\nadd\\nq 1|{<o0> 0}}\"];
  \"out\" [label=\"{{<i0> 0}|out\\nvector_sink\\nq 1}\"];
  \"dry\" [label=\"{{<i0> 0}|dry\\nvector_sink\\nq 1}\"];
  \"src\":o0:e -> \"sum\":i0:w [label=\"byte 4096\", color=\"#9C27B0\"];
  \"src\":o0:e -> \"late\":i0:w [label=\"byte 4096\", color=\"#9C27B0\"];
  \"late\":o0:e -> \"sum\":i1:w [label=\"byte 4096\", color=\"#9C27B0\"];
  \"sum\":o0:e -> \"out\":i0:w [label=\"byte 4096\", color=\"#9C27B0\"];
  \"src\":o0:e -> \"dry\":i0:w [label=\"byte 4096\", color=\"#9C27B0\"];
}
";

const ECHO_MERMAID: &str = "flowchart LR
  b0[\"src<br/>vector_source<br/>q 1\"]
  b1[\"late<br/>delay<br/>n 2<br/>q 1\"]
  b2[\"sum<br/>add<br/>q 1\"]
  b3[\"out<br/>vector_sink<br/>q 1\"]
  b4[\"dry<br/>vector_sink<br/>q 1\"]
  b0 -->|\"0 to 0: byte 4096\"| b2
  linkStyle 0 stroke:#9C27B0
  b0 -->|\"0 to 0: byte 4096\"| b1
  linkStyle 1 stroke:#9C27B0
  b1 -->|\"0 to 1: byte 4096\"| b2
  linkStyle 2 stroke:#9C27B0
  b2 -->|\"0 to 0: byte 4096\"| b3
  linkStyle 3 stroke:#9C27B0
  b0 -->|\"0 to 0: byte 4096\"| b4
  linkStyle 4 stroke:#9C27B0
";

// In an iteration two items of the source become ten, which go to two sinks in turn. Capacities are those of the file
// where they hold an iteration (b), and else what an iteration puts there.
const TURNS: &str = "block = [
    { name = \"f\", kind = \"null_sink\", type = \"int\" },
    { name = \"a\", kind = \"vector_source\", type = \"short\", capacity = 1 },
    { name = \"b-2\", kind = \"convert\", type = \"short\", to = \"int\", capacity = 3 },
    { name = \"c.\", kind = \"repeat\", type = \"int\", n = 5, capacity = 1 },
    { name = \"_\", kind = \"deinterleave\", type = \"int\", ports = 2, capacity = 4 },
    { name = \"node\", kind = \"vector_sink\", type = \"int\" },
]
connect = [
    { from = \"_\", from_port = 1, to = \"f\" },
    { from = \"a\", to = \"b-2\" },
    { from = \"b-2\", to = \"c.\" },
    { from = \"c.\", to = \"_\" },
    { from = \"_\", to = \"node\" },
]
";

const TURNS_DOT: &str = "digraph {
  rankdir=LR;
  node [shape=record];
  \"f\" [label=\"{{<i0> 0}|f\\nnull_sink\\nq 5}\"];
  \"a\" [label=\"{a\\nvector_source\\nq 2|{<o0> 0}}\"];
  \"b-2\" [label=\"{{<i0> 0}|b-2\\nconvert\\nq 2|{<o0> 0}}\"];
  \"c.\" [label=\"{{<i0> 0}|c.\\nrepeat\\nq 2|{<o0> 0}}\"];
  \"_\" [label=\"{{<i0> 0}|_\\ndeinterleave\\nq 5|{<o0> 0|<o1> 1}}\"];
  \"node\" [label=\"{{<i0> 0}|node\\nvector_sink\\nq 5}\"];
  \"_\":o1:e -> \"f\":i0:w [label=\"int 5\", color=\"#009688\"];
  \"a\":o0:e -> \"b-2\":i0:w [label=\"short 2\", color=\"#C8A000\"];
  \"b-2\":o0:e -> \"c.\":i0:w [label=\"int 3\", color=\"#009688\"];
  \"c.\":o0:e -> \"_\":i0:w [label=\"int 10\", color=\"#009688\"];
  \"_\":o0:e -> \"node\":i0:w [label=\"int 5\", color=\"#009688\"];
}
";

const TURNS_MERMAID: &str = "flowchart LR
  b0[\"f<br/>null_sink<br/>q 5\"]
  b1[\"a<br/>vector_source<br/>q 2\"]
  b2[\"b-2<br/>convert<br/>q 2\"]
  b3[\"c.<br/>repeat<br/>q 2\"]
  b4[\"_<br/>deinterleave<br/>q 5\"]
  b5[\"node<br/>vector_sink<br/>q 5\"]
  b4 -->|\"1 to 0: int 5\"| b0
  linkStyle 0 stroke:#009688
  b1 -->|\"0 to 0: short 2\"| b2
  linkStyle 1 stroke:#C8A000
  b2 -->|\"0 to 0: int 3\"| b3
  linkStyle 2 stroke:#009688
  b3 -->|\"0 to 0: int 10\"| b4
  linkStyle 3 stroke:#009688
  b4 -->|\"0 to 0: int 5\"| b5
  linkStyle 4 stroke:#009688
";

// Half of the items and all of them do not go together: the rates are uneven.
const UNEVEN: &str = "block = [
    { name = \"src\", kind = \"vector_source\", type = \"byte\", capacity = 1 },
    { name = \"sum\", kind = \"add\", type = \"byte\" },
    { name = \"half\", kind = \"keep_one_in_n\", type = \"byte\", n = 2 },
    { name = \"out\", kind = \"vector_sink\", type = \"byte\" },
]
connect = [
    { from = \"src\", to = \"sum\" },
    { from = \"src\", to = \"half\" },
    { from = \"half\", to = \"sum\", to_port = 1 },
    { from = \"sum\", to = \"out\" },
]
";

const UNEVEN_DOT: &str = "digraph {
  rankdir=LR;
  node [shape=record];
  \"src\" [label=\"{src\\nvector_source|{<o0> 0}}\"];
  \"sum\" [label=\"{{<i0> 0|<i1> 1}|sum\\nadd|{<o0> 0}}\"];
  \"half\" [label=\"{{<i0> 0}|half\\nkeep_one_in_n|{<o0> 0}}\"];
  \"out\" [label=\"{{<i0> 0}|out\\nvector_sink}\"];
  \"src\":o0:e -> \"sum\":i0:w [label=\"byte 2\", color=\"#9C27B0\"];
  \"src\":o0:e -> \"half\":i0:w [label=\"byte 2\", color=\"#9C27B0\"];
  \"half\":o0:e -> \"sum\":i1:w [label=\"byte 4096\", color=\"#9C27B0\"];
  \"sum\":o0:e -> \"out\":i0:w [label=\"byte 4096\", color=\"#9C27B0\"];
}
";

// Each kind that may stand between a source and a sink, with its keys, the types of both, what is noted, and how many
// inputs it has.
// scripts/generate writes these lines from kinds.toml: KINDS
const KINDS: [(&str, &str, &str, &str, &str, usize); 62] = [
    ("add_const", "type = \"int\"\nvalue = 1", "int", "int", "value 1<br/>", 1),
    ("multiply_const", "type = \"int\"\nvalue = 1", "int", "int", "value 1<br/>", 1),
    ("divide_const", "type = \"int\"\nvalue = 1", "int", "int", "value 1<br/>", 1),
    ("and_const", "type = \"int\"\nvalue = 1", "int", "int", "value 1<br/>", 1),
    ("or_const", "type = \"int\"\nvalue = 1", "int", "int", "value 1<br/>", 1),
    ("xor_const", "type = \"int\"\nvalue = 1", "int", "int", "value 1<br/>", 1),
    ("scale", "type = \"int\"\nfactor = 1", "int", "int", "value 1<br/>", 1),
    ("clip", "type = \"int\"\nlow = 0\nhigh = 1", "int", "int", "", 1),
    ("abs", "type = \"int\"", "int", "int", "", 1),
    ("not", "type = \"int\"", "int", "int", "", 1),
    ("mute", "type = \"int\"\non = 1", "int", "int", "value 1<br/>", 1),
    ("add", "type = \"int\"", "int", "int", "", 1),
    ("sub", "type = \"int\"", "int", "int", "", 1),
    ("multiply", "type = \"int\"", "int", "int", "", 1),
    ("divide", "type = \"int\"", "int", "int", "", 1),
    ("minimum", "type = \"int\"", "int", "int", "", 1),
    ("maximum", "type = \"int\"", "int", "int", "", 1),
    ("and", "type = \"int\"", "int", "int", "", 1),
    ("or", "type = \"int\"", "int", "int", "", 1),
    ("xor", "type = \"int\"", "int", "int", "", 1),
    ("sample_and_hold", "type = \"int\"", "int", "int", "", 2),
    ("map_bb", "map = [1]", "byte", "byte", "", 1),
    ("table", "to = \"short\"\nvalues = [1]", "byte", "short", "", 1),
    ("convert", "type = \"int\"\nto = \"short\"", "int", "short", "", 1),
    ("binary_slicer", "type = \"int\"\nthreshold = 0", "int", "byte", "", 1),
    ("ulaw_encode", "type = \"int\"", "int", "byte", "", 1),
    ("alaw_encode", "type = \"int\"", "int", "byte", "", 1),
    ("moving_sum", "type = \"int\"\nlength = 1", "int", "int", "", 1),
    ("fir", "type = \"int\"\ntaps = [1]", "int", "int", "1 taps<br/>", 1),
    ("interp_fir", "type = \"int\"\ntaps = [1]", "int", "int", "1 taps<br/>", 1),
    ("keep_one_in_n", "type = \"int\"\nn = 1", "int", "int", "", 1),
    ("keep_m_in_n", "type = \"int\"\nm = 1\nn = 1", "int", "int", "", 1),
    ("integrate", "type = \"int\"\nn = 1", "int", "int", "", 1),
    ("frame_minimum", "type = \"int\"\nn = 1", "int", "int", "", 1),
    ("frame_maximum", "type = \"int\"\nn = 1", "int", "int", "", 1),
    ("argmax", "type = \"int\"\nn = 1", "int", "int", "", 1),
    ("repeat", "type = \"int\"\nn = 1", "int", "int", "", 1),
    ("insert", "type = \"int\"\nvalues = [1]\nperiod = 2", "int", "int", "", 1),
    ("pattern", "type = \"int\"\nvalues = [1]", "int", "int", "", 1),
    ("counter", "type = \"int\"\nn = 1", "int", "int", "", 1),
    ("permute", "type = \"int\"\norder = [0]", "int", "int", "", 1),
    ("interleave", "type = \"int\"\nports = 1", "int", "int", "", 1),
    ("deinterleave", "type = \"int\"\nports = 1", "int", "int", "", 1),
    ("stream_mux", "type = \"int\"\nlengths = [1]", "int", "int", "", 1),
    ("head", "type = \"int\"\nn = 1", "int", "int", "n 1<br/>", 1),
    ("skiphead", "type = \"int\"\nn = 1", "int", "int", "n 1<br/>", 1),
    ("delay", "type = \"int\"\nn = 1", "int", "int", "n 1<br/>", 1),
    ("pack_k_bits", "k = 1", "byte", "byte", "", 1),
    ("unpack_k_bits", "k = 1", "byte", "byte", "", 1),
    ("repack_bits", "k = 1\nl = 1", "byte", "byte", "", 1),
    ("packed_to_unpacked", "type = \"int\"\nbits = 1", "int", "int", "", 1),
    ("unpacked_to_packed", "type = \"int\"\nbits = 1", "int", "int", "", 1),
    ("diff_encoder", "modulus = 2", "byte", "byte", "", 1),
    ("diff_decoder", "modulus = 2", "byte", "byte", "", 1),
    ("scrambler", "bits = 2\nmask = 1\ninit = 1", "byte", "byte", "", 1),
    ("descrambler", "bits = 2\nmask = 1\ninit = 1", "byte", "byte", "", 1),
    ("additive_scrambler", "bits = 2\nmask = 1\ninit = 1", "byte", "byte", "", 1),
    ("correlate_access_code", "code = \"1\"\nthreshold = 0", "byte", "byte", "", 1),
    (
        "crc_append",
        "bits = 8\npolynomial = 7\ninit = 0\nfinal_xor = 0\nn = 1",
        "byte",
        "byte",
        "",
        1,
    ),
    (
        "crc_check",
        "bits = 8\npolynomial = 7\ninit = 0\nfinal_xor = 0\nn = 1",
        "byte",
        "byte",
        "",
        1,
    ),
    ("state_machine", "symbols = 1\nnext = [0]\noutput = [0]\ninit = 0", "byte", "byte", "", 1),
    (
        "viterbi",
        "type = \"int\"\nsymbols = 1\nnext = [0]\noutputs = 1\noutput = [0]\nsteps = 1",
        "int",
        "byte",
        "",
        1,
    ),
];
// end of these lines: KINDS

// The text from which the graph of a file is drawn.
fn drawing(alloc: Global, file: &str, format: Format) -> Result<String, Fail> {
    let content = read_graph(alloc, file.as_bytes()).ok().ok_or("refused")?;
    let (graph, _) = content.validate(alloc).ok().ok_or("not valid")?;
    let rates = balance(alloc, &graph).ok().ok_or("no memory")?;
    let text = drawn(alloc, &graph, &rates, format)
        .ok()
        .ok_or("no memory")?;
    Ok(String::from_utf8(text).ok().ok_or("no text")?)
}

#[test]
fn graphs_for_dot(rt: HostRuntime) -> Result<(), Fail> {
    let empty = "digraph {\n  rankdir=LR;\n  node [shape=record];\n}\n";
    let cases = [
        ("", empty),
        (ECHO, ECHO_DOT),
        (TURNS, TURNS_DOT),
        (UNEVEN, UNEVEN_DOT),
    ];
    for (file, expected) in cases {
        assert_eq!(rt; drawing(rt.alloc(), file, Format::Dot)?.as_str(), expected);
    }
    Ok(())
}

#[test]
fn graphs_for_mermaid(rt: HostRuntime) -> Result<(), Fail> {
    let cases = [
        ("", "flowchart LR\n"),
        (ECHO, ECHO_MERMAID),
        (TURNS, TURNS_MERMAID),
    ];
    for (file, expected) in cases {
        assert_eq!(rt;
            drawing(rt.alloc(), file, Format::Mermaid)?.as_str(),
            expected
        );
    }
    Ok(())
}

#[test]
fn each_kind_goes_by_its_name(rt: HostRuntime) -> Result<(), Fail> {
    for (kind, keys, from, to, note, inputs) in KINDS {
        let mut file = format!(in rt.alloc();
            "[[block]]\nname = \"x\"\nkind = \"{kind}\"\n{keys}\n\
[[block]]\nname = \"in\"\nkind = \"vector_source\"\ntype = \"{from}\"\n\
[[block]]\nname = \"out\"\nkind = \"vector_sink\"\ntype = \"{to}\"\n\
[[connect]]\nfrom = \"x\"\nto = \"out\"\n"
        )?;
        for port in 0..inputs {
            let text = format!(in rt.alloc(); "[[connect]]\nfrom = \"in\"\nto = \"x\"\nto_port = {port}\n")?;
            file.push_str(text.as_str())?;
        }
        let text = drawing(rt.alloc(), file.as_str(), Format::Mermaid)?;
        let first = format!(in rt.alloc(); "flowchart LR\n  b0[\"x<br/>{kind}<br/>{note}q ")?;
        assert!(rt; text.as_str().starts_with(first.as_str()), "{kind}: {text}");
    }
    Ok(())
}
