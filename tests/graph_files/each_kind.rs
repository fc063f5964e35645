//! A block of each kind, and what a whole file says.
use flowgraph::Valid;
use graph_file::read_graph;
use kinds::Kind;
use std::alloc::Global;
use std::test::Fail;

// Each kind with all its keys.
// scripts/generate writes these lines from kinds.toml: KINDS
const KINDS: [(&str, &str); 65] = [
    ("vector_source", "type = \"short\"\ncapacity = 8\n"),
    ("vector_sink", "type = \"short\"\n"),
    ("null_sink", "type = \"short\"\n"),
    ("add_const", "type = \"short\"\nvalue = -300\ntags = \"one\"\nmultiple = 2\ncapacity = 8\n"),
    (
        "multiply_const",
        "type = \"short\"\nvalue = -300\ntags = \"one\"\nmultiple = 2\ncapacity = 8\n",
    ),
    (
        "divide_const",
        "type = \"short\"\nvalue = -300\ntags = \"one\"\nmultiple = 2\ncapacity = 8\n",
    ),
    ("and_const", "type = \"short\"\nvalue = -300\ntags = \"one\"\nmultiple = 2\ncapacity = 8\n"),
    ("or_const", "type = \"short\"\nvalue = -300\ntags = \"one\"\nmultiple = 2\ncapacity = 8\n"),
    ("xor_const", "type = \"short\"\nvalue = -300\ntags = \"one\"\nmultiple = 2\ncapacity = 8\n"),
    (
        "scale",
        "type = \"short\"\nfactor = -32768\nshift = 31\ntags = \"one\"\nmultiple = 2\ncapacity = 8\n",
    ),
    (
        "clip",
        "type = \"short\"\nlow = -300\nhigh = 300\ntags = \"one\"\nmultiple = 2\ncapacity = 8\n",
    ),
    ("abs", "type = \"short\"\ntags = \"one\"\nmultiple = 2\ncapacity = 8\n"),
    ("not", "type = \"short\"\ntags = \"one\"\nmultiple = 2\ncapacity = 8\n"),
    ("mute", "type = \"short\"\non = 1\ntags = \"one\"\nmultiple = 2\ncapacity = 8\n"),
    ("add", "type = \"short\"\ntags = \"one\"\nmultiple = 2\ncapacity = 8\n"),
    ("sub", "type = \"short\"\ntags = \"one\"\nmultiple = 2\ncapacity = 8\n"),
    ("multiply", "type = \"short\"\ntags = \"one\"\nmultiple = 2\ncapacity = 8\n"),
    ("divide", "type = \"short\"\ntags = \"one\"\nmultiple = 2\ncapacity = 8\n"),
    ("minimum", "type = \"short\"\ntags = \"one\"\nmultiple = 2\ncapacity = 8\n"),
    ("maximum", "type = \"short\"\ntags = \"one\"\nmultiple = 2\ncapacity = 8\n"),
    ("and", "type = \"short\"\ntags = \"one\"\nmultiple = 2\ncapacity = 8\n"),
    ("or", "type = \"short\"\ntags = \"one\"\nmultiple = 2\ncapacity = 8\n"),
    ("xor", "type = \"short\"\ntags = \"one\"\nmultiple = 2\ncapacity = 8\n"),
    ("sample_and_hold", "type = \"short\"\ntags = \"one\"\nmultiple = 2\ncapacity = 8\n"),
    ("map_bb", "map = [0, 255]\ntags = \"one\"\nmultiple = 2\ncapacity = 8\n"),
    (
        "table",
        "to = \"short\"\nvalues = [-32768, 32767]\ntags = \"one\"\nmultiple = 2\ncapacity = 8\n",
    ),
    ("convert", "type = \"short\"\nto = \"int\"\ntags = \"one\"\nmultiple = 2\ncapacity = 8\n"),
    (
        "binary_slicer",
        "type = \"short\"\nthreshold = -300\ntags = \"one\"\nmultiple = 2\ncapacity = 8\n",
    ),
    ("ulaw_encode", "type = \"short\"\ntags = \"one\"\nmultiple = 2\ncapacity = 8\n"),
    ("alaw_encode", "type = \"short\"\ntags = \"one\"\nmultiple = 2\ncapacity = 8\n"),
    ("moving_sum", "type = \"short\"\nlength = 1024\ntags = \"one\"\nmultiple = 2\ncapacity = 8\n"),
    (
        "fir",
        "type = \"short\"\ntaps = [1, -2]\ndecimation = 2\nshift = 3\ntags = \"one\"\nmultiple = 2\ncapacity = 8\n",
    ),
    (
        "interp_fir",
        "type = \"short\"\ntaps = [1, -2]\ninterpolation = 2\nshift = 3\ntags = \"one\"\nmultiple = 2\ncapacity = 8\n",
    ),
    ("keep_one_in_n", "type = \"short\"\nn = 1024\ntags = \"one\"\nmultiple = 2\ncapacity = 8\n"),
    (
        "keep_m_in_n",
        "type = \"short\"\nm = 1023\nn = 1024\noffset = 1\ntags = \"one\"\nmultiple = 2\ncapacity = 8\n",
    ),
    ("integrate", "type = \"short\"\nn = 1024\ntags = \"one\"\nmultiple = 2\ncapacity = 8\n"),
    ("frame_minimum", "type = \"short\"\nn = 1024\ntags = \"one\"\nmultiple = 2\ncapacity = 8\n"),
    ("frame_maximum", "type = \"short\"\nn = 1024\ntags = \"one\"\nmultiple = 2\ncapacity = 8\n"),
    ("argmax", "type = \"short\"\nn = 1024\ntags = \"one\"\nmultiple = 2\ncapacity = 8\n"),
    ("repeat", "type = \"short\"\nn = 1024\ntags = \"one\"\nmultiple = 2\ncapacity = 8\n"),
    (
        "insert",
        "type = \"short\"\nvalues = [-32768, 32767]\nperiod = 1024\noffset = 1022\ntags = \"one\"\nmultiple = 2\ncapacity = 8\n",
    ),
    (
        "pattern",
        "type = \"short\"\nvalues = [-32768, 32767]\ntags = \"one\"\nmultiple = 2\ncapacity = 8\n",
    ),
    ("counter", "type = \"short\"\nn = 2147483648\ntags = \"one\"\nmultiple = 2\ncapacity = 8\n"),
    (
        "permute",
        "type = \"short\"\norder = [1, 2, 0]\ntags = \"one\"\nmultiple = 2\ncapacity = 8\n",
    ),
    ("interleave", "type = \"short\"\nports = 16\ntags = \"one\"\nmultiple = 2\ncapacity = 8\n"),
    ("deinterleave", "type = \"short\"\nports = 16\ntags = \"one\"\nmultiple = 2\ncapacity = 8\n"),
    (
        "stream_mux",
        "type = \"short\"\nlengths = [2, 1]\ntags = \"one\"\nmultiple = 2\ncapacity = 8\n",
    ),
    ("head", "type = \"short\"\nn = 4294967296\ntags = \"none\"\nmultiple = 1\ncapacity = 8\n"),
    ("skiphead", "type = \"short\"\nn = 4294967296\ntags = \"none\"\nmultiple = 1\ncapacity = 8\n"),
    ("delay", "type = \"short\"\nn = 65536\ntags = \"none\"\nmultiple = 1\ncapacity = 8\n"),
    ("pack_k_bits", "k = 8\ntags = \"one\"\nmultiple = 2\ncapacity = 8\n"),
    ("unpack_k_bits", "k = 8\ntags = \"one\"\nmultiple = 2\ncapacity = 8\n"),
    (
        "repack_bits",
        "order = \"lsb_first\"\nk = 1\nl = 8\ntags = \"one\"\nmultiple = 2\ncapacity = 8\n",
    ),
    (
        "packed_to_unpacked",
        "type = \"short\"\norder = \"msb_first\"\nbits = 16\ntags = \"one\"\nmultiple = 2\ncapacity = 8\n",
    ),
    (
        "unpacked_to_packed",
        "type = \"short\"\norder = \"lsb_first\"\nbits = 1\ntags = \"one\"\nmultiple = 2\ncapacity = 8\n",
    ),
    ("diff_encoder", "modulus = 256\ntags = \"one\"\nmultiple = 2\ncapacity = 8\n"),
    ("diff_decoder", "modulus = 256\ntags = \"one\"\nmultiple = 2\ncapacity = 8\n"),
    ("scrambler", "bits = 3\nmask = 5\ninit = 1\ntags = \"one\"\nmultiple = 2\ncapacity = 8\n"),
    ("descrambler", "bits = 3\nmask = 5\ninit = 1\ntags = \"one\"\nmultiple = 2\ncapacity = 8\n"),
    (
        "additive_scrambler",
        "bits = 3\nmask = 5\ninit = 1\ntags = \"one\"\nmultiple = 2\ncapacity = 8\n",
    ),
    (
        "correlate_access_code",
        "code = \"1011\"\nthreshold = 4\ntags = \"one\"\nmultiple = 2\ncapacity = 8\n",
    ),
    (
        "crc_append",
        "order = \"lsb_first\"\nbits = 32\npolynomial = 79764919\ninit = 4294967295\nfinal_xor = 4294967295\nn = 1020\ntags = \"one\"\nmultiple = 2\ncapacity = 8\n",
    ),
    (
        "crc_check",
        "order = \"lsb_first\"\nbits = 32\npolynomial = 79764919\ninit = 4294967295\nfinal_xor = 4294967295\nn = 1020\ntags = \"one\"\nmultiple = 2\ncapacity = 8\n",
    ),
    (
        "state_machine",
        "symbols = 2\nnext = [0, 1, 1, 0]\noutput = [0, 255, 255, 0]\ninit = 1\ntags = \"one\"\nmultiple = 2\ncapacity = 8\n",
    ),
    (
        "viterbi",
        "type = \"short\"\nsymbols = 2\nnext = [0, 1, 1, 0]\noutputs = 1024\noutput = [0, 1023, 1023, 0]\nsteps = 1\nstart = 1\nend = -1\ntags = \"one\"\nmultiple = 2\ncapacity = 8\n",
    ),
];
// end of these lines: KINDS

// Kinds whose missing keys have defaults, which stand behind the others, and a key in which a block differs from that.
const DEFAULTS: [(&str, &str, &str, &str); 4] = [
    ("scale", "type = \"int\"\nfactor = 1\n", "shift = 0\n", "shift = 1\n"),
    (
        "fir",
        "type = \"int\"\ntaps = [1]\n",
        "decimation = 1\nshift = 0\n",
        "decimation = 2\n",
    ),
    (
        "interp_fir",
        "type = \"int\"\ntaps = [1]\n",
        "interpolation = 1\nshift = 0\n",
        "interpolation = 2\n",
    ),
    (
        "repeat",
        "type = \"int\"\nn = 1\n",
        "tags = \"all\"\nmultiple = 1\ncapacity = 4096\n",
        "capacity = 4095\n",
    ),
];

const WHOLE: &str = "[[block]]\nname = \"src\"\nkind = \"vector_source\"\ntype = \"byte\"\n\
[[block]]\nname = \"out\"\nkind = \"vector_sink\"\ntype = \"byte\"\n\
[[connect]]\nfrom = \"src\"\nto = \"out\"\n\
[[feed]]\nsource = \"src\"\nitems = [250, -1]\ntags = [{at = -1, key = \"k\", value = 5}]\n\
[[feed]]\nsource = \"none\"\n";

#[test]
fn kinds_with_all_keys(rt: HostRuntime) -> Result<(), Fail> {
    for (kind, keys) in KINDS {
        let text = format!(in rt.alloc(); "[[block]]\nname = \"a\"\nkind = \"{kind}\"\n{keys}")?;
        match read_graph(rt.alloc(), text.as_bytes()) {
            Ok(file) => assert_eq!(rt; file.feeds.len(), 0),
            Err(fault) => assert_eq!(rt; format!(in rt.alloc(); "{kind}: {fault}")?.as_str(), ""),
        }
    }
    Ok(())
}

// The graph of a source of ints, a block of this kind with these keys, and a sink.
fn graph_of(alloc: Global, kind: &str, keys: &str) -> Result<Valid<Kind>, Fail> {
    let text = format!(in alloc; "[[block]]\nname = \"src\"\nkind = \"vector_source\"\ntype = \"int\"\n[[block]]\nname = \"a\"\nkind = \"{kind}\"\n{keys}[[block]]\nname = \"out\"\nkind = \"vector_sink\"\ntype = \"int\"\n[[connect]]\nfrom = \"src\"\nto = \"a\"\n[[connect]]\nfrom = \"a\"\nto = \"out\"\n")?;
    match read_graph(alloc, text.as_bytes()) {
        Ok(file) => match file.graph.validate(alloc) {
            Ok(graph) => Ok(graph),
            Err(_) => Err(Fail::from("not valid")),
        },
        Err(_) => Err(Fail::from("refused")),
    }
}

#[test]
fn defaults(rt: HostRuntime) -> Result<(), Fail> {
    let alloc = rt.alloc();
    for (kind, keys, defaults, other) in DEFAULTS {
        let without = graph_of(alloc, kind, keys)?;
        let with = format!(in alloc; "{keys}{defaults}")?;
        let apart = format!(in alloc; "{keys}{other}")?;
        assert!(rt; without.agrees(&graph_of(alloc, kind, with.as_str())?), "{kind}");
        assert!(rt; !without.agrees(&graph_of(alloc, kind, apart.as_str())?), "{kind}");
    }
    Ok(())
}

#[test]
fn whole_file(rt: HostRuntime) -> Result<(), Fail> {
    assert!(rt; read_graph(rt.alloc(), b"").is_ok());
    assert!(rt; read_graph(rt.alloc(), b"\xff").is_err());
    let file = read_graph(rt.alloc(), WHOLE.as_bytes())
        .ok()
        .ok_or("refused")?;
    assert_eq!(rt; file.feeds.len(), 2);
    let feed = &file.feeds[0];
    assert_eq!(rt; feed.source.as_slice(), b"src".as_slice());
    assert_eq!(rt; feed.items.as_slice(), [250, -1].as_slice());
    assert_eq!(rt; feed.marks.len(), 1);
    let mark = feed.marks[0];
    assert_eq!(rt; (mark.at, mark.value), (-1, 5));
    assert_eq!(rt; mark.key.bytes(), b"k".as_slice());
    assert_eq!(rt; file.feeds[1].items.len(), 0);
    let graph = match file.graph.validate(rt.alloc()) {
        Ok(graph) => graph,
        Err(_) => return Err(Fail::from("not valid")),
    };
    assert_eq!(rt; graph.connections().len(), 1);
    assert!(rt; graph.find(b"out").is_some());
    Ok(())
}
