//! Graph files to start from, as `flow new` writes them.
use diagnostics::{is_link, starting_graph};
use file_plants::OpensPlants;
use graph_file::read_graph;
use kinds::KindName;
use std::test::Fail;

// A filter of shorts, and what packs bytes.
const CHAIN: &str = "# `flow check` tests this graph, `flow run` runs it on what is fed below, and `flow kinds KIND` tells of a kind.

[[block]]
name = \"src\"
kind = \"vector_source\"
type = \"short\"

[[block]]
name = \"fir_1\"
kind = \"fir\"
type = \"short\"
taps = [1]

[[block]]
name = \"convert_2\"
kind = \"convert\"
type = \"short\"
to = \"byte\"

[[block]]
name = \"pack_k_bits_3\"
kind = \"pack_k_bits\"
k = 1

[[block]]
name = \"out\"
kind = \"vector_sink\"
type = \"byte\"

[[connect]]
from = \"src\"
to = \"fir_1\"

[[connect]]
from = \"fir_1\"
to = \"convert_2\"

[[connect]]
from = \"convert_2\"
to = \"pack_k_bits_3\"

[[connect]]
from = \"pack_k_bits_3\"
to = \"out\"

[[feed]]
source = \"src\"
items = [0, 1, 2, 3, 4, 5, 6, 7]
";

#[test]
fn a_chain_has_a_type_all_along(rt: HostRuntime) -> Result<(), Fail> {
    let text = starting_graph(rt.alloc(), &[KindName::Fir, KindName::PackKBits])?;
    assert_eq!(rt; text.as_str(), CHAIN);
    Ok(())
}

#[test]
fn a_block_of_each_kind_can_be_started_from(rt: HostRuntime) -> Result<(), Fail> {
    for first in KindName::all() {
        for second in KindName::all() {
            if !is_link(*first) || !is_link(*second) {
                continue;
            }
            let text = starting_graph(rt.alloc(), &[*first, *second])?;
            let (first, second) = (first.text(), second.text());
            match read_graph(rt.alloc(), text.as_bytes()) {
                Ok(file) => assert!(rt; file.open(rt.alloc()).is_ok(), "{first} {second}"),
                Err(fault) => assert_eq!(rt; format!(in rt.alloc(); "{first} {second}: {fault}")?.as_str(), ""),
            }
        }
    }
    Ok(())
}
