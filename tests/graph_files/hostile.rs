//! A file that is cut, or has another byte somewhere: it is read and opened, or refused.
use file_plants::OpensPlants;
use graph_file::read_graph;
use refusal_codes::Refusal;
use std::alloc::{AllocError, Global};
use std::test::Fail;

// Lines of a file, and the refusal of the file that ends with each.
const LINES: [(&str, u32); 21] = [
    ("[[block]]", 42),
    ("name = \"src\"", 42),
    ("kind = \"vector_source\"", 42),
    ("type = \"byte\"", 8),
    ("[[block]]", 42),
    ("name = \"a\"", 42),
    ("kind = \"add_const\"", 42),
    ("type = \"byte\"", 42),
    ("value = 10", 8),
    ("[[block]]", 42),
    ("name = \"out\"", 42),
    ("kind = \"vector_sink\"", 42),
    ("type = \"byte\"", 8),
    ("[[connect]]", 42),
    ("from = \"src\"", 42),
    ("to = \"a\"", 8),
    ("[[connect]]", 42),
    ("from = \"a\"", 42),
    ("to = \"out\"", 0),
    ("[[feed]]", 42),
    ("source = \"src\"\nitems = [250, 1]", 0),
];

// The number by which a file is refused, or 0.
fn number_of(alloc: Global, text: &[u8]) -> u32 {
    match read_graph(alloc, text) {
        Ok(file) => match file.open(alloc) {
            Ok(_) => 0,
            Err(fault) => fault.number(),
        },
        Err(fault) => fault.number(),
    }
}

// The file with another byte at a place.
fn turned(alloc: Global, text: &[u8], place: usize, byte: u8) -> Result<Vec<u8>, AllocError> {
    let mut turned = Vec::from_slice(alloc, text)?;
    turned[place] = byte;
    Ok(turned)
}

// Whether a file may be refused so that was cut, or has a quotation mark too many.
fn may_be(number: u32) -> bool {
    matches!(
        number,
        0 | 1 | 2 | 8 | 10 | 20 | 24 | 40 | 41 | 42 | 43 | 44
    )
}

#[test]
fn cut_and_turned_files(rt: HostRuntime) -> Result<(), Fail> {
    let alloc = rt.alloc();
    let mut text = String::new(alloc);
    for (line, number) in LINES {
        text.push_str(line)?;
        text.push('\n')?;
        assert_eq!(rt;
            number_of(alloc, text.as_bytes()),
            number,
            "a file up to {line}"
        );
    }
    let bytes = text.as_bytes();
    let mut is_quoted = false;
    for place in 0..bytes.len() {
        let number = number_of(alloc, &bytes[..place]);
        assert!(rt; may_be(number), "cut at {place}");
        // (a text that does not end)
        assert!(rt; !is_quoted || number == 40, "cut at {place}: {number}");
        is_quoted = is_quoted != (bytes[place] == b'"');
        for byte in [0, 255] {
            let file = turned(alloc, bytes, place, byte)?;
            assert_eq!(rt; number_of(alloc, &file), 40, "{byte} at {place}");
        }
        let file = turned(alloc, bytes, place, b'"')?;
        assert!(rt;
            may_be(number_of(alloc, &file)),
            "a quotation mark at {place}"
        );
    }
    Ok(())
}
