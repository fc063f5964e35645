//! Files that are refused, with the text of the refusal.
use graph_file::read_graph;
use std::alloc::{AllocError, Global};
use std::test::Fail;

// A byte source, a block `a` that adds 10, and a sink, in that order.
const CHAIN: &str = "[[block]]\nname = \"src\"\nkind = \"vector_source\"\ntype = \"byte\"\n\
[[block]]\nname = \"a\"\nkind = \"add_const\"\ntype = \"byte\"\nvalue = 10\n\
[[block]]\nname = \"out\"\nkind = \"vector_sink\"\ntype = \"byte\"\n\
[[connect]]\nfrom = \"src\"\nto = \"a\"\n";

const REFUSED: [(&str, &str); 23] = [
    ("x = ", "40 Syntax"),
    ("x = 1\nx = 2", "40 Syntax"),
    ("x = 1", "41 UnknownKey top"),
    ("block = 3", "43 WrongType top block"),
    ("block = [{}, 1]", "43 WrongType top block"),
    ("feed = 1\nconnect = 2", "43 WrongType top connect"),
    ("[[block]]", "42 MissingKey block 0 name"),
    ("[[block]]\nname = 1", "43 WrongType block 0 name"),
    ("[[block]]\nname = \"a\"", "42 MissingKey block 0 kind"),
    (
        "[[block]]\nname = \"a\"\nkind = \"sum\"\nx = 1",
        "44 UnknownKind block 0",
    ),
    (
        "[[block]]\nname = \"a\"\nkind = \"null_sink\"\ntags = \"all\"\ntype = \"byte\"",
        "41 UnknownKey block 0",
    ),
    (
        "[[block]]\nname = \"a\"\nkind = \"add_const\"\nvalue = 1.5\ntype = \"byte\"",
        "43 WrongType block 0 value",
    ),
    (
        "[[block]]\nname = \"a\"\nkind = \"add_const\"\nvalue = 256\ntype = \"byte\"",
        "10 BadParameter block 0 value",
    ),
    (
        "[[block]]\nname = \"a\"\nkind = \"add_const\"\nvalue = 256\ntype = \"long\"",
        "10 BadParameter block 0 type",
    ),
    (
        "[[block]]\nname = \"a\"\nkind = \"add_const\"\nvalue = 256\ntype = \"byte\"\ntags = \"some\"",
        "43 WrongType block 0 tags",
    ),
    (
        "[[block]]\nname = \"a\"\nkind = \"convert\"\nto = \"long\"\ntype = \"byte\"",
        "10 BadParameter block 0 to",
    ),
    (
        "[[block]]\nname = \"a\"\nkind = \"scale\"\nfactor = 1\nshift = -1\ntype = \"byte\"",
        "10 BadParameter block 0 shift",
    ),
    (
        "[[block]]\nname = \"a b\"\nkind = \"not\"\ntype = \"byte\"",
        "10 BadParameter block 0 name",
    ),
    (
        "[[block]]\nname = \"a\"\nkind = \"not\"\ntype = \"byte\"\nmultiple = 65",
        "10 BadParameter block 0 multiple",
    ),
    (
        "[[block]]\nname = \"a\"\nkind = \"not\"\ntype = \"byte\"\ncapacity = -1",
        "10 BadParameter block 0 capacity",
    ),
    ("[[feed]]\nitems = []", "42 MissingKey feed 0 source"),
    (
        "[[feed]]\nsource = \"s\"\nitems = [1, \"2\"]",
        "43 WrongType feed 0 items",
    ),
    (
        "[[feed]]\nsource = \"s\"\n[[feed]]\nsource = \"s\"\ntags = [{at = 1, key = \"\", value = 1}]",
        "43 WrongType feed 1 tags",
    ),
];

// What is added to the chain.
const REFUSED_BEHIND: [(&str, &str); 15] = [
    (
        "[[block]]\nname = \"a\"\nkind = \"not\"\ntype = \"byte\"",
        "1 DuplicateName a",
    ),
    (
        "[[connect]]\nfrom = \"a\"\nto = \"b\"",
        "2 UnknownBlock connect 1",
    ),
    (
        "[[connect]]\nfrom = \"a\"\nto = \"b\"\nfrom_port = -7",
        "3 PortRange a out -7",
    ),
    (
        "[[connect]]\nfrom = \"a\"\nto = \"b\"\nto_port = -1",
        "3 PortRange b in -1",
    ),
    (
        "[[connect]]\nfrom = \"abcdefghijklmnopqrstuvwxyz012345\"\nto = \"b\"\nfrom_port = -1",
        "3 PortRange abcdefghijklmnopqrstuvwxyz012345 out -1",
    ),
    (
        "[[connect]]\nfrom = \"abcdefghijklmnopqrstuvwxyz0123456\"\nto = \"b\"\nfrom_port = -1",
        "3 PortRange connect 1 out -1",
    ),
    (
        "[[connect]]\nfrom = \"a\"\nto = \"b c\"\nto_port = -9223372036854775808",
        "3 PortRange connect 1 in -9223372036854775808",
    ),
    (
        "[[connect]]\nfrom = \"a\"\nto = \"out\"\nfrom_port = 9000000000",
        "3 PortRange a out 9000000000",
    ),
    (
        "[[connect]]\nfrom = \"out\"\nto = \"a\"",
        "3 PortRange out out 0",
    ),
    (
        "[[connect]]\nfrom = \"a\"\nto = \"src\"",
        "3 PortRange src in 0",
    ),
    (
        "[[connect]]\nfrom = \"src\"\nto = \"a\"",
        "4 InputTaken a 0",
    ),
    (
        "[[block]]\nname = \"s\"\nkind = \"not\"\ntype = \"short\"\n[[connect]]\nfrom = \"a\"\nto = \"s\"",
        "6 TypeMismatch s 0",
    ),
    (
        "[[connect]]\nfrom = \"a\"\nto = \"out\"\nport = 1",
        "41 UnknownKey connect 1",
    ),
    ("[[connect]]\nto = \"out\"", "42 MissingKey connect 1 from"),
    (
        "[[connect]]\nfrom = \"a\"\nto = \"out\"\nto_port = 1.0",
        "43 WrongType connect 1 to_port",
    ),
];

// What reading the file prints.
fn refusal_of(alloc: Global, text: &str) -> Result<String, AllocError> {
    match read_graph(alloc, text.as_bytes()) {
        Ok(_) => String::from_str(alloc, "read"),
        Err(fault) => format!(in alloc; "{fault}"),
    }
}

#[test]
fn refusals(rt: HostRuntime) -> Result<(), Fail> {
    for (text, refusal) in REFUSED {
        assert_eq!(rt; refusal_of(rt.alloc(), text)?.as_str(), refusal);
    }
    for (more, refusal) in REFUSED_BEHIND {
        let text = format!(in rt.alloc(); "{CHAIN}{more}")?;
        assert_eq!(rt; refusal_of(rt.alloc(), text.as_str())?.as_str(), refusal);
    }
    Ok(())
}

#[test]
fn too_many_blocks(rt: HostRuntime) -> Result<(), Fail> {
    let mut text = String::new(rt.alloc());
    for number in 0..257_u32 {
        let block = format!(in rt.alloc();
            "[[block]]\nname = \"{number}\"\nkind = \"null_sink\"\ntype = \"int\"\n"
        )?;
        text.push_str(block.as_str())?;
    }
    assert_eq!(rt;
        refusal_of(rt.alloc(), text.as_str())?.as_str(),
        "9 TooLarge blocks"
    );
    Ok(())
}
