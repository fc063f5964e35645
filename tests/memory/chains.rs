//! Graph files with lines for them, and what is written, all worked out by hand.

/// A source of bytes with two items on its tape, a block that adds ten, and a sink.
pub const CHAIN: &str = r#"
[[block]]
name = "src"
kind = "vector_source"
type = "byte"
[[block]]
name = "a"
kind = "add_const"
type = "byte"
value = 10
[[block]]
name = "out"
kind = "vector_sink"
type = "byte"
[[connect]]
from = "src"
to = "a"
[[connect]]
from = "a"
to = "out"
[[feed]]
source = "src"
items = [250, 1]
"#;

pub const RAN: &str = "sink out 2 4 11\ndone\n";

pub const LIVE_LINES: &str = "set a 2 20\nfeed src 1 @2:k=9\nread out 99 1\nclose src\n";

pub const LIVE_REPLIES: &str =
    "taken 2\nfed 3\nrefused 31\nclosed 3\nsink out 3 4 11 21 @2:k=9/0\ndone\n";

pub const SETTING_LINES: &str =
    "feed src 2 3 4 5 6 7 8 9\nstep src 10\nstep a 2\nclaim a 3\nset a 4 99\nset a 5 20\n\
claim a 1\ncommit a\nstep a 9\nstep out 10\nread out 0 10\n";

pub const SETTING_REPLIES: &str =
    "fed 10\ndid 10\ndid 2\nclaimed 2 3\nrefused 27 5\ntaken 5\nbusy\ndid 3\ndid 5\ndid 10\n\
read 10 4 11 12 13 14 25 26 27 28 29\n";

/// Two sources are added, and every second sum is kept.
pub const TAGGED: &str = r#"
block = [
    { name = "s", kind = "vector_source", type = "byte" },
    { name = "t", kind = "vector_source", type = "byte" },
    { name = "a", kind = "add", type = "byte" },
    { name = "k", kind = "keep_one_in_n", type = "byte", n = 2 },
    { name = "out", kind = "vector_sink", type = "byte" },
]
connect = [
    { from = "s", to = "a" },
    { from = "t", to = "a", to_port = 1 },
    { from = "a", to = "k" },
    { from = "k", to = "out" },
]
"#;

pub const TAGGED_LINES: &str =
    "feed s 1 2 3 4 @1:b=1 @2:a=7 @2:a=7\nfeed t 10 20 30 40 @1:a=7\nstep s 9\nstep t 9\n\
step a 1\nstep a 3\nstep k 9\nstep out 9\nread out 0 9\n";

pub const TAGGED_REPLIES: &str = "fed 4\nfed 4\ndid 4\ndid 4\ndid 1\ndid 3\ndid 2\ndid 2\n\
read 2 22 44 @1:a=7/0 @1:a=7/0 @1:a=7/1 @1:b=1/0\n";

/// A source with two readers, which add one and two.
pub const FORK: &str = r#"
block = [
    { name = "src", kind = "vector_source", type = "byte" },
    { name = "a", kind = "add_const", type = "byte", value = 1 },
    { name = "c", kind = "add_const", type = "byte", value = 2 },
    { name = "of_a", kind = "vector_sink", type = "byte" },
    { name = "of_c", kind = "vector_sink", type = "byte" },
]
connect = [
    { from = "src", to = "a" },
    { from = "src", to = "c" },
    { from = "a", to = "of_a" },
    { from = "c", to = "of_c" },
]
"#;

pub const FORK_LINES: &str =
    "feed src 5 255\nstep src 2\nclaim a 2\nclaim c 2\ncommit c\ncommit a\ncommit a\n\
step of_a 2\nstep of_c 2\nread of_a 0 9\nread of_c 0 9\n";

pub const FORK_REPLIES: &str = "fed 2\ndid 2\nclaimed 0 2\nclaimed 0 2\ndid 2\ndid 2\nrefused 30\n\
did 2\ndid 2\nread 2 6 0\nread 2 7 1\n";
