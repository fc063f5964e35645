//! Where the time of a run went: the reports, byte for byte, and what a run of each way is measured.
use super::fakes::{Pieces, Written};
use flow_runs::threading::Threading;
use flow_runs::serve::{Action, Verbosity, serve};
use flowgraph::{BlockId, Valid};
use graph_file::read_graph;
use kinds::Kind;
use plant::{Need, Unwatched};
use run_stats::{Figures, Form, Looks, Measured, Meter, Stats, Waited, json_report, text_report};
use std::alloc::Global;
use std::io;
use std::process::Abort;
use std::sync::Arc;
use std::sync::atomic::{AtomicU64, Ordering};
use std::test::Fail;
use std::time::{Clock, CpuClock, Duration};
use threads::Gate;

const GRAPH: &str = "[[block]]\nname = \"src\"\nkind = \"vector_source\"\ntype = \"byte\"\n\
    [[block]]\nname = \"a\"\nkind = \"keep_one_in_n\"\ntype = \"byte\"\nn = 2\n\
    [[block]]\nname = \"out\"\nkind = \"vector_sink\"\ntype = \"byte\"\n\
    [[connect]]\nfrom = \"src\"\nto = \"a\"\n[[connect]]\nfrom = \"a\"\nto = \"out\"\n\
    [[feed]]\nsource = \"src\"\nitems = [1, 2, 3, 4, 5, 6, 7]\n";

// That times are measured, and nothing is traced.
const TIMES: Looks = Looks {
    at_times: true,
    at_events: None,
};

const NEVER: Waited = Waited { count: 0, nanos: 0 };

fn graph(rt: &impl Abort, alloc: Global) -> Valid<Kind> {
    let Ok(content) = read_graph(alloc, GRAPH.as_bytes()) else {
        panic!(rt; "the file is refused");
    };
    match content.validate(alloc) {
        Ok((graph, _)) => graph,
        Err(_) => panic!(rt; "the graph is refused"),
    }
}

fn figures(
    alloc: Global,
    counts: [u64; 4],
    inputs: &[Waited],
    outputs: &[Waited],
) -> Result<Figures, Fail> {
    let [firings, turns, nanos, lasted] = counts;
    Ok(Figures {
        firings,
        turns,
        nanos,
        lasted,
        inputs: Vec::from_slice(alloc, inputs)?,
        outputs: Vec::from_slice(alloc, outputs)?,
    })
}

// A run of two milliseconds, for three quarters of which one block was at work.
fn some_stats(alloc: Global) -> Result<Stats, Fail> {
    let room = Waited {
        count: 2,
        nanos: 3_100,
    };
    let own = Waited {
        count: 1,
        nanos: 999,
    };
    let items = Waited {
        count: 1_004,
        nanos: 1_234_567,
    };
    let mut blocks = Vec::new(alloc);
    blocks.push(figures(alloc, [3_000, 3, 12_345, 13_000], &[], &[room])?)?;
    blocks.push(figures(alloc, [1_500, 3, 1_500_000, 1_600_000], &[own], &[NEVER])?)?;
    blocks.push(figures(alloc, [1_499, 0, 0, 0], &[items], &[])?)?;
    Ok(Stats {
        nanos: 2_000_000,
        blocks,
    })
}

const TEXT: &str = "\
block  kind           firings  items in  items out  at work  of the run  turns  mean turn  waited for
src    vector_source    3,000         0      3,000  12.3 us       0.6 %      3     4.1 us  room of a 2 times (3.1 us)
a      keep_one_in_n    1,500     3,000      1,500   1.5 ms      75.0 %      3   500.0 us  items of src 1 time (999 ns)
out    vector_sink      1,499     1,499          0     0 ns       0.0 %      0          -  items of a 1,004 times (1.2 ms)
The run is limited by a, which was at work for 75.0 % of it, and each wait of another block was for it.
";

const JSON: &str = "{\"nanoseconds\":2000000,\"blocks\":[\
{\"name\":\"src\",\"kind\":\"vector_source\",\"firings\":3000,\"items_in\":0,\"items_out\":3000,\"nanoseconds_at_work\":12345,\"nanoseconds_in_turns\":13000,\
\"per_mille_of_the_run\":6,\"turns\":3,\"nanoseconds_of_a_turn\":4115,\"waits\":[{\"for\":\"room\",\"of\":[\"a\"],\"count\":2,\"nanoseconds\":3100}]},\
{\"name\":\"a\",\"kind\":\"keep_one_in_n\",\"firings\":1500,\"items_in\":3000,\"items_out\":1500,\"nanoseconds_at_work\":1500000,\"nanoseconds_in_turns\":1600000,\
\"per_mille_of_the_run\":750,\"turns\":3,\"nanoseconds_of_a_turn\":500000,\"waits\":[{\"for\":\"items\",\"of\":[\"src\"],\"count\":1,\"nanoseconds\":999}]},\
{\"name\":\"out\",\"kind\":\"vector_sink\",\"firings\":1499,\"items_in\":1499,\"items_out\":0,\"nanoseconds_at_work\":0,\"nanoseconds_in_turns\":0,\
\"per_mille_of_the_run\":0,\"turns\":0,\"nanoseconds_of_a_turn\":null,\"waits\":[{\"for\":\"items\",\"of\":[\"a\"],\"count\":1004,\"nanoseconds\":1234567}]}\
],\"limited_by\":\"a\",\"all_waited_for_it\":true}\n";

#[test]
fn a_report_has_columns(rt: HostRuntime) -> Result<(), Fail> {
    let alloc = rt.alloc();
    let told = text_report(alloc, &graph(&rt, alloc), &some_stats(alloc)?)?;
    assert_eq!(rt; told.as_slice(), TEXT.as_bytes());
    Ok(())
}

#[test]
fn a_report_is_json(rt: HostRuntime) -> Result<(), Fail> {
    let alloc = rt.alloc();
    let told = json_report(alloc, &graph(&rt, alloc), &some_stats(alloc)?)?;
    assert_eq!(rt; told.as_slice(), JSON.as_bytes());
    Ok(())
}

#[test]
fn nothing_limits_a_run_in_which_none_was_at_work(rt: HostRuntime) -> Result<(), Fail> {
    let alloc = rt.alloc();
    let stats = Stats {
        nanos: 0,
        blocks: Vec::new(alloc),
    };
    let graph = graph(&rt, alloc);
    let told = text_report(alloc, &graph, &stats)?;
    assert!(rt; told.ends_with(b"waited for\nNo block was at work.\n"), "text");
    let told = json_report(alloc, &graph, &stats)?;
    assert_eq!(rt;
        told.as_slice(),
        b"{\"nanoseconds\":0,\"blocks\":[],\"limited_by\":null,\"all_waited_for_it\":false}\n".as_slice()
    );
    Ok(())
}

// A run of two milliseconds, for so many nanoseconds of which its source was at work.
fn stats_of(alloc: Global, nanos: u64) -> Result<Stats, Fail> {
    let mut blocks = Vec::new(alloc);
    blocks.push(figures(alloc, [7, 1, nanos, nanos + 40_000], &[], &[NEVER])?)?;
    blocks.push(figures(alloc, [3, 1, 100_000, 100_000], &[NEVER], &[NEVER])?)?;
    blocks.push(figures(alloc, [3, 0, 0, 0], &[NEVER], &[])?)?;
    Ok(Stats {
        nanos: 2_000_000,
        blocks,
    })
}

#[test]
fn what_the_time_went_to_is_told_where_no_block_limits_a_run(rt: HostRuntime) -> Result<(), Fail> {
    let alloc = rt.alloc();
    let graph = graph(&rt, alloc);
    let told = text_report(alloc, &graph, &stats_of(alloc, 160_000)?)?;
    let wanted = "No block was at work for more than half of the run: src was the longest, for 8.0 % of it, and all blocks together for 13.0 %.\n\
        Their turns had no processor for 2.0 % of it, and for 85.0 % or more no block had a turn.\n";
    assert!(rt; told.ends_with(wanted.as_bytes()), "text");
    let limited = "The run is limited by src, which was at work for 50.0 % of it.\n";
    for (nanos, limit, named) in [
        (1_000_000, "null", "No block was"),
        (1_000_001, "\"src\"", limited),
    ] {
        let stats = stats_of(alloc, nanos)?;
        assert!(rt; has(&text_report(alloc, &graph, &stats)?, named), "{nanos} of 2,000,000");
        let mut wanted = Vec::from_slice(alloc, b"\"limited_by\":")?;
        wanted.extend_from_slice(limit.as_bytes())?;
        wanted.extend_from_slice(b",\"all_waited_for_it\":false}\n")?;
        assert!(rt; json_report(alloc, &graph, &stats)?.ends_with(&wanted), "{nanos} of 2,000,000");
    }
    Ok(())
}

// A clock that shows what it is set to, and for how much of that time the thread had a processor.
#[derive(Clone, Copy)]
struct Set<'a> {
    nanos: &'a AtomicU64,
    used: &'a AtomicU64,
}

impl Clock for Set<'_> {
    fn monotonic(&self) -> io::Result<Duration> {
        Ok(Duration::from_nanos(self.nanos.load(Ordering::SeqCst)))
    }

    fn since_1970(&self) -> io::Result<Duration> {
        Ok(Duration::ZERO)
    }
}

impl CpuClock for Set<'_> {
    fn thread_cpu_time(&self) -> io::Result<Duration> {
        Ok(Duration::from_nanos(self.used.load(Ordering::SeqCst)))
    }

    fn process_cpu_time(&self) -> io::Result<Duration> {
        Ok(Duration::MAX)
    }
}

#[test]
fn a_block_is_at_work_for_the_processor_time_of_its_turns(rt: HostRuntime) -> Result<(), Fail> {
    let alloc = rt.alloc();
    let (nanos, used) = (AtomicU64::new(1_000), AtomicU64::new(50));
    let clock = Set {
        nanos: &nanos,
        used: &used,
    };
    let meter = Meter::new(alloc, clock, &graph(&rt, alloc))?;
    for (lasts, takes) in [(300, 200), (100, 7)] {
        meter.begins(BlockId(1));
        nanos.fetch_add(lasts, Ordering::SeqCst);
        used.fetch_add(takes, Ordering::SeqCst);
        meter.worked(BlockId(1), 2);
        // What is between two turns is no block's work.
        nanos.fetch_add(1_000, Ordering::SeqCst);
        used.fetch_add(500, Ordering::SeqCst);
    }
    let stats = meter.stats(alloc)?;
    assert_eq!(rt; stats.nanos, 1_400);
    let mut found = Vec::new(alloc);
    for figures in &stats.blocks {
        found.push([figures.firings, figures.turns, figures.nanos, figures.lasted])?;
    }
    assert_eq!(rt; found.as_slice(), [[0; 4], [4, 2, 207, 400], [0; 4]].as_slice());
    Ok(())
}

#[test]
fn a_wait_is_counted_at_its_port_alone(rt: HostRuntime) -> Result<(), Fail> {
    let alloc = rt.alloc();
    let meter = Meter::new(alloc, rt, &graph(&rt, alloc))?;
    // A source waits for its feed, which is at none of its ports.
    meter.waits(BlockId(0), Need::Items(0));
    meter.waits(BlockId(1), Need::Items(0));
    // A wait that goes on is one.
    meter.waits(BlockId(1), Need::Items(0));
    meter.waits(BlockId(1), Need::Room(0));
    meter.waits(BlockId(2), Need::Items(0));
    let stats = meter.stats(alloc)?;
    let mut counts = Vec::new(alloc);
    for figures in &stats.blocks {
        for waited in figures.inputs.iter().chain(&figures.outputs) {
            counts.push(waited.count)?;
        }
    }
    assert_eq!(rt; counts.as_slice(), [0, 1, 1, 1].as_slice());
    Ok(())
}

// Whether a text has a part.
fn has(text: &[u8], part: &str) -> bool {
    text.windows(part.len()).any(|window| window == part.as_bytes())
}

#[test]
fn a_run_of_each_way_is_counted(rt: HostRuntime) -> Result<(), Fail> {
    let alloc = rt.alloc();
    for action in [
        Action::RunAlone,
        Action::Run(Threading::Adaptive),
        Action::Run(Threading::PerBlock),
    ] {
        let measured = Measured::new(alloc, rt, TIMES, Arc::new(alloc, graph(&rt, alloc))?)?;
        let mut input = Pieces {
            left: b"",
            most: usize::MAX,
            good: usize::MAX,
            failures: 0,
        };
        let mut output = Written {
            bytes: Vec::new(alloc),
            room: usize::MAX,
            failures: 0,
        };
        let mut errors = Written {
            bytes: Vec::new(alloc),
            room: usize::MAX,
            failures: 0,
        };
        let status = serve(
            rt,
            alloc,
            action,
            Verbosity::WithNotes,
            "",
            GRAPH.as_bytes(),
            &mut input,
            &mut output,
            &mut errors,
            Some(measured.observer()?),
            &mut Unwatched,
        );
        assert_eq!(rt; status, 0, "{action:?}");
        assert!(rt; errors.bytes.is_empty(), "{action:?}: the report is the caller's");
        let told = measured.report(alloc, Form::Json)?;
        for part in [
            "{\"name\":\"src\",\"kind\":\"vector_source\",\"firings\":7,\"items_in\":0,\"items_out\":7,",
            "{\"name\":\"a\",\"kind\":\"keep_one_in_n\",\"firings\":3,\"items_in\":6,\"items_out\":3,",
            "{\"name\":\"out\",\"kind\":\"vector_sink\",\"firings\":3,\"items_in\":3,\"items_out\":0,",
        ] {
            assert!(rt; has(&told, part), "{action:?}: {part}");
        }
    }
    Ok(())
}
