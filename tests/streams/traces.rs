//! The trace of a run: its text, byte for byte, by a clock that is set; and what the trace of a run of each way has.
use super::fakes::{Pieces, Written};
use flow_runs::threading::Threading;
use flow_runs::serve::{Action, Verbosity, serve};
use flowgraph::{BlockId, Valid};
use graph_file::read_graph;
use kinds::Kind;
use plant::{Need, Unwatched};
use run_stats::{Deed, Form, Looks, Measured, Tracer, write_trace};
use std::alloc::Global;
use std::cell::Cell;
use std::io;
use std::process::Abort;
use std::sync::Arc;
use std::test::Fail;
use std::time::{Clock, Duration};
use threads::Gate;

const GRAPH: &str = "[[block]]\nname = \"src\"\nkind = \"vector_source\"\ntype = \"byte\"\n\
    [[block]]\nname = \"a\"\nkind = \"keep_one_in_n\"\ntype = \"byte\"\nn = 2\n\
    [[block]]\nname = \"out\"\nkind = \"vector_sink\"\ntype = \"byte\"\n\
    [[block]]\nname = \"raw\"\nkind = \"vector_sink\"\ntype = \"byte\"\n\
    [[connect]]\nfrom = \"src\"\nto = \"a\"\n[[connect]]\nfrom = \"a\"\nto = \"out\"\n\
    [[connect]]\nfrom = \"src\"\nto = \"raw\"\n\
    [[feed]]\nsource = \"src\"\nitems = [1, 2, 3, 4, 5, 6, 7]\n";

const SRC: BlockId = BlockId(0);
const A: BlockId = BlockId(1);
const OUT: BlockId = BlockId(2);
// When all begins by the clock, in nanoseconds: a trace counts from there.
const HOUR: u64 = 3_600_000_000_000;

fn graph(rt: &impl Abort, alloc: Global) -> Valid<Kind> {
    let Ok(content) = read_graph(alloc, GRAPH.as_bytes()) else {
        panic!(rt; "the file is refused");
    };
    match content.validate(alloc) {
        Ok((graph, _)) => graph,
        Err(_) => panic!(rt; "the graph is refused"),
    }
}

// A clock that shows what is set, or fails.
#[derive(Drop)]
struct Set<'a> {
    nanos: &'a Cell<Option<u64>>,
}

impl Clock for Set<'_> {
    fn monotonic(&self) -> io::Result<Duration> {
        match self.nanos.get() {
            Some(nanos) => Ok(Duration::from_nanos(nanos)),
            None => Err(io::Error::from(io::ErrorKind::Other)),
        }
    }

    fn since_1970(&self) -> io::Result<Duration> {
        self.monotonic()
    }
}

// What a gate is told.
#[derive(Clone, Copy)]
enum Told {
    Begins(BlockId),
    Worked(BlockId, u32),
    Waits(BlockId, Need),
}

// What a tracer with so much room writes of what it is told, each at its time.
fn written(
    rt: &impl Abort,
    alloc: Global,
    room: usize,
    told: &[(Option<u64>, Told)],
) -> Result<Vec<u8>, Fail> {
    let graph = graph(rt, alloc);
    let nanos = Cell::new(None);
    let tracer = Tracer::new(alloc, Set { nanos: &nanos }, &graph, room)?;
    for (time, told) in told {
        nanos.set(*time);
        match told {
            Told::Begins(block) => tracer.begins(*block),
            Told::Worked(block, firings) => tracer.worked(*block, *firings),
            Told::Waits(block, need) => tracer.waits(*block, *need),
        }
    }
    let mut text = Vec::new(alloc);
    write_trace(&mut text, &graph, &tracer)?;
    Ok(text)
}

fn at(nanos: u64) -> Option<u64> {
    Some(HOUR + nanos)
}

const TRACKS: &str = "{\"traceEvents\":[
{\"ph\":\"M\",\"pid\":1,\"tid\":1,\"name\":\"thread_name\",\"args\":{\"name\":\"src\"}},
{\"ph\":\"M\",\"pid\":1,\"tid\":1,\"name\":\"thread_sort_index\",\"args\":{\"sort_index\":1}},
{\"ph\":\"M\",\"pid\":1,\"tid\":2,\"name\":\"thread_name\",\"args\":{\"name\":\"a\"}},
{\"ph\":\"M\",\"pid\":1,\"tid\":2,\"name\":\"thread_sort_index\",\"args\":{\"sort_index\":2}},
{\"ph\":\"M\",\"pid\":1,\"tid\":3,\"name\":\"thread_name\",\"args\":{\"name\":\"out\"}},
{\"ph\":\"M\",\"pid\":1,\"tid\":3,\"name\":\"thread_sort_index\",\"args\":{\"sort_index\":3}},
{\"ph\":\"M\",\"pid\":1,\"tid\":4,\"name\":\"thread_name\",\"args\":{\"name\":\"raw\"}},
{\"ph\":\"M\",\"pid\":1,\"tid\":4,\"name\":\"thread_sort_index\",\"args\":{\"sort_index\":4}}";

// Whether a text is these tracks, then these events, then what was kept and left out.
fn is_trace(rt: &impl Abort, text: &[u8], events: &str, kept: &str) {
    let Ok(text) = std::str::from_utf8(text) else {
        panic!(rt; "no text");
    };
    let Some(behind) = text.strip_prefix(TRACKS) else {
        panic!(rt; "other tracks: {text}");
    };
    let Some(before) = behind.strip_suffix(kept) else {
        panic!(rt; "another end: {text}");
    };
    assert!(rt; before == events, "other events: {before}");
}

// A run of a source, a block that keeps each second item, and two sinks.
fn some_run() -> [(Option<u64>, Told); 13] {
    let items = Need::Items(0);
    let room = Need::Room(0);
    [
        (at(0), Told::Begins(SRC)),
        (at(500), Told::Waits(A, items)),
        (at(700), Told::Waits(OUT, items)),
        // (it looked again, and goes on waiting)
        (at(900), Told::Waits(A, items)),
        (at(4_115), Told::Worked(SRC, 7)),
        (at(4_200), Told::Begins(A)),
        (at(4_201), Told::Worked(A, 3)),
        (at(5_000), Told::Waits(SRC, room)),
        // (a step that comes to nothing)
        (at(6_050), Told::Begins(SRC)),
        (at(6_060), Told::Waits(SRC, room)),
        (at(1_234_567), Told::Begins(OUT)),
        (at(2_234_577), Told::Worked(OUT, 3)),
        (at(2_234_600), Told::Begins(A)),
    ]
}

#[test]
fn a_trace_has_turns_and_waits(rt: HostRuntime) -> Result<(), Fail> {
    let alloc = rt.alloc();
    let text = written(&rt, alloc, 100, &some_run())?;
    let events = ",
{\"ph\":\"X\",\"pid\":1,\"tid\":2,\"ts\":0.500,\"dur\":3.700,\"name\":\"waits for items of src\",\"cat\":\"wait\"},
{\"ph\":\"X\",\"pid\":1,\"tid\":3,\"ts\":0.700,\"dur\":1233.867,\"name\":\"waits for items of a\",\"cat\":\"wait\"},
{\"ph\":\"X\",\"pid\":1,\"tid\":1,\"ts\":0.000,\"dur\":4.115,\"name\":\"src\",\"cat\":\"turn\",\"args\":{\"firings\":7}},
{\"ph\":\"X\",\"pid\":1,\"tid\":2,\"ts\":4.200,\"dur\":0.001,\"name\":\"a\",\"cat\":\"turn\",\"args\":{\"firings\":3}},
{\"ph\":\"i\",\"s\":\"t\",\"pid\":1,\"tid\":1,\"ts\":5.000,\"name\":\"waits for room of a and raw\",\"cat\":\"wait\"},
{\"ph\":\"X\",\"pid\":1,\"tid\":3,\"ts\":1234.567,\"dur\":1000.010,\"name\":\"out\",\"cat\":\"turn\",\"args\":{\"firings\":3}}
";
    let kept = "],\"displayTimeUnit\":\"ns\",\"otherData\":{\"events\":6,\"left_out\":0}}\n";
    is_trace(&rt, &text, events, kept);
    Ok(())
}

#[test]
fn a_trace_has_the_first_events_alone(rt: HostRuntime) -> Result<(), Fail> {
    let alloc = rt.alloc();
    // The wait that is kept ends behind the last event for which there is room.
    let text = written(&rt, alloc, 2, &some_run())?;
    let events = ",
{\"ph\":\"X\",\"pid\":1,\"tid\":2,\"ts\":0.000,\"dur\":3.700,\"name\":\"waits for items of src\",\"cat\":\"wait\"},
{\"ph\":\"X\",\"pid\":1,\"tid\":3,\"ts\":0.200,\"dur\":1233.867,\"name\":\"waits for items of a\",\"cat\":\"wait\"}
";
    let kept = "],\"displayTimeUnit\":\"ns\",\"otherData\":{\"events\":2,\"left_out\":4}}\n";
    is_trace(&rt, &text, events, kept);
    let text = written(&rt, alloc, 0, &some_run())?;
    let kept = "\n],\"displayTimeUnit\":\"ns\",\"otherData\":{\"events\":0,\"left_out\":6}}\n";
    is_trace(&rt, &text, "", kept);
    Ok(())
}

#[test]
fn a_wait_ends_as_another_begins(rt: HostRuntime) -> Result<(), Fail> {
    let alloc = rt.alloc();
    let told = [
        (at(10), Told::Waits(A, Need::Room(0))),
        (at(20), Told::Waits(A, Need::Items(0))),
        (at(20), Told::Waits(SRC, Need::Items(0))),
    ];
    let text = written(&rt, alloc, 9, &told)?;
    let events = ",
{\"ph\":\"X\",\"pid\":1,\"tid\":2,\"ts\":0.000,\"dur\":0.010,\"name\":\"waits for room of out\",\"cat\":\"wait\"},
{\"ph\":\"i\",\"s\":\"t\",\"pid\":1,\"tid\":2,\"ts\":0.010,\"name\":\"waits for items of src\",\"cat\":\"wait\"},
{\"ph\":\"i\",\"s\":\"t\",\"pid\":1,\"tid\":1,\"ts\":0.010,\"name\":\"waits to be fed\",\"cat\":\"wait\"}
";
    let kept = "],\"displayTimeUnit\":\"ns\",\"otherData\":{\"events\":3,\"left_out\":0}}\n";
    is_trace(&rt, &text, events, kept);
    Ok(())
}

#[test]
fn times_are_0_where_no_clock_can_be_read(rt: HostRuntime) -> Result<(), Fail> {
    let alloc = rt.alloc();
    let told = [(None, Told::Begins(SRC)), (None, Told::Worked(SRC, 1))];
    let text = written(&rt, alloc, 9, &told)?;
    let events = ",
{\"ph\":\"X\",\"pid\":1,\"tid\":1,\"ts\":0.000,\"dur\":0.000,\"name\":\"src\",\"cat\":\"turn\",\"args\":{\"firings\":1}}
";
    let kept = "],\"displayTimeUnit\":\"ns\",\"otherData\":{\"events\":1,\"left_out\":0}}\n";
    is_trace(&rt, &text, events, kept);
    Ok(())
}

#[test]
fn a_run_of_each_way_is_traced(rt: HostRuntime) -> Result<(), Fail> {
    let alloc = rt.alloc();
    for (action, at_times) in [
        (Action::RunAlone, false),
        (Action::Run(Threading::Adaptive), false),
        (Action::Run(Threading::PerBlock), true),
    ] {
        let looks = Looks {
            at_times,
            at_events: Some(1_000),
        };
        let measured = Measured::new(alloc, rt, looks, Arc::new(alloc, graph(&rt, alloc))?)?;
        let observer = measured.observer()?;
        let mut input = Pieces {
            left: b"",
            most: usize::MAX,
            good: usize::MAX,
            failures: 0,
        };
        let mut output = Written {
            bytes: Vec::new(alloc),
            room: usize::MAX,
            failures: 0,
        };
        let mut errors = Written {
            bytes: Vec::new(alloc),
            room: usize::MAX,
            failures: 0,
        };
        let status = serve(
            rt,
            alloc,
            action,
            Verbosity::WithNotes,
            "",
            GRAPH.as_bytes(),
            &mut input,
            &mut output,
            &mut errors,
            Some(measured.observer()?),
            &mut Unwatched,
        );
        assert_eq!(rt; status, 0, "{action:?}");
        let Some(tracer) = &observer.tracer else {
            panic!(rt; "no tracer");
        };
        let fired = fired(&rt, tracer);
        assert!(rt; fired == [7, 3, 3, 7], "{action:?}: {fired:?}");
        assert_eq!(rt; measured.left_out(), (0, tracer.count()), "{action:?}");
        let told = measured.report(alloc, Form::Json)?;
        assert!(rt; told.is_empty() != at_times, "{action:?}: the times");
    }
    Ok(())
}

// How often each block fired in its turns, of which none may begin before the one before it, or a wait, has ended.
fn fired<R: Clock + Drop>(rt: &impl Abort, tracer: &Tracer<R>) -> [u64; 4] {
    let mut fired = [0u64; 4];
    let mut ends = [0u64; 4];
    for number in 0..tracer.kept() {
        let Some(event) = tracer.event(number) else {
            panic!(rt; "no event {number}");
        };
        let block = event.block.0 as usize;
        if let Deed::Fired(firings) = event.deed {
            fired[block] += firings;
        }
        let is_behind = ends[block] <= event.began;
        assert!(rt; is_behind, "{event:?} begins before {}", ends[block]);
        if let Some(ended) = event.ended {
            assert!(rt; event.began <= ended, "{event:?}");
            ends[block] = ended;
        }
    }
    fired
}
