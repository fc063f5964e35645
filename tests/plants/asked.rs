//! What a pipeline is asked while it runs: it answers in turn, and writes what a plant gives that was handed the same
//! at the same items.
ghost use Rattle.std.specs.Prelude.{[], None};

use super::drawn::{Make, Wire, bytes, plant, streaming};
use super::orders::drawn;
use super::pipelines::Pieces;
use flowgraph::BlockId;
use items::Items;
use kinds::Kind;
use pipeline::{
    AllReady, Answer, ByteOrder, Closed, End, Ended, Levels, Pipeline, PlantFault, Request, Requests,
    Settled, Taken, Told,
};
use settings::{Taps, Value};
use std::alloc::Global;
use std::process::Abort;
use std::test::Fail;
use streaming::{NoHelpers, Unwatched};

// Requests that come at these turns of a run, the last first, and what was answered.
#[derive(Drop)]
pub struct Turns {
    pub turn: u32,
    pub due: Vec<(u32, Request)>,
    pub answers: Vec<Answer>,
}

impl Requests for Turns {
    ghost asked = { λ _. [] };

    ghost answered = { λ _. [] };

    ghost due = { λ _. None };

    fn are_waiting(&self) -> bool {
        match self.due.last() {
            Some((turn, _)) => *turn <= self.turn,
            None => false,
        }
    }

    fn most_firings(&self) -> u32 {
        15
    }

    fn take(&mut self) -> Option<Request> {
        self.turn += 1;
        if !self.are_waiting() {
            return None;
        }
        match self.due.pop() {
            Some((_, request)) => Some(request),
            None => None,
        }
    }

    fn answer(&mut self, answer: Answer) {
        let _ = self.answers.push(answer);
    }
}

type Run = Pipeline<Kind, Pieces, Vec<u8>>;

const SOURCE: BlockId = BlockId(0);
const LENGTH: u64 = 3_000;

// The items of the source.
fn tape(alloc: Global) -> Result<Vec<u8>, Fail> {
    let mut tape = Vec::new(alloc);
    for n in 0..LENGTH {
        tape.push((drawn(n) >> 56) as u8)?;
    }
    Ok(tape)
}

// A run of these blocks, of which the first is the source, and all sinks have a writer; with what it was asked.
fn asked(
    rt: &impl Abort,
    alloc: Global,
    blocks: &[Make],
    wires: &[Wire],
    requests: Vec<(u32, Request)>,
) -> Result<(Run, Turns, Ended), Fail> {
    let Ok(mut run) = Pipeline::new(alloc, streaming(rt, alloc, blocks, wires, 16)) else {
        panic!(rt; "no memory");
    };
    let reader = Pieces { bytes: tape(alloc)?, most: 64, chance: 5, reads_left: u64::MAX };
    assert!(rt; run.read_from(alloc, SOURCE, ByteOrder::Little, reader).is_ok(), "a reader");
    for (block, make) in (0..u32::MAX).zip(blocks) {
        if let Make::Sink = *make {
            let joined = run.write_to(alloc, BlockId(block), ByteOrder::Little, Some(Vec::new(alloc)), None);
            assert!(rt; joined.is_ok(), "a writer");
        }
    }
    let mut due = requests;
    due.reverse();
    let mut turns = Turns { turn: 0, due, answers: Vec::new(alloc) };
    match run.run_asked(alloc, &mut NoHelpers, &mut AllReady, &mut turns, &mut Unwatched) {
        Ok(ended) => Ok((run, turns, ended)),
        Err(_) => panic!(rt; "a fault"),
    }
}

// What a sink's writer was given.
fn written<'a>(rt: &impl Abort, run: &'a Run, sink: u32) -> &'a [u8] {
    match &run.ends[sink as usize] {
        End::Output(output) => match &output.items_to {
            Some(writer) => writer,
            None => panic!(rt; "no writer"),
        },
        _ => panic!(rt; "no output"),
    }
}

// Asserts that all sinks were given what they take where a plant is handed these settings at these items, and the first
// `fed` of the tape.
fn same_as_whole(
    rt: &impl Abort,
    alloc: Global,
    run: &Run,
    blocks: &[Make],
    wires: &[Wire],
    settings: &[(u32, u64, i64)],
    fed: usize,
) -> Result<(), Fail> {
    let mut whole = plant(rt, alloc, blocks, wires, 16);
    for (block, at, value) in settings {
        let set = whole.set(BlockId(*block), Some(*at), Value::Number(*value));
        assert_eq!(rt; set, Ok(Taken(*at)));
    }
    let mut numbers = Vec::new(alloc);
    for byte in &tape(alloc)?[..fed] {
        numbers.push(i64::from(*byte))?;
    }
    assert!(rt; whole.feed(SOURCE, bytes(rt, alloc, &numbers), &[]).is_ok(), "fed");
    assert!(rt; whole.close(SOURCE).is_ok(), "closed");
    assert!(rt; matches!(whole.settle(alloc, 64), Ok(Settled::Done)), "done");
    for (block, make) in (0..u32::MAX).zip(blocks) {
        if let Make::Sink = *make {
            let Ok(piece) = whole.read(alloc, BlockId(block), 0, u64::MAX) else {
                panic!(rt; "no piece");
            };
            let Items::Byte(items) = &piece.items else {
                panic!(rt; "no bytes");
            };
            assert!(rt; written(rt, run, block) == items.as_slice(), "sink {block}");
        }
    }
    Ok(())
}

// The graphs, each with the blocks that are set.
fn each_graph<F: FnMut(&[Make], &[Wire], &[u32]) -> Result<(), Fail>>(mut then: F) -> Result<(), Fail> {
    use Make::{Add, AddConst, Delay, Head, Keep, MovingSum, MultiplyConst, Not, Repeat, Sink, Skip, Source};
    then(&[Source, AddConst(1), Sink], &[(0, 0, 1, 0), (1, 0, 2, 0)], &[1])?;
    then(&[Source, MultiplyConst(3), Sink], &[(0, 0, 1, 0), (1, 0, 2, 0)], &[1])?;
    then(&[Source, AddConst(1), MultiplyConst(3), Sink], &[(0, 0, 1, 0), (1, 0, 2, 0), (2, 0, 3, 0)], &[1, 2])?;
    then(&[Source, Keep(3), AddConst(1), Sink], &[(0, 0, 1, 0), (1, 0, 2, 0), (2, 0, 3, 0)], &[2])?;
    then(&[Source, AddConst(1), Keep(3), Sink], &[(0, 0, 1, 0), (1, 0, 2, 0), (2, 0, 3, 0)], &[1])?;
    then(&[Source, Repeat(5), AddConst(1), Sink], &[(0, 0, 1, 0), (1, 0, 2, 0), (2, 0, 3, 0)], &[2])?;
    then(&[Source, AddConst(1), Repeat(5), Sink], &[(0, 0, 1, 0), (1, 0, 2, 0), (2, 0, 3, 0)], &[1])?;
    then(&[Source, AddConst(1), MovingSum(4), Sink], &[(0, 0, 1, 0), (1, 0, 2, 0), (2, 0, 3, 0)], &[1])?;
    then(&[Source, Delay(9), AddConst(1), Not, Sink], &[(0, 0, 1, 0), (1, 0, 2, 0), (2, 0, 3, 0), (3, 0, 4, 0)], &[2])?;
    then(&[Source, AddConst(1), Skip(9), Sink], &[(0, 0, 1, 0), (1, 0, 2, 0), (2, 0, 3, 0)], &[1])?;
    then(&[Source, AddConst(1), Sink, MultiplyConst(7), Sink], &[(0, 0, 1, 0), (1, 0, 2, 0), (0, 0, 3, 0), (3, 0, 4, 0)], &[1, 3])?;
    then(
        &[Source, AddConst(1), MultiplyConst(3), Add, Sink],
        &[(0, 0, 1, 0), (0, 0, 2, 0), (1, 0, 3, 0), (2, 0, 3, 1), (3, 0, 4, 0)],
        &[1, 2],
    )?;
    then(&[Source, AddConst(1), Head(2_000), Sink], &[(0, 0, 1, 0), (1, 0, 2, 0), (2, 0, 3, 0)], &[1])
}

#[test]
fn settings_come_where_the_answers_say(rt: HostRuntime) -> Result<(), Fail> {
    let alloc = rt.alloc();
    each_graph(|blocks, wires, set| {
        let mut requests = Vec::new(alloc);
        for n in 0..20_u32 {
            let block = BlockId(set[n as usize % set.len()]);
            let value = Value::Number(i64::from(n % 7) + 2);
            // Some ask at once for the first item that is open, and some for one that is still far.
            let at = if n % 5 == 4 { Some(2_500 + u64::from(n)) } else { None };
            requests.push((1 + n * n / 2, Request::Set { block, at, value }))?;
        }
        let (run, turns, ended) = asked(&rt, alloc, blocks, wires, requests)?;
        assert_eq!(rt; ended, Ended::Settled(Settled::Done));
        assert_eq!(rt; turns.answers.len() + turns.due.len(), 20);
        assert!(rt; 12 < turns.answers.len(), "{} were answered", turns.answers.len());
        let mut settings = Vec::new(alloc);
        for (n, answer) in (0..20_u32).zip(&turns.answers) {
            let Told::Set(Ok(Taken(at))) = answer.told else {
                panic!(rt; "request {n} is refused");
            };
            if n % 5 != 4 {
                assert_eq!(rt; at, answer.come);
            }
            settings.push((set[n as usize % set.len()], at, i64::from(n % 7) + 2))?;
        }
        same_as_whole(&rt, alloc, &run, blocks, wires, &settings, LENGTH as usize)
    })
}

#[test]
fn a_source_that_is_closed_is_not_read(rt: HostRuntime) -> Result<(), Fail> {
    let alloc = rt.alloc();
    each_graph(|blocks, wires, _set| {
        let mut requests = Vec::new(alloc);
        requests.push((20, Request::Close(SOURCE)))?;
        let (run, turns, ended) = asked(&rt, alloc, blocks, wires, requests)?;
        assert_eq!(rt; ended, Ended::Settled(Settled::Done));
        let [Answer { told: Told::Closed(Ok(Closed(total))), .. }] = turns.answers.as_slice() else {
            panic!(rt; "no answer");
        };
        assert!(rt; 0 < *total && *total < LENGTH, "{total} were read");
        same_as_whole(&rt, alloc, &run, blocks, wires, &[], *total as usize)
    })
}

#[test]
fn a_stop_ends_the_run_with_what_the_sinks_have_taken(rt: HostRuntime) -> Result<(), Fail> {
    let alloc = rt.alloc();
    let blocks = [Make::Source, Make::AddConst(1), Make::Sink];
    let wires = [(0, 0, 1, 0), (1, 0, 2, 0)];
    for turn in 1..60_u32 {
        let mut requests = Vec::new(alloc);
        requests.push((turn, Request::Levels(BlockId(2))))?;
        requests.push((turn + 1, Request::Stop))?;
        requests.push((turn + 2, Request::Levels(BlockId(2))))?;
        let (run, turns, ended) = asked(&rt, alloc, &blocks, &wires, requests)?;
        assert_eq!(rt; ended, Ended::Stopped);
        let [Answer { told: Told::Levels(Ok(levels)), come }, stopped] = turns.answers.as_slice() else {
            panic!(rt; "two answers");
        };
        assert_eq!(rt; *stopped, Answer { come: 0, told: Told::Stopped });
        assert_eq!(rt; levels.taken, *come);
        let items = written(&rt, &run, 2);
        let all = tape(alloc)?;
        // One round of at most five firings lies between the two.
        let taken = levels.taken as usize;
        assert!(rt; taken <= items.len() && items.len() <= taken + 5, "{taken} and {}", items.len());
        for (item, byte) in items.iter().zip(&all) {
            assert_eq!(rt; *item, byte.wrapping_add(1));
        }
    }
    Ok(())
}

#[test]
fn what_is_refused_is_answered_with_the_plant_s_reply(rt: HostRuntime) -> Result<(), Fail> {
    let alloc = rt.alloc();
    let blocks = [Make::Source, Make::AddConst(1), Make::Sink];
    let wires = [(0, 0, 1, 0), (1, 0, 2, 0)];
    let number = || Value::Number(5);
    let set = |block: u32, at: Option<u64>, value: Value| Request::Set { block: BlockId(block), at, value };
    let mut requests = Vec::new(alloc);
    let none = Taps::new(Vec::new(alloc));
    for request in [
        set(9, None, number()),
        set(2, None, number()),
        set(1, None, Value::Taps(none)),
        set(1, Some(0), number()),
        Request::Close(BlockId(1)),
        Request::Close(BlockId(7)),
        Request::Levels(BlockId(3)),
        Request::Close(SOURCE),
        Request::Close(SOURCE),
    ] {
        requests.push((30, request))?;
    }
    let (_run, turns, ended) = asked(&rt, alloc, &blocks, &wires, requests)?;
    assert_eq!(rt; ended, Ended::Settled(Settled::Done));
    let mut told = Vec::new(alloc);
    for answer in &turns.answers {
        told.push(answer.told)?;
    }
    let floor = turns.answers[3].come;
    assert!(rt; 0 < floor, "items had come");
    let [.., Answer { told: Told::Closed(Ok(total)), .. }, _] = turns.answers.as_slice() else {
        panic!(rt; "closed");
    };
    let wanted = [
        Told::Set(Err(PlantFault::NoSuchBlock)),
        Told::Set(Err(PlantFault::NoSetting)),
        Told::Set(Err(PlantFault::WrongSetting)),
        Told::Set(Err(PlantFault::Late { floor })),
        Told::Closed(Err(PlantFault::NotSource)),
        Told::Closed(Err(PlantFault::NoSuchBlock)),
        Told::Levels(Err(PlantFault::NoSuchBlock)),
        Told::Closed(Ok(*total)),
        Told::Closed(Err(PlantFault::Closed)),
    ];
    assert_eq!(rt; told.as_slice(), &wanted[..]);
    assert_eq!(rt; (turns.answers[0].come, turns.answers[6].come), (0, 0));
    Ok(())
}

#[test]
fn levels_are_those_of_the_streams(rt: HostRuntime) -> Result<(), Fail> {
    let alloc = rt.alloc();
    // Of ten items each is five, of which three make one.
    let blocks = [Make::Source, Make::Repeat(5), Make::Keep(3), Make::Sink];
    let mut plant = streaming(&rt, alloc, &blocks, &[(0, 0, 1, 0), (1, 0, 2, 0), (2, 0, 3, 0)], 64);
    let numbers = [1_i64; 10];
    assert!(rt; plant.feed(SOURCE, &bytes(&rt, alloc, &numbers), &[]).is_ok(), "fed");
    let levels = |taken: u64, given: u64, waiting: u64| Ok(Levels { taken, given, waiting });
    assert_eq!(rt; plant.levels(SOURCE), levels(0, 0, 10));
    assert!(rt; plant.step(alloc, SOURCE, 8).is_ok(), "stepped");
    assert!(rt; plant.step(alloc, BlockId(1), 5).is_ok(), "stepped");
    assert!(rt; plant.step(alloc, BlockId(2), 6).is_ok(), "stepped");
    assert_eq!(rt; plant.levels(SOURCE), levels(8, 8, 2));
    assert_eq!(rt; plant.levels(BlockId(1)), levels(5, 25, 3));
    assert_eq!(rt; plant.levels(BlockId(2)), levels(18, 6, 7));
    assert_eq!(rt; plant.levels(BlockId(3)), levels(0, 0, 6));
    assert_eq!(rt; plant.levels(BlockId(4)), Err(PlantFault::NoSuchBlock));
    Ok(())
}
