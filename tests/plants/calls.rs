//! Each call of a plant, and jobs that are brought back.
use super::drawn::{MIDDLE, Make, SINK, SOURCE, bytes, chain, mark, plant, run};
use flowgraph::BlockId;
use items::{ItemType, Items};
use kinds::Kind;
use plant::{Claim, Did, Headway, Job, Need, Plant, PlantFault, Settled, Step, Watch, Worked};
use rates::Rates;
use settings::Value;
use std::alloc::Global;
use std::process::Abort;
use std::test::Fail;
use std::time::Duration;

const NOBODY: BlockId = BlockId(3);

// A chain whose source was fed with two items, which it gave.
fn fed_with(rt: &impl Abort, alloc: Global, middle: Make, numbers: &[i64; 2]) -> Plant<Kind> {
    let mut plant = chain(rt, alloc, middle, 4);
    let items = bytes(rt, alloc, numbers);
    assert!(rt; plant.feed(SOURCE, items, &[]).is_ok(), "fed");
    assert!(rt; plant.step(alloc, SOURCE, 8) == Ok(Step::Did(2)), "given");
    plant
}

// The same of 250 and 1, to which ten is added.
fn fed(rt: &impl Abort, alloc: Global) -> Plant<Kind> {
    fed_with(rt, alloc, Make::AddConst(10), &[250, 1])
}

fn claimed(rt: &impl Abort, alloc: Global, plant: &mut Plant<Kind>, block: BlockId) -> Job<Kind> {
    match plant.claim(alloc, block, 2) {
        Ok(Claim::Claimed(job)) => job,
        _ => panic!(rt; "claimed"),
    }
}

fn copied(rt: &impl Abort, alloc: Global, job: &Job<Kind>) -> Job<Kind> {
    match job.copy(alloc) {
        Ok(copy) => copy,
        Err(_) => panic!(rt; "copied"),
    }
}

fn given_up(rt: &impl Abort, plant: &mut Plant<Kind>, job: Job<Kind>) {
    assert!(rt; plant.abandon(job).is_ok(), "given up");
}

fn taken(rt: &impl Abort, plant: &mut Plant<Kind>, worked: Worked<Kind>) {
    match plant.commit(worked) {
        Ok(Did(count)) => assert!(rt; count == 2, "two firings"),
        Err(_) => panic!(rt; "not taken"),
    }
}

// Work that comes back changes nothing.
fn comes_back(rt: &impl Abort, plant: &mut Plant<Kind>, worked: Worked<Kind>) -> Worked<Kind> {
    match plant.commit(worked) {
        Ok(_) => panic!(rt; "taken"),
        Err(back) => back,
    }
}

#[test]
fn jobs_are_taken_only_by_their_claim(rt: HostRuntime) -> Result<(), Fail> {
    let alloc = rt.alloc();
    let mut plant_one = fed(&rt, alloc);
    // An equal claim made later takes a copy of the job, and then no other.
    let job = claimed(&rt, alloc, &mut plant_one, MIDDLE);
    assert!(rt; !plant_one.idle() && !plant_one.quiet(), "in flight");
    assert!(rt;
        job.block() == MIDDLE && job.first() == 0 && job.count() == 2,
        "the job"
    );
    let copy = copied(&rt, alloc, &job);
    given_up(&rt, &mut plant_one, job);
    let job = claimed(&rt, alloc, &mut plant_one, MIDDLE);
    let is_busy = matches!(plant_one.claim(alloc, MIDDLE, 1), Ok(Claim::Busy));
    assert!(rt; is_busy, "busy");
    taken(&rt, &mut plant_one, copy.work());
    let _ = comes_back(&rt, &mut plant_one, job.work());
    assert!(rt; plant_one.idle(), "idle");
    // A setting changes what a job is given.
    let mut plant_two = fed(&rt, alloc);
    let job = claimed(&rt, alloc, &mut plant_two, MIDDLE);
    let copy = copied(&rt, alloc, &job);
    given_up(&rt, &mut plant_two, job);
    let set = plant_two.set(MIDDLE, Some(0), Value::Number(99));
    assert!(rt; set.is_ok(), "set");
    let job = claimed(&rt, alloc, &mut plant_two, MIDDLE);
    let _ = comes_back(&rt, &mut plant_two, copy.work());
    taken(&rt, &mut plant_two, job.work());
    // A job of a plant with other items, or with another block in its place, comes back; that of an equal plant is
    // taken.
    let mut plant_three = fed(&rt, alloc);
    let mut other = fed_with(&rt, alloc, Make::AddConst(10), &[250, 2]);
    let mut product = fed_with(&rt, alloc, Make::MultiplyConst(10), &[250, 1]);
    let own = claimed(&rt, alloc, &mut plant_three, MIDDLE);
    let of_other_items = claimed(&rt, alloc, &mut other, MIDDLE);
    let of_another_block = claimed(&rt, alloc, &mut product, MIDDLE);
    let _ = comes_back(&rt, &mut plant_three, of_other_items.work());
    let _ = comes_back(&rt, &mut plant_three, of_another_block.work());
    let mut equal = fed(&rt, alloc);
    let _in_flight = claimed(&rt, alloc, &mut equal, MIDDLE);
    taken(&rt, &mut equal, own.work());
    Ok(())
}

// What a sink shows from its first item on.
fn shown(rt: &impl Abort, alloc: Global, plant: &Plant<Kind>, sink: u32) -> Items {
    match plant.read(alloc, BlockId(sink), 0, 9) {
        Ok(piece) => piece.items,
        Err(_) => panic!(rt; "sink {sink}"),
    }
}

#[test]
fn a_copy_of_what_a_fork_has_committed_comes_back(rt: HostRuntime) -> Result<(), Fail> {
    let alloc = rt.alloc();
    let blocks = [
        Make::Source,
        Make::AddConst(1),
        Make::AddConst(2),
        Make::Sink,
        Make::Sink,
    ];
    let wires = [(0, 0, 1, 0), (0, 0, 2, 0), (1, 0, 3, 0), (2, 0, 4, 0)];
    let mut plant = plant(&rt, alloc, &blocks, &wires, 4);
    let fed = plant.feed(SOURCE, bytes(&rt, alloc, &[5, 255]), &[]);
    assert!(rt; fed.is_ok(), "fed");
    assert!(rt; plant.step(alloc, SOURCE, 2) == Ok(Step::Did(2)), "given");
    let first = claimed(&rt, alloc, &mut plant, BlockId(1));
    let second = claimed(&rt, alloc, &mut plant, BlockId(2));
    let copy = copied(&rt, alloc, &first);
    taken(&rt, &mut plant, second.work());
    taken(&rt, &mut plant, first.work());
    let before = plant.opening(alloc)?;
    let _ = comes_back(&rt, &mut plant, copy.work());
    assert!(rt; plant.opening(alloc)?.agrees(&before), "as far as before");
    for block in [1, 2] {
        let kept = plant.stored(BlockId(block), 0);
        assert!(rt;
            matches!(kept, Ok(kept) if kept.items == 2),
            "two items behind block {block}"
        );
    }
    for sink in [3, 4] {
        let did = plant.step(alloc, BlockId(sink), 9);
        assert!(rt; did == Ok(Step::Did(2)), "two items, once");
    }
    assert!(rt;
        shown(&rt, alloc, &plant, 3) == bytes(&rt, alloc, &[6, 0]),
        "one more"
    );
    assert!(rt;
        shown(&rt, alloc, &plant, 4) == bytes(&rt, alloc, &[7, 1]),
        "two more"
    );
    Ok(())
}

#[test]
fn each_call_answers(rt: HostRuntime) -> Result<(), Fail> {
    let alloc = rt.alloc();
    let mut plant = chain(&rt, alloc, Make::AddConst(10), 4);
    assert!(rt; matches!(plant.rates(), Rates::Balanced(_)), "balanced");
    assert!(rt; plant.graph().len() == 3, "three blocks");
    assert!(rt;
        plant.source_type(SOURCE) == Ok(ItemType::Byte),
        "a source of bytes"
    );
    assert!(rt;
        plant.source_type(MIDDLE) == Err(PlantFault::NotSource),
        "no source"
    );
    assert!(rt;
        plant.source_type(NOBODY) == Err(PlantFault::NoSuchBlock),
        "no block"
    );
    assert!(rt;
        plant.quiet() && plant.idle() && !plant.all_done(),
        "nothing yet"
    );
    let marks = [mark(&rt, 1, b'k', 7), mark(&rt, 5, b'k', -7)];
    let fed = plant.feed(SOURCE, bytes(&rt, alloc, &[250, 1, 2, 3, 4, 5]), &marks);
    assert!(rt; matches!(fed, Ok(total) if total.0 == 6), "six items");
    let late = plant.feed(SOURCE, bytes(&rt, alloc, &[6]), &marks);
    assert!(rt;
        late == Err(PlantFault::TagPlace),
        "marks before the new items"
    );
    let shorts = Items::empty(alloc, ItemType::Short);
    assert!(rt;
        plant.feed(SOURCE, shorts, &[]) == Err(PlantFault::ItemRange),
        "no bytes"
    );
    assert!(rt;
        plant.step(alloc, SOURCE, 100) == Ok(Step::Did(4)),
        "as many as there is room for"
    );
    let room = Step::Waiting(Need::Room(0));
    assert!(rt; plant.step(alloc, SOURCE, 1) == Ok(room), "no room");
    assert!(rt;
        matches!(plant.stored(SOURCE, 0), Ok(kept) if kept.items == 4 && kept.tags == 1),
        "four items, one tag"
    );
    assert!(rt;
        plant.stored(SOURCE, 1) == Err(PlantFault::NoSuchPort),
        "no such output"
    );
    assert!(rt;
        plant.stored(NOBODY, 0) == Err(PlantFault::NoSuchBlock),
        "no block"
    );
    assert!(rt;
        plant.set(SOURCE, None, Value::Number(1)) == Err(PlantFault::NoSetting),
        "no setting"
    );
    assert!(rt;
        plant.set(MIDDLE, None, Value::Number(300)) == Err(PlantFault::WrongSetting),
        "no byte"
    );
    assert!(rt; plant.step(alloc, MIDDLE, 2) == Ok(Step::Did(2)), "two");
    let floor = plant.set(MIDDLE, Some(1), Value::Number(0));
    assert!(rt; floor == Err(PlantFault::Late { floor: 2 }), "taken before");
    let set = plant.set(MIDDLE, None, Value::Number(100));
    assert!(rt;
        matches!(set, Ok(at) if at.0 == 2),
        "from the third item on"
    );
    assert!(rt;
        matches!(plant.close(SOURCE), Ok(total) if total.0 == 6),
        "closed"
    );
    assert!(rt;
        plant.close(SOURCE) == Err(PlantFault::Closed),
        "closed before"
    );
    run(&rt, alloc, &mut plant, 3);
    assert!(rt; plant.all_done() && plant.quiet(), "all done");
    let Ok(piece) = plant.read(alloc, SINK, 1, 100) else {
        panic!(rt; "read");
    };
    assert!(rt;
        piece.from == 1 && piece.held == 6 && piece.done,
        "five of six"
    );
    assert!(rt;
        piece.items == bytes(&rt, alloc, &[11, 102, 103, 104, 105]),
        "the items"
    );
    assert!(rt; piece.tags.len() == 2, "two tags");
    assert!(rt; plant.read(alloc, SINK, 7, 1).is_err(), "beyond the end");
    assert!(rt; plant.read(alloc, MIDDLE, 0, 1).is_err(), "no sink");
    Ok(())
}

#[test]
fn a_view_shows_all_that_a_sink_holds(rt: HostRuntime) -> Result<(), Fail> {
    let alloc = rt.alloc();
    let mut plant = chain(&rt, alloc, Make::AddConst(10), 4);
    let Ok(nothing) = plant.view(SINK) else {
        panic!(rt; "nothing yet");
    };
    assert!(rt;
        nothing.items.is_empty() && nothing.tags.is_empty() && !nothing.done,
        "nothing yet"
    );
    let marks = [mark(&rt, 0, b'k', 7), mark(&rt, 1, b'k', -7)];
    let fed = plant.feed(SOURCE, bytes(&rt, alloc, &[250, 1]), &marks);
    assert!(rt; fed.is_ok() && plant.close(SOURCE).is_ok(), "fed");
    run(&rt, alloc, &mut plant, 3);
    let Ok(all) = plant.view(SINK) else {
        panic!(rt; "all");
    };
    let both = bytes(&rt, alloc, &[4, 11]);
    assert!(rt; *all.items == both && all.done, "all");
    let offsets = [all.tags[0].offset, all.tags[1].offset];
    assert!(rt; all.tags.len() == 2 && offsets == [0, 1], "both tags");
    assert!(rt;
        matches!(plant.view(MIDDLE), Err(PlantFault::NotSink)),
        "no sink"
    );
    assert!(rt;
        matches!(plant.view(NOBODY), Err(PlantFault::NoSuchBlock)),
        "no block"
    );
    Ok(())
}

// What a plant has shown while it settled, and how often it reported the end.
#[derive(Drop)]
struct Seen {
    given: Vec<u64>,
    ends: u32,
}

impl Watch for Seen {
    fn pause(&self) -> Option<Duration> {
        None
    }

    fn show(&mut self, headway: Headway) {
        if headway.fed == 8 {
            let _ = self.given.push(headway.given);
        }
    }

    fn end(&mut self) {
        self.ends = self.ends.saturating_add(1);
    }
}

#[test]
fn a_watch_is_shown_each_round(rt: HostRuntime) -> Result<(), Fail> {
    let alloc = rt.alloc();
    let makes = [Make::Source, Make::Source, Make::Add, Make::Sink];
    let wires = [(0, 0, 2, 0), (1, 0, 2, 1), (2, 0, 3, 0)];
    let mut plant = plant(&rt, alloc, &makes, &wires, 4);
    for (source, numbers) in [(0, [1, 2, 3, 4, 5].as_slice()), (1, [6, 7, 8].as_slice())] {
        let items = bytes(&rt, alloc, numbers);
        assert!(rt; plant.feed(BlockId(source), items, &[]).is_ok(), "fed");
        assert!(rt; plant.close(BlockId(source)).is_ok(), "closed");
    }
    assert!(rt; plant.headway() == Headway { given: 0, fed: 8 }, "before");
    assert!(rt; plant.idle(), "idle");
    let mut seen = Seen {
        given: Vec::new(alloc),
        ends: 0,
    };
    let settled = plant.settle_watched(alloc, 2, &mut seen)?;
    assert!(rt; settled == Settled::Done, "done");
    // Two of each; two of the first and the last of the second; the last of the first; and then blocks only end.
    assert!(rt; seen.given.as_slice() == [4, 7, 8, 8].as_slice(), "rounds");
    assert!(rt; seen.ends == 1, "the end");
    assert!(rt; plant.headway() == Headway { given: 8, fed: 8 }, "after");
    Ok(())
}

// Writers are stepped before readers, in whichever order the blocks are listed.
#[test]
fn a_piece_goes_through_in_a_round(rt: HostRuntime) -> Result<(), Fail> {
    let alloc = rt.alloc();
    let not = Make::Not;
    let down = [Make::Source, not, not, not, Make::Sink];
    let up = [Make::Sink, not, not, not, Make::Source];
    let middle = [not, Make::Sink, not, Make::Source, not];
    for (case, makes, chain) in [
        ("from the source on", down, [0, 1, 2, 3, 4]),
        ("from the sink on", up, [4, 3, 2, 1, 0]),
        ("in no order", middle, [3, 4, 0, 2, 1]),
    ] {
        let [source, first, second, third, sink] = chain;
        let wires = [(second, 0, third, 0), (third, 0, sink, 0), (source, 0, first, 0), (first, 0, second, 0)];
        let mut plant = plant(&rt, alloc, &makes, &wires, 8);
        let items = bytes(&rt, alloc, &[1, 2, 3, 4, 5, 6, 7, 8]);
        assert!(rt; plant.feed(BlockId(source), items, &[]).is_ok(), "fed");
        assert!(rt; plant.close(BlockId(source)).is_ok(), "closed");
        assert!(rt; plant.idle(), "idle");
        let mut seen = Seen {
            given: Vec::new(alloc),
            ends: 0,
        };
        let settled = plant.settle_watched(alloc, 8, &mut seen)?;
        assert!(rt; settled == Settled::Done, "done");
        // All eight in the first round; and then blocks only end.
        assert!(rt; seen.given.as_slice() == [8, 8].as_slice(), "{case}");
        assert!(rt; plant.view(BlockId(sink)).is_ok_and(|all| all.items.len() == 8), "{case}: all");
    }
    Ok(())
}
