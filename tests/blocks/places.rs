//! A block of the tests' own that says itself where tags go, alone and in a plant.
ghost use Rattle.std.specs.Prelude.{◌*◌, ◌/◌, ℕ, Some, None};
ghost use Rattle.stream_model.specs.Meaning.{Meaning};
ghost use Rattle.kinds.specs.Kind.{meaning_of};

use block_trait::{Block, Held, Pace, Placing, Policy, Shape};
use either_block::Either;
use flowgraph::{BlockId, Graph, Options};
use items::{ItemType, Items, Mark, TagKey};
use kinds::{Kind, VectorSink, VectorSource};
use plant::{Plant, Settled};
use rate_blocks::KeepOneInN;
use std::alloc::Global;
use std::process::Abort;
use std::test::Fail;

// A block of any kind, but for its tags: at a rate each goes to the first item that the firing gives which takes its
// item.
#[derive(Debug, Drop, PartialEq, Eq)]
struct Down {
    kind: Kind,
}

impl Placing<Down> for Down {
    ghost place_of = { λ b p s. elim ((meaning_of b.kind).rate p) as (λ r. ℕ) [ None ↦ (meaning_of b.kind).place p s | Some r ↦ s / r.0 * r.1 ] };

    fn place(block: &Down, input: usize, offset: u64) -> u64 {
        match block.kind.rate(input) {
            Some((taken, given)) => offset / taken * given,
            None => block.kind.place(input, offset),
        }
    }
}

impl Block for Down {
    ghost meaning = { λ b. record (meaning_of b.kind) { place = λ p s. elim ((meaning_of b.kind).rate p) as (λ r. ℕ) [ None ↦ (meaning_of b.kind).place p s | Some r ↦ s / r.0 * r.1 ] } };

    type Places = Down;

    fn shape(&self, input: usize) -> Shape<'_> {
        let shape = self.kind.shape(input);
        let pace = match shape.pace {
            Pace::Rate(taken, given) | Pace::Turns(taken, given, _) => Pace::Placed(taken, given),
            pace => pace,
        };
        Shape { pace, ..shape }
    }

    fn work(
        &self,
        state: u64,
        first: u64,
        count: u64,
        windows: &[Items],
        held: &[Held],
        out: &mut [Items],
    ) -> u64 {
        self.kind.work(state, first, count, windows, held, out)
    }

    // (unproved, as all of these tests)
    ghost lawful = { ? };

    ghost same = { ? };
}

fn keep_one_in_three(rt: &impl Abort) -> Kind {
    match KeepOneInN::new(ItemType::Byte, 3) {
        Ok(block) => Kind::KeepOneInN(block),
        Err(_) => panic!(rt; "a decimator"),
    }
}

fn keep_down(rt: &impl Abort) -> Down {
    of_kind(keep_one_in_three(rt))
}

fn of_kind(kind: Kind) -> Down {
    Down { kind }
}

fn source() -> Kind {
    Kind::VectorSource(VectorSource::new(ItemType::Byte))
}

fn sink() -> Kind {
    Kind::VectorSink(VectorSink::new(ItemType::Byte))
}

// The plant of these blocks, joined so, each by its only ports.
fn plant<B: Block, const N: usize>(
    rt: &impl Abort,
    alloc: Global,
    blocks: [B; N],
    joins: &[(u32, u32)],
) -> Result<Plant<B>, Fail> {
    let options = Options {
        policy: Policy::All,
        multiple: 1,
        capacity: 8,
    };
    let mut graph = Graph::new(alloc);
    let mut name = b'a';
    for block in Vec::from_array(alloc, blocks)? {
        let added = graph.add_block(alloc, &[name], block, options);
        assert!(rt; added.is_ok(), "a block");
        name += 1;
    }
    for (from, to) in joins {
        let joined = graph.connect(BlockId(*from), 0, BlockId(*to), 0);
        assert!(rt; joined.is_ok(), "connected");
    }
    let Ok(valid) = graph.validate(alloc) else {
        panic!(rt; "the graph is refused");
    };
    match Plant::open(alloc, valid) {
        Ok(plant) => Ok(plant),
        Err(_) => panic!(rt; "not opened"),
    }
}

// Feeds nine bytes with five tags to the first block, and runs the plant to its end.
fn run<B: Block>(rt: &impl Abort, alloc: Global, plant: &mut Plant<B>) -> Result<(), Fail> {
    let Some(key) = TagKey::new(b"k") else {
        panic!(rt; "a key");
    };
    let items = Items::from_numbers(alloc, ItemType::Byte, &[1, 2, 3, 4, 5, 6, 7, 8, 9])?;
    let mut marks = Vec::new(alloc);
    for offset in [0, 2, 5, 6, 8] {
        marks.push(Mark {
            offset,
            key,
            value: 7,
        })?;
    }
    assert!(rt; plant.feed(BlockId(0), items, &marks).is_ok(), "fed");
    assert!(rt; plant.close(BlockId(0)).is_ok(), "closed");
    assert!(rt; plant.settle(alloc, 2)? == Settled::Done, "done");
    Ok(())
}

// The sink has each third byte, and tags on these of them.
fn has_thirds<B: Block>(
    rt: &impl Abort,
    alloc: Global,
    plant: &Plant<B>,
    sink: u32,
    tags: &[u64],
) -> Result<(), Fail> {
    let Ok(piece) = plant.read(alloc, BlockId(sink), 0, 8) else {
        panic!(rt; "not read");
    };
    let thirds = Items::from_numbers(alloc, ItemType::Byte, &[3, 6, 9])?;
    assert!(rt; piece.items == thirds, "items");
    let mut shown = Vec::new(alloc);
    for tag in &piece.tags {
        shown.push(tag.offset)?;
    }
    assert!(rt; shown.as_slice() == tags, "tags");
    Ok(())
}

#[test]
fn a_block_places_its_tags(rt: HostRuntime) -> Result<(), Fail> {
    let block = keep_down(&rt);
    for (offset, place) in [(0, 0), (1, 0), (2, 0), (3, 1), (5, 1), (6, 2)] {
        assert!(rt; block.place(0, offset) == place, "the place of {offset}");
    }
    assert!(rt; block.rate(0) == Some((3, 1)), "the rate");
    assert!(rt;
        block.taken(0, 4) == 12 && block.given(4) == 4,
        "the counts"
    );
    Ok(())
}

#[test]
fn a_sink_shows_tags_where_the_block_puts_them(rt: HostRuntime) -> Result<(), Fail> {
    let alloc = rt.alloc();
    let blocks = [of_kind(source()), keep_down(&rt), of_kind(sink())];
    let mut plant = plant(&rt, alloc, blocks, &[(0, 1), (1, 2)])?;
    run(&rt, alloc, &mut plant)?;
    // (the nearest items would be 0, 1, 2, 2, and 3, which there is not)
    has_thirds(&rt, alloc, &plant, 2, &[0, 0, 1, 2, 2])
}

#[test]
fn blocks_of_two_types_place_tags_each_by_its_own(rt: HostRuntime) -> Result<(), Fail> {
    let alloc = rt.alloc();
    let blocks = [
        Either::Right(source()),
        Either::Left(keep_down(&rt)),
        Either::Right(keep_one_in_three(&rt)),
        Either::Right(sink()),
        Either::Right(sink()),
    ];
    let joins = [(0, 1), (0, 2), (1, 3), (2, 4)];
    let mut plant = plant(&rt, alloc, blocks, &joins)?;
    run(&rt, alloc, &mut plant)?;
    has_thirds(&rt, alloc, &plant, 3, &[0, 0, 1, 2, 2])?;
    has_thirds(&rt, alloc, &plant, 4, &[0, 1, 2, 2])
}
