//! A block that gives zeros in place of low bytes.
ghost use Rattle.std.specs.Prelude.{◌≡◌, ◌≤◌, ◌-◌, pos, [], length, map, vec_len, vec_capacity};
ghost use Rattle.own_block.specs.Squelch.{squelch_of, squelched};

use magbelu::custom::{Batch, Block, ByPace, Held, Shape, Single, work_single};
use magbelu::streams::{ItemType, Items};

/// Each byte that is at least `least`, and 0 in place of one below.
#[derive(Debug, Drop, PartialEq, Eq)]
pub struct Squelch {
    least: u8,
}

impl Squelch {
    ghost use Rattle.own_block.specs.Squelch.{squelch};

    /// The block that lets bytes from `least` on pass.
    pub fn new(least: u8) -> Squelch
        ensures { squelch_of result ≡ squelch least }
    {
        Squelch { least }
    }
}

fn squelch_byte(least: u8, byte: u8) -> u8
    ensures { pos result ≡ squelched least (pos byte) }
{
    if byte < least { 0 } else { byte }
}

// Writes the bytes, squelched, into an empty `out` with room for them.
fn write_squelched(least: u8, bytes: &[u8], out: &mut Vec<u8>)
    requires empty { map pos out.old.items ≡ [] }
    requires room { length bytes.now ≤ vec_capacity out.old - vec_len out.old }
    ensures items { map pos out.new.items ≡ map (squelched least) (map pos bytes.now) }
    ensures capacity { vec_capacity out.old ≤ vec_capacity out.new }
{
    for byte in bytes {
        out.push_reserved(squelch_byte(least, *byte));
    }
}

impl Single for Squelch {
    ghost use Rattle.std.specs.Prelude.{refl};

    ghost equation = { squelch_of };

    fn fill(&self, batch: &Batch<'_>, out: &mut Items) -> u64 {
        match (batch.window, out) {
            (Items::Byte(bytes), Items::Byte(out)) => write_squelched(self.least, bytes, out),
            _ => unreachable!(),
        }
        0
    }

    ghost single = { λ b. record { in_least = refl; in_most = refl; out_least = refl; out_most = refl } };
}

impl Block for Squelch {
    ghost use Rattle.std.proofs.Common.{ap};
    ghost use Rattle.block_trait.specs.SameItem.{same_number};
    ghost use Rattle.own_block.specs.Squelch.{squelch, squelch-lawful};

    ghost meaning = { squelch_of };

    type Places = ByPace;

    fn shape(&self, _input: usize) -> Shape<'_> {
        Shape::sync(ItemType::Byte, ItemType::Byte)
    }

    fn work(
        &self,
        state: u64,
        first: u64,
        count: u64,
        windows: &[Items],
        held: &[Held],
        out: &mut [Items],
    ) -> u64 {
        work_single(self, state, first, count, windows, held, out)
    }

    ghost lawful = { λ b. squelch-lawful b.least };

    ghost same = { λ a b e. ap squelch (same_number a.least b.least e) };
}
