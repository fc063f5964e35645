//! The table of kinds: a row for each kind of block, and a second one where another type says more.
ghost use Rattle.std.specs.Prelude.{◌≡◌};

use crate::bit_streams::print_bit_streams;
use crate::contest::{Row, noise};
use crate::item::Item;
use crate::kind_arithmetic::print_arithmetic;
use crate::kind_contest::{Call, ITEMS, print_kind, unfit};
use crate::kind_plain::{Bits, Bytes, Ints, Shorts};
use bit_blocks::{
    AdditiveScrambler, Descrambler, DiffDecoder, DiffEncoder, PackKBits, Register, Scrambler,
    UnpackKBits,
};
use fir_blocks::{Fir, InterpFir};
use items::ItemType::{Byte, Int, Short};
use math_blocks::{MapBb, MovingSum, Table};
use rate_blocks::{
    Deinterleave, Delay, Head, Integrate, Interleave, KeepOneInN, Repeat, SkipHead, StreamMux,
};
use std::alloc::Global;
use std::io;

/// An item taken and one given in a firing.
pub const EACH: Call = Call {
    inputs: 1,
    outputs: 1,
    firings: 4096,
};

/// Prints each row once it is measured.
pub fn print_kinds(rt: &HostRuntime) -> io::Result<()> {
    println!(rt; "")?;
    println!(rt; "kind               type              items    M items/s   plain loop   ratio")?;
    print_arithmetic(rt)?;
    print_sums(rt)?;
    print_filters(rt)?;
    print_rates(rt)?;
    print_turns(rt)?;
    print_parameters(rt)?;
    print_moves(rt)?;
    print_codes(rt)?;
    print_bit_streams(rt)?;
    print_registers(rt)
}

/// So many ports and firings.
pub fn calls(inputs: usize, outputs: usize, firings: u64) -> Call
    ensures { result ≡ record { inputs = inputs; outputs = outputs; firings = firings } }
{
    Call {
        inputs,
        outputs,
        firings,
    }
}

/// What a row says of its kind.
pub fn row<'a>(kernel: &'a str, item: &'a str) -> Row<'a> {
    Row {
        kernel,
        item,
        length: ITEMS,
    }
}

fn print_sums(rt: &HostRuntime) -> io::Result<()> {
    let alloc = rt.alloc();
    let table = noise::<u8>(alloc, 256)?;
    let numbers = numbers_of(alloc, &table)?;
    print_kind(
        rt,
        row("map_bb", "byte"),
        MapBb::new(alloc, &numbers),
        EACH,
        &Bytes::MapBb(&table),
    )?;
    print_kind(
        rt,
        row("table", "byte"),
        Table::new(alloc, Byte, &numbers),
        EACH,
        &Bytes::MapBb(&table),
    )?;
    print_kind(
        rt,
        row("moving_sum", "byte 16"),
        MovingSum::new(Byte, 16),
        EACH,
        &Bytes::MovingSum(16),
    )
}

fn print_filters(rt: &HostRuntime) -> io::Result<()> {
    let alloc = rt.alloc();
    let taps = noise::<i16>(alloc, 64)?;
    let numbers = numbers_of(alloc, &taps)?;
    let shorts = Fir::new(alloc, Short, &numbers, 1, 15);
    print_kind(
        rt,
        row("fir", "short 64 taps"),
        shorts,
        EACH,
        &Shorts::Fir(&taps),
    )?;
    let ints = Fir::new(alloc, Int, &numbers, 1, 15);
    print_kind(rt, row("fir", "int 64 taps"), ints, EACH, &Ints::Fir(&taps))?;
    let fourfold = InterpFir::new(alloc, Short, &numbers, 4, 15);
    print_kind(
        rt,
        row("interp_fir", "short 64 by 4"),
        fourfold,
        calls(1, 1, 1024),
        &Shorts::InterpFir(&taps),
    )
}

// The items as numbers, for a maker of blocks.
fn numbers_of<T: Item>(alloc: Global, items: &[T]) -> io::Result<Vec<i64>> {
    let mut numbers = Vec::new(alloc);
    for item in items {
        numbers.push(item.widen())?;
    }
    Ok(numbers)
}

fn print_rates(rt: &HostRuntime) -> io::Result<()> {
    let eighth = calls(1, 1, 512);
    print_kind(
        rt,
        row("keep_one_in_n", "byte 8"),
        KeepOneInN::new(Byte, 8),
        eighth,
        &Bytes::KeepOneInN(8),
    )?;
    print_kind(
        rt,
        row("integrate", "byte 8"),
        Integrate::new(Byte, 8),
        eighth,
        &Bytes::Integrate(8),
    )?;
    print_kind(
        rt,
        row("repeat", "byte 8"),
        Repeat::new(Byte, 8),
        eighth,
        &Bytes::Repeat(8),
    )
}

fn print_turns(rt: &HostRuntime) -> io::Result<()> {
    print_kind(
        rt,
        row("interleave", "byte 2"),
        Interleave::new(Byte, 2),
        calls(2, 1, 2048),
        &Bytes::Interleave,
    )?;
    print_kind(
        rt,
        row("deinterleave", "byte 2"),
        Deinterleave::new(Byte, 2),
        calls(1, 2, 2048),
        &Bytes::Deinterleave,
    )?;
    print_kind(
        rt,
        row("stream_mux", "byte 12 4"),
        StreamMux::new(Byte, &[12, 4]),
        calls(2, 1, 256),
        &Bytes::StreamMux(12, 4),
    )
}

// Kinds again, with other code for other parameters.
fn print_parameters(rt: &HostRuntime) -> io::Result<()> {
    print_kind(
        rt,
        row("repeat", "byte 3"),
        Repeat::new(Byte, 3),
        calls(1, 1, 1365),
        &Bytes::Repeat(3),
    )?;
    print_kind(
        rt,
        row("repeat", "byte 20"),
        Repeat::new(Byte, 20),
        calls(1, 1, 204),
        &Bytes::Repeat(20),
    )?;
    print_kind(
        rt,
        row("stream_mux", "byte 2 3"),
        StreamMux::new(Byte, &[2, 3]),
        calls(2, 1, 819),
        &Bytes::StreamMux(2, 3),
    )?;
    print_kind(
        rt,
        row("diff_encoder", "byte 10"),
        DiffEncoder::new(10),
        EACH,
        &Bytes::DiffEncoder(10),
    )
}

fn print_moves(rt: &HostRuntime) -> io::Result<()> {
    print_kind(
        rt,
        row("head", "byte"),
        Head::new(Byte, 4096),
        EACH,
        &Bytes::SkipHead(0),
    )?;
    print_kind(
        rt,
        row("skiphead", "byte 64"),
        SkipHead::new(Byte, 64),
        EACH,
        &Bytes::SkipHead(64),
    )?;
    print_kind(
        rt,
        row("delay", "byte 64"),
        Delay::new(Byte, 64),
        EACH,
        &Bytes::Delay(64),
    )
}

fn print_codes(rt: &HostRuntime) -> io::Result<()> {
    let eighth = calls(1, 1, 512);
    print_kind(
        rt,
        row("pack_k_bits", "byte 8"),
        PackKBits::new(8),
        eighth,
        &Bytes::PackKBits(8),
    )?;
    print_kind(
        rt,
        row("unpack_k_bits", "byte 8"),
        UnpackKBits::new(8),
        eighth,
        &Bytes::UnpackKBits(8),
    )?;
    print_kind(
        rt,
        row("diff_encoder", "byte 4"),
        DiffEncoder::new(4),
        EACH,
        &Bytes::DiffEncoder(4),
    )?;
    print_kind(
        rt,
        row("diff_decoder", "byte 4"),
        DiffDecoder::new(4),
        EACH,
        &Bytes::DiffDecoder(4),
    )
}

// The register of x^7 + x^4 + 1.
fn register() -> io::Result<Register> {
    match Register::new(7, 72, 1) {
        Ok(register) => Ok(register),
        Err(_) => Err(unfit()),
    }
}

fn print_registers(rt: &HostRuntime) -> io::Result<()> {
    let bits = Bits {
        mask: 72,
        init: 1,
        all: 127,
    };
    let (one, other, third) = (register()?, register()?, register()?);
    print_kind(
        rt,
        row("scrambler", "byte 7 bits"),
        Ok(Scrambler::new(one)),
        EACH,
        &Bytes::Scrambler(bits),
    )?;
    print_kind(
        rt,
        row("descrambler", "byte 7 bits"),
        Ok(Descrambler::new(other)),
        EACH,
        &Bytes::Descrambler(bits),
    )?;
    print_kind(
        rt,
        row("additive_scrambler", "byte 7 bits"),
        Ok(AdditiveScrambler::new(third)),
        EACH,
        &Bytes::AdditiveScrambler(bits),
    )
}
