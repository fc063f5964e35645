//! The rows of the kinds of arithmetic, logic and conversion.

use crate::kind_contest::{Call, print_kind};
use crate::kind_plain::{Bytes, Ints, Narrowed};
use crate::kind_table::{EACH, row};
use items::ItemType::{Byte, Int, Short};
use math_blocks::{
    Abs, Add, AddConst, And, AndConst, Clip, Convert, Maximum, Minimum, Multiply, MultiplyConst,
    Mute, Not, Or, OrConst, Scale, Sub, Xor, XorConst,
};
use std::io;

// An item of each of two inputs taken and one given in a firing.
const PAIRS: Call = Call {
    inputs: 2,
    outputs: 1,
    firings: 4096,
};

/// Prints each row once it is measured.
pub fn print_arithmetic(rt: &HostRuntime) -> io::Result<()> {
    print_constants(rt)?;
    print_bit_constants(rt)?;
    print_joins(rt)?;
    print_more_joins(rt)?;
    print_changes(rt)?;
    print_ranges(rt)
}

fn print_constants(rt: &HostRuntime) -> io::Result<()> {
    print_kind(
        rt,
        row("add_const", "byte"),
        AddConst::new(Byte, 10),
        EACH,
        &Bytes::AddConst(10),
    )?;
    print_kind(
        rt,
        row("multiply_const", "byte"),
        MultiplyConst::new(Byte, 3),
        EACH,
        &Bytes::MultiplyConst(3),
    )?;
    print_kind(
        rt,
        row("multiply_const", "int"),
        MultiplyConst::new(Int, 3),
        EACH,
        &Ints::MultiplyConst(3),
    )?;
    print_kind(
        rt,
        row("scale", "byte"),
        Scale::new(Byte, 181, 7),
        EACH,
        &Bytes::Scale(181, 7),
    )?;
    print_kind(
        rt,
        row("scale", "int"),
        Scale::new(Int, -181, 7),
        EACH,
        &Ints::Scale(-181, 7),
    )
}

fn print_bit_constants(rt: &HostRuntime) -> io::Result<()> {
    print_kind(
        rt,
        row("and_const", "byte"),
        AndConst::new(Byte, 170),
        EACH,
        &Bytes::AndConst(170),
    )?;
    print_kind(
        rt,
        row("or_const", "byte"),
        OrConst::new(Byte, 170),
        EACH,
        &Bytes::OrConst(170),
    )?;
    print_kind(
        rt,
        row("xor_const", "byte"),
        XorConst::new(Byte, 170),
        EACH,
        &Bytes::XorConst(170),
    )
}

fn print_joins(rt: &HostRuntime) -> io::Result<()> {
    print_kind(
        rt,
        row("add", "byte"),
        Ok(Add::new(Byte)),
        PAIRS,
        &Bytes::Add,
    )?;
    print_kind(
        rt,
        row("and", "byte"),
        Ok(And::new(Byte)),
        PAIRS,
        &Bytes::And,
    )?;
    print_kind(rt, row("or", "byte"), Ok(Or::new(Byte)), PAIRS, &Bytes::Or)?;
    print_kind(
        rt,
        row("xor", "byte"),
        Ok(Xor::new(Byte)),
        PAIRS,
        &Bytes::Xor,
    )
}

fn print_more_joins(rt: &HostRuntime) -> io::Result<()> {
    print_kind(
        rt,
        row("multiply", "byte"),
        Ok(Multiply::new(Byte)),
        PAIRS,
        &Bytes::Multiply,
    )?;
    print_kind(
        rt,
        row("multiply", "int"),
        Ok(Multiply::new(Int)),
        PAIRS,
        &Ints::Multiply,
    )?;
    print_kind(
        rt,
        row("sub", "byte"),
        Ok(Sub::new(Byte)),
        PAIRS,
        &Bytes::Sub,
    )?;
    print_kind(
        rt,
        row("minimum", "byte"),
        Ok(Minimum::new(Byte)),
        PAIRS,
        &Bytes::Minimum,
    )?;
    print_kind(
        rt,
        row("maximum", "byte"),
        Ok(Maximum::new(Byte)),
        PAIRS,
        &Bytes::Maximum,
    )
}

fn print_changes(rt: &HostRuntime) -> io::Result<()> {
    print_kind(
        rt,
        row("not", "byte"),
        Ok(Not::new(Byte)),
        EACH,
        &Bytes::Not,
    )?;
    print_kind(
        rt,
        row("convert", "short byte"),
        Ok(Convert::new(Short, Byte)),
        EACH,
        &Narrowed,
    )
}

fn print_ranges(rt: &HostRuntime) -> io::Result<()> {
    print_kind(rt, row("abs", "int"), Ok(Abs::new(Int)), EACH, &Ints::Abs)?;
    print_kind(
        rt,
        row("clip", "byte"),
        Clip::new(Byte, 16, 235),
        EACH,
        &Bytes::Clip(16, 235),
    )?;
    print_kind(
        rt,
        row("mute", "byte"),
        Mute::new(Byte, 0),
        EACH,
        &Bytes::SkipHead(0),
    )
}
