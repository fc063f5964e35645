//! Streams whose items take turns.

use super::in_turn::MOST;
use lane_kernels::{SimdLane, deinterleave, interleave};
use std::alloc::{AllocError, Global};
use std::process::Abort;

/// The most streams.
const STREAMS: usize = 16;

// Whether so many streams, each of one item again and again, give these items in turn and are told apart again.
fn take_turns<T: SimdLane + PartialEq>(
    alloc: Global,
    items: &[T; STREAMS],
    streams: usize,
    rounds: usize,
) -> Result<bool, AllocError> {
    let mut repeated = Vec::new(alloc);
    for item in &items[..streams] {
        repeated.push([*item; MOST])?;
    }
    let mut slices: Vec<&[T]> = Vec::new(alloc);
    for stream in &repeated {
        slices.push(&stream[..rounds])?;
    }
    let mut woven = Vec::with_capacity(alloc, 1 + streams * rounds)?;
    woven.push_reserved(items[15]);
    interleave(&slices, rounds, &mut woven);
    if woven.len() != 1 + streams * rounds || woven[0] != items[15] {
        return Ok(false);
    }
    let mut holds = true;
    for port in 0..streams {
        let mut apart = Vec::with_capacity(alloc, rounds)?;
        deinterleave(&woven[1..], streams, port, &mut apart);
        holds = holds && apart[..] == repeated[port][..rounds];
        for round in 0..rounds {
            holds = holds && woven[1 + round * streams + port] == items[port];
        }
    }
    Ok(holds)
}

fn assert_turns<T: SimdLane + PartialEq>(
    rt: &impl Abort,
    alloc: Global,
    items: &[T; STREAMS],
) -> Result<(), AllocError> {
    for streams in 1..STREAMS + 1 {
        for rounds in 0..MOST + 1 {
            let holds = take_turns(alloc, items, streams, rounds)?;
            assert!(rt; holds, "{streams} streams, {rounds} rounds");
        }
    }
    Ok(())
}

// Of the bytes 0, 1, 2 and so on, which of them each of so many ports gets.
fn assert_apart(rt: &impl Abort, alloc: Global, streams: usize) -> Result<(), AllocError> {
    let mut bytes = Vec::with_capacity(alloc, 256)?;
    for byte in 0..256 {
        bytes.push_reserved(byte as u8);
    }
    for items in 0..257 {
        for port in 0..streams {
            let mut apart = Vec::with_capacity(alloc, 1 + items / streams)?;
            apart.push_reserved(7);
            deinterleave(&bytes[..items], streams, port, &mut apart);
            assert!(rt;
                apart.len() == 1 + items / streams && apart[0] == 7,
                "{items} bytes, {streams} ports, port {port}"
            );
            for k in 0..items / streams {
                assert!(rt;
                    apart[1 + k] as usize == streams * k + port,
                    "{items} bytes, {streams} ports, port {port}, {k}"
                );
            }
        }
    }
    Ok(())
}

#[test]
fn streams_take_turns(rt: HostRuntime) -> Result<(), AllocError> {
    let bytes = [255, 0, 1, 2, 3, 4, 5, 6, 7, 8, 9, 10, 11, 12, 13, 14];
    assert_turns::<u8>(&rt, rt.alloc(), &bytes)?;
    let shorts = [-32768, 32767, 0, 1, 2, 3, 4, 5, 6, 7, 8, 9, 10, 11, 12, 13];
    assert_turns::<i16>(&rt, rt.alloc(), &shorts)?;
    let ints = [
        -2147483648,
        2147483647,
        0,
        1,
        2,
        3,
        4,
        5,
        6,
        7,
        8,
        9,
        10,
        11,
        12,
        13,
    ];
    assert_turns::<i32>(&rt, rt.alloc(), &ints)?;
    for streams in 1..10 {
        assert_apart(&rt, rt.alloc(), streams)?;
    }
    let mut woven = Vec::with_capacity(rt.alloc(), 6)?;
    interleave::<u8>(&[&[1, 2, 3], &[10, 20, 30]], 3, &mut woven);
    assert!(&rt; woven[..] == [1, 10, 2, 20, 3, 30], "two streams in turn");
    let mut apart = Vec::with_capacity(rt.alloc(), 2)?;
    deinterleave::<u8>(&[1, 2, 3, 4, 5, 6, 7], 3, 1, &mut apart);
    assert!(&rt; apart[..] == [2, 5], "the second of three streams");
    Ok(())
}
