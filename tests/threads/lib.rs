//! Tests of runs in threads, of what no contract says: that workers overlap, that no wake-up is lost, that a stop is
//! seen, and that each run ends. Each waits for a bounded time at most.

mod adaptive;
mod asked;
mod callers;
mod desks;
mod drawn;
mod ends;
mod faultless;
mod gates;
mod growing;
mod helpers;
mod leaving;
mod lengths;
mod live_runs;
mod live_ways;
mod measured;
mod overlaps;
mod probes;
mod random;
mod random_callers;
mod readers;
mod refusals;
mod replays;
mod runs;
mod setters;
mod stops;
mod taps;
mod top_blocks;
mod wakes;
mod watched;
mod ways;
mod wide;
mod writers;
