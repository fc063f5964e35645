pub mod Squelch
