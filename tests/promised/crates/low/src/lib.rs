//! The lower crate.

/// How large.
#[derive(Clone, Copy)]
pub enum Size {
    Small,
    /// So large.
    Large(u32),
}
