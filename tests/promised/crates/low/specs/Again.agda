-- The same under another name.
pub use Rattle.low.specs.Base.{weight}
