// Stands in for the crate once_cell by what the standard library has.
pub mod sync {
    pub use std::sync::LazyLock as Lazy;
}
