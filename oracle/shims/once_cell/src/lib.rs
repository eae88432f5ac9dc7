//! What document 000 imports of the crate `once_cell`: the lazily made value, which the standard library has by now.

/// The thread-safe half of `once_cell`.
pub mod sync {
    pub use std::sync::LazyLock as Lazy;
}
