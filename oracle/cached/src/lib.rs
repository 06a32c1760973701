//! The part of cached that cubesim uses: the attribute `cached`.
pub mod proc_macro {
    pub use cached_macro::cached;
}
