//! The crate `hyphenation-verified` in the place of the crate `hyphenation`.
#![deny(missing_docs)]
pub use verified::*;
