#![doc = include_str!("../README.md")]
#![deny(unsafe_code, missing_docs)]

mod errno;
mod file;
mod listing;
mod raw;
mod volume;

pub use errno::{DeltaError, EditError, Errno, LoadError};
pub use file::File;
pub use listing::{Entry, Kind, Listing, Stat, Walk, WalkEntry};
pub use volume::{At, Frozen, Shape, Transaction, Volume};

/// What the linked library was built from: the release, the commit, and `proved` or `unproved`, as
/// `0.2.0, commit 0123456789ab, proved`.
pub const BUILD: &str = env!("DOORVERVAIN_BUILD");
