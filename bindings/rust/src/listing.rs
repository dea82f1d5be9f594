//! Entries and listings of directories.
use crate::errno::Errno;
use std::ffi::OsString;
use std::iter::FusedIterator;
use std::os::unix::ffi::{OsStrExt, OsStringExt};
use std::path::{Path, PathBuf};

/// The kind of an entry.
#[derive(Clone, Copy, Debug, PartialEq, Eq, Hash)]
pub enum Kind {
    /// A directory.
    Directory,
    /// A file.
    File,
}

/// The result of `stat`.
#[derive(Clone, Copy, Debug, PartialEq, Eq, Hash)]
pub struct Stat {
    /// Whether it is a directory or a file.
    pub kind: Kind,
    /// The size in bytes; 0 for a directory.
    pub size: u64,
    /// Its mtime: the timestamp of its last change, with the volume's own clock in nanoseconds since 1970.
    pub modified: u64,
}

impl Stat {
    /// Whether it is a directory.
    pub fn is_dir(&self) -> bool {
        self.kind == Kind::Directory
    }

    /// Whether it is a file.
    pub fn is_file(&self) -> bool {
        self.kind == Kind::File
    }
}

/// An entry of a directory.
#[derive(Clone, Debug, PartialEq, Eq, Hash)]
pub struct Entry {
    /// Its name, of which no byte is 0 or a slash.
    pub name: OsString,
    /// Whether it is a directory or a file.
    pub kind: Kind,
}

impl Entry {
    /// Whether it is a directory.
    pub fn is_dir(&self) -> bool {
        self.kind == Kind::Directory
    }

    /// Whether it is a file.
    pub fn is_file(&self) -> bool {
        self.kind == Kind::File
    }
}

/// Iterates over the entries of a directory, in byte order of their names. It owns a copy of the listing: later changes of the tree do
/// not affect it, and it borrows nothing. `len` is the number of entries that are left.
///
/// ```
/// # use doorvervain::{Errno, Volume};
/// let volume = Volume::new()?;
/// volume.mkdir("/b")?;
/// volume.write("/a", "text")?;
/// let listing = volume.readdir("/")?;
/// volume.rmtree("/b")?;
/// assert_eq!(listing.len(), 2);
/// assert!(listing.map(|entry| entry.name).eq(["a", "b"]));
/// # Ok::<(), Errno>(())
/// ```
#[derive(Clone, Debug, PartialEq, Eq)]
pub struct Listing {
    // For each entry `d` or `f`, its name and a byte 0.
    bytes: Vec<u8>,
    /// Where the next entry begins.
    at: usize,
    left: usize,
}

impl Listing {
    pub(crate) fn of_bytes(bytes: Vec<u8>) -> Listing {
        let left = bytes.iter().filter(|byte| **byte == 0).count();
        Listing { bytes, at: 0, left }
    }

    /// Whether no entry is left.
    pub fn is_empty(&self) -> bool {
        self.left == 0
    }
}

impl Iterator for Listing {
    type Item = Entry;

    fn next(&mut self) -> Option<Entry> {
        let rest = &self.bytes[self.at..];
        let end = rest.iter().position(|byte| *byte == 0)?;
        let (letter, name) = rest[..end].split_first()?;
        let kind = if *letter == b'd' { Kind::Directory } else { Kind::File };
        let name = OsString::from_vec(name.to_vec());
        self.at += end + 1;
        self.left -= 1;
        Some(Entry { name, kind })
    }

    fn size_hint(&self) -> (usize, Option<usize>) {
        (self.left, Some(self.left))
    }
}

impl ExactSizeIterator for Listing {}

impl FusedIterator for Listing {}

/// Whatever can list a directory.
pub(crate) trait Lists {
    fn list(&self, path: &[u8]) -> Result<Listing, Errno>;
}

/// An entry of a walk.
#[derive(Clone, Debug, PartialEq, Eq, Hash)]
pub struct WalkEntry {
    /// Its path.
    pub path: PathBuf,
    /// Whether it is a directory or a file.
    pub kind: Kind,
}

/// Iterates over an entry and everything below it: each directory right before its entries, and names in byte order. A directory is
/// listed when it is returned. An error is returned once, and then the walk continues with the rest.
pub struct Walk<'a> {
    tree: &'a dyn Lists,
    // What is still to be returned, the next one last.
    pending: Vec<WalkEntry>,
    failed: Option<Errno>,
}

impl<'a> Walk<'a> {
    pub(crate) fn new(tree: &'a dyn Lists, path: &Path, top: Result<Stat, Errno>) -> Walk<'a> {
        let top = top.map(|stat| WalkEntry {
            path: path.to_owned(),
            kind: stat.kind,
        });
        let (pending, failed) = match top {
            Ok(entry) => (vec![entry], None),
            Err(error) => (Vec::new(), Some(error)),
        };
        Walk { tree, pending, failed }
    }

    /// Inserts the entries of a directory before what is pending.
    fn enter(&mut self, path: &Path) {
        match self.tree.list(path.as_os_str().as_bytes()) {
            Ok(listing) => {
                let from = self.pending.len();
                self.pending.extend(listing.map(|entry| WalkEntry {
                    path: path.join(entry.name),
                    kind: entry.kind,
                }));
                self.pending[from..].reverse();
            }
            Err(error) => self.failed = Some(error),
        }
    }
}

impl Iterator for Walk<'_> {
    type Item = Result<WalkEntry, Errno>;

    fn next(&mut self) -> Option<Result<WalkEntry, Errno>> {
        if let Some(error) = self.failed.take() {
            return Some(Err(error));
        }
        let next = self.pending.pop()?;
        if next.kind == Kind::Directory {
            self.enter(&next.path);
        }
        Some(Ok(next))
    }
}
