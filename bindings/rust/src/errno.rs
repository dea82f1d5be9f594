//! Errors.
use std::error::Error;
use std::{fmt, io};

/// The error of a call, with the names of POSIX.
///
/// ```
/// use doorvervain::{Errno, Volume};
/// use std::io;
///
/// let volume = Volume::new()?;
/// let refused = volume.mkdir("/a/b").unwrap_err();
/// assert_eq!(refused, Errno::ENOENT);
/// assert_eq!(refused.to_string(), "ENOENT: no such file or directory");
/// assert_eq!(io::Error::from(refused).kind(), io::ErrorKind::NotFound);
/// # Ok::<(), Errno>(())
/// ```
#[derive(Clone, Copy, Debug, PartialEq, Eq, Hash)]
pub enum Errno {
    /// No such file, directory or snapshot.
    ENOENT = 1,
    /// Not a directory.
    ENOTDIR = 2,
    /// A directory.
    EISDIR = 3,
    /// The path or snapshot exists already.
    EEXIST = 4,
    /// The directory is not empty.
    ENOTEMPTY = 5,
    /// Not permitted: to unlink a directory.
    EPERM = 6,
    /// No path, name or shape; a move below itself.
    EINVAL = 7,
    /// A name or path too long.
    ENAMETOOLONG = 8,
    /// A file too large.
    EFBIG = 9,
    /// The root, which stays; a transaction is open.
    EBUSY = 10,
    /// Allocation failure.
    ENOMEM = 11,
    /// There are already 64 snapshots.
    ENOSPC = 12,
}

/// Each error with its name, its message, and Linux's number for it, in the order of the library's numbers.
const TABLE: [(Errno, &str, &str, i32); 12] = [
    (Errno::ENOENT, "ENOENT", "no such file or directory", 2),
    (Errno::ENOTDIR, "ENOTDIR", "not a directory", 20),
    (Errno::EISDIR, "EISDIR", "is a directory", 21),
    (Errno::EEXIST, "EEXIST", "file exists", 17),
    (Errno::ENOTEMPTY, "ENOTEMPTY", "directory not empty", 39),
    (Errno::EPERM, "EPERM", "operation not permitted", 1),
    (Errno::EINVAL, "EINVAL", "invalid argument", 22),
    (Errno::ENAMETOOLONG, "ENAMETOOLONG", "name or path too long", 36),
    (Errno::EFBIG, "EFBIG", "file too large", 27),
    (
        Errno::EBUSY,
        "EBUSY",
        "the root cannot be moved or removed, or a transaction is open",
        16,
    ),
    (Errno::ENOMEM, "ENOMEM", "out of memory", 12),
    (Errno::ENOSPC, "ENOSPC", "there are already 64 snapshots", 28),
];

/// The library's number for a buffer that is too short. It is no error of this crate, which calls again with more capacity.
pub(crate) const SHORT: u8 = 13;

impl Errno {
    /// The number of the error, from 1 to 12, as in the library for C.
    pub fn number(self) -> u8 {
        self as u8
    }

    /// The error with a number of the library; none for other numbers.
    pub fn from_number(number: u8) -> Option<Errno> {
        let row = TABLE.get(usize::from(number).checked_sub(1)?)?;
        Some(row.0)
    }

    /// The name of the error, as `ENOENT`.
    pub fn name(self) -> &'static str {
        self.row().1
    }

    /// The message of the error, a short sentence without a full stop.
    pub fn message(self) -> &'static str {
        self.row().2
    }

    /// Linux's number for the error.
    pub fn raw_os_error(self) -> i32 {
        self.row().3
    }

    fn row(self) -> &'static (Errno, &'static str, &'static str, i32) {
        &TABLE[self as usize - 1]
    }
}

impl fmt::Display for Errno {
    fn fmt(&self, f: &mut fmt::Formatter<'_>) -> fmt::Result {
        write!(f, "{}: {}", self.name(), self.message())
    }
}

impl Error for Errno {}

impl From<Errno> for io::Error {
    fn from(refused: Errno) -> io::Error {
        io::Error::from_raw_os_error(refused.raw_os_error())
    }
}

/// Why an image was not loaded.
#[derive(Clone, Copy, Debug, PartialEq, Eq)]
pub enum LoadError {
    /// The text is not an image; this is its first bad line.
    BadLine(u64),
    /// No such shape, or allocation failure.
    Refused(Errno),
}

impl fmt::Display for LoadError {
    fn fmt(&self, f: &mut fmt::Formatter<'_>) -> fmt::Result {
        match self {
            LoadError::BadLine(line) => write!(f, "bad image at line {line}"),
            LoadError::Refused(refused) => refused.fmt(f),
        }
    }
}

impl From<Errno> for LoadError {
    fn from(error: Errno) -> LoadError {
        LoadError::Refused(error)
    }
}

impl Error for LoadError {
    fn source(&self) -> Option<&(dyn Error + 'static)> {
        match self {
            LoadError::BadLine(_) => None,
            LoadError::Refused(refused) => Some(refused),
        }
    }
}

impl From<LoadError> for io::Error {
    fn from(error: LoadError) -> io::Error {
        match error {
            LoadError::BadLine(_) => io::Error::new(io::ErrorKind::InvalidData, error),
            LoadError::Refused(refused) => refused.into(),
        }
    }
}

/// Why a delta was not applied.
#[derive(Clone, Copy, Debug, PartialEq, Eq)]
pub enum DeltaError {
    /// The text is not a delta; this is its first bad line.
    BadLine(u64),
    /// It is the delta of another tree.
    OtherTree,
    /// The result would not be a tree.
    NoTree,
    /// Allocation failure.
    Refused(Errno),
}

impl fmt::Display for DeltaError {
    fn fmt(&self, f: &mut fmt::Formatter<'_>) -> fmt::Result {
        match self {
            DeltaError::BadLine(line) => write!(f, "bad delta at line {line}"),
            DeltaError::OtherTree => f.write_str("delta of another tree"),
            DeltaError::NoTree => f.write_str("delta makes no tree"),
            DeltaError::Refused(refused) => refused.fmt(f),
        }
    }
}

impl Error for DeltaError {
    fn source(&self) -> Option<&(dyn Error + 'static)> {
        match self {
            DeltaError::Refused(refused) => Some(refused),
            _ => None,
        }
    }
}

impl From<DeltaError> for io::Error {
    fn from(error: DeltaError) -> io::Error {
        match error {
            DeltaError::Refused(refused) => refused.into(),
            _ => io::Error::new(io::ErrorKind::InvalidData, error),
        }
    }
}

/// Why edits were not applied.
#[derive(Clone, Copy, Debug, PartialEq, Eq)]
pub enum EditError {
    /// The text is not one of edits; this is its first bad line.
    BadLine(u64),
    /// The edit in this line does not fit the tree.
    UnfitLine(u64),
    /// Allocation failure; a transaction is open.
    Refused(Errno),
}

impl fmt::Display for EditError {
    fn fmt(&self, f: &mut fmt::Formatter<'_>) -> fmt::Result {
        match self {
            EditError::BadLine(line) => write!(f, "bad edit at line {line}"),
            EditError::UnfitLine(line) => write!(f, "line {line} does not fit"),
            EditError::Refused(refused) => refused.fmt(f),
        }
    }
}

impl Error for EditError {
    fn source(&self) -> Option<&(dyn Error + 'static)> {
        match self {
            EditError::Refused(refused) => Some(refused),
            _ => None,
        }
    }
}

impl From<EditError> for io::Error {
    fn from(error: EditError) -> io::Error {
        match error {
            EditError::Refused(refused) => refused.into(),
            _ => io::Error::new(io::ErrorKind::InvalidData, error),
        }
    }
}

#[cfg(test)]
mod tests {
    use super::{Errno, SHORT, TABLE};

    #[test]
    fn the_table_is_in_the_order_of_numbers() {
        for (number, row) in (1..).zip(TABLE) {
            assert_eq!(row.0.number(), number);
            assert_eq!(Errno::from_number(number), Some(row.0));
        }
        for number in [0, SHORT, 254, 255] {
            assert_eq!(Errno::from_number(number), None);
        }
    }
}
