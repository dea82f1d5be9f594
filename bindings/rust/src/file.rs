//! Files as streams of bytes.
use crate::errno::Errno;
use crate::volume::{Frozen, Volume};
use std::io::{self, Read, Seek, SeekFrom, Write};
use std::path::{Path, PathBuf};

/// The tree that a file is in.
#[derive(Clone, Copy, Debug)]
enum Tree<'a> {
    Live(&'a Volume),
    Frozen(&'a Frozen),
}

/// A file of a volume or of a frozen tree, with a position in bytes: [`Read`], [`Write`] and [`Seek`] as for [`std::fs::File`].
///
/// It is bound to a path, not to an entry: if that path is removed, its calls fail with `ENOENT`, and if another file is renamed to it,
/// they are that file's. Several may be open at once. Nothing is buffered, and each write is one call of the volume, at the time of its
/// clock: put a [`std::io::BufWriter`] around it for many small writes.
///
/// ```
/// use doorvervain::{File, Volume};
/// use std::io::{BufRead, BufReader, Read, Seek, SeekFrom, Write};
///
/// let volume = Volume::new()?;
/// let mut file = File::create(&volume, "/notes")?;
/// writeln!(file, "rain on {}", "monday")?;
/// file.seek(SeekFrom::Start(0))?;
/// let mut text = String::new();
/// file.read_to_string(&mut text)?;
/// assert_eq!(text, "rain on monday\n");
/// writeln!(File::append(&volume, "/notes")?, "sun on tuesday")?;
/// assert_eq!(BufReader::new(File::open(&volume, "/notes")?).lines().count(), 2);
/// # std::io::Result::Ok(())
/// ```
#[derive(Clone, Debug)]
pub struct File<'a> {
    tree: Tree<'a>,
    path: PathBuf,
    position: u64,
    appends: bool,
}

impl<'a> File<'a> {
    /// Opens a file of a volume for reading and writing, at its beginning.
    ///
    /// # Errors
    /// `ENOENT`, `ENOTDIR`: the path does not exist; `EISDIR`: it is a directory.
    pub fn open<P: AsRef<Path>>(volume: &'a Volume, path: P) -> Result<File<'a>, Errno> {
        File::new(Tree::Live(volume), path.as_ref())
    }

    /// Opens a file of a frozen tree for reading, at its beginning. Its writes fail with `EBADF`.
    ///
    /// # Errors
    /// `ENOENT`, `ENOTDIR`: the path does not exist; `EISDIR`: it is a directory.
    pub fn open_frozen<P: AsRef<Path>>(tree: &'a Frozen, path: P) -> Result<File<'a>, Errno> {
        File::new(Tree::Frozen(tree), path.as_ref())
    }

    /// Creates a file of a volume, or truncates it to no bytes if it exists, and opens it.
    ///
    /// # Errors
    /// `ENOENT`, `ENOTDIR`: about the parent; `EISDIR`: the path is a directory; `ENOMEM`.
    pub fn create<P: AsRef<Path>>(volume: &'a Volume, path: P) -> Result<File<'a>, Errno> {
        volume.write(&path, "")?;
        File::open(volume, path)
    }

    /// Opens a file of a volume so that each write goes to its end. It is created if it does not exist.
    ///
    /// # Errors
    /// `ENOENT`, `ENOTDIR`: about the parent; `EISDIR`: the path is a directory; `ENOMEM`.
    pub fn append<P: AsRef<Path>>(volume: &'a Volume, path: P) -> Result<File<'a>, Errno> {
        match volume.create(&path) {
            Ok(()) | Err(Errno::EEXIST) => {}
            Err(error) => return Err(error),
        }
        let file = File::open(volume, path)?;
        Ok(File { appends: true, ..file })
    }

    fn new(tree: Tree<'a>, path: &Path) -> Result<File<'a>, Errno> {
        let file = File {
            tree,
            path: path.to_owned(),
            position: 0,
            appends: false,
        };
        file.size()?;
        Ok(file)
    }

    /// The path that it was opened with.
    pub fn path(&self) -> &Path {
        &self.path
    }

    /// The size of the file in bytes.
    ///
    /// # Errors
    /// `ENOENT`, `ENOTDIR`, `EISDIR`: the path is no file any more.
    pub fn size(&self) -> Result<u64, Errno> {
        let stat = match self.tree {
            Tree::Live(volume) => volume.stat(&self.path),
            Tree::Frozen(tree) => tree.stat(&self.path),
        }?;
        if stat.is_dir() {
            return Err(Errno::EISDIR);
        }
        Ok(stat.size)
    }
}

impl Read for File<'_> {
    fn read(&mut self, out: &mut [u8]) -> io::Result<usize> {
        let got = match self.tree {
            Tree::Live(volume) => volume.read_at(&self.path, self.position, out),
            Tree::Frozen(tree) => tree.read_at(&self.path, self.position, out),
        }?;
        self.position += got as u64;
        Ok(got)
    }
}

/// Linux's number for a file that is not open for writing.
const EBADF: i32 = 9;

impl Write for File<'_> {
    fn write(&mut self, bytes: &[u8]) -> io::Result<usize> {
        let volume = match self.tree {
            Tree::Live(volume) => volume,
            Tree::Frozen(_) => return Err(io::Error::from_raw_os_error(EBADF)),
        };
        let from = if self.appends {
            volume.append(&self.path, bytes)?
        } else {
            volume.write_at(&self.path, self.position, bytes)?;
            self.position
        };
        self.position = from + bytes.len() as u64;
        Ok(bytes.len())
    }

    /// Does nothing: no byte is held back.
    fn flush(&mut self) -> io::Result<()> {
        Ok(())
    }
}

impl Seek for File<'_> {
    fn seek(&mut self, to: SeekFrom) -> io::Result<u64> {
        let (base, offset) = match to {
            SeekFrom::Start(position) => {
                self.position = position;
                return Ok(position);
            }
            SeekFrom::End(offset) => (self.size()?, offset),
            SeekFrom::Current(offset) => (self.position, offset),
        };
        // A position before the beginning, or past 2^64.
        self.position = moved(base, offset).ok_or_else(|| io::Error::from(Errno::EINVAL))?;
        Ok(self.position)
    }
}

/// A position that is moved by an offset.
fn moved(base: u64, offset: i64) -> Option<u64> {
    if offset < 0 {
        base.checked_sub(offset.unsigned_abs())
    } else {
        base.checked_add(offset.unsigned_abs())
    }
}
