//! Volumes, their transactions, and frozen trees.
use crate::errno::{DeltaError, EditError, Errno, LoadError};
use crate::listing::{Listing, Lists, Stat, Walk};
use crate::raw::{FrozenHandle, LoaderHandle, PathCall, Printer, Reads, SnapshotCall, VolumeHandle};
use std::ffi::OsStr;
use std::mem::ManuallyDrop;
use std::ops::Deref;
use std::os::unix::ffi::OsStrExt;
use std::path::{Path, PathBuf};
use std::sync::Arc;
use std::time::{SystemTime, UNIX_EPOCH};
use std::{fmt, io};

/// The shape of a volume's trees. It changes no result, only time.
#[derive(Clone, Copy, Debug, PartialEq, Eq, Hash)]
pub struct Shape {
    /// How many children an inner node may have, from 4 to 64.
    pub fanout: u16,
    /// How many messages may be pending in it, from `fanout` to 1,024.
    pub pending: u16,
    /// How many entries a leaf may have, from 4 to 1,024.
    pub leaf: u16,
}

impl Shape {
    /// The default shape.
    pub const USUAL: Shape = Shape {
        fanout: 16,
        pending: 256,
        leaf: 256,
    };

    /// The shape for a volume of many entries that is kept for long.
    pub const LARGE: Shape = Shape {
        fanout: 64,
        pending: 1024,
        leaf: 1024,
    };
}

impl Default for Shape {
    fn default() -> Shape {
        Shape::USUAL
    }
}

/// How many bytes of an image are read or written at a time.
const PIECE: usize = 1 << 16;

/// What returns the timestamp of a change.
type Clock = Arc<dyn Fn() -> u64 + Send + Sync>;

/// The time of the system in nanoseconds since 1970; 0 before that.
fn system_time() -> u64 {
    let since = SystemTime::now().duration_since(UNIX_EPOCH).unwrap_or_default();
    u64::try_from(since.as_nanos()).unwrap_or(u64::MAX)
}

/// The bytes of a path, which are used unchanged.
fn bytes_of(path: &Path) -> &[u8] {
    path.as_os_str().as_bytes()
}

/// A tree of directories and files in memory, with snapshots. It is freed when it is dropped.
///
/// A path is whatever [`std::fs`] takes for one, `AsRef<Path>`: text, an [`OsStr`](std::ffi::OsStr) or a [`Path`]. It begins with a slash,
/// and its bytes are used unchanged, also those that are no UTF-8.
///
/// Each change has a timestamp, which becomes the mtime of what it changes: the time of the system in nanoseconds since 1970. For
/// another, [`Volume::at`] makes one change at a given number, and [`Volume::set_clock`] sets the clock.
///
/// ```
/// # use doorvervain::{Errno, Volume};
/// let volume = Volume::new()?;
/// volume.create_dir_all("/notes/2026")?;
/// volume.write("/notes/2026/monday", "rain")?;
/// volume.at(7).write_at("/notes/2026/monday", 4, b" and sun")?;
/// assert_eq!(volume.read("/notes/2026/monday")?, b"rain and sun");
/// assert_eq!(volume.stat("/notes/2026/monday")?.modified, 7);
/// # Ok::<(), Errno>(())
/// ```
///
/// Threads may share a volume (`Sync`), and it may be moved to another (`Send`). It has a read-write lock: calls that only look run
/// beside each other, and one that changes the volume runs alone. Each call is seen by others as a whole, also `read` and `write`; but
/// `create_dir_all` and `File::create` are several calls.
///
/// ```
/// # use doorvervain::{Errno, Volume};
/// let volume = Volume::new()?;
/// std::thread::scope(|scope| {
///     for thread in 0..4 {
///         let volume = &volume;
///         scope.spawn(move || volume.write(format!("/{thread}"), "rain"));
///     }
/// });
/// assert_eq!(volume.readdir("/")?.len(), 4);
/// # Ok::<(), Errno>(())
/// ```
pub struct Volume {
    handle: VolumeHandle,
    clock: Clock,
}

/// A frozen tree: later changes of its volume do not affect it. It outlives its volume, and is freed when it is dropped.
///
/// ```
/// use doorvervain::{Errno, Volume};
///
/// let volume = Volume::new()?;
/// volume.create("/x")?;
/// let tree = volume.freeze()?;
/// std::thread::scope(|scope| {
///     let readers = [scope.spawn(|| tree.exists("/x")), scope.spawn(|| tree.exists("/x"))];
///     volume.unlink("/x").unwrap();
///     assert!(readers.into_iter().all(|reader| reader.join().unwrap() == Ok(true)));
/// });
/// assert_eq!(volume.exists("/x"), Ok(false));
/// # Ok::<(), Errno>(())
/// ```
///
/// Any number of threads may read it at the same time, without a lock (`Sync`).
pub struct Frozen {
    handle: FrozenHandle,
}

/// A volume whose changes have one given timestamp: [`Volume::at`].
#[derive(Clone, Copy)]
pub struct At<'a> {
    volume: &'a Volume,
    timestamp: u64,
}

/// An open transaction of a volume: [`Volume::transaction`]. It is rolled back when it is dropped.
#[must_use = "a transaction that is dropped is rolled back"]
pub struct Transaction<'a> {
    volume: &'a Volume,
}

/// The read-only calls, which a volume and a frozen tree have in common.
macro_rules! read_only_calls {
    ($Tree:ty) => {
        impl $Tree {
            /// Returns all bytes of a file.
            ///
            /// # Errors
            /// `ENOENT`, `ENOTDIR`: the path does not exist; `EISDIR`: it is a directory; `ENOMEM`.
            pub fn read<P: AsRef<Path>>(&self, path: P) -> Result<Vec<u8>, Errno> {
                self.handle.read_all(bytes_of(path.as_ref()))
            }

            /// Returns a file as text.
            ///
            /// # Errors
            /// As [`read`](Self::read), as an [`io::Error`]; of the kind [`InvalidData`](io::ErrorKind::InvalidData) if the bytes are not
            /// UTF-8.
            pub fn read_to_string<P: AsRef<Path>>(&self, path: P) -> io::Result<String> {
                let bytes = self.read(path)?;
                String::from_utf8(bytes).map_err(|error| io::Error::new(io::ErrorKind::InvalidData, error))
            }

            /// Reads a file from `offset` on, in bytes, into `out`. Returns how many bytes, fewer than the length of `out` only at the
            /// end of the file. The rest of `out` is unchanged.
            ///
            /// # Errors
            /// `ENOENT`, `ENOTDIR`: the path does not exist; `EISDIR`: it is a directory; `ENOMEM`: a part of `out` may be written then.
            pub fn read_at<P: AsRef<Path>>(&self, path: P, offset: u64, out: &mut [u8]) -> Result<usize, Errno> {
                self.handle.read(bytes_of(path.as_ref()), offset, out)
            }

            /// Returns the kind, size and mtime of an entry.
            ///
            /// # Errors
            /// `ENOENT`, `ENOTDIR`: the path does not exist; `ENOMEM`.
            pub fn stat<P: AsRef<Path>>(&self, path: P) -> Result<Stat, Errno> {
                self.handle.stat(bytes_of(path.as_ref()))
            }

            /// Whether a path exists.
            ///
            /// # Errors
            /// `EINVAL`, `ENAMETOOLONG`: the text is not a path; `ENOMEM`.
            pub fn exists<P: AsRef<Path>>(&self, path: P) -> Result<bool, Errno> {
                match self.stat(path) {
                    Ok(_) => Ok(true),
                    Err(Errno::ENOENT | Errno::ENOTDIR) => Ok(false),
                    Err(error) => Err(error),
                }
            }

            /// Lists a directory, in byte order of the names.
            ///
            /// # Errors
            /// `ENOENT`: the path does not exist; `ENOTDIR`: it is a file; `ENOMEM`.
            pub fn readdir<P: AsRef<Path>>(&self, path: P) -> Result<Listing, Errno> {
                self.list(bytes_of(path.as_ref()))
            }

            /// Iterates over the entry at a path and everything below it, each directory right before its entries. If the path does
            /// not exist, the error is the only item.
            pub fn walk<P: AsRef<Path>>(&self, path: P) -> Walk<'_> {
                let path = path.as_ref();
                Walk::new(self, path, self.handle.stat(bytes_of(path)))
            }
        }

        impl Lists for $Tree {
            fn list(&self, path: &[u8]) -> Result<Listing, Errno> {
                self.handle.readdir(path).map(Listing::of_bytes)
            }
        }
    };
}

read_only_calls!(Volume);
read_only_calls!(Frozen);

/// The calls that change a tree: those of a volume at the time of its clock, and those at a given timestamp.
macro_rules! changing_calls {
    ($Target:ty) => {
        impl $Target {
            /// Creates an empty directory.
            ///
            /// # Errors
            /// `ENOENT`, `ENOTDIR`: the parent is not a directory; `EEXIST`: the path exists already; `ENOMEM`.
            pub fn mkdir<P: AsRef<Path>>(&self, path: P) -> Result<(), Errno> {
                self.path_call(PathCall::Mkdir, path.as_ref())
            }

            /// Creates a directory, and those above it that do not exist. Does nothing if it exists.
            ///
            /// # Errors
            /// `ENOTDIR`: a path above is a file; `EEXIST`: the path is a file; `EINVAL`, `ENAMETOOLONG`: the text is not a path; `ENOMEM`.
            /// Directories that were created before the error stay.
            pub fn create_dir_all<P: AsRef<Path>>(&self, path: P) -> Result<(), Errno> {
                let path = path.as_ref();
                match (self.make_dir(path), path.parent()) {
                    (Err(Errno::ENOENT), Some(parent)) => {
                        self.create_dir_all(parent)?;
                        self.make_dir(path)
                    }
                    (ended, _) => ended,
                }
            }

            /// Creates a directory, and does nothing if it exists: another thread may have created it just now.
            fn make_dir(&self, path: &Path) -> Result<(), Errno> {
                match self.mkdir(path) {
                    Err(Errno::EEXIST) if self.volume().stat(path)?.is_dir() => Ok(()),
                    ended => ended,
                }
            }

            /// Creates an empty file.
            ///
            /// # Errors
            /// `ENOENT`, `ENOTDIR`: the parent is not a directory; `EEXIST`: the path exists already; `ENOMEM`.
            pub fn create<P: AsRef<Path>>(&self, path: P) -> Result<(), Errno> {
                self.path_call(PathCall::Create, path.as_ref())
            }

            /// Removes a file.
            ///
            /// # Errors
            /// `ENOENT`, `ENOTDIR`: the path does not exist; `EPERM`: it is a directory; `ENOMEM`.
            pub fn unlink<P: AsRef<Path>>(&self, path: P) -> Result<(), Errno> {
                self.path_call(PathCall::Unlink, path.as_ref())
            }

            /// Removes an empty directory.
            ///
            /// # Errors
            /// `ENOENT`: the path does not exist; `ENOTDIR`: it is a file; `ENOTEMPTY`: it has entries; `EBUSY`: it is the root; `ENOMEM`.
            pub fn rmdir<P: AsRef<Path>>(&self, path: P) -> Result<(), Errno> {
                self.path_call(PathCall::Rmdir, path.as_ref())
            }

            /// Removes a file, or a directory with everything below it.
            ///
            /// # Errors
            /// `ENOENT`, `ENOTDIR`: the path does not exist; `EBUSY`: it is the root; `ENOMEM`.
            pub fn rmtree<P: AsRef<Path>>(&self, path: P) -> Result<(), Errno> {
                self.path_call(PathCall::Rmtree, path.as_ref())
            }

            /// Renames a file, or a directory with everything below it. A file may replace a file, and a directory an empty directory.
            ///
            /// # Errors
            /// `ENOENT`, `ENOTDIR`: the old path or the parent of the new one does not exist, or a directory would replace a file; `EISDIR`:
            /// a file would replace a directory; `ENOTEMPTY`: the directory at the new path has entries; `EINVAL`: the new path is below the
            /// old one; `EBUSY`: the old path is the root; `ENAMETOOLONG`: a path at or below the new one would be too long; `ENOMEM`.
            pub fn rename<P: AsRef<Path>, Q: AsRef<Path>>(&self, from: P, to: Q) -> Result<(), Errno> {
                let (from, to) = (bytes_of(from.as_ref()), bytes_of(to.as_ref()));
                self.volume().handle.rename(from, to, self.timestamp())
            }

            /// Truncates a file to `size` bytes, or extends it to them with zeros.
            ///
            /// # Errors
            /// `ENOENT`, `ENOTDIR`: the path does not exist; `EISDIR`: it is a directory; `EFBIG`: more than 2^40 bytes; `ENOMEM`.
            pub fn truncate<P: AsRef<Path>>(&self, path: P, size: u64) -> Result<(), Errno> {
                let path = bytes_of(path.as_ref());
                self.volume().handle.truncate(path, size, self.timestamp())
            }

            /// Sets the mtime of a file or directory, or of the root, and changes nothing else.
            ///
            /// # Errors
            /// `ENOENT`, `ENOTDIR`: the path does not exist; `ENOMEM`.
            pub fn set_modified<P: AsRef<Path>>(&self, path: P, modified: u64) -> Result<(), Errno> {
                self.volume().handle.set_mtime(bytes_of(path.as_ref()), modified)
            }

            /// Makes a file of these bytes: creates it, or replaces all that it has.
            ///
            /// # Errors
            /// `ENOENT`, `ENOTDIR`: the parent is not a directory; `EISDIR`: the path is a directory; `EFBIG`: more than 2^40 bytes; `ENOMEM`:
            /// the file may be empty then.
            pub fn write<P: AsRef<Path>, B: AsRef<[u8]>>(&self, path: P, bytes: B) -> Result<(), Errno> {
                let path = bytes_of(path.as_ref());
                self.volume()
                    .handle
                    .replace(path, bytes.as_ref(), self.timestamp())
            }

            /// Writes bytes to a file that exists from `offset` on, in bytes, and extends it if they reach past its end. The write is atomic.
            ///
            /// # Errors
            /// `ENOENT`, `ENOTDIR`: the path does not exist; `EISDIR`: it is a directory; `EFBIG`: past 2^40 bytes; `ENOMEM`.
            pub fn write_at<P: AsRef<Path>, B: AsRef<[u8]>>(
                &self,
                path: P,
                offset: u64,
                bytes: B,
            ) -> Result<(), Errno> {
                let path = bytes_of(path.as_ref());
                self.volume()
                    .handle
                    .write(path, offset, bytes.as_ref(), self.timestamp())
            }

            /// Punches a hole: sets `count` bytes of a file from `offset` on to zero, up to the file's end, which stays. Blocks of 4,096 bytes
            /// that are entirely in the hole use no memory afterwards. If no byte of the range is within the file, nothing changes.
            ///
            /// # Errors
            /// `ENOENT`, `ENOTDIR`: the path does not exist; `EISDIR`: it is a directory; `ENOMEM`.
            pub fn punch<P: AsRef<Path>>(&self, path: P, offset: u64, count: u64) -> Result<(), Errno> {
                let path = bytes_of(path.as_ref());
                self.volume().handle.punch(path, offset, count, self.timestamp())
            }

            /// Copies `count` bytes of a file from `offset` on, as far as it has them, to the file `to` from `target` on, which exists and
            /// may be the same one; the ranges may overlap. Returns how many bytes were copied. The tree is the same as after a write of
            /// these bytes. If both offsets are multiples of 4,096, whole blocks are shared. The copy is atomic.
            ///
            /// # Errors
            /// `ENOENT`, `ENOTDIR`: a path does not exist; `EISDIR`: it is a directory; `EFBIG`: past 2^40 bytes; `ENOMEM`.
            pub fn copy_range<P: AsRef<Path>, Q: AsRef<Path>>(
                &self,
                from: P,
                offset: u64,
                to: Q,
                target: u64,
                count: u64,
            ) -> Result<u64, Errno> {
                let (from, to) = (bytes_of(from.as_ref()), bytes_of(to.as_ref()));
                self.volume()
                    .handle
                    .copy_range((from, offset), (to, target), count, self.timestamp())
            }

            fn path_call(&self, call: PathCall, path: &Path) -> Result<(), Errno> {
                self.volume()
                    .handle
                    .path_call(call, bytes_of(path), self.timestamp())
            }
        }
    };
}

changing_calls!(Volume);
changing_calls!(At<'_>);

impl At<'_> {
    fn volume(&self) -> &Volume {
        self.volume
    }

    fn timestamp(&self) -> u64 {
        self.timestamp
    }
}

/// A volume of the usual shape, as [`Volume::new`] makes it.
///
/// # Panics
/// On an allocation failure.
impl Default for Volume {
    fn default() -> Volume {
        Volume::new().expect("memory for an empty volume")
    }
}

impl Volume {
    fn volume(&self) -> &Volume {
        self
    }

    fn timestamp(&self) -> u64 {
        (self.clock)()
    }

    /// Writes bytes at the end of a file, and returns where that was: no other call comes between.
    pub(crate) fn append(&self, path: &Path, bytes: &[u8]) -> Result<u64, Errno> {
        self.handle.append(bytes_of(path), bytes, self.timestamp())
    }

    /// A volume over a handle, with the clock of the system.
    fn over(handle: VolumeHandle) -> Volume {
        let clock = Arc::new(system_time);
        Volume { handle, clock }
    }

    /// Creates a volume with an empty root directory and the default shape.
    ///
    /// # Errors
    /// `ENOMEM`.
    pub fn new() -> Result<Volume, Errno> {
        Volume::with_shape(Shape::USUAL)
    }

    /// Creates a volume with an empty root directory and the given shape.
    ///
    /// # Errors
    /// `EINVAL`: no such shape; `ENOMEM`.
    pub fn with_shape(shape: Shape) -> Result<Volume, Errno> {
        VolumeHandle::open(shape.fanout, shape.pending, shape.leaf).map(Volume::over)
    }

    /// Loads a volume from an image, without snapshots.
    ///
    /// ```
    /// use doorvervain::{LoadError, Shape, Volume};
    ///
    /// let volume = Volume::load(b"D / 5\nF /x 3 7\nb 0 616263\n", Shape::USUAL).unwrap();
    /// assert_eq!(volume.read("/x"), Ok(b"abc".to_vec()));
    /// assert_eq!(volume.image(), Ok(b"D / 5\nF /x 3 7\nb 0 616263\n".to_vec()));
    /// assert_eq!(Volume::load(b"D / 5\nx\n", Shape::USUAL).err(), Some(LoadError::BadLine(2)));
    /// ```
    ///
    /// # Errors
    /// [`LoadError::BadLine`]: the text is not an image; else `EINVAL`, no such shape, or `ENOMEM`.
    pub fn load(image: &[u8], shape: Shape) -> Result<Volume, LoadError> {
        let mut loader = LoaderHandle::begin(shape.fanout, shape.pending, shape.leaf)?;
        loader.feed(image)?;
        loader.finish().map(Volume::over)
    }

    /// Loads a volume from an image that a reader gives, up to its end, without snapshots. It is read in pieces, so that the text does
    /// not have to fit into memory.
    ///
    /// # Errors
    /// Those of the reader; those of [`Volume::load`], of the kind [`InvalidData`](io::ErrorKind::InvalidData) if the text is not an image.
    pub fn load_from<R: io::Read>(mut reader: R, shape: Shape) -> io::Result<Volume> {
        let mut loader = LoaderHandle::begin(shape.fanout, shape.pending, shape.leaf)?;
        let mut piece = vec![0; PIECE];
        loop {
            match reader.read(&mut piece) {
                Ok(0) => return Ok(Volume::over(loader.finish()?)),
                Ok(count) => loader.feed(&piece[..count])?,
                Err(error) if error.kind() == io::ErrorKind::Interrupted => {}
                Err(error) => return Err(error),
            }
        }
    }

    /// Sets the clock, which returns the timestamp of each change from now on.
    ///
    /// ```
    /// # use doorvervain::{Errno, Volume};
    /// let mut volume = Volume::new()?;
    /// volume.set_clock(|| 7);
    /// volume.mkdir("/a")?;
    /// assert_eq!(volume.stat("/a")?.modified, 7);
    /// # Ok::<(), Errno>(())
    /// ```
    pub fn set_clock<C: Fn() -> u64 + Send + Sync + 'static>(&mut self, clock: C) {
        self.clock = Arc::new(clock);
    }

    /// The volume with changes at this timestamp, a number that need not increase, in place of the time of its clock.
    ///
    /// ```
    /// # use doorvervain::{Errno, Volume};
    /// let volume = Volume::new()?;
    /// volume.at(5).mkdir("/a")?;
    /// assert_eq!(volume.image()?, b"D / 5\nD /a 5\n");
    /// # Ok::<(), Errno>(())
    /// ```
    pub fn at(&self, timestamp: u64) -> At<'_> {
        At {
            volume: self,
            timestamp,
        }
    }

    /// Takes a snapshot under a name: 1 to 64 ASCII letters, digits, `.`, `_` and `-`.
    ///
    /// ```
    /// # use doorvervain::{Errno, Volume};
    /// let volume = Volume::new()?;
    /// volume.snapshot("empty")?;
    /// volume.create("/x")?;
    /// volume.restore("empty")?;
    /// assert!(volume.readdir("/")?.is_empty());
    /// assert_eq!(volume.snapshots().collect::<Vec<_>>(), ["empty"]);
    /// # Ok::<(), Errno>(())
    /// ```
    ///
    /// # Errors
    /// `EEXIST`; `EINVAL`: not a name; `ENOSPC`: there are already 64 snapshots; `EBUSY`: a transaction is open; `ENOMEM`.
    pub fn snapshot(&self, name: &str) -> Result<(), Errno> {
        self.handle.snapshot_call(SnapshotCall::Snapshot, name.as_bytes())
    }

    /// Drops a snapshot.
    ///
    /// # Errors
    /// `ENOENT`; `EINVAL`: not a name; `EBUSY`: a transaction is open.
    pub fn drop_snapshot(&self, name: &str) -> Result<(), Errno> {
        self.handle.snapshot_call(SnapshotCall::Drop, name.as_bytes())
    }

    /// Restores the volume's tree from a snapshot, which is kept.
    ///
    /// # Errors
    /// `ENOENT`, `ENOMEM`; `EINVAL`: not a name; `EBUSY`: a transaction is open.
    pub fn restore(&self, name: &str) -> Result<(), Errno> {
        self.handle.snapshot_call(SnapshotCall::Restore, name.as_bytes())
    }

    /// The names of the snapshots as they are now, in order: a snapshot may be taken or dropped meanwhile.
    pub fn snapshots(&self) -> impl Iterator<Item = String> {
        self.handle.snapshot_names().into_iter()
    }

    /// Freezes the current tree, in constant time.
    ///
    /// # Errors
    /// `ENOMEM`.
    pub fn freeze(&self) -> Result<Frozen, Errno> {
        Ok(Frozen {
            handle: self.handle.freeze()?,
        })
    }

    /// Makes a volume of its own with the current tree and the same shape, in constant time, without snapshots. Later changes of one
    /// do not affect the other, and each may be used by a thread of its own. They have one clock.
    ///
    /// ```
    /// # use doorvervain::{Errno, Volume};
    /// let volume = Volume::new()?;
    /// volume.create("/x")?;
    /// let fork = volume.fork()?;
    /// fork.unlink("/x")?;
    /// assert_eq!((volume.exists("/x"), fork.exists("/x")), (Ok(true), Ok(false)));
    /// # Ok::<(), Errno>(())
    /// ```
    ///
    /// # Errors
    /// `ENOMEM`.
    pub fn fork(&self) -> Result<Volume, Errno> {
        Ok(Volume {
            handle: self.handle.fork()?,
            clock: Arc::clone(&self.clock),
        })
    }

    /// Restores the volume's tree from a frozen one, also of another volume, whose shape the volume then has. The snapshots stay.
    ///
    /// ```
    /// # use doorvervain::{Errno, Volume};
    /// let volume = Volume::new()?;
    /// let empty = volume.freeze()?;
    /// volume.create("/x")?;
    /// volume.restore_frozen(&empty)?;
    /// assert!(volume.readdir("/")?.is_empty());
    /// # Ok::<(), Errno>(())
    /// ```
    ///
    /// # Errors
    /// `EBUSY`: a transaction is open; `ENOMEM`.
    pub fn restore_frozen(&self, tree: &Frozen) -> Result<(), Errno> {
        self.handle.restore_frozen(&tree.handle)
    }

    /// Begins a transaction, in constant time. Calls change the volume as before, and later ones see their changes, which are undone
    /// unless the transaction is committed.
    ///
    /// ```
    /// # use doorvervain::{Errno, Volume};
    /// fn replace(volume: &Volume) -> Result<(), Errno> {
    ///     let transaction = volume.transaction()?;
    ///     transaction.rmtree("/new")?;
    ///     transaction.rename("/old", "/new")?;
    ///     transaction.commit();
    ///     Ok(())
    /// }
    ///
    /// let volume = Volume::new()?;
    /// volume.create("/new")?;
    /// assert_eq!(replace(&volume), Err(Errno::ENOENT));
    /// assert!(volume.exists("/new")?);
    /// volume.mkdir("/old")?;
    /// replace(&volume)?;
    /// assert!(volume.stat("/new")?.is_dir());
    /// # Ok::<(), Errno>(())
    /// ```
    ///
    /// Other threads see these changes, and theirs belong to the transaction too: a thread that should not take part gets a
    /// [`fork`](Volume::fork). Until its end, calls that take, drop or restore a snapshot, restore a frozen tree or apply a delta are
    /// `EBUSY`, and [`compact`](Volume::compact) does nothing.
    ///
    /// # Errors
    /// `EBUSY`: one is open; `ENOMEM`.
    pub fn transaction(&self) -> Result<Transaction<'_>, Errno> {
        self.handle.begin()?;
        Ok(Transaction { volume: self })
    }

    /// Opens a snapshot for reading.
    ///
    /// # Errors
    /// `ENOENT`, `ENOMEM`; `EINVAL`: not a name.
    pub fn open_snapshot(&self, name: &str) -> Result<Frozen, Errno> {
        Ok(Frozen {
            handle: self.handle.open_snapshot(name.as_bytes())?,
        })
    }

    /// The image of the tree, without snapshots: text that [`Volume::load`] accepts.
    ///
    /// # Errors
    /// `ENOMEM`.
    pub fn image(&self) -> Result<Vec<u8>, Errno> {
        self.freeze()?.image()
    }

    /// Writes the image of the tree, in pieces, so that the text does not have to fit into memory.
    ///
    /// ```
    /// # use doorvervain::{Shape, Volume};
    /// let volume = Volume::new()?;
    /// volume.write("/x", "abc")?;
    /// let mut text = Vec::new();
    /// volume.write_image(&mut text)?;
    /// let again = Volume::load_from(text.as_slice(), Shape::USUAL)?;
    /// assert_eq!(again.read("/x")?, b"abc");
    /// # std::io::Result::Ok(())
    /// ```
    ///
    /// # Errors
    /// Those of the writer, which may have a part of the text then; `ENOMEM`.
    pub fn write_image<W: io::Write>(&self, writer: W) -> io::Result<()> {
        self.freeze()?.write_image(writer)
    }

    /// The paths at which two trees differ, a directory before what is below it: each tree is the snapshot of that name, or the current
    /// tree if the name is empty. A path is listed if its entry came or went, or has another kind, mtime or length, or other bytes. It
    /// takes as long as what was changed, whatever the size of the tree.
    ///
    /// ```
    /// # use doorvervain::{Shape, Volume};
    /// # use std::path::Path;
    /// let volume = Volume::load(b"D / 5\nF /x 3 7\nb 0 616263\n", Shape::USUAL).unwrap();
    /// volume.snapshot("yesterday").unwrap();
    /// volume.write_at("/x", 1, b"-").unwrap();
    /// assert_eq!(volume.changed_paths("yesterday", "").unwrap(), [Path::new("/x")]);
    /// ```
    ///
    /// # Errors
    /// `ENOENT`: no such snapshot; `EINVAL`: not a name; `ENOMEM`.
    pub fn changed_paths(&self, from: &str, to: &str) -> Result<Vec<PathBuf>, Errno> {
        let texts = self.handle.changed_paths(from.as_bytes(), to.as_bytes())?;
        let ended = texts.split_inclusive(|byte| *byte == 0);
        Ok(ended
            .map(|text| PathBuf::from(OsStr::from_bytes(&text[..text.len() - 1])))
            .collect())
    }

    /// The delta from one tree to another, as text for [`Volume::apply_delta`]: each is the snapshot of that name, or the current
    /// tree if the name is empty.
    ///
    /// # Errors
    /// `ENOENT`: no such snapshot; `EINVAL`: not a name; `ENOMEM`.
    pub fn delta(&self, from: &str, to: &str) -> Result<Vec<u8>, Errno> {
        self.handle.delta(from.as_bytes(), to.as_bytes())
    }

    /// Applies a delta to the tree. Afterwards the volume is like one that was just loaded: its snapshots are dropped.
    ///
    /// ```
    /// # use doorvervain::{Shape, Volume};
    /// let near = Volume::load(b"D / 5\nF /x 3 7\nb 0 616263\n", Shape::USUAL).unwrap();
    /// let far = Volume::load(&near.image().unwrap(), Shape::USUAL).unwrap();
    /// near.snapshot("sent").unwrap();
    /// near.write_at("/x", 1, b"-").unwrap();
    /// far.apply_delta(&near.delta("sent", "").unwrap()).unwrap();
    /// assert_eq!(far.image(), near.image());
    /// ```
    ///
    /// # Errors
    /// [`DeltaError`], for `EBUSY` if a transaction is open. Then the volume is unchanged.
    pub fn apply_delta(&self, text: &[u8]) -> Result<(), DeltaError> {
        self.handle.apply_delta(text).map_err(|refused| match refused {
            (Errno::ENOENT, _) => DeltaError::OtherTree,
            (Errno::EINVAL, 0) => DeltaError::NoTree,
            (Errno::EINVAL, line) => DeltaError::BadLine(line),
            (refused, _) => DeltaError::Refused(refused),
        })
    }

    /// The edits from one tree to another, as text for [`Volume::apply_edits`]: each is the snapshot of that name, or the current tree if
    /// the name is empty. It takes as long as what was changed, whatever the size of the tree. Other threads wait only until the trees
    /// are taken.
    ///
    /// # Errors
    /// `ENOENT`: no such snapshot; `EINVAL`: not a name; `ENOMEM`.
    pub fn edits(&self, from: &str, to: &str) -> Result<Vec<u8>, Errno> {
        let mut printer = self.handle.edits(from.as_bytes(), to.as_bytes())?;
        let (mut text, mut piece) = (Vec::new(), vec![0; PIECE]);
        loop {
            match printer.next(&mut piece)? {
                0 => return Ok(text),
                got => text.extend_from_slice(&piece[..got]),
            }
        }
    }

    /// Applies edits to the tree, all of them or none. Snapshots stay.
    ///
    /// ```
    /// # use doorvervain::{Shape, Volume};
    /// let near = Volume::load(b"D / 5\nF /x 3 7\nb 0 616263\n", Shape::USUAL).unwrap();
    /// let far = near.fork().unwrap();
    /// near.snapshot("sent").unwrap();
    /// near.write_at("/x", 1, b"-").unwrap();
    /// far.apply_edits(&near.edits("sent", "").unwrap()).unwrap();
    /// assert_eq!(far.image(), near.image());
    /// ```
    ///
    /// # Errors
    /// [`EditError`], for `EBUSY` if a transaction is open. Then the volume is unchanged.
    pub fn apply_edits(&self, text: &[u8]) -> Result<(), EditError> {
        self.handle.apply_edits(text).map_err(|refused| match refused {
            (Errno::ENOENT, line) => EditError::UnfitLine(line),
            (Errno::EINVAL, line) => EditError::BadLine(line),
            (refused, _) => EditError::Refused(refused),
        })
    }

    /// Compacts the trees: does at most `steps` steps, each of which moves pending changes down. Returns how many steps it did,
    /// fewer only if nothing is pending or the next step cannot be done, and none while a transaction is open. It changes no result of
    /// any call.
    pub fn compact(&self, steps: u32) -> u32 {
        self.handle.compact(steps)
    }
}

impl Transaction<'_> {
    /// Ends the transaction, and keeps its changes.
    pub fn commit(self) {
        ManuallyDrop::new(self).volume.handle.commit();
    }

    /// Ends the transaction, and undoes its changes, as a drop does.
    pub fn rollback(self) {}
}

impl Deref for Transaction<'_> {
    type Target = Volume;

    fn deref(&self) -> &Volume {
        self.volume
    }
}

impl Drop for Transaction<'_> {
    fn drop(&mut self) {
        self.volume.handle.rollback();
    }
}

impl Frozen {
    /// Makes a volume of its own with this tree and its shape, in constant time, without snapshots. Later changes of it do not affect
    /// the tree. Its clock is that of the system.
    ///
    /// # Errors
    /// `ENOMEM`.
    pub fn fork(&self) -> Result<Volume, Errno> {
        self.handle.fork().map(Volume::over)
    }

    /// The image of the tree: text that [`Volume::load`] accepts.
    ///
    /// # Errors
    /// `ENOMEM`.
    pub fn image(&self) -> Result<Vec<u8>, Errno> {
        self.handle.image()
    }

    /// Writes the image of the tree, in pieces, so that the text does not have to fit into memory, and frees the tree.
    ///
    /// # Errors
    /// Those of the writer, which may have a part of the text then; `ENOMEM`.
    pub fn write_image<W: io::Write>(self, mut writer: W) -> io::Result<()> {
        let mut printer = Printer::begin(self.handle)?;
        let mut piece = vec![0; PIECE];
        loop {
            match printer.next(&mut piece)? {
                0 => return writer.flush(),
                count => writer.write_all(&piece[..count])?,
            }
        }
    }
}

/// Shows how many entries the root has.
fn show(f: &mut fmt::Formatter<'_>, name: &str, listing: Result<Listing, Errno>) -> fmt::Result {
    let entries = listing.map(|it| it.len());
    f.debug_struct(name).field("entries", &entries).finish_non_exhaustive()
}

impl fmt::Debug for Volume {
    fn fmt(&self, f: &mut fmt::Formatter<'_>) -> fmt::Result {
        show(f, "Volume", self.readdir("/"))
    }
}

impl fmt::Debug for Transaction<'_> {
    fn fmt(&self, f: &mut fmt::Formatter<'_>) -> fmt::Result {
        show(f, "Transaction", self.readdir("/"))
    }
}

impl fmt::Debug for Frozen {
    fn fmt(&self, f: &mut fmt::Formatter<'_>) -> fmt::Result {
        show(f, "Frozen", self.readdir("/"))
    }
}
