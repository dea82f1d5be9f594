//! The symbols of the archive, behind types that meet the caller's obligations. All `unsafe` code of the crate is here.
//!
//! The obligations of a caller of the library, and how they are met:
//! - *No null pointer, and no volume that is closed*: a handle owns a volume from its creation to its drop, and a slice is never
//!   null.
//! - *A call that changes a volume is in it alone; calls that only look may be in it beside each other*: each volume has a read-write
//!   lock, which each call holds, and which has the tree with which an open transaction began. A frozen tree has none: no call changes
//!   it, and its drop has the only reference.
//! - *Bytes that a call writes overlap no others*: they are borrowed by `&mut`.
#![allow(unsafe_code)]

use crate::errno::{Errno, LoadError, SHORT};
use crate::listing::{Kind, Stat};
use std::ffi::c_void;
use std::mem::ManuallyDrop;
use std::ptr::{null_mut, NonNull};
use std::sync::{PoisonError, RwLock, RwLockWriteGuard};

/// The most bytes that one call reads.
const MOST: usize = 1 << 20;

/// The most bytes that the name of a snapshot has.
const LONGEST_NAME: usize = 64;

/// The kind of a directory in C.
const DIRECTORY: u8 = 1;

/// A volume or a frozen tree, as C has it. A copy is the same one.
#[repr(C)]
pub(crate) struct RawHandle {
    ptr: *mut c_void,
}

type OneText = unsafe extern "C" fn(*mut RawHandle, *const u8, usize) -> u8;
type OnePath = unsafe extern "C" fn(*mut RawHandle, *const u8, usize, u64) -> u8;
type Read = unsafe extern "C" fn(*mut RawHandle, *const u8, usize, u64, *mut u8, usize, *mut usize) -> u8;
type ReadStat = unsafe extern "C" fn(*mut RawHandle, *const u8, usize, *mut u8, *mut u64, *mut u64) -> u8;
type List = unsafe extern "C" fn(*mut RawHandle, *const u8, usize, *mut u8, usize, *mut usize) -> u8;

#[rustfmt::skip]
extern "C" {
    fn doorvervain_raw_open(fanout: u16, pending: u16, leaf: u16, out: *mut RawHandle) -> u8;
    fn doorvervain_raw_close(fs: RawHandle);
    fn doorvervain_raw_mkdir(fs: *mut RawHandle, path: *const u8, length: usize, at: u64) -> u8;
    fn doorvervain_raw_create(fs: *mut RawHandle, path: *const u8, length: usize, at: u64) -> u8;
    fn doorvervain_raw_unlink(fs: *mut RawHandle, path: *const u8, length: usize, at: u64) -> u8;
    fn doorvervain_raw_rmdir(fs: *mut RawHandle, path: *const u8, length: usize, at: u64) -> u8;
    fn doorvervain_raw_rmtree(fs: *mut RawHandle, path: *const u8, length: usize, at: u64) -> u8;
    fn doorvervain_raw_rename(
        fs: *mut RawHandle, from: *const u8, from_length: usize, to: *const u8, to_length: usize, at: u64,
    ) -> u8;
    fn doorvervain_raw_truncate(fs: *mut RawHandle, path: *const u8, length: usize, size: u64, at: u64) -> u8;
    fn doorvervain_raw_set_mtime(fs: *mut RawHandle, path: *const u8, length: usize, at: u64) -> u8;
    fn doorvervain_raw_copy_range(
        fs: *mut RawHandle, from: *const u8, from_length: usize, offset: u64, to: *const u8, to_length: usize, target: u64,
        count: u64, at: u64, copied: *mut u64,
    ) -> u8;
    fn doorvervain_raw_write(
        fs: *mut RawHandle, path: *const u8, length: usize, offset: u64, bytes: *const u8, count: usize, at: u64,
    ) -> u8;
    fn doorvervain_raw_read(
        fs: *mut RawHandle, path: *const u8, length: usize, offset: u64, out: *mut u8, capacity: usize, got: *mut usize,
    ) -> u8;
    fn doorvervain_raw_stat(
        fs: *mut RawHandle, path: *const u8, length: usize, kind: *mut u8, size: *mut u64, modified: *mut u64,
    ) -> u8;
    fn doorvervain_raw_readdir(
        fs: *mut RawHandle, path: *const u8, length: usize, out: *mut u8, capacity: usize, size: *mut usize,
    ) -> u8;
    fn doorvervain_raw_punch(fs: *mut RawHandle, path: *const u8, length: usize, offset: u64, count: u64, at: u64) -> u8;
    fn doorvervain_raw_snapshot(fs: *mut RawHandle, name: *const u8, length: usize) -> u8;
    fn doorvervain_raw_drop_snapshot(fs: *mut RawHandle, name: *const u8, length: usize) -> u8;
    fn doorvervain_raw_restore(fs: *mut RawHandle, name: *const u8, length: usize) -> u8;
    fn doorvervain_raw_snapshot_name(fs: *mut RawHandle, index: usize, out: *mut u8, capacity: usize, size: *mut usize) -> u8;
    fn doorvervain_raw_print_begin(tree: RawHandle, out: *mut RawHandle) -> u8;
    fn doorvervain_raw_print_next(printer: *mut RawHandle, out: *mut u8, capacity: usize, size: *mut usize) -> u8;
    fn doorvervain_raw_print_end(printer: RawHandle);
    fn doorvervain_raw_load_begin(fanout: u16, pending: u16, leaf: u16, out: *mut RawHandle) -> u8;
    fn doorvervain_raw_load_feed(loader: *mut RawHandle, text: *const u8, length: usize, line: *mut u64) -> u8;
    fn doorvervain_raw_load_finish(loader: RawHandle, line: *mut u64, out: *mut RawHandle) -> u8;
    fn doorvervain_raw_load_abort(loader: RawHandle);
    fn doorvervain_raw_freeze(fs: *mut RawHandle, out: *mut RawHandle) -> u8;
    fn doorvervain_raw_make_sharable(fs: *mut RawHandle);
    fn doorvervain_raw_condense(fs: *mut RawHandle);
    fn doorvervain_raw_fork(fs: *mut RawHandle, out: *mut RawHandle) -> u8;
    fn doorvervain_raw_frozen_fork(tree: *mut RawHandle, out: *mut RawHandle) -> u8;
    fn doorvervain_raw_restore_frozen(fs: *mut RawHandle, tree: *mut RawHandle) -> u8;
    fn doorvervain_raw_open_snapshot(fs: *mut RawHandle, name: *const u8, length: usize, out: *mut RawHandle) -> u8;
    fn doorvervain_raw_frozen_read(
        tree: *mut RawHandle, path: *const u8, length: usize, offset: u64, out: *mut u8, capacity: usize, got: *mut usize,
    ) -> u8;
    fn doorvervain_raw_frozen_stat(
        tree: *mut RawHandle, path: *const u8, length: usize, kind: *mut u8, size: *mut u64, modified: *mut u64,
    ) -> u8;
    fn doorvervain_raw_frozen_readdir(
        tree: *mut RawHandle, path: *const u8, length: usize, out: *mut u8, capacity: usize, size: *mut usize,
    ) -> u8;
    fn doorvervain_raw_image(tree: *mut RawHandle, out: *mut u8, capacity: usize, size: *mut usize) -> u8;
    fn doorvervain_raw_delta(
        fs: *mut RawHandle, from: *const u8, from_length: usize, to: *const u8, to_length: usize, out: *mut u8, capacity: usize,
        size: *mut usize,
    ) -> u8;
    fn doorvervain_raw_changed_paths(
        fs: *mut RawHandle, from: *const u8, from_length: usize, to: *const u8, to_length: usize, out: *mut u8, capacity: usize,
        size: *mut usize,
    ) -> u8;
    fn doorvervain_raw_apply_delta(fs: *mut RawHandle, text: *const u8, length: usize, line: *mut u64) -> u8;
    fn doorvervain_raw_edits_begin(
        fs: *mut RawHandle, from: *const u8, from_length: usize, to: *const u8, to_length: usize, out: *mut RawHandle,
    ) -> u8;
    fn doorvervain_raw_edits_next(edits: *mut RawHandle, out: *mut u8, capacity: usize, size: *mut usize) -> u8;
    fn doorvervain_raw_edits_end(edits: RawHandle);
    fn doorvervain_raw_apply_edits(fs: *mut RawHandle, text: *const u8, length: usize, line: *mut u64) -> u8;
    fn doorvervain_raw_frozen_close(tree: RawHandle);
    fn doorvervain_raw_compact(fs: *mut RawHandle, steps: u32) -> u32;
}

/// The calls that change the entry at one path.
#[derive(Clone, Copy)]
pub(crate) enum PathCall {
    Mkdir,
    Create,
    Unlink,
    Rmdir,
    Rmtree,
}

impl PathCall {
    fn call(self) -> OnePath {
        match self {
            PathCall::Mkdir => doorvervain_raw_mkdir,
            PathCall::Create => doorvervain_raw_create,
            PathCall::Unlink => doorvervain_raw_unlink,
            PathCall::Rmdir => doorvervain_raw_rmdir,
            PathCall::Rmtree => doorvervain_raw_rmtree,
        }
    }
}

/// The calls that take the name of a snapshot.
#[derive(Clone, Copy)]
pub(crate) enum SnapshotCall {
    Snapshot,
    Drop,
    Restore,
}

impl SnapshotCall {
    fn call(self) -> OneText {
        match self {
            SnapshotCall::Snapshot => doorvervain_raw_snapshot,
            SnapshotCall::Drop => doorvervain_raw_drop_snapshot,
            SnapshotCall::Restore => doorvervain_raw_restore,
        }
    }
}

/// The result of a call by its number. The numbers for null pointers and closed volumes do not occur.
fn done(number: u8) -> Result<(), Errno> {
    match number {
        0 => Ok(()),
        number => Err(Errno::from_number(number).unwrap_or(Errno::EINVAL)),
    }
}

/// Something of the library, which its owner frees.
struct Held(NonNull<c_void>);

// SAFETY: nothing of the library is bound to a thread.
unsafe impl Send for Held {}

impl Held {
    /// Takes ownership of what a successful call wrote.
    fn new(raw: &RawHandle) -> Result<Held, Errno> {
        NonNull::new(raw.ptr).map(Held).ok_or(Errno::ENOMEM)
    }

    /// What is held, for one call. A call that only looks writes nothing there, not even in passing.
    fn raw(&self) -> RawHandle {
        RawHandle { ptr: self.0.as_ptr() }
    }
}

const CLOSED: RawHandle = RawHandle { ptr: null_mut() };

/// The read-only calls, which a volume and a frozen tree have in common.
pub(crate) trait Reads {
    /// Runs calls that only look while none changes the tree.
    fn look<T>(&self, calls: impl FnOnce(*mut RawHandle) -> T) -> T;
    fn calls() -> Calls;

    fn read(&self, path: &[u8], offset: u64, out: &mut [u8]) -> Result<usize, Errno> {
        // SAFETY: the tree is there, and nothing changes it. So in the calls below.
        self.look(|raw| unsafe { Self::calls().read_into(raw, path, offset, out) })
    }

    /// All bytes of a file, as they are at one time.
    fn read_all(&self, path: &[u8]) -> Result<Vec<u8>, Errno> {
        self.look(|raw| {
            let stat = unsafe { Self::calls().stat_of(raw, path) }?;
            let size = usize::try_from(stat.size).map_err(|_| Errno::ENOMEM)?;
            let mut out = Vec::new();
            out.try_reserve_exact(size).map_err(|_| Errno::ENOMEM)?;
            out.resize(size, 0);
            let got = unsafe { Self::calls().read_into(raw, path, 0, &mut out) }?;
            out.truncate(got);
            Ok(out)
        })
    }

    fn stat(&self, path: &[u8]) -> Result<Stat, Errno> {
        self.look(|raw| unsafe { Self::calls().stat_of(raw, path) })
    }

    fn readdir(&self, path: &[u8]) -> Result<Vec<u8>, Errno> {
        self.look(|raw| {
            filled(1024, |out, size| unsafe {
                (Self::calls().readdir)(raw, path.as_ptr(), path.len(), out.as_mut_ptr(), out.len(), size)
            })
        })
    }
}

/// What a call writes. It is called again with more capacity if the buffer is too short.
fn filled(capacity: usize, mut call: impl FnMut(&mut [u8], &mut usize) -> u8) -> Result<Vec<u8>, Errno> {
    let mut out = vec![0; capacity];
    loop {
        let mut size = 0;
        let number = call(&mut out, &mut size);
        if number != SHORT {
            done(number)?;
            out.truncate(size);
            return Ok(out);
        }
        out.clear();
        out.try_reserve_exact(size).map_err(|_| Errno::ENOMEM)?;
        out.resize(size, 0);
    }
}

/// The symbols of the read-only calls.
pub(crate) struct Calls {
    read: Read,
    stat: ReadStat,
    readdir: List,
}

impl Calls {
    /// Reads a file into a slice, piece by piece.
    ///
    /// # Safety
    /// `raw` is a tree of the kind that these calls are for, and nothing changes it meanwhile.
    unsafe fn read_into(&self, raw: *mut RawHandle, path: &[u8], offset: u64, out: &mut [u8]) -> Result<usize, Errno> {
        let mut done_bytes = 0;
        loop {
            let capacity = (out.len() - done_bytes).min(MOST);
            let piece = &mut out[done_bytes..done_bytes + capacity];
            let (mut got, from, at) = (0, offset.saturating_add(done_bytes as u64), piece.as_mut_ptr());
            done((self.read)(
                raw,
                path.as_ptr(),
                path.len(),
                from,
                at,
                capacity,
                &mut got,
            ))?;
            done_bytes += got;
            if got < capacity || done_bytes == out.len() {
                return Ok(done_bytes);
            }
        }
    }

    /// Returns kind, size and mtime of an entry.
    ///
    /// # Safety
    /// As of `read_into`.
    unsafe fn stat_of(&self, raw: *mut RawHandle, path: &[u8]) -> Result<Stat, Errno> {
        let (mut kind, mut size, mut modified) = (0, 0, 0);
        done((self.stat)(
            raw,
            path.as_ptr(),
            path.len(),
            &mut kind,
            &mut size,
            &mut modified,
        ))?;
        let kind = if kind == DIRECTORY { Kind::Directory } else { Kind::File };
        Ok(Stat { kind, size, modified })
    }
}

/// A volume, which is freed with its owner. The lock has the tree with which an open transaction began.
pub(crate) struct VolumeHandle {
    held: Held,
    before: RwLock<Option<FrozenHandle>>,
}

// SAFETY: a call that changes the volume holds the lock alone, and one that only looks holds it beside others that only look. The tree in
// the lock may be used and dropped by any thread.
unsafe impl Sync for VolumeHandle {}

/// A frozen tree, which is freed with its owner.
pub(crate) struct FrozenHandle(Held);

// SAFETY: each call by a shared reference only looks.
unsafe impl Sync for FrozenHandle {}

impl Reads for VolumeHandle {
    fn look<T>(&self, calls: impl FnOnce(*mut RawHandle) -> T) -> T {
        let _before = self.before.read().unwrap_or_else(PoisonError::into_inner);
        calls(&mut self.held.raw())
    }

    fn calls() -> Calls {
        Calls {
            read: doorvervain_raw_read,
            stat: doorvervain_raw_stat,
            readdir: doorvervain_raw_readdir,
        }
    }
}

impl Reads for FrozenHandle {
    fn look<T>(&self, calls: impl FnOnce(*mut RawHandle) -> T) -> T {
        calls(&mut self.0.raw())
    }

    fn calls() -> Calls {
        Calls {
            read: doorvervain_raw_frozen_read,
            stat: doorvervain_raw_frozen_stat,
            readdir: doorvervain_raw_frozen_readdir,
        }
    }
}

impl VolumeHandle {
    /// Takes ownership of a volume that a successful call wrote.
    fn new(raw: &RawHandle) -> Result<VolumeHandle, Errno> {
        let (held, before) = (Held::new(raw)?, RwLock::new(None));
        Ok(VolumeHandle { held, before })
    }

    pub(crate) fn open(fanout: u16, pending: u16, leaf: u16) -> Result<VolumeHandle, Errno> {
        let mut out = CLOSED;
        // SAFETY: the out-parameter can be written.
        done(unsafe { doorvervain_raw_open(fanout, pending, leaf, &mut out) })?;
        VolumeHandle::new(&out)
    }

    /// Waits until nobody else is in the volume.
    fn alone(&self) -> RwLockWriteGuard<'_, Option<FrozenHandle>> {
        self.before.write().unwrap_or_else(PoisonError::into_inner)
    }

    /// Runs calls that may change the volume while nobody else is in it.
    fn change<T>(&self, calls: impl FnOnce(*mut RawHandle) -> T) -> T {
        let _before = self.alone();
        calls(&mut self.held.raw())
    }

    /// The same, but `EBUSY` if a transaction is open.
    fn change_outside<T>(&self, calls: impl FnOnce(*mut RawHandle) -> T) -> Result<T, Errno> {
        let before = self.alone();
        match *before {
            Some(_) => Err(Errno::EBUSY),
            None => Ok(calls(&mut self.held.raw())),
        }
    }

    /// Begins a transaction; or `EBUSY`, if one is open.
    pub(crate) fn begin(&self) -> Result<(), Errno> {
        let (mut before, mut out) = (self.alone(), CLOSED);
        if before.is_some() {
            return Err(Errno::EBUSY);
        }
        // SAFETY: the volume is there, and nobody else is in it; the out-parameter can be written.
        done(unsafe {
            doorvervain_raw_make_sharable(&mut self.held.raw());
            doorvervain_raw_freeze(&mut self.held.raw(), &mut out)
        })?;
        *before = Some(Held::new(&out).map(FrozenHandle)?);
        Ok(())
    }

    /// Ends a transaction, and keeps its changes.
    pub(crate) fn commit(&self) {
        let mut before = self.alone();
        drop(before.take());
        // SAFETY: the volume is there, and nobody else is in it.
        unsafe { doorvervain_raw_condense(&mut self.held.raw()) };
    }

    /// Ends a transaction, and restores the tree with which it began.
    pub(crate) fn rollback(&self) {
        let mut before = self.alone();
        if let Some(tree) = before.take() {
            // SAFETY: the volume and the tree are there, and nobody else is in the volume.
            let number = tree.look(|tree| unsafe { doorvervain_raw_restore_frozen(&mut self.held.raw(), tree) });
            // It asks for no memory, and fails only with 2^64 - 1 references to the tree, which no memory holds.
            debug_assert_eq!(number, 0);
        }
    }

    pub(crate) fn path_call(&self, call: PathCall, path: &[u8], at: u64) -> Result<(), Errno> {
        // SAFETY: the volume is there, and nobody else is in it; the bytes are those of slices. So in the calls below.
        self.change(|raw| done(unsafe { call.call()(raw, path.as_ptr(), path.len(), at) }))
    }

    pub(crate) fn rename(&self, from: &[u8], to: &[u8], at: u64) -> Result<(), Errno> {
        let (from_at, to_at) = (from.as_ptr(), to.as_ptr());
        self.change(|raw| done(unsafe { doorvervain_raw_rename(raw, from_at, from.len(), to_at, to.len(), at) }))
    }

    pub(crate) fn set_mtime(&self, path: &[u8], at: u64) -> Result<(), Errno> {
        self.change(|raw| done(unsafe { doorvervain_raw_set_mtime(raw, path.as_ptr(), path.len(), at) }))
    }

    pub(crate) fn truncate(&self, path: &[u8], size: u64, at: u64) -> Result<(), Errno> {
        self.change(|raw| done(unsafe { doorvervain_raw_truncate(raw, path.as_ptr(), path.len(), size, at) }))
    }

    pub(crate) fn write(&self, path: &[u8], offset: u64, bytes: &[u8], at: u64) -> Result<(), Errno> {
        self.change(|raw| unsafe { write_at(raw, path, offset, bytes, at) })
    }

    /// Makes a file of these bytes, without others seeing a part of them.
    pub(crate) fn replace(&self, path: &[u8], bytes: &[u8], at: u64) -> Result<(), Errno> {
        self.change(|raw| {
            match done(unsafe { doorvervain_raw_create(raw, path.as_ptr(), path.len(), at) }) {
                Err(Errno::EEXIST) => done(unsafe { doorvervain_raw_truncate(raw, path.as_ptr(), path.len(), 0, at) })?,
                ended => ended?,
            }
            unsafe { write_at(raw, path, 0, bytes, at) }
        })
    }

    /// Writes at the end of a file, and returns where that was.
    pub(crate) fn append(&self, path: &[u8], bytes: &[u8], at: u64) -> Result<u64, Errno> {
        self.change(|raw| {
            let size = unsafe { Self::calls().stat_of(raw, path) }?.size;
            unsafe { write_at(raw, path, size, bytes, at) }?;
            Ok(size)
        })
    }

    pub(crate) fn punch(&self, path: &[u8], offset: u64, count: u64, at: u64) -> Result<(), Errno> {
        self.change(|raw| done(unsafe { doorvervain_raw_punch(raw, path.as_ptr(), path.len(), offset, count, at) }))
    }

    pub(crate) fn copy_range(
        &self,
        (from, offset): (&[u8], u64),
        (to, target): (&[u8], u64),
        count: u64,
        at: u64,
    ) -> Result<u64, Errno> {
        let (from_at, to_at) = (from.as_ptr(), to.as_ptr());
        let mut copied = 0;
        self.change(|raw| {
            done(unsafe {
                doorvervain_raw_copy_range(
                    raw,
                    from_at,
                    from.len(),
                    offset,
                    to_at,
                    to.len(),
                    target,
                    count,
                    at,
                    &mut copied,
                )
            })
        })?;
        Ok(copied)
    }

    pub(crate) fn snapshot_call(&self, call: SnapshotCall, name: &[u8]) -> Result<(), Errno> {
        self.change_outside(|raw| done(unsafe { call.call()(raw, name.as_ptr(), name.len()) }))?
    }

    /// The names of all snapshots, in order, as they are at one time.
    pub(crate) fn snapshot_names(&self) -> Vec<String> {
        self.look(|raw| (0..).map_while(|index| unsafe { snapshot_name(raw, index) }).collect())
    }

    pub(crate) fn freeze(&self) -> Result<FrozenHandle, Errno> {
        let mut out = CLOSED;
        self.look(|raw| done(unsafe { doorvervain_raw_freeze(raw, &mut out) }))?;
        Held::new(&out).map(FrozenHandle)
    }

    pub(crate) fn fork(&self) -> Result<VolumeHandle, Errno> {
        let mut out = CLOSED;
        self.look(|raw| done(unsafe { doorvervain_raw_fork(raw, &mut out) }))?;
        VolumeHandle::new(&out)
    }

    pub(crate) fn restore_frozen(&self, tree: &FrozenHandle) -> Result<(), Errno> {
        self.change_outside(|raw| tree.look(|tree| done(unsafe { doorvervain_raw_restore_frozen(raw, tree) })))?
    }

    pub(crate) fn open_snapshot(&self, name: &[u8]) -> Result<FrozenHandle, Errno> {
        let mut out = CLOSED;
        self.look(|raw| done(unsafe { doorvervain_raw_open_snapshot(raw, name.as_ptr(), name.len(), &mut out) }))?;
        Held::new(&out).map(FrozenHandle)
    }

    pub(crate) fn delta(&self, from: &[u8], to: &[u8]) -> Result<Vec<u8>, Errno> {
        let (from_at, to_at) = (from.as_ptr(), to.as_ptr());
        self.look(|raw| {
            filled(1024, |out, size| unsafe {
                let (out_at, capacity) = (out.as_mut_ptr(), out.len());
                doorvervain_raw_delta(raw, from_at, from.len(), to_at, to.len(), out_at, capacity, size)
            })
        })
    }

    /// The texts of paths, each with a byte 0 behind it.
    pub(crate) fn changed_paths(&self, from: &[u8], to: &[u8]) -> Result<Vec<u8>, Errno> {
        let (from_at, to_at) = (from.as_ptr(), to.as_ptr());
        self.look(|raw| {
            filled(1024, |out, size| unsafe {
                let (out_at, capacity) = (out.as_mut_ptr(), out.len());
                doorvervain_raw_changed_paths(raw, from_at, from.len(), to_at, to.len(), out_at, capacity, size)
            })
        })
    }

    /// Applies a delta; or returns the error, with the first bad line of the text.
    pub(crate) fn apply_delta(&self, text: &[u8]) -> Result<(), (Errno, u64)> {
        let mut line = 0;
        let applied = self
            .change_outside(|raw| unsafe { doorvervain_raw_apply_delta(raw, text.as_ptr(), text.len(), &mut line) });
        applied.and_then(done).map_err(|refused| (refused, line))
    }

    /// Takes both trees, whose edits are printed later.
    pub(crate) fn edits(&self, from: &[u8], to: &[u8]) -> Result<EditsPrinter, Errno> {
        let mut out = CLOSED;
        let (from_at, to_at) = (from.as_ptr(), to.as_ptr());
        self.look(|raw| {
            done(unsafe { doorvervain_raw_edits_begin(raw, from_at, from.len(), to_at, to.len(), &mut out) })
        })?;
        Held::new(&out).map(EditsPrinter)
    }

    /// Applies edits; or returns the error, with the line that is bad or does not fit.
    pub(crate) fn apply_edits(&self, text: &[u8]) -> Result<(), (Errno, u64)> {
        let mut line = 0;
        let applied = self
            .change_outside(|raw| unsafe { doorvervain_raw_apply_edits(raw, text.as_ptr(), text.len(), &mut line) });
        applied.and_then(done).map_err(|refused| (refused, line))
    }

    pub(crate) fn compact(&self, steps: u32) -> u32 {
        self.change_outside(|raw| unsafe { doorvervain_raw_compact(raw, steps) })
            .unwrap_or(0)
    }
}

/// Writes bytes to a file.
///
/// # Safety
/// `raw` is a volume that nobody else is in.
unsafe fn write_at(raw: *mut RawHandle, path: &[u8], offset: u64, bytes: &[u8], at: u64) -> Result<(), Errno> {
    let from = bytes.as_ptr();
    done(doorvervain_raw_write(
        raw,
        path.as_ptr(),
        path.len(),
        offset,
        from,
        bytes.len(),
        at,
    ))
}

/// The name of the snapshot at an index, in the order of names; none past the last.
///
/// # Safety
/// `raw` is a volume, and nothing changes it meanwhile.
unsafe fn snapshot_name(raw: *mut RawHandle, index: usize) -> Option<String> {
    let (mut size, mut name) = (0, vec![0; LONGEST_NAME]);
    done(doorvervain_raw_snapshot_name(
        raw,
        index,
        name.as_mut_ptr(),
        name.len(),
        &mut size,
    ))
    .ok()?;
    name.truncate(size);
    String::from_utf8(name).ok()
}

impl FrozenHandle {
    pub(crate) fn fork(&self) -> Result<VolumeHandle, Errno> {
        let mut out = CLOSED;
        // SAFETY: the tree is there, and the call only looks at it; the out-parameter can be written.
        self.look(|raw| done(unsafe { doorvervain_raw_frozen_fork(raw, &mut out) }))?;
        VolumeHandle::new(&out)
    }

    pub(crate) fn image(&self) -> Result<Vec<u8>, Errno> {
        // SAFETY: the tree is there, and the call only looks at it; the bytes are those of a slice.
        self.look(|raw| {
            filled(1024, |out, size| unsafe {
                doorvervain_raw_image(raw, out.as_mut_ptr(), out.len(), size)
            })
        })
    }
}

/// Prints the image of a frozen tree, which it has, one piece at a time.
pub(crate) struct Printer(Held);

impl Printer {
    /// Takes the tree.
    pub(crate) fn begin(tree: FrozenHandle) -> Result<Printer, Errno> {
        let (tree, mut out) = (ManuallyDrop::new(tree), CLOSED);
        // SAFETY: the tree is not dropped, so this is its one owner; the call closes it, whatever it returns.
        done(unsafe { doorvervain_raw_print_begin(tree.0.raw(), &mut out) })?;
        Held::new(&out).map(Printer)
    }

    /// Writes the next bytes into the buffer, and returns how many, 0 only at the end of the image.
    pub(crate) fn next(&mut self, piece: &mut [u8]) -> Result<usize, Errno> {
        let (mut raw, mut size) = (self.0.raw(), 0);
        // SAFETY: the printer is there, and no other thread has it; the bytes are those of a slice.
        done(unsafe { doorvervain_raw_print_next(&mut raw, piece.as_mut_ptr(), piece.len(), &mut size) })?;
        Ok(size)
    }
}

/// Prints the edits between two trees, one piece at a time.
pub(crate) struct EditsPrinter(Held);

impl EditsPrinter {
    /// Writes the next bytes into the buffer, and returns how many, 0 only at the end of the text.
    pub(crate) fn next(&mut self, piece: &mut [u8]) -> Result<usize, Errno> {
        let (mut raw, mut size) = (self.0.raw(), 0);
        // SAFETY: the printer is there, and no other thread has it; the bytes are those of a slice.
        done(unsafe { doorvervain_raw_edits_next(&mut raw, piece.as_mut_ptr(), piece.len(), &mut size) })?;
        Ok(size)
    }
}

/// Loads a volume from an image, one piece at a time.
pub(crate) struct LoaderHandle(Held);

impl LoaderHandle {
    pub(crate) fn begin(fanout: u16, pending: u16, leaf: u16) -> Result<LoaderHandle, LoadError> {
        let mut out = CLOSED;
        // SAFETY: the out-parameter can be written.
        let number = unsafe { doorvervain_raw_load_begin(fanout, pending, leaf, &mut out) };
        loaded(number, 0)?;
        Held::new(&out).map(LoaderHandle).map_err(LoadError::Refused)
    }

    /// Feeds the next bytes of the text.
    pub(crate) fn feed(&mut self, text: &[u8]) -> Result<(), LoadError> {
        let (mut raw, mut line) = (self.0.raw(), 0);
        // SAFETY: the loader is there, and no other thread has it; the bytes are those of a slice.
        let number = unsafe { doorvervain_raw_load_feed(&mut raw, text.as_ptr(), text.len(), &mut line) };
        loaded(number, line)
    }

    /// Ends the text.
    pub(crate) fn finish(self) -> Result<VolumeHandle, LoadError> {
        let (loader, mut out, mut line) = (ManuallyDrop::new(self), CLOSED, 0);
        // SAFETY: the loader is not dropped, so this is its one owner; the call closes it, whatever it returns.
        let number = unsafe { doorvervain_raw_load_finish(loader.0.raw(), &mut line, &mut out) };
        loaded(number, line)?;
        VolumeHandle::new(&out).map_err(LoadError::Refused)
    }
}

/// The result of a call that loads, by its number and the first bad line.
fn loaded(number: u8, line: u64) -> Result<(), LoadError> {
    done(number).map_err(|error| match line {
        0 => LoadError::Refused(error),
        line => LoadError::BadLine(line),
    })
}

// SAFETY, in each drop: the owner is dropped, so nobody uses what it held again.

impl Drop for Printer {
    fn drop(&mut self) {
        unsafe { doorvervain_raw_print_end(self.0.raw()) };
    }
}

impl Drop for EditsPrinter {
    fn drop(&mut self) {
        unsafe { doorvervain_raw_edits_end(self.0.raw()) };
    }
}

impl Drop for LoaderHandle {
    fn drop(&mut self) {
        unsafe { doorvervain_raw_load_abort(self.0.raw()) };
    }
}

impl Drop for VolumeHandle {
    fn drop(&mut self) {
        unsafe { doorvervain_raw_close(self.held.raw()) };
    }
}

impl Drop for FrozenHandle {
    fn drop(&mut self) {
        unsafe { doorvervain_raw_frozen_close(self.0.raw()) };
    }
}
