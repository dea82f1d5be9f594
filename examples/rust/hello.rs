//! A Rust program over the library, by its C symbols. It prints what each call answers; examples/run compares that
//! with hello.expected.
use std::ffi::c_void;
use std::fmt;
use std::ptr::null_mut;

#[repr(C)]
struct Handle {
    at: *mut c_void,
}

// The names are those of include/doorvervain.h. A slice is passed as a pointer and a length, and is never null.
extern "C" {
    fn doorvervain_raw_open(fanout: u16, pending: u16, leaf: u16, out: &mut Handle) -> u8;
    fn doorvervain_raw_close(fs: Handle);
    fn doorvervain_raw_mkdir(fs: &mut Handle, path: *const u8, length: usize, at: u64) -> u8;
    fn doorvervain_raw_create(fs: &mut Handle, path: *const u8, length: usize, at: u64) -> u8;
    fn doorvervain_raw_rmtree(fs: &mut Handle, path: *const u8, length: usize, at: u64) -> u8;
    fn doorvervain_raw_write(
        fs: &mut Handle,
        path: *const u8,
        length: usize,
        offset: u64,
        bytes: *const u8,
        count: usize,
        moment: u64,
    ) -> u8;
    fn doorvervain_raw_read(
        fs: &mut Handle,
        path: *const u8,
        length: usize,
        offset: u64,
        out: *mut u8,
        room: usize,
        got: &mut usize,
    ) -> u8;
    fn doorvervain_raw_readdir(
        fs: &mut Handle,
        path: *const u8,
        length: usize,
        out: *mut u8,
        room: usize,
        size: &mut usize,
    ) -> u8;
    fn doorvervain_raw_snapshot(fs: &mut Handle, name: *const u8, length: usize) -> u8;
    fn doorvervain_raw_restore(fs: &mut Handle, name: *const u8, length: usize) -> u8;
}

/// The usual shape of a volume's trees, as the header has it.
const FANOUT: u16 = 16;
const PENDING: u16 = 256;
const LEAF: u16 = 256;

/// The number of a refusal.
struct Refusal(u8);

impl fmt::Debug for Refusal {
    fn fmt(&self, f: &mut fmt::Formatter<'_>) -> fmt::Result {
        write!(f, "refusal {}", self.0)
    }
}

fn done(number: u8) -> Result<(), Refusal> {
    if number == 0 {
        Ok(())
    } else {
        Err(Refusal(number))
    }
}

/// A volume, which is freed with its owner. Its methods take `&mut`, so one thread at a time is in it.
struct Volume(Handle);

impl Volume {
    fn open() -> Result<Volume, Refusal> {
        let mut handle = Handle { at: null_mut() };
        done(unsafe { doorvervain_raw_open(FANOUT, PENDING, LEAF, &mut handle) })?;
        Ok(Volume(handle))
    }

    fn mkdir(&mut self, path: &str) -> Result<(), Refusal> {
        done(unsafe { doorvervain_raw_mkdir(&mut self.0, path.as_ptr(), path.len(), 0) })
    }

    fn create(&mut self, path: &str) -> Result<(), Refusal> {
        done(unsafe { doorvervain_raw_create(&mut self.0, path.as_ptr(), path.len(), 0) })
    }

    fn rmtree(&mut self, path: &str) -> Result<(), Refusal> {
        done(unsafe { doorvervain_raw_rmtree(&mut self.0, path.as_ptr(), path.len(), 0) })
    }

    fn write(&mut self, path: &str, offset: u64, bytes: &[u8]) -> Result<(), Refusal> {
        let (at, count) = (bytes.as_ptr(), bytes.len());
        done(unsafe { doorvervain_raw_write(&mut self.0, path.as_ptr(), path.len(), offset, at, count, 0) })
    }

    /// The bytes of a file from the offset on, at most so many.
    fn read(&mut self, path: &str, offset: u64, room: usize) -> Result<Vec<u8>, Refusal> {
        let (mut out, mut got) = (vec![0; room], 0);
        let at = out.as_mut_ptr();
        done(unsafe { doorvervain_raw_read(&mut self.0, path.as_ptr(), path.len(), offset, at, room, &mut got) })?;
        out.truncate(got);
        Ok(out)
    }

    /// The names in a directory, each behind its letter. The first question is how much room they take.
    fn names(&mut self, path: &str) -> Result<Vec<String>, Refusal> {
        let (mut out, mut size) = (Vec::new(), 0);
        loop {
            let (at, room) = (out.as_mut_ptr(), out.len());
            done(unsafe { doorvervain_raw_readdir(&mut self.0, path.as_ptr(), path.len(), at, room, &mut size) })?;
            if size <= room {
                break;
            }
            out = vec![0; size];
        }
        let entries = out[..size].split(|byte| *byte == 0).filter(|entry| !entry.is_empty());
        Ok(entries
            .map(|entry| String::from_utf8_lossy(entry).into_owned())
            .collect())
    }

    fn snapshot(&mut self, name: &str) -> Result<(), Refusal> {
        done(unsafe { doorvervain_raw_snapshot(&mut self.0, name.as_ptr(), name.len()) })
    }

    fn restore(&mut self, name: &str) -> Result<(), Refusal> {
        done(unsafe { doorvervain_raw_restore(&mut self.0, name.as_ptr(), name.len()) })
    }
}

impl Drop for Volume {
    fn drop(&mut self) {
        unsafe { doorvervain_raw_close(Handle { at: self.0.at }) };
    }
}

fn main() -> Result<(), Refusal> {
    let mut one = Volume::open()?;
    let mut other = Volume::open()?;
    one.mkdir("/d")?;
    one.create("/d/notes")?;
    one.write("/d/notes", 0, b"hello from Rust")?;
    other.create("/alone")?;
    println!("read: {:?}", String::from_utf8_lossy(&one.read("/d/notes", 6, 4)?));
    println!("one: {:?}, {:?}", one.names("/")?, one.names("/d")?);
    println!("the other: {:?}", other.names("/")?);
    println!("mkdir again: {:?}", one.mkdir("/d"));
    one.snapshot("before")?;
    one.rmtree("/d")?;
    println!("after rmtree: {:?}, {:?}", one.names("/")?, one.read("/d/notes", 0, 99));
    one.restore("before")?;
    println!("restored: {:?}", String::from_utf8_lossy(&one.read("/d/notes", 0, 99)?));
    drop(one);
    println!("the other, alone: {:?}", other.names("/")?);
    Ok(())
}
