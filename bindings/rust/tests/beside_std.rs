//! The same calls on a volume and on a folder of the system by `std::fs`: what they return, and the trees that they leave.
use doorvervain::{Errno, File, Frozen, Shape, Volume};
use std::collections::BTreeMap;
use std::ffi::OsStr;
use std::fs;
use std::io::{self, BufWriter, Read, Seek, SeekFrom, Write};
use std::os::unix::ffi::OsStrExt;
use std::path::{Path, PathBuf};
use std::sync::atomic::{AtomicU32, Ordering};

/// A folder of the system that is removed with its owner.
struct Folder(PathBuf);

impl Folder {
    fn new() -> Folder {
        static NUMBER: AtomicU32 = AtomicU32::new(0);
        let number = NUMBER.fetch_add(1, Ordering::Relaxed);
        let path = std::env::temp_dir().join(format!("beside-std-{}-{number}", std::process::id()));
        fs::create_dir(&path).expect("a new folder");
        Folder(path)
    }

    /// Where a path of a volume is in the folder.
    fn at(&self, path: &str) -> PathBuf {
        self.0.join(path.trim_start_matches('/'))
    }

    /// Each path with the bytes of its file, or none for a directory.
    fn tree(&self) -> BTreeMap<PathBuf, Option<Vec<u8>>> {
        let mut tree = BTreeMap::from([(PathBuf::from("/"), None)]);
        let mut pending = vec![self.0.clone()];
        while let Some(above) = pending.pop() {
            for entry in fs::read_dir(&above).expect("a folder") {
                let path = entry.expect("an entry").path();
                let name = Path::new("/").join(path.strip_prefix(&self.0).expect("below the folder"));
                let bytes = if path.is_dir() {
                    None
                } else {
                    Some(fs::read(&path).expect("a file"))
                };
                if bytes.is_none() {
                    pending.push(path);
                }
                tree.insert(name, bytes);
            }
        }
        tree
    }
}

impl Drop for Folder {
    fn drop(&mut self) {
        let _ = fs::remove_dir_all(&self.0);
    }
}

fn tree_of(volume: &Volume) -> BTreeMap<PathBuf, Option<Vec<u8>>> {
    let walked = volume.walk("/").map(|it| it.expect("an entry"));
    let with_bytes = |it: doorvervain::WalkEntry| {
        let is_dir = volume.stat(&it.path).expect("an entry").is_dir();
        let bytes = if is_dir {
            None
        } else {
            Some(volume.read(&it.path).expect("a file"))
        };
        (it.path, bytes)
    };
    walked.map(with_bytes).collect()
}

/// The system's number of an error, or none.
fn number<T>(result: io::Result<T>) -> Option<i32> {
    result
        .err()
        .map(|error| error.raw_os_error().expect("an error of the system"))
}

fn number_of<T>(result: Result<T, Errno>) -> Option<i32> {
    result.err().map(Errno::raw_os_error)
}

/// A generator of numbers below a limit (xorshift), so that a failure can be repeated.
struct Numbers(u64);

impl Numbers {
    fn below(&mut self, limit: u64) -> u64 {
        self.0 ^= self.0 << 13;
        self.0 ^= self.0 >> 7;
        self.0 ^= self.0 << 17;
        self.0 % limit
    }
}

const PATHS: [&str; 8] = ["/a", "/a/b", "/a/b/c", "/a/f", "/f", "/f/x", "/g", "/a/b/c/d/e"];

/// A call on both. Returns the numbers of both errors.
fn call(volume: &Volume, folder: &Folder, numbers: &mut Numbers) -> (String, Option<i32>, Option<i32>) {
    let path = PATHS[numbers.below(8) as usize];
    let near = folder.at(path);
    let bytes = vec![b'a' + numbers.below(26) as u8; numbers.below(9_000) as usize];
    match numbers.below(6) {
        0 => (
            format!("mkdir {path}"),
            number_of(volume.mkdir(path)),
            number(fs::create_dir(near)),
        ),
        1 => (
            format!("create_dir_all {path}"),
            number_of(volume.create_dir_all(path)),
            number(fs::create_dir_all(near)),
        ),
        2 => (
            format!("write {path}"),
            number_of(volume.write(path, &bytes)),
            number(fs::write(near, &bytes)),
        ),
        3 => (
            format!("read_to_string {path}"),
            number(volume.read_to_string(path)),
            number(fs::read_to_string(near)),
        ),
        4 => (
            format!("rmdir {path}"),
            number_of(volume.rmdir(path)),
            number(fs::remove_dir(near)),
        ),
        _ => (
            format!("append {path}"),
            number(append(volume, path, &bytes)),
            number(append_to(&near, &bytes)),
        ),
    }
}

fn append(volume: &Volume, path: &str, bytes: &[u8]) -> io::Result<()> {
    File::append(volume, path)?.write_all(bytes)
}

fn append_to(path: &Path, bytes: &[u8]) -> io::Result<()> {
    fs::OpenOptions::new()
        .append(true)
        .create(true)
        .open(path)?
        .write_all(bytes)
}

#[test]
fn the_same_calls() -> Result<(), Errno> {
    let mut numbers = Numbers(0x9e37_79b9_7f4a_7c15);
    let mut failed = 0;
    for _ in 0..40 {
        let (volume, folder) = (Volume::default(), Folder::new());
        for _ in 0..25 {
            let (what, ours, theirs) = call(&volume, &folder, &mut numbers);
            assert_eq!(ours, theirs, "{what}");
            failed += usize::from(ours.is_some());
        }
        assert_eq!(tree_of(&volume), folder.tree());
    }
    assert!(failed > 100, "{failed} calls failed, so errors are compared too");
    Ok(())
}

/// Reads, writes and seeks at random, and what each returned.
fn stream<F: Read + Write + Seek>(file: &mut F, numbers: &mut Numbers) -> Vec<String> {
    let mut said = Vec::new();
    for _ in 0..200 {
        let count = numbers.below(5_000) as usize;
        let bytes = vec![b'a' + numbers.below(26) as u8; count];
        let mut out = vec![b'#'; count];
        let near = numbers.below(20_000) as i64 - 10_000;
        let ended = match numbers.below(5) {
            0 => file.write(&bytes).map(|got| got as u64),
            1 => file.read(&mut out).map(|got| got as u64),
            2 => file.seek(SeekFrom::Start(numbers.below(30_000))),
            3 => file.seek(SeekFrom::Current(near)),
            _ => file.seek(SeekFrom::End(near)),
        };
        said.push(match ended {
            Ok(number) => format!("{number} {}", out.iter().map(|byte| u64::from(*byte)).sum::<u64>()),
            Err(error) => format!("{:?}", error.kind()),
        });
    }
    said
}

#[test]
fn the_same_streams() -> io::Result<()> {
    for seed in 1..40 {
        let (volume, folder) = (Volume::default(), Folder::new());
        let mut ours = File::create(&volume, "/f")?;
        let mut open = fs::OpenOptions::new();
        let mut theirs = open
            .read(true)
            .write(true)
            .create(true)
            .truncate(true)
            .open(folder.at("/f"))?;
        let said = stream(&mut ours, &mut Numbers(seed));
        assert_eq!(said, stream(&mut theirs, &mut Numbers(seed)), "seed {seed}");
        assert!(said.contains(&"InvalidInput".to_owned()) || seed > 3, "seed {seed}");
        assert_eq!(tree_of(&volume), folder.tree(), "seed {seed}");
    }
    Ok(())
}

#[test]
fn streams_of_one_file() -> io::Result<()> {
    let volume = Volume::default();
    let mut out = BufWriter::new(File::create(&volume, "/f")?);
    for line in 0..5_000 {
        writeln!(out, "line {line}")?;
    }
    out.flush()?;
    let tree = volume.freeze()?;
    let (mut live, mut end) = (File::open(&volume, "/f")?, File::append(&volume, "/f")?);
    end.write_all(b"end\n")?;
    end.seek(SeekFrom::Start(0))?;
    end.write_all(b"more\n")?;
    let mut copy = File::create(&volume, "/copy")?;
    let copied = io::copy(&mut live, &mut copy)?;
    assert_eq!((copied, copy.size()?), (48_890 + 9, 48_890 + 9));
    assert!(volume.read_to_string("/copy")?.ends_with("line 4999\nend\nmore\n"));
    let mut text = String::new();
    let mut frozen = File::open_frozen(&tree, "/f")?;
    frozen.read_to_string(&mut text)?;
    assert!(text.ends_with("line 4999\n"));
    assert_eq!(number(frozen.write(b"x")), Some(9));
    assert_eq!(frozen.path(), Path::new("/f"));
    assert_eq!(number_of(File::open(&volume, "/")), Some(21));
    assert_eq!(number_of(File::create(&volume, "/")), Some(21));
    assert_eq!(number_of(File::append(&volume, "/")), Some(21));
    assert_eq!(number_of(File::open(&volume, "/none")), Some(2));
    volume.unlink("/f")?;
    assert_eq!(number(live.read(&mut [0; 9])), Some(2));
    Ok(())
}

#[test]
fn names_that_are_no_text() -> Result<(), Errno> {
    let volume = Volume::default();
    let path = Path::new(OsStr::from_bytes(b"/\xff\xfe"));
    volume.write(path, b"x")?;
    let names: Vec<_> = volume.readdir("/")?.map(|entry| entry.name).collect();
    assert_eq!(names, [OsStr::from_bytes(b"\xff\xfe")]);
    let paths: Vec<_> = volume.walk("/").map(|it| it.expect("an entry").path).collect();
    assert_eq!(paths, [Path::new("/"), path]);
    assert_eq!(
        volume.read_to_string("/\u{ff}").err().map(|it| it.kind()),
        Some(io::ErrorKind::NotFound)
    );
    volume.write("/b", [0xff])?;
    assert_eq!(
        volume.read_to_string("/b").err().map(|it| it.kind()),
        Some(io::ErrorKind::InvalidData)
    );
    Ok(())
}

#[test]
fn a_listing_counts_what_is_left() -> Result<(), Errno> {
    let volume = Volume::default();
    assert!(volume.readdir("/")?.is_empty());
    for name in ["/c", "/a", "/b"] {
        volume.mkdir(name)?;
    }
    let mut listing = volume.readdir("/")?;
    assert_eq!((listing.len(), listing.size_hint()), (3, (3, Some(3))));
    assert!(listing
        .next()
        .map_or(false, |entry| entry.name == "a" && entry.is_dir() && !entry.is_file()));
    assert_eq!((listing.len(), listing.is_empty()), (2, false));
    listing.next();
    listing.next();
    assert_eq!(
        (listing.len(), listing.is_empty(), listing.next(), listing.next()),
        (0, true, None, None)
    );
    Ok(())
}

#[test]
fn clocks() -> io::Result<()> {
    let near = |time: u64| {
        let since = std::time::UNIX_EPOCH.elapsed().expect("after 1970");
        since.as_nanos().abs_diff(u128::from(time)) < 60_000_000_000
    };
    let mut volume = Volume::default();
    volume.write("/now", "x")?;
    assert!(near(volume.stat("/now")?.modified));
    volume.at(5).write("/then", "x")?;
    assert_eq!((volume.stat("/then")?.modified, volume.stat("/")?.modified), (5, 5));
    volume.set_clock(|| 9);
    File::append(&volume, "/then")?.write_all(b"y")?;
    assert_eq!(volume.stat("/then")?.modified, 9);
    volume.at(11).punch("/then", 0, 1)?;
    assert_eq!(
        (volume.stat("/then")?.modified, volume.read("/then")?),
        (11, b"\0y".to_vec())
    );
    volume.at(12).rename("/then", "/later")?;
    volume.at(13).truncate("/later", 1)?;
    assert_eq!((volume.stat("/")?.modified, volume.stat("/later")?.modified), (12, 13));
    volume.at(14).create_dir_all("/d/e")?;
    assert_eq!((volume.stat("/d")?.modified, volume.stat("/d/e")?.modified), (14, 14));
    Ok(())
}

/// A reader that gives one byte at a time and is interrupted before each, and a writer that takes as many.
struct Slowly<'a>(&'a [u8], bool);

impl Read for Slowly<'_> {
    fn read(&mut self, out: &mut [u8]) -> io::Result<usize> {
        self.1 = !self.1;
        if self.1 {
            return Err(io::ErrorKind::Interrupted.into());
        }
        let length = out.len().min(1);
        self.0.read(&mut out[..length])
    }
}

struct Full(usize);

impl Write for Full {
    fn write(&mut self, bytes: &[u8]) -> io::Result<usize> {
        let count = bytes.len().min(self.0);
        self.0 -= count;
        Ok(count)
    }

    fn flush(&mut self) -> io::Result<()> {
        Ok(())
    }
}

#[test]
fn images_in_pieces() -> io::Result<()> {
    let volume = Volume::default();
    for i in 0..3_000 {
        volume.at(i).write(format!("/f{i}"), i.to_string().repeat(9))?;
    }
    let folder = Folder::new();
    volume.write_image(fs::File::create(folder.at("/image"))?)?;
    assert_eq!(fs::read(folder.at("/image"))?, volume.image()?);
    let again = Volume::load_from(fs::File::open(folder.at("/image"))?, Shape::LARGE)?;
    assert_eq!(tree_of(&again), tree_of(&volume));
    again.snapshot("s")?;
    let frozen: Frozen = again.open_snapshot("s")?;
    drop(again);
    let mut text = Vec::new();
    frozen.write_image(&mut text)?;
    assert_eq!(text, volume.image()?);

    let slow = Volume::load_from(Slowly(b"D / 5\nF /x 3 7\nb 0 616263\n", false), Shape::USUAL)?;
    assert_eq!(slow.read("/x")?, b"abc");
    let bad = Volume::load_from(&b"D / 5\nx\n"[..], Shape::USUAL).expect_err("no image");
    assert_eq!(
        (bad.kind(), bad.to_string()),
        (io::ErrorKind::InvalidData, "bad image at line 2".to_owned())
    );
    let cut = volume.write_image(Full(100)).expect_err("a full writer");
    assert_eq!(cut.kind(), io::ErrorKind::WriteZero);
    assert_eq!(
        number(Volume::load_from(
            &b""[..],
            Shape {
                leaf: 0,
                ..Shape::USUAL
            }
        )),
        Some(22)
    );
    Ok(())
}

#[test]
fn a_hole() -> Result<(), Errno> {
    let volume = Volume::default();
    let mut bytes = vec![b'x'; 20_000];
    volume.write("/f", &bytes)?;
    volume.punch("/f", 3, 10_000)?;
    bytes[3..10_003].fill(0);
    assert_eq!(volume.read("/f")?, bytes);
    volume.punch("/f", 15_000, u64::MAX)?;
    bytes[15_000..].fill(0);
    assert_eq!(volume.read("/f")?, bytes);
    assert_eq!(volume.punch("/none", 0, 1), Err(Errno::ENOENT));
    assert_eq!(volume.punch("/", 0, 1), Err(Errno::EISDIR));
    Ok(())
}

#[test]
fn a_copied_range() -> Result<(), Errno> {
    let volume = Volume::default();
    let bytes: Vec<u8> = (0..20_000u32).map(|it| (it % 251) as u8).collect();
    volume.write("/f", &bytes)?;
    volume.write("/g", "before")?;
    for (offset, target, count) in [
        (4096, 8192, 8192),
        (3, 8190, 5000),
        (12_288, 4096, u64::MAX),
        (0, 1, 20_000),
        (20_000, 0, 1),
    ] {
        let from = usize::try_from(offset).expect("small");
        let most = usize::try_from(count).expect("64 bits");
        let part = &bytes[from..bytes.len().min(from.saturating_add(most))];
        let other = volume.fork()?;
        other.at(5).write_at("/g", target, part)?;
        assert_eq!(
            volume.at(5).copy_range("/f", offset, "/g", target, count)?,
            part.len() as u64
        );
        assert_eq!(volume.image()?, other.image()?);
    }
    assert_eq!(volume.copy_range("/f", 0, "/f", 1, u64::MAX)?, 20_000);
    assert_eq!(volume.read("/f")?, [&bytes[..1], &bytes[..]].concat());
    assert_eq!(volume.copy_range("/none", 0, "/", 0, 1), Err(Errno::ENOENT));
    assert_eq!(volume.copy_range("/f", 0, "/", 0, 1), Err(Errno::EISDIR));
    assert_eq!(volume.copy_range("/f", 0, "/g", 1 << 40, 1), Err(Errno::EFBIG));
    Ok(())
}

#[test]
fn forks_are_apart() -> Result<(), Errno> {
    let mut volume = Volume::default();
    volume.set_clock(|| 9);
    volume.write("/f", "one")?;
    let tree = volume.freeze()?;
    let (fork, of_tree) = (volume.fork()?, tree.fork()?);
    fork.write("/f", "two")?;
    of_tree.unlink("/f")?;
    assert_eq!(fork.stat("/f")?.modified, 9);
    assert_eq!(
        (volume.read("/f")?, fork.read("/f")?),
        (b"one".to_vec(), b"two".to_vec())
    );
    assert_eq!(of_tree.exists("/f"), Ok(false));
    fork.restore_frozen(&tree)?;
    assert_eq!(tree_of(&fork), tree_of(&volume));
    Ok(())
}
