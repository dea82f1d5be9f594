//! Each call: what it gives, what it refuses, and what stands still.
use doorvervain::{DeltaError, EditError, Errno, File, Frozen, Kind, LoadError, Shape, Stat, Transaction, Volume};
use std::io::{self, Write};
use std::panic::{self, AssertUnwindSafe};
use std::path::Path;
use std::sync::Barrier;
use std::thread;

type Outcome = Result<(), Errno>;

fn names(volume: &Volume, path: &str) -> Result<Vec<String>, Errno> {
    let shown = |entry: doorvervain::Entry| {
        let letter = if entry.is_dir() { 'd' } else { 'f' };
        format!("{letter} {}", entry.name.to_string_lossy())
    };
    Ok(volume.readdir(path)?.map(shown).collect())
}

#[test]
fn the_calls() -> Outcome {
    let volume = Volume::new()?;
    volume.at(3).mkdir("/d")?;
    volume.at(4).create("/d/x")?;
    volume.at(5).write_at("/d/x", 0, b"hello, world")?;
    let (size, modified) = (12, 5);
    assert_eq!(
        volume.stat("/d/x"),
        Ok(Stat {
            kind: Kind::File,
            size,
            modified
        })
    );
    assert!(volume.stat("/d")?.is_dir());
    volume.at(6).rename("/d/x", "/y")?;
    volume.at(7).truncate("/y", 5)?;
    assert_eq!(volume.read("/y")?, b"hello");
    assert_eq!(names(&volume, "/")?, ["d d", "f y"]);
    for (path, modified) in [("/y", 21), ("/d", 22), ("/", 23)] {
        volume.set_modified(path, modified)?;
        assert_eq!(volume.stat(path)?.modified, modified);
    }
    assert_eq!(volume.read("/y")?, b"hello");
    volume.at(8).unlink("/y")?;
    volume.at(9).rmdir("/d")?;
    assert!(volume.readdir("/")?.is_empty());
    Ok(())
}

#[test]
fn the_refusals() -> Outcome {
    let volume = Volume::new()?;
    volume.mkdir("/d")?;
    volume.create("/d/f")?;
    let before = volume.image()?;
    let long = format!("/{}", "n".repeat(256));
    assert_eq!(volume.mkdir("/x/y"), Err(Errno::ENOENT));
    assert_eq!(volume.create(""), Err(Errno::ENOENT));
    assert_eq!(volume.create("/d/f/x"), Err(Errno::ENOTDIR));
    assert_eq!(volume.write_at("/d", 0, b"x"), Err(Errno::EISDIR));
    assert_eq!(volume.mkdir("/d"), Err(Errno::EEXIST));
    assert_eq!(volume.rmdir("/d"), Err(Errno::ENOTEMPTY));
    assert_eq!(volume.unlink("/d"), Err(Errno::EPERM));
    assert_eq!(volume.rename("/d", "/d/e"), Err(Errno::EINVAL));
    assert_eq!(volume.mkdir("d"), Err(Errno::EINVAL));
    assert_eq!(volume.mkdir("/\0"), Err(Errno::EINVAL));
    assert_eq!(volume.mkdir(&long), Err(Errno::ENAMETOOLONG));
    assert_eq!(volume.truncate("/d/f", (1 << 40) + 1), Err(Errno::EFBIG));
    assert_eq!(volume.write_at("/d/f", u64::MAX, b"x"), Err(Errno::EFBIG));
    assert_eq!(volume.rmtree("/"), Err(Errno::EBUSY));
    assert_eq!(volume.set_modified("/x", 1), Err(Errno::ENOENT));
    assert_eq!(volume.set_modified("/d/f/x", 1), Err(Errno::ENOTDIR));
    assert_eq!(volume.read("/d"), Err(Errno::EISDIR));
    assert_eq!(volume.readdir("/d/f").err(), Some(Errno::ENOTDIR));
    assert_eq!(volume.exists("/d/f/x"), Ok(false));
    assert_eq!(volume.exists("/d//f"), Err(Errno::EINVAL));
    assert_eq!(
        Volume::with_shape(Shape {
            fanout: 1,
            ..Shape::USUAL
        })
        .err(),
        Some(Errno::EINVAL)
    );
    assert_eq!(volume.image()?, before);
    Ok(())
}

#[test]
fn refusals_of_the_system() {
    let kinds = [
        (Errno::ENOENT, io::ErrorKind::NotFound),
        (Errno::EEXIST, io::ErrorKind::AlreadyExists),
        (Errno::EPERM, io::ErrorKind::PermissionDenied),
        (Errno::EINVAL, io::ErrorKind::InvalidInput),
        (Errno::ENOMEM, io::ErrorKind::OutOfMemory),
    ];
    for (errno, kind) in kinds {
        assert_eq!(io::Error::from(errno).kind(), kind, "{errno}");
    }
    // What the system says of each number, so that a wrong one shows.
    let said = [
        (Errno::ENOTDIR, "Not a directory"),
        (Errno::EISDIR, "Is a directory"),
        (Errno::ENOTEMPTY, "Directory not empty"),
        (Errno::ENAMETOOLONG, "File name too long"),
        (Errno::EFBIG, "File too large"),
        (Errno::EBUSY, "Device or resource busy"),
        (Errno::ENOSPC, "No space left on device"),
    ];
    for (errno, text) in said {
        assert!(io::Error::from(errno).to_string().starts_with(text), "{errno}");
    }
}

#[test]
fn reads_of_all_lengths() -> Outcome {
    let volume = Volume::new()?;
    let bytes: Vec<u8> = (0..(2_u32 << 20) + 9).map(|i| (i.wrapping_mul(i) >> 8) as u8).collect();
    volume.create("/f")?;
    volume.write_at("/f", 0, &bytes)?;
    assert!(volume.read("/f")? == bytes);
    for room in [0, 1, 4096, 1 << 20, (1 << 20) + 1, (2 << 20) + 9, 3 << 20] {
        for offset in [0, 1, 4095, (2 << 20) + 8, (2 << 20) + 9, 3 << 20] {
            let mut out = vec![0xa5; room];
            let got = volume.read_at("/f", offset as u64, &mut out)?;
            let expected = &bytes[offset.min(bytes.len())..(offset + room).min(bytes.len())];
            assert!(out[..got] == *expected, "{room} bytes from {offset}");
            assert!(
                out[got..].iter().all(|byte| *byte == 0xa5),
                "{room} bytes from {offset}"
            );
        }
    }
    assert_eq!(volume.read_at("/f", u64::MAX, &mut [0; 9]), Ok(0));
    Ok(())
}

#[test]
fn a_long_listing() -> Outcome {
    let volume = Volume::with_shape(Shape {
        fanout: 4,
        pending: 4,
        leaf: 4,
    })?;
    let made: Vec<String> = (0..3_000).map(|i| format!("name-{i:04}")).collect();
    for name in made.iter().rev() {
        volume.create(format!("/{name}"))?;
        volume.compact(2);
    }
    let listing = volume.readdir("/")?;
    assert_eq!(listing.len(), 3_000);
    assert!(listing
        .clone()
        .map(|entry| entry.name)
        .eq(made.iter().map(|name| name.as_str())));
    while volume.compact(100) == 100 {}
    assert_eq!(volume.readdir("/")?, listing);
    Ok(())
}

#[test]
fn walks() -> Outcome {
    let volume = Volume::new()?;
    for path in ["/a", "/a/b", "/a-", "/c"] {
        volume.mkdir(path)?;
    }
    volume.create("/a/b/f")?;
    let paths = |top: &str| -> Vec<String> {
        let walked = volume.walk(top).map(|it| it.expect("it is there"));
        walked.map(|it| it.path.to_string_lossy().into_owned()).collect()
    };
    assert_eq!(paths("/"), ["/", "/a", "/a/b", "/a/b/f", "/a-", "/c"]);
    assert_eq!(paths("/a/b"), ["/a/b", "/a/b/f"]);
    assert_eq!(paths("/a/b/f"), ["/a/b/f"]);
    let mut none = volume.walk("/none");
    assert_eq!(none.next(), Some(Err(Errno::ENOENT)));
    assert_eq!(none.next(), None);
    Ok(())
}

#[test]
fn snapshots() -> Outcome {
    let volume = Volume::new()?;
    for name in ["b", "a", "a.1"] {
        volume.create(format!("/{name}"))?;
        volume.snapshot(name)?;
    }
    assert_eq!(volume.snapshots().collect::<Vec<_>>(), ["a", "a.1", "b"]);
    assert_eq!(volume.snapshot("a"), Err(Errno::EEXIST));
    assert_eq!(volume.snapshot("a/b"), Err(Errno::EINVAL));
    assert_eq!(volume.restore("none"), Err(Errno::ENOENT));
    assert_eq!(volume.open_snapshot("none").err(), Some(Errno::ENOENT));
    volume.restore("a")?;
    assert_eq!(names(&volume, "/")?, ["f a", "f b"]);
    let kept = volume.open_snapshot("a.1")?;
    volume.drop_snapshot("a.1")?;
    assert_eq!(volume.drop_snapshot("a.1"), Err(Errno::ENOENT));
    assert_eq!(volume.snapshots().collect::<Vec<_>>(), ["a", "b"]);
    for name in volume.snapshots() {
        volume.drop_snapshot(&name)?;
    }
    assert_eq!(volume.snapshots().count(), 0);
    drop(volume);
    assert_eq!(kept.readdir("/")?.len(), 3);
    assert_eq!(kept.exists(Path::new("/a.1")), Ok(true));
    Ok(())
}

#[test]
fn images() -> Outcome {
    let text = b"D / 5\nD /a 9\nF /a/f 5000 7\nb 0 616263\n";
    for shape in [
        Shape::USUAL,
        Shape::LARGE,
        Shape {
            fanout: 4,
            pending: 4,
            leaf: 4,
        },
    ] {
        let volume = Volume::load(text, shape).expect("it is an image");
        assert_eq!(volume.image()?, text);
        assert_eq!(volume.snapshots().count(), 0);
    }
    let refused = |text: &[u8]| Volume::load(text, Shape::USUAL).err();
    assert_eq!(refused(b"D / 5\nD /b 1\nD /a 1\n"), Some(LoadError::BadLine(3)));
    assert_eq!(refused(b""), Some(LoadError::BadLine(1)));
    let no_shape = Volume::load(
        text,
        Shape {
            leaf: 0,
            ..Shape::USUAL
        },
    );
    assert_eq!(no_shape.err(), Some(LoadError::Refused(Errno::EINVAL)));
    Ok(())
}

/// Trees that are frozen are read in threads while their volume goes on.
#[test]
fn threads() -> Outcome {
    let volume = Volume::new()?;
    let mut readers = Vec::new();
    for round in 0..200_u32 {
        let text = round.to_string().repeat(100);
        let path = format!("/f{}", round % 7);
        if round < 7 {
            volume.create(&path)?;
        }
        volume.truncate(&path, 0)?;
        volume.write_at(&path, 0, text.as_bytes())?;
        if round % 10 == 0 {
            let tree: Frozen = volume.freeze()?;
            readers.push(thread::spawn(move || {
                (0..50).all(|_| tree.read(&path) == Ok(text.clone().into_bytes()))
            }));
        }
        volume.compact(1);
    }
    let moved = thread::spawn(move || volume.readdir("/").map(|listing| listing.len()));
    assert_eq!(moved.join().expect("it ends"), Ok(7));
    for reader in readers {
        assert!(reader.join().expect("it ends"));
    }
    Ok(())
}

/// One frozen tree is read, forked and printed by several threads at once.
#[test]
fn threads_share_a_frozen_tree() -> Outcome {
    let volume = Volume::new()?;
    for number in 0..500_u32 {
        volume.write(format!("/f{number}"), number.to_string().repeat(50))?;
    }
    let tree = volume.freeze()?;
    let image = tree.image()?;
    let read_all = |first: u32| -> Outcome {
        for number in (first..500).chain(0..first) {
            let path = format!("/f{number}");
            assert_eq!(tree.read(&path)?, number.to_string().repeat(50).into_bytes());
            tree.fork()?.unlink(&path)?;
        }
        assert_eq!(tree.readdir("/")?.len(), 500);
        assert_eq!(tree.image()?, image);
        Ok(())
    };
    thread::scope(|scope| {
        let readers: Vec<_> = (0..4)
            .map(|reader| scope.spawn(move || read_all(reader * 125)))
            .collect();
        for number in 0..500_u32 {
            volume.unlink(format!("/f{number}"))?;
        }
        readers
            .into_iter()
            .try_for_each(|reader| reader.join().expect("it ends"))
    })
}

/// Appends of several threads are all kept, and a file that is written is never seen in part.
#[test]
fn threads_share_a_volume() -> Outcome {
    const LINES: usize = 3000;
    let volume = Volume::new()?;
    volume.write("/whole", "0".repeat(1000))?;
    let append = |letter: &str| {
        let mut lines = File::append(&volume, "/lines").expect("it is there");
        for number in 1..=LINES {
            lines.write_all(letter.as_bytes()).expect("it is written");
            volume
                .write("/whole", letter.repeat(1000 + number))
                .expect("it is written");
        }
    };
    let look = || {
        for _ in 0..LINES {
            let whole = volume.read("/whole").expect("it is there");
            assert!(whole.len() >= 1000 && whole.iter().all(|&byte| byte == whole[0]));
        }
    };
    thread::scope(|scope| {
        let append = &append;
        for letter in ["a", "b", "c"] {
            scope.spawn(move || append(letter));
            scope.spawn(look);
        }
    });
    let lines = volume.read("/lines")?;
    for letter in b"abc" {
        assert_eq!(lines.iter().filter(|&byte| byte == letter).count(), LINES);
    }
    Ok(())
}

/// Threads that create the same directories at once all succeed, as with `std::fs`.
#[test]
fn threads_create_the_same_directories() -> Outcome {
    const THREADS: usize = 4;
    let volume = Volume::new()?;
    for round in 0..300 {
        let start = Barrier::new(THREADS);
        let create = || {
            start.wait();
            volume.create_dir_all(format!("/{round}/a/b/c"))
        };
        thread::scope(|scope| {
            let threads: Vec<_> = (0..THREADS).map(|_| scope.spawn(create)).collect();
            threads.into_iter().try_for_each(|it| it.join().expect("it ends"))
        })?;
        assert!(volume.stat(format!("/{round}/a/b/c"))?.is_dir());
    }
    Ok(())
}

#[test]
fn what_debug_shows() -> Outcome {
    let volume = Volume::new()?;
    volume.mkdir("/a")?;
    assert_eq!(format!("{volume:?}"), "Volume { entries: Ok(1), .. }");
    Ok(())
}

/// The first line of a delta from `D / 5`.
const OF_ROOT: &str = "delta 1 8bafcef92f133b33d780e9f333a263fd826f3cf6a3de0ba28afc8b346e70d8b9\n";

#[test]
fn a_bad_delta_changes_nothing() -> Result<(), Errno> {
    let volume = Volume::load(b"D / 5\n", Shape::USUAL).expect("an image");
    volume.snapshot("kept")?;
    let refused = |text: &str| volume.apply_delta(text.as_bytes()).err();
    assert_eq!(refused(""), Some(DeltaError::BadLine(1)));
    assert_eq!(refused(&format!("{OF_ROOT}* 1\nend\n")), Some(DeltaError::BadLine(2)));
    assert_eq!(refused(&format!("{OF_ROOT}- 1\nend\n")), Some(DeltaError::NoTree));
    assert_eq!(
        refused(&format!("{}= 1\nend\n", OF_ROOT.replace("1 8", "1 0"))),
        Some(DeltaError::OtherTree)
    );
    assert_eq!(volume.image()?, b"D / 5\n");
    assert_eq!(volume.snapshots().count(), 1);
    assert_eq!(volume.delta("none", ""), Err(Errno::ENOENT));
    Ok(())
}

#[test]
fn edits_make_one_tree_of_another() -> Outcome {
    let volume = with_tree()?;
    let before = volume.image()?;
    assert_eq!(volume.edits("", "")?, b"delta 2\nend\n");
    assert_eq!(volume.edits("s", "")?, b"delta 2\nend\n");
    change(&volume)?;
    let (forth, back) = (volume.edits("s", "")?, volume.edits("", "s")?);
    let far = volume.fork()?;
    far.snapshot("t")?;
    assert_eq!(far.apply_edits(&back), Ok(()));
    assert_eq!(far.image()?, before);
    assert_eq!(far.apply_edits(&forth), Ok(()));
    assert_eq!(far.image()?, volume.image()?);
    assert_eq!(far.snapshots().count(), 1);
    assert_eq!(volume.edits("none", "a/b"), Err(Errno::ENOENT));
    assert_eq!(volume.edits("", "a/b"), Err(Errno::EINVAL));
    Ok(())
}

#[test]
fn bad_edits_change_nothing() -> Result<(), Errno> {
    let volume = Volume::load(b"D / 5\nF /x 0 7\n", Shape::USUAL).expect("an image");
    let refused = |text: &str| volume.apply_edits(text.as_bytes()).err();
    assert_eq!(refused(""), Some(EditError::BadLine(1)));
    assert_eq!(refused("delta 2\n- F /x 0 7\n* /x\nend\n"), Some(EditError::BadLine(3)));
    assert_eq!(
        refused("delta 2\n- F /x 0 7\n- F /x 0 7\nend\n"),
        Some(EditError::UnfitLine(3))
    );
    assert_eq!(volume.image()?, b"D / 5\nF /x 0 7\n");
    Ok(())
}

/// A volume with files, a directory, a snapshot and an mtime for each.
fn with_tree() -> Result<Volume, Errno> {
    let volume = Volume::new()?;
    volume.at(1).create_dir_all("/d/sub")?;
    volume.at(2).write("/d/f", "some rain")?;
    volume.at(3).write("/big", vec![7; 9000])?;
    volume.snapshot("s")?;
    Ok(volume)
}

fn change(volume: &Volume) -> Outcome {
    volume.at(10).rename("/d", "/e")?;
    volume.at(11).rmtree("/e/sub")?;
    volume.at(12).truncate("/e/f", 4)?;
    volume.at(13).punch("/big", 0, 4096)?;
    volume.copy_range("/big", 4096, "/e/f", 4096, 4096)?;
    volume.set_modified("/", 14)
}

#[test]
fn transactions() -> Outcome {
    let volume = with_tree()?;
    let before = volume.image()?;
    let transaction = volume.transaction()?;
    change(&transaction)?;
    assert_ne!(volume.image()?, before);
    transaction.rollback();
    assert_eq!(volume.image()?, before);
    let transaction = volume.transaction()?;
    change(&volume)?;
    drop(transaction);
    assert_eq!(volume.image()?, before);
    let transaction = volume.transaction()?;
    change(&transaction)?;
    let after = transaction.image()?;
    transaction.commit();
    assert_eq!(volume.image()?, after);
    volume.restore("s")?;
    assert_eq!(volume.image()?, before);
    Ok(())
}

#[test]
fn what_a_transaction_refuses() -> Outcome {
    let volume = with_tree()?;
    let (before, delta, tree) = (volume.image()?, volume.delta("s", "")?, volume.freeze()?);
    let transaction = volume.transaction()?;
    assert_eq!(volume.transaction().unwrap_err(), Errno::EBUSY);
    assert_eq!(transaction.snapshot("t"), Err(Errno::EBUSY));
    assert_eq!(volume.drop_snapshot("s"), Err(Errno::EBUSY));
    assert_eq!(volume.restore("s"), Err(Errno::EBUSY));
    assert_eq!(volume.restore_frozen(&tree), Err(Errno::EBUSY));
    assert_eq!(volume.apply_delta(&delta), Err(DeltaError::Refused(Errno::EBUSY)));
    assert_eq!(
        volume.apply_edits(b"delta 2\nend\n"),
        Err(EditError::Refused(Errno::EBUSY))
    );
    assert_eq!(volume.compact(9), 0);
    assert_eq!(volume.image()?, before);
    assert!(volume.open_snapshot("s")?.exists("/d")?);
    let fork = volume.fork()?;
    fork.snapshot("t")?;
    fork.transaction()?.commit();
    transaction.commit();
    volume.snapshot("t")?;
    volume.drop_snapshot("t")?;
    volume.restore_frozen(&tree)?;
    volume.restore("s")?;
    assert!(volume.compact(9) > 0);
    volume.transaction()?.rollback();
    assert_eq!(volume.apply_delta(&delta), Ok(()));
    assert_eq!(volume.image()?, before);
    Ok(())
}

#[test]
fn a_transaction_that_a_fault_leaves_is_rolled_back() -> Outcome {
    let volume = with_tree()?;
    let before = volume.image()?;
    let fails = |volume: &Volume| -> Outcome {
        let transaction = volume.transaction()?;
        change(&transaction)?;
        transaction.mkdir("/e")?;
        transaction.commit();
        Ok(())
    };
    assert_eq!(fails(&volume), Err(Errno::EEXIST));
    assert_eq!(volume.image()?, before);
    let panics = panic::catch_unwind(AssertUnwindSafe(|| {
        let _transaction = volume.transaction().unwrap();
        change(&volume).unwrap();
        panic!("on purpose");
    }));
    assert!(panics.is_err());
    assert_eq!(volume.image()?, before);
    volume.transaction()?.commit();
    Ok(())
}

#[test]
fn a_volume_and_its_transaction_go_to_threads() -> Outcome {
    fn any_thread<T: Send + Sync>(_: &T) {}
    let volume = with_tree()?;
    let before = volume.image()?;
    let transaction: Transaction = volume.transaction()?;
    any_thread(&volume);
    any_thread(&transaction);
    thread::scope(|scope| {
        for number in 0..8 {
            let volume = &volume;
            scope.spawn(move || {
                volume.write(format!("/{number}"), "x").unwrap();
                assert_eq!(volume.transaction().err(), Some(Errno::EBUSY));
            });
        }
    });
    assert_eq!(volume.readdir("/")?.len(), 10);
    thread::scope(|scope| scope.spawn(move || transaction.rollback()).join().unwrap());
    assert_eq!(volume.image()?, before);
    Ok(())
}

#[test]
fn threads_take_turns_with_transactions() -> Outcome {
    let (volume, barrier) = (Volume::new()?, Barrier::new(8));
    let count = |number: u32| -> Result<u32, Errno> {
        let (mut commits, mut turn) = (0, 0);
        barrier.wait();
        while turn < 100 {
            match volume.transaction() {
                Ok(transaction) => {
                    transaction.create(format!("/{number}-{turn}"))?;
                    turn += 1;
                    if (turn + number) % 2 == 0 {
                        transaction.commit();
                        commits += 1;
                    }
                }
                Err(refused) => {
                    assert_eq!(refused, Errno::EBUSY);
                    thread::yield_now();
                }
            }
        }
        Ok(commits)
    };
    let commits: Result<Vec<u32>, Errno> = thread::scope(|scope| {
        let crew: Vec<_> = (0..8).map(|number| scope.spawn(move || count(number))).collect();
        crew.into_iter().map(|worker| worker.join().unwrap()).collect()
    });
    let commits: u32 = commits?.iter().sum();
    assert_eq!((commits, volume.readdir("/")?.len()), (400, 400));
    Ok(())
}

#[test]
fn a_volume_is_dropped_with_a_transaction() -> Outcome {
    let volume = with_tree()?;
    std::mem::forget(volume.transaction()?);
    change(&volume)?;
    assert_eq!(volume.transaction().err(), Some(Errno::EBUSY));
    Ok(())
}

#[test]
fn the_build_is_reported() {
    let mut words = doorvervain::BUILD.split(", ");
    assert_eq!(words.next(), Some(env!("CARGO_PKG_VERSION")));
    assert!(words.next().map_or(false, |word| word.starts_with("commit ")));
    assert!(words
        .next()
        .map_or(false, |word| word == "unproved" || word.starts_with("proved")));
}
