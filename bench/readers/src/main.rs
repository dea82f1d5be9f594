//! Times threads that read at the same time: one frozen tree; a fork for each thread, as it was made and after a change of its own; one
//! volume; and two maps of std, behind a `RwLock` and behind a `Mutex`. `bench/readers/run` builds and runs it.
//!
//! Each row is a call, with what it reads from. For each number of threads it has thousand calls a second of all threads, and in ()
//! microseconds of processor time a call, each the best of the runs; the last number is how many times the calls of one thread the most
//! threads make.
use doorvervain::{Errno, Frozen, Volume};
use std::collections::BTreeMap;
use std::sync::{Barrier, Mutex, RwLock};
use std::thread;
use std::time::Instant;

const DIRECTORIES: usize = 100;
const FILES: usize = 100;
const SIZE: usize = 4_096;
const THREADS: [usize; 3] = [1, 2, 4];

/// The calls of each thread in a run, and how many runs there are.
struct Extent {
    stats: usize,
    reads: usize,
    listings: usize,
    runs: usize,
}

fn directory(number: usize) -> String {
    format!("/d{number:02}")
}

fn file(number: usize) -> String {
    format!("/d{:02}/f{:04}", number % DIRECTORIES, number / DIRECTORIES)
}

/// What is read: each call returns a number that depends on what it found.
trait Tree: Sync {
    fn stat(&self, path: &str) -> u64;
    fn read(&self, path: &str, out: &mut [u8]) -> u64;
    fn list(&self, path: &str) -> u64;
}

macro_rules! tree_of {
    ($Kind:ty) => {
        impl Tree for $Kind {
            fn stat(&self, path: &str) -> u64 {
                self.stat(path).expect("a file").size
            }

            fn read(&self, path: &str, out: &mut [u8]) -> u64 {
                self.read_at(path, 0, out).expect("a file") as u64 + u64::from(out[0])
            }

            fn list(&self, path: &str) -> u64 {
                self.readdir(path)
                    .expect("a directory")
                    .map(|entry| entry.name.len() as u64)
                    .sum()
            }
        }
    };
}

tree_of!(Volume);
tree_of!(Frozen);

/// Two maps: from a path to whether it is a directory, its size and its mtime; and from a path and a block's number to the block.
#[derive(Default)]
struct Maps {
    entries: BTreeMap<Vec<u8>, (bool, u64, u64)>,
    blocks: BTreeMap<(Vec<u8>, u32), Vec<u8>>,
}

impl Maps {
    fn stat(&self, path: &str) -> u64 {
        self.entries.get(path.as_bytes()).expect("a file").1
    }

    fn read(&self, path: &str, out: &mut [u8]) -> u64 {
        let (_, size, _) = self.entries[path.as_bytes()];
        let block = &self.blocks[&(path.as_bytes().to_vec(), 0)];
        out[..block.len()].copy_from_slice(block);
        size + u64::from(out[0])
    }

    fn list(&self, path: &str) -> u64 {
        let (begin, end) = (format!("{path}/").into_bytes(), format!("{path}0").into_bytes());
        let names: Vec<(bool, Vec<u8>)> = self
            .entries
            .range(begin..end)
            .map(|(key, entry)| (entry.0, key[path.len() + 1..].to_vec()))
            .collect();
        names.iter().map(|(_, name)| name.len() as u64).sum()
    }
}

impl Tree for RwLock<Maps> {
    fn stat(&self, path: &str) -> u64 {
        RwLock::read(self).expect("no panic").stat(path)
    }

    fn read(&self, path: &str, out: &mut [u8]) -> u64 {
        RwLock::read(self).expect("no panic").read(path, out)
    }

    fn list(&self, path: &str) -> u64 {
        RwLock::read(self).expect("no panic").list(path)
    }
}

impl Tree for Mutex<Maps> {
    fn stat(&self, path: &str) -> u64 {
        self.lock().expect("no panic").stat(path)
    }

    fn read(&self, path: &str, out: &mut [u8]) -> u64 {
        self.lock().expect("no panic").read(path, out)
    }

    fn list(&self, path: &str) -> u64 {
        self.lock().expect("no panic").list(path)
    }
}

fn fill_volume(steps: u32) -> Result<Volume, Errno> {
    let volume = Volume::new()?;
    for number in 0..DIRECTORIES {
        volume.mkdir(directory(number))?;
    }
    for number in 0..DIRECTORIES * FILES {
        volume.write(file(number), vec![number as u8; SIZE])?;
        volume.compact(steps);
    }
    volume.compact(u32::MAX);
    Ok(volume)
}

/// A fork whose two trees have roots of their own.
fn changed_fork(volume: &Volume) -> Result<Volume, Errno> {
    let fork = volume.fork()?;
    fork.write("/own", "changed")?;
    Ok(fork)
}

fn fill_maps() -> Maps {
    let mut maps = Maps::default();
    for number in 0..DIRECTORIES {
        maps.entries.insert(directory(number).into_bytes(), (true, 0, 0));
    }
    for number in 0..DIRECTORIES * FILES {
        let key = file(number).into_bytes();
        maps.entries.insert(key.clone(), (false, SIZE as u64, 0));
        maps.blocks.insert((key, 0), vec![number as u8; SIZE]);
    }
    maps
}

/// The processor time of the process in nanoseconds.
fn processor_time() -> u64 {
    #[repr(C)]
    struct Timespec {
        seconds: i64,
        nanoseconds: i64,
    }
    extern "C" {
        fn clock_gettime(clock: i32, out: *mut Timespec) -> i32;
    }
    const CLOCK_PROCESS_CPUTIME_ID: i32 = 2;
    let mut time = Timespec {
        seconds: 0,
        nanoseconds: 0,
    };
    // SAFETY: the out-parameter can be written.
    unsafe { clock_gettime(CLOCK_PROCESS_CPUTIME_ID, &mut time) };
    time.seconds as u64 * 1_000_000_000 + time.nanoseconds as u64
}

/// What a call does, with a number from which its path is drawn.
type Call = fn(&dyn Tree, &[String], usize, &mut [u8]) -> u64;

fn stat(tree: &dyn Tree, paths: &[String], number: usize, _: &mut [u8]) -> u64 {
    tree.stat(&paths[number % paths.len()])
}

fn read(tree: &dyn Tree, paths: &[String], number: usize, out: &mut [u8]) -> u64 {
    tree.read(&paths[number % paths.len()], out)
}

fn list(tree: &dyn Tree, paths: &[String], number: usize, _: &mut [u8]) -> u64 {
    tree.list(&paths[number % paths.len()])
}

/// Runs the calls of all threads at once, each over its tree: nanoseconds of time and of processor time, and the sum of all results.
fn run(trees: &[&dyn Tree], paths: &[String], call: Call, count: usize) -> (u64, u64, u64) {
    let (begins, ends) = (Barrier::new(trees.len() + 1), Barrier::new(trees.len() + 1));
    thread::scope(|scope| {
        let threads: Vec<_> = (1..)
            .zip(trees)
            .map(|(seed, &tree)| {
                let (begins, ends) = (&begins, &ends);
                scope.spawn(move || {
                    let (mut out, mut sum, mut drawn) = (vec![0; SIZE], 0_u64, seed as u64);
                    begins.wait();
                    for _ in 0..count {
                        drawn = drawn.wrapping_mul(6364136223846793005).wrapping_add(1442695040888963407);
                        sum = sum.wrapping_add(call(tree, paths, (drawn >> 33) as usize, &mut out));
                    }
                    ends.wait();
                    sum
                })
            })
            .collect();
        let before = processor_time();
        begins.wait();
        let began = Instant::now();
        ends.wait();
        let (time, used) = (began.elapsed().as_nanos() as u64, processor_time() - before);
        let sum = threads
            .into_iter()
            .fold(0, |sum: u64, it| sum.wrapping_add(it.join().expect("no panic")));
        (time, used, sum)
    })
}

/// Prints the row of a call over trees, of which each thread has one. Returns the sum of results by one thread.
fn row(what: &str, trees: &[&dyn Tree], paths: &[String], call: Call, count: usize, runs: usize) -> u64 {
    let (mut cells, mut rates, mut sum) = (String::new(), Vec::new(), 0);
    for threads in THREADS {
        let all: Vec<_> = (0..runs).map(|_| run(&trees[..threads], paths, call, count)).collect();
        let calls = (threads * count) as f64;
        let time = all.iter().map(|it| it.0).min().unwrap_or(1) as f64;
        let used = all.iter().map(|it| it.1).min().unwrap_or(1) as f64;
        rates.push(calls / time);
        cells += &format!(" | {:9.0} ({:6.2})", 1e6 * calls / time, used / calls / 1e3);
        if threads == 1 {
            sum = all[0].2;
        }
    }
    println!("| {what:<45}{cells} | {:4.2} |", rates[rates.len() - 1] / rates[0]);
    sum
}

fn main() -> Result<(), Errno> {
    let is_quick = std::env::args().any(|word| word == "--quick");
    let part = if is_quick { 50 } else { 1 };
    let extent = Extent {
        stats: 500_000 / part,
        reads: 100_000 / part,
        listings: 10_000 / part,
        runs: if is_quick { 1 } else { 5 },
    };
    let (volume, most) = (fill_volume(1)?, THREADS[THREADS.len() - 1]);
    let tree = volume.freeze()?;
    let forks = (0..most).map(|_| volume.fork()).collect::<Result<Vec<_>, _>>()?;
    let changed = (0..most).map(|_| changed_fork(&volume)).collect::<Result<Vec<_>, _>>()?;
    let (shared, locked) = (RwLock::new(fill_maps()), Mutex::new(fill_maps()));
    let sides: [(&str, Vec<&dyn Tree>); 6] = [
        ("one frozen tree", vec![&tree; most]),
        ("a fork for each thread", forks.iter().map(|fork| fork as &dyn Tree).collect()),
        (
            "a changed fork for each thread",
            changed.iter().map(|fork| fork as &dyn Tree).collect(),
        ),
        ("one volume", vec![&volume; most]),
        ("two BTreeMaps in a RwLock", vec![&shared; most]),
        ("two BTreeMaps in a Mutex", vec![&locked; most]),
    ];
    let files: Vec<String> = (0..DIRECTORIES * FILES).map(file).collect();
    let directories: Vec<String> = (0..DIRECTORIES).map(directory).collect();
    let calls: [(&str, Call, &[String], usize); 3] = [
        ("stat", stat, &files, extent.stats),
        ("read 4 KiB", read, &files, extent.reads),
        ("list 100 names", list, &directories, extent.listings),
    ];
    println!(
        "| {:<45} | 1 thread           | 2 threads          | 4 threads          | 4:1  |",
        "What"
    );
    println!("|---|---|---|---|---|");
    for (name, call, paths, count) in calls {
        let sums: Vec<u64> = sides
            .iter()
            .map(|(side, trees)| row(&format!("{name}, {side}"), trees, paths, call, count, extent.runs))
            .collect();
        assert!(sums.iter().all(|&sum| sum == sums[0]), "the results differ: {sums:?}");
    }
    Ok(())
}
