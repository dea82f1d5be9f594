//! A peer of `betr` in plain Rust, for comparison: two maps of std, and no tree of messages.
//!
//! It reads the same scripts and gives the same replies, and reads and prints the same images; of the options of `betr`
//! it knows `--load FILE`, `--image` and a script's name. It is built by `rustc --edition 2021 -O` alone, of Rust 1.63 or
//! a later one, and nothing of it is proved.
use std::collections::btree_map::Entry;
use std::collections::BTreeMap;
use std::fs::File;
use std::io::{self, BufRead, BufReader, BufWriter, Read, Write};
use std::ops::Range;
use std::process::ExitCode;

const BLOCK: usize = 4_096;
const GREATEST_FILE: u64 = 1 << 40;
const GREATEST_READ: u64 = 1_048_576;
const LONGEST_LINE: usize = 65_536;
const LONGEST_NAME: usize = 255;
const LONGEST_PATH: usize = 1_023;
const LONGEST_SNAPSHOT: usize = 64;
const MOST_SNAPSHOTS: usize = 64;

/// A path's key: each of its names and a byte 0. So a subtree is one range, and a path's text is as long as its key.
type Key = Vec<u8>;

/// A block's key: its file's, and its number.
type Place = (Key, u32);

/// What stands at a path: a directory, or a file with its length; each with its moment of last change.
#[derive(Clone, Copy)]
enum Meta {
    Directory(u64),
    File(u64, u64),
}

#[derive(Clone, Copy)]
enum Fault {
    Noent,
    Notdir,
    Isdir,
    Exist,
    Notempty,
    Perm,
    Inval,
    Nametoolong,
    Fbig,
    Busy,
    Nospc,
}

impl Fault {
    fn word(self) -> &'static str {
        match self {
            Fault::Noent => "ENOENT",
            Fault::Notdir => "ENOTDIR",
            Fault::Isdir => "EISDIR",
            Fault::Exist => "EEXIST",
            Fault::Notempty => "ENOTEMPTY",
            Fault::Perm => "EPERM",
            Fault::Inval => "EINVAL",
            Fault::Nametoolong => "ENAMETOOLONG",
            Fault::Fbig => "EFBIG",
            Fault::Busy => "EBUSY",
            Fault::Nospc => "ENOSPC",
        }
    }
}

enum Reply {
    Done,
    Count(u64),
    Data(Vec<u8>),
    Stat(Meta),
    Names(Vec<(bool, Vec<u8>)>),
}

type Answer = Result<Reply, Fault>;

/// The end of a subtree: its root's key with its last byte made 1; none for the whole tree.
fn end_of(key: &[u8]) -> Option<Key> {
    let mut end = key.to_vec();
    *end.last_mut()? = 1;
    Some(end)
}

/// The key of the directory above; none of the root.
fn parent(key: &[u8]) -> Option<&[u8]> {
    let (_, names) = key.split_last()?;
    let at = names.iter().rposition(|&byte| byte == 0);
    Some(at.map_or(&[], |at| &key[..=at]))
}

/// Takes what lies in a range out of a map: key by key where it is a small part of the map, else by cutting the map.
fn take_range<K: Ord + Clone, V>(map: &mut BTreeMap<K, V>, range: &Range<K>) -> BTreeMap<K, V> {
    let there = map.range::<K, _>(&range.start..&range.end);
    if there.clone().count() <= map.len() / 8 {
        let keys: Vec<K> = there.map(|(key, _)| key.clone()).collect();
        return keys
            .iter()
            .filter_map(|key| map.remove_entry(key))
            .collect();
    }
    let mut taken = map.split_off(&range.start);
    map.append(&mut taken.split_off(&range.end));
    taken
}

/// Files and directories: what stands at each path, and the bytes of each block up to the last that was written.
#[derive(Clone)]
struct Tree {
    entries: BTreeMap<Key, Meta>,
    blocks: BTreeMap<Place, Vec<u8>>,
}

impl Tree {
    fn new() -> Tree {
        Tree {
            entries: BTreeMap::from([(Key::new(), Meta::Directory(0))]),
            blocks: BTreeMap::new(),
        }
    }

    /// What stands at a path, or its path fault.
    fn find(&self, key: &[u8]) -> Result<Meta, Fault> {
        match self.entries.get(key) {
            Some(&meta) => Ok(meta),
            None => Err(self.fault(key)),
        }
    }

    /// Why nothing stands at a path: the nearest entry above is a file, or a directory.
    fn fault(&self, key: &[u8]) -> Fault {
        let mut above = key;
        while let Some(next) = parent(above) {
            above = next;
            match self.entries.get(above) {
                Some(Meta::File(..)) => return Fault::Notdir,
                Some(Meta::Directory(_)) => return Fault::Noent,
                None => {}
            }
        }
        Fault::Noent
    }

    fn find_file(&self, key: &[u8]) -> Result<u64, Fault> {
        match self.find(key)? {
            Meta::File(len, _) => Ok(len),
            Meta::Directory(_) => Err(Fault::Isdir),
        }
    }

    /// Tells the parent faults of a path; the root has none.
    fn look_above(&self, key: &[u8]) -> Result<(), Fault> {
        match parent(key).map(|above| self.find(above)) {
            Some(Ok(Meta::File(..))) => Err(Fault::Notdir),
            Some(Err(fault)) => Err(fault),
            _ => Ok(()),
        }
    }

    /// The entries at and below a path.
    fn below(&self, key: &Key) -> std::collections::btree_map::Range<'_, Key, Meta> {
        match end_of(key) {
            Some(end) => self.entries.range(key.clone()..end),
            None => self.entries.range(key.clone()..),
        }
    }

    fn is_empty(&self, key: &Key) -> bool {
        self.below(key).nth(1).is_none()
    }

    /// Gives the directory of a path a moment.
    fn touch(&mut self, key: &[u8], at: u64) {
        let above = parent(key).unwrap_or_default();
        if let Some(Meta::Directory(modified)) = self.entries.get_mut(above) {
            *modified = at;
        }
    }

    fn make(&mut self, key: Key, meta: Meta) -> Answer {
        if key.is_empty() {
            return Err(Fault::Exist);
        }
        self.look_above(&key)?;
        match self.entries.entry(key) {
            Entry::Vacant(place) => {
                place.insert(meta);
                Ok(Reply::Done)
            }
            Entry::Occupied(_) => Err(Fault::Exist),
        }
    }

    /// A new entry at a moment, which its directory gets too.
    fn make_at(&mut self, key: Key, meta: Meta, at: u64) -> Answer {
        let done = self.make(key.clone(), meta)?;
        self.touch(&key, at);
        Ok(done)
    }

    fn write(&mut self, key: Key, offset: u64, bytes: &[u8], at: u64) -> Answer {
        let (len, modified) = match self.entries.get_mut(&key) {
            Some(Meta::File(len, modified)) => (len, modified),
            Some(Meta::Directory(_)) => return Err(Fault::Isdir),
            None => return Err(self.fault(&key)),
        };
        let count = bytes.len() as u64;
        if count > 0 {
            let end = offset
                .checked_add(count)
                .filter(|&end| end <= GREATEST_FILE);
            *len = end.ok_or(Fault::Fbig)?.max(*len);
            *modified = at;
            self.overlay(key, offset, bytes);
        }
        Ok(Reply::Count(count))
    }

    /// Lays bytes over the blocks of a file.
    fn overlay(&mut self, key: Key, offset: u64, bytes: &[u8]) {
        let mut number = (offset / BLOCK as u64) as u32;
        let mut at = (offset % BLOCK as u64) as usize;
        let mut rest = bytes;
        while !rest.is_empty() {
            let (part, later) = rest.split_at(rest.len().min(BLOCK - at));
            let block = self.blocks.entry((key.clone(), number)).or_default();
            if block.len() < at + part.len() {
                block.resize(at + part.len(), 0);
            }
            block[at..at + part.len()].copy_from_slice(part);
            (number, at, rest) = (number + 1, 0, later);
        }
    }

    fn truncate(&mut self, key: Key, len: u64, at: u64) -> Answer {
        self.find_file(&key)?;
        if len > GREATEST_FILE {
            return Err(Fault::Fbig);
        }
        self.entries.insert(key.clone(), Meta::File(len, at));
        let (last, rest) = ((len / BLOCK as u64) as u32, len as usize % BLOCK);
        let mut place = (key, last);
        if rest > 0 {
            if let Some(block) = self.blocks.get_mut(&place) {
                block.truncate(rest);
            }
            place.1 += 1;
        }
        let end = (place.0.clone(), u32::MAX);
        take_range(&mut self.blocks, &(place..end));
        Ok(Reply::Done)
    }

    /// Takes out what stands at a path with all below it.
    fn take_out(&mut self, key: Key) {
        if let Some(end) = end_of(&key) {
            take_range(&mut self.blocks, &((key.clone(), 0)..(end.clone(), 0)));
            take_range(&mut self.entries, &(key..end));
        }
    }

    fn unlink(&mut self, key: Key, at: u64) -> Answer {
        if matches!(self.find(&key)?, Meta::Directory(_)) {
            return Err(Fault::Perm);
        }
        self.touch(&key, at);
        self.entries.remove(&key);
        take_range(&mut self.blocks, &((key.clone(), 0)..(key, u32::MAX)));
        Ok(Reply::Done)
    }

    fn rmdir(&mut self, key: Key, at: u64) -> Answer {
        if key.is_empty() {
            return Err(Fault::Busy);
        }
        match self.find(&key)? {
            Meta::File(..) => return Err(Fault::Notdir),
            Meta::Directory(_) if !self.is_empty(&key) => return Err(Fault::Notempty),
            Meta::Directory(_) => self.entries.remove(&key),
        };
        self.touch(&key, at);
        Ok(Reply::Done)
    }

    fn rmtree(&mut self, key: Key, at: u64) -> Answer {
        if key.is_empty() {
            return Err(Fault::Busy);
        }
        self.find(&key)?;
        self.touch(&key, at);
        self.take_out(key);
        Ok(Reply::Done)
    }

    fn rename(&mut self, old: Key, new: Key, at: u64) -> Answer {
        if old.is_empty() {
            return Err(Fault::Busy);
        }
        let moved = self.find(&old)?;
        if new == old {
            return Ok(Reply::Done);
        }
        if new.starts_with(&old) && matches!(moved, Meta::Directory(_)) {
            return Err(Fault::Inval);
        }
        self.look_above(&new)?;
        match (moved, self.entries.get(&new)) {
            (Meta::File(..), Some(Meta::Directory(_))) => return Err(Fault::Isdir),
            (Meta::Directory(_), Some(Meta::File(..))) => return Err(Fault::Notdir),
            (_, Some(Meta::Directory(_))) if !self.is_empty(&new) => return Err(Fault::Notempty),
            _ => {}
        }
        let longest = self.below(&old).map(|(key, _)| key.len()).max();
        if longest.unwrap_or(0) - old.len() + new.len() > LONGEST_PATH {
            return Err(Fault::Nametoolong);
        }
        self.touch(&old, at);
        self.touch(&new, at);
        self.take_out(new.clone());
        self.shift(old, &new);
        Ok(Reply::Done)
    }

    /// Puts what stands at and below one path at and below another, at which nothing stands.
    fn shift(&mut self, old: Key, new: &Key) {
        if let Some(end) = end_of(&old) {
            let renamed = |key: &Key| [new, &key[old.len()..]].concat();
            let places = (old.clone(), 0)..(end.clone(), 0);
            for ((key, number), bytes) in take_range(&mut self.blocks, &places) {
                self.blocks.insert((renamed(&key), number), bytes);
            }
            for (key, meta) in take_range(&mut self.entries, &(old.clone()..end)) {
                self.entries.insert(renamed(&key), meta);
            }
        }
    }

    fn read(&self, key: Key, offset: u64, count: u64) -> Answer {
        let len = self.find_file(&key)?;
        if count > GREATEST_READ {
            return Err(Fault::Inval);
        }
        let end = offset.saturating_add(count).min(len);
        let mut bytes = vec![0; end.saturating_sub(offset) as usize];
        let mut place = (key, (offset / BLOCK as u64) as u32);
        let mut at = (offset % BLOCK as u64) as usize;
        let mut rest = bytes.as_mut_slice();
        while !rest.is_empty() {
            let (part, later) = rest.split_at_mut(rest.len().min(BLOCK - at));
            let block = self.blocks.get(&place).and_then(|block| block.get(at..));
            let there = block.map_or(0, |block| block.len().min(part.len()));
            part[..there].copy_from_slice(&block.unwrap_or_default()[..there]);
            place.1 += 1;
            (at, rest) = (0, later);
        }
        Ok(Reply::Data(bytes))
    }

    fn readdir(&self, key: Key) -> Answer {
        if matches!(self.find(&key)?, Meta::File(..)) {
            return Err(Fault::Notdir);
        }
        let mut names = Vec::new();
        let mut rest = self.below(&key);
        rest.next();
        while let Some((child, meta)) = rest.next() {
            let is_directory = matches!(meta, Meta::Directory(_));
            names.push((is_directory, child[key.len()..child.len() - 1].to_vec()));
            if let (true, Some(behind)) = (is_directory, end_of(child)) {
                rest = match end_of(&key) {
                    Some(end) => self.entries.range(behind..end),
                    None => self.entries.range(behind..),
                };
            }
        }
        Ok(Reply::Names(names))
    }

    fn look(&self, look: Look) -> Answer {
        match look {
            Look::Read(key, offset, count) => self.read(key, offset, count),
            Look::Stat(key) => Ok(Reply::Stat(self.find(&key)?)),
            Look::Readdir(key) => self.readdir(key),
        }
    }
}

/// The live tree and the snapshots, each a copy of both maps, and the moment of the calls that follow.
struct World {
    live: Tree,
    at: u64,
    snapshots: BTreeMap<Vec<u8>, Tree>,
}

enum Look {
    Read(Key, u64, u64),
    Stat(Key),
    Readdir(Key),
}

impl World {
    fn snapshot(&mut self, name: Vec<u8>) -> Answer {
        if self.snapshots.contains_key(&name) {
            return Err(Fault::Exist);
        }
        if self.snapshots.len() == MOST_SNAPSHOTS {
            return Err(Fault::Nospc);
        }
        self.snapshots.insert(name, self.live.clone());
        Ok(Reply::Done)
    }

    fn drop_snapshot(&mut self, name: &[u8]) -> Answer {
        self.snapshots.remove(name).ok_or(Fault::Noent)?;
        Ok(Reply::Done)
    }

    fn restore(&mut self, name: &[u8]) -> Answer {
        self.live = self.snapshots.get(name).ok_or(Fault::Noent)?.clone();
        Ok(Reply::Done)
    }

    /// Does a line's command; none where it is malformed.
    fn answer(&mut self, line: &[u8]) -> Option<Answer> {
        let words: Vec<&[u8]> = line.split(|&byte| byte == b' ').collect();
        let (&first, rest) = words.split_first()?;
        if let Some(at) = first.iter().position(|&byte| byte == b'@') {
            let look = read_look(&first[..at], rest)?;
            return Some(self.look_back(&first[at + 1..], look));
        }
        if let Some(look) = read_look(first, rest) {
            return Some(look.and_then(|look| self.live.look(look)));
        }
        self.change(first, rest)
    }

    fn look_back(&self, name: &[u8], look: Result<Look, Fault>) -> Answer {
        let name = read_snapshot(name)?;
        let look = look?;
        self.snapshots.get(&name).ok_or(Fault::Noent)?.look(look)
    }

    /// Does a command that may change something.
    fn change(&mut self, command: &[u8], words: &[&[u8]]) -> Option<Answer> {
        let (live, at) = (&mut self.live, self.at);
        Some(match (command, words) {
            (b"at", [number]) => {
                self.at = read_number(number)?;
                Ok(Reply::Done)
            }
            (b"mkdir", [path]) => {
                read_path(path).and_then(|key| live.make_at(key, Meta::Directory(at), at))
            }
            (b"create", [path]) => {
                read_path(path).and_then(|key| live.make_at(key, Meta::File(0, at), at))
            }
            (b"unlink", [path]) => read_path(path).and_then(|key| live.unlink(key, at)),
            (b"rmdir", [path]) => read_path(path).and_then(|key| live.rmdir(key, at)),
            (b"rmtree", [path]) => read_path(path).and_then(|key| live.rmtree(key, at)),
            (b"snapshot", [name]) => read_snapshot(name).and_then(|name| self.snapshot(name)),
            (b"drop", [name]) => read_snapshot(name).and_then(|name| self.drop_snapshot(&name)),
            (b"restore", [name]) => read_snapshot(name).and_then(|name| self.restore(&name)),
            (b"rename", [old, new]) => {
                let keys = read_path(old).and_then(|old| Ok((old, read_path(new)?)));
                keys.and_then(|(old, new)| live.rename(old, new, at))
            }
            (b"truncate", [path, len]) => {
                let len = read_number(len)?;
                read_path(path).and_then(|key| live.truncate(key, len, at))
            }
            (b"write", [path, offset, hex]) => {
                let (offset, bytes) = (read_number(offset)?, read_hex(hex)?);
                read_path(path).and_then(|key| live.write(key, offset, &bytes, at))
            }
            _ => return None,
        })
    }
}

/// What a command that changes nothing looks at; none where it is no such command.
fn read_look(command: &[u8], words: &[&[u8]]) -> Option<Result<Look, Fault>> {
    match (command, words) {
        (b"stat", [path]) => Some(read_path(path).map(Look::Stat)),
        (b"readdir", [path]) => Some(read_path(path).map(Look::Readdir)),
        (b"read", [path, offset, count]) => {
            let (offset, count) = (read_number(offset)?, read_number(count)?);
            Some(read_path(path).map(|key| Look::Read(key, offset, count)))
        }
        _ => None,
    }
}

fn read_number(word: &[u8]) -> Option<u64> {
    let is_decimal =
        word.iter().all(u8::is_ascii_digit) && (word == b"0" || word.first() != Some(&b'0'));
    std::str::from_utf8(word)
        .ok()
        .filter(|_| is_decimal)?
        .parse()
        .ok()
}

fn digit(byte: u8) -> Option<u8> {
    match byte {
        b'0'..=b'9' => Some(byte - b'0'),
        b'a'..=b'f' => Some(byte - b'a' + 10),
        b'A'..=b'F' => Some(byte - b'A' + 10),
        _ => None,
    }
}

fn pair(high: u8, low: u8) -> Option<u8> {
    Some(digit(high)? * 16 + digit(low)?)
}

fn read_hex(word: &[u8]) -> Option<Vec<u8>> {
    if word == b"-" {
        return Some(Vec::new());
    }
    if word.is_empty() || word.len() % 2 == 1 {
        return None;
    }
    word.chunks_exact(2)
        .map(|digits| pair(digits[0], digits[1]))
        .collect()
}

fn read_snapshot(word: &[u8]) -> Result<Vec<u8>, Fault> {
    let is_named = |&byte: &u8| byte.is_ascii_alphanumeric() || b"._-".contains(&byte);
    match (1..=LONGEST_SNAPSHOT).contains(&word.len()) && word.iter().all(is_named) {
        true => Ok(word.to_vec()),
        false => Err(Fault::Inval),
    }
}

/// Puts a byte for each `%` with two digits behind it.
fn decode(word: &[u8]) -> Vec<u8> {
    let mut text = Vec::with_capacity(word.len());
    let mut rest = word;
    while let [first, later @ ..] = rest {
        let byte = match rest {
            [b'%', high, low, ..] => pair(*high, *low),
            _ => None,
        };
        text.push(byte.unwrap_or(*first));
        rest = if byte.is_some() { &rest[3..] } else { later };
    }
    text
}

/// The key of the path that a word names.
fn read_path(word: &[u8]) -> Result<Key, Fault> {
    let text = decode(word);
    let (first, names) = text.split_first().ok_or(Fault::Noent)?;
    if *first != b'/' {
        return Err(Fault::Inval);
    }
    if names.is_empty() {
        return Ok(Key::new());
    }
    let is_none = |name: &[u8]| matches!(name, b"" | b"." | b"..") || name.contains(&0);
    if names.split(|&byte| byte == b'/').any(is_none) {
        return Err(Fault::Inval);
    }
    let is_long = |name: &[u8]| name.len() > LONGEST_NAME;
    if text.len() > LONGEST_PATH || names.split(|&byte| byte == b'/').any(is_long) {
        return Err(Fault::Nametoolong);
    }
    let bytes = names
        .iter()
        .map(|&byte| if byte == b'/' { 0 } else { byte });
    Ok(bytes.chain([0]).collect())
}

fn put_hex(out: &mut impl Write, bytes: &[u8]) -> io::Result<()> {
    const DIGITS: &[u8; 16] = b"0123456789abcdef";
    for &byte in bytes {
        out.write_all(&[
            DIGITS[usize::from(byte >> 4)],
            DIGITS[usize::from(byte & 15)],
        ])?;
    }
    Ok(())
}

fn put_percent(out: &mut impl Write, bytes: &[u8]) -> io::Result<()> {
    for &byte in bytes {
        match byte {
            0..=32 | b'%' | 127.. => write!(out, "%{byte:02X}")?,
            _ => out.write_all(&[byte])?,
        }
    }
    Ok(())
}

fn put_reply(out: &mut impl Write, reply: Reply) -> io::Result<()> {
    match reply {
        Reply::Done => out.write_all(b"ok\n"),
        Reply::Count(count) => writeln!(out, "count {count}"),
        Reply::Stat(Meta::Directory(modified)) => writeln!(out, "dir 0 {modified}"),
        Reply::Stat(Meta::File(len, modified)) => writeln!(out, "file {len} {modified}"),
        Reply::Data(bytes) if bytes.is_empty() => out.write_all(b"bytes -\n"),
        Reply::Data(bytes) => {
            out.write_all(b"bytes ")?;
            put_hex(out, &bytes)?;
            out.write_all(b"\n")
        }
        Reply::Names(names) => put_names(out, &names),
    }
}

fn put_names(out: &mut impl Write, names: &[(bool, Vec<u8>)]) -> io::Result<()> {
    writeln!(out, "names {}", names.len())?;
    for (is_directory, name) in names {
        out.write_all(if *is_directory { b"d " } else { b"f " })?;
        put_percent(out, name)?;
        out.write_all(b"\n")?;
    }
    Ok(())
}

/// Prints the image of a tree, in version 2.
fn put_image(out: &mut impl Write, tree: &Tree) -> io::Result<()> {
    let mut blocks = tree.blocks.iter().peekable();
    for (key, meta) in &tree.entries {
        out.write_all(if matches!(meta, Meta::Directory(_)) {
            b"D "
        } else {
            b"F "
        })?;
        put_path(out, key)?;
        match meta {
            Meta::Directory(modified) => writeln!(out, " {modified}")?,
            Meta::File(len, modified) => writeln!(out, " {len} {modified}")?,
        }
        while let Some(((_, number), block)) = blocks.next_if(|((owner, _), _)| owner == key) {
            put_block(out, *number, block)?;
        }
    }
    Ok(())
}

fn put_path(out: &mut impl Write, key: &[u8]) -> io::Result<()> {
    let names = match key.split_last() {
        Some((_, names)) => names,
        None => return out.write_all(b"/"),
    };
    for name in names.split(|&byte| byte == 0) {
        out.write_all(b"/")?;
        put_percent(out, name)?;
    }
    Ok(())
}

fn put_block(out: &mut impl Write, number: u32, block: &[u8]) -> io::Result<()> {
    if let Some(last) = block.iter().rposition(|&byte| byte != 0) {
        write!(out, "b {number} ")?;
        put_hex(out, &block[..=last])?;
        out.write_all(b"\n")?;
    }
    Ok(())
}

/// The tree whose image a file has, or what is wrong with it; not every text that is none is refused.
fn load(name: &str) -> Result<Tree, String> {
    let file = File::open(name).map_err(|_| "cannot open".to_string())?;
    let mut reader = BufReader::with_capacity(LONGEST_LINE, file);
    let (mut tree, mut last, mut line) = (Tree::new(), Key::new(), Vec::new());
    for number in 1.. {
        line.clear();
        let count = reader
            .read_until(b'\n', &mut line)
            .map_err(|_| "read failed".to_string())?;
        if count == 0 {
            break;
        }
        load_line(&mut tree, &mut last, &line).ok_or(format!("bad image at line {number}"))?;
    }
    Ok(tree)
}

/// Loads a line; `last` is the key of the last entry.
fn load_line(tree: &mut Tree, last: &mut Key, line: &[u8]) -> Option<()> {
    let words: Vec<&[u8]> = line
        .strip_suffix(b"\n")?
        .split(|&byte| byte == b' ')
        .collect();
    match words.as_slice() {
        [b"d", b"/"] => {}
        [b"D", b"/", modified] => {
            let root = Meta::Directory(read_number(modified)?);
            tree.entries.insert(Key::new(), root);
        }
        [b"d", path] => load_entry(tree, last, path, Meta::Directory(0))?,
        [b"D", path, modified] => {
            load_entry(tree, last, path, Meta::Directory(read_number(modified)?))?;
        }
        [b"f", path, len] => load_entry(tree, last, path, Meta::File(read_number(len)?, 0))?,
        [b"F", path, len, modified] => {
            let meta = Meta::File(read_number(len)?, read_number(modified)?);
            load_entry(tree, last, path, meta)?;
        }
        [b"b", number, hex] => {
            let number = u32::try_from(read_number(number)?).ok()?;
            tree.blocks.insert((last.clone(), number), read_hex(hex)?);
        }
        _ => return None,
    }
    Some(())
}

/// Loads the line of an entry.
fn load_entry(tree: &mut Tree, last: &mut Key, path: &[u8], meta: Meta) -> Option<()> {
    *last = read_path(path).ok()?;
    tree.make(last.clone(), meta).ok()?;
    Some(())
}

/// Does a line and prints what it replies; an empty line and a note have no reply.
fn do_line(world: &mut World, line: &[u8], out: &mut impl Write) -> io::Result<()> {
    if line.len() > LONGEST_LINE {
        return out.write_all(b"error line\n");
    }
    if line.is_empty() || line[0] == b'#' {
        return Ok(());
    }
    match world.answer(line) {
        Some(Ok(reply)) => put_reply(out, reply),
        Some(Err(fault)) => writeln!(out, "fault {}", fault.word()),
        None => out.write_all(b"error syntax\n"),
    }
}

/// Does each line. Replies are sent before more lines are waited for, so that who asks may go on by what was replied.
fn run(world: &mut World, reader: impl Read, out: &mut impl Write) -> io::Result<()> {
    let mut reader = BufReader::with_capacity(LONGEST_LINE, reader);
    let mut line = Vec::new();
    loop {
        if reader.buffer().is_empty() {
            out.flush()?;
        }
        if reader.read_until(b'\n', &mut line)? == 0 {
            return Ok(());
        }
        do_line(world, line.strip_suffix(b"\n").unwrap_or(&line), out)?;
        line.clear();
    }
}

#[derive(Default)]
struct Options {
    load: Option<String>,
    image: bool,
    script: Option<String>,
}

fn read_options() -> Options {
    let mut options = Options::default();
    let mut words = std::env::args().skip(1);
    while let Some(word) = words.next() {
        match word.as_str() {
            "--load" => options.load = words.next(),
            "--image" => options.image = true,
            _ => options.script = Some(word),
        }
    }
    options
}

fn work(options: &Options) -> Result<(), String> {
    let live = options.load.as_deref().map_or(Ok(Tree::new()), load)?;
    let mut world = World {
        live,
        at: 0,
        snapshots: BTreeMap::new(),
    };
    let mut out = BufWriter::with_capacity(LONGEST_LINE, io::stdout().lock());
    let done = match &options.script {
        Some(name) => {
            let file = File::open(name).map_err(|_| "cannot open".to_string())?;
            run(&mut world, file, &mut out)
        }
        None => run(&mut world, io::stdin().lock(), &mut out),
    };
    done.map_err(|_| "read or write failed".to_string())?;
    if options.image {
        put_image(&mut out, &world.live).map_err(|_| "write failed".to_string())?;
    }
    out.flush().map_err(|_| "write failed".to_string())
}

fn main() -> ExitCode {
    match work(&read_options()) {
        Ok(()) => ExitCode::SUCCESS,
        Err(fault) => {
            eprintln!("peer: {fault}");
            ExitCode::FAILURE
        }
    }
}
