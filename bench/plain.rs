//! Runs a script over an image, in plain Rust: `plain IMAGE run <SCRIPT`. Build it by `rustc -O`.
//!
//! It is the baseline of `bench/run`, `bench/growth` and `bench/groups`, and answers as the program does the lines
//! `write`, `clone`, `truncate`, `unlink`, `commit`, `show` and `ls` on subvolume 5, and those that change groups,
//! relations, limits and quota. It keeps the pieces of each file in a map by position, and groups in one by number,
//! takes the free run with the least address, looks up at each reservation what lies above the subvolume's group, and
//! builds all trees anew at each commit, the extent tree's records among them. Of an image's rules it looks at
//! checksums alone, and it asks for no slots, so that no script may come to `no nodes`. Lines must be in the grammar,
//! and the image must have no other subvolume.
use format::{DATA_BEGIN, NODE, Piece, SECTOR, Sizes};
use format::{commit, inode_item, piece_item, slot_at};
use pieces::{meeting, rests, within};
use quota::{Change, Quota};
use reading::{Content, Stop, read_image};
use std::collections::{BTreeMap, BTreeSet};
use std::fmt::Write as _;
use std::fs::{File, OpenOptions};
use std::io::{self, BufRead, Write};
use std::ops::Range;
use std::process::ExitCode;

mod format;
mod pieces;
mod quota;
mod reading;

/// The largest size of a file and the longest extent, in bytes, and the most file commands that may be pending.
const LARGEST_SIZE: u64 = 1 << 40;
const LONGEST_EXTENT: u64 = 134217728;
const MOST_PENDING: u64 = 65536;

/// The greatest generation that a commit may follow.
const LAST_GENERATION: u64 = 1 << 63;

/// What a clone reserves, and a write beside its length.
const NODE_BYTES: u64 = NODE as u64;

/// The reply to a command that was done, or to one that was refused.
type Reply = Result<String, String>;

struct Store {
    file: File,
    sizes: Sizes,
    generation: u64,
    quota: Quota,
    files: BTreeMap<u64, Content>,
    /// How many pieces name an extent, by its address, and its length.
    named: BTreeMap<u64, (u64, u64)>,
    /// The extents of the last commit.
    held: BTreeMap<u64, u64>,
    slots: BTreeSet<u64>,
    /// The free runs, each as long as can be, by address, and their lengths.
    free: BTreeMap<u64, u64>,
    pending: u64,
}

/// Refuses a command where something holds.
fn refuse(holds: bool, reply: &str) -> Result<(), String> {
    if holds { Err(reply.to_string()) } else { Ok(()) }
}

/// Whether positions and a length are of whole sectors, and the length isn't 0.
fn are_whole(positions: &[u64], len: u64) -> bool {
    len > 0 && len % SECTOR == 0 && positions.iter().all(|it| it % SECTOR == 0)
}

fn is_far(off: u64, len: u64) -> bool {
    off.saturating_add(len) > LARGEST_SIZE
}

/// The free runs of so many sectors between extents. Runs and extents go by address, with their lengths in bytes.
fn free_runs(sectors: u64, held: &BTreeMap<u64, u64>) -> BTreeMap<u64, u64> {
    let mut free = BTreeMap::new();
    let mut from = DATA_BEGIN;
    let end = DATA_BEGIN + SECTOR * sectors;
    for (extent, len) in held.iter().chain([(&end, &0)]) {
        if from < *extent {
            free.insert(from, extent - from);
        }
        from = extent + len;
    }
    free
}

impl Store {
    fn open(file: File) -> Result<Store, Stop> {
        let image = read_image(&file)?;
        let mut named = BTreeMap::new();
        for content in image.files.values() {
            for piece in content.pieces.values() {
                named.entry(piece.extent).or_insert((0, piece.extent_bytes)).0 += 1;
            }
        }
        let held = named.iter().map(|(at, (_, len))| (*at, *len)).collect();
        Ok(Store {
            file,
            sizes: image.sizes,
            generation: image.generation,
            quota: image.quota,
            files: image.files,
            named,
            free: free_runs(image.sizes.sectors, &held),
            held,
            slots: image.slots,
            pending: 0,
        })
    }

    /// Takes a part of a free run.
    fn take(&mut self, run: u64, len: u64) {
        let (at, bytes) = self.free.range(..=run).next_back().unwrap();
        let (at, end) = (*at, at + bytes);
        self.free.remove(&at);
        if at < run {
            self.free.insert(at, run - at);
        }
        if run + len < end {
            self.free.insert(run + len, end - run - len);
        }
    }

    /// Gives back a run, which grows together with the free ones beside it.
    fn give(&mut self, mut run: u64, mut len: u64) {
        if let Some(bytes) = self.free.remove(&(run + len)) {
            len += bytes;
        }
        if let Some((at, bytes)) = self.free.range(..run).next_back().map(|(at, bytes)| (*at, *bytes))
            && at + bytes == run
        {
            self.free.remove(&at);
            run = at;
            len += bytes;
        }
        self.free.insert(run, len);
    }

    /// The free run of so many bytes with the least address.
    fn first_run(&self, len: u64) -> Option<u64> {
        let fits = self.free.iter().find(|(_, bytes)| len <= **bytes);
        fits.map(|(at, _)| *at)
    }

    fn add_name(&mut self, piece: &Piece) {
        self.named.entry(piece.extent).or_insert((0, piece.extent_bytes)).0 += 1;
    }

    fn drop_name(&mut self, extent: u64) {
        let entry = self.named.get_mut(&extent).unwrap();
        entry.0 -= 1;
        if entry.0 == 0 {
            let len = entry.1;
            self.named.remove(&extent);
            if !self.held.contains_key(&extent) {
                self.give(extent, len);
            }
        }
    }

    fn file(&self, ino: u64) -> Result<&Content, String> {
        self.files.get(&ino).ok_or("no file".to_string())
    }

    /// Puts pieces in the place of what a file has in a range, and sets its size.
    fn edit(&mut self, ino: u64, range: Range<u64>, given: &[Piece], size: u64) {
        let next = self.generation + 1;
        let content = self.files.entry(ino).or_insert(Content {
            size,
            made: next,
            changed: next,
            pieces: BTreeMap::new(),
        });
        content.size = size;
        content.changed = next;
        let gone = meeting(&content.pieces, &range);
        let [front, rest] = rests(&gone, &range);
        let put: Vec<Piece> = front.into_iter().chain(given.iter().copied()).chain(rest).collect();
        for piece in &gone {
            content.pieces.remove(&piece.position);
        }
        content.pieces.extend(put.iter().map(|piece| (piece.position, *piece)));
        // No piece that goes is the last one to name what is put.
        for piece in &put {
            self.add_name(piece);
        }
        for piece in &gone {
            self.drop_name(piece.extent);
        }
        self.pending += 1;
    }

    fn size_or_none(&self, ino: u64) -> u64 {
        self.files.get(&ino).map_or(0, |content| content.size)
    }

    fn write(&mut self, ino: u64, off: u64, len: u64) -> Reply {
        refuse(!are_whole(&[off], len), "no align")?;
        refuse(len > LONGEST_EXTENT || is_far(off, len), "no far")?;
        refuse(self.pending >= MOST_PENDING, "no many")?;
        let groups = self.quota.room(len + NODE_BYTES)?;
        let run = self.first_run(len).ok_or("no run")?;
        let piece = Piece {
            position: off,
            len,
            extent: run,
            offset: 0,
            stamp: self.generation + 1,
            extent_bytes: len,
        };
        let size = self.size_or_none(ino).max(off + len);
        self.edit(ino, off..off + len, &[piece], size);
        self.take(run, len);
        self.quota.hold(&groups, len + NODE_BYTES);
        Ok(format!("ok extent {run}"))
    }

    fn clone(&mut self, ino: u64, off: u64, len: u64, to_ino: u64, to_off: u64) -> Reply {
        let source = self.file(ino)?;
        refuse(!are_whole(&[off, to_off], len), "no align")?;
        refuse(is_far(off, len) || is_far(to_off, len), "no far")?;
        refuse(off + len > source.size, "no source")?;
        refuse(ino == to_ino && off.abs_diff(to_off) < len, "no overlap")?;
        refuse(self.pending >= MOST_PENDING, "no many")?;
        let groups = self.quota.room(NODE_BYTES)?;
        let mut taken = within(&source.pieces, &(off..off + len));
        for piece in &mut taken {
            piece.position = piece.position - off + to_off;
        }
        let size = self.size_or_none(to_ino).max(to_off + len);
        self.edit(to_ino, to_off..to_off + len, &taken, size);
        self.quota.hold(&groups, NODE_BYTES);
        Ok("ok".to_string())
    }

    fn truncate(&mut self, ino: u64, size: u64) -> Reply {
        self.file(ino)?;
        refuse(size % SECTOR != 0, "no align")?;
        refuse(size > LARGEST_SIZE, "no far")?;
        refuse(self.pending >= MOST_PENDING, "no many")?;
        self.edit(ino, size..u64::MAX, &[], size);
        Ok("ok".to_string())
    }

    fn unlink(&mut self, ino: u64) -> Reply {
        self.file(ino)?;
        refuse(self.pending >= MOST_PENDING, "no many")?;
        for piece in self.files.remove(&ino).unwrap().pieces.values() {
            self.drop_name(piece.extent);
        }
        self.pending += 1;
        Ok("ok".to_string())
    }

    fn ls(&self, ino: u64) -> Reply {
        let content = self.file(ino)?;
        let mut reply = String::new();
        for piece in content.pieces.values() {
            let Piece { position, len, extent, offset, .. } = piece;
            writeln!(reply, "{position} {len} {extent} {offset}").unwrap();
        }
        Ok(reply + &format!("ok file {}", content.size))
    }

    fn commit(&mut self) -> io::Result<()> {
        let mut items = Vec::new();
        for (ino, content) in &self.files {
            let bytes = content.pieces.values().map(|piece| piece.len).sum();
            items.push(inode_item(*ino, content.made, content.changed, content.size, bytes));
            items.extend(content.pieces.values().map(|piece| piece_item(*ino, piece)));
        }
        let free: Vec<u64> = (0..self.sizes.slots)
            .map(slot_at)
            .filter(|slot| !self.slots.contains(slot))
            .collect();
        let extent_bytes = self.named.values().map(|(_, len)| len).sum();
        self.generation += 1;
        let (quota, generation) = (&mut self.quota, self.generation);
        let nodes = commit(&self.file, self.sizes, generation, &free, &items, extent_bytes, |bytes| {
            quota.count(bytes, generation);
            quota.items(generation)
        })?;
        self.slots = free[..nodes].iter().copied().collect();
        for (extent, len) in std::mem::take(&mut self.held) {
            if !self.named.contains_key(&extent) {
                self.give(extent, len);
            }
        }
        self.held = self.named.iter().map(|(at, (_, len))| (*at, *len)).collect();
        self.pending = 0;
        Ok(())
    }

    /// Refuses a command that would commit, where no generation is left for that.
    fn refuse_last_generation(&self) -> Result<(), String> {
        refuse(self.generation > LAST_GENERATION, "no generation")
    }

    /// Changes groups, behind what is pending, and commits both.
    fn change(&mut self, change: Change) -> io::Result<Reply> {
        let checked = self.quota.check(change).and_then(|()| self.refuse_last_generation());
        if let Err(reply) = checked {
            return Ok(Err(reply));
        }
        if self.pending > 0 {
            self.commit()?;
        }
        self.quota.make(change, self.generation + 1);
        self.commit()?;
        Ok(Ok("ok".to_string()))
    }

    /// The reply to a line.
    fn answer(&mut self, line: &str) -> io::Result<Reply> {
        let words: Vec<&str> = line.split(' ').collect();
        if let Some(change) = Change::of(&words) {
            return self.change(change);
        }
        let number = |at: usize| words[at].parse::<u64>().expect("a number");
        let subs: &[usize] = match words[0] {
            "clone" => &[1, 5],
            "commit" | "show" => &[],
            _ => &[1],
        };
        if subs.iter().any(|at| words[*at] != "5") {
            return Ok(Err("no sub".to_string()));
        }
        if words[0] == "commit" && self.pending > 0 {
            if let Err(reply) = self.refuse_last_generation() {
                return Ok(Err(reply));
            }
            self.commit()?;
        }
        Ok(match words[0] {
            "write" => self.write(number(2), number(3), number(4)),
            "clone" => self.clone(number(2), number(3), number(4), number(6), number(7)),
            "truncate" => self.truncate(number(2), number(3)),
            "unlink" => self.unlink(number(2)),
            "commit" => Ok(format!("ok commit {}", self.generation)),
            "show" => self.quota.shown(),
            "ls" => self.ls(number(2)),
            _ => panic!("{line}: not served"),
        })
    }
}

fn main() -> io::Result<ExitCode> {
    let path = std::env::args().nth(1).expect("plain IMAGE run");
    let file = OpenOptions::new().read(true).write(true).open(path)?;
    let mut out = io::stdout().lock();
    let mut store = match Store::open(file) {
        Ok(store) => store,
        Err(Stop::Disk(error)) => return Err(error),
        Err(Stop::Checksum(address)) => {
            writeln!(out, "broken csum {address}")?;
            return Ok(ExitCode::from(3));
        }
    };
    for line in io::stdin().lock().lines() {
        let (Ok(reply) | Err(reply)) = store.answer(&line?)?;
        writeln!(out, "{reply}")?;
    }
    Ok(ExitCode::SUCCESS)
}
