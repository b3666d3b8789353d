//! What lines take where many snapshots share one tree: `share ROUNDS PROGRAM SNAPSHOTS ..`. Build it by `rustc -O`.
//!
//! For each number SNAPSHOTS an image is made: one file of 10,000 pieces, each a sector of an extent of its own, in
//! nodes of 4096 bytes, and so many snapshots of its subvolume. A line or two are then run over a copy of it. What a
//! line takes is the least run that does it, less the least run over the same image with no line; so is what it reads,
//! which are the calls of the kernel that read. Beside that stand the same lines in plain Rust, which keeps the pieces
//! of each subvolume in a map of its own, in memory alone, and counts them at a commit; and, of opening, the checksums
//! of all nodes.
use format::{has_checksum, SLOTS_BEGIN};
use std::collections::{BTreeMap, HashMap};
use std::fs::{self, File};
use std::io::{self, Read, Write};
use std::os::unix::fs::FileExt;
use std::process::{Command, Stdio};
use std::thread;
use std::time::Instant;

#[allow(dead_code)]
mod format;

const PIECES: u64 = 10_000;
const SECTOR: u64 = 4096;
const NODE: usize = 4096;
const SLOTS: u64 = 16128;

/// The lines that are timed. The last piece is written over.
const LINES: [(&str, &str); 5] = [
    ("opened", ""),
    ("write", "write 5 257 81911808 4096\n"),
    ("write, commit", "write 5 257 81911808 4096\ncommit\n"),
    ("snap", "snap 5\n"),
    ("delete", "delete 256\n"),
];

/// What a run took, by the clock and on a processor, in microseconds, and how many calls of it read.
#[derive(Clone, Copy)]
struct Took {
    clock: u64,
    busy: u64,
    reads: u64,
}

const MOST: Took = Took { clock: u64::MAX, busy: u64::MAX, reads: u64::MAX };

impl Took {
    fn least(self, other: Took) -> Took {
        Took {
            clock: self.clock.min(other.clock),
            busy: self.busy.min(other.busy),
            reads: self.reads.min(other.reads),
        }
    }
}

/// Runs the program on some lines, and gives its replies. The kernel keeps a process's figures until its parent waits
/// for it.
fn run(program: &str, image: &str, words: &[&str], lines: &str) -> io::Result<(Took, String)> {
    let start = Instant::now();
    let mut child = Command::new(program)
        .arg(image)
        .args(words)
        .stdin(Stdio::piped())
        .stdout(Stdio::piped())
        .spawn()?;
    let mut input = child.stdin.take().unwrap();
    let text = lines.to_string();
    let writer = thread::spawn(move || input.write_all(text.as_bytes()));
    let mut replies = String::new();
    child.stdout.take().unwrap().read_to_string(&mut replies)?;
    writer.join().unwrap()?;
    let folder = format!("/proc/{}", child.id());
    while !fs::read_to_string(format!("{folder}/stat"))?.contains(") Z ") {
        thread::yield_now();
    }
    let clock = start.elapsed().as_micros() as u64;
    let times = fs::read_to_string(format!("{folder}/schedstat"))?;
    let busy = times.split(' ').next().and_then(|it| it.parse::<u64>().ok()).expect("schedstat begins with a number") / 1000;
    let calls = fs::read_to_string(format!("{folder}/io")).unwrap_or_default();
    let reads = calls.lines().find_map(|it| it.strip_prefix("syscr: ")).and_then(|it| it.parse().ok()).unwrap_or(0);
    let status = child.wait()?;
    assert!(status.success(), "{program} {image} {words:?}: {status}, {replies}");
    Ok((Took { clock, busy, reads }, replies))
}

/// Makes an image with snapshots.
fn make(program: &str, snapshots: u64) -> io::Result<()> {
    let _ = fs::remove_file("shared.img");
    run(program, "shared.img", &["mkfs", "4096", "16128", "65536"], "")?;
    let mut lines = String::new();
    for i in 0..PIECES {
        lines += &format!("write 5 257 {} 4096\n", 2 * SECTOR * i);
    }
    lines += "commit\n";
    for _ in 0..snapshots {
        lines += "snap 5\n";
    }
    let (_, replies) = run(program, "shared.img", &["run"], &lines)?;
    let last = format!("ok sub {}", 255 + snapshots);
    assert_eq!(replies.lines().last(), Some(last.as_str()));
    Ok(())
}

/// The checksums of all nodes that the slots have, and how many there are.
fn sums() -> io::Result<(u64, u64)> {
    let file = File::open("shared.img")?;
    let mut nodes = Vec::new();
    let mut node = vec![0; NODE];
    for slot in 0..SLOTS {
        file.read_exact_at(&mut node, SLOTS_BEGIN + NODE as u64 * slot)?;
        if node.iter().any(|byte| *byte != 0) {
            nodes.extend_from_slice(&node);
        }
    }
    let start = Instant::now();
    assert!(nodes.chunks_exact(NODE).all(has_checksum));
    Ok((start.elapsed().as_micros() as u64, (nodes.len() / NODE) as u64))
}

/// A piece: the extent's address and length.
type Pieces = BTreeMap<u64, (u64, u64)>;

/// Counts what each subvolume reaches, and what it alone reaches.
fn count(subvolumes: &BTreeMap<u64, Pieces>) -> BTreeMap<u64, (u64, u64)> {
    let mut owners: HashMap<u64, (u64, u64, u64)> = HashMap::new();
    let mut counts = BTreeMap::new();
    for (sub, pieces) in subvolumes {
        let mut all = 0;
        for (extent, len) in pieces.values() {
            let known = owners.entry(*extent).or_insert((*sub, 0, *len));
            known.1 += 1;
            all += len;
        }
        counts.insert(*sub, (all, 0));
    }
    for (sub, times, len) in owners.values() {
        if *times == 1 {
            counts.get_mut(sub).unwrap().1 += len;
        }
    }
    counts
}

/// What the lines take in plain Rust, in the order of `LINES`.
fn plain(snapshots: u64) -> [u64; 5] {
    let pieces: Pieces = (0..PIECES).map(|i| (2 * SECTOR * i, (67174400 + SECTOR * i, SECTOR))).collect();
    let mut subvolumes = BTreeMap::from([(5, pieces)]);
    for i in 0..snapshots {
        subvolumes.insert(256 + i, subvolumes[&5].clone());
    }
    let mut took = [0; 5];
    let timed = |call: &mut dyn FnMut()| {
        let start = Instant::now();
        call();
        start.elapsed().as_micros() as u64
    };
    took[1] = timed(&mut || {
        subvolumes.get_mut(&5).unwrap().insert(81911808, (67174400 + SECTOR * PIECES, SECTOR));
    });
    let counted = timed(&mut || assert_eq!(count(&subvolumes).len() as u64, 1 + snapshots));
    took[2] = took[1] + counted;
    took[3] = timed(&mut || {
        let copy = subvolumes[&5].clone();
        subvolumes.insert(256 + snapshots, copy);
    }) + counted;
    took[4] = timed(&mut || drop(subvolumes.remove(&256))) + counted;
    took
}

fn main() -> io::Result<()> {
    let words: Vec<String> = std::env::args().skip(1).collect();
    let [rounds, program, counts @ ..] = words.as_slice() else {
        panic!("share ROUNDS PROGRAM SNAPSHOTS ..");
    };
    let rounds: u32 = rounds.parse().expect("ROUNDS is a number");
    for count in counts {
        let snapshots: u64 = count.parse().expect("SNAPSHOTS is a number");
        make(program, snapshots)?;
        let mut taken = [MOST; 5];
        let mut rust = [u64::MAX; 5];
        let mut summed = u64::MAX;
        let mut nodes = 0;
        for _ in 0..rounds {
            for (i, (_, lines)) in LINES.iter().enumerate() {
                fs::copy("shared.img", "edited.img")?;
                taken[i] = taken[i].least(run(program, "edited.img", &["run"], lines)?.0);
            }
            for (least, took) in rust.iter_mut().zip(plain(snapshots)) {
                *least = took.min(*least);
            }
            let (took, there) = sums()?;
            summed = summed.min(took);
            nodes = there;
        }
        let opened = taken[0];
        println!(
            "{snapshots} snapshots: opened {} us, checksums of {nodes} slots {summed} us, ratio {:.2}, reads {}",
            opened.busy,
            opened.busy as f64 / summed as f64,
            opened.reads
        );
        for i in 1..LINES.len() {
            let busy = taken[i].busy.saturating_sub(opened.busy);
            let reads = taken[i].reads.saturating_sub(opened.reads);
            let clock = taken[i].clock.saturating_sub(opened.clock).max(1);
            println!(
                "{snapshots} snapshots, {}: {busy} us, {:.1} a second, reads {reads}, rust {} us",
                LINES[i].0,
                1e6 / clock as f64,
                rust[i]
            );
        }
    }
    Ok(())
}
