//! What writes take under groups with limits, by `PROGRAM IMAGE run` and in plain Rust: `groups ROUNDS PROGRAM PLAIN`.
//! Build it by `rustc -O`.
//!
//! First both halves run a mixed script on groups, and each reads what the other left. Then, for each way in which
//! groups lie above the subvolume's, both make them over a fresh image, with limits on each, and run 10,000 writes of a
//! sector, without a commit and with one after each hundred. What a script takes is the least of ROUNDS runs, on a
//! processor and with the kernel's time for them, less the least of as many runs of the same half over the same image
//! on an empty script. All replies are compared.
use draws::Draws;
use runs::{Run, agreed, compare, make};
use std::fs;
use std::io;
use std::process::Command;

mod draws;
mod runs;

/// Sectors of the images: of the one that the mixed script edits, and of all others.
const FEW_SECTORS: &str = "512";
const SECTORS: &str = "16384";

/// Bytes of a sector and of a node.
const SECTOR: u64 = 4096;
const NODE: u64 = 16384;

/// How many writes there are, how many files they go to, in turn, and after how many of them a commit comes.
const WRITES: u64 = 10000;
const FILES: u64 = 16;
const EACH: u64 = 100;

/// What is in use behind all writes where none is committed: a node, and what they reserve.
const RESERVED: u64 = NODE + WRITES * (SECTOR + NODE);

/// How many lines the mixed script has.
const MIXED: u64 = 1500;

/// The scripts over images with groups.
const SCRIPTS: [&str; 3] = ["empty", "writes", "commits"];
const EMPTY: usize = 0;
const UNCOMMITTED: usize = 1;
const COMMITTED: usize = 2;

/// Groups in layers of so many. The subvolume's group is a member of each group of the first layer, and each group of a
/// layer is one of each group of the next. So many groups are no one's parents or members.
struct Groups {
    name: &'static str,
    layers: u64,
    width: u64,
    elsewhere: u64,
}

const WAYS: [Groups; 8] = [
    groups("0", 0, 0),
    groups("1", 1, 1),
    Groups { elsewhere: 1000, ..groups("1, 1000 elsewhere", 1, 1) },
    groups("10 side by side", 1, 10),
    groups("10 in a chain", 10, 1),
    groups("100 side by side", 1, 100),
    groups("100 in a chain", 100, 1),
    groups("100 in ten layers", 10, 10),
];

const fn groups(name: &'static str, layers: u64, width: u64) -> Groups {
    Groups { name, layers, width, elsewhere: 0 }
}

/// A group of a layer; below the first one there is the subvolume's alone.
fn group(layer: u64, place: u64) -> String {
    if layer == 0 { "0/5".to_string() } else { format!("{layer}/{place}") }
}

impl Groups {
    /// How many lie above the subvolume's.
    fn above(&self) -> u64 {
        self.layers * self.width
    }

    /// The one with the greatest number of those that lie above, or the subvolume's.
    fn last(&self) -> String {
        group(self.layers, self.width)
    }

    /// The lines that make them over a fresh image. The exclusive limit of the last one is such that all writes meet it
    /// where none is committed, and one more is over it. The other limits are not met.
    fn lines(&self) -> String {
        let mut lines = String::new();
        let mut all = vec![group(0, 1)];
        for layer in 1..=self.layers {
            for place in 1..=self.width {
                all.push(group(layer, place));
                lines += &format!("qgroup create {layer}/{place}\n");
                for below in 1..=if layer == 1 { 1 } else { self.width } {
                    lines += &format!("assign {} {layer}/{place}\n", group(layer - 1, below));
                }
            }
        }
        for place in 1..=self.elsewhere {
            lines += &format!("qgroup create 1/{}\n", 1000 + place);
        }
        for group in all {
            let most = if group == self.last() { RESERVED } else { 2 * RESERVED };
            lines += &format!("limit rfer {group} {}\nlimit excl {group} {most}\n", 2 * RESERVED);
        }
        lines
    }
}

/// The writes. Without commits one more follows, for which there is no room.
fn writes(commits: bool) -> String {
    let mut lines = String::new();
    for i in 0..WRITES + u64::from(!commits) {
        let (file, place) = (257 + i % FILES, i / FILES);
        lines += &format!("write 5 {file} {} {SECTOR}\n", SECTOR * place);
        if commits && (i + 1) % EACH == 0 {
            lines += "commit\n";
        }
    }
    lines
}

/// Lines of all kinds on groups, and on two files so small that they lie in one leaf, however a tree is cut. Many are
/// refused, for limits too.
fn mixed() -> String {
    let mut draws = Draws(1);
    let mut lines = String::new();
    for _ in 0..MIXED {
        let kind = draws.below(32);
        let [one, other] = [(); 2].map(|_| group(draws.below(4), draws.below(2)));
        let (low, high) = ((&one).min(&other), (&one).max(&other));
        let which = ["rfer", "excl"][draws.below(2) as usize];
        let [ino, to_ino] = [(); 2].map(|_| 257 + draws.below(2));
        let [off, to_off] = [(); 2].map(|_| SECTOR * draws.below(32));
        let len = SECTOR * (1 + draws.below(8));
        let most = NODE + SECTOR * draws.below(256);
        lines += &match kind {
            0..8 => format!("write 5 {ino} {off} {len}\n"),
            8..11 => format!("clone 5 {ino} {off} {len} 5 {to_ino} {to_off}\n"),
            11 if off < 8 * SECTOR => format!("unlink 5 {ino}\n"),
            11 => format!("truncate 5 {ino} {off}\n"),
            12..15 => format!("qgroup create {one}\n"),
            15 => format!("qgroup destroy {one}\n"),
            16..20 => format!("assign {low} {high}\n"),
            20 => format!("assign {one} {other}\n"),
            21 => format!("remove {low} {high}\n"),
            22..27 => format!("limit {which} {one} {most}\n"),
            27 => format!("limit {which} {one} none\n"),
            28 => "commit\nshow\n".to_string(),
            29 => format!("show\nls 5 {ino}\n"),
            _ if off < 3 * SECTOR => "quota off\n".to_string(),
            _ => "quota on\n".to_string(),
        };
    }
    lines + "commit\n"
}

/// The program and plain Rust, each with an image of its own.
type Halves<'a> = [(&'a str, &'static str); 2];

/// The least times of each half by script, in nanoseconds.
type Times = [[u64; SCRIPTS.len()]; 2];

/// Makes the groups of a way by both halves. Each must understand what the other left.
fn make_groups([own, plain]: Halves, way: &Groups) -> io::Result<()> {
    fs::write("groups.txt", way.lines())?;
    for image in [own.1, plain.1] {
        make(own.0, image, SECTORS)?;
    }
    let runs = [Run::of(own.0, own.1, "groups.txt")?, Run::of(plain.0, plain.1, "groups.txt")?];
    let replies = agreed(&format!("groups: {}", way.name), runs);
    assert!(replies.lines().all(|reply| reply == "ok"), "groups: {}: some are not made", way.name);
    let mut shown = Vec::new();
    for image in [own.1, plain.1] {
        let runs = [Run::of(own.0, image, "show.txt")?, Run::of(plain.0, image, "show.txt")?];
        shown.push(agreed(&format!("show over {image}: {}", way.name), runs));
    }
    assert!(shown[0] == shown[1], "groups: {}: the images differ", way.name);
    Ok(())
}

/// Runs a script by a half, over its image or over a copy where it commits.
fn run((half, image): (&str, &str), script: usize) -> io::Result<Run> {
    let path = if script == COMMITTED { "edited.img" } else { image };
    if script == COMMITTED {
        let status = Command::new("cp").args(["--sparse=always", image, path]).status()?;
        assert!(status.success(), "cp {image} {path}: {status}");
    }
    Run::of(half, path, &format!("{}.txt", SCRIPTS[script]))
}

/// The times under the groups of a way.
fn measure(rounds: u64, halves: Halves, way: &Groups) -> io::Result<Times> {
    make_groups(halves, way)?;
    let mut times = [[u64::MAX; SCRIPTS.len()]; 2];
    for _ in 0..rounds {
        for script in 0..SCRIPTS.len() {
            let runs = [run(halves[0], script)?, run(halves[1], script)?];
            for (least, run) in times.iter_mut().zip(&runs) {
                least[script] = least[script].min(run.busy);
            }
            let replies = agreed(&format!("{}: {}", SCRIPTS[script], way.name), runs);
            if script == UNCOMMITTED {
                let done = replies.matches("ok extent ").count() as u64;
                let last = format!("no quota {} excl", way.last());
                assert!(done == WRITES, "writes: {}: {done} are done", way.name);
                assert!(replies.lines().last() == Some(&last), "writes: {}: the limit is not met", way.name);
            }
        }
        let sound = Run::of(halves[0].0, "edited.img", "empty.txt")?.replies.is_empty();
        assert!(sound, "commits: {}: what plain Rust left is not sound", way.name);
    }
    Ok(times)
}

/// Nanoseconds that each half takes for a script.
fn took(times: &Times, script: usize) -> [f64; 2] {
    times.map(|least| least[script] as f64 - least[EMPTY] as f64)
}

/// The two lines above the others.
fn print_head() {
    println!("{:<18} | {:<56} | {}", "", format!("{WRITES} writes"), format_args!("a commit after each {EACH}"));
    print!("{:<18} | ", "groups above");
    println!("  own us lines/s     ns  rust us lines/s     ns  ratio |   own us  rust us  ratio");
}

/// The line of a way. What a write takes for each group above, by what it takes without any, is told where there are
/// enough of them.
fn print(way: &Groups, times: &Times, without: &Times) {
    print!("{:<18} |", way.name);
    let [own, plain] = took(times, UNCOMMITTED);
    for (all, less) in [own, plain].into_iter().zip(took(without, UNCOMMITTED)) {
        print!("{:>9.0}{:>8.0}", all / 1e3, WRITES as f64 * 1e9 / all);
        if way.above() < 10 {
            print!("{:>7}", "");
        } else {
            print!("{:>7.0}", (all - less) / (WRITES * way.above()) as f64);
        }
    }
    print!("{:>7.2} |", own / plain);
    let [own, plain] = took(times, COMMITTED);
    println!("{:>9.0}{:>9.0}{:>7.2}", own / 1e3, plain / 1e3, own / plain);
}

fn main() -> io::Result<()> {
    let words: Vec<String> = std::env::args().skip(1).collect();
    let [rounds, program, plain] = words.as_slice() else {
        panic!("groups ROUNDS PROGRAM PLAIN");
    };
    let rounds = rounds.parse().expect("ROUNDS is a number");
    let shown = "ls 5 257\nls 5 258\nshow\n";
    compare(program, plain, FEW_SECTORS, &mixed(), shown)?;
    fs::write("show.txt", shown)?;
    fs::write("empty.txt", "")?;
    fs::write("writes.txt", writes(false))?;
    fs::write("commits.txt", writes(true))?;
    let halves = [(program.as_str(), "own.img"), (plain.as_str(), "plain.img")];
    let mut without = None;
    print_head();
    for way in &WAYS {
        let times = measure(rounds, halves, way)?;
        print(way, &times, without.get_or_insert(times));
    }
    Ok(())
}
