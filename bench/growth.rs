//! How the times of `PROGRAM IMAGE run` grow with the number of pieces, beside the same done in plain Rust:
//! `growth ROUNDS PROGRAM PLAIN PIECES ..`. Build it by `rustc -O`.
//!
//! For each number PIECES there are images `ordered-PIECES.img`, `scattered-PIECES.img` and `broken-PIECES.img` of one
//! file and `pair-PIECES.img` of two, as `bench/image.rs` makes them; `fresh.img` is a fresh image. What a kind of work
//! takes is what the least run takes that does it, less the least run of the same half that does all the rest. Times
//! are those on a processor, the kernel's for a run among them, and in the last line those by the clock. A line has for
//! each number and each half the microseconds in all and the nanoseconds of each piece, and the ratio; and for each
//! half how many times as long a piece takes at the last number as at the first.
use draws::{Draws, shuffled};
use runs::{Run, compare, make};
use std::fs;
use std::io;

mod draws;
mod runs;

/// Sectors of the images, the most there can be, and of the one that the mixed script edits.
const SECTORS: &str = "16777216";
const FEW_SECTORS: &str = "512";

/// Bytes of a sector.
const SECTOR: u64 = 4096;

/// How many lines the mixed script has.
const MIXED: u64 = 4000;

/// The runs of each round: the image's form, and the script.
const RUNS: [(&str, &str); 9] = [
    ("fresh", "empty"),
    ("broken", "empty"),
    ("ordered", "empty"),
    ("scattered", "empty"),
    ("pair", "empty"),
    ("fresh", "ascending"),
    ("fresh", "shuffled"),
    ("pair", "clones"),
    ("edited", "committed"),
];

/// A kind of work: which run does it and which one all but it, and how many pieces there are to one that it is done to.
struct Work {
    name: &'static str,
    run: usize,
    less: usize,
    share: u64,
    clock: Clock,
}

#[derive(Clone, Copy)]
enum Clock {
    Processor,
    Wall,
}

const WORKS: [Work; 8] = [
    work("formats", 1, 0),
    work("opening, ordered", 2, 0),
    work("opening, scattered", 3, 0),
    work("writes, ascending", 5, 0),
    work("writes, scattered", 6, 0),
    Work { share: 3, ..work("clones", 7, 4) },
    work("commit", 8, 5),
    Work { clock: Clock::Wall, ..work("commit, by the clock", 8, 5) },
];

const fn work(name: &'static str, run: usize, less: usize) -> Work {
    Work { name, run, less, share: 1, clock: Clock::Processor }
}

/// The least times of a run, in nanoseconds.
#[derive(Clone, Copy)]
struct Least {
    processor: u64,
    wall: u64,
}

impl Least {
    const NONE: Least = Least { processor: u64::MAX, wall: u64::MAX };

    fn note(&mut self, run: &Run) {
        self.processor = self.processor.min(run.busy);
        self.wall = self.wall.min(1000 * run.took as u64);
    }

    fn by(&self, clock: Clock) -> u64 {
        match clock {
            Clock::Processor => self.processor,
            Clock::Wall => self.wall,
        }
    }
}

/// The times of each run.
type Times = [Least; RUNS.len()];

/// The times of both halves at one number of pieces.
struct Column {
    pieces: u64,
    own: Times,
    plain: Times,
}

/// A write of a sector for each of these places.
fn writes(places: impl Iterator<Item = u64>) -> String {
    places
        .map(|place| format!("write 5 257 {} {SECTOR}\n", SECTOR * place))
        .collect()
}

/// Clones of each sector of a file to all places of another, which are shuffled.
fn clones(count: u64) -> String {
    (0..count)
        .zip(shuffled(count))
        .map(|(from, to)| format!("clone 5 257 {} {SECTOR} 5 258 {}\n", SECTOR * from, SECTOR * to))
        .collect()
}

/// Lines of all kinds, some of which are refused. The files are so few and so small that they lie in one leaf, however
/// a tree is cut, and that no line wants slots.
fn mixed() -> String {
    let mut draws = Draws(1);
    let mut lines = String::new();
    for i in 1..=MIXED {
        let kind = draws.below(16);
        let [ino, to_ino] = [(); 2].map(|_| 257 + draws.below(2));
        let [off, to_off] = [(); 2].map(|_| SECTOR * draws.below(32));
        let len = SECTOR * (1 + draws.below(8));
        lines += &match kind {
            0..7 => format!("write 5 {ino} {off} {len}\n"),
            7..11 => format!("clone 5 {ino} {off} {len} 5 {to_ino} {to_off}\n"),
            11 => format!("truncate 5 {ino} {off}\n"),
            12 => format!("unlink 5 {ino}\n"),
            13 => format!("ls 5 {ino}\n"),
            14 => "show\n".to_string(),
            _ => format!("clone 5 {ino} {off} {} 6 {to_ino} 0\ntruncate 5 {ino} {}\n", len / 2, off + len / 2),
        };
        if i % (MIXED / 8) == 0 {
            lines += "commit\n";
        }
    }
    lines
}

/// Lines that show all that an image of the mixed script holds.
fn shown() -> String {
    let files = (257..259).map(|ino| format!("ls 5 {ino}\n"));
    files.chain(["show\n".to_string()]).collect()
}

/// The path of an image of so many pieces.
fn image(form: &str, pieces: u64) -> String {
    match form {
        "fresh" | "edited" => format!("{form}.img"),
        _ => format!("{form}-{pieces}.img"),
    }
}

/// Does each run once by each half.
fn race(program: &str, plain: &str, column: &mut Column) -> io::Result<()> {
    for (at, (form, script)) in RUNS.into_iter().enumerate() {
        let path = image(form, column.pieces);
        let mut replies = Vec::new();
        for (half, times) in [(program, &mut column.own), (plain, &mut column.plain)] {
            if form == "edited" {
                make(program, &path, SECTORS)?;
            }
            let run = Run::of(half, &path, &format!("{script}.txt"))?;
            times[at].note(&run);
            replies.push(run.replies);
        }
        assert!(replies[0] == replies[1], "the answers to {script}.txt over {path} differ");
    }
    Ok(())
}

/// The times of so many pieces. Short runs are done more often.
fn column(rounds: u64, program: &str, plain: &str, pieces: u64) -> io::Result<Column> {
    let ascending = writes(0..pieces);
    fs::write("empty.txt", "")?;
    fs::write("shuffled.txt", writes(shuffled(pieces).into_iter()))?;
    fs::write("clones.txt", clones(pieces / 3))?;
    fs::write("committed.txt", format!("{ascending}commit\n"))?;
    fs::write("ascending.txt", ascending)?;
    let mut column = Column {
        pieces,
        own: [Least::NONE; RUNS.len()],
        plain: [Least::NONE; RUNS.len()],
    };
    for _ in 0..rounds * (60000 / pieces).clamp(1, 10) {
        race(program, plain, &mut column)?;
    }
    Ok(column)
}

impl Work {
    /// Nanoseconds in all, in some times.
    fn took(&self, times: &Times) -> f64 {
        times[self.run].by(self.clock) as f64 - times[self.less].by(self.clock) as f64
    }

    /// How many pieces it is done to.
    fn count(&self, column: &Column) -> f64 {
        (column.pieces / self.share) as f64
    }

    /// Its line.
    fn print(&self, columns: &[Column]) {
        print!("{:<20}", self.name);
        for column in columns {
            let count = self.count(column);
            let [own, plain] = [&column.own, &column.plain].map(|times| self.took(times));
            print!(" |{:>9.0}{:>7.0}", own / 1000.0, own / count);
            print!("{:>9.0}{:>7.0}{:>7.2}", plain / 1000.0, plain / count, own / plain);
        }
        let [first, last] = [&columns[0], &columns[columns.len() - 1]];
        let more = self.count(last) / self.count(first);
        let own = self.took(&last.own) / self.took(&first.own) / more;
        let plain = self.took(&last.plain) / self.took(&first.plain) / more;
        println!(" |{own:>7.2}{plain:>7.2}");
    }
}

/// The two lines above the others.
fn print_head(columns: &[Column]) {
    print!("{:<20}", "");
    for column in columns {
        print!(" | {:<38}", format!("{} pieces", column.pieces));
    }
    print!(" | growth\n{:<20}", "");
    for _ in columns {
        print!(" |   own us     ns  rust us     ns  ratio");
    }
    println!(" |    own   rust");
}

fn main() -> io::Result<()> {
    let words: Vec<String> = std::env::args().skip(1).collect();
    let [rounds, program, plain, sizes @ ..] = words.as_slice() else {
        panic!("growth ROUNDS PROGRAM PLAIN PIECES ..");
    };
    let number = |word: &String| word.parse::<u64>().expect("a number");
    compare(program, plain, FEW_SECTORS, &mixed(), &shown())?;
    let columns = sizes
        .iter()
        .map(|pieces| column(number(rounds), program, plain, number(pieces)))
        .collect::<io::Result<Vec<Column>>>()?;
    print_head(&columns);
    for work in WORKS {
        work.print(&columns);
    }
    Ok(())
}
