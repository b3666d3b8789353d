//! How fast `PROGRAM IMAGE run` answers scripts of `write` and `commit`, beside the same done in plain Rust:
//! `run ROUNDS PROGRAM PLAIN`. Build it by `rustc -O`.
//!
//! Each image is made anew by the program. Of a script it prints the fastest of ROUNDS by each half, less the time that
//! this half takes over an empty script, and both must answer the same.
use runs::{Run, make};
use std::fs;
use std::io;

mod runs;

/// The fewest and the most sectors of an image here.
const FEW: &str = "65536";
const MANY: &str = "16777216";

/// How many writes there are, each of one sector, and after how many of them a commit comes.
const WRITES: u64 = 20000;
const EACH: u64 = 100;

/// How many files they go to, in turn.
const FILES: u64 = 16;

/// The script; without commits where `each` is 0.
fn script(each: u64) -> String {
    let mut lines = String::new();
    for i in 0..WRITES {
        let (file, place) = (257 + i % FILES, i / FILES);
        lines += &format!("write 5 {file} {} 4096\n", 4096 * place);
        if each > 0 && (i + 1) % each == 0 {
            lines += "commit\n";
        }
    }
    lines
}

/// The fastest of some rounds of a script, less that of an empty one: the program's time, and plain Rust's.
fn race(rounds: u32, program: &str, plain: &str, sectors: &str, script: &str) -> io::Result<(u128, u128)> {
    let [mut empty, mut own, mut plain_empty, mut other] = [u128::MAX; 4];
    for _ in 0..rounds {
        make(program, "run.img", sectors)?;
        empty = empty.min(Run::of(program, "run.img", "empty.txt")?.took);
        plain_empty = plain_empty.min(Run::of(plain, "run.img", "empty.txt")?.took);
        let answered = Run::of(program, "run.img", script)?;
        own = own.min(answered.took);
        make(program, "run.img", sectors)?;
        let wanted = Run::of(plain, "run.img", script)?;
        other = other.min(wanted.took);
        assert!(answered.replies == wanted.replies, "the answers differ");
        // What plain Rust wrote is sound.
        assert!(Run::of(program, "run.img", "empty.txt")?.replies.is_empty());
    }
    Ok((own - empty, other - plain_empty))
}

fn main() -> io::Result<()> {
    let words: Vec<String> = std::env::args().skip(1).collect();
    let [rounds, program, plain] = words.as_slice() else {
        panic!("run ROUNDS PROGRAM PLAIN");
    };
    let rounds: u32 = rounds.parse().expect("ROUNDS is a number");
    fs::write("empty.txt", "")?;
    let mut took = Vec::new();
    for (name, each, sectors) in [("commits", EACH, FEW), ("few", 0, FEW), ("many", 0, MANY)] {
        let lines = script(each);
        fs::write("script.txt", &lines)?;
        let (own, other) = race(rounds, program, plain, sectors, "script.txt")?;
        let speed = lines.lines().count() as u128 * 1_000_000 / own;
        let ratio = own as f64 / other as f64;
        println!("{name}: {speed} lines a second, {own} us, plain {other} us, ratio {ratio:.2}");
        took.push(own);
    }
    println!("many to few sectors: ratio {:.2}", took[2] as f64 / took[1] as f64);
    Ok(())
}
