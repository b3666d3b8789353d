//! How long `PROGRAM IMAGE run` takes to open an image, and `PROGRAM IMAGE check` to judge it, beside the checksums of
//! the image's nodes alone: `open ROUNDS PROGRAM FRESH FULL ..`. Build it by `rustc -O`.
//!
//! FRESH is a fresh image of the same sizes as each FULL. Its nodes fill the first slots, and the first slot without a
//! node ends them. Of an image it prints, each as the fastest of ROUNDS in microseconds: the checksums of its nodes,
//! which lie in memory; these with the reading of the nodes from the file; the program's whole run over the image on an
//! empty input, less that over FRESH; and the same of `check`. The two ratios are to the first. Last it prints the most
//! memory that each of the two held, less what it held over FRESH.
use format::{NODE, SLOTS_BEGIN, has_checksum};
use std::fs::File;
use std::io;
use std::os::unix::fs::FileExt;
use std::process::{Command, Stdio};
use std::time::Instant;

mod format;

/// The nodes of an image.
fn nodes_of(path: &str) -> io::Result<Vec<u8>> {
    let file = File::open(path)?;
    let mut nodes = Vec::new();
    let mut node = vec![0; NODE];
    loop {
        file.read_exact_at(&mut node, SLOTS_BEGIN + nodes.len() as u64)?;
        if node.iter().all(|byte| *byte == 0) {
            return Ok(nodes);
        }
        nodes.extend_from_slice(&node);
    }
}

/// Takes the checksum of each node in memory.
fn check_all(nodes: &[u8]) {
    assert!(nodes.chunks_exact(NODE).all(has_checksum));
}

/// Reads each node, and takes its checksum.
fn read_all(path: &str, count: usize) -> io::Result<()> {
    let file = File::open(path)?;
    let mut node = vec![0; NODE];
    for i in 0..count {
        file.read_exact_at(&mut node, SLOTS_BEGIN + (NODE * i) as u64)?;
        assert!(has_checksum(&node));
    }
    Ok(())
}

/// Runs the program over an image by one word, on an empty input.
fn run(program: &str, image: &str, word: &str) -> io::Result<()> {
    let status = Command::new(program)
        .args([image, word])
        .stdin(Stdio::null())
        .stdout(Stdio::null())
        .status()?;
    assert!(status.success(), "{program} {image} {word}: {status}");
    Ok(())
}

/// The most memory, in kB, that the program held of a run, as GNU time tells it.
fn memory(program: &str, image: &str, word: &str) -> io::Result<i64> {
    let told = Command::new("/usr/bin/time")
        .args(["-f", "%M", program, image, word])
        .stdin(Stdio::null())
        .stdout(Stdio::null())
        .output()?;
    let text = String::from_utf8_lossy(&told.stderr);
    Ok(text.trim().parse().unwrap_or(-1))
}

/// Notes the time of a call, if none was faster.
fn time(fastest: &mut u128, call: impl FnOnce() -> io::Result<()>) -> io::Result<()> {
    let start = Instant::now();
    call()?;
    *fastest = start.elapsed().as_micros().min(*fastest);
    Ok(())
}

fn main() -> io::Result<()> {
    let words: Vec<String> = std::env::args().skip(1).collect();
    let [rounds, program, fresh, full @ ..] = words.as_slice() else {
        panic!("open ROUNDS PROGRAM FRESH FULL ..");
    };
    let rounds: u32 = rounds.parse().expect("ROUNDS is a number");
    for image in full {
        let nodes = nodes_of(image)?;
        let [mut sums, mut read, mut empty, mut opened, mut judged_empty, mut judged] = [u128::MAX; 6];
        for _ in 0..rounds {
            time(&mut sums, || Ok(check_all(&nodes)))?;
            time(&mut read, || read_all(image, nodes.len() / NODE))?;
            time(&mut empty, || run(program, fresh, "run"))?;
            time(&mut opened, || run(program, image, "run"))?;
            time(&mut judged_empty, || run(program, fresh, "check"))?;
            time(&mut judged, || run(program, image, "check"))?;
        }
        let opening = opened - empty;
        let judging = judged.saturating_sub(judged_empty);
        let ratio = opening as f64 / sums as f64;
        let check_ratio = judging as f64 / sums as f64;
        println!("{image}: checksums {sums} us, read too {read} us, opened {opening} us, ratio {ratio:.2}, checked {judging} us, ratio {check_ratio:.2}");
        let of_run = memory(program, image, "run")? - memory(program, fresh, "run")?;
        let of_check = memory(program, image, "check")? - memory(program, fresh, "check")?;
        println!("{image}: {of_run} kB held by run, {of_check} kB by check");
    }
    Ok(())
}
