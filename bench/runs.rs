//! Runs of the program, or of plain Rust, on a script over an image.
#![allow(dead_code)]
use std::fs::{self, File};
use std::io::{self, Read};
use std::process::{Child, Command, Stdio};
use std::thread;
use std::time::Instant;

/// Slots of each image, the most there can be.
const SLOTS: &str = "4032";

/// Makes an image by the program.
pub fn make(program: &str, image: &str, sectors: &str) -> io::Result<()> {
    let status = Command::new(program)
        .args([image, "mkfs", "16384", SLOTS, sectors])
        .stdout(Stdio::null())
        .status()?;
    assert!(status.success(), "{program} {image} mkfs: {status}");
    Ok(())
}

/// A run that has ended.
pub struct Run {
    /// How long it took, in microseconds.
    pub took: u128,
    /// How much of that it was on a processor, in nanoseconds, and the kernel for it.
    pub busy: u64,
    pub replies: Vec<u8>,
}

impl Run {
    /// Runs a half on a script. A run ends well too where its image is refused.
    pub fn of(half: &str, image: &str, script: &str) -> io::Result<Run> {
        let mut command = Command::new(half);
        command.args([image, "run"]);
        let start = Instant::now();
        let mut child = command
            .stdin(File::open(script)?)
            .stdout(Stdio::piped())
            .spawn()?;
        let mut replies = Vec::new();
        child.stdout.take().unwrap().read_to_end(&mut replies)?;
        let busy = busy_until_its_end(&child)?;
        let took = start.elapsed().as_micros();
        let status = child.wait()?;
        let is_well = matches!(status.code(), Some(0 | 3));
        assert!(is_well, "{command:?} <{script}: {status}");
        Ok(Run { took, busy, replies })
    }
}

/// What the program and plain Rust answer, which must be the same.
pub fn agreed(what: &str, [own, plain]: [Run; 2]) -> String {
    let [own, plain] = [own, plain].map(|run| String::from_utf8(run.replies).expect("replies are text"));
    if own != plain {
        let same = own.lines().zip(plain.lines()).take_while(|(one, other)| one == other).count();
        let [one, other] = [&own, &plain].map(|replies| replies.lines().nth(same).unwrap_or("nothing"));
        panic!("{what}: answers differ in line {}: the program's is '{one}', plain Rust's '{other}'", same + 1);
    }
    own
}

/// Runs both halves on a script, and each over the image that the other left, on one that shows all that it holds.
/// Their replies must be the same.
pub fn compare(program: &str, plain: &str, sectors: &str, script: &str, shown: &str) -> io::Result<()> {
    fs::write("mixed.txt", script)?;
    fs::write("shown.txt", shown)?;
    for image in ["own.img", "plain.img"] {
        make(program, image, sectors)?;
    }
    agreed("mixed.txt", [Run::of(program, "own.img", "mixed.txt")?, Run::of(plain, "plain.img", "mixed.txt")?]);
    let shown = Run::of(program, "plain.img", "shown.txt")?.replies;
    assert!(!shown.starts_with(b"broken") && !shown.starts_with(b"differs"), "plain.img is not sound");
    for (half, image) in [(program, "own.img"), (plain, "own.img"), (plain, "plain.img")] {
        assert!(Run::of(half, image, "shown.txt")?.replies == shown, "the answers to shown.txt differ");
    }
    for name in ["own.img", "plain.img", "mixed.txt", "shown.txt"] {
        fs::remove_file(name)?;
    }
    println!("answers agree");
    Ok(())
}

/// Waits until a child has ended, but lets it wait for its parent, since the kernel forgets its time with it.
fn busy_until_its_end(child: &Child) -> io::Result<u64> {
    let folder = format!("/proc/{}", child.id());
    while !fs::read_to_string(format!("{folder}/stat"))?.contains(") Z ") {
        thread::yield_now();
    }
    let times = fs::read_to_string(format!("{folder}/schedstat"))?;
    let busy = times.split(' ').next().and_then(|word| word.parse().ok());
    Ok(busy.expect("schedstat begins with a number"))
}
