//! Writes an image of some pieces: `image PATH ordered|scattered|broken [PIECES FILES]`. Build it by `rustc -O`.
//!
//! Each piece is a sector of an extent of its own, and in each of the files they follow each other without holes. In
//! the form `ordered` the extents follow each other as the pieces do; in the form `scattered` they are shuffled.
//! Without the numbers there is one file, as full as `write` can leave an image. Nodes are as full as they can be, and
//! data sectors aren't written. The image is sound; in the form `broken` it is the ordered one, but for the checksum of
//! its last leaf of files.
use draws::shuffled;
use format::{DATA_BEGIN, EXTENT_RECORD, INODE, NODE, NODE_RECORD, OTHER_ITEMS, PIECE, Part, Piece, ROOM, SECTOR, Sizes};
use format::{commit, counter_item, inode_item, limit_item, piece_item, slot_at, status_item};
use std::fs::{File, OpenOptions};
use std::io;
use std::os::unix::fs::FileExt;

mod draws;
mod format;

/// The most slots and sectors that an image can have.
const SIZES: Sizes = Sizes {
    slots: 4032,
    sectors: 16777216,
};

/// The commit that wrote all of it.
const GENERATION: u64 = 2;

/// The first file.
const INO: u64 = 257;

/// Whether one more write behind each other finds its slots, in whose commit only four slots are held before: the tree
/// has two levels, and its nodes, full, have taken slots; 270 + 8·ceil(W/ROOM) + 40 is at most what is free, W being
/// what the items of the other trees take that the last commit has or one now would have.
const fn is_served(pieces: usize) -> bool {
    let nodes = (INODE + PIECE * pieces).div_ceil(ROOM) + 1;
    let weight = OTHER_ITEMS + NODE_RECORD * (nodes + 1) + EXTENT_RECORD * pieces;
    310 + 8 * weight.div_ceil(ROOM) + nodes + 4 <= SIZES.slots as usize
}

/// As many pieces as the need of slots lets writes make that follow each other.
const MOST_PIECES: u64 = {
    let mut pieces = 0;
    while is_served(pieces) {
        pieces += 1;
    }
    pieces as u64
};

/// The items of a file, whose pieces are these sectors of data.
fn file_items(ino: u64, sectors: &[u64]) -> Vec<Part> {
    let size = SECTOR * sectors.len() as u64;
    let mut items = vec![inode_item(ino, GENERATION, GENERATION, size, size)];
    for (i, sector) in sectors.iter().enumerate() {
        let piece = Piece {
            position: SECTOR * i as u64,
            len: SECTOR,
            extent: DATA_BEGIN + SECTOR * sector,
            offset: 0,
            stamp: GENERATION,
            extent_bytes: SECTOR,
        };
        items.push(piece_item(ino, &piece));
    }
    items
}

/// Changes the checksum of the last leaf of files. These leaves fill the first slots.
fn break_last_leaf(file: &File) -> io::Result<()> {
    let mut node = [0; NODE];
    let mut last = slot_at(0);
    for slot in 0..SIZES.slots {
        file.read_exact_at(&mut node, slot_at(slot))?;
        if node[100] > 0 || node[88] != 5 {
            break;
        }
        last = slot_at(slot);
    }
    file.read_exact_at(&mut node[..1], last)?;
    file.write_all_at(&[!node[0]], last)
}

fn main() -> io::Result<()> {
    let words: Vec<String> = std::env::args().skip(1).collect();
    let number = |word: &String| word.parse::<u64>().expect("a number");
    let (path, form, pieces, files) = match words.as_slice() {
        [path, form] => (path, form, MOST_PIECES, 1),
        [path, form, pieces, files] => (path, form, number(pieces), number(files)),
        _ => panic!("image PATH ordered|scattered|broken [PIECES FILES]"),
    };
    let sectors = match form.as_str() {
        "scattered" => shuffled(pieces),
        _ => (0..pieces).collect(),
    };
    let items: Vec<Part> = (INO..)
        .zip(sectors.chunks((pieces / files) as usize))
        .flat_map(|(ino, sectors)| file_items(ino, sectors))
        .collect();
    let file = OpenOptions::new()
        .read(true)
        .write(true)
        .create(true)
        .truncate(true)
        .open(path)?;
    file.set_len(DATA_BEGIN + SECTOR * SIZES.sectors)?;
    let slots: Vec<u64> = (0..SIZES.slots).map(slot_at).collect();
    let quota = |counted| {
        let counters = counter_item(5, GENERATION, [counted; 2]);
        vec![status_item(GENERATION), counters, limit_item(5, [None; 2])]
    };
    let nodes = commit(&file, SIZES, GENERATION, &slots, &items, SECTOR * pieces, quota)?;
    if form == "broken" {
        break_last_leaf(&file)?;
    }
    println!("{form}: {pieces} pieces, {nodes} nodes");
    Ok(())
}
