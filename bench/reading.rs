//! What an image of one subvolume says, in plain Rust. Of all rules it looks at checksums alone. It shares no code with
//! the program.
use crate::format::{NODE, PLACES, Piece, Sizes, has_checksum};
use crate::quota::{Quota, level};
use std::collections::{BTreeMap, BTreeSet};
use std::fs::File;
use std::io;
use std::os::unix::fs::FileExt;

/// A file.
pub struct Content {
    pub size: u64,
    pub made: u64,
    pub changed: u64,
    /// By position.
    pub pieces: BTreeMap<u64, Piece>,
}

pub struct Image {
    pub sizes: Sizes,
    pub generation: u64,
    pub quota: Quota,
    /// By inode.
    pub files: BTreeMap<u64, Content>,
    /// Where its nodes lie.
    pub slots: BTreeSet<u64>,
}

/// Why an image is not read: the disk, or the checksum of the node or superblock at an address.
pub enum Stop {
    Disk(io::Error),
    Checksum(u64),
}

impl From<io::Error> for Stop {
    fn from(error: io::Error) -> Stop {
        Stop::Disk(error)
    }
}

struct Superblock {
    generation: u64,
    root: u64,
    sizes: Sizes,
}

/// An item's key and body.
struct Item<'a> {
    objectid: u64,
    kind: u8,
    offset: u64,
    body: &'a [u8],
}

fn u32_at(bytes: &[u8], at: usize) -> usize {
    u32::from_le_bytes(bytes[at..at + 4].try_into().unwrap()) as usize
}

fn u64_at(bytes: &[u8], at: usize) -> u64 {
    u64::from_le_bytes(bytes[at..at + 8].try_into().unwrap())
}

/// The superblock of the greater generation.
fn superblock(file: &File) -> Result<Superblock, Stop> {
    let mut newest: Option<Superblock> = None;
    for place in PLACES {
        let mut bytes = vec![0; 4096];
        file.read_exact_at(&mut bytes, place)?;
        let generation = u64_at(&bytes, 72);
        if has_checksum(&bytes) && newest.as_ref().is_none_or(|it| it.generation < generation) {
            newest = Some(Superblock {
                generation,
                root: u64_at(&bytes, 80),
                sizes: Sizes {
                    slots: u64_at(&bytes, 2048),
                    sectors: u64_at(&bytes, 2056),
                },
            });
        }
    }
    newest.ok_or(Stop::Checksum(PLACES[0]))
}

struct Walk<'a> {
    file: &'a File,
    slots: BTreeSet<u64>,
}

impl Walk<'_> {
    /// Hands over each item under a node, in order.
    fn items(&mut self, address: u64, take: &mut impl FnMut(Item)) -> Result<(), Stop> {
        let mut node = vec![0; NODE];
        self.file.read_exact_at(&mut node, address)?;
        if !has_checksum(&node) {
            return Err(Stop::Checksum(address));
        }
        self.slots.insert(address);
        for i in 0..u32_at(&node, 96) {
            if node[100] > 0 {
                self.items(u64_at(&node, 101 + 33 * i + 17), take)?;
                continue;
            }
            let header = 101 + 25 * i;
            let begin = 101 + u32_at(&node, header + 17);
            take(Item {
                objectid: u64_at(&node, header),
                kind: node[header + 8],
                offset: u64_at(&node, header + 9),
                body: &node[begin..begin + u32_at(&node, header + 21)],
            });
        }
        Ok(())
    }
}

fn put_file_item(files: &mut BTreeMap<u64, Content>, item: Item) {
    let body = item.body;
    if item.kind == 1 {
        let content = Content {
            size: u64_at(body, 16),
            made: u64_at(body, 0),
            changed: u64_at(body, 8),
            pieces: BTreeMap::new(),
        };
        files.insert(item.objectid, content);
    } else {
        let content = files.get_mut(&item.objectid).expect("a piece's file");
        let piece = Piece {
            position: item.offset,
            len: u64_at(body, 45),
            extent: u64_at(body, 21),
            offset: u64_at(body, 37),
            stamp: u64_at(body, 0),
            extent_bytes: u64_at(body, 29),
        };
        content.pieces.insert(piece.position, piece);
    }
}

fn put_quota_item(quota: &mut Quota, item: Item) {
    let (one, other) = (item.objectid, item.offset);
    let number = |at| u64_at(item.body, at);
    match item.kind {
        240 => quota.on = true,
        242 => {
            let group = quota.groups.entry(other).or_default();
            group.changed = number(0);
            group.counts = [number(8), number(24)];
        }
        244 => {
            let limit = |flag, at| (number(0) & flag != 0).then(|| number(at));
            quota.groups.entry(other).or_default().limits = [limit(1, 8), limit(2, 16)];
        }
        // Each relation has two items; in one the member comes first.
        _ if level(one) < level(other) => {
            quota.groups.entry(one).or_default().parents.insert(other);
        }
        _ => {}
    }
}

/// Reads an image.
pub fn read_image(file: &File) -> Result<Image, Stop> {
    file.sync_all()?;
    let chosen = superblock(file)?;
    let slots = BTreeSet::new();
    let mut walk = Walk { file, slots };
    let mut roots = BTreeMap::new();
    walk.items(chosen.root, &mut |item| {
        roots.insert(item.objectid, u64_at(item.body, 176));
    })?;
    walk.items(roots[&2], &mut |_| {})?;
    let mut quota = Quota::default();
    if let Some(root) = roots.get(&8) {
        walk.items(*root, &mut |item| put_quota_item(&mut quota, item))?;
    }
    let mut files = BTreeMap::new();
    walk.items(roots[&5], &mut |item| put_file_item(&mut files, item))?;
    Ok(Image {
        sizes: chosen.sizes,
        generation: chosen.generation,
        quota,
        files,
        slots: walk.slots,
    })
}
