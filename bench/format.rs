//! Nodes, items and superblocks of an image with one subvolume, in plain Rust. It shares no code with the program.
#![allow(dead_code)]
use checksum::crc32c;
use std::collections::BTreeMap;
use std::fs::File;
use std::io;
use std::os::unix::fs::FileExt;

#[allow(dead_code)]
#[path = "crc32c.rs"]
mod checksum;

/// Bytes of a node, and how many of them items and pointers may take.
pub const NODE: usize = 16384;
pub const ROOM: usize = NODE - 101;

/// Where slots and data begin.
pub const SLOTS_BEGIN: u64 = 1048576;
pub const DATA_BEGIN: u64 = 67174400;

/// Where the superblocks are.
pub const PLACES: [u64; 2] = [65536, 67108864];

/// Bytes of a sector.
pub const SECTOR: u64 = 4096;

/// What the items take that aren't those of files: of the root and quota trees.
pub const OTHER_ITEMS: usize = 3 * (25 + 439) + (25 + 32) + 2 * (25 + 40);

/// What a file takes without its pieces, and what a piece takes.
pub const INODE: usize = 25 + 160;
pub const PIECE: usize = 25 + 53;

/// What the extent tree's items take for a node, and for an extent that one piece names.
pub const NODE_RECORD: usize = 25 + 24 + 25;
pub const EXTENT_RECORD: usize = 25 + 24 + 25 + 28;

/// Slots and sectors of an image.
#[derive(Clone, Copy)]
pub struct Sizes {
    pub slots: u64,
    pub sectors: u64,
}

#[derive(Clone, Copy)]
pub struct Key {
    objectid: u64,
    kind: u8,
    offset: u64,
}

/// A key, and a body under it or a pointer's place and generation.
pub struct Part {
    key: Key,
    body: Vec<u8>,
}

/// Nodes of one generation, each with its address; they go into these slots, in their order.
pub struct Nodes<'a> {
    pub generation: u64,
    pub slots: &'a [u64],
    pub written: Vec<(u64, Vec<u8>)>,
}

/// A node that was written.
#[derive(Clone, Copy)]
pub struct Root {
    pub address: u64,
    pub level: u8,
}

/// Whether a node has its checksum.
pub fn has_checksum(node: &[u8]) -> bool {
    crc32c(&node[32..]).to_le_bytes() == node[..4]
}

/// The address of a slot.
pub fn slot_at(slot: u64) -> u64 {
    SLOTS_BEGIN + NODE as u64 * slot
}

fn put(bytes: &mut [u8], at: usize, part: &[u8]) {
    bytes[at..at + part.len()].copy_from_slice(part);
}

fn put_key(bytes: &mut [u8], at: usize, key: Key) {
    put(bytes, at, &key.objectid.to_le_bytes());
    bytes[at + 8] = key.kind;
    put(bytes, at + 9, &key.offset.to_le_bytes());
}

/// A body of so many bytes, of numbers at places.
fn body(len: usize, numbers: &[(usize, u64)]) -> Vec<u8> {
    let mut bytes = vec![0; len];
    for (at, number) in numbers {
        put(&mut bytes, *at, &number.to_le_bytes());
    }
    bytes
}

impl Nodes<'_> {
    fn put_node(&mut self, owner: u64, level: u8, parts: &[Part]) -> Root {
        let address = self.slots[self.written.len()];
        let mut node = vec![0; NODE];
        put(&mut node, 48, &address.to_le_bytes());
        put(&mut node, 80, &self.generation.to_le_bytes());
        put(&mut node, 88, &owner.to_le_bytes());
        put(&mut node, 96, &(parts.len() as u32).to_le_bytes());
        node[100] = level;
        let mut end = NODE;
        for (i, part) in parts.iter().enumerate() {
            if level == 0 {
                let header = 101 + 25 * i;
                end -= part.body.len();
                put(&mut node, end, &part.body);
                put_key(&mut node, header, part.key);
                put(&mut node, header + 17, &(end as u32 - 101).to_le_bytes());
                put(&mut node, header + 21, &(part.body.len() as u32).to_le_bytes());
            } else {
                let pointer = 101 + 33 * i;
                put_key(&mut node, pointer, part.key);
                put(&mut node, pointer + 17, &part.body);
            }
        }
        let sum = crc32c(&node[32..]);
        put(&mut node, 0, &sum.to_le_bytes());
        self.written.push((address, node));
        Root { address, level }
    }

    /// Writes the nodes of one level, each as full as it can be while the rest fills a quarter, and those above.
    pub fn put_tree(&mut self, owner: u64, level: u8, parts: &[Part]) -> Root {
        let weight = |part: &Part| if level == 0 { 25 + part.body.len() } else { 33 };
        let mut left: usize = parts.iter().map(weight).sum();
        if left <= ROOM {
            return self.put_node(owner, level, parts);
        }
        let mut above = Vec::new();
        let mut begin = 0;
        while begin < parts.len() {
            let mut taken = 0;
            let mut end = begin;
            for part in &parts[begin..] {
                let more = taken + weight(part);
                if more > ROOM || left > ROOM && 4 * more + ROOM > 4 * left {
                    break;
                }
                taken = more;
                end += 1;
            }
            let node = self.put_node(owner, level, &parts[begin..end]);
            above.push(Part {
                key: parts[begin].key,
                body: body(16, &[(0, node.address), (8, self.generation)]),
            });
            begin = end;
            left -= taken;
        }
        self.put_tree(owner, level + 1, &above)
    }
}

fn item(objectid: u64, kind: u8, offset: u64, body: Vec<u8>) -> Part {
    let key = Key {
        objectid,
        kind,
        offset,
    };
    Part { key, body }
}

/// The item of a file, of this size, whose pieces take so many bytes.
pub fn inode_item(ino: u64, made: u64, changed: u64, size: u64, bytes: u64) -> Part {
    let numbers = [(0, made), (8, changed), (16, size), (24, bytes)];
    item(ino, 1, 0, body(160, &numbers))
}

/// A piece of an extent.
#[derive(Clone, Copy)]
pub struct Piece {
    pub position: u64,
    pub len: u64,
    pub extent: u64,
    pub offset: u64,
    pub stamp: u64,
    pub extent_bytes: u64,
}

impl Piece {
    /// Where it ends in its file.
    pub fn end(&self) -> u64 {
        self.position + self.len
    }
}

/// The item of a piece.
pub fn piece_item(ino: u64, piece: &Piece) -> Part {
    let numbers = [
        (0, piece.stamp),
        (8, piece.extent_bytes),
        (21, piece.extent),
        (29, piece.extent_bytes),
        (37, piece.offset),
        (45, piece.len),
    ];
    let mut bytes = body(53, &numbers);
    bytes[20] = 1;
    item(ino, 108, piece.position, bytes)
}

/// The item that says that quota is on, as of a generation.
pub fn status_item(generation: u64) -> Part {
    item(0, 240, 0, body(32, &[(0, 1), (8, generation), (16, 1)]))
}

/// A group's counters, which a generation changed last: referenced bytes and exclusive ones.
pub fn counter_item(group: u64, changed: u64, [rfer, excl]: [u64; 2]) -> Part {
    let numbers = [(0, changed), (8, rfer), (16, rfer), (24, excl), (32, excl)];
    item(0, 242, group, body(40, &numbers))
}

/// A group's limits, on referenced bytes and on exclusive ones.
pub fn limit_item(group: u64, [rfer, excl]: [Option<u64>; 2]) -> Part {
    let flags = u64::from(rfer.is_some()) + 2 * u64::from(excl.is_some());
    let numbers = [(0, flags), (8, rfer.unwrap_or(0)), (16, excl.unwrap_or(0))];
    item(0, 244, group, body(40, &numbers))
}

/// One of the two items of a relation between groups.
pub fn relation_item(one: u64, other: u64) -> Part {
    item(one, 246, other, Vec::new())
}

fn u64_at(bytes: &[u8], at: usize) -> u64 {
    u64::from_le_bytes(bytes[at..at + 8].try_into().unwrap())
}

/// A record of an extent or a node.
fn record(address: u64, kind: u8, offset: u64, refs: u64, generation: u64, flags: u64) -> Part {
    let numbers = [(0, refs), (8, generation), (16, flags)];
    item(address, kind, offset, body(24, &numbers))
}

/// How often each file names an extent, and where the extent would begin in it; its length and its generation.
struct Named {
    bytes: u64,
    generation: u64,
    counts: BTreeMap<(u64, u64), u32>,
}

/// The extents that these items of files name, by address.
fn named(items: &[Part]) -> BTreeMap<u64, Named> {
    let mut extents = BTreeMap::new();
    for part in items.iter().filter(|part| part.key.kind == 108) {
        let number = |at| u64_at(&part.body, at);
        let extent = extents.entry(number(21)).or_insert(Named {
            bytes: number(29),
            generation: number(0),
            counts: BTreeMap::new(),
        });
        let begin = part.key.offset.wrapping_sub(number(37));
        *extent.counts.entry((part.key.objectid, begin)).or_insert(0) += 1;
    }
    extents
}

/// The extent tree's items for the nodes of the subvolume's tree, and for the extents that its items name.
fn records(nodes: &Nodes, items: &[Part]) -> Vec<Part> {
    let mut levels: Vec<(u64, u8)> = nodes.written.iter().map(|(at, node)| (*at, node[100])).collect();
    levels.sort_unstable();
    let mut parts = Vec::new();
    for (address, level) in levels {
        parts.push(record(address, 169, u64::from(level), 1, nodes.generation, 2));
        parts.push(item(address, 176, 5, Vec::new()));
    }
    for (address, extent) in named(items) {
        let refs = extent.counts.values().map(|count| u64::from(*count)).sum();
        parts.push(record(address, 168, extent.bytes, refs, extent.generation, 1));
        for (number, ((ino, begin), count)) in extent.counts.into_iter().enumerate() {
            let mut bytes = body(28, &[(0, 5), (8, ino), (16, begin)]);
            put(&mut bytes, 24, &count.to_le_bytes());
            parts.push(item(address, 178, number as u64, bytes));
        }
    }
    parts
}

fn root_item(tree: u64, root: Root, generation: u64) -> Part {
    let mut root_body = body(439, &[(160, generation), (176, root.address), (216, 1)]);
    root_body[238] = root.level;
    item(tree, 132, 0, root_body)
}

fn superblock(place: u64, root: u64, generation: u64, sizes: Sizes) -> Vec<u8> {
    let mut bytes = vec![0; 4096];
    put(&mut bytes, 48, &place.to_le_bytes());
    put(&mut bytes, 64, b"QGRPIMG1");
    put(&mut bytes, 72, &generation.to_le_bytes());
    put(&mut bytes, 80, &root.to_le_bytes());
    put(&mut bytes, 112, &(DATA_BEGIN + SECTOR * sizes.sectors).to_le_bytes());
    put(&mut bytes, 144, &(SECTOR as u32).to_le_bytes());
    put(&mut bytes, 148, &(NODE as u32).to_le_bytes());
    put(&mut bytes, 2048, &sizes.slots.to_le_bytes());
    put(&mut bytes, 2056, &sizes.sectors.to_le_bytes());
    bytes[2064] = 1;
    let sum = crc32c(&bytes[32..]);
    put(&mut bytes, 0, &sum.to_le_bytes());
    bytes
}

/// Writes a commit of these items of files, whose extents take so many bytes, into these slots: nodes, a sync, and the
/// two superblocks with a sync each. It gives how many nodes there are. `quota` gives the quota tree's items, by what
/// the subvolume takes in bytes, and none where quota is off.
pub fn commit(
    file: &File,
    sizes: Sizes,
    generation: u64,
    slots: &[u64],
    items: &[Part],
    extent_bytes: u64,
    quota: impl FnOnce(u64) -> Vec<Part>,
) -> io::Result<usize> {
    let mut nodes = Nodes {
        generation,
        slots,
        written: Vec::new(),
    };
    let files = nodes.put_tree(5, 0, items);
    let counted = (NODE * nodes.written.len()) as u64 + extent_bytes;
    let records = records(&nodes, items);
    let extents = nodes.put_tree(2, 0, &records);
    let mut roots = vec![(2, extents), (5, files)];
    let quota_items = quota(counted);
    if !quota_items.is_empty() {
        roots.push((8, nodes.put_tree(8, 0, &quota_items)));
    }
    let roots: Vec<Part> = roots.into_iter().map(|(tree, root)| root_item(tree, root, generation)).collect();
    let root = nodes.put_tree(1, 0, &roots);
    for (address, node) in &nodes.written {
        file.write_all_at(node, *address)?;
    }
    file.sync_all()?;
    for place in PLACES {
        file.write_all_at(&superblock(place, root.address, generation, sizes), place)?;
        file.sync_all()?;
    }
    Ok(nodes.written.len())
}
