//! A book of references in plain Rust, a `BTreeMap` of small vectors: loaded from items, edited and written, as
//! `refs` of crates/bench does. Build it by `rustc -O`.
use std::collections::BTreeMap;
use std::time::Instant;

#[path = "draws.rs"]
mod draws;
use draws::Draws;

const EXTENTS: u64 = 60000;
const EDITS: usize = 1000000;
const FIRST: u64 = 67174400;

/// In the order of their items' keys.
#[derive(Clone, Copy, PartialEq, Eq, PartialOrd, Ord)]
enum Reference {
    KeyedBlock { root: u64 },
    KeyedData { root: u64, ino: u64, offset: u64 },
    SharedBlock { parent: u64 },
    SharedData { parent: u64 },
}

#[derive(Clone, Copy)]
struct Counted {
    reference: Reference,
    count: u32,
}

/// A vector whose first `N` values lie in itself.
enum Small<T, const N: usize> {
    Inside([T; N], usize),
    Outside(Vec<T>),
}

impl<T: Copy, const N: usize> Small<T, N> {
    fn from_slice(filler: T, values: &[T]) -> Self {
        if values.len() > N {
            return Small::Outside(values.to_vec());
        }
        let mut inside = [filler; N];
        inside[..values.len()].copy_from_slice(values);
        Small::Inside(inside, values.len())
    }

    fn as_slice(&self) -> &[T] {
        match self {
            Small::Inside(values, len) => &values[..*len],
            Small::Outside(values) => values,
        }
    }

    fn as_mut_slice(&mut self) -> &mut [T] {
        match self {
            Small::Inside(values, len) => &mut values[..*len],
            Small::Outside(values) => values,
        }
    }

    fn insert(&mut self, index: usize, value: T) {
        match self {
            Small::Inside(values, len) if *len < N => {
                values.copy_within(index..*len, index + 1);
                values[index] = value;
                *len += 1;
            }
            Small::Inside(values, len) => {
                let mut all = values[..*len].to_vec();
                all.insert(index, value);
                *self = Small::Outside(all);
            }
            Small::Outside(values) => values.insert(index, value),
        }
    }

    fn remove(&mut self, index: usize) {
        match self {
            Small::Inside(values, len) => {
                values.copy_within(index + 1..*len, index);
                *len -= 1;
            }
            Small::Outside(values) => {
                values.remove(index);
            }
        }
    }
}

/// What is known of an extent or a node: its bytes, a node's level, the generation.
#[derive(Clone, Copy)]
struct What {
    bytes: u64,
    level: Option<u8>,
    generation: u64,
}

struct Kept {
    what: What,
    full: bool,
    references: Small<Counted, 2>,
}

struct Item {
    objectid: u64,
    kind: u8,
    offset: u64,
    body: Small<u8, 56>,
}

type Book = BTreeMap<u64, Kept>;

// ---- items

fn number(bytes: &[u8], at: usize) -> u64 {
    u64::from_le_bytes(bytes[at..at + 8].try_into().unwrap())
}

fn items_of(book: &Book) -> Vec<Item> {
    let mut items = Vec::new();
    for (at, kept) in book {
        let references = kept.references.as_slice();
        let refs: u64 = references.iter().map(|entry| entry.count as u64).sum();
        let mut body = [0; 24];
        body[..8].copy_from_slice(&refs.to_le_bytes());
        body[8..16].copy_from_slice(&kept.what.generation.to_le_bytes());
        let (kind, offset, flags) = match kept.what.level {
            None => (168, kept.what.bytes, 1u64),
            Some(level) => (169, level as u64, if kept.full { 258 } else { 2 }),
        };
        body[16..].copy_from_slice(&flags.to_le_bytes());
        items.push(item_at(*at, kind, offset, &body));
        let mut behind = 0;
        for entry in references {
            items.push(match entry.reference {
                Reference::KeyedBlock { root } => item_at(*at, 176, root, &[]),
                Reference::SharedBlock { parent } => item_at(*at, 182, parent, &[]),
                Reference::SharedData { parent } => {
                    item_at(*at, 184, parent, &entry.count.to_le_bytes())
                }
                Reference::KeyedData { root, ino, offset } => {
                    let mut body = [0; 28];
                    body[..8].copy_from_slice(&root.to_le_bytes());
                    body[8..16].copy_from_slice(&ino.to_le_bytes());
                    body[16..24].copy_from_slice(&offset.to_le_bytes());
                    body[24..].copy_from_slice(&entry.count.to_le_bytes());
                    behind += 1;
                    item_at(*at, 178, behind - 1, &body)
                }
            });
        }
    }
    items
}

fn item_at(objectid: u64, kind: u8, offset: u64, body: &[u8]) -> Item {
    let body = Small::from_slice(0, body);
    Item { objectid, kind, offset, body }
}

/// The book that items tell: a record with the sum of the counts, and each reference once, with a count.
fn read_book(items: &[Item]) -> Option<Book> {
    let mut book = Book::new();
    let mut items = items;
    while let Some(record) = items.first() {
        let at = record.objectid;
        let body = record.body.as_slice();
        if body.len() != 24 || number(body, 8) > 2 {
            return None;
        }
        let (bytes, level, full) = match (record.kind, number(body, 16)) {
            (168, 1) => (record.offset, None, false),
            (169, 2) => (16384, Some(u8::try_from(record.offset).ok()?), false),
            (169, 258) => (16384, Some(u8::try_from(record.offset).ok()?), true),
            _ => return None,
        };
        let mut left = number(body, 0);
        let generation = number(body, 8);
        let filler = Counted { reference: Reference::KeyedBlock { root: 0 }, count: 0 };
        let mut references: Small<Counted, 2> = Small::from_slice(filler, &[]);
        items = &items[1..];
        while let Some(item) = items.first().filter(|item| item.objectid == at) {
            let entry = reference_of_item(item)?;
            let place = references
                .as_slice()
                .binary_search_by(|other| other.reference.cmp(&entry.reference));
            left = left.checked_sub(entry.count as u64)?;
            references.insert(place.err()?, entry);
            items = &items[1..];
        }
        if left != 0 || references.as_slice().is_empty() {
            return None;
        }
        let what = What { bytes, level, generation };
        if book.insert(at, Kept { what, full, references }).is_some() {
            return None;
        }
    }
    Some(book)
}

fn reference_of_item(item: &Item) -> Option<Counted> {
    let body = item.body.as_slice();
    let (reference, count) = match (item.kind, body.len()) {
        (176, 0) => (Reference::KeyedBlock { root: item.offset }, 1),
        (182, 0) => (Reference::SharedBlock { parent: item.offset }, 1),
        (184, 4) => (
            Reference::SharedData { parent: item.offset },
            u32::from_le_bytes(body.try_into().unwrap()),
        ),
        (178, 28) => (
            Reference::KeyedData {
                root: number(body, 0),
                ino: number(body, 8),
                offset: number(body, 16),
            },
            u32::from_le_bytes(body[24..].try_into().unwrap()),
        ),
        _ => return None,
    };
    (count > 0).then_some(Counted { reference, count })
}

// ---- edits

fn count(book: &Book, at: u64, reference: &Reference) -> u32 {
    let Some(kept) = book.get(&at) else {
        return 0;
    };
    let entries = kept.references.as_slice();
    match entries.binary_search_by(|entry| entry.reference.cmp(reference)) {
        Ok(index) => entries[index].count,
        Err(_) => 0,
    }
}

fn add(book: &mut Book, at: u64, what: What, reference: Reference) {
    let first = Counted { reference, count: 1 };
    let Some(kept) = book.get_mut(&at) else {
        let references = Small::from_slice(first, &[first]);
        book.insert(at, Kept { what, full: false, references });
        return;
    };
    let entries = kept.references.as_mut_slice();
    match entries.binary_search_by(|entry| entry.reference.cmp(&reference)) {
        Ok(index) => entries[index].count += 1,
        Err(index) => kept.references.insert(index, first),
    }
}

fn drop_one(book: &mut Book, at: u64, reference: &Reference) {
    let kept = book.get_mut(&at).unwrap();
    let entries = kept.references.as_mut_slice();
    let index = entries
        .binary_search_by(|entry| entry.reference.cmp(reference))
        .unwrap();
    if entries[index].count > 1 {
        entries[index].count -= 1;
        return;
    }
    kept.references.remove(index);
    if kept.references.as_slice().is_empty() {
        book.remove(&at);
    }
}

fn reference_of(extent: u64, which: u64) -> Reference {
    let ino = 257 + extent % 16;
    let offset = 4096 * extent;
    match which {
        0 => Reference::KeyedData { root: 5, ino, offset },
        1 => Reference::KeyedData { root: 256, ino, offset },
        2 => Reference::KeyedData { root: 5, ino: 300, offset: 0 },
        _ => Reference::SharedData { parent: 1048576 + 16384 * (extent % 4032) },
    }
}

fn edit_one(book: &mut Book, extent: u64, which: u64, is_drop: bool) -> u32 {
    let at = FIRST + 8192 * extent;
    let reference = reference_of(extent, which);
    let before = count(book, at, &reference);
    if before > 0 && (is_drop || before == u32::MAX) {
        drop_one(book, at, &reference);
    } else {
        let what = What { bytes: 8192, level: None, generation: 2 };
        add(book, at, what, reference);
    }
    before
}

fn edit_book(book: &mut Book) -> u64 {
    let mut draws = Draws(1);
    let mut seen = 0u64;
    for _ in 0..EDITS {
        let extent = draws.below(EXTENTS);
        let which = draws.below(4);
        let is_drop = draws.below(4) > 0;
        seen = seen.wrapping_add(edit_one(book, extent, which, is_drop) as u64);
    }
    seen
}

// ---- the runs

fn digest(items: &[Item]) -> u64 {
    let mix = |sum: u64, value: u64| (sum ^ value).wrapping_mul(1099511628211);
    let mut sum = 0;
    for item in items {
        sum = mix(mix(mix(sum, item.objectid), item.kind as u64), item.offset);
        for byte in item.body.as_slice() {
            sum = mix(sum, *byte as u64);
        }
    }
    sum
}

fn main() {
    let mut book = Book::new();
    for extent in 0..EXTENTS {
        edit_one(&mut book, extent, 0, false);
        if extent % 3 == 0 {
            edit_one(&mut book, extent, 1, false);
        }
    }
    let items = items_of(&book);
    for _ in 0..5 {
        let start = Instant::now();
        let mut book = read_book(&items).unwrap();
        let took = start.elapsed().as_micros();
        println!("loaded {} {took}", digest(&items_of(&book)));
        let start = Instant::now();
        let seen = edit_book(&mut book);
        println!("edited {seen} {}", start.elapsed().as_micros());
        let start = Instant::now();
        let written = items_of(&book);
        let took = start.elapsed().as_micros();
        println!("written {} {took}", digest(&written));
    }
}
