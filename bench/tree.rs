//! A map from keys to bodies in plain Rust, a `BTreeMap`, edited and read as `tree` of crates/bench does with a tree
//! of nodes. Build it by `rustc -O`.
use std::collections::BTreeMap;
use std::time::Instant;

#[path = "draws.rs"]
mod draws;
use draws::shuffled;

type Map = BTreeMap<[u8; 17], Vec<u8>>;

/// The key of a piece of a file, by which keys are ordered as their bytes.
fn key_of(number: u64) -> [u8; 17] {
    let mut key = [0; 17];
    key[..8].copy_from_slice(&257u64.to_be_bytes());
    key[8] = 108;
    key[9..].copy_from_slice(&(4096 * number).to_be_bytes());
    key
}

fn body_of(number: u64, version: u64) -> [u8; 53] {
    let mut body = [7; 53];
    body[..8].copy_from_slice(&number.wrapping_mul(version).to_le_bytes());
    body
}

fn first_of(body: &[u8]) -> u64 {
    u64::from_le_bytes(body[..8].try_into().unwrap())
}

fn mix(sum: u64, value: u64) -> u64 {
    (sum ^ value).wrapping_mul(1099511628211)
}

fn digest(map: &Map) -> u64 {
    let mut sum = 0;
    for (key, body) in map {
        sum = mix(sum, u64::from_be_bytes(key[9..].try_into().unwrap()));
        sum = mix(sum, first_of(body));
    }
    sum
}

// ---- what is timed

#[derive(Clone, Copy)]
enum Work {
    Insert,
    Find,
    Replace(u64),
    Remove,
}

/// Does something with each of the numbers. What is found is summed.
fn work_all(map: &mut Map, numbers: &[u64], work: Work) -> u64 {
    let mut sum = 0;
    for number in numbers {
        let key = key_of(*number);
        match work {
            Work::Insert => assert!(map.insert(key, body_of(*number, 3).to_vec()).is_none()),
            Work::Find => sum = mix(sum, first_of(&map[&key])),
            Work::Replace(version) => {
                *map.get_mut(&key).unwrap() = body_of(*number, version).to_vec();
            }
            Work::Remove => assert!(map.remove(&key).is_some()),
        }
    }
    sum
}

/// Does one after the other. Of each it prints the name, what was found and what the map holds then, and the
/// microseconds.
fn time_each(map: &mut Map, order: &str, numbers: &[u64], works: &[(&str, Work)]) {
    for (what, work) in works {
        let start = Instant::now();
        let found = work_all(map, numbers, *work);
        let took = start.elapsed().as_micros();
        println!("{order}/{}/{what} {} {took}", numbers.len(), mix(found, digest(map)));
    }
}

/// The other half commits between these lists.
fn measure(order: &str, numbers: &[u64]) {
    let mut map = Map::new();
    time_each(&mut map, order, numbers, &[
        ("inserted", Work::Insert),
        ("found", Work::Find),
        ("replaced", Work::Replace(5)),
        ("removed", Work::Remove),
    ]);
    work_all(&mut map, numbers, Work::Insert);
    time_each(&mut map, order, numbers, &[
        ("found-written", Work::Find),
        ("found-again", Work::Find),
        ("replaced-written", Work::Replace(7)),
    ]);
    time_each(&mut map, order, numbers, &[("removed-written", Work::Remove)]);
}

fn main() {
    let sizes = match std::env::args().nth(1) {
        None => vec![(20000, 5), (200000, 1)],
        Some(count) => vec![(count.parse().unwrap(), 1)],
    };
    for (count, rounds) in sizes {
        for _ in 0..rounds {
            measure("ascending", &(0..count).collect::<Vec<u64>>());
            measure("drawn", &shuffled(count));
        }
    }
}
