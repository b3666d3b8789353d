//! The checksum alone, over the same leaves as `nodes` of crates/bench writes and reads. Build it by `rustc -O`.
use checksum::crc32c;
use std::time::Instant;

#[allow(dead_code)]
#[path = "crc32c.rs"]
mod checksum;

/// Bytes of a node, of which its checksum leaves out the first 32.
const NODE: usize = 16384;

/// How many leaves there are.
const LEAVES: usize = 4032;

/// A leaf at 1048576 of 200 items whose bodies have 53 bytes.
fn leaf() -> Vec<u8> {
    let mut node = vec![0; NODE];
    node[48..56].copy_from_slice(&1048576u64.to_le_bytes());
    node[80..88].copy_from_slice(&2u64.to_le_bytes());
    node[88..96].copy_from_slice(&5u64.to_le_bytes());
    node[96..100].copy_from_slice(&200u32.to_le_bytes());
    for item in 0..200 {
        let body = NODE - 53 * (item + 1);
        node[body..body + 53].fill(7);
        let header = &mut node[101 + 25 * item..][..25];
        header[..8].copy_from_slice(&257u64.to_le_bytes());
        header[8] = 108;
        header[9..17].copy_from_slice(&(4096 * item as u64).to_le_bytes());
        header[17..21].copy_from_slice(&((body - 101) as u32).to_le_bytes());
        header[21..].copy_from_slice(&53u32.to_le_bytes());
    }
    node
}

fn main() {
    let image = leaf().repeat(LEAVES);
    for _ in 0..5 {
        for name in ["written", "read"] {
            let start = Instant::now();
            let sum: u64 = image
                .chunks_exact(NODE)
                .map(|node| crc32c(&node[32..]) as u64)
                .sum();
            println!("{name} {sum} {}", start.elapsed().as_micros());
        }
    }
}
