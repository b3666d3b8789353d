//! CRC-32C by slicing sixteen tables, over the same text as `crc32c` of crates/bench. Build it by `rustc -O`.
use std::time::Instant;

/// Bytes of the text.
const BYTES: usize = 64 * 1024 * 1024;

/// Bytes of a node, of which a checksum leaves out the first 32.
const NODE: usize = 16384;

/// `TABLES[k][b]` is the remainder of byte `b` and `k` bytes of 0 behind it.
static TABLES: [[u32; 256]; 16] = tables();

const fn tables() -> [[u32; 256]; 16] {
    let mut tables = [[0u32; 256]; 16];
    let mut byte = 0;
    while byte < 256 {
        let mut remainder = byte as u32;
        let mut bit = 0;
        while bit < 8 {
            remainder = (remainder >> 1) ^ if remainder & 1 == 1 { 0x82F6_3B78 } else { 0 };
            bit += 1;
        }
        tables[0][byte] = remainder;
        byte += 1;
    }
    let mut table = 1;
    while table < 16 {
        let mut byte = 0;
        while byte < 256 {
            let before = tables[table - 1][byte];
            tables[table][byte] = (before >> 8) ^ tables[0][(before & 0xFF) as usize];
            byte += 1;
        }
        table += 1;
    }
    tables
}

/// The look-ups that wait for the register come last, which is the fastest order.
pub fn crc32c(bytes: &[u8]) -> u32 {
    let mut register = 0xFFFF_FFFFu32;
    let mut b = bytes;
    while b.len() >= 16 {
        register = TABLES[0][b[15] as usize]
            ^ TABLES[1][b[14] as usize]
            ^ TABLES[2][b[13] as usize]
            ^ TABLES[3][b[12] as usize]
            ^ TABLES[4][b[11] as usize]
            ^ TABLES[5][b[10] as usize]
            ^ TABLES[6][b[9] as usize]
            ^ TABLES[7][b[8] as usize]
            ^ TABLES[8][b[7] as usize]
            ^ TABLES[9][b[6] as usize]
            ^ TABLES[10][b[5] as usize]
            ^ TABLES[11][b[4] as usize]
            ^ TABLES[12][b[3] as usize ^ (register >> 24 & 0xFF) as usize]
            ^ TABLES[13][b[2] as usize ^ (register >> 16 & 0xFF) as usize]
            ^ TABLES[14][b[1] as usize ^ (register >> 8 & 0xFF) as usize]
            ^ TABLES[15][b[0] as usize ^ (register & 0xFF) as usize];
        b = &b[16..];
    }
    for byte in b {
        register = TABLES[0][((register ^ *byte as u32) & 0xFF) as usize] ^ (register >> 8);
    }
    register ^ 0xFFFF_FFFF
}

fn by_nodes(text: &[u8]) -> u32 {
    text.chunks_exact(NODE)
        .fold(0, |all, node| all ^ crc32c(&node[32..]))
}

fn noise() -> Vec<u8> {
    let mut state = 1u32;
    (0..BYTES)
        .map(|_| {
            state = state.wrapping_mul(1664525).wrapping_add(1013904223);
            (state >> 24) as u8
        })
        .collect()
}

fn main() {
    let text = noise();
    for _ in 0..5 {
        for (name, sum_of) in [("whole", crc32c as fn(&[u8]) -> u32), ("nodes", by_nodes)] {
            let start = Instant::now();
            let sum = sum_of(&text);
            println!("{name} {sum:08x} {}", start.elapsed().as_micros());
        }
    }
}
