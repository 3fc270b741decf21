//! A trace as the trace program takes it: a part number and records.

use std::io::{self, Read};

use reference::part::{Part, PARTS};

/// None where standard input holds no trace of a known part.
pub fn read() -> Option<(Part, Vec<u32>)> {
    let mut input = Vec::new();
    io::stdin().read_to_end(&mut input).ok()?;
    let part = PARTS.into_iter().find(|part| input.starts_with(&part.number.to_be_bytes()))?;
    let bytes = input[2..].chunks_exact(4);
    Some((part, bytes.map(|record| u32::from_be_bytes(record.try_into().expect("four bytes"))).collect()))
}
