//! The scope's worked policy: its rules, its tree, and headers to its destination.

// Each test takes what it needs of it.
#![allow(dead_code)]

pub const ADDRESS_10_1_2_3: u32 = 0x0A01_0203;
/// What a number of the output is before the call.
pub const AS_FOUND: u32 = 0xAAAA_AAAA;

pub const NODES: [[u32; 3]; 5] = [[0, 167_772_159, 2], [5, 0, 1], [0, 184_549_375, 4], [5, 1, 3], [5, 4, 1]];
pub const POOL: [u32; 5] = [2, 0, 1, 2, 2];

const DESTINATION: u32 = 0xC0A8_0001;
const SOURCE_PORT: u32 = 40_000;
const RULES: [[u32; 11]; 3] = [
    [0x0A00_0000, 8, 0, 0, 0, 65_535, 80, 80, 6, 6, 0],
    [0x0A01_0000, 16, 0, 0, 0, 65_535, 0, 1_023, 6, 6, 0],
    [0, 0, 0, 0, 0, 65_535, 0, 65_535, 0, 255, 0],
];

pub fn policy() -> Vec<u32> {
    RULES.concat()
}

pub fn header(source: u32, destination_port: u32, protocol: u32) -> [u32; 5] {
    [source, DESTINATION, SOURCE_PORT, destination_port, protocol]
}
