//! Headers to search for: inside a rule, at its corners, or anywhere.

use oracle::header::ABSENT_PORT;

use crate::draws::Draws;
use crate::lists::{Rule, LARGEST_END};

/// Source, destination, source port, destination port and protocol.
pub type Header = [u32; 5];

/// The two fields that are ports.
pub const PORTS: [usize; 2] = [2, 3];

/// The largest value of each field of a good header. That of a port is the absent one.
pub const LARGEST: Header = [u32::MAX, u32::MAX, ABSENT_PORT, ABSENT_PORT, 255];

/// The first header of the worked policy, which its three rules match.
pub const WORKED: Header = [0x0A01_0203, 0xC0A8_0001, 40_000, 80, 6];

/// A header anywhere within the limits.
pub fn anywhere(draws: &mut Draws) -> Header {
    LARGEST.map(|largest| value(draws, 0, largest))
}

/// A value from low to high. Where an absent port is the highest, it is drawn once in eight.
fn value(draws: &mut Draws, low: u32, high: u32) -> u32 {
    if high == ABSENT_PORT && draws.once_in(8) {
        ABSENT_PORT
    } else {
        draws.between(low, high)
    }
}

/// A header that the good rule matches.
pub fn inside(rule: &Rule, draws: &mut Draws) -> Header {
    std::array::from_fn(|field| {
        let (low, high) = range_of(rule, field);
        value(draws, low, high)
    })
}

/// The header with this value in this field.
pub fn with(mut header: Header, field: usize, value: u32) -> Header {
    header[field] = value;
    header
}

/// The ends of the good rule in this field, and the values just outside of them, kept within the limits.
pub fn corners(rule: &Rule, field: usize) -> [u32; 4] {
    let (low, high) = range_of(rule, field);
    [low, high, low.saturating_sub(1), high.saturating_add(1).min(LARGEST[field])]
}

/// The lowest and the highest value that the good rule matches in this field. The whole range of a field goes up to its
/// largest value, and so that of a port to the absent one.
pub fn range_of(rule: &Rule, field: usize) -> (u32, u32) {
    match field {
        0 | 1 => {
            let (address, length) = (rule[2 * field], rule[2 * field + 1]);
            let count = 2_u64.pow(32 - length);
            (address, (u64::from(address) + count - 1) as u32)
        }
        _ => match (rule[2 * field], rule[2 * field + 1]) {
            (0, high) if high == LARGEST_END[field] => (0, LARGEST[field]),
            ends => ends,
        },
    }
}
