//! Headers: five words, and when they are refused.

use crate::answer::Refusal;
use crate::rules::LARGEST_PROTOCOL;

/// The port of a packet that has none, such as a later fragment. It is the largest value of a port field, one more than
/// the largest port.
pub const ABSENT_PORT: u32 = 65_536;

/// One header whose ports and protocol are within their limits. Addresses have no limit, and a port may be absent.
#[derive(Clone, Copy, Debug)]
pub struct Header {
    pub source: u32,
    pub destination: u32,
    pub source_port: u32,
    pub destination_port: u32,
    pub protocol: u32,
}

/// The header that the words are; otherwise refusal 3. The length is judged before any field is looked at,
/// and the fields by rising number.
pub fn judge_header(words: &[u32]) -> Result<Header, Refusal> {
    if words.len() != 5 {
        return Err(Refusal::HeaderLength);
    }
    let header = Header {
        source: words[0],
        destination: words[1],
        source_port: words[2],
        destination_port: words[3],
        protocol: words[4],
    };
    if header.source_port > ABSENT_PORT {
        return Err(Refusal::HeaderField { field: 2 });
    }
    if header.destination_port > ABSENT_PORT {
        return Err(Refusal::HeaderField { field: 3 });
    }
    if header.protocol > LARGEST_PROTOCOL {
        return Err(Refusal::HeaderField { field: 4 });
    }
    Ok(header)
}
