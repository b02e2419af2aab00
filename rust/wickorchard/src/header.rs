//! The header of a packet, and the names of its fields.

use std::fmt::{self, Display, Formatter};
use std::net::Ipv4Addr;

use crate::limits::{ABSENT_PORT, HEADER_WORDS};
use crate::refusal::Refusal;

/// The five fields by which a packet is classified.
///
/// A port is `None` for a packet that has none: a later fragment, ICMP, or any other protocol without ports. Of all
/// ranges only the whole one, 0 to 65,535, matches it. Port 0 is a port like any other, and does not stand for none.
///
/// An address and a port are numbers here, and bytes in network order in a packet: make an address of the four bytes by
/// `Ipv4Addr::from([a, b, c, d])`, and a port of the two by `u16::from_be_bytes`.
#[derive(Clone, Copy, Debug, PartialEq, Eq, Hash)]
pub struct Header {
    pub source: Ipv4Addr,
    pub destination: Ipv4Addr,
    pub source_port: Option<u16>,
    pub destination_port: Option<u16>,
    pub protocol: u8,
}

impl Header {
    /// The header as the library's calls take it: a word for each field, in the order of the fields. A port that is
    /// `None` is [`ABSENT_PORT`].
    pub fn words(&self) -> [u32; HEADER_WORDS] {
        let port = |port: Option<u16>| port.map_or(ABSENT_PORT, u32::from);
        [
            self.source.into(),
            self.destination.into(),
            port(self.source_port),
            port(self.destination_port),
            self.protocol.into(),
        ]
    }
}

impl TryFrom<[u32; HEADER_WORDS]> for Header {
    type Error = Refusal;

    /// The header that has these words. It is refused as by the library's calls: with 3 and the lowest field that is
    /// too large, 2 and 3 being the ports and 4 the protocol.
    fn try_from(words: [u32; HEADER_WORDS]) -> Result<Header, Refusal> {
        let [source, destination, source_port, destination_port, protocol] = words;
        let too_large = |field| Refusal::HeaderWrong { field };
        let port = |field, word: u32| match word {
            ABSENT_PORT => Ok(None),
            _ => word.try_into().map(Some).map_err(|_| too_large(field)),
        };
        Ok(Header {
            source: source.into(),
            destination: destination.into(),
            source_port: port(2, source_port)?,
            destination_port: port(3, destination_port)?,
            protocol: protocol.try_into().map_err(|_| too_large(4))?,
        })
    }
}

/// A field of a header, which each rule has too. `field as usize` is its number, which is its place in the words of a
/// header.
#[derive(Clone, Copy, Debug, PartialEq, Eq, PartialOrd, Ord, Hash)]
pub enum Field {
    Source = 0,
    Destination = 1,
    SourcePort = 2,
    DestinationPort = 3,
    Protocol = 4,
}

impl Field {
    /// The fields by their numbers.
    pub const ALL: [Field; HEADER_WORDS] =
        [Field::Source, Field::Destination, Field::SourcePort, Field::DestinationPort, Field::Protocol];
}

impl Display for Field {
    fn fmt(&self, to: &mut Formatter) -> fmt::Result {
        to.pad(match self {
            Field::Source => "source",
            Field::Destination => "destination",
            Field::SourcePort => "source port",
            Field::DestinationPort => "destination port",
            Field::Protocol => "protocol",
        })
    }
}
