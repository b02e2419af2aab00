//! Says which rule of a rules or acl file decides about a packet, the lowest that matches, and its action. A packet
//! without ports has 65536 for each.
//!
//!     first RULES SOURCE DESTINATION SOURCE_PORT DESTINATION_PORT PROTOCOL

use std::error::Error;
use std::net::Ipv4Addr;
use std::{env, fs};

use wickorchard::{Header, Policy};

fn main() -> Result<(), Box<dyn Error>> {
    let given: Vec<String> = env::args().skip(1).collect();
    let [rules, source, destination, source_port, destination_port, protocol] = &given[..] else {
        return Err("give a rules or acl file, two addresses, two ports and a protocol".into());
    };
    let policy = Policy::read(&fs::read(rules)?)?;
    let header = Header::try_from([
        source.parse::<Ipv4Addr>()?.into(),
        destination.parse::<Ipv4Addr>()?.into(),
        source_port.parse()?,
        destination_port.parse()?,
        protocol.parse()?,
    ])?;
    match policy.first(&header) {
        Some(found) => println!("rule {}, action {}", found.rule, found.action),
        None => println!("no rule"),
    }
    Ok(())
}
