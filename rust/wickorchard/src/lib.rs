//! Wickorchard for Rust programs: packets are classified by a written list of rules, or by a compiled tree that agrees
//! with the list on every header.
//!
//! [`Policy`] reads both files and answers; a tree serves only where the check accepts it, or where it is compiled
//! from the list. [`calls`] has each call of the library by itself, on lent slices of words, whose numbers [`limits`]
//! has. No caller needs unsafe code.
//!
//! ```
//! use wickorchard::limits::MOST_RULES;
//! use wickorchard::{Field, Header, Match, Policy, Refusal};
//!
//! // Two rules, with the actions 1 and 0.
//! let text = "acl\t2\n\
//!     rule\t0\t10.0.0.0/8\t0.0.0.0/0\t0\t65535\t80\t80\t6\t6\t1\n\
//!     rule\t1\t0.0.0.0/0\t0.0.0.0/0\t0\t65535\t0\t65535\t0\t255\t0\n\
//!     end\t3\n";
//! let policy = Policy::read(text.as_bytes())?;
//! let header = Header {
//!     source: [10, 1, 2, 3].into(),
//!     destination: [192, 168, 0, 1].into(),
//!     source_port: Some(40_000),
//!     destination_port: Some(80),
//!     protocol: 6,
//! };
//! assert_eq!(policy.first(&header), Some(Match { rule: 0, action: 1 }));
//! let mut found = [0; MOST_RULES];
//! assert_eq!(policy.all(&header, &mut found), [0, 1]);
//!
//! // A later fragment has no ports. Rule 0 names one, so it does not match.
//! let fragment = Header { source_port: None, destination_port: None, ..header };
//! assert_eq!(policy.first(&fragment), Some(Match { rule: 1, action: 0 }));
//! assert_eq!(policy.misses(&fragment, 0)?, Some(Field::DestinationPort));
//!
//! // A file that was cut short is refused, and never taken for a shorter list.
//! assert_eq!(Policy::read(&text.as_bytes()[..60]).err(), Some(Refusal::TextStops { lines: 2 }));
//! # Ok::<(), Refusal>(())
//! ```

pub mod calls;
pub mod header;
pub mod limits;
pub mod policy;
pub mod raw;
pub mod refusal;

pub use calls::{Kind, Match};
pub use header::{Field, Header};
pub use policy::Policy;
pub use refusal::Refusal;
