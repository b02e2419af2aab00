//! The limits, and how many words make what is lent. `include/wickorchard.h` has the same numbers.

/// The words of a rule: source address and its length, destination address and its length, then the lowest and the
/// highest source port, destination port and protocol, then the action.
pub const RULE_WORDS: usize = 11;
/// The word of a rule that is its action.
pub const ACTION: usize = 10;
/// The words of a header: source address, destination address, source port, destination port, protocol. A port may be
/// [`ABSENT_PORT`].
pub const HEADER_WORDS: usize = 5;
/// The words of a node: a cut's field, value and right child; or a leaf's [`LEAF`], start in the pool and count.
pub const NODE_WORDS: usize = 3;
/// The first word of a leaf.
pub const LEAF: u32 = 5;
/// The longest prefix.
pub const ADDRESS_BITS: u32 = 32;
/// The largest port, which is the largest end of a rule's range of ports.
pub const LARGEST_PORT: u32 = 65_535;
/// A header's port that means that there is none. Of all ranges only 0 to [`LARGEST_PORT`] matches it.
pub const ABSENT_PORT: u32 = 65_536;
/// The largest protocol.
pub const LARGEST_PROTOCOL: u32 = 255;
/// The largest action of a rule.
pub const LARGEST_ACTION: u32 = 255;
/// The most rules of a list.
pub const MOST_RULES: usize = 512;
/// The most words of a list.
pub const MOST_RULE_WORDS: usize = MOST_RULES * RULE_WORDS;
/// The most nodes of a tree.
pub const MOST_NODES: usize = 2_047;
/// The most words of a tree's nodes.
pub const MOST_NODE_WORDS: usize = MOST_NODES * NODE_WORDS;
/// The most words of a tree's pool, which has the entries of all leaves.
pub const MOST_POOL_WORDS: usize = 4_096;
/// The most cuts above a leaf of a tree that the check accepts.
pub const MOST_CUTS: usize = 63;
/// The most bytes of a file of the program. No good list and no accepted tree has a longer text.
pub const MOST_FILE_BYTES: usize = 65_536;
