//! The independent classifier: the scope's rules written once more, for Wickorchard to be compared with.
//!
//! It is written from the scope alone and shares no code and no trick with the library. Addresses are compared
//! bit by bit, every list is scanned from its first rule to its last, and speed is no aim. Each public call takes
//! slices of any length and any words, and gives one [`Answer`]:
//!
//! - [`rule_check`]: is every rule of the list good, and none the same as an earlier one;
//! - [`line_all`]: the numbers of all rules that match a header;
//! - [`line_first`]: the lowest number of them, and that rule's action;
//! - [`scan_all`] and [`scan_first`]: the same, and no list is judged;
//! - [`rule_misses`]: the lowest field in which one rule of a list and a header disagree;
//! - [`tree_all`]: the numbers in a leaf that match a header, by a walk through a tree;
//! - [`tree_first`]: the first number of them, and that rule's action;
//! - [`tree_check`]: is the tree well formed, and does each leaf list every rule that can match there;
//! - [`build()`]: the one tree that is compiled from a list;
//! - [`build_some`] and [`build_on`]: the same, stopped after some nodes, and going on from there;
//! - [`rules_write`], [`acl_write`] and [`rules_read`]: a list as a text file, without its actions and with them, and
//!   back;
//! - [`tree_write`] and [`tree_read`]: a tree as a text file, and back;
//! - [`part_write`] and [`part_read`]: a build that was stopped as a text file, and back.
//!
//! And [`program`] is the program: from its two files and its standard input, what it writes. [`why()`] is the program
//! `why` in the same way.
//!
//! Besides, [`builder`] makes trees of other shapes that are right for a list, for the searches and the check to be
//! tried on, and [`corners`] judges small trees a second time, by searching for every header that could get a wrong
//! list.

#![forbid(unsafe_code)]

pub mod answer;
pub mod boxes;
pub mod build;
pub mod builder;
pub mod corners;
pub mod header;
pub mod line;
pub mod matching;
pub mod misses;
pub mod nodes;
pub mod parts;
pub mod program;
pub mod rule_file;
pub mod rules;
pub mod scan;
pub mod spelt;
pub mod stops;
pub mod text;
pub mod tree_check;
pub mod tree_file;
pub mod tree_search;
pub mod why;

pub use answer::{Answer, Refusal};
pub use build::build;
pub use line::{line_all, line_first};
pub use misses::rule_misses;
pub use program::program;
pub use rule_file::{acl_write, rules_read, rules_write};
pub use rules::rule_check;
pub use scan::{scan_all, scan_first};
pub use stops::{build_on, build_some};
pub use tree_check::tree_check;
pub use tree_file::{part_read, part_write, tree_read, tree_write};
pub use tree_search::{tree_all, tree_first};
pub use why::why;
