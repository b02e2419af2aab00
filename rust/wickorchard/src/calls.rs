//! The library's calls on lent slices. Each takes any words and bytes; a refused one alters none of them.
//!
//! **The two tree searches answer by the tree as it is.** By a tree that is wrong for the rules they may give a wrong
//! answer without a refusal. Search only a tree that [`tree_check`] has accepted or [`build`] has built, with the same
//! rules, nodes and pool, unchanged since. [`Policy`](crate::Policy) sees to that. A [`Part`] is no tree yet.
//!
//! Words are numbers in this machine's own order, as `u32::from(Ipv4Addr)` gives them: `[a, b, c, d]` is
//! `u32::from_be_bytes([a, b, c, d])`. [`Header::words`](crate::Header::words) makes the words of a header, in which a
//! port that is absent is [`ABSENT_PORT`](crate::limits::ABSENT_PORT).

use crate::header::Field;
use crate::limits::NODE_WORDS;
use crate::raw::{self, Answer, ListWriter, TreeReader, TreeWriter};
use crate::refusal::Refusal;

/// A tree's words: three for each node, and the entries of all leaves.
#[derive(Clone, Copy, Debug)]
pub struct Tree<'a> {
    pub nodes: &'a [u32],
    pub pool: &'a [u32],
}

/// What stands of a tree whose build was stopped: the words of its first nodes, with 0 for each right child that is not
/// begun, and the entries of the leaves among them. It is no tree, and the searches take a [`Tree`]; [`build_on`] goes
/// on from it.
#[derive(Clone, Copy, Debug)]
pub struct Part<'a> {
    pub nodes: &'a [u32],
    pub pool: &'a [u32],
}

/// What a build that may stop has come to.
#[derive(Clone, Copy, Debug)]
pub enum Built<'a> {
    /// The whole tree. [`tree_check`] accepts it for its list.
    Whole(Tree<'a>),
    /// There are more nodes to build.
    Stopped(Part<'a>),
}

/// The rule that a first-match found.
#[derive(Clone, Copy, Debug, PartialEq, Eq)]
pub struct Match {
    /// Its number in the list, from 0.
    pub rule: u32,
    /// Its action. In a good list it is at most [`LARGEST_ACTION`](crate::limits::LARGEST_ACTION); a search that judges
    /// no list gives the word as it is.
    pub action: u32,
}

/// The two kinds of files that hold a list.
#[derive(Clone, Copy, Debug, PartialEq, Eq)]
pub enum Kind {
    /// A rules file, which has no actions: each rule's is 0.
    Rules,
    /// An acl file, which has an action for each rule.
    Acl,
}

/// What a file that holds a list holds.
#[derive(Clone, Copy, Debug, PartialEq, Eq)]
pub struct ListRead {
    pub rules: usize,
    pub kind: Kind,
}

/// What a tree search found, and what it took.
#[derive(Clone, Copy, Debug, PartialEq, Eq)]
pub struct Counted<T> {
    pub found: T,
    /// The nodes visited, root and leaf included.
    pub visited: u64,
    /// The leaf's entries that were compared with the header.
    pub compared: u64,
}

/// What an accepted tree takes at most.
#[derive(Clone, Copy, Debug, PartialEq, Eq)]
pub struct Figures {
    /// The most cuts above a leaf.
    pub cuts: u64,
    /// The entries of the longest leaf.
    pub longest_leaf: u64,
}

/// What a tree file or a part file holds.
#[derive(Clone, Copy, Debug, PartialEq, Eq)]
pub struct TreeCounts {
    /// The rules that the tree or the part is for.
    pub rules: usize,
    pub nodes: usize,
    /// The words of the pool.
    pub pool: usize,
}

/// Is the list good? Gives the number of rules: 1, 2, 11.
pub fn rule_check(rules: &[u32]) -> Result<usize, Refusal> {
    // SAFETY: here and below, a slice's pointer and length are given together, and a slice that is written to is
    // borrowed alone.
    answered(|answer| unsafe { raw::wick_rule_check(rules.as_ptr(), rules.len() as u64, answer) })
        .map(|[count, ..]| count as usize)
}

/// Judges the list; then writes the numbers of all rules that match the header to the front of `out`, rising, and gives
/// them: 1, 2, 11, 3, 4.
pub fn line_all<'a>(rules: &[u32], header: &[u32], out: &'a mut [u32]) -> Result<&'a [u32], Refusal> {
    let [count, ..] = answered(|answer| unsafe {
        let (r, h, o) = (rules.len() as u64, header.len() as u64, out.len() as u64);
        raw::wick_line_all(rules.as_ptr(), r, header.as_ptr(), h, out.as_mut_ptr(), o, answer)
    })?;
    Ok(&out[..count as usize])
}

/// Judges the list; then finds the lowest rule that matches the header: 1, 2, 11, 3.
pub fn line_first(rules: &[u32], header: &[u32]) -> Result<Option<Match>, Refusal> {
    answered(|answer| unsafe {
        raw::wick_line_first(rules.as_ptr(), rules.len() as u64, header.as_ptr(), header.len() as u64, answer)
    })
    .map(found)
}

/// As [`line_all`], but the list is not judged: 3, 4. It takes any words; words past the last whole rule are no rule. A
/// caller with many headers judges the list once, by [`rule_check`], and scans after that.
pub fn scan_all<'a>(rules: &[u32], header: &[u32], out: &'a mut [u32]) -> Result<&'a [u32], Refusal> {
    let [count, ..] = answered(|answer| unsafe {
        let (r, h, o) = (rules.len() as u64, header.len() as u64, out.len() as u64);
        raw::wick_scan_all(rules.as_ptr(), r, header.as_ptr(), h, out.as_mut_ptr(), o, answer)
    })?;
    Ok(&out[..count as usize])
}

/// As [`line_first`], but the list is not judged: 3. It takes any words, as [`scan_all`] does.
pub fn scan_first(rules: &[u32], header: &[u32]) -> Result<Option<Match>, Refusal> {
    answered(|answer| unsafe {
        raw::wick_scan_first(rules.as_ptr(), rules.len() as u64, header.as_ptr(), header.len() as u64, answer)
    })
    .map(found)
}

/// Why did this rule miss? Judges the list; then compares its rule `number` with the header, and gives the lowest field
/// that disagrees, or `None` where the rule matches: 1, 2, 11, 3, then 2 where the list has no rule of this number.
///
/// ```
/// use wickorchard::calls::rule_misses;
/// use wickorchard::{Field, Refusal};
///
/// // One rule, from 10.0.0.0/8 to destination port 80, protocol 6.
/// let rules = [0x0A00_0000, 8, 0, 0, 0, 65_535, 80, 80, 6, 6, 0];
/// let misses = |port, protocol| rule_misses(&rules, &[0x0A01_0203, 0xC0A8_0001, 40_000, port, protocol], 0);
/// assert_eq!(misses(80, 6)?, None);
/// assert_eq!(misses(80, 17)?, Some(Field::Protocol));
/// assert_eq!(misses(443, 17)?, Some(Field::DestinationPort));
/// assert_eq!(rule_misses(&rules, &[0; 5], 1), Err(Refusal::RuleNotGood { rule: 1 }));
/// # Ok::<(), Refusal>(())
/// ```
pub fn rule_misses(rules: &[u32], header: &[u32], number: u64) -> Result<Option<Field>, Refusal> {
    let [field, ..] = answered(|answer| unsafe {
        let (r, h) = (rules.len() as u64, header.len() as u64);
        raw::wick_rule_misses(rules.as_ptr(), r, header.as_ptr(), h, number, answer)
    })?;
    Ok(Field::ALL.get(field as usize).copied())
}

/// Writes the numbers in the header's leaf that match it to the front of `out`, and gives them: 3, 6, 7, 4.
///
/// **The tree is not checked.** Only one that [`tree_check`] has accepted for these rules, or [`build`] has built from
/// them, gives what the list gives.
pub fn tree_all<'a>(
    rules: &[u32],
    tree: Tree,
    header: &[u32],
    out: &'a mut [u32],
) -> Result<Counted<&'a [u32]>, Refusal> {
    let Tree { nodes, pool } = tree;
    let [count, visited, compared, _] = answered(|answer| unsafe {
        let (r, n, p) = (rules.len() as u64, nodes.len() as u64, pool.len() as u64);
        let (h, o) = (header.len() as u64, out.len() as u64);
        let (rules, nodes, pool, header) = (rules.as_ptr(), nodes.as_ptr(), pool.as_ptr(), header.as_ptr());
        raw::wick_tree_all(rules, r, nodes, n, pool, p, header, h, out.as_mut_ptr(), o, answer)
    })?;
    Ok(Counted { found: &out[..count as usize], visited, compared })
}

/// The first number in the header's leaf that matches it: 3, 6, 7.
///
/// **The tree is not checked.** Only one that [`tree_check`] has accepted for these rules, or [`build`] has built from
/// them, gives what the list gives.
pub fn tree_first(rules: &[u32], tree: Tree, header: &[u32]) -> Result<Counted<Option<Match>>, Refusal> {
    let Tree { nodes, pool } = tree;
    let values = answered(|answer| unsafe {
        let (r, n, p, h) = (rules.len() as u64, nodes.len() as u64, pool.len() as u64, header.len() as u64);
        raw::wick_tree_first(rules.as_ptr(), r, nodes.as_ptr(), n, pool.as_ptr(), p, header.as_ptr(), h, answer)
    })?;
    let [_, visited, compared, _] = values;
    Ok(Counted { found: found(values), visited, compared })
}

/// May this tree serve for this list? 1, 2, 11, 5, 6, 7, 8. Where it is not refused, the tree is accepted.
pub fn tree_check(rules: &[u32], tree: Tree) -> Result<Figures, Refusal> {
    let Tree { nodes, pool } = tree;
    let [cuts, longest_leaf, ..] = answered(|answer| unsafe {
        let (r, n, p) = (rules.len() as u64, nodes.len() as u64, pool.len() as u64);
        raw::wick_tree_check(rules.as_ptr(), r, nodes.as_ptr(), n, pool.as_ptr(), p, answer)
    })?;
    Ok(Figures { cuts, longest_leaf })
}

/// Compiles the list: writes its tree to the front of `nodes` and of `pool`, and gives it: 1, 2, 11, 4. One list gives
/// one tree, and [`tree_check`] accepts it.
///
/// 4 says that too little is lent, or that the tree is over [`MOST_NODE_WORDS`] or [`MOST_POOL_WORDS`], which no room
/// mends. It tells the words up to and with the first node that does not fit; with just as many, a later one may not.
///
/// ```
/// use wickorchard::calls::{build, tree_first, Match};
///
/// // Nine rules with action 1, for destination ports 0 to 8: ports up to 4 go left, to node 1.
/// let rules: Vec<u32> = (0..9).flat_map(|port| [0, 0, 0, 0, 0, 65_535, port, port, 6, 6, 1]).collect();
/// let (mut nodes, mut pool) = ([0; 30], [0; 30]);
/// let tree = build(&rules, &mut nodes, &mut pool)?;
/// assert_eq!(tree.nodes, [3, 4, 2, 5, 0, 5, 5, 5, 4]);
/// assert_eq!(tree.pool, [0, 1, 2, 3, 4, 5, 6, 7, 8]);
/// assert_eq!(tree_first(&rules, tree, &[0, 0, 0, 7, 6])?.found, Some(Match { rule: 7, action: 1 }));
/// # Ok::<(), wickorchard::Refusal>(())
/// ```
///
/// [`MOST_NODE_WORDS`]: crate::limits::MOST_NODE_WORDS
/// [`MOST_POOL_WORDS`]: crate::limits::MOST_POOL_WORDS
pub fn build<'a>(rules: &[u32], nodes: &'a mut [u32], pool: &'a mut [u32]) -> Result<Tree<'a>, Refusal> {
    let [node_count, pool_words, ..] = answered(|answer| unsafe {
        let (r, n, p) = (rules.len() as u64, nodes.len() as u64, pool.len() as u64);
        raw::wick_build(rules.as_ptr(), r, nodes.as_mut_ptr(), n, pool.as_mut_ptr(), p, answer)
    })?;
    Ok(Tree { nodes: &nodes[..node_count as usize * NODE_WORDS], pool: &pool[..pool_words as usize] })
}

/// As [`build`], but stops after `most` nodes where the tree has more; 0 counts as 1. Only these nodes must fit: 1, 2,
/// 11, 4.
///
/// ```
/// use wickorchard::calls::{build_on, build_some, Built};
///
/// // Nine rules, for destination ports 0 to 8. The first node is a cut, and none of its parts is begun.
/// let rules: Vec<u32> = (0..9).flat_map(|port| [0, 0, 0, 0, 0, 65_535, port, port, 6, 6, 1]).collect();
/// let (mut nodes, mut pool) = ([0; 30], [0; 30]);
/// let Built::Stopped(part) = build_some(&rules, 1, &mut nodes, &mut pool)? else { panic!("two nodes are left") };
/// assert_eq!((part.nodes, part.pool), (&[3, 4, 0][..], &[][..]));
///
/// // Two nodes more, and it is the tree that `build` gives at once.
/// let (mut nodes, mut pool) = ([0; 30], [0; 30]);
/// let Built::Whole(tree) = build_on(&rules, 9, part, 2, &mut nodes, &mut pool)? else { panic!("that is all") };
/// assert_eq!(tree.nodes, [3, 4, 2, 5, 0, 5, 5, 5, 4]);
/// # Ok::<(), wickorchard::Refusal>(())
/// ```
pub fn build_some<'a>(
    rules: &[u32],
    most: u64,
    nodes: &'a mut [u32],
    pool: &'a mut [u32],
) -> Result<Built<'a>, Refusal> {
    let counts = answered(|answer| unsafe {
        let (r, n, p) = (rules.len() as u64, nodes.len() as u64, pool.len() as u64);
        raw::wick_build_some(rules.as_ptr(), r, most, nodes.as_mut_ptr(), n, pool.as_mut_ptr(), p, answer)
    })?;
    Ok(built(counts, nodes, pool))
}

/// Goes on with a part, which was built for a list of `rule_count` rules, by `most` nodes; 0 counts as 1. Writes all
/// nodes and entries to the front of `nodes` and of `pool`, those of the part included, and gives them: 1, 2, 11 for
/// the list, 5 for the part's words, 6 at node 0 where `rule_count` is not the list's, 6 or 7 at the first fault of the
/// part, 8 where one of its leaves lacks a rule, then 4.
///
/// However often it stops, with the same list and the same room a build ends in the words, or in the refusal, of
/// [`build`]. A part that others have made is judged too, and what is whole in the end is accepted by [`tree_check`].
pub fn build_on<'a>(
    rules: &[u32],
    rule_count: u64,
    part: Part,
    most: u64,
    nodes: &'a mut [u32],
    pool: &'a mut [u32],
) -> Result<Built<'a>, Refusal> {
    let counts = answered(|answer| unsafe {
        let (r, n, p) = (rules.len() as u64, nodes.len() as u64, pool.len() as u64);
        let (part_nodes, part_n) = (part.nodes.as_ptr(), part.nodes.len() as u64);
        let (part_pool, part_p) = (part.pool.as_ptr(), part.pool.len() as u64);
        let (rules, nodes, pool) = (rules.as_ptr(), nodes.as_mut_ptr(), pool.as_mut_ptr());
        raw::wick_build_on(rules, r, rule_count, part_nodes, part_n, part_pool, part_p, most, nodes, n, pool, p, answer)
    })?;
    Ok(built(counts, nodes, pool))
}

/// Writes the list as a rules file, which has no actions, to the front of `text`, and gives the file's bytes: 1, 2 at
/// the lowest rule that is not good or whose action is not 0, 11, 4.
pub fn rules_write<'a>(rules: &[u32], text: &'a mut [u8]) -> Result<&'a [u8], Refusal> {
    write_list(raw::wick_rules_write, rules, text)
}

/// Writes the list as an acl file, which has an action for each rule, to the front of `text`, and gives the file's
/// bytes: 1, 2, 11, 4.
pub fn acl_write<'a>(rules: &[u32], text: &'a mut [u8]) -> Result<&'a [u8], Refusal> {
    write_list(raw::wick_acl_write, rules, text)
}

fn write_list<'a>(write: ListWriter, rules: &[u32], text: &'a mut [u8]) -> Result<&'a [u8], Refusal> {
    let [bytes, ..] = answered(|answer| unsafe {
        write(rules.as_ptr(), rules.len() as u64, text.as_mut_ptr(), text.len() as u64, answer)
    })?;
    Ok(&text[..bytes as usize])
}

/// Reads a rules file or an acl file, writes eleven words for each rule to the front of `rules`, and gives the number
/// of rules and the file's kind: 9 or 10, 11, 4. The rules of an 11 are counted from 0, as everywhere.
pub fn rules_read(text: &[u8], rules: &mut [u32]) -> Result<ListRead, Refusal> {
    let [count, acl, ..] = answered(|answer| unsafe {
        raw::wick_rules_read(text.as_ptr(), text.len() as u64, rules.as_mut_ptr(), rules.len() as u64, answer)
    })?;
    let kind = if acl == 0 { Kind::Rules } else { Kind::Acl };
    Ok(ListRead { rules: count as usize, kind })
}

/// Writes the tree, which is for so many rules, as a tree file to the front of `text`, and gives the file's bytes: 1,
/// 5, 6 or 7, 4.
pub fn tree_write<'a>(rule_count: u64, tree: Tree, text: &'a mut [u8]) -> Result<&'a [u8], Refusal> {
    write_nodes(raw::wick_tree_write, rule_count, tree.nodes, tree.pool, text)
}

/// Reads a tree file, writes three words for each node to the front of `nodes` and the leaf entries to the front of
/// `pool`, and gives how many there are: 9 or 10, 4. What it has read is not checked yet.
pub fn tree_read(text: &[u8], nodes: &mut [u32], pool: &mut [u32]) -> Result<TreeCounts, Refusal> {
    read_nodes(raw::wick_tree_read, text, nodes, pool)
}

/// Writes the part, which is for so many rules, as a part file to the front of `text`, and gives the file's bytes: 1,
/// 5, 6 or 7, 4. It is the tree file with another first word.
pub fn part_write<'a>(rule_count: u64, part: Part, text: &'a mut [u8]) -> Result<&'a [u8], Refusal> {
    write_nodes(raw::wick_part_write, rule_count, part.nodes, part.pool, text)
}

/// Reads a part file as [`tree_read`] reads a tree file; each takes its own only: 9 or 10, 4. [`build_on`] judges what
/// it has read.
pub fn part_read(text: &[u8], nodes: &mut [u32], pool: &mut [u32]) -> Result<TreeCounts, Refusal> {
    read_nodes(raw::wick_part_read, text, nodes, pool)
}

fn write_nodes<'a>(
    write: TreeWriter,
    rule_count: u64,
    nodes: &[u32],
    pool: &[u32],
    text: &'a mut [u8],
) -> Result<&'a [u8], Refusal> {
    let [bytes, ..] = answered(|answer| unsafe {
        let (n, p, t) = (nodes.len() as u64, pool.len() as u64, text.len() as u64);
        write(rule_count, nodes.as_ptr(), n, pool.as_ptr(), p, text.as_mut_ptr(), t, answer)
    })?;
    Ok(&text[..bytes as usize])
}

fn read_nodes(read: TreeReader, text: &[u8], nodes: &mut [u32], pool: &mut [u32]) -> Result<TreeCounts, Refusal> {
    let counts = answered(|answer| unsafe {
        let (t, n, p) = (text.len() as u64, nodes.len() as u64, pool.len() as u64);
        read(text.as_ptr(), t, nodes.as_mut_ptr(), n, pool.as_mut_ptr(), p, answer)
    })?;
    let [rules, nodes, pool, _] = counts.map(|count| count as usize);
    Ok(TreeCounts { rules, nodes, pool })
}

/// What a build that may stop has written: so many nodes and pool words, and 1 where they are the whole tree.
fn built<'a>([node_count, pool_words, whole, _]: [u64; 4], nodes: &'a [u32], pool: &'a [u32]) -> Built<'a> {
    let (nodes, pool) = (&nodes[..node_count as usize * NODE_WORDS], &pool[..pool_words as usize]);
    match whole {
        0 => Built::Stopped(Part { nodes, pool }),
        _ => Built::Whole(Tree { nodes, pool }),
    }
}

/// What a first-match found, of whose values the first is the rule's number + 1, or 0 where none matches, and the last
/// is its action.
fn found([next, _, _, action]: [u64; 4]) -> Option<Match> {
    next.checked_sub(1).map(|rule| Match { rule: rule as u32, action: action as u32 })
}

/// The values a to d of a completed call.
fn answered(call: impl FnOnce(&mut Answer)) -> Result<[u64; 4], Refusal> {
    let mut answer = [0; 8];
    call(&mut answer);
    match Refusal::of(&answer) {
        Some(refusal) => Err(refusal),
        None => Ok([answer[3], answer[4], answer[5], answer[6]]),
    }
}
