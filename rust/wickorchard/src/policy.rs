//! A policy in memory: a list that was judged, and a tree that serves in its place once the check has accepted it, or
//! once it is compiled from the list.

use crate::calls::{self, Figures, Kind, ListRead, Match, Tree};
use crate::header::{Field, Header};
use crate::limits::{MOST_NODE_WORDS, MOST_POOL_WORDS, MOST_RULES, MOST_RULE_WORDS, NODE_WORDS, RULE_WORDS};
use crate::refusal::Refusal;

/// Why a search by a policy completes: every reason to refuse was looked for when the policy was read.
const JUDGED: &str = "the list is good, the tree is accepted, the header is legal, and there is room for all rules";

/// A good list of rules. Its answers are those of the list, whether a tree serves or not.
///
/// The list is judged once, when it is read, and a tree is checked once. No search is refused, and none allocates.
#[derive(Clone, Debug)]
pub struct Policy {
    rules: Vec<u32>,
    kind: Kind,
    /// The nodes and the pool of a tree that the check has accepted for these rules, or that was compiled from them.
    tree: Option<(Vec<u32>, Vec<u32>)>,
}

impl Policy {
    /// The list that a rules file or an acl file holds, with no tree: 9, 10 or 11.
    pub fn read(list_file: &[u8]) -> Result<Policy, Refusal> {
        let mut rules = vec![0; MOST_RULE_WORDS];
        let ListRead { rules: count, kind } = calls::rules_read(list_file, &mut rules)?;
        rules.truncate(count * RULE_WORDS);
        Ok(Policy { rules, kind, tree: None })
    }

    /// Which kind of file the list was read from. The rules of a rules file all have action 0.
    pub fn kind(&self) -> Kind {
        self.kind
    }

    /// Has the tree that a tree file holds serve from now on: 9 or 10, 6, 7, 8. Where the file is refused, or the check
    /// refuses its tree, the list serves.
    pub fn read_tree(&mut self, tree_file: &[u8]) -> Result<Figures, Refusal> {
        self.tree = None;
        let mut nodes = vec![0; MOST_NODE_WORDS];
        let mut pool = vec![0; MOST_POOL_WORDS];
        let counts = calls::tree_read(tree_file, &mut nodes, &mut pool)?;
        nodes.truncate(counts.nodes * NODE_WORDS);
        pool.truncate(counts.pool);
        let figures = calls::tree_check(&self.rules, Tree { nodes: &nodes, pool: &pool })?;
        self.tree = Some((nodes, pool));
        Ok(figures)
    }

    /// Compiles the list, and has its tree serve from now on: 4 where the tree is over the limits, and then the list
    /// serves. What is built needs no check.
    pub fn compile(&mut self) -> Result<(), Refusal> {
        self.tree = None;
        let mut nodes = vec![0; MOST_NODE_WORDS];
        let mut pool = vec![0; MOST_POOL_WORDS];
        let Tree { nodes, pool } = calls::build(&self.rules, &mut nodes, &mut pool)?;
        self.tree = Some((nodes.to_vec(), pool.to_vec()));
        Ok(())
    }

    pub fn rule_count(&self) -> usize {
        self.rules.len() / RULE_WORDS
    }

    /// Writes the numbers of all rules that match the header to the front of `found`, rising, and gives them.
    pub fn all<'a>(&self, header: &Header, found: &'a mut [u32; MOST_RULES]) -> &'a [u32] {
        let header = header.words();
        match &self.tree {
            Some((nodes, pool)) => {
                calls::tree_all(&self.rules, Tree { nodes, pool }, &header, found).map(|counted| counted.found)
            }
            None => calls::scan_all(&self.rules, &header, found),
        }
        .expect(JUDGED)
    }

    /// The lowest rule that matches the header, and its action.
    pub fn first(&self, header: &Header) -> Option<Match> {
        let header = header.words();
        match &self.tree {
            Some((nodes, pool)) => {
                calls::tree_first(&self.rules, Tree { nodes, pool }, &header).map(|counted| counted.found)
            }
            None => calls::scan_first(&self.rules, &header),
        }
        .expect(JUDGED)
    }

    /// Why did this rule miss? Gives the lowest field of the rule of this number that disagrees with the header, or
    /// `None` where the rule matches: 2 where the list has no such rule. The list is judged once more for it.
    pub fn misses(&self, header: &Header, number: u64) -> Result<Option<Field>, Refusal> {
        calls::rule_misses(&self.rules, &header.words(), number)
    }
}
