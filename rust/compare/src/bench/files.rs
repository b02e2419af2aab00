//! The file calls: a list, a tree and a part, written as texts and read from them.

use oracle::rule_file::{list_text, Kind};
use oracle::Answer;

use super::{Agreed, Bench, Wanted};
use crate::abi::Call;
use crate::arena::{unwritten_text, unwritten_words};
use crate::mismatch::Inputs;
use crate::texts::{File, Text};
use crate::trees::Policy;

/// The bytes that an ample room has beyond those that are needed.
const SPARE_BYTES: usize = 3;
/// The words that an ample room has beyond those that are needed, for rules or nodes, and for the pool.
const SPARE_WORDS: [usize; 2] = [4, 2];
/// The bytes lent to a writer that refuses for another reason.
const UNUSED_BYTES: usize = 64;

/// A writer of a list.
type ListWriter = fn(&[u32], &mut [u8]) -> Answer;

impl Bench {
    /// Writes the list as a file of this kind.
    pub fn list_write(&mut self, case: &str, kind: Kind, rules: &[u32], room: usize) -> Agreed {
        let (call, oracle): (Call, ListWriter) = match kind {
            Kind::Rules => (Call::RulesWrite, oracle::rules_write),
            Kind::Acl => (Call::AclWrite, oracle::acl_write),
        };
        self.arena.take_back();
        let lent_rules = self.arena.lend("rules", rules);
        let mut text = unwritten_text(room);
        let lent_text = self.arena.lend_text(&text);
        let answer = oracle(rules, &mut text);
        self.arena.want_text(lent_text, &text);
        let inputs = Inputs { rules: Some(rules), rooms: &[room], ..Inputs::of(call, case) };
        self.compare(inputs, &[lent_rules, lent_text], answer)
    }

    pub fn rules_read(&mut self, case: &str, text: &[u8], room: usize) -> Agreed {
        self.arena.take_back();
        let lent_text = self.arena.lend_text(text);
        let mut rules = unwritten_words(room);
        let lent_rules = self.arena.lend("rules", &rules);
        let answer = oracle::rules_read(text, &mut rules);
        self.arena.want(lent_rules, &rules);
        let inputs = Inputs { text: Some(text), rooms: &[room], ..Inputs::of(Call::RulesRead, case) };
        self.compare(inputs, &[lent_text, lent_rules], answer)
    }

    /// The policy's rules are of no account: their number is told.
    pub fn tree_write(&mut self, case: &str, rule_count: u64, policy: &Policy, room: usize) -> Agreed {
        self.write(Call::TreeWrite, oracle::tree_write, case, rule_count, policy, room)
    }

    pub fn part_write(&mut self, case: &str, rule_count: u64, part: &Policy, room: usize) -> Agreed {
        self.write(Call::PartWrite, oracle::part_write, case, rule_count, part, room)
    }

    fn write(
        &mut self,
        call: Call,
        oracle: fn(u64, &[u32], &[u32], &mut [u8]) -> Answer,
        case: &str,
        rule_count: u64,
        policy: &Policy,
        room: usize,
    ) -> Agreed {
        let Policy { nodes, pool, .. } = policy;
        self.arena.take_back();
        let lent_nodes = self.arena.lend("nodes", nodes);
        let lent_pool = self.arena.lend("pool", pool);
        let mut text = unwritten_text(room);
        let lent_text = self.arena.lend_text(&text);
        let answer = oracle(rule_count, nodes, pool, &mut text);
        self.arena.want_text(lent_text, &text);
        let named = Inputs::of(call, case);
        let inputs = Inputs { rule_count: Some(rule_count), tree: Some((nodes, pool)), rooms: &[room], ..named };
        self.compare(inputs, &[lent_nodes, lent_pool, lent_text], answer)
    }

    /// The rooms are those of the nodes and of the pool.
    pub fn tree_read(&mut self, case: &str, text: &[u8], rooms: [usize; 2]) -> Agreed {
        self.read_words(Call::TreeRead, oracle::tree_read, case, text, rooms)
    }

    pub fn part_read(&mut self, case: &str, text: &[u8], rooms: [usize; 2]) -> Agreed {
        self.read_words(Call::PartRead, oracle::part_read, case, text, rooms)
    }

    fn read_words(
        &mut self,
        call: Call,
        oracle: fn(&[u8], &mut [u32], &mut [u32]) -> Answer,
        case: &str,
        text: &[u8],
        rooms: [usize; 2],
    ) -> Agreed {
        self.arena.take_back();
        let lent_text = self.arena.lend_text(text);
        let Wanted { lent: [nodes, pool], answer, .. } = self.lend_tree(rooms, |nodes, pool| oracle(text, nodes, pool));
        let inputs = Inputs { text: Some(text), rooms: &rooms, ..Inputs::of(call, case) };
        self.compare(inputs, &[lent_text, nodes, pool], answer)
    }

    /// Writes the list as a file of each kind, with ample room. The answer for the kind with actions is given back.
    pub fn write_rules(&mut self, case: &str, rules: &[u32]) -> Agreed {
        let needed = list_text(Kind::Acl, rules).map_or(UNUSED_BYTES, |text| text.len());
        self.list_write(case, Kind::Rules, rules, needed + SPARE_BYTES)?;
        self.list_write(case, Kind::Acl, rules, needed + SPARE_BYTES)
    }

    /// Writes the tree, for the number of rules that the policy has, with ample room.
    pub fn write_tree(&mut self, case: &str, policy: &Policy) -> Agreed {
        let rule_count = policy.rule_count();
        let written = oracle::tree_file::tree_text(rule_count, &policy.nodes, &policy.pool);
        let needed = written.map_or(UNUSED_BYTES, |text| text.len());
        self.tree_write(case, rule_count, policy, needed + SPARE_BYTES)
    }

    /// Writes the part, for the number of rules that the policy has, with ample room.
    pub fn write_part(&mut self, case: &str, part: &Policy) -> Agreed {
        let rule_count = part.rule_count();
        let written = oracle::tree_file::part_text(rule_count, &part.nodes, &part.pool);
        let needed = written.map_or(UNUSED_BYTES, |text| text.len());
        self.part_write(case, rule_count, part, needed + SPARE_BYTES)
    }

    /// Reads the text with these rooms, of which a list takes the first.
    pub fn read(&mut self, case: &str, text: &Text, rooms: [usize; 2]) -> Agreed {
        match text.file {
            File::Rules => self.rules_read(case, &text.bytes, rooms[0]),
            File::Tree => self.tree_read(case, &text.bytes, rooms),
            File::Part => self.part_read(case, &text.bytes, rooms),
        }
    }

    /// Reads the text with no room, with none for the pool alone, and with ample room; the last answer is given back.
    pub fn read_in_rooms(&mut self, case: &str, text: &Text) -> Agreed {
        let [first, second] = text.needed;
        self.read(case, text, [0, 0])?;
        if text.file != File::Rules {
            self.read(case, text, [first, 0])?;
        }
        self.read(case, text, [first + SPARE_WORDS[0], second + SPARE_WORDS[1]])
    }
}
