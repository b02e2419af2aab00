//! The build that stops, and goes on from a part.

use oracle::Answer;

use super::{Bench, Wanted};
use crate::abi::Call;
use crate::mismatch::Inputs;
use crate::trees::Policy;

/// What a step of a build gives: the oracle's answer, with which the library agrees, and what stands then, which is
/// nothing where it is refused. Or a `Mismatch` in writing.
pub type Stepped = Result<(Answer, Policy), String>;

impl Bench {
    /// The rooms are those of the nodes and of the pool.
    pub fn build_some(&mut self, case: &str, rules: &[u32], most: u64, rooms: [usize; 2]) -> Stepped {
        self.arena.take_back();
        let lent_rules = self.arena.lend("rules", rules);
        let wanted = self.lend_tree(rooms, |nodes, pool| oracle::build_some(rules, most, nodes, pool));
        let [nodes, pool] = wanted.lent;
        let inputs =
            Inputs { rules: Some(rules), most: Some(most), rooms: &rooms, ..Inputs::of(Call::BuildSome, case) };
        self.compare(inputs, &[lent_rules, nodes, pool], wanted.answer)?;
        Ok(wanted.stands(rules))
    }

    /// Goes on with the part that is the policy's tree, by its list, and tells the number of its rules.
    pub fn build_on(&mut self, case: &str, part: &Policy, most: u64, rooms: [usize; 2]) -> Stepped {
        self.build_told(case, part.rule_count(), part, most, rooms)
    }

    /// Goes on with the part, and tells this number of rules.
    pub fn build_told(&mut self, case: &str, told: u64, part: &Policy, most: u64, rooms: [usize; 2]) -> Stepped {
        let [lent_rules, lent_nodes, lent_pool] = self.lend_policy(part);
        let wanted = self.lend_tree(rooms, |nodes, pool| {
            oracle::build_on(&part.rules, told, &part.nodes, &part.pool, most, nodes, pool)
        });
        let [nodes, pool] = wanted.lent;
        let named = super::policy_inputs(Call::BuildOn, case, part);
        let inputs = Inputs { rule_count: Some(told), most: Some(most), rooms: &rooms, ..named };
        self.compare(inputs, &[lent_rules, lent_nodes, lent_pool, nodes, pool], wanted.answer)?;
        Ok(wanted.stands(&part.rules))
    }
}

impl Wanted {
    /// The answer, and what was written, for this list.
    fn stands(self, rules: &[u32]) -> (Answer, Policy) {
        let Wanted { answer, mut nodes, mut pool, .. } = self;
        nodes.truncate(3 * answer.a as usize);
        pool.truncate(answer.b as usize);
        (answer, Policy { rules: rules.to_vec(), nodes, pool })
    }
}
