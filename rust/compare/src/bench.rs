//! One call of the library beside the same call of the oracle, with all lent memory compared after it.

mod files;
mod stops;

use std::io::{self, Write};
use std::time::Instant;

use oracle::rules::{MOST_RULES, RULE_WORDS};
use oracle::Answer;

use crate::abi::{answer_words, Call, Request};
use crate::arena::{unwritten_words, Arena, Lent};
use crate::lender::{Lender, Silence};
use crate::mapping::Mapping;
use crate::mismatch::{Deed, Inputs, Mismatch};
use crate::trees::Policy;

pub use stops::Stepped;

/// What a comparison gives: the oracle's answer, with which the library agrees, or a `Mismatch` in writing.
pub type Agreed = Result<Answer, String>;
/// What a run of comparisons gives.
pub type Run = Result<(), String>;

/// Counts the answers by their refusal number, 0 for a completed call. The scope's numbers end at 12.
type Tally = [u64; 13];

pub struct Bench {
    lender: Lender,
    arena: Arena,
    group: String,
    calls: u64,
    tally: Tally,
    judged: u64,
}

impl Bench {
    /// A bench whose calls are made by this lender, in these bytes that both have mapped.
    pub fn new(lender: Lender, bytes: Mapping) -> Bench {
        Bench { lender, arena: Arena::of(bytes), group: String::new(), calls: 0, tally: Tally::default(), judged: 0 }
    }

    /// Lets the lender end, which must be willing to. Gives how many calls were compared.
    pub fn finish(self) -> Result<u64, Silence> {
        self.lender.finish().map(|()| self.calls)
    }

    /// Runs a group of comparisons, and writes its line: what it does at once, what came of it at its end.
    pub fn group(&mut self, purpose: &str, deed: &str, run: impl FnOnce(&mut Bench) -> Run) -> Run {
        self.group = format!("{purpose}: {deed}");
        print!("{} ..", self.group);
        io::stdout().flush().expect("standard output is written");
        let (calls, start) = (self.calls, Instant::now());
        (self.tally, self.judged) = (Tally::default(), 0);
        run(self)?;
        assert!(self.calls > calls, "a group compares something");
        let seconds = start.elapsed().as_secs_f64();
        let judged = match self.judged {
            0 => String::new(),
            headers => format!("; {headers} headers judged a second time"),
        };
        println!(" {} calls in {seconds:.2} s: {}{judged}", self.calls - calls, tally_text(&self.tally));
        Ok(())
    }

    pub fn rule_check(&mut self, case: &str, rules: &[u32]) -> Agreed {
        self.arena.take_back();
        let lent_rules = self.arena.lend("rules", rules);
        let answer = oracle::rule_check(rules);
        let inputs = Inputs { rules: Some(rules), ..Inputs::of(Call::RuleCheck, case) };
        self.compare(inputs, &[lent_rules], answer)
    }

    pub fn line_all(&mut self, case: &str, rules: &[u32], header: &[u32], room: usize) -> Agreed {
        self.arena.take_back();
        let lent_rules = self.arena.lend("rules", rules);
        let lent_header = self.arena.lend("header", header);
        let mut out = unwritten_words(room);
        let lent_out = self.arena.lend("out", &out);
        let answer = oracle::line_all(rules, header, &mut out);
        self.arena.want(lent_out, &out);
        let named = Inputs::of(Call::LineAll, case);
        let inputs = Inputs { rules: Some(rules), header: Some(header), rooms: &[room], ..named };
        self.compare(inputs, &[lent_rules, lent_header, lent_out], answer)
    }

    pub fn line_first(&mut self, case: &str, rules: &[u32], header: &[u32]) -> Agreed {
        self.arena.take_back();
        let lent_rules = self.arena.lend("rules", rules);
        let lent_header = self.arena.lend("header", header);
        let answer = oracle::line_first(rules, header);
        let inputs = Inputs { rules: Some(rules), header: Some(header), ..Inputs::of(Call::LineFirst, case) };
        self.compare(inputs, &[lent_rules, lent_header], answer)
    }

    pub fn scan_all(&mut self, case: &str, rules: &[u32], header: &[u32], room: usize) -> Agreed {
        self.arena.take_back();
        let lent_rules = self.arena.lend("rules", rules);
        let lent_header = self.arena.lend("header", header);
        let mut out = unwritten_words(room);
        let lent_out = self.arena.lend("out", &out);
        let answer = oracle::scan_all(rules, header, &mut out);
        self.arena.want(lent_out, &out);
        let named = Inputs::of(Call::ScanAll, case);
        let inputs = Inputs { rules: Some(rules), header: Some(header), rooms: &[room], ..named };
        self.compare(inputs, &[lent_rules, lent_header, lent_out], answer)
    }

    pub fn scan_first(&mut self, case: &str, rules: &[u32], header: &[u32]) -> Agreed {
        self.arena.take_back();
        let lent_rules = self.arena.lend("rules", rules);
        let lent_header = self.arena.lend("header", header);
        let answer = oracle::scan_first(rules, header);
        let inputs = Inputs { rules: Some(rules), header: Some(header), ..Inputs::of(Call::ScanFirst, case) };
        self.compare(inputs, &[lent_rules, lent_header], answer)
    }

    /// The numbers that the library itself writes for all rules that match, which are those that the oracle writes.
    pub fn line_numbers(&mut self, case: &str, rules: &[u32], header: &[u32]) -> Result<Vec<u32>, String> {
        let count = self.line_all(case, rules, header, rules.len() / RULE_WORDS)?.a as usize;
        let mut numbers = self.arena.found_words("out");
        numbers.truncate(count);
        Ok(numbers)
    }

    pub fn rule_misses(&mut self, case: &str, rules: &[u32], header: &[u32], number: u64) -> Agreed {
        self.arena.take_back();
        let lent_rules = self.arena.lend("rules", rules);
        let lent_header = self.arena.lend("header", header);
        let answer = oracle::rule_misses(rules, header, number);
        let named = Inputs::of(Call::RuleMisses, case);
        let inputs = Inputs { rules: Some(rules), header: Some(header), asked: Some(number), ..named };
        self.compare(inputs, &[lent_rules, lent_header], answer)
    }

    /// All calls on a list. The writers have ample room, all-match has room for a number of every rule, and one over,
    /// and the numbers of the rules, and one past the last, are asked for in turn; the answer of the line search for
    /// all is given back.
    pub fn all_calls(&mut self, case: &str, rules: &[u32], header: &[u32]) -> Agreed {
        self.rule_check(case, rules)?;
        self.write_rules(case, rules)?;
        self.scan_first(case, rules, header)?;
        self.scan_all(case, rules, header, rules.len() / RULE_WORDS + 1)?;
        self.rule_misses(case, rules, header, self.calls % (rules.len() / RULE_WORDS + 1) as u64)?;
        self.line_first(case, rules, header)?;
        self.line_all(case, rules, header, rules.len() / RULE_WORDS + 1)
    }

    pub fn tree_check(&mut self, case: &str, policy: &Policy) -> Agreed {
        let Policy { rules, nodes, pool } = policy;
        let slices = self.lend_policy(policy);
        let answer = oracle::tree_check(rules, nodes, pool);
        let inputs = policy_inputs(Call::TreeCheck, case, policy);
        self.compare(inputs, &slices, answer)
    }

    pub fn tree_all(&mut self, case: &str, policy: &Policy, header: &[u32], room: usize) -> Agreed {
        let Policy { rules, nodes, pool } = policy;
        let [lent_rules, lent_nodes, lent_pool] = self.lend_policy(policy);
        let lent_header = self.arena.lend("header", header);
        let mut out = unwritten_words(room);
        let lent_out = self.arena.lend("out", &out);
        let answer = oracle::tree_all(rules, nodes, pool, header, &mut out);
        self.arena.want(lent_out, &out);
        let named = policy_inputs(Call::TreeAll, case, policy);
        let inputs = Inputs { header: Some(header), rooms: &[room], ..named };
        self.compare(inputs, &[lent_rules, lent_nodes, lent_pool, lent_header, lent_out], answer)
    }

    pub fn tree_first(&mut self, case: &str, policy: &Policy, header: &[u32]) -> Agreed {
        let Policy { rules, nodes, pool } = policy;
        let [lent_rules, lent_nodes, lent_pool] = self.lend_policy(policy);
        let lent_header = self.arena.lend("header", header);
        let answer = oracle::tree_first(rules, nodes, pool, header);
        let inputs = Inputs { header: Some(header), ..policy_inputs(Call::TreeFirst, case, policy) };
        self.compare(inputs, &[lent_rules, lent_nodes, lent_pool, lent_header], answer)
    }

    /// Both tree searches. All-match has room for every word of the pool, or for 512, and one over; its answer is
    /// given back.
    pub fn tree_searches(&mut self, case: &str, policy: &Policy, header: &[u32]) -> Agreed {
        self.tree_first(case, policy, header)?;
        self.tree_all(case, policy, header, policy.pool.len().min(MOST_RULES) + 1)
    }

    /// The rooms are those of the nodes and of the pool.
    pub fn build(&mut self, case: &str, rules: &[u32], rooms: [usize; 2]) -> Agreed {
        self.arena.take_back();
        let lent_rules = self.arena.lend("rules", rules);
        let Wanted { lent: [nodes, pool], answer, .. } =
            self.lend_tree(rooms, |nodes, pool| oracle::build(rules, nodes, pool));
        let inputs = Inputs { rules: Some(rules), rooms: &rooms, ..Inputs::of(Call::Build, case) };
        self.compare(inputs, &[lent_rules, nodes, pool], answer)
    }

    /// Lends rooms for nodes and for a pool, which are to hold what the oracle writes.
    fn lend_tree(&mut self, rooms: [usize; 2], oracle: impl FnOnce(&mut [u32], &mut [u32]) -> Answer) -> Wanted {
        let [mut nodes, mut pool] = rooms.map(unwritten_words);
        let lent = [self.arena.lend("nodes", &nodes), self.arena.lend("pool", &pool)];
        let answer = oracle(&mut nodes, &mut pool);
        self.arena.want(lent[0], &nodes);
        self.arena.want(lent[1], &pool);
        Wanted { lent, answer, nodes, pool }
    }

    /// Counts so many headers that a second judge has searched for, for the group's line.
    pub fn count_judged(&mut self, headers: u64) {
        self.judged += headers;
    }

    /// Lends the rules, the nodes and the pool.
    fn lend_policy(&mut self, policy: &Policy) -> [Lent; 3] {
        self.arena.take_back();
        let lent_rules = self.arena.lend("rules", &policy.rules);
        let lent_nodes = self.arena.lend("nodes", &policy.nodes);
        let lent_pool = self.arena.lend("pool", &policy.pool);
        [lent_rules, lent_nodes, lent_pool]
    }

    /// Has the library make the call with these slices, and compares the whole arena with what the oracle has left
    /// in its own copy and this answer of it.
    fn compare(&mut self, inputs: Inputs, slices: &[Lent], answer: Answer) -> Agreed {
        let oracle = answer_words(&answer);
        let lent_answer = self.arena.lend_answer();
        self.arena.want_answer(lent_answer, oracle);
        let given = [inputs.rule_count, inputs.most, inputs.asked].into_iter().flatten();
        let mut numbers = [0; 2];
        numbers.iter_mut().zip(given).for_each(|(number, given)| *number = given);
        let request = Request { call: inputs.call, slices, numbers, answer: lent_answer };
        let library = match self.lender.call(self.arena.lent_bytes(), &request) {
            Ok(()) if self.arena.is_as_wanted() => {
                self.calls += 1;
                self.tally[answer.number as usize] += 1;
                return Ok(answer);
            }
            Ok(()) => {
                Deed::Left { answer: self.arena.found_answer(lent_answer), differences: self.arena.differences() }
            }
            Err(silence) => Deed::Stayed(silence),
        };
        Err(Mismatch { group: &self.group, inputs, library, oracle }.to_string())
    }
}

/// Rooms for nodes and for a pool that are lent, what they must hold after the call, and the oracle's answer.
struct Wanted {
    lent: [Lent; 2],
    answer: Answer,
    nodes: Vec<u32>,
    pool: Vec<u32>,
}

/// The call's inputs where they are a list and a tree.
fn policy_inputs<'a>(call: Call, case: &'a str, policy: &'a Policy) -> Inputs<'a> {
    Inputs { rules: Some(&policy.rules), tree: Some((&policy.nodes, &policy.pool)), ..Inputs::of(call, case) }
}

/// How many calls were completed, and how many were refused with each number.
fn tally_text(tally: &Tally) -> String {
    let mut text = format!("{} completed", tally[0]);
    for (number, count) in tally.iter().enumerate().skip(1) {
        if *count > 0 {
            text += &format!(", {count} refused {number}");
        }
    }
    text
}
