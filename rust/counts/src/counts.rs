//! What is counted: the definitions with who cites each, the functions, and the lines.

use std::collections::{HashMap, HashSet};

use crate::code::{self, Function};
use crate::guards::{self, VECTORS};
use crate::names::Scope;
use crate::specs::{self, Definition};
use crate::tree::Crate;

pub struct Counts {
    pub crates: Vec<Crate>,
    pub definitions: Vec<Definition>,
    pub functions: Vec<Function>,
    /// The public calls, as places in `functions`.
    pub calls: Vec<usize>,
    /// Who cites each definition first, itself or through others: 0 the public calls, 1 the claims besides, 2 the runs
    /// of the programs besides, 3 other public functions, 4 proofs alone.
    pub columns: Vec<usize>,
}

/// How many columns there are, and how many of them, from the first on, are to be believed.
pub const COLUMNS: usize = 5;
pub const BELIEVED: usize = 3;

impl Counts {
    pub fn new(crates: Vec<Crate>) -> Result<Counts, String> {
        let mut definitions = Vec::new();
        let mut functions = Vec::new();
        for one in &crates {
            for (file, text) in &one.specs {
                definitions.extend(specs::definitions(&one.name, file, text)?);
            }
            for (file, text) in &one.code {
                definitions.extend(code::types(&one.name, file, text));
                functions.extend(code::functions(&one.name, file, text));
            }
        }
        guards::hold(&crates, &functions)?;
        let calls = calls(&crates, &functions)?;
        let lines = lines(claims(&crates, "Demand1")?);
        if let Some(at) = calls.iter().find(|at| !lines.contains(&functions[**at].name.as_str())) {
            return Err(format!("Calls of Demand1.antt has no line for {}", functions[*at].name));
        }
        exported(&crates, &functions, &calls)?;
        let mut counts = Counts { crates, definitions, functions, calls, columns: Vec::new() };
        counts.columns = counts.reached()?;
        if let Some(one) = counts.public().find(|one| one.requires) {
            return Err(format!("{}::{}::{} is public and has a requires", one.krate, one.file, one.name));
        }
        if let Some(one) = counts.public().find(|one| !one.ensures) {
            return Err(format!("{}::{}::{} is public and promises nothing", one.krate, one.file, one.name));
        }
        Ok(counts)
    }

    /// The column of each definition. A path into `specs/` of this tree must mean one that is known.
    fn reached(&self) -> Result<Vec<usize>, String> {
        let known = self.definitions.iter().enumerate();
        let places: HashMap<&str, usize> =
            known.flat_map(|(at, one)| one.paths.iter().map(move |path| (path.as_str(), at))).collect();
        let of_calls = self.calls.iter().flat_map(|at| &self.functions[*at].cites).collect();
        let claims = self.definitions.iter().filter(|one| one.krate == "claims").flat_map(|one| &one.paths).collect();
        let runs = self.functions.iter().filter(|one| one.name == "run" && self.is_served(&one.krate));
        let of_runs = runs.flat_map(|one| &one.cites).collect();
        let of_others = self.public().flat_map(|one| &one.cites).collect();
        let mut columns = vec![COLUMNS - 1; self.definitions.len()];
        for (column, cited) in [of_calls, claims, of_runs, of_others].into_iter().enumerate() {
            let mut cited: Vec<&String> = cited;
            while let Some(path) = cited.pop() {
                match starts(path).find_map(|path| places.get(path)) {
                    Some(at) if column < columns[*at] => {
                        columns[*at] = column;
                        cited.extend(&self.definitions[*at].cites);
                    }
                    None if self.crates.iter().any(|one| path.starts_with(&format!("{}.specs.", one.name))) => {
                        return Err(format!("{path} is cited, and no such definition is found"));
                    }
                    _ => {}
                }
            }
        }
        Ok(columns)
    }

    /// The public functions of the libraries.
    pub fn public(&self) -> impl Iterator<Item = &Function> {
        self.functions.iter().filter(|one| one.public && !self.is_program(&one.krate))
    }

    pub fn is_program(&self, krate: &str) -> bool {
        self.crates.iter().any(|one| one.name == krate && one.is_program())
    }

    /// Whether it is a program that is served, and not that of the examples.
    pub fn is_served(&self, krate: &str) -> bool {
        self.is_program(krate) && krate != VECTORS
    }

    /// The definitions of `specs/` that have these paths, each once.
    pub fn cited<'a>(&'a self, paths: &'a [String]) -> impl Iterator<Item = &'a Definition> {
        let mut seen = HashSet::new();
        let known =
            |path| self.definitions.iter().position(|one| !one.of_code && one.paths.iter().any(|own| own == path));
        let cited = paths.iter().filter_map(move |path| starts(path).find_map(known));
        cited.filter(move |at| seen.insert(*at)).map(|at| &self.definitions[at])
    }

    /// The lines of the definitions for which the test holds.
    pub fn lines(&self, holds: impl Fn(&Definition, usize) -> bool) -> usize {
        let own = self.definitions.iter().zip(&self.columns).filter(|(one, column)| holds(one, **column));
        own.map(|(one, _)| one.lines).sum()
    }

    /// The lines of code of the crates for which the test holds.
    pub fn code_lines(&self, holds: impl Fn(&Crate) -> bool) -> usize {
        let texts = self.crates.iter().filter(|one| holds(one)).flat_map(|one| one.code.values());
        texts.map(|text| code::lines(text).len()).sum()
    }

    /// All lines of `proofs/`.
    pub fn proof_lines(&self) -> usize {
        self.crates.iter().flat_map(|one| one.proofs.values()).map(|text| text.lines().count()).sum()
    }

    /// The names of the wrong answers that the prover must refuse.
    pub fn edits(&self) -> Vec<&str> {
        self.crates.iter().flat_map(|one| one.edits.keys()).map(String::as_str).collect()
    }
}

/// A path, and its starts: in `low.specs.Words.top.size` the last word may be a part of the value `top`.
fn starts(path: &str) -> impl Iterator<Item = &str> {
    std::iter::successors(Some(path), |path| Some(path.rsplit_once('.')?.0))
}

/// A file of the claims.
fn claims<'a>(crates: &'a [Crate], file: &str) -> Result<&'a str, String> {
    let claims = crates.iter().find(|one| one.name == "claims").and_then(|one| one.specs.get(file));
    claims.map(String::as_str).ok_or(format!("there is no crates/claims/specs/{file}.antt"))
}

/// The names of the lines of the claim `Calls`, which are those of the calls.
fn lines(claims: &str) -> Vec<&str> {
    let record = claims.split("pub record Calls ").nth(1).unwrap_or("").lines().skip(1);
    let own = record.take_while(|line| line.is_empty() || line.starts_with(' '));
    own.filter_map(|line| line.strip_prefix("  pub ")?.split(' ').next()).collect()
}

/// The functions that the claim `Code` names, as `in-rules.check.rule_check.Statement.statement`.
fn calls(crates: &[Crate], functions: &[Function]) -> Result<Vec<usize>, String> {
    let claims = claims(crates, "Code")?;
    let named = Scope::of(claims, "use ").paths(claims);
    let statements = named.iter().filter_map(|path| path.strip_suffix(".Statement.statement"));
    let place = |path: &str| {
        let its = |one: &Function| format!("{}.proofs.{}.{}", one.krate, one.file.replace('/', "."), one.name);
        let is = |one: &Function| one.public && path == its(one);
        functions.iter().position(is).ok_or(format!("Code.antt names {path}, which is no public function"))
    };
    statements.map(place).collect()
}

/// The claims name no function of a static library, since no crate can stand on one. So each must be a public call, as
/// another crate has it, word for word: with its name, its parameters and its contract.
fn exported(crates: &[Crate], functions: &[Function], calls: &[usize]) -> Result<(), String> {
    let is_static = |name: &str| crates.iter().any(|one| one.name == name && one.is_static);
    for one in functions.iter().filter(|one| is_static(&one.krate)) {
        let same = |at: &&usize| functions[**at].says() == one.says() && functions[**at].cites == one.cites;
        if calls.iter().find(same).is_none() {
            return Err(format!(
                "{}::{}::{} promises what no public call of that name does",
                one.krate, one.file, one.name
            ));
        }
    }
    Ok(())
}
