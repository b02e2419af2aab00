//! The functions and the types of a file of `src/`, as `rt fmt` lays them out.

use crate::names::Scope;
use crate::specs::Definition;

pub struct Function {
    pub krate: String,
    pub file: String,
    pub name: String,
    pub public: bool,
    /// How many lines it has, without comments and empty lines.
    pub lines: usize,
    /// Whether its contract asks anything of its caller, and whether it promises anything.
    pub requires: bool,
    pub ensures: bool,
    /// The paths that its contract names.
    pub cites: Vec<String>,
    pub signature: String,
    /// The clauses, between signature and body.
    pub contract: String,
    /// What stands behind the brace that opens its body.
    pub body: String,
}

/// What is no line of code: comments, attributes, imports, and the names of modules.
const OTHER: [&str; 7] = ["//", "#[", "#![", "use ", "ghost use ", "mod ", "pub mod "];

pub fn lines(text: &str) -> Vec<&str> {
    let counted = |line: &&str| !OTHER.iter().any(|start| line.trim_start().starts_with(start));
    text.lines().filter(|line| !line.trim().is_empty()).filter(counted).collect()
}

/// The items of these kinds, `pub` or not, each with its lines up to the brace that closes it.
fn items<'a>(text: &'a str, kinds: &[&str]) -> Vec<Vec<&'a str>> {
    let mut found = Vec::new();
    let lines = lines(text);
    for (at, line) in lines.iter().enumerate() {
        let bare = line.trim_start();
        let kind = bare.strip_prefix("pub(crate) ").or(bare.strip_prefix("pub ")).unwrap_or(bare);
        if kinds.iter().any(|word| kind.starts_with(word)) {
            let closes = |other: &&str| **other == format!("{}}}", &line[..line.len() - bare.len()]);
            let short = line.ends_with(['}', ';']);
            let end = if short { 0 } else { lines[at..].iter().position(closes).unwrap_or(0) };
            found.push(lines[at..=at + end].to_vec());
        }
    }
    found
}

pub fn functions(krate: &str, file: &str, text: &str) -> Vec<Function> {
    let items = items(text, &["fn ", "extern \"C\" fn "]);
    items.iter().map(|lines| function(krate, file, Scope::of(text, "ghost use "), lines)).collect()
}

/// Whether a clause begins in this line: `ensures { .. }`, or with a name, `ensures within { .. }`. It may end further
/// down.
fn clause(line: &&str) -> bool {
    ["requires ", "ensures "].iter().any(|word| line.trim_start().starts_with(word))
}

/// What a line of a contract says: of the first line of a clause, what stands behind the brace.
fn said(line: &&str) -> String {
    let behind = line.split_once('{').filter(|_| clause(line));
    behind.map_or(*line, |(_, behind)| behind).to_string()
}

fn function(krate: &str, file: &str, mut scope: Scope, lines: &[&str]) -> Function {
    // The body's brace stands behind the clauses, and not within one.
    let mut within = 0;
    let opens = |line: &&str| {
        let body = within == 0 && line.ends_with('{') && !clause(line);
        within += line.matches('{').count();
        within -= line.matches('}').count().min(within);
        body
    };
    let body = lines.iter().position(opens).unwrap_or(0);
    let signed = lines[..body].iter().position(clause).unwrap_or(body);
    let signature = lines[..signed.max(1)].concat();
    for (parameter, _) in signature.split(['(', ',']).filter_map(|part| part.split_once(": ")) {
        scope.hide(parameter.trim());
    }
    let clauses = &lines[signed.min(body)..body];
    let begins = |word: &str| clauses.iter().any(|line| line.trim_start().starts_with(word));
    Function {
        krate: krate.to_string(),
        file: file.to_string(),
        name: between(&signature, "fn ", "(").to_string(),
        public: signature.trim_start().starts_with("pub "),
        lines: lines.len(),
        requires: begins("requires "),
        ensures: begins("ensures "),
        cites: scope.paths(&clauses.iter().map(said).collect::<Vec<_>>().join("\n")),
        contract: clauses.join("\n"),
        body: lines[body..].join("\n").split_once('{').map_or(String::new(), |(_, body)| body.to_string()),
        signature,
    }
}

impl Function {
    /// Its name, its parameters and its contract, without the blanks by which it is laid out.
    pub fn says(&self) -> String {
        let from = self.signature.find("fn ").unwrap_or(0);
        let said = format!("{} {}", self.signature[from..].trim_end_matches('{'), self.contract);
        said.split_whitespace().collect::<String>().replace(",)", ")")
    }
}

fn between<'a>(text: &'a str, before: &str, after: &str) -> &'a str {
    text.split(before).nth(1).unwrap_or("").split(after).next().unwrap_or("")
}

/// The enums and structs, by the paths under which definitions name them and their variants.
pub fn types(krate: &str, file: &str, text: &str) -> Vec<Definition> {
    let below = if file == "lib" { String::new() } else { format!(".{}", file.replace('/', ".")) };
    let module = format!("{krate}.specs.declared{below}");
    let word = |text: &str| text.trim_start().split(|c: char| !c.is_alphanumeric()).next().unwrap_or("").to_string();
    let declared = |lines: &Vec<&str>| {
        let kind = if lines[0].contains("enum ") { "enum " } else { "struct " };
        let name = word(between(lines[0], kind, "{"));
        let variants = lines.iter().map(|line| format!("{module}.{name}.TheVariants.{}", word(line)));
        Definition {
            krate: krate.to_string(),
            file: file.to_string(),
            of_code: true,
            paths: variants.chain([format!("{module}.{name}.{name}")]).collect(),
            lines: lines.len(),
            cites: Vec::new(),
            name,
        }
    };
    items(text, &["enum ", "struct "]).iter().map(declared).collect()
}
