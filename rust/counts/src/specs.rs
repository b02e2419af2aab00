//! The definitions of a file of `specs/`.

use crate::names::Scope;

/// A definition of `specs/`; or an enum or a struct of `src/`, which definitions name.
pub struct Definition {
    pub krate: String,
    pub file: String,
    pub name: String,
    pub of_code: bool,
    /// The paths that mean it: its own, and those of its constructors.
    pub paths: Vec<String>,
    /// How many lines it has, without comments and empty lines.
    pub lines: usize,
    /// The paths that it names.
    pub cites: Vec<String>,
}

/// The lines that belong to no definition: comments, imports, and how a file or an operator is put together.
const OTHER: [&str; 5] = ["--", "use ", "pub mod ", "infix", "module "];

pub fn definitions(krate: &str, file: &str, text: &str) -> Result<Vec<Definition>, String> {
    let mut found: Vec<(&str, Vec<&str>)> = Vec::new();
    for line in text.lines().filter(|line| !line.trim().is_empty()) {
        if OTHER.iter().any(|start| line.trim_start().starts_with(start)) {
            continue;
        }
        found.extend(begins(line).map(|name| (name, Vec::new())));
        let last = found.last_mut().ok_or(format!("crates/{krate}/specs/{file}.antt: not understood: {line}"))?;
        last.1.push(line);
    }
    let mut scope = Scope::of(text, "use ");
    let path = |name: &str| format!("{krate}.specs.{}.{name}", file.replace('/', "."));
    let names = |name, lines| [vec![name], constructors(lines)].concat();
    for (name, lines) in &found {
        names(*name, lines).iter().for_each(|name| scope.bind(name, path(name)));
    }
    let made = found.iter().map(|(name, lines)| Definition {
        krate: krate.to_string(),
        file: file.to_string(),
        name: name.to_string(),
        of_code: false,
        paths: names(*name, lines).into_iter().map(path).collect(),
        lines: lines.len(),
        cites: scope.paths(&lines.join("\n")),
    });
    Ok(made.collect())
}

/// The name of the definition that begins in this line: one is marked, or is a signature at the line's start.
fn begins(line: &str) -> Option<&str> {
    let marks = ["abbrev", "unfoldable", "record", "data", "pub", "pattern"];
    let mut words = line.split_whitespace().skip_while(|word| marks.contains(word));
    let name = words.next().filter(|name| *name != "{")?;
    let marked = marks[..4].iter().any(|mark| line.split_whitespace().take(2).any(|word| word == *mark));
    (marked || (!line.starts_with(' ') && words.next() == Some(":"))).then_some(name)
}

/// The constructors of a `data` definition stand two columns further in than its head.
fn constructors<'a>(lines: &[&'a str]) -> Vec<&'a str> {
    let indent = |line: &str| line.len() - line.trim_start().len();
    let own = lines.iter().filter(|line| lines[0].contains("data ") && indent(line) == indent(lines[0]) + 2);
    own.flat_map(|line| line.split(" :").next().unwrap_or("").split_whitespace()).collect()
}
