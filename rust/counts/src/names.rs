//! What the words of a text mean, by the imports of its file. A thing is known by its whole path, with the crate first:
//! `rules.specs.Good.list_verdict`.

use std::collections::HashMap;

/// The names and the modules that a file brings in, each with its path.
#[derive(Default)]
pub struct Scope {
    names: HashMap<String, String>,
    modules: HashMap<String, String>,
}

impl Scope {
    /// The scope of a file, from its lines that begin with this word: `use M.{a, b as c}`, `use M as m`.
    pub fn of(text: &str, word: &str) -> Scope {
        let mut scope = Scope::default();
        for import in text.lines().filter_map(|line| line.strip_prefix(word)) {
            let import = import.trim_end_matches([';', '}']);
            if let Some((module, names)) = import.split_once(".{") {
                for (name, called) in names.split(", ").map(renamed) {
                    scope.bind(called, format!("{}.{name}", whole(module)));
                }
            } else {
                let (module, called) = renamed(import);
                scope.modules.insert(called.to_string(), whole(module));
            }
        }
        scope
    }

    /// An operator, as `◌then◌`, stands in a text without its two places.
    pub fn bind(&mut self, name: &str, path: String) {
        self.names.insert(name.trim_matches('◌').to_string(), path);
    }

    /// The paths of the words of a text. `(..).field` is a part of a value and has none; `x.` is x, which a λ binds.
    pub fn paths(&self, text: &str) -> Vec<String> {
        let parts = text.split(|c: char| c.is_whitespace() || "(){}[],;λ".contains(c));
        parts.filter_map(|part| self.path(part.trim_end_matches('.'))).collect()
    }

    /// In `a.b` the first word is a module, or a value of which `.b` is a part.
    fn path(&self, word: &str) -> Option<String> {
        let (first, rest) = word.split_once('.').unwrap_or((word, ""));
        if let Some(module) = self.modules.get(first).filter(|_| !rest.is_empty()) {
            return Some(format!("{module}.{rest}"));
        }
        self.names.get(first).cloned()
    }

    /// A parameter hides an import.
    pub fn hide(&mut self, name: &str) {
        self.names.remove(name);
        self.modules.remove(name);
    }
}

/// `a as b` is a, called b.
fn renamed(name: &str) -> (&str, &str) {
    name.split_once(" as ").unwrap_or((name, name))
}

/// `Rattle.rules.specs.Good` is the module `rules.specs.Good`.
fn whole(module: &str) -> String {
    module.trim_start_matches("Rattle.").to_string()
}
