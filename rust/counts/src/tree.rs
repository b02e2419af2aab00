//! The files of the working tree, crate by crate.

use std::collections::BTreeMap;
use std::fs;
use std::io;
use std::path::Path;

/// The texts of a folder's files, by their names without the ending: `Words`, or `line/line_all/Answers`.
pub type Files = BTreeMap<String, String>;

/// A crate that `crates.txt` lists.
#[derive(Default)]
pub struct Crate {
    pub name: String,
    /// Whether it is a static library, on which no crate can stand.
    pub is_static: bool,
    /// The crates that `crates.txt` lets it name.
    pub needs: Vec<String>,
    pub specs: Files,
    pub code: Files,
    pub proofs: Files,
    pub edits: Files,
}

impl Crate {
    pub fn is_program(&self) -> bool {
        self.code.contains_key("main")
    }

    /// Whether it is that crate, or `crates.txt` lets it name that one.
    pub fn may_name(&self, krate: &str) -> bool {
        self.name == krate || self.needs.iter().any(|name| name == krate)
    }
}

pub fn read(root: &Path) -> io::Result<Vec<Crate>> {
    let listed = fs::read_to_string(root.join("crates.txt"))?;
    let named = listed.lines().filter(|line| !line.starts_with('#')).filter_map(|line| line.split_once(':'));
    let crates = named.map(|(head, needs)| {
        // The name, and then what `rt` is to make of the crate.
        let (name, kind) = head.split_once(' ').unwrap_or((head, ""));
        let folder = root.join("crates").join(name);
        Ok(Crate {
            name: name.to_string(),
            is_static: kind.split(' ').any(|word| word == "staticlib"),
            needs: needs.split_whitespace().map(str::to_string).collect(),
            specs: files(&folder.join("specs"), ".antt")?,
            code: files(&folder.join("src"), ".rt")?,
            proofs: files(&folder.join("proofs"), ".antt")?,
            edits: files(&folder.join("must-fail"), ".edit")?,
        })
    });
    crates.collect()
}

/// The files with that ending, of the folders below too; none where there is no such folder.
fn files(folder: &Path, ending: &str) -> io::Result<Files> {
    let mut found = Files::new();
    if !folder.is_dir() {
        return Ok(found);
    }
    for entry in fs::read_dir(folder)? {
        let path = entry?.path();
        let name = path.file_name().unwrap_or_default().to_string_lossy();
        if path.is_dir() {
            found.extend(files(&path, ending)?.into_iter().map(|(below, text)| (format!("{name}/{below}"), text)));
        } else if let Some(name) = name.strip_suffix(ending) {
            found.insert(name.to_string(), fs::read_to_string(&path)?);
        }
    }
    Ok(found)
}
