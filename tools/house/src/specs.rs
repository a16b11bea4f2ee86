//! Files of definitions and laws, and what they say of each other.

use std::borrow::Cow;
use std::collections::{BTreeMap, BTreeSet};
use std::fs;
use std::io;
use std::path::{Path, PathBuf};

/// A file of definitions or laws: its crate, and its module, as `Fire` (specs/) or `laws.Fire` (proofs/laws/); `declared` stands for the types in the crate's source.
#[derive(Clone, Debug, PartialEq, Eq, PartialOrd, Ord)]
pub struct Place {
    pub library: Cow<'static, str>,
    pub module: Cow<'static, str>,
}

impl Place {
    pub const fn fixed(library: &'static str, module: &'static str) -> Self {
        Place { library: Cow::Borrowed(library), module: Cow::Borrowed(module) }
    }

    fn new(library: &str, module: &str) -> Self {
        Place { library: Cow::Owned(library.to_string()), module: Cow::Owned(module.to_string()) }
    }

    pub fn path(&self) -> PathBuf {
        if self.module == "declared" {
            return PathBuf::from(format!("crates/{}/src/lib.rt", self.library));
        }
        let folder = if self.module.starts_with("laws.") { "proofs" } else { "specs" };
        PathBuf::from(format!("crates/{}/{folder}/{}.antt", self.library, self.module.replace('.', "/")))
    }
}

#[derive(PartialEq)]
enum Sort {
    Definition,
    Law,
}

struct Item {
    names: Vec<String>,
    sort: Sort,
    public: bool,
    words: BTreeSet<String>,
    /// The words of a law's statement, without its proof.
    statement: BTreeSet<String>,
}

pub struct File {
    pub header: String,
    pub lines: usize,
    items: Vec<Item>,
    /// Where each imported name comes from, and its name there.
    imports: BTreeMap<String, (Place, String)>,
}

pub struct House {
    pub crates: Vec<String>,
    pub files: BTreeMap<Place, File>,
}

fn words(text: &str) -> BTreeSet<String> {
    let mut out = BTreeSet::new();
    for line in text.lines() {
        let line = line.split("--").next().unwrap_or("");
        for word in line.split(|c: char| c.is_whitespace() || "(){},;".contains(c)) {
            // What follows a dot is a field.
            let word = word.split('.').next().unwrap_or("");
            if !word.is_empty() {
                out.insert(word.trim_matches(|c| c == '«' || c == '»').to_string());
            }
        }
    }
    out
}

/// The crate and module of a path as `Rattle.rules_moves.specs.Fire` or `Rattle.rules_moves.proofs.laws.Fire`. Other files of proofs/ hold nothing that
/// a statement names.
fn place_of(path: &str) -> Option<Place> {
    let (library, rest) = path.strip_prefix("Rattle.")?.split_once('.')?;
    if let Some(module) = rest.strip_prefix("specs.") {
        return Some(Place::new(library, if module.starts_with("declared") { "declared" } else { module }));
    }
    rest.strip_prefix("proofs.").filter(|m| m.starts_with("laws.")).map(|m| Place::new(library, m))
}

fn imports(line: &str, out: &mut BTreeMap<String, (Place, String)>) {
    let Some((path, names)) = line.split_once(".{") else { return };
    let Some(place) = place_of(path) else { return };
    for name in names.trim_end_matches(['}', ';']).split(", ") {
        let (there, here) = name.split_once(" as ").unwrap_or((name, name));
        let bare = |x: &str| x.trim_matches(|c| c == '«' || c == '»').to_string();
        out.insert(bare(here), (place.clone(), bare(there)));
    }
}

fn indent(line: &str) -> usize {
    line.len() - line.trim_start().len()
}

/// The name that a line declares, whether it is public, and what it is; `ind` is the indentation of declarations here.
fn declared(line: &str, ind: usize) -> Option<(String, bool, Sort)> {
    if indent(line) != ind || line.trim_start().starts_with("--") {
        return None;
    }
    let mut rest = line.trim_start();
    let mut sort = Sort::Law;
    let mut public = false;
    loop {
        let (first, after) = rest.split_once(' ')?;
        match first {
            "pub" => public = true,
            "abbrev" | "unfoldable" | "record" | "data" => sort = Sort::Definition,
            "module" | "use" | "unfolding" | "where" | "mutual" => return None,
            name => {
                let after = after.trim_start_matches(|c| c != ':' && c != '=').trim_start();
                let is = sort == Sort::Definition || after.starts_with(':') && !line.contains(" = ");
                return is.then(|| (name.trim_matches(|c| c == '«' || c == '»').to_string(), public, sort));
            }
        }
        rest = after;
    }
}

impl File {
    fn read(path: &Path) -> io::Result<File> {
        let text = fs::read_to_string(path)?;
        let mut header = String::new();
        let mut imported = BTreeMap::new();
        let mut body = Vec::new();
        for line in text.lines() {
            if body.is_empty() && imported.is_empty() && (line.starts_with("-- ") || line.starts_with("// ")) {
                header = format!("{header} {}", &line[3..]);
            } else if line.starts_with("use ") {
                imports(line.trim_start_matches("use "), &mut imported);
            } else if !(body.is_empty() && line.is_empty()) {
                body.push(line);
            }
        }
        Ok(File { header: header.trim().to_string(), lines: text.lines().count(), items: items(&body), imports: imported })
    }
}

/// The items of a file. Declarations stand at the left, or two or more to the right in a module with parameters.
fn items(body: &[&str]) -> Vec<Item> {
    let mut out: Vec<(String, bool, Sort, Vec<&str>)> = Vec::new();
    let mut depth = 0;
    for line in body {
        if line.trim_start().starts_with("module ") {
            depth = indent(line) + 2;
        } else if !line.is_empty() && indent(line) < depth && !line.trim_start().starts_with("--") {
            depth = indent(line) - indent(line) % 2;
        }
        let here = (0..=depth).step_by(2).find_map(|ind| declared(line, ind));
        match here {
            Some((name, public, sort)) => out.push((name, public, sort, vec![line])),
            None => {
                if let Some(last) = out.last_mut() {
                    last.3.push(line);
                }
            }
        }
    }
    out.into_iter().map(item).collect()
}

fn item((name, public, sort, lines): (String, bool, Sort, Vec<&str>)) -> Item {
    let mut names = vec![name.clone()];
    if lines[0].contains("data ") {
        names.extend(lines[1..].iter().filter_map(|l| l.trim().split_once(" :").map(|(n, _)| n.to_string())));
    }
    let statement: Vec<&str> = lines
        .iter()
        .enumerate()
        .take_while(|(i, l)| *i == 0 || !(l.trim_start().starts_with("unfolding") || l.trim_start().starts_with(&format!("{name} "))))
        .map(|(_, l)| *l)
        .collect();
    Item { names, sort, public, words: words(&lines.join("\n")), statement: words(&statement.join("\n")) }
}

impl House {
    pub fn read() -> io::Result<House> {
        let list = fs::read_to_string("crates.txt")?;
        let crates: Vec<String> =
            list.lines().filter(|l| !l.starts_with('#')).filter_map(|l| l.split([' ', ':']).next().map(str::to_string)).collect();
        let mut files = BTreeMap::new();
        for library in &crates {
            for (folder, prefix) in [("specs", ""), ("proofs/laws", "laws.")] {
                let folder = format!("crates/{library}/{folder}");
                let Ok(entries) = fs::read_dir(&folder) else { continue };
                for entry in entries {
                    let name = entry?.file_name().into_string().unwrap_or_default();
                    let Some(module) = name.strip_suffix(".antt") else { continue };
                    if module == "Lib" || module == "laws" {
                        continue;
                    }
                    let place = Place::new(library, &format!("{prefix}{module}"));
                    files.insert(place.clone(), File::read(&place.path())?);
                }
            }
            let place = Place::new(library, "declared");
            if place.path().exists() {
                files.insert(place.clone(), File::read(&place.path())?);
            }
        }
        Ok(House { crates, files })
    }

    /// Files that hold both definitions and laws, or one where the other belongs.
    pub fn mixed(&self) -> Vec<String> {
        let mut out = Vec::new();
        for (place, file) in self.files.iter().filter(|(p, _)| p.module != "declared") {
            let laws = place.module.starts_with("laws.");
            for item in &file.items {
                let wrong = if laws { item.public && item.sort == Sort::Definition } else { item.sort == Sort::Law };
                if wrong {
                    let what = if laws { "a definition among laws" } else { "a law among definitions" };
                    out.push(format!("{}: `{}` is {what}", place.path().display(), item.names[0]));
                }
            }
        }
        out
    }

    /// The files with the definitions that these contracts and laws (all public ones of a file, or the one named) rest on.
    pub fn reach(&self, contracts: &[&str], theorems: &[(Place, &str)], between: &[&str]) -> BTreeSet<Place> {
        let mut seen: BTreeSet<(Place, String)> = BTreeSet::new();
        let mut todo: Vec<(Place, String)> = Vec::new();
        for path in contracts {
            todo.extend(contract_names(path));
        }
        for (place, name) in theorems {
            if let Some(file) = self.files.get(place) {
                for item in file.items.iter().filter(|i| i.public && (name.is_empty() || i.names[0] == *name)) {
                    todo.extend(self.named(place, file, &item.statement));
                }
            }
        }
        let mut believed = BTreeSet::new();
        while let Some((place, name)) = todo.pop() {
            if between.contains(&name.as_str()) || !seen.insert((place.clone(), name.clone())) {
                continue;
            }
            let Some(file) = self.files.get(&place) else { continue };
            if place.module == "declared" {
                believed.insert(place);
                continue;
            }
            // a law is proved, and nothing in it has to be believed
            for item in file.items.iter().filter(|i| i.sort == Sort::Definition && i.names.contains(&name)) {
                believed.insert(place.clone());
                todo.extend(self.named(&place, file, &item.words));
            }
        }
        believed
    }

    /// What these words of a file name: what it imports, or its own items.
    fn named(&self, place: &Place, file: &File, words: &BTreeSet<String>) -> Vec<(Place, String)> {
        let mut out = Vec::new();
        for (name, from) in &file.imports {
            let core = name.trim_matches('◌');
            if words.contains(name) || words.contains(core) {
                out.push(from.clone());
            }
        }
        for item in &file.items {
            if item.names.iter().any(|n| words.contains(n)) {
                out.push((place.clone(), item.names[0].clone()));
            }
        }
        out
    }

    /// The files that a file's imports name.
    pub fn below(&self, place: &Place) -> BTreeSet<Place> {
        self.files.get(place).map(|f| f.imports.values().map(|(p, _)| p.clone()).collect()).unwrap_or_default()
    }
}

/// What the promises of the public functions of a source file name, and what the types keep that these functions take or answer. A promise stands between
/// braces, after its kind and maybe its name, on one line or more.
fn contract_names(path: &str) -> Vec<(Place, String)> {
    let Ok(text) = fs::read_to_string(path) else { return Vec::new() };
    let mut imported = BTreeMap::new();
    let mut promised = BTreeSet::new();
    let mut signed = BTreeSet::new();
    let mut public = false;
    let mut signature = false;
    let mut open = 0;
    for line in text.lines() {
        if let Some(rest) = line.strip_prefix("ghost use ") {
            imports(rest, &mut imported);
        }
        let start = line.trim_start();
        if start.starts_with("pub fn ") || start.starts_with("pub extern ") {
            (public, signature) = (true, true);
        } else if start.starts_with("fn ") {
            (public, signature) = (false, false);
        }
        let clause = start.starts_with("ensures") || start.starts_with("requires");
        signature = signature && !clause;
        if signature {
            signed.extend(start.split(|c: char| !c.is_alphanumeric()).map(str::to_string));
            signature = !start.ends_with('{');
        }
        let promise = match open {
            0 if clause => start.find('{').map_or("", |at| &start[at..]),
            0 => continue,
            _ => start,
        };
        open = (open + promise.matches('{').count()).saturating_sub(promise.matches('}').count());
        if public {
            promised.extend(words(promise));
        }
    }
    let kept =
        sources(path, &text).into_iter().filter(|(here, _)| signed.contains(here)).flat_map(|(_, (source, there))| ghost_names(&source, &there));
    imported.into_iter().filter(|(name, _)| promised.contains(name)).map(|(_, from)| from).chain(kept).collect()
}

/// Where each imported name comes from, a source file and its name there: `store_words::network::Network` is of crates/store_words/src/network.rt. An import
/// may go over several lines.
fn sources(path: &str, text: &str) -> BTreeMap<String, (String, String)> {
    let own = path.split('/').nth(1).unwrap_or("");
    let mut out = BTreeMap::new();
    for import in text.split("\nuse ").skip(1) {
        let Some((from, names)) = import.split(';').next().and_then(|i| i.rsplit_once("::")) else { continue };
        let (library, module) = from.split_once("::").unwrap_or((from, "lib"));
        let library = if library == "crate" { own } else { library };
        for name in names.split(['{', '}', ',']).map(str::trim).filter(|name| !name.is_empty()) {
            let (there, here) = name.split_once(" as ").unwrap_or((name, name));
            out.insert(here.to_string(), (format!("crates/{library}/src/{}.rt", module.replace("::", "/")), there.to_string()));
        }
    }
    out
}

/// What the ghost fields of a type name: a promise that each value of it keeps, and a demand on who makes one.
fn ghost_names(path: &str, name: &str) -> Vec<(Place, String)> {
    let Ok(text) = fs::read_to_string(path) else { return Vec::new() };
    let mut imported = BTreeMap::new();
    for line in text.lines() {
        if let Some(rest) = line.strip_prefix("ghost use ") {
            imports(rest, &mut imported);
        }
    }
    let head = format!("pub struct {name}");
    let begins = |l: &str| l.strip_prefix(&head).is_some_and(|rest| !rest.starts_with(char::is_alphanumeric));
    let body = text.lines().skip_while(|l| !begins(l)).take_while(|l| *l != "}");
    let kept: BTreeSet<String> = body.filter(|l| l.contains("ghost ")).flat_map(words).collect();
    imported.into_iter().filter(|(name, _)| kept.contains(name)).map(|(_, from)| from).collect()
}
