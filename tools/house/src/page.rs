//! The list in docs/BELIEVE.md.

use crate::specs::{House, Place};
use std::collections::BTreeSet;
use std::fs;
use std::io;

const PAGE: &str = "docs/BELIEVE.md";
const BEGIN: &str = "<!-- tools/believe writes this list -->";
const END: &str = "<!-- the list ends -->";

/// The believed files in reading order: crates as crates.txt has them, and in a crate each file after those it uses.
fn order(house: &House, believed: &BTreeSet<Place>) -> Vec<Place> {
    let mut out: Vec<Place> = Vec::new();
    for library in &house.crates {
        let mut left: BTreeSet<Place> = believed.iter().filter(|p| p.library == *library).cloned().collect();
        while !left.is_empty() {
            let ready = left.iter().find(|p| house.below(p).iter().all(|b| b == *p || !left.contains(b)));
            let next = ready.or(left.first()).cloned().expect("some are left");
            left.remove(&next);
            out.push(next);
        }
    }
    out
}

/// The first sentence of a file's header.
fn sentence(header: &str) -> String {
    let header = header.replace('|', "\\|");
    let end = header.match_indices(". ").map(|(i, _)| i + 1).find(|i| header[..*i].matches('"').count() % 2 == 0);
    header[..end.unwrap_or(header.len())].trim().to_string()
}

pub fn list(house: &House, believed: &BTreeSet<Place>) -> String {
    let mut out = String::new();
    let mut lines = 0;
    let places = order(house, believed);
    let mut library = "";
    for place in &places {
        let file = &house.files[place];
        if library != place.library {
            library = &place.library;
            out.push_str(&format!("\n**{library}**\n\n| File | Lines | What it says |\n|---|---|---|\n"));
        }
        let path = place.path();
        let name = path.strip_prefix(format!("crates/{library}")).unwrap_or(&path);
        out.push_str(&format!("| {} | {} | {} |\n", name.display(), file.lines, sentence(&file.header)));
        lines += file.lines;
    }
    out.push_str(&format!("\n{} files, {lines} lines.\n", places.len()));
    out
}

/// Writes the list into the page, or says where the page's list is another.
pub fn hold(list: &str, write: bool) -> io::Result<Option<String>> {
    let page = fs::read_to_string(PAGE)?;
    let (Some(begin), Some(end)) = (page.find(BEGIN), page.find(END)) else {
        return Ok(Some(format!("{PAGE} has no place for the list: {BEGIN} .. {END}")));
    };
    let wanted = format!("{}\n{list}\n{}", &page[..begin + BEGIN.len()], &page[end..]);
    if wanted == page {
        return Ok(None);
    }
    if write {
        fs::write(PAGE, wanted)?;
        return Ok(None);
    }
    let had: BTreeSet<&str> = page.lines().collect();
    let first = wanted.lines().find(|l| !had.contains(l)).unwrap_or("a line too many");
    Ok(Some(format!("{PAGE} is not what the code says, first at: {first}; tools/believe --write mends it")))
}
