//! Holds docs/PROMISES.md and docs/READING.md against the crates: what they
//! name is defined in the file, or the crate, that stands beside it.

mod repository;

use std::{
    collections::BTreeSet,
    fs,
    path::{Path, PathBuf},
};

use repository::{read, root};

/// The names that a file of definitions, proofs or code defines: of the first
/// word behind such words as `pub`, if a type or a parameter follows it.
fn defined(source: &str) -> BTreeSet<&str> {
    const BEFORE: [&str; 13] = [
        "pub",
        "pub(crate)",
        "abbrev",
        "unfoldable",
        "record",
        "data",
        "fn",
        "struct",
        "enum",
        "const",
        "type",
        "ghost",
        "extern \"C\"",
    ];
    source
        .lines()
        .filter_map(|line| {
            let mut rest = line.trim_start();
            while let Some(next) = BEFORE
                .iter()
                .find_map(|word| rest.strip_prefix(word)?.strip_prefix(' '))
            {
                rest = next;
            }
            let end = rest.find([' ', ':', '(', '{', '<'])?;
            let follows = rest[end..].trim_start();
            follows
                .starts_with([':', '(', '{', '<'])
                .then_some(&rest[..end])
        })
        .collect()
}

/// All files below a folder, but for what the prover keeps in a crate's
/// `out`, or the file itself.
fn files(path: &Path) -> Vec<PathBuf> {
    match fs::read_dir(path) {
        Err(_) => vec![path.to_owned()],
        Ok(_) if path.ends_with("out") => vec![],
        Ok(entries) => entries
            .flat_map(|entry| files(&entry.expect("an entry").path()))
            .collect(),
    }
}

/// The texts between backticks.
fn quoted(cell: &str) -> Vec<&str> {
    cell.split('`').skip(1).step_by(2).collect()
}

/// The names between backticks: no path, no formula, no sentence.
fn names(cell: &str) -> Vec<&str> {
    let is_name = |text: &&str| {
        text.chars().any(char::is_alphabetic)
            && !text.contains([' ', '/', '.', '$', ',', '*', '+'])
            && !text.starts_with('-')
            && !WORDS.contains(text)
    };
    quoted(cell).into_iter().filter(is_name).collect()
}

/// Words between backticks that are no names of ours.
const WORDS: [&str; 14] = [
    "requires",
    "ensures",
    "do",
    "specs",
    "proofs",
    "src",
    "stdout",
    "min",
    "opt",
    "alt",
    "match",
    "unwrap",
    "unreachable!",
    "parse_num",
];

/// The rows of a document's tables.
fn rows(document: &str) -> Vec<(usize, Vec<&str>)> {
    document
        .lines()
        .enumerate()
        .filter(|(_, line)| line.starts_with('|') && !line.starts_with("|-"))
        .map(|(at, line)| {
            (
                at + 1,
                line.trim_matches('|').split(" | ").map(str::trim).collect(),
            )
        })
        .collect()
}

#[test]
fn what_promises_names_is_defined_where_it_says() {
    let document = read("docs/PROMISES.md");
    let (mut wrong, mut found) = (vec![], 0);
    for (at, cells) in rows(&document) {
        let [_, what, place] = cells[..] else {
            panic!("docs/PROMISES.md:{at}: not three cells")
        };
        let paths: Vec<&str> = quoted(place)
            .into_iter()
            .filter(|text| text.starts_with("crates/"))
            .collect();
        if paths.is_empty() {
            continue;
        }
        let sources: Vec<String> = paths
            .iter()
            .flat_map(|path| files(&root().join(path)))
            .map(|path| {
                fs::read_to_string(&path).unwrap_or_else(|error| {
                    panic!("docs/PROMISES.md:{at}: {}: {error}", path.display())
                })
            })
            .collect();
        for name in names(what) {
            found += 1;
            if !sources.iter().any(|source| defined(source).contains(name)) {
                wrong.push(format!(
                    "docs/PROMISES.md:{at}: `{name}` is not defined in {}",
                    paths.join(", ")
                ));
            }
        }
    }
    assert!(found > 50, "{found} names");
    assert!(wrong.is_empty(), "\n{}\n", wrong.join("\n"));
}

#[test]
fn what_reading_names_is_defined_where_it_says() {
    // functions, tests and edits, which are named without their files
    let elsewhere: Vec<String> = ["crates", "oracle/tests"]
        .into_iter()
        .flat_map(|folder| files(&root().join(folder)))
        .map(
            |path| match path.extension().and_then(|ending| ending.to_str()) {
                Some("rt" | "rs") => fs::read_to_string(&path).expect("a source"),
                Some("edit") => format!("{}:", path.file_stem().unwrap_or_default().display()),
                _ => String::new(),
            },
        )
        .collect();
    let elsewhere: BTreeSet<&str> = elsewhere
        .iter()
        .flat_map(|source| defined(source))
        .collect();
    let document = read("docs/READING.md");
    let (mut wrong, mut found) = (vec![], 0);
    for (at, cells) in rows(&document) {
        // the files of definitions, as `frame/Frame`, and of theorems, as `frame/proofs/Xor.antt`
        let mut beside = String::new();
        for file in cells.iter().flat_map(|cell| quoted(cell)) {
            let path = match file.split_once('/') {
                Some((of, name)) if name.starts_with("proofs/") => format!("crates/{of}/{name}"),
                Some((of, name))
                    if name.chars().all(char::is_alphanumeric)
                        && name.starts_with(char::is_uppercase) =>
                {
                    format!("crates/{of}/specs/{name}.antt")
                }
                _ => continue,
            };
            match fs::read_to_string(root().join(&path)) {
                Ok(source) => beside += &source,
                Err(_) => wrong.push(format!("docs/READING.md:{at}: there is no {path}")),
            }
        }
        let beside = defined(&beside);
        for name in names(cells.get(1).copied().unwrap_or_default()) {
            found += 1;
            let name = name.rsplit("::").next().unwrap_or(name);
            let is_crate = root().join("crates").join(name).is_dir();
            if !beside.contains(name) && !elsewhere.contains(name) && !is_crate {
                wrong.push(format!(
                    "docs/READING.md:{at}: `{name}` is defined in no file beside it"
                ));
            }
        }
    }
    assert!(found > 300, "{found} names");
    assert!(wrong.is_empty(), "\n{}\n", wrong.join("\n"));
}

/// The definitions of a file of specs/: what is declared `pub` there, but for
/// fields of records and constructors.
fn definitions(source: &str) -> Vec<&str> {
    source
        .lines()
        .filter_map(|line| {
            let line = line.trim_start();
            let rest = ["abbrev pub ", "unfoldable pub ", "pub record ", "pub data "]
                .iter()
                .find_map(|declares| line.strip_prefix(declares))?;
            rest.split([' ', ':', '(', '{']).next()
        })
        .collect()
}

#[test]
fn reading_names_every_definition() {
    let document = read("docs/READING.md");
    let named: BTreeSet<&str> = quoted(&document).into_iter().collect();
    let (mut wrong, mut found) = (vec![], 0);
    for path in files(&root().join("crates")) {
        let is_definition = path
            .parent()
            .is_some_and(|folder| folder.ends_with("specs"));
        if !is_definition {
            continue;
        }
        let source = fs::read_to_string(&path).expect("a file of definitions");
        for name in definitions(&source) {
            found += 1;
            if !named.contains(name) {
                wrong.push(format!("{}: {name}", path.display()));
            }
        }
    }
    assert!(found > 300, "{found} definitions");
    assert!(
        wrong.is_empty(),
        "docs/READING.md does not name\n{}\n",
        wrong.join("\n")
    );
}

#[test]
fn a_row_of_a_file_names_what_that_file_defines() {
    let document = read("docs/READING.md");
    let (mut wrong, mut found) = (vec![], 0);
    for (at, cells) in rows(&document) {
        let [file] = quoted(cells[0])[..] else {
            continue;
        };
        let Some((of, name)) = file.split_once('/') else {
            continue;
        };
        // others speak of the Rust that is ported
        let path = format!("crates/{of}/specs/{name}.antt");
        let Ok(source) = fs::read_to_string(root().join(path)) else {
            continue;
        };
        for name in names(cells[1]) {
            found += 1;
            if !definitions(&source).contains(&name) {
                wrong.push(format!("docs/READING.md:{at}: `{name}` is not in {file}"));
            }
        }
    }
    assert!(found > 100, "{found} names");
    assert!(wrong.is_empty(), "\n{}\n", wrong.join("\n"));
}

#[test]
fn what_trust_names_is_defined_where_it_says() {
    let document = read("docs/TRUST.md");
    let (mut wrong, mut found) = (vec![], 0);
    for (at, cells) in rows(&document) {
        let Some(file) = cells[0]
            .strip_prefix('`')
            .and_then(|cell| cell.strip_suffix(".antt`"))
        else {
            continue;
        };
        let source = read(&format!("crates/{file}.antt"));
        for name in names(cells[1]) {
            found += 1;
            if !defined(&source).contains(name) {
                wrong.push(format!(
                    "docs/TRUST.md:{at}: `{name}` is not defined in {file}.antt"
                ));
            }
        }
    }
    assert!(found > 20, "{found} names");
    assert!(wrong.is_empty(), "\n{}\n", wrong.join("\n"));
}
