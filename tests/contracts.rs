//! Holds the code's contracts, the theorems of `crates/only`, the edits that
//! must be refused, docs/CONTRACTS.md and the counts of docs/EVIDENCE.md against each
//! other. The theorems write each contract out by hand, twice.

mod repository;
mod statements;

use std::{
    collections::{BTreeMap, BTreeSet},
    fs,
};

use repository::{read, root};
use statements::{
    contract, disagreements, functions, names, shown, statement, words, Function, Names, Parameter,
    Renamed,
};

/// The parts of contracts that theorems call by names of their own. A struct
/// that holds a reference has no type in a theorem, so that these are stated
/// for what stands in it.
const RENAMED: [(&str, &[Renamed]); 3] = [
    (
        "nmea_sentence",
        &[
            ("result.talker", "t"),
            ("result.kind", "k"),
            ("result.checksum", "c"),
            ("result.data.now", "d"),
        ],
    ),
    ("NmeaSentence::data", &[("self.entry.data", "data-held")]),
    (
        "NmeaSentence::calc_checksum",
        &[
            ("self.entry.talker", "talker"),
            ("self.entry.kind", "kind"),
            ("self.entry.data.now", "text"),
        ],
    ),
];

fn renamed(function: &str) -> &'static [Renamed<'static>] {
    let found = RENAMED.iter().find(|(name, _)| *name == function);
    found.map_or(&[], |(_, parts)| parts)
}

/// The names of a folder's files with an ending, in order, without it.
/// A folder that is not there has none.
fn files(folder: &str, ending: &str) -> Vec<String> {
    let Ok(entries) = fs::read_dir(root().join(folder)) else {
        return vec![];
    };
    let mut found: Vec<String> = entries
        .map(|entry| entry.expect(folder).file_name())
        .filter_map(|name| Some(name.to_str()?.strip_suffix(ending)?.to_owned()))
        .collect();
    found.sort();
    found
}

/// The crates of crates.txt: the libraries, and the programs after them.
fn crates() -> (Vec<String>, Vec<String>) {
    let text = read("crates.txt");
    let (libraries, programs) = text
        .split_once("# programs\n")
        .expect("crates.txt: no line `# programs`");
    let names = |part: &str| {
        part.lines()
            .filter(|line| !line.starts_with('#') && !line.contains(STATIC))
            .filter_map(|line| Some(line.split_once(':')?.0.to_owned()))
            .collect()
    };
    (names(libraries), names(programs))
}

/// What stands behind the name of a static library in crates.txt.
const STATIC: &str = " staticlib:";

/// The static libraries of crates.txt: what they export calls a function of
/// the same name in the library that they are named after.
fn static_libraries() -> Vec<String> {
    let names = read("crates.txt");
    let names = names.lines().filter_map(|line| line.split_once(STATIC));
    names.map(|(name, _)| name.to_owned()).collect()
}

/// A public function of a library, and where it stands.
struct Found {
    library: String,
    file: String,
    function: Function,
    /// What the names of its file mean.
    names: Names,
}

impl Found {
    fn theorems_file(&self) -> String {
        format!("crates/only/proofs/{}.antt", theorems_of(&self.library))
    }

    /// As docs/CONTRACTS.md names it.
    fn theorem(&self) -> String {
        format!("{}.{}", theorems_of(&self.library), self.function.theorem())
    }

    fn shown(&self) -> String {
        format!("{}: `{}`", self.file, self.function.name)
    }
}

/// The file of `crates/only` that has the theorems of a library.
fn theorems_of(library: &str) -> String {
    let (first, rest) = library.split_at(1);
    first.to_uppercase() + rest
}

fn public_functions() -> Vec<Found> {
    functions_of(crates().0)
}

fn functions_of(libraries: Vec<String>) -> Vec<Found> {
    let mut found = vec![];
    for library in libraries {
        // every file, so that a folder in there is not passed over
        for name in files(&format!("crates/{library}/src"), "") {
            let file = format!("crates/{library}/src/{name}");
            let source = read(&file);
            for function in functions(&source).unwrap_or_else(|why| panic!("{file}: {why}")) {
                found.push(Found {
                    library: library.clone(),
                    file: file.clone(),
                    function,
                    names: names(&source),
                });
            }
        }
    }
    assert!(!found.is_empty(), "no public function in crates/*/src");
    found
}

/// The edits that must be refused, crate and name: those that `tests/edits`
/// tries, and the frauds, which `rt ci` tries from nothing.
fn edits() -> BTreeSet<(String, String)> {
    let mut found = BTreeSet::new();
    for name in files("crates", "") {
        for folder in ["tried", "must-fail"] {
            for edit in files(&format!("crates/{name}/{folder}"), ".edit") {
                assert!(
                    found.insert((name.clone(), edit.clone())),
                    "crates/{name}: two edits `{edit}`"
                );
            }
        }
    }
    found
}

fn all_agree(wrong: Vec<String>) {
    assert!(wrong.is_empty(), "\n{}\n", wrong.join("\n"));
}

#[test]
fn every_public_function_has_a_contract_and_demands_nothing() {
    let mut wrong = vec![];
    for found in public_functions() {
        if found.function.requires {
            wrong.push(format!(
                "{} has a `requires`; a public function demands nothing",
                found.shown()
            ));
        }
        if found.function.ensures.is_none() {
            wrong.push(format!(
                "{} has no `ensures`, which says what it answers",
                found.shown()
            ));
        }
    }
    all_agree(wrong);
}

/// What public functions write into.
const OUTPUTS: [&str; 5] = ["out", "table", "row", "heads", "words"];

/// What is lent to be read: the type promises that it stays as it is.
const LENT: [&str; 2] = ["[u8]", "[u32]"];

#[test]
fn what_is_lent_to_be_read_is_a_shared_slice() {
    let (mut wrong, mut outputs, mut lent) = (vec![], BTreeSet::new(), 0);
    let exported = functions_of(static_libraries());
    for found in public_functions().into_iter().chain(exported) {
        for parameter in &found.function.parameters {
            let Parameter { name, kind } = parameter;
            match parameter.lends() {
                Some((_, true)) if OUTPUTS.contains(&&name[..]) => {
                    outputs.insert(name.clone());
                }
                Some((what, false)) if LENT.contains(&what) => lent += 1,
                None if !kind.contains('&') => {}
                _ => wrong.push(format!(
                    "{}: `{name}: {kind}` is neither a slice to be read nor an output",
                    found.shown()
                )),
            }
        }
    }
    assert!(lent > 0, "no public function is lent anything");
    all_agree(wrong);
    assert_eq!(outputs, OUTPUTS.map(str::to_owned).into(), "OUTPUTS");
}

/// The facts `x.now ≡ x.now`, which the type of `x` promises.
fn said_by_the_type(source: &str) -> Vec<String> {
    let words = words(source);
    let facts = words
        .windows(3)
        .filter(|fact| fact[1] == "≡" && fact[0] == fact[2] && fact[0].ends_with(".now"));
    facts.map(|fact| fact.join(" ")).collect()
}

#[test]
fn no_clause_says_what_the_type_promises() {
    let mut wrong = vec![];
    for name in files("crates", "") {
        let folder = format!("crates/{name}/src");
        for file in files(&folder, ".rt") {
            let file = format!("{folder}/{file}.rt");
            let facts = said_by_the_type(&read(&file)).into_iter();
            wrong.extend(facts.map(|fact| format!("{file}: the type promises `{fact}`")));
        }
    }
    all_agree(wrong);
}

#[test]
fn what_is_exported_has_the_contract_of_what_it_calls() {
    let inside = public_functions();
    let (mut wrong, mut compared) = (vec![], 0);
    for library in static_libraries() {
        for found in functions_of(vec![library]) {
            let name = &found.function.name;
            let called = inside.iter().find(|found| found.function.name == *name);
            let Some(called) = called else {
                wrong.push(format!("{}: no library has `{name}`", found.shown()));
                continue;
            };
            compared += 1;
            let [outside, within] = [&found, called].map(|found| {
                let contract = contract(&found.function, &[])?;
                let bound = [contract.given, contract.answers].concat();
                Ok::<_, String>((found.names.in_full(&contract.facts, &bound), bound))
            });
            if outside != within || found.function.requires {
                wrong.push(format!(
                    "{} has another contract than that of {}",
                    found.shown(),
                    called.shown()
                ));
            }
        }
    }
    assert!(compared > 0, "no static library exports a function");
    all_agree(wrong);
}

#[test]
fn every_theorem_says_the_contract_twice() {
    let mut wrong = vec![];
    for found in public_functions() {
        let file = found.theorems_file();
        let theorem = found.function.theorem();
        // a crate whose file is missing has no theorem either
        let source = fs::read_to_string(root().join(&file)).unwrap_or_default();
        match statement(&source, &theorem) {
            Err(why) => wrong.push(format!("{file}: `{theorem}`: {why}")),
            Ok(None) => wrong.push(format!(
                "{}: expected the theorem `pub {theorem} : ..` in {file}",
                found.shown()
            )),
            Ok(Some(statement)) => {
                match contract(&found.function, renamed(&found.function.name)) {
                    Err(why) => wrong.push(format!("{} {why}", found.shown())),
                    Ok(contract) => {
                        let differ =
                            disagreements(&contract, &found.names, &statement, &names(&source));
                        wrong.extend(differ.into_iter().map(|why| {
                            format!("{file}: `{theorem}`, of {}: {why}", found.shown())
                        }));
                    }
                }
            }
        }
    }
    all_agree(wrong);
}

#[test]
fn only_functions_that_are_there_have_names_of_their_own() {
    let found = public_functions();
    for (name, parts) in RENAMED {
        let function = found.iter().find(|found| found.function.name == name);
        let function = &function.unwrap_or_else(|| panic!("RENAMED: no `{name}`"));
        let text = words(function.function.ensures.as_deref().unwrap_or_default());
        for (part, _) in parts {
            let part = words(part);
            assert!(
                text.windows(part.len()).any(|run| run == part),
                "RENAMED: the contract of `{name}` has no `{}`",
                part.join(" ")
            );
        }
    }
}

/// The sections of docs/CONTRACTS.md by their headings.
fn sections(document: &str) -> BTreeMap<&str, Vec<&str>> {
    let mut found: BTreeMap<&str, Vec<&str>> = BTreeMap::new();
    let mut heading = "";
    for line in document.lines() {
        match line.strip_prefix("## ") {
            Some(title) => heading = title.trim(),
            None => found.entry(heading).or_default().push(line),
        }
    }
    found
}

/// The cells of a row of a table; none of its head, or of another line.
fn cells(line: &str) -> Option<Vec<&str>> {
    let cells: Vec<&str> = line
        .strip_prefix('|')?
        .strip_suffix('|')?
        .split('|')
        .map(str::trim)
        .collect();
    (!cells[0].starts_with('-') && !["function", "fraud"].contains(&cells[0])).then_some(cells)
}

/// The words in backquotes.
fn quoted(text: &str) -> Vec<&str> {
    text.split('`').skip(1).step_by(2).collect()
}

const DOCUMENT: &str = "docs/CONTRACTS.md";

#[test]
fn every_function_has_its_row() {
    let document = read(DOCUMENT);
    let sections = sections(&document);
    let functions = public_functions();
    let mut wrong = vec![];
    let mut listed: BTreeMap<(&str, &str), usize> = BTreeMap::new();
    let (libraries, _) = crates();
    for library in &libraries {
        let lines = sections.get(library.as_str());
        for row in lines.into_iter().flatten().filter_map(|line| cells(line)) {
            let [names, .., theorems] = &row[..] else {
                panic!("{DOCUMENT}, {library}: a row of one cell: {row:?}")
            };
            let (names, theorems) = (quoted(names), quoted(theorems));
            for (at, &name) in names.iter().enumerate() {
                *listed.entry((library, name)).or_default() += 1;
                let of_name =
                    |found: &&Found| found.library == *library && found.function.name == name;
                match functions.iter().find(of_name) {
                    None => wrong.push(format!(
                        "{DOCUMENT}, {library}: `{name}` is no public function of crates/{library}/src"
                    )),
                    Some(found) if theorems.get(at) != Some(&found.theorem().as_str()) => wrong
                        .push(format!(
                            "{DOCUMENT}, {library}: the row of `{name}` names the theorem {:?}, and not `{}`",
                            theorems.get(at),
                            found.theorem()
                        )),
                    Some(_) => {}
                }
            }
            if names.len() != theorems.len() {
                wrong.push(format!(
                    "{DOCUMENT}, {library}: the row of {names:?} has the theorems {theorems:?}"
                ));
            }
        }
    }
    for found in &functions {
        let rows = listed.get(&(&found.library, &found.function.name));
        if rows != Some(&1) {
            wrong.push(format!(
                "{}: expected one row in {DOCUMENT}, section {}, with the theorem `{}`; there are {}",
                found.shown(),
                found.library,
                found.theorem(),
                rows.unwrap_or(&0)
            ));
        }
    }
    all_agree(wrong);
}

/// The edits of a list `a, b` of a crate, or `other`: c, d; of another's.
/// What is no name of an edit is handed back as it is.
fn listed<'a>(own: &'a str, list: &'a str) -> Vec<(&'a str, &'a str)> {
    let mut found = vec![];
    for part in list.split(';') {
        let (of, names) = match part.trim().strip_prefix('`') {
            Some(rest) => rest.split_once("`:").unwrap_or((own, part)),
            None => (own, part),
        };
        for name in names.split(',').map(str::trim) {
            // shown by an edit that is named already
            if !name.is_empty() && name != "as above" {
                found.push((of, name));
            }
        }
    }
    found
}

/// The lists `crate`: a, b of a paragraph, each up to a semicolon or a stop.
fn lists_in<'a>(line: &'a str, crates: &[String]) -> Vec<(&'a str, &'a str)> {
    let mut found = vec![];
    let mut rest = line;
    while let Some((_, after)) = rest.split_once('`') {
        let Some((name, after)) = after.split_once('`') else {
            break;
        };
        if let (Some(list), true) = (after.strip_prefix(": "), crates.iter().any(|c| c == name)) {
            let list = list.split([';', '.']).next().unwrap_or(list);
            found.extend(listed(name, list));
        }
        rest = after;
    }
    found
}

/// The edits that docs/CONTRACTS.md names: crate, name.
fn named_edits<'a>(document: &'a str, crates: &[String]) -> BTreeSet<(&'a str, &'a str)> {
    let mut found = BTreeSet::new();
    for (heading, lines) in sections(document) {
        for line in lines {
            match cells(line).as_deref() {
                None if line.starts_with('|') => {}
                None => found.extend(lists_in(line, crates)),
                Some([_, _, _, tried, _]) => found.extend(listed(heading, tried)),
                Some([_, fraud, _]) => {
                    let fraud = fraud.trim_matches('`');
                    found.insert(fraud.split_once('/').unwrap_or((heading, fraud)));
                }
                Some(_) => panic!("{DOCUMENT}, {heading}: neither 3 nor 5 cells: {line}"),
            }
        }
    }
    found
}

#[test]
fn every_edit_is_named_and_every_name_is_an_edit() {
    let document = read(DOCUMENT);
    let (libraries, programs) = crates();
    let crates: Vec<String> = libraries.into_iter().chain(programs).collect();
    let named = named_edits(&document, &crates);
    let edits = edits();
    let edits: BTreeSet<(&str, &str)> = edits.iter().map(|(a, b)| (&a[..], &b[..])).collect();
    let mut wrong = vec![];
    for (of, name) in edits.difference(&named) {
        wrong.push(format!(
            "crates/{of}: {DOCUMENT} does not name the edit {name}.edit; expected `{name}` in a row of section {of}, or `{of}`: {name}"
        ));
    }
    for (of, name) in named.difference(&edits) {
        wrong.push(format!(
            "{DOCUMENT}: expected the edit `{name}` of `{of}`, and there is no {name}.edit in crates/{of}/tried or must-fail"
        ));
    }
    all_agree(wrong);
}

#[test]
fn the_counts_are_those_of_the_evidence() {
    let functions = public_functions();
    let proved = functions
        .iter()
        .filter(|found| {
            let source = fs::read_to_string(root().join(found.theorems_file()));
            let theorem = found.function.theorem();
            matches!(
                statement(&source.unwrap_or_default(), &theorem),
                Ok(Some(_))
            )
        })
        .count();
    let line = format!(
        "public functions {}, with a uniqueness theorem {proved}, edits that must be refused {}",
        functions.len(),
        edits().len()
    );
    println!("{line}");
    let evidence = read("docs/EVIDENCE.md");
    let stated: Vec<&str> = evidence
        .lines()
        .filter(|line| line.starts_with("public functions "))
        .collect();
    assert_eq!(
        stated,
        [line],
        "docs/EVIDENCE.md, \"How much the statements say\""
    );
}

// The reading itself.

fn one(source: &str) -> Function {
    let mut found = functions(source).expect(source);
    assert_eq!(found.len(), 1, "{found:?}");
    found.remove(0)
}

#[test]
fn functions_are_found() {
    let source = "\
// pub fn in_a_comment() {}
pub(crate) fn not_public() {}
fn private(x: u8)
    requires { x < 9 }
{
}

impl<'a> Held<'a> {
    pub fn data(self) -> &'a [u8]
        ensures { result ≡ self.data }
    {
        self.data
    }
}

#[inline]
pub extern \"C\" fn fill<'a>(line: &'a [u8], out: &mut [u64]) -> u32
    requires { 1 < 2 }
    ensures low { result ≡ record { a = 0 } }
    ensures high { result ≤ 1 }
{
    if line[0] == b'{' { 1 } else { 0 }
}

pub fn bare_one() -> u8 {
    1
}
";
    let found = functions(source).expect("functions");
    let found: Vec<_> = found
        .iter()
        .map(|function| {
            (
                function.name.as_str(),
                function.theorem(),
                function.requires,
                function.ensures.as_deref(),
            )
        })
        .collect();
    assert_eq!(
        found,
        [
            (
                "Held::data",
                "Held-data".to_owned(),
                false,
                Some("result ≡ self.data")
            ),
            (
                "fill",
                "fill".to_owned(),
                true,
                Some("result ≡ record { a = 0 } × result ≤ 1")
            ),
            ("bare_one", "bare-one".to_owned(), false, None),
        ]
    );
}

#[test]
fn parameters_are_found_with_what_they_lend() {
    for (declared, expected) in [
        (
            "mut a: u8, out: &mut [u64], s: &[u8]",
            [
                ("a", None),
                ("out", Some(("[u64]", true))),
                ("s", Some(("[u8]", false))),
            ],
        ),
        (
            "a: Result<u8, Refusal>, g: fn(u8) -> u8, s: &'a [u8]",
            [("a", None), ("g", None), ("s", Some(("[u8]", false)))],
        ),
        (
            "&mut self, t: &'a mut [u8], b: Option<&[u8]>",
            [
                ("self", Some(("self", true))),
                ("t", Some(("[u8]", true))),
                ("b", None),
            ],
        ),
    ] {
        let function = one(&format!("pub fn f({declared}) -> u8 {{"));
        let found: Vec<_> = function
            .parameters
            .iter()
            .map(|parameter| (&parameter.name[..], parameter.lends()))
            .collect();
        assert_eq!(found, expected, "{declared}");
    }
}

#[test]
fn what_the_type_promises_is_told() {
    let clause = "ensures { (result ≡ f s.now) × (s.now ≡ s.now) × (s.now ≡ t.now) }";
    assert_eq!(said_by_the_type(clause), ["s.now ≡ s.now"]);
}

#[test]
fn contracts_are_brought_to_the_words_of_theorems() {
    for (clause, parts, expected, answers) in [
        (
            "Finds s.now at (char b) next result",
            &[][..],
            "Finds s at ( char b ) next r",
            &["r"][..],
        ),
        ("result.now ≡ f s.now", &[], "r ≡ f s", &["r"]),
        (
            "Filled s.now out.old out.new result",
            &[],
            "Filled s out l r",
            &["l", "r"],
        ),
        (
            "(result.a ≡ at) × (result.b.now ≡ f s.now)",
            &[("result.a", "x"), ("result.b.now", "y")],
            "x ≡ at × y ≡ f s",
            &["x", "y"],
        ),
        // what a struct holds comes back as it was; otherwise it is said
        (
            "(result ≡ at) × (at.exit.b.now ≡ at.entry.b.now)",
            &[],
            "r ≡ at",
            &["r"],
        ),
        (
            "(result ≡ at) × (at.exit.b.now ≡ at.entry.c.now)",
            &[],
            "r ≡ at × at.exit.b.now ≡ at.entry.c.now",
            &["r"],
        ),
    ] {
        let mut function = one("pub fn f(s: &[u8], at: usize, out: &mut [u64]) -> u8 {");
        if !clause.contains("out") {
            function.parameters.pop();
        }
        function.ensures = Some(clause.into());
        let contract = contract(&function, parts).expect(clause);
        assert_eq!(shown(&contract.facts), expected);
        assert_eq!(contract.answers, answers, "{clause}");
    }
}

/// What a theorem has otherwise than a contract of `f`.
fn differ(theorem: &str) -> Vec<String> {
    let code = "\
ghost use Rattle.a.specs.Spec.{f, g};
pub fn f(s: &[u8], at: usize) -> u8
    ensures { result ≡ f s.now at }
{
";
    let source = format!(
        "use Rattle.a.specs.Spec as Spec\nuse Rattle.b.specs.Spec as Other\n\n{theorem}\nf s at = same\n"
    );
    let statement = statement(&source, "f").expect(theorem).expect(theorem);
    let contract = contract(&one(code), &[]).expect(code);
    disagreements(&contract, &names(code), &statement, &names(&source))
}

#[test]
fn theorems_that_say_something_else_are_told() {
    let right = "pub f : (s : List ℕ) (at : ℕ) {r q : ℕ} -- why\n    → (r ≡ Spec.f s at)\n    → q ≡ Spec.f s at → r ≡ q";
    assert_eq!(differ(right), [""; 0]);
    for (old, new) in [
        // another definition, of this file or of another; another argument
        ("q ≡ Spec.f", "q ≡ Spec.g"),
        ("q ≡ Spec.f", "q ≡ Other.f"),
        ("(r ≡ Spec.f s at)", "(r ≡ Spec.f s s)"),
        // the same answer twice, a condition more or fewer, another conclusion
        ("→ q ≡ Spec.f", "→ r ≡ Spec.f"),
        ("→ q ≡", "→ Absurd → q ≡"),
        ("→ (r ≡ Spec.f s at)", ""),
        ("→ r ≡ q", "→ r ≡ r"),
        // a name for something that the call is not given
        ("(at : ℕ)", "(at h : ℕ)"),
        ("{r q : ℕ}", "{r q : ℕ} {l m : ℕ}"),
    ] {
        let theorem = right.replace(old, new);
        assert_ne!(theorem, right, "{old}");
        assert_ne!(differ(&theorem), [""; 0], "{theorem}");
    }
}

#[test]
fn records_in_conditions_are_written_out() {
    let source = "\
pub record Holds (x y : ℕ) (r : ℕ) : Type 0 where
  pub first : r ≡ x
  pub second : y ≡ r

pub f : (y : ℕ) {r q : ℕ} → Holds y y r → Holds y y q → r ≡ q
";
    let statement = statement(source, "f").expect("statement").expect("f");
    let conditions: Vec<String> = statement.conditions.iter().map(|x| shown(x)).collect();
    assert_eq!(conditions, ["r ≡ y × y ≡ r", "q ≡ y × y ≡ q"]);
}

#[test]
fn edits_are_found_in_the_document() {
    let document = "\
## The frauds

| fraud | edit | what refuses it |
|---|---|---|
| a fraud | `b/fraud` | why |

## a

| function | definition | wrong answers | tried by | no second answer |
|---|---|---|---|---|
| `f` | `g` | x, y | one, two_2 | `A.f` |
| `h` | `g` | x, y | three; `b`: four, five | `A.h` |
| `i` | `g` | x, y | as above | `A.i` |

Of others, `b`: six, seven; `c`: eight. One of `d`, and `not_a_crate`: nine.
";
    let crates = ["a", "b", "c", "d"].map(str::to_owned);
    let named = named_edits(document, &crates);
    let named: Vec<String> = named
        .iter()
        .map(|(of, name)| format!("{of}/{name}"))
        .collect();
    let expected = "a/one a/three a/two_2 b/five b/four b/fraud b/seven b/six c/eight";
    assert_eq!(named.join(" "), expected);
}
