//! Reads public functions with their contracts out of the code, theorems out
//! of `crates/only`, and tells whether a theorem says a contract twice.

use std::collections::{BTreeSet, HashMap};

/// A public function as its source declares it.
#[derive(Debug, PartialEq)]
pub struct Function {
    /// `step`, or `Refusal::number` for a method.
    pub name: String,
    pub parameters: Vec<Parameter>,
    pub requires: bool,
    /// What stands in the braces of `ensures`; of several, one behind the other.
    pub ensures: Option<String>,
}

#[derive(Debug, PartialEq)]
pub struct Parameter {
    pub name: String,
    /// Its type, as it is written.
    pub kind: String,
}

impl Parameter {
    /// What it lends, and whether to be written; none of what is handed over.
    pub fn lends(&self) -> Option<(&str, bool)> {
        let lent = self.kind.strip_prefix('&')?;
        let lent = match lent.strip_prefix('\'') {
            Some(lifetime) => lifetime.split_once(' ')?.1,
            None => lent,
        };
        Some(match lent.strip_prefix("mut ") {
            Some(written) => (written, true),
            None => (lent, false),
        })
    }

    /// A `&mut`, whose contents after the call are an answer too.
    fn is_written(&self) -> bool {
        self.lends().is_some_and(|(_, written)| written)
    }
}

impl Function {
    /// The name of its theorem.
    pub fn theorem(&self) -> String {
        self.name.replace("::", "-").replace('_', "-")
    }
}

/// The public functions and methods of a source file.
pub fn functions(source: &str) -> Result<Vec<Function>, String> {
    let source = without_comments(source, "//");
    let mut found = vec![];
    let mut of_type = None;
    let mut start = 0;
    for line in source.split_inclusive('\n') {
        let here = start;
        start += line.len();
        // The sources are formatted: an `impl` begins and ends at the margin.
        if line.starts_with("impl") {
            of_type = Some(implemented(line));
        } else if line.starts_with('}') {
            of_type = None;
        }
        let Some(at) = public_function(line) else {
            continue;
        };
        let mut function = declared(&source[here + at..])
            .ok_or_else(|| format!("not understood: {}", line.trim()))?;
        if let Some(name) = of_type {
            function.name = format!("{name}::{}", function.name);
        } else if line.starts_with(' ') {
            return Err(format!("neither a function nor a method: {}", line.trim()));
        }
        found.push(function);
    }
    Ok(found)
}

/// Where the name begins, if the line declares a public function.
/// `pub(crate)` is not public.
fn public_function(line: &str) -> Option<usize> {
    let before = line.split(['(', '<']).next()?;
    let words: Vec<&str> = before.split_whitespace().collect();
    let public = words.iter().position(|&word| word == "pub")?;
    (words.len() > 2 && public < words.len() - 2 && words[words.len() - 2] == "fn")
        .then(|| before.rfind(words[words.len() - 1]))?
}

/// The type of `impl<'a> Type<'a> {`.
fn implemented(line: &str) -> &str {
    let rest = &line["impl".len()..];
    let rest = match rest.strip_prefix('<') {
        Some(generic) => generic.split_once('>').map_or(generic, |(_, rest)| rest),
        None => rest,
    };
    let rest = rest.split_once(" for ").map_or(rest, |(_, rest)| rest);
    rest.trim().split(['<', ' ', '{']).next().unwrap_or(rest)
}

/// A function of the text that begins with its name: parameters, and the
/// clauses before its body.
fn declared(text: &str) -> Option<Function> {
    let open = text.find('(')?;
    let name = text[..open].split('<').next()?.trim();
    let close = open + closing(&text[open..])?;
    let parameters = split_outside(&text[open + 1..close], ",")
        .into_iter()
        .map(str::trim)
        .filter(|parameter| !parameter.is_empty())
        .map(|parameter| {
            // `self` has no type beside it
            let (name, kind) = parameter.split_once(':').unwrap_or((parameter, parameter));
            Parameter {
                name: name
                    .trim()
                    .trim_start_matches('&')
                    .trim_start_matches("mut ")
                    .into(),
                kind: kind.trim().into(),
            }
        })
        .collect();

    let mut function = Function {
        name: name.into(),
        parameters,
        requires: false,
        ensures: None,
    };
    let mut rest = &text[close + 1..];
    loop {
        let open = rest.find('{')?;
        // a clause may have a name of its own
        let clause = rest[..open].split_whitespace().rev().take(2);
        let Some(clause) = clause
            .into_iter()
            .find(|word| ["requires", "ensures", "decreases"].contains(word))
        else {
            return Some(function);
        };
        let close = open + closing(&rest[open..])?;
        let said = rest[open + 1..close].trim();
        match clause {
            "requires" => function.requires = true,
            "ensures" => {
                function.ensures = Some(match function.ensures {
                    Some(before) => format!("{before} × {said}"),
                    None => said.into(),
                })
            }
            _ => {}
        }
        rest = &rest[close + 1..];
    }
}

/// Where the bracket that a text begins with is closed.
fn closing(text: &str) -> Option<usize> {
    closed(text.char_indices())
}

/// Where the bracket that comes first is closed.
fn closed(letters: impl Iterator<Item = (usize, char)>) -> Option<usize> {
    let mut depth = 0;
    for (at, letter) in letters {
        match letter {
            '(' | '{' | '[' => depth += 1,
            ')' | '}' | ']' => depth -= 1,
            _ => {}
        }
        if depth == 0 {
            return Some(at);
        }
    }
    None
}

fn without_comments(source: &str, sign: &str) -> String {
    source
        .lines()
        .map(|line| line.split(sign).next().unwrap_or_default().to_owned() + "\n")
        .collect()
}

/// The parts of a text between separators that stand in no bracket, nor
/// between a type's arguments.
fn split_outside<'a>(text: &'a str, separator: &str) -> Vec<&'a str> {
    let mut parts = vec![];
    let (mut depth, mut start) = (0, 0);
    for (at, letter) in text.char_indices() {
        match letter {
            '(' | '{' | '[' | '<' => depth += 1,
            '>' if text[..at].ends_with('-') => {}
            ')' | '}' | ']' | '>' => depth -= 1,
            _ if depth == 0 && text[at..].starts_with(separator) => {
                parts.push(&text[start..at]);
                start = at + separator.len();
            }
            _ => {}
        }
    }
    parts.push(&text[start..]);
    parts
}

/// A text's words, and its brackets and semicolons each by itself.
pub type Words = Vec<String>;

pub fn words(text: &str) -> Words {
    let mut spaced = String::new();
    for letter in text.chars() {
        match letter {
            '(' | ')' | '{' | '}' | '[' | ']' | ';' | ',' => spaced.extend([' ', letter, ' ']),
            _ => spaced.push(letter),
        }
    }
    spaced.split_whitespace().map(str::to_owned).collect()
}

/// Replaces each run of words.
fn replaced(text: &[String], old: &[String], new: &str) -> Words {
    let mut out = vec![];
    let mut rest = text;
    while let Some(first) = rest.first() {
        if !old.is_empty() && rest.starts_with(old) {
            out.push(new.to_owned());
            rest = &rest[old.len()..];
        } else {
            out.push(first.clone());
            rest = &rest[1..];
        }
    }
    out
}

/// Without brackets around a single word, and without those around all.
fn bare(text: &[String]) -> Words {
    let mut text = text.to_vec();
    while let Some(at) = text
        .windows(3)
        .position(|three| three[0] == "(" && three[2] == ")")
    {
        text.splice(at..at + 3, [text[at + 1].clone()]);
    }
    while text.first().is_some_and(|word| word == "(") && closes(&text) == Some(text.len() - 1) {
        text = text[1..text.len() - 1].to_vec();
    }
    text
}

/// `closing`, of words.
fn closes(text: &[String]) -> Option<usize> {
    // a bracket is a word of its own
    closed(
        text.iter()
            .map(|word| word.chars().next().unwrap_or(' '))
            .enumerate(),
    )
}

/// `split_outside`, of words.
fn split_words(text: &[String], separator: &str) -> Vec<Words> {
    let mut parts = vec![vec![]];
    let mut depth = 0;
    for word in text {
        match word.as_str() {
            "(" | "{" | "[" => depth += 1,
            ")" | "}" | "]" => depth -= 1,
            _ => {}
        }
        if depth == 0 && word == separator {
            parts.push(vec![]);
        } else if let Some(last) = parts.last_mut() {
            last.push(word.clone());
        }
    }
    parts
}

/// What a proposition says, fact by fact.
pub type Facts = Vec<Words>;

fn facts(text: &[String]) -> Facts {
    let parts = split_words(&bare(text), "×");
    parts.iter().map(|part| bare(part)).collect()
}

/// A part of a contract that the theorem calls by a name of its own.
pub type Renamed<'a> = (&'a str, &'a str);

/// What a contract says of the first answer, in the words of its theorem.
#[derive(Debug, PartialEq)]
pub struct Contract {
    pub facts: Facts,
    /// The names of what the call is given.
    pub given: Vec<String>,
    /// The names of what it answers.
    pub answers: Vec<String>,
}

/// What is written holds after the call, the first and the second; what it held before has its own name.
const AFTER: [&str; 2] = ["l", "t"];

/// The theorem's name for the answer.
const ANSWER: &str = "r";

pub fn contract(function: &Function, renamed: &[Renamed]) -> Result<Contract, String> {
    let ensures = function.ensures.as_deref().ok_or("has no `ensures`")?;

    let mut said = words(ensures);
    // What a struct holds comes back as it was: no fact about the answer.
    let kept: Vec<Words> = split_words(&said, "×")
        .into_iter()
        .filter(|fact| !comes_back(fact))
        .collect();
    said = kept.join(&"×".to_owned());

    let mut given: Vec<String> = vec![];
    let mut answers: Vec<String> = vec![];
    let mut after = AFTER.iter();
    for (part, name) in renamed {
        said = replaced(&said, &words(part), name);
        if is_of(part, "result") {
            answers.push((*name).to_owned());
        }
    }
    for parameter in &function.parameters {
        let (name, written) = (&parameter.name, parameter.is_written());
        let parts: Vec<&Renamed> = renamed
            .iter()
            .filter(|(part, _)| is_of(part, name))
            .collect();
        if !parts.is_empty() {
            given.extend(parts.iter().map(|(_, new)| (*new).to_owned()));
            continue;
        }
        let before = if written { "old" } else { "now" };
        said = replaced(&said, &words(&format!("{name}.{before}")), name);
        given.push(name.to_owned());
        if written {
            let after = after.next().ok_or("it writes more than two slices")?;
            said = replaced(&said, &words(&format!("{name}.new")), after);
            answers.push((*after).to_owned());
        }
    }
    // Of a part of the lent bytes the contract fixes the bytes.
    for answer in ["result.now", "result"] {
        said = replaced(&said, &words(answer), ANSWER);
    }
    if said.iter().any(|word| word == ANSWER) {
        answers.push(ANSWER.to_owned());
    }
    Ok(Contract {
        facts: facts(&said),
        given,
        answers,
    })
}

/// Whether it is the name, or a part of what has the name.
fn is_of(part: &str, name: &str) -> bool {
    part.split('.').next() == Some(name)
}

/// `x.exit.y.now ≡ x.entry.y.now`
fn comes_back(fact: &[String]) -> bool {
    let fact = bare(fact);
    let [after, is, before] = &fact[..] else {
        return false;
    };
    is == "≡" && after.contains(".exit.") && after.replace(".exit.", ".entry.") == *before
}

/// What a theorem of `crates/only` states.
#[derive(Debug, PartialEq)]
pub struct Statement {
    /// The names in round brackets.
    pub given: Vec<String>,
    /// The two names in each pair of braces.
    pub pairs: Vec<(String, String)>,
    pub conditions: Vec<Facts>,
    pub conclusion: Facts,
}

/// The statement of `pub NAME : ..`, with records of the same file written out.
pub fn statement(source: &str, name: &str) -> Result<Option<Statement>, String> {
    let source = without_comments(source, "--");
    let begins = format!("pub {name} : ");
    let mut lines = source
        .lines()
        .skip_while(|line| !line.starts_with(&begins))
        .peekable();
    let Some(first) = lines.next() else {
        return Ok(None);
    };
    let mut text = first[begins.len()..].to_owned();
    for line in lines.take_while(|line| line.starts_with(' ')) {
        text.push_str(line);
    }

    let mut parts = split_words(&words(&text), "→").into_iter();
    let mut given = vec![];
    let mut pairs = vec![];
    let mut binders = &parts.next().unwrap_or_default()[..];
    while !binders.is_empty() {
        let close = closes(binders).ok_or("brackets do not match")?;
        let group = split_words(&binders[1..close.max(1)], ":");
        let [names, kind] = &group[..] else {
            return Err(format!("not a binder: {}", binders.join(" ")));
        };
        match (binders[0].as_str(), &names[..]) {
            ("(", names) => given.extend_from_slice(names),
            ("{", [first, second]) => pairs.push((first.clone(), second.clone())),
            // a type that stands for any
            ("{", [_]) if kind[0] == "Type" => {}
            _ => return Err(format!("not a binder: {}", binders.join(" "))),
        }
        binders = &binders[close + 1..];
    }

    let records = records(&source)?;
    let mut conditions: Vec<Facts> = parts.map(|part| unfolded(&part, &records)).collect();
    let conclusion = conditions.pop().ok_or("has no conclusion")?;
    Ok(Some(Statement {
        given,
        pairs,
        conditions,
        conclusion,
    }))
}

/// A record's parameters and the types of its fields.
type Record = (Vec<String>, Vec<Words>);

fn records(source: &str) -> Result<HashMap<String, Record>, String> {
    let mut found = HashMap::new();
    let mut lines = source.lines().peekable();
    while let Some(line) = lines.next() {
        let Some(head) = line.strip_prefix("pub record ") else {
            continue;
        };
        let head = words(head);
        let mut rest = &head[1..];
        let mut parameters = vec![];
        while rest.first().is_some_and(|word| word == "(") {
            let close = closes(rest).ok_or("brackets do not match")?;
            let names = rest[1..close].iter().take_while(|&word| word != ":");
            parameters.extend(names.cloned());
            rest = &rest[close + 1..];
        }
        let mut fields = vec![];
        while let Some(field) = lines.next_if(|line| line.starts_with(' ')) {
            let (_, says) = field.split_once(" : ").ok_or("a field without a type")?;
            fields.push(words(says));
        }
        found.insert(head[0].clone(), (parameters, fields));
    }
    Ok(found)
}

fn unfolded(condition: &[String], records: &HashMap<String, Record>) -> Facts {
    let Some((parameters, fields)) = condition.first().and_then(|name| records.get(name)) else {
        return facts(condition);
    };
    let arguments = &condition[1..];
    if arguments.len() != parameters.len() {
        return facts(condition);
    }
    // all at once, since an argument may have the name of a parameter
    let argument = |word: &String| {
        let at = parameters.iter().position(|parameter| parameter == word);
        at.map_or(word, |at| &arguments[at]).clone()
    };
    fields
        .iter()
        .map(|field| bare(&field.iter().map(argument).collect::<Words>()))
        .collect()
}

/// What the names of a file mean: `use PATH.{a, b as c}` and `use PATH as M`.
pub struct Names {
    names: HashMap<String, String>,
    modules: HashMap<String, String>,
}

pub fn names(source: &str) -> Names {
    let mut found = Names {
        names: HashMap::new(),
        modules: HashMap::new(),
    };
    for line in source.lines() {
        let line = line.strip_prefix("ghost ").unwrap_or(line);
        let Some(path) = line.strip_prefix("use ") else {
            continue;
        };
        let path = path.trim().trim_end_matches(';');
        if let Some((module, list)) = path.split_once(".{") {
            let module = handed_on(module);
            for item in list.trim_end_matches('}').split(',') {
                let (name, here) = item.split_once(" as ").unwrap_or((item, item));
                found
                    .names
                    .insert(here.trim().into(), format!("{module}.{}", name.trim()));
            }
        } else if let Some((module, here)) = path.split_once(" as ") {
            found.modules.insert(here.into(), module.into());
        }
    }
    found
}

/// The library, by whatever module.
const LIBRARY: &str = "library";

/// What a contract may name that its file does not import, as its code does.
const IN_SCOPE: [&str; 4] = ["Ok", "Err", "Some", "None"];

/// The library hands the same words on by several modules, code and theorems take them from others.
fn handed_on(module: &str) -> &str {
    let same = [
        "Rattle.std.specs.Prelude",
        "Rattle.std.specs.Float",
        "Rattle.std.proofs.Common",
        "Rattle.std.proofs.Math",
        "mathlib.Core",
        "lib",
    ];
    let is_in = |of: &&str| {
        module
            .strip_prefix(*of)
            .is_some_and(|rest| rest.is_empty() || rest.starts_with('.'))
    };
    if same.iter().any(|of| is_in(&of)) {
        LIBRARY
    } else {
        module
    }
}

impl Names {
    /// The facts with each name in full, but for those that are bound.
    pub fn in_full(&self, facts: &[Words], bound: &[String]) -> Facts {
        let full = |word: &String| {
            if bound.contains(word) {
                return word.clone();
            }
            if let Some(full) = self.names.get(word) {
                return full.clone();
            }
            if IN_SCOPE.contains(&word.as_str()) {
                return format!("{LIBRARY}.{word}");
            }
            match word.split_once('.') {
                Some((module, name)) if self.modules.contains_key(module) => {
                    format!("{}.{name}", self.modules[module])
                }
                _ => word.clone(),
            }
        };
        facts
            .iter()
            .map(|fact| fact.iter().map(full).collect())
            .collect()
    }
}

/// Facts in one line, for a message.
pub fn shown(facts: &[Words]) -> String {
    let facts: Vec<String> = facts.iter().map(|fact| fact.join(" ")).collect();
    facts.join(" × ")
}

/// What the theorem states otherwise than the contract, twice.
pub fn disagreements(
    contract: &Contract,
    code: &Names,
    statement: &Statement,
    theorems: &Names,
) -> Vec<String> {
    let mut wrong = vec![];
    if contract.given != statement.given {
        wrong.push(format!(
            "it is about ({}), and the call is given ({})",
            statement.given.join(" "),
            contract.given.join(" ")
        ));
    }
    let answers: BTreeSet<&String> = contract.answers.iter().collect();
    let paired: BTreeSet<&String> = statement.pairs.iter().map(|(first, _)| first).collect();
    if answers != paired {
        wrong.push(format!(
            "it has two each of {paired:?}, and the call answers {answers:?}"
        ));
    }

    let second = |facts: &[Words]| {
        let rename = |word: &String| {
            let pair = statement.pairs.iter().find(|(first, _)| first == word);
            pair.map_or(word, |(_, second)| second).clone()
        };
        facts
            .iter()
            .map(|fact| fact.iter().map(rename).collect())
            .collect::<Facts>()
    };
    let mut bound: Vec<String> = contract.given.clone();
    bound.extend(contract.answers.iter().cloned());
    bound.extend(statement.pairs.iter().map(|(_, second)| second.clone()));

    let once = code.in_full(&contract.facts, &bound);
    let expected = [once.clone(), second(&once)];
    let stated: Vec<Facts> = statement
        .conditions
        .iter()
        .map(|facts| theorems.in_full(facts, &bound))
        .collect();
    if stated.len() != 2 {
        wrong.push(format!("it has {} conditions, and not two", stated.len()));
    }
    for (expected, stated) in expected.iter().zip(&stated) {
        if expected != stated {
            wrong.push(format!(
                "expected `{}`, and it has `{}`",
                shown(expected),
                shown(stated)
            ));
        }
    }

    let equal = |(first, second): &(String, String)| words(&format!("{first} ≡ {second}"));
    let mut equal: Facts = statement.pairs.iter().map(equal).collect();
    let mut concluded = statement.conclusion.clone();
    equal.sort();
    concluded.sort();
    if equal != concluded {
        wrong.push(format!(
            "expected the conclusion `{}`, and it has `{}`",
            shown(&equal),
            shown(&statement.conclusion)
        ));
    }
    wrong
}
