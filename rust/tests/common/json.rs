//! A reader of JSON, by RFC 8259, that panics at whatever is none.

use std::{iter::Peekable, str::Chars};

#[derive(Clone, Debug, PartialEq)]
pub enum Json {
    Null,
    Bool(bool),
    Number(f64),
    Text(String),
    List(Vec<Json>),
    Object(Vec<(String, Json)>),
}

/// The value that a text is.
pub fn parsed(text: &str) -> Json {
    let mut rest = text.chars().peekable();
    let value = value(&mut rest);
    assert_eq!(rest.next(), None, "more than a value: {text}");
    value
}

impl Json {
    /// The value of a key, which stands once.
    pub fn get(&self, key: &str) -> &Json {
        let Json::Object(fields) = self else {
            panic!("no object: {self:?}");
        };
        let mut found = fields.iter().filter(|(name, _)| name == key);
        let (_, value) = found.next().unwrap_or_else(|| panic!("no {key}: {self:?}"));
        assert!(found.next().is_none(), "{key} twice: {self:?}");
        value
    }

    pub fn text(&self) -> &str {
        match self {
            Json::Text(text) => text,
            _ => panic!("no text: {self:?}"),
        }
    }

    pub fn number(&self) -> f64 {
        match self {
            Json::Number(number) => *number,
            _ => panic!("no number: {self:?}"),
        }
    }

    pub fn list(&self) -> &[Json] {
        match self {
            Json::List(items) => items,
            _ => panic!("no list: {self:?}"),
        }
    }
}

type Rest<'a, 'b> = &'a mut Peekable<Chars<'b>>;

fn value(rest: Rest) -> Json {
    match rest.peek() {
        Some('{') => Json::Object(items(rest, '{', '}', |rest| {
            let key = string(rest);
            word(rest, ":");
            (key, value(rest))
        })),
        Some('[') => Json::List(items(rest, '[', ']', value)),
        Some('"') => Json::Text(string(rest)),
        Some('n') => word(rest, "null").then(Json::Null),
        Some('t') => word(rest, "true").then(Json::Bool(true)),
        Some('f') => word(rest, "false").then(Json::Bool(false)),
        _ => number(rest),
    }
}

struct Read;

impl Read {
    fn then(self, value: Json) -> Json {
        value
    }
}

fn word(rest: Rest, word: &str) -> Read {
    for letter in word.chars() {
        assert_eq!(rest.next(), Some(letter), "in {word}");
    }
    Read
}

fn items<T>(rest: Rest, first: char, last: char, item: fn(Rest) -> T) -> Vec<T> {
    assert_eq!(rest.next(), Some(first));
    let mut items = vec![];
    if rest.next_if_eq(&last).is_some() {
        return items;
    }
    loop {
        items.push(item(rest));
        match rest.next() {
            Some(',') => {}
            end => {
                assert_eq!(end, Some(last));
                return items;
            }
        }
    }
}

fn string(rest: Rest) -> String {
    assert_eq!(rest.next(), Some('"'));
    let mut text = String::new();
    loop {
        text.push(match rest.next().expect("the string's end") {
            '"' => return text,
            '\\' => match rest.next().expect("what is escaped") {
                letter @ ('"' | '\\' | '/') => letter,
                'b' => '\x08',
                'f' => '\x0C',
                'n' => '\n',
                'r' => '\r',
                't' => '\t',
                'u' => {
                    let digits: String = rest.take(4).collect();
                    assert_eq!(digits.len(), 4);
                    let code = u32::from_str_radix(&digits, 16).expect("four digits");
                    char::from_u32(code).expect("a character")
                }
                other => panic!("\\{other} is nothing"),
            },
            letter => {
                assert!(letter >= ' ', "{letter:?} is not escaped");
                letter
            }
        });
    }
}

fn number(rest: Rest) -> Json {
    let is_of_number = |letter: &char| "+-.eE".contains(*letter) || letter.is_ascii_digit();
    let mut text = String::new();
    while let Some(letter) = rest.next_if(is_of_number) {
        text.push(letter);
    }
    // Rust reads more than JSON has: a plus in front, no digit beside the point, zeros in front.
    let (before, _) = text.split_once(['e', 'E']).unwrap_or((&text, "0"));
    let (whole, decimals) = before.split_once('.').unwrap_or((before, "0"));
    let whole = whole.strip_prefix('-').unwrap_or(whole);
    let is_digits = |part: &str| !part.is_empty() && part.bytes().all(|b| b.is_ascii_digit());
    assert!(
        is_digits(whole) && is_digits(decimals),
        "{text:?} is no number"
    );
    assert!(
        whole == "0" || !whole.starts_with('0'),
        "{text:?} begins with a zero"
    );
    Json::Number(
        text.parse()
            .unwrap_or_else(|_| panic!("{text:?} is no number")),
    )
}
