//! The lines of an input, each one item.

/// The longest name, in characters.
const LONGEST_NAME: usize = 200;

/// One item of an input.
#[derive(Debug, PartialEq, Eq)]
pub enum Item<'a> {
    /// `type NAME units NUMBER`, the units left out at will.
    Kind {
        /// The type's name.
        name: &'a str,
        /// How many units it has.
        units: Option<u8>,
    },
    /// `op NAME TYPE delay NUMBER`, the delay left out at will.
    Operation {
        /// The operation's name.
        name: &'a str,
        /// Its type's name.
        kind: &'a str,
        /// Its delay in steps.
        delay: u8,
    },
    /// `edge NAME NAME`.
    Edge {
        /// The operation that it leaves.
        from: &'a str,
        /// The operation that it leads to.
        to: &'a str,
    },
    /// `bound NUMBER`.
    Bound(usize),
    /// `start NAME NUMBER`.
    Start {
        /// The operation's name.
        name: &'a str,
        /// The step at which it starts.
        step: u16,
    },
}

/// How each item is written.
const SHAPES: [(&str, &str); 5] = [
    ("type", "type NAME units NUMBER"),
    ("op", "op NAME TYPE delay NUMBER"),
    ("edge", "edge NAME NAME"),
    ("bound", "bound NUMBER"),
    ("start", "start NAME NUMBER"),
];

/// The item of a line; none if there is nothing on it but a comment.
pub fn item(line: &str) -> Result<Option<Item<'_>>, String> {
    let line = line.split('#').next().unwrap_or("");
    let words: Vec<&str> = line.split_whitespace().collect();
    match words.as_slice() {
        [] => Ok(None),
        words => parse(words).map(Some),
    }
}

/// The item of some words.
fn parse<'a>(words: &[&'a str]) -> Result<Item<'a>, String> {
    match *words {
        ["type", name] => kind(name, None),
        ["type", name, "units", number] => kind(name, Some(number)),
        ["op", name, kind] => operation(name, kind, "1"),
        ["op", name, kind, "delay", number] => operation(name, kind, number),
        ["edge", from, to] => Ok(Item::Edge { from, to }),
        ["bound", number] => bound(number),
        ["start", name, number] => start(name, number),
        _ => Err(misshapen(words)),
    }
}

/// A type.
fn kind<'a>(name: &'a str, units: Option<&str>) -> Result<Item<'a>, String> {
    let name = checked(name)?;
    let units = units.map(|word| number(word, u8::MAX, "units"));
    let units = units.transpose()?;
    Ok(Item::Kind { name, units })
}

/// An operation.
fn operation<'a>(name: &'a str, kind: &'a str, delay: &str) -> Result<Item<'a>, String> {
    let name = checked(name)?;
    let delay = number(delay, u8::MAX, "delay")?;
    Ok(Item::Operation { name, kind, delay })
}

/// A bound.
fn bound(word: &str) -> Result<Item<'static>, String> {
    number(word, usize::MAX, "bound").map(Item::Bound)
}

/// A start.
fn start<'a>(name: &'a str, word: &str) -> Result<Item<'a>, String> {
    let step = number(word, u16::MAX, "start")?;
    Ok(Item::Start { name, step })
}

/// A name that can be printed.
fn checked(name: &str) -> Result<&str, String> {
    if name.chars().any(char::is_control) {
        return Err("a name holds a control character".to_string());
    }
    if name.chars().count() > LONGEST_NAME {
        return Err(format!("a name is longer than {LONGEST_NAME} characters"));
    }
    Ok(name)
}

/// A number that its place can hold.
fn number<T>(word: &str, most: T, what: &str) -> Result<T, String>
where
    T: std::str::FromStr + std::fmt::Display,
{
    if !word.bytes().all(|byte| byte.is_ascii_digit()) {
        return Err(format!("{what} '{}' is not a number", shown(word)));
    }
    let number = word.parse();
    number.map_err(|_| format!("{what} {} is too large, {most} is the most", shown(word)))
}

/// What is wrong with words that make no item.
fn misshapen(words: &[&str]) -> String {
    let first = words.first().copied().unwrap_or("");
    match SHAPES.iter().find(|(name, _)| *name == first) {
        Some((_, shape)) => format!("this line should read: {shape}"),
        None => format!(
            "'{}' begins no line; type, op, edge, bound and start do",
            shown(first)
        ),
    }
}

/// A word as it can be shown in a message: printable, and not too long.
pub fn shown(word: &str) -> String {
    let mut letters = word.chars();
    let mut shown: String = letters
        .by_ref()
        .take(40)
        .flat_map(char::escape_debug)
        .collect();
    if letters.next().is_some() {
        shown.push_str("...");
    }
    shown
}
