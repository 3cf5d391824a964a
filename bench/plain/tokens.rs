//! The tokens of a policy document, or its first fault.

use std::fs;
use std::process::ExitCode;

pub enum Fault {
    NotUtf8(usize),
    NoFrontMatter,
    WrongVersion(usize),
    OpenBlock(usize),
    BadToken(usize),
}

pub enum Kind<'a> {
    Word(&'a str),
    Number(i64),
    Text(String),
    Symbol(&'static str),
}

#[allow(dead_code)]
pub struct Token<'a> {
    pub kind: Kind<'a>,
    pub line: usize,
    start: usize,
    end: usize,
}

struct Line<'a> {
    number: usize,
    start: usize,
    next: usize,
    text: &'a str,
}

fn lines(document: &str) -> impl Iterator<Item = Line<'_>> {
    let mut next = 0;
    document
        .split_inclusive('\n')
        .zip(1..)
        .map(move |(whole, number)| {
            let start = next;
            next += whole.len();
            let text = match whole.strip_suffix('\n') {
                Some(text) => text.strip_suffix('\r').unwrap_or(text),
                None => whole,
            };
            Line {
                number,
                start,
                next,
                text,
            }
        })
}

fn spaces_trimmed(text: &str) -> &str {
    text.trim_matches(' ')
}

fn read_front_matter<'a>(lines: &mut impl Iterator<Item = Line<'a>>) -> Result<(), Fault> {
    let is_rule = |text: &str| text.trim_end_matches(' ') == "---";
    if !lines.next().is_some_and(|line| is_rule(line.text)) {
        return Err(Fault::NoFrontMatter);
    }
    let mut version = None;
    for line in lines {
        if is_rule(line.text) {
            return match version {
                None => Err(Fault::NoFrontMatter),
                Some(("2" | "\"2\"", _)) => Ok(()),
                Some((_, number)) => Err(Fault::WrongVersion(number)),
            };
        }
        if let Some((name, value)) = line.text.split_once(':')
            && version.is_none()
            && spaces_trimmed(name) == "policy-version"
        {
            version = Some((spaces_trimmed(value), line.number));
        }
    }
    Err(Fault::NoFrontMatter)
}

/// The number of backticks of a fence, and what stands behind them.
fn fence(text: &str) -> Option<(usize, &str)> {
    let inner = text.trim_start_matches(' ');
    let behind = inner.trim_start_matches('`');
    let count = inner.len() - behind.len();
    (text.len() - inner.len() <= 3 && count >= 3).then_some((count, behind))
}

/// A block that is open: its backticks, whether it is a policy block, where its text begins, and the line of its fence.
struct Open {
    count: usize,
    is_policy: bool,
    from: usize,
    line: usize,
}

/// The text of each policy block with its place and the number of its first line.
fn policy_blocks(document: &str) -> Result<Vec<(&str, usize, usize)>, Fault> {
    let mut lines = lines(document);
    read_front_matter(&mut lines)?;
    let mut blocks = Vec::new();
    let mut open: Option<Open> = None;
    for line in lines {
        let Some((count, behind)) = fence(line.text) else {
            continue;
        };
        match &open {
            None if !behind.contains('`') => {
                let is_policy = behind.split(' ').find(|word| !word.is_empty()) == Some("policy");
                open = Some(Open {
                    count,
                    is_policy,
                    from: line.next,
                    line: line.number,
                });
            }
            Some(block) if count >= block.count && spaces_trimmed(behind).is_empty() => {
                if block.is_policy {
                    blocks.push((
                        &document[block.from..line.start],
                        block.from,
                        block.line + 1,
                    ));
                }
                open = None;
            }
            _ => {}
        }
    }
    match open {
        Some(block) if block.is_policy => Err(Fault::OpenBlock(block.line)),
        _ => Ok(blocks),
    }
}

/// The text in quotation marks that begins here, and how many bytes it takes.
fn quoted(rest: &str) -> Option<(String, usize)> {
    let mut text = String::new();
    let mut chars = rest.char_indices().skip(1);
    while let Some((at, c)) = chars.next() {
        match c {
            '"' => return Some((text, at + 1)),
            '\n' => return None,
            '\\' => text.push(match chars.next()?.1 {
                'n' => '\n',
                c @ ('\\' | '"') => c,
                _ => return None,
            }),
            c => text.push(c),
        }
    }
    None
}

fn symbol(bytes: &[u8]) -> Option<&'static str> {
    Some(match bytes {
        [b':', b':', ..] => "::",
        [b'=', b'>', ..] => "=>",
        [b'=', b'=', ..] => "==",
        [b'!', b'=', ..] => "!=",
        [b'<', b'=', ..] => "<=",
        [b'>', b'=', ..] => ">=",
        [b'&', b'&', ..] => "&&",
        [b'|', b'|', ..] => "||",
        [b'{', ..] => "{",
        [b'}', ..] => "}",
        [b'[', ..] => "[",
        [b']', ..] => "]",
        [b'(', ..] => "(",
        [b')', ..] => ")",
        [b',', ..] => ",",
        [b':', ..] => ":",
        [b'.', ..] => ".",
        [b'?', ..] => "?",
        [b'=', ..] => "=",
        [b'<', ..] => "<",
        [b'>', ..] => ">",
        [b'|', ..] => "|",
        [b'!', ..] => "!",
        [b'_', ..] => "_",
        _ => return None,
    })
}

/// The number of bytes in front that pass the test.
fn run_length(bytes: &[u8], test: impl Fn(&u8) -> bool) -> usize {
    bytes
        .iter()
        .position(|byte| !test(byte))
        .unwrap_or(bytes.len())
}

pub fn is_word_byte(byte: &u8) -> bool {
    byte.is_ascii_alphanumeric() || *byte == b'_'
}

/// The token that begins here, and how many bytes it takes.
fn token(rest: &str) -> Option<(Kind<'_>, usize)> {
    let bytes = rest.as_bytes();
    match bytes[0] {
        b'a'..=b'z' | b'A'..=b'Z' => {
            let size = run_length(bytes, is_word_byte);
            (size <= 64).then(|| (Kind::Word(&rest[..size]), size))
        }
        first @ (b'0'..=b'9' | b'-') => {
            let sign = usize::from(first == b'-');
            let size = sign + run_length(&bytes[sign..], u8::is_ascii_digit);
            Some((Kind::Number(rest[..size].parse().ok()?), size))
        }
        b'"' => quoted(rest).map(|(text, size)| (Kind::Text(text), size)),
        _ => symbol(bytes).map(|symbol| (Kind::Symbol(symbol), symbol.len())),
    }
}

/// How many bytes there are in front that part tokens; none where a token or a bad piece begins.
fn gap(rest: &str) -> Option<usize> {
    match rest.as_bytes() {
        [b' ' | b'\t' | b'\n', ..] => Some(1),
        [b'\r', b'\n', ..] => Some(2),
        [b'/', b'/', ..] => Some(rest.find('\n').unwrap_or(rest.len())),
        [b'/', b'*', ..] => rest[2..].find("*/").map(|at| at + 4),
        _ => None,
    }
}

pub fn read_tokens(bytes: &[u8]) -> Result<Vec<Token<'_>>, Fault> {
    let line_of = |place: usize| bytes[..place].iter().filter(|byte| **byte == b'\n').count() + 1;
    let document =
        str::from_utf8(bytes).map_err(|error| Fault::NotUtf8(line_of(error.valid_up_to())))?;
    let mut tokens = Vec::new();
    for (block, from, mut line) in policy_blocks(document)? {
        let mut at = 0;
        while at < block.len() {
            let rest = &block[at..];
            if let Some(size) = gap(rest) {
                line += rest[..size].matches('\n').count();
                at += size;
            } else if let Some((kind, size)) = token(rest) {
                let start = from + at;
                tokens.push(Token {
                    kind,
                    line,
                    start,
                    end: start + size,
                });
                at += size;
            } else {
                return Err(Fault::BadToken(line));
            }
        }
    }
    Ok(tokens)
}

/// The name of a fault, and its line.
pub fn told(fault: Fault) -> (&'static str, usize) {
    match fault {
        Fault::NotUtf8(line) => ("not utf-8", line),
        Fault::NoFrontMatter => ("no front matter", 1),
        Fault::WrongVersion(line) => ("wrong version", line),
        Fault::OpenBlock(line) => ("open block", line),
        Fault::BadToken(line) => ("bad token", line),
    }
}

/// Prints the fault of a policy, or how many tokens it has.
pub fn read_policy(policy: &str) -> ExitCode {
    let bytes = fs::read(policy).expect("a policy");
    match read_tokens(&bytes) {
        Ok(tokens) => {
            println!("{} tokens", tokens.len());
            ExitCode::SUCCESS
        }
        Err(fault) => {
            let (fault, line) = told(fault);
            println!("policy refused: {fault}, line {line}");
            ExitCode::FAILURE
        }
    }
}
