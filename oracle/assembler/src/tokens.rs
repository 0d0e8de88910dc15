//! A text as tokens.

use crate::Fault;

#[derive(Debug, Clone, PartialEq, Eq)]
pub enum Token {
    Word(String),
    Number(i64),
    Sign(&'static str),
    End,
}

/// A token and its line.
pub type Placed = (Token, usize);

/// The signs, each before those that it begins with.
const SIGNS: [&str; 22] = [
    ":=", "<-", "<=", ">=", "==", "!=", "=>", "(", ")", "{", "}", ",", ";", ":", "=", "<", ">",
    "+", "-", "*", "/", "%",
];

pub fn tokens(text: &str) -> Result<Vec<Placed>, Fault> {
    let mut tokens = Vec::new();
    for (place, line) in text.lines().enumerate() {
        of_line(line, place + 1, &mut tokens)?;
    }
    tokens.push((Token::End, text.lines().count()));
    Ok(tokens)
}

fn of_line(text: &str, line: usize, tokens: &mut Vec<Placed>) -> Result<(), Fault> {
    let code = text.split("//").next().unwrap_or("");
    let mut rest = code.trim_start();
    while !rest.is_empty() {
        let (token, length) = first(rest).ok_or_else(|| Fault {
            line,
            what: format!("what is {rest:?}?"),
        })?;
        tokens.push((token, line));
        rest = rest[length..].trim_start();
    }
    Ok(())
}

/// The first token of a text, and its length.
fn first(text: &str) -> Option<(Token, usize)> {
    let begin = text.chars().next()?;
    if begin.is_ascii_alphabetic() {
        let length = span(text, |c| c.is_ascii_alphanumeric() || c == '_');
        return Some((Token::Word(text[..length].into()), length));
    }
    let minus = usize::from(begin == '-');
    let length = minus + span(&text[minus..], |c| c.is_ascii_digit());
    if length > minus {
        return Some((Token::Number(text[..length].parse().ok()?), length));
    }
    let sign = SIGNS.into_iter().find(|sign| text.starts_with(sign))?;
    Some((Token::Sign(sign), sign.len()))
}

fn span(text: &str, holds: impl Fn(char) -> bool) -> usize {
    text.find(|c| !holds(c)).unwrap_or(text.len())
}
