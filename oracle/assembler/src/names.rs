//! Name numbers and their spellings, and identifiers.

/// The spellings of the name numbers, from 1 on.
#[derive(Debug, Clone, Default, PartialEq, Eq)]
pub struct Names(Vec<String>);

impl Names {
    /// The number of a name: that of `n5` is 5, any other has the next one where it first stands.
    pub fn number(&mut self, name: &str) -> Option<u16> {
        if let Some(digits) = name.strip_prefix('n')
            && let Ok(number) = digits.parse()
        {
            return Some(number);
        }
        let place = self.0.iter().position(|known| known == name);
        let place = place.unwrap_or_else(|| {
            self.0.push(name.into());
            self.0.len() - 1
        });
        u16::try_from(place + 1).ok()
    }

    /// A line for each: the number, a space and the spelling.
    pub fn lines(&self) -> String {
        let line = |(place, name)| format!("{} {name}\n", place + 1);
        self.0.iter().enumerate().map(line).collect()
    }
}

/// A word taken apart: a name, and an ID where one stands behind it.
pub fn split(word: &str) -> (&str, Option<u16>) {
    match word.rsplit_once('_') {
        Some((name, id)) if !name.is_empty() && id.bytes().all(|b| b.is_ascii_digit()) => {
            match id.parse() {
                Ok(id) => (name, Some(id)),
                Err(_) => (word, None),
            }
        }
        _ => (word, None),
    }
}
