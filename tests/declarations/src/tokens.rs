//! Words, numbers and signs of a source text, without its comments.

use std::iter::once;

/// The text with a space in the place of each comment, which runs from `open` to `close`.
pub fn without_comments(text: &str, open: &str, close: &str) -> String {
    let mut parts = text.split(open);
    let first = parts.next().unwrap_or_default();
    let rest = parts.map(|part| part.split_once(close).map_or("", |(_, after)| after));
    once(first).chain(rest).collect::<Vec<_>>().join(" ")
}

/// A word or a number is one token; every other character is one by itself.
pub fn tokens(text: &str) -> Vec<String> {
    let mut tokens: Vec<String> = Vec::new();
    let mut inside = false;
    for character in text.chars() {
        let part = character.is_alphanumeric() || character == '_';
        match tokens.last_mut() {
            Some(word) if part && inside => word.push(character),
            _ if character.is_whitespace() => {}
            _ => tokens.push(character.to_string()),
        }
        inside = part;
    }
    tokens
}

/// A place in a list of tokens. What is not as expected is an error, never passed over.
pub struct Cursor<'a> {
    tokens: &'a [String],
    at: usize,
}

impl<'a> Cursor<'a> {
    pub fn new(tokens: &'a [String]) -> Self {
        Cursor { tokens, at: 0 }
    }

    /// The token at the place, empty at the end.
    pub fn peek(&self) -> &'a str {
        self.tokens.get(self.at).map_or("", String::as_str)
    }

    pub fn take(&mut self) -> &'a str {
        let token = self.peek();
        self.at += 1;
        token
    }

    pub fn is_at_end(&self) -> bool {
        self.tokens.len() <= self.at
    }

    /// Whether the tokens at the place are those of the text.
    pub fn sees(&self, text: &str) -> bool {
        let start = self.at.min(self.tokens.len());
        self.tokens[start..].starts_with(&tokens(text))
    }

    /// Goes past the tokens of the text if they stand here.
    pub fn passes(&mut self, text: &str) -> bool {
        let seen = self.sees(text);
        if seen {
            self.at += tokens(text).len();
        }
        seen
    }

    /// The tokens of the text must stand here.
    pub fn expect(&mut self, text: &str) -> Result<(), String> {
        if self.passes(text) {
            return Ok(());
        }
        let end = self.tokens.len().min(self.at + 8);
        let found = self.tokens[self.at.min(end)..end].join(" ");
        Err(format!("`{text}` is expected where `{found}` stands"))
    }

    /// A word, which does not begin with a digit.
    pub fn word(&mut self) -> Result<String, String> {
        let token = self.take();
        match token.chars().next() {
            Some(first) if first.is_alphabetic() || first == '_' => Ok(token.to_string()),
            _ => Err(format!("a name is expected where `{token}` stands")),
        }
    }
}
