//! Words of a line, with blanks between them.

use crate::notation::number_of;

/// What stands before a comment.
pub fn before_comment(line: &[u8]) -> &[u8] {
    let end = line.iter().position(|&byte| byte == b'#');
    &line[..end.unwrap_or(line.len())]
}

fn is_blank(byte: u8) -> bool {
    matches!(byte, b' ' | b'\t' | b'\r')
}

pub struct Words<'a> {
    rest: &'a [u8],
}

impl<'a> Words<'a> {
    pub fn new(line: &'a [u8]) -> Words<'a> {
        Words { rest: line }
    }

    /// The next word as a number of any size.
    pub fn number(&mut self) -> Result<u64, u8> {
        number_of(self.next())
    }

    /// No further words.
    pub fn end(mut self) -> Result<(), u8> {
        match self.next() {
            None => Ok(()),
            Some(_) => Err(1),
        }
    }

    /// What stands behind the words that were taken.
    pub fn rest(&self) -> &'a [u8] {
        self.rest
    }
}

impl<'a> Iterator for Words<'a> {
    type Item = &'a [u8];

    fn next(&mut self) -> Option<&'a [u8]> {
        let begin = self.rest.iter().position(|&byte| !is_blank(byte))?;
        let from = &self.rest[begin..];
        let end = from.iter().position(|&byte| is_blank(byte));
        let (word, rest) = from.split_at(end.unwrap_or(from.len()));
        self.rest = rest;
        Some(word)
    }
}
