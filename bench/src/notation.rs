//! Reading a text in the notation.

use crate::fault::Fault;
use crate::node::{is_earlier, Kind, Node, Shape, Sort, KINDS, MOST_NODES};
use crate::words::{before_comment, Words};

pub fn read(input: &[u8]) -> Result<Vec<Node>, Fault> {
    let mut draft = Draft {
        nodes: vec![],
        used: vec![],
    };
    for (index, line) in input.split(|&byte| byte == b'\n').enumerate() {
        let said = before_comment(line);
        for piece in said.split(|&byte| byte == b';') {
            let words: Vec<&[u8]> = Words::new(piece).collect();
            if words.is_empty() {
                continue;
            }
            let node = draft
                .read_node(&words)
                .map_err(|number| Fault::at(number, index + 1))?;
            draft.add(node);
        }
    }
    if draft.nodes.is_empty() {
        return Err(Fault::new(2));
    }
    Ok(draft.nodes)
}

/// The nodes so far, and which of them are some node's operands.
struct Draft {
    nodes: Vec<Node>,
    used: Vec<bool>,
}

impl Draft {
    fn add(&mut self, node: Node) {
        for operand in node.operands() {
            self.used[operand] = true;
        }
        self.nodes.push(node);
        self.used.push(false);
    }

    /// A node of at least one word. The words are tested from left to right.
    fn read_node(&self, words: &[&[u8]]) -> Result<Node, u8> {
        let kind = find_kind(words[0]).ok_or(1)?;
        if self.nodes.len() == MOST_NODES {
            return Err(2);
        }
        let rest = &words[1..];
        let (node, taken) = match kind.shape() {
            Shape::Nothing => (Node::Always, 0),
            Shape::Pair => {
                let field = read_number(rest.first().copied(), 7)?;
                let value = read_number(rest.get(1).copied(), 65_535)?;
                (kind.of_pair(field as u8, value as u16), 2)
            }
            Shape::One(sort) if rest.is_empty() => {
                let [a] = self.left_out::<1>(sort)?;
                (kind.of_operands(a, 0), 0)
            }
            Shape::Two(sort) if rest.is_empty() => {
                let [a, b] = self.left_out::<2>(sort)?;
                (kind.of_operands(a, b), 0)
            }
            Shape::One(sort) => (
                kind.of_operands(self.operand(rest.first().copied(), sort)?, 0),
                1,
            ),
            Shape::Two(sort) => {
                let a = self.operand(rest.first().copied(), sort)?;
                let b = self.operand(rest.get(1).copied(), sort)?;
                (kind.of_operands(a, b), 2)
            }
        };
        if rest.len() > taken {
            return Err(1);
        }
        Ok(node)
    }

    /// A written operand.
    fn operand(&self, word: Option<&[u8]>, sort: Sort) -> Result<usize, u8> {
        let number = number_of(word)? as usize;
        if is_earlier(&self.nodes, number, sort) {
            Ok(number)
        } else {
            Err(3)
        }
    }

    /// The latest N nodes that no node has used, in the order in which they stand.
    fn left_out<const N: usize>(&self, sort: Sort) -> Result<[usize; N], u8> {
        let mut found = [0; N];
        let mut free = (0..self.nodes.len()).rev().filter(|&at| !self.used[at]);
        for place in found.iter_mut().rev() {
            *place = free.next().ok_or(3)?;
        }
        if found.iter().all(|&at| is_earlier(&self.nodes, at, sort)) {
            Ok(found)
        } else {
            Err(3)
        }
    }
}

fn find_kind(word: &[u8]) -> Option<Kind> {
    KINDS
        .into_iter()
        .find(|kind| kind.word().as_bytes() == word)
}

/// A number up to `most`: 1 without one, 2 where it is larger.
pub fn read_number(word: Option<&[u8]>, most: u64) -> Result<u64, u8> {
    let number = number_of(word)?;
    if number > most {
        return Err(2);
    }
    Ok(number)
}

/// The number that a word is. What is very large stays at a number that is too large everywhere.
pub fn number_of(word: Option<&[u8]>) -> Result<u64, u8> {
    let word = word.ok_or(1)?;
    let mut number: u64 = 0;
    for byte in word.iter() {
        if !byte.is_ascii_digit() {
            return Err(1);
        }
        number = (number * 10 + u64::from(byte - b'0')).min(1_000_000);
    }
    Ok(number)
}
