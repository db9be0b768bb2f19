//! Reading and writing a text in its byte form.

use crate::fault::Fault;
use crate::node::{is_earlier, Kind, Node, Shape, Sort, KINDS, MOST_NODES};

/// A text that stands alone: switch, number of nodes, nodes, and nothing behind them.
pub fn read(input: &[u8]) -> Result<Vec<Node>, Fault> {
    let mut places = Places::new(input);
    read_alone(&mut places).map_err(Fault::new)
}

fn read_alone(places: &mut Places) -> Result<Vec<Node>, u8> {
    read_switch(places, 24)?;
    let nodes = read_nodes(places)?;
    places.end()?;
    Ok(nodes)
}

/// A switch's number, which is below `switches`.
pub fn read_switch(places: &mut Places, switches: u8) -> Result<u8, u8> {
    let switch = places.one()?;
    if switch >= switches {
        return Err(2);
    }
    Ok(switch)
}

/// What stands behind the switch: number of nodes, nodes.
pub fn read_nodes(places: &mut Places) -> Result<Vec<Node>, u8> {
    let count = usize::from(places.two()?);
    if count == 0 || count > MOST_NODES {
        return Err(2);
    }
    let mut nodes = vec![];
    while nodes.len() < count {
        let node = read_node(places, &nodes)?;
        nodes.push(node);
    }
    Ok(nodes)
}

fn read_node(places: &mut Places, nodes: &[Node]) -> Result<Node, u8> {
    let kind = find_kind(places.one()?).ok_or(1)?;
    Ok(match kind.shape() {
        Shape::Nothing => Node::Always,
        Shape::Pair => {
            let field = places.one()?;
            if field > 7 {
                return Err(2);
            }
            kind.of_pair(field, places.two()?)
        }
        Shape::One(sort) => kind.of_operands(read_operand(places, nodes, sort)?, 0),
        Shape::Two(sort) => {
            let a = read_operand(places, nodes, sort)?;
            let b = read_operand(places, nodes, sort)?;
            kind.of_operands(a, b)
        }
    })
}

fn read_operand(places: &mut Places, nodes: &[Node], sort: Sort) -> Result<usize, u8> {
    let number = usize::from(places.two()?);
    if is_earlier(nodes, number, sort) {
        Ok(number)
    } else {
        Err(3)
    }
}

fn find_kind(number: u8) -> Option<Kind> {
    KINDS.into_iter().find(|kind| kind.number() == number)
}

/// What is still to be read.
pub struct Places<'a> {
    rest: &'a [u8],
}

impl<'a> Places<'a> {
    pub fn new(input: &'a [u8]) -> Places<'a> {
        Places { rest: input }
    }

    pub fn is_empty(&self) -> bool {
        self.rest.is_empty()
    }

    /// Bytes left over: 1.
    pub fn end(&self) -> Result<(), u8> {
        if self.is_empty() {
            Ok(())
        } else {
            Err(1)
        }
    }

    pub fn one(&mut self) -> Result<u8, u8> {
        let (&first, rest) = self.rest.split_first().ok_or(1)?;
        self.rest = rest;
        Ok(first)
    }

    pub fn two(&mut self) -> Result<u16, u8> {
        let high = self.one()?;
        let low = self.one()?;
        Ok(u16::from_be_bytes([high, low]))
    }
}

/// The byte form of a text. Numbers that don't fit their place lose their high bits.
pub fn write(switch: u8, nodes: &[Node]) -> Vec<u8> {
    let mut out = vec![switch];
    push_two(&mut out, nodes.len());
    for node in nodes {
        out.push(node.kind().number());
        if let Node::Is(field, value) | Node::Put(field, value) = *node {
            out.push(field);
            push_two(&mut out, usize::from(value));
        }
        for operand in node.operands() {
            push_two(&mut out, operand);
        }
    }
    out
}

fn push_two(out: &mut Vec<u8>, number: usize) {
    out.extend_from_slice(&(number as u16).to_be_bytes());
}
