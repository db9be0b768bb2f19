//! Nodes of a text, and their sorts.

pub const FIELDS: usize = 8;
pub const MOST_NODES: usize = 512;

/// A field and a value.
pub type Pair = (u8, u16);

#[derive(Clone, Copy, Debug, PartialEq, Eq)]
pub enum Node {
    Always,
    Is(u8, u16),
    Both(usize, usize),
    Either(usize, usize),
    Not(usize),
    Keep(usize),
    Put(u8, u16),
    And(usize, usize),
    Then(usize, usize),
}

#[derive(Clone, Copy, Debug, PartialEq, Eq)]
pub enum Sort {
    Test,
    Policy,
}

/// What a node is before its numbers are known.
#[derive(Clone, Copy, Debug, PartialEq, Eq)]
pub enum Kind {
    Always,
    Is,
    Both,
    Either,
    Not,
    Keep,
    Put,
    And,
    Then,
}

pub const KINDS: [Kind; 9] = [
    Kind::Always,
    Kind::Is,
    Kind::Both,
    Kind::Either,
    Kind::Not,
    Kind::Keep,
    Kind::Put,
    Kind::And,
    Kind::Then,
];

/// What stands behind a kind.
#[derive(Clone, Copy, Debug, PartialEq, Eq)]
pub enum Shape {
    Nothing,
    Pair,
    One(Sort),
    Two(Sort),
}

impl Kind {
    pub fn word(self) -> &'static str {
        match self {
            Kind::Always => "always",
            Kind::Is => "is",
            Kind::Both => "both",
            Kind::Either => "either",
            Kind::Not => "not",
            Kind::Keep => "keep",
            Kind::Put => "put",
            Kind::And => "and",
            Kind::Then => "then",
        }
    }

    pub fn number(self) -> u8 {
        match self {
            Kind::Always => 1,
            Kind::Is => 2,
            Kind::Both => 3,
            Kind::Either => 4,
            Kind::Not => 5,
            Kind::Keep => 6,
            Kind::Put => 7,
            Kind::And => 8,
            Kind::Then => 9,
        }
    }

    pub fn shape(self) -> Shape {
        match self {
            Kind::Always => Shape::Nothing,
            Kind::Is | Kind::Put => Shape::Pair,
            Kind::Not | Kind::Keep => Shape::One(Sort::Test),
            Kind::Both | Kind::Either => Shape::Two(Sort::Test),
            Kind::And | Kind::Then => Shape::Two(Sort::Policy),
        }
    }

    pub fn of_pair(self, field: u8, value: u16) -> Node {
        match self {
            Kind::Is => Node::Is(field, value),
            Kind::Put => Node::Put(field, value),
            _ => unreachable!("{} has no pair", self.word()),
        }
    }

    /// The node with these operands; where there is only one the second counts for nothing.
    pub fn of_operands(self, a: usize, b: usize) -> Node {
        match self {
            Kind::Both => Node::Both(a, b),
            Kind::Either => Node::Either(a, b),
            Kind::Not => Node::Not(a),
            Kind::Keep => Node::Keep(a),
            Kind::And => Node::And(a, b),
            Kind::Then => Node::Then(a, b),
            _ => unreachable!("{} has no operands", self.word()),
        }
    }
}

impl Node {
    pub fn kind(&self) -> Kind {
        match self {
            Node::Always => Kind::Always,
            Node::Is(..) => Kind::Is,
            Node::Both(..) => Kind::Both,
            Node::Either(..) => Kind::Either,
            Node::Not(..) => Kind::Not,
            Node::Keep(..) => Kind::Keep,
            Node::Put(..) => Kind::Put,
            Node::And(..) => Kind::And,
            Node::Then(..) => Kind::Then,
        }
    }

    pub fn sort(&self) -> Sort {
        match self.kind() {
            Kind::Always | Kind::Is | Kind::Both | Kind::Either | Kind::Not => Sort::Test,
            Kind::Keep | Kind::Put | Kind::And | Kind::Then => Sort::Policy,
        }
    }

    pub fn operands(&self) -> Vec<usize> {
        match *self {
            Node::Always | Node::Is(..) | Node::Put(..) => vec![],
            Node::Not(a) | Node::Keep(a) => vec![a],
            Node::Both(a, b) | Node::Either(a, b) | Node::And(a, b) | Node::Then(a, b) => {
                vec![a, b]
            }
        }
    }
}

/// Whether `operand` is an earlier node of this sort.
pub fn is_earlier(nodes: &[Node], operand: usize, sort: Sort) -> bool {
    nodes.get(operand).is_some_and(|node| node.sort() == sort)
}
