//! Refusals: a number, and the line of the input where there is one.

#[derive(Clone, Copy, Debug, PartialEq, Eq)]
pub struct Fault {
    pub number: u8,
    pub line: Option<usize>,
}

impl Fault {
    pub fn new(number: u8) -> Fault {
        Fault { number, line: None }
    }

    pub fn at(number: u8, line: usize) -> Fault {
        Fault {
            number,
            line: Some(line),
        }
    }

    /// What standard error says behind the program's name.
    pub fn message(&self) -> String {
        let line = match self.line {
            Some(line) => format!("line {line}: "),
            None => String::new(),
        };
        format!("{line}refused {}: {}", self.number, cause(self.number))
    }
}

/// The causes of what ends a program.
fn cause(number: u8) -> &'static str {
    match number {
        1 => "unknown kind, bad length",
        2 => {
            "a field, value, switch, port, hop count or number of nodes out of range; \
             in a change, a switch missing or twice"
        }
        3 => "a node names itself, a later one, or one of the wrong sort",
        4 => "a port on two cables, or on a cable and outside; a cable from a port to itself",
        5 => "the product over the fields is above 65,536",
        6 => "more than 16 copies",
        7 => "more than 2,048 rules, or 8,192 in a table on the way",
        _ => unreachable!("no program ends with {number}"),
    }
}
