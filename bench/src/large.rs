//! Large texts whose making takes time.

use std::ops::RangeInclusive;

/// A text and what it is called.
pub struct Large {
    pub name: &'static str,
    pub text: String,
}

/// A text near the limits of the product and of nodes, two with many rules, and a small one.
pub fn large() -> Vec<Large> {
    vec![
        Large {
            name: "product 65,536, 500 nodes",
            text: any_of(1..=4, 15, 500),
        },
        Large {
            name: "about 900 rules",
            text: cells(30, 30),
        },
        Large {
            name: "about 1,800 rules",
            text: cells(45, 40),
        },
        Large {
            name: "small",
            text: "is 1 5; keep; put 0 2; then\n".to_string(),
        },
    ]
}

/// Two texts and what the pair is called.
pub struct Pair {
    pub name: &'static str,
    pub first: String,
    pub second: String,
}

pub fn pairs() -> Vec<Pair> {
    let many = cells(45, 40);
    let pair = |name, first: &str, second: &str| Pair {
        name,
        first: first.to_string(),
        second: second.to_string(),
    };
    let (low, high) = (any_of(0..=3, 15, 500), any_of(4..=7, 15, 500));
    vec![
        pair("product 65,536, other fields", &low, &high),
        pair("product 65,536, the same", &low, &low),
        pair("1,800 rules, one leaf", &many, &many.replace("put 4 139", "put 4 999")),
        pair("1,800 rules, the same", &many, &many),
        pair("1,800 rules, turned round", &many, &turned(45, 40)),
    ]
}

/// The same cells, with the columns first.
fn turned(rows: usize, columns: usize) -> String {
    let mut lines = Vec::new();
    let column = choices(&mut lines, 3, 4, columns);
    let row = choices(&mut lines, 1, 2, rows);
    lines.push(format!("then {column} {row}"));
    lines.join("\n") + "\n"
}

/// Keeps a packet one of whose fields in the range has one of the first values; `both` fills it up to so many nodes.
fn any_of(fields: RangeInclusive<usize>, values: usize, nodes: usize) -> String {
    let mut lines = Vec::new();
    for field in fields {
        for value in 0..values {
            lines.push(format!("is {field} {value}"));
        }
    }
    let tests = lines.len();
    let mut last = 0;
    for test in 1..tests {
        lines.push(format!("either {last} {test}"));
        last = lines.len() - 1;
    }
    while lines.len() + 1 < nodes {
        lines.push(format!("both {last} {last}"));
        last = lines.len() - 1;
    }
    lines.push(format!("keep {last}"));
    lines.join("\n") + "\n"
}

/// A rule for each pair of a value of field 1 and a value of field 3.
fn cells(rows: usize, columns: usize) -> String {
    let mut lines = Vec::new();
    let row = choices(&mut lines, 1, 2, rows);
    let column = choices(&mut lines, 3, 4, columns);
    lines.push(format!("then {row} {column}"));
    lines.join("\n") + "\n"
}

/// For each of the first values of a field another value of the field `set`; gives the node's number.
fn choices(lines: &mut Vec<String>, field: usize, set: usize, values: usize) -> usize {
    let mut all = None;
    for value in 0..values {
        let test = lines.len();
        lines.push(format!("is {field} {value}"));
        lines.push(format!("keep {test}"));
        lines.push(format!("put {set} {}", value + 100));
        lines.push(format!("then {} {}", test + 1, test + 2));
        let one = lines.len() - 1;
        all = Some(match all {
            None => one,
            Some(before) => {
                lines.push(format!("and {before} {one}"));
                lines.len() - 1
            }
        });
    }
    all.unwrap_or(0)
}
