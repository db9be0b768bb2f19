//! What the program does with its arguments and its input.

use crate::fault::Fault;
use crate::table::Rule;
use crate::{bytes, difference, notation, print, table};

pub const USAGE: &str = "\
usage: tables [--bytes] [FILE]
Prints the table of the text in FILE or on standard input, a rule to a line.
  --bytes   the text is in its byte form
  --help    prints this
";

/// What was asked for.
#[derive(Debug, PartialEq, Eq)]
pub enum Asked {
    Help,
    Table { bytes: bool, file: Option<String> },
}

/// Options come before the file; there is one file at most.
pub fn read_arguments(arguments: &[String]) -> Result<Asked, String> {
    let mut bytes = false;
    let mut file = None;
    for argument in arguments {
        if file.is_some() {
            return Err("more than one file".to_string());
        }
        match argument.as_str() {
            "--help" => return Ok(Asked::Help),
            "--bytes" => bytes = true,
            option if option.starts_with('-') => return Err(format!("unknown option {option}")),
            name => file = Some(name.to_string()),
        }
    }
    Ok(Asked::Table { bytes, file })
}

/// The table of an input.
pub fn table_of(in_bytes: bool, input: &[u8]) -> Result<Vec<Rule>, Fault> {
    let nodes = if in_bytes {
        bytes::read(input)?
    } else {
        notation::read(input)?
    };
    table::make(&nodes)
}

/// The printed table of an input.
pub fn print_table(in_bytes: bool, input: &[u8]) -> Result<String, Fault> {
    Ok(print::table(&table_of(in_bytes, input)?))
}

/// The printed difference of two inputs.
pub fn print_difference(in_bytes: bool, first: &[u8], second: &[u8]) -> Result<String, Fault> {
    let first = table_of(in_bytes, first)?;
    let second = table_of(in_bytes, second)?;
    Ok(difference::print(&difference::difference(&first, &second)))
}
