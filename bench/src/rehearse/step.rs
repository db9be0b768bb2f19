//! The steps of a script, as they are typed.

use crate::rehearse::order::Typed;
use crate::words::Words;

pub enum Step {
    Change,
    /// Switch and fields, of any size.
    Enter(u64, [u64; 8]),
    Arrive(u64, u64),
    Lose(u64, u64),
    Order(Typed),
    Answer(Typed),
    RawSwitch(u64, Vec<u8>),
    RawDesk(Vec<u8>),
    Show,
}

/// A step, of which the first word is taken already. What can't be understood: 1.
pub fn read(first: &[u8], mut words: Words) -> Result<Step, u8> {
    let step = match first {
        b"change" => Step::Change,
        b"enter" => {
            let switch = words.number()?;
            let mut fields = [0; 8];
            for field in &mut fields {
                *field = words.number()?;
            }
            Step::Enter(switch, fields)
        }
        b"arrive" => Step::Arrive(words.number()?, words.number()?),
        b"lose" => Step::Lose(words.number()?, words.number()?),
        b"order" => Step::Order(Typed::read(&mut words)?),
        b"answer" => Step::Answer(Typed::read(&mut words)?),
        b"raw" => read_raw(&mut words)?,
        b"show" => Step::Show,
        _ => return Err(1),
    };
    words.end()?;
    Ok(step)
}

fn read_raw(words: &mut Words) -> Result<Step, u8> {
    match words.next() {
        Some(b"switch") => {
            let switch = words.number()?;
            Ok(Step::RawSwitch(switch, read_hex(words.next())?))
        }
        Some(b"desk") => Ok(Step::RawDesk(read_hex(words.next())?)),
        _ => Err(1),
    }
}

/// An even number of hexadecimal digits, in either case.
fn read_hex(word: Option<&[u8]>) -> Result<Vec<u8>, u8> {
    let digits = word.ok_or(1)?;
    if digits.len() % 2 != 0 {
        return Err(1);
    }
    digits
        .chunks_exact(2)
        .map(|pair| Ok(digit(pair[0])? * 16 + digit(pair[1])?))
        .collect()
}

fn digit(byte: u8) -> Result<u8, u8> {
    match byte {
        b'0'..=b'9' => Ok(byte - b'0'),
        b'a'..=b'f' => Ok(byte - b'a' + 10),
        b'A'..=b'F' => Ok(byte - b'A' + 10),
        _ => Err(1),
    }
}
