//! Plays a script line by line.

use crate::fault::Fault;
use crate::rehearse::cables::Cables;
use crate::rehearse::change::{read_typed, Text};
use crate::rehearse::net::{Net, Not};
use crate::rehearse::printer::Printer;
use crate::rehearse::step::{self, Step};
use crate::words::{before_comment, Words};
use std::io::{BufRead, Write};

/// So many bytes are gathered before they are written out.
const GATHERED: usize = 1 << 16;

/// How far a script is.
enum Phase {
    Nothing,
    Described(Cables),
    Started(Net),
}

pub struct Play {
    phase: Phase,
    /// The `text` lines since the last `start` or `change`.
    texts: Vec<Text>,
    pub printer: Printer,
}

/// Plays a whole script. The inner answer is the fault that ended it.
pub fn play(input: &mut dyn BufRead, out: &mut dyn Write) -> std::io::Result<Result<(), Fault>> {
    let mut play = Play::new();
    let end = play_lines(&mut play, input, out);
    out.write_all(&play.printer.lines)?;
    out.flush()?;
    end
}

fn play_lines(
    play: &mut Play,
    input: &mut dyn BufRead,
    out: &mut dyn Write,
) -> std::io::Result<Result<(), Fault>> {
    let mut line = vec![];
    for number in 1.. {
        line.clear();
        if input.read_until(b'\n', &mut line)? == 0 {
            break;
        }
        if line.last() == Some(&b'\n') {
            line.pop();
        }
        if let Err(fault) = play.line(number, &line) {
            return Ok(Err(fault));
        }
        if play.printer.lines.len() >= GATHERED {
            out.write_all(&play.printer.lines)?;
            play.printer.lines.clear();
        }
    }
    Ok(Ok(()))
}

impl Play {
    #[allow(clippy::new_without_default)]
    pub fn new() -> Play {
        Play {
            phase: Phase::Nothing,
            texts: vec![],
            printer: Printer::default(),
        }
    }

    /// The net, once it is started.
    pub fn net(&self) -> Option<&Net> {
        match &self.phase {
            Phase::Started(net) => Some(net),
            _ => None,
        }
    }

    /// Plays a line. A fault ends the play.
    pub fn line(&mut self, number: usize, line: &[u8]) -> Result<(), Fault> {
        let mut words = Words::new(before_comment(line));
        let Some(first) = words.next() else {
            return Ok(());
        };
        let at = |fault| Fault::at(fault, number);
        match (first, &mut self.phase) {
            (b"net", phase @ Phase::Nothing) => {
                *phase = Phase::Described(Cables::read_net(words).map_err(at)?);
                Ok(())
            }
            (_, Phase::Nothing) => Err(at(1)),
            (b"text", _) => self.text(number, words).map_err(at),
            (b"cable", Phase::Described(cables)) => cables.read_cable(words).map_err(at),
            (b"outside", Phase::Described(cables)) => cables.read_outside(words).map_err(at),
            (b"start", Phase::Described(_)) => {
                words.end().map_err(at)?;
                self.start(number)
            }
            (_, Phase::Described(_)) => Err(at(1)),
            (_, Phase::Started(net)) => {
                let step = step::read(first, words).map_err(at)?;
                match take(net, step, &mut self.texts, &mut self.printer) {
                    Ok(()) => {}
                    Err(Not::Refused(number)) => self.printer.refused(number),
                    Err(Not::Impossible) => self.printer.impossible(),
                }
                Ok(())
            }
        }
    }

    fn text(&mut self, line: usize, mut words: Words) -> Result<(), u8> {
        let switch = words.number()?;
        let nodes = words.rest().to_vec();
        self.texts.push(Text {
            line,
            switch,
            nodes,
        });
        Ok(())
    }

    fn start(&mut self, line: usize) -> Result<(), Fault> {
        let phase = std::mem::replace(&mut self.phase, Phase::Nothing);
        let Phase::Described(cables) = phase else {
            unreachable!("a net is started once");
        };
        let texts = std::mem::take(&mut self.texts);
        let tables = read_typed(&texts, cables.switches).map_err(|fault| Fault {
            line: fault.line.or(Some(line)),
            ..fault
        })?;
        self.phase = Phase::Started(Net::new(cables, tables));
        Ok(())
    }
}

fn take(net: &mut Net, step: Step, texts: &mut Vec<Text>, out: &mut Printer) -> Result<(), Not> {
    match step {
        Step::Change => {
            let texts = std::mem::take(texts);
            let tables = read_typed(&texts, net.cables.switches).map_err(|fault| fault.number)?;
            net.change(tables, out)
        }
        Step::Enter(switch, fields) => net.enter(switch, &fields, out),
        Step::Arrive(switch, port) => net.arrive(switch, port, out),
        Step::Lose(switch, port) => net.lose(switch, port, out),
        Step::Order(typed) => net.order(&typed),
        Step::Answer(typed) => net.answer(&typed, out),
        Step::RawSwitch(switch, bytes) => net.raw_switch(switch, &bytes),
        Step::RawDesk(bytes) => net.raw_desk(&bytes, out),
        Step::Show => {
            net.show(out);
            Ok(())
        }
    }
}
