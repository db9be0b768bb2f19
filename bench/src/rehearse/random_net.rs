//! Random nets, and random texts for their switches.

use crate::limits::{self, Builder};
use crate::node::{Kind, Node};
use crate::random::Random;
use crate::rehearse::cables::{Cables, End};
use crate::{texts, write};

/// The lines that describe a net: its size, cables and outside ports.
pub fn description(random: &mut Random) -> Vec<Vec<u8>> {
    let cables = net(random);
    let mut lines = vec![];
    for switch in 0..cables.switches {
        for port in 0..cables.ports {
            match cables.at(switch, port) {
                End::Outside => lines.push(format!("outside {switch} {port}").into_bytes()),
                End::Cable(other, at) if (switch, port) < (other, at) => {
                    let line = if random.once_in(2) {
                        format!("cable {switch} {port} {other} {at}")
                    } else {
                        format!("cable {other} {at} {switch} {port}")
                    };
                    lines.push(line.into_bytes());
                }
                _ => {}
            }
        }
    }
    shuffle(random, &mut lines);
    let net = format!("net {} {} {}", cables.switches, cables.ports, cables.hops);
    lines.insert(0, net.into_bytes());
    lines
}

/// A net of 1 to 6 switches with few ports; some cables go from a switch to itself.
fn net(random: &mut Random) -> Cables {
    let switches = random.range(1, 6) as u8;
    let ports = random.range(2, 5) as u8;
    let hops = random.pick(&[0, 1, 1, 1, 2, 2, 3, 4]);
    let mut cables = Cables::new(switches, ports, hops);
    let mut free = vec![];
    for switch in 0..switches {
        for port in 0..ports {
            if random.once_in(3) {
                cables.set(switch, port, End::Outside);
            } else if !random.once_in(6) {
                free.push((switch, port));
            }
        }
    }
    shuffle(random, &mut free);
    for pair in free.chunks_exact(2) {
        let (one, other) = (pair[0], pair[1]);
        cables.set(one.0, one.1, End::Cable(other.0, other.1));
        cables.set(other.0, other.1, End::Cable(one.0, one.1));
    }
    cables
}

pub fn shuffle<T>(random: &mut Random, list: &mut [T]) {
    for at in (1..list.len()).rev() {
        list.swap(at, random.below(at + 1));
    }
}

/// Nodes for a switch with so many ports. Most send packets on.
pub fn nodes(random: &mut Random, ports: u8) -> Vec<Node> {
    match random.below(60) {
        0 => texts::text(random),
        1..=3 => flood(random, ports),
        _ => routes(random, ports),
    }
}

/// Texts that rarely fit.
pub fn odd_nodes(random: &mut Random) -> Vec<Node> {
    match random.below(20) {
        0 => limits::rules(random),
        1 => limits::nodes(random),
        2..=5 => limits::copies(random),
        6..=8 => too_wide(random),
        _ => texts::text(random),
    }
}

/// Tests of three or four values of each field: the product is 65,536 where it is three everywhere.
fn too_wide(random: &mut Random) -> Vec<Node> {
    let mut b = Builder::default();
    let mut tests = vec![];
    for field in 0..8 {
        for value in 0..random.range(3, 4) {
            tests.push(b.add(Node::Is(field, value as u16)));
        }
    }
    b.join(random.pick(&[Kind::Both, Kind::Either]), &tests);
    b.nodes
}

/// A copy at several ports.
fn flood(random: &mut Random, ports: u8) -> Vec<Node> {
    let mut b = Builder::default();
    let count = random.range(1, usize::from(ports) + 1);
    let puts: Vec<usize> = (0..count)
        .map(|_| b.add(Node::Put(0, random.below(usize::from(ports) + 1) as u16)))
        .collect();
    b.join(Kind::And, &puts);
    b.nodes
}

/// For some ports and values of field 1, a port to send to, and perhaps another field set.
fn routes(random: &mut Random, ports: u8) -> Vec<Node> {
    let mut b = Builder::default();
    let count = random.range(1, 5);
    let ways: Vec<usize> = (0..count).map(|_| route(random, &mut b, ports)).collect();
    b.join(Kind::And, &ways);
    b.nodes
}

fn route(random: &mut Random, b: &mut Builder, ports: u8) -> usize {
    let mut test = match random.below(4) {
        0 => b.add(Node::Always),
        1 => b.add(Node::Is(1, random.below(3) as u16)),
        _ => b.add(Node::Is(0, random.below(usize::from(ports)) as u16)),
    };
    if random.once_in(5) {
        test = b.add(Node::Not(test));
    }
    let keep = b.add(Node::Keep(test));
    let to = b.add(Node::Put(0, random.below(usize::from(ports)) as u16));
    let way = b.add(Node::Then(keep, to));
    if random.once_in(2) {
        return way;
    }
    let field = random.pick(&[1, 1, 2, 3, 7]);
    let put = b.add(Node::Put(field, random.below(3) as u16));
    b.add(Node::Then(way, put))
}

/// A `text` line.
pub fn text_line(random: &mut Random, switch: u8, nodes: &[Node]) -> Vec<u8> {
    let mut line = format!("text {switch} ").into_bytes();
    line.extend_from_slice(&write::line(random, nodes));
    line
}

/// A text for each switch, in any order.
pub fn plan(random: &mut Random, switches: u8, ports: u8) -> Vec<(u8, Vec<Node>)> {
    let mut plan: Vec<(u8, Vec<Node>)> = (0..switches)
        .map(|switch| (switch, nodes(random, ports)))
        .collect();
    if random.once_in(4) {
        shuffle(random, &mut plan);
    }
    if random.once_in(25) {
        spoil(random, &mut plan);
    }
    plan
}

/// Leaves out a text, names a switch twice or one that isn't there, or puts in a text that rarely fits.
pub fn spoil(random: &mut Random, plan: &mut Vec<(u8, Vec<Node>)>) {
    let at = random.below(plan.len());
    match random.below(4) {
        0 => {
            plan.remove(at);
        }
        1 => {
            let again = plan[at].clone();
            plan.insert(random.below(plan.len() + 1), again);
        }
        2 => plan[at].0 += random.range(1, 30) as u8,
        _ => plan[at].1 = odd_nodes(random),
    }
}
