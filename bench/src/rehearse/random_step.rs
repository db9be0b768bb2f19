//! Random steps of a net, chosen with a view of how far it is.

use crate::node::Node;
use crate::random::Random;
use crate::rehearse::cables::{Cables, End};
use crate::rehearse::net::Net;
use crate::rehearse::order::{self, Order, Reader};
use crate::rehearse::random_net::{plan, spoil, text_line};
use crate::{bytes, damage};

/// How a script goes.
#[derive(Clone, Copy)]
pub struct Tempo {
    /// Something odd happens once in so many times.
    pub odd: usize,
    /// So often of ten times a change is brought on.
    pub onward: usize,
}

/// The lines of one thing that happens.
pub fn lines(random: &mut Random, net: &Net, tempo: Tempo) -> Vec<Vec<u8>> {
    if random.once_in(tempo.odd) {
        return odd_lines(random, net);
    }
    let line = if random.below(10) < tempo.onward {
        return onward(random, net);
    } else if full(net).is_empty() || random.once_in(2) {
        enter(random, &net.cables)
    } else {
        item(random, net, "arrive")
    };
    vec![line.into_bytes()]
}

/// What brings a change on: texts and the change, an order, an answer, or a mark that comes in.
fn onward(random: &mut Random, net: &Net) -> Vec<Vec<u8>> {
    let Some(order) = net.desk.order() else {
        return if random.once_in(3) {
            change(random, net)
        } else {
            vec![enter(random, &net.cables).into_bytes()]
        };
    };
    let waits: Vec<u8> = (0..net.cables.switches)
        .filter(|&switch| !net.desk.has_answered(switch))
        .collect();
    let switch = random.pick(&waits);
    let line = if net.has_sent(order, switch) {
        said("answer", order, switch)
    } else if matches!(order, Order::Round(..)) && !full(net).is_empty() && !random.once_in(3) {
        item(random, net, "arrive")
    } else {
        said("order", order, switch)
    };
    vec![line.into_bytes()]
}

/// What is late, repeated, lost, impossible or refused.
fn odd_lines(random: &mut Random, net: &Net) -> Vec<Vec<u8>> {
    let line = match random.below(14) {
        0 | 1 => item(random, net, "lose"),
        2 | 3 => said("order", some_order(random, net), any_switch(random, net)),
        4 | 5 => said("answer", some_order(random, net), any_switch(random, net)),
        6 => "show".to_string(),
        7 => wild(random),
        8 => bad_enter(random, &net.cables),
        9 => return bad_change(random, net),
        10 => "change".to_string(),
        11 => raw_change(random, net),
        12 => raw_desk(random, net),
        _ => raw_switch(random, net),
    };
    vec![line.into_bytes()]
}

fn change(random: &mut Random, net: &Net) -> Vec<Vec<u8>> {
    let plan = plan(random, net.cables.switches, net.cables.ports);
    change_lines(random, plan)
}

/// A change that is refused, most often.
fn bad_change(random: &mut Random, net: &Net) -> Vec<Vec<u8>> {
    let mut plan = plan(random, net.cables.switches, net.cables.ports);
    if !plan.is_empty() {
        spoil(random, &mut plan);
    }
    change_lines(random, plan)
}

fn change_lines(random: &mut Random, plan: Vec<(u8, Vec<Node>)>) -> Vec<Vec<u8>> {
    let mut lines: Vec<Vec<u8>> = plan
        .iter()
        .map(|(switch, nodes)| text_line(random, *switch, nodes))
        .collect();
    if random.once_in(20) {
        let at = random.below(lines.len().max(1));
        if let Some(line) = lines.get_mut(at) {
            // The words behind the switch are damaged.
            let rest = line.split_off(7.min(line.len()));
            let damaged = damage::notation(random, rest);
            line.extend(damaged.into_iter().filter(|&byte| byte != b'\n'));
        }
    }
    lines.push(b"change".to_vec());
    lines
}

/// A packet at an outside port, if there is one.
fn enter(random: &mut Random, cables: &Cables) -> String {
    let mut doors = vec![];
    for switch in 0..cables.switches {
        for port in 0..cables.ports {
            if cables.at(switch, port) == End::Outside {
                doors.push((switch, port));
            }
        }
    }
    if doors.is_empty() {
        return "show".to_string();
    }
    let (switch, port) = random.pick(&doors);
    enter_at(random, usize::from(switch), usize::from(port))
}

fn enter_at(random: &mut Random, switch: usize, port: usize) -> String {
    let mut line = format!("enter {switch} {port} {}", random.below(3));
    for _ in 2..8 {
        let value = random.pick(&[0, 0, 0, 1, 2, 5, 65_535]);
        line.push_str(&format!(" {value}"));
    }
    line
}

/// A packet at a port that may not be there or not be outside, perhaps with a value out of range.
fn bad_enter(random: &mut Random, cables: &Cables) -> String {
    let switch = random.below(usize::from(cables.switches) + 1);
    let port = random.below(usize::from(cables.ports) + 1);
    let mut line = enter_at(random, switch, port);
    if random.once_in(2) {
        let last = line.rfind(' ').unwrap_or(0);
        line.truncate(last);
        line.push_str(random.pick(&[" 65536", " 65535", " 4294967296", " 99999999999999999999"]));
    }
    line
}

/// The ports from which a cable goes out on which there is something.
fn full(net: &Net) -> Vec<(usize, usize)> {
    let mut full = vec![];
    for switch in 0..net.cables.switches {
        for port in 0..net.cables.ports {
            if !net.queue(switch, port).is_empty() {
                full.push((usize::from(switch), usize::from(port)));
            }
        }
    }
    full
}

/// The first item of a cable on which there is something, or of any port.
fn item(random: &mut Random, net: &Net, word: &str) -> String {
    let full = full(net);
    let (switch, port) = if full.is_empty() || random.once_in(30) {
        let switch = random.below(usize::from(net.cables.switches) + 1);
        (switch, random.below(usize::from(net.cables.ports) + 1))
    } else {
        random.pick(&full)
    };
    format!("{word} {switch} {port}")
}

fn said(word: &str, order: Order, switch: u8) -> String {
    let order = match order {
        Order::Install(version) => format!("install {version}"),
        Order::Stamp(version) => format!("stamp {version}"),
        Order::Round(version, round) => format!("round {version} {round}"),
        Order::Remove(version) => format!("remove {version}"),
    };
    format!("{word} {order} {switch}")
}

/// A switch, rarely one that isn't there.
fn any_switch(random: &mut Random, net: &Net) -> u8 {
    let switches = usize::from(net.cables.switches);
    if random.once_in(20) {
        return random.below(30) as u8;
    }
    random.below(switches) as u8
}

/// The stage's order, or one of this change or an earlier one, or one that comes later.
fn some_order(random: &mut Random, net: &Net) -> Order {
    if let (Some(order), true) = (net.desk.order(), random.once_in(3)) {
        return order;
    }
    let newest = usize::from(net.desk.version) + 2;
    let version = newest.saturating_sub(random.below(4)) as u16;
    match random.below(5) {
        0 => Order::Install(version),
        1 => Order::Stamp(version),
        2 => Order::Remove(version),
        _ => Order::Round(
            version,
            random.below(usize::from(net.cables.hops) + 2) as u8,
        ),
    }
}

/// Numbers that don't exist.
fn wild(random: &mut Random) -> String {
    let number = random.pick(&["65535", "65536", "65537", "256", "18446744073709551616"]);
    let form = random.pick(&[
        "arrive N 0",
        "lose 0 N",
        "order install N 0",
        "order stamp 1 N",
        "order round 1 N 0",
        "order remove N 0",
        "answer install N 0",
        "answer stamp 1 N",
        "answer round 1 N 0",
        "answer remove N 0",
        "raw switch N 1100010000",
        "enter N 0 0 0 0 0 0 0 0",
    ]);
    form.replace('N', number)
}

fn hex(random: &mut Random, bytes: &[u8]) -> String {
    let upper = random.once_in(4);
    bytes
        .iter()
        .map(|byte| {
            if upper {
                format!("{byte:02X}")
            } else {
                format!("{byte:02x}")
            }
        })
        .collect()
}

/// The bytes as they are or damaged; never none at all.
fn perhaps_damaged(random: &mut Random, bytes: Vec<u8>) -> Vec<u8> {
    let mut bytes = if random.once_in(2) {
        damage::bytes(random, bytes)
    } else {
        bytes
    };
    if bytes.is_empty() {
        bytes.push(66);
    }
    bytes
}

fn raw_change(random: &mut Random, net: &Net) -> String {
    let mut change = vec![66];
    for (switch, nodes) in plan(random, net.cables.switches, net.cables.ports) {
        change.extend(bytes::write(switch, &nodes));
    }
    let change = perhaps_damaged(random, change);
    format!("raw desk {}", hex(random, &change))
}

fn raw_desk(random: &mut Random, net: &Net) -> String {
    let switch = any_switch(random, net);
    let reader = random.pick(&[Reader::Desk, Reader::Desk, Reader::Desk, Reader::Switch]);
    let answer = order::write(some_order(random, net), switch, reader);
    let answer = perhaps_damaged(random, answer);
    format!("raw desk {}", hex(random, &answer))
}

fn raw_switch(random: &mut Random, net: &Net) -> String {
    let me = any_switch(random, net);
    let switch = if random.once_in(10) {
        any_switch(random, net)
    } else {
        me
    };
    let order = some_order(random, net);
    let mut letter = order::write(order, switch, Reader::Switch);
    if let Order::Install(version) = order {
        let known = me.min(net.cables.switches - 1);
        letter.extend(order::write_table(&net.given_table(version, known)));
    }
    let letter = perhaps_damaged(random, letter);
    format!("raw switch {me} {}", hex(random, &letter))
}
