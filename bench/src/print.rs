//! A table as it is printed, a rule to a line.

use crate::node::Pair;
use crate::table::Rule;

pub fn table(rules: &[Rule]) -> String {
    rules
        .iter()
        .map(|rule| format!("{} -> {}\n", wants(&rule.wants), outs(&rule.outs)))
        .collect()
}

fn wants(wants: &[Pair]) -> String {
    if wants.is_empty() {
        return "any".to_string();
    }
    pairs(wants)
}

fn outs(outs: &[Vec<Pair>]) -> String {
    if outs.is_empty() {
        return "drop".to_string();
    }
    outs.iter()
        .map(|out| settings(out))
        .collect::<Vec<_>>()
        .join(" | ")
}

fn settings(settings: &[Pair]) -> String {
    if settings.is_empty() {
        return "same".to_string();
    }
    pairs(settings)
}

fn pairs(pairs: &[Pair]) -> String {
    pairs
        .iter()
        .map(|(field, value)| format!("{field}={value}"))
        .collect::<Vec<_>>()
        .join(" ")
}
