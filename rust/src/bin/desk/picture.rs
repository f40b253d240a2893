//! The rows that a row reaches, as a Graphviz file.

use std::collections::BTreeSet;
use std::fmt::Write;

use pierstride::{Decision, Numbered, Part};

use crate::table::Entry;

/// A request, and what each row decides there.
pub struct Decided {
    pub request: String,
    pub decisions: Vec<Decision>,
}

/// A box for each row that is reached from `row`, from the highest number down, and an arrow
/// from each to the rows that it names; where it can, Graphviz puts the first of them on the
/// left.
pub fn draw(entries: &[Entry], row: u32, decided: Option<&Decided>) -> String {
    let rows = reached(entries, row);
    let mut dot = format!("digraph \"row {row}\" {{\n");
    dot += "    graph [ordering=out, fontname=\"Helvetica\"];\n";
    dot += "    node [shape=box, style=filled, fillcolor=white, fontname=\"Helvetica\"];\n";
    if let Some(Decided { request, .. }) = decided {
        let _ = writeln!(dot, "    label=\"{request}\";");
    }
    for entry in &rows {
        let decision = decided.map(|decided| decided.decisions[entry.number as usize]);
        dot += &drawn(entry, decision);
    }
    for entry in &rows {
        let mut named: Vec<u32> = entry.named(Numbered::Row).collect();
        // A row that is named twice gets one arrow.
        named.dedup();
        for named in named {
            let _ = writeln!(dot, "    {} -> {named};", entry.number);
        }
    }
    dot + "}\n"
}

/// The rows that a row reaches, itself included, by falling numbers.
fn reached(entries: &[Entry], row: u32) -> Vec<&Entry> {
    let mut numbers = BTreeSet::from([row]);
    let rows = entries.iter().filter(|entry| entry.kind.part == Part::Rows).rev();
    // A row names only rows with a lower number, so each is met after all that name it.
    rows.filter(|entry| {
        let met = numbers.contains(&entry.number);
        if met {
            numbers.extend(entry.named(Numbered::Row));
        }
        met
    })
    .collect()
}

/// A row's box.
fn drawn(entry: &Entry, decision: Option<Decision>) -> String {
    let mut lines = vec![entry.label(), entry.line.clone()];
    let mut colours = String::new();
    if let Some(supplier) = entry.supplier {
        lines[0] += &format!(", {}", entry.whose());
        colours += &border_of(supplier);
    }
    if let Some(decision) = decision {
        lines.push(format!("decides {decision}"));
        let _ = write!(colours, ", fillcolor=\"{}\"", colour_of(decision));
    }
    format!("    {} [label=\"{}\"{colours}];\n", entry.number, lines.join("\\n"))
}

/// The border of a supplier's rows, in a colour of their own; that of supplier 0's is plain.
/// The colour's hue goes round by the golden section, so that next numbers differ much.
fn border_of(supplier: u32) -> String {
    match supplier {
        0 => String::new(),
        _ => format!(", color=\"0.{:04},0.9,0.7\", penwidth=3", supplier * 6180 % 10_000),
    }
}

/// The word stands in the box too, for those who tell no red from green.
fn colour_of(decision: Decision) -> &'static str {
    match decision {
        Decision::Unspecified => "#eeeeee",
        Decision::Deny => "#f4c7c3",
        Decision::Grant => "#c8e6c9",
        Decision::Conflict => "#ffe0a3",
    }
}
