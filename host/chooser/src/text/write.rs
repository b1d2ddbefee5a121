//! From a problem with names to text: costs, modules, tables, in the records' order.

use super::names::{row_variants, Module};
use super::{Named, NEVER};
use crate::columns::{aligned, Side};
use frontier::{Table, FORBIDDEN};

/// The spaces before a table's lines.
const INDENT: &str = "    ";

/// The text of a problem. The names must be names and there must be as many as the problem needs.
pub fn write(named: &Named) -> String {
    let mut text = costs_line(named);
    text.push('\n');
    for module in &named.names.modules {
        let variants = module.variants.join(", ");
        text.push_str(&format!("module {}: {variants}\n", module.name));
    }
    for table in &named.problem.tables {
        text.push('\n');
        text.push_str(&table_lines(named, table));
    }
    text
}

/// The line of the costs. The greatest ceiling is left out, as is usual for it.
fn costs_line(named: &Named) -> String {
    let pairs = named.names.costs.iter().zip(&named.problem.ceilings);
    let costs: Vec<String> = pairs
        .map(|(name, &ceiling)| match ceiling {
            u32::MAX => name.clone(),
            _ => format!("{name} <= {ceiling}"),
        })
        .collect();
    format!("costs {}\n", costs.join(", "))
}

fn table_lines(named: &Named, table: &Table) -> String {
    let module = |&v: &u8| &named.names.modules[usize::from(v)];
    let cost = &named.names.costs[usize::from(table.objective)];
    let modules: Vec<&Module> = table.scope.iter().map(module).collect();
    let Some((across, labels)) = modules.split_last() else {
        return format!("table {cost}: {}\n", entry_text(table.costs[0]));
    };
    let over: Vec<&str> = modules.iter().map(|module| module.name.as_str()).collect();
    let mut text = format!("table {cost} over {}:\n", over.join(" "));
    let sides = [
        vec![Side::Left; labels.len()],
        vec![Side::Right; across.variants.len()],
    ];
    for line in aligned(&sides.concat(), &grid(labels, across, &table.costs)) {
        text.push_str(&format!("{INDENT}{line}\n"));
    }
    text
}

fn entry_text(cost: u32) -> String {
    match cost {
        FORBIDDEN => NEVER.into(),
        _ => cost.to_string(),
    }
}

/// The cells of a table: the line of its columns, then its rows. The cells before the first
/// column are empty.
fn grid(labels: &[&Module], across: &Module, costs: &[u32]) -> Vec<Vec<String>> {
    let mut head = vec![String::new(); labels.len()];
    head.extend(across.variants.iter().cloned());
    let mut lines = vec![head];
    for (row, costs) in costs.chunks(across.variants.len()).enumerate() {
        let labels = row_variants(labels, row);
        let mut line: Vec<String> = labels.into_iter().map(String::from).collect();
        line.extend(costs.iter().map(|&cost| entry_text(cost)));
        lines.push(line);
    }
    lines
}
