//! What `chooser batch` tells at the end of a run.

use std::cmp::Reverse;
use std::collections::BTreeMap;
use std::time::Duration;

use super::batch_run::{Batch, Call};
use crate::batch_csv::{Comparison, Row, Told};
use frontier::refusal::word_of;

/// So many of the slowest calls are told.
const SLOWEST: usize = 10;

/// A time in seconds, to the microsecond.
pub fn seconds(microseconds: u64) -> String {
    format!("{:.6}", Duration::from_micros(microseconds).as_secs_f64())
}

/// What is told at the end: the slowest calls, of the problems' rows how many were refused, in a run with a cache
/// how many were there, what went wrong, the comparison with an earlier run, and the time that has passed.
pub fn summary(
    batch: &Batch,
    rows: &[Row],
    cached: bool,
    compared: Option<&Comparison>,
    time: Duration,
) -> String {
    let mut text = slowest_lines(&batch.calls);
    text.push_str(&refusal_lines(rows));
    if cached {
        let told = rows.iter().filter_map(|row| row.told);
        let hits = told.filter(|told| told.hit == Some(true)).count();
        text.push_str(&format!("{hits:>12} x  hit in the cache\n"));
    }
    for (_, fault) in &batch.faults {
        text.push_str(&format!("{fault}\n"));
    }
    if let Some(found) = compared {
        text.push_str(&comparison_lines(found));
    }
    let told: Vec<Told> = rows.iter().filter_map(|row| row.told).collect();
    let answered = told.iter().filter(|told| told.number == 0).count();
    let sum = batch.calls.iter().map(|call| call.microseconds).sum();
    text.push_str(&format!(
        "{} in all: {answered} answered, {} refused, {} without an answer; {} s of processor \
         time, {:.1} s passed\n",
        rows.len(),
        told.len() - answered,
        rows.len() - told.len(),
        seconds(sum),
        time.as_secs_f64()
    ));
    text
}

fn slowest_lines(calls: &[Call]) -> String {
    let mut calls: Vec<&Call> = calls.iter().collect();
    calls.sort_by_key(|call| (Reverse(call.microseconds), &call.names));
    calls.truncate(SLOWEST);
    let line = |call: &&Call| format!("{:>12} s  {}\n", seconds(call.microseconds), call.names);
    let lines: String = calls.iter().map(line).collect();
    match lines.is_empty() {
        true => lines,
        false => format!("slowest:\n{lines}"),
    }
}

fn refusal_lines(rows: &[Row]) -> String {
    let mut numbers: BTreeMap<u8, usize> = BTreeMap::new();
    for told in rows.iter().filter_map(|row| row.told) {
        if told.number != 0 {
            *numbers.entry(told.number).or_default() += 1;
        }
    }
    let line = |(number, times): (&u8, &usize)| {
        format!("{times:>12} x  refused {number} ({})\n", word_of(*number))
    };
    numbers.iter().map(line).collect()
}

fn comparison_lines(found: &Comparison) -> String {
    let mut text = String::new();
    for difference in &found.differences {
        text.push_str(&format!("{difference}\n"));
    }
    text.push_str(&format!(
        "compared: {} the same, {} different",
        found.same,
        found.differences.len()
    ));
    if found.unknown > 0 {
        let unknown = format!(", {} without an answer in one of the runs", found.unknown);
        text.push_str(&unknown);
    }
    text + "\n"
}
