//! `chooser bound`: what a partial choice costs at least.

use std::ffi::{OsStr, OsString};

use super::answers::{names_json, Reply};
use super::refused::{Call, Question};
use super::source::Source;
use super::{sort_words, Failure, Outcome, STANDARD_STREAM};
use crate::columns::{aligned, Side};
use crate::json::Json;
use crate::nearest::or_nearest;
use crate::text::Names;
use frontier::{Chooser, Problem};

pub const HELP: &str = "\
usage: chooser bound FILE PREFIX [--json]

Tells what every choice that starts with PREFIX costs at least, in each cost,
for the problem in FILE ('-': standard input). PREFIX has the values of the
first modules with commas between, each as its number (the first variant is 0)
or, in a text problem, as the variant's name. '-' is the empty prefix.
The bound is the sum of the least table entries that agree with the prefix.

    --json      print one JSON object; docs/FORMAT.md describes it

The exit status is 0 for an answer, 1 for a refusal or a fault in FILE, and 2
where the words are wrong or FILE cannot be read.

Example:
    chooser bound examples/firmware.txt dma,table
";

pub fn run(words: &[OsString]) -> Result<Outcome, Failure> {
    let asked = sort_words(words, &[("--json", "")])?;
    let [file, prefix] = asked.operands(["FILE", "PREFIX"])?;
    let json = asked.has("--json");
    let source = Source::load(file)?;
    let prefix = read_prefix(prefix, source.names.as_ref())?;
    let reply = Chooser::bound(&source.bytes, &prefix).and_then(|bound| {
        let problem = Problem::decode(&source.bytes)?;
        let names = source.names(&problem);
        Ok(bound_reply(&problem, &names, &prefix, bound.costs()))
    });
    match reply {
        Ok(reply) => reply.print(json),
        Err(refusal) => {
            let (source, prefix) = (&source, &prefix[..]);
            let call = Call::Bound { prefix };
            Question { source, call }.refuse(refusal, json)
        }
    }
}

/// The values in a word. Numbers that are no value of their module are for the call to refuse.
fn read_prefix(word: &OsStr, names: Option<&Names>) -> Result<Vec<u8>, Failure> {
    let text = word.to_string_lossy();
    if text.is_empty() || text == STANDARD_STREAM {
        return Ok(Vec::new());
    }
    let parts = text.split(',').enumerate();
    let values = parts.map(|(variable, part)| read_value(part, variable, names));
    values.collect()
}

/// A value by its number or by its name.
fn read_value(part: &str, variable: usize, names: Option<&Names>) -> Result<u8, Failure> {
    if let Ok(value) = part.parse() {
        return Ok(value);
    }
    let Some(names) = names else {
        return Err(Failure::misuse(format!(
            "'{part}' in PREFIX is no value; the values of a binary problem are numbers from 0 to 7"
        )));
    };
    let Some(module) = names.modules.get(variable) else {
        return Err(Failure::misuse(format!(
            "'{part}' in PREFIX is one value too many: there are {} modules",
            names.modules.len()
        )));
    };
    let variants = module.variants.iter().map(String::as_str);
    let found = variants.clone().position(|variant| variant == part);
    found.map(|value| value as u8).ok_or_else(|| {
        let advice = format!("it has: {}", module.variants.join(", "));
        let nearest = or_nearest(part, variants, &advice);
        let module = &module.name;
        Failure::misuse(format!(
            "'{part}' in PREFIX is no variant of {module}; {nearest}"
        ))
    })
}

fn bound_reply(problem: &Problem, names: &Names, prefix: &[u8], least: &[u64]) -> Reply {
    let mut json = names_json(problem, names);
    json.push(("prefix", Json::numbers(prefix)));
    json.push(("least", Json::numbers(least)));
    let text = format!(
        "{}\n\n{}",
        prefix_text(names, prefix),
        bound_table(problem, names, least)
    );
    Reply { text, json }
}

/// The prefix in words.
fn prefix_text(names: &Names, prefix: &[u8]) -> String {
    if prefix.is_empty() {
        return "every choice costs at least".into();
    }
    let given: Vec<String> = (0..prefix.len())
        .map(|v| {
            format!(
                "{} = {}",
                names.modules[v].name,
                names.variant(v, prefix[v])
            )
        })
        .collect();
    format!("every choice with {} costs at least", given.join(", "))
}

/// A line for each cost: its bound, its ceiling, and whether that leaves no choice.
fn bound_table(problem: &Problem, names: &Names, least: &[u64]) -> String {
    let words = ["cost", "at least", "ceiling", ""];
    let mut lines = vec![words.map(String::from).to_vec()];
    for (cost, &least) in least.iter().enumerate() {
        let ceiling = problem.ceilings[cost];
        let hopeless = least > u64::from(ceiling);
        let told = if hopeless { "above it" } else { "" };
        let numbers = [least.to_string(), ceiling.to_string(), told.into()];
        lines.push([vec![names.costs[cost].clone()], numbers.to_vec()].concat());
    }
    let sides = [Side::Left, Side::Right, Side::Right, Side::Left];
    let table = aligned(&sides, &lines);
    table.iter().map(|line| format!("{line}\n")).collect()
}
