//! From text to a problem with names, or to the first fault. What the records cannot say is a fault,
//! and so is what the library would refuse, so that each is told where it stands.

use super::cursor::Cursor;
use super::fault::{quoted, Fault};
use super::lines::{behind, decode, lines_of, Line, Word};
use super::names::{Module, Names};
use super::tables::take_table;
use super::Named;
use crate::nearest::or_nearest;
use frontier::limits::{MAX_DOMAIN, MAX_OBJECTIVES, MAX_TABLES, MAX_VARIABLES};
use frontier::Problem;

/// The words that start a statement.
pub const STATEMENTS: [&str; 3] = ["costs", "module", "table"];

/// Reads a text problem.
pub fn parse(bytes: &[u8]) -> Result<Named, Fault> {
    let text = decode(bytes)?;
    let lines = lines_of(text);
    let mut named = Named {
        problem: Problem {
            ceilings: Vec::new(),
            domains: Vec::new(),
            tables: Vec::new(),
        },
        names: Names::default(),
    };
    let mut rest = &lines[..];
    while let Some(line) = rest.first() {
        rest = statement(&mut named, line, &rest[1..])?;
    }
    let (line, column) = behind(text);
    missing(&named).map_or(Ok(named), |message| {
        Err(Fault {
            line,
            column,
            message: format!("the text ends, but {message}"),
        })
    })
}

/// What a problem lacks to be whole, and what to do.
fn missing(named: &Named) -> Option<&'static str> {
    if named.names.costs.is_empty() {
        return Some("a problem has 1 to 4 costs; start with a line as 'costs size <= 100, time'");
    }
    let none = named.names.modules.is_empty();
    none.then_some("a problem has 1 to 24 modules; add a line as 'module uart: small, fast'")
}

/// Takes up the statement that starts with a line; what is left of the lines behind it.
fn statement<'a>(
    named: &mut Named,
    line: &Line,
    rest: &'a [Line<'a>],
) -> Result<&'a [Line<'a>], Fault> {
    let mut cursor = Cursor::new(line);
    let Some(first) = cursor.take() else {
        return Ok(rest);
    };
    check_start(line, first).map_err(|message| cursor.fault_at(first, message))?;
    check_order(named, first.text).map_err(|message| cursor.fault_at(first, message))?;
    match first.text {
        "costs" => take_costs(named, &mut cursor).map(|()| rest),
        "module" => take_module(named, &mut cursor).map(|()| rest),
        _ => take_table(named, &mut cursor, first, rest),
    }
}

/// A statement starts at the first column, with one of the words for it.
fn check_start(line: &Line, first: Word) -> Result<(), String> {
    if line.indented {
        return Err(
            "an indented line belongs to the table above it, and here none is open; start the line \
             at column 1, or leave it out"
                .into(),
        );
    }
    if STATEMENTS.contains(&first.text) {
        return Ok(());
    }
    let advice =
        "a line starts with 'costs', 'module' or 'table', and a table's rows are indented \
                  (a binary problem starts with the letters HD)";
    let nearest = or_nearest(first.text, STATEMENTS, advice);
    Err(format!("{} starts no line; {nearest}", quoted(first.text)))
}

/// The costs stand first, then the modules, then the tables, no more than a problem may have.
fn check_order(named: &Named, statement: &str) -> Result<(), String> {
    let has_costs = !named.names.costs.is_empty();
    let (modules, tables) = (named.names.modules.len(), named.problem.tables.len());
    match statement {
        "costs" if has_costs => Err("the costs stand in one line; add these to it".into()),
        "module" | "table" if !has_costs => {
            Err("the costs stand first; start with a line as 'costs size <= 100, time'".into())
        }
        "module" if tables > 0 => Err("modules stand before the tables; move this line up".into()),
        "module" if modules == MAX_VARIABLES => Err(one_more("module", MAX_VARIABLES)),
        "table" if modules == 0 => Err("modules stand before the tables; add their lines".into()),
        "table" if tables == MAX_TABLES => Err(one_more("table", MAX_TABLES)),
        _ => Ok(()),
    }
}

/// The message for one thing more than a limit.
fn one_more(what: &str, most: usize) -> String {
    format!("this is one {what} more than {most}, the most there may be; leave one out")
}

/// `costs NAME <= CEILING, NAME <= CEILING`
fn take_costs(named: &mut Named, cursor: &mut Cursor) -> Result<(), Fault> {
    loop {
        let name = new_name(cursor, "a cost", &named.names.costs)?;
        if named.problem.ceilings.len() == MAX_OBJECTIVES {
            return Err(cursor.fault_at(name, one_more("cost", MAX_OBJECTIVES)));
        }
        let ceiling = take_ceiling(cursor)?;
        named.names.costs.push(name.text.into());
        named.problem.ceilings.push(ceiling);
        if !cursor.take_if(",") {
            return cursor.end("costs have the form NAME <= CEILING, with commas between");
        }
    }
}

/// `<= CEILING`, or `< BOUND`, which is one above the ceiling; without either the greatest ceiling is meant.
fn take_ceiling(cursor: &mut Cursor) -> Result<u32, Fault> {
    if cursor.take_if("<=") {
        return cursor.number("the ceiling");
    }
    if !cursor.take_if("<") {
        return Ok(u32::MAX);
    }
    let nothing = cursor.fault("no cost is below 0; write '<= 0' where a cost of 0 is allowed");
    let bound = cursor.number("the bound")?;
    bound.checked_sub(1).ok_or(nothing)
}

/// `module NAME: VARIANT, VARIANT`
fn take_module(named: &mut Named, cursor: &mut Cursor) -> Result<(), Fault> {
    let modules = named.names.modules.iter();
    let known: Vec<&String> = modules.map(|module| &module.name).collect();
    let name = new_name(cursor, "a module", &known)?.text.into();
    cursor.expect(":", "between a module and its variants")?;
    let mut variants: Vec<String> = Vec::new();
    loop {
        let variant = new_name(cursor, "a variant", &variants)?;
        if variants.len() == MAX_DOMAIN {
            return Err(cursor.fault_at(variant, one_more("variant", MAX_DOMAIN)));
        }
        variants.push(variant.text.into());
        if !cursor.take_if(",") {
            break;
        }
    }
    cursor.end("variants have commas between")?;
    named.problem.domains.push(variants.len() as u8);
    named.names.modules.push(Module { name, variants });
    Ok(())
}

/// Takes a name that is not among the known ones.
fn new_name<'a>(
    cursor: &mut Cursor<'a>,
    what: &str,
    known: &[impl AsRef<str>],
) -> Result<Word<'a>, Fault> {
    let name = cursor.name(what)?;
    if known.iter().any(|known| known.as_ref() == name.text) {
        let message = format!("{} names {what} already; take another", quoted(name.text));
        return Err(cursor.fault_at(name, message));
    }
    Ok(name)
}
