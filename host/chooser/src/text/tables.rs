//! A table of the text form: its first line, the line of its columns, and its rows.

use super::cursor::Cursor;
use super::fault::{quoted, Fault};
use super::lines::{Line, Word};
use super::names::{row_variants, Module, Names};
use super::Named;
use crate::nearest::or_nearest;
use frontier::limits::{MAX_ARITY, MAX_BYTES};
use frontier::Table;

/// A table that is being read: its modules, and which rows are there.
struct Grid<'a> {
    /// The modules before the last one of the scope: a row has a variant of each.
    labels: Vec<&'a Module>,
    /// The last module of the scope: a row has a cost for each of its variants.
    across: &'a Module,
    /// The entries in the record's order.
    costs: Vec<u32>,
    /// The line of each row, in the record's order; 0 for a row that is not there.
    lines: Vec<usize>,
}

/// `table COST: NUMBER`, or `table COST over MODULE MODULE:` and then its rows in the next lines;
/// what is left of these lines.
pub fn take_table<'a>(
    named: &mut Named,
    cursor: &mut Cursor,
    first: Word,
    rest: &'a [Line<'a>],
) -> Result<&'a [Line<'a>], Fault> {
    let names = &named.names;
    let known = names.costs.iter().map(String::as_str);
    let (_, objective) = take_known(cursor, "a cost", known)?;
    let scope = take_scope(cursor, names)?;
    cursor.expect(":", "behind the first line of a table")?;
    let modules: Vec<&Module> = scope.iter().map(|&v| &names.modules[v]).collect();
    // Asked before the rows are read, so that a long table is no surprise at its end.
    check_size(named, &modules).map_err(|message| cursor.fault_at(first, message))?;
    let (costs, rest) = match modules.split_last() {
        None => (vec![cursor.cost("the cost that every choice has")?], rest),
        Some((across, labels)) => {
            cursor.end("a table's rows stand in the lines below")?;
            let inside = rest.iter().take_while(|line| line.indented).count();
            let (body, rest) = rest.split_at(inside);
            (Grid::new(labels, across).read(cursor, first, body)?, rest)
        }
    };
    cursor.end("a table over no module has one cost")?;
    named.problem.tables.push(Table {
        objective: objective as u8,
        scope: scope.iter().map(|&v| v as u8).collect(),
        costs,
    });
    Ok(rest)
}

/// The modules behind `over`, as numbers in the order in which they stand; none without the word.
fn take_scope(cursor: &mut Cursor, names: &Names) -> Result<Vec<usize>, Fault> {
    let mut scope: Vec<usize> = Vec::new();
    if !cursor.take_if("over") {
        return Ok(scope);
    }
    while scope.is_empty() || cursor.next().is_some_and(|word| word.text != ":") {
        let known = names.modules.iter().map(|module| module.name.as_str());
        let (word, module) = take_known(cursor, "a module", known)?;
        check_scope(&scope, module).map_err(|message| cursor.fault_at(word, message))?;
        scope.push(module);
    }
    Ok(scope)
}

/// One more module of a scope is none of those before it, which are not too many.
fn check_scope(scope: &[usize], module: usize) -> Result<(), String> {
    if scope.contains(&module) {
        return Err("this module stands twice; leave one out".into());
    }
    if scope.len() == MAX_ARITY {
        return Err(format!(
            "a table is over at most {MAX_ARITY} modules; leave this one out"
        ));
    }
    Ok(())
}

/// The problem with one more table over these modules must not have too many bytes.
fn check_size(named: &Named, modules: &[&Module]) -> Result<(), String> {
    let entries: usize = modules.iter().map(|module| module.variants.len()).product();
    let bytes = named.problem.encode().len() + 4 + modules.len() + 4 * entries;
    if bytes <= MAX_BYTES {
        return Ok(());
    }
    Err(format!(
        "with this table the problem has {bytes} bytes in records, and at most {MAX_BYTES} are \
         allowed; add up tables of one cost over the same modules, or leave variants out"
    ))
}

/// Takes a name that must be one of the known ones; the word, and its number among them.
fn take_known<'a, 'k>(
    cursor: &mut Cursor<'a>,
    what: &str,
    known: impl Iterator<Item = &'k str> + Clone,
) -> Result<(Word<'a>, usize), Fault> {
    let name = cursor.name(what)?;
    if let Some(number) = known.clone().position(|known| known == name.text) {
        return Ok((name, number));
    }
    let all = known.clone().collect::<Vec<_>>().join(", ");
    let nearest = or_nearest(name.text, known, &format!("there are: {all}"));
    let message = format!("{} is not the name of {what}; {nearest}", quoted(name.text));
    Err(cursor.fault_at(name, message))
}

/// Takes the name of a variant of a module; the word, and its value.
fn take_variant<'a>(cursor: &mut Cursor<'a>, module: &Module) -> Result<(Word<'a>, usize), Fault> {
    let what = format!("a variant of {}", module.name);
    take_known(cursor, &what, module.variants.iter().map(String::as_str))
}

impl<'a> Grid<'a> {
    fn new(labels: &[&'a Module], across: &'a Module) -> Grid<'a> {
        let rows: usize = labels.iter().map(|module| module.variants.len()).product();
        Grid {
            labels: labels.to_vec(),
            across,
            costs: vec![0; rows * across.variants.len()],
            lines: vec![0; rows],
        }
    }

    /// The entries that the lines of a table give.
    fn read(mut self, cursor: &Cursor, first: Word, body: &[Line]) -> Result<Vec<u32>, Fault> {
        let Some((head, rows)) = body.split_first() else {
            let message = format!(
                "this table has no rows; indented lines are due: first one with the variants of \
                 {}, then the rows",
                self.across.name
            );
            return Err(cursor.fault_at(first, message));
        };
        let columns = self.columns(&mut Cursor::new(head))?;
        for line in rows {
            self.row(line, &columns)?;
        }
        match self.lines.iter().position(|&line| line == 0) {
            None => Ok(self.costs),
            Some(missing) => {
                let message = format!("this table has no {}; add it", self.row_name(missing));
                Err(cursor.fault_at(first, message))
            }
        }
    }

    /// The first line of a table's lines: which variant each column is for, each variant once.
    fn columns(&self, cursor: &mut Cursor) -> Result<Vec<usize>, Fault> {
        let mut columns = Vec::new();
        while cursor.next().is_some() {
            let (word, variant) = take_variant(cursor, self.across)?;
            if columns.contains(&variant) {
                let message = format!("{} has a column already", quoted(word.text));
                return Err(cursor.fault_at(word, message));
            }
            columns.push(variant);
        }
        let count = self.across.variants.len();
        match (0..count).find(|variant| !columns.contains(variant)) {
            None => Ok(columns),
            Some(missing) => Err(cursor.fault(format!(
                "the column for '{}' of {} is missing",
                self.across.variants[missing], self.across.name
            ))),
        }
    }

    /// A row: a variant of each module but the last, then the costs.
    fn row(&mut self, line: &Line, columns: &[usize]) -> Result<(), Fault> {
        let mut cursor = Cursor::new(line);
        let mut row = 0;
        for module in &self.labels {
            let (_, value) = take_variant(&mut cursor, module)?;
            row = row * module.variants.len() + value;
        }
        if self.lines[row] > 0 {
            return Err(Cursor::new(line).fault(format!(
                "the {} stands in line {} already; leave one out",
                self.row_name(row),
                self.lines[row]
            )));
        }
        self.lines[row] = line.number;
        for &column in columns {
            let what = format!("the cost for '{}'", self.across.variants[column]);
            self.costs[row * columns.len() + column] = cursor.cost(&what)?;
        }
        cursor.end("the row has a cost for each column")
    }

    /// What to call a row in a message.
    fn row_name(&self, row: usize) -> String {
        match self.labels.is_empty() {
            true => "row of costs".into(),
            false => format!("row for '{}'", row_variants(&self.labels, row).join(" ")),
        }
    }
}
