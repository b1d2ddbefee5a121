//! A batch's run as a table of comma-separated values: written, read back, and compared.

use std::collections::BTreeMap;

/// The names of the columns, as the first line has them.
pub const COLUMNS: &str = "name,bytes,number,place,count,microseconds,digest";

/// The name of the further column that a run with a cache has.
pub const HIT_COLUMN: &str = "hit";

/// What stands in the column of the number where a problem was given up or its process died.
const NO_ANSWER: &str = "none";

/// What a problem was answered with.
#[derive(Clone, Copy, Debug, PartialEq, Eq)]
pub struct Told {
    pub number: u8,
    pub place: u32,
    pub count: u32,
    /// Processor time of the call, which in a run with a table is for this problem alone.
    pub microseconds: u64,
    /// FNV-1a of the listed costs and choices.
    pub digest: u64,
    /// Whether the cache held the problem; none in a run without one.
    pub hit: Option<bool>,
}

/// A problem of a run: its name, its file's length, and the answer, if there was one.
#[derive(Clone, Debug, PartialEq, Eq)]
pub struct Row {
    pub name: String,
    pub bytes: u64,
    pub told: Option<Told>,
}

/// A field as it stands in the table: in quotes where it has a character that parts fields.
fn quoted(field: &str) -> String {
    if field.contains([',', '"', '\n', '\r']) {
        format!("\"{}\"", field.replace('"', "\"\""))
    } else {
        field.into()
    }
}

/// The table of these rows, of a run with a cache or without.
pub fn write_rows(rows: &[Row], cached: bool) -> String {
    let mut text = COLUMNS.to_string();
    if cached {
        text.push_str(&format!(",{HIT_COLUMN}"));
    }
    text.push('\n');
    for Row { name, bytes, told } in rows {
        let shown = match told {
            None => format!("{NO_ANSWER},,,,"),
            Some(told) => format!(
                "{},{},{},{},{:016x}",
                told.number, told.place, told.count, told.microseconds, told.digest
            ),
        };
        text.push_str(&format!("{},{bytes},{shown}", quoted(name)));
        if cached {
            let hit = told.and_then(|told| told.hit);
            text.push_str(hit.map_or(",", |hit| if hit { ",1" } else { ",0" }));
        }
        text.push('\n');
    }
    text
}

/// The rows of a table by their names, or the line that is wrong and why.
pub fn parse_rows(text: &str) -> Result<BTreeMap<String, Row>, String> {
    let mut rest = text;
    let mut line = 1;
    let columns = take_record(&mut rest, &mut line)?.unwrap_or_default();
    let (cached, named) = match columns.split_last() {
        Some((last, before)) if last == HIT_COLUMN => (true, before),
        _ => (false, &columns[..]),
    };
    if named.join(",") != COLUMNS {
        return Err(format!("line 1: the columns {COLUMNS} are due"));
    }
    let mut rows = BTreeMap::new();
    loop {
        let first = line;
        let Some(fields) = take_record(&mut rest, &mut line)? else {
            return Ok(rows);
        };
        let row = match cached {
            true => parse_cached_row(&fields),
            false => parse_row(&fields),
        };
        let row = row.map_err(|complaint| format!("line {first}: {complaint}"))?;
        let name = row.name.clone();
        if rows.insert(name.clone(), row).is_some() {
            return Err(format!("line {first}: '{name}' stands a second time"));
        }
    }
}

/// The fields of the next record, none at the end. Counts the lines.
fn take_record(rest: &mut &str, line: &mut usize) -> Result<Option<Vec<String>>, String> {
    if rest.is_empty() {
        return Ok(None);
    }
    let mut fields = vec![String::new()];
    let (mut quotes, mut letters) = (false, rest.char_indices().peekable());
    let first = *line;
    while let Some((place, letter)) = letters.next() {
        let field = fields.last_mut().expect("there is a first field");
        match letter {
            '"' if quotes && letters.next_if(|(_, next)| *next == '"').is_some() => field.push('"'),
            '"' => quotes = !quotes,
            ',' if !quotes => fields.push(String::new()),
            '\r' if !quotes => {}
            '\n' if !quotes => {
                *rest = &rest[place + 1..];
                *line += 1;
                return Ok(Some(fields));
            }
            letter => {
                *line += usize::from(letter == '\n');
                field.push(letter);
            }
        }
    }
    *rest = "";
    if quotes {
        return Err(format!("line {first}: a quotation mark is not closed"));
    }
    Ok(Some(fields))
}

fn parse_row(fields: &[String]) -> Result<Row, String> {
    let [name, bytes, number, place, count, microseconds, digest] = fields else {
        return Err(format!("{} fields instead of 7", fields.len()));
    };
    let told = if number == NO_ANSWER {
        None
    } else {
        Some(Told {
            number: parse_field(number, "number")?,
            place: parse_field(place, "place")?,
            count: parse_field(count, "count")?,
            microseconds: parse_field(microseconds, "microseconds")?,
            digest: u64::from_str_radix(digest, 16)
                .map_err(|_| format!("'{digest}' in the column digest is no digest"))?,
            hit: None,
        })
    };
    Ok(Row {
        name: name.clone(),
        bytes: parse_field(bytes, "bytes")?,
        told,
    })
}

/// A row with a further field, which says of an answer whether it was a hit.
fn parse_cached_row(fields: &[String]) -> Result<Row, String> {
    let [fields @ .., hit] = fields else {
        return Err("0 fields instead of 8".into());
    };
    if fields.len() != 7 {
        return Err(format!("{} fields instead of 8", fields.len() + 1));
    }
    let mut row = parse_row(fields)?;
    if let Some(told) = &mut row.told {
        told.hit = Some(match hit.as_str() {
            "0" => false,
            "1" => true,
            _ => {
                return Err(format!(
                    "'{hit}' in the column {HIT_COLUMN} is neither 0 nor 1"
                ))
            }
        });
    }
    Ok(row)
}

fn parse_field<T: std::str::FromStr>(text: &str, column: &str) -> Result<T, String> {
    let complaint =
        |_| format!("'{text}' in the column {column} is no number that can stand there");
    text.parse().map_err(complaint)
}

/// How a run differs from an earlier one.
#[derive(Debug, Default, PartialEq, Eq)]
pub struct Comparison {
    /// A line for each difference: a problem that is missing, new, or answered differently.
    pub differences: Vec<String>,
    /// So many problems have no answer in one of the runs, which is no difference.
    pub unknown: usize,
    /// So many have the same answer in both.
    pub same: usize,
}

/// Compares the rows of a run with those of an earlier one. Times and hits may differ.
pub fn compare_rows(rows: &[Row], mut earlier: BTreeMap<String, Row>) -> Comparison {
    let mut found = Comparison::default();
    for row in rows {
        match earlier.remove(&row.name) {
            None => found.differences.push(format!("{}: new", row.name)),
            Some(before) => compare_row(&mut found, row, &before),
        }
    }
    let missing = earlier.keys().map(|name| format!("{name}: missing"));
    found.differences.extend(missing);
    found
}

fn compare_row(found: &mut Comparison, row: &Row, before: &Row) {
    let name = &row.name;
    if row.bytes != before.bytes {
        let lengths = format!("{} bytes instead of {}", row.bytes, before.bytes);
        let difference = format!("{name}: another problem, {lengths}");
        return found.differences.push(difference);
    }
    let (Some(told), Some(earlier)) = (row.told, before.told) else {
        found.unknown += 1;
        return;
    };
    let timeless = |told: Told| Told {
        microseconds: 0,
        hit: None,
        ..told
    };
    if timeless(told) == timeless(earlier) {
        found.same += 1;
    } else {
        let [now, then] = [told, earlier].map(told_text);
        let difference = format!("{name}: another answer, {now} instead of {then}");
        found.differences.push(difference);
    }
}

/// An answer in words.
fn told_text(told: Told) -> String {
    match told.number {
        0 => format!("{} points with digest {:016x}", told.count, told.digest),
        number => format!("refused {number} at {}", told.place),
    }
}
