//! What `docs/REFERENCE.md` tells is what the calls do: its limits, its words for refusals, the bytes
//! and lists of its examples, and every row of its table of cases.

use std::fs;

use chooser::hex::from_hex;
use frontier::lent::{self, bound_prefix, list_points, solve_cut, solve_problem, to_text};
use frontier::lent::{frame, BatchBuffers, BatchCall, Buffers, CachedCall, PointRecord};
use frontier::limits::{
    LEAST_WORK, MAX_ARITY, MAX_BATCH, MAX_BYTES, MAX_DOMAIN, MAX_OBJECTIVES, MAX_POINTS, MAX_SLOTS,
    MAX_TABLES, MAX_VARIABLES, SLOT_BYTES, TEXT_LEN,
};
use frontier::refusal::word_of;
use frontier::Refusal;
use testing::batch::{self, frame_starts, put_length, CHOICES, COSTS, RESULTS};
use testing::brute;
use testing::cache::{self, CHOICES_AT, COSTS_AT, COUNT_AT, LENGTH_AT, NEXT_AT};
use testing::canonical;
use testing::examples::{colours, lone, pair, three, turned};
use testing::owned::{cut_by, list_text, list_text_by, listed, Listed};
use testing::places::root;
use testing::wcsp;

const REFERENCE: &str = include_str!("../../../docs/REFERENCE.md");

/// The rows below the table's line that starts so, each by its cells.
fn rows(head: &str) -> Vec<Vec<&'static str>> {
    let table = REFERENCE.lines().skip_while(|line| !line.starts_with(head));
    let inside = table.skip(2).take_while(|line| line.starts_with('|'));
    let rows: Vec<Vec<&str>> = inside
        .map(|line| line.trim_matches('|').split('|').map(str::trim).collect())
        .collect();
    assert!(!rows.is_empty(), "no table that starts with '{head}'");
    rows
}

#[test]
fn the_limits_are_those_of_the_library() {
    let number = |most: usize| most.to_string();
    let due = [
        ("variables, n", "1", number(MAX_VARIABLES)),
        ("objectives, p", "1", number(MAX_OBJECTIVES)),
        ("cost records, r", "0", number(MAX_TABLES)),
        ("domain size, d", "1", number(MAX_DOMAIN)),
        ("arity", "0", number(MAX_ARITY)),
        ("a ceiling or an entry", "0", u32::MAX.to_string()),
        ("bytes of a problem", "", number(MAX_BYTES)),
        (
            "points of a list that is handed out",
            "0",
            number(MAX_POINTS),
        ),
        (
            "32-bit numbers of work memory",
            &number(LEAST_WORK),
            String::new(),
        ),
        (
            "slots of a store, of 63,000 bytes each",
            "1",
            number(MAX_SLOTS),
        ),
        ("problems of a batch", "0", number(MAX_BATCH)),
    ];
    let rows = rows("| What | Least |");
    assert_eq!(rows.len(), due.len());
    for (row, (what, least, most)) in rows.iter().zip(due) {
        let plain = |cell: &str| cell.replace(',', "");
        assert_eq!(row[0], what);
        assert_eq!(
            (plain(row[1]), plain(row[2])),
            (least.into(), most),
            "{what}"
        );
    }
}

#[test]
fn refusals_have_the_words_of_the_library() {
    let rows = rows("| Number | Word |");
    let told: Vec<(&str, &str)> = rows.iter().map(|row| (row[0], row[1])).collect();
    let numbers: Vec<String> = (1..=21).map(|number: u8| number.to_string()).collect();
    let due: Vec<(&str, &str)> = (1..)
        .zip(&numbers)
        .map(|(n, text)| (&text[..], word_of(n)))
        .collect();
    assert_eq!(told, due);
}

/// An example: its bytes as they are told, line by line, and what the list program prints.
struct Example {
    name: &'static str,
    hex: &'static str,
    list: &'static str,
}

impl Example {
    /// The bytes of a line, which stand before its bar.
    fn line_bytes(line: &str) -> Vec<u8> {
        let (told, _) = line.split_once('|').expect("a line of bytes has a bar");
        let digits: String = told.split_whitespace().collect();
        from_hex(&digits).expect("before the bar stand hexadecimal digits")
    }

    fn bytes(&self) -> Vec<u8> {
        self.hex.lines().flat_map(Example::line_bytes).collect()
    }
}

/// What stands between the fences of a block of this kind.
fn fenced<'a>(part: &'a str, kind: &str) -> Option<&'a str> {
    let (_, rest) = part.split_once(&format!("```{kind}\n"))?;
    rest.split_once("```").map(|(inside, _)| inside)
}

fn examples() -> Vec<Example> {
    let example = |part: &'static str| {
        Some(Example {
            name: part.lines().next()?,
            hex: fenced(part, "hex")?,
            list: fenced(part, "list")?,
        })
    };
    REFERENCE.split("\n### ").filter_map(example).collect()
}

fn bytes_of(name: &str) -> Vec<u8> {
    let found = examples().into_iter().find(|example| example.name == name);
    found
        .unwrap_or_else(|| panic!("no example '{name}'"))
        .bytes()
}

#[test]
fn examples_are_listed_as_told() {
    let names: Vec<&str> = examples().iter().map(|example| example.name).collect();
    assert_eq!(
        names,
        [
            "Colours",
            "Three",
            "Pair",
            "Fixed",
            "Turned",
            "One",
            "Forbidden"
        ]
    );
    for example in examples() {
        let bytes = example.bytes();
        let library = list_text_by(solve_problem, &mut Buffers::full(), &bytes);
        for text in [list_text(&bytes), library] {
            assert_eq!(text, example.list, "{}", example.name);
        }
        let told = format!("{} bytes", bytes.len());
        assert!(REFERENCE.contains(&told), "{}: {told}", example.name);
    }
}

#[test]
fn records_stand_at_the_places_that_are_told() {
    for example in examples() {
        let mut place = 0;
        for line in example.hex.lines() {
            let (_, comment) = line.split_once('|').expect("a line of bytes has a bar");
            let told = comment.trim().split(':').next();
            assert_eq!(told, Some(&place.to_string()[..]), "{line}");
            place += Example::line_bytes(line).len();
        }
    }
}

#[test]
fn examples_are_the_tests_own() {
    assert_eq!(bytes_of("Colours"), colours([100, 100]).encode());
    let stored = fs::read(root().join("examples/colours.bin")).expect("it is there");
    assert_eq!(bytes_of("Colours"), stored);
    assert_eq!(bytes_of("Three"), three([3, 3]).encode());
    assert_eq!(bytes_of("Pair"), pair([9, 9]).encode());
    assert_eq!(bytes_of("Turned"), turned().encode());
    assert_eq!(bytes_of("One"), lone(1, 1).encode());
}

/// The whole numbers among the words of a cell.
fn numbers<T: std::str::FromStr>(cell: &str) -> Vec<T> {
    let words = cell.split_whitespace();
    words.filter_map(|word| word.parse().ok()).collect()
}

/// The bytes of a problem in the table of cases: an example, with what is said behind its name.
fn case_bytes(cell: &str) -> Vec<u8> {
    let cell = cell.trim_start_matches("* ");
    let (name, change) = cell.split_once(", ").unwrap_or((cell, ""));
    match name {
        "nothing" => return Vec::new(),
        "`HD` with n = 25 and p = 5" => return b"HD\x19\x05\0\0".to_vec(),
        "60,001 bytes" => return vec![7; MAX_BYTES + 1],
        _ => (),
    }
    let mut bytes = bytes_of(name);
    let told: Vec<u32> = numbers(change);
    match change.split(' ').next() {
        Some("") => (),
        Some("ceiling" | "ceilings") => {
            for (k, ceiling) in told.iter().enumerate() {
                bytes[6 + 4 * k..10 + 4 * k].copy_from_slice(&ceiling.to_le_bytes());
            }
        }
        Some("domain") => *bytes.last_mut().expect("a DO record") = told[0] as u8,
        Some("scope") => {
            let (n, p) = (usize::from(bytes[2]), usize::from(bytes[3]));
            let first = 6 + 4 * p + 3 * n + 4;
            for (place, variable) in (first..).zip(told) {
                bytes[place] = variable as u8;
            }
        }
        Some("less") => bytes.truncate(bytes.len() - told[0] as usize),
        Some("1") => bytes.push(0),
        _ => panic!("'{change}' is no change of a problem"),
    }
    bytes
}

/// Numbers with a space between neighbours.
fn spaced<T: ToString>(numbers: &[T]) -> String {
    let words: Vec<String> = numbers.iter().map(T::to_string).collect();
    words.join(" ")
}

/// A list as the table has it: of each point the costs and the choice.
fn points(list: &[Listed]) -> String {
    let told = |point: &Listed| format!("{} : {}", spaced(&point.costs), spaced(&point.choice));
    match list {
        [] => "no points".into(),
        _ => list.iter().map(told).collect::<Vec<String>>().join("; "),
    }
}

/// A refusal as the table has it.
fn refused(refusal: Refusal) -> String {
    format!("{} at {}", refusal.number(), refusal.place())
}

/// The plain call with so many costs lent.
fn plain(bytes: &[u8], costs: usize) -> String {
    let mut lent = Buffers {
        costs: vec![7; costs],
        ..Buffers::full()
    };
    let answer = lent.lend(solve_problem, bytes);
    let list = listed(&lent, bytes, answer);
    assert_records(bytes, costs, list.as_deref());
    list.map_or_else(refused, |list| points(&list))
}

/// Asserts that the call for point records ends so with the room that so many costs give.
fn assert_records(bytes: &[u8], costs: usize, due: Result<&[Listed], &Refusal>) {
    let p = bytes.get(3).map_or(1, |&p| usize::from(p));
    let junk = PointRecord {
        costs: [7; MAX_OBJECTIVES],
        choice: [7; MAX_VARIABLES],
    };
    let mut records = vec![junk; (costs / p).min(MAX_POINTS)];
    let answer = list_points(bytes, &mut records, &mut [7; LEAST_WORK]);
    assert_eq!(answer.count as usize, due.map_or(0, <[Listed]>::len));
    match due {
        Err(&refusal) => assert_eq!(answer, refusal.into()),
        Ok(list) => {
            for (record, point) in records.iter().zip(list) {
                assert!(record.costs.starts_with(&point.costs), "{record:?}");
                assert!(record.choice.starts_with(&point.choice), "{record:?}");
            }
        }
    }
}

fn cut(bytes: &[u8], sides: &[u8]) -> String {
    let told = |(list, halves): (Vec<Listed>, [u32; 2])| {
        format!("{}; halves {}", points(&list), spaced(&halves))
    };
    cut_by(solve_cut, bytes, sides).map_or_else(refused, told)
}

fn bound(bytes: &[u8], prefix: &[u8]) -> String {
    let bound = bound_prefix(bytes, prefix);
    match Refusal::new(bound.number, bound.place) {
        Some(refusal) => refused(refusal),
        None => spaced(&bound.least),
    }
}

/// The text call with so many bytes lent.
fn text(bytes: &[u8], lent: usize) -> String {
    let mut written = vec![7; lent];
    let answer = to_text(bytes, &mut written);
    if let Some(refusal) = Refusal::new(answer.number, answer.place) {
        return refused(refusal);
    }
    written.truncate(answer.count as usize);
    let written = String::from_utf8(written).expect("a text");
    let lines = written.strip_suffix('\n').expect("a last line");
    lines.replace('\n', "; ")
}

/// The canonical call with so many bytes lent.
fn form(bytes: &[u8], lent: usize) -> String {
    let found = lent::canonical(bytes, &mut vec![7; lent]);
    match Refusal::new(found.answer.number, found.answer.place) {
        Some(refusal) => refused(refusal),
        None => format!("{:016x}", found.key),
    }
}

/// The cached call with so many costs lent: what it ends with, and its hit.
fn cached(call: CachedCall, bytes: &[u8], costs: usize, store: &mut [u8]) -> (String, u8) {
    let mut lent = Buffers {
        costs: vec![7; costs],
        ..Buffers::full()
    };
    let found = lent.lend_cached(call, bytes, store);
    let list = listed(&lent, bytes, found.answer);
    let told = list.map_or_else(refused, |list| points(&list));
    (told, found.hit)
}

/// What a batch of the problem alone tells of it.
fn alone_in_a_batch(bytes: &[u8]) -> String {
    let mut lent = BatchBuffers::new(1);
    lent.lend(lent::solve_batch, &frame(&[bytes]));
    let told = Refusal::new(lent.answer(0).number, lent.answer(0).place);
    told.map_or("no refusal".into(), refused)
}

/// What a call of the table gives for a problem.
fn outcome(call: &str, bytes: &[u8]) -> String {
    let full = MAX_POINTS * MAX_OBJECTIVES;
    match call.split_once(", ").unwrap_or((call, "")) {
        ("plain", "") => plain(bytes, full),
        ("plain", lent) => plain(bytes, numbers(lent)[0]),
        ("cut", sides) => cut(bytes, &numbers(sides)),
        ("bound", prefix) => bound(bytes, &numbers(prefix)),
        ("text", "") => text(bytes, TEXT_LEN),
        ("text", lent) => text(bytes, numbers(lent)[0]),
        ("form", "") => form(bytes, MAX_BYTES),
        ("form", lent) => form(bytes, numbers(lent)[0]),
        ("any", "") => {
            let told = plain(bytes, full);
            let others = [
                cut(bytes, &[]),
                bound(bytes, &[]),
                text(bytes, 0),
                form(bytes, 0),
                cached(lent::solve_cached, bytes, 0, &mut []).0,
                alone_in_a_batch(bytes),
            ];
            assert_eq!(others, [&told; 6].map(String::clone));
            told
        }
        _ => panic!("'{call}' is no call"),
    }
}

#[test]
fn cases_end_as_told() {
    let rows = rows("| Problem | Call |");
    assert!(rows.len() > 30, "{} cases", rows.len());
    for row in rows {
        let told = outcome(row[1], &case_bytes(row[0]));
        assert_eq!(told, row[2], "{}, {}", row[0], row[1]);
    }
}

/// The texts that are read, by the library and by the independent converter.
#[test]
fn texts_are_read_as_told() {
    let rows = rows("| Text | Read as |");
    assert!(rows.len() > 20, "{} texts", rows.len());
    for row in rows {
        let text = row[0].replace("; ", "\n");
        for read in [lent::from_text, wcsp::from_text] {
            let mut problem = vec![7; MAX_BYTES];
            let answer = read(text.as_bytes(), &mut problem);
            match Refusal::new(answer.number, answer.place) {
                Some(refusal) => assert_eq!(refused(refusal), row[1], "{text}"),
                None => assert_eq!(problem[..answer.count as usize], bytes_of(row[1]), "{text}"),
            }
        }
    }
}

/// The form of Turned, by the library and by the independent call, and the keys of bytes that are no problem.
#[test]
fn forms_and_keys_are_as_told() {
    let told = fenced(REFERENCE, "form").expect("a form");
    let told: Vec<u8> = told.lines().flat_map(Example::line_bytes).collect();
    for call in [lent::canonical, canonical::canonical] {
        let mut form = vec![7; told.len()];
        let found = call(&bytes_of("Turned"), &mut form);
        assert_eq!((found.answer.number, found.answer.count), (0, 80));
        assert_eq!(form, told);
        assert_eq!(found.key, canonical::key_of(&told));
    }
    let rows = rows("| Bytes | Key |");
    assert_eq!(rows.len(), 3);
    for row in rows {
        let bytes = row[0].strip_prefix("none").unwrap_or(row[0]);
        let key = canonical::key_of(bytes.as_bytes());
        assert_eq!(row[1], format!("{key:016x}"), "{}", row[0]);
    }
}

/// The run on a store of two slots, by the library and by the independent call.
#[test]
fn a_run_on_a_store_is_as_told() {
    let independent: CachedCall = |bytes, costs, choices, work, store| {
        let fresh = brute::solve_problem;
        cache::solve_cached(fresh, bytes, costs, choices, work, store)
    };
    let rows = rows("| Problem | Costs lent |");
    assert_eq!(rows.len(), 10);
    for call in [lent::solve_cached, independent] {
        let mut store = vec![0; 2 * SLOT_BYTES];
        for row in &rows {
            let costs = row[1].parse().expect("a number of costs");
            let (told, hit) = cached(call, &case_bytes(row[0]), costs, &mut store);
            let hit = ["no", "yes"][usize::from(hit)];
            assert_eq!((&told[..], hit), (row[2], row[3]), "{}", row[0]);
        }
    }
}

#[test]
fn the_parts_of_a_slot_stand_where_it_is_told() {
    let rows = rows("| From byte |");
    let told = rows.iter().map(|row| row[0].replace(',', ""));
    let due = [0, COSTS_AT, CHOICES_AT, LENGTH_AT, COUNT_AT, NEXT_AT];
    assert_eq!(told.collect::<Vec<_>>(), due.map(|place| place.to_string()));
}

#[test]
fn the_areas_of_a_batch_stand_where_it_is_told() {
    let rows = rows("| Buffer | From element |");
    let areas = [("costs", COSTS), ("choices", CHOICES), ("results", RESULTS)];
    assert_eq!(rows.len(), areas.len());
    for (row, (buffer, area)) in rows.iter().zip(areas) {
        let told: Vec<String> = row.iter().map(|cell| cell.replace(',', "")).collect();
        assert_eq!(told, [buffer, &format!("{area} · k"), &area.to_string()]);
    }
}

/// The bytes of a batch in the table: problems with semicolons between them. Of the last one may be told which length
/// its frame has.
fn batch_bytes(cell: &str) -> Vec<u8> {
    let (cell, length) = match cell.split_once(", with a length of ") {
        Some((cell, rest)) => (cell, numbers(rest).first().copied()),
        None => (cell, None),
    };
    let problems: Vec<Vec<u8>> = match cell {
        "none" => Vec::new(),
        _ => cell.split("; ").map(case_bytes).collect(),
    };
    let slices: Vec<&[u8]> = problems.iter().map(Vec::as_slice).collect();
    let mut batch = frame(&slices);
    if let (Some(length), Some(&last)) = (length, frame_starts(&batch).last()) {
        put_length(&mut batch, last, length);
    }
    batch
}

/// What a batch call ends with, and the results of each problem.
fn batched(call: BatchCall, batch: &[u8], areas: usize) -> (String, String) {
    let mut lent = BatchBuffers::new(areas);
    let answer = lent.lend(call, batch);
    let told = match (Refusal::new(answer.number, answer.place), answer.count) {
        (Some(refusal), _) => refused(refusal),
        (None, 1) => "1 problem".into(),
        (None, count) => format!("{count} problems"),
    };
    let results = lent.results[..RESULTS * answer.count as usize].chunks(RESULTS);
    let results: Vec<String> = results.map(spaced).collect();
    (told, results.join("; "))
}

/// The batches, by the library and by the independent call.
#[test]
fn batches_end_as_told() {
    let independent: BatchCall = |bytes, costs, choices, results, work| {
        let fresh = brute::solve_problem;
        batch::solve_batch(fresh, bytes, costs, choices, results, work)
    };
    let rows = rows("| Problems of the batch | Areas |");
    assert!(rows.len() > 4, "{} batches", rows.len());
    for row in rows {
        let areas = row[1].parse().expect("a number of areas");
        for call in [lent::solve_batch, independent] {
            let (told, results) = batched(call, &batch_bytes(row[0]), areas);
            assert_eq!((&told[..], &results[..]), (row[2], row[3]), "{}", row[0]);
        }
    }
}
