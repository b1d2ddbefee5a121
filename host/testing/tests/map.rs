//! The map is true: each name that the tables of demands and requests in `docs/ARCHITECTURE.md` give is
//! declared in the file that they give. So no statement and no theorem of a demand can go unnoticed.

use std::fs;
use std::path::PathBuf;

use testing::places::root;

/// A table of the map: the head of its first column, how many rows it has, and the folder below
/// `crates/` from which each column names files (definitions, theorems, what a caller has).
struct Table {
    head: &'static str,
    rows: usize,
    columns: [(usize, &'static str); 3],
}

const DEMANDS: Table = Table {
    head: "| Demand |",
    rows: 6,
    columns: [(2, "model"), (3, "model"), (4, "frontier")],
};

const REQUESTS: Table = Table {
    head: "| Request |",
    rows: 5,
    columns: [(2, ""), (3, ""), (4, "")],
};

/// A name that the map gives, and the file in which it looks for it.
struct Entry {
    file: PathBuf,
    name: String,
}

/// The rows of a table, without its head.
fn rows<'a>(map: &'a str, head: &str) -> Vec<Vec<&'a str>> {
    let (_, rest) = map.split_once(head).expect("the table");
    let table = rest.lines().skip(2);
    let rows = table.take_while(|line| line.starts_with('|'));
    rows.map(|line| line.split('|').collect()).collect()
}

/// What stands between backquotes.
fn quoted(cell: &str) -> impl Iterator<Item = &str> {
    cell.split('`').skip(1).step_by(2)
}

/// The entries of a cell: a file, and the names after it.
fn entries(cell: &str, folder: &str) -> Vec<Entry> {
    let mut file = None;
    let mut found = Vec::new();
    for word in quoted(cell) {
        if word.ends_with(".antt") {
            file = Some(root().join("crates").join(folder).join(word));
        } else {
            let file = file.clone().expect("a file stands before its names");
            found.push(Entry {
                file,
                name: word.into(),
            });
        }
    }
    found
}

/// Whether a line declares the name: after it comes its type, or a record's parameters.
fn declares(line: &str, name: &str) -> bool {
    let words: Vec<&str> = line.split_whitespace().collect();
    let starts = |word: &str| word == ":" || word.starts_with(['(', '{']);
    line.contains("pub ")
        && words
            .windows(2)
            .any(|pair| pair[0] == name && starts(pair[1]))
}

/// Each name of a table is declared where the table says.
fn check(table: &Table) {
    let map = fs::read_to_string(root().join("docs/ARCHITECTURE.md")).unwrap();
    let rows = rows(&map, table.head);
    assert_eq!(rows.len(), table.rows, "rows of {}", table.head);
    for row in &rows {
        for (column, folder) in table.columns {
            let entries = entries(row[column], folder);
            assert!(!entries.is_empty(), "nothing named in: {}", row[column]);
            for Entry { file, name } in entries {
                let text = fs::read_to_string(&file).unwrap_or_else(|_| panic!("no {file:?}"));
                let found = text.lines().any(|line| declares(line, &name));
                assert!(found, "{name} is not declared in {file:?}");
            }
        }
    }
}

#[test]
fn names_of_the_demands_are_declared_where_the_map_says() {
    check(&DEMANDS);
}

#[test]
fn names_of_the_requests_are_declared_where_the_map_says() {
    check(&REQUESTS);
}
