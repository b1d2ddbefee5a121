//! What the C headers and the `extern` block of the Rust package declare, each declaration on one
//! line, with numbers in place of the names of constants.

use std::collections::BTreeMap;

/// The numbers that a header defines, by name without the prefix `FRONTIER_`.
pub fn defined(header: &str) -> BTreeMap<&str, usize> {
    let names = header
        .lines()
        .filter_map(|line| line.strip_prefix("#define FRONTIER_"));
    names
        .filter_map(|rest| {
            let mut words = rest.split_whitespace();
            let name = words.next()?;
            let value = words.next()?.parse().ok()?;
            Some((name, value))
        })
        .collect()
}

/// A header without comments and lines for the preprocessor, one space between words.
fn plain(header: &str) -> String {
    let mut text = String::new();
    for part in header.split("/*") {
        let code = part.split_once("*/").map_or(part, |(_, code)| code);
        text.push_str(code);
    }
    let lines = text.lines().filter(|line| !line.starts_with('#'));
    let words = lines.flat_map(str::split_whitespace);
    words.collect::<Vec<_>>().join(" ")
}

/// The numbers in place of the names of the constants that stand for lengths of arrays.
fn with_lengths(text: String, lengths: &BTreeMap<&str, usize>, prefix: &str) -> String {
    let put = |text: String, (name, value): (&&str, &usize)| {
        let name = format!("{prefix}{name}]");
        text.replace(&name, &format!("{value}]"))
    };
    lengths.iter().fold(text, put)
}

/// The calls that a header declares. What it defines itself is not one.
pub fn calls_in_c(header: &str, lengths: &BTreeMap<&str, usize>) -> Vec<String> {
    let text = with_lengths(plain(header), lengths, "FRONTIER_");
    let parts = text.split(['{', '}', ';']).map(str::trim);
    parts
        .filter(|part| part.contains(" frontier_") && part.ends_with(')'))
        .filter(|part| !part.starts_with("static "))
        .map(String::from)
        .collect()
}

/// What the comment above a call says of each pointer, by the columns of its lines: the name, `read`
/// or `written`, whether it may be null, what it may overlap.
pub fn pointer_lines(headers: &[&str], call: &str) -> Vec<String> {
    let parts = headers.iter().flat_map(|header| header.split("/*"));
    let mut parts = parts.filter_map(|part| part.split_once("*/"));
    let declared = |(_, code): &(&str, &str)| code.contains(&format!(" {call}("));
    let (comment, _) = parts.find(declared).expect("the call is declared");
    let lines = comment.lines().map(|line| line.trim_start_matches(" *"));
    let table = lines.skip_while(|line| !line.starts_with("   pointer "));
    let rows = table.skip(1).take_while(|line| !line.trim().is_empty());
    rows.map(|row| {
        let cells = row.split("  ").filter(|cell| !cell.is_empty());
        let ends = cells.map(|cell| cell.rsplit(", ").next().unwrap_or(cell).trim());
        ends.collect::<Vec<_>>().join(" ")
    })
    .collect()
}

/// The fields of a struct of a header.
pub fn fields(header: &str, name: &str, lengths: &BTreeMap<&str, usize>) -> Vec<String> {
    let text = with_lengths(plain(header), lengths, "FRONTIER_");
    let (_, rest) = text
        .split_once(&format!("struct {name} {{"))
        .unwrap_or_else(|| panic!("struct {name}"));
    let (fields, _) = rest.split_once('}').expect("its end");
    let fields = fields.split(';').map(str::trim);
    fields.filter(|f| !f.is_empty()).map(String::from).collect()
}

/// The calls that the `extern` block of a Rust source declares.
pub fn calls_in_rust(source: &str, lengths: &BTreeMap<&str, usize>) -> Vec<String> {
    let (_, rest) = source.split_once("extern \"C\" {\n").expect("a block");
    let (block, _) = rest.split_once("\n}").expect("the block's end");
    let lines = block.lines().map(str::trim);
    let code: Vec<&str> = lines.filter(|line| !line.starts_with("//")).collect();
    let text = with_lengths(code.join(" "), lengths, "");
    let text = text.replace("( ", "(").replace(", )", ")");
    let calls = text.split("fn ").skip(1);
    calls
        .map(|rest| rest.rsplit_once(';').expect("a declaration's end"))
        .map(|(call, _)| format!("fn {call}"))
        .collect()
}
