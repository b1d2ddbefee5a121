//! A table as text that reads well as it is and also in Markdown.

/// Lines of equal columns: the first to the left, the others, which are numbers, to the right.
pub fn table_text(header: &[String], rows: &[Vec<String>]) -> String {
    let width = |column: usize| {
        let cells = rows.iter().map(|row| row[column].len());
        cells.max().unwrap_or(0).max(header[column].len())
    };
    let widths: Vec<usize> = (0..header.len()).map(width).collect();
    let mut text = line(header, &widths);
    text.push_str(&format!("|{}|", "-".repeat(widths[0] + 2)));
    for width in &widths[1..] {
        text.push_str(&format!("{}:|", "-".repeat(width + 1)));
    }
    text.push('\n');
    for row in rows {
        text.push_str(&line(row, &widths));
    }
    text
}

fn line(cells: &[String], widths: &[usize]) -> String {
    let mut text = format!("| {:<width$} |", cells[0], width = widths[0]);
    for (cell, width) in cells.iter().zip(widths).skip(1) {
        text.push_str(&format!(" {cell:>width$} |"));
    }
    text.push('\n');
    text
}
