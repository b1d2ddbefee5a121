//! Cells of text under each other.

/// On which side of its column a cell stands.
#[derive(Clone, Copy, Debug, PartialEq, Eq)]
pub enum Side {
    Left,
    Right,
}

/// The spaces between two columns.
const GAP: &str = "  ";

/// Lines of cells, each as wide as the widest of its column. All lines have a cell for each side in
/// `sides`; spaces at a line's end are left out.
pub fn aligned(sides: &[Side], lines: &[Vec<String>]) -> Vec<String> {
    let width = |column: usize| {
        let cells = lines.iter().map(|line| line[column].chars().count());
        cells.max().unwrap_or(0)
    };
    let widths: Vec<usize> = (0..sides.len()).map(width).collect();
    let cell = |(column, text): (usize, &String)| match sides[column] {
        Side::Left => format!("{text:<0$}", widths[column]),
        Side::Right => format!("{text:>0$}", widths[column]),
    };
    let joined = |line: &Vec<String>| {
        let cells: Vec<String> = line.iter().enumerate().map(cell).collect();
        cells.join(GAP).trim_end().to_string()
    };
    lines.iter().map(joined).collect()
}
