//! A frontier as a picture (SVG): stairs for two objectives, a matrix of pairs for three and four, a
//! scale for one. The same picture always has the same bytes.

mod axis;
mod labels;
mod panel;
mod scale;
mod svg;

use axis::{grouped, Direction};
use panel::{Panel, INSET};
use svg::{fitted, text_width, Anchor, Canvas, Tenths};

/// A point to draw: its costs, and for each module the name and the chosen variant.
#[derive(Clone, Debug, PartialEq, Eq)]
pub struct Plotted {
    pub costs: Vec<u32>,
    pub choice: Vec<(String, String)>,
}

/// What is drawn: a title, the objectives' names and ceilings, and the points in the list's order.
#[derive(Clone, Debug, PartialEq, Eq)]
pub struct Picture {
    pub title: String,
    pub objectives: Vec<(String, u32)>,
    pub points: Vec<Plotted>,
}

/// Space at the edges of a picture, and for its two lines of head.
const EDGE: Tenths = 200;
const HEAD: Tenths = 640;

/// Space for the labels and the name below a panel, and beside the labels left of one.
const BELOW: Tenths = 420;
const BESIDE: Tenths = 260;

/// Between two panels.
const GAP: Tenths = 200;

/// The height of a line of text.
const LINE: Tenths = 160;

/// Draws the picture.
pub fn draw(picture: &Picture) -> String {
    match picture.objectives.len() {
        1 => scale::draw(picture),
        2 => draw_matrix(picture, [6000, 4000]),
        3 => draw_matrix(picture, [3200, 2600]),
        _ => draw_matrix(picture, [2500, 2100]),
    }
}

impl Picture {
    /// What is told of a point where the pointer rests on it.
    fn told(&self, number: usize) -> String {
        let point = &self.points[number];
        let mut text = format!("point {} of {}", number + 1, self.points.len());
        for ((name, _), &cost) in self.objectives.iter().zip(&point.costs) {
            text.push_str(&format!("\n{name}: {}", grouped(cost.into())));
        }
        for (module, variant) in &point.choice {
            text.push_str(&format!("\n{module} = {variant}"));
        }
        text
    }

    /// What is under the title.
    fn subtitle(&self) -> String {
        match self.points.len() {
            0 => "no choice is allowed, so there is no point".into(),
            1 => "1 point; rest the pointer on it for its choice".into(),
            count => format!("{count} points; rest the pointer on one for its choice"),
        }
    }

    /// The name of an axis.
    fn axis_title(&self, objective: usize) -> String {
        let (name, ceiling) = &self.objectives[objective];
        format!("{name} (at most {})", grouped((*ceiling).into()))
    }

    fn draw_head(&self, canvas: &mut Canvas, width: Tenths) {
        // The title's letters are larger than a label's by about a half.
        let title = fitted(&self.title, (width - 2 * EDGE) * 2 / 3);
        canvas.text("head", [EDGE, 280], Anchor::Start, &title);
        canvas.text("quiet", [EDGE, 470], Anchor::Start, &self.subtitle());
    }

    /// The labels of the points: with two objectives the costs, else the number in the list.
    fn labels(&self) -> Vec<String> {
        let costs = |point: &Plotted| {
            let costs = point.costs.iter().map(|&cost| grouped(cost.into()));
            format!("({})", costs.collect::<Vec<_>>().join("; "))
        };
        match self.objectives.len() {
            2 => self.points.iter().map(costs).collect(),
            _ => (1..=self.points.len())
                .map(|number| number.to_string())
                .collect(),
        }
    }
}

/// A panel for each pair of objectives, the columns by the first and the rows by the second; with
/// more than one the points are listed in the corner that is left.
fn draw_matrix(picture: &Picture, size: [Tenths; 2]) -> String {
    let last = picture.objectives.len() - 1;
    let across = |k| Panel::axis(picture, k, size[0], Direction::Across);
    let up = |k| Panel::axis(picture, k, size[1], Direction::Up);
    let width = (1..=last).map(|k| up(k).label_width()).max().unwrap_or(0);
    let left = EDGE + BESIDE + width;
    let (gap, edge) = space_beside((0..last).map(|k| across(k).label_width()).max());
    let place = |column: usize, row: usize| {
        let (column, row) = (column as Tenths, row as Tenths);
        [
            left + column * (size[0] + gap),
            HEAD + row * (size[1] + GAP),
        ]
    };
    let [right, bottom] = place(last, last);
    let [right, bottom] = [right - gap, bottom - GAP];
    let (whole, labels, mut canvas) = (right + edge, picture.labels(), Canvas::default());
    picture.draw_head(&mut canvas, whole);
    for row in 1..=last {
        for column in 0..row {
            let panel = Panel {
                place: place(column, row - 1),
                size,
                objectives: [column, row],
                axes: [across(column), up(row)],
            };
            panel.draw_grid(&mut canvas);
            if row == last {
                panel.label_across(&mut canvas, &picture.axis_title(column));
            }
            if column == 0 {
                panel.label_up(&mut canvas, &picture.axis_title(row), width);
            }
            panel.draw_points(&mut canvas, picture, &labels, last == 1);
        }
    }
    if last > 1 {
        let [x, y] = place(1, 0);
        draw_list(picture, &mut canvas, [x, y], [right - x, size[1]]);
    }
    canvas.finish(whole, bottom + BELOW + EDGE, &shows(picture))
}

/// The space between panels and right of the last one, so that the labels of the first and last ticks
/// below them, of which the widest has this width, stay apart and in the picture.
fn space_beside(widest: Option<Tenths>) -> (Tenths, Tenths) {
    let over = widest.unwrap_or(0) - 2 * INSET;
    (GAP.max(over + 80), EDGE.max(over / 2 + 40))
}

/// What the picture shows, for those who cannot see it.
fn shows(picture: &Picture) -> String {
    format!(
        "{}: a frontier of {} points",
        picture.title,
        picture.points.len()
    )
}

/// The points' numbers and costs as a table, as many as there is space for.
fn draw_list(picture: &Picture, canvas: &mut Canvas, [x, y]: [Tenths; 2], space: [Tenths; 2]) {
    let columns = picture.objectives.len() as Tenths;
    let number = text_width("64");
    let column = (space[0] - number) / columns;
    let row = |canvas: &mut Canvas, line: usize, class: &str, first: &str, cells: &[String]| {
        let base = y + LINE * (line as Tenths + 1);
        canvas.text(class, [x + number, base], Anchor::End, first);
        for (k, cell) in (1..).zip(cells) {
            let end = [x + number + k * column, base];
            canvas.text(class, end, Anchor::End, &fitted(cell, column - 100));
        }
    };
    let names: Vec<String> = picture
        .objectives
        .iter()
        .map(|(name, _)| name.clone())
        .collect();
    row(canvas, 0, "quiet", "", &names);
    let lines = (space[1] / LINE - 2) as usize;
    for (line, point) in (1..=lines).zip(&picture.points) {
        let cells = point.costs.iter().map(|&cost| grouped(cost.into()));
        row(
            canvas,
            line,
            "label",
            &line.to_string(),
            &cells.collect::<Vec<_>>(),
        );
    }
    if picture.points.len() > lines {
        let base = y + LINE * (lines as Tenths + 2);
        let more = format!("and {} more", picture.points.len() - lines);
        canvas.text("quiet", [x + number + column, base], Anchor::End, &more);
    }
}
