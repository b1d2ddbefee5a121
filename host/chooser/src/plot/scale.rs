//! The picture for one objective: the least cost on a scale from 0 on.

use super::axis::{grouped, Axis, Direction};
use super::svg::{text_width, Anchor, Canvas, Tenths};
use super::{shows, Picture, BELOW, EDGE, HEAD};

/// The length of the scale, and the height that its label takes above it.
const LENGTH: Tenths = 6000;
const HEIGHT: Tenths = 500;

/// A ceiling up to this many times the cost is drawn; others would leave no space for the cost.
const DRAWN: u64 = 10;

pub fn draw(picture: &Picture) -> String {
    let ceiling = picture.objectives[0].1;
    let cost = picture.points.first().map(|point| point.costs[0]);
    let near = u64::from(ceiling) <= DRAWN * u64::from(cost.unwrap_or(ceiling));
    let greatest = if near { ceiling } else { cost.unwrap_or(0) };
    let axis = Axis::new(0, greatest, LENGTH, Direction::Across);
    let (left, y) = (EDGE + axis.label_width() / 2, HEAD + HEIGHT);
    let at = |number: u64| left + axis.offset(number, LENGTH);
    let width = LENGTH + 2 * left;
    let mut canvas = Canvas::default();
    picture.draw_head(&mut canvas, width);
    canvas.line("frame", [left, y], [left + LENGTH, y]);
    for tick in axis.ticks() {
        canvas.line("frame", [at(tick), y], [at(tick), y + 50]);
        canvas.text("quiet", [at(tick), y + 180], Anchor::Middle, &grouped(tick));
    }
    let title = picture.axis_title(0);
    canvas.text(
        "title",
        [left + LENGTH / 2, y + 370],
        Anchor::Middle,
        &title,
    );
    if near {
        let x = at(ceiling.into());
        canvas.line("ceiling", [x, y - 400], [x, y]);
        let (beside, anchor) = beside(x, left, "ceiling");
        canvas.text("quiet", [beside, y - 330], anchor, "ceiling");
    }
    if let Some(cost) = cost {
        let x = at(cost.into());
        canvas.line("stairs", [left, y], [x, y]);
        let label = grouped(cost.into());
        // A ceiling is to the right or at the same place, so that is the side to keep away from.
        let (beside, anchor) = beside(x, left, &label);
        canvas.text("label", [beside, y - 80], anchor, &label);
        canvas.mark([x, y], 50, &picture.told(0));
    }
    canvas.finish(width, y + BELOW + EDGE, &shows(picture))
}

/// Where a text stands beside a place: left of it if there is space from the scale's left end on.
fn beside(x: Tenths, left: Tenths, text: &str) -> (Tenths, Anchor) {
    match x - left > text_width(text) {
        true => (x - 60, Anchor::End),
        false => (x + 60, Anchor::Start),
    }
}
