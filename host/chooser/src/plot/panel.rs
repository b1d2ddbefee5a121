//! One panel: points by two of their costs between two axes.

use super::axis::{grouped, Axis, Direction};
use super::labels::{place_labels, Area, NEAR, NEAR_OR_FAR};
use super::svg::{fitted, Anchor, Canvas, Tenths};
use super::Picture;

/// The marks of points keep this distance from the frame.
pub const INSET: Tenths = 140;

/// The radius of a mark, and the part around it that labels leave free.
const RADIUS: Tenths = 40;
const REACH: Tenths = 50;

/// Half the breadth around a line that labels leave free.
const LINE: Tenths = 8;

/// A panel: its frame, and the objectives across and up.
pub struct Panel {
    pub place: [Tenths; 2],
    pub size: [Tenths; 2],
    pub objectives: [usize; 2],
    pub axes: [Axis; 2],
}

impl Panel {
    /// The axis of an objective on a panel's side of this length.
    pub fn axis(picture: &Picture, objective: usize, side: Tenths, direction: Direction) -> Axis {
        let costs = picture.points.iter().map(|point| point.costs[objective]);
        let least = costs.clone().min().unwrap_or(0);
        let greatest = costs.max().unwrap_or(0);
        Axis::new(least, greatest, side - 2 * INSET, direction)
    }

    fn at(&self, costs: [u64; 2]) -> [Tenths; 2] {
        let [across, up] = [0, 1].map(|k| {
            let length = self.size[k] - 2 * INSET;
            INSET + self.axes[k].offset(costs[k], length)
        });
        [self.place[0] + across, self.place[1] + self.size[1] - up]
    }

    /// Where each point stands, in the list's order.
    fn places(&self, picture: &Picture) -> Vec<[Tenths; 2]> {
        let place = |costs: &[u32]| self.at(self.objectives.map(|k| costs[k].into()));
        picture
            .points
            .iter()
            .map(|point| place(&point.costs))
            .collect()
    }

    fn corners(&self) -> [[Tenths; 2]; 2] {
        let [x, y] = self.place;
        [[x, y], [x + self.size[0], y + self.size[1]]]
    }

    /// Lines across at the ticks, and the frame.
    pub fn draw_grid(&self, canvas: &mut Canvas) {
        let [[left, top], [right, bottom]] = self.corners();
        for tick in self.axes[0].ticks() {
            let x = self.at([tick, self.axes[1].low])[0];
            canvas.line("grid", [x, top], [x, bottom]);
        }
        for tick in self.axes[1].ticks() {
            let y = self.at([self.axes[0].low, tick])[1];
            canvas.line("grid", [left, y], [right, y]);
        }
        canvas.frame(self.place, self.size);
    }

    /// The ticks' labels and the objective's name below the panel.
    pub fn label_across(&self, canvas: &mut Canvas, title: &str) {
        let [[left, _], [right, bottom]] = self.corners();
        for tick in self.axes[0].ticks() {
            let x = self.at([tick, self.axes[1].low])[0];
            canvas.text("quiet", [x, bottom + 150], Anchor::Middle, &grouped(tick));
        }
        let title = fitted(title, self.size[0]);
        canvas.text(
            "title",
            [(left + right) / 2, bottom + 340],
            Anchor::Middle,
            &title,
        );
    }

    /// The ticks' labels and the objective's name left of the panel; the labels take this width.
    pub fn label_up(&self, canvas: &mut Canvas, title: &str, width: Tenths) {
        let [[left, top], [_, bottom]] = self.corners();
        for tick in self.axes[1].ticks() {
            let y = self.at([self.axes[0].low, tick])[1];
            canvas.text("quiet", [left - 60, y + 40], Anchor::End, &grouped(tick));
        }
        let title = fitted(title, self.size[1]);
        canvas.upright_text("title", [left - width - 130, (top + bottom) / 2], &title);
    }

    /// The points with their labels; with stairs, the border of what they beat.
    pub fn draw_points(
        &self,
        canvas: &mut Canvas,
        picture: &Picture,
        labels: &[String],
        stairs: bool,
    ) {
        let places = self.places(picture);
        let mut taken: Vec<Area> = places
            .iter()
            .map(|&place| Area::around(place, REACH))
            .collect();
        if stairs {
            let corners = self.stairs(&places);
            canvas.path("stairs", &corners);
            taken.extend(corners.windows(2).map(|pair| line_area(pair[0], pair[1])));
        }
        let [least, greatest] = self.corners();
        let beside = if stairs { &NEAR_OR_FAR[..] } else { &NEAR };
        let wanted: Vec<_> = places.iter().copied().zip(labels.iter().cloned()).collect();
        for label in place_labels(Area { least, greatest }, &taken, &wanted, beside) {
            canvas.text("label", label.place, label.anchor, &label.text);
        }
        for (number, place) in places.iter().enumerate() {
            canvas.mark(*place, RADIUS, &picture.told(number));
        }
    }

    /// The corners of the stairs, from the upper frame to the right one.
    fn stairs(&self, places: &[[Tenths; 2]]) -> Vec<[Tenths; 2]> {
        let [[_, top], [right, _]] = self.corners();
        let mut corners = Vec::new();
        let mut height = top;
        for &[x, y] in places {
            corners.extend([[x, height], [x, y]]);
            height = y;
        }
        corners.extend(places.last().map(|_| [right, height]));
        corners
    }
}

/// What labels leave free around a line.
fn line_area(one: [Tenths; 2], other: [Tenths; 2]) -> Area {
    let mut area = Area::between(one, other);
    area.least = area.least.map(|place| place - LINE);
    area.greatest = area.greatest.map(|place| place + LINE);
    area
}
