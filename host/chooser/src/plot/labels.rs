//! Labels beside points, so placed that none overlaps another, a point, or a line.

use super::svg::{text_width, Anchor, Tenths};

/// A rectangle: the least and the greatest place in it.
#[derive(Clone, Copy, Debug, PartialEq, Eq)]
pub struct Area {
    pub least: [Tenths; 2],
    pub greatest: [Tenths; 2],
}

impl Area {
    /// A square around a place.
    pub fn around([x, y]: [Tenths; 2], reach: Tenths) -> Area {
        Area {
            least: [x - reach, y - reach],
            greatest: [x + reach, y + reach],
        }
    }

    /// The rectangle between two corners, in any order.
    pub fn between(one: [Tenths; 2], other: [Tenths; 2]) -> Area {
        Area {
            least: [one[0].min(other[0]), one[1].min(other[1])],
            greatest: [one[0].max(other[0]), one[1].max(other[1])],
        }
    }

    fn overlaps(&self, other: &Area) -> bool {
        (0..2).all(|k| self.least[k] < other.greatest[k] && other.least[k] < self.greatest[k])
    }

    fn contains(&self, other: &Area) -> bool {
        (0..2).all(|k| self.least[k] <= other.least[k] && other.greatest[k] <= self.greatest[k])
    }
}

/// A label: where its base line starts or ends.
#[derive(Clone, Debug, PartialEq, Eq)]
pub struct Label {
    pub place: [Tenths; 2],
    pub anchor: Anchor,
    pub text: String,
    pub area: Area,
}

/// The height of a label's letters above the base line, and below it.
const ABOVE: Tenths = 90;
const BELOW: Tenths = 25;

/// What stays free at the sides of a label, so that two do not read as one.
const SIDE: Tenths = 25;

/// A place beside a point: how far across and down, and which end of the label stands there.
type Beside = ([Tenths; 2], Anchor);

/// Where a label may stand beside its point.
pub const NEAR: [Beside; 6] = [
    ([80, -50], Anchor::Start),
    ([-80, 130], Anchor::End),
    ([80, 130], Anchor::Start),
    ([-80, -50], Anchor::End),
    ([85, 35], Anchor::Start),
    ([-85, 35], Anchor::End),
];

/// Where a label may stand that tells by itself which point it belongs to.
pub const NEAR_OR_FAR: [Beside; 9] = [
    NEAR[0],
    NEAR[1],
    NEAR[2],
    NEAR[3],
    NEAR[4],
    NEAR[5],
    ([-10, 240], Anchor::End),
    ([10, -160], Anchor::Start),
    ([10, 240], Anchor::Start),
];

/// Labels for the places with their texts, each within the space, none over a taken area or over
/// another label. One for which there is no place is left out.
pub fn place_labels(
    space: Area,
    taken: &[Area],
    wanted: &[([Tenths; 2], String)],
    places: &[Beside],
) -> Vec<Label> {
    let mut labels: Vec<Label> = Vec::new();
    for (point, text) in wanted {
        let free = |label: &Label| {
            let others = labels.iter().map(|other| &other.area).chain(taken);
            let mut others = others.filter(|area| area.overlaps(&label.area));
            space.contains(&label.area) && others.next().is_none()
        };
        let beside = places.iter().map(|(offset, anchor)| {
            let place = [point[0] + offset[0], point[1] + offset[1]];
            label_at(place, *anchor, text)
        });
        let found = beside.into_iter().find(free);
        labels.extend(found);
    }
    labels
}

fn label_at(place: [Tenths; 2], anchor: Anchor, text: &str) -> Label {
    let width = text_width(text);
    let left = match anchor {
        Anchor::Start => place[0],
        Anchor::Middle => place[0] - width / 2,
        Anchor::End => place[0] - width,
    };
    Label {
        place,
        anchor,
        text: text.into(),
        area: Area {
            least: [left - SIDE, place[1] - ABOVE],
            greatest: [left + width + SIDE, place[1] + BELOW],
        },
    }
}
