//! The parts of a picture: lanes one under the other; the held labels on the left, then a stretch for each journey,
//! with a gutter for the names of its segments and points where it begins.

use crate::ride::{Moment, Ride, Stretch};
use crate::svg::Svg;
use crate::words::column_in_words;

/// The width of an event.
pub const COLUMN: f64 = 34.0;
/// The width of the held labels.
pub const LABELS: f64 = 150.0;
/// The width of the names where a journey begins.
pub const GUTTER: f64 = 190.0;

/// One lane of the picture. Each draws from its own top, a stretch from its own left.
pub trait Lane {
    fn height(&self) -> f64;

    /// In the held labels.
    fn label(&self, svg: &mut Svg);

    /// Where a journey begins.
    fn gutter(&self, _stretch: usize, _svg: &mut Svg) {}

    fn columns(&self, stretch: usize, moments: &[Moment], svg: &mut Svg);
}

/// A part of the picture with its width.
pub struct Part {
    pub width: f64,
    pub svg: Svg,
}

pub struct Sheet {
    pub height: f64,
    pub labels: Part,
    /// From left to right; gutters are held beside the labels while their stretch is seen.
    pub stretches: Vec<(Option<Part>, Part)>,
}

/// The middle of an event's column in its stretch.
pub fn middle(k: usize) -> f64 {
    (k as f64 + 0.5) * COLUMN
}

/// Runs of moments of which the same holds: first column, columns, what holds.
pub fn runs<T: PartialEq>(moments: &[Moment], of: impl Fn(&Moment) -> T) -> Vec<(f64, f64, T)> {
    let mut runs: Vec<(f64, f64, T)> = Vec::new();
    for (k, moment) in moments.iter().enumerate() {
        let now = of(moment);
        match runs.last_mut() {
            Some((_, width, last)) if *last == now => *width += COLUMN,
            _ => runs.push((k as f64 * COLUMN, COLUMN, now)),
        }
    }
    runs
}

impl Sheet {
    /// `linked`: an event's column has the name `c` with its label and leads to `e` with its label.
    pub fn of(ride: &Ride, lanes: &[Box<dyn Lane + '_>], linked: bool) -> Sheet {
        let height = lanes.iter().map(|lane| lane.height()).sum();
        let mut labels = Svg::default();
        stack(lanes, &mut labels, |lane, svg| lane.label(svg));
        let stretch = |(k, stretch): (usize, &Stretch)| {
            let moments = &ride.moments[stretch.moments.clone()];
            (stretch.plan.as_ref().map(|_| gutter(k, height, lanes)), columns(k, moments, height, lanes, linked))
        };
        let stretches = ride.stretches.iter().enumerate().map(stretch).collect();
        Sheet { height, labels: Part { width: LABELS, svg: labels }, stretches }
    }

    fn parts(&self) -> impl Iterator<Item = &Part> {
        let stretches = self.stretches.iter().flat_map(|(gutter, columns)| gutter.iter().chain([columns]));
        [&self.labels].into_iter().chain(stretches)
    }

    pub fn width(&self) -> f64 {
        self.parts().map(|part| part.width).sum()
    }

    /// All parts side by side.
    pub fn whole(&self) -> Svg {
        let (mut svg, mut left) = (Svg::default(), 0.0);
        for part in self.parts() {
            svg.shifted(left, 0.0, &part.svg);
            left += part.width;
        }
        svg
    }
}

/// Each lane under the one before.
fn stack(lanes: &[Box<dyn Lane + '_>], svg: &mut Svg, draw: impl Fn(&dyn Lane, &mut Svg)) {
    let mut top = 0.0;
    for lane in lanes {
        let mut part = Svg::default();
        draw(lane.as_ref(), &mut part);
        if !part.text.is_empty() {
            svg.shifted(0.0, top, &part);
        }
        top += lane.height();
    }
}

fn gutter(stretch: usize, height: f64, lanes: &[Box<dyn Lane + '_>]) -> Part {
    let mut svg = Svg::default();
    svg.rect("gutter", 0.0, 0.0, GUTTER, height);
    stack(lanes, &mut svg, |lane, svg| lane.gutter(stretch, svg));
    svg.line("load", (1.0, 0.0), (1.0, height));
    Part { width: GUTTER, svg }
}

fn columns(stretch: usize, moments: &[Moment], height: f64, lanes: &[Box<dyn Lane + '_>], linked: bool) -> Part {
    let mut svg = Svg::default();
    for (k, moment) in moments.iter().enumerate() {
        let left = k as f64 * COLUMN;
        let class = match (&moment.refused, moment.later) {
            (Some(_), _) => "column refused",
            (None, true) => "column later",
            (None, false) => "column",
        };
        let draw = |svg: &mut Svg| svg.rect(class, left, 0.0, COLUMN, height);
        let title = column_in_words(moment);
        if linked {
            svg.linked(&format!("#e{}", moment.label), |svg| svg.named(&format!("c{}", moment.label), &title, draw));
        } else {
            svg.titled(&title, draw);
        }
    }
    stack(lanes, &mut svg, |lane, svg| lane.columns(stretch, moments, svg));
    Part { width: moments.len() as f64 * COLUMN, svg }
}
