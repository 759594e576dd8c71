//! Distances as heights. What differs is drawn apart: each gap between two distances that matter has a least height,
//! the rest of the height is shared out by length. So above and below are always right, lengths only about.

use std::collections::{BTreeMap, BTreeSet};

/// Least gaps: between whatever differs, and between what has a name.
const APART: f64 = 3.0;
const NAME: f64 = 13.0;

/// The distances that matter, each with the least gap below it, in pixels; and those that have a name.
#[derive(Default)]
pub struct Marks {
    gaps: BTreeMap<i64, f64>,
    names: BTreeSet<i64>,
}

impl Marks {
    pub fn add(&mut self, distance: i64) {
        self.add_apart(distance, APART);
    }

    pub fn add_apart(&mut self, distance: i64, gap: f64) {
        let least = self.gaps.entry(distance).or_default();
        *least = least.max(gap);
    }

    pub fn add_name(&mut self, distance: i64) {
        self.add(distance);
        self.names.insert(distance);
    }

    /// From the first distance on, wide enough for the names.
    fn wide_gaps(&self) -> Vec<(i64, f64)> {
        let mut gaps = self.gaps.clone();
        if let Some(mut first) = gaps.first_entry() {
            *first.get_mut() = 0.0;
        }
        for (&from, &to) in self.names.iter().zip(self.names.iter().skip(1)) {
            let sum: f64 = gaps.range(from + 1..=to).map(|(_, gap)| gap).sum();
            gaps.range_mut(from + 1..=to).for_each(|(_, gap)| *gap *= (NAME / sum).max(1.0));
        }
        gaps.into_iter().collect()
    }

    /// The height that they need at least.
    pub fn height(&self) -> f64 {
        self.wide_gaps().iter().map(|(_, gap)| gap).sum::<f64>()
    }

    /// Over this height, which is enough.
    pub fn scale(&self, height: f64) -> Scale {
        let gaps = self.wide_gaps();
        let (least, most) = (gaps.first().map_or(0, |gap| gap.0), gaps.last().map_or(0, |gap| gap.0));
        let shared = (height - gaps.iter().map(|(_, gap)| gap).sum::<f64>()) / (most - least).max(1) as f64;
        let (mut stops, mut at, mut last) = (Vec::new(), 0.0, least);
        for (distance, gap) in gaps {
            at += gap + shared * (distance - last) as f64;
            stops.push((distance, at));
            last = distance;
        }
        Scale { stops }
    }
}

pub struct Scale {
    stops: Vec<(i64, f64)>,
}

impl Scale {
    /// The height of a distance from the journey's start, above it.
    pub fn height(&self, distance: i64) -> f64 {
        let k = self.stops.partition_point(|stop| stop.0 < distance);
        match (k.checked_sub(1).map(|k| self.stops[k]), self.stops.get(k)) {
            (Some((from, low)), Some(&(to, high))) => {
                low + (high - low) * (distance - from) as f64 / (to - from) as f64
            }
            (Some((_, low)), None) => low,
            (None, Some(&(_, high))) => high,
            (None, None) => 0.0,
        }
    }
}
