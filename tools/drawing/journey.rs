//! The journey from below to above: segments, zones, points with their margins and standings, the front's way, and the
//! packets 62 at the points that they tell of.

use crate::plan::{Front, Plan, Point};
use crate::ride::{Moment, Ride, Written};
use crate::scale::{Marks, Scale};
use crate::sheet::{middle, runs, Lane, COLUMN, GUTTER};
use crate::svg::Svg;
use crate::words::{cut, letters, margin_in_words, metres, point_in_words, segment_in_words};
use tools::points::{PASSED, REACHED, TARGETED};

const ABOVE: f64 = 14.0;
const BELOW: f64 = 20.0;
/// The height that is shared out by length.
const HIGH: f64 = 230.0;
const LOW: f64 = 70.0;
/// The least height of half a margin.
const EDGE: f64 = 7.0;
/// The width of the segments' names in the gutter.
const SEGMENTS: f64 = 88.0;

/// What packet 62 tells, at its point, by its status.
const TOLD: [&str; 9] = ["passed", "stopped", "departed", "held", "revoked", "skip", "revoked", "skipped", "revoked"];

pub struct Journey<'a> {
    panels: Vec<Option<Panel<'a>>>,
    height: f64,
}

/// A journey in its stretch: heights count from the lane's top.
struct Panel<'a> {
    plan: &'a Plan,
    scale: Scale,
    /// Of the journey's start.
    bottom: f64,
}

impl<'a> Journey<'a> {
    pub fn of(ride: &'a Ride) -> Journey<'a> {
        Journey::over(ride, HIGH)
    }

    pub fn low(ride: &'a Ride) -> Journey<'a> {
        Journey::over(ride, LOW)
    }

    /// So much of the height is shared out by length.
    fn over(ride: &'a Ride, shared: f64) -> Journey<'a> {
        let stretches = || ride.stretches.iter().map(|stretch| (stretch, stretch.plan.as_ref()));
        let drawn =
            stretches().map(|(stretch, plan)| Some((plan?, marks(plan?, &ride.moments[stretch.moments.clone()]))));
        let drawn: Vec<Option<(&Plan, Marks)>> = drawn.collect();
        let needed = drawn.iter().flatten().map(|(plan, marks)| unplaced_height(plan) + marks.height() + shared);
        let inside = needed.fold(60.0, f64::max);
        let panel = |(plan, marks): (&'a Plan, Marks)| Panel {
            plan,
            scale: marks.scale(inside - unplaced_height(plan)),
            bottom: ABOVE + inside,
        };
        let panels = drawn.into_iter().map(|drawn| drawn.map(panel)).collect();
        Journey { panels, height: ABOVE + inside + BELOW }
    }
}

/// The distances that matter in a stretch.
fn marks(plan: &Plan, moments: &[Moment]) -> Marks {
    let mut marks = Marks::default();
    marks.add_name(0);
    marks.add_name(plan.end);
    plan.segments.iter().filter_map(|segment| segment.start).for_each(|start| marks.add_name(start));
    for (_, from, to) in plan.zones() {
        marks.add(from);
        marks.add_name((from + to) / 2);
        marks.add(to);
    }
    for point in &plan.points {
        point.place.into_iter().for_each(|place| marks.add_name(place));
        for (_, _, (train, skipped, _)) in margin_runs(moments, point) {
            mark_margin(&mut marks, plan, point, train, skipped);
        }
    }
    for moment in moments {
        if let Front::At(front) = moment.front {
            marks.add(front);
        }
    }
    marks
}

/// Its edges and its middle, so far as they are on placed segments.
fn mark_margin(marks: &mut Marks, plan: &Plan, point: &Point, train: u32, skipped: bool) {
    let (Some(margin), Some(at)) = (point.margin(train, skipped), point.front_place(train)) else { return };
    let within = |distance: &i64| (0..=plan.end).contains(distance);
    Some(margin.start).filter(within).into_iter().for_each(|start| marks.add(start));
    for distance in [at, margin.end].into_iter().filter(|distance| within(distance) && !margin.is_empty()) {
        marks.add_apart(distance, EDGE);
    }
}

/// Runs of moments with the same train length, driver skip, and standing so far as it is passed or not.
fn margin_runs(moments: &[Moment], point: &Point) -> Vec<(f64, f64, (u32, bool, bool))> {
    let passed = |moment: &Moment| moment.shown.standings[point.index] == PASSED;
    runs(moments, |moment| (moment.reported.length, moment.skips.contains(&point.nidtp), passed(moment)))
}

fn points_on(plan: &Plan, segment: usize) -> usize {
    plan.points.iter().filter(|point| point.segment == segment).count()
}

/// The height of each segment that is not placed.
fn unplaced(plan: &Plan) -> impl Iterator<Item = (usize, f64)> + '_ {
    let unplaced = (0..plan.segments.len()).filter(|&k| plan.segments[k].start.is_none());
    unplaced.map(|k| (k, 20f64.max(6.0 + 14.0 * points_on(plan, k) as f64)))
}

fn unplaced_height(plan: &Plan) -> f64 {
    unplaced(plan).map(|(_, height)| height).sum()
}

impl Panel<'_> {
    fn y(&self, distance: i64) -> f64 {
        self.bottom - self.scale.height(distance)
    }

    /// The upper and the lower end of a segment.
    fn ends(&self, segment: usize) -> (f64, f64) {
        if let Some(start) = self.plan.segments[segment].start {
            return (self.y(start + self.plan.segments[segment].length), self.y(start));
        }
        let mut low = self.y(self.plan.end);
        for (_, height) in unplaced(self.plan).take_while(|(k, _)| *k < segment) {
            low -= height;
        }
        let height = unplaced(self.plan).find(|(k, _)| *k == segment).map_or(0.0, |(_, height)| height);
        (low - height, low)
    }

    /// The line of a point; without a place, somewhere on its segment.
    fn line(&self, k: usize) -> f64 {
        let point = &self.plan.points[k];
        if let Some(place) = point.place {
            return self.y(place);
        }
        let before = self.plan.points[..k].iter().filter(|other| other.segment == point.segment).count();
        self.ends(point.segment).1 - 10.0 - 14.0 * before as f64
    }

    fn draw_segments(&self, svg: &mut Svg, width: f64) {
        for (k, segment) in self.plan.segments.iter().enumerate() {
            let (top, low) = self.ends(k);
            let title = segment_in_words(segment);
            let class = match segment.start {
                None => "unplaced",
                Some(_) if k % 2 == 0 => "even",
                Some(_) => "odd",
            };
            svg.titled(&title, |svg| svg.rect(class, 0.0, top, width, low - top));
            svg.line("boundary", (0.0, low), (width, low));
            svg.line("boundary", (0.0, top), (width, top));
        }
    }

    fn draw_zones(&self, svg: &mut Svg, width: f64) {
        for (segment, from, to) in self.plan.zones() {
            let title = format!("inhibition zone on {}: from {} to {}", segment.name, metres(from), metres(to));
            let (top, low) = (self.y(to), self.y(from));
            svg.titled(&title, |svg| svg.rect("zone", 0.0, top, width, (low - top).max(2.0)));
        }
    }

    fn draw_names(&self, svg: &mut Svg) {
        for (k, segment) in self.plan.segments.iter().enumerate() {
            let (name, low) = (cut(&segment.name, 14), self.ends(k).1 - 3.5);
            let place = segment.start.map_or("not placed".into(), metres);
            svg.text("segment", 6.0, low, &cut(&format!("{name}, {place}"), letters(SEGMENTS + 10.0, 9.0)));
        }
        if unplaced_height(self.plan) == 0.0 {
            svg.text("segment", 6.0, self.y(self.plan.end) + 10.0, &metres(self.plan.end));
        }
        for (_, from, to) in self.plan.zones() {
            svg.text("passing", GUTTER - 6.0, self.y((from + to) / 2) + 3.5, "inhibition zone");
        }
        for (k, point) in self.plan.points.iter().enumerate() {
            let mark = match (point.trackside, point.held) {
                (true, _) => ", skipped",
                (false, true) => ", held",
                (false, false) => "",
            };
            let words = format!("{mark}{}", if point.end { ", end" } else { "" });
            let name = cut(&point.name, 22 - words.len()) + &words;
            svg.titled(&point_in_words(self.plan, point), |svg| {
                svg.text(if point.stop { "stop" } else { "passing" }, GUTTER - 6.0, self.line(k) + 3.5, &name);
            });
        }
    }

    /// Of each point until it is passed; only the line where it passes if that is not the point's own.
    fn draw_margins(&self, svg: &mut Svg, moments: &[Moment]) {
        for point in &self.plan.points {
            for (left, width, (train, skipped, passed)) in margin_runs(moments, point) {
                let margin =
                    point.margin(train, skipped).filter(|margin| margin.end >= 0 && margin.start <= self.plan.end);
                let Some(margin) = margin.filter(|_| !passed) else { continue };
                let (top, low, line) = (self.y(margin.end), self.y(margin.start), self.line(point.index));
                svg.titled(&margin_in_words(point, train, skipped, &margin), |svg| {
                    if !margin.is_empty() {
                        svg.rect("margin", left, top, width, low - top);
                    } else if low != line {
                        svg.line("edge", (left, low), (left + width, low));
                    }
                    if low < line {
                        svg.line("edge", (left + 2.0, low), (left + 2.0, line));
                    }
                });
            }
        }
    }

    fn draw_points(&self, svg: &mut Svg, moments: &[Moment]) {
        for (k, point) in self.plan.points.iter().enumerate() {
            let y = self.line(k);
            let solid = |moment: &Moment| point.is_served(moment.skips.contains(&point.nidtp));
            for (left, width, (standing, solid)) in runs(moments, |moment| (moment.shown.standings[k], solid(moment))) {
                let (says, class) = match standing {
                    TARGETED => ("targeted", "targeted"),
                    REACHED => ("reached", "reached"),
                    PASSED => ("passed", "passed"),
                    _ => ("not used", "ahead"),
                };
                let dashes = if solid || standing == PASSED { "" } else { " dashes" };
                svg.titled(&format!("{}: {says}", point.name), |svg| {
                    svg.line(&format!("{class}{dashes}"), (left, y), (left + width, y));
                    if standing == REACHED {
                        svg.line("core", (left, y), (left + width, y));
                    }
                    if standing == TARGETED {
                        svg.polygon("aim", &[(left, y - 5.0), (left + 8.0, y), (left, y + 5.0)]);
                    }
                });
            }
        }
    }

    /// A line through the known positions, broken where they are not, with a dot at each report.
    fn draw_way(&self, svg: &mut Svg, moments: &[Moment]) {
        let mut way: Vec<(f64, f64)> = Vec::new();
        for (k, moment) in moments.iter().enumerate() {
            match moment.front {
                Front::At(front) => way.push((middle(k), self.y(front))),
                _ => svg.polyline("way", &std::mem::take(&mut way)),
            }
        }
        svg.polyline("way", &way);
        for (k, moment) in moments.iter().enumerate() {
            self.draw_front(svg, k, moment);
        }
    }

    fn draw_front(&self, svg: &mut Svg, k: usize, moment: &Moment) {
        let speed = moment.reported.speed;
        let unknown = |svg: &mut Svg, why: &str, y: f64| {
            svg.titled(&format!("position not known: {why}"), |svg| svg.text("unknown", middle(k), y, "?"));
        };
        match moment.front {
            Front::At(front) => {
                let radius = if moment.reported.now { 3.0 } else { 1.2 };
                let title = format!("front at {} from the journey's start, speed {speed} cm/s", metres(front));
                svg.titled(&title, |svg| svg.circle("front", middle(k), self.y(front), radius));
            }
            Front::On(segment) => {
                let (top, low) = self.ends(segment);
                let name = &self.plan.segments[segment].name;
                unknown(svg, &format!("{name}, where the front is, is not placed"), (top + low) / 2.0 + 4.0);
            }
            Front::Unknown(why) => unknown(svg, why, self.bottom + 14.0),
        }
    }

    fn draw_told(&self, svg: &mut Svg, moments: &[Moment]) {
        for (k, moment) in moments.iter().enumerate() {
            let told: Vec<(f64, &Written)> =
                moment.packets.iter().filter_map(|told| Some((self.told_at(told)?, told))).collect();
            for (at, (y, packet)) in told.iter().enumerate() {
                let (x, status) = (middle(k), packet.fields.status);
                // the words of the point above, or of what is told of this one later, stand there
                let crowded = told.iter().any(|(other, _)| (1.0..18.0).contains(&(y - other)))
                    || told[at + 1..].iter().any(|(other, _)| other == y);
                // below the mark where the front's dot is just above it
                let dot = matches!(moment.front, Front::At(front) if (y - 18.0..*y).contains(&self.y(front)));
                svg.titled(&packet.words, |svg| {
                    draw_status(svg, status, x, *y);
                    if !crowded {
                        let words = TOLD.get(usize::from(status)).unwrap_or(&"");
                        svg.text("told", x, if dot { y + 12.5 } else { y - 6.5 }, words);
                    }
                });
            }
        }
    }

    /// The line of the point that a packet 62 tells of.
    fn told_at(&self, packet: &Written) -> Option<f64> {
        let point = |point: &Point| packet.fields.kind == 62 && point.nidtp == packet.fields.nidtp;
        Some(self.line(self.plan.points.iter().position(point)?))
    }
}

/// Each status has a shape of its own.
pub fn draw_status(svg: &mut Svg, status: u8, x: f64, y: f64) {
    match status {
        0 => svg.polygon("mark passing", &[(x - 5.0, y + 4.0), (x + 5.0, y + 4.0), (x, y - 5.0)]),
        1 => svg.rect("mark stopped", x - 4.5, y - 4.5, 9.0, 9.0),
        2 => svg.circle("mark departed", x, y, 4.8),
        3 => {
            svg.rect("mark stopped", x - 4.5, y - 4.5, 9.0, 9.0);
            svg.rect("bar", x - 2.6, y - 2.5, 1.8, 5.0);
            svg.rect("bar", x + 0.8, y - 2.5, 1.8, 5.0);
        }
        4 => svg.rect("freed", x - 4.0, y - 4.0, 8.0, 8.0),
        5 => {
            svg.line("cross", (x - 4.0, y - 4.0), (x + 4.0, y + 4.0));
            svg.line("cross", (x - 4.0, y + 4.0), (x + 4.0, y - 4.0));
        }
        6 => svg.circle("ring", x, y, 4.5),
        _ => {
            let corners = [(x, y - 5.5), (x + 5.5, y), (x, y + 5.5), (x - 5.5, y)];
            svg.polygon(if status == 7 { "mark trackside" } else { "ring" }, &corners);
        }
    }
}

impl Lane for Journey<'_> {
    fn height(&self) -> f64 {
        self.height
    }

    fn label(&self, svg: &mut Svg) {
        svg.text("head", 0.0, ABOVE + 10.0, "Journey");
        svg.text("small", 0.0, ABOVE + 24.0, "from below to above");
        svg.text("small", 0.0, self.height - 6.0, "position not known: ?");
    }

    fn gutter(&self, stretch: usize, svg: &mut Svg) {
        if let Some(panel) = &self.panels[stretch] {
            panel.draw_segments(svg, GUTTER);
            panel.draw_names(svg);
        }
    }

    fn columns(&self, stretch: usize, moments: &[Moment], svg: &mut Svg) {
        let width = moments.len() as f64 * COLUMN;
        let Some(panel) = &self.panels[stretch] else {
            return svg.upward("small", COLUMN / 2.0 + 3.0, self.height - BELOW, "no journey");
        };
        panel.draw_segments(svg, width);
        panel.draw_zones(svg, width);
        panel.draw_margins(svg, moments);
        panel.draw_points(svg, moments);
        panel.draw_told(svg, moments);
        panel.draw_way(svg, moments);
    }
}
