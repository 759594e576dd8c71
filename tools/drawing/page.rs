//! The picture as a file of its own, and as a page with the words beside it.

use crate::journey::Journey;
use crate::lanes::{inputs, Events, Figures, Packets, States};
use crate::look::{legend, legend_height, patterns, STYLE};
use crate::ride::{Moment, Ride};
use crate::sheet::{Lane, Part, Sheet, LABELS};
use crate::svg::{escaped, pixels, Svg};
use crate::words::moment_in_words;

pub const EDGE: f64 = 14.0;
/// The least width of a drawing, which the legend needs.
pub const LEAST: f64 = 880.0;
const HEAD: f64 = 62.0;
const NOTES: [&str; 2] = [
    "One column an event, in their order: its width is no time.",
    "Distances are about to scale: what differs is drawn apart, so that margins can be seen.",
];

/// Every lane, from above.
pub fn lanes(ride: &Ride) -> Vec<Box<dyn Lane + '_>> {
    let mut lanes: Vec<Box<dyn Lane + '_>> = vec![Box::new(Events::of(ride)), Box::new(States)];
    lanes.extend(inputs(ride));
    lanes.push(Box::new(Journey::of(ride)));
    lanes.push(Box::new(Packets::of(ride)));
    lanes.push(Box::new(Figures::NUMBERS));
    lanes
}

/// The beginning of a drawing: its title, and notes of which the first stands at this height.
pub fn headed(title: &str, notes: &[impl AsRef<str>], first: f64) -> Svg {
    let mut svg = Svg::default();
    svg.text("title", EDGE, 26.0, title);
    for (k, note) in notes.iter().enumerate() {
        svg.text("note", EDGE, first + 14.0 * k as f64, note.as_ref());
    }
    svg
}

/// The drawing with its legend from this height on, as a file.
pub fn ended(mut svg: Svg, title: &str, width: f64, top: f64) -> String {
    svg.shifted(EDGE, top, &legend(width));
    document(title, width + 2.0 * EDGE, top + legend_height(width) + 10.0, &svg)
}

fn document(title: &str, width: f64, height: f64, drawing: &Svg) -> String {
    let (width, height) = (pixels(width), pixels(height));
    format!(
        "<svg xmlns=\"http://www.w3.org/2000/svg\" width=\"{width}\" height=\"{height}\" \
         viewBox=\"0 0 {width} {height}\">\n\
         <title>{}</title>\n<style>{STYLE}</style>\n{}<rect width=\"100%\" height=\"100%\" fill=\"#fff\"/>\n{}</svg>\n",
        escaped(title),
        patterns(),
        drawing.text
    )
}

/// The whole run as one drawing.
pub fn picture(title: &str, ride: &Ride) -> String {
    let sheet = Sheet::of(ride, &lanes(ride), false);
    let mut svg = headed(title, &NOTES, 42.0);
    svg.shifted(EDGE, HEAD, &sheet.whole());
    ended(svg, title, sheet.width().max(LEAST), HEAD + sheet.height + 10.0)
}

fn inline(part: &Part, height: f64, class: &str) -> String {
    let (width, height) = (pixels(part.width), pixels(height));
    format!("<svg class=\"{class}\" width=\"{width}\" height=\"{height}\">\n{}</svg>\n", part.svg.text)
}

const PAGE: &str = "
body{margin:0;font:14px/1.4 'Liberation Sans',Arial,Helvetica,sans-serif;color:#0f172a}
header{padding:8px 14px}h1{font-size:18px;margin:0}p{margin:2px 0;color:#334155;font-size:12px}
main{display:grid;grid-template-columns:minmax(0,1fr) 25rem;height:calc(100vh - 76px);border-top:1px solid #94a3b8}
.picture,.words{overflow:auto}.words{border-left:1px solid #94a3b8}
.sheet{display:flex;width:max-content}.sheet svg{display:block;flex:none;background:#fff}
.labels{position:sticky;left:0;z-index:2;padding-left:14px}.stretch{display:flex}
.held{position:sticky;z-index:1;border-right:1px solid #94a3b8}
.column:hover{fill:#0f172a;fill-opacity:.06}g:target>.column{fill:#facc15;fill-opacity:.35}
.event,.number,.speed{pointer-events:none}
.legend{padding:8px 14px;position:sticky;left:0;width:max-content}
ol{list-style:none;margin:0;padding:0}li{padding:6px 12px;border-bottom:1px solid #e2e8f0}li:target{background:#fef08a}
li a{color:inherit;font-weight:700}li div{margin-left:14px;overflow-wrap:anywhere;font-size:12px}
li .no{font-weight:700;border-left:4px solid #b91c1c;padding-left:6px}
@media(max-width:900px){main{display:block;height:auto}}
";

fn told(moment: &Moment) -> String {
    let label = &moment.label;
    let mut text = format!("<li id=\"e{label}\"><a href=\"#c{label}\">{label} {}</a>\n", escaped(&moment.text));
    for (k, line) in moment_in_words(moment).iter().enumerate() {
        let class = if k == 0 && moment.refused.is_some() { " class=\"no\"" } else { "" };
        text += &format!("<div{class}>{}</div>\n", escaped(line));
    }
    text + "</li>\n"
}

fn stretch(gutter: &Option<Part>, columns: &Part, height: f64) -> String {
    let held = gutter.as_ref().map_or(String::new(), |gutter| inline(gutter, height, "held"));
    format!("<div class=\"stretch\">{held}{}</div>\n", inline(columns, height, "columns"))
}

/// The run as a page: labels held on the left, the words of each event beside it.
pub fn page(title: &str, ride: &Ride) -> String {
    let sheet = Sheet::of(ride, &lanes(ride), true);
    let title = escaped(title);
    let stretches: String =
        sheet.stretches.iter().map(|(gutter, columns)| stretch(gutter, columns, sheet.height)).collect();
    let legend = Part { width: LEAST, svg: legend(LEAST) };
    let words: String = ride.moments.iter().map(told).collect();
    format!(
        "<!DOCTYPE html>\n<html lang=\"en\"><head><meta charset=\"utf-8\"/><title>{title}</title>\n\
         <style>{STYLE}{PAGE}.held{{left:{}px}}</style></head><body>\n\
         <header><h1>{title}</h1><p>{}</p>\
         <p>Click a column to read of it, and an event's name to see its column.</p></header>\n\
         <main><div class=\"picture\"><svg width=\"0\" height=\"0\" style=\"position:absolute\">{}</svg>\n\
         <div class=\"sheet\">{}{stretches}</div>\n<div class=\"legend\">{}</div></div>\n\
         <div class=\"words\"><ol>\n{words}</ol></div></main></body></html>\n",
        pixels(LABELS + EDGE),
        NOTES.join(" "),
        patterns(),
        inline(&sheet.labels, sheet.height, "labels"),
        inline(&legend, legend_height(LEAST), "key"),
    )
}
