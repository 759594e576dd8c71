//! How the picture looks: what stands for what by its form, so that it reads in black and white; colours only help.

use crate::journey::draw_status;
use crate::svg::Svg;

pub const STYLE: &str = "
text{font-family:'Liberation Sans',Arial,Helvetica,sans-serif;font-size:10px;fill:#0f172a}
.title{font-size:18px;font-weight:700}.note{font-size:11px;fill:#334155}
.head{font-size:11px;font-weight:700}.small,.thin{font-size:10px;fill:#334155}
.journey{font-size:13px;font-weight:700}.event{font-size:10.5px;paint-order:stroke;stroke:#fff;stroke-width:2px}
.number{font-size:9px;fill:#334155;text-anchor:middle}
.column{fill:transparent;stroke:#e2e8f0;stroke-width:.6}.refused{fill:url(#refused)}.later{fill:#e2e8f0}
.strip{stroke:#0f172a;stroke-width:1}.gutter{fill:#fff}.load{stroke:#0f172a;stroke-width:2.4}
.state{stroke:#0f172a;stroke-width:1}.code{font-size:13px;font-weight:700;text-anchor:middle}
.doing{font-size:8.5px;text-anchor:middle}.dark{fill:#0f172a}.light{fill:#fff}
.s0{fill:#fff}.s1{fill:#e2e8f0}.s2{fill:#fecaca}.s3{fill:#fef3c7}.s4{fill:#bfdbfe}.s5{fill:#166534}.s6{fill:#fdba74}
.s7{fill:#111}
.p0{fill:#fff}.p1{fill:url(#dots)}.p2{fill:url(#rising)}.p3{fill:url(#upright)}.p4{fill:url(#level)}.p5{fill:#052e16}
.p6{fill:url(#falling)}.p7{fill:url(#checks)}
.value{stroke:#94a3b8;stroke-width:.6;fill:#f8fafc}.v1{fill:#cbd5e1}.v2{fill:#fda4af;stroke:#0f172a;stroke-width:1.2}
.inside{font-size:8.5px}.speed{font-size:9px;text-anchor:middle}
.holds{fill:#334155}.idle{fill:#fff;stroke:#cbd5e1;stroke-width:.6}
.lacks{fill:url(#lacks);stroke:#b91c1c;stroke-width:.6}
.even,.odd{fill:#e0e7ff;fill-opacity:.55}.odd{fill:#f1f5f9}.unplaced{fill:url(#unplaced);stroke:#94a3b8;stroke-width:.6}
.boundary{stroke:#94a3b8;stroke-width:.8}
.zone{fill:url(#zone);stroke:#92400e;stroke-width:.6}
.margin{fill:#7dd3fc;fill-opacity:.75;stroke:#0369a1;stroke-width:.6}
.edge{stroke:#0369a1;stroke-width:.8;stroke-dasharray:1 2}
.ahead{stroke:#475569;stroke-width:.9}.targeted{stroke:#1d4ed8;stroke-width:2.6}
.reached{stroke:#9f1239;stroke-width:5}
.core{stroke:#fff;stroke-width:1.6}.passed{stroke:#475569;stroke-width:.9;stroke-dasharray:1 3}
.dashes{stroke-dasharray:7 4}
.aim{fill:#1d4ed8}
.way{fill:none;stroke:#000;stroke-width:1.8;stroke-linejoin:round}.front{fill:#000}
.unknown{font-size:12px;font-weight:700;text-anchor:middle}
.segment{font-size:9px;fill:#334155}.stop{font-weight:700;text-anchor:end}.passing{text-anchor:end}
.stop,.passing,.segment,.told,.unknown{paint-order:stroke;stroke:#fff;stroke-width:2.6px;stroke-linejoin:round}
.told{font-size:8px;font-weight:700;text-anchor:middle}
.mark{stroke:#fff;stroke-width:.8}.stopped{fill:#9f1239}.departed{fill:#166534}.mark.passing{fill:#1d4ed8}
.bar{fill:#fff}.freed{fill:#fff;stroke:#9f1239;stroke-width:2}
.cross{stroke:#6b21a8;stroke-width:2.4}.ring{fill:#fff;stroke:#6b21a8;stroke-width:2}.trackside{fill:#6b21a8}
.packet{stroke:#334155;stroke-width:.8;fill:#f1f5f9}.k61{fill:#fde68a;stroke-dasharray:3 2}
.k62{fill:#bae6fd}.k64{fill:#ddd6fe;stroke-dasharray:1 2}.k65{fill:#fff;stroke-width:2}
.kind{font-size:9px;text-anchor:middle}.low{font-size:7px}.strong{font-size:11px;font-weight:700}
.refusal{fill:#fff;stroke:#b91c1c;stroke-width:2}
";

/// Fills that a printer without colour keeps apart.
pub fn patterns() -> String {
    let stripes = |name: &str, step: f64, turn: i32, ground: &str, line: &str, width: f64| {
        format!(
            "<pattern id=\"{name}\" width=\"{step}\" height=\"{step}\" patternUnits=\"userSpaceOnUse\" \
             patternTransform=\"rotate({turn})\"><rect width=\"{step}\" height=\"{step}\" fill=\"{ground}\"/>\
             <path d=\"M0 0V{step}\" stroke=\"{line}\" stroke-width=\"{width}\"/></pattern>\n"
        )
    };
    let mut text = String::from("<defs>\n");
    text += &stripes("rising", 5.0, 45, "#fff", "#b91c1c", 2.0);
    text += &stripes("falling", 4.0, -45, "#fff", "#9a3412", 3.4);
    text += &stripes("upright", 5.0, 0, "#fff", "#a16207", 2.0);
    text += &stripes("level", 4.0, 90, "#fff", "#1d4ed8", 2.0);
    text += &stripes("lacks", 5.0, 45, "#fff", "#ef4444", 1.4);
    text += &stripes("zone", 6.0, 45, "#fef3c7", "#b45309", 2.4);
    text += &stripes("refused", 7.0, -45, "none", "#fca5a5", 1.6);
    text += &stripes("unplaced", 9.0, 60, "#fff", "#94a3b8", 1.6);
    text += "<pattern id=\"dots\" width=\"4\" height=\"4\" patternUnits=\"userSpaceOnUse\">\
             <rect width=\"4\" height=\"4\" fill=\"#fff\"/><circle cx=\"2\" cy=\"2\" r=\".9\" fill=\"#334155\"/>\
             </pattern>\n";
    text += "<pattern id=\"checks\" width=\"6\" height=\"6\" patternUnits=\"userSpaceOnUse\">\
             <rect width=\"6\" height=\"6\" fill=\"#fff\"/><path d=\"M0 0H3V3H0ZM3 3H6V6H3Z\" fill=\"#000\"/>\
             </pattern>\n";
    text + "</defs>\n"
}

/// A form and what it stands for.
type Entry = (&'static str, fn(&mut Svg));

const ENTRIES: [Entry; 21] = [
    ("front of the train, a dot at each report", |svg| {
        svg.polyline("way", &[(0.0, 12.0), (12.0, 6.0), (26.0, 6.0)]);
        svg.circle("front", 12.0, 6.0, 3.0);
    }),
    ("targeted point", |svg| {
        svg.line("targeted", (0.0, 8.0), (26.0, 8.0));
        svg.polygon("aim", &[(0.0, 3.0), (8.0, 8.0), (0.0, 13.0)]);
    }),
    ("reached point", |svg| {
        svg.line("reached", (0.0, 8.0), (26.0, 8.0));
        svg.line("core", (0.0, 8.0), (26.0, 8.0));
    }),
    ("point ahead, not used yet", |svg| svg.line("ahead", (0.0, 8.0), (26.0, 8.0))),
    ("passing point or skipped stop", |svg| svg.line("ahead dashes", (0.0, 8.0), (26.0, 8.0))),
    ("passed point", |svg| svg.line("passed", (0.0, 8.0), (26.0, 8.0))),
    ("margin: the front stands in it, the stop is reached", |svg| svg.rect("margin", 0.0, 2.0, 26.0, 12.0)),
    ("inhibition zone", |svg| svg.rect("zone", 0.0, 2.0, 26.0, 12.0)),
    ("segment not placed", |svg| svg.rect("unplaced", 0.0, 2.0, 26.0, 12.0)),
    ("lacking", |svg| svg.rect("lacks", 0.0, 4.0, 26.0, 8.0)),
    ("62 stopped", |svg| draw_status(svg, 1, 13.0, 8.0)),
    ("62 held: 20 refuses a press", |svg| draw_status(svg, 3, 13.0, 8.0)),
    ("62 hold revoked", |svg| draw_status(svg, 4, 13.0, 8.0)),
    ("62 departed", |svg| draw_status(svg, 2, 13.0, 8.0)),
    ("62 passed", |svg| draw_status(svg, 0, 13.0, 8.0)),
    ("62 driver skip", |svg| draw_status(svg, 5, 13.0, 8.0)),
    ("62 skip revoked", |svg| draw_status(svg, 6, 13.0, 8.0)),
    ("62 skipped by trackside", |svg| draw_status(svg, 7, 13.0, 8.0)),
    ("62 trackside skip revoked", |svg| draw_status(svg, 8, 13.0, 8.0)),
    ("61 traction request, another range or SupTB", |svg| draw_packet(svg, "61")),
    ("64 rows of slippery rail", |svg| draw_packet(svg, "64")),
];

fn draw_packet(svg: &mut Svg, number: &str) {
    svg.rect(&format!("packet k{number}"), 1.0, 1.0, 24.0, 14.0);
    svg.text("kind", 13.0, 11.0, number);
}

const ENTRY: f64 = 280.0;

pub fn legend_height(width: f64) -> f64 {
    let columns = (width / ENTRY).floor().max(1.0);
    20.0 * (ENTRIES.len() as f64 / columns).ceil()
}

/// What stands for what, in as many columns as the width holds.
pub fn legend(width: f64) -> Svg {
    let rows = (legend_height(width) / 20.0) as usize;
    let mut svg = Svg::default();
    for (k, (text, draw)) in ENTRIES.iter().enumerate() {
        let (x, y) = (ENTRY * (k / rows) as f64, 20.0 * (k % rows) as f64);
        let mut entry = Svg::default();
        draw(&mut entry);
        entry.text("small", 34.0, 12.0, text);
        svg.shifted(x, y, &entry);
    }
    svg
}
