//! The plots, as SVG text.

use std::fmt::Write;

use crate::report::{thousands, Axis, Curve, Row, Times, TARGET};

const OURS: &str = "#c4500c";
const BASELINE: &str = "#1f6fb4";
const QUIET: &str = "#8a8a8a";
const GRID: &str = "#dddddd";
const INK: &str = "#222222";

/// A drawing that grows element by element.
struct Drawing {
    text: String,
}

enum Anchor {
    Start,
    Middle,
    End,
}

impl Drawing {
    fn new(width: f64, height: f64) -> Drawing {
        let text = format!(
            "<svg xmlns=\"http://www.w3.org/2000/svg\" width=\"{width}\" height=\"{height}\" \
             viewBox=\"0 0 {width} {height}\" font-family=\"DejaVu Sans, Verdana, sans-serif\">\n\
             <rect width=\"{width}\" height=\"{height}\" fill=\"white\"/>\n"
        );
        Drawing { text }
    }

    fn line(&mut self, from: (f64, f64), to: (f64, f64), colour: &str, style: &str) {
        let _ = writeln!(
            self.text,
            "<line x1=\"{:.1}\" y1=\"{:.1}\" x2=\"{:.1}\" y2=\"{:.1}\" stroke=\"{colour}\" {style}/>",
            from.0, from.1, to.0, to.1
        );
    }

    fn circle(&mut self, at: (f64, f64), radius: f64, colour: &str) {
        let (x, y) = at;
        let _ = writeln!(
            self.text,
            "<circle cx=\"{x:.1}\" cy=\"{y:.1}\" r=\"{radius}\" fill=\"{colour}\"/>"
        );
    }

    fn write(&mut self, at: (f64, f64), size: f64, anchor: Anchor, colour: &str, words: &str) {
        let anchor = match anchor {
            Anchor::Start => "start",
            Anchor::Middle => "middle",
            Anchor::End => "end",
        };
        let words = words.replace('&', "&amp;").replace('<', "&lt;");
        let _ = writeln!(
            self.text,
            "<text x=\"{:.1}\" y=\"{:.1}\" font-size=\"{size}\" text-anchor=\"{anchor}\" \
             fill=\"{colour}\" stroke=\"white\" stroke-width=\"3\" paint-order=\"stroke\">{words}</text>",
            at.0, at.1
        );
    }

    fn finish(mut self) -> String {
        self.text.push_str("</svg>\n");
        self.text
    }
}

/// A logarithmic axis: the values between two ends and the places between two others.
struct Scale {
    values: (f64, f64),
    places: (f64, f64),
}

impl Scale {
    fn place(&self, value: f64) -> f64 {
        let ((first, last), (start, end)) = (self.values, self.places);
        start + (end - start) * (value / first).ln() / (last / first).ln()
    }
}

/// The next power of ten times 1, 2 or 5 that is not below a value, or not above it.
fn round_value(value: f64, up: bool) -> f64 {
    let power = 10f64.powf(value.log10().floor());
    let steps = [1.0, 2.0, 5.0, 10.0].map(|step| step * power);
    if up {
        let above = steps.into_iter().find(|step| *step >= value);
        above.unwrap_or(10.0 * power)
    } else {
        let below = steps.into_iter().rev().find(|step| *step <= value);
        below.unwrap_or(power)
    }
}

/// The call that a row is about: the name up to the colon.
fn call(row: &Row) -> &str {
    row.name.split(':').next().unwrap_or_default()
}

/// The ratio of each row, on a logarithmic axis, with the target.
pub fn ratios(rows: &[Row]) -> String {
    const WIDTH: f64 = 960.0;
    const LEFT: f64 = 350.0;
    const TOP: f64 = 96.0;
    const STEP: f64 = 17.0;
    const GAP: f64 = 8.0;

    let groups = rows.windows(2).filter(|two| call(&two[0]) != call(&two[1]));
    let height = STEP * rows.len() as f64 + GAP * groups.count() as f64;
    let bottom = TOP + height;
    let ratios = || rows.iter().map(|row| row.times.ratio());
    let least = round_value(ratios().fold(0.9, f64::min), false);
    let most = round_value(ratios().fold(2.0, f64::max) * 1.3, true);
    let scale = Scale {
        values: (least, most),
        places: (LEFT, WIDTH - 40.0),
    };

    let mut drawing = Drawing::new(WIDTH, bottom + 40.0);
    let title = "Time of the library divided by time of the hand-written version";
    drawing.write((20.0, 26.0), 16.0, Anchor::Start, INK, title);
    let mut legend = 20.0;
    for (colour, words, width) in [
        (BASELINE, "at most 1.2", 130.0),
        (OURS, "above 1.2", 120.0),
        (QUIET, "messages made to be the worst, no target", 0.0),
    ] {
        drawing.circle((legend + 5.0, 46.0), 4.5, colour);
        drawing.write((legend + 15.0, 50.0), 12.0, Anchor::Start, INK, words);
        legend += width;
    }

    let mut tick = least;
    while tick <= most * 1.001 {
        let x = scale.place(tick);
        let colour = if (tick - 1.0).abs() < 0.01 {
            QUIET
        } else {
            GRID
        };
        drawing.line((x, TOP - 8.0), (x, bottom), colour, "");
        for y in [TOP - 14.0, bottom + 18.0] {
            drawing.write((x, y), 11.0, Anchor::Middle, INK, &tick.to_string());
        }
        tick = round_value(tick * 1.01, true);
    }
    let x = scale.place(TARGET);
    let dashes = "stroke-width=\"1.5\" stroke-dasharray=\"5 3\"";
    drawing.line((x, TOP - 26.0), (x, bottom), "#b00020", dashes);
    let at = (x + 5.0, TOP - 30.0);
    drawing.write(at, 11.0, Anchor::Start, "#b00020", "target 1.2");

    let mut y = TOP + STEP / 2.0;
    for (number, row) in rows.iter().enumerate() {
        if number > 0 && call(&rows[number - 1]) != call(row) {
            y += GAP;
        }
        ratio_row(&mut drawing, &scale, y, row);
        y += STEP;
    }
    drawing.finish()
}

fn ratio_row(drawing: &mut Drawing, scale: &Scale, y: f64, row: &Row) {
    let colour = if row.is_worst() {
        QUIET
    } else if row.meets() {
        BASELINE
    } else {
        OURS
    };
    let ratio = row.times.ratio();
    let (one, x) = (scale.place(1.0), scale.place(ratio));
    let name_at = (scale.places.0 - 12.0, y + 4.0);
    drawing.write(name_at, 11.0, Anchor::End, INK, &row.name);
    drawing.line((one, y), (x, y), colour, "stroke-width=\"3\"");
    drawing.circle((x, y), 4.5, colour);
    // To the right of the dot, and of the target's line.
    let words_at = (x.max(scale.place(TARGET)) + 9.0, y + 4.0);
    let words = format!("{ratio:.2}");
    drawing.write(words_at, 11.0, Anchor::Start, INK, &words);
}

/// A time in a fitting unit.
fn time(nanoseconds: f64) -> String {
    let (number, unit) = match nanoseconds {
        time if time < 1e3 => (time, "ns"),
        time if time < 1e6 => (time / 1e3, "µs"),
        time => (time / 1e6, "ms"),
    };
    if number < 9.95 {
        format!("{number:.1} {unit}")
    } else {
        format!("{number:.0} {unit}")
    }
}

/// A power of ten as a time.
fn round_time(nanoseconds: f64) -> String {
    time(nanoseconds).replace(".0 ", " ")
}

const PANEL: (f64, f64) = (320.0, 250.0);
const COLUMNS: usize = 3;

/// Cost by size, a panel for each curve, both axes logarithmic. Panels with the same horizontal axis
/// have the same vertical one.
pub fn curves(curves: &[(Curve, Vec<(usize, Times)>)]) -> String {
    const TOP: f64 = 66.0;
    let places = panel_places(curves);
    let rows = places.last().map_or(0, |place| place.1 + 1);
    let (width, height) = (COLUMNS as f64 * PANEL.0, rows as f64 * PANEL.1);
    let mut drawing = Drawing::new(width, TOP + height + 10.0);
    let title = "Time of a call by size of the table and of the flush message";
    drawing.write((20.0, 26.0), 16.0, Anchor::Start, INK, title);
    for (x, colour, words) in [(20.0, OURS, "library"), (110.0, BASELINE, "hand-written")] {
        drawing.line((x, 46.0), (x + 18.0, 46.0), colour, "stroke-width=\"2\"");
        drawing.circle((x + 9.0, 46.0), 3.5, colour);
        drawing.write((x + 24.0, 50.0), 12.0, Anchor::Start, INK, words);
    }
    for ((curve, points), (column, row)) in curves.iter().zip(places) {
        let corner = (column as f64 * PANEL.0, TOP + row as f64 * PANEL.1);
        let same_axis = curves.iter().filter(|(other, _)| other.axis == curve.axis);
        let times = same_axis
            .flat_map(|(_, points)| points)
            .map(|point| point.1);
        let times: Vec<f64> = times.flat_map(|time| [time.ours, time.baseline]).collect();
        let least = times.iter().copied().fold(f64::MAX, f64::min);
        let most = times.iter().copied().fold(f64::MIN, f64::max);
        let decades = (
            10f64.powf(least.log10().floor()),
            10f64.powf(most.log10().ceil()),
        );
        panel(&mut drawing, corner, decades, *curve, points);
    }
    drawing.finish()
}

/// Column and row of each panel. Another horizontal axis begins a row.
fn panel_places(curves: &[(Curve, Vec<(usize, Times)>)]) -> Vec<(usize, usize)> {
    let mut places: Vec<(usize, usize)> = Vec::new();
    for (number, (curve, _)) in curves.iter().enumerate() {
        let place = match places.last() {
            None => (0, 0),
            Some((column, row)) => {
                let same = curves[number - 1].0.axis == curve.axis;
                if same && column + 1 < COLUMNS {
                    (column + 1, *row)
                } else {
                    (0, row + 1)
                }
            }
        };
        places.push(place);
    }
    places
}

fn panel(
    drawing: &mut Drawing,
    corner: (f64, f64),
    decades: (f64, f64),
    curve: Curve,
    points: &[(usize, Times)],
) {
    let (left, right) = (corner.0 + 62.0, corner.0 + PANEL.0 - 50.0);
    let (top, bottom) = (corner.1 + 30.0, corner.1 + PANEL.1 - 48.0);
    let sizes = points.iter().map(|(size, _)| *size as f64);
    let across = Scale {
        values: (
            sizes.clone().fold(f64::MAX, f64::min),
            sizes.fold(f64::MIN, f64::max),
        ),
        places: (left + 8.0, right - 8.0),
    };
    let up = Scale {
        values: decades,
        places: (bottom, top),
    };

    drawing.write((left, top - 10.0), 12.0, Anchor::Start, INK, curve.name);
    let mut tick = decades.0;
    while tick <= decades.1 * 1.001 {
        let y = up.place(tick);
        drawing.line((left, y), (right, y), GRID, "");
        let at = (left - 6.0, y + 4.0);
        drawing.write(at, 10.0, Anchor::End, INK, &round_time(tick));
        tick *= 10.0;
    }
    for (size, _) in points {
        let x = across.place(*size as f64);
        drawing.line((x, top), (x, bottom), GRID, "");
        let words = thousands(*size as u64);
        drawing.write((x, bottom + 15.0), 10.0, Anchor::Middle, INK, &words);
    }
    let unit = match curve.axis {
        Axis::Slots | Axis::SlotsInVain => "slots",
        Axis::PayloadBytes => "bytes of payload",
    };
    let middle = ((left + right) / 2.0, bottom + 30.0);
    drawing.write(middle, 10.0, Anchor::Middle, INK, unit);

    for colour in [BASELINE, OURS] {
        let value = |times: &Times| match colour {
            OURS => times.ours,
            _ => times.baseline,
        };
        let places: Vec<(f64, f64)> = points
            .iter()
            .map(|(size, times)| (across.place(*size as f64), up.place(value(times))))
            .collect();
        for two in places.windows(2) {
            drawing.line(two[0], two[1], colour, "stroke-width=\"2\"");
        }
        for place in &places {
            drawing.circle(*place, 3.5, colour);
        }
    }
    if let Some((size, times)) = points.last() {
        let x = across.place(*size as f64) + 10.0;
        // Beside the points, but never on one another.
        let (ours, baseline) = (up.place(times.ours), up.place(times.baseline));
        let apart = ((14.0 - (baseline - ours).abs()) / 2.0).max(0.0);
        let apart = if ours <= baseline { apart } else { -apart };
        let (ours_at, baseline_at) = ((x, ours - apart + 4.0), (x, baseline + apart + 4.0));
        drawing.write(ours_at, 10.0, Anchor::Start, OURS, &time(times.ours));
        let words = time(times.baseline);
        drawing.write(baseline_at, 10.0, Anchor::Start, BASELINE, &words);
    }
}
