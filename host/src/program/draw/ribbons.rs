//! The two bars and the ribbons between them, grouped by colour so that heavy runs lie on top.

use super::bands::{Band, Interval};
use super::colours::Colour;
use super::sheet::{Bar, Sheet};
use super::text::number;

/// A ribbon that is nowhere wider than this becomes a line: it can't be pointed at, and a line takes less text.
const LINE_BELOW: f64 = 0.5;
/// Intervals from this width on are parted by a white line.
const PARTED_FROM: f64 = 4.0;
/// No interval is drawn narrower.
const HAIRLINE: f64 = 0.1;

pub fn ribbons(bands: &[Band], sheet: &Sheet) -> String {
    let group = |(colour, bands_of): (Colour, Vec<&Band>)| {
        let shapes: String = bands_of.into_iter().map(|band| ribbon(band, sheet)).collect();
        format!("<g {}>\n{shapes}</g>\n", style(colour, bands.len()))
    };
    let groups: String = by_colour(bands).map(group).collect();
    format!("<g id=\"ribbons\">\n{groups}</g>\n")
}

/// The bands of each colour that there is, in the order of the colours.
fn by_colour(bands: &[Band]) -> impl Iterator<Item = (Colour, Vec<&Band>)> {
    let of = |colour: Colour| (colour, bands.iter().filter(|band| band.colour == colour).collect::<Vec<_>>());
    Colour::all().map(of).filter(|(_, bands)| !bands.is_empty())
}

/// Ribbons let those below shine through. Among many runs the light ones step back, and the heavy ones stay.
fn style(colour: Colour, runs: usize) -> String {
    let (opacity, line) = match colour {
        Colour::Light(_) => (0.5, (60.0 / runs as f64).clamp(0.1, 0.3)),
        Colour::Heavy(_) => (0.75, 0.5),
    };
    let (code, line) = (colour.code(), number(line));
    format!(
        "fill=\"{code}\" fill-opacity=\"{opacity}\" \
         stroke=\"{code}\" stroke-opacity=\"{opacity}\" stroke-width=\"{line}\""
    )
}

fn ribbon(band: &Band, sheet: &Sheet) -> String {
    let (top, bottom) = (sheet.input.bottom, sheet.output.top);
    let (from, to) = (band.input.whole, band.output.whole);
    if from.width().max(to.width()) < LINE_BELOW {
        return format!("<path d=\"{}\" fill=\"none\"/>\n", curve(from.middle(), top, to.middle(), bottom));
    }
    format!("<path d=\"{}\"><title>{}</title></path>\n", area(band, top, bottom), words(band))
}

/// A curve that leaves and arrives upright.
pub fn curve(from: f64, top: f64, to: f64, bottom: f64) -> String {
    let middle = number((top + bottom) / 2.0);
    let (from, top, to, bottom) = (number(from), number(top), number(to), number(bottom));
    format!("M{from} {top}C{from} {middle} {to} {middle} {to} {bottom}")
}

/// Down along the left edge, and up along the right one.
fn area(band: &Band, top: f64, bottom: f64) -> String {
    let middle = number((top + bottom) / 2.0);
    let (from, to) = (band.input.whole, band.output.whole);
    let down = curve(from.left, top, to.left, bottom);
    let (right, to) = (number(from.right), number(to.right));
    format!("{down}H{to}C{to} {middle} {right} {middle} {right} {}Z", number(top))
}

/// What is shown when a ribbon is pointed at.
fn words(band: &Band) -> String {
    let Band { index, start, image, length, weight, .. } = band;
    let last = length.saturating_sub(1);
    let (end, image_end) = (start.saturating_add(last), image.saturating_add(last));
    let heavy = if band.colour.is_heavy() { ", heavy" } else { "" };
    format!("run {index}: places {start} to {end} go to {image} to {image_end}, weight {weight}{heavy}")
}

pub fn bars(bands: &[Band], sheet: &Sheet) -> String {
    let input = bar("input", bands, &sheet.input, |band| band.input);
    let output = bar("output", bands, &sheet.output, |band| band.output);
    input + &output
}

/// All intervals of a colour are one path.
fn bar(id: &str, bands: &[Band], bar: &Bar, side: impl Fn(&Band) -> Interval) -> String {
    let path = |(colour, bands): (Colour, Vec<&Band>)| {
        let boxes: String = bands.into_iter().map(|band| rectangle(side(band), bar)).collect();
        format!("<path d=\"{boxes}\" fill=\"{}\"/>\n", colour.code())
    };
    let paths: String = by_colour(bands).map(path).collect();
    format!("<g id=\"{id}\">\n{paths}</g>\n")
}

fn rectangle(interval: Interval, bar: &Bar) -> String {
    let span = interval.whole;
    let parting = if span.width() >= PARTED_FROM { 0.5 } else { 0.0 };
    let left = span.left + parting;
    let right = (span.right - parting).max(left + HAIRLINE);
    let (left, right) = (number(left), number(right));
    format!("M{left} {}H{right}V{}H{left}Z", number(bar.top), number(bar.bottom))
}
