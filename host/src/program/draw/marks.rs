//! What is drawn upon bars and ribbons: the starts, the cuts, and the axis of places.

use super::bands::{Band, Cut};
use super::colours::{INK, QUIET};
use super::labels::{fitting, texts, Label};
use super::ribbons::curve;
use super::scale::{round_step, Scale};
use super::sheet::{Sheet, LEFT, ROOM};
use super::text::number;

/// The starts as ticks in the lower bar.
pub fn starts(bands: &[Band], sheet: &Sheet) -> String {
    let pole = (0.15 * ROOM / bands.len() as f64).clamp(0.25, 1.2);
    let flag = flag(bands.len());
    let xs = apart(bands.iter().map(|band| band.input.whole.left));
    let ticks: String = xs.iter().map(|&x| tick(x, sheet.output.bottom, pole, flag)).collect();
    format!("<path id=\"starts\" d=\"{ticks}\" fill=\"{INK}\"/>\n")
}

/// The width of a tick's flag in a picture of so many runs.
pub fn flag(runs: usize) -> f64 {
    (0.1 * ROOM / runs as f64).min(4.0)
}

/// A pole with a flag to the right: an image has the start at its own first place, and not the one behind its last, so
/// that a tick where two intervals meet has to tell which of them it is in. Among many runs there is no room for flags.
pub fn tick(x: f64, foot: f64, pole: f64, flag: f64) -> String {
    let (x, foot, pole) = (number(x), number(foot), number(pole));
    if flag < 1.0 {
        return format!("M{x} {foot}v-11h{pole}v11z");
    }
    let flag = number(flag);
    format!("M{x} {foot}v-11h{pole}l{flag} 3l-{flag} 3v5z")
}

/// Of rising numbers, those that are half a pixel or more from the one kept before: nearer ticks would be one.
fn apart(rising: impl Iterator<Item = f64>) -> Vec<f64> {
    let mut kept: Vec<f64> = Vec::new();
    for x in rising {
        if kept.last().is_none_or(|last| x - last >= 0.5) {
            kept.push(x);
        }
    }
    kept
}

/// Each cut as a notch over the upper bar and a line through it, along the ribbon and through the lower bar.
pub fn cuts(cuts: &[Cut], sheet: &Sheet) -> String {
    let notches: String = cuts.iter().map(|cut| notch(cut, sheet.input.top)).collect();
    let lines: String = cuts.iter().map(|cut| cut_line(cut, sheet)).collect();
    format!(
        "<g id=\"cuts\">\n<path d=\"{notches}\" fill=\"{INK}\"/>\n\
         <g fill=\"none\" stroke=\"{INK}\">\n{lines}</g>\n</g>\n"
    )
}

/// A wedge that stands with its tip on the bar, as wide as its line bears.
fn notch(cut: &Cut, bar: f64) -> String {
    let half = 4.0 * cut.width;
    let (left, right, top) = (number(cut.from - half), number(cut.from + half), number(bar - 6.0));
    format!("M{left} {top}H{right}L{} {}Z", number(cut.from), number(bar))
}

fn cut_line(cut: &Cut, sheet: &Sheet) -> String {
    let (from, top) = (number(cut.from), number(sheet.input.top));
    let along = curve(cut.from, sheet.input.bottom, cut.to, sheet.output.top);
    let (bottom, end, width) = (number(sheet.input.bottom), number(sheet.output.bottom), number(cut.width));
    format!("<path d=\"M{from} {top}V{bottom}{along}V{end}\" stroke-width=\"{width}\"/>\n")
}

/// A line with round places.
pub fn axis(n: u32, scale: &Scale, sheet: &Sheet) -> String {
    let step = round_step(n);
    let round = (0..=n / step).map(|times| times * step);
    let labels: Vec<Label> = round.map(|place| Label::new(scale.x(place), place)).collect();
    let y = number(sheet.axis);
    let ticks: String = labels.iter().map(|label| format!("M{} {y}v5", number(label.x))).collect();
    let (left, right) = (number(LEFT), number(LEFT + ROOM));
    format!(
        "<g id=\"axis\">\n<path d=\"M{left} {y}H{right}{ticks}\" stroke=\"{QUIET}\" fill=\"none\"/>\n{}</g>\n",
        texts("places", &fitting(labels, &[]), sheet.axis + 18.0)
    )
}
