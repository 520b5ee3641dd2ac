//! The numbers beside the bars, as many as there is room for.

use std::cmp::Reverse;

use super::bands::{Band, Cut, Interval, Span};
use super::colours::QUIET;
use super::sheet::{Bar, Sheet, LEFT, WIDTH};
use super::text::{number, width};

const SIZE: f64 = 11.0;
/// Labels of a row are this far apart, at least.
const GAP: f64 = 5.0;

/// A number, centred over x.
pub struct Label {
    pub x: f64,
    text: String,
    /// Whether it is bold, as those of cuts are.
    strong: bool,
}

impl Label {
    pub fn new(x: f64, value: impl ToString) -> Self {
        Label { x, text: value.to_string(), strong: false }
    }

    fn strong(self) -> Self {
        Label { strong: true, ..self }
    }

    fn span(&self) -> Span {
        let boldness = if self.strong { 1.1 } else { 1.0 };
        let half = width(&self.text, boldness * SIZE) / 2.0;
        Span { left: self.x - half, right: self.x + half }
    }
}

pub fn all_fit_inside(bands: &[Band]) -> bool {
    bands.iter().all(|band| has_room(band, band.input) && has_room(band, band.output))
}

fn has_room(band: &Band, interval: Interval) -> bool {
    width(&band.index.to_string(), SIZE) + GAP <= interval.clear.width()
}

/// Of labels in the order of their importance, those that overlap none that is taken before, no obstacle and no edge.
pub fn fitting(mut labels: Vec<Label>, obstacles: &[f64]) -> Vec<Label> {
    let mut taken: Vec<Span> = obstacles.iter().map(|&x| Span { left: x, right: x }).collect();
    taken.sort_by(|a, b| a.left.total_cmp(&b.left));
    labels.retain(|label| {
        let span = label.span();
        let place = taken.partition_point(|other| other.left < span.left);
        let before = place.checked_sub(1).map_or(LEFT - 3.0 * GAP, |place| taken[place].right);
        let after = taken.get(place).map_or(WIDTH, |other| other.left);
        let is_free = before + GAP <= span.left && span.right + GAP <= after;
        if is_free {
            taken.insert(place, span);
        }
        is_free
    });
    labels
}

/// All labels of the two bars.
pub fn labels(bands: &[Band], cuts: &[Cut], sheet: &Sheet) -> String {
    let order = by_importance(bands);
    let runs = order.iter().map(|band| Label::new(band.input.whole.left, band.start));
    let cuts = cuts.iter().map(|cut| Label::new(cut.from, cut.start).strong());
    let starts = fitting(runs.chain(cuts).collect(), &[]);
    let images = fitting(order.iter().map(|band| Label::new(band.output.whole.left, band.image)).collect(), &[]);
    let rows = [
        row("starts", &starts, sheet.input.places, &sheet.input),
        indexes(&order, |band| band.input, &starts, &sheet.input),
        name("input", sheet.input.inside),
        name("output", sheet.output.inside + 4.0),
        indexes(&order, |band| band.output, &images, &sheet.output),
        row("images", &images, sheet.output.places, &sheet.output),
    ];
    format!("<g id=\"labels\">\n{}</g>\n", rows.concat())
}

/// Heavy runs first, the heaviest before the others; then round indexes before those that are less round.
fn by_importance(bands: &[Band]) -> Vec<&Band> {
    let mut order: Vec<&Band> = bands.iter().collect();
    let weight = |band: &Band| if band.colour.is_heavy() { band.weight } else { 0 };
    order.sort_by_key(|band| (Reverse(weight(band)), Reverse(roundness(band.index)), band.index));
    order
}

/// How many times the index can be divided by ten.
fn roundness(index: usize) -> usize {
    (1..=5).take_while(|&power| index.is_multiple_of(10_usize.pow(power))).count()
}

/// The indexes of runs: in the bar where there is room, and else outside between the lines that lead to other labels.
fn indexes(order: &[&Band], side: impl Fn(&Band) -> Interval, others: &[Label], bar: &Bar) -> String {
    let (within, without): (Vec<&Band>, Vec<&Band>) = order.iter().partition(|band| has_room(band, side(band)));
    let within: Vec<Label> = within.iter().map(|band| Label::new(side(band).clear.middle(), band.index)).collect();
    let without = without.iter().map(|band| Label::new(side(band).whole.middle(), band.index));
    let obstacles: Vec<f64> = others.iter().map(|other| other.x).collect();
    let outside = bar.outside.map(|y| row("run", &fitting(without.collect(), &obstacles), y, bar));
    outside.unwrap_or_default() + &group(&within, bar.inside)
}

/// A row of labels outside a bar, with lines to its edge.
fn row(name: &str, labels: &[Label], y: f64, bar: &Bar) -> String {
    let (from, to) = if y < bar.top { (y + 2.0, bar.top) } else { (y - 10.0, bar.bottom) };
    let (from, to) = (number(from), number(to));
    let lines: String = labels.iter().map(|label| format!("M{} {from}V{to}", number(label.x))).collect();
    format!("<path d=\"{lines}\" stroke=\"{QUIET}\" stroke-width=\".5\"/>\n{}", texts(name, labels, y))
}

/// A row of labels with its name.
pub fn texts(row: &str, labels: &[Label], y: f64) -> String {
    name(row, y) + &group(labels, y)
}

fn name(row: &str, y: f64) -> String {
    let (x, y) = (number(LEFT - 3.0 * GAP), number(y));
    format!("<text x=\"{x}\" y=\"{y}\" font-size=\"{SIZE}\" text-anchor=\"end\" fill=\"{QUIET}\">{row}</text>\n")
}

fn group(labels: &[Label], y: f64) -> String {
    let y = number(y);
    let text = |label: &Label| {
        let (x, weight) = (number(label.x), if label.strong { " font-weight=\"bold\"" } else { "" });
        format!("<text x=\"{x}\" y=\"{y}\"{weight}>{}</text>\n", label.text)
    };
    let texts: String = labels.iter().map(text).collect();
    format!("<g font-size=\"{SIZE}\" text-anchor=\"middle\">\n{texts}</g>\n")
}

#[cfg(test)]
mod tests {
    use super::*;

    fn texts_of(labels: &[Label]) -> Vec<&str> {
        labels.iter().map(|label| label.text.as_str()).collect()
    }

    #[test]
    fn the_first_that_fit_are_kept() {
        let labels = [(500.0, 1000), (510.0, 7), (480.0, 2000), (600.0, 8)].map(|(x, value)| Label::new(x, value));
        assert_eq!(texts_of(&fitting(labels.into(), &[])), ["1000", "8"]);
    }

    #[test]
    fn obstacles_and_edges_are_kept_free() {
        let labels = [(500.0, 1), (0.0, 2), (WIDTH, 3), (520.0, 4)].map(|(x, value)| Label::new(x, value));
        assert_eq!(texts_of(&fitting(labels.into(), &[505.0])), ["4"]);
    }

    #[test]
    fn tens_are_rounder_than_ones() {
        assert_eq!([0, 7, 10, 250, 1000].map(roundness), [5, 0, 1, 1, 3]);
    }
}
