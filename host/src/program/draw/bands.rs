//! Runs and cuts as they are drawn: where they lie on the picture.

use super::colours::Colour;
use super::scale::Scale;
use super::Drawing;

/// A part of a bar.
#[derive(Clone, Copy)]
pub struct Span {
    pub left: f64,
    pub right: f64,
}

impl Span {
    pub fn width(&self) -> f64 {
        self.right - self.left
    }

    pub fn middle(&self) -> f64 {
        (self.left + self.right) / 2.0
    }
}

/// An input or output interval.
#[derive(Clone, Copy)]
pub struct Interval {
    pub whole: Span,
    /// The widest part that no cut goes through, where a label is legible.
    pub clear: Span,
    /// The width of the narrowest part between cuts.
    pub narrowest: f64,
}

/// A run.
pub struct Band {
    pub index: usize,
    pub start: u32,
    pub image: u32,
    pub length: u32,
    pub weight: u32,
    pub input: Interval,
    pub output: Interval,
    pub colour: Colour,
}

/// A start that balancing adds, and where its place goes.
pub struct Cut {
    pub start: u32,
    pub from: f64,
    pub to: f64,
    /// The width of its line.
    pub width: f64,
    /// Whether the run that it cuts is heavy before balancing.
    pub of_heavy: bool,
}

pub fn bands(drawing: &Drawing, scale: &Scale) -> Vec<Band> {
    let ranks = ranks(drawing.images);
    let highest = drawing.weights.iter().copied().max().unwrap_or(0);
    let band = |(index, (&start, &image))| {
        let weight = drawing.weights.get(index).copied().unwrap_or(0);
        let colour = if drawing.is_heavy(weight) {
            Colour::heavy(weight, drawing.limit(), highest)
        } else {
            Colour::light(index, ranks[index])
        };
        let next = drawing.starts.get(index + 1).copied().unwrap_or(drawing.n);
        let length = next.saturating_sub(start);
        let distances = distances(drawing.cuts, start, length);
        let [input, output] = [start, image].map(|first| interval(scale, first, &distances, length));
        Band { index, start, image, length, weight, input, output, colour }
    };
    drawing.starts.iter().zip(drawing.images).enumerate().map(band).collect()
}

/// Of each run, how many images lie below its own.
fn ranks(images: &[u32]) -> Vec<usize> {
    let mut order: Vec<usize> = (0..images.len()).collect();
    order.sort_by_key(|&run| images[run]);
    let mut ranks = vec![0; images.len()];
    for (rank, run) in order.into_iter().enumerate() {
        ranks[run] = rank;
    }
    ranks
}

/// The cuts that lie in a run, as distances from its start.
fn distances(cuts: &[u32], start: u32, length: u32) -> Vec<u32> {
    let first = cuts.partition_point(|&cut| cut <= start);
    let end = cuts.partition_point(|&cut| cut < start.saturating_add(length));
    let within = cuts.get(first..end).unwrap_or(&[]);
    within.iter().map(|cut| cut.saturating_sub(start)).collect()
}

/// The interval of this length from `first` on, which is cut at these distances.
fn interval(scale: &Scale, first: u32, distances: &[u32], length: u32) -> Interval {
    let x = |distance: &u32| scale.x(first.saturating_add(*distance));
    let xs: Vec<f64> = [&[0], distances, &[length]].concat().iter().map(x).collect();
    let whole = Span { left: x(&0), right: x(&length) };
    let parts = xs.windows(2).map(|pair| Span { left: pair[0], right: pair[1] });
    let narrowest = parts.clone().map(|part| part.width()).fold(whole.width(), f64::min);
    // Of parts that are alike the first, whatever their last decimals say.
    let wider = |best: Span, part: Span| if part.width() > best.width() + 0.01 { part } else { best };
    Interval { whole, clear: parts.reduce(wider).unwrap_or(whole), narrowest }
}

pub fn cuts(drawing: &Drawing, bands: &[Band], scale: &Scale) -> Vec<Cut> {
    bands.iter().flat_map(|band| cuts_of(drawing, band, scale)).collect()
}

/// A run's cuts. Their lines are so narrow that the run's colour is seen between them.
fn cuts_of(drawing: &Drawing, band: &Band, scale: &Scale) -> Vec<Cut> {
    let narrowest = band.input.narrowest.min(band.output.narrowest);
    let width = (0.35 * narrowest).clamp(0.1, 1.0);
    let cut = |distance: u32| {
        let start = band.start.saturating_add(distance);
        let to = scale.x(band.image.saturating_add(distance));
        Cut { start, from: scale.x(start), to, width, of_heavy: band.colour.is_heavy() }
    };
    distances(drawing.cuts, band.start, band.length).into_iter().map(cut).collect()
}
