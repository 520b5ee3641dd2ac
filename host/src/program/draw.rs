//! Draws a run list as an SVG picture: the input intervals as a bar, the output intervals as a bar below it, and from
//! each input interval a ribbon to its output interval.
//!
//! **Scale.** Both bars have one scale, so that a place lies at one x in both, and a start may be compared with an
//! image by eye. It is proportional, but for stretches that would be too narrow to see, which get a least width
//! ([`scale`]): a run of one place beside a run of billions is seen. Where this moves a place by more than a pixel, the
//! picture says so.
//!
//! **Weight.** The starts stand as ticks in the lower bar. The ticks in an output interval are the starts under the
//! image, so that they can be counted, and a heavy run, which has a warm colour, is seen to be one.
//!
//! **Many runs.** Labels are left out where they would overlap, those of heavy runs last; ribbons that are narrower
//! than half a pixel become lines. So a picture of 300 runs has some 100 kB, and of 16,384 runs 2 to 4 MB.

mod bands;
mod colours;
mod labels;
mod legend;
mod marks;
mod ribbons;
mod scale;
mod sheet;
#[cfg(test)]
mod tests;
mod text;

use bands::{bands, cuts};
use scale::Scale;
use sheet::{Sheet, WIDTH};
use text::{escaped, number};

/// What is drawn: a list that passed the check, and what balancing makes of it.
pub struct Drawing<'a> {
    /// The picture's heading, any text.
    pub title: &'a str,
    /// How many places there are.
    pub n: u32,
    /// Where each run starts.
    pub starts: &'a [u32],
    /// Where each run's places go.
    pub images: &'a [u32],
    /// The degree of the balancing.
    pub degree: u32,
    /// How many starts lie under each run's image, before balancing.
    pub weights: &'a [u32],
    /// The starts that balancing adds, rising.
    pub cuts: &'a [u32],
}

impl Drawing<'_> {
    /// The weight from which on a run is heavy.
    fn limit(&self) -> u32 {
        self.degree.saturating_mul(2)
    }

    fn is_heavy(&self, weight: u32) -> bool {
        weight >= self.limit()
    }
}

/// The picture as the text of an SVG file.
pub fn svg(drawing: &Drawing) -> String {
    let scale = Scale::of(drawing);
    let bands = bands(drawing, &scale);
    let cuts = cuts(drawing, &bands, &scale);
    let sheet = Sheet::new(labels::all_fit_inside(&bands));
    let content = [
        legend::head(drawing),
        ribbons::ribbons(&bands, &sheet),
        ribbons::bars(&bands, &sheet),
        marks::starts(&bands, &sheet),
        marks::cuts(&cuts, &sheet),
        labels::labels(&bands, &cuts, &sheet),
        marks::axis(drawing.n, &scale, &sheet),
        legend::notes(&scale, &cuts, &sheet),
    ];
    document(drawing, sheet.height, &content.concat())
}

fn document(drawing: &Drawing, height: f64, content: &str) -> String {
    let (width, height) = (number(WIDTH), number(height));
    format!(
        "<svg xmlns=\"http://www.w3.org/2000/svg\" width=\"{width}\" height=\"{height}\" \
         viewBox=\"0 0 {width} {height}\" role=\"img\" aria-labelledby=\"title desc\" font-family=\"sans-serif\">\n\
         <title id=\"title\">{}</title>\n<desc id=\"desc\">{}</desc>\n\
         <rect width=\"{width}\" height=\"{height}\" fill=\"#fff\"/>\n{content}</svg>\n",
        escaped(drawing.title),
        legend::description(drawing),
    )
}
