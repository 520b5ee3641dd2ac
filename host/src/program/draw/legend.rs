//! The head of the picture: its title, the numbers of the list, and what the colours and marks mean.

use super::bands::Cut;
use super::colours::{HEAVY, INK, LIGHT};
use super::marks::{flag, tick};
use super::scale::Scale;
use super::sheet::{Sheet, LEFT};
use super::text::{count, counted, escaped, line, number};
use super::Drawing;

const MARGIN: f64 = 20.0;
/// Where the legend's second column begins.
const COLUMN: f64 = 480.0;
/// As many letters of a title have room in one line.
const TITLE_LETTERS: usize = 88;

pub fn head(drawing: &Drawing) -> String {
    let [upper, lower] = [86.0, 106.0];
    let title = short(drawing.title);
    let warm = heavy_codes(drawing);
    let centred = COLUMN + 7.0 * (HEAVY.len() - warm.len()) as f64;
    [
        format!("<text x=\"{MARGIN}\" y=\"32\" font-size=\"17\" font-weight=\"bold\">{}</text>\n", escaped(&title)),
        line(MARGIN, 55.0, 13, &caption(drawing)),
        swatches(MARGIN, upper, &LIGHT),
        line(MARGIN + 64.0, upper, 12, &light(drawing)),
        swatches(centred, upper, warm),
        line(COLUMN + 78.0, upper, 12, &heavy(drawing)),
        cut_mark(MARGIN + 26.0, lower),
        line(MARGIN + 64.0, lower, 12, "cut: a start that balancing adds, and where its place goes"),
        start_marks(COLUMN + 22.0, lower, flag(drawing.starts.len())),
        line(COLUMN + 78.0, lower, 12, "starts of runs, to be counted under the images"),
    ]
    .concat()
}

/// What the picture shows, in words, for those who don't see it.
pub fn description(drawing: &Drawing) -> String {
    format!(
        "A run list: {}. The upper bar has the input intervals, the lower bar the output intervals, and a ribbon goes \
         from each to its own.",
        caption(drawing)
    )
}

fn caption(drawing: &Drawing) -> String {
    let (runs, cuts) = (drawing.starts.len(), drawing.cuts.len());
    let heavy = drawing.weights.iter().filter(|&&weight| drawing.is_heavy(weight)).count();
    [
        format!("n = {}", count(drawing.n as usize)),
        counted(runs, "run", "runs"),
        format!("degree d = {}", drawing.degree),
        format!("{} after balancing", counted(runs + cuts, "interval", "intervals")),
        counted(cuts, "cut", "cuts"),
        counted(heavy, "heavy run", "heavy runs"),
    ]
    .join(" · ")
}

fn light(drawing: &Drawing) -> String {
    format!("light run: fewer than 2d = {} starts under its image", drawing.limit())
}

fn heavy(drawing: &Drawing) -> String {
    let (limit, highest) = (drawing.limit(), highest(drawing));
    match highest {
        _ if highest < limit => format!("heavy run: 2d = {limit} starts or more (here: none)"),
        _ if highest == limit => format!("heavy run: 2d = {limit} starts or more (here: {limit})"),
        _ => format!("heavy run: 2d = {limit} starts or more (here: up to {})", count(highest as usize)),
    }
}

/// The colours from the least heavy weight to the highest, or the first where there is nothing between them.
fn heavy_codes(drawing: &Drawing) -> &'static [&'static str] {
    let shown = if highest(drawing) > drawing.limit() { HEAVY.len() } else { 1 };
    &HEAVY[..shown]
}

fn highest(drawing: &Drawing) -> u32 {
    drawing.weights.iter().copied().max().unwrap_or(0)
}

/// What would otherwise surprise in this picture.
pub fn notes(scale: &Scale, cuts: &[Cut], sheet: &Sheet) -> String {
    let uneven = "Not to scale: what would be too narrow to see is widened.";
    let light = "Cuts add starts, so that a light run may become heavy, and is cut too.";
    let notes = [(scale.is_uneven(), uneven), (cuts.iter().any(|cut| !cut.of_heavy), light)];
    let apply: Vec<&str> = notes.iter().filter(|(applies, _)| *applies).map(|(_, note)| *note).collect();
    match apply.as_slice() {
        [] => String::new(),
        _ => line(LEFT, sheet.axis + 38.0, 11, &apply.join(" ")),
    }
}

/// A title that fits into its line.
fn short(title: &str) -> String {
    if title.chars().count() <= TITLE_LETTERS {
        return title.to_string();
    }
    let mut short: String = title.chars().take(TITLE_LETTERS - 1).collect();
    short.push('…');
    short
}

/// Little squares of these colours on a line of text.
fn swatches(x: f64, y: f64, codes: &[&str]) -> String {
    let top = number(y - 10.0);
    let square = |(place, code): (usize, &&str)| {
        let x = number(x + 14.0 * place as f64);
        format!("<rect x=\"{x}\" y=\"{top}\" width=\"12\" height=\"12\" fill=\"{code}\"/>\n")
    };
    codes.iter().enumerate().map(square).collect()
}

fn cut_mark(x: f64, y: f64) -> String {
    let (x, top) = (number(x), number(y - 11.0));
    format!("<path d=\"M{x} {top}v14\" stroke=\"{INK}\"/><path d=\"M{x} {top}h4l-4 6l-4 -6z\" fill=\"{INK}\"/>\n")
}

fn start_marks(x: f64, y: f64, flag: f64) -> String {
    let ticks = [0.0, 11.0, 22.0].map(|distance| tick(x + distance, y + 2.0, 1.2, flag));
    format!("<path d=\"{}\" fill=\"{INK}\"/>\n", ticks.concat())
}

#[cfg(test)]
mod tests {
    use super::*;

    #[test]
    fn a_long_title_is_cut_short() {
        assert_eq!(short("document.bin"), "document.bin");
        assert_eq!(short(&"ä".repeat(1000)).chars().count(), TITLE_LETTERS);
    }

    #[test]
    fn the_caption_counts() {
        let drawing = Drawing {
            title: "",
            n: 16,
            starts: &[0, 2, 4, 6, 8],
            images: &[14, 12, 10, 8, 0],
            degree: 2,
            weights: &[0, 0, 0, 1, 4],
            cuts: &[12],
        };
        let words = "n = 16 · 5 runs · degree d = 2 · 6 intervals after balancing · 1 cut · 1 heavy run";
        assert_eq!(caption(&drawing), words);
        assert_eq!(heavy(&drawing), "heavy run: 2d = 4 starts or more (here: 4)");
    }
}
