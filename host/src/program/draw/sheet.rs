//! Where the rows of the picture lie, in pixels.

/// The picture's width: about that of a page of text in a browser, so that letters keep their size.
pub const WIDTH: f64 = 1000.0;
/// Where the bars begin; to the left stand the names of the rows.
pub const LEFT: f64 = 68.0;
/// The bars' width. To the right there is room for half a label of ten digits.
pub const ROOM: f64 = 890.0;

const INPUT_HEIGHT: f64 = 26.0;
const RIBBON_HEIGHT: f64 = 280.0;
const OUTPUT_HEIGHT: f64 = 36.0;
const LABEL_HEIGHT: f64 = 15.0;

/// A bar from its upper to its lower edge, with the lines of its labels.
pub struct Bar {
    pub top: f64,
    pub bottom: f64,
    /// The line of the indexes that have room in the bar.
    pub inside: f64,
    /// The line of the other indexes, if there are any.
    pub outside: Option<f64>,
    /// The line of the starts, or of the images.
    pub places: f64,
}

/// The heights of all rows.
pub struct Sheet {
    pub input: Bar,
    pub output: Bar,
    pub axis: f64,
    pub height: f64,
}

impl Sheet {
    /// The lines for indexes outside the bars are there only if some don't fit inside.
    pub fn new(all_fit_inside: bool) -> Self {
        let extra = if all_fit_inside { 0.0 } else { LABEL_HEIGHT };
        let line = |y: f64| if all_fit_inside { None } else { Some(y) };
        let places = 138.0;
        let top = places + extra + 10.0;
        let input = Bar { top, bottom: top + INPUT_HEIGHT, inside: top + 17.0, outside: line(top - 10.0), places };
        let top = input.bottom + RIBBON_HEIGHT;
        let bottom = top + OUTPUT_HEIGHT;
        let first = bottom + 16.0;
        let output = Bar { top, bottom, inside: top + 16.0, outside: line(first), places: first + extra };
        let axis = output.places + 16.0;
        Sheet { input, output, axis, height: axis + 50.0 }
    }
}
