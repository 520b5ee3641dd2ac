//! The colours of runs. All are told apart by lightness too, and black text on each has a contrast of 4.5 at least.

/// Of light runs: blue or grey by the index, full or pale by the order of the images. Neighbours in the upper bar
/// differ in the first, and in the lower bar in the second.
pub const LIGHT: [&str; 4] = ["#86abd0", "#b5cde6", "#9aa3ad", "#c8ced5"];
/// Of heavy runs, by rising weight.
pub const HEAVY: [&str; 5] = ["#f9b93f", "#f39c2d", "#ea7f22", "#df621b", "#d2451e"];
/// Of cuts and the ticks of starts.
pub const INK: &str = "#000";
/// Of text that explains.
pub const QUIET: &str = "#555";

/// A run's colour. In this order they are drawn, so that the heaviest lie on top.
#[derive(Clone, Copy, Debug, PartialEq, Eq, PartialOrd, Ord)]
pub enum Colour {
    Light(usize),
    Heavy(usize),
}

impl Colour {
    pub fn light(index: usize, rank: usize) -> Self {
        Colour::Light(index % 2 * 2 + rank % 2)
    }

    /// The colour of a weight between the least that is heavy and the highest of the list. By the square root, since
    /// most heavy runs are near the limit; unlike a logarithm it is the same number on every machine.
    pub fn heavy(weight: u32, limit: u32, highest: u32) -> Self {
        let part = f64::from(weight.saturating_sub(limit)) / f64::from(highest.saturating_sub(limit).max(1));
        let step = (part.sqrt() * HEAVY.len() as f64) as usize;
        Colour::Heavy(step.min(HEAVY.len() - 1))
    }

    pub fn all() -> impl Iterator<Item = Self> {
        (0..LIGHT.len()).map(Colour::Light).chain((0..HEAVY.len()).map(Colour::Heavy))
    }

    pub fn code(self) -> &'static str {
        match self {
            Colour::Light(tone) => LIGHT[tone % LIGHT.len()],
            Colour::Heavy(step) => HEAVY[step % HEAVY.len()],
        }
    }

    pub fn is_heavy(self) -> bool {
        matches!(self, Colour::Heavy(_))
    }
}

#[cfg(test)]
mod tests {
    use super::*;

    #[test]
    fn weights_go_from_the_first_to_the_last() {
        assert_eq!(Colour::heavy(4, 4, 4), Colour::Heavy(0));
        assert_eq!(Colour::heavy(4, 4, 20), Colour::Heavy(0));
        assert_eq!(Colour::heavy(20, 4, 20), Colour::Heavy(4));
        assert_eq!(Colour::heavy(u32::MAX, 4, 20), Colour::Heavy(4));
    }

    #[test]
    fn neighbours_differ_in_both_bars() {
        assert_ne!(Colour::light(6, 3), Colour::light(7, 3));
        assert_ne!(Colour::light(6, 3), Colour::light(6, 4));
        assert_ne!(Colour::light(6, 3), Colour::light(7, 4));
    }
}
