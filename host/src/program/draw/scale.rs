//! From places to pixels.

use super::sheet::{LEFT, ROOM};
use super::Drawing;

/// A stretch between neighbouring boundaries gets this width at least, in pixels, where there are few of them: room for a label of
/// two digits.
const LEAST: f64 = 20.0;
/// And of the bar all least widths together take at most this part, where there are many.
const LEAST_PART: f64 = 0.5;

/// Rises with the place, and is a straight line between one boundary and the next; boundaries are all starts, images
/// and cuts, 0 and n.
pub struct Scale {
    places: Vec<u32>,
    xs: Vec<f64>,
}

impl Scale {
    pub fn of(drawing: &Drawing) -> Self {
        let mut places = [drawing.starts, drawing.images, drawing.cuts, &[0, drawing.n]].concat();
        places.retain(|&place| place <= drawing.n);
        places.sort_unstable();
        places.dedup();
        let lengths: Vec<f64> = places.windows(2).map(|pair| f64::from(pair[1] - pair[0])).collect();
        let steps = widths(&lengths).into_iter().scan(LEFT, |x, width| {
            *x += width;
            Some(*x)
        });
        let xs = std::iter::once(LEFT).chain(steps).collect();
        Scale { places, xs }
    }

    pub fn x(&self, place: u32) -> f64 {
        let next = self.places.partition_point(|&boundary| boundary <= place);
        let (Some(before), Some(&right)) = (next.checked_sub(1), self.xs.get(next)) else {
            return LEFT + ROOM; // n itself, beyond which there is nothing
        };
        let (left, from, to) = (self.xs[before], self.places[before], self.places[next]);
        left + (right - left) * f64::from(place - from) / f64::from(to - from)
    }

    /// Whether least widths have moved a place by more than a pixel.
    pub fn is_uneven(&self) -> bool {
        let n = f64::from(self.places.last().copied().unwrap_or(0));
        let mut pairs = self.places.iter().zip(&self.xs);
        pairs.any(|(&place, x)| (x - LEFT - ROOM * f64::from(place) / n).abs() > 1.0)
    }
}

/// The widths of stretches of these lengths, which add up to the bar's: the shortest ones get the least width, and the
/// others share what is left in proportion.
fn widths(lengths: &[f64]) -> Vec<f64> {
    let least = LEAST.min(LEAST_PART * ROOM / lengths.len() as f64);
    let mut rising = lengths.to_vec();
    rising.sort_unstable_by(f64::total_cmp);
    let (mut room, mut length) = (ROOM, lengths.iter().sum::<f64>());
    for shortest in rising {
        if shortest * room >= least * length {
            break;
        }
        room -= least;
        length -= shortest;
    }
    lengths.iter().map(|own| least.max(own * room / length)).collect()
}

/// The round step of an axis of n places: 1, 2 or 5 times a power of ten, and at most ten steps.
pub fn round_step(n: u32) -> u32 {
    let steps = (0..10).flat_map(|power| [1, 2, 5].map(|digit| digit * 10_u64.pow(power)));
    let step = steps.into_iter().find(|step| step * 10 >= u64::from(n));
    step.and_then(|step| u32::try_from(step).ok()).unwrap_or(u32::MAX)
}

#[cfg(test)]
mod tests {
    use super::*;

    fn scale(n: u32, starts: &[u32]) -> Scale {
        Scale::of(&Drawing { title: "", n, starts, images: starts, degree: 2, weights: &[], cuts: &[] })
    }

    #[test]
    fn is_proportional_where_all_can_be_seen() {
        let scale = scale(100, &[0, 10, 60]);
        assert_eq!([0, 50, 100].map(|place| scale.x(place)), [LEFT, LEFT + ROOM / 2.0, LEFT + ROOM]);
        assert!(!scale.is_uneven());
    }

    #[test]
    fn widens_a_place_beside_billions() {
        let scale = scale(u32::MAX, &[0, 2_000_000_000, 2_000_000_001]);
        assert!((scale.x(2_000_000_001) - scale.x(2_000_000_000) - LEAST).abs() < 1e-9);
        assert!((scale.x(u32::MAX) - LEFT - ROOM).abs() < 1e-9);
        assert!(scale.is_uneven());
    }

    #[test]
    fn steps_are_round() {
        let steps = [1, 10, 11, 16, 45, 60, 1000, u32::MAX].map(round_step);
        assert_eq!(steps, [1, 1, 2, 2, 5, 10, 100, 500_000_000]);
    }
}
