//! Numbers, lists and files from a seed: the same in every run.

use std::collections::BTreeSet;

/// A generator of 64-bit numbers (SplitMix64).
pub struct Random(u64);

impl Random {
    pub fn new(seed: u64) -> Self {
        Random(seed)
    }

    pub fn number(&mut self) -> u64 {
        self.0 = self.0.wrapping_add(0x9e37_79b9_7f4a_7c15);
        let mut z = self.0;
        z = (z ^ (z >> 30)).wrapping_mul(0xbf58_476d_1ce4_e5b9);
        z = (z ^ (z >> 27)).wrapping_mul(0x94d0_49bb_1331_11eb);
        z ^ (z >> 31)
    }

    /// A number from 0 to limit − 1.
    pub fn below(&mut self, limit: u64) -> u64 {
        self.number() % limit
    }

    /// A number from low to high.
    pub fn from(&mut self, low: u64, high: u64) -> u64 {
        low + self.below(high - low + 1)
    }

    pub fn one_in(&mut self, count: u64) -> bool {
        self.below(count) == 0
    }

    pub fn shuffle<T>(&mut self, items: &mut [T]) {
        for i in (1..items.len()).rev() {
            items.swap(i, self.below(i as u64 + 1) as usize);
        }
    }

    /// Any 32-bit number, small ones and both ends often.
    pub fn word(&mut self) -> u32 {
        match self.below(6) {
            0 => self.below(4) as u32,
            1 => self.below(100) as u32,
            2 => u32::MAX - self.below(4) as u32,
            _ => self.number() as u32,
        }
    }

    pub fn words(&mut self, count: usize) -> Vec<u32> {
        (0..count).map(|_| self.word()).collect()
    }
}

/// A run list.
#[derive(Clone, PartialEq, Eq)]
pub struct List {
    pub n: u32,
    pub starts: Vec<u32>,
    pub images: Vec<u32>,
}

/// The list whose runs have these lengths, with their images in this order.
pub fn list_of(lengths: &[u64], order: &[usize]) -> List {
    let mut starts = vec![0; lengths.len()];
    let mut images = vec![0; lengths.len()];
    let mut place = 0;
    for (start, length) in starts.iter_mut().zip(lengths) {
        *start = place as u32;
        place += length;
    }
    let n = u32::try_from(place).expect("the lengths add up to a 32-bit number");
    let mut place = 0;
    for &x in order {
        images[x] = place as u32;
        place += lengths[x];
    }
    List { n, starts, images }
}

/// Lengths of k runs, at least 1 each, that add up to n.
fn even_lengths(r: &mut Random, k: usize, n: u64) -> Vec<u64> {
    let mut ends: Vec<u64> = (0..k - 1).map(|_| r.below(n - k as u64 + 1)).collect();
    ends.push(n - k as u64);
    ends.sort();
    let mut last = 0;
    ends.into_iter().map(|end| end - std::mem::replace(&mut last, end) + 1).collect()
}

/// Short runs and a few very long ones: the long ones' images lie over many starts.
fn uneven_lengths(r: &mut Random, k: usize, together: bool) -> Vec<u64> {
    let longs = 1 + r.below(1 + k as u64 / 20) as usize;
    let long = r.from(k as u64, 4_000_000_000 / longs as u64);
    let mut lengths: Vec<u64> = (0..k).map(|x| if x < longs { long } else { r.from(1, 3) }).collect();
    if !together {
        r.shuffle(&mut lengths);
    }
    lengths
}

/// A legal list of k runs.
pub fn legal(r: &mut Random, k: usize) -> List {
    let lengths = match r.below(5) {
        0 => even_lengths(r, k, k as u64 + 1),
        1 => {
            let n = r.from(k as u64, 5 * k as u64);
            even_lengths(r, k, n)
        }
        2 => {
            let n = r.from(u64::from(u32::MAX) - 1000, u64::from(u32::MAX));
            even_lengths(r, k, n)
        }
        3 => uneven_lengths(r, k, true),
        _ => uneven_lengths(r, k, false),
    };
    let mut order: Vec<usize> = (0..k).collect();
    match r.below(4) {
        0 => order.reverse(),
        1 => order.rotate_left(r.below(k as u64) as usize),
        _ => r.shuffle(&mut order),
    }
    list_of(&lengths, &order)
}

/// The same permutation with so many runs more, or with one for each place: they begin at any places.
pub fn cut(r: &mut Random, list: &List, more: usize) -> List {
    let List { n, starts, images } = list;
    let mut places: BTreeSet<u32> = starts.iter().copied().collect();
    let count = (starts.len() + more).min(*n as usize);
    while places.len() < count {
        places.insert(r.below(u64::from(*n)) as u32);
    }
    let image_of = |place: &u32| {
        let x = starts.partition_point(|start| start <= place) - 1;
        images[x] + (place - starts[x])
    };
    let images = places.iter().map(image_of).collect();
    List { n: *n, starts: places.into_iter().collect(), images }
}

/// Another number in the place of one: near it, near the ends, or any.
pub fn damaged(r: &mut Random, number: u32, n: u32) -> u32 {
    match r.below(5) {
        0 => number.wrapping_add(1),
        1 => number.wrapping_sub(1),
        2 => n.wrapping_sub(r.below(2) as u32),
        3 => r.below(u64::from(n) + 1) as u32,
        _ => r.word(),
    }
}

/// Damages one number of a list, or its counts.
pub fn damage(r: &mut Random, list: &mut List) {
    let k = list.starts.len();
    let x = r.below(k as u64) as usize;
    match r.below(14) {
        0 => list.n = damaged(r, list.n, list.n),
        1 => list.n = 0,
        2 => drop(list.images.pop()),
        3 => list.starts.push(list.n),
        4 => list.starts[0] = damaged(r, 0, list.n),
        5 => list.images[x] = list.images[r.below(k as u64) as usize],
        6..=9 => list.starts[x] = damaged(r, list.starts[x], list.n),
        _ => list.images[x] = damaged(r, list.images[x], list.n),
    }
}

fn bytes(words: &[u32]) -> Vec<u8> {
    words.iter().flat_map(|word| word.to_le_bytes()).collect()
}

/// The file of a list.
pub fn file(list: &List, d: u32) -> Vec<u8> {
    let k = list.starts.len() as u32;
    let header = [list.n, k, d, 20, 20 + 4 * k];
    bytes(&[&header[..], &list.starts, &list.images].concat())
}

/// Damages a file: a word, its length, or all of it.
pub fn damage_file(r: &mut Random, file: &mut Vec<u8>) {
    match r.below(5) {
        0 => file.truncate(r.below(file.len() as u64 + 1) as usize),
        1 => file.push(0),
        2 => {
            let count = r.below(60) as usize;
            *file = bytes(&r.words(count));
        }
        _ => {
            let at = 4 * if r.one_in(2) { r.below(5) } else { r.below(file.len() as u64 / 4) } as usize;
            file[at..at + 4].copy_from_slice(&r.word().to_le_bytes());
        }
    }
}

/// A file of k runs; one in so many has a damaged list, or is damaged itself.
pub fn random_file(r: &mut Random, k: usize, one_in: u64) -> Vec<u8> {
    let mut list = legal(r, k);
    if r.one_in(2 * one_in) {
        damage(r, &mut list);
    }
    let d = if r.one_in(10 * one_in) { r.word() } else { r.from(2, 9) as u32 };
    let mut file = file(&list, d);
    if r.one_in(2 * one_in) {
        damage_file(r, &mut file);
    }
    file
}
