//! The peers: the same calls in safe Rust, as a careful programmer would write them, with vectors for working room.

use zibewoka::{Forecast, LeastDegree, Question};

pub type Outcome<T, P = u32> = Result<T, (u32, P)>;

/// Tests 1 to 6. Answers the runs in rising order of image, as image and index.
fn check_into_order(n: u32, starts: &[u32], images: &[u32]) -> Outcome<Vec<(u32, u32)>> {
    let k = starts.len();
    if n == 0 || k == 0 || k != images.len() {
        return Err((1, 0));
    }
    if k > 16384 {
        return Err((2, 0));
    }
    if starts[0] != 0 {
        return Err((3, 0));
    }
    if let Some(x) = starts.windows(2).position(|pair| pair[1] <= pair[0] || n <= pair[1]) {
        return Err((4, x as u32 + 1));
    }
    let ends = || starts[1..].iter().copied().chain([n]);
    let image_ends = || starts.iter().zip(ends()).zip(images).map(|((s, e), i)| u64::from(*i) + u64::from(e - s));
    if let Some(x) = image_ends().position(|end| u64::from(n) < end) {
        return Err((5, x as u32));
    }
    let mut order: Vec<(u32, u32)> = images.iter().copied().zip(0..).collect();
    order.sort_unstable_by_key(|&(image, _)| image);
    let mut lowest = k as u32;
    let mut reached = 0;
    for (t, &(image, x)) in order.iter().enumerate() {
        let end = image + (starts.get(x as usize + 1).copied().unwrap_or(n) - starts[x as usize]);
        if image < reached || order.get(t + 1).is_some_and(|&(next, _)| next < end) {
            lowest = lowest.min(x);
        }
        reached = reached.max(end);
    }
    if lowest < k as u32 {
        return Err((6, lowest));
    }
    Ok(order)
}

#[inline(never)]
pub fn check(n: u32, starts: &[u32], images: &[u32]) -> Outcome<()> {
    check_into_order(n, starts, images).map(|_| ())
}

/// The header of a file of a legal list: n, k and d.
#[inline(never)]
pub fn check_file(file: &[u8]) -> Outcome<[u32; 3]> {
    let words: Vec<u32> =
        file.chunks_exact(4).map(|word| u32::from_le_bytes(word.try_into().expect("four bytes"))).collect();
    let &[n, k, d, starts_at, images_at, ref list @ ..] = &words[..] else {
        return Err((15, 0));
    };
    if n == 0 || k == 0 {
        return Err((1, 0));
    }
    if k > 16384 {
        return Err((2, 0));
    }
    if starts_at != 20 {
        return Err((15, 12));
    }
    if images_at != 20 + 4 * k {
        return Err((15, 16));
    }
    if file.len() != 20 + 8 * k as usize {
        return Err((15, 20));
    }
    let (starts, images) = list.split_at(k as usize);
    check_into_order(n, starts, images)?;
    if !(2..=64).contains(&d) {
        return Err((7, d));
    }
    Ok([n, k, d])
}

/// A place among the starts and the cuts: how many of each are below it.
#[derive(Clone, Copy, Default)]
struct Below {
    starts: usize,
    cuts: usize,
}

/// The sweep that balances a legal list, by rising image.
struct Sweep<'a> {
    n: u32,
    starts: &'a [u32],
    /// The runs in rising order of image, as image and index.
    order: &'a [(u32, u32)],
    cuts: Vec<u32>,
}

impl Sweep<'_> {
    /// The next start or cut, and the place behind it.
    fn next(&self, at: Below) -> (u32, Below) {
        let start = self.starts.get(at.starts).copied().unwrap_or(self.n);
        match self.cuts.get(at.cuts) {
            Some(&cut) if cut < start => (cut, Below { cuts: at.cuts + 1, ..at }),
            _ => (start, Below { starts: at.starts + 1, ..at }),
        }
    }

    /// Whether 2d starts and cuts or more stand below `to`: then where d of them end, and what is below that, else what is below `to`.
    fn look(&self, mut at: Below, d: usize, to: u32) -> (Option<u32>, Below) {
        let mut middle = (to, at);
        for count in 0..2 * d {
            let (place, behind) = self.next(at);
            if to <= place {
                return (None, at);
            }
            if count == d {
                middle = (place, at);
            }
            at = behind;
        }
        (Some(middle.0), middle.1)
    }

    /// What is below a place.
    fn below(&self, t: u32) -> Below {
        Below { starts: self.starts.partition_point(|&s| s < t), cuts: self.cuts.partition_point(|&c| c < t) }
    }

    /// The piece in whose image a place lies: where that image begins, where it ends, and where the piece starts.
    fn around(&self, u: u32) -> (u32, u32, u32) {
        let (image, x) = self.order[self.order.partition_point(|&(image, _)| image <= u) - 1];
        let x = x as usize;
        let place = self.starts[x] + (u - image);
        let count = self.cuts.partition_point(|&cut| cut <= place);
        let start = if count == 0 { self.starts[x] } else { self.starts[x].max(self.cuts[count - 1]) };
        let (end, _) = self.next(Below { starts: x + 1, cuts: count });
        let p = u - (place - start);
        (p, p + (end - start), start)
    }

    /// Cuts mostly come in rising order, so that the last one is looked at first.
    fn insert(&mut self, u: u32) {
        if self.cuts.last().is_none_or(|&last| last < u) {
            self.cuts.push(u);
            return;
        }
        let at = self.cuts.partition_point(|&cut| cut < u);
        self.cuts.insert(at, u);
    }
}

/// The cuts that balance a legal list. The front goes along the runs by rising image, and no cut lies ahead of it, so that it searches
/// for nothing. Where a cut makes an interval behind it heavy, the sweep goes back there.
fn balancing_cuts(n: u32, starts: &[u32], order: &[(u32, u32)], d: u32) -> Vec<u32> {
    let mut sweep = Sweep { n, starts, order, cuts: Vec::new() };
    let (mut front, mut rank, mut passed) = (0, 0, Below::default());
    let mut back = None;
    while back.is_some() || front < n {
        let (p, to, start) = back.take().unwrap_or_else(|| {
            let (image, x) = order[rank];
            (front, order.get(rank + 1).map_or(n, |&(next, _)| next), starts[x as usize] + (front - image))
        });
        let at_front = p == front;
        let (cut, below) = sweep.look(if at_front { passed } else { sweep.below(p) }, d as usize, to);
        if at_front {
            (front, passed) = (cut.unwrap_or(to), below);
            rank += usize::from(cut.is_none());
        }
        if let Some(place) = cut {
            let u = start + (place - p);
            sweep.insert(u);
            if u < front {
                passed.cuts += 1;
                back = Some(sweep.around(u)).filter(|&(p, ..)| p < front);
            }
        }
    }
    sweep.cuts
}

/// Tests 1 to 7, and 8 for the working table. Answers the runs in rising order of image, and B.
fn check_with_room(
    n: u32,
    starts: &[u32],
    images: &[u32],
    d: u32,
    working: &[u32],
) -> Outcome<(Vec<(u32, u32)>, usize)> {
    let order = check_into_order(n, starts, images)?;
    if !(2..=64).contains(&d) {
        return Err((7, d));
    }
    let b = d as usize * starts.len() / (d as usize - 1);
    if working.len() < b {
        return Err((8, b as u32));
    }
    Ok((order, b))
}

/// The plan that balance makes, without its tables.
#[inline(never)]
pub fn forecast(n: u32, starts: &[u32], images: &[u32], d: u32, working: &mut [u32]) -> Outcome<Forecast> {
    let (order, b) = check_with_room(n, starts, images, d, working)?;
    let cuts = balancing_cuts(n, starts, &order, d).len();
    working[..b].fill(0);
    Ok(Forecast { intervals: (starts.len() + cuts) as u32, cuts: cuts as u32 })
}

/// The list is checked and sorted once. Then it makes every sweep, from degree 2 up to the one that fits, each from its
/// beginning to its end: it neither looks ahead which degrees cannot fit nor stops a sweep that has too many cuts already.
#[inline(never)]
pub fn least_degree(n: u32, starts: &[u32], images: &[u32], entries: u32, working: &mut [u32]) -> Outcome<LeastDegree> {
    let (order, b) = check_with_room(n, starts, images, 2, working)?;
    working[..b].fill(0);
    for degree in 2..=64 {
        let intervals = (starts.len() + balancing_cuts(n, starts, &order, degree).len()) as u32;
        if intervals <= entries {
            return Ok(LeastDegree { degree, intervals });
        }
    }
    Err((19, entries))
}

#[allow(clippy::too_many_arguments)]
#[inline(never)]
pub fn balance(
    n: u32,
    starts: &[u32],
    images: &[u32],
    d: u32,
    to_starts: &mut [u32],
    to_images: &mut [u32],
    to_holders: &mut [u32],
    to_lengths: &mut [u32],
    working: &mut [u32],
) -> Outcome<u32> {
    let (order, b) = check_with_room(n, starts, images, d, working)?;
    let cuts = balancing_cuts(n, starts, &order, d);
    working[..b].fill(0);
    let k = starts.len() + cuts.len();
    if to_starts.len().min(to_images.len()).min(to_holders.len()).min(to_lengths.len()) < k {
        return Err((8, k as u32));
    }
    let mut rest = &cuts[..];
    let mut at = 0;
    let mut firsts = Vec::with_capacity(starts.len() + 1);
    for (x, (&start, &image)) in starts.iter().zip(images).enumerate() {
        let end = starts.get(x + 1).copied().unwrap_or(n);
        firsts.push(at);
        (to_starts[at], to_images[at]) = (start, image);
        at += 1;
        while let Some((&cut, others)) = rest.split_first().filter(|(&cut, _)| cut < end) {
            (to_starts[at], to_images[at]) = (cut, image + (cut - start));
            at += 1;
            rest = others;
        }
    }
    firsts.push(at);
    link(&order, &firsts, &to_starts[..k], &to_images[..k], &mut to_holders[..k]);
    measure(n, &to_starts[..k], &mut to_lengths[..k]);
    Ok(k as u32)
}

/// The holder of each image, by one walk along starts and images. The pieces of run x stand from `firsts[x]` up to the next one's.
fn link(order: &[(u32, u32)], firsts: &[usize], starts: &[u32], images: &[u32], holders: &mut [u32]) {
    let mut holder = 0;
    for &(_, x) in order {
        for piece in firsts[x as usize]..firsts[x as usize + 1] {
            while starts.get(holder + 1).is_some_and(|&next| next <= images[piece]) {
                holder += 1;
            }
            holders[piece] = holder as u32;
        }
    }
}

/// The length of each interval.
fn measure(n: u32, starts: &[u32], lengths: &mut [u32]) {
    for (length, pair) in lengths.iter_mut().zip(starts.windows(2)) {
        *length = pair[1] - pair[0];
    }
    let last = starts.len() - 1;
    lengths[last] = n - starts[last];
}

fn fits(n: u32, starts: &[u32], images: &[u32], holders: &[u32], lengths: &[u32]) -> Outcome<()> {
    let k = starts.len();
    if n == 0 || k == 0 || k != images.len() || k != holders.len() || k != lengths.len() || k > 32768 {
        return Err((9, 0));
    }
    Ok(())
}

/// Whether a length is 0 or is not the end minus the start. Both tests are made at once: a jump between them would keep the
/// compiler from testing several intervals at a time.
#[inline(always)]
fn differs(start: u32, end: u32, length: u32) -> bool {
    (end <= start) | (end.wrapping_sub(start) != length)
}

/// The same of interval x.
#[inline(always)]
fn is_wrong_length(n: u32, starts: &[u32], lengths: &[u32], x: usize) -> bool {
    differs(starts[x], starts.get(x + 1).copied().unwrap_or(n), lengths[x])
}

/// The lowest interval whose length is wrong, if there is one. It is looked for only where a pass without an exit, which is quicker,
/// has not found all right.
fn first_wrong_length(n: u32, starts: &[u32], lengths: &[u32]) -> Option<usize> {
    let last = starts.len() - 1;
    let others = starts[..last].iter().zip(&starts[1..]).zip(&lengths[..last]);
    let all_right = others.fold(true, |all_right, ((&start, &end), &length)| all_right & !differs(start, end, length));
    if all_right && !differs(starts[last], n, lengths[last]) {
        return None;
    }
    (0..=last).find(|&x| is_wrong_length(n, starts, lengths, x))
}

/// Tests 9, and 12 of all lengths.
fn fits_throughout(n: u32, starts: &[u32], images: &[u32], holders: &[u32], lengths: &[u32]) -> Outcome<()> {
    fits(n, starts, images, holders, lengths)?;
    match first_wrong_length(n, starts, lengths) {
        Some(x) => Err((12, x as u32)),
        None => Ok(()),
    }
}

/// Tests 1 to 6 and 8, and then the fold, in one pass.
#[inline(never)]
pub fn fold(n: u32, starts: &[u32], images: &[u32], to_starts: &mut [u32], to_images: &mut [u32]) -> Outcome<u32> {
    check_into_order(n, starts, images)?;
    let k = starts.len();
    if to_starts.len().min(to_images.len()) < k {
        return Err((8, k as u32));
    }
    (to_starts[0], to_images[0]) = (starts[0], images[0]);
    let mut count = 1;
    for (start, image) in starts.windows(2).zip(images.windows(2)) {
        if image[0] + (start[1] - start[0]) != image[1] {
            (to_starts[count], to_images[count]) = (start[1], image[1]);
            count += 1;
        }
    }
    Ok(count as u32)
}

/// Tests 1 to 6, 17, 8 and 18, and the next list: the values are changed in place, and written as maximal runs.
#[inline(never)]
pub fn next_list(n: u32, starts: &[u32], images: &[u32], to_starts: &mut [u32], to_images: &mut [u32]) -> Outcome<u32> {
    check_into_order(n, starts, images)?;
    if n > 7 {
        return Err((17, n));
    }
    if to_starts.len().min(to_images.len()) < n as usize {
        return Err((8, n));
    }
    let ends = starts[1..].iter().copied().chain([n]);
    let mut values: Vec<u32> =
        starts.iter().zip(ends).zip(images).flat_map(|((&s, e), &i)| (s..e).map(move |p| i + (p - s))).collect();
    let Some(rise) = (1..values.len()).rev().find(|&p| values[p - 1] < values[p]) else {
        return Err((18, 0));
    };
    let other = values.iter().rposition(|&v| values[rise - 1] < v).expect("the rise is above");
    values.swap(rise - 1, other);
    values[rise..].reverse();
    let mut count = 0;
    for (p, &value) in values.iter().enumerate() {
        if p == 0 || value != values[p - 1] + 1 {
            to_starts[count] = p as u32;
            to_images[count] = value;
            count += 1;
        }
    }
    Ok(count as u32)
}

#[inline(never)]
pub fn find(n: u32, starts: &[u32], images: &[u32], holders: &[u32], lengths: &[u32], i: u32) -> Outcome<u32> {
    fits_throughout(n, starts, images, holders, lengths)?;
    if n <= i || i < starts[0] {
        return Err((11, i));
    }
    Ok(starts[1..].iter().take_while(|&&s| s <= i).count() as u32)
}

/// Tests 9, 10, 12 of x's length, and 11.
fn located(n: u32, starts: &[u32], images: &[u32], holders: &[u32], lengths: &[u32], x: u32, i: u32) -> Outcome<()> {
    fits(n, starts, images, holders, lengths)?;
    let at = x as usize;
    if starts.len() <= at {
        return Err((10, x));
    }
    if is_wrong_length(n, starts, lengths, at) {
        return Err((12, x));
    }
    // Below its start a place's distance wraps, and is above any length that is right.
    if n <= i || lengths[at] <= i.wrapping_sub(starts[at]) {
        return Err((11, i));
    }
    Ok(())
}

/// Where the starts under x's image begin, and how many they are.
#[inline(always)]
fn stretch(
    n: u32,
    starts: &[u32],
    images: &[u32],
    holders: &[u32],
    lengths: &[u32],
    x: u32,
) -> Outcome<(usize, usize)> {
    fits(n, starts, images, holders, lengths)?;
    let at = x as usize;
    if starts.len() <= at {
        return Err((10, x));
    }
    if is_wrong_length(n, starts, lengths, at) {
        return Err((12, x));
    }
    let (image, h) = (images[at], holders[at] as usize);
    let image_end = u64::from(image) + u64::from(lengths[at]);
    match starts.get(h) {
        Some(&start) if start <= image && image_end <= u64::from(n) => {
            let first = if start == image { h } else { h + 1 };
            Ok((first, starts[first..].iter().take_while(|&&s| u64::from(s) < image_end).count()))
        }
        _ => Err((12, x)),
    }
}

#[inline(never)]
pub fn weight(n: u32, starts: &[u32], images: &[u32], holders: &[u32], lengths: &[u32], x: u32) -> Outcome<u32> {
    stretch(n, starts, images, holders, lengths, x).map(|(_, count)| count as u32)
}

#[inline(never)]
pub fn starts_under<'a>(
    n: u32,
    starts: &'a [u32],
    images: &[u32],
    holders: &[u32],
    lengths: &[u32],
    x: u32,
) -> Outcome<&'a [u32]> {
    stretch(n, starts, images, holders, lengths, x).map(|(first, count)| &starts[first..first + count])
}

/// The place that a move reaches from a place that its interval, of a right length, has, and the holder to go on from; or
/// nothing where the interval is broken.
#[inline(always)]
fn landing(n: u32, starts: &[u32], images: &[u32], holders: &[u32], x: usize, i: u32) -> Option<(u32, usize)> {
    let image = images[x];
    let h = holders[x] as usize;
    let j = image.checked_add(i - starts[x]).filter(|&j| j < n)?;
    if image < *starts.get(h)? {
        return None;
    }
    Some((j, h))
}

/// The interval reached by going on while the next start is at most j.
#[inline(always)]
fn on_from(starts: &[u32], from: usize, j: u32) -> usize {
    let mut reached = from;
    while starts.get(reached + 1).is_some_and(|&start| start <= j) {
        reached += 1;
    }
    reached
}

/// How many starts are read from the holder to the interval reached: those gone past, and the one that ends the walk, if there
/// is one.
#[inline(always)]
fn starts_read(starts: &[u32], holder: usize, reached: usize) -> usize {
    reached - holder + usize::from(reached + 1 < starts.len())
}

/// Where a move or a repeated move ends: the place, the interval, the distance from its start, and the count.
pub struct Step<C> {
    pub place: u32,
    pub interval: u32,
    pub distance: u32,
    pub count: C,
}

/// A move from a place that its interval, of a right length, has: the place and the interval reached, and the holder; or
/// nothing where the interval is broken.
#[inline(always)]
fn step(n: u32, starts: &[u32], images: &[u32], holders: &[u32], x: usize, i: u32) -> Option<(u32, usize, usize)> {
    let (j, h) = landing(n, starts, images, holders, x, i)?;
    Some((j, on_from(starts, h, j), h))
}

/// A move, for callers that each have it in their own code.
#[inline(always)]
fn moved(
    n: u32,
    starts: &[u32],
    images: &[u32],
    holders: &[u32],
    lengths: &[u32],
    x: u32,
    i: u32,
) -> Outcome<Step<u32>> {
    located(n, starts, images, holders, lengths, x, i)?;
    match step(n, starts, images, holders, x as usize, i) {
        None => Err((12, x)),
        Some((j, y, h)) => {
            let count = starts_read(starts, h, y) as u32;
            Ok(Step { place: j, interval: y as u32, distance: j - starts[y], count })
        }
    }
}

#[inline(never)]
pub fn move_once(
    n: u32,
    starts: &[u32],
    images: &[u32],
    holders: &[u32],
    lengths: &[u32],
    x: u32,
    i: u32,
) -> Outcome<Step<u32>> {
    moved(n, starts, images, holders, lengths, x, i)
}

/// A walk that its owner keeps.
#[derive(Clone, Copy, Debug, PartialEq, Eq)]
pub struct Mark {
    pub place: u32,
    pub interval: u32,
    pub distance: u32,
    pub moves: u32,
    pub count: u64,
}

/// A move of a mark, on the spot.
#[inline(never)]
pub fn advance(
    n: u32,
    starts: &[u32],
    images: &[u32],
    holders: &[u32],
    lengths: &[u32],
    mark: &mut Mark,
) -> Outcome<Step<u32>> {
    let step = moved(n, starts, images, holders, lengths, mark.interval, mark.place)?;
    let moves = mark.moves.checked_add(1).ok_or((13, 0))?;
    let count = mark.count.checked_add(step.count.into()).ok_or((13, 0))?;
    *mark = Mark { place: step.place, interval: step.interval, distance: step.distance, moves, count };
    Ok(step)
}

#[allow(clippy::too_many_arguments)]
#[inline(never)]
pub fn moves(
    n: u32,
    starts: &[u32],
    images: &[u32],
    holders: &[u32],
    lengths: &[u32],
    x: u32,
    i: u32,
    m: u32,
) -> Outcome<Step<u64>> {
    located(n, starts, images, holders, lengths, x, i)?;
    // Of one length, as was tested: the indexes into three of them need no test of their own.
    let k = starts.len();
    let (images, holders, lengths) = (&images[..k], &holders[..k], &lengths[..k]);
    let (mut place, mut interval, mut count) = (i, x as usize, 0);
    for _ in 0..m {
        if is_wrong_length(n, starts, lengths, interval) {
            return Err((12, interval as u32));
        }
        let Some((j, y, h)) = step(n, starts, images, holders, interval, place) else {
            return Err((12, interval as u32));
        };
        (place, interval, count) = (j, y, count + starts_read(starts, h, y) as u64);
    }
    Ok(Step { place, interval: interval as u32, distance: place - starts[interval], count })
}

/// The interval of a place by the starts alone, as one searches without a move table. The starts must be known to rise from 0:
/// nothing is tested.
#[inline(never)]
pub fn search(starts: &[u32], i: u32) -> u32 {
    starts.partition_point(|&start| start <= i) as u32 - 1
}

/// The place that m moves reach, with a search in each of them: it needs neither holders nor lengths.
#[inline(never)]
pub fn searched_moves(starts: &[u32], images: &[u32], i: u32, m: u32) -> u32 {
    let mut place = i;
    for _ in 0..m {
        let x = starts.partition_point(|&start| start <= place) - 1;
        place = images[x] + (place - starts[x]);
    }
    place
}

/// Tests 16 and 11 of questions.
fn in_order(n: u32, first_start: u32, questions: &[Question]) -> Outcome<(), u64> {
    if let Some(x) = questions.windows(2).position(|pair| pair[1].place < pair[0].place) {
        return Err((16, x as u64 + 1));
    }
    // Since places do not fall, the lowest record that 11 refuses is the first of all, or the first whose place is not below n.
    let below = questions.first().filter(|q| q.place < first_start);
    match below.or_else(|| questions.get(questions.partition_point(|q| q.place < n))) {
        Some(q) => Err((11, u64::from(q.place))),
        None => Ok(()),
    }
}

#[inline(never)]
pub fn questions(
    n: u32,
    starts: &[u32],
    images: &[u32],
    holders: &[u32],
    lengths: &[u32],
    questions: &mut [Question],
) -> Outcome<u32, u64> {
    fits_throughout(n, starts, images, holders, lengths).map_err(|(number, place)| (number, u64::from(place)))?;
    in_order(n, starts[0], questions)?;
    // Of one length, as was tested.
    let (images, holders) = (&images[..starts.len()], &holders[..starts.len()]);
    let mut x = 0;
    for q in questions.iter() {
        x = on_from(starts, x, q.place);
        if landing(n, starts, images, holders, x, q.place).is_none() {
            return Err((12, x as u64));
        }
    }
    let mut x = 0;
    for q in questions {
        x = on_from(starts, x, q.place);
        let (j, y, h) = step(n, starts, images, holders, x, q.place).expect("no interval is broken, as was tested");
        *q = Question {
            place: q.place,
            interval: x as u32,
            to_place: j,
            to_interval: y as u32,
            count: starts_read(starts, h, y) as u32,
            distance: j - starts[y],
        };
    }
    Ok(x as u32)
}
