//! The second program: documents 01 and 02 from their text alone, in the plainest way, to be compared with the library.
//! Nothing of the library is used or copied; lists are walked from the front and every pair is looked at.

use std::sync::OnceLock;

/// What a call comes to: its result, or the number and the place.
pub type Outcome<T, P = u32> = Result<T, (u32, P)>;

/// A run or an interval, in numbers that cannot overflow.
#[derive(Clone, Copy)]
struct Run {
    start: u64,
    image: u64,
    end: u64,
}

impl Run {
    fn image_end(&self) -> u64 {
        self.image + (self.end - self.start)
    }
}

/// Run i's end is "the next run's start, or n for the last run".
fn end(n: u32, starts: &[u32], i: usize) -> u64 {
    match starts.get(i + 1) {
        Some(&next) => u64::from(next),
        None => u64::from(n),
    }
}

fn run(n: u32, starts: &[u32], images: &[u32], i: usize) -> Run {
    Run { start: u64::from(starts[i]), image: u64::from(images[i]), end: end(n, starts, i) }
}

fn share_a_place(a: &Run, b: &Run) -> bool {
    a.image < b.image_end() && b.image < a.image_end()
}

/// Tests 1 to 6.
pub fn check(n: u32, starts: &[u32], images: &[u32]) -> Outcome<()> {
    let k = starts.len();
    if n == 0 || k == 0 || images.len() != k {
        return Err((1, 0));
    }
    if k > 16384 {
        return Err((2, 0));
    }
    if starts[0] != 0 {
        return Err((3, 0));
    }
    for i in 0..k {
        if starts[i] >= n || (i > 0 && starts[i] <= starts[i - 1]) {
            return Err((4, i as u32));
        }
    }
    let runs: Vec<Run> = (0..k).map(|i| run(n, starts, images, i)).collect();
    for (i, r) in runs.iter().enumerate() {
        if r.image_end() > u64::from(n) {
            return Err((5, i as u32));
        }
    }
    for i in 0..k {
        for j in 0..k {
            if i != j && share_a_place(&runs[i], &runs[j]) {
                return Err((6, i as u32));
            }
        }
    }
    Ok(())
}

/// Starts, images, holders and lengths.
#[derive(Clone, Debug, PartialEq, Eq)]
pub struct Tables {
    pub starts: Vec<u32>,
    pub images: Vec<u32>,
    pub holders: Vec<u32>,
    pub lengths: Vec<u32>,
}

impl Tables {
    /// The columns in the order in which a call takes them.
    pub fn columns(&self) -> [&[u32]; 4] {
        [&self.starts, &self.images, &self.holders, &self.lengths]
    }
}

/// The tables of a legal list: the holder is "the index of the interval in which x's image lies", and each length is "equal to
/// end minus start".
pub fn tables(n: u32, starts: &[u32], images: &[u32]) -> Tables {
    let mut holders = Vec::new();
    for &image in images {
        let mut h = 0;
        while end(n, starts, h) <= u64::from(image) {
            h += 1;
        }
        holders.push(h as u32);
    }
    let lengths = (0..starts.len()).map(|x| (end(n, starts, x) - u64::from(starts[x])) as u32).collect();
    Tables { starts: starts.to_vec(), images: images.to_vec(), holders, lengths }
}

/// "The number of starts at or above its image and below its image plus length."
fn weight_of(runs: &[Run], x: usize) -> usize {
    runs.iter().filter(|r| runs[x].image <= r.start && r.start < runs[x].image_end()).count()
}

fn heavy_with_lowest_image(runs: &[Run], weights: &[usize], d: usize) -> Option<usize> {
    (0..runs.len()).filter(|&x| weights[x] >= 2 * d).min_by_key(|&x| runs[x].image)
}

/// Cuts x at "the (d+1)th start under its image, in rising order".
fn cut(runs: &mut Vec<Run>, x: usize, d: usize) {
    let whole = runs[x];
    let under: Vec<u64> = runs.iter().map(|r| r.start).filter(|&s| whole.image <= s && s < whole.image_end()).collect();
    let s = under[d];
    let start = whole.start + (s - whole.image);
    runs[x].end = start;
    runs.insert(x + 1, Run { start, image: s, end: whole.end });
}

/// The balanced list by the paper's sentence: all weights anew after each cut. For short lists.
pub fn balanced_literally(n: u32, starts: &[u32], images: &[u32], d: usize) -> (Vec<u32>, Vec<u32>) {
    let mut runs: Vec<Run> = (0..starts.len()).map(|i| run(n, starts, images, i)).collect();
    loop {
        let weights: Vec<usize> = (0..runs.len()).map(|x| weight_of(&runs, x)).collect();
        match heavy_with_lowest_image(&runs, &weights, d) {
            Some(x) => cut(&mut runs, x, d),
            None => return lists(&runs),
        }
    }
}

/// The runs of a list and their weights.
fn weighed(n: u32, starts: &[u32], images: &[u32]) -> (Vec<Run>, Vec<usize>) {
    let runs: Vec<Run> = (0..starts.len()).map(|i| run(n, starts, images, i)).collect();
    let weights = (0..runs.len()).map(|x| weight_of(&runs, x)).collect();
    (runs, weights)
}

/// The balanced list of these runs and how often they were cut, for long lists: a cut changes the weights of its two parts
/// and adds one to that of each interval whose image has the new start. The tests compare this with `balanced_literally`.
fn balanced_runs((mut runs, mut weights): (Vec<Run>, Vec<usize>), d: usize) -> (Vec<Run>, usize) {
    let mut cuts = 0;
    while let Some(x) = heavy_with_lowest_image(&runs, &weights, d) {
        cut(&mut runs, x, d);
        cuts += 1;
        weights.insert(x + 1, 0);
        let new = runs[x + 1].start;
        for y in 0..runs.len() {
            if runs[y].image <= new && new < runs[y].image_end() {
                weights[y] += 1;
            }
        }
        weights[x] = weight_of(&runs, x);
        weights[x + 1] = weight_of(&runs, x + 1);
    }
    (runs, cuts)
}

/// The balanced list: starts, then images.
pub fn balanced(n: u32, starts: &[u32], images: &[u32], d: usize) -> (Vec<u32>, Vec<u32>) {
    lists(&balanced_runs(weighed(n, starts, images), d).0)
}

fn lists(runs: &[Run]) -> (Vec<u32>, Vec<u32>) {
    runs.iter().map(|r| (r.start as u32, r.image as u32)).unzip()
}

/// B, "the whole part of d×k/(d−1)".
pub fn bound(d: u32, k: usize) -> usize {
    d as usize * k / (d as usize - 1)
}

/// What a call comes to that a working table is lent to, and how many of that table's entries, from the first on, are 0
/// afterwards. All its other entries keep their numbers.
pub struct Worked<T> {
    pub outcome: Outcome<T>,
    pub cleared: usize,
}

/// A call that has room in its working table, or is refused for want of it: "after 19, or 8 with K", as "after success", the
/// room's entries are 0, and after a refusal for the list, the degree or the room none is changed.
fn worked<T>(room: Outcome<usize>, result: impl FnOnce() -> Outcome<T>) -> Worked<T> {
    match room {
        Ok(room) => Worked { outcome: result(), cleared: room },
        Err(refused) => Worked { outcome: Err(refused), cleared: 0 },
    }
}

/// Tests 1 to 7.
fn check_with_degree(n: u32, starts: &[u32], images: &[u32], d: u32) -> Outcome<()> {
    check(n, starts, images)?;
    if !(2..=64).contains(&d) {
        return Err((7, d));
    }
    Ok(())
}

/// Tests 1 to 7, and "a short working table gives 8 with B". `working` is its count of entries; answers B.
fn room(n: u32, starts: &[u32], images: &[u32], d: u32, working: usize) -> Outcome<usize> {
    check_with_degree(n, starts, images, d)?;
    let b = bound(d, starts.len());
    if working < b {
        return Err((8, b as u32));
    }
    Ok(b)
}

/// The balanced list's tables. "A short working table gives 8 with B first; short tables then give 8 with K." `lent` has the
/// lent tables' counts of entries, that of the working table last.
pub fn balance(n: u32, starts: &[u32], images: &[u32], d: u32, lent: [usize; 5]) -> Worked<Tables> {
    let [to_tables @ .., working] = lent;
    worked(room(n, starts, images, d, working), || {
        let (to_starts, to_images) = balanced(n, starts, images, d as usize);
        let k = to_starts.len();
        if to_tables.iter().any(|&count| count < k) {
            return Err((8, k as u32));
        }
        Ok(tables(n, &to_starts, &to_images))
    })
}

/// "K and the number of cuts for a given d, with only the working table lent": the list is balanced, and the cuts are counted.
pub fn forecast(n: u32, starts: &[u32], images: &[u32], d: u32, working: usize) -> Worked<(u32, u32)> {
    worked(room(n, starts, images, d, working), || {
        let (runs, cuts) = balanced_runs(weighed(n, starts, images), d as usize);
        Ok((runs.len() as u32, cuts as u32))
    })
}

/// "The least d from 2 to 64 whose K fits in a stated number of entries", and that K: the list is balanced at each degree in
/// turn. The working table "is judged at d 2", where 7 cannot apply, and "as many as d 2's B" of its entries are 0 afterwards.
pub fn least_degree(n: u32, starts: &[u32], images: &[u32], entries: u32, working: usize) -> Worked<(u32, u32)> {
    worked(room(n, starts, images, 2, working), || {
        let list = weighed(n, starts, images);
        for d in 2..=64 {
            let k = balanced_runs(list.clone(), d as usize).0.len();
            if k as u64 <= u64::from(entries) {
                return Ok((d, k as u32));
            }
        }
        Err((19, entries))
    })
}

/// Tests 1 to 6 and 8, and the inverse list: starts, then images.
pub fn inverse_list(n: u32, starts: &[u32], images: &[u32], lent: [usize; 2]) -> Outcome<(Vec<u32>, Vec<u32>)> {
    check(n, starts, images)?;
    let k = starts.len();
    if lent.iter().any(|&count| count < k) {
        return Err((8, k as u32));
    }
    let mut swapped: Vec<(u32, u32)> = images.iter().copied().zip(starts.iter().copied()).collect();
    swapped.sort();
    Ok(swapped.into_iter().unzip())
}

/// Tests 1 to 6 and 8, and the fold: "neighbours whose images follow on become one run", for as long as there are some.
pub fn fold(n: u32, starts: &[u32], images: &[u32], lent: [usize; 2]) -> Outcome<(Vec<u32>, Vec<u32>)> {
    check(n, starts, images)?;
    let k = starts.len();
    if lent.iter().any(|&count| count < k) {
        return Err((8, k as u32));
    }
    let mut runs: Vec<Run> = (0..k).map(|i| run(n, starts, images, i)).collect();
    while let Some(i) = (1..runs.len()).find(|&i| runs[i - 1].image_end() == runs[i].image) {
        runs[i - 1].end = runs[i].end;
        runs.remove(i);
    }
    Ok(runs.iter().map(|r| (r.start as u32, r.image as u32)).unzip())
}

/// All permutations of n places.
pub fn permutations(n: u32) -> Vec<Vec<u32>> {
    if n == 0 {
        return vec![vec![]];
    }
    let mut all = Vec::new();
    for shorter in permutations(n - 1) {
        for at in 0..=shorter.len() {
            let mut longer = shorter.clone();
            longer.insert(at, n - 1);
            all.push(longer);
        }
    }
    all
}

/// The same of up to 7 places, made once: `next_list` looks at all of them in each call.
fn small_permutations(n: u32) -> &'static [Vec<u32>] {
    static ALL: OnceLock<Vec<Vec<Vec<u32>>>> = OnceLock::new();
    &ALL.get_or_init(|| (0..=7).map(permutations).collect())[n as usize]
}

/// The list of fewest runs of a permutation: a run begins where the image is not one above that of the place before.
pub fn fewest_runs(permutation: &[u32]) -> (Vec<u32>, Vec<u32>) {
    let begins = |p: &usize| *p == 0 || permutation[*p] != permutation[*p - 1] + 1;
    (0..permutation.len()).filter(begins).map(|p| (p as u32, permutation[p])).unzip()
}

/// Where place p of a legal list goes.
fn image_of(n: u32, starts: &[u32], images: &[u32], p: u32) -> u32 {
    let x = (0..starts.len()).find(|&x| u64::from(p) < end(n, starts, x)).expect("the last run ends at n");
    images[x] + (p - starts[x])
}

/// Tests 1 to 6, 17, 8 and 18, and the next list: starts, then images. The next permutation is the least of all that are
/// above, "by the image of place 0, then of place 1, and so on", which is how Rust compares vectors.
pub fn next_list(n: u32, starts: &[u32], images: &[u32], lent: [usize; 2]) -> Outcome<(Vec<u32>, Vec<u32>)> {
    check(n, starts, images)?;
    if n > 7 {
        return Err((17, n));
    }
    if lent.iter().any(|&count| count < n as usize) {
        return Err((8, n));
    }
    let permutation: Vec<u32> = (0..n).map(|p| image_of(n, starts, images, p)).collect();
    if permutation.windows(2).all(|pair| pair[1] < pair[0]) {
        return Err((18, 0));
    }
    let above = small_permutations(n).iter().filter(|other| **other > permutation).min();
    Ok(fewest_runs(above.expect("one that rises somewhere is not the last")))
}

/// Test 9.
fn fits(n: u32, t: &Tables) -> Outcome<()> {
    let k = t.starts.len();
    if n == 0 || k == 0 || t.columns().iter().any(|column| column.len() != k) || k > 32768 {
        return Err((9, 0));
    }
    Ok(())
}

/// Test 10.
fn known(t: &Tables, x: u32) -> Outcome<()> {
    if x as usize >= t.starts.len() {
        return Err((10, x));
    }
    Ok(())
}

/// "A length of 0, or one that differs from end minus start."
pub fn is_wrong_length(n: u32, t: &Tables, x: usize) -> bool {
    let length = i64::from(t.lengths[x]);
    length == 0 || length != end(n, &t.starts, x) as i64 - i64::from(t.starts[x])
}

/// Test 12 of the length of x, an interval that there is.
fn measured(n: u32, t: &Tables, x: usize) -> Outcome<()> {
    if is_wrong_length(n, t, x) {
        return Err((12, x as u32));
    }
    Ok(())
}

/// "In find, inverse and A.1 all lengths are tested, lowest first, right after 9."
fn fits_and_measured(n: u32, t: &Tables) -> Outcome<()> {
    fits(n, t)?;
    (0..t.starts.len()).try_for_each(|x| measured(n, t, x))
}

/// "Each operation on one interval reads its end as start plus length."
fn end_by_length(t: &Tables, x: usize) -> u64 {
    u64::from(t.starts[x]) + u64::from(t.lengths[x])
}

/// "From interval 0, go on while the next start is at most i."
pub fn find(n: u32, t: &Tables, i: u32) -> Outcome<u32> {
    fits_and_measured(n, t)?;
    if i >= n || i < t.starts[0] {
        return Err((11, i));
    }
    let mut x = 0;
    while x + 1 < t.starts.len() && t.starts[x + 1] <= i {
        x += 1;
    }
    Ok(x as u32)
}

/// Tests 9, 10, 12 of the length of x, "tested between 10 and 11", and 11.
fn stands(n: u32, t: &Tables, x: u32, i: u32) -> Outcome<()> {
    fits(n, t)?;
    known(t, x)?;
    let at = x as usize;
    measured(n, t, at)?;
    if i >= n || i < t.starts[at] || u64::from(i) >= end_by_length(t, at) {
        return Err((11, i));
    }
    Ok(())
}

/// Where a walk ends: the place and the interval reached, the distance, "the place reached minus the start of the interval
/// reached", and the count, "each start it compares with the place reached".
#[derive(Clone, Copy, Debug, PartialEq, Eq)]
pub struct Reached {
    pub place: u32,
    pub interval: u32,
    pub distance: u32,
    pub count: u64,
}

/// One move.
pub fn step(n: u32, t: &Tables, x: u32, i: u32) -> Outcome<Reached> {
    stands(n, t, x, i)?;
    let from = x as usize;
    let h = t.holders[from] as usize;
    if h >= t.starts.len() || t.starts[h] > t.images[from] {
        return Err((12, x));
    }
    let j = u64::from(t.images[from]) + u64::from(i - t.starts[from]);
    if j >= u64::from(n) {
        return Err((12, x));
    }
    let mut reached = h;
    let mut compared = 0;
    while reached + 1 < t.starts.len() {
        compared += 1;
        if u64::from(t.starts[reached + 1]) > j {
            break;
        }
        reached += 1;
    }
    let distance = j - u64::from(t.starts[reached]);
    Ok(Reached { place: j as u32, interval: reached as u32, distance: distance as u32, count: compared })
}

/// What the plain walk counts for a move from interval x of a balanced list's tables to q: the starts "above x's image and not
/// above q", and the one that would end the walk, if there is a start above q.
pub fn plain_count(t: &Tables, x: u32, q: u32) -> u64 {
    let image = t.images[x as usize];
    let passed = t.starts.iter().filter(|&&start| image < start && start <= q).count();
    passed as u64 + u64::from(t.starts.iter().any(|&start| q < start))
}

/// m moves, with the sum of the counts.
pub fn steps(n: u32, t: &Tables, x: u32, i: u32, m: u32) -> Outcome<Reached> {
    stands(n, t, x, i)?;
    let mut at = Reached { place: i, interval: x, distance: i - t.starts[x as usize], count: 0 };
    for _ in 0..m {
        let next = step(n, t, at.interval, at.place)?;
        at = Reached { count: at.count + next.count, ..next };
    }
    Ok(at)
}

/// "The lowest x whose image is at most j and for which start + (j − image) is below x's end": that sum, and x.
pub fn inverse(n: u32, t: &Tables, j: u32) -> Outcome<(u32, u32)> {
    fits_and_measured(n, t)?;
    if j >= n {
        return Err((11, j));
    }
    for x in 0..t.starts.len() {
        if t.images[x] <= j {
            let sum = u64::from(t.starts[x]) + u64::from(j - t.images[x]);
            if sum < end_by_length(t, x) {
                return Ok((sum as u32, x as u32));
            }
        }
    }
    Err((14, j))
}

/// "The stretch of the lent starts table that lies under x's image": the index that it begins at, and its size.
pub fn starts_under(n: u32, t: &Tables, x: u32) -> Outcome<(u32, u32)> {
    fits(n, t)?;
    known(t, x)?;
    let at = x as usize;
    measured(n, t, at)?;
    let h = t.holders[at] as usize;
    if h >= t.starts.len() || t.starts[h] > t.images[at] {
        return Err((12, x));
    }
    let image_end = u64::from(t.images[at]) + u64::from(t.lengths[at]);
    if image_end > u64::from(n) {
        return Err((12, x));
    }
    let first = if t.starts[h] == t.images[at] { h } else { h + 1 };
    let mut size = 0;
    while first + size < t.starts.len() && u64::from(t.starts[first + size]) < image_end {
        size += 1;
    }
    Ok((first as u32, size as u32))
}

/// "Weight gives its size or the number."
pub fn weight(n: u32, t: &Tables, x: u32) -> Outcome<u32> {
    starts_under(n, t, x).map(|(_, size)| size)
}

/// A bookmark: "place, interval, moves (32 bits)" and the starts read (64 bits), with the distance that a move gives.
#[derive(Clone, Copy, Debug, PartialEq, Eq)]
pub struct Mark {
    pub place: u32,
    pub interval: u32,
    pub distance: u32,
    pub moves: u32,
    pub count: u64,
}

/// A bookmark is "moved on the spot, by one move": the tests of a move, and 13 where a counter has no room for it.
pub fn advance(n: u32, t: &Tables, mark: &mut Mark) -> Outcome<Reached> {
    let reached = step(n, t, mark.interval, mark.place)?;
    let (Some(moves), Some(count)) = (mark.moves.checked_add(1), mark.count.checked_add(reached.count)) else {
        return Err((13, 0));
    };
    let Reached { place, interval, distance, .. } = reached;
    *mark = Mark { place, interval, distance, moves, count };
    Ok(reached)
}

fn widened<T>(outcome: Outcome<T>) -> Outcome<T, u64> {
    outcome.map_err(|(number, place)| (number, u64::from(place)))
}

/// A question's record as it is filled in: place, interval found, place reached, interval reached, count, distance.
pub type Record = [u32; 6];

/// "Each record must agree with find and move done alone": they are done alone here, first find for all records and then
/// move. Answers the starts passed in finding, "equal to the last record's interval, or 0 for an empty list", and the
/// records.
pub fn questions(n: u32, t: &Tables, places: &[u32]) -> Outcome<(u32, Vec<Record>), u64> {
    widened(fits_and_measured(n, t))?;
    for x in 1..places.len() {
        if places[x] < places[x - 1] {
            return Err((16, x as u64));
        }
    }
    let mut found = Vec::new();
    for &place in places {
        found.push(widened(find(n, t, place))?);
    }
    let mut records = Vec::new();
    for (&place, &x) in places.iter().zip(&found) {
        let to = widened(step(n, t, x, place))?;
        records.push([place, x, to.place, to.interval, to.count as u32, to.distance]);
    }
    Ok((found.last().copied().unwrap_or(0), records))
}

/// What an accepted file holds.
pub struct File {
    pub n: u32,
    pub k: u32,
    pub d: u32,
    pub list: [Vec<u32>; 2],
}

/// A file of at most so many runs: the tests of its header in their order, "then 3 to 7".
pub fn file(bytes: &[u8], most: u32) -> Outcome<File> {
    let words: Vec<u32> =
        bytes.chunks_exact(4).map(|word| u32::from_le_bytes(word.try_into().expect("four bytes"))).collect();
    if bytes.len() < 20 {
        return Err((15, 0));
    }
    let (n, k, d) = (words[0], words[1], words[2]);
    if n == 0 || k == 0 {
        return Err((1, 0));
    }
    if k > most {
        return Err((2, 0));
    }
    if words[3] != 20 {
        return Err((15, 12));
    }
    if words[4] != 20 + 4 * k {
        return Err((15, 16));
    }
    if bytes.len() != 20 + 8 * k as usize {
        return Err((15, 20));
    }
    let (starts, images) = words[5..].split_at(k as usize);
    check_with_degree(n, starts, images, d)?;
    Ok(File { n, k, d, list: [starts.to_vec(), images.to_vec()] })
}

/// What the listing program prints. It "takes at most 1,024 runs and gives 2 above that".
pub fn listing(bytes: &[u8]) -> String {
    match file(bytes, 1024) {
        Err((number, place)) => format!("refused {number} {place}\n"),
        Ok(File { n, k, d, list: [starts, images] }) => {
            let (starts, images) = balanced(n, &starts, &images, d as usize);
            let t = tables(n, &starts, &images);
            let mut text = format!("{n} {k} {d} {}\n", t.starts.len());
            for x in 0..t.starts.len() {
                let shift = i64::from(t.images[x]) - i64::from(t.starts[x]);
                let weight = weight(n, &t, x as u32).expect("the tables of a legal list");
                text += &format!("{x} {} {} {shift} {} {weight}\n", t.starts[x], t.images[x], t.holders[x]);
            }
            text
        }
    }
}
