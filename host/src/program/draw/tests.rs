use super::*;

/// A list with what is drawn of it. Weights are counted; any starts may be taken for cuts.
struct List {
    n: u32,
    starts: Vec<u32>,
    images: Vec<u32>,
    cuts: Vec<u32>,
}

impl List {
    /// Runs of these lengths whose images stand in the reverse order.
    fn reversed(lengths: &[u32], cuts: &[u32]) -> Self {
        let ends = lengths.iter().scan(0, |end: &mut u32, length| {
            *end += length;
            Some(*end)
        });
        let ends: Vec<u32> = ends.collect();
        let n = ends.last().copied().unwrap_or(0);
        let starts = ends.iter().zip(lengths).map(|(end, length)| end - length).collect();
        let images = ends.iter().map(|end| n - end).collect();
        List { n, starts, images, cuts: cuts.to_vec() }
    }

    /// Many short runs, and every twentieth a hundred times as long, with cuts in it.
    fn mixed(runs: u32, cuts_in_long: u32) -> Self {
        let length = |run: u32| if run % 20 == 7 { 300 } else { 1 + run * 7 % 5 };
        let mut list = List::reversed(&(0..runs).map(length).collect::<Vec<u32>>(), &[]);
        let long = list.starts.iter().skip(7).step_by(20);
        list.cuts = long.flat_map(|start| (1..=cuts_in_long).map(move |cut| start + 10 * cut)).collect();
        list
    }

    fn document() -> Self {
        List::reversed(&[2, 2, 2, 2, 8], &[12])
    }

    fn svg(&self, title: &str) -> String {
        let List { n, starts, images, cuts } = self;
        let ends = starts.iter().skip(1).chain([n]);
        let below = |place: u32| starts.partition_point(|&start| start < place) as u32;
        let weight = |((start, end), &image): ((&u32, &u32), &u32)| below(image + (end - start)) - below(image);
        let weights: Vec<u32> = starts.iter().zip(ends).zip(images).map(weight).collect();
        svg(&Drawing { title, n: *n, starts, images, degree: 2, weights: &weights, cuts })
    }
}

fn pictures() -> Vec<(usize, String)> {
    let billions = [1, 2_000_000_000, 1, 3, 1, 2_294_967_289];
    let lists = [
        List::document(),
        List::reversed(&[1], &[]),
        List::reversed(&[u32::MAX], &[]),
        List::reversed(&billions, &[1_000_000_000, 4_000_000_000]),
        List::mixed(300, 8),
        List::mixed(1024, 2),
    ];
    lists.iter().map(|list| (list.starts.len(), list.svg("a list"))).collect()
}

/// The names of the elements that are open at the end; all text up to there is read as XML is.
fn open_elements(svg: &str) -> Vec<&str> {
    let mut open = Vec::new();
    for tag in svg.split('<').skip(1) {
        let (tag, text) = tag.split_once('>').expect("a tag is closed");
        assert!(!text.contains('>') && tag.matches('"').count() % 2 == 0, "{tag}");
        let name = tag.split([' ', '/']).find(|name| !name.is_empty()).expect("a tag has a name");
        match (tag.starts_with('/'), tag.ends_with('/')) {
            (true, _) => assert_eq!(open.pop(), Some(name)),
            (false, false) => open.push(name),
            (false, true) => (),
        }
    }
    open
}

/// The part of the picture that has this id, up to the next one.
fn part<'a>(svg: &'a str, id: &str) -> &'a str {
    let from = svg.find(&format!("id=\"{id}\"")).expect("the part is there") + 3;
    let length = svg[from..].find("id=\"").unwrap_or(svg.len() - from);
    &svg[from..from + length]
}

#[test]
fn pictures_are_well_formed() {
    assert!(pictures().iter().all(|(_, svg)| open_elements(svg).is_empty()));
}

#[test]
fn each_run_has_a_ribbon_and_two_intervals() {
    for (runs, svg) in pictures() {
        assert_eq!(part(&svg, "ribbons").matches("<path").count(), runs);
        assert_eq!(["input", "output"].map(|bar| part(&svg, bar).matches('M').count()), [runs; 2]);
    }
}

#[test]
fn each_cut_has_a_line() {
    let svg = List::mixed(300, 8).svg("");
    assert_eq!(part(&svg, "cuts").matches("stroke-width").count(), 15 * 8);
}

#[test]
fn the_starts_of_few_runs_all_have_ticks() {
    assert_eq!(part(&List::document().svg(""), "starts").matches('M').count(), 5);
}

/// The value of an attribute that is a number.
fn value(tag: &str, name: &str) -> f64 {
    let (_, rest) = tag.split_once(&format!(" {name}=\"")).expect("the attribute is there");
    rest.split('"').next().and_then(|text| text.parse().ok()).expect("it is a number")
}

/// The labels of a picture, from left to right in each row: y, left and right edge.
fn label_edges(svg: &str) -> Vec<[f64; 3]> {
    let own = svg.lines().filter(|line| line.starts_with("<text") && !line.contains("font-size"));
    let edges = own.map(|line| {
        let text = &line[line.find('>').unwrap_or(0) + 1..line.len() - "</text>".len()];
        let size = if line.contains("bold") { 12.1 } else { 11.0 };
        let (x, half) = (value(line, "x"), text::width(text, size) / 2.0);
        [value(line, "y"), x - half, x + half]
    });
    let mut edges: Vec<[f64; 3]> = edges.collect();
    edges.sort_by(|a, b| a[0].total_cmp(&b[0]).then(a[1].total_cmp(&b[1])));
    edges
}

#[test]
fn labels_do_not_overlap_and_stay_on_the_sheet() {
    for (_, svg) in pictures() {
        let edges = label_edges(&svg);
        assert!(edges.len() >= 6);
        assert!(edges.windows(2).all(|pair| pair[0][0] < pair[1][0] || pair[0][2] <= pair[1][1]));
        assert!(edges.iter().all(|&[_, left, right]| left >= 0.0 && right <= WIDTH));
    }
}

#[test]
fn few_runs_have_all_their_labels() {
    let svg = List::document().svg("");
    let labels = ["0", "2", "4", "6", "8", "10", "12", "14"];
    assert!(labels.iter().all(|label| svg.contains(&format!(">{label}</text>"))));
    assert!(svg.contains(" font-weight=\"bold\">12</text>"));
}

#[test]
fn numbers_have_two_decimals_at_most() {
    for (_, svg) in pictures() {
        let decimals = svg.split('.').skip(1).map(|rest| rest.chars().take_while(char::is_ascii_digit).count());
        assert!(decimals.max() <= Some(2));
    }
}

#[test]
fn the_title_is_escaped() {
    let svg = List::document().svg("</title><script>\"a\" & 'b'\u{0}");
    assert!(open_elements(&svg).is_empty() && !svg.contains("<script"));
    assert_eq!(svg.matches("&lt;/title&gt;&lt;script&gt;&quot;a&quot; &amp; 'b'\u{fffd}").count(), 2);
}

#[test]
fn heavy_runs_are_warm_and_told_of() {
    let svg = List::document().svg("");
    let warm = colours::HEAVY[0];
    assert!(part(&svg, "ribbons").contains("run 4: places 8 to 15 go to 0 to 7, weight 4, heavy"));
    assert!(["input", "output"].iter().all(|bar| part(&svg, bar).contains(&format!("fill=\"{warm}\""))));
    assert!(svg.contains("heavy run: 2d = 4 starts or more (here: 4)"));
}

#[test]
fn an_uneven_scale_is_told_of() {
    let note = "Not to scale";
    assert!(!List::document().svg("").contains(note));
    assert!(List::reversed(&[1, 4_000_000_000, 1], &[]).svg("").contains(note));
}

#[test]
fn the_longest_lists_take_few_megabytes() {
    let svg = List::mixed(16_384, 20).svg("");
    assert_eq!(part(&svg, "ribbons").matches("<path").count(), 16_384);
    assert!(open_elements(&svg).is_empty() && svg.len() < 6_000_000);
}

#[test]
fn nothing_panics_on_numbers_that_do_not_fit() {
    let odd = |n, starts, images, degree, weights, cuts| {
        svg(&Drawing { title: "", n, starts, images, degree, weights, cuts }).len()
    };
    assert!(odd(0, &[], &[], 0, &[], &[]) > 0);
    assert!(odd(5, &[0, 2], &[3], u32::MAX, &[], &[9, 1, 0, 4, u32::MAX]) > 0);
    assert!(odd(5, &[4, 2, 7], &[u32::MAX, 0, 5], 2, &[u32::MAX], &[3, 2]) > 0);
}
