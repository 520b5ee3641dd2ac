//! `key`, `questions`, `balance`, `degree` and `draw`, on the examples and on random files, sound and damaged.

use crate::definition::{self, Outcome, Tables};
use crate::files::{begin, checked, contents, degree, document, examples, written, Given};
use crate::process::{call, call_with, folder, program, repository, Ended};
use crate::random::{random_file, List, Random};
use std::collections::BTreeMap;

/// What a call that is refused says, with the library's sentence at its end; one that is done prints this.
fn assert_ended<P: std::fmt::Display>(ended: &Ended, name: &str, wanted: &Outcome<String, P>) {
    match wanted {
        Ok(out) => assert_eq!(*ended, Ended::done(&**out)),
        Err((number, place)) => {
            let said = format!("zibewoka: {name}: {}", begin((*number, place)));
            assert!(ended.err.starts_with(&said) && ended.err.len() > said.len() + 5, "{ended:?}, not {said}");
            assert_eq!((ended.status, &ended.out[..], ended.err.lines().count()), (1, "", 1));
        }
    }
}

fn wide<T>(outcome: Outcome<T>) -> Outcome<T, u64> {
    outcome.map_err(|(number, place)| (number, u64::from(place)))
}

/// The tables of a file at a degree, or at its own.
fn balanced(bytes: &[u8], d: Option<u32>) -> Outcome<(Given, u32, Tables)> {
    let given = checked(bytes)?;
    let d = d.unwrap_or(given.d);
    degree(d)?;
    let List { n, starts, images } = &given.list;
    let (to_starts, to_images) = definition::balanced(*n, starts, images, d as usize);
    let tables = definition::tables(*n, &to_starts, &to_images);
    Ok((given, d, tables))
}

fn key(bytes: &[u8], d: Option<u32>, place: u32, moves: u32) -> Outcome<String> {
    let (given, _, tables) = balanced(bytes, d)?;
    let n = given.list.n;
    let interval = definition::find(n, &tables, place)?;
    let to = definition::steps(n, &tables, interval, place, moves)?;
    Ok(format!("{} {} {} {}\n", to.place, to.interval, to.distance, to.count))
}

fn questions(bytes: &[u8], d: Option<u32>, places: &[u32]) -> Outcome<String, u64> {
    let (given, _, tables) = wide(balanced(bytes, d))?;
    let (_, records) = definition::questions(given.list.n, &tables, places)?;
    let line = |[place, interval, to_place, to_interval, count, distance]: [u32; 6]| {
        format!("{place} {interval} {to_place} {to_interval} {distance} {count}\n")
    };
    Ok(records.into_iter().map(line).collect())
}

fn balance(bytes: &[u8], d: Option<u32>) -> Outcome<String> {
    let (given, d, t) = balanced(bytes, d)?;
    let mut text = format!("{} {} {d} {}\n", given.list.n, given.list.starts.len(), t.starts.len());
    for x in 0..t.starts.len() {
        text += &format!("{x} {} {} {} {}\n", t.starts[x], t.images[x], t.holders[x], t.lengths[x]);
    }
    Ok(text)
}

fn least_degree(bytes: &[u8], entries: u32) -> Outcome<String> {
    let List { n, starts, images } = checked(bytes)?.list;
    let (degree, intervals) = definition::least_degree(n, &starts, &images, entries, usize::MAX).outcome?;
    Ok(format!("{degree} {intervals}\n"))
}

/// Places as they may stand on standard input, with blanks and line ends of all kinds.
fn typed(r: &mut Random, places: &[u32]) -> String {
    let mut text = String::new();
    for place in places {
        text += ["", " ", "\t", "\n", " \r\n\n"][r.below(5) as usize];
        text += &format!("{place}{}", [" ", "\n", "\r\n", "\t"][r.below(4) as usize]);
    }
    text
}

/// The ways in which a degree is asked for.
fn degree_words(r: &mut Random, d: Option<u32>) -> Vec<String> {
    let Some(d) = d else { return Vec::new() };
    match r.below(4) {
        0 => vec!["-d".into(), d.to_string()],
        1 => vec![format!("-d{d}")],
        2 => vec!["--degree".into(), d.to_string()],
        _ => vec![format!("--degree={d}")],
    }
}

/// Words of a call, with the degree's before or behind the others.
fn words(r: &mut Random, command: &str, operands: &[String], d: Option<u32>) -> Vec<String> {
    let (option, operands) = (degree_words(r, d), operands.to_vec());
    let [first, second] = if r.one_in(2) { [option, operands] } else { [operands, option] };
    [vec![command.to_owned()], first, second].concat()
}

/// How often each number came up, 0 for done.
#[derive(Default, Debug)]
struct Numbers(BTreeMap<u32, usize>);

impl Numbers {
    fn count<T, P>(&mut self, outcome: &Outcome<T, P>) {
        let number = outcome.as_ref().err().map_or(0, |(number, _)| *number);
        *self.0.entry(number).or_default() += 1;
    }
}

/// All commands on one file. Answers through `numbers` what came up.
fn every_command(r: &mut Random, name: &str, bytes: &[u8], numbers: &mut [Numbers; 4]) {
    let n = checked(bytes).map_or(100, |given| given.list.n);
    let d = match r.below(8) {
        0..4 => None,
        4 => Some(r.from(2, 64) as u32),
        _ => Some(r.from(2, 4) as u32),
    };
    let place = if r.one_in(8) { r.word() } else { r.below(n.into()) as u32 };
    let moves = r.below(300) as u32;
    let wanted = key(bytes, d, place, moves);
    let operands = [name.to_owned(), place.to_string(), moves.to_string()];
    assert_ended(&call(&words(r, "key", &operands, d)), name, &wanted);
    numbers[0].count(&wanted);

    let mut places: Vec<u32> = (0..r.below(40)).map(|_| r.below(n.into()) as u32).collect();
    places.extend(r.one_in(8).then(|| r.word()));
    if !r.one_in(8) {
        places.sort();
    }
    let wanted = questions(bytes, d, &places);
    let input = typed(r, &places);
    assert_ended(&call_with(&words(r, "questions", &[name.to_owned()], d), input.as_bytes()), name, &wanted);
    numbers[1].count(&wanted);

    let wanted = balance(bytes, d);
    assert_ended(&call_with(&words(r, "balance", &["-".to_owned()], d), bytes), "-", &wanted);
    numbers[2].count(&wanted);

    let k = checked(bytes).map_or(10, |given| given.list.starts.len());
    let entries = if r.one_in(8) { r.word() } else { r.from(k as u64 - 1, 2 * k as u64) as u32 };
    let wanted = least_degree(bytes, entries);
    assert_ended(&call(&["degree", name, &entries.to_string()]), name, &wanted);
    numbers[3].count(&wanted);
}

#[test]
fn commands_on_the_examples() {
    let r = &mut Random::new(13);
    let numbers = &mut Default::default();
    for path in examples() {
        let bytes = contents(&path);
        for _ in 0..5 {
            every_command(r, path.to_str().expect("text"), &bytes, numbers);
        }
    }
}

#[test]
fn commands_on_random_files() {
    let (folder, r) = (folder("tables"), &mut Random::new(14));
    let mut numbers: [Numbers; 4] = Default::default();
    for round in 0..500 {
        let k = if round % 100 == 0 { r.from(900, 2000) } else { r.from(1, 60) } as usize;
        let bytes = random_file(r, k, 4);
        every_command(r, &written(&folder, "list", &bytes), &bytes, &mut numbers);
    }
    for (came, wanted) in numbers.iter().zip([&[0, 7, 11][..], &[0, 7, 11, 16], &[0, 7], &[0, 19]]) {
        assert!(wanted.iter().all(|number| came.0.get(number) >= Some(&5)), "{came:?}");
        assert!(came.0[&0] >= 250, "{came:?}");
    }
}

/// The largest lists, through which long walks go.
#[test]
fn keys_of_the_largest_list() {
    let r = &mut Random::new(15);
    let list = crate::random::legal(r, 16_384);
    let file = crate::random::file(&list, 8);
    let n = list.n;
    let tables = balanced(&file, None).expect("a legal list").2;
    for _ in 0..5 {
        let (place, moves) = (r.below(n.into()) as u32, r.below(2000) as u32);
        let interval = definition::find(n, &tables, place).expect("below n");
        let to = definition::steps(n, &tables, interval, place, moves).expect("a walk");
        let wanted = format!("{} {} {} {}\n", to.place, to.interval, to.distance, to.count);
        assert_eq!(call_with(&["key", "-", &place.to_string(), &moves.to_string()], &file), Ended::done(wanted));
    }
    let rows = call_with(&["balance", "-"], &file).out;
    assert_eq!(rows.lines().count(), tables.starts.len() + 1);
}

/// The keys that the paper gives.
#[test]
fn known_keys() {
    let document = "examples/document.bin";
    assert_eq!(call(&["key", document, "11", "1"]), Ended::done("3 1 1 2\n"));
    assert_eq!(call(&["key", document, "0", "0"]), Ended::done("0 0 0 0\n"));
    // By 3, 13 and 5 back to 11, with two starts read, none, one and one.
    assert_eq!(call(&["key", document, "11", "4"]), Ended::done("11 4 3 4\n"));
    assert_eq!(call(&["key", document, "11", "40000000"]), Ended::done("11 4 3 40000000\n"));
    assert_eq!(call(&["key", "examples/psi.bin", "15", "1"]), Ended::done("35 10 1 2\n"));
    assert_eq!(call_with(&["questions", document], b""), Ended::done(""));
    assert_eq!(call_with(&["questions", document], b" \n\n"), Ended::done(""));
    let beyond = "zibewoka: examples/document.bin: refused 11 16: place 16 is not below n, 16\n";
    assert_eq!(call(&["key", document, "16", "0"]), Ended::stopped(1, beyond));
    let order =
        "zibewoka: examples/document.bin: refused 16 1: question 1 asks about place 3, below 11 of the one before\n";
    assert_eq!(call_with(&["questions", document], b"11 3"), Ended::stopped(1, order));
}

#[test]
fn places_that_are_no_numbers() {
    for (input, index, word) in [
        ("x", 0, r#""x""#),
        ("1 2 +3", 2, r#""+3""#),
        ("1\n-2", 1, r#""-2""#),
        ("0x10", 0, r#""0x10""#),
        ("4294967296", 0, r#""4294967296""#),
        ("1,2", 0, r#""1,2""#),
        (&"9".repeat(100_000), 0, &format!("{:?}", "9".repeat(40))),
    ] {
        let said = format!(
            "zibewoka: standard input: the place of question {index} is {word}, not a decimal number from 0 to 4294967295\n"
        );
        assert_eq!(call_with(&["questions", "examples/document.bin"], input.as_bytes()), Ended::stopped(2, said));
    }
    assert_eq!(call_with(&["questions", "examples/document.bin"], b"\xff\x00").status, 2);
    let endless = std::fs::File::open("/dev/zero").expect("/dev/zero is there");
    let output = program().args(["questions", "examples/document.bin"]).stdin(endless).output().expect("it ends");
    assert_eq!(Ended::of(output).status, 2);
}

/// The numbers in a picture's heading are those of the second program.
#[test]
fn headings_of_pictures() {
    let r = &mut Random::new(19);
    for _ in 0..100 {
        let (d, k) = (r.from(2, 4) as u32, r.from(1, 60) as usize);
        let list = crate::random::legal(r, k);
        let (starts, _) = definition::balanced(list.n, &list.starts, &list.images, d as usize);
        let plain = definition::tables(list.n, &list.starts, &list.images);
        let weight = |x: u32| definition::weight(list.n, &plain, x).expect("a legal list");
        let heavy = (0..k as u32).filter(|&x| weight(x) >= 2 * d).count();
        let picture = call_with(&["draw", "-", "-o", "-"], &crate::random::file(&list, d)).out;
        let said = |count: usize, what: &str| format!(" · {count} {what}{}", if count == 1 { "" } else { "s" });
        let cuts = said(starts.len() - k, "cut") + &said(heavy, "heavy run");
        assert!(picture.contains(&cuts) && picture.contains(&said(k, "run")), "{cuts}");
    }
}

/// A picture is written to a file, or to standard output.
#[test]
fn pictures() {
    let folder = folder("pictures");
    for path in examples() {
        let (name, bytes) = (path.to_str().expect("text"), contents(&path));
        let out = folder.join("out.svg");
        let [out_word, d] = [format!("-o{}", out.display()), "3".into()];
        let ended = call(&["draw", name, &out_word, "-d", &d]);
        match checked(&bytes) {
            Err(refused) => {
                assert_ended(&ended, name, &Err(refused));
                assert!(!out.exists());
            }
            Ok(_) => {
                assert_eq!(ended, Ended::done(""));
                let picture = std::fs::read_to_string(&out).expect("a picture is written");
                assert!(picture.contains("<svg") && picture.trim_end().ends_with("</svg>"));
                assert_eq!(call(&["draw", name, "--output=-", "--degree=3"]), Ended::done(picture));
                std::fs::remove_file(&out).expect("the picture goes");
            }
        }
    }
    let list = written(&folder, "list.bin", &document());
    let hard = folder.join("hard.bin");
    std::fs::hard_link(&list, &hard).expect("a second name of the list");
    for output in [list.replace("list.bin", "../pictures/list.bin"), hard.display().to_string()] {
        let ended = call(&["draw", &list, "-o", &output]);
        assert!(ended.err.contains(".bin\" is the list itself, which the picture would replace; see "), "{ended:?}");
        assert_eq!((ended.status, contents(list.as_ref())), (2, document()));
    }
    let input = std::fs::File::open(&list).expect("the list");
    let output = program().args(["draw", "-", "-o", &list]).stdin(input).output().expect("the program ends");
    assert_eq!((Ended::of(output).status, contents(list.as_ref())), (2, document()));
    let nowhere = call(&["draw", "examples/document.bin", "-o", "/nowhere/out.svg"]);
    let said = "zibewoka: /nowhere/out.svg: can't be written: No such file or directory (os error 2)\n";
    assert_eq!(nowhere, Ended::stopped(2, said));
}

/// The pictures that the README shows are those that the program draws.
#[test]
fn pictures_of_the_documents() {
    for name in ["document", "archive"] {
        let shown = std::fs::read_to_string(repository().join(format!("docs/{name}.svg"))).expect("a picture");
        assert_eq!(call(&["draw", &format!("examples/{name}.bin"), "-o", "-"]), Ended::done(shown));
    }
}
