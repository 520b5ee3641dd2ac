//! `audit` of a collection of four hundred lists, line by line, and of folders with odd things in them.

use crate::definition;
use crate::files::{begin, checked, contents, document, examples, written};
use crate::process::{call, folder, Ended};
use crate::random::{damage_file, file, legal, random_file, List, Random};
use std::fs;
use std::os::unix::fs::symlink;
use std::path::{Path, PathBuf};
use std::process::Command;
use std::thread;
use std::time::{Duration, Instant};

/// What stands behind a list's path, or its begin where the list is refused.
fn verdict(bytes: &[u8], d: Option<u32>) -> Result<String, String> {
    let forecast = || {
        let given = checked(bytes)?;
        let List { n, starts, images } = &given.list;
        let (asked, k) = (d.unwrap_or(given.d), starts.len());
        let (intervals, cuts) = definition::forecast(*n, starts, images, asked, usize::MAX).outcome?;
        Ok(format!("accepted: n {n}, k {k}, d {asked}, K {intervals}, cuts {cuts}"))
    };
    forecast().map_err(begin)
}

/// The verdicts on all files, on as many threads as there are cores.
fn verdicts(files: &[(PathBuf, Vec<u8>)], d: Option<u32>) -> Vec<Result<String, String>> {
    let threads = thread::available_parallelism().map_or(1, |count| count.get());
    let part = |first: usize| files.iter().skip(first).step_by(threads).map(|(_, bytes)| verdict(bytes, d));
    let mut parts: Vec<_> = thread::scope(|scope| {
        let started: Vec<_> = (0..threads).map(|x| scope.spawn(move || part(x).collect::<Vec<_>>())).collect();
        started.into_iter().map(|part| part.join().expect("verdicts").into_iter()).collect()
    });
    (0..files.len()).map(|x| parts[x % threads].next().expect("a verdict for each")).collect()
}

/// A collection of four hundred lists, in folders: most are small, some of the largest, some damaged.
fn collection(folder: &Path) -> Vec<(PathBuf, Vec<u8>)> {
    let r = &mut Random::new(17);
    let mut files = Vec::new();
    for x in 0..400 {
        let k = match x % 50 {
            7 => 16_384,
            17 => r.from(1000, 4000) as usize,
            27 | 37 => r.from(100, 1000) as usize,
            _ => r.from(1, 100) as usize,
        };
        let mut bytes = if k == 16_384 { file(&legal(r, k), [2, 3, 8, 64][x / 50 % 4]) } else { random_file(r, k, 10) };
        if x == 107 {
            damage_file(r, &mut bytes);
        }
        let below = ["", "b", "b/a", "c.bin", "c.bin/d"][x % 5];
        files.push((folder.join(below).join(format!("{}.bin", r.below(1 << 40))), bytes));
    }
    for (path, bytes) in &files {
        fs::create_dir_all(path.parent().expect("a folder")).expect("the test's own folder");
        fs::write(path, bytes).expect("the test's own file");
    }
    files.sort();
    files
}

/// Compares the lines of an audit with the verdicts; answers how many lists are refused.
fn assert_lines(out: &str, files: &[(PathBuf, Vec<u8>)], verdicts: &[Result<String, String>]) -> usize {
    for ((line, (path, bytes)), verdict) in out.lines().zip(files).zip(verdicts) {
        let path = path.display();
        match verdict {
            Ok(accepted) => assert_eq!(line, format!("{path}: {accepted}")),
            Err(begin) => {
                let sentence = line.strip_prefix(&format!("{path}: {begin}"));
                let refusal = zibewoka::RunList::from_file(bytes).err().map(|refusal| refusal.to_string());
                assert!(
                    sentence.is_some() && (refusal.is_none() || sentence == refusal.as_deref()),
                    "{line}, not {begin}"
                );
            }
        }
    }
    verdicts.iter().filter(|verdict| verdict.is_err()).count()
}

#[test]
fn four_hundred_lists() {
    let folder = folder("collection");
    let files = collection(&folder);
    written(&folder, "notes.txt", b"no list");
    written(&folder, "b/more.bin.txt", b"no list either");
    let name = folder.to_str().expect("text");

    let begin = Instant::now();
    let ended = call(&["audit", name]);
    let took = begin.elapsed();
    println!("an audit of {} lists took {took:?}", files.len());
    assert!(took <= Duration::from_secs(3), "an audit of four hundred lists took {took:?}");

    let refused = assert_lines(&ended.out, &files, &verdicts(&files, None));
    assert!((20..100).contains(&refused), "{refused} are refused");
    let accepted = files.len() - refused;
    let total = format!("400 lists: {accepted} accepted, {refused} refused, 0 not read; 2 other files left out");
    assert_eq!(ended.out.lines().last(), Some(&total[..]));
    // And no bar: standard error is a pipe here.
    assert_eq!((ended.status, ended.out.lines().count(), &ended.err[..]), (1, 401, ""));
}

#[test]
fn another_degree() {
    let folder = folder("degrees");
    let r = &mut Random::new(18);
    let mut files: Vec<_> = (0..100)
        .map(|x| {
            let k = r.from(1, 60) as usize;
            (folder.join(format!("{x}.bin")), random_file(r, k, 5))
        })
        .collect();
    files.sort();
    files.iter().for_each(|(path, bytes)| fs::write(path, bytes).expect("the test's own file"));
    for d in [2, 3, 64] {
        let ended = call(&["audit", folder.to_str().expect("text"), "-d", &d.to_string()]);
        let refused = assert_lines(&ended.out, &files, &verdicts(&files, Some(d)));
        assert_eq!((ended.status, ended.out.lines().count()), (1, 101));
        assert!(ended.out.ends_with(&format!("{refused} refused, 0 not read\n")));
    }
    let said = "zibewoka audit: option --degree is \"1\", not a number from 2 to 64; see zibewoka audit --help\n";
    assert_eq!(call(&["audit", folder.to_str().expect("text"), "-d1"]), Ended::stopped(2, said));
}

#[test]
fn the_examples() {
    let files: Vec<_> = examples().into_iter().map(|path| (path.clone(), contents(&path))).collect();
    let ended = call(&[Path::new("audit"), files[0].0.parent().expect("a folder")]);
    let refused = assert_lines(&ended.out, &files, &verdicts(&files, None));
    assert_eq!((ended.status, refused, ended.out.lines().count()), (1, 7, 13));
}

#[test]
fn few_lists() {
    let folder = folder("few");
    let name = folder.to_str().expect("text");
    assert_eq!(call(&["audit", name]), Ended::done("0 lists: 0 accepted, 0 refused, 0 not read\n"));
    let list = written(&folder, ".bin", &document());
    let line = format!("{list}: accepted: n 16, k 5, d 2, K 6, cuts 1\n");
    assert_eq!(call(&["audit", name]), Ended::done(line.clone() + "1 list: 1 accepted, 0 refused, 0 not read\n"));
    written(&folder, "bin", b"");
    let total = "1 list: 1 accepted, 0 refused, 0 not read; 1 other file left out\n";
    assert_eq!(call(&["audit", name]), Ended::done(line + total));
}

/// A link to a folder, one to itself and one to nothing, and a pipe. That they can't be read stands over a refusal.
#[test]
fn odd_things_in_a_folder() {
    let folder = folder("odd");
    fs::create_dir_all(folder.join("below")).expect("a folder");
    let document = document();
    let list = written(&folder, "below/list.bin", &document);
    let refused = written(&folder, "below/refused.bin", b"");
    symlink("..", folder.join("below/up")).expect("a link to a folder above");
    symlink("..", folder.join("below/up.bin")).expect("another, that ends as a list does");
    symlink("below/list.bin", folder.join("link.bin")).expect("a link to a list");
    symlink("nothing", folder.join("nothing.bin")).expect("a link to nothing");
    symlink("round.bin", folder.join("round.bin")).expect("a link to itself");
    let made = Command::new("mkfifo").arg(folder.join("pipe.bin")).status().expect("mkfifo is there");
    assert!(made.success());

    let name = folder.to_str().expect("text");
    let accepted = "accepted: n 16, k 5, d 2, K 6, cuts 1";
    let wanted = [
        format!("{list}: {accepted}"),
        format!("{refused}: refused 15 0: the file has 0 bytes, and its header needs 20"),
        format!("{name}/link.bin: {accepted}"),
        format!("{name}/nothing.bin: can't be read: No such file or directory (os error 2)"),
        format!("{name}/pipe.bin: can't be read: it is no regular file"),
        format!("{name}/round.bin: can't be read: Too many levels of symbolic links (os error 40)"),
        "6 lists: 2 accepted, 1 refused, 3 not read; 2 other files left out".to_owned(),
    ];
    let ended = call(&["audit", name]);
    // `rt ci` takes no checkout with links in it, wherever they stand.
    fs::remove_dir_all(&folder).expect("the folder goes");
    assert_eq!(ended.out.lines().collect::<Vec<_>>(), wanted);
    assert_eq!((ended.status, &ended.err[..]), (2, ""));
}

/// Folders in one another, whose names together have more than 2,200 bytes; answers the innermost.
fn nested(folder: &Path) -> PathBuf {
    let innermost = (0..11).fold(folder.to_owned(), |path, _| path.join("n".repeat(200)));
    fs::create_dir_all(&innermost).expect("folders");
    innermost
}

/// A folder whose path has more bytes than the system takes can't be read, by nobody; what stands beside it is audited.
#[test]
fn a_folder_that_can_not_be_read() {
    let folder = folder("deep");
    let (upper, lower) = (folder.join("upper"), folder.join("lower"));
    let innermost = nested(&upper);
    nested(&lower);
    fs::rename(&lower, innermost.join("lower")).expect("the folders in one another");
    let list = written(&folder, "list.bin", &document());

    let ended = call(&["audit", folder.to_str().expect("text")]);
    let lines: Vec<&str> = ended.out.lines().collect();
    assert_eq!(lines.len(), 3, "{lines:?}");
    assert_eq!(lines[0], format!("{list}: accepted: n 16, k 5, d 2, K 6, cuts 1"));
    assert!(lines[1].ends_with("nnn: can't be read: File name too long (os error 36)"));
    assert_eq!(lines[2], "1 list: 1 accepted, 0 refused, 0 not read; 1 folder not read");
    assert_eq!((ended.status, &ended.err[..]), (2, ""));
    fs::remove_dir_all(folder).expect("other programs may not know what to do with it");
}
