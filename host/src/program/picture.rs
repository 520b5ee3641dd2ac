//! The command `draw`.

use super::arguments::{Arguments, Wrong};
use super::draw::{svg, Drawing};
use super::failure::{Failure, DONE};
use super::names::Shown;
use super::tables::balanced;
use super::Ended;
use std::ffi::OsStr;
use std::fs::{self, File};
use std::io::{self, Write};
use std::os::fd::AsFd;
use std::os::unix::fs::MetadataExt;
use std::path::Path;
use zibewoka::RunList;

/// `draw FILE -o OUT.svg`: a picture of a list and of how balancing cuts it.
pub fn draw(arguments: &Arguments, out: &mut dyn Write) -> Ended {
    let [file] = arguments.operands(["FILE"])?;
    let output = arguments.value("output").ok_or(Wrong::Missing("-o OUT.svg"))?;
    if is_one_file(file, output) {
        return Err(Wrong::Output(output.to_owned()).into());
    }
    let (table, list, degree) = balanced(arguments, file)?;
    let is_cut = |start: &u32| list.starts().binary_search(start).is_err();
    let picture = svg(&Drawing {
        title: &title(file),
        n: list.n(),
        starts: list.starts(),
        images: list.images(),
        degree,
        weights: &weights(&list),
        cuts: &table.starts().iter().copied().filter(is_cut).collect::<Vec<u32>>(),
    });
    match output == "-" {
        true => out.write_all(picture.as_bytes())?,
        false => fs::write(output, picture).map_err(|error| Failure::unwritten(output, &error))?,
    }
    Ok(DONE)
}

/// Whether the picture would take the place of the list, by whichever ways they lead there: two names, a link, or standard input.
fn is_one_file(file: &OsStr, output: &OsStr) -> bool {
    if output == "-" {
        return false;
    }
    let read = if file == "-" { standard_input() } else { fs::metadata(file) };
    let identity = |metadata: &fs::Metadata| (metadata.dev(), metadata.ino());
    matches!((read, fs::metadata(output)), (Ok(read), Ok(written)) if identity(&read) == identity(&written))
}

fn standard_input() -> io::Result<fs::Metadata> {
    File::from(io::stdin().as_fd().try_clone_to_owned()?).metadata()
}

/// The file's own name, without its folders.
fn title(file: &OsStr) -> String {
    Shown(Path::new(file).file_name().unwrap_or(file)).to_string()
}

/// How many starts of the list lie under each run's image.
fn weights(list: &RunList) -> Vec<u32> {
    let starts = list.starts();
    let ends = starts.iter().skip(1).copied().chain([list.n()]);
    let below = |place: u64| starts.partition_point(|&start| u64::from(start) < place);
    let weight = |((&start, &image), end): ((&u32, &u32), u32)| {
        let image_end = u64::from(image) + u64::from(end - start);
        (below(image_end) - below(image.into())) as u32
    };
    starts.iter().zip(list.images()).zip(ends).map(weight).collect()
}

#[cfg(test)]
mod tests {
    use super::*;

    #[test]
    fn weights_of_the_papers_list() {
        let list = RunList::new(16, vec![0, 2, 4, 6, 8], vec![14, 12, 10, 8, 0]).expect("a legal list");
        assert_eq!(weights(&list), [0, 0, 0, 1, 4]);
        let one = RunList::new(u32::MAX, vec![0], vec![0]).expect("a legal list");
        assert_eq!(weights(&one), [1]);
    }

    #[test]
    fn a_title_is_the_files_own_name() {
        assert_eq!(title(OsStr::new("a/b.bin")), "b.bin");
        assert_eq!(title(OsStr::new("-")), "-");
        assert_eq!(title(OsStr::new("/")), "/");
    }
}
