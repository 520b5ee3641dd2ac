//! The listing program on random files, sound and damaged.

use crate::definition;
use crate::random::{random_file, Random};
use std::collections::BTreeSet;
use std::io::Write;
use std::path::Path;
use std::process::{Command, Stdio};

/// What the program prints for a file on its standard input.
fn printed(program: &Path, file: &[u8]) -> String {
    let mut child =
        Command::new(program).stdin(Stdio::piped()).stdout(Stdio::piped()).spawn().expect("the listing program starts");
    let mut input = child.stdin.take().expect("its standard input");
    // It stops reading where no further byte can matter, so the end of a long file may find no reader.
    let _ = input.write_all(file);
    drop(input);
    let output = child.wait_with_output().expect("the listing program ends");
    assert!(output.status.success());
    String::from_utf8(output.stdout).expect("a listing is text")
}

#[test]
fn listings_of_random_files() {
    let root = Path::new(env!("CARGO_MANIFEST_DIR")).parent().expect("host/ stands in the repository");
    let listing = root.join("crates/listing");
    let built = Command::new("rt").arg("run").current_dir(&listing).output().expect("rt is on the path");
    let [told, warned] = [&built.stdout, &built.stderr].map(|said| String::from_utf8_lossy(said));
    assert!(built.status.success(), "rt run in crates/listing: {told}{warned}");
    let program = listing.join("out/listing");
    let r = &mut Random::new(5);
    let mut begun = BTreeSet::new();
    for round in 0..3000 {
        let k = if round % 50 == 0 { r.from(900, 1030) } else { r.from(1, 40) } as usize;
        let file = random_file(r, k, 2);
        let wanted = definition::listing(&file);
        assert_eq!(printed(&program, &file), wanted);
        let refused = wanted.strip_prefix("refused ").and_then(|rest| rest.split(' ').next());
        begun.insert(refused.map_or(0, |number| number.parse().expect("a number")));
    }
    assert_eq!(Vec::from_iter(begun), [0, 1, 2, 3, 4, 5, 6, 7, 15], "each number that a file can give");
    // The program reads one byte more than the longest file that is listed: with that byte it is refused.
    let places = (0..1024).chain(0..1024);
    let mut longest: Vec<u8> = [1024, 1024, 2, 20, 4116].into_iter().chain(places).flat_map(u32::to_le_bytes).collect();
    assert_eq!(printed(&program, &longest), definition::listing(&longest));
    longest.push(0);
    assert_eq!(printed(&program, &longest), "refused 15 20\n");
}
