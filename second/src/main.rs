//! The second program's commands; see README.md.

use std::path::Path;
use std::process::ExitCode;

use second::corpus::*;
use second::listing::{listing, listing_of_folder};
use second::{numbers_table, view_cases, writer_cases};

const USAGE: &str = "usage:
  second numbers
  second list DIR
  second corpus SEED COUNT OUT_CASES OUT_EXPECTED
  second cases SEED COUNT DIR
  second writers SEED COUNT OUT_CASES OUT_EXPECTED
  second views SEED COUNT OUT_CASES OUT_EXPECTED";

fn main() -> ExitCode {
    let words: Vec<String> = std::env::args().skip(1).collect();
    let words: Vec<&str> = words.iter().map(String::as_str).collect();
    match run(&words) {
        Ok(()) => ExitCode::SUCCESS,
        Err(message) => {
            eprintln!("{message}");
            ExitCode::from(2)
        }
    }
}

fn run(words: &[&str]) -> Result<(), String> {
    match *words {
        ["numbers"] => {
            print!("{}", numbers_table::numbers_table());
            Ok(())
        }
        ["list", folder] => {
            print!("{}", listing_of_folder(Path::new(folder)));
            Ok(())
        }
        ["corpus", seed, count, out_cases, out_expected] => {
            let cases = corpus_cases(number(seed)?, number(count)? as usize);
            let expected = expected_text(&cases);
            eprint!("{}", summary(&expected));
            write(Path::new(out_cases), &cases_file(&cases))?;
            write(Path::new(out_expected), expected.as_bytes())
        }
        ["cases", seed, count, folder] => {
            fresh_cases(number(seed)?, number(count)? as usize, Path::new(folder))
        }
        ["writers", seed, count, out_cases, out_expected] => {
            let cases = writer_cases::writer_cases(number(seed)?, number(count)? as usize);
            write(Path::new(out_cases), &writer_cases::cases_file(&cases))?;
            write(
                Path::new(out_expected),
                writer_cases::expected_text(&cases).as_bytes(),
            )
        }
        ["views", seed, count, out_cases, out_expected] => {
            let cases = view_cases::view_cases(number(seed)?, number(count)? as usize);
            write(Path::new(out_cases), &view_cases::cases_file(&cases))?;
            write(
                Path::new(out_expected),
                view_cases::expected_text(&cases).as_bytes(),
            )
        }
        _ => Err(USAGE.to_string()),
    }
}

fn number(word: &str) -> Result<u64, String> {
    word.parse().map_err(|_| format!("not a number: {word}"))
}

fn write(path: &Path, bytes: &[u8]) -> Result<(), String> {
    std::fs::write(path, bytes).map_err(|error| format!("cannot write {}: {error}", path.display()))
}

fn make_folder(path: &Path) -> Result<(), String> {
    std::fs::create_dir_all(path)
        .map_err(|error| format!("cannot make {}: {error}", path.display()))
}

/// `cases.bin` and `expected.txt`, and for each case of kind 1 a folder with
/// its two files and the listing expected; then the folders where a file
/// cannot be read.
fn fresh_cases(seed: u64, count: usize, folder: &Path) -> Result<(), String> {
    let cases = random_cases(seed, count);
    make_folder(folder)?;
    write(&folder.join("cases.bin"), &cases_file(&cases))?;
    write(
        &folder.join("expected.txt"),
        expected_text(&cases).as_bytes(),
    )?;
    for (index, case) in cases.iter().enumerate() {
        if case.kind == 1 {
            let place = folder.join(format!("{:05}", index + 1));
            make_folder(&place)?;
            write(&place.join("graph.bin"), &case.graph)?;
            write(&place.join("anchors.bin"), &case.anchors)?;
            let text = listing(Some(&case.graph), Some(&case.anchors));
            write(&place.join("listing.txt"), text.as_bytes())?;
        }
    }
    let good_graph = &second::hand::G1[..];
    let bad_graph = &second::hand::G1[..30];
    let good_anchors = &second::hand::G1_ANCHORS[..];
    // A file that is missing, or a folder under its name, cannot be read.
    for (name, graph, anchors) in [
        ("none-none", None, None),
        ("none-good", None, Some(good_anchors)),
        ("good-none", Some(good_graph), None),
        ("bad-none", Some(bad_graph), None),
        ("good-good", Some(good_graph), Some(good_anchors)),
    ] {
        for folders in [false, true] {
            let place = folder.join(if folders {
                format!("{name}-folders")
            } else {
                name.into()
            });
            make_folder(&place)?;
            for (file, bytes) in [("graph.bin", graph), ("anchors.bin", anchors)] {
                match bytes {
                    Some(bytes) => write(&place.join(file), bytes)?,
                    None if folders => make_folder(&place.join(file))?,
                    None => (),
                }
            }
            write(
                &place.join("listing.txt"),
                listing(graph, anchors).as_bytes(),
            )?;
        }
    }
    Ok(())
}
