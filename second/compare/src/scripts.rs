//! `scripts [write] FOLDER`: the moves that are stored in a folder, by both sides.
//!
//! The folder has of each case the text of a network (`.net`), its file (`.bin`) and a script with results (`.txt`).
//! Results of the library and of the proved code (feature `proved`; else of the library behind the same interface)
//! must be the stored ones; the first other line is printed and the exit code is 1. With `write` the files and the
//! results are written, those of the library.

use std::fs;
use std::path::{Path, PathBuf};
use std::process::ExitCode;

use compare::script::play;
use compare::{beside_stored, other, Second, Side};

/// The cases of a folder, by their texts, in order of names.
fn cases(folder: &Path) -> Result<Vec<PathBuf>, String> {
    let entries = fs::read_dir(folder).map_err(|error| format!("{}: {error}", folder.display()))?;
    let mut texts: Vec<PathBuf> = entries.filter_map(|entry| Some(entry.ok()?.path())).collect();
    texts.retain(|path| path.extension().is_some_and(|found| found == "net"));
    texts.sort();
    Ok(texts)
}

fn read(path: &Path) -> Result<String, String> {
    fs::read_to_string(path).map_err(|error| format!("{}: {error}", path.display()))
}

/// The file of a case's text.
fn assembled(text: &Path) -> Result<Vec<u8>, String> {
    net::assemble(&read(text)?).map(|made| made.file).map_err(|error| format!("{}: {error}", text.display()))
}

fn played(side: &dyn Side, file: &[u8], script: &Path) -> Result<Vec<String>, String> {
    play(side, file, &read(script)?).map_err(|error| format!("{}: {error}", script.display()))
}

fn write(folder: &Path) -> Result<(), String> {
    for text in cases(folder)? {
        let (file, script) = (assembled(&text)?, text.with_extension("txt"));
        let lines = played(&Second, &file, &script)?;
        let put =
            |path: &Path, bytes: &[u8]| fs::write(path, bytes).map_err(|error| format!("{}: {error}", path.display()));
        put(&text.with_extension("bin"), &file)?;
        put(&script, (lines.join("\n") + "\n").as_bytes())?;
    }
    Ok(())
}

/// How many moves there are, or what differs.
fn compare(text: &Path, side: &dyn Side) -> Result<usize, String> {
    let (bin, script) = (text.with_extension("bin"), text.with_extension("txt"));
    let file = fs::read(&bin).map_err(|error| format!("{}: {error}", bin.display()))?;
    if assembled(text)? != file {
        return Err(format!("{} is not what its text assembles to", bin.display()));
    }
    let lines = played(side, &file, &script)?;
    let stored = read(&script)?;
    let stored: Vec<&str> = stored.lines().collect();
    match lines.iter().zip(&stored).find(|(line, stored)| line != *stored) {
        Some((line, stored)) => Err(format!("{}\nstored: {stored}\n{}: {line}", script.display(), side.name())),
        None if lines.len() != stored.len() => Err(format!("{}: other lines follow `state`", script.display())),
        None => Ok(lines.iter().filter(|line| !line.starts_with('#') && line.contains(':')).count()),
    }
}

fn run(arguments: &[String]) -> Result<(), String> {
    let folder = match arguments {
        [word, folder] if word == "write" => return write(Path::new(folder)),
        [folder] => Path::new(folder),
        _ => return Err("scripts [write] FOLDER".into()),
    };
    let (texts, other) = (cases(folder)?, other());
    let mut moves = 0;
    for text in &texts {
        moves += compare(text, &Second)?;
        compare(text, &other)?;
    }
    if moves == 0 {
        return Err(format!("{}: no moves", folder.display()));
    }
    println!("{} scripts, {moves} moves by {} and {} as stored", texts.len(), Second.name(), other.name());
    Ok(())
}

fn main() -> ExitCode {
    beside_stored(run)
}

#[cfg(test)]
mod tests {
    use super::*;
    use std::collections::BTreeSet;

    fn folder() -> PathBuf {
        Path::new(env!("CARGO_MANIFEST_DIR")).join("../../cases/moves")
    }

    #[test]
    fn each_stored_script_is_as_written() {
        let texts = cases(&folder()).expect("cases/moves");
        for text in &texts {
            for side in [&Second as &dyn Side, &compare::itself::itself()] {
                let moves = super::compare(text, side).unwrap_or_else(|difference| panic!("{difference}"));
                assert!(moves > 0, "{}", text.display());
            }
        }
        assert_eq!(
            3 * texts.len(),
            fs::read_dir(folder()).expect("cases/moves").count(),
            "a text, file and script each"
        );
    }

    #[test]
    fn another_result_is_seen() {
        let copy = std::env::temp_dir().join(format!("scripts-{}", std::process::id()));
        fs::create_dir_all(&copy).expect("a folder");
        let (from, to) = (folder().join("22_if"), copy.join("case"));
        let put = |ending: &str, from_text: &str, to_text: &str| {
            let bytes = fs::read(from.with_extension(ending)).expect("bytes");
            let changed = match from_text {
                "" => bytes,
                _ => String::from_utf8(bytes).expect("text").replace(from_text, to_text).into_bytes(),
            };
            fs::write(to.with_extension(ending), changed).expect("a copy");
        };
        ["net", "bin", "txt"].iter().for_each(|ending| put(ending, "", ""));
        let text = to.with_extension("net");
        assert_eq!(super::compare(&text, &Second), Ok(2));
        for (ending, from_text, to_text, told) in [
            ("txt", "2: 22", "2: 18", "stored: local 0 0 2: 18\nsecond: local 0 0 2: 22"),
            ("txt", "row 1 done", "row 2 done", "stored: 0 0 row 2 done\nsecond: 0 0 row 1 done"),
            ("txt", "0 0 row 1 done\n", "", "other lines follow `state`"),
            ("net", "int 1", "int 2", "is not what its text assembles to"),
        ] {
            put(ending, from_text, to_text);
            let difference = super::compare(&text, &Second).expect_err("a difference");
            assert!(difference.contains(told), "{difference}");
            put(ending, "", "");
        }
        fs::remove_dir_all(&copy).expect("no folder");
    }

    /// The number of a case's name is the result that it shows; the script says first what that is.
    #[test]
    fn each_script_shows_the_number_of_its_name() {
        for text in cases(&folder()).expect("cases/moves") {
            let name = text.file_stem().expect("a name").to_string_lossy().into_owned();
            let script = read(&text.with_extension("txt")).expect("a script");
            assert!(script.starts_with("# ") && script.contains(". 02: \""), "{name}");
            let results: BTreeSet<&str> = script
                .lines()
                .filter(|line| !line.starts_with('#'))
                .filter_map(|line| line.split_once(": ")?.1.split(' ').next())
                .collect();
            let number = name.split('_').next().expect("a number").trim_start_matches('0');
            assert!(results.contains(if number.is_empty() { "0" } else { number }), "{name}: {results:?}");
        }
    }
}
