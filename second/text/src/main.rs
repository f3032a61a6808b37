//! `net`: networks as text. Statuses: 0 accepted or done, 1 refused, 2 anything else that is wrong.

mod files;

use std::ffi::{OsStr, OsString};
use std::io::Write;
use std::os::unix::ffi::OsStrExt;
use std::path::Path;
use std::process::ExitCode;

use files::Input;
use net::sentences::sentence;
use net::{assemble_with, decode, disassemble, keys, rows, Assembled, Error, NamedFile};
use second::tables::LONGEST;
use second::Refusal;

const USAGE: &str = "net assemble TEXT FILE | net disassemble FILE | net check TEXT | net rows FILE";

const HELP: &str = "
net assemble TEXT FILE      makes a network file of a text
net disassemble FILE        prints the text of a network file
net check TEXT              assembles and checks; names the line of a refusal
net rows FILE               lists services, operations and behaviours with their row numbers

- is standard input or output. Status: 0 accepted or done, 1 refused, 2 anything else that is wrong.
";

/// No text is so long.
const LONGEST_TEXT: usize = 1 << 24;

const ACCEPTED: u8 = 0;
const REFUSED: u8 = 1;
const WRONG: u8 = 2;

/// A status and what goes to standard error.
struct Failure(u8, String);

impl From<String> for Failure {
    fn from(message: String) -> Failure {
        Failure(WRONG, message)
    }
}

fn main() -> ExitCode {
    let status = run(std::env::args_os().skip(1)).unwrap_or_else(|Failure(status, message)| {
        let _ = writeln!(std::io::stderr(), "{message}");
        status
    });
    ExitCode::from(status)
}

fn run(mut arguments: impl Iterator<Item = OsString>) -> Result<u8, Failure> {
    let mut words = Vec::new();
    while let Some(word) = arguments.next() {
        match word.to_str() {
            Some("--") => words.extend(arguments.by_ref()),
            Some("--help") => return tell(&format!("usage: {USAGE}\n{HELP}")),
            Some("--version") => return tell(concat!("net ", env!("CARGO_PKG_VERSION"), "\n")),
            _ if word != "-" && word.as_encoded_bytes().starts_with(b"-") => {
                let word = word.to_string_lossy();
                return Err(format!("net: unknown option '{word}'\nusage: {USAGE}").into());
            }
            _ => words.push(word),
        }
    }
    let words: Vec<&OsStr> = words.iter().map(OsString::as_os_str).collect();
    match words.split_first().map(|(command, names)| (command.to_str(), names)) {
        Some((Some("assemble"), [text, file])) => run_assemble(text, file),
        Some((Some("disassemble"), [file])) => print_of(file, disassemble),
        Some((Some("check"), [text])) => run_check(text),
        Some((Some("rows"), [file])) => print_of(file, rows),
        _ => Err(format!("net: a command and its files expected\nusage: {USAGE}").into()),
    }
}

/// Prints what is made of no input.
fn tell(text: &str) -> Result<u8, Failure> {
    files::write(OsStr::new("-"), text.as_bytes(), &[])?;
    Ok(ACCEPTED)
}

fn read_text(name: &OsStr) -> Result<Input, Failure> {
    let input = files::read(name, LONGEST_TEXT)?;
    if input.bytes.len() > LONGEST_TEXT {
        return Err(format!("{}: a text has at most {LONGEST_TEXT} bytes", input.name).into());
    }
    Ok(input)
}

fn in_text(input: &Input, error: Error) -> Failure {
    let status = if error.refusal.is_some() { REFUSED } else { WRONG };
    Failure(status, format!("{}: {error}", error.file.as_ref().unwrap_or(&input.name)))
}

/// Assembles a text; a file that it names stands beside it, or is found from the working folder if the text
/// comes from standard input. Also the file that was read.
fn assembled(name: &OsStr, text: &str) -> (Result<Assembled, Error>, Input) {
    let folder = if name == "-" { None } else { Path::new(name).parent() };
    let mut named = Input::default();
    let made = assemble_with(text, &mut |file| {
        let path = folder.unwrap_or(Path::new("")).join(OsStr::from_bytes(file));
        named = files::read_file(&path, types::LONGEST)?;
        Ok(NamedFile { name: named.name.clone(), bytes: named.bytes.clone() })
    });
    (made, named)
}

fn run_assemble(name: &OsStr, file: &OsStr) -> Result<u8, Failure> {
    let input = read_text(name)?;
    let text = decode(&input.bytes).map_err(|error| in_text(&input, error))?;
    let (made, named) = assembled(name, text);
    let made = made.map_err(|error| in_text(&input, error))?;
    files::write(file, &made.file, &[&input, &named])?;
    Ok(ACCEPTED)
}

fn print_of(name: &OsStr, make: fn(&[u8]) -> Result<String, Refusal>) -> Result<u8, Failure> {
    let input = files::read(name, LONGEST)?;
    let text = make(&input.bytes)
        .map_err(|refusal| Failure(REFUSED, format!("{}: {refusal}: {}", input.name, refusal.cause.sentence())))?;
    files::write(OsStr::new("-"), text.as_bytes(), &[&input])?;
    Ok(ACCEPTED)
}

fn run_check(name: &OsStr) -> Result<u8, Failure> {
    let input = read_text(name)?;
    let text = decode(&input.bytes).map_err(|error| in_text(&input, error))?;
    let (made, named) = assembled(name, text);
    let (report, refused) = match made {
        Ok(made) => {
            let verdict = second::check(&made.file);
            let told = match &verdict {
                Ok(_) => noted(&input.name, text, &made),
                Err(refusal) => refused_at(&input.name, text, &made, refusal),
            };
            (second::report(&verdict) + &told, verdict.is_err())
        }
        Err(Error { refusal: Some(refusal), file, line, column, .. }) => {
            let told = told(file.as_ref().unwrap_or(&input.name), line, column, refusal.sentence());
            (format!("{refusal}\n{told}"), true)
        }
        Err(error) => return Err(in_text(&input, error)),
    };
    files::write(OsStr::new("-"), report.as_bytes(), &[&input, &named])?;
    Ok(if refused { REFUSED } else { ACCEPTED })
}

/// The line that leads to the row at a refusal's place.
fn refused_at(name: &str, text: &str, made: &Assembled, refusal: &Refusal) -> String {
    let place = made.origin(text, refusal);
    place.map_or(String::new(), |(line, column)| told(name, line, column, &sentence(made, text, refusal)))
}

/// The lines that lead to what is accepted and will not do what it seems to.
fn noted(name: &str, text: &str, made: &Assembled) -> String {
    keys::notes(made, text).iter().map(|note| told(name, note.line, note.column, &note.message)).collect()
}

/// The line that leads to what is refused or noted.
fn told(name: &str, line: usize, column: usize, sentence: &str) -> String {
    format!("{name}: line {line}, column {column}: {sentence}\n")
}
