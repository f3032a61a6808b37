//! `operators write FOLDER`: writes the cases of `generate::operators` and their answers.

use std::fs;
use std::path::Path;
use std::process::ExitCode;

use generate::operators;

fn run(arguments: &[String]) -> Result<(), String> {
    let folder = match arguments {
        [word, folder] if word == "write" => Path::new(folder),
        _ => return Err("usage: operators write FOLDER".into()),
    };
    for (name, bytes) in operators::folder() {
        let path = folder.join(name);
        fs::write(&path, bytes).map_err(|error| format!("{}: {error}", path.display()))?;
    }
    Ok(())
}

fn main() -> ExitCode {
    let arguments: Vec<String> = std::env::args().skip(1).collect();
    match run(&arguments) {
        Ok(()) => ExitCode::SUCCESS,
        Err(message) => {
            eprintln!("{message}");
            ExitCode::FAILURE
        }
    }
}
