//! What `net` reads and writes: named files, or standard input and output for `-`.

use std::ffi::OsStr;
use std::fs::{self, File, OpenOptions, Permissions};
use std::io::{self, ErrorKind, Read, Write};
use std::os::fd::AsFd;
use std::os::unix::fs::MetadataExt;
use std::path::Path;

#[derive(Default)]
pub struct Input {
    /// For messages.
    pub name: String,
    pub bytes: Vec<u8>,
    /// Device and inode of a regular file.
    identity: Option<(u64, u64)>,
}

/// Reads at most one byte more than the longest input, which tells that it is too long.
pub fn read(name: &OsStr, longest: usize) -> Result<Input, String> {
    if name == "-" {
        let open = || Ok(File::from(io::stdin().as_fd().try_clone_to_owned()?));
        return read_opened(open, "standard input".into(), longest);
    }
    read_file(Path::new(name), longest)
}

/// The same of a file, whatever its name is.
pub fn read_file(path: &Path, longest: usize) -> Result<Input, String> {
    read_opened(|| File::open(path), path.to_string_lossy().into_owned(), longest)
}

fn read_opened(open: impl Fn() -> io::Result<File>, name: String, longest: usize) -> Result<Input, String> {
    let read = || -> io::Result<(Vec<u8>, Option<(u64, u64)>)> {
        let file = open()?;
        let mut bytes = Vec::new();
        (&file).take(longest as u64 + 1).read_to_end(&mut bytes)?;
        Ok((bytes, identity(&file)?))
    };
    match read() {
        Ok((bytes, identity)) => Ok(Input { name, bytes, identity }),
        Err(error) => Err(format!("{name}: {error}")),
    }
}

/// Writes bytes made of inputs, a regular file whole or not at all, and never over an input.
pub fn write(name: &OsStr, bytes: &[u8], inputs: &[&Input]) -> Result<(), String> {
    if name == "-" {
        let written = standard_output().and_then(|file| write_open(&file, bytes, inputs));
        return written.map_err(|error| format!("standard output: {error}"));
    }
    let written = write_named(Path::new(name), bytes, inputs);
    written.map_err(|error| format!("{}: {error}", name.to_string_lossy()))
}

fn standard_output() -> io::Result<File> {
    Ok(File::from(io::stdout().as_fd().try_clone_to_owned()?))
}

fn identity(file: &File) -> io::Result<Option<(u64, u64)>> {
    let metadata = file.metadata()?;
    Ok(metadata.is_file().then(|| (metadata.dev(), metadata.ino())))
}

fn other_than(inputs: &[&Input], file: &File) -> io::Result<()> {
    let identity = identity(file)?;
    match inputs.iter().find(|input| input.identity.is_some() && input.identity == identity) {
        Some(input) => Err(io::Error::other(format!("this is the input, {}; nothing is written", input.name))),
        None => Ok(()),
    }
}

fn write_open(mut file: &File, bytes: &[u8], inputs: &[&Input]) -> io::Result<()> {
    other_than(inputs, file)?;
    file.write_all(bytes)
}

fn write_named(path: &Path, bytes: &[u8], inputs: &[&Input]) -> io::Result<()> {
    match OpenOptions::new().write(true).open(path) {
        Ok(file) if file.metadata()?.is_file() => {
            other_than(inputs, &file)?;
            replace(&fs::canonicalize(path)?, bytes, Some(file.metadata()?.permissions()))
        }
        Ok(file) => write_open(&file, bytes, inputs),
        Err(error) if error.kind() == ErrorKind::NotFound && fs::symlink_metadata(path).is_err() => {
            replace(path, bytes, None)
        }
        Err(error) => Err(error),
    }
}

/// Writes a file beside the path, then gives it the path's name.
fn replace(path: &Path, bytes: &[u8], permissions: Option<Permissions>) -> io::Result<()> {
    let beside = path.with_file_name(format!(".net-{}", std::process::id()));
    let mut file = OpenOptions::new().write(true).create_new(true).open(&beside)?;
    let fill = || {
        file.write_all(bytes)?;
        permissions.map_or(Ok(()), |permissions| file.set_permissions(permissions))?;
        file.sync_all()?;
        fs::rename(&beside, path)
    };
    fill().inspect_err(|_| {
        let _ = fs::remove_file(&beside);
    })
}
