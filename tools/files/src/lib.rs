//! Files that are read whole, and files that are replaced whole.
#![forbid(unsafe_code)]

use std::fs::{self, File, OpenOptions};
use std::io::{self, Read, Write};
use std::path::{Path, PathBuf};
use std::process;

/// The most bytes that are read of a file.
const MOST: u64 = 1 << 26;

/// A file's name for messages.
pub fn shown(path: &Path) -> String {
    path.display().to_string()
}

/// What a file holds.
pub fn read_file(path: &Path) -> Result<Vec<u8>, String> {
    let name = shown(path);
    if path.is_dir() {
        return Err(format!("{name} is a folder"));
    }
    let file = File::open(path).map_err(|why| match why.kind() {
        io::ErrorKind::NotFound => format!("there is no file {name}"),
        _ => format!("{name} cannot be read"),
    })?;
    read(file, &name)
}

/// What standard input holds.
pub fn read_input() -> Result<Vec<u8>, String> {
    read(io::stdin(), "standard input")
}

fn read(from: impl Read, name: &str) -> Result<Vec<u8>, String> {
    let mut bytes = Vec::new();
    from.take(MOST + 1)
        .read_to_end(&mut bytes)
        .map_err(|why| format!("{name} cannot be read: {}", plain(&why)))?;
    if bytes.len() as u64 > MOST {
        return Err(format!("{name} has more than {MOST} bytes"));
    }
    Ok(bytes)
}

/// An error without its number.
fn plain(why: &io::Error) -> String {
    let said = why.to_string();
    said.split(" (os error").next().unwrap_or(&said).to_string()
}

/// A new file beside the one that it is to replace; it goes if it is dropped before.
struct New {
    path: PathBuf,
    target: PathBuf,
    kept: bool,
}

impl Drop for New {
    fn drop(&mut self) {
        if !self.kept {
            let _ = fs::remove_file(&self.path);
        }
    }
}

/// Puts texts into files: each has all of its new bytes or all of its old ones. Where one cannot be
/// written none is replaced.
pub fn replace(files: &[(&Path, &[u8])]) -> Result<(), String> {
    let mut targets: Vec<PathBuf> = Vec::new();
    for (place, (path, _)) in files.iter().enumerate() {
        let target = target(path)?;
        if let Some(other) = targets.iter().position(|other| *other == target) {
            let (other, this) = (shown(files[other].0), shown(files[place].0));
            return Err(format!("{other} and {this} are one file"));
        }
        targets.push(target);
    }
    let mut news = Vec::new();
    for ((path, text), target) in files.iter().zip(targets) {
        let name = shown(path);
        let failed = |why: io::Error| format!("{name} cannot be written: {}", plain(&why));
        let new = written(target, news.len(), text).map_err(failed)?;
        news.push((name, new));
    }
    for (name, new) in &mut news {
        let failed = |why: io::Error| format!("{name} cannot be written: {}", plain(&why));
        fs::rename(&new.path, &new.target).map_err(failed)?;
        new.kept = true;
    }
    Ok(())
}

/// The file behind a name: a plain one, or none yet.
fn target(path: &Path) -> Result<PathBuf, String> {
    let name = shown(path);
    match fs::metadata(path) {
        Ok(found) if found.is_dir() => Err(format!("{name} is a folder")),
        Ok(found) if !found.is_file() => Err(format!("{name} is no plain file")),
        Ok(_) => path.canonicalize().map_err(|why| format!("{name}: {}", plain(&why))),
        Err(why) if why.kind() == io::ErrorKind::NotFound => {
            let (folder, last) = (folder(path), path.file_name());
            let last = last.ok_or_else(|| format!("{name} is no name of a file"))?;
            let folder = folder.canonicalize();
            Ok(folder
                .map_err(|why| format!("{name} cannot be written: {}", plain(&why)))?
                .join(last))
        }
        Err(why) => Err(format!("{name} cannot be written: {}", plain(&why))),
    }
}

fn folder(path: &Path) -> &Path {
    match path.parent() {
        Some(folder) if folder != Path::new("") => folder,
        _ => Path::new("."),
    }
}

/// A new file with these bytes beside its target.
fn written(target: PathBuf, number: usize, text: &[u8]) -> io::Result<New> {
    let path = folder(&target).join(format!(".lawcheck-{}-{number}", process::id()));
    let mut file = OpenOptions::new().write(true).create_new(true).open(&path)?;
    let new = New { path, target, kept: false };
    if let Ok(old) = fs::metadata(&new.target) {
        file.set_permissions(old.permissions())?;
    }
    file.write_all(text)?;
    file.sync_all()?;
    Ok(new)
}
