//! Files, read whole and written beside and renamed. `-` is standard input or output.

use crate::numbers::harmless;
use crate::{Failure, Streams};
use std::ffi::OsStr;
use std::fs::{self, File, Metadata, OpenOptions};
use std::io::{self, ErrorKind, Read, Write};
use std::os::unix::fs::{fchown, MetadataExt, OpenOptionsExt};
use std::path::{Path, PathBuf};

/// A text longer than this is not read.
const MAX_TEXT_BYTES: usize = 16 << 20;

/// The name of a file that is read, as a text shows it.
pub fn name(path: &OsStr) -> String {
    harmless(&name_in_full(path))
}

/// The name of a file that is read, with whatever characters it has.
pub fn name_in_full(path: &OsStr) -> String {
    match is_stream(path) {
        true => "standard input".to_string(),
        false => path.to_string_lossy().into_owned(),
    }
}

pub fn is_stream(path: &OsStr) -> bool {
    path == "-"
}

/// What went wrong with a file, without the number that the system has for it.
pub fn failed(name: &str, error: &io::Error) -> String {
    let text = error.to_string();
    let words = text.split(" (os error").next().unwrap_or_default();
    format!("{name}: {words}")
}

fn failure(path: &OsStr, error: &io::Error) -> Failure {
    Failure::File(failed(&name(path), error))
}

/// The file as a stream of bytes.
fn open<'a>(path: &OsStr, input: &'a mut dyn Read) -> Result<Box<dyn Read + 'a>, Failure> {
    match is_stream(path) {
        true => Ok(Box::new(input)),
        false => Ok(Box::new(File::open(path).map_err(|error| failure(path, &error))?)),
    }
}

fn read_up_to(path: &OsStr, most: usize, streams: &mut Streams) -> Result<Vec<u8>, Failure> {
    let mut bytes = Vec::new();
    let mut file = open(path, streams.input)?.take(most as u64);
    file.read_to_end(&mut bytes).map_err(|error| failure(path, &error))?;
    Ok(bytes)
}

/// A map image. One that is longer than every map is cut behind its next byte, and so is refused for its length.
pub fn read_map(path: &OsStr, streams: &mut Streams) -> Result<Vec<u8>, Failure> {
    read_up_to(path, interface::MAX_IMAGE_BYTES + 1, streams)
}

pub fn read_text(path: &OsStr, streams: &mut Streams) -> Result<Vec<u8>, Failure> {
    let text = read_up_to(path, MAX_TEXT_BYTES + 1, streams)?;
    if text.len() > MAX_TEXT_BYTES {
        return Err(Failure::File(format!("{}: longer than {MAX_TEXT_BYTES} bytes", name(path))));
    }
    Ok(text)
}

/// A file of any length in pieces of `size` bytes, the last of which may be shorter. What is made of a piece goes to
/// standard output as soon as the piece is there, behind a heading if the file can be read at all.
pub fn print_pieces(
    path: &OsStr,
    size: usize,
    streams: &mut Streams,
    heading: &str,
    mut made: impl FnMut(&[u8]) -> String,
) -> Result<(), Failure> {
    const MOST: usize = 4096;
    let mut file = open(path, streams.input)?;
    let mut text = format!("{heading}\n");
    let (mut buffer, mut held) = (vec![0; size * MOST], 0);
    loop {
        let count = read_some(&mut file, &mut buffer[held..]).map_err(|error| failure(path, &error))?;
        held += count;
        let whole = if count == 0 { held } else { held / size * size };
        text.extend(buffer[..whole].chunks(size).map(&mut made));
        streams.output.write_all(text.as_bytes())?;
        streams.output.flush()?;
        if count == 0 {
            return Ok(());
        }
        text.clear();
        buffer.copy_within(whole..held, 0);
        held -= whole;
    }
}

/// The bytes that are there, one at least but at the file's end.
fn read_some(file: &mut dyn Read, buffer: &mut [u8]) -> io::Result<usize> {
    loop {
        match file.read(buffer) {
            Err(error) if error.kind() == ErrorKind::Interrupted => {}
            read => return read,
        }
    }
}

/// Writes a whole file, or to standard output.
pub fn write(path: &OsStr, bytes: &[u8], streams: &mut Streams) -> Result<(), Failure> {
    if is_stream(path) {
        return Ok(streams.output.write_all(bytes)?);
    }
    save(Path::new(path), bytes).map_err(|error| Failure::File(failed(&harmless(&path.to_string_lossy()), &error)))
}

/// A regular file is replaced as a whole, with the owner and the rights that it had; a link stays, and what it leads to
/// is replaced or made. A device or a pipe is written to.
fn save(path: &Path, bytes: &[u8]) -> io::Result<()> {
    match fs::metadata(path) {
        Ok(found) if found.is_file() => {
            // A file that may not be written is not to be replaced either.
            OpenOptions::new().write(true).open(path)?;
            replace(&fs::canonicalize(path)?, bytes, Some(found))
        }
        Ok(_) => OpenOptions::new().write(true).open(path)?.write_all(bytes),
        Err(error) if error.kind() == ErrorKind::NotFound => replace(&behind_links(path), bytes, None),
        Err(error) => Err(error),
    }
}

/// What a link leads to that leads to no file. Its links do not go round, which is another error.
fn behind_links(path: &Path) -> PathBuf {
    match fs::read_link(path) {
        Ok(target) => behind_links(&path.parent().unwrap_or(Path::new("")).join(target)),
        Err(_) => path.to_path_buf(),
    }
}

/// Writes a new file beside the old one, and then gives it the old one's name: at no moment is there half a file of
/// that name.
fn replace(path: &Path, bytes: &[u8], old: Option<Metadata>) -> io::Result<()> {
    // Until it has the rights of the old one, nobody else may look into it.
    let (beside, file) = create_beside(path, if old.is_some() { 0o600 } else { 0o666 })?;
    let written = fill(file, bytes, old).and_then(|()| fs::rename(&beside, path));
    if written.is_err() {
        let _ = fs::remove_file(&beside);
    }
    written
}

/// A new file in the same folder. Its name is short, whatever the other one's length.
fn create_beside(path: &Path, mode: u32) -> io::Result<(PathBuf, File)> {
    const MOST: usize = 100;
    if path.file_name().is_none() {
        return Err(io::Error::new(ErrorKind::NotFound, "No such file or directory"));
    }
    let mut attempt = 0;
    loop {
        let beside = path.with_file_name(format!(".yard.{}.{attempt}", std::process::id()));
        match OpenOptions::new().write(true).create_new(true).mode(mode).open(&beside) {
            // What a run that was killed left behind.
            Err(error) if error.kind() == ErrorKind::AlreadyExists && attempt < MOST => attempt += 1,
            opened => return opened.map(|file| (beside, file)),
        }
    }
}

fn fill(mut file: File, bytes: &[u8], old: Option<Metadata>) -> io::Result<()> {
    file.write_all(bytes)?;
    if let Some(old) = old {
        // Not everybody may give a file away.
        let _ = fchown(&file, Some(old.uid()), Some(old.gid()));
        file.set_permissions(old.permissions())?;
    }
    file.sync_all()
}
