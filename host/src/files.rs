//! Reading files of any length, and replacing a file whole.

use crate::args::usage;
use crate::failure::{shown, Failure};
use crate::signals::parts;
use crate::stl;
use crate::streams::Streams;
use std::fs::{self, File, Permissions};
use std::io::{self, Read, Seek, SeekFrom, Write};
use std::path::{Path, PathBuf};
use std::sync::{Mutex, PoisonError};
use std::time::Duration;

/// The longest sheet file: 2,000,000 vertices, 4,000,000 triangles and the trailer.
const LONGEST_SHEET: u64 = 16 * 2_000_000 + 12 * 4_000_000 + 24;

/// Whether a name stands for standard input or output.
pub fn is_stream(path: &Path) -> bool {
    path == Path::new("-")
}

/// Reads at most so many bytes.
pub fn read_front(from: impl Read, most: u64) -> io::Result<Vec<u8>> {
    let mut bytes = Vec::new();
    from.take(most).read_to_end(&mut bytes)?;
    Ok(bytes)
}

/// Reads all, where that is not longer than a limit.
pub fn read_whole(from: impl Read, most: u64) -> io::Result<Vec<u8>> {
    at_most(read_front(from, most + 1)?, most)
}

/// Bytes that are not more than a limit.
fn at_most(bytes: Vec<u8>, most: u64) -> io::Result<Vec<u8>> {
    if bytes.len() as u64 > most {
        return Err(io::Error::other(format!(
            "it is longer than the {most} bytes that such a file may have; look at the name"
        )));
    }
    Ok(bytes)
}

/// Reads at most so many bytes of a file, or of standard input.
pub fn read_named(path: &Path, most: u64, streams: &mut Streams) -> io::Result<Vec<u8>> {
    if is_stream(path) {
        read_front(&mut *streams.input, most)
    } else {
        read_front(File::open(path)?, most)
    }
}

/// So many bytes of a file that is longer than any sheet are enough, its last: they hold the trailer, and no counts give
/// such a length, so the library's answer is the same as for the whole.
pub const END: usize = 25;

/// Reads a sheet file, or the end of one that is too long.
pub fn read_sheet(path: &Path) -> io::Result<Vec<u8>> {
    let mut file = File::open(path)?;
    let length = file.metadata()?.len();
    if length > LONGEST_SHEET {
        file.seek(SeekFrom::Start(length - END as u64))?;
        return read_front(file, END as u64);
    }
    read_whole(file, LONGEST_SHEET)
}

/// Reads a sheet file, or a sheet from standard input.
pub fn read_named_sheet(path: &Path, streams: &mut Streams) -> io::Result<Vec<u8>> {
    if is_stream(path) {
        read_whole(&mut *streams.input, LONGEST_SHEET)
    } else {
        read_sheet(path)
    }
}

/// The longest STL file that is read: of 20,000,000 facets, five times as many as a sheet can have.
const LONGEST_STL: u64 = 84 + 50 * 20_000_000;

/// Reads a binary STL file, or of one that is longer than its count asks for one byte too many: the library's answer is the
/// same as for the whole.
fn read_stl(mut from: impl Read) -> io::Result<Vec<u8>> {
    let mut bytes = read_front(&mut from, stl::HEAD as u64)?;
    if let Some(count) = stl::said_count(&bytes) {
        let enough = (stl::length(count) + 1).min(LONGEST_STL + 1);
        from.take(enough - stl::HEAD as u64).read_to_end(&mut bytes)?;
    }
    at_most(bytes, LONGEST_STL)
}

/// Reads a binary STL file, or one from standard input.
pub fn read_named_stl(path: &Path, streams: &mut Streams) -> io::Result<Vec<u8>> {
    if is_stream(path) {
        read_stl(&mut *streams.input)
    } else {
        read_stl(File::open(path)?)
    }
}

/// A name without detours: of a file that is there, or of one that could be made in a folder that is there.
fn real(path: &Path) -> Option<PathBuf> {
    let made = || Some(folder_of(path).canonicalize().ok()?.join(path.file_name()?));
    path.canonicalize().ok().or_else(made)
}

/// Whether two names are those of one file, or are one name.
fn same(a: &Path, b: &Path) -> bool {
    a == b || matches!((real(a), real(b)), (Some(a), Some(b)) if a == b)
}

/// Says that no file is both read and written, none is written twice, and standard input is read once.
pub fn apart(read: &[&Path], written: &[&Path]) -> Result<(), Failure> {
    if read.iter().filter(|path| is_stream(path)).count() > 1 {
        return usage("standard input can be read once only: one - is enough");
    }
    for (at, new) in written.iter().enumerate() {
        let others = written[..at].iter().chain(read.iter().filter(|path| !is_stream(path)));
        if let Some(other) = others.into_iter().find(|other| same(new, other)) {
            let what = if is_stream(new) { "standard output".to_string() } else { shown(other) };
            return usage(format!("{what} would be written over: name another file"));
        }
    }
    Ok(())
}

/// Writes a file, or to standard output.
pub fn put(path: &Path, bytes: &[u8], force: bool, streams: &mut Streams) -> Result<(), Failure> {
    Pending::new(path, force)?.finish(bytes, streams)
}

/// Writes a file that is read back and tested before it gets its name: where the test says no, the old file stays or there is none.
/// What the test answers besides is returned.
pub fn put_tested<T>(
    path: &Path,
    bytes: &[u8],
    force: bool,
    test: impl FnOnce(&[u8]) -> (T, bool),
) -> Result<T, Failure> {
    let put = || {
        let mut part = Part::begin(path, force)?;
        part.write(bytes)?;
        let (answer, good) = test(&fs::read(&part.name)?);
        if good {
            part.give_name()?;
        }
        Ok(answer)
    };
    put().map_err(|error| Failure::writing(path, &error))
}

/// Makes a folder; answers whether it was there already.
pub fn make_folder(path: &Path) -> io::Result<bool> {
    match fs::create_dir(path) {
        Ok(()) => Ok(false),
        Err(_) if path.is_dir() => Ok(true),
        Err(error) if error.kind() == io::ErrorKind::AlreadyExists => {
            Err(io::Error::other("it is there and is no folder; name another"))
        }
        Err(error) => Err(error),
    }
}

/// A command's answer: on standard output, or on standard error where the file that was written has taken that.
pub fn answer(written: &Path, line: &str, streams: &mut Streams) -> Result<(), Failure> {
    if is_stream(written) {
        streams.flush()?;
        streams.say(line);
        return Ok(());
    }
    streams.print(format_args!("{line}"))?;
    streams.flush()
}

/// A file that is to be written. It is begun beside its name, and gets the name when it is whole and on the disk: whatever
/// happens on the way, the old file stays or there is none. A link is followed. Only a plain file is replaced, never a
/// folder or a device.
pub struct Pending {
    path: PathBuf,
    /// Nothing for standard output.
    part: Option<Part>,
}

struct Part {
    target: PathBuf,
    name: PathBuf,
    file: File,
    old: Option<Permissions>,
}

impl Pending {
    pub fn new(path: &Path, force: bool) -> Result<Pending, Failure> {
        let begin = || Part::begin(path, force).map_err(|error| Failure::writing(path, &error));
        let part = if is_stream(path) { None } else { Some(begin()?) };
        Ok(Pending { path: path.to_path_buf(), part })
    }

    pub fn finish(mut self, bytes: &[u8], streams: &mut Streams) -> Result<(), Failure> {
        match &mut self.part {
            None => streams.put(bytes),
            Some(part) => part.finish(bytes).map_err(|error| Failure::writing(&self.path, &error)),
        }
    }
}

impl Part {
    fn begin(path: &Path, force: bool) -> io::Result<Part> {
        let (target, old) = target(path, force)?;
        let (name, file) = create_beside(&target)?;
        Ok(Part { target, name, file, old })
    }

    fn finish(&mut self, bytes: &[u8]) -> io::Result<()> {
        self.write(bytes)?;
        self.give_name()
    }

    /// All of it, to the disk.
    fn write(&mut self, bytes: &[u8]) -> io::Result<()> {
        self.file.write_all(bytes)?;
        if let Some(permissions) = self.old.take() {
            self.file.set_permissions(permissions)?;
        }
        self.file.sync_all()
    }

    fn give_name(&mut self) -> io::Result<()> {
        let mut parts = parts();
        fs::rename(&self.name, &self.target)?;
        parts.retain(|part| *part != self.name);
        drop(parts);
        // the new name is on the disk when the folder is; a folder that cannot be synced has no better way
        let _ = File::open(folder_of(&self.target)).and_then(|folder| folder.sync_all());
        Ok(())
    }
}

impl Drop for Part {
    fn drop(&mut self) {
        let mut parts = parts();
        if let Some(at) = parts.iter().position(|part| *part == self.name) {
            let _ = fs::remove_file(&self.name);
            parts.remove(at);
        }
    }
}

/// The file behind a name, and what its rights are where it is there already.
fn target(path: &Path, force: bool) -> io::Result<(PathBuf, Option<Permissions>)> {
    match fs::symlink_metadata(path) {
        Ok(_) => {
            let real = path.canonicalize()?;
            let about = real.metadata()?;
            if !about.is_file() {
                return Err(io::Error::other("it is not a plain file; name another"));
            }
            if !force && (about.permissions().readonly() || File::options().write(true).open(&real).is_err()) {
                return Err(io::Error::other("it is write-protected; --force replaces it"));
            }
            Ok((real, Some(about.permissions())))
        }
        Err(error) if error.kind() == io::ErrorKind::NotFound => Ok((path.to_path_buf(), None)),
        Err(error) => Err(error),
    }
}

fn folder_of(target: &Path) -> &Path {
    match target.parent() {
        Some(parent) if parent != Path::new("") => parent,
        _ => Path::new("."),
    }
}

/// What the names of unfinished files begin with on this machine; the number of the process follows.
fn own_parts() -> String {
    let host = fs::read_to_string("/proc/sys/kernel/hostname").unwrap_or_default();
    let host: String = host.chars().filter(char::is_ascii_alphanumeric).take(40).collect();
    format!(".malxuqeed-{host}-")
}

/// A new file in the folder of another. What dead processes left there is swept away.
fn create_beside(target: &Path) -> io::Result<(PathBuf, File)> {
    let (folder, own) = (folder_of(target), own_parts());
    sweep(folder, &own);
    let mut tries = 0;
    let mut parts = parts();
    loop {
        let name = folder.join(format!("{own}{}-{tries}.part", std::process::id()));
        match File::options().write(true).create_new(true).open(&name) {
            Ok(file) => {
                parts.push(name.clone());
                return Ok((name, file));
            }
            Err(error) if error.kind() == io::ErrorKind::AlreadyExists && tries < 1000 => tries += 1,
            Err(error) => return Err(error),
        }
    }
}

/// The folder that was swept last: for many files in one folder, once is enough.
static SWEPT: Mutex<Option<PathBuf>> = Mutex::new(None);

/// Removes the unfinished files of this machine's processes that are no more. They must be a minute old, since a process
/// may be alive where this one cannot see it.
fn sweep(folder: &Path, own: &str) {
    let mut swept = SWEPT.lock().unwrap_or_else(PoisonError::into_inner);
    if swept.as_deref() == Some(folder) || !Path::new("/proc/self").exists() {
        return;
    }
    *swept = Some(folder.to_path_buf());
    for entry in fs::read_dir(folder).into_iter().flatten().flatten() {
        let name = entry.file_name();
        let process = name.to_str().and_then(|name| name.strip_prefix(own)?.strip_suffix(".part")?.split('-').next());
        let dead = process.is_some_and(|id| id.parse::<u32>().is_ok() && !Path::new("/proc").join(id).exists());
        if dead && age(&entry).is_some_and(|age| age > Duration::from_secs(60)) {
            let _ = fs::remove_file(entry.path());
        }
    }
}

fn age(entry: &fs::DirEntry) -> Option<Duration> {
    entry.metadata().ok()?.modified().ok()?.elapsed().ok()
}

#[cfg(test)]
mod tests {
    use super::*;

    #[test]
    fn a_file_has_its_name_after_its_test() {
        let folder = std::env::temp_dir().join(format!("malxuqeed-files-{}", std::process::id()));
        assert_eq!(make_folder(&folder).ok(), Some(false));
        assert_eq!(make_folder(&folder).ok(), Some(true));
        let path = folder.join("new");
        let names = || fs::read_dir(&folder).into_iter().flatten().flatten().count();
        let put = |bytes: &[u8], good: bool| {
            let before = fs::read(&path).ok();
            let test = |written: &[u8]| {
                // all of it is there, under another name
                assert_eq!((written, fs::read(&path).ok()), (bytes, before.clone()));
                (written.len(), good)
            };
            put_tested(&path, bytes, false, test).ok()
        };
        assert_eq!((put(b"wrong", false), names()), (Some(5), 0));
        assert_eq!((put(b"good", true), names()), (Some(4), 1));
        assert_eq!((put(b"wrong again", false), names()), (Some(11), 1));
        assert_eq!(fs::read(&path).ok().as_deref(), Some(&b"good"[..]));
        assert!(put_tested(&folder, b"", true, |_| ((), true)).is_err());
        assert!(make_folder(&path).is_err());
        assert!(fs::remove_dir_all(&folder).is_ok());
    }
}
