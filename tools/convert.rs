//! Converts a file of distances that were saved before prices came in
//! hundredths, by the library's own call.

use std::ffi::OsString;
use std::fmt::Display;
use std::fs::{self, File, OpenOptions, Permissions};
use std::io::{self, Read, Write};
use std::os::unix::fs::OpenOptionsExt;
use std::path::{Path, PathBuf};
use std::process::ExitCode;

use vukstaja::Refusal;

const HELP: &str = "\
usage: convert SAVED CONVERTED

Converts distances that were saved before prices came in hundredths: reads the
file SAVED and writes the file CONVERTED, which may be the same one. Each is
words of eight bytes, most significant byte first, in two's complement. The old
mark of an unreached yard, 274877906944, becomes 549755813887, and every other
distance, from -31000000 to 31000000, a hundredfold.

If a word is neither, `refused 11 PLACE` is printed, with the place of the first
such word, the file's first word being 0. Everything else that is wrong is told
on standard error. Either way nothing is written, and the exit status is 1, or 2
when the names are not given as above.

CONVERTED is written beside its place, as CONVERTED.converting, and put there
when it is whole. It gets SAVED's permissions. If it is a link, the file that it
leads to is replaced. A conversion that is killed may leave CONVERTED.converting
behind; SAVED and CONVERTED are then as they were.

Convert a file once. A converted file is refused only where one of its words is
out of range now; else it would be made a hundredfold again.
";

/// Why nothing was converted.
enum Failure {
    Refused(Refusal),
    /// A file, and what is wrong with it.
    File(PathBuf, String),
}

fn main() -> ExitCode {
    let arguments: Vec<OsString> = std::env::args_os().skip(1).collect();
    if arguments.iter().any(|argument| argument == "--help") {
        return print(HELP, ExitCode::SUCCESS);
    }
    let [saved, converted] = &arguments[..] else {
        return complain(
            "expected two names, SAVED and CONVERTED; --help says more",
            2,
        );
    };
    match convert_file(Path::new(saved), Path::new(converted)) {
        Ok(()) => ExitCode::SUCCESS,
        Err(Failure::Refused(refusal)) => print(&refusal_line(&refusal), ExitCode::FAILURE),
        Err(Failure::File(name, what)) => complain(format!("{}: {what}", name.display()), 1),
    }
}

/// What is read is known to be good before anything is written.
fn convert_file(saved: &Path, converted: &Path) -> Result<(), Failure> {
    let (bytes, permissions) = read(saved).map_err(|error| cannot(saved, "read", error))?;
    let mut words = words_of(saved, &bytes)?;
    vukstaja::convert(&mut words).map_err(Failure::Refused)?;
    let bytes: Vec<u8> = words.iter().flat_map(|word| word.to_be_bytes()).collect();
    replace(&place_of(converted)?, &bytes, permissions)
}

fn read(name: &Path) -> io::Result<(Vec<u8>, Permissions)> {
    let mut file = File::open(name)?;
    let mut bytes = Vec::new();
    file.read_to_end(&mut bytes)?;
    Ok((bytes, file.metadata()?.permissions()))
}

fn words_of(name: &Path, bytes: &[u8]) -> Result<Vec<i64>, Failure> {
    let (words, rest) = bytes.as_chunks();
    if rest.is_empty() {
        return Ok(words.iter().copied().map(i64::from_be_bytes).collect());
    }
    let left = match rest.len() {
        1 => "1 byte is left over".to_string(),
        count => format!("{count} bytes are left over"),
    };
    let what = format!("is not a whole number of words of eight bytes: {left}");
    Err(Failure::File(name.to_path_buf(), what))
}

/// Where the converted file goes: to the end of a link, and to the place of a
/// file or of nothing. A folder or a device is not replaced.
fn place_of(name: &Path) -> Result<PathBuf, Failure> {
    let place = match name.is_symlink() {
        true => fs::canonicalize(name).map_err(|error| cannot(name, "written", error))?,
        false => name.to_path_buf(),
    };
    match place.exists() && !place.is_file() {
        true => Err(cannot(name, "written", "it is not a regular file")),
        false => Ok(place),
    }
}

/// Puts a whole file in a place at once, or leaves the place as it was.
fn replace(place: &Path, bytes: &[u8], permissions: Permissions) -> Result<(), Failure> {
    let mut name = place.as_os_str().to_os_string();
    name.push(".converting");
    let new = PathBuf::from(name);
    let file = create(&new).map_err(|error| match error.kind() {
        io::ErrorKind::AlreadyExists => is_there(&new),
        _ => cannot(&new, "written", error),
    })?;
    let written =
        write_whole(file, bytes, permissions).map_err(|error| cannot(&new, "written", error));
    let put = written
        .and_then(|()| fs::rename(&new, place).map_err(|error| cannot(place, "written", error)));
    if put.is_err() {
        // What failed first is told, whether or not this works.
        let _ = fs::remove_file(&new);
    }
    put
}

/// Distances are nobody else's business, so the file is closed to others until
/// it gets its own permissions.
fn create(name: &Path) -> io::Result<File> {
    let mut options = OpenOptions::new();
    options.write(true).create_new(true).mode(0o600).open(name)
}

fn write_whole(mut file: File, bytes: &[u8], permissions: Permissions) -> io::Result<()> {
    file.write_all(bytes)?;
    file.set_permissions(permissions)?;
    file.sync_all()
}

fn is_there(name: &Path) -> Failure {
    let what =
        "is there already: another conversion is under way, or was killed; in that case remove it";
    Failure::File(name.to_path_buf(), what.to_string())
}

fn cannot(name: &Path, done: &str, why: impl Display) -> Failure {
    Failure::File(name.to_path_buf(), format!("cannot be {done}: {why}"))
}

/// As the desk's program prints it.
fn refusal_line(refusal: &Refusal) -> String {
    match refusal.place {
        Some(place) => format!("refused {} {place}\n", refusal.number),
        None => format!("refused {}\n", refusal.number),
    }
}

fn print(text: &str, code: ExitCode) -> ExitCode {
    let mut output = io::stdout();
    match output
        .write_all(text.as_bytes())
        .and_then(|()| output.flush())
    {
        Ok(()) => code,
        Err(error) => complain(format!("standard output: cannot be written: {error}"), 1),
    }
}

fn complain(what: impl Display, code: u8) -> ExitCode {
    // There is nowhere left to tell that this cannot be told.
    let _ = writeln!(io::stderr(), "convert: {what}");
    ExitCode::from(code)
}
