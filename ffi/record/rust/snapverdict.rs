//! Judges a recorded history: by the library of snapjudge if it is there, and else by the program.
//!
//! One file, Unix, no dependencies; `snapdrive.rs` uses it. Nothing is linked: the library is opened while the program runs.
//!
//! ```text
//! let status = Judge::find(None, 65536)?.status(&text, ".")?; // 0 atomic, 1 only regular, 2 not regular
//! ```
//!
//! SPDX-License-Identifier: 0BSD
//! Copyright (C) 2026 by the authors of snapjudge
//! Permission to use, copy, modify, and/or distribute this software for any purpose with or without fee is hereby granted.
//! THE SOFTWARE IS PROVIDED "AS IS" AND THE AUTHOR DISCLAIMS ALL WARRANTIES WITH REGARD TO THIS SOFTWARE INCLUDING ALL IMPLIED
//! WARRANTIES OF MERCHANTABILITY AND FITNESS. IN NO EVENT SHALL THE AUTHOR BE LIABLE FOR ANY SPECIAL, DIRECT, INDIRECT, OR
//! CONSEQUENTIAL DAMAGES OR ANY DAMAGES WHATSOEVER RESULTING FROM LOSS OF USE, DATA OR PROFITS, WHETHER IN AN ACTION OF
//! CONTRACT, NEGLIGENCE OR OTHER TORTIOUS ACTION, ARISING OUT OF OR IN CONNECTION WITH THE USE OR PERFORMANCE OF THIS SOFTWARE.
#![allow(dead_code)]

use std::ffi::{c_char, c_int, c_void, CStr, CString};
use std::fs::{self, File};
use std::os::unix::fs::PermissionsExt;
use std::path::{Path, PathBuf};
use std::process::{self, Command, Stdio};
use std::sync::atomic::{AtomicU64, Ordering};
use std::{env, fmt, io};

/// Why there is no verdict.
#[derive(Debug)]
pub enum Error {
    NoJudge(String),
    NoVerdict(String),
    /// A file can't be written.
    Files(String),
}

impl fmt::Display for Error {
    fn fmt(&self, f: &mut fmt::Formatter<'_>) -> fmt::Result {
        match self {
            Error::NoJudge(message) => write!(f, "no judge: {message}"),
            Error::NoVerdict(message) => write!(f, "no verdict: {message}"),
            Error::Files(message) => write!(f, "files: {message}"),
        }
    }
}

impl std::error::Error for Error {}

type Version = unsafe extern "C" fn() -> u32;
type Check = unsafe extern "C" fn(*const u8, usize, u32, *mut u8, usize, *mut usize) -> u32;

extern "C" {
    fn dlopen(name: *const c_char, flags: c_int) -> *mut c_void;
    fn dlsym(library: *mut c_void, name: *const c_char) -> *mut c_void;
}

const RTLD_NOW: c_int = 2;

/// The library if it is there, and else the program.
pub struct Judge {
    program: Option<PathBuf>,
    check: Option<Check>,
    /// How many events a history may have.
    events: u32,
    /// Of all judges of this process.
    number: u64,
}

static JUDGES: AtomicU64 = AtomicU64::new(0);

fn find_program(named: &str) -> Option<PathBuf> {
    let is_program = |place: &PathBuf| fs::metadata(place).is_ok_and(|it| it.is_file() && it.permissions().mode() & 0o111 != 0);
    let folders = if named.contains('/') { vec![PathBuf::new()] } else { env::split_paths(&env::var_os("PATH")?).collect() };
    folders.iter().map(|folder| folder.join(named)).find(is_program)?.canonicalize().ok()
}

/// Whether the program says its version. A program of another kind may end with 0 whatever it is given, and that is not a verdict.
fn is_judge(program: &Path) -> bool {
    let said = Command::new(program).arg("--version").stdin(Stdio::null()).output();
    said.is_ok_and(|said| {
        let version = said.stdout.strip_prefix(b"snapjudge ");
        said.status.success() && version.and_then(<[u8]>::first).is_some_and(u8::is_ascii_digit)
    })
}

fn load(place: &Path) -> Option<Check> {
    let name = CString::new(place.to_str()?).ok()?;
    // SAFETY: the names end with a 0 byte, and the two calls are those that a library of this version has by these names.
    unsafe {
        let library = dlopen(name.as_ptr(), RTLD_NOW);
        let find = |name: &CStr| Some(dlsym(library, name.as_ptr())).filter(|found| !library.is_null() && !found.is_null());
        let version: Version = std::mem::transmute(find(c"snapjudge_version")?);
        let check: Check = std::mem::transmute(find(c"snapjudge_check_limit")?);
        (version() == 1).then_some(check)
    }
}

impl Judge {
    /// The program is the one that is named, else that of `SNAPJUDGE_PROGRAM`, else `snapjudge`. `SNAPJUDGE_LIBRARY` names the library;
    /// it is empty for none. Else it is sought beside the program.
    pub fn find(named: Option<&str>, events: u32) -> Result<Judge, Error> {
        let by_name = env::var("SNAPJUDGE_PROGRAM").ok().filter(|name| !name.is_empty());
        let named = named.or(by_name.as_deref()).unwrap_or("snapjudge");
        let program = find_program(named);
        if let Some(other) = program.as_deref().filter(|program| !is_judge(program)) {
            return Err(Error::NoJudge(format!("{} is not snapjudge: it tells no version of it", other.display())));
        }
        let folder = program.as_deref().and_then(Path::parent).unwrap_or(Path::new("."));
        let missing = |what: &str| Error::NoJudge(format!("there is no {what}: install snapjudge, or name it by --program"));
        let check = match env::var("SNAPJUDGE_LIBRARY") {
            Ok(library) if library.is_empty() => None,
            Ok(library) => Some(load(Path::new(&library)).ok_or_else(|| missing(&format!("library {library}")))?),
            Err(_) => ["../lib", "ffi/build"]
                .iter()
                .find_map(|place| load(&folder.join(place).join("libsnapjudge.so")))
                .or_else(|| load(Path::new("libsnapjudge.so"))),
        };
        if check.is_none() && program.is_none() {
            return Err(missing(&format!("program {named}")));
        }
        Ok(Judge { program, check, events, number: JUDGES.fetch_add(1, Ordering::Relaxed) })
    }

    /// The name of a file that this judge of this process may write into a folder.
    fn scratch(&self, out: &str) -> String {
        format!("{out}/run-{}-{}.csv", process::id(), self.number)
    }

    /// Tries whether files can be written into a folder, before the first run, so that none is lost.
    pub fn test_folder(&self, out: &str) -> Result<(), Error> {
        write(&self.scratch(out), "")?;
        let _ = fs::remove_file(self.scratch(out));
        Ok(())
    }

    /// 0 for atomic, 1 for only regular, 2 for not regular. A file of the folder `out` holds the text meanwhile.
    pub fn status(&self, text: &str, out: &str) -> Result<u32, Error> {
        let status = match self.check {
            Some(check) => {
                let (mut report, mut length) = (vec![0; 2 * text.len() + 256], 0);
                // SAFETY: the pointers and lengths are those of borrowed places that lie apart and were written.
                unsafe { check(text.as_ptr(), text.len(), self.events, report.as_mut_ptr(), report.len(), &mut length) }
            }
            None => self.by_program(text, out)?,
        };
        if status > 2 {
            return Err(Error::NoVerdict(format!("the judge ends with status {status}")));
        }
        Ok(status)
    }

    /// Tries, before the first run, whether the judge recognizes a history that is not regular: its view misses an update. A judge
    /// whose status is lost, as by a script with a pipe, would call every run atomic.
    pub fn test_verdict(&self, out: &str) -> Result<(), Error> {
        let stale = "event,process,op,data\nbegin,0,update,0:1:7\nend,0,update,\nbegin,1,view,\nend,1,view,\n";
        match self.status(stale, out)? {
            2 => Ok(()),
            status => Err(Error::NoJudge(format!("of a history that is not regular the judge tells status {status}, and not 2"))),
        }
    }

    fn by_program(&self, text: &str, out: &str) -> Result<u32, Error> {
        let name = self.scratch(out);
        write(&name, text)?;
        let status = self.call("check", &name, Stdio::null());
        let _ = fs::remove_file(&name);
        Ok(status)
    }

    /// Runs a command of the program over a file; its status, or 4.
    fn call(&self, command: &str, from: &str, to: Stdio) -> u32 {
        let events = format!("--events={}", self.events);
        let words = [command, &events].into_iter().chain((command == "check").then_some("--quiet"));
        let run = |program: &PathBuf| Command::new(program).args(words).stdin(File::open(from)?).stdout(to).status();
        let status = self.program.as_ref().ok_or(io::ErrorKind::NotFound.into()).and_then(run);
        status.ok().and_then(|status| status.code()).and_then(|code| u32::try_from(code).ok()).unwrap_or(4)
    }

    /// Writes a history, its witness and its explanation.
    pub fn keep(&self, text: &str, front: &str) -> Result<(), Error> {
        let caught = format!("{front}-caught.csv");
        write(&caught, text)?;
        for (verb, name) in [("shrink", "witness.csv"), ("explain", "explained.txt")] {
            let name = format!("{front}-{name}");
            let _ = fs::remove_file(&name); // of an earlier run
            if self.program.is_some() {
                let to = File::create(&name).map_err(|error| Error::Files(format!("{name} can't be written: {error}")))?;
                if self.call(verb, &caught, to.into()) > 2 {
                    return Err(Error::Files(format!("{name} can't be written")));
                }
            }
        }
        Ok(())
    }
}

fn write(name: &str, text: &str) -> Result<(), Error> {
    fs::write(name, text).map_err(|error| Error::Files(format!("{name} can't be written: {error}")))
}
