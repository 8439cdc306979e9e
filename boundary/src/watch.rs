//! Calls in a process of their own: if one of them ends it, the other process
//! still knows which call that was.

use std::fs::File;
use std::os::unix::fs::FileExt;
use std::os::unix::process::ExitStatusExt;
use std::path::{Path, PathBuf};
use std::process::Command;

/// The option that tells a program that it is the watched process.
pub const IN_PROCESS: &str = "--in-process";

/// How the watched process ended.
pub enum Ended {
    Status(u8),
    Signal(i32),
}

/// Starts this program again with the same arguments, as the watched process.
pub fn run_watched(arguments: &[String]) -> Result<Ended, String> {
    let program = std::env::current_exe().map_err(|error| error.to_string())?;
    let status = Command::new(program).args(arguments).arg(IN_PROCESS).status();
    let status = status.map_err(|error| format!("the process of the calls cannot be started: {error}"))?;
    Ok(match status.signal() {
        Some(signal) => Ended::Signal(signal),
        None => Ended::Status(status.code().unwrap_or(3) as u8),
    })
}

/// A file that holds the number of the present call.
pub struct PresentCall(File);

impl PresentCall {
    pub fn open(folder: &Path) -> Result<PresentCall, String> {
        let path = path_in(folder);
        let made = std::fs::create_dir_all(folder).and_then(|()| File::create(&path));
        made.map(PresentCall).map_err(|error| format!("cannot write {}: {error}", path.display()))
    }

    pub fn set(&self, number: u64) {
        // A failure to write only makes a crash harder to find.
        let _ = self.0.write_all_at(&number.to_be_bytes(), 0);
    }

    /// The call at which a process ended.
    pub fn read(folder: &Path) -> Result<u64, String> {
        let path = path_in(folder);
        let bytes = std::fs::read(&path).map_err(|error| format!("cannot read {}: {error}", path.display()))?;
        let number: [u8; 8] = bytes.try_into().map_err(|_| format!("{} is torn", path.display()))?;
        Ok(u64::from_be_bytes(number))
    }
}

fn path_in(folder: &Path) -> PathBuf {
    folder.join("present-call")
}
