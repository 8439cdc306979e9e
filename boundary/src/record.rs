//! A case that differs, as two files: a vector file of docs/VECTORS.md that
//! replays it, and a text that says what differed.

use crate::compare::name_of;
use second::generate::case::Case;
use second::vectors;
use std::fmt::Write;
use std::path::Path;

/// Writes both files and says where they are and how to replay the case.
pub fn write(directory: &Path, name: &str, case: &Case, differences: &[String]) -> Result<String, String> {
    let vector = directory.join(format!("{name}.vec"));
    let text = directory.join(format!("{name}.txt"));
    std::fs::create_dir_all(directory).map_err(|error| cannot_write(directory, error))?;
    std::fs::write(&vector, vectors::write(std::slice::from_ref(case)))
        .map_err(|error| cannot_write(&vector, error))?;
    let description = describe(case, differences, &vector);
    std::fs::write(&text, &description).map_err(|error| cannot_write(&text, error))?;
    Ok(description)
}

fn cannot_write(path: &Path, error: std::io::Error) -> String {
    format!("cannot write {}: {error}", path.display())
}

fn describe(case: &Case, differences: &[String], vector: &Path) -> String {
    let mut text = format!(
        "{}: table of {} bytes, other file of {} bytes, height {}, budget {}, work space of {} bytes, output space of {} bytes\n",
        name_of(case.entry),
        case.table.len(),
        case.other.len(),
        case.height,
        case.budget,
        case.work_length,
        case.output_length,
    );
    if case.entry.may_halt() {
        let (saved, frames, state) = (case.saved.len(), case.frames, case.state_length);
        let _ = writeln!(text, "  saved state of {saved} bytes, {frames} frames, second space of {state} bytes");
    }
    for difference in differences {
        let _ = writeln!(text, "  {difference}");
    }
    let _ = writeln!(text, "  to replay it: boundary/replay --file {}", vector.display());
    text
}

/// The cases of a vector file.
pub fn read(path: &Path) -> Result<Vec<vectors::Expected>, String> {
    let bytes = std::fs::read(path).map_err(|error| format!("cannot read {}: {error}", path.display()))?;
    vectors::read(&bytes).ok_or_else(|| format!("{} is not a vector file, or is damaged", path.display()))
}
