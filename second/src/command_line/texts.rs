//! The commands that take or give terms in the notation of P8.

use super::{number, output_space, print, read, report, save, write_file, Outcome, Trouble};
use crate::answer::{Answer, InputFile, Reason, Refusal};
use crate::format::table::Table;
use crate::format::write::{write_definition, write_goal_list};
use crate::limits;
use crate::names::{Goal, TacticNo};
use std::process::ExitCode;

/// What the term given as an argument is called in messages.
const TERM: &str = "the term";

/// The file's bytes are taken as they are: a line end at its end is 36.
pub fn read_text(text: &str, output: &str) -> Outcome {
    let bytes = read(text)?;
    let mut space = output_space();
    let answer = crate::read_text(&bytes, &mut vec![0; limits::READ_TEXT_WORK], &mut space);
    save(answer, &space, output)?;
    Ok(report_text(answer, &format!("written {} bytes", answer.length), text, &bytes))
}

/// Prints the text and a line end, or writes the text alone to a file.
pub fn write_text(term: &str, output: Option<&str>) -> Outcome {
    let bytes = read(term)?;
    let mut space = output_space();
    let answer = crate::write_text(&bytes, &mut vec![0; limits::WRITE_TEXT_WORK], &mut space);
    let success = match output {
        None => String::from_utf8_lossy(&space[..answer.length as usize]).into_owned(),
        Some(path) => {
            save(answer, &space, path)?;
            format!("written {} bytes", answer.length)
        }
    };
    Ok(report(answer, &success, "", term))
}

/// Writes a job file: the goals, then the term.
pub fn job(goals: &str, term: &str, output: &str) -> Outcome {
    let goals = goals_of(goals)?;
    let term_bytes = match term_of(term) {
        Ok(bytes) => bytes,
        Err(status) => return Ok(status),
    };
    if goals.len() > limits::MOST_GOALS {
        let refusal = Refusal::at(Reason::OverLimit, InputFile::Other, 0);
        return Ok(report(refusal.into(), "", "", "the job"));
    }
    let mut job = Vec::new();
    write_goal_list(&goals, &mut job);
    job.extend(term_bytes);
    write_whole(&job, output)
}

/// Writes the table with one more definition at its end. The table must read both
/// without it and with it.
pub fn define(table: &str, tactic: &str, term: &str, output: &str) -> Outcome {
    let tactic = TacticNo(number(tactic, "tactic")?);
    let mut bytes = read(table)?;
    if let Err(refusal) = Table::read(&bytes) {
        return Ok(report(refusal.into(), "", table, ""));
    }
    let term_bytes = match term_of(term) {
        Ok(bytes) => bytes,
        Err(status) => return Ok(status),
    };
    write_definition(tactic, &term_bytes, &mut bytes);
    if let Err(refusal) = Table::read(&bytes) {
        return Ok(report(refusal.into(), "", &format!("{table} with T{}", tactic.0), ""));
    }
    write_whole(&bytes, output)
}

fn write_whole(bytes: &[u8], output: &str) -> Outcome {
    write_file(output, bytes)?;
    print(&format!("written {} bytes\n", bytes.len()));
    Ok(ExitCode::SUCCESS)
}

/// `none`, or numbers with commas between them, as `second show` prints goals.
fn goals_of(words: &str) -> Result<Vec<Goal>, Trouble> {
    if words.trim() == "none" {
        return Ok(Vec::new());
    }
    words.split(',').map(|goal| number(goal.trim(), "goal").map(Goal)).collect()
}

/// The term file of an argument; a refusal is reported, and its status given.
fn term_of(text: &str) -> Result<Vec<u8>, ExitCode> {
    let mut space = output_space();
    let answer = crate::read_text(text.as_bytes(), &mut vec![0; limits::READ_TEXT_WORK], &mut space);
    if answer.number != 0 {
        return Err(report_text(answer, "", TERM, text.as_bytes()));
    }
    space.truncate(answer.length as usize);
    Ok(space)
}

/// Reports the answer, and shows the byte of the text that a refusal names.
fn report_text(answer: Answer, success: &str, name: &str, text: &[u8]) -> ExitCode {
    let status = report(answer, success, "", name);
    if answer.file == InputFile::Other as u32 && answer.number != Reason::InputTooLong.number() {
        eprint!("{}", excerpt(text, answer.place as usize));
    }
    status
}

/// The text round a byte in one line, and a mark under the byte in the next. A
/// byte that is not printable ASCII is shown as a full stop, so that each byte
/// takes one column.
fn excerpt(text: &[u8], place: usize) -> String {
    const BEFORE: usize = 50;
    const BEHIND: usize = 25;
    let begin = place.saturating_sub(BEFORE);
    let end = text.len().min(place + BEHIND);
    let shown = |&byte: &u8| if (32..127).contains(&byte) { char::from(byte) } else { '.' };
    let line: String = text[begin..end].iter().map(shown).collect();
    format!("{line}\n{}^\n", " ".repeat(place - begin))
}
