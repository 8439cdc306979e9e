//! The command line for people.
//!
//! Standard output has the answer in one line, a refusal in the words of the
//! check program; standard error says in words what a refusal means.

mod texts;

use crate::answer::{Answer, Reason};
use crate::entries::Frame;
use crate::limits;
use crate::text::{show, FileKind};
use crate::vectors;
use std::path::Path;
use std::process::ExitCode;

const HELP: &str = "\
second: the second Hitac engine

  second check TABLE PROOF             is the proof accepted?
  second run TABLE JOB BUDGET OUT      run the job's tactic, write the proof to OUT
  second run-halting TABLE JOB BUDGET OUT STATE
                                       run likewise; where the budget is spent, write
                                       the saved state to STATE
  second resume TABLE JOB SAVED BUDGET OUT STATE
                                       go on from the state SAVED for BUDGET more
                                       steps; STATE may be SAVED again
  second search TABLE JOB HEIGHT BUDGET OUT
                                       look for an evaluation of the job's tactic at
                                       most HEIGHT rules high, write the proof to OUT
  second flatten TABLE PROOF OUT       write the proof's flat derivation to OUT
  second check-flat TABLE FLAT         is the flat derivation right?
  second write TABLE FLAT OUT          write a proof of the flat derivation to OUT
  second read-text TEXT OUT            write the term of a text to OUT as a term file
  second write-text TERM [OUT]         print the text of a term file, or write it to OUT
  second job GOALS 'TERM' OUT          write a job file; GOALS is 10,20 or none
  second define TABLE TACTIC 'TERM' OUT
                                       write TABLE with one more definition at its end
  second show [--kind KIND] FILE       print a file as text; KIND is table, job, proof,
                                       flat or term, recognised if not given
  second generate-vectors DIR          write the fixed set of test vectors
  second generate-random SEED COUNT OUT
                                       write COUNT random test cases to a vector file
  second replay VECTORS...             compare this engine with vector files
  second --help                        print this text

Terms in texts, 'TERM' and what show prints: a12 atomic, id, <> empty, [3]t label,
?30 assert, T4 defined tactic; t * u tensor binds tightest, then t | u alternation,
then t ; u sequence; round brackets, and blanks between the marks.

Exit status: 0 success; 1 the engine refuses, or a replayed case differs;
2 the command is not understood; 3 a file cannot be read or written.
";

/// Why a command ends early.
enum Trouble {
    NotUnderstood(String),
    FileTrouble(String),
}

type Outcome = Result<ExitCode, Trouble>;

pub fn main(arguments: &[String]) -> ExitCode {
    let words: Vec<&str> = arguments.iter().map(String::as_str).collect();
    match perform(&words) {
        Ok(status) => status,
        Err(Trouble::NotUnderstood(message)) => {
            eprintln!("second: {message}; `second --help` lists the commands");
            ExitCode::from(2)
        }
        Err(Trouble::FileTrouble(message)) => {
            eprintln!("second: {message}");
            ExitCode::from(3)
        }
    }
}

fn perform(words: &[&str]) -> Outcome {
    match words {
        ["--help" | "-h" | "help", ..] => {
            print(HELP);
            Ok(ExitCode::SUCCESS)
        }
        ["check", table, proof] => check(table, proof),
        ["run", table, job, budget, output] => run(table, job, budget, output),
        ["run-halting", table, job, budget, output, state] => run_halting(table, job, budget, output, state),
        ["resume", table, job, saved, budget, output, state] => resume(table, job, saved, budget, output, state),
        ["search", table, job, height, budget, output] => search(table, job, height, budget, output),
        ["flatten", table, proof, output] => flatten(table, proof, output),
        ["check-flat", table, flat] => check_flat(table, flat),
        ["write", table, flat, output] => write(table, flat, output),
        ["read-text", text, output] => texts::read_text(text, output),
        ["write-text", term] => texts::write_text(term, None),
        ["write-text", term, output] => texts::write_text(term, Some(output)),
        ["job", goals, term, output] => texts::job(goals, term, output),
        ["define", table, tactic, term, output] => texts::define(table, tactic, term, output),
        ["show", file] => show_file(None, file),
        ["show", "--kind", kind, file] => show_file(Some(kind), file),
        ["generate-vectors", directory] => generate_vectors(directory),
        ["generate-random", seed, count, output] => generate_random(seed, count, output),
        ["replay", files @ ..] if !files.is_empty() => replay(files),
        [] => Err(Trouble::NotUnderstood("no command is given".to_string())),
        [command, ..] => Err(Trouble::NotUnderstood(format!("`{command}` with these arguments is not a command"))),
    }
}

fn check(table: &str, proof: &str) -> Outcome {
    let (table_bytes, proof_bytes) = (read(table)?, read(proof)?);
    let answer = crate::check(&table_bytes, &proof_bytes, &mut vec![0; limits::CHECK_WORK]);
    let Answer { fields, uses, open, rules, .. } = answer;
    let success = format!("accepted fields {fields} uses {uses} open {open} rules {rules}");
    Ok(report(answer, &success, table, proof))
}

fn check_flat(table: &str, flat: &str) -> Outcome {
    let (table_bytes, flat_bytes) = (read(table)?, read(flat)?);
    let answer = crate::check_flat(&table_bytes, &flat_bytes, &mut vec![0; limits::CHECK_FLAT_WORK]);
    let Answer { uses, open, rules, .. } = answer;
    Ok(report(answer, &format!("right uses {uses} open {open} rules {rules}"), table, flat))
}

fn run(table: &str, job: &str, budget: &str, output: &str) -> Outcome {
    let budget = large_number(budget, "budget")?;
    let (table_bytes, job_bytes) = (read(table)?, read(job)?);
    let mut space = output_space();
    let answer = crate::run(&table_bytes, &job_bytes, budget, &mut vec![0; limits::RUN_WORK], &mut space);
    save(answer, &space, output)?;
    Ok(report(answer, &format!("written {} bytes steps {}", answer.length, answer.steps), table, job))
}

/// What a call that may halt is lent.
struct HaltingSpaces {
    work: Vec<u8>,
    frames: Vec<Frame>,
    output: Vec<u8>,
    state: Vec<u8>,
}

impl HaltingSpaces {
    fn with_work(work: usize) -> HaltingSpaces {
        HaltingSpaces {
            work: vec![0; work],
            frames: vec![Frame::default(); limits::MOST_FRAMES],
            output: output_space(),
            state: vec![0; limits::STATE_SIZE],
        }
    }
}

fn run_halting(table: &str, job: &str, budget: &str, output: &str, state: &str) -> Outcome {
    let budget = large_number(budget, "budget")?;
    let (table_bytes, job_bytes) = (read(table)?, read(job)?);
    let mut lent = HaltingSpaces::with_work(limits::RUN_HALTING_WORK);
    let HaltingSpaces { work, frames, output: space, state: second_space } = &mut lent;
    let answer = crate::run_halting(&table_bytes, &job_bytes, budget, work, frames, space, second_space);
    report_run(answer, &lent, [table, job], output, state)
}

fn resume(table: &str, job: &str, saved: &str, budget: &str, output: &str, state: &str) -> Outcome {
    let budget = large_number(budget, "budget")?;
    let (table_bytes, job_bytes, saved_bytes) = (read(table)?, read(job)?, read(saved)?);
    let mut lent = HaltingSpaces::with_work(limits::RESUME_WORK);
    let HaltingSpaces { work, frames, output: space, state: second_space } = &mut lent;
    let answer = crate::resume(&table_bytes, &job_bytes, &saved_bytes, budget, work, frames, space, second_space);
    report_run(answer, &lent, [table, job], output, state)
}

/// A success writes the proof, a halt the state; every other answer leaves both files as
/// they were.
fn report_run(answer: Answer, lent: &HaltingSpaces, [table, job]: [&str; 2], output: &str, state: &str) -> Outcome {
    save(answer, &lent.output, output)?;
    if answer.number == Reason::BudgetSpent.number() {
        write_file(state, &lent.state)?;
    }
    Ok(report(answer, &format!("written {} bytes steps {}", answer.length, answer.steps), table, job))
}

fn search(table: &str, job: &str, height: &str, budget: &str, output: &str) -> Outcome {
    let (height, budget) = (large_number(height, "height")?, large_number(budget, "budget")?);
    let (table_bytes, job_bytes) = (read(table)?, read(job)?);
    let mut space = output_space();
    let mut work = vec![0; limits::SEARCH_WORK];
    let answer = crate::search(&table_bytes, &job_bytes, height, budget, &mut work, &mut space);
    save(answer, &space, output)?;
    Ok(report(answer, &format!("written {} bytes steps {}", answer.length, answer.steps), table, job))
}

fn flatten(table: &str, proof: &str, output: &str) -> Outcome {
    let (table_bytes, proof_bytes) = (read(table)?, read(proof)?);
    let mut space = output_space();
    let answer = crate::flatten(&table_bytes, &proof_bytes, &mut vec![0; limits::FLATTEN_WORK], &mut space);
    save(answer, &space, output)?;
    Ok(report(answer, &format!("written {} bytes", answer.length), table, proof))
}

fn write(table: &str, flat: &str, output: &str) -> Outcome {
    let (table_bytes, flat_bytes) = (read(table)?, read(flat)?);
    let mut space = output_space();
    let answer = crate::write_proof(&table_bytes, &flat_bytes, &mut vec![0; limits::WRITE_PROOF_WORK], &mut space);
    save(answer, &space, output)?;
    Ok(report(answer, &format!("written {} bytes", answer.length), table, flat))
}

fn show_file(kind: Option<&str>, file: &str) -> Outcome {
    let bytes = read(file)?;
    let chosen = match kind {
        None => FileKind::recognise(&bytes),
        Some(name) => FileKind::of_name(name)
            .ok_or_else(|| Trouble::NotUnderstood(format!("`{name}` is none of table, job, proof, flat, term")))?,
    };
    match show(chosen, &bytes) {
        Ok(text) => {
            print(&text);
            Ok(ExitCode::SUCCESS)
        }
        Err(refusal) => {
            let read_as = chosen.name();
            let hint = if kind.is_none() { " (--kind reads it as another)" } else { "" };
            eprintln!("{file} does not read as a {read_as} file{hint}:");
            eprintln!("refusal {} at byte {}: {}", refusal.reason.number(), refusal.place, refusal.reason.meaning());
            Ok(ExitCode::from(1))
        }
    }
}

fn generate_vectors(directory: &str) -> Outcome {
    for (name, cases) in crate::generate::vector_set() {
        let path = Path::new(directory).join(name);
        write_file(&path.to_string_lossy(), &vectors::write(&cases))?;
        say(format!("{}: {} cases", path.display(), cases.len()));
    }
    Ok(ExitCode::SUCCESS)
}

fn generate_random(seed: &str, count: &str, output: &str) -> Outcome {
    let mut random = crate::generate::random::Random::new(number(seed, "seed")?);
    let count: usize = number(count, "count")?;
    let cases: Vec<_> = (0..count).map(|_| crate::generate::random_case(&mut random)).collect();
    write_file(output, &vectors::write(&cases))?;
    say(format!("{output}: {} cases", cases.len()));
    Ok(ExitCode::SUCCESS)
}

fn replay(files: &[&str]) -> Outcome {
    let mut status = ExitCode::SUCCESS;
    for file in files {
        match vectors::replay(&read(file)?) {
            Ok(cases) => say(format!("{file}: {cases} cases agree")),
            Err(difference) => {
                say(format!("{file}: {difference}"));
                status = ExitCode::from(1);
            }
        }
    }
    Ok(status)
}

/// Prints the answer in one line; explains a refusal on standard error.
fn report(answer: Answer, success: &str, table: &str, other: &str) -> ExitCode {
    if answer.number == 0 {
        say(success.to_string());
        return ExitCode::SUCCESS;
    }
    let steps = if answer.steps > 0 { format!(" steps {}", answer.steps) } else { String::new() };
    say(format!("refused {} file {} place {}{steps}", answer.number, answer.file, answer.place));
    let meaning = Reason::of_number(answer.number).map_or("unknown refusal", Reason::meaning);
    match answer.file {
        1 => eprintln!("{table}, byte {}: {meaning}", answer.place),
        2 => eprintln!("{other}, byte {}: {meaning}", answer.place),
        _ => eprintln!("{meaning}"),
    }
    ExitCode::from(1)
}

/// No result is longer than an input may be.
fn output_space() -> Vec<u8> {
    vec![0; limits::MOST_INPUT_BYTES]
}

/// A refusal leaves the output file as it was.
fn save(answer: Answer, space: &[u8], path: &str) -> Result<(), Trouble> {
    if answer.number != 0 {
        return Ok(());
    }
    write_file(path, &space[..answer.length as usize])
}

fn say(line: String) {
    print(&(line + "\n"));
}

/// Prints to standard output; a reader that went away is no error.
fn print(text: &str) {
    use std::io::Write;
    let _ = std::io::stdout().write_all(text.as_bytes());
}

fn number<Number: std::str::FromStr>(text: &str, name: &str) -> Result<Number, Trouble> {
    text.parse().map_err(|_| Trouble::NotUnderstood(format!("the {name} `{text}` is not a number that fits")))
}

/// A budget or height is a number of any width (READINGS A51); all large ones are
/// alike.
fn large_number(text: &str, name: &str) -> Result<u32, Trouble> {
    let number: u128 = number(text, name)?;
    Ok(u32::try_from(number).unwrap_or(u32::MAX))
}

fn read(path: &str) -> Result<Vec<u8>, Trouble> {
    std::fs::read(path).map_err(|error| Trouble::FileTrouble(format!("cannot read {path}: {error}")))
}

fn write_file(path: &str, bytes: &[u8]) -> Result<(), Trouble> {
    std::fs::write(path, bytes).map_err(|error| Trouble::FileTrouble(format!("cannot write {path}: {error}")))
}
