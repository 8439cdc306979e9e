//! Steps through the run of a job, one term at a time, as a debugger would: after each step it shows what is finished and what
//! waits, from its saved state alone. table.kit and job.tac of a folder.
use hitac::{Engine, Refusal, Stepped};
use std::path::Path;
use std::{env, error, fs};

fn main() -> Result<(), Box<dyn error::Error>> {
    let folder = env::args().nth(1).unwrap_or("examples/files".into());
    let load = |name| fs::read(Path::new(&folder).join(name));
    let (table, job) = (load("table.kit")?, load("job.tac")?);
    let mut engine = Engine::new();

    let mut stepped = engine.run_halting(&table, &job, 0);
    let ended = loop {
        match stepped {
            Ok(Stepped::Halted(state)) => {
                show(&mut engine, &Halt::of(&state))?;
                stepped = engine.resume(&table, &job, &state, 1);
            }
            Ok(Stepped::Ended(ran)) => break Ok(ran),
            Err(refusal) => break Err(refusal),
        }
    };
    match ended {
        Ok(ran) => {
            println!("run: steps {} bytes {}", ran.steps, ran.proof.len());
            println!("proof: {}", engine.write_text(first_field(&ran.proof[first_field(&ran.proof).len()..]))?);
        }
        Err(refusal) => println!("run: {refusal}"),
    }
    Ok(())
}

/// A saved state, taken apart; docs/FORMAT.md, "The saved state of a halted run".
struct Halt<'a> {
    steps: u16,
    /// The hiproofs of left terms, each a field of its own.
    finished: Vec<&'a [u8]>,
    /// Outermost first, the term to begin last.
    entries: Vec<Entry>,
}

struct Entry {
    stage: u8,
    in_table: bool,
    place: u16,
    goals: Vec<u16>,
}

/// Bytes that are read from the front.
struct Bytes<'a>(&'a [u8]);

impl<'a> Bytes<'a> {
    fn take(&mut self, count: usize) -> &'a [u8] {
        let (front, rest) = self.0.split_at(count);
        self.0 = rest;
        front
    }

    fn value(&mut self) -> u16 {
        let two = self.take(2);
        u16::from_be_bytes([two[0], two[1]])
    }

    fn entry(&mut self) -> Entry {
        let front = self.take(2);
        let place = self.value();
        let goals = (0..self.value()).map(|_| self.value()).collect();
        Entry { stage: front[0], in_table: front[1] == 0, place, goals }
    }
}

impl<'a> Halt<'a> {
    fn of(state: &'a [u8]) -> Halt<'a> {
        let mut bytes = Bytes(state);
        let steps = bytes.value();
        let length = bytes.value();
        let mut fields = bytes.take(length.into());
        let mut finished = Vec::new();
        while !fields.is_empty() {
            finished.push(first_field(fields));
            fields = &fields[first_field(fields).len()..];
        }
        let count = bytes.value();
        Halt { steps, finished, entries: (0..count).map(|_| bytes.entry()).collect() }
    }

    /// The list on which the term of an entry began, put together from the innermost entry on. An alternation keeps only those
    /// goals that no entry inside it holds; the right term of a sequence runs on another list.
    fn list(&self, entry: usize) -> Vec<u16> {
        self.entries[entry..].iter().rev().fold(Vec::new(), |inside, entry| match entry.stage {
            3 => vec![],
            0 | 4 => [inside, entry.goals.clone()].concat(),
            6 => [entry.goals.clone(), inside].concat(),
            _ => inside,
        })
    }
}

fn show(engine: &mut Engine, halt: &Halt) -> Result<(), Refusal> {
    println!("steps {}", halt.steps);
    for hiproof in &halt.finished {
        println!("  finished: {}", engine.write_text(hiproof)?);
    }
    for (number, entry) in halt.entries.iter().enumerate() {
        let at = format!("byte {} of the {}", entry.place, if entry.in_table { "table" } else { "job" });
        println!(
            "  {}",
            match entry.stage {
                0 => format!("to begin: {at} on {}", listed(&entry.goals)),
                1 => format!("label, inner term {at} runs"),
                2 => format!("sequence, left term runs, then {at} on what it gives"),
                3 => format!("sequence, right term {at} runs"),
                4 => format!("tensor, left term runs, then {at} on {}", listed(&entry.goals)),
                5 => format!("tensor, right term {at} runs, left gave {}", listed(&entry.goals)),
                _ => format!("alternation, left term runs, else {at} on {}", listed(&halt.list(number))),
            }
        );
    }
    Ok(())
}

fn listed(goals: &[u16]) -> String {
    match goals {
        [] => "no goals".into(),
        _ => goals.iter().map(u16::to_string).collect::<Vec<_>>().join(" "),
    }
}

/// The field that stands in front, with its header.
fn first_field(bytes: &[u8]) -> &[u8] {
    &bytes[..3 + usize::from(u16::from_be_bytes([bytes[1], bytes[2]]))]
}
