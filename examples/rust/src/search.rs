//! A tactic on which a run fails and a search finds a proof, which is then checked; table.kit and search.tac of a folder.
use hitac::{Engine, Ran, Refusal};
use std::path::Path;
use std::{env, error, fs};

fn main() -> Result<(), Box<dyn error::Error>> {
    let folder = env::args().nth(1).unwrap_or("examples/paper".into());
    let load = |name| fs::read(Path::new(&folder).join(name));
    let (table, job) = (load("table.kit")?, load("search.tac")?);
    let mut engine = Engine::new();

    let ran = engine.run(&table, &job, 4096);
    println!("run: {}", told(&ran));
    for (height, budget) in [(9, 4096), (10, 55), (65, 4096), (10, 4096)] {
        let found = engine.search(&table, &job, height, budget);
        println!("search at height {height}, budget {budget}: {}", told(&found));
        if let Ok(found) = found {
            println!("proof: {}", engine.write_text(term_of(&found.proof))?);
            println!("check: {}", engine.check(&table, &found.proof)?);
        }
    }
    Ok(())
}

/// What came of a run or a search.
fn told(result: &Result<Ran, Refusal>) -> String {
    match result {
        Ok(ran) => format!("steps {} bytes {}", ran.steps, ran.proof.len()),
        Err(refusal) => refusal.to_string(),
    }
}

/// The term of a proof file, which stands behind its first goal list.
fn term_of(proof: &[u8]) -> &[u8] {
    let behind_goals = &proof[field_length(proof)..];
    &behind_goals[..field_length(behind_goals)]
}

/// Bytes of the field that stands in front, with its header.
fn field_length(bytes: &[u8]) -> usize {
    3 + usize::from(u16::from_be_bytes([bytes[1], bytes[2]]))
}
