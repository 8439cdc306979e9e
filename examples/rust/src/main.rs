//! Checks a proof, runs a tactic, flattens a proof, checks the derivation and writes it back, on the files of a folder; then
//! checks and flattens a proof of zero bytes.
use hitac::Engine;
use std::path::Path;
use std::{env, error, fs};

fn main() -> Result<(), Box<dyn error::Error>> {
    let folder = env::args().nth(1).unwrap_or("examples/files".into());
    let load = |name| fs::read(Path::new(&folder).join(name));
    let (table, proof, job) = (load("table.kit")?, load("proof.hip")?, load("job.tac")?);
    let mut engine = Engine::new();

    println!("version: {}", hitac::version());
    println!("check: {}", engine.check(&table, &proof)?);
    for budget in [4096, 18] {
        match engine.run(&table, &job, budget) {
            Ok(ran) => println!("run: steps {} {}", ran.steps, listed(&ran.proof)),
            Err(refusal) => println!("run: {refusal}"),
        }
    }
    let flat = engine.flatten(&table, &proof)?;
    println!("flatten: {}", listed(&flat));
    let right = engine.check_flat(&table, &flat)?;
    println!("check_flat: right uses {} open {} rules {}", right.uses, right.open, right.rules);
    println!("write_proof: {}", listed(&engine.write_proof(&table, &flat)?));
    let blank = [];
    println!("check of zero bytes: {}", engine.check(&table, &blank)?);
    println!("flatten of zero bytes: {}", listed(&engine.flatten(&table, &blank)?));
    Ok(())
}

/// The length of a file, and its bytes on the next line.
fn listed(bytes: &[u8]) -> String {
    let hex: Vec<String> = bytes.iter().map(|byte| format!("{byte:02x}")).collect();
    format!("bytes {}\n{}", bytes.len(), hex.join(" "))
}
