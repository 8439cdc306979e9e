//! Why three wrong proofs do not validate, each with the place of the term that is at fault; table.kit and proof.hip of three folders.
use hitac::Engine;
use std::path::Path;
use std::{env, error, fs};

fn main() -> Result<(), Box<dyn error::Error>> {
    let folder = env::args().nth(1).unwrap_or("examples".into());
    let mut engine = Engine::new();
    for name in ["refused", "miscounted", "few_goals"] {
        let load = |file| fs::read(Path::new(&folder).join(name).join(file));
        match engine.check(&load("table.kit")?, &load("proof.hip")?) {
            Ok(accepted) => println!("{name}: {accepted}"),
            Err(refusal) => {
                println!("{name}: {refusal}");
                let reason = refusal.cause.reason().unwrap_or("docs/FORMAT.md says what the number means");
                println!("byte {}: {reason}", refusal.place);
            }
        }
    }
    Ok(())
}
