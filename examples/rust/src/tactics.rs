//! Reads tactics as text, writes them back, puts each into a job on its goals and runs it; table.kit and tactics.txt of a folder.
use hitac::{Engine, Ran, Refusal};
use std::path::Path;
use std::{env, error, fs};

fn main() -> Result<(), Box<dyn error::Error>> {
    let folder = env::args().nth(1).unwrap_or("examples/paper".into());
    let table = fs::read(Path::new(&folder).join("table.kit"))?;
    let list = fs::read_to_string(Path::new(&folder).join("tactics.txt"))?;
    let mut engine = Engine::new();
    // A line end is no blank of the notation.
    for line in list.lines() {
        let (goals, tactic) = line.split_once(": ").ok_or("a line without a colon")?;
        let goals: Result<Vec<u16>, _> = goals.split_whitespace().map(str::parse).collect();
        println!("tactic: {tactic}");
        match engine.read_text(tactic) {
            Ok(term) => show(&mut engine, &table, &goals?, &term)?,
            Err(refusal) => println!("read_text: {refusal}"),
        }
    }
    Ok(())
}

/// The term in both forms, and what comes of it on its goals.
fn show(engine: &mut Engine, table: &[u8], goals: &[u16], term: &[u8]) -> Result<(), Refusal> {
    println!("read_text: bytes {}\n{}", term.len(), hex(term));
    println!("write_text: {}", engine.write_text(term)?);
    match engine.run(table, &[&goal_list(goals), term].concat(), 4096) {
        Ok(ran) => show_proof(engine, &ran)?,
        Err(refusal) => println!("run: {refusal}"),
    }
    Ok(())
}

/// Of the proof file that a run gave, the term as text and the goals that remain.
fn show_proof(engine: &mut Engine, ran: &Ran) -> Result<(), Refusal> {
    let (_, behind_goals) = ran.proof.split_at(field_length(&ran.proof));
    let (term, remaining) = behind_goals.split_at(field_length(behind_goals));
    println!("run: steps {} bytes {}", ran.steps, ran.proof.len());
    println!("proof: {}", engine.write_text(term)?);
    let goals = remaining[3..].chunks(2).map(|goal| format!(" {}", u16::from_be_bytes([goal[0], goal[1]])));
    println!("remaining:{}", goals.collect::<String>());
    Ok(())
}

/// The field of a goal list.
fn goal_list(goals: &[u16]) -> Vec<u8> {
    let mut field = vec![3];
    field.extend((2 * goals.len() as u16).to_be_bytes());
    field.extend(goals.iter().flat_map(|goal| goal.to_be_bytes()));
    field
}

/// Bytes of the field that stands in front, with its header.
fn field_length(bytes: &[u8]) -> usize {
    3 + usize::from(u16::from_be_bytes([bytes[1], bytes[2]]))
}

fn hex(bytes: &[u8]) -> String {
    bytes.iter().map(|byte| format!("{byte:02x}")).collect::<Vec<_>>().join(" ")
}
