//! The five kinds of file as text for people; terms in the notation of P8.

use crate::answer::Refusal;
use crate::format::count::count_fields;
use crate::format::flat::{Flat, FlatStep};
use crate::format::job::Job;
use crate::format::proof::Proof;
use crate::format::table::Table;
use crate::format::tags::Tag;
use crate::format::term_file::TermFile;
use crate::format::terms::{TermNumber, Terms};
use crate::names::Goal;
use crate::notation::write::text_of;
use std::fmt::Write;

#[derive(Clone, Copy, PartialEq, Eq, Debug)]
pub enum FileKind {
    Table,
    Job,
    Proof,
    Flat,
    Term,
}

impl FileKind {
    pub const ALL: [FileKind; 5] = [FileKind::Table, FileKind::Job, FileKind::Proof, FileKind::Flat, FileKind::Term];

    pub fn name(self) -> &'static str {
        match self {
            FileKind::Table => "table",
            FileKind::Job => "job",
            FileKind::Proof => "proof",
            FileKind::Flat => "flat",
            FileKind::Term => "term",
        }
    }

    pub fn of_name(name: &str) -> Option<FileKind> {
        FileKind::ALL.into_iter().find(|kind| kind.name() == name)
    }

    /// No bytes read as a table and, from P7 on, as a proof, and are taken for a
    /// table. No other file reads as two kinds, so one that reads is recognised for
    /// sure; of one that does not, the likeliest kind is given.
    pub fn recognise(bytes: &[u8]) -> FileKind {
        let reads_as = |kind: &FileKind| show(*kind, bytes).is_ok();
        FileKind::ALL.into_iter().find(reads_as).unwrap_or_else(|| FileKind::likeliest(bytes))
    }

    fn likeliest(bytes: &[u8]) -> FileKind {
        match bytes.first().copied().and_then(Tag::from_byte) {
            Some(Tag::GoalList) => {}
            Some(tag) if tag.is_tactic_term() => return FileKind::Term,
            _ => return FileKind::Table,
        }
        let behind_goals = end_of_field(bytes, 0);
        match bytes.get(behind_goals).copied().map(Tag::from_byte) {
            None | Some(Some(Tag::Use | Tag::Open)) => FileKind::Flat,
            _ if end_of_field(bytes, behind_goals) < bytes.len() => FileKind::Proof,
            _ => FileKind::Job,
        }
    }
}

fn end_of_field(bytes: &[u8], place: usize) -> usize {
    match bytes.get(place + 1..place + 3) {
        Some(length) => place + 3 + usize::from(u16::from_be_bytes([length[0], length[1]])),
        None => bytes.len(),
    }
}

/// The text of a file of that kind, or why it does not read as one.
pub fn show(kind: FileKind, bytes: &[u8]) -> Result<String, Refusal> {
    match kind {
        FileKind::Table => show_table(bytes),
        FileKind::Job => show_job(bytes),
        FileKind::Proof => show_proof(bytes),
        FileKind::Flat => show_flat(bytes),
        FileKind::Term => show_term(bytes),
    }
}

fn show_table(bytes: &[u8]) -> Result<String, Refusal> {
    let table = Table::read(bytes)?;
    let mut text = format!("table: rules {}, definitions {}\n", table.rules().len(), table.definitions().len());
    for rule in table.rules() {
        let premises = goals_text(table.premises_of(rule));
        let _ = writeln!(text, "rule {} on {} gives {}", rule.name.0, rule.goal.0, premises);
    }
    for definition in table.definitions() {
        let _ = writeln!(text, "T{} is {}", definition.tactic.0, term_text(&table.terms, definition.body));
    }
    Ok(text)
}

fn show_job(bytes: &[u8]) -> Result<String, Refusal> {
    let mut terms = Terms::default();
    let job = Job::read(bytes, &mut terms)?;
    let fields = count_fields(bytes, terms.place(job.tactic), bytes.len());
    let tactic = term_text(&terms, job.tactic);
    Ok(format!("job: term fields {}\ngoals {}\nterm {}\n", fields, goals_text(&job.goals), tactic))
}

fn show_proof(bytes: &[u8]) -> Result<String, Refusal> {
    let proof = Proof::read(bytes)?;
    let mut text = format!("proof: term fields {}\n", proof.term_fields());
    let _ = writeln!(text, "goals {}", goals_text(&proof.goals));
    let _ = writeln!(text, "term {}", term_text(&proof.terms, proof.hiproof));
    let _ = writeln!(text, "remaining {}", goals_text(&proof.remaining));
    Ok(text)
}

fn show_flat(bytes: &[u8]) -> Result<String, Refusal> {
    let flat = Flat::read(bytes)?;
    let uses = flat.count_uses();
    let mut text = format!("flat: uses {}, open {}\n", uses, flat.entries.len() - uses);
    let _ = writeln!(text, "roots {}", goals_text(&flat.roots));
    for entry in &flat.entries {
        let _ = match entry.step {
            FlatStep::Use(name) => writeln!(text, "use {} on {}", name.0, entry.goal.0),
            FlatStep::Open => writeln!(text, "open {}", entry.goal.0),
        };
    }
    Ok(text)
}

fn show_term(bytes: &[u8]) -> Result<String, Refusal> {
    let file = TermFile::read(bytes)?;
    let fields = count_fields(bytes, 0, bytes.len());
    Ok(format!("term: term fields {}\nterm {}\n", fields, term_text(&file.terms, file.term)))
}

fn goals_text(goals: &[Goal]) -> String {
    if goals.is_empty() {
        return "none".to_string();
    }
    let numbers: Vec<String> = goals.iter().map(|goal| goal.0.to_string()).collect();
    numbers.join(", ")
}

/// The term in the notation of P8, which is ASCII.
fn term_text(terms: &Terms, term: TermNumber) -> String {
    text_of(terms, term).into_iter().map(char::from).collect()
}
