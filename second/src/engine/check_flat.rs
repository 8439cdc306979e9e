//! Reading a flat derivation back.

use crate::answer::{InputFile, Reason, Refusal};
use crate::format::flat::{Entry, Flat, FlatStep};
use crate::format::table::{RuleNumber, Table};
use crate::names::Goal;

/// "pending goals start as the roots. Each entry must carry the first pending
/// goal." Goals pending at the end are 27 at the file's length. `on_use` is told of
/// the rule of every use.
pub fn follow_entries(table: &Table, flat: &Flat, mut on_use: impl FnMut(RuleNumber)) -> Result<(), Refusal> {
    // The first pending goal stands last. There is no limit of 256 (READINGS A37).
    let mut pending: Vec<Goal> = flat.roots.iter().rev().copied().collect();
    for entry in &flat.entries {
        if apply_entry(table, entry, &mut pending, &mut on_use).is_none() {
            return Err(wrong_at(entry.place));
        }
    }
    if !pending.is_empty() {
        return Err(wrong_at(flat.end));
    }
    Ok(())
}

/// "An open removes it; a use needs its rule and puts the premises in its place,
/// in front." None if the entry does not apply, also when nothing is pending
/// (READINGS A33).
fn apply_entry(
    table: &Table,
    entry: &Entry,
    pending: &mut Vec<Goal>,
    on_use: &mut impl FnMut(RuleNumber),
) -> Option<()> {
    if pending.pop()? != entry.goal {
        return None;
    }
    if let FlatStep::Use(name) = entry.step {
        let rule = table.look_up(name, entry.goal)?;
        on_use(rule.number);
        pending.extend(rule.premises.iter().rev());
    }
    Some(())
}

fn wrong_at(place: usize) -> Refusal {
    Refusal::at(Reason::FlatFileWrong, InputFile::Other, place)
}
