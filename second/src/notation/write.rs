//! Term to text.
//!
//! "The writer uses brackets only where leaving them out would read as another
//! term (round the label itself if it would reach too far), one blank each side of
//! a sign and none elsewhere, and a decimal number without leading zeros."

use super::{Sign, BLANK};
use crate::format::terms::{Term, TermNumber, Terms};

/// A label of five digits makes 7 bytes for its one field, every other mark with
/// its brackets and blanks fewer (B8.13).
const MOST_BYTES_FOR_A_FIELD: usize = 7;

/// What decides whether a term is in round brackets.
#[derive(Clone, Copy)]
struct Standing {
    /// How tightly a sign must bind not to need brackets.
    least_tightness: u8,
    /// Whether a sign follows the term inside the same round brackets.
    followed: bool,
}

/// The whole term, all that a pair of round brackets holds, all that a label holds.
const ALONE: Standing = Standing { least_tightness: 0, followed: false };

/// What is still to be written.
enum Piece {
    Term(TermNumber, Standing),
    Sign(Sign),
    ClosingBracket,
}

/// The text of a term.
pub fn text_of(terms: &Terms, term: TermNumber) -> Vec<u8> {
    let mut text = Vec::with_capacity(MOST_BYTES_FOR_A_FIELD * terms.count());
    // The piece to be written next stands last.
    let mut pieces = vec![Piece::Term(term, ALONE)];
    while let Some(piece) = pieces.pop() {
        match piece {
            Piece::Sign(sign) => text.extend([BLANK, sign.byte(), BLANK]),
            Piece::ClosingBracket => text.push(b')'),
            Piece::Term(number, standing) => {
                let term = terms.get(number);
                if needs_brackets(term, standing) {
                    text.push(b'(');
                    pieces.push(Piece::ClosingBracket);
                    write_term(term, ALONE, &mut text, &mut pieces);
                } else {
                    write_term(term, standing, &mut text, &mut pieces);
                }
            }
        }
    }
    text
}

/// Brackets stand "for a left part of the same or a looser sign, for a right part
/// of a looser sign, and round a label (not round the chain that ends in it)
/// whenever a sign follows it inside the same brackets" (B8.10).
fn needs_brackets(term: Term, standing: Standing) -> bool {
    match term {
        Term::Sequence(_, _) => Sign::Sequence.tightness() < standing.least_tightness,
        Term::Alternation(_, _) => Sign::Alternation.tightness() < standing.least_tightness,
        Term::Tensor(_, _) => Sign::Tensor.tightness() < standing.least_tightness,
        Term::Label(_, _) => standing.followed,
        _ => false,
    }
}

fn write_term(term: Term, standing: Standing, text: &mut Vec<u8>, pieces: &mut Vec<Piece>) {
    let mut two_parts = |left, sign: Sign, right| {
        let tightness = sign.tightness();
        pieces.push(Piece::Term(right, Standing { least_tightness: tightness, followed: standing.followed }));
        pieces.push(Piece::Sign(sign));
        pieces.push(Piece::Term(left, Standing { least_tightness: tightness + 1, followed: true }));
    };
    match term {
        Term::Sequence(left, right) => two_parts(left, Sign::Sequence, right),
        Term::Tensor(left, right) => two_parts(left, Sign::Tensor, right),
        Term::Alternation(left, right) => two_parts(left, Sign::Alternation, right),
        Term::Label(label, inner) => {
            write_number(b'[', label.0, text);
            text.push(b']');
            pieces.push(Piece::Term(inner, ALONE));
        }
        Term::Atomic(name) => write_number(b'a', name.0, text),
        Term::Assert(goal) => write_number(b'?', goal.0, text),
        Term::DefinedTactic(tactic) => write_number(b'T', tactic.0, text),
        Term::Id => text.extend(b"id"),
        Term::Empty => text.extend(b"<>"),
    }
}

/// A byte, then "a decimal number without leading zeros".
fn write_number(before: u8, value: u16, text: &mut Vec<u8>) {
    text.push(before);
    let mut digits = [0; 5];
    let mut first = digits.len();
    let mut rest = value;
    loop {
        first -= 1;
        digits[first] = b'0' + (rest % 10) as u8;
        rest /= 10;
        if rest == 0 {
            break;
        }
    }
    text.extend(&digits[first..]);
}
