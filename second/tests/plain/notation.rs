//! P8's notation once more, as its grammar tried without a thought of speed.
//!
//! `Seq[x] → Alt[x] | Alt[c] ; Seq[x]`, `Alt[x] → Ten[x] | Ten[c] '|' Alt[x]`,
//! `Ten[x] → Op[x] | Op[c] * Ten[x]`, `Op[c] → leaf | ( Seq[c or o] )`,
//! `Op[o] → [n] Seq[c or o]`, with x closed, or open: it ends in a label.

use second::generate::build;
use std::collections::BTreeMap;

#[derive(Clone, Copy, PartialEq, Eq, PartialOrd, Ord)]
pub enum End {
    Closed,
    Open,
}

const BOTH: [End; 2] = [End::Closed, End::Open];

#[derive(Clone, Copy, PartialEq, Eq, PartialOrd, Ord)]
enum Symbol {
    Sequence(End),
    Alternation(End),
    Tensor(End),
    Operand(End),
}

/// The offset behind a part of a text, and the bytes of the term it reads as.
type Reading = (usize, Vec<u8>);

/// A part, the sign between parts, and the chain of what is left behind it.
type ChainForm<'a> = (fn(End) -> Symbol, &'a [u8], fn(End) -> Symbol);

/// A letter, and the field that it makes with a number.
type NumberedLeaf = (u8, fn(u16) -> Vec<u8>);

/// All ways in which the grammar's symbols can stand at the offsets of a text.
struct Grammar<'a> {
    text: &'a [u8],
    known: BTreeMap<(Symbol, usize), Vec<Reading>>,
    /// Whether some way went on where the text ends. Every symbol stands for some
    /// text, so more bytes would have made a text of the notation.
    ran_out: bool,
}

impl Grammar<'_> {
    fn of(text: &[u8]) -> Grammar<'_> {
        Grammar { text, known: BTreeMap::new(), ran_out: false }
    }

    /// The terms that the whole text reads as.
    fn whole(&mut self) -> Vec<Vec<u8>> {
        let first = self.behind_blanks(0);
        let mut readings = Vec::new();
        for end in BOTH {
            readings.extend(self.readings(Symbol::Sequence(end), first));
        }
        readings.into_iter().filter(|reading| reading.0 == self.text.len()).map(|reading| reading.1).collect()
    }

    fn byte(&mut self, at: usize) -> Option<u8> {
        let byte = self.text.get(at).copied();
        self.ran_out |= byte.is_none();
        byte
    }

    /// No mark begins with a blank, so all blanks belong between the marks.
    fn behind_blanks(&mut self, mut at: usize) -> usize {
        while self.byte(at) == Some(b' ') {
            at += 1;
        }
        at
    }

    /// The offset behind these bytes and the blanks behind them.
    fn mark(&mut self, at: usize, bytes: &[u8]) -> Option<usize> {
        for (number, byte) in bytes.iter().enumerate() {
            if self.byte(at + number)? != *byte {
                return None;
            }
        }
        Some(self.behind_blanks(at + bytes.len()))
    }

    /// No mark begins with a digit, so all digits belong to the number. The value
    /// is taken modulo 65,536.
    fn number(&mut self, at: usize) -> Option<(usize, u16)> {
        let mut value = 0u16;
        let mut end = at;
        while let Some(digit) = self.byte(end).filter(u8::is_ascii_digit) {
            value = value.wrapping_mul(10).wrapping_add(u16::from(digit - b'0'));
            end += 1;
        }
        (end > at).then_some((end, value))
    }

    fn readings(&mut self, symbol: Symbol, at: usize) -> Vec<Reading> {
        if let Some(known) = self.known.get(&(symbol, at)) {
            return known.clone();
        }
        let found = match symbol {
            Symbol::Sequence(end) => {
                self.chain(at, end, (Symbol::Alternation, b";", Symbol::Sequence), build::sequence)
            }
            Symbol::Alternation(end) => {
                self.chain(at, end, (Symbol::Tensor, b"|", Symbol::Alternation), build::alternation)
            }
            Symbol::Tensor(end) => self.chain(at, end, (Symbol::Operand, b"*", Symbol::Tensor), build::tensor),
            Symbol::Operand(End::Open) => self.labelled(at),
            Symbol::Operand(End::Closed) => [self.leaf(at), self.bracketed(at)].concat(),
        };
        self.known.insert((symbol, at), found.clone());
        found
    }

    /// A part alone, or a closed part, the sign and the rest of the chain.
    fn chain(
        &mut self,
        at: usize,
        end: End,
        (part, sign, chain): ChainForm,
        join: fn(&[u8], &[u8]) -> Vec<u8>,
    ) -> Vec<Reading> {
        let mut found = self.readings(part(end), at);
        for (left_end, left) in self.readings(part(End::Closed), at) {
            if let Some(right_place) = self.mark(left_end, sign) {
                let rights = self.readings(chain(end), right_place);
                found.extend(rights.into_iter().map(|(right_end, right)| (right_end, join(&left, &right))));
            }
        }
        found
    }

    fn leaf(&mut self, at: usize) -> Vec<Reading> {
        let mut found = Vec::new();
        found.extend(self.mark(at, b"id").map(|end| (end, build::id())));
        found.extend(self.mark(at, b"<>").map(|end| (end, build::empty())));
        let numbered: [NumberedLeaf; 3] = [(b'a', build::atomic), (b'?', build::assert_goal), (b'T', build::defined)];
        for (letter, field) in numbered {
            if self.byte(at) == Some(letter) {
                if let Some((end, value)) = self.number(at + 1) {
                    found.push((self.behind_blanks(end), field(value)));
                }
            }
        }
        found
    }

    fn bracketed(&mut self, at: usize) -> Vec<Reading> {
        let mut found = Vec::new();
        let Some(inner_place) = self.mark(at, b"(") else {
            return found;
        };
        for end in BOTH {
            for (inner_end, inner) in self.readings(Symbol::Sequence(end), inner_place) {
                found.extend(self.mark(inner_end, b")").map(|behind| (behind, inner)));
            }
        }
        found
    }

    fn labelled(&mut self, at: usize) -> Vec<Reading> {
        let mut found = Vec::new();
        if self.byte(at) != Some(b'[') {
            return found;
        }
        let Some((number_end, label)) = self.number(at + 1) else {
            return found;
        };
        let Some(inner_place) = self.mark(number_end, b"]") else {
            return found;
        };
        for end in BOTH {
            let inner = self.readings(Symbol::Sequence(end), inner_place);
            found.extend(inner.into_iter().map(|(behind, inner)| (behind, build::label(label, &inner))));
        }
        found
    }
}

/// All terms that a text reads as, whatever its length and its values modulo
/// 65,536: "text that reads as a term has that reading only".
pub fn all_readings(text: &[u8]) -> Vec<Vec<u8>> {
    Grammar::of(text).whole()
}

/// Whether some text of the notation begins with these bytes.
pub fn is_viable(beginning: &[u8]) -> bool {
    let mut grammar = Grammar::of(beginning);
    grammar.whole();
    grammar.ran_out
}

/// "36, the first byte after which no text of the notation can follow, or the end
/// if it comes early"; for 36 the notation knows no limits.
pub fn place_of_36(text: &[u8]) -> Option<usize> {
    let first = (0..text.len()).find(|&place| !is_viable(&text[..=place]));
    first.or(all_readings(text).is_empty().then_some(text.len()))
}

/// The first and the last digit of each number over 65,535.
pub fn large_numbers(text: &[u8]) -> Vec<(usize, usize)> {
    let is_digit = |at: usize| text.get(at).is_some_and(u8::is_ascii_digit);
    let mut found = Vec::new();
    for first in (0..text.len()).filter(|&at| is_digit(at) && (at == 0 || !is_digit(at - 1))) {
        let last = (first..).find(|&at| !is_digit(at + 1)).unwrap();
        let digits = std::str::from_utf8(&text[first..=last]).unwrap().trim_start_matches('0');
        if digits.len() > 5 || digits.parse::<u32>().unwrap_or(0) > 65_535 {
            found.push((first, last));
        }
    }
    found
}

/// What the reader gives for a text of at most 4,096 term fields: the term, or
/// number and place.
pub fn read(text: &[u8]) -> Result<Vec<u8>, (u32, usize)> {
    let wrong = place_of_36(text);
    let large = large_numbers(text).into_iter().find(|number| wrong.is_none_or(|place| number.1 < place));
    match (large, wrong) {
        (Some((first, _)), _) => Err((37, first)),
        (None, Some(place)) => Err((36, place)),
        (None, None) => {
            let readings = all_readings(text);
            assert_eq!(readings.len(), 1, "{}", String::from_utf8_lossy(text));
            Ok(readings[0].clone())
        }
    }
}

/// A term with every inner term in brackets.
pub fn bracketed_text(term: &super::Placed) -> String {
    use super::Term;
    let two = |left, sign, right| format!("({}) {sign} ({})", bracketed_text(left), bracketed_text(right));
    match &term.term {
        Term::Atomic(name) => format!("a{name}"),
        Term::Id => "id".to_string(),
        Term::Empty => "<>".to_string(),
        Term::Assert(goal) => format!("?{goal}"),
        Term::Defined(tactic) => format!("T{tactic}"),
        Term::Label(label, inner) => format!("[{label}]({})", bracketed_text(inner)),
        Term::Sequence(left, right) => two(left, ';', right),
        Term::Tensor(left, right) => two(left, '*', right),
        Term::Alternation(left, right) => two(left, '|', right),
    }
}

/// The offsets of each pair of round brackets, in the order of the opening ones.
pub fn pairs(text: &[u8]) -> Vec<(usize, usize)> {
    let mut open = Vec::new();
    let mut pairs = Vec::new();
    for (place, byte) in text.iter().enumerate() {
        match byte {
            b'(' => open.push(place),
            b')' => pairs.push((open.pop().expect("an opening bracket"), place)),
            _ => {}
        }
    }
    pairs.sort();
    pairs
}

pub fn without_pair(text: &[u8], (opening, closing): (usize, usize)) -> Vec<u8> {
    [&text[..opening], &text[opening + 1..closing], &text[closing + 1..]].concat()
}

/// "The writer uses brackets only where leaving them out would read as another
/// term (round the label itself if it would reach too far)": from all brackets
/// each pair is taken away that can be, the outer ones first.
pub fn write(term: &[u8]) -> Vec<u8> {
    let mut text = bracketed_text(&super::term_at(term, 0)).into_bytes();
    let mut number = 0;
    while let Some(&pair) = pairs(&text).get(number) {
        let shorter = without_pair(&text, pair);
        if all_readings(&shorter) == [term] {
            text = shorter;
        } else {
            number += 1;
        }
    }
    text
}
