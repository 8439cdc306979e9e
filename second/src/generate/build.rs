//! Building fields and files from numbers, for examples and tests. Unlike the
//! engine's writer these functions build wrong fields, too, if asked to.

/// A field with these contents; the length is taken modulo 65,536.
pub fn field(tag: u8, contents: &[u8]) -> Vec<u8> {
    let mut bytes = vec![tag];
    bytes.extend((contents.len() as u16).to_be_bytes());
    bytes.extend(contents);
    bytes
}

pub fn values(values: &[u16]) -> Vec<u8> {
    values.iter().flat_map(|value| value.to_be_bytes()).collect()
}

fn value_and_term(value: u16, term: &[u8]) -> Vec<u8> {
    [&value.to_be_bytes(), term].concat()
}

pub fn rule(name: u16, goal: u16, premises: &[u16]) -> Vec<u8> {
    field(1, &[values(&[name, goal]), values(premises)].concat())
}

pub fn definition(tactic: u16, body: &[u8]) -> Vec<u8> {
    field(2, &value_and_term(tactic, body))
}

pub fn goal_list(goals: &[u16]) -> Vec<u8> {
    field(3, &values(goals))
}

pub fn atomic(name: u16) -> Vec<u8> {
    field(16, &values(&[name]))
}

pub fn id() -> Vec<u8> {
    field(17, &[])
}

pub fn label(label: u16, inner: &[u8]) -> Vec<u8> {
    field(18, &value_and_term(label, inner))
}

pub fn sequence(left: &[u8], right: &[u8]) -> Vec<u8> {
    field(19, &[left, right].concat())
}

pub fn tensor(left: &[u8], right: &[u8]) -> Vec<u8> {
    field(20, &[left, right].concat())
}

pub fn empty() -> Vec<u8> {
    field(21, &[])
}

pub fn alternation(left: &[u8], right: &[u8]) -> Vec<u8> {
    field(22, &[left, right].concat())
}

pub fn assert_goal(goal: u16) -> Vec<u8> {
    field(23, &values(&[goal]))
}

pub fn defined(tactic: u16) -> Vec<u8> {
    field(24, &values(&[tactic]))
}

pub fn use_entry(name: u16, goal: u16) -> Vec<u8> {
    field(32, &values(&[name, goal]))
}

pub fn open_entry(goal: u16) -> Vec<u8> {
    field(33, &values(&[goal]))
}

pub fn job(goals: &[u16], term: &[u8]) -> Vec<u8> {
    [goal_list(goals), term.to_vec()].concat()
}

pub fn proof(goals: &[u16], term: &[u8], remaining: &[u16]) -> Vec<u8> {
    [goal_list(goals), term.to_vec(), goal_list(remaining)].concat()
}

pub fn flat(roots: &[u16], entries: &[Vec<u8>]) -> Vec<u8> {
    [goal_list(roots), entries.concat()].concat()
}

/// `depth` labels around a term.
pub fn labels_around(depth: usize, term: &[u8]) -> Vec<u8> {
    (0..depth).fold(term.to_vec(), |inner, number| label(number as u16, &inner))
}

/// The terms joined by tensors that lean right; `empty` if there is none.
pub fn tensor_of(terms: &[Vec<u8>]) -> Vec<u8> {
    right_leaning(terms, tensor)
}

/// The terms joined by sequences that lean right; `empty` if there is none.
pub fn sequence_of(terms: &[Vec<u8>]) -> Vec<u8> {
    right_leaning(terms, sequence)
}

fn right_leaning(terms: &[Vec<u8>], join: fn(&[u8], &[u8]) -> Vec<u8>) -> Vec<u8> {
    let mut from_last = terms.iter().rev();
    match from_last.next() {
        Some(last) => from_last.fold(last.clone(), |right, left| join(left, &right)),
        None => empty(),
    }
}

/// The terms joined by tensors that lean left; `empty` if there is none.
pub fn left_leaning_tensor_of(terms: &[Vec<u8>]) -> Vec<u8> {
    let mut from_first = terms.iter();
    match from_first.next() {
        Some(first) => from_first.fold(first.clone(), |left, right| tensor(&left, right)),
        None => empty(),
    }
}
