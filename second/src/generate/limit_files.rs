//! Files at every limit of document 01 and one beyond.

use super::build::*;

/// Rules of different names for goal 1.
pub fn different_rules(count: usize) -> Vec<u8> {
    (0..count).flat_map(|name| rule(name as u16, 1, &[])).collect()
}

/// One rule many times: 6, unless a limit comes first.
pub fn equal_rules(count: usize) -> Vec<u8> {
    rule(1, 1, &[]).repeat(count)
}

/// A table without faults of exactly 65,535 bytes: 2,848 rules with eight
/// premises, and two without and one with five to make up the rest.
pub fn longest_table() -> Vec<u8> {
    let mut bytes: Vec<u8> = (0..2_848).flat_map(|name| rule(name, 1, &[0; 8])).collect();
    bytes.extend(rule(60_000, 1, &[]));
    bytes.extend(rule(60_001, 1, &[]));
    bytes.extend(rule(60_002, 1, &[0; 5]));
    bytes
}

/// A definition for each number from 0.
pub fn definitions(count: usize) -> Vec<u8> {
    (0..count).flat_map(|tactic| definition(tactic as u16, &id())).collect()
}

/// One definition of that many term fields, as deep as it has fields.
pub fn deep_definition(fields: usize) -> Vec<u8> {
    definition(1, &labels_around(fields - 1, &id()))
}

/// Sixteen definitions of 255 fields and one more that fills up to `fields`.
pub fn fields_over_definitions(fields: usize) -> Vec<u8> {
    let body = tensor_of(&vec![id(); 128]);
    let many: Vec<u8> = (0..16).flat_map(|tactic| definition(tactic, &body)).collect();
    let rest = labels_around(fields - 16 * 255 - 1, &empty());
    [many, definition(16, &rest)].concat()
}

/// Tables near the limits.
pub fn tables() -> Vec<Vec<u8>> {
    let full = equal_rules(4_096);
    vec![
        different_rules(4_096),
        full.clone(),
        [&full[..], &[1, 0]].concat(),
        [&full[..], &[1, 0, 99]].concat(),
        [&full[..], &[3, 0, 99]].concat(),
        longest_table(),
        vec![1; 65_535],
        vec![1; 65_536],
        definitions(256),
        definitions(257),
        [definitions(256), vec![2, 0, 0]].concat(),
        deep_definition(4_096),
        deep_definition(4_097),
        fields_over_definitions(4_096),
        fields_over_definitions(4_097),
    ]
}

/// A table of many definitions that name each other in a long chain, the last
/// one first known: an arity that takes all of them to find.
pub fn chain_of_definitions(count: u16) -> Vec<u8> {
    let link = |tactic: u16| definition(tactic, &sequence(&defined(tactic + 1), &id()));
    let links: Vec<u8> = (0..count - 1).flat_map(link).collect();
    [links, definition(count - 1, &id())].concat()
}

/// Definitions each of which names the next one twice: exponential for an arity
/// that is found anew at every mention.
pub fn doubling_definitions(count: u16) -> Vec<u8> {
    let link = |tactic: u16| definition(tactic, &alternation(&defined(tactic + 1), &defined(tactic + 1)));
    let links: Vec<u8> = (0..count - 1).flat_map(link).collect();
    [links, definition(count - 1, &id())].concat()
}

/// Tactic 0 of arity 2^8 = 256 and tactic 9 of arity 2^9 = 512, by doubling.
pub fn powers_of_arity() -> Vec<u8> {
    let double = |tactic: u16, of: u16| definition(tactic, &tensor(&defined(of), &defined(of)));
    let mut bytes = definition(8, &id());
    bytes.extend((0..8).rev().flat_map(|tactic| double(tactic, tactic + 1)));
    bytes.extend(double(9, 0));
    bytes
}

/// Proofs near the limits, for `table_of_eight` of the examples (rules 1 on 10
/// gives 20, 30; 2 on 20; 3 on 30; 4 on 40 gives eight times 40).
pub fn proofs() -> Vec<Vec<u8>> {
    let ids = |count: usize| vec![id(); count];
    let tens = |count: usize| vec![10; count];
    let hundred_twenty_eight = tensor_of(&ids(128));
    vec![
        // 256 and 257 goals in the first list.
        proof(&tens(256), &tensor_of(&ids(256)), &tens(256)),
        proof(&tens(257), &tensor_of(&ids(257)), &[]),
        proof(&tens(256), &left_leaning_tensor_of(&ids(256)), &tens(256)),
        proof(&tens(256), &tensor(&hundred_twenty_eight, &hundred_twenty_eight), &tens(256)),
        // 257 goals in the last list.
        proof(&[10], &id(), &tens(257)),
        // 4,096 and 4,097 term fields, as deep as they are many.
        proof(&[10], &labels_around(4_095, &id()), &[10]),
        proof(&[10], &labels_around(4_096, &id()), &[10]),
        // 4,095 and 4,097 fields of sequences and tensors.
        proof(&[10], &sequence_of(&ids(2_048)), &[10]),
        proof(&[10], &sequence_of(&ids(2_049)), &[10]),
        proof(&[], &tensor_of(&vec![empty(); 2_048]), &[]),
        proof(&[], &left_leaning_tensor_of(&vec![empty(); 2_048]), &[]),
        // A left part of arity 256 and of 257, on 256 goals.
        proof(&tens(256), &tensor(&tensor_of(&ids(256)), &empty()), &tens(256)),
        proof(&tens(256), &tensor(&tensor_of(&ids(257)), &empty()), &tens(256)),
        // Joined lists of 256 and of 257, the outer tensor being the one.
        proof(&[40; 33], &tensor_of(&[vec![atomic(4); 31], ids(2)].concat()), &[40; 250]),
        proof(&[40; 33], &tensor_of(&[vec![atomic(4); 32], ids(1)].concat()), &[40; 256]),
        proof(&[40; 33], &left_leaning_tensor_of(&[vec![atomic(4); 32], ids(1)].concat()), &[40; 256]),
    ]
}

/// Rule 4 of `table_of_eight` on the first leaf again and again.
pub fn proof_of_growing_tree() -> Vec<u8> {
    let mut term = atomic(4);
    let mut leaves = 8;
    while leaves <= 60 {
        let others = tensor_of(&vec![id(); leaves - 1]);
        term = sequence(&term, &tensor(&atomic(4), &others));
        leaves += 7;
    }
    proof(&[40], &term, &vec![40; leaves])
}

/// A proof of 2,048 uses, the most that 4,096 term fields allow, over
/// `chain_table`; its flat form with the 2 open leaves has 2,050 entries.
pub fn proof_of_most_uses() -> Vec<u8> {
    let chain = sequence_of(&vec![atomic(5); 2_047]);
    proof(&[50], &sequence(&chain, &atomic(7)), &[50, 50])
}

/// Over `table_of_eight`: each of 227 goals is turned into 64, side by side, with
/// 9 uses. 14,464 goals wait when the last tensors begin to join; 22 in the end.
pub fn term_of_most_waiting_goals() -> Vec<u8> {
    let sixty_four = sequence(&atomic(4), &tensor_of(&vec![atomic(4); 8]));
    tensor_of(&vec![sixty_four; 227])
}

/// A proof for each of some names, of goal 1 by that name alone.
pub fn proofs_by_name(names: &[u16]) -> Vec<Vec<u8>> {
    names.iter().map(|&name| proof(&[1], &atomic(name), &[])).collect()
}

/// Flat files over `table_of_eight` that leave as many goals pending as 4,096 and
/// 2,048 uses can: 28,928 and 14,592.
pub fn flats_of_most_pending_goals() -> Vec<Vec<u8>> {
    let uses = |count: usize| flat(&[40; 256], &vec![use_entry(4, 40); count]);
    vec![uses(4_096), uses(2_048)]
}

/// A flat file of `uses` uses of rule 4 and as many opens as it leaves, for
/// `table_of_eight`. 36 uses leave 253 opens.
pub fn flat_of_eights(uses: usize) -> Vec<u8> {
    let opens = 1 + 7 * uses;
    flat(&[40], &[vec![use_entry(4, 40); uses], vec![open_entry(40); opens]].concat())
}

/// A flat file of roots 20, each closed by a use of rule 2, then opens of root 10.
pub fn flat_of_roots(uses: usize, opens: usize) -> Vec<u8> {
    let roots = [vec![20; uses], vec![10; opens]].concat();
    flat(&roots, &[vec![use_entry(2, 20); uses], vec![open_entry(10); opens]].concat())
}

/// Rules 5 on 50 giving 50, and 6 on 50 giving none: chains of any length.
pub fn chain_table() -> Vec<u8> {
    [rule(5, 50, &[50]), rule(6, 50, &[]), rule(7, 50, &[50, 50])].concat()
}

/// A flat file of exactly that many entries over `chain_table`, all uses.
pub fn flat_chain(entries: usize) -> Vec<u8> {
    let mut list = vec![use_entry(5, 50); entries - 1];
    list.push(use_entry(6, 50));
    flat(&[50], &list)
}

/// Flat files near the limits, for `chain_table`.
pub fn flats() -> Vec<Vec<u8>> {
    let closed_and_open = |uses: usize, opens: usize| {
        let roots = vec![50; opens.min(256)];
        let uses = vec![use_entry(5, 50); uses];
        flat(&roots, &[uses, vec![open_entry(50); opens]].concat())
    };
    vec![
        flat_chain(2_047),
        flat_chain(2_048),
        flat_chain(2_049),
        flat_chain(4_096),
        flat_chain(4_097),
        closed_and_open(10, 256),
        closed_and_open(10, 257),
        closed_and_open(1_792, 256),
        closed_and_open(1_793, 256),
        closed_and_open(4_096, 256),
        flat(&[50; 256], &[]),
        flat(&[50; 257], &[]),
        // The longest list of pending goals: none of them taken up.
        flat(&[50; 256], &vec![use_entry(7, 50); 4_096]),
        // The first entry does not apply, and there are too many.
        flat(&[50], &vec![use_entry(9, 50); 2_049]),
        flat(&[50], &vec![use_entry(9, 50); 2_048]),
    ]
}

/// Jobs near the limits, for any table.
pub fn jobs() -> Vec<Vec<u8>> {
    let ids = |count: usize| vec![id(); count];
    let tens = |count: usize| vec![10; count];
    vec![
        job(&tens(256), &tensor_of(&ids(256))),
        job(&tens(257), &tensor_of(&ids(257))),
        job(&tens(256), &left_leaning_tensor_of(&ids(256))),
        // 4,096 steps and fields exactly, as deep as they are many; then one more.
        job(&[10], &labels_around(4_095, &id())),
        job(&[10], &labels_around(4_096, &id())),
        job(&[10], &sequence_of(&ids(2_048))),
        job(&[10], &sequence_of(&ids(2_049))),
        job(&tens(256), &tensor(&tensor_of(&ids(257)), &empty())),
    ]
}
