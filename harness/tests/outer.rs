//! The model of the outer template: the examples worked out by hand, beside the
//! full trees of the original, beside another wording of what a list is, and
//! what generated numbers are good for.

use std::collections::BTreeSet;

use harness::answer::Answer;
use harness::format::{NODE_WIDTH, Row};
use harness::generate::dressed;
use harness::generate::random::Random;
use harness::lists::{cut, model};
use harness::oracle;
use harness::outer::generate::{damage, each_short, nearly, row, rows, scatter, small};
use harness::outer::model::{Fault, arguments, type_name_outer};
use harness::outer::whole::{by_every_node, looked_at, original};
use harness::outer::worked::assert_worked;

/// Few steps, so that no row takes long.
const AMPLE: u32 = 2_000;

#[test]
fn the_worked_examples() {
    assert_worked(type_name_outer);
}

/// Rows of one type that are accepted, with their trees.
fn accepted(random: &mut Random, count: usize) -> Vec<(Row, Vec<u32>)> {
    let drawn = (0..count).filter_map(|_| {
        let case = dressed(row(random), random);
        let mut row = Row::read(&case.file).ok()?;
        row.head.allowance = AMPLE;
        let (answer, mut tree) = oracle::answer_with_tree(&row.write());
        let Answer::Accepted { nodes, .. } = answer else {
            return None;
        };
        tree.truncate(NODE_WIDTH * nodes as usize);
        Some((row, tree))
    });
    drawn.collect()
}

#[test]
fn an_accepted_tree_gets_the_count_from_the_full_tree() {
    let mut random = Random::new(1);
    let mut seen = BTreeSet::new();
    for (row, tree) in accepted(&mut random, 20_000) {
        let whole = original(&row).expect("accepted");
        assert_eq!(NODE_WIDTH * whole.nodes, tree.len(), "{row:?}");
        assert_eq!(by_every_node(&tree), whole.arguments, "{row:?}");
        let kept = looked_at(&tree);
        if whole.arguments > 0 {
            assert_eq!(kept.len(), 2 + whole.arguments as usize, "{row:?}");
        }
        seen.insert(whole.arguments);
        // And whatever stands elsewhere.
        let mut numbers = tree;
        for spare in 0..8 {
            assert_eq!(type_name_outer(&numbers), whole.arguments, "{row:?}");
            numbers.extend(vec![0; spare]);
            assert_eq!(type_name_outer(&numbers), whole.arguments, "{row:?}");
            scatter(&mut random, &mut numbers, &kept);
        }
    }
    assert!(seen.len() > 40, "{seen:?}");
}

#[test]
fn of_several_types_the_first_decides() {
    let mut random = Random::new(2);
    let mut seen = [0; 2];
    for _ in 0..5_000 {
        let case = dressed(rows(&mut random), &mut random);
        let Ok(mut row) = Row::read(&case.file) else {
            continue;
        };
        row.head.allowance = AMPLE;
        let mut tree = vec![0; case.tree_len];
        let [0, _, _, _, parts] = model::numbers(&row.write(), &mut tree) else {
            continue;
        };
        let first = cut::parts(&row)[0].clone();
        row.tokens.truncate(first.end);
        let whole = original(&row).expect("accepted");
        assert_eq!(type_name_outer(&tree), whole.arguments, "{row:?}");
        assert_eq!(
            type_name_outer(&tree[..NODE_WIDTH * whole.nodes]),
            whole.arguments,
            "{row:?}"
        );
        seen[usize::from(whole.arguments > 0)] += usize::from(parts > 1);
    }
    assert!(seen.iter().all(|&times| times > 200), "{seen:?}");
}

/// Another wording: a word, a list and as many nodes as it has below it can be
/// parted into arguments, each of which is as long as its first node says.
fn is_list_of(count: u32, numbers: &[u32]) -> bool {
    let (nodes, _) = numbers.as_chunks::<NODE_WIDTH>();
    let [[0, _, 1], [3, _, extent], behind @ ..] = nodes else {
        return false;
    };
    let below = (*extent as usize).checked_sub(1);
    below
        .and_then(|below| behind.get(..below))
        .is_some_and(|below| is_parted(count, below))
}

fn is_parted(count: u32, nodes: &[[u32; NODE_WIDTH]]) -> bool {
    let begins = |end: &usize| matches!(nodes[0], [4, _, extent] if extent as usize == *end);
    match count {
        0 => nodes.is_empty(),
        _ => (1..=nodes.len()).any(|end| begins(&end) && is_parted(count - 1, &nodes[end..])),
    }
}

fn assert_worded(numbers: &[u32]) -> Option<Fault> {
    let answer = arguments(numbers);
    let most = numbers.len() as u32;
    let counts: Vec<u32> = (1..=most).filter(|&n| is_list_of(n, numbers)).collect();
    assert_eq!(counts, Vec::from_iter(answer.ok()), "{numbers:?}");
    answer.err()
}

#[test]
fn short_sequences_are_lists_exactly_if_they_can_be_parted_so() {
    let mut faults = BTreeSet::new();
    for nodes in 0..=4 {
        each_short(nodes, |numbers| faults.extend(assert_worded(numbers)));
    }
    assert_eq!(faults, BTreeSet::from(Fault::ALL));
}

#[test]
fn every_fault_is_drawn_and_lists_beside_it() {
    let mut random = Random::new(3);
    let trees = accepted(&mut random, 300);
    type Draw<'a> = &'a mut dyn FnMut(&mut Random) -> Vec<u32>;
    let mut damaged = |random: &mut Random| {
        let (_, tree) = random.pick(&trees);
        let mut tree = tree.clone();
        let looked_at = looked_at(&tree);
        damage(random, &mut tree, &looked_at);
        tree
    };
    let draws: [Draw; 3] = [&mut damaged, &mut nearly, &mut small];
    for draw in draws {
        let mut seen = [0; Fault::ALL.len()];
        let mut lists = 0;
        for _ in 0..40_000 {
            match arguments(&draw(&mut random)) {
                Ok(_) => lists += 1,
                Err(fault) => seen[fault as usize] += 1,
            }
        }
        assert!(lists > 1_000, "{lists}");
        assert!(seen.iter().all(|&times| times > 40), "{seen:?}");
    }
}

#[test]
fn drawn_numbers_are_lists_exactly_if_they_can_be_parted_so() {
    let mut random = Random::new(4);
    for _ in 0..100_000 {
        assert_worded(&nearly(&mut random));
        assert_worded(&small(&mut random));
    }
}
