//! Sheets with a name, which are timed: a small one, some of middling size, and some at the limits.

use crate::draft::Draft;
use crate::random::Random;

pub struct Named {
    pub name: &'static str,
    pub about: &'static str,
    pub sheet: Vec<u8>,
}

const MAX_BYTES: usize = 32_768;
const LETTERS: &[u8] = b"ABCDEFGHIJKLMNOPQRSTUVWXYZabcdefghijklmnopqrstuvwxyz0123456789";

/// Names of one letter, and after 62 of two.
fn short_name(i: usize) -> String {
    match LETTERS.get(i) {
        Some(&letter) => (letter as char).to_string(),
        None => format!("A{}", LETTERS[i - LETTERS.len()] as char),
    }
}

fn with_forms(arities: impl Iterator<Item = usize>, states: usize) -> Draft {
    Draft {
        forms: arities
            .enumerate()
            .map(|(i, arity)| (short_name(i), arity))
            .collect(),
        states: (0..states).map(short_name).collect(),
        root: Some(0),
        ..Draft::default()
    }
}

/// Tickets of so many nodes that the house grammar reads; where the sheet gets full, smaller ones to its last bytes.
fn fill_tickets(random: &mut Random, draft: &mut Draft, tickets: usize, mut nodes: usize) {
    let mut size = draft.sheet().len();
    while draft.tickets.len() < tickets && nodes > 1 {
        let ticket = draft.derived(random, nodes).expect("nothing is accepted");
        assert!(
            ticket.len() <= nodes,
            "some state has no row that ends a ticket"
        );
        let length: usize = ticket.iter().map(|&f| 1 + draft.forms[f].0.len()).sum();
        if size + length + 2 <= MAX_BYTES {
            size += length + 2;
            draft.tickets.push(ticket);
        } else {
            nodes /= 2;
        }
    }
}

/// States with so many rows each over all forms, of which the first row ends a ticket.
fn fill_rows(random: &mut Random, draft: &mut Draft, width: usize) {
    for state in 0..draft.states.len() {
        draft.add_row(state, 0, state % 7, vec![]);
        for _ in 1..width {
            let form = random.below(draft.forms.len());
            let children = (0..draft.forms[form].1)
                .map(|_| random.below(draft.states.len()))
                .collect();
            draft.add_row(state, form, random.below(20), children);
        }
    }
}

/// Ten states of six rows, three levels, three bars.
fn middling() -> Draft {
    let mut random = Random::new(1);
    let mut draft = with_forms((0..12).map(|i| [0, 2, 1, 2][i % 4]), 10);
    fill_rows(&mut random, &mut draft, 6);
    draft.levels = vec![(1, 1), (2, 2), (3, 3), (5, 2)];
    draft.bars = vec![(1, 0, 1), (2, 0, 6), (7, 1, 3)];
    fill_tickets(&mut random, &mut draft, 20, 40);
    draft
}

/// Twelve classes of states, each in four copies that merge, under eight bars.
fn merging() -> Draft {
    let mut random = Random::new(2);
    let mut draft = with_forms((0..16).map(|i| [0, 2, 1, 3][i % 4]), 48);
    let mut base = with_forms((0..16).map(|i| [0, 2, 1, 3][i % 4]), 12);
    fill_rows(&mut random, &mut base, 8);
    for row in &base.rows {
        for copy in 0..4 {
            let children = row
                .children
                .iter()
                .map(|&c| 4 * c + random.below(4))
                .collect();
            draft.add_row(4 * row.state + copy, row.form, row.points, children);
        }
    }
    draft.root = Some(2);
    draft.bars = (0..8)
        .map(|i| (2 * i + 1, 0, 2 * ((i + 3) % 8) + 1))
        .collect();
    draft.bars.iter_mut().for_each(|bar| bar.1 = bar.0 % 2);
    fill_tickets(&mut random, &mut draft, 24, 60);
    draft
}

/// 64 forms, six states of 32 rows, a ladder of 8, eight bars, and tickets of 256 nodes to the last bytes.
fn limits() -> Draft {
    let mut random = Random::new(3);
    let mut draft = with_forms((0..64).map(|i| [0, 2, 1, 2, 3, 2, 1, 4][i % 8]), 6);
    // the last eight forms are the outer ones of the bars, each in one row
    for state in 0..6 {
        draft.add_row(state, 0, state, vec![]);
        for i in 1..32 {
            let form = match (state * 31 + i) % 23 {
                0 if state * 31 + i < 8 * 23 => 56 + (state * 31 + i) / 23,
                _ => (state * 5 + i) % 56,
            };
            let children = (0..draft.forms[form].1).map(|_| random.below(6)).collect();
            draft.add_row(state, form, random.below(1001), children);
        }
    }
    draft.levels = (1..56).map(|form| (form, form % 9)).collect();
    draft.bars = (57..64)
        .chain([57])
        .map(|outer| (outer, 0, 1 + outer % 8))
        .collect();
    fill_tickets(&mut random, &mut draft, 64, 256);
    draft
}

/// 64 states of a few rows with no restriction, none of which merge.
fn wide() -> Draft {
    let mut random = Random::new(4);
    let mut draft = with_forms((0..20).map(|i| [0, 2, 1, 2][i % 4]), 64);
    for state in 0..64 {
        draft.add_row(state, 0, state, vec![]);
        draft.add_row(state, 1, 1, vec![(state + 1) % 64, (state * 7) % 64]);
        for _ in 0..3 {
            let form = random.below(20);
            let children = (0..draft.forms[form].1).map(|_| random.below(64)).collect();
            draft.add_row(state, form, random.below(50), children);
        }
    }
    fill_tickets(&mut random, &mut draft, 64, 100);
    draft
}

/// 64 states of 32 rows under a ladder of 8: eight classes of states, so that the product's 512 states merge to 64.
fn full() -> Draft {
    let mut random = Random::new(5);
    let mut draft = with_forms((0..32).map(|i| usize::from(i > 0)), 64);
    let base: Vec<usize> = (0..8 * 32).map(|_| random.below(8)).collect();
    for state in 0..64 {
        draft.add_row(state, 0, state % 8, vec![]);
        for form in 1..32 {
            let child = 8 * random.below(8) + base[(state % 8) * 32 + form];
            draft.add_row(state, form, 1, vec![child]);
        }
    }
    draft.levels = (1..25).map(|form| (form, 1 + form % 8)).collect();
    fill_tickets(&mut random, &mut draft, 8, 100);
    draft
}

/// A chain of 64 states whose ends differ, so that they part one by one in as many rounds, and one bar.
fn chain() -> Draft {
    let mut random = Random::new(6);
    let mut draft = with_forms([0, 1, 1].into_iter(), 64);
    for state in 0..63 {
        draft.add_row(state, 1, 1, vec![state + 1]);
    }
    draft.add_row(63, 0, 1, vec![]);
    draft.bars = vec![(2, 0, 0)];
    fill_tickets(&mut random, &mut draft, 4, 64);
    draft
}

/// 16 states under a ladder of 8: all 128 pairs are reached and differ, so that no register holds them.
fn refused() -> Draft {
    let mut draft = with_forms([0, 1, 1, 1, 1, 1, 1, 1, 1, 1].into_iter(), 16);
    for state in 0..16 {
        draft.add_row(state, 0, state, vec![]);
        for form in 1..10 {
            draft.add_row(state, form, 1, vec![(state + 1) % 16]);
        }
    }
    draft.levels = (1..9).map(|form| (form, form)).collect();
    draft
}

pub fn named_sheets() -> Vec<Named> {
    let sample = include_bytes!("../../../examples/sample.sheet").to_vec();
    let of = |name, about, draft: Draft| Named {
        name,
        about,
        sheet: draft.sheet(),
    };
    vec![
        Named {
            name: "sample",
            about: "examples/sample.sheet",
            sheet: sample,
        },
        of(
            "middling",
            "12 forms, 10 states of 6 rows, a ladder of 3, 3 bars",
            middling(),
        ),
        of("merging", "48 states of 12 classes, 8 bars", merging()),
        of("chain", "64 states that part one by one, 1 bar", chain()),
        of("wide", "64 states of 5 rows, no restriction", wide()),
        of(
            "full",
            "64 states of 32 rows, 8 classes, a ladder of 8",
            full(),
        ),
        of(
            "limits",
            "64 forms, 6 states of 32 rows, a ladder of 8, 8 bars, tickets of 256 nodes",
            limits(),
        ),
        of("refused", "128 reached states: settle 32", refused()),
    ]
}
