//! Merging: the coarsest grouping of the states that respects the rows, by refinement.

use crate::automaton::{Automaton, Row};
use std::cmp::Ordering;

/// A row as one number, with its children read as groups.
fn key(row: &Row, group: &[u16]) -> u128 {
    let mut key = (row.form as u128) << 16 | row.points as u128;
    for &child in row.children() {
        key = key << 16 | group[child as usize] as u128;
    }
    key
}

impl Automaton {
    /// The group of each state. States start in one group; each round parts those whose sorted rows differ, with
    /// children read as the groups so far, until no group is parted.
    fn groups(&self) -> Vec<u16> {
        let mut group = vec![0u16; self.states()];
        let mut count = 1;
        let mut keys = vec![0u128; self.rows.len()];
        let mut order: Vec<u16> = (0..self.states() as u16).collect();
        loop {
            for state in 0..self.states() {
                for i in self.range(state) {
                    keys[i] = key(&self.rows[i], &group);
                }
                keys[self.range(state)].sort_unstable();
            }
            let compare = |&a: &u16, &b: &u16| -> Ordering {
                let (a, b) = (a as usize, b as usize);
                group[a]
                    .cmp(&group[b])
                    .then_with(|| keys[self.range(a)].cmp(&keys[self.range(b)]))
            };
            order.sort_unstable_by(compare);
            let mut finer = vec![0u16; self.states()];
            let mut last = 0;
            for pair in order.windows(2) {
                if compare(&pair[0], &pair[1]) != Ordering::Equal {
                    last += 1;
                }
                finer[pair[1] as usize] = last;
            }
            group = finer;
            if last + 1 == count {
                return group;
            }
            count = last + 1;
        }
    }

    /// Root and children become their groups' lowest states, which keep their rows; the other states lose theirs, since
    /// nothing reaches them.
    pub fn merge(&self) -> Automaton {
        let group = self.groups();
        let mut lowest = vec![u16::MAX; self.states()];
        let mut names = vec![0u16; self.states()];
        for state in 0..self.states() {
            let lowest = &mut lowest[group[state] as usize];
            *lowest = (*lowest).min(state as u16);
            names[state] = *lowest;
        }
        let mut merged = Automaton::with_root(names[self.root] as usize, self.states());
        for state in 0..self.states() {
            let stays = names[state] as usize == state;
            let rows = if stays { self.rows_of(state) } else { &[] };
            merged.push_state(rows.iter().map(|row| row.renamed(&names)));
        }
        merged
    }
}
