//! Trimming: only the rows stay that a whole ticket from the root can use.

use crate::automaton::{Automaton, Row, MAX_ARITY};

const END: u32 = u32::MAX;

impl Automaton {
    /// Which states accept some ticket. A row is counted down as its children turn out productive; the uses of each
    /// state as a child are chained through `next`, by row and position.
    fn productive(&self) -> Vec<bool> {
        let states = self.states();
        let mut owner = vec![0u16; self.rows.len()];
        let mut missing = vec![0u8; self.rows.len()];
        let mut first = vec![END; states];
        let mut next = vec![END; self.rows.len() * MAX_ARITY];
        let mut productive = vec![false; states];
        let mut open = Vec::new();
        for state in 0..states {
            for i in self.range(state) {
                owner[i] = state as u16;
                missing[i] = self.rows[i].arity;
                for (position, &child) in self.rows[i].children().iter().enumerate() {
                    let entry = i * MAX_ARITY + position;
                    next[entry] = first[child as usize];
                    first[child as usize] = entry as u32;
                }
                if missing[i] == 0 && !productive[state] {
                    productive[state] = true;
                    open.push(state);
                }
            }
        }
        while let Some(state) = open.pop() {
            let mut entry = first[state];
            while entry != END {
                let row = entry as usize / MAX_ARITY;
                missing[row] -= 1;
                let user = owner[row] as usize;
                if missing[row] == 0 && !productive[user] {
                    productive[user] = true;
                    open.push(user);
                }
                entry = next[entry as usize];
            }
        }
        productive
    }

    /// The usable rows of the states that usable rows reach from a productive root; every other state has no row.
    pub fn trim(&self) -> Automaton {
        let productive = self.productive();
        let usable = |row: &Row| row.children().iter().all(|&c| productive[c as usize]);
        let kept = if productive[self.root] {
            self.reached(self.root, usable)
        } else {
            vec![false; self.states()]
        };
        let mut trimmed = Automaton::with_root(self.root, self.states());
        for state in 0..self.states() {
            let rows = if kept[state] {
                self.rows_of(state)
            } else {
                &[]
            };
            trimmed.push_state(rows.iter().filter(|row| usable(row)).copied());
        }
        trimmed
    }
}
