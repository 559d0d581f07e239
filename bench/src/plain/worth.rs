//! Reading tickets: the number of readings from each state and the fewest points, node by node.

use crate::automaton::{Automaton, Row};

const CUT: u32 = 65_535;

/// What a ticket is worth from a state: how many readings it has, and the points of the cheapest; 65,535 where it has
/// none. Both are cut at 65,535.
#[derive(Clone, Copy)]
pub struct Worth {
    pub readings: u32,
    pub fewest: u32,
}

const NONE: Worth = Worth {
    readings: 0,
    fewest: CUT,
};

pub struct Reader {
    root: usize,
    states: usize,
    /// The rows of each form, with their states.
    rows: Vec<Vec<(u16, Row)>>,
    /// A worth for each node and state.
    cells: Vec<Worth>,
    /// Where the cells of each open tree begin.
    trees: Vec<usize>,
}

impl Reader {
    pub fn new(book: &Automaton, forms: usize) -> Reader {
        let mut rows = vec![Vec::new(); forms];
        for state in 0..book.states() {
            for row in book.rows_of(state) {
                rows[row.form as usize].push((state as u16, *row));
            }
        }
        Reader {
            root: book.root,
            states: book.states(),
            rows,
            cells: Vec::new(),
            trees: Vec::new(),
        }
    }

    /// The worth of a ticket, given in postfix order, from the root.
    pub fn read(&mut self, ticket: &[u16], arities: &[u8]) -> Worth {
        self.cells.clear();
        self.cells.resize(ticket.len() * self.states, NONE);
        self.trees.clear();
        for (place, &form) in ticket.iter().enumerate() {
            let start = place * self.states;
            let (below, here) = self.cells.split_at_mut(start);
            let first = self.trees.len() - arities[form as usize] as usize;
            let subtrees = &self.trees[first..];
            for (state, row) in &self.rows[form as usize] {
                let mut readings = 1;
                let mut points = row.points as u32;
                for (subtree, &child) in subtrees.iter().zip(row.children()) {
                    let worth = below[subtree + child as usize];
                    readings = (readings * worth.readings).min(CUT);
                    points = (points + worth.fewest).min(CUT);
                }
                let cell = &mut here[*state as usize];
                cell.readings = (cell.readings + readings).min(CUT);
                cell.fewest = cell.fewest.min(points);
            }
            self.trees.truncate(first);
            self.trees.push(start);
        }
        self.cells[(ticket.len() - 1) * self.states + self.root]
    }
}
