//! Tree automata as row lists, their products, and settling.

use crate::fault::Fault;
use crate::rule::Rule;

pub const MAX_ARITY: usize = 4;
pub const MAX_STATES: usize = 64;
pub const MAX_ROWS: usize = 32;
pub const MAX_POINTS: u16 = 1_000;
const MAX_PAIRS: usize = 1_024;
const MAX_PLACES: usize = 65_536;

#[derive(Clone, Copy)]
pub struct Row {
    pub form: u16,
    pub points: u16,
    pub arity: u8,
    /// Child states; those beyond the arity are 0.
    pub children: [u16; MAX_ARITY],
}

impl Row {
    pub fn children(&self) -> &[u16] {
        &self.children[..self.arity as usize]
    }

    /// The row with each child replaced.
    pub fn renamed(mut self, names: &[u16]) -> Row {
        for child in &mut self.children[..self.arity as usize] {
            *child = names[*child as usize];
        }
        self
    }
}

/// The rows of all states, one state after the other.
pub struct Automaton {
    pub root: usize,
    pub rows: Vec<Row>,
    /// Where each state's rows begin, and where the last one's end.
    starts: Vec<u32>,
}

impl Automaton {
    /// An automaton without states, for `push_state` to fill.
    pub fn with_root(root: usize, states: usize) -> Automaton {
        let mut starts = Vec::with_capacity(states + 1);
        starts.push(0);
        Automaton {
            root,
            rows: Vec::new(),
            starts,
        }
    }

    /// Adds a state with these rows.
    pub fn push_state(&mut self, rows: impl IntoIterator<Item = Row>) {
        self.rows.extend(rows);
        self.starts.push(self.rows.len() as u32);
    }

    pub fn states(&self) -> usize {
        self.starts.len() - 1
    }

    /// Where a state's rows stand in `rows`.
    pub fn range(&self, state: usize) -> std::ops::Range<usize> {
        self.starts[state] as usize..self.starts[state + 1] as usize
    }

    pub fn rows_of(&self, state: usize) -> &[Row] {
        &self.rows[self.range(state)]
    }

    /// The product of a book with a rule: the pair (p, q) is p times the rule's states plus q. A rule has at most one
    /// row of a form in a state, of 0 points, so that the rows of a pair stand in the order of the book's.
    pub fn product(&self, rule: &Rule) -> Result<Automaton, Fault> {
        let width = rule.states;
        if self.states() * width > MAX_PAIRS {
            return Err(Fault::late("pile", 22));
        }
        if MAX_ROWS * rule.places() > MAX_PLACES {
            return Err(Fault::late("pile", 23));
        }
        let mut product = Automaton::with_root(self.root * width, self.states() * width);
        product.rows.reserve(self.rows.len() * width);
        for p in 0..self.states() {
            for q in 0..width {
                product.push_state(self.rows_of(p).iter().filter_map(|row| {
                    let aims = rule.aims(q, row.form)?;
                    let mut pair = *row;
                    for (child, aim) in pair.children[..row.arity as usize].iter_mut().zip(aims) {
                        *child = *child * width as u16 + aim;
                    }
                    Some(pair)
                }));
            }
        }
        Ok(product)
    }

    /// The states that rows reach from a state through the rows that pass.
    pub fn reached(&self, from: usize, passes: impl Fn(&Row) -> bool) -> Vec<bool> {
        let mut reached = vec![false; self.states()];
        reached[from] = true;
        let mut open = vec![from];
        while let Some(state) = open.pop() {
            for row in self.rows_of(state).iter().filter(|row| passes(row)) {
                for &child in row.children() {
                    if !reached[child as usize] {
                        reached[child as usize] = true;
                        open.push(child as usize);
                    }
                }
            }
        }
        reached
    }

    /// Only the states reached from the root, renumbered in their order, as a register of these forms can hold them.
    pub fn settle(&self, arities: &[u8]) -> Result<Automaton, Fault> {
        let reached = self.reached(self.root, |_| true);
        let states: Vec<usize> = (0..self.states()).filter(|&s| reached[s]).collect();
        let rows = || states.iter().flat_map(|&s| self.rows_of(s));
        let known = |row: &Row| arities.get(row.form as usize) == Some(&row.arity);
        if states.len() > MAX_STATES {
            return Err(Fault::late("settle", 32));
        }
        if states.iter().any(|&s| self.rows_of(s).len() > MAX_ROWS) {
            return Err(Fault::late("settle", 33));
        }
        if !rows().all(known) {
            return Err(Fault::late("settle", 34));
        }
        if rows().any(|row| row.points > MAX_POINTS) {
            return Err(Fault::late("settle", 35));
        }
        let mut names = vec![0; self.states()];
        for (name, &state) in states.iter().enumerate() {
            names[state] = name as u16;
        }
        let mut settled = Automaton::with_root(names[self.root] as usize, states.len());
        for &state in &states {
            settled.push_state(self.rows_of(state).iter().map(|row| row.renamed(&names)));
        }
        Ok(settled)
    }
}
