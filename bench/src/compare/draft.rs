//! A grammar with its restrictions and tickets, before it is written as a sheet.

use crate::random::Random;

#[derive(Clone)]
pub struct DraftRow {
    pub state: usize,
    pub form: usize,
    pub points: usize,
    pub children: Vec<usize>,
}

#[derive(Clone, Default)]
pub struct Draft {
    /// Names and arities.
    pub forms: Vec<(String, usize)>,
    pub states: Vec<String>,
    pub rows: Vec<DraftRow>,
    pub root: Option<usize>,
    /// Forms with their levels.
    pub levels: Vec<(usize, usize)>,
    /// Outer form, position, inner form.
    pub bars: Vec<(usize, usize, usize)>,
    /// Forms in postfix order.
    pub tickets: Vec<Vec<usize>>,
}

/// A line with the forms and states that must be given before it.
struct Entry {
    text: String,
    forms: Vec<usize>,
    states: Vec<usize>,
}

impl Draft {
    pub fn add_row(&mut self, state: usize, form: usize, points: usize, children: Vec<usize>) {
        self.rows.push(DraftRow {
            state,
            form,
            points,
            children,
        });
    }

    /// The lines other than those of forms and states: rows, root, levels, bars, tickets.
    fn entries(&self) -> Vec<Entry> {
        let form = |f: usize| self.forms[f].0.as_str();
        let state = |s: usize| self.states[s].as_str();
        let mut entries = Vec::new();
        for row in &self.rows {
            let mut text = format!(
                "R\t{}\t{}\t{}",
                state(row.state),
                form(row.form),
                row.points
            );
            let mut states = vec![row.state];
            for &child in &row.children {
                text.push('\t');
                text.push_str(state(child));
                states.push(child);
            }
            let forms = vec![row.form];
            entries.push(Entry {
                text,
                forms,
                states,
            });
        }
        if let Some(root) = self.root {
            let text = format!("G\t{}", state(root));
            entries.push(Entry {
                text,
                forms: vec![],
                states: vec![root],
            });
        }
        for &(f, level) in &self.levels {
            let text = format!("L\t{}\t{level}", form(f));
            entries.push(Entry {
                text,
                forms: vec![f],
                states: vec![],
            });
        }
        for &(outer, position, inner) in &self.bars {
            let text = format!("B\t{}\t{position}\t{}", form(outer), form(inner));
            entries.push(Entry {
                text,
                forms: vec![outer, inner],
                states: vec![],
            });
        }
        for ticket in &self.tickets {
            let mut text = String::from("T");
            for &f in ticket {
                text.push('\t');
                text.push_str(form(f));
            }
            entries.push(Entry {
                text,
                forms: ticket.clone(),
                states: vec![],
            });
        }
        entries
    }

    /// The lines of the sheet: forms, states, and then the rest.
    pub fn lines(&self) -> Vec<String> {
        let forms = self
            .forms
            .iter()
            .map(|(name, arity)| format!("F\t{name}\t{arity}"));
        let states = self.states.iter().map(|name| format!("S\t{name}"));
        let rest = self.entries().into_iter().map(|entry| entry.text);
        forms.chain(states).chain(rest).collect()
    }

    /// The lines in a random order in which each name still is given before it is used.
    pub fn shuffled_lines(&self, random: &mut Random) -> Vec<String> {
        let mut entries = self.entries();
        random.shuffle(&mut entries);
        let mut form_given = vec![false; self.forms.len()];
        let mut state_given = vec![false; self.states.len()];
        let mut lines = Vec::new();
        for entry in entries {
            for f in entry.forms {
                if !std::mem::replace(&mut form_given[f], true) {
                    lines.push(format!("F\t{}\t{}", self.forms[f].0, self.forms[f].1));
                }
            }
            for s in entry.states {
                if !std::mem::replace(&mut state_given[s], true) {
                    lines.push(format!("S\t{}", self.states[s]));
                }
            }
            lines.push(entry.text);
        }
        for (f, (name, arity)) in self.forms.iter().enumerate() {
            if !form_given[f] {
                lines.push(format!("F\t{name}\t{arity}"));
            }
        }
        for (s, name) in self.states.iter().enumerate() {
            if !state_given[s] {
                lines.push(format!("S\t{name}"));
            }
        }
        lines
    }

    pub fn sheet(&self) -> Vec<u8> {
        joined(&self.lines())
    }

    /// The height of the lowest ticket that each state accepts, if it accepts any.
    fn heights(&self) -> Vec<Option<usize>> {
        let mut heights = vec![None; self.states.len()];
        for height in 1..=self.states.len() {
            let before = heights.clone();
            for row in &self.rows {
                let low = row.children.iter().all(|&c| before[c].is_some());
                if low && heights[row.state].is_none() {
                    heights[row.state] = Some(height);
                }
            }
        }
        heights
    }

    /// A ticket of about so many nodes that the root reads without restrictions, if it reads any.
    pub fn derived(&self, random: &mut Random, nodes: usize) -> Option<Vec<usize>> {
        let heights = self.heights();
        let root = self.root?;
        heights[root]?;
        let mut ticket = Vec::new();
        self.derive(random, &heights, root, nodes, &mut ticket);
        Some(ticket)
    }

    fn derive(
        &self,
        random: &mut Random,
        heights: &[Option<usize>],
        state: usize,
        nodes: usize,
        out: &mut Vec<usize>,
    ) {
        let usable: Vec<&DraftRow> = self
            .rows
            .iter()
            .filter(|row| row.state == state && row.children.iter().all(|&c| heights[c].is_some()))
            .collect();
        let height = |row: &&&DraftRow| {
            row.children
                .iter()
                .map(|&c| heights[c].unwrap())
                .max()
                .unwrap_or(0)
        };
        let fits = |row: &&&DraftRow| !row.children.is_empty() && row.children.len() < nodes;
        let large: Vec<&DraftRow> = usable.iter().filter(fits).copied().collect();
        let row = if large.is_empty() {
            usable.iter().min_by_key(height).unwrap()
        } else {
            random.pick(&large)
        };
        // each child gets one node, and a part of what is left
        let mut left = nodes.saturating_sub(1 + row.children.len());
        for (i, &child) in row.children.iter().enumerate() {
            let last = i + 1 == row.children.len();
            let part = if last { left } else { random.below(left + 1) };
            left -= part;
            self.derive(random, heights, child, 1 + part, out);
        }
        out.push(row.form);
    }

    /// A random tree of the forms of about so many nodes, if some form has no child.
    pub fn tree(&self, random: &mut Random, nodes: usize) -> Option<Vec<usize>> {
        let all = 0..self.forms.len();
        let (leaves, inner): (Vec<usize>, Vec<usize>) = all.partition(|&f| self.forms[f].1 == 0);
        if leaves.is_empty() {
            return None;
        }
        let mut ticket = Vec::new();
        let mut trees = 0;
        while ticket.len() < nodes || trees > 1 {
            let fitting: Vec<usize> = inner
                .iter()
                .copied()
                .filter(|&f| self.forms[f].1 <= trees)
                .collect();
            let ends = ticket.len() >= nodes && fitting.iter().any(|&f| self.forms[f].1 > 1);
            if trees == 0 || fitting.is_empty() || !ends && random.chance(50) {
                ticket.push(*random.pick(&leaves));
                trees += 1;
                if ticket.len() > 2 * nodes + 8 {
                    return None;
                }
            } else {
                let f = *random.pick(&fitting);
                ticket.push(f);
                trees = trees - self.forms[f].1 + 1;
                if ticket.len() > 2 * nodes + 8 {
                    return None;
                }
            }
        }
        Some(ticket)
    }
}

/// The lines with an LF after each.
pub fn joined(lines: &[String]) -> Vec<u8> {
    let mut sheet = Vec::new();
    for line in lines {
        sheet.extend_from_slice(line.as_bytes());
        sheet.push(b'\n');
    }
    sheet
}
