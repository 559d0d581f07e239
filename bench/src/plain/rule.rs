//! Restrictions: the ladder and the bar, as tables from state and form to the states of the children.

use crate::automaton::MAX_ARITY;
use crate::fault::Fault;

type Aims = [u16; MAX_ARITY];

const MAX_LEVEL: u16 = 8;

/// No `outer` node may have the form `inner` directly at `position`.
pub struct Bar {
    pub outer: u16,
    pub position: u16,
    pub inner: u16,
}

/// An automaton with at most one row of each form in a state, and root 0.
pub struct Rule {
    pub states: usize,
    forms: usize,
    rows: Vec<Option<Aims>>,
}

impl Rule {
    fn new(states: usize, forms: usize, row: impl Fn(usize, usize) -> Option<Aims>) -> Rule {
        let row = &row;
        let rows = (0..states)
            .flat_map(|state| (0..forms).map(move |form| row(state, form)))
            .collect();
        Rule {
            states,
            forms,
            rows,
        }
    }

    /// Places of a state: one for each form, 1 if there is none.
    pub fn places(&self) -> usize {
        self.forms.max(1)
    }

    /// The children's states of the row of a form in a state, if it has one.
    pub fn aims(&self, state: usize, form: u16) -> Option<&Aims> {
        self.rows[state * self.forms + form as usize].as_ref()
    }

    /// No node of level j may have a direct child of level 1 to j - 1.
    pub fn ladder(arities: &[u8], count: u16, levels: &[u16]) -> Result<Rule, Fault> {
        if count == 0 || count > MAX_LEVEL {
            return Err(Fault::late("pile", 24));
        }
        if levels.len() != arities.len() {
            return Err(Fault::late("pile", 25));
        }
        if levels.iter().any(|&level| level > count) {
            return Err(Fault::late("pile", 26));
        }
        Ok(Rule::new(count as usize, levels.len(), |state, form| {
            let level = levels[form];
            (level == 0 || level as usize > state).then_some([level.saturating_sub(1); MAX_ARITY])
        }))
    }

    /// State 1, where the inner form is not allowed, is that of the outer form's child at the position.
    pub fn bar(arities: &[u8], bar: &Bar) -> Rule {
        Rule::new(2, arities.len(), |state, form| {
            if state == 1 && form == bar.inner as usize {
                return None;
            }
            let mut aims = [0; MAX_ARITY];
            if form == bar.outer as usize {
                aims[bar.position as usize] = 1;
            }
            Some(aims)
        })
    }
}
