//! Reading a rule sheet, line by line.

use crate::automaton::{Automaton, Row, MAX_ARITY, MAX_POINTS, MAX_ROWS, MAX_STATES};
use crate::fault::Fault;
use crate::fields::{Fields, Names};
use crate::rule::Bar;

pub const MAX_BYTES: usize = 32_768;
const MAX_FORMS: usize = 64;
const MAX_BARS: usize = 8;
const MAX_TICKETS: usize = 64;
const MAX_NODES: usize = 256;

/// What the lines of a sheet enter.
pub struct Sheet<'a> {
    pub forms: Names<'a>,
    pub arities: Vec<u8>,
    /// The level of each form.
    pub levels: Vec<u16>,
    pub bars: Vec<Bar>,
    pub tickets: Vec<Vec<u16>>,
    states: Names<'a>,
    rows: Vec<Vec<Row>>,
    root: Option<u16>,
}

impl<'a> Sheet<'a> {
    pub fn read(bytes: &'a [u8]) -> Result<Sheet<'a>, Fault> {
        if bytes.len() > MAX_BYTES {
            return Err(Fault::late("sheet", 51));
        }
        let mut sheet = Sheet {
            forms: Names::new(),
            arities: Vec::new(),
            levels: Vec::new(),
            bars: Vec::new(),
            tickets: Vec::new(),
            states: Names::new(),
            rows: Vec::new(),
            root: None,
        };
        let lines = bytes.strip_suffix(b"\n").unwrap_or(bytes);
        if !bytes.is_empty() {
            for (i, line) in lines.split(|&b| b == b'\n').enumerate() {
                sheet.enter(i + 1, line)?;
            }
        }
        Ok(sheet)
    }

    /// The house grammar, once all is entered.
    pub fn house(&self) -> Result<Automaton, Fault> {
        let root = self.root.ok_or(Fault::late("register", 21))?;
        let mut house = Automaton::with_root(root as usize, self.rows.len());
        for rows in &self.rows {
            house.push_state(rows.iter().copied());
        }
        Ok(house)
    }

    fn enter(&mut self, line: usize, bytes: &'a [u8]) -> Result<(), Fault> {
        let mut fields = Fields::of(line, bytes);
        let plain = |b: &u8| b.is_ascii_alphanumeric() || matches!(b, b'-' | b'\t');
        if !bytes.iter().all(plain) {
            return Err(fields.of_line(52));
        }
        match fields.kind() {
            b"F" => self.enter_form(fields),
            b"S" => self.enter_state(fields),
            b"R" => self.enter_row(fields),
            b"G" => self.enter_root(fields),
            b"L" => self.enter_level(fields),
            b"B" => self.enter_bar(fields),
            b"T" => self.enter_ticket(fields),
            _ => Err(fields.of_line(53)),
        }
    }

    fn enter_form(&mut self, mut fields: Fields<'a>) -> Result<(), Fault> {
        fields.expect(2..=2)?;
        let name = fields.fresh(&self.forms)?;
        let arity = fields.number()?;
        if arity as usize > MAX_ARITY {
            return Err(fields.refused("register", 11));
        }
        if self.arities.len() == MAX_FORMS {
            return Err(fields.refused("register", 12));
        }
        self.forms.add(name);
        self.arities.push(arity as u8);
        self.levels.push(0);
        Ok(())
    }

    fn enter_state(&mut self, mut fields: Fields<'a>) -> Result<(), Fault> {
        fields.expect(1..=1)?;
        let name = fields.fresh(&self.states)?;
        if self.rows.len() == MAX_STATES {
            return Err(fields.refused("register", 13));
        }
        self.states.add(name);
        self.rows.push(Vec::new());
        Ok(())
    }

    fn enter_row(&mut self, mut fields: Fields<'a>) -> Result<(), Fault> {
        fields.expect(3..=3 + MAX_ARITY)?;
        let state = fields.given(&self.states)?;
        let form = fields.given(&self.forms)?;
        let points = fields.number()?;
        let count = fields.count();
        let mut children = [0; MAX_ARITY];
        for child in &mut children[..count] {
            *child = fields.given(&self.states)?;
        }
        if points > MAX_POINTS {
            return Err(fields.refused("register", 16));
        }
        let arity = self.arities[form as usize];
        if count != arity as usize {
            return Err(fields.refused("register", 17));
        }
        let rows = &mut self.rows[state as usize];
        if rows.len() == MAX_ROWS {
            return Err(fields.refused("register", 19));
        }
        rows.push(Row {
            form,
            points,
            arity,
            children,
        });
        Ok(())
    }

    fn enter_root(&mut self, mut fields: Fields<'a>) -> Result<(), Fault> {
        fields.expect(1..=1)?;
        self.root = Some(fields.given(&self.states)?);
        Ok(())
    }

    fn enter_level(&mut self, mut fields: Fields<'a>) -> Result<(), Fault> {
        fields.expect(2..=2)?;
        let form = fields.given(&self.forms)?;
        self.levels[form as usize] = fields.number()?;
        Ok(())
    }

    fn enter_bar(&mut self, mut fields: Fields<'a>) -> Result<(), Fault> {
        fields.expect(3..=3)?;
        let outer = fields.given(&self.forms)?;
        let position = fields.number()?;
        let inner = fields.given(&self.forms)?;
        if self.bars.len() == MAX_BARS {
            return Err(fields.of_line(59));
        }
        if position >= self.arities[outer as usize] as u16 {
            return Err(fields.refused("pile", 28));
        }
        self.bars.push(Bar {
            outer,
            position,
            inner,
        });
        Ok(())
    }

    fn enter_ticket(&mut self, mut fields: Fields<'a>) -> Result<(), Fault> {
        let mut nodes = Vec::with_capacity(MAX_NODES);
        while !fields.is_empty() {
            nodes.push(fields.given(&self.forms)?);
        }
        if self.tickets.len() == MAX_TICKETS {
            return Err(fields.of_line(59));
        }
        if nodes.is_empty() {
            return Err(fields.refused("ticket", 41));
        }
        if nodes.len() > MAX_NODES {
            return Err(fields.refused("ticket", 42));
        }
        let mut trees = 0;
        for (place, &form) in nodes.iter().enumerate() {
            let arity = self.arities[form as usize] as usize;
            if trees < arity {
                return Err(Fault::at("ticket", 44, fields.line, place + 2));
            }
            trees = trees - arity + 1;
        }
        if trees > 1 {
            return Err(fields.refused("ticket", 45));
        }
        self.tickets.push(nodes);
        Ok(())
    }
}
