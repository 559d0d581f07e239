//! Why a sheet is refused, and where.

/// A refusal's layer and number, with its line and field, 0 where it is of none.
#[derive(Clone, Copy, Debug, PartialEq, Eq)]
pub struct Fault {
    pub layer: &'static str,
    pub number: u16,
    pub line: usize,
    pub field: usize,
}

impl Fault {
    /// A refusal that comes after the last line.
    pub const fn late(layer: &'static str, number: u16) -> Fault {
        Fault::at(layer, number, 0, 0)
    }

    pub const fn at(layer: &'static str, number: u16, line: usize, field: usize) -> Fault {
        Fault {
            layer,
            number,
            line,
            field,
        }
    }
}
