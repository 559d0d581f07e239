//! Names, numbers and the fields of a line.

use crate::fault::Fault;

const MAX_NAME: usize = 16;

/// Names in the order in which they are given. A name has at most 16 bytes, so it is looked up as one number, in a
/// table of places by hash with room for 4 times as many names as there can be.
pub struct Names<'a> {
    names: Vec<&'a [u8]>,
    keys: Vec<u128>,
    slots: [u8; Names::SLOTS],
}

impl<'a> Names<'a> {
    const SLOTS: usize = 256;
    const FREE: u8 = u8::MAX;

    pub fn new() -> Names<'a> {
        Names {
            names: Vec::new(),
            keys: Vec::new(),
            slots: [Names::FREE; Names::SLOTS],
        }
    }

    pub fn name(&self, place: u16) -> &'a [u8] {
        self.names[place as usize]
    }

    fn key(name: &[u8]) -> u128 {
        let mut bytes = [0; MAX_NAME];
        bytes[..name.len()].copy_from_slice(name);
        u128::from_le_bytes(bytes)
    }

    /// The slot that holds the key, or the free one where it belongs.
    fn slot(&self, key: u128) -> usize {
        let folded = key as u64 ^ ((key >> 64) as u64).rotate_left(29);
        let mut slot = (folded.wrapping_mul(0x9e37_79b9_7f4a_7c15) >> 56) as usize;
        while self.slots[slot] != Names::FREE && self.keys[self.slots[slot] as usize] != key {
            slot = (slot + 1) % Names::SLOTS;
        }
        slot
    }

    fn find(&self, name: &[u8]) -> Option<u16> {
        let place = self.slots[self.slot(Names::key(name))];
        (place != Names::FREE).then_some(place as u16)
    }

    pub fn add(&mut self, name: &'a [u8]) {
        let key = Names::key(name);
        let slot = self.slot(key);
        self.slots[slot] = self.names.len() as u8;
        self.names.push(name);
        self.keys.push(key);
    }
}

/// The fields of a line that are still to be read, the first of which has the number `field`.
pub struct Fields<'a> {
    left: Option<&'a [u8]>,
    pub line: usize,
    field: usize,
}

impl<'a> Fields<'a> {
    /// All fields of a line, its kind among them.
    pub fn of(line: usize, bytes: &'a [u8]) -> Fields<'a> {
        Fields {
            left: Some(bytes),
            line,
            field: 1,
        }
    }

    pub fn is_empty(&self) -> bool {
        self.left.is_none()
    }

    /// The first field.
    pub fn kind(&mut self) -> &'a [u8] {
        self.field += 1;
        self.next()
    }

    fn fault(&self, number: u16) -> Fault {
        Fault::at("sheet", number, self.line, self.field)
    }

    /// A fault of the line as a whole, which is told at its first field.
    pub fn of_line(&self, number: u16) -> Fault {
        Fault::at("sheet", number, self.line, 1)
    }

    /// A refusal of what the line as a whole enters.
    pub fn refused(&self, layer: &'static str, number: u16) -> Fault {
        Fault::at(layer, number, self.line, 0)
    }

    fn next(&mut self) -> &'a [u8] {
        let left = self.left.unwrap_or(b"");
        match left.iter().position(|&b| b == b'\t') {
            Some(tab) => {
                self.left = Some(&left[tab + 1..]);
                &left[..tab]
            }
            None => {
                self.left = None;
                left
            }
        }
    }

    pub fn count(&self) -> usize {
        self.left
            .map_or(0, |left| 1 + left.iter().filter(|&&b| b == b'\t').count())
    }

    pub fn expect(&self, counts: std::ops::RangeInclusive<usize>) -> Result<(), Fault> {
        if counts.contains(&self.count()) {
            Ok(())
        } else {
            Err(self.of_line(54))
        }
    }

    /// A name; its bytes are known to be letters, digits or hyphens, since no other byte stands in a field.
    fn name(&mut self) -> Result<&'a [u8], Fault> {
        let name = self.next();
        if (1..=MAX_NAME).contains(&name.len()) {
            Ok(name)
        } else {
            Err(self.fault(55))
        }
    }

    pub fn fresh(&mut self, names: &Names) -> Result<&'a [u8], Fault> {
        let name = self.name()?;
        if names.find(name).is_some() {
            return Err(self.fault(57));
        }
        self.field += 1;
        Ok(name)
    }

    pub fn given(&mut self, names: &Names) -> Result<u16, Fault> {
        let name = self.name()?;
        let place = names.find(name).ok_or(self.fault(58))?;
        self.field += 1;
        Ok(place)
    }

    pub fn number(&mut self) -> Result<u16, Fault> {
        let digits = self.next();
        let number = parse_number(digits).ok_or(self.fault(56))?;
        self.field += 1;
        Ok(number)
    }
}

/// A decimal number of at most 65,535 without leading zeros.
fn parse_number(digits: &[u8]) -> Option<u16> {
    if digits.is_empty() || digits.len() > 1 && digits[0] == b'0' {
        return None;
    }
    digits.iter().try_fold(0u16, |number, &b| {
        let digit = b.is_ascii_digit().then(|| (b - b'0') as u16)?;
        number.checked_mul(10)?.checked_add(digit)
    })
}
