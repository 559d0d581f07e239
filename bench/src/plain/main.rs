//! The restrictor as a plain program: reads a rule sheet on standard input and writes the listing of the restricted
//! grammar, or the line of the fault that stopped it.
//!
//! It is written from `docs/DEFINITIONS.md` alone and shares no code with the proved program, which it is compared with.

mod automaton;
mod fault;
mod fields;
mod listing;
mod merge;
mod rule;
mod sheet;
mod trim;
mod worth;

use automaton::Automaton;
use fault::Fault;
use rule::Rule;
use sheet::Sheet;
use std::io::{self, Read, Write};
use std::process::ExitCode;

/// What is left of an automaton when it is trimmed and merged, as the book of a fresh register.
fn settled(automaton: &Automaton, arities: &[u8]) -> Result<Automaton, Fault> {
    automaton.trim().merge().settle(arities)
}

/// The house grammar under the ladder, if a form has a level, and then under each bar in order.
fn restricted(sheet: &Sheet) -> Result<Automaton, Fault> {
    let house = sheet.house()?;
    let arities = &sheet.arities;
    let count = sheet.levels.iter().copied().max().unwrap_or(0);
    if count == 0 && sheet.bars.is_empty() {
        return settled(&house, arities);
    }
    let mut book = house;
    if count > 0 {
        let ladder = Rule::ladder(arities, count, &sheet.levels)?;
        book = settled(&book.product(&ladder)?, arities)?;
    }
    for bar in &sheet.bars {
        book = settled(&book.product(&Rule::bar(arities, bar))?, arities)?;
    }
    Ok(book)
}

fn answer(bytes: &[u8]) -> Result<Vec<u8>, Fault> {
    let sheet = Sheet::read(bytes)?;
    let book = restricted(&sheet)?;
    Ok(listing::listing(&sheet, &book))
}

fn run() -> io::Result<ExitCode> {
    let mut bytes = Vec::with_capacity(sheet::MAX_BYTES + 1);
    io::stdin().lock().read_to_end(&mut bytes)?;
    let (text, status) = match answer(&bytes) {
        Ok(text) => (text, ExitCode::SUCCESS),
        Err(fault) => (listing::fault_line(fault), ExitCode::FAILURE),
    };
    io::stdout().lock().write_all(&text)?;
    Ok(status)
}

fn main() -> ExitCode {
    run().unwrap_or_else(|error| {
        eprintln!("{error}");
        ExitCode::from(2)
    })
}
