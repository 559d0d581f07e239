//! What is written: the listing of a book with its tickets, or a fault's line.

use crate::automaton::Automaton;
use crate::fault::Fault;
use crate::sheet::Sheet;
use crate::worth::Reader;

/// Appends a tab and a number.
fn push_number(out: &mut Vec<u8>, number: u32) {
    out.push(b'\t');
    let mut digits = [0; 10];
    let mut start = digits.len();
    let mut rest = number;
    loop {
        start -= 1;
        digits[start] = b'0' + (rest % 10) as u8;
        rest /= 10;
        if rest == 0 {
            break;
        }
    }
    out.extend_from_slice(&digits[start..]);
}

fn push_word(out: &mut Vec<u8>, word: &[u8]) {
    out.push(b'\t');
    out.extend_from_slice(word);
}

pub fn listing(sheet: &Sheet, book: &Automaton) -> Vec<u8> {
    let mut out = Vec::with_capacity(64 + 40 * book.rows.len() + 24 * sheet.tickets.len());
    out.push(b'N');
    push_number(&mut out, book.states() as u32);
    push_number(&mut out, book.rows.len() as u32);
    out.extend_from_slice(b"\nG");
    push_number(&mut out, book.root as u32);
    out.push(b'\n');
    for state in 0..book.states() {
        for row in book.rows_of(state) {
            out.push(b'R');
            push_number(&mut out, state as u32);
            push_word(&mut out, sheet.forms.name(row.form));
            push_number(&mut out, row.points as u32);
            for &child in row.children() {
                push_number(&mut out, child as u32);
            }
            out.push(b'\n');
        }
    }
    let mut reader = Reader::new(book, sheet.arities.len());
    for (i, ticket) in sheet.tickets.iter().enumerate() {
        let worth = reader.read(ticket, &sheet.arities);
        out.push(b'T');
        push_number(&mut out, i as u32 + 1);
        push_word(&mut out, if worth.readings > 0 { b"yes" } else { b"no" });
        push_number(&mut out, worth.readings);
        push_number(&mut out, worth.fewest);
        out.push(b'\n');
    }
    out
}

pub fn fault_line(fault: Fault) -> Vec<u8> {
    let Fault {
        layer,
        number,
        line,
        field,
    } = fault;
    format!("E\t{layer}\t{number}\t{line}\t{field}\n").into_bytes()
}
