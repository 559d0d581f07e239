//! Random sheets: sound ones of many shapes, and damaged ones.

use crate::draft::{joined, Draft, DraftRow};
use crate::random::Random;

const SIGNS: &[u8] = b"ABCDEFGHIJKLMNOPQRSTUVWXYZabcdefghijklmnopqrstuvwxyz0123456789-";

/// Names that differ, in one of three styles.
fn names(random: &mut Random, count: usize, letter: char) -> Vec<String> {
    let style = random.below(3);
    let mut names: Vec<String> = Vec::new();
    while names.len() < count {
        let name = match style {
            0 => format!("{letter}{}", names.len()),
            1 if names.len() < SIGNS.len() => (SIGNS[names.len()] as char).to_string(),
            _ => {
                let length = random.between(1, 16);
                (0..length).map(|_| *random.pick(SIGNS) as char).collect()
            }
        };
        if !names.contains(&name) {
            names.push(name);
        }
    }
    names
}

fn forms(random: &mut Random) -> Vec<(String, usize)> {
    let count = match random.below(20) {
        0 => random.below(2),
        1..=13 => random.between(2, 6),
        14..=18 => random.between(4, 16),
        _ => random.between(17, 64),
    };
    let names = names(random, count, 'f');
    let arity = |random: &mut Random, i: usize| match i {
        0 if random.chance(85) => 0,
        1 if random.chance(70) => 2,
        _ => *random.pick(&[0, 0, 1, 1, 1, 2, 2, 2, 3, 4]),
    };
    names
        .into_iter()
        .enumerate()
        .map(|(i, name)| (name, arity(random, i)))
        .collect()
}

fn points(random: &mut Random, most: usize) -> usize {
    if random.chance(3) {
        random.between(0, 1000)
    } else {
        random.between(0, most)
    }
}

/// Rows of a few states over the forms, some of them twice.
fn base_rows(random: &mut Random, draft: &Draft, states: usize) -> Vec<DraftRow> {
    let most = *random.pick(&[0, 1, 3, 20]);
    let width = *random.pick(&[2, 4, 4, 8, 14]);
    let leaves: Vec<usize> = (0..draft.forms.len())
        .filter(|&f| draft.forms[f].1 == 0)
        .collect();
    let ending = if leaves.is_empty() {
        0
    } else {
        *random.pick(&[0, 60, 60, 90])
    };
    let mut rows = Vec::new();
    for state in 0..states {
        // in most grammars most states have a row that ends a ticket
        let ends = random.chance(ending);
        for i in 0..random.below(width + 1) {
            let form = match i {
                0 if ends => *random.pick(&leaves),
                _ => random.below(draft.forms.len()),
            };
            let children = (0..draft.forms[form].1)
                .map(|_| random.below(states))
                .collect();
            let row = DraftRow {
                state,
                form,
                points: points(random, most),
                children,
            };
            if random.chance(12) {
                rows.push(row.clone());
            }
            rows.push(row);
        }
    }
    rows
}

/// Each state of the rows in a few copies, whose children are any copies: states that merge, but for a rare change.
fn copied(random: &mut Random, rows: &[DraftRow], states: usize) -> (usize, Vec<DraftRow>) {
    let copies: Vec<usize> = (0..states).map(|_| random.between(1, 3)).collect();
    let first: Vec<usize> = (0..states).map(|s| copies[..s].iter().sum()).collect();
    let spoils = random.chance(30);
    let mut all = Vec::new();
    for row in rows {
        for copy in 0..copies[row.state] {
            let mut row = row.clone();
            row.state = first[row.state] + copy;
            for child in &mut row.children {
                *child = first[*child] + random.below(copies[*child]);
            }
            if spoils && random.chance(3) {
                row.points += 1;
            }
            all.push(row);
        }
    }
    (copies.iter().sum(), all)
}

fn add_restrictions(random: &mut Random, draft: &mut Draft) {
    let count = draft.forms.len();
    if count > 0 && random.chance(50) {
        let high = if random.chance(4) {
            random.between(9, 12)
        } else {
            random.between(1, 8)
        };
        let share = *random.pick(&[20, 60, 100]);
        for form in 0..count {
            if random.chance(share) {
                let level = random.between(0, high);
                draft.levels.push((form, level));
            }
        }
        if random.chance(20) {
            draft
                .levels
                .push((random.below(count), random.between(0, high)));
        }
    }
    let outers: Vec<usize> = (0..count).filter(|&f| draft.forms[f].1 > 0).collect();
    if !outers.is_empty() && random.chance(50) {
        let bars = if random.chance(15) {
            8
        } else {
            random.between(1, 4)
        };
        for _ in 0..bars {
            let outer = *random.pick(&outers);
            draft.bars.push((
                outer,
                random.below(draft.forms[outer].1),
                random.below(count),
            ));
        }
    }
}

fn add_tickets(random: &mut Random, draft: &mut Draft) {
    let count = match random.below(20) {
        0..=1 => 0,
        2..=17 => random.between(1, 6),
        18 => random.between(7, 30),
        _ => random.between(60, 64),
    };
    for _ in 0..count {
        let size = match random.below(20) {
            0..=13 => random.between(1, 9),
            14..=18 => random.between(10, 60),
            _ => random.between(100, 256),
        };
        let ticket = if random.chance(70) {
            draft.derived(random, size)
        } else {
            None
        };
        let ticket = ticket.or_else(|| draft.tree(random, size));
        draft.tickets.extend(ticket.filter(|t| t.len() <= 256));
    }
}

pub fn random_draft(random: &mut Random) -> Draft {
    let mut draft = Draft {
        forms: forms(random),
        ..Draft::default()
    };
    let mut states = match random.below(20) {
        0..=14 => random.between(1, 5),
        15..=17 => random.between(4, 12),
        18 => random.between(13, 40),
        _ => random.between(41, 64),
    };
    if !draft.forms.is_empty() {
        draft.rows = base_rows(random, &draft, states);
        if states <= 20 && random.chance(45) {
            (states, draft.rows) = copied(random, &draft.rows, states);
        }
    }
    draft.states = names(random, states, 's');
    if random.chance(98) {
        // a root without rows now and then, and mostly one of those that have some
        draft.root = Some(match draft.rows.is_empty() || random.chance(10) {
            true => random.below(states),
            false => random.pick(&draft.rows).state,
        });
    }
    if random.chance(6) {
        // nothing ends a ticket
        draft.rows.retain(|row| !row.children.is_empty());
    }
    let mut used = vec![0; states];
    draft.rows.retain(|row| {
        used[row.state] += 1;
        used[row.state] <= 32
    });
    add_restrictions(random, &mut draft);
    add_tickets(random, &mut draft);
    draft
}

fn damage_bytes(random: &mut Random, sheet: &mut Vec<u8>) {
    let byte = *random.pick(b"\t\t\t\n\n \r_\0\xc3~/:@[`{AFSRGLBT0159--".as_slice());
    let place = random.below(sheet.len() + 1);
    match random.below(3) {
        0 => sheet.insert(place, byte),
        1 if place < sheet.len() => sheet[place] = byte,
        _ if place < sheet.len() => drop(sheet.remove(place)),
        _ => sheet.truncate(random.below(place + 1)),
    }
}

/// A field that is another of the sheet, or one that is wrong in most places.
fn other_field(random: &mut Random, lines: &[String]) -> String {
    const ODD: &[&str] = &[
        "",
        "00",
        "01",
        "65536",
        "70000",
        "99999999999999999999",
        "-1",
        "1-",
        "A",
        "NONE",
        "-",
        "F",
        "T",
        "ABCDEFGHIJKLMNOP",
        "ABCDEFGHIJKLMNOPQ",
    ];
    if random.chance(50) {
        return random.pick(ODD).to_string();
    }
    let fields: Vec<&str> = random.pick(lines).split('\t').collect();
    random.pick(&fields).to_string()
}

/// Another number in place of one, if the line has any.
fn damage_number(random: &mut Random, line: &mut String) {
    const NUMBERS: &[&str] = &[
        "0", "1", "2", "4", "5", "8", "9", "1000", "1001", "65535", "65536", "01",
    ];
    let mut fields: Vec<&str> = line.split('\t').collect();
    if let Some(field) = fields.iter_mut().find(|field| field.parse::<u32>().is_ok()) {
        *field = *random.pick::<&str>(NUMBERS);
        *line = fields.join("\t");
    }
}

fn damage_fields(random: &mut Random, lines: &mut [String]) {
    let i = random.below(lines.len());
    let other = other_field(random, lines);
    let mut fields: Vec<String> = lines[i].split('\t').map(String::from).collect();
    let k = random.below(fields.len());
    match random.below(5) {
        0 | 1 => fields[k] = other,
        2 => fields.insert(k, other),
        3 => fields.push(other),
        _ => drop(fields.remove(k)),
    }
    lines[i] = fields.join("\t");
}

fn damage_lines(random: &mut Random, lines: &mut Vec<String>) {
    let i = random.below(lines.len());
    let j = random.below(lines.len());
    match random.below(8) {
        0 => drop(lines.remove(i)),
        1 => lines.swap(i, j),
        2 => lines.insert(j, lines[i].clone()),
        3 => {
            let line = lines.remove(i);
            lines.insert(j.min(lines.len()), line);
        }
        4 => lines.insert(i, random.pick(&["", "T", "T\t", "F", "G"]).to_string()),
        5 => {
            // a ticket too long, or of several trees
            let name = lines[i].split('\t').nth(1).unwrap_or("").to_string();
            let times = *random.pick(&[2, 256, 257]);
            lines.insert(j, format!("T{}", format!("\t{name}").repeat(times)));
        }
        _ => {
            // a line many times, so that something gets full; a name that it gives is another each time
            let times = *random.pick(&[2, 9, 33, 65]);
            let more: Vec<String> = (0..times)
                .map(|n| match &lines[i][..lines[i].len().min(2)] {
                    "F\t" => format!("F\tx{n}\t0"),
                    "S\t" => format!("S\tx{n}"),
                    _ => lines[i].clone(),
                })
                .collect();
            lines.splice(i..i, more);
        }
    }
}

/// The sheet of a seed; every third one is damaged.
pub fn random_sheet(seed: u64) -> Vec<u8> {
    let mut random = Random::new(seed);
    let draft = random_draft(&mut random);
    let mut lines = if random.chance(50) {
        draft.lines()
    } else {
        draft.shuffled_lines(&mut random)
    };
    let edits = if seed % 3 == 2 {
        random.between(1, 3)
    } else {
        0
    };
    let by_bytes = random.below(edits + 1);
    for _ in by_bytes..edits {
        if lines.is_empty() {
            break;
        }
        match random.below(3) {
            0 => damage_fields(&mut random, &mut lines),
            1 => {
                let i = random.below(lines.len());
                damage_number(&mut random, &mut lines[i]);
            }
            _ => damage_lines(&mut random, &mut lines),
        }
    }
    let mut sheet = joined(&lines);
    for _ in 0..by_bytes {
        damage_bytes(&mut random, &mut sheet);
    }
    if random.chance(10) {
        sheet.pop();
    }
    if edits > 0 && random.chance(1) {
        sheet.resize(random.between(32_767, 32_770), b'-');
    }
    sheet
}
