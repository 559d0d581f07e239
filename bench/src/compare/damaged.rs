//! The damaged sheets of `crates/sheet_tests`, read from its source, with the line that each is to be answered by.

pub struct Damaged {
    pub sheet: Vec<u8>,
    pub answer: Vec<u8>,
}

/// The bytes of a byte string as it stands in a source.
fn unescaped(text: &str) -> Vec<u8> {
    let mut bytes = Vec::new();
    let mut rest = text.as_bytes();
    while let Some((&b, more)) = rest.split_first() {
        rest = more;
        if b != b'\\' {
            bytes.push(b);
            continue;
        }
        let (&mark, more) = rest.split_first().expect("a byte string ends in an escape");
        rest = more;
        bytes.push(match mark {
            b't' => b'\t',
            b'n' => b'\n',
            b'r' => b'\r',
            b'0' => 0,
            b'x' => {
                let (digits, more) = rest.split_at(2);
                rest = more;
                let digits = std::str::from_utf8(digits).expect("no hexadecimal digits");
                u8::from_str_radix(digits, 16).expect("no hexadecimal digits")
            }
            other => other,
        });
    }
    bytes
}

/// The value of a field of a struct literal that stands on a line of its own.
fn value<'a>(case: &'a str, field: &str) -> &'a str {
    let start = case.find(field).expect("a case lacks a field") + field.len();
    let line = case[start..].lines().next().unwrap_or("");
    line.trim().trim_end_matches(',')
}

pub fn damaged_sheets(source: &str) -> Vec<Damaged> {
    source
        .split("Case {")
        .filter(|case| case.contains("sheet: b\""))
        .map(|case| {
            let sheet = value(case, "sheet: ");
            let layer = value(case, "layer: ").trim_matches('"');
            let [number, line, field] =
                ["number: ", "line: ", "field: "].map(|name| value(case, name));
            Damaged {
                sheet: unescaped(sheet.trim_start_matches("b\"").trim_end_matches('"')),
                answer: format!("E\t{layer}\t{number}\t{line}\t{field}\n").into_bytes(),
            }
        })
        .collect()
}
