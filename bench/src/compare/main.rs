//! Runs the proved restrictor and the plain one on the same sheets, compares what they write, and times them.

mod damaged;
mod draft;
mod named;
mod random;
mod random_sheets;

use damaged::damaged_sheets;
use named::named_sheets;
use random_sheets::random_sheet;
use std::collections::BTreeMap;
use std::fs::{self, File};
use std::io;
use std::path::{Path, PathBuf};
use std::process::{Command, ExitCode, Stdio};
use std::time::{Duration, Instant};

/// How many differences are printed, and their sheets kept.
const MAX_KEPT: usize = 20;

const USAGE: &str = "bench/run [--sheets N] [--seed N] [--runs N]
  --sheets N   how many random sheets (3000)
  --seed N     the seed of the first of them (1); each next one has the next seed
  --runs N     how often each program runs on each named sheet (31)";

struct Options {
    proved: PathBuf,
    plain: PathBuf,
    /// Where sheets are written.
    folder: PathBuf,
    sheets: u64,
    seed: u64,
    runs: usize,
}

fn options() -> Option<Options> {
    let mut words = std::env::args().skip(1);
    let mut options = Options {
        proved: words.next()?.into(),
        plain: words.next()?.into(),
        folder: words.next()?.into(),
        sheets: 3000,
        seed: 1,
        runs: 31,
    };
    while let Some(word) = words.next() {
        let number = words.next()?;
        match word.as_str() {
            "--sheets" => options.sheets = number.parse().ok()?,
            "--seed" => options.seed = number.parse().ok()?,
            "--runs" => options.runs = number.parse().ok().filter(|&runs| runs > 0)?,
            _ => return None,
        }
    }
    Some(options)
}

/// What a program writes to standard output, and its exit status, none where a signal ended it.
#[derive(PartialEq, Eq)]
struct Answer {
    output: Vec<u8>,
    status: Option<i32>,
}

impl Answer {
    /// The first line, and the status: `N 3 6` or `E sheet 53 2 1`.
    fn summary(&self) -> String {
        let first = self.output.split(|&b| b == b'\n').next().unwrap_or(b"");
        let text = String::from_utf8_lossy(first).replace('\t', " ");
        match self.status {
            Some(status) => format!("'{text}', status {status}"),
            None => format!("'{text}', ended by a signal"),
        }
    }

    /// Where the other answer first differs: a line, counted from 1, as it stands in each, or else the status.
    fn difference(&self, other: &Answer) -> String {
        let [ours, theirs] = [self, other].map(|answer| {
            let text = String::from_utf8_lossy(&answer.output).replace('\t', " ");
            text.split('\n').map(String::from).collect::<Vec<_>>()
        });
        for i in 0..ours.len().max(theirs.len()) {
            let [a, b] = [&ours, &theirs].map(|lines| lines.get(i).map_or("", String::as_str));
            if a != b {
                return format!("line {}: '{a}' and '{b}'", i + 1);
            }
        }
        format!("status: {:?} and {:?}", self.status, other.status)
    }

    /// The layer and the number of a refusal.
    fn refusal(&self) -> Option<String> {
        let line = self.output.strip_prefix(b"E\t")?;
        let mut fields = line.split(|&b| b == b'\t');
        let layer = String::from_utf8_lossy(fields.next()?);
        let number = String::from_utf8_lossy(fields.next()?);
        Some(format!("{layer} {number}"))
    }
}

/// Runs a program on a sheet, and takes the time of the whole process.
fn run(program: &Path, sheet: &Path) -> io::Result<(Answer, Duration)> {
    let input = File::open(sheet)?;
    let start = Instant::now();
    let output = Command::new(program)
        .stdin(input)
        .stderr(Stdio::null())
        .output()?;
    let time = start.elapsed();
    let answer = Answer {
        output: output.stdout,
        status: output.status.code(),
    };
    Ok((answer, time))
}

fn median(mut times: Vec<Duration>) -> Duration {
    times.sort();
    times[times.len() / 2]
}

struct Bench {
    options: Options,
    differences: usize,
}

impl Bench {
    /// Writes the sheet, runs both programs on it, and keeps it where their answers differ.
    fn compare(&mut self, name: &str, sheet: &[u8]) -> io::Result<Answer> {
        let path = self.options.folder.join("sheet");
        fs::write(&path, sheet)?;
        let (proved, _) = run(&self.options.proved, &path)?;
        let (plain, _) = run(&self.options.plain, &path)?;
        if proved != plain {
            self.differ(
                name,
                sheet,
                &format!("proved and plain, {}", proved.difference(&plain)),
            )?;
        }
        Ok(plain)
    }

    /// Counts a difference; the first ones are printed, and their sheets kept.
    fn differ(&mut self, name: &str, sheet: &[u8], difference: &str) -> io::Result<()> {
        self.differences += 1;
        if self.differences <= MAX_KEPT {
            let path = self.options.folder.join(format!("{name}.sheet"));
            fs::write(&path, sheet)?;
            println!("DIFFERENT {name}: {difference} ({})", path.display());
        }
        Ok(())
    }

    fn time_named(&mut self) -> io::Result<()> {
        println!(
            "named sheets: median of {} runs of the whole process, in ms",
            self.options.runs
        );
        println!(
            "{:<10} {:>6} {:>8} {:>8} {:>6}  {}",
            "sheet", "bytes", "proved", "plain", "ratio", "answer"
        );
        for named in named_sheets() {
            let answer = self.compare(named.name, &named.sheet)?;
            let path = self.options.folder.join("sheet");
            let (mut proved, mut plain) = (Vec::new(), Vec::new());
            for _ in 0..self.options.runs {
                proved.push(run(&self.options.proved, &path)?.1);
                plain.push(run(&self.options.plain, &path)?.1);
            }
            let [proved, plain] = [proved, plain].map(|times| median(times).as_secs_f64() * 1000.0);
            let ratio = proved / plain;
            println!(
                "{:<10} {:>6} {proved:>8.2} {plain:>8.2} {ratio:>6.2}  {} ({})",
                named.name,
                named.sheet.len(),
                answer.summary(),
                named.about
            );
        }
        Ok(())
    }

    /// The damaged sheets of the tests, whose answers are known.
    fn compare_damaged(&mut self) -> io::Result<()> {
        let cases = damaged_sheets(&fs::read_to_string("crates/sheet_tests/src/tests.rt")?);
        let before = self.differences;
        for (i, case) in cases.iter().enumerate() {
            let name = format!("damaged-{i}");
            let answer = self.compare(&name, &case.sheet)?;
            let wanted = Answer {
                output: case.answer.clone(),
                status: Some(1),
            };
            if answer != wanted {
                let difference = format!("plain and the test, {}", answer.difference(&wanted));
                self.differ(&name, &case.sheet, &difference)?;
            }
        }
        let differences = self.differences - before;
        println!(
            "damaged sheets of the tests: {}, differences: {differences}",
            cases.len()
        );
        Ok(())
    }

    fn compare_random(&mut self) -> io::Result<()> {
        let Options { sheets, seed, .. } = self.options;
        let before = self.differences;
        let mut listings = 0;
        let mut refusals: BTreeMap<String, usize> = BTreeMap::new();
        for seed in (seed..).take(sheets as usize) {
            let answer = self.compare(&format!("seed-{seed}"), &random_sheet(seed))?;
            match answer.refusal() {
                Some(refusal) => *refusals.entry(refusal).or_default() += 1,
                None => listings += 1,
            }
        }
        let agreed = sheets as usize - (self.differences - before);
        println!("random sheets: {agreed} of {sheets} agree (seeds from {seed}); {listings} listings, refusals:");
        let refusals: Vec<String> = refusals
            .iter()
            .map(|(name, count)| format!("{name}: {count}"))
            .collect();
        println!("  {}", refusals.join(", "));
        Ok(())
    }
}

fn compare_all(options: Options) -> io::Result<bool> {
    fs::create_dir_all(&options.folder)?;
    let mut bench = Bench {
        options,
        differences: 0,
    };
    bench.time_named()?;
    bench.compare_damaged()?;
    bench.compare_random()?;
    println!("differences: {}", bench.differences);
    if bench.differences > MAX_KEPT {
        println!("(the first {MAX_KEPT} are printed, and their sheets kept)");
    }
    Ok(bench.differences == 0)
}

fn main() -> ExitCode {
    let Some(options) = options() else {
        eprintln!("{USAGE}");
        return ExitCode::from(2);
    };
    match compare_all(options) {
        Ok(true) => ExitCode::SUCCESS,
        Ok(false) => ExitCode::FAILURE,
        Err(error) => {
            eprintln!("{error}");
            ExitCode::from(2)
        }
    }
}
