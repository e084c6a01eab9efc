//! The results as Markdown.

use std::process::ExitCode;

#[cfg(feature = "before")]
use crate::before::Before;
use crate::calls::Library;
use crate::fast::Pairs;
use crate::interface::{Call, Calls, Lent};
use crate::lend;
use crate::subject::Fast;
use crate::tables::{self, Sample};
use crate::timing::{Effort, Race};

const LEAVES: [usize; 4] = [500, 1_000, 2_000, 4_000];
const DIGITS: [usize; 3] = [16, 64, 256];
const LIBRARY: &dyn Calls = &Library;
const FAST: &dyn Calls = &Fast(Pairs::Best);
const BY_PAIRS: &dyn Calls = &Fast(Pairs::Runs);

/// A timed call: its name, the list that is run and the buffers.
struct Job {
    name: &'static str,
    calls: Vec<Call>,
    lent: Lent,
}

/// The calls on a table, with rows of n digits; subtraction where its alphabet and input digits let it be.
fn jobs(sample: &Sample, length: usize) -> Vec<Job> {
    let (parts, accepted) = (&sample.parts, sample.accepted);
    let job = |name, calls, lent| Job { name, calls, lent };
    let rows = || lend::rows(parts, accepted, length);
    let mut jobs = vec![
        job("check", vec![Call::Check], rows()),
        job("bad_row", vec![Call::BadRow], rows()),
        job(
            "forecast",
            vec![Call::Forecast {
                digits: length as u64,
            }],
            rows(),
        ),
        job("add", vec![Call::Add], rows()),
    ];
    if lend::subtracts(&rows()) {
        jobs.push(job("subtract", vec![Call::Subtract], rows()));
    }
    jobs.extend([
        job("edit", lend::edits(parts, accepted, length), rows()),
        job("value", vec![Call::Value], lend::value_row(parts, length)),
    ]);
    jobs
}

/// A table of results: what stands in front of each line, and its races.
struct Sheet {
    title: String,
    columns: Vec<String>,
    lines: Vec<(String, Vec<Race>)>,
    cell: fn(&[f64]) -> String,
}

impl Sheet {
    fn print(&self) {
        println!("\n### {}\n\n| {} |", self.title, self.columns.join(" | "));
        println!("|{}", "---|".repeat(self.columns.len()));
        for (front, races) in &self.lines {
            let cells: Vec<String> = races
                .iter()
                .map(|race| (self.cell)(&race.figures()))
                .collect();
            println!("| {front} | {} |", cells.join(" | "));
        }
    }
}

/// Measures everything and prints it.
pub fn print(effort: Effort) {
    println!("Nanoseconds a call, the quickest of many batches that took turns. Caches are warm; buffers were not cleared between");
    println!("calls, so a sum is written over the sum before it. The tables:\n");
    let samples = tables::samples();
    for sample in &samples {
        println!("- {}", sample.name);
    }
    let mut sheets = vec![comparison(&samples)];
    sheets.extend(tables::growing(LEAVES).map(|(family, samples)| leaf_growth(family, &samples)));
    let accepted = samples.iter().filter(|sample| sample.accepted);
    sheets.extend(accepted.map(digit_growth));
    measure(effort, sheets);
}

/// Runs the races of all sheets in rounds and prints the sheets.
fn measure(effort: Effort, mut sheets: Vec<Sheet>) {
    for _ in 0..effort.rounds {
        let lines = sheets.iter_mut().flat_map(|sheet| &mut sheet.lines);
        lines
            .flat_map(|line| &mut line.1)
            .for_each(|race| race.run(effort.batches));
    }
    sheets.iter().for_each(Sheet::print);
}

/// Measures the library against an earlier build of it and prints that.
#[cfg(feature = "before")]
pub fn against_before(effort: Effort) -> ExitCode {
    measure(effort, vec![before_and_now(&tables::samples())]);
    ExitCode::SUCCESS
}

#[cfg(not(feature = "before"))]
pub fn against_before(_: Effort) -> ExitCode {
    eprintln!("built without an earlier library: docs/BENCHMARKS.md says how to build with one");
    ExitCode::from(2)
}

/// The calls that the earlier build has and answers alike, on all tables, rows of 256 digits.
#[cfg(feature = "before")]
fn before_and_now(samples: &[Sample]) -> Sheet {
    let mut lines = Vec::new();
    for sample in samples {
        for job in jobs(sample, 256).into_iter().filter(answered_before) {
            let race = Race::new(&[LIBRARY, &Before], job.calls, &job.lent);
            lines.push((format!("{} | {}", short_name(sample), job.name), vec![race]));
        }
    }
    let columns = ["table", "call", "now", "before", "now / before"];
    Sheet {
        title: "Now and before, rows of 256 digits".into(),
        columns: columns.map(String::from).into(),
        lines,
        cell: |figures| {
            let (now, before) = (figures[0], figures[1]);
            format!("{now:.0} | {before:.0} | {:.2}", now / before)
        },
    }
}

/// The earlier build has these calls, returns the same and leaves the same in the rows. Its answers may have fewer facts; a build from
/// before job 8 refuses tables of degree three and four.
#[cfg(feature = "before")]
fn answered_before(job: &Job) -> bool {
    let (mut now, mut before) = (job.lent.clone(), job.lent.clone());
    job.calls.iter().all(|call| {
        let same =
            Before::has(call) && LIBRARY.call(call, &mut now) == Before.call(call, &mut before);
        same && now.first == before.first && now.second == before.second && now.sum == before.sum
    })
}

/// A sample's name without its figures.
fn short_name(sample: &Sample) -> &str {
    sample.name.split(':').next().unwrap_or_default()
}

/// The main comparison: all tables, rows of 256 digits.
fn comparison(samples: &[Sample]) -> Sheet {
    let mut lines = Vec::new();
    for sample in samples {
        for job in jobs(sample, 256) {
            let mut subjects = vec![LIBRARY, FAST];
            if job.name == "check" && sample.accepted {
                subjects.push(BY_PAIRS);
            }
            let race = Race::new(&subjects, job.calls, &job.lent);
            lines.push((format!("{} | {}", short_name(sample), job.name), vec![race]));
        }
    }
    let columns = [
        "table",
        "call",
        "library",
        "fast form",
        "library / fast",
        "fast form pair by pair",
    ];
    Sheet {
        title: "Rows of 256 digits".into(),
        columns: columns.map(String::from).into(),
        lines,
        cell: |figures| {
            let (library, fast) = (figures[0], figures[1]);
            let by_pairs = figures.get(2).map(|figure| format!("{figure:.0}"));
            let ratio = library / fast;
            format!(
                "{library:.0} | {fast:.0} | {ratio:.2} | {}",
                by_pairs.unwrap_or_default()
            )
        },
    }
}

fn leaf_growth(family: &str, samples: &[Sample]) -> Sheet {
    let case = |sample: &Sample| (sample.size.clone(), jobs(sample, 256));
    let title = format!("Growth with the leaves: {family}, rows of 256 digits");
    growth(title, samples.iter().map(case).collect())
}

fn digit_growth(sample: &Sample) -> Sheet {
    let cases = DIGITS.map(|length| (format!("{length} digits"), jobs(sample, length)));
    growth(
        format!("Growth with the digits: {}", short_name(sample)),
        cases.into(),
    )
}

/// One line a call, one column a case.
fn growth(title: String, cases: Vec<(String, Vec<Job>)>) -> Sheet {
    let mut columns = vec!["call: library / fast form".to_string()];
    let mut lines: Vec<(String, Vec<Race>)> = Vec::new();
    for (column, jobs) in cases {
        columns.push(column);
        for (line, job) in jobs.into_iter().enumerate() {
            if line == lines.len() {
                lines.push((job.name.into(), Vec::new()));
            }
            lines[line]
                .1
                .push(Race::new(&[LIBRARY, FAST], job.calls, &job.lent));
        }
    }
    Sheet {
        title,
        columns,
        lines,
        cell: |figures| {
            let (library, fast) = (figures[0], figures[1]);
            format!("{library:.0} / {fast:.0} = {:.2}", library / fast)
        },
    }
}

/// Makes one call again and again.
pub fn repeat(table: &str, call: &str, subject: &str) -> ExitCode {
    let subject = match subject {
        "library" => LIBRARY,
        _ => FAST,
    };
    let samples = tables::samples();
    let sample = samples.iter().find(|sample| short_name(sample) == table);
    let jobs = sample.map(|sample| jobs(sample, 256)).into_iter().flatten();
    let Some(job) = jobs.into_iter().find(|job| job.name == call) else {
        return ExitCode::FAILURE;
    };
    let mut race = Race::new(&[subject], job.calls, &job.lent);
    race.run(Effort::LONG.batches);
    println!("{:.0} ns", race.figures()[0]);
    ExitCode::SUCCESS
}
