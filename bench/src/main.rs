//! Times the static library against a fast form of the reference and prints the results as Markdown: `bench [--agree | --quick]`.
//! `bench --repeat TABLE CALL library|fast` makes one call again and again for some seconds, for a profiler. Built with the feature `before`,
//! `bench --before [--quick]` times the library against an earlier build of it instead, in the same process.
//!
//! Before anything is timed, library and fast form are compared with the reference, on the tables to be timed and on damaged ones;
//! `--agree` does only that. `--quick` takes fewer batches.
#![deny(unsafe_code)]

mod agree;
#[cfg(feature = "before")]
#[allow(unsafe_code)]
mod before;
#[path = "../../differential/src/calls.rs"]
#[allow(unsafe_code)]
mod calls;
#[path = "../../differential/src/codes.rs"]
#[allow(dead_code)]
mod codes;
#[path = "../../differential/src/damage.rs"]
mod damage;
#[path = "../../differential/src/digit_damage.rs"]
mod digit_damage;
#[path = "../../differential/src/division.rs"]
#[allow(dead_code)]
mod division;
#[path = "../../differential/src/draft.rs"]
mod draft;
mod fast;
#[path = "../../differential/src/interface.rs"]
#[allow(dead_code)]
mod interface;
#[path = "../../differential/src/leaf_damage.rs"]
mod leaf_damage;
mod lend;
#[path = "../../differential/src/lifts.rs"]
#[allow(dead_code)]
mod lifts;
#[path = "../../differential/src/model.rs"]
mod model;
#[path = "../../differential/src/random.rs"]
#[allow(dead_code)]
mod random;
mod report;
#[path = "../../differential/src/search.rs"]
#[allow(dead_code)]
mod search;
mod subject;
#[path = "../../differential/src/systems.rs"]
#[allow(dead_code)]
mod systems;
mod tables;
mod timing;

use std::env;
use std::process::ExitCode;

use timing::Effort;

fn main() -> ExitCode {
    let arguments: Vec<String> = env::args().skip(1).collect();
    let words: Vec<&str> = arguments.iter().map(String::as_str).collect();
    let effort = match words[..] {
        [] => Some(Effort::FULL),
        ["--quick"] => Some(Effort::QUICK),
        ["--agree"] => None,
        ["--repeat", table, call, subject] => return report::repeat(table, call, subject),
        ["--before"] => return report::against_before(Effort::FULL),
        ["--before", "--quick"] => return report::against_before(Effort::QUICK),
        _ => {
            eprintln!(
                "usage: bench [--agree | [--before] [--quick] | --repeat TABLE CALL library|fast]"
            );
            return ExitCode::from(2);
        }
    };
    match agree::compare_all() {
        Ok(tally) => println!(
            "Library, fast form and reference gave the same answers and buffers in {} calls; refusals among them: {:?}.\n",
            tally.calls, tally.refusals
        ),
        Err(difference) => {
            println!("{difference}");
            return ExitCode::FAILURE;
        }
    }
    if let Some(effort) = effort {
        report::print(effort);
    }
    ExitCode::SUCCESS
}
