//! The program `harness`: compares static libraries with the oracle, and times them, also beside another build.

mod ask;
mod compare;
mod library;
mod speed;
mod stack;

use library::Loaded;
use oracle::answer::Root;
use std::process::ExitCode;

const USAGE: &str = "\
usage: harness check SEED CASES   asks a library and the oracle for the record check
       harness print SEED CASES   asks a library and the oracle for texts, and whether they are joined
       harness speed SEED [BEFORE]
                                  times the calls there are, beside the Rust module's print, and measures their stacks;
                                  BEFORE is a shared library with another build's calls, which take turns with ours
CASES grown trees are asked for; the other questions are the same in every run but for SEED's trees.";

/// Messages where a library was not linked.
const NO_CHECK: &str = "no library: build the harness with CHECK_LIB set to the path of a static library";
const NO_CALLS: &str = "no library: build the harness with the feature glsl";

const ROOTS: [Root; 2] = [Root::Expr, Root::Unit];

/// Whether all agrees; an error is a message for the user.
type Verdict = Result<bool, String>;

fn main() -> ExitCode {
    let arguments: Vec<String> = std::env::args().skip(1).collect();
    let arguments: Vec<&str> = arguments.iter().map(String::as_str).collect();
    match run(&arguments) {
        Ok(true) => ExitCode::SUCCESS,
        Ok(false) => ExitCode::from(1),
        Err(message) => {
            eprintln!("{message}");
            ExitCode::from(2)
        }
    }
}

fn run(arguments: &[&str]) -> Verdict {
    let number = |word: &str| word.parse::<u64>().map_err(|error| format!("{word}: {error}"));
    let speed = |seed: &str, before: Option<&str>| {
        let seed = number(seed)?;
        let before = before.map(Loaded::open).transpose()?;
        speed::run(seed, before).map(|()| true).map_err(|refusal| refusal.to_string())
    };
    match *arguments {
        ["check", seed, cases] => {
            let check = library::CHECK.ok_or(NO_CHECK)?;
            let (seed, cases) = (number(seed)?, number(cases)?);
            let verdicts = ROOTS.map(|root| compare::run(root, seed, cases, |question| ask::check(check, question)));
            Ok(verdicts == [true; 2])
        }
        ["print", seed, cases] => {
            let calls = library::CALLS.ok_or(NO_CALLS)?;
            let (seed, cases) = (number(seed)?, number(cases)?);
            let verdicts = ROOTS.map(|root| {
                let print = calls.print(root);
                compare::run(root, seed, cases, |question| ask::print(print, calls.joined, question))
            });
            Ok(verdicts == [true; 2])
        }
        ["speed", seed] => speed(seed, None),
        ["speed", seed, before] => speed(seed, Some(before)),
        _ => Err(USAGE.to_owned()),
    }
}
