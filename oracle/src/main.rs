//! The program `oracle`: answers, checks and makes lines of questions (see `oracle::line` for their format), and tries whether
//! the joined question is exact, whether needed spaces are, and whether settings are only layout.

use oracle::{answer, exact, grow, layout, line, needed, sample};
use std::fmt::Display;
use std::fs::File;
use std::io::{self, BufRead, BufReader, BufWriter, Write};
use std::process::ExitCode;

const USAGE: &str = "\
usage: oracle answer               reads lines `Unit|Expr SETTINGS RECORDS NAMES`, writes them with TEXT and JOINED
       oracle check FILE           compares the lines of FILE, which have all six fields, with the oracle's answers
       oracle vectors SEED COUNT   writes COUNT random questions with their answers
       oracle exact RECORDS        tries whether the joined answer is yes exactly where splitting the text by longest
                                   match does not give its tokens, on all expressions of up to RECORDS records
       oracle needed RECORDS       tries on the same expressions whether texts with needed spaces split into their tokens,
                                   and into others without any one of these spaces
       oracle layout SEED CASES    tries on CASES grown units and as many expressions, and on those in which signs meet,
                                   whether settings change blanks alone, and which texts split into their tokens
       oracle sample Unit|Expr|Name SEED
       oracle sample State
                                   writes the sample that crates/replay replays (see `oracle::sample` for its format)
Bytes are in hex, - for none. JOINED is 0 or 1, and 2 for a unit. A field !N@P is refusal N at place P; a field ? says
that the Rust module must not be asked, since a float text is not what Rust's Display gives.";

/// Whether all that was compared agrees; an error is a message for the user.
type Verdict = Result<bool, String>;

fn main() -> ExitCode {
    let arguments: Vec<String> = std::env::args().skip(1).collect();
    let arguments: Vec<&str> = arguments.iter().map(String::as_str).collect();
    let verdict = match arguments[..] {
        ["answer"] => answer_lines(io::stdin().lock()),
        ["check", file] => check_file(file),
        ["vectors", seed, count] => vectors(seed, count),
        ["exact", records] => exact_up_to(records),
        ["needed", records] => needed_up_to(records),
        ["layout", seed, cases] => layout_of(seed, cases),
        ["sample", "State"] => write_bytes(&sample::states::file()),
        ["sample", asked, seed] => write_sample(asked, seed),
        _ => Err(USAGE.to_owned()),
    };
    match verdict {
        Ok(true) => ExitCode::SUCCESS,
        Ok(false) => ExitCode::from(1),
        Err(message) => {
            eprintln!("{message}");
            ExitCode::from(2)
        }
    }
}

/// `answer`: a line out for each line in.
fn answer_lines(input: impl BufRead) -> Verdict {
    let mut output = BufWriter::new(io::stdout().lock());
    for (number, line) in (1..).zip(input.lines()) {
        let question = line.map_err(message).and_then(|line| line::question(&line).map_err(message));
        let question = question.map_err(|message| format!("line {number}: {message}"))?;
        writeln!(output, "{}", line::answered(&question, &answer::answer(&question))).map_err(message)?;
    }
    output.flush().map_err(message)?;
    Ok(true)
}

/// `check`: says where a file's answers differ from the oracle's, and how many agree.
fn check_file(file: &str) -> Verdict {
    let input = File::open(file).map_err(|error| format!("{file}: {error}"))?;
    let mut output = BufWriter::new(io::stdout().lock());
    let (mut agreeing, mut all) = (0_usize, 0_usize);
    for line in BufReader::new(input).lines() {
        all += 1;
        let line = line.map_err(|error| format!("{file}: {error}"))?;
        let claim = line::claim(&line).map_err(|fault| format!("{file}, line {all}: {fault}"))?;
        match difference(&claim) {
            None => agreeing += 1,
            Some(difference) => writeln!(output, "line {all} differs\n{difference}").map_err(message)?,
        }
    }
    writeln!(output, "{agreeing} of {all} agree").and_then(|()| output.flush()).map_err(message)?;
    Ok(agreeing == all)
}

/// The claimed answer and the oracle's, where they differ.
fn difference(claim: &line::Claim<'_>) -> Option<String> {
    let oracle = line::answer_fields(&answer::answer(&claim.question));
    let same = oracle.iter().zip(claim.answer).all(|(oracle, claimed)| oracle.eq_ignore_ascii_case(claimed));
    (!same).then(|| format!("  file:   {}\n  oracle: {}", claim.answer.join(" "), oracle.join(" ")))
}

/// `vectors`: random questions with their answers.
fn vectors(seed: &str, count: &str) -> Verdict {
    let (seed, count) = (number(seed)?, number(count)?);
    let mut output = BufWriter::new(io::stdout().lock());
    for case in 0..count {
        let question = grow::question(seed, case);
        writeln!(output, "{}", line::answered(&question, &answer::answer(&question))).map_err(message)?;
    }
    output.flush().map_err(message)?;
    Ok(true)
}

/// `exact`: a line for each size, and the first texts that speak against the claim.
fn exact_up_to(records: &str) -> Verdict {
    let mut is_exact = true;
    println!("{:>8}{:>14}{:>14}{:>14}{:>8}{:>8}", "records", "expressions", "apart", "joined", "wrong", "unlike");
    for records in 1..=number(records)? {
        let found = exact::of_size(usize::try_from(records).map_err(message)?);
        let [apart, joined] = found.answers;
        let expressions = apart + joined;
        println!("{records:>8}{expressions:>14}{apart:>14}{joined:>14}{:>8}{:>8}", found.wrong, found.unlike);
        for example in &found.examples {
            println!("    {example}");
        }
        is_exact &= found.is_exact();
    }
    Ok(is_exact)
}

/// `needed`: two lines for each size, of TIGHT and of OPEN with needed spaces, and the first texts that speak against them.
fn needed_up_to(records: &str) -> Verdict {
    let mut is_good = true;
    println!(
        "{:>8}{:>9}{:>14}{:>14}{:>14}{:>10}{:>10}{:>8}",
        "records", "settings", "texts", "spaced", "spaces", "misread", "needless", "unlike"
    );
    for records in 1..=number(records)? {
        let found = needed::of_size(usize::try_from(records).map_err(message)?);
        for (name, found) in ["TIGHT", "OPEN"].iter().zip(found) {
            print!("{records:>8}{name:>9}{:>14}{:>14}{:>14}", found.texts, found.spaced, found.spaces);
            println!("{:>10}{:>10}{:>8}", found.misread, found.needless, found.unlike);
            for example in &found.examples {
                println!("    {example}");
            }
            is_good &= found.is_good();
        }
    }
    Ok(is_good)
}

/// `layout`: a line for each number and a column for each sort of tree, the first texts that speak against the claims, and the
/// numbers that are not what they must be.
fn layout_of(seed: &str, cases: &str) -> Verdict {
    let tried = layout::tried(number(seed)?, number(cases)?);
    let line =
        |name, fields: [String; 4]| println!("{name:<24}{}", fields.map(|field| format!("{field:>14}")).concat());
    line("", tried.each_ref().map(|(sort, _)| (*sort).to_owned()));
    for number in layout::NUMBERS {
        line(number.name, tried.each_ref().map(|(_, found)| (number.of)(found).to_string()));
    }
    let found = tried.iter().map(|(_, found)| found);
    for example in found.clone().flat_map(layout::Found::examples) {
        println!("    {example}");
    }
    let faults = layout::faults(found);
    for (name, number) in &faults {
        println!("{name}: must{} be 0", if *number == 0 { " not" } else { "" });
    }
    Ok(faults.is_empty())
}

/// `sample`: the file of what is asked and a seed.
fn write_sample(asked: &str, seed: &str) -> Verdict {
    let seed = number(seed)?;
    let file = match asked {
        "Name" => sample::names::file(seed),
        root => sample::file(line::read_root(root).map_err(message)?, seed),
    };
    write_bytes(&file)
}

fn write_bytes(bytes: &[u8]) -> Verdict {
    io::stdout().lock().write_all(bytes).map_err(message)?;
    Ok(true)
}

fn number(word: &str) -> Result<u64, String> {
    word.parse().map_err(|error| format!("{word}: {error}"))
}

/// An error's text.
fn message(error: impl Display) -> String {
    error.to_string()
}
