//! `tree`: reads and writes trees as text, and explains refusals.

use std::io::Write;
use std::path::Path;
use std::process::ExitCode;
use tree::document::{all_blocks, filled};
use tree::explain::explain;
use tree::read::text_of;
use tree::table::all_words;
use tree::write::{tree_of, Tree};

const USAGE: &str = "\
tree write FILE FOLDER   makes tree.rec and names.txt in FOLDER of the readable text in FILE
tree check FILE FOLDER   says whether they are what FILE makes
tree read FOLDER         writes a folder's tree.rec and names.txt as readable text
tree explain FILE N P    says what `refused N at P` means for the tree in FILE
tree words               lists the words of all nodes, and the children of each
tree records             writes the tables of docs/RECORDS.md
tree records FILE        puts them into FILE, which has a place for each
tree help                writes this";

fn main() -> ExitCode {
    let arguments: Vec<String> = std::env::args_os().skip(1).map(|word| word.to_string_lossy().into_owned()).collect();
    let words: Vec<&str> = arguments.iter().map(String::as_str).collect();
    let done = match words[..] {
        ["write", file, folder] => write(file, Path::new(folder)),
        ["check", file, folder] => check(file, Path::new(folder)),
        ["read", folder] => read(Path::new(folder)),
        ["explain", file, number, place] => explained(file, number, place),
        ["words"] => say(&all_words()),
        ["records"] => say(&all_blocks()),
        ["records", file] => fill(file),
        ["help" | "--help" | "-h"] => say(&format!("{USAGE}\n")),
        _ => Err(USAGE.into()),
    };
    let Err(message) = done else { return ExitCode::SUCCESS };
    // Nothing is left to tell where even that can't be written.
    let _ = writeln!(std::io::stderr(), "{message}");
    ExitCode::FAILURE
}

/// Makes the files of a folder.
fn write(file: &str, folder: &Path) -> Result<(), String> {
    let tree = load(file)?;
    std::fs::create_dir_all(folder).map_err(|error| format!("{}: {error}", folder.display()))?;
    for (name, bytes) in files(&tree) {
        let path = folder.join(name);
        std::fs::write(&path, bytes).map_err(|error| format!("{}: {error}", path.display()))?;
    }
    Ok(())
}

/// Compares the files of a folder.
fn check(file: &str, folder: &Path) -> Result<(), String> {
    for (name, bytes) in files(&load(file)?) {
        let path = folder.join(name);
        if bytes_of(&path)? != bytes {
            return Err(format!("{} is not what {file} makes", path.display()));
        }
    }
    Ok(())
}

/// Writes a folder's tree as text. A names.txt that can't be opened counts as empty, as it does for the program
/// `print`.
fn read(folder: &Path) -> Result<(), String> {
    let names = bytes_of(&folder.join("names.txt")).unwrap_or_default();
    say(&text_of(&bytes_of(&folder.join("tree.rec"))?, &names))
}

/// Writes what a refusal means.
fn explained(file: &str, number: &str, place: &str) -> Result<(), String> {
    let parsed = |word: &str| word.parse().map_err(|_| format!("{word} is no number\n{USAGE}"));
    let lines = explain(&load(file)?, parsed(number)?, parsed(place)?)?;
    say(&(lines.join("\n") + "\n"))
}

/// Puts the tables into a document.
fn fill(file: &str) -> Result<(), String> {
    let document = std::fs::read_to_string(file).map_err(|error| format!("{file}: {error}"))?;
    let filled = filled(&document).map_err(|fault| format!("{file}: {fault}"))?;
    std::fs::write(file, filled).map_err(|error| format!("{file}: {error}"))
}

/// The tree of a file.
fn load(file: &str) -> Result<Tree, String> {
    let text = String::from_utf8(bytes_of(Path::new(file))?).map_err(|_| format!("{file} is no UTF-8 text"))?;
    tree_of(&text).map_err(|fault| format!("{file}, line {}: {}", fault.line, fault.message))
}

/// The files of a tree.
fn files(tree: &Tree) -> [(&'static str, Vec<u8>); 2] {
    [("tree.rec", tree.tree_bytes()), ("names.txt", tree.names.clone())]
}

fn bytes_of(path: &Path) -> Result<Vec<u8>, String> {
    std::fs::read(path).map_err(|error| format!("{}: {error}", path.display()))
}

fn say(text: &str) -> Result<(), String> {
    std::io::stdout().write_all(text.as_bytes()).map_err(|error| error.to_string())
}
