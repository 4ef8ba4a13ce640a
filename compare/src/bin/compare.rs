//! Compares a `replay` program with the independent implementation, and stores scripts for it.

use std::env;
use std::fs;
use std::path::Path;
use std::process::ExitCode;
use std::time::Instant;

use compare::comparison::{self, Disagreement, Settings};
use compare::document::shortcut::Shortcut;
use compare::{speed, stored};

const USAGE: &str = "\
compare run REPLAY [--seed N] [--commands N] [--fault N]
    compares the program REPLAY with the independent implementation; with --fault, a wrong
    program of this number, from 1, is planted in the latter, and the two must disagree
compare store DIRECTORY [--seed N]
    writes scripts to DIRECTORY/stdin and what they print to DIRECTORY/stdout
compare speed
    measures order lists, starts and runs
compare summary FILE..
    tells several such measurements by calls, for each row the middle one
compare places
    measures starts with the job's buffer and the image at every eighth byte of a page; wants the
    updater's library";

fn main() -> ExitCode {
    let arguments: Vec<String> = env::args().skip(1).collect();
    let words: Vec<&str> = arguments.iter().map(String::as_str).collect();
    let done = match words.as_slice() {
        ["run", replay, options @ ..] => run(replay, options),
        ["store", directory, options @ ..] => store(Path::new(directory), options),
        ["speed"] => {
            speed::measure();
            Ok(true)
        }
        ["summary", files @ ..] if !files.is_empty() => summary(files),
        #[cfg(feature = "linked")]
        ["places"] => {
            speed::measure_places();
            Ok(true)
        }
        _ => Err(USAGE.to_string()),
    };
    match done {
        Ok(true) => ExitCode::SUCCESS,
        Ok(false) => ExitCode::FAILURE,
        Err(message) => {
            eprintln!("{message}");
            ExitCode::from(2)
        }
    }
}

/// The number after an option, or its default.
fn option(options: &[&str], name: &str, default: u64) -> Result<u64, String> {
    let Some(at) = options.iter().position(|&word| word == name) else {
        return Ok(default);
    };
    let number = options.get(at + 1).and_then(|word| word.parse().ok());
    number.ok_or_else(|| format!("{name} wants a number"))
}

fn run(replay: &str, options: &[&str]) -> Result<bool, String> {
    let fault = option(options, "--fault", 0)?;
    let shortcut = Shortcut::numbered(fault as usize);
    if fault != 0 && shortcut.is_none() {
        return Err(format!("--fault wants a number from 1 to {}", Shortcut::ALL.len()));
    }
    let settings = Settings {
        replay: replay.into(),
        seed: option(options, "--seed", 1)?,
        commands: option(options, "--commands", 200_000)?,
        shortcut,
    };
    let began = Instant::now();
    let report = comparison::compare(&settings).map_err(|error| format!("{replay}: {error}"))?;
    println!("{}", report.tally);
    println!("{} lines compared in {:.1} s", report.lines_compared, began.elapsed().as_secs_f64());
    if let Some(first) = &report.first {
        print_disagreement(first)?;
    }
    println!("{} scripts disagree", report.scripts_disagreeing);
    let agree = report.scripts_disagreeing == 0;
    if let Some(shortcut) = shortcut {
        println!("planted: {shortcut:?}; {}", if agree { "NOT NOTICED" } else { "noticed" });
        return Ok(!agree);
    }
    let mut too_few = report.tally.too_few();
    if report.tally.accepted() < report.tally.refused() {
        too_few.push("less than half of the commands accepted".to_string());
    }
    for what in &too_few {
        println!("too few: {what}");
    }
    Ok(agree && too_few.is_empty() && report.tally.book_broken == 0)
}

fn print_disagreement(first: &Disagreement) -> Result<(), String> {
    let kept = env::temp_dir().join("compare-disagreement.txt");
    fs::write(&kept, comparison::concatenated(std::slice::from_ref(&first.script)))
        .map_err(|error| format!("{}: {error}", kept.display()))?;
    println!("first disagreement, in the script {}", kept.display());
    println!("  line {}: {}", first.line, first.script.lines[first.line - 1]);
    println!("  expected: {}", first.expected);
    println!("  printed:  {}", first.printed.as_deref().unwrap_or("(nothing)"));
    Ok(())
}

fn summary(files: &[&str]) -> Result<bool, String> {
    let read = |file: &&str| fs::read_to_string(file).map_err(|error| format!("{file}: {error}"));
    let texts: Vec<String> = files.iter().map(read).collect::<Result<_, _>>()?;
    speed::summarize(&texts);
    Ok(true)
}

fn store(directory: &Path, options: &[&str]) -> Result<bool, String> {
    let (scripts, tally) = stored::stored_scripts(option(options, "--seed", 1)?);
    let printed = comparison::expected(&scripts).into_iter().flatten();
    let printed: String = printed.flat_map(|(_, text)| [text, "\n".to_string()]).collect();
    let write = |name: &str, text: &str| {
        let path = directory.join(name);
        fs::write(&path, text).map_err(|error| format!("{}: {error}", path.display()))
    };
    write("stdin", &comparison::concatenated(&scripts))?;
    write("stdout", &printed)?;
    println!("{tally}");
    for what in tally.untried() {
        println!("not tried: {what}");
    }
    Ok(tally.untried().is_empty())
}
