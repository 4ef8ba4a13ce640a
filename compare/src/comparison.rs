//! Feeds random scripts to a `replay` program and compares every line that it prints.

use std::io::{self, Write};
use std::path::PathBuf;
use std::process::{Command, Stdio};

use crate::cases::errors::write_error;
use crate::cases::random::Random;
use crate::cases::scenario::write_script;
use crate::cases::script::{Script, Writer};
use crate::cases::tally::Tally;
use crate::document::shortcut::Shortcut;

/// Scripts that one process of `replay` gets; the last of them ends in an error.
const BATCH_SCRIPTS: usize = 30;

pub struct Settings {
    pub replay: PathBuf,
    pub seed: u64,
    pub commands: u64,
    pub shortcut: Option<Shortcut>,
}

/// The first line of a script at which the two disagree.
pub struct Disagreement {
    pub script: Script,
    /// Number of that line in the script, from 1.
    pub line: usize,
    pub expected: String,
    /// What `replay` printed; nothing if it had ended.
    pub printed: Option<String>,
}

#[derive(Default)]
pub struct Report {
    pub tally: Tally,
    pub lines_compared: u64,
    pub scripts_disagreeing: u64,
    pub first: Option<Disagreement>,
}

/// Compares until at least the wanted number of commands is tried.
pub fn compare(settings: &Settings) -> io::Result<Report> {
    let mut random = Random::new(settings.seed);
    let mut report = Report::default();
    while report.tally.commands() < settings.commands {
        let batch = write_batch(&mut random, &mut report.tally, settings.shortcut);
        let text = concatenated(&batch);
        let printed = printed_by(&settings.replay, text.as_bytes())?;
        compare_batch(batch, &printed, &mut report);
    }
    Ok(report)
}

fn write_batch(random: &mut Random, tally: &mut Tally, shortcut: Option<Shortcut>) -> Vec<Script> {
    let mut scripts = Vec::new();
    while scripts.len() < BATCH_SCRIPTS {
        let mut writer = Writer::new(tally, shortcut);
        if scripts.len() + 1 < BATCH_SCRIPTS {
            write_script(random, &mut writer);
        } else {
            write_error(random, &mut writer);
        }
        scripts.push(writer.script);
    }
    scripts
}

/// The lines of all scripts, one after the other.
pub fn concatenated(scripts: &[Script]) -> String {
    let lines = scripts.iter().flat_map(|script| &script.lines);
    lines.flat_map(|line| [line, "\n"]).collect()
}

/// What the concatenated scripts must print, with the number of the script line that prints it.
/// An `error` names the line counted from the first script's first.
pub fn expected(scripts: &[Script]) -> Vec<Vec<(usize, String)>> {
    let mut lines_before = 0;
    let mut all = Vec::new();
    for script in scripts {
        let printed = script.printed.iter().map(|printed| {
            let text = match printed.text.strip_prefix("error ") {
                Some(_) => format!("error {}", lines_before + printed.line),
                None => printed.text.clone(),
            };
            (printed.line, text)
        });
        all.push(printed.collect());
        lines_before += script.lines.len();
    }
    all
}

/// What a program prints when it is given this script.
fn printed_by(replay: &PathBuf, script: &[u8]) -> io::Result<String> {
    let mut command = Command::new(replay);
    let mut child = command.stdin(Stdio::piped()).stdout(Stdio::piped()).spawn()?;
    let mut input = child.stdin.take().expect("a pipe");
    let output = std::thread::scope(|scope| {
        // A program that ends at an error line leaves the rest unread.
        scope.spawn(move || drop(input.write_all(script)));
        child.wait_with_output()
    })?;
    Ok(String::from_utf8_lossy(&output.stdout).into_owned())
}

fn compare_batch(batch: Vec<Script>, printed: &str, report: &mut Report) {
    let mut lines = printed.split_terminator('\n');
    for (script, expected) in batch.iter().zip(expected(&batch)) {
        let mut disagreement = None;
        for (line, expected) in expected {
            let printed = lines.next();
            report.lines_compared += 1;
            if printed != Some(&expected) && disagreement.is_none() {
                let (script, printed) = (script.clone(), printed.map(str::to_string));
                disagreement = Some(Disagreement { script, line, expected, printed });
            }
        }
        if disagreement.is_some() {
            report.scripts_disagreeing += 1;
            report.first = report.first.take().or(disagreement);
        }
    }
    if let Some(extra) = lines.next() {
        report.scripts_disagreeing += 1;
        report.first = report.first.take().or_else(|| {
            let script = batch.last().cloned().unwrap_or_default();
            let line = script.lines.len();
            let expected = "the end of the output".to_string();
            Some(Disagreement { script, line, expected, printed: Some(extra.to_string()) })
        });
    }
}
