//! Scripts as they are written: each line is done at once, and what it must print is kept.

use crate::cases::arguments::{Cut, Inside};
use crate::cases::flash::Flash;
use crate::cases::tally::Tally;
use crate::document::commands::Command;
use crate::document::shortcut::Shortcut;
use crate::document::steps::Step;
use crate::replay::{hex, Answer, Session};

/// A line that a script must print, and the number of the script line that prints it, from 1.
#[derive(Clone, Debug, PartialEq, Eq)]
pub struct Printed {
    pub line: usize,
    pub text: String,
}

#[derive(Clone, Default)]
pub struct Script {
    pub lines: Vec<String>,
    pub printed: Vec<Printed>,
}

/// Writes a script, with a session beside it that has done its lines so far.
pub struct Writer<'a> {
    pub script: Script,
    pub session: Session,
    pub tally: &'a mut Tally,
}

impl<'a> Writer<'a> {
    pub fn new(tally: &'a mut Tally, shortcut: Option<Shortcut>) -> Writer<'a> {
        tally.scripts += 1;
        let session = Session { shortcut, ..Session::default() };
        Writer { script: Script::default(), session, tally }
    }

    pub fn build(&mut self, flash: &Flash) {
        self.tally.count_flash(flash.shape);
        for line in flash.lines() {
            self.line(line);
        }
    }

    /// Adds a line, which must be of the language, and returns its answer.
    pub fn line(&mut self, line: impl Into<String>) -> Answer {
        let line = line.into();
        let Ok(answer) = self.session.line(line.as_bytes()) else {
            panic!("a line of the generator is in error: {line}");
        };
        self.tally.count(&line, &answer, &self.session);
        self.script.lines.push(line);
        if answer != Answer::Nothing {
            let line = self.script.lines.len();
            let lines = answer.to_string();
            let printed = lines.split('\n').map(|text| Printed { line, text: text.to_string() });
            self.script.printed.extend(printed);
        }
        answer
    }

    pub fn start(&mut self, command: &Command) -> Answer {
        self.line(command_line(command))
    }

    /// Cuts the current job after some steps, perhaps inside an erase.
    pub fn cut(&mut self, cut: &Cut) {
        let steps = cut.steps;
        let job = self.session.job.as_ref().expect("a job to cut");
        let fits = job.fits(&self.session.image);
        let before_erase = fits && matches!(job.step_after(steps), Some(Step::Erase { .. }));
        let granule = job.granule() as u64;
        let wiped = |&(from, length): &(u64, u64)| from < granule && length > 0;
        let mut line = format!("cut {steps}");
        match &cut.inside {
            Inside::Nothing => {}
            Inside::Lowest(bytes) => {
                line += &format!(" {bytes}");
                self.tally.cuts_inside_an_erase += u64::from(before_erase && *bytes > 0);
            }
            Inside::Ranges(ranges) => {
                line = format!("torn {steps}");
                for (from, length) in ranges {
                    line += &format!(" {from} {length}");
                }
                self.tally.torn_erases += u64::from(before_erase && ranges.iter().any(wiped));
            }
        }
        self.line(line);
    }

    /// Adds a line that is in error, which ends the script.
    pub fn error(&mut self, line: &str) {
        assert!(self.session.line(line.as_bytes()).is_err(), "no error: {line}");
        self.tally.errors += 1;
        self.script.lines.push(line.to_string());
        let line = self.script.lines.len();
        self.script.printed.push(Printed { line, text: format!("error {line}") });
    }
}

fn command_line(command: &Command) -> String {
    match command {
        Command::Enable(slot) => format!("enable {slot}"),
        Command::Disable(slot) => format!("disable {slot}"),
        Command::Rename(slot, name) if name.is_empty() => format!("rename {slot}"),
        Command::Rename(slot, name) => format!("rename {slot} {}", hex(name)),
        Command::Create(length, name) if name.is_empty() => format!("create {length}"),
        Command::Create(length, name) => format!("create {length} {}", hex(name)),
        Command::Delete(slot) => format!("delete {slot}"),
        Command::Repair => "repair".to_string(),
    }
}
