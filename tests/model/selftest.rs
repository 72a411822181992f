//! The model checked against document 01's worked cases and rules, and against its own laws.
//! Each check prints one line; the answer is false if any failed.

mod break_laws;
mod break_scripts;
mod breaks;
mod deactivation_laws;
mod deactivation_scripts;
mod deactivations;
mod desk;
mod interrogation_answers;
mod interrogation_reader;
mod interrogation_scripts;
mod interrogations;
mod laws;
mod layouts;
mod ledger;
mod move_laws;
mod move_scripts;
mod moves;
mod reading;
mod request_scripts;
mod requests;
mod script_lines;
mod scripts;
mod share_cases;
mod share_laws;
mod share_scripts;
mod share_variants;
mod shares;
mod writing;

use std::io::{self, Write};

pub struct Report<'a> {
    out: &'a mut dyn Write,
    all_good: bool,
}

impl<'a> Report<'a> {
    fn check(&mut self, what: &str, good: bool) -> io::Result<()> {
        self.all_good &= good;
        let verdict = if good { "good  " } else { "FAILED" };
        writeln!(self.out, "{verdict} {what}")
    }
}

pub fn selftest(out: &mut dyn Write) -> io::Result<bool> {
    let mut report = Report {
        out,
        all_good: true,
    };
    reading::check(&mut report)?;
    writing::check(&mut report)?;
    layouts::check(&mut report)?;
    desk::check(&mut report)?;
    moves::check(&mut report)?;
    move_laws::check(&mut report)?;
    requests::check(&mut report)?;
    deactivations::check(&mut report)?;
    shares::check(&mut report)?;
    interrogations::check(&mut report)?;
    breaks::check(&mut report)?;
    Ok(report.all_good)
}
